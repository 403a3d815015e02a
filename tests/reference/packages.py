"""Makes ZIP files and WACZ packages for tests, byte by byte, so that each place in them can be made wrong."""
from __future__ import annotations

import hashlib
import json
import struct
import zlib
from typing import Any, Dict, List, Mapping, NamedTuple, Optional, Sequence, Tuple

NOTHING: Mapping[str, Any] = {}
STORED, DEFLATED = 0, 8
STREAMED = 1 << 3  # the flag of a head without sizes, which a descriptor follows
ONES = 0xFFFFFFFF


class Item(NamedTuple):
    """An entry: its name, its bytes, and what its two heads say otherwise than they should."""

    name: bytes
    data: bytes = b""
    method: int = STORED
    flags: int = 1 << 11
    local: Mapping[str, Any] = NOTHING
    central: Mapping[str, Any] = NOTHING


def deflated(data: bytes) -> bytes:
    """Bytes as an entry of method 8 has them."""
    packer = zlib.compressobj(9, zlib.DEFLATED, -15)
    return packer.compress(data) + packer.flush()


def _facts(item: Item, packed: bytes) -> Dict[str, Any]:
    """What both heads say."""
    return {
        "name": item.name,
        "flags": item.flags,
        "method": item.method,
        "crc": zlib.crc32(item.data),
        "packed": len(packed),
        "size": len(item.data),
        "extra": b"",
        "sign": b"PK\3\4",
    }


def _local(item: Item, packed: bytes) -> bytes:
    """An entry with its own head, and the descriptor after it."""
    its = _facts(item, packed)
    if item.flags & STREAMED:
        its.update(crc=0, packed=0, size=0)
    its.update(item.local)
    numbers = (20, its["flags"], its["method"], 0, 0, its["crc"], its["packed"], its["size"])
    head = struct.pack("<4s5H3I2H", its["sign"], *numbers, len(its["name"]), len(its["extra"]))
    after = struct.pack("<4s3I", b"PK\7\10", zlib.crc32(item.data), len(packed), len(item.data))
    return bytes(head + its["name"] + its["extra"] + packed + (after if item.flags & STREAMED else b""))


def _central(item: Item, packed: bytes, at: int) -> bytes:
    """The head of an entry in the directory."""
    its: Dict[str, Any] = {
        **_facts(item, packed),
        "disk": 0,
        "offset": at,
        "sign": b"PK\1\2",
        "comment": b"",
        **item.central,
    }
    numbers = (20, 20, its["flags"], its["method"], 0, 0, its["crc"], its["packed"], its["size"])
    sizes = (len(its["name"]), len(its["extra"]), len(its["comment"]))
    head = struct.pack("<4s6H3I5H2I", its["sign"], *numbers, *sizes, its["disk"], 0, 0, its["offset"])
    return bytes(head + its["name"] + its["extra"] + its["comment"])


def zip_of(items: Sequence[Item], **said: Any) -> bytes:
    """A ZIP of entries. `said` is what its end says otherwise: `here`, `entries`, `length`, `offset`, `disk`,
    `directory_disk` and `comment`; `wide` is what the end of ZIP64 says, where there is to be one, and `locator` where
    it says that this is; `before_end` are bytes after the directory."""
    parts: List[bytes] = []
    central: List[bytes] = []
    at = 0
    for item in items:
        packed = deflated(item.data) if item.method == DEFLATED else item.data
        central.append(_central(item, packed, at))
        parts.append(_local(item, packed))
        at += len(parts[-1])
    out, heads = b"".join(parts), b"".join(central)
    right = {"disk": 0, "directory_disk": 0, "here": len(items), "entries": len(items)}
    right.update(length=len(heads), offset=len(out))
    out += heads + said.get("before_end", b"")
    if "wide" in said:
        out += _wide_end({**right, **said["wide"]}, len(out), said)
    its: Dict[str, Any] = {**right, **said}
    comment = its.get("comment", b"")
    numbers = [its[name] for name in right]
    end = struct.pack("<4s4H2IH", b"PK\5\6", *numbers, its.get("comment_length", len(comment)))
    return bytes(out + end + comment)


def _wide_end(its: Mapping[str, Any], at: int, said: Mapping[str, Any]) -> bytes:
    """The end of ZIP64 and its locator."""
    places = ("disk", "directory_disk", "here", "entries", "length", "offset")
    end = struct.pack("<4sQ2H2I4Q", b"PK\6\6", its.get("rest", 44), 45, 45, *(its[name] for name in places))
    return end + struct.pack("<4sIQI", b"PK\6\7", its.get("of_disk", 0), said.get("locator", at), its.get("disks", 1))


def wide_field(*numbers: int) -> bytes:
    """The field of ZIP64 among the extra fields of a head."""
    return struct.pack(f"<2H{len(numbers)}Q", 1, 8 * len(numbers), *numbers)


def hash_of(data: bytes) -> str:
    """The hash that a package states of a file."""
    return "sha256:" + hashlib.sha256(data).hexdigest()


def page_line(url: str, instant: Optional[str] = None, **more: Any) -> bytes:
    """A line of pages.jsonl."""
    said = {"url": url, **({"ts": instant} if instant else {}), **more}
    return json.dumps(said).encode() + b"\n"


HEAD_OF_PAGES = b'{"format": "json-pages-1.0", "id": "pages", "title": "All Pages", "hasText": true}\n'


def files_of(archives: Mapping[str, bytes], pages: bytes = b"", **said: Any) -> List[Tuple[str, bytes]]:
    """The files of a package. `wrong` names those whose hash is to be a wrong one, `unlisted` those that aren't listed,
    `missing` those that are listed alone; the rest of `said` is what datapackage.json says more."""
    files = [(f"archive/{name}", data) for name, data in archives.items()]
    files += [("pages/pages.jsonl", HEAD_OF_PAGES + pages)] if pages else []
    wrong, unlisted, missing = (said.pop(name, ()) for name in ("wrong", "unlisted", "missing"))
    listed = [(name, data) for name, data in files if name not in unlisted] + [(name, b"") for name in missing]
    resources = [
        {
            "name": name.rpartition("/")[2],
            "path": name,
            "hash": hash_of(data + b"x" if name in wrong else data),
            "bytes": len(data),
        }
        for name, data in listed
    ]
    whole = {"profile": "data-package", "resources": resources, "wacz_version": "1.1.1", **said}
    datapackage = json.dumps(whole).encode()
    digest = json.dumps({"path": "datapackage.json", "hash": hash_of(datapackage)}).encode()
    return [*files, ("datapackage.json", datapackage), ("datapackage-digest.json", digest)]


def wacz_of(archives: Mapping[str, bytes], pages: bytes = b"", streamed: bool = False, **said: Any) -> bytes:
    """A package of archives, by their names: as py-wacz writes it, or as a writer of streams does."""
    return packed_files(files_of(archives, pages, **said), streamed)


def packed_files(files: Sequence[Tuple[str, bytes]], streamed: bool = False) -> bytes:
    """Files in a ZIP. JSON is deflated, unless the ZIP is streamed."""
    flags = 1 << 11 | (STREAMED if streamed else 0)
    items = []
    for name, data in files:
        is_stored = streamed or name.endswith((".gz", ".warc", ".wacz"))
        items.append(Item(name.encode(), data, STORED if is_stored else DEFLATED, flags))
    return zip_of(items)
