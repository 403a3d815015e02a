"""Lists of checksums: those of sha256sum and md5sum, and BagIt's manifests."""
from __future__ import annotations

import hashlib
import os
import shutil
import subprocess
import sys
from typing import Any, Dict, List

import pytest
from conftest import PROJECT, URI, Collection, later, lines, put, record, to_read

sys.path.insert(0, os.path.join(PROJECT, "collection"))
ODD = (b"plain.warc", b"two\nlines.warc", b"back\\slash.warc", b" \xff spaces .warc", b"50%0A.warc")


def sums(program: str, *paths: str) -> bytes:
    """What a program of coreutils writes of files."""
    return subprocess.run([program, "--", *paths], stdout=subprocess.PIPE, check=True).stdout


def sha256(path: str) -> bytes:
    with open(path, "rb") as file:
        return hashlib.sha256(file.read()).hexdigest().encode()


def read(path: str) -> Dict[Any, str]:
    from zogwedu_collection.manifest import read_manifest

    return read_manifest(path)


@pytest.mark.parametrize("program, algorithm", [("sha256sum", "sha256"), ("md5sum", "md5"), ("sha512sum", "sha512")])
@pytest.mark.parametrize("option", ["--text", "--binary", "--tag", "--zero"])
def test_what_coreutils_write(tmp_path: Any, program: str, algorithm: str, option: str) -> None:
    paths = [put(os.fsdecode(os.path.join(os.fsencode(tmp_path), name)), name) for name in ODD]
    data = subprocess.run([program, option, "--", *paths], stdout=subprocess.PIPE, check=True).stdout
    wanted = {(path, algorithm): hashlib.new(algorithm, name).hexdigest() for path, name in zip(paths, ODD)}
    assert read(put(str(tmp_path / "sums"), b"# made by hand\n\n" if option != "--zero" else b"", data)) == wanted


def test_names_are_of_the_folder_of_the_list(tmp_path: Any) -> None:
    digest = b"A" * 64
    found = read(put(str(tmp_path / "sums"), digest + b"  sub/a.warc\n" + digest + b" */b.warc\n"))
    assert found == {(str(tmp_path / "sub/a.warc"), "sha256"): "a" * 64, ("/b.warc", "sha256"): "a" * 64}


@pytest.mark.parametrize("algorithm, digits", [("md5", 32), ("sha256", 64), ("sha512", 128)])
def test_a_manifest_of_bagit(tmp_path: Any, algorithm: str, digits: int) -> None:
    """Line ends and percent signs of names are escaped, and nothing else is."""
    digest = b"0" * digits
    text = b"%s  data/a%%0Ab%%0dc%%25d%%41\\n.warc\r\n%s\t*data/b.warc\r%s data/c d.warc"
    found = read(put(str(tmp_path / ("manifest-%s.txt" % algorithm)), text % (digest, digest, digest)))
    names = ["a\nb\rc%d%41\\n.warc", "b.warc", "c d.warc"]
    assert list(found) == [(str(tmp_path / "data" / name), algorithm) for name in names]


@pytest.mark.parametrize(
    "name, line",
    [
        ("sums", b"garbage"),
        ("sums", b"0" * 64 + b" x"),
        ("sums", b"0" * 63 + b"  a.warc"),
        ("sums", b"g" * 64 + b"  a.warc"),
        ("sums", b"\\" + b"0" * 64 + b"  a\\tb.warc"),
        ("sums", b"\\" + b"0" * 64 + b"  a\\"),
        ("sums", b"SHA256 (a.warc) = " + b"0" * 32),
        ("manifest-sha256.txt", b"0" * 32 + b" data/a.warc"),
        ("manifest-sha3256.txt", b"0" * 64 + b" data/a.warc"),
        ("manifest-sha256.txt", b"0" * 64 + b" /etc/a.warc"),
        ("manifest-sha256.txt", b"0" * 64 + b" data/../../a.warc"),
        ("manifest-sha256.txt", b"0" * 64),
    ],
)
def test_a_bad_line_is_named(tmp_path: Any, name: str, line: bytes) -> None:
    good = b"1" * 64 + b"  good.warc\n" if name == "sums" else b"\n"
    with pytest.raises(ValueError, match="^line 2: "):
        read(put(str(tmp_path / name), good + line + b"\n"))


def test_two_checksums_of_one_file(tmp_path: Any) -> None:
    text = b"1" * 64 + b"  a.warc\n" + b"1" * 64 + b"  ./a.warc\n"
    assert len(read(put(str(tmp_path / "sums"), text))) == 1
    with pytest.raises(ValueError, match="^line 3: another checksum"):
        read(put(str(tmp_path / "sums"), text + b"2" * 64 + b"  a.warc\n"))


def two(collection: Collection) -> List[str]:
    return [collection.pages("disk/%s.warc" % name, count) for name, count in (("a", 1), ("b", 2))]


def test_a_night_with_a_list(collection: Collection) -> None:
    """What differs is altered from the first night on, and what isn't there is gone."""
    a, b = two(collection)
    collection.put("disk/other.txt", b"a file that is no archive")
    text = sums("md5sum", a, b).replace(b"  " + os.fsencode(b), b"  " + os.fsencode(collection.path("disk/gone.warc")))
    lost = b"  ".join([b"0" * 64, os.fsencode(b)]) + b"\n" + b"0" * 64 + b"  disk/other.txt\n"
    manifest = collection.put("sums", text + lost)
    done = collection.night("--manifest", "sums", "disk")
    assert done.returncode == 1, done.stderr
    assert b"sums: 1 checksum of files that aren't archives" in done.stderr
    assert collection.states() == {"a.warc": "good", "b.warc": "altered", "gone.warc": "gone"}
    assert collection.detail("b.warc") == "its SHA-256 isn't that in " + manifest
    assert collection.run("find", URI + "1").returncode == 1, "nothing is answered from an altered file"
    assert "manifest\t%s\t" % manifest in "\n".join(lines(collection.run("status")))
    done = collection.night()
    assert done.returncode == 1 and to_read(done) == 0
    assert collection.states() == {"a.warc": "good", "b.warc": "altered", "gone.warc": "gone"}
    put(b, record(1))
    put(manifest, sums("sha256sum", a, b))
    assert collection.night().returncode == 1, "the list doesn't name it any more, and its folder isn't named"
    assert collection.states() == {"a.warc": "good", "b.warc": "good", "gone.warc": "gone"}
    assert collection.run("forget", collection.path("disk/gone.warc")).returncode == 0
    assert collection.night().returncode == 0


def test_a_list_of_files_that_were_read_before(collection: Collection) -> None:
    """They are read once more, since their bytes were never compared; and each time that they are read."""
    a, b = two(collection)
    assert collection.night("disk").returncode == 0
    collection.put("sums", sums("sha256sum", a), b"0" * 64 + b"  " + os.fsencode(b) + b"\n")
    done = collection.night("--manifest", "sums")
    assert (done.returncode, to_read(done)) == (1, 2)
    assert collection.states() == {"a.warc": "good", "b.warc": "altered"}
    assert to_read(collection.night()) == 0
    assert collection.run("accept", b).returncode == 0
    assert collection.states()["b.warc"] == "good"
    assert collection.night("--all").returncode == 0, "an accepted file isn't altered again"
    put(b, record(7))
    later(b)
    assert collection.night().returncode == 1
    assert collection.states()["b.warc"] == "altered"


def test_an_altered_file_is_accepted_from_the_first(collection: Collection) -> None:
    a, _ = two(collection)
    collection.put("sums", b"0" * 64 + b"  " + os.fsencode(a) + b"\n")
    assert collection.night("--manifest", "sums", "disk").returncode == 1
    assert collection.run("accept", a).returncode == 0
    assert collection.states() == {"a.warc": "good", "b.warc": "good"}
    assert collection.ask("SELECT records_before, records_now FROM accepted") == [(None, 1)]
    assert collection.run("replay", URI + "0", "9999").stdout == b"page 0"
    assert collection.night("--all").returncode == 0


def test_a_bad_line_changes_nothing(collection: Collection) -> None:
    a, b = two(collection)
    manifest = collection.put("sums", sums("sha256sum", a), b"garbage\n")
    done = collection.night("--manifest", "sums", "disk")
    assert done.returncode == 2 and b"--manifest: sums: line 2: not a checksum and a name: garbage" in done.stderr
    assert not os.path.exists(collection.path("catalogue", "report.html"))
    put(manifest, sums("sha256sum", a))
    assert collection.night("--manifest", "sums", "disk").returncode == 0
    put(manifest, b"garbage\n")
    put(a, record(1))
    later(a)
    done = collection.night()
    assert done.returncode == 3 and collection.states() == {"a.warc": "altered", "b.warc": "good"}
    assert [line for line in lines(done) if "line 1: not a checksum and a name" in line]
    assert "SHA-256 isn't that in" in collection.detail("a.warc"), "what was stated before stays"


def test_a_bag(collection: Collection) -> None:
    paths = [collection.pages(os.path.join("bag", "data", os.fsdecode(name)), 1) for name in ODD]
    names = [name.replace(b"%", b"%25").replace(b"\n", b"%0A") for name in ODD]
    bag = [b"%s  data/%s\n" % (sha256(path), name) for path, name in zip(paths, names)]
    collection.put("bag/manifest-sha256.txt", *bag, b"0" * 64 + b" data/lost.warc\n")
    assert collection.night("--manifest", "bag/manifest-sha256.txt").returncode == 1
    states = collection.states()
    assert states.pop("lost.warc") == "gone"
    assert len(states) == len(ODD) and set(states.values()) == {"good"}


def test_a_list_over_a_disk_that_is_not_mounted(collection: Collection) -> None:
    """Its files keep their states, as those of a folder do."""
    paths = [collection.pages("disk/%d.warc" % number, 1) for number in range(12)]
    collection.put("sums", sums("sha256sum", *paths))
    assert collection.night("--manifest", "sums").returncode == 0
    os.rename(collection.path("disk"), collection.path("off"))
    assert collection.night().returncode == 3
    assert set(collection.states().values()) == {"good"}
    assert collection.night("--allow-missing").returncode == 1
    assert set(collection.states().values()) == {"gone"}


def test_a_file_that_was_moved_is_missing_where_the_list_has_it(collection: Collection) -> None:
    a, b = two(collection)
    collection.put("sums", sums("sha256sum", a))
    assert collection.night("--manifest", "sums", "disk").returncode == 0
    os.rename(a, collection.path("disk/moved a.warc"))
    os.rename(b, collection.path("disk/moved b.warc"))
    assert collection.night().returncode == 1
    assert collection.states() == {"a.warc": "gone", "moved a.warc": "good", "moved b.warc": "good"}


def test_the_end_of_a_list(collection: Collection) -> None:
    a, b = two(collection)
    collection.put("sums", sums("sha256sum", a, b))
    assert collection.night("--manifest", "sums").returncode == 0
    assert collection.run("forget", "sums").returncode == 0
    assert collection.states() == {} and collection.ask("SELECT count(*) FROM stated") == [(0,)]


def test_an_exported_list(collection: Collection) -> None:
    for name in ODD:
        collection.put(os.path.join("disk", os.fsdecode(name)), record(1, name))
    altered = collection.pages("disk/altered.warc", 2)
    before = sha256(altered)
    assert collection.night("disk").returncode == 0
    done = collection.run("export", "--manifest", "sums")
    assert done.returncode == 1 and b"6 files without a SHA-256" in done.stderr
    assert collection.night("--digest").returncode == 0
    collection.pages("disk/altered.warc", 1)
    later(altered)
    assert collection.night("--digest").returncode == 1
    assert collection.run("export", "--manifest", "sums").returncode == 0
    check = subprocess.run(
        ["sha256sum", "--check", "--quiet", "sums"], cwd=collection.folder, capture_output=True, check=False
    )
    assert check.stdout == b"%s: FAILED\n" % os.fsencode(altered), check.stderr
    found = read(collection.path("sums"))
    assert len(found) == len(ODD) + 1 and found[altered, "sha256"].encode() == before
    shutil.rmtree(collection.path("catalogue"))
    assert collection.night("--manifest", "sums", "disk").returncode == 1
    assert [name for name, state in collection.states().items() if state != "good"] == ["altered.warc"]
    assert collection.run("export").returncode == 2
