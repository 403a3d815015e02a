"""Bytes of a page as text, by the charset that a browser takes: its mark, its type, or its own beginning.

The page of zogwedu.html chooses in the same way (`textOf` of page/stored.js). Only the labels of the Encoding Standard
count: Python's own codecs have others, such as `utf-7`, `rot13` and `zlib_codec`, and what a page says must not reach
them.
"""
from __future__ import annotations

import codecs
import re
from typing import Dict, Optional, Tuple

from .scan import metas

MOST_OF_META = 16_384  # bytes in which a page names its charset
IN_TYPE = re.compile(r"[;\s]charset\s*=\s*[\"']?\s*([^\s\"';]+)", re.IGNORECASE)
IN_CONTENT = re.compile(r"charset\s*=\s*(?:\"([^\"]*)\"|'([^']*)'|([^\s;\"']+))", re.IGNORECASE)
IN_DECLARATION = re.compile(r"\s*<\?xml[^>]*?\sencoding\s*=\s*[\"']([^\"'>]+)", re.IGNORECASE)
MEDIA_TYPE = re.compile(r"[a-z0-9.+-]+/[a-z0-9.+-]+")
AS_HTML = re.compile(r"\s*<(?:!doctype html|html|title)", re.IGNORECASE)
HTML = ("text/html", "application/xhtml+xml")
PLAIN = "text/plain"
MARKS = ((b"\xef\xbb\xbf", "utf_8"), (b"\xfe\xff", "utf_16_be"), (b"\xff\xfe", "utf_16_le"))
USER_DEFINED = "x-user-defined"
# The labels by Python's codecs, of which those of Windows decode what browsers do. `hz-gb-2312` and the charsets of
# ISO 2022 but the Japanese one are labels of no charset, since their bytes can hide markup.
LABELS = {
    "utf_8": "unicode-1-1-utf-8 unicode11utf8 unicode20utf8 utf-8 utf8 x-unicode20utf8",
    "cp866": "866 cp866 csibm866 ibm866",
    "iso8859_2": "csisolatin2 iso-8859-2 iso-ir-101 iso8859-2 iso88592 iso_8859-2 iso_8859-2:1987 l2 latin2",
    "iso8859_3": "csisolatin3 iso-8859-3 iso-ir-109 iso8859-3 iso88593 iso_8859-3 iso_8859-3:1988 l3 latin3",
    "iso8859_4": "csisolatin4 iso-8859-4 iso-ir-110 iso8859-4 iso88594 iso_8859-4 iso_8859-4:1988 l4 latin4",
    "iso8859_5": "csisolatincyrillic cyrillic iso-8859-5 iso-ir-144 iso8859-5 iso88595 iso_8859-5 iso_8859-5:1988",
    "iso8859_6": "arabic asmo-708 csiso88596e csiso88596i csisolatinarabic ecma-114 iso-8859-6 iso-8859-6-e"
    " iso-8859-6-i iso-ir-127 iso8859-6 iso88596 iso_8859-6 iso_8859-6:1987",
    "iso8859_7": "csisolatingreek ecma-118 elot_928 greek greek8 iso-8859-7 iso-ir-126 iso8859-7 iso88597 iso_8859-7"
    " iso_8859-7:1987 sun_eu_greek",
    "iso8859_8": "csiso88598e csisolatinhebrew hebrew iso-8859-8 iso-8859-8-e iso-ir-138 iso8859-8 iso88598 iso_8859-8"
    " iso_8859-8:1988 visual csiso88598i iso-8859-8-i logical",
    "iso8859_10": "csisolatin6 iso-8859-10 iso-ir-157 iso8859-10 iso885910 l6 latin6",
    "iso8859_13": "iso-8859-13 iso8859-13 iso885913",
    "iso8859_14": "iso-8859-14 iso8859-14 iso885914",
    "iso8859_15": "csisolatin9 iso-8859-15 iso8859-15 iso885915 iso_8859-15 l9",
    "iso8859_16": "iso-8859-16",
    "koi8_r": "cskoi8r koi koi8 koi8-r koi8_r",
    "koi8_u": "koi8-ru koi8-u",
    "mac_roman": "csmacintosh mac macintosh x-mac-roman",
    "cp874": "dos-874 iso-8859-11 iso8859-11 iso885911 tis-620 windows-874",
    "cp1250": "cp1250 windows-1250 x-cp1250",
    "cp1251": "cp1251 windows-1251 x-cp1251",
    "cp1252": "ansi_x3.4-1968 ascii cp1252 cp819 csisolatin1 ibm819 iso-8859-1 iso-ir-100 iso8859-1 iso88591"
    " iso_8859-1 iso_8859-1:1987 l1 latin1 us-ascii windows-1252 x-cp1252",
    "cp1253": "cp1253 windows-1253 x-cp1253",
    "cp1254": "cp1254 csisolatin5 iso-8859-9 iso-ir-148 iso8859-9 iso88599 iso_8859-9 iso_8859-9:1989 l5 latin5"
    " windows-1254 x-cp1254",
    "cp1255": "cp1255 windows-1255 x-cp1255",
    "cp1256": "cp1256 windows-1256 x-cp1256",
    "cp1257": "cp1257 windows-1257 x-cp1257",
    "cp1258": "cp1258 windows-1258 x-cp1258",
    "mac_cyrillic": "x-mac-cyrillic x-mac-ukrainian",
    "gb18030": "chinese csgb2312 csiso58gb231280 gb18030 gb2312 gb_2312 gb_2312-80 gbk iso-ir-58 x-gbk",
    "big5hkscs": "big5 big5-hkscs cn-big5 csbig5 x-x-big5",
    "euc_jp": "cseucpkdfmtjapanese euc-jp x-euc-jp",
    "iso2022_jp_ext": "csiso2022jp iso-2022-jp",
    "cp932": "csshiftjis ms932 ms_kanji shift-jis shift_jis sjis windows-31j x-sjis",
    "cp949": "cseuckr csksc56011987 euc-kr iso-ir-149 korean ks_c_5601-1987 ks_c_5601-1989 ksc5601 ksc_5601"
    " windows-949",
    "utf_16_be": "unicodefffe utf-16be",
    "utf_16_le": "csunicode iso-10646-ucs-2 ucs-2 unicode unicodefeff utf-16 utf-16le",
    USER_DEFINED: USER_DEFINED,
}
CODECS = {label: name for name, labels in LABELS.items() for label in labels.split(" ")}
# What Python's tables lack of those of the standard.
OF_BYTES: Dict[str, Dict[int, str]] = {
    "koi8_u": {0xAE: "\u045e", 0xBE: "\u040e"},
    "cp1255": {0xCA: "\u05ba"},
}
USED = {byte: chr(0xF700 + byte) for byte in range(0x80, 0x100)}


def codec_of(label: Optional[str]) -> Optional[str]:
    """How a charset is decoded, by its label; None for one that browsers don't know."""
    return CODECS.get((label or "").strip("\t\n\f\r ").lower())


def in_place(error: UnicodeError) -> Tuple[str, int]:
    """What a byte means that Python's codec refuses: of a charset of Windows a control character below 0xA0, of
    EUC-JP what Windows has in that place of the table, and of GBK the sign of the euro."""
    assert isinstance(error, UnicodeDecodeError)
    first = error.object[error.start]
    pair = error.object[error.start : error.start + 2]
    if error.encoding == "euc_jp" and len(pair) == 2 and min(pair) > 0xA0:
        row, place = divmod(first - 0xA1, 2)
        lead = row + (0x81 if row < 31 else 0xC1)
        trail = pair[1] - 2 if place else pair[1] - 0x61 + (pair[1] > 0xDF)
        return bytes([lead, trail]).decode("cp932", "replace"), error.start + 2
    if error.encoding == "gb18030" and first == 0x80:
        return "\u20ac", error.start + 1
    is_single = error.encoding == "charmap" and 0x80 <= first < 0xA0
    return (chr(first) if is_single else "\ufffd"), error.end


codecs.register_error("zogwedu.in_place", in_place)


def decoded(body: bytes, codec: str) -> str:
    """A body as text. What is no character becomes U+FFFD."""
    if codec == USER_DEFINED:
        return body.decode("latin-1").translate(USED)
    if codec in OF_BYTES and any(byte in body for byte in OF_BYTES[codec]):
        table = (OF_BYTES[codec].get(byte) or decoded_byte(byte, codec) for byte in range(256))
        return body.decode("latin-1").translate(dict(enumerate(table)))
    return body.decode(codec, "zogwedu.in_place")


def decoded_byte(byte: int, codec: str) -> str:
    return bytes([byte]).decode(codec, "zogwedu.in_place")


def media_of(kind: str, body: bytes, is_named_as_text: bool = False) -> str:
    """What a body is, by its content type, of several the last one; without one by its first bytes."""
    for name in reversed(kind.lower().split(",")):
        name = name.split(";")[0].strip()
        if MEDIA_TYPE.fullmatch(name):
            return name
    front = body[:256].decode("latin-1").lstrip()
    if AS_HTML.match(front):
        return HTML[0]
    if body.startswith((b"\xff\xd8", b"\x89PNG", b"GIF8")):
        return "image/*"
    is_text = is_named_as_text or not re.search(r"[\x00-\x08]", front)
    return PLAIN if is_text else "application/octet-stream"


def codec_in_meta(front: str) -> Optional[str]:
    """How a page is decoded by the first of its elements `meta` that names a charset which browsers know."""
    for meta in metas(front):
        found = codec_of(meta.get("charset"))
        if found is None and meta.get("http-equiv", "").lower() == "content-type":
            named = IN_CONTENT.search(meta.get("content", ""))
            found = codec_of(next(filter(None, named.groups()), None)) if named else None
        if found is not None:
            return found
    return None


def codec_in(front: str, media: str) -> Optional[str]:
    """How a body is decoded by what its own beginning names. It names it in ASCII, so it isn't UTF-16."""
    is_page = media in HTML
    declared = IN_DECLARATION.match(front) if is_page or media.endswith("xml") else None
    found = (codec_in_meta(front) if is_page else None) or codec_of(declared[1] if declared else None)
    return "utf_8" if found in ("utf_16_be", "utf_16_le") else found


def codec_for(body: bytes, kind: str, media: str) -> Tuple[Optional[str], int]:
    """How a body is decoded, and how many bytes its mark has. None where nothing names a charset that is known."""
    for mark, codec in MARKS:
        if body.startswith(mark):
            return codec, len(mark)
    stated = (IN_TYPE.search(it) for it in reversed(kind.split(",")))
    label = next((it[1] for it in stated if it), None)
    return codec_of(label) or codec_in(body[:MOST_OF_META].decode("latin-1"), media), 0


def text_of(body: bytes, kind: str) -> str:
    """A body as text, by its content type. If nothing names a charset that is known, it is UTF-8 if all of it is."""
    codec, begin = codec_for(body, kind, media_of(kind, body))
    if codec is not None:
        return decoded(body[begin:], codec)
    try:
        return body.decode("utf-8")
    except UnicodeDecodeError:
        return decoded(body, "cp1252")
