#!/usr/bin/env python3
"""Builds the library for WebAssembly, and writes the reading room as one file: zogwedu.html.

Usage: build_page.py [--module FILE]

The gate refuses crates for wasm64, so warc_page is one in a copy of the crates outside the checkout: its line of
crates.txt, and nothing else, is changed. The crates below it are those that the gate proves, and what it proved on this
machine is taken as it is. With --module, FILE is the module, and nothing is built.

The page holds DOMPurify, of Debian's package node-dompurify, the inflating part of pako, of node-pako, and the
tokenizer of css-tree, of node-css-tree, with their licences.
"""
from __future__ import annotations

import base64
import hashlib
import json
import re
import sys
from html.entities import html5

from proofs import Tree
from shared import TOP, read, version

MODULE = "warc_page"
SCRIPTS = (
    *(
        "shared.js",
        "elements.js",
        "members.js",
        "words.js",
        "library.js",
        "stored.js",
        "nodes.js",
        "allowed.js",
        "style.js",
        "view.js",
        "pageview.js",
        "overview.js",
    ),
    *("list.js", "texts.js", "selection.js", "room.js", "damage.js", "package.js", "body.js", "record.js", "begin.js"),
)
WORKER_SCRIPTS = (
    *("shared.js", "members.js", "search.js", "zip.js", "wacz.js", "unpack.js", "heads.js", "stored.js"),
    *("text_scan.js", "text_words.js", "text_query.js", "text_reader.js"),
    *("instance.js", "keeper.js", "helpers.js", "segments.js", "archive.js", "worker.js"),
)
POLICY = (
    "default-src 'none'; script-src '{hash}' 'wasm-unsafe-eval'; worker-src blob:; style-src 'unsafe-inline'; "
    "img-src blob: data:; font-src blob: data:; form-action 'none'; base-uri 'none'; "
    "require-trusted-types-for 'script'; trusted-types zogwedu-parser zogwedu-worker"
)
PURIFIER = "/usr/share/nodejs/dompurify/dist/purify.js"
NO_PURIFIER = f"{PURIFIER} isn't there: install Debian's package node-dompurify (apt-get install node-dompurify)"
INFLATER = "/usr/share/nodejs/pako/lib/zlib"
INFLATER_LICENCE = "/usr/share/doc/node-pako/copyright"
NO_INFLATER = "pako isn't there: install Debian's package node-pako (apt-get install node-pako)"
# Each part requires those before it.
INFLATER_PARTS = ("constants.js", "adler32.js", "crc32.js", "inffast.js", "inftrees.js", "zstream.js", "inflate.js")
INFLATED = "{zlib: {...parts['./inflate'], constants: parts['./constants']}, ZStream: parts['./zstream']}"
TOKENIZER = "/usr/share/nodejs/css-tree/cjs/tokenizer"
TOKENIZER_LICENCE = "/usr/share/doc/node-css-tree/copyright"
NO_TOKENIZER = "css-tree isn't there: install Debian's package node-css-tree (apt-get install node-css-tree)"
# The last one requires others too, and only hands on what they export: it gets none of them.
TOKENIZER_PARTS = ("types.cjs", "char-code-definitions.cjs", "utils.cjs", "index.cjs")
TOKENIZED = "{tokenize: parts['./index.cjs'].tokenize, tokenTypes: parts['./types.cjs']}"
AROUND_PARTS = """const {names} = (() => {{
const parts = {{}}, require = (name) => parts[name] ?? {{}};
const add = (name, make) => {{
  const module = {{exports: {{}}}};
  make(module, module.exports, require);
  parts[name] = module.exports;
}};
{parts}
return {result};
}})();
"""
AROUND_PART = """add('./{name}', (module, exports, require) => {{
{text}
}});
"""
# The script finds no window, so it makes no policy and touches no page: it gives a function that takes a window.
# Debian's 2.4.1-2+deb12u1 also reads a variable that it doesn't have, and fails at each call; here it finds an empty
# one.
AROUND_PURIFIER = """const createPurifier = ((exports, module, window, shadowNode) => {{
{}
return module.exports;
}})({{}}, {{exports: {{}}}}, undefined, {{}});
"""


def build_module() -> bytes:
    """Proves and builds the module."""
    tree = Tree("page")
    with tree.in_turn(), open(f"{tree.build_static(MODULE, 'wasm64')}/out/{MODULE}.wasm", "rb") as module:
        return module.read()


def debian(path: str, missing: str, has: str, has_not: str = "</?script") -> str:
    """The text of a file of a Debian package, which has one text, and has none that ends what the page puts it into."""
    try:
        with open(path, encoding="utf-8") as file:
            text = file.read()
    except OSError:
        sys.exit(missing)
    if has not in text or re.search(has_not, text, re.IGNORECASE):
        sys.exit(f"{path} isn't as it is expected")
    return text


def purifier() -> str:
    """DOMPurify, as a function that makes one for a window. Its own first line says whose it is, and its licence."""
    text = debian(PURIFIER, NO_PURIFIER, "@license DOMPurify")
    return AROUND_PURIFIER.format(re.sub(r"\n//# sourceMappingURL.*", "", text))


def of_parts(names: str, result: str, folder: str, parts: tuple[str, ...], missing: str) -> str:
    """Files of a Debian package, as the parts of one value with names."""
    texts = [(name, debian(f"{folder}/{name}", missing, "exports")) for name in parts]
    around = "".join(AROUND_PART.format(name=re.sub(r"\.js$", "", name), text=text) for name, text in texts)
    return AROUND_PARTS.format(names=names, parts=around, result=result)


def inflater() -> str:
    """The inflating part of pako, in whose files is their licence: zlib, and the ZStream that its calls take."""
    return of_parts("{zlib, ZStream}", INFLATED, INFLATER, INFLATER_PARTS, NO_INFLATER)


def tokenizer() -> str:
    """The tokenizer of css-tree, and the kinds of its tokens."""
    return of_parts("cssTree", TOKENIZED, TOKENIZER, TOKENIZER_PARTS, NO_TOKENIZER)


def joined(names: tuple[str, ...]) -> str:
    """Scripts of the page, as one after its first line."""
    return "\n".join(read(f"page/{name}").replace("'use strict';\n", "") for name in names)


def numbers() -> dict[str, list[str]]:
    """Name, meaning and advice of each number, from the tables of docs/NUMBERS.md."""
    rows = re.findall(r"^\| ([A-Z]\d+) \| (\w+) \| (.*) \| (.*) \|$", read("docs/NUMBERS.md"), re.M)
    return {number: [part.replace("\\|", "|") for part in parts] for number, *parts in rows}


def entities() -> str:
    """The references to characters that HTML names, as Python's table has them."""
    return f"const ENTITIES = {json.dumps(html5)};\n"


def quoted(value: object) -> str:
    """A value as JavaScript that no tag of HTML ends."""
    return json.dumps(value).replace("</", "<\\/").replace("<!--", "<\\!--")


def page(module: bytes) -> str:
    """The whole page."""
    zlib = inflater()
    names = {
        "MODULE": quoted(base64.b64encode(module).decode()),
        "WORKER": quoted(f"'use strict';\n{zlib}{entities()}{joined(WORKER_SCRIPTS)}"),
        "VERSION": quoted(version()),
        "NUMBERS": quoted(numbers()),
    }
    script: str = "".join(f"const {name} = {value};\n" for name, value in names.items())
    script = f"\n'use strict';\n{script}{purifier()}{zlib}{tokenizer()}{joined(SCRIPTS)}"
    digest = base64.b64encode(hashlib.sha256(script.encode()).digest()).decode()
    text: str = read("page/page.html").replace("/*POLICY*/", POLICY.format(hash=f"sha256-{digest}"))
    text = text.replace("/*STYLE*/", read("page/page.css")).replace("/*LICENCE*/", read("LICENSE-APACHE"))
    text = text.replace("/*LICENCE-OF-PAKO*/", debian(INFLATER_LICENCE, NO_INFLATER, "Expat", "--!?>"))
    text = text.replace("/*LICENCE-OF-CSS-TREE*/", debian(TOKENIZER_LICENCE, NO_TOKENIZER, "Expat", "--!?>"))
    return text.replace("/*SCRIPT*/", script)


def main() -> None:
    """Writes zogwedu.html."""
    given = sys.argv[2] if sys.argv[1:2] == ["--module"] else None
    if given:
        with open(given, "rb") as module:
            text = page(module.read())
    else:
        text = page(build_module())
    with open(f"{TOP}/zogwedu.html", "w", encoding="utf-8", newline="\n") as out:
        out.write(text)
    print(f"zogwedu.html is written: {len(text.encode()):,} bytes")


if __name__ == "__main__":
    main()
