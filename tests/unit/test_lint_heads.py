"""The lint finds heads that are read by hand, and nothing of the tree."""
from __future__ import annotations

import os
from typing import Any, List

import lint_heads
import pytest

TOP = os.path.dirname(os.path.dirname(os.path.dirname(os.path.abspath(__file__))))
OF_PAGE = r"""
// 'WARC-Date' in a comment, and /\r\n/ too.
const lines = head.split('\r\n');
const [first] = /^(?:\r?\n)*/.exec(front), odd = /[\s"']/, quoted = "it's", half = size / 2;
if (!/^HTTP\/1\.[01] \d{3}/.test(first)) return null;
return field(`WARC-Type: ${kind}`) ?? fields.get('content-length');
"""
OF_PYTHON = r'''
"""WARC-Type, and \r\n, as a text that explains."""
END = re.compile(rb"\r\n(?![ \t])")  # "WARC-Date"
def kind(head: bytes) -> bytes:
    """WARC-Type."""
    if head.startswith((b"HTTP/1.1 ", b"warc-collection")):
        return head.split(b"\r\n")[0]
    return fields[b"Content-Length"] + f"WARC-{kind}"
'''


@pytest.mark.parametrize(
    "name, source, lines",
    [("a.js", OF_PAGE, [3, 4, 5, 6, 6]), ("a.py", OF_PYTHON, [3, 6, 7, 8, 8])],
    ids=("page", "python"),
)
def test_what_it_finds(name: str, source: str, lines: List[int]) -> None:
    assert sorted(line for line, _ in lint_heads.found_in(name, source)) == lines


def test_the_tree_has_none() -> None:
    assert list(lint_heads.findings(TOP)) == []


def test_a_new_one_is_reported(tmp_path: Any, monkeypatch: pytest.MonkeyPatch, capsys: Any) -> None:
    """In a file of another folder, and where a file has a reason for another text; and a reason without its text."""
    monkeypatch.setattr(lint_heads, "NAMED", {"page/a.js": {"WARC-Date": "", "WARC-Gone": ""}})
    for path, text in (("page/a.js", "f('WARC-Date', 'WARC-Type')"), ("rust/a.py", "x = 'WARC-Date'")):
        os.makedirs(tmp_path / os.path.dirname(path))
        (tmp_path / path).write_text(text)
    assert lint_heads.main([str(tmp_path)]) == 1
    first, second = capsys.readouterr().out.splitlines()
    assert first.startswith("page/a.js:1: 'WARC-Type'") and second.endswith("page/a.js doesn't have 'WARC-Gone'")
