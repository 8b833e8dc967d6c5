"""The text of an HTML body, for those who read it in a terminal."""

from __future__ import annotations

import re
from html.parser import HTMLParser
from typing import List, Optional

from .codepages import charset_of, decoded

_HIDDEN = {"head", "script", "style", "title"}
_BLOCKS = set("address blockquote br dd div dl dt h1 h2 h3 h4 h5 h6 hr li ol p pre table tr ul".split())


class _Text(HTMLParser):
    def __init__(self) -> None:
        super().__init__()
        self.found: List[str] = []
        self._hidden = 0

    def handle_starttag(self, tag: str, attrs: object) -> None:
        self._hidden += tag in _HIDDEN
        if tag in _BLOCKS:
            self.found.append("\n")

    def handle_endtag(self, tag: str) -> None:
        self._hidden -= tag in _HIDDEN and self._hidden > 0
        if tag in _BLOCKS:
            self.found.append("\n")

    def handle_data(self, data: str) -> None:
        if not self._hidden:
            self.found.append(re.sub(r"\s+", " ", data))


def text_of_html(html: bytes, codepage: Optional[int]) -> str:
    """What a reader would see of it, in lines."""
    reader = _Text()
    reader.feed(decoded(html, charset_of(codepage) if codepage else None)[0])
    reader.close()
    lines = (it.strip() for it in "".join(reader.found).split("\n"))
    return re.sub(r"\n{3,}", "\n\n", "\n".join(lines)).strip("\n")
