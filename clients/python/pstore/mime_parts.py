"""A mail cut into its leaves and the text between them, so that joined again it is the same, byte for byte."""

from __future__ import annotations

import binascii
import re
from dataclasses import dataclass, replace
from email.message import Message as Headers
from email.parser import HeaderParser
from functools import cached_property
from typing import List, Tuple, Union

from .codepages import decoded

_BLANK = re.compile(rb"\A(?=\r?\n)|(?<=\n)(?=\r?\n)")
_EOL = re.compile(rb"\r?\n")


@dataclass(frozen=True)
class Leaf:
    """A part that holds no others: its header lines, the empty line behind them, and its content as it is spelled."""

    head: bytes
    gap: bytes
    content: bytes
    default: str = "text/plain"

    def __bytes__(self) -> bytes:
        return self.head + self.gap + self.content

    @cached_property
    def headers(self) -> Headers:
        headers = headers_of(self.head)
        headers.set_default_type(self.default)
        return headers

    @property
    def type(self) -> str:
        """The type of the content. One that calls itself a multipart and has no parts is text."""
        found = self.headers.get_content_type()
        return "text/plain" if found.startswith("multipart/") else found

    @property
    def encoding(self) -> str:
        return str(self.headers.get("Content-Transfer-Encoding", "7bit")).strip().lower()

    @property
    def eol(self) -> bytes:
        """How lines end here."""
        found = _EOL.search(self.gap or self.head or self.content)
        return found[0] if found else b"\r\n"

    @cached_property
    def data(self) -> bytes:
        """The content without its transfer encoding; as it is spelled where it isn't spelled by that."""
        try:
            return _DECODERS.get(self.encoding, bytes)(self.content)
        except (ValueError, binascii.Error):
            return self.content

    @property
    def text(self) -> str:
        """The data as text, by its charset or the one that fits."""
        return decoded(self.data, self.headers.get_content_charset())[0]

    def with_content(self, content: bytes) -> "Leaf":
        return replace(self, content=content)


Piece = Union[bytes, Leaf]


def headers_of(head: bytes) -> Headers:
    """Header lines as `email` reads them, bytes beyond ASCII as the text that they most likely are."""
    return HeaderParser().parsestr(decoded(head, None)[0])


def split_head(raw: bytes) -> Tuple[bytes, bytes, bytes]:
    """The header lines, the empty line behind them, and what follows."""
    blank = _BLANK.search(raw)
    if blank is None:
        return raw, b"", b""
    gap = _EOL.match(raw, blank.start())
    return raw[: blank.start()], gap[0], raw[gap.end() :]


def split(raw: bytes, default: str = "text/plain") -> List[Piece]:
    """The leaves of a mail or a part, and the text between them."""
    head, gap, rest = split_head(raw)
    headers = headers_of(head)
    boundary = headers.get_boundary() if headers.get_content_maintype() == "multipart" else None
    delimiters = _delimiters(rest, boundary) if boundary else []
    if not delimiters:
        return [Leaf(head, gap, rest, default)]
    inner = "message/rfc822" if headers.get_content_subtype() == "digest" else "text/plain"
    pieces: List[Piece] = [head + gap + rest[: delimiters[0][0]]]
    for place, (start, end, closes) in enumerate(delimiters):
        last = place + 1 == len(delimiters)
        between = rest[end:] if last else rest[end : delimiters[place + 1][0]]
        pieces.append(rest[start:end])
        pieces += [between] if closes else _part(between, inner)
    return pieces


def _delimiters(body: bytes, boundary: str) -> List[Tuple[int, int, bool]]:
    """Where the lines that part a multipart stand, up to the one that closes it. The end of the line before belongs to such a line."""
    pattern = rb"(?:\A|\r?\n)--" + re.escape(boundary.encode("utf-8", "replace")) + rb"(--)?[ \t]*(?=\r?\n|\Z)"
    found = []
    for it in re.finditer(pattern, body):
        found.append((it.start(), it.end(), it[1] is not None))
        if it[1] is not None:
            break
    return found


def _part(text: bytes, default: str) -> List[Piece]:
    """A part between two such lines, of which the first still lacks its end."""
    eol = _EOL.match(text)
    return [eol[0], *split(text[eol.end() :], default)] if eol else [text]


def _from_base64(content: bytes) -> bytes:
    return binascii.a2b_base64(content)


def _from_uu(content: bytes) -> bytes:
    lines = content.splitlines()
    begin = next((place + 1 for place, it in enumerate(lines) if it.startswith(b"begin ")), 0)
    return b"".join(binascii.a2b_uu(it) for it in lines[begin:] if it and it != b"end")


_DECODERS = {
    "base64": _from_base64,
    "quoted-printable": binascii.a2b_qp,
    "x-uuencode": _from_uu,
    "uuencode": _from_uu,
}


def to_base64(data: bytes, width: int, eol: bytes) -> bytes:
    """Data in base64, in lines of so many characters."""
    size = width // 4 * 3
    lines = (binascii.b2a_base64(data[at : at + size], newline=False) for at in range(0, len(data), size))
    return eol.join(lines)


def to_quoted(data: bytes, eol: bytes) -> bytes:
    """Data as quoted-printable text, whose line ends are those of its own."""
    lines = re.split(rb"\r?\n", data)
    return eol.join(binascii.b2a_qp(it, istext=True).replace(b"=\n", b"=" + eol) for it in lines)
