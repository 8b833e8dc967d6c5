"""Windows code pages and the charsets of MIME, both ways."""

from __future__ import annotations

import codecs
from typing import Dict, Optional, Tuple

_NAMES: Dict[int, str] = {
    437: "cp437",
    850: "cp850",
    852: "cp852",
    866: "cp866",
    874: "cp874",
    932: "cp932",
    936: "gbk",
    949: "cp949",
    950: "cp950",
    1200: "utf-16-le",
    1201: "utf-16-be",
    **{number: f"cp{number}" for number in range(1250, 1259)},
    10000: "mac-roman",
    20127: "us-ascii",
    20866: "koi8-r",
    20932: "euc-jp",
    21866: "koi8-u",
    **{28590 + part: f"iso-8859-{part}" for part in (1, 2, 3, 4, 5, 6, 7, 8, 9, 10, 13, 14, 15, 16)},
    38598: "iso-8859-8",
    50220: "iso-2022-jp",
    50225: "iso-2022-kr",
    51932: "euc-jp",
    51949: "euc-kr",
    52936: "hz",
    54936: "gb18030",
    65000: "utf-7",
    65001: "utf-8",
}

FALLBACK = "cp1252"
"""What text without a charset that is known is most often in."""


def _canonical(charset: str) -> Optional[str]:
    try:
        return codecs.lookup(charset).name
    except (LookupError, ValueError):
        return None


_NUMBERS: Dict[Optional[str], int] = {_canonical(name): number for number, name in reversed(list(_NAMES.items()))}


def charset_of(number: Optional[int]) -> str:
    """The charset of a code page."""
    return _NAMES.get(number or 0, FALLBACK)


def codepage_of(charset: str) -> Optional[int]:
    """The code page of a charset, if it has one."""
    return _NUMBERS.get(_canonical(charset))


def decoded(raw: bytes, charset: Optional[str]) -> Tuple[str, str]:
    """Text from bytes, and the charset by which they were read: the one that they say, or the first that reads them."""
    for it in (charset, "utf-8", FALLBACK):
        if it and _canonical(it):
            try:
                return raw.decode(it), it
            except (UnicodeDecodeError, LookupError):
                continue
    return raw.decode("latin-1"), "latin-1"
