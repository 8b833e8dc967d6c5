"""Text as lines and replies spell it: UTF-16 units that can't stand by themselves are written as \\uXXXX."""

from __future__ import annotations

import re

_UNSAFE = re.compile("[\x00-\x1f\x7f-\x9f\\\\\u2028\u2029\ud800-\udfff]")
_ESCAPE = re.compile(r"\\u([0-9a-fA-F]{4})")
_PAIR = re.compile("[\ud800-\udbff][\udc00-\udfff]")

NAME_UNITS = 255
"""How many UTF-16 units a name, a class or an address may have."""


def spell(text: str) -> str:
    """Text as the last word of a line."""
    return _UNSAFE.sub(lambda it: f"\\u{ord(it[0]):04x}", text)


def spell_word(text: str) -> str:
    """Text as one word, whose spaces would end it."""
    return spell(text).replace(" ", "\\u0020")


def unspell(text: str) -> str:
    """What a reply spells between double quotes, or a line as its last word."""
    units = _ESCAPE.sub(lambda it: chr(int(it[1], 16)), text)
    return _PAIR.sub(lambda it: it[0].encode("utf-16-le", "surrogatepass").decode("utf-16-le"), units)


def units(text: str) -> int:
    """How many UTF-16 units a text has."""
    return len(text) + sum(it > "\uffff" for it in text)


def clip(text: str, most: int = NAME_UNITS) -> str:
    """The longest beginning of a text that has no more UTF-16 units than a name may have."""
    if units(text) <= most:
        return text
    return text.encode("utf-16-le", "surrogatepass")[: 2 * most].decode("utf-16-le", "ignore")


def is_hex(text: str) -> bool:
    """Whether a word is an id as replies give it."""
    return re.fullmatch("0x[0-9a-f]{1,8}", text) is not None
