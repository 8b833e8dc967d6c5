"""What to look for, as words and as the bytes of a restriction ([MS-OXCDATA] 2.12)."""

from __future__ import annotations

import re
import struct
from datetime import datetime, timezone
from typing import Iterable, List, Tuple

from .errors import PstoreError
from .tags import TAGS, TEXT, TIME, Tag, filetime

RESTART, RECURSIVE, SHALLOW, STATIC = 0x2, 0x4, 0x8, 0x40000
"""Flags of a search."""

_AND, _OR, _CONTENT, _PROPERTY = 0, 1, 3, 4
_CONTAINS, _IGNORE_CASE = 1, 1
_LESS, _AT_LEAST = 0, 3
_SENDERS = ("sender", "sender_address", "representing", "representing_address")
_WORD = re.compile(r'(?:(?P<key>subject|from|since|before):)?(?:"(?P<quoted>[^"]*)"|(?P<plain>\S+))')


class BadSearch(PstoreError):
    """What is to be looked for isn't said in the words that there are."""


def contains(tag: Tag, text: str) -> bytes:
    """That a text has another one in it, of either case."""
    if tag.kind != TEXT:
        raise BadSearch("only text can be looked into")
    value = text.encode("utf-16-le", "surrogatepass") + b"\0\0"
    return struct.pack("<BHH", _CONTENT, _CONTAINS, _IGNORE_CASE) + tag.packed * 2 + value


def compares(relation: int, tag: Tag, time: datetime) -> bytes:
    """That a time stands in a relation to another one."""
    assert tag.kind == TIME
    return struct.pack("<BB", _PROPERTY, relation) + tag.packed * 2 + struct.pack("<Q", filetime(time))


def all_of(parts: Iterable[bytes]) -> bytes:
    """That all of these hold."""
    return _joined(_AND, list(parts))


def some_of(parts: Iterable[bytes]) -> bytes:
    """That one of these holds."""
    return _joined(_OR, list(parts))


def _joined(kind: int, parts: List[bytes]) -> bytes:
    return parts[0] if len(parts) == 1 else struct.pack("<BH", kind, len(parts)) + b"".join(parts)


def restriction_of(words: str) -> bytes:
    """What `subject:`, `from:`, `since:` and `before:` ask for, all together.

    A word by itself is one of the subject. A word in double quotes may have spaces.
    """
    found: List[Tuple[str, str]] = []
    for it in _WORD.finditer(words):
        text = it["plain"] if it["quoted"] is None else it["quoted"]
        found.append((it["key"] or "subject", text))
    if not found or not all(text for _, text in found):
        raise BadSearch("nothing to look for: give subject:, from:, since: or before: with a word")
    return all_of(_one(key, text) for key, text in found)


def _one(key: str, text: str) -> bytes:
    if key == "subject":
        return contains(TAGS["subject"], text)
    if key == "from":
        return some_of(contains(TAGS[it], text) for it in _SENDERS)
    return compares(_AT_LEAST if key == "since" else _LESS, TAGS["sent"], day_of(text))


def day_of(text: str) -> datetime:
    """A day as `2024-05-31`, or a time as `2024-05-31T18:00`; without a zone it is one of UTC."""
    try:
        found = datetime.fromisoformat(text)
    except ValueError:
        raise BadSearch(f"{text!r} is no day: write it as 2024-05-31") from None
    return found if found.tzinfo else found.replace(tzinfo=timezone.utc)
