"""Usual properties of messages by name ([MS-OXPROPS]), and values as Python has them."""

from __future__ import annotations

import struct
from dataclasses import dataclass
from datetime import datetime, timedelta, timezone
from typing import Dict, Tuple, Union

from .spelling import spell, unspell

SHORT, LONG, LONGLONG = 0x0002, 0x0003, 0x0014
BOOL, TIME, GUID, BINARY = 0x000B, 0x0040, 0x0048, 0x0102
TEXT, BYTE_TEXT = 0x001F, 0x001E

Value = Union[int, bool, str, bytes, datetime]

_EPOCH = datetime(1601, 1, 1, tzinfo=timezone.utc)


@dataclass(frozen=True)
class Tag:
    """A property id and the kind of its value."""

    id: int
    kind: int

    def __str__(self) -> str:
        return f"0x{self.id:04x}{self.kind:04x}"

    @property
    def packed(self) -> bytes:
        """The tag in a restriction."""
        return struct.pack("<HH", self.kind, self.id)


def _table(**tags: Tuple[int, int]) -> Dict[str, Tag]:
    return {name: Tag(*tag) for name, tag in tags.items()}


TAGS = _table(
    message_class=(0x001A, TEXT),
    subject=(0x0037, TEXT),
    subject_prefix=(0x003D, TEXT),
    normalized_subject=(0x0E1D, TEXT),
    topic=(0x0070, TEXT),
    body=(0x1000, TEXT),
    html=(0x1013, BINARY),
    rtf=(0x1009, BINARY),
    codepage=(0x3FDE, LONG),
    message_codepage=(0x3FFD, LONG),
    sender=(0x0C1A, TEXT),
    sender_address=(0x0C1F, TEXT),
    sender_type=(0x0C1E, TEXT),
    sender_smtp=(0x5D01, TEXT),
    representing=(0x0042, TEXT),
    representing_address=(0x0065, TEXT),
    representing_type=(0x0064, TEXT),
    representing_smtp=(0x5D02, TEXT),
    to=(0x0E04, TEXT),
    cc=(0x0E03, TEXT),
    bcc=(0x0E02, TEXT),
    reply_to=(0x0050, TEXT),
    sent=(0x0039, TIME),
    received=(0x0E06, TIME),
    created=(0x3007, TIME),
    changed=(0x3008, TIME),
    headers=(0x007D, TEXT),
    mime_skeleton=(0x64F0, BINARY),
    message_id=(0x1035, TEXT),
    in_reply_to=(0x1042, TEXT),
    references=(0x1039, TEXT),
    flags=(0x0E07, LONG),
    size=(0x0E08, LONG),
    flag_status=(0x1090, LONG),
    last_verb=(0x1081, LONG),
    importance=(0x0017, LONG),
    priority=(0x0026, LONG),
    sensitivity=(0x0036, LONG),
)
"""The properties that go by a name."""

READ, UNSENT, HAS_ATTACHMENT = 0x1, 0x8, 0x10
"""Bits of `flags`."""

FLAGGED = 2
"""The `flag_status` of a message that is flagged."""

REPLIED = 102
"""The `last_verb` of a message that was answered."""


def tag_of(name: Union[str, int, Tag]) -> Tag:
    """A tag by its name, by its number as lines have it, or as it is."""
    if isinstance(name, Tag):
        return name
    if isinstance(name, int):
        return Tag(name >> 16, name & 0xFFFF)
    try:
        return TAGS[name]
    except KeyError:
        raise KeyError(f"no property goes by the name {name!r}") from None


def filetime(time: datetime) -> int:
    """A time as units of 100 ns since 1601; one without a zone is a local one."""
    since = time.astimezone(timezone.utc) - _EPOCH
    return max(0, (since.days * 86_400 + since.seconds) * 10_000_000 + since.microseconds * 10)


def datetime_of(units: int) -> datetime:
    """The time that so many units of 100 ns since 1601 are, as far as Python's times go."""
    try:
        return _EPOCH + timedelta(microseconds=units // 10)
    except OverflowError:
        return datetime.max.replace(tzinfo=timezone.utc)


def spelled(kind: int, value: Value) -> str:
    """A value as the last word of `set`."""
    if kind == BOOL:
        return "true" if value else "false"
    if kind == TIME:
        return str(filetime(value) if isinstance(value, datetime) else int(value))
    if kind in (SHORT, LONG, LONGLONG):
        return str(int(value))
    if kind == TEXT:
        return spell(value)
    if kind in (BINARY, GUID):
        return bytes(value).hex() or "-"
    raise TypeError(f"values of kind 0x{kind:04x} can't be set")


def value_of(kind: int, said: str) -> Value:
    """The value that a reply to `get` says. Kinds that can't be set come as bytes."""
    if kind == BOOL:
        return said == "true"
    if kind == TIME:
        return datetime_of(int(said))
    if kind in (SHORT, LONG, LONGLONG):
        return int(said)
    if kind == TEXT:
        return unspell(said[1:-1])
    return b"" if said == "-" else bytes.fromhex(said)
