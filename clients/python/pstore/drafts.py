"""A mail before it is in a store."""

from __future__ import annotations

from dataclasses import dataclass, field
from datetime import datetime, timezone
from typing import Dict, Iterator, List, Optional

from .replies import Recipient
from .session import LINE_BYTES
from .spelling import clip, spell, spell_word
from .tags import Tag, Value, filetime, spelled


@dataclass
class DraftAttachment:
    """A name and bytes."""

    name: str
    data: bytes


@dataclass
class Draft:
    """What a message is to be: its class, its values, its recipients and its attachments."""

    message_class: str = "IPM.Note"
    values: Dict[Tag, Value] = field(default_factory=dict)
    recipients: List[Recipient] = field(default_factory=list)
    attachments: List[DraftAttachment] = field(default_factory=list)
    made: Optional[datetime] = None

    @property
    def class_word(self) -> str:
        return spell_word(clip(self.message_class))

    @property
    def time(self) -> int:
        return filetime(self.made or datetime.now(timezone.utc))

    def lines(self, message: int) -> Iterator[str]:
        """The lines that give a new message its values and its recipients."""
        for tag, value in self.values.items():
            yield set_line(message, tag, value)
        for it in self.recipients:
            yield recipient_line(message, it)


def set_line(message: int, tag: Tag, value: Value) -> str:
    """The line that gives a message a value."""
    return f"set 0x{message:x} {tag} {spelled(tag.kind, value)}"


def recipient_line(message: int, recipient: Recipient) -> str:
    """The line that gives a message a recipient, whose name is its address where there is none."""
    address = spell_word(clip(recipient.address))
    return f"rcpt 0x{message:x} {recipient.type} {address} {spell(clip(recipient.name or recipient.address))}"


def fits(tag: Tag, value: Value) -> bool:
    """Whether one line can give a message this value."""
    return len(set_line(0xFFFF_FFFF, tag, value).encode("utf-8")) <= LINE_BYTES
