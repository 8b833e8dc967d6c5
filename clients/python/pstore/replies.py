"""What replies say, as data."""

from __future__ import annotations

import re
from dataclasses import dataclass, field
from typing import List, Tuple, Union

from .errors import ProtocolError
from .spelling import unspell

_WORD = re.compile(r'"([^"]*)"|([^ ]+)')


@dataclass(frozen=True)
class Reply:
    """A reply that isn't a refusal: its lines of data without their dashes, and what follows `ok`."""

    data: List[str] = field(default_factory=list)
    rest: str = ""

    @property
    def id(self) -> int:
        """The id that follows `ok`."""
        return int(self.rest, 16)


@dataclass(frozen=True)
class ListedFolder:
    """A folder as `ls` lists it. Its kind is `folder`, `search` or `foreign`."""

    id: int
    kind: str
    name: str


@dataclass(frozen=True)
class ListedMessage:
    """A message as `ls` lists it."""

    id: int
    size: int
    subject: str


@dataclass(frozen=True)
class ListedValue:
    """A value as `props` lists it: its property id, its kind and how many bytes it has."""

    id: int
    kind: int
    length: int


@dataclass(frozen=True)
class Recipient:
    """A recipient of a message. Its type is 0 for whom it is from, 1 for To, 2 for Cc and 3 for Bcc."""

    type: int
    address: str
    name: str
    row: int = -1


@dataclass(frozen=True)
class ListedAttachment:
    """An attachment as `props` lists it."""

    id: int
    length: int
    name: str


@dataclass(frozen=True)
class Details:
    """All that `props` lists of a message."""

    values: Tuple[ListedValue, ...]
    recipients: Tuple[Recipient, ...]
    attachments: Tuple[ListedAttachment, ...]


def words(line: str) -> List[str]:
    """The words of a line of data, those between double quotes as the text that they spell."""
    return [unspell(it[1]) if it[1] is not None else it[2] for it in _WORD.finditer(line)]


def listed(line: str) -> Union[ListedFolder, ListedMessage]:
    """What a line of `ls` says."""
    try:
        ident, kind, *rest = words(line)
        if kind == "message":
            size, subject = rest
            return ListedMessage(int(ident, 16), int(size), subject)
        (name,) = rest
        return ListedFolder(int(ident, 16), kind, name)
    except ValueError as error:
        raise ProtocolError(f"no line of ls: {line}") from error


def details(reply: Reply) -> Details:
    """What the lines of `props` say."""
    values, recipients, attachments = [], [], []
    for line in reply.data:
        try:
            first, *rest = words(line)
            if first == "rcpt":
                row, kind, address, name = rest
                recipients.append(Recipient(int(kind), address, name, int(row)))
            elif first == "attach":
                ident, length, name = rest
                attachments.append(ListedAttachment(int(ident, 16), int(length), name))
            else:
                tag = int(first, 16)
                values.append(ListedValue(tag >> 16, tag & 0xFFFF, int(rest[0])))
        except (ValueError, IndexError) as error:
            raise ProtocolError(f"no line of props: {line}") from error
    return Details(tuple(values), tuple(recipients), tuple(attachments))
