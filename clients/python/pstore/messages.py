"""Messages of a store and in attachments, with their values, recipients and attachments."""

from __future__ import annotations

import io
import shutil
from typing import TYPE_CHECKING, BinaryIO, List, Optional, Union

from .drafts import recipient_line
from .errors import NoEmbedded, NotFound
from .replies import ListedAttachment, ListedMessage, Recipient
from .spelling import clip, spell, spell_word
from .tags import BINARY, value_of
from .valued import Valued

if TYPE_CHECKING:
    from .folders import Folder
    from .store import Tree

PIECE = 500_000
"""How many bytes of an attachment one line carries: as hex they have to fit a line."""

ATTACHMENT_BYTES = 8_000_000
"""How many bytes the data of an attachment may have."""

OBJECT_BYTES = 8
"""How many bytes stand in the place of an attachment's data where it holds a message."""


class Message(Valued):
    """A message, by its id. What `props` lists of it is asked once, and anew after a change through this object."""

    def __init__(self, store: "Tree", ident: int, listing: Optional[ListedMessage] = None) -> None:
        super().__init__(store)
        self.id, self.listing = ident, listing

    def __repr__(self) -> str:
        return f"<Message 0x{self.id:x}>"

    def _words(self, word: str) -> str:
        return f"{word} 0x{self.id:x}"

    def add_recipient(self, type: int, address: str, name: str = "") -> Recipient:
        """Gives the message a recipient: 1 is To, 2 Cc and 3 Bcc."""
        self._changed()
        row = int(self.store.session.ask(recipient_line(self.id, Recipient(type, address, name))).rest)
        return Recipient(type, address, name or address, row)

    def remove_recipient(self, recipient: Recipient) -> None:
        self._changed()
        self.store.session.ask(f"unrcpt 0x{self.id:x} {recipient.row}")

    @property
    def attachments(self) -> List["Attachment"]:
        return [Attachment(self, it) for it in self.details.attachments]

    def attachment(self, name: str) -> "Attachment":
        """The attachment of a name, or of an id as `0x8025`, or the one at a place counted from 1."""
        found = self.attachments
        for place, it in enumerate(found, 1):
            if name in (it.name, f"0x{it.id:x}", str(place)):
                return it
        raise NotFound(f"message 0x{self.id:x} has no attachment {name!r}")

    def attach(self, name: str, data: Union[bytes, BinaryIO] = b"") -> "Attachment":
        """Gives the message an attachment with bytes, or with what a file holds."""
        source = io.BytesIO(data) if isinstance(data, (bytes, bytearray, memoryview)) else data
        with self.attach_stream(name) as sink:
            shutil.copyfileobj(source, sink, PIECE)
        return sink.attachment

    def attach_stream(self, name: str) -> "AttachmentWriter":
        """A file to write the bytes of a new attachment to, which is whole once that is closed."""
        return AttachmentWriter(self, name)

    def embed(self, other: "Message", name: str) -> "Attachment":
        """Gives the message an attachment that holds a copy of another message, or of itself as it is now. What becomes of that one later leaves the copy."""
        self._changed()
        name = clip(name) or "message"
        ident = self.store.session.ask(f"{self._words('embed')} 0x{other.id:x} {spell(name)}").id
        return Attachment(self, ListedAttachment(ident, OBJECT_BYTES, name))

    def move(self, folder: "Folder") -> None:
        self.store.session.ask(f"mv 0x{self.id:x} 0x{folder.id:x}")

    def copy(self, folder: "Folder") -> "Message":
        return Message(self.store, self.store.session.ask(f"cp 0x{self.id:x} 0x{folder.id:x}").id)

    def remove(self) -> None:
        self.store.session.ask(f"rm 0x{self.id:x}")


class Attachment:
    """An attachment of a message."""

    def __init__(self, message: Message, listing: ListedAttachment) -> None:
        self.message, self.id, self.length, self.name = message, listing.id, listing.length, listing.name

    def __repr__(self) -> str:
        return f"<Attachment 0x{self.id:x} {self.name!r}>"

    def read(self) -> bytes:
        """Its bytes. One that holds a message or an object has none, and is refused as `PropertyRefusal`."""
        return value_of(BINARY, self.message.store.session.ask(f"fetch 0x{self.message.id:x} 0x{self.id:x}").rest)

    def open(self) -> BinaryIO:
        """Its bytes as a file to read."""
        return io.BytesIO(self.read())

    @property
    def embedded(self) -> Optional["EmbeddedMessage"]:
        """The message that it holds, None where it holds none. A pin refuses to tell as `LineRefusal`."""
        found = EmbeddedMessage(self)
        try:
            found.details
        except NoEmbedded:
            return None
        return found

    def append(self, data: bytes) -> None:
        """Puts bytes behind its data, a piece a line."""
        self.message._changed()
        pieces = (data[at : at + PIECE] for at in range(0, len(data), PIECE))
        self.message.store.session.ask_all(f"append 0x{self.message.id:x} 0x{self.id:x} {it.hex()}" for it in pieces)
        self.length += len(data)

    def remove(self) -> None:
        self.message._changed()
        self.message.store.session.ask(f"detach 0x{self.message.id:x} 0x{self.id:x}")


class EmbeddedMessage(Valued):
    """The message that an attachment holds.

    Its values are read and changed as those of a message. Its recipients are told, and of its attachments their ids,
    names and lengths: no line reads or changes more of them.
    """

    def __init__(self, attachment: Attachment) -> None:
        super().__init__(attachment.message.store)
        self.attachment = attachment

    def __repr__(self) -> str:
        return f"<EmbeddedMessage in 0x{self.attachment.id:x} of 0x{self.attachment.message.id:x}>"

    def _words(self, word: str) -> str:
        return f"e{word} 0x{self.attachment.message.id:x} 0x{self.attachment.id:x}"

    def _changed(self) -> None:
        super()._changed()
        self.attachment.message._changed()


class AttachmentWriter(io.RawIOBase):
    """Takes the bytes of a new attachment, and sends them a piece a line."""

    def __init__(self, message: Message, name: str) -> None:
        super().__init__()
        self._message, self._name, self._held = message, clip(name) or "attachment", bytearray()
        self.attachment: Optional[Attachment] = None

    def writable(self) -> bool:
        return True

    def write(self, data) -> int:
        self._held += data
        while len(self._held) >= PIECE:
            self._send(PIECE)
        return len(data)

    def close(self) -> None:
        if not self.closed:
            super().close()
            if self._held or self.attachment is None:
                self._send(len(self._held))

    def _send(self, count: int) -> None:
        piece, self._held = bytes(self._held[:count]), self._held[count:]
        if self.attachment is not None:
            self.attachment.append(piece)
            return
        message = self._message
        message._changed()
        line = f"attach 0x{message.id:x} {spell_word(self._name)} {piece.hex() or '-'}"
        ident = message.store.session.ask(line).id
        self.attachment = Attachment(message, ListedAttachment(ident, len(piece), self._name))
