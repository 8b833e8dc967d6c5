"""Values of a message by their names, whichever lines read and change it."""

from __future__ import annotations

from typing import TYPE_CHECKING, Dict, Optional, Sequence, Tuple, Union

from .codepages import charset_of
from .errors import PropertyRefusal
from .replies import Details, ListedAttachment, Recipient, details
from .tags import BINARY, BYTE_TEXT, READ, TEXT, Tag, Value, spelled, tag_of, value_of

if TYPE_CHECKING:
    from .messages import Attachment
    from .store import Tree


def candidates(tag: Tag) -> Tuple[Tag, ...]:
    """The kinds in which files hold a property: text also in a code page, HTML as bytes or as text."""
    if tag.kind == TEXT:
        return tag, Tag(tag.id, BYTE_TEXT)
    if tag == tag_of("html"):
        return tag, Tag(tag.id, TEXT), Tag(tag.id, BYTE_TEXT)
    return (tag,)


class Named:
    """A value of a message as an attribute; it is None where there is none, and setting it is a commit."""

    def __set_name__(self, owner: type, name: str) -> None:
        self._name = name
        self.__doc__ = f"The value {name!r} of the message."

    def __get__(self, message: Optional["Valued"], owner: type = None):
        return self if message is None else message.get(self._name)

    def __set__(self, message: "Valued", value: Optional[Value]) -> None:
        if value is None:
            message.unset(self._name)
        else:
            message.set(**{self._name: value})


class Valued:
    """What has the values of a message. What is listed of it is asked once, and anew after a change through this object or a transaction that was rolled back."""

    message_class, body, html = Named(), Named(), Named()
    sender, sender_address, sent, received, created = Named(), Named(), Named(), Named(), Named()
    to, cc, headers, message_id, flags = Named(), Named(), Named(), Named(), Named()

    def __init__(self, store: "Tree") -> None:
        self.store = store
        self._details: Optional[Details] = None
        self._rollbacks = store.rollbacks

    def _words(self, word: str) -> str:
        """How the line begins that does of this message what `word` does of a message in a folder."""
        raise NotImplementedError

    def _changed(self) -> None:
        """Has what is listed asked anew."""
        self._details = None

    @property
    def details(self) -> Details:
        """The ids and kinds of all values, the recipients and the attachments."""
        if self._details is None or self._rollbacks != self.store.rollbacks:
            self._rollbacks = self.store.rollbacks
            self._details = details(self.store.session.ask(self._words("props")))
        return self._details

    def get(self, name: Union[str, int, Tag], default: Optional[Value] = None) -> Optional[Value]:
        """A value by its name or tag. Text that another program wrote in a code page comes as text too."""
        wanted = tag_of(name)
        for tag in candidates(wanted):
            try:
                value = value_of(tag.kind, self.store.session.ask(f"{self._words('get')} {tag}").rest)
            except PropertyRefusal:
                continue
            return self._as_wanted(wanted, tag, value)
        return default

    def _as_wanted(self, wanted: Tag, tag: Tag, value: Value) -> Value:
        if tag.kind == BYTE_TEXT and wanted.kind == TEXT:
            value = value.decode(charset_of(self.get("message_codepage") or self.get("codepage")), "replace")
        if tag.kind == TEXT and wanted.kind == BINARY:
            value = value.encode(charset_of(self.get("codepage")), "xmlcharrefreplace")
        return value

    def set(self, **values: Value) -> None:
        """Gives the message values by their names, one commit each."""
        self.put({tag_of(name): value for name, value in values.items()})

    def put(self, values: Dict[Tag, Value]) -> None:
        """Gives the message values by their tags, one commit each."""
        self._changed()
        words = self._words("set")
        self.store.session.ask_all([f"{words} {tag} {spelled(tag.kind, value)}" for tag, value in values.items()])

    def unset(self, name: Union[str, int, Tag]) -> None:
        """Takes away a value."""
        self._changed()
        self.store.session.ask(f"{self._words('unset')} {tag_of(name)}")

    @property
    def subject(self) -> Optional[str]:
        """The subject, without the mark of its prefix that Outlook puts before it ([MS-PST] 2.5.3.1.1.1)."""
        subject = self.get("subject")
        return subject[2:] if subject and subject[0] == "\x01" else subject

    @subject.setter
    def subject(self, subject: str) -> None:
        self.set(subject=subject)

    @property
    def read(self) -> bool:
        return bool((self.flags or 0) & READ)

    @read.setter
    def read(self, read: bool) -> None:
        flags = self.flags or 0
        self.set(flags=flags | READ if read else flags & ~READ)

    @property
    def attachments(self) -> Sequence[Union["Attachment", ListedAttachment]]:
        """Its attachments; those of an embedded message are listed alone."""
        return self.details.attachments

    @property
    def recipients(self) -> Tuple[Recipient, ...]:
        return self.details.recipients
