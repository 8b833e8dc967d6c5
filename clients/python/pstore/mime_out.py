"""A message of a store as a mail of the net: as it came, where its skeleton says how, else laid out anew."""

from __future__ import annotations

import mimetypes
import re
from dataclasses import dataclass
from datetime import datetime
from email import policy
from email.errors import HeaderParseError
from email.headerregistry import Address
from email.message import EmailMessage
from email.utils import format_datetime
from os.path import splitext
from typing import Dict, List, NamedTuple, Optional, Sequence, Set, Union
from uuid import uuid4

from .codepages import charset_of
from .errors import LineRefusal, PropertyRefusal
from .messages import Attachment
from .mime_in import NO_ID, PART, as_lines, encoded, headers_of, laid_out, mime_lines, text_bytes
from .mime_parts import Leaf, split, split_head, to_base64
from .replies import ListedAttachment
from .tags import TAGS, Value
from .valued import Valued

_NAMES = (
    "headers", "mime_skeleton", "body", "html", "rtf", "codepage", "subject", "sent", "message_id", "in_reply_to", "references",
    "sender", "sender_address", "sender_smtp", "representing", "representing_address", "representing_smtp",
)  # fmt: skip
_POLICY = policy.SMTP.clone(cte_type="7bit")
_HEADERS = {1: "To", 2: "Cc", 3: "Bcc"}
_NOT_IN_NAMES = re.compile("[\x00-\x1f\x7f-\x9f\ud800-\udfff]")
"""What no header carries in the name of a file: controls, and surrogates without their other half."""
_MAIL_ENDING = re.compile(r"\.(?:msg|eml)\Z", re.IGNORECASE)
_TOLD = {"subject": "Subject", "message_id": "Message-ID", "in_reply_to": "In-Reply-To", "references": "References"}

BYTES, MAIL, NOTE = "bytes", "mail", "note"
"""What is told of an attachment: its bytes, the mail of the message that it holds, or a text that says why it is left out."""


class Attached(NamedTuple):
    """An attachment as it is told: its name, the bytes of its part, and what of it is left out."""

    name: str
    data: bytes
    kind: str = BYTES
    lost: Sequence[str] = ()


@dataclass
class Content:
    """What is read of a message to tell it: its values by their names, and its attachments."""

    values: Dict[str, Value]
    attachments: List[Attached]

    @property
    def lost(self) -> List[str]:
        """What of the attachments is left out."""
        return [it for attached in self.attachments for it in attached.lost]


@dataclass(frozen=True)
class Mail:
    """A mail, and what of the message couldn't be told in it."""

    raw: bytes
    lost: Sequence[str] = ()


def mail_of(message: Valued) -> Mail:
    """The mail that a message is, be it one of a folder or one that an attachment holds."""
    content = content_of(message)
    raw = _as_it_came(content) or _anew(message, content)
    return Mail(raw, content.lost)


def content_of(message: Valued) -> Content:
    """Reads what is to be told of a message."""
    there = {it.id for it in message.details.values}
    values = {name: message.get(name) for name in _NAMES if TAGS[name].id in there}
    if "subject" in values:
        values["subject"] = message.subject
    return Content({name: it for name, it in values.items() if it is not None}, [_attached(it) for it in message.attachments])


def _attached(attachment: Union[Attachment, ListedAttachment]) -> Attached:
    """An attachment with its bytes, else with the mail that it holds, else with a text in their place.

    Those of an embedded message are listed alone: no line reads what they hold.
    """
    name, place = attachment.name, f"attachment 0x{attachment.id:x} {attachment.name!r}"
    if isinstance(attachment, Attachment):
        try:
            return Attached(name, attachment.read())
        except PropertyRefusal:
            mail = _held(attachment)
        if mail is not None:
            return Attached(name, mail.raw, MAIL, [f"in {place}: {it}" for it in mail.lost])
    note = f"The attachment {name!r} was left out: the program reads no bytes of it.\r\n"
    return Attached(name, note.encode("utf-8"), NOTE, [f"{place} has no bytes that the program reads"])


def _held(attachment: Attachment) -> Optional[Mail]:
    """The mail of the message that an attachment holds, if there is one and the session tells it: a pin doesn't."""
    try:
        message = attachment.embedded
    except LineRefusal:
        return None
    return mail_of(message) if message is not None else None


def _as_it_came(content: Content) -> Optional[bytes]:
    """The mail by its skeleton, if that still fits the message."""
    told, skeleton = content.values.get("headers"), content.values.get("mime_skeleton")
    if not isinstance(told, str) or not isinstance(skeleton, bytes):
        return None
    head = told.encode("utf-8", "surrogateescape")
    short = mime_lines(head)
    if not skeleton.startswith(short):
        return None
    filler = _Filler(content)
    try:
        filled = b"".join(bytes(filler.fill(it)) if isinstance(it, Leaf) else it for it in split(skeleton))
    except _Unfit:
        return None
    return head + filled[len(short) :] if filler.is_whole and filled.startswith(short) else None


class _Unfit(Exception):
    """A skeleton asks for what the message doesn't have."""


class _Filler:
    """Puts contents back into the leaves of a skeleton."""

    def __init__(self, content: Content) -> None:
        self._content = content
        self._places: Set[int] = set()
        self._told: Set[str] = set()

    @property
    def is_whole(self) -> bool:
        """Whether all that the message has was told."""
        has = {name for name in ("body", "html") if self._content.values.get(name)}
        attachments = self._content.attachments
        return has <= self._told and len(self._places) == len(attachments) and all(it.kind == BYTES for it in attachments)

    def fill(self, leaf: Leaf) -> Leaf:
        lines = leaf.head.splitlines(keepends=True)
        if not lines or not lines[-1].startswith(PART):
            return leaf
        kind, *layout = lines[-1][len(PART) :].decode("ascii", "replace").split()
        bare = Leaf(b"".join(lines[:-1]), leaf.gap, leaf.content, leaf.default)
        if kind in ("body", "html"):
            self._told.add(kind)
            return self._fill_text(bare, kind)
        return self._fill_attachment(bare, [int(it) for it in layout])

    def _fill_text(self, leaf: Leaf, kind: str) -> Leaf:
        value = self._content.values.get(kind, "" if kind == "body" else b"")
        data = text_bytes(leaf, as_lines(value)) if isinstance(value, str) else value
        if leaf.content and self._says(leaf, kind, value):
            return leaf
        return leaf.with_content(encoded(leaf, data))

    @staticmethod
    def _says(leaf: Leaf, kind: str, value: Value) -> bool:
        """Whether a content as it was spelled still says what the message has."""
        if kind == "html":
            return leaf.data == value
        return as_lines(leaf.text) == value

    def _fill_attachment(self, leaf: Leaf, layout: List[int]) -> Leaf:
        if not layout or not 0 < layout[0] <= len(self._content.attachments):
            raise _Unfit
        self._places.add(layout[0])
        data = self._content.attachments[layout[0] - 1].data
        if len(layout) == 3:
            return leaf.with_content(laid_out(data, layout[1], layout[2], leaf.eol))
        return leaf if leaf.content and leaf.data == data else leaf.with_content(encoded(leaf, data))


def _anew(message: Valued, content: Content) -> bytes:
    """The mail of a message without a skeleton that fits: its headers as they came or by its values, its texts, and its attachments."""
    told = content.values.get("headers")
    head = mime_lines(_crlf(told.encode("utf-8", "surrogateescape")), others=True) if isinstance(told, str) else b""
    if not headers_of(head).keys():
        head = _headers(message, content)
    return head + (b"" if head.endswith(b"\n") or not head else b"\r\n") + b"MIME-Version: 1.0\r\n" + _entity(content)


def _headers(message: Valued, content: Content) -> bytes:
    """Headers of the values of a message that came by no transport."""
    values, told = content.values, EmailMessage(policy=_POLICY)
    for name, header in (("representing", "From"), ("sender", "Sender")):
        person, address = values.get(name), values.get(f"{name}_smtp") or values.get(f"{name}_address")
        if (person or address) and not (header == "Sender" and address == values.get("representing_address")):
            told["From" if "From" not in told else header] = _address(str(person or ""), str(address or ""))
    for kind, header in _HEADERS.items():
        people = [_address(it.name, it.address) for it in message.recipients if it.type & 0xF == kind]
        if people:
            told[header] = people
    if isinstance(values.get("sent"), datetime):
        told["Date"] = format_datetime(values["sent"])
    for name, header in _TOLD.items():
        value = " ".join(str(values.get(name, "")).split())
        if value and not value.endswith(NO_ID):
            told[header] = value
    return _lines(told)


def _lines(headers: EmailMessage) -> bytes:
    """Headers as lines of a mail."""
    return b"".join(_POLICY.fold_binary(name, value) for name, value in headers.raw_items())


def _address(name: str, address: str) -> Address:
    """An address as a header has it. One that isn't of the net's form, as those within an Exchange server, stands in the name."""
    name, address = (re.sub(r"[\x00-\x1f\x7f]+", " ", it) for it in (name, address))
    try:
        return Address("" if name == address else name, addr_spec=address)
    except (ValueError, IndexError, HeaderParseError):
        return Address(f"{name} ({address})" if address and address != name else name)


def _entity(content: Content) -> bytes:
    """What follows the headers: the headers of the content, an empty line, and the content."""
    parts = [it for it in (_text_part(content), _html_part(content)) if it]
    attachments = list(content.attachments)
    if not parts and isinstance(content.values.get("rtf"), bytes):
        attachments.append(Attached("body.rtf.lzfu", content.values["rtf"]))
    shown = _joined("alternative", parts) if len(parts) > 1 else (parts or [_part(b"", "text", "plain")])[0]
    return _joined("mixed", [shown, *map(_attachment_part, attachments)]) if attachments else shown


def _text_part(content: Content) -> Optional[bytes]:
    text = content.values.get("body")
    return _part(text.encode("utf-8", "replace"), "text", "plain", charset="utf-8") if isinstance(text, str) else None


def _html_part(content: Content) -> Optional[bytes]:
    html, codepage = content.values.get("html"), content.values.get("codepage")
    return _part(html, "text", "html", charset=charset_of(codepage)) if isinstance(html, bytes) else None


def _attachment_part(it: Attached) -> bytes:
    """An attachment by the kind that its name tells. A mail is told as one, since its lines may stand as they are."""
    name = _NOT_IN_NAMES.sub("_", it.name)
    if it.kind == NOTE:
        return _part(it.data, "text", "plain", charset="utf-8")
    if it.kind == MAIL:
        return _mail_part(f"{_MAIL_ENDING.sub('', name) or 'message'}.eml", it.data)
    if name.lower().endswith(".eml") and headers_of(split_head(it.data)[0]).keys():
        return _mail_part(name, it.data)
    kind, coding = mimetypes.guess_type(f"name{splitext(name)[1]}")  # A whole name may be taken for an address of the net.
    main, _, sub = (kind if kind and not coding else "application/octet-stream").partition("/")
    return _part(it.data, main, sub, disposition="attachment", filename=name)


def _mail_part(name: str, raw: bytes) -> bytes:
    """A mail within a mail."""
    head = EmailMessage(policy=_POLICY)
    head["Content-Type"] = "message/rfc822"
    head["Content-Transfer-Encoding"] = "8bit"
    head.add_header("Content-Disposition", "attachment", filename=name)
    return _lines(head) + b"\r\n" + raw


def _part(data: bytes, main: str, sub: str, **how: str) -> bytes:
    """A part with its headers. Text may stand as it is where mail can carry it so; all else is in base64."""
    part, charset = EmailMessage(policy=_POLICY), how.pop("charset", None)
    plain = main == "text" and "disposition" not in how and data.isascii() and max(map(len, data.split(b"\n"))) < 900 and b"\0" not in data
    part["Content-Type"] = f"{main}/{sub}"
    if charset:
        part.set_param("charset", charset)
    part["Content-Transfer-Encoding"] = "7bit" if plain else "base64"
    if "disposition" in how:
        part.add_header("Content-Disposition", how["disposition"], filename=how["filename"])
    told = _crlf(data) if plain else to_base64(data, 76, b"\r\n")
    return _lines(part) + b"\r\n" + told


def _joined(kind: str, parts: Sequence[bytes]) -> bytes:
    """A multipart of parts."""
    boundary = f"=_{uuid4().hex}"
    head = f'Content-Type: multipart/{kind};\r\n boundary="{boundary}"\r\n\r\n'
    delimiter = f"--{boundary}\r\n".encode("ascii")
    return head.encode("ascii") + b"".join(delimiter + it + b"\r\n" for it in parts) + f"--{boundary}--\r\n".encode("ascii")


def _crlf(data: bytes) -> bytes:
    return re.sub(rb"\r?\n", b"\r\n", data)
