"""A mail of the net as a message of a store.

What other programs read goes to the usual properties. Beside them stands a *skeleton* (PidTagMimeSkeleton): the mail
without the contents that stand elsewhere in the message, so that it can be told again as it came. In it each leaf has
a last header line `X-Pstore-Part`, which says where its content is, and for an attachment how its base64 was laid
out. A content that telling it again would spell in another way stays in the skeleton as it was spelled.
"""

from __future__ import annotations

import binascii
import hashlib
import re
from datetime import datetime, timezone
from email.message import Message as Headers
from email.utils import getaddresses, parsedate_to_datetime
from itertools import groupby
from typing import Dict, Iterator, List, Optional, Set, Tuple

from . import tags
from .codepages import codepage_of, decoded
from .drafts import Draft, DraftAttachment, fits
from .errors import PstoreError
from .messages import ATTACHMENT_BYTES
from .mime_parts import Leaf, Piece, headers_of, split, split_head, to_base64, to_quoted
from .replies import Recipient
from .tags import TAGS

PART = b"X-Pstore-Part: "
NO_ID = "@pstore.invalid>"
"""How the id of a mail ends that came without one."""

_MIME = re.compile(rb"^(?:content-|mime-version)", re.IGNORECASE)
_ENCODED = re.compile(r"=\?([^?\s]+)\?([bBqQ])\?([^?]*)\?=")
_ENCODED_RUN = re.compile(rf"{_ENCODED.pattern}(?:\s*{_ENCODED.pattern})*")
_KINDS = {"text/plain": ("body", ".txt"), "text/html": ("html", ".html")}
_RECIPIENTS = (("To", 1), ("Cc", 2), ("Bcc", 3))
_IMPORTANCE = {"high": 2, "low": 0, "1": 2, "2": 2, "4": 0, "5": 0}


class MailTooLarge(PstoreError):
    """A part of a mail is longer than an attachment may be."""


def message_id_of(raw: bytes) -> str:
    """The mail's Message-ID; where it has none, one that is made of its bytes."""
    found = text_of(headers_of(split_head(raw)[0]), "Message-ID").strip()
    return found or f"<{hashlib.sha256(raw).hexdigest()}{NO_ID}"


def draft_of(raw: bytes, read: bool = False, flagged: bool = False, replied: bool = False) -> Draft:
    """The message that a mail is to be in a store. Each value costs a commit, so none is given that a reader can do without."""
    head, gap, _ = split_head(raw)
    if not gap:
        eol = b"\r\n" if b"\r\n" in head else b"\n"
        head = head if head.endswith(b"\n") or not head else head + eol
        raw = head + eol
    headers = headers_of(head)
    draft = Draft()
    draft.values.update(_header_values(headers))
    draft.values[TAGS["message_id"]] = message_id_of(raw)
    if read:
        draft.values[TAGS["flags"]] = tags.READ
    if flagged:
        draft.values[TAGS["flag_status"]] = tags.FLAGGED
    if replied:
        draft.values[TAGS["last_verb"]] = tags.REPLIED
    draft.recipients = list(_recipients(headers))
    skeleton = b"".join(bytes(it) for it in _Taker(draft).take(split(raw)))
    _keep_spelling(draft, head, skeleton)
    draft.values = {tag: value for tag, value in draft.values.items() if fits(tag, value)}
    return draft


def _keep_spelling(draft: Draft, head: bytes, skeleton: bytes) -> None:
    """Keeps the headers and the skeleton, if lines can carry them."""
    told = draft.values[TAGS["headers"]] = head.decode("utf-8", "surrogateescape")
    kept = mime_lines(head) + skeleton[len(head) :] if skeleton.startswith(head) else skeleton
    if fits(TAGS["headers"], told) and fits(TAGS["mime_skeleton"], kept):
        draft.values[TAGS["mime_skeleton"]] = kept


def mime_lines(head: bytes, others: bool = False) -> bytes:
    """Of header lines those that say how the content is made, or the others."""
    fields = re.split(rb"(?<=\n)(?![ \t])", head)
    return b"".join(it for it in fields if bool(_MIME.match(it)) != others)


def text_of(headers: Headers, name: str) -> str:
    """A header as text, with its encoded words decoded."""
    return decoded_words(_unfolded(headers.get(name, "")))


def _unfolded(value: str) -> str:
    return re.sub(r"\r?\n(?=[ \t])", "", value)


def decoded_words(text: str) -> str:
    """Text with its encoded words decoded (RFC 2047).

    Those that follow one another are one text, of which a character may be spread over two.
    """
    return _ENCODED_RUN.sub(lambda run: _decoded_run(run[0]), text)


def _decoded_run(run: str) -> str:
    words = [(it[1].partition("*")[0].lower(), _word_bytes(it[2], it[3])) for it in _ENCODED.finditer(run)]
    return "".join(decoded(b"".join(raw for _, raw in same), charset)[0] for charset, same in groupby(words, lambda it: it[0]))


def _word_bytes(how: str, text: str) -> bytes:
    raw = text.encode("utf-8", "replace")
    if how in "qQ":
        return binascii.a2b_qp(raw, header=True)
    try:
        return binascii.a2b_base64(raw + b"=" * (-len(raw) % 4))
    except binascii.Error:
        return raw


def time_of(text: str) -> Optional[datetime]:
    """The time that a date of a header says; one without a zone is taken as UTC."""
    try:
        found = parsedate_to_datetime(text)
        found = found if found.tzinfo else found.replace(tzinfo=timezone.utc)
        return found.astimezone(timezone.utc)
    except (TypeError, ValueError, IndexError, OverflowError):
        return None


def addresses_of(headers: Headers, name: str) -> List[Tuple[str, str]]:
    """The names and addresses of a header, without those that have no address."""
    values = [_unfolded(it) for it in headers.get_all(name, [])]
    return [(decoded_words(person), address) for person, address in getaddresses(values) if address]


def _recipients(headers: Headers) -> Iterator[Recipient]:
    for header, kind in _RECIPIENTS:
        for person, address in addresses_of(headers, header):
            yield Recipient(kind, address, person)


def _header_values(headers: Headers) -> Dict[tags.Tag, tags.Value]:
    """What the headers say, as the usual properties."""
    subject = text_of(headers, "Subject")
    prefix = re.match(r"[^\s\d:]{1,3}: ", subject)
    values: Dict[str, Optional[tags.Value]] = {
        "subject": subject,
        "normalized_subject": subject[prefix.end() :] if prefix else None,
        "topic": subject[prefix.end() :] if prefix else subject,
        "subject_prefix": prefix[0] if prefix else None,
        "in_reply_to": text_of(headers, "In-Reply-To").strip() or None,
        "references": text_of(headers, "References").strip() or None,
        "importance": _IMPORTANCE.get(text_of(headers, "Importance").strip().lower() or text_of(headers, "X-Priority").strip()[:1]),
    }
    sent = time_of(text_of(headers, "Date"))
    received = time_of(text_of(headers, "Received").rpartition(";")[2].strip())
    values.update(sent=sent, received=received or sent)
    for names, header in ((("representing",), "From"), (("sender",), "Sender")):
        values.update(_person(headers, header, *names))
    if "sender" not in values:
        values.update(_person(headers, "From", "sender"))
    for name, header in (("to", "To"), ("cc", "Cc")):
        values[name] = "; ".join(person or address for person, address in addresses_of(headers, header)) or None
    return {TAGS[name]: value for name, value in values.items() if value is not None}


def _person(headers: Headers, header: str, name: str) -> Dict[str, tags.Value]:
    found = addresses_of(headers, header)
    if not found:
        return {}
    person, address = found[0]
    return {name: person or address, f"{name}_address": address, f"{name}_type": "SMTP"}


class _Taker:
    """Takes the contents out of a mail's leaves into a draft, and marks where they are."""

    def __init__(self, draft: Draft) -> None:
        self._draft = draft
        self._taken: Set[str] = set()

    def take(self, pieces: List[Piece]) -> Iterator[Piece]:
        for it in pieces:
            yield self._take_leaf(it) if isinstance(it, Leaf) else it

    def _take_leaf(self, leaf: Leaf) -> Leaf:
        kind, ending = _KINDS.get(leaf.type, ("", ""))
        shown = kind and kind not in self._taken and not is_attached(leaf.headers)
        if shown:
            self._taken.add(kind)
            if self._set_text(kind, leaf):
                return marked(leaf, kind, leaf.content if spelled_again(leaf, kind) != leaf.content else b"")
        name = f"body{ending}" if shown else self._name(leaf)
        return self._attach(name, leaf)

    def _set_text(self, kind: str, leaf: Leaf) -> bool:
        """Gives the draft its text or its HTML, if a line can carry it."""
        text, charset = decoded(leaf.data, leaf.headers.get_content_charset())
        value = as_lines(text) if kind == "body" else leaf.data
        if not fits(TAGS[kind], value):
            return False
        self._draft.values[TAGS[kind]] = value
        codepage = codepage_of(charset)
        if codepage and (kind == "html" or TAGS["codepage"] not in self._draft.values):
            self._draft.values[TAGS["codepage"]] = codepage
        return True

    def _attach(self, name: str, leaf: Leaf) -> Leaf:
        if len(leaf.data) > ATTACHMENT_BYTES:
            raise MailTooLarge(f"{name}: {len(leaf.data)} bytes, where an attachment may have {ATTACHMENT_BYTES}")
        self._draft.attachments.append(DraftAttachment(name, leaf.data))
        mark = f"attachment {len(self._draft.attachments)}"
        if leaf.encoding == "base64":
            width, tail = layout_of(leaf)
            if laid_out(leaf.data, width, tail, leaf.eol) == leaf.content:
                return marked(leaf, f"{mark} {width} {tail}")
        again = encoded(leaf, leaf.data) == leaf.content or not fits(TAGS["mime_skeleton"], leaf.content)
        return marked(leaf, mark, b"" if again else leaf.content)

    def _name(self, leaf: Leaf) -> str:
        """The name of an attachment: its own, else one by its kind."""
        found = leaf.headers.get_filename()
        name = decoded_words(_unfolded(found)).strip() if found else ""
        if not name and leaf.type == "message/rfc822":
            name = text_of(headers_of(split_head(leaf.data)[0]), "Subject")[:100] + ".eml"
        name = re.sub(r"[\x00-\x1f\x7f/\\:]", "_", name).strip(" .")
        return name if name.strip(".") else f"part-{len(self._draft.attachments) + 1}"


def is_attached(headers: Headers) -> bool:
    """Whether a part is there to be kept and not to be shown."""
    return headers.get_content_disposition() == "attachment" or headers.get_filename() is not None


def as_lines(text: str) -> str:
    """Text with the line ends of a store."""
    return re.sub(r"\r?\n", "\r\n", text)


def marked(leaf: Leaf, mark: str, content: bytes = b"") -> Leaf:
    """A leaf that says where its content is."""
    eol = leaf.eol
    head = leaf.head if not leaf.head or leaf.head.endswith(b"\n") else leaf.head + eol
    return Leaf(head + PART + mark.encode("ascii") + eol, leaf.gap or eol, content, leaf.default)


def layout_of(leaf: Leaf) -> Tuple[int, int]:
    """How a content in base64 is laid out: the characters of a line, and the line ends at its end."""
    bare = leaf.content.rstrip(b"\r\n")
    width = len(bare.split(b"\n", 1)[0].rstrip(b"\r"))
    return max(4, width // 4 * 4), leaf.content[len(bare) :].count(b"\n")


def laid_out(data: bytes, width: int, tail: int, eol: bytes) -> bytes:
    """A content in base64 as it was laid out."""
    return to_base64(data, width, eol) + eol * tail


def spelled_again(leaf: Leaf, kind: str) -> bytes:
    """How the content of a leaf of text or HTML is spelled when it is told from the store."""
    if kind == "html":
        return encoded(leaf, leaf.data)
    return encoded(leaf, text_bytes(leaf, as_lines(leaf.text)))


def text_bytes(leaf: Leaf, text: str) -> bytes:
    """The text of a store as bytes of a leaf: with its line ends, in its charset, or in UTF-8 where that lacks a character."""
    own = text.replace("\r\n", leaf.eol.decode("ascii"))
    try:
        return own.encode(leaf.headers.get_content_charset() or "us-ascii")
    except (UnicodeEncodeError, LookupError):
        return own.encode("utf-8", "replace")


def encoded(leaf: Leaf, data: bytes) -> bytes:
    """Data in the transfer encoding of a leaf."""
    if leaf.encoding == "base64":
        return laid_out(data, 76, 1, leaf.eol) if data else b""
    if leaf.encoding == "quoted-printable":
        return to_quoted(data, leaf.eol)
    return data
