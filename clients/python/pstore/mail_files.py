"""Mails in files: one alone (.eml), many in one (mbox), and many in folders (Maildir, or a folder of .eml files)."""

from __future__ import annotations

import re
from dataclasses import dataclass
from pathlib import Path
from typing import BinaryIO, Iterator, List

from .mime_parts import headers_of, split_head

_QUOTED = re.compile(rb"^>(?=>*From )", re.MULTILINE)
_TO_QUOTE = re.compile(rb"^(?=>*From )", re.MULTILINE)


@dataclass(frozen=True)
class MailFile:
    """A mail with what its file says of it, and where it was found."""

    origin: str
    raw: bytes
    read: bool = False
    flagged: bool = False
    replied: bool = False


def mails_in(path: str) -> Iterator[MailFile]:
    """The mails of a file or a folder, in the order of their names."""
    place = Path(path)
    if place.is_dir():
        boxes = [place / it for it in ("cur", "new") if (place / it).is_dir()]
        yield from _maildir(boxes) if boxes else _mail_folder(place)
    else:
        yield from _mail_file(place)


def _maildir(boxes: List[Path]) -> Iterator[MailFile]:
    files = sorted((it for box in boxes for it in box.iterdir() if it.is_file()), key=lambda it: it.name)
    for it in files:
        flags = it.name.rpartition(":2,")[2] if ":2," in it.name else ""
        yield MailFile(str(it), it.read_bytes(), "S" in flags, "F" in flags, "R" in flags)


def _mail_folder(place: Path) -> Iterator[MailFile]:
    for it in sorted(place.rglob("*.eml")):
        if it.is_file():
            yield MailFile(str(it), it.read_bytes())


def _mail_file(place: Path) -> Iterator[MailFile]:
    with place.open("rb") as file:
        begin = file.read(5)
        file.seek(0)
        if begin == b"From ":
            yield from _mbox(str(place), file)
        else:
            yield MailFile(str(place), file.read())


def _mbox(origin: str, file: BinaryIO) -> Iterator[MailFile]:
    """The mails of an mbox, each behind a line that begins with `From `; lines of a mail that look like one have a `>` before them."""
    held: List[bytes] = []
    count, blank = 0, True
    for line in file:
        if blank and line.startswith(b"From "):
            if held:
                count += 1
                yield _mbox_mail(f"{origin}, mail {count}", held)
            held = [b""]
        else:
            held.append(line)
        blank = not line.strip(b"\r\n")
    if held:
        yield _mbox_mail(f"{origin}, mail {count + 1}", held)


def _mbox_mail(origin: str, lines: List[bytes]) -> MailFile:
    if len(lines) > 1 and not lines[-1].strip(b"\r\n"):
        lines = lines[:-1]
    raw = _QUOTED.sub(b"", b"".join(lines))
    headers = headers_of(split_head(raw)[0])
    status = str(headers.get("Status", "")) + str(headers.get("X-Status", ""))
    return MailFile(origin, raw, "R" in status, "F" in status, "A" in status)


def mbox_entry(raw: bytes, sender: str, time: str) -> bytes:
    """A mail as it stands in an mbox."""
    lines = _TO_QUOTE.sub(b">", raw.replace(b"\r\n", b"\n"))
    begin = f"From {re.sub(r'[^!-~]+', '-', sender) or 'MAILER-DAEMON'} {time}\n".encode("ascii")
    return begin + lines + (b"\n" if lines.endswith(b"\n") else b"\n\n")
