"""The command `pstore-mail`: mail into a store, out of it, and a look at what is there."""

from __future__ import annotations

import argparse
import os
import re
import sys
import time
from datetime import datetime, timezone
from pathlib import Path
from typing import Callable, Dict, Iterator, List, Optional, Sequence, TextIO, Tuple

from .errors import NotFound, PstoreError
from .folders import Folder
from .html_text import text_of_html
from .importing import Imported, Importer
from .mail_files import MailFile, mails_in, mbox_entry
from .messages import Message
from .mime_out import mail_of
from .program import find_program, knows_look
from .searches import RECURSIVE, RESTART, STATIC, BadSearch, restriction_of
from .store import Store, join_path
from .tags import FLAGGED, HAS_ATTACHMENT, READ

DONE, FAILED, USAGE = 0, 1, 2

FIND = "pstore-mail find"
"""The name of a search folder that goes again once it was listed."""

_FIELDS = ("received", "sent", "representing", "sender", "subject", "flags", "flag_status")


def main(words: Optional[Sequence[str]] = None) -> int:
    """Does what the words of the command line say, and gives the status: 0 done, 1 something failed, 2 no such words."""
    asked = _parser().parse_args(words)
    try:
        return asked.does(asked)
    except BadSearch as error:
        return _fail(error, USAGE)
    except BrokenPipeError:
        os.dup2(os.open(os.devnull, os.O_WRONLY), sys.stdout.fileno())
        return FAILED
    except (PstoreError, OSError) as error:
        return _fail(error)
    except KeyboardInterrupt:
        return _fail("stopped")


def _fail(error: object, status: int = FAILED) -> int:
    print(f"pstore-mail: {error}", file=sys.stderr)
    return status


def _parser() -> argparse.ArgumentParser:
    parser = argparse.ArgumentParser(prog="pstore-mail", description="Mail in a .pst file: look at it, put some in, take some out.")
    parser.add_argument("file", metavar="FILE", help="the store")
    commands = parser.add_subparsers(dest="command", metavar="COMMAND", required=True)

    def command(name: str, does: Callable, words: Sequence[str], text: str) -> argparse.ArgumentParser:
        made = commands.add_parser(name, help=text, description=text)
        made.set_defaults(does=does)
        for it in words:
            made.add_argument(it.lower().strip("[]."), metavar=it.strip("[]."), nargs=_count(it), help=_HELP[it])
        return made

    command("tree", tree, ["[PATH]"], "folders with their numbers of messages, recursively")
    command("list", list_messages, ["PATH"], "the messages of a folder: number, date, flags, sender, subject")
    command("show", show, ["PATH", "N"], "headers and body of a message")
    text = "mails into a folder, which is made where it isn't there; those that are there are passed over"
    command("import", import_mails, ["PATH", "MAIL.."], text)
    export = command("export", export_mails, ["PATH", "TO"], "the messages of a folder as .eml files, or as one mbox")
    export.add_argument("--mbox", action="store_true", help="write one mbox, TO, in place of .eml files in the folder TO")
    command("save", save, ["PATH", "N", "ATTACHMENT", "TO"], "one attachment as a file")
    find_words = command("find", find, ["WORDS.."], "messages by subject:, from:, since: and before:, in all folders")
    find_words.add_argument("--keep", metavar="NAME", help="keep the search folder under this name")
    return parser


_HELP = {
    "[PATH]": "a folder, as Inbox/Lists; without it all of the user's",
    "PATH": "a folder, as Inbox/Lists",
    "N": "the number of a message as `list` gives it, or its id, as 0x200024",
    "MAIL..": ".eml files, mbox files, Maildir folders and folders of .eml files",
    "TO": "where to write",
    "ATTACHMENT": "an attachment by its name, its id or its place, counted from 1",
    "WORDS..": "what to look for; a word without a key is one of the subject, and 2024-05-31 is a day",
}


def _count(word: str) -> Optional[str]:
    return "?" if word.startswith("[") else "+" if word.endswith("..") else None


def _read_only(file: str) -> Store:
    """The store for reading alone, where the program knows how."""
    return Store.look(file) if knows_look(find_program()) else Store(file)


def tree(asked: argparse.Namespace) -> int:
    with _read_only(asked.file) as store:
        for names, folder, messages in store.walk(store.folder(asked.path or "")):
            if names or asked.path:
                _say(f"{'  ' * max(0, len(names) - 1 + bool(asked.path))}{folder.name}  {len(messages)}{_KINDS[folder.kind]}")
    return DONE


_KINDS = {"folder": "", "search": "  (search)", "foreign": "  (search of another program)"}


def list_messages(asked: argparse.Namespace) -> int:
    with _read_only(asked.file) as store:
        folder = store.folder(asked.path)
        for number, line in enumerate(_lines(folder, folder.messages()), 1):
            _say(f"{number:>5}  {line}")
    return DONE


def _lines(folder: Folder, messages: List[Message]) -> Iterator[str]:
    """A line for each message: date, flags, sender, subject. The flags are `u` unread, `a` with an attachment, `f` flagged."""
    for received, sent, from_name, sender, subject, flags, flagged in folder.values(messages, *_FIELDS):
        flags = flags or 0
        marks = f"{'-' if flags & READ else 'u'}{'a' if flags & HAS_ATTACHMENT else '-'}{'f' if flagged == FLAGGED else '-'}"
        subject = str(subject or "")
        subject = subject[2:] if subject.startswith("\x01") else subject
        yield f"{_day(received or sent)}  {marks}  {_fit(_text(from_name or sender), 24)}  {_one_line(subject)}"


def show(asked: argparse.Namespace) -> int:
    with _read_only(asked.file) as store:
        message = _message(store, asked.path, asked.n)
        people: Dict[str, List[str]] = {"To": [], "Cc": [], "Bcc": []}
        for it in message.recipients:
            name = {1: "To", 2: "Cc", 3: "Bcc"}.get(it.type & 0xF)
            if name:
                people[name].append(it.address if it.name in ("", it.address) else f"{it.name} <{it.address}>")
        sender, address = message.get("representing") or message.sender, message.get("representing_address") or message.sender_address
        told = {
            "Date": _day(message.sent or message.received),
            "From": sender if address in (None, sender) else f"{sender or ''} <{address}>",
            **{name: ", ".join(it) for name, it in people.items()},
            "Subject": message.subject,
            "Attachments": ", ".join(f"{place} {it.name} ({it.length} bytes)" for place, it in enumerate(message.attachments, 1)),
        }
        for name, value in told.items():
            if value:
                _say(f"{name}: {_one_line(str(value))}")
        _say("")
        _say(_safe(_body(message)).rstrip("\n"))
    return DONE


def _body(message: Message) -> str:
    body = message.body
    if isinstance(body, str):
        return body.replace("\r\n", "\n")
    html = message.html
    return text_of_html(html, message.get("codepage")) if isinstance(html, bytes) else ""


def import_mails(asked: argparse.Namespace) -> int:
    for it in asked.mail:
        os.stat(it)
    with Store(asked.file) as store, Progress("mails") as progress:
        done = Imported()
        with Importer(store, store.make_folder(asked.path)) as importer:
            for done in importer.run(_mails(asked.mail)):
                progress.tell(done.seen)
        progress.end()
        for it in done.failed:
            _fail(it)
        _say(f"{done.new} new, {done.there} there before, {len(done.failed)} failed")
        store.save()
    return FAILED if done.failed else DONE


def _mails(paths: Sequence[str]) -> Iterator[MailFile]:
    for it in paths:
        yield from mails_in(it)


def export_mails(asked: argparse.Namespace) -> int:
    with _read_only(asked.file) as store, Progress("mails") as progress:
        messages = store.folder(asked.path).messages()
        lost: List[str] = []
        write = _write_mbox if asked.mbox else _write_files
        for count, missing in enumerate(write(messages, Path(asked.to)), 1):
            progress.tell(count, len(messages))
            lost += missing
        progress.end()
        for it in lost:
            _fail(it)
        _say(f"{len(messages)} written, {len(lost)} parts left out")
    return FAILED if lost else DONE


def _write_files(messages: List[Message], to: Path) -> Iterator[List[str]]:
    """Each message as a file, which is there as a whole or not at all."""
    to.mkdir(parents=True, exist_ok=True)
    for it in messages:
        mail = mail_of(it)
        _write_whole(to / f"{it.id:08x}{_file_name(it)}.eml", mail.raw)
        yield _lost(it, mail.lost)


def _file_name(message: Message) -> str:
    """What of a subject can stand in the name of a file, behind a dash."""
    name = re.sub(r"[^\w.-]+", "-", message.listing.subject if message.listing else "")
    name = name.encode("utf-8", "ignore")[:100].decode("utf-8", "ignore").strip("-.")
    return f"-{name}" if name else ""


def _write_mbox(messages: List[Message], to: Path) -> Iterator[List[str]]:
    """All messages as one mbox, in a file that isn't there before."""
    with to.open("xb") as file:
        for it in messages:
            mail = mail_of(it)
            when = it.received or it.sent or it.created or datetime.fromtimestamp(0, timezone.utc)
            sender = str(it.get("representing_address") or it.sender_address or "")
            file.write(mbox_entry(mail.raw, sender, time.asctime(when.utctimetuple())))
            yield _lost(it, mail.lost)


def _lost(message: Message, lost: Sequence[str]) -> List[str]:
    return [f"message 0x{message.id:x}: {it}, and is left out" for it in lost]


def save(asked: argparse.Namespace) -> int:
    with _read_only(asked.file) as store:
        attachment = _message(store, asked.path, asked.n).attachment(asked.attachment)
        to = Path(asked.to)
        if to.is_dir():
            to = to / (re.sub(r"[\x00-\x1f/\\]", "_", attachment.name).strip(". ") or "attachment")
        _write_whole(to, attachment.read())
        _say(f"{to}: {attachment.length} bytes")
    return DONE


def _write_whole(to: Path, data: bytes) -> None:
    part = to.with_name(f".{to.name}.part")
    part.write_bytes(data)
    os.replace(part, to)


def find(asked: argparse.Namespace) -> int:
    restriction = restriction_of(" ".join(asked.words))
    with Store(asked.file) as store:
        home = _search_home(store)
        if asked.keep is None:
            _drop_old(home)
        search = home.make_search(asked.keep or FIND)
        try:
            search.search(RESTART | RECURSIVE | (0 if asked.keep else STATIC), [store.top], restriction)
            found = search.messages()
            places = _places(store, {it.id for it in found})
            for it, line in zip(found, _lines(search, found)):
                path, number = places.get(it.id, ("?", 0))
                _say(f"{path}  {number}  {line}")
        except PstoreError:
            search.remove()
            raise
        if asked.keep is None:
            search.remove()
    return DONE


def _search_home(store: Store) -> Folder:
    """Where search folders stand: the root's folder for them, else the user's folders."""
    return next((it for it in store.root.folders() if it.name == "Search Root" and it.kind == "folder"), store.top)


def _drop_old(home: Folder) -> None:
    """Removes the search folder that a stopped `find` left."""
    try:
        home.child(FIND).remove()
    except NotFound:
        pass


def _places(store: Store, wanted: set) -> Dict[int, Tuple[str, int]]:
    """Of some messages the paths of their folders and their numbers there."""
    found: Dict[int, Tuple[str, int]] = {}
    for names, folder, messages in store.walk() if wanted else ():
        if folder.kind == "folder":
            path = join_path(names)
            found.update((it.id, (path, number)) for number, it in enumerate(messages, 1) if it.id in wanted)
    return found


def _message(store: Store, path: str, number: str) -> Message:
    """A message of a folder by its number or by its id."""
    messages = store.folder(path).messages()
    for place, it in enumerate(messages, 1):
        if number in (str(place), f"0x{it.id:x}"):
            return it
    raise NotFound(f"{path} holds no message {number}")


class Progress:
    """How far something is, on standard error where that is a terminal: a line, about ten times a second."""

    def __init__(self, what: str, to: TextIO = sys.stderr) -> None:
        self._what, self._to, self._shown = what, to, False
        self._begun = self._last = time.monotonic()

    def __enter__(self) -> "Progress":
        return self

    def __exit__(self, kind: object, error: object, trace: object) -> None:
        self.end()

    def tell(self, count: int, total: Optional[int] = None) -> None:
        now = time.monotonic()
        if not self._to.isatty() or now - self._last < 0.1:
            return
        self._last, self._shown = now, True
        of = f" of {total}" if total is not None else ""
        self._to.write(f"\r\x1b[K{count}{of} {self._what}, {count / max(now - self._begun, 0.001):.0f} a second")
        self._to.flush()

    def end(self) -> None:
        if self._shown:
            self._to.write("\r\x1b[K")
            self._to.flush()
            self._shown = False


def _say(line: str) -> None:
    encoding = sys.stdout.encoding or "utf-8"
    print(line.encode(encoding, "replace").decode(encoding))


def _safe(text: str) -> str:
    """Text without what would steer a terminal."""
    return re.sub(r"[\x00-\x08\x0b-\x1f\x7f-\x9f\u202a-\u202e\u2066-\u2069]", "\ufffd", text)


def _one_line(text: str) -> str:
    return _safe(" ".join(text.split()))


def _text(value: object) -> str:
    return value if isinstance(value, str) else ""


def _fit(text: str, width: int) -> str:
    text = _one_line(text)
    return (text if len(text) <= width else f"{text[: width - 1]}…").ljust(width)


def _day(value: object) -> str:
    return value.astimezone().strftime("%Y-%m-%d %H:%M") if isinstance(value, datetime) else "-" * 16
