"""The command `pstore-mail` over the built program."""

import mailbox
import os
import re
import shutil
import subprocess
import sys
import unittest
from collections import Counter
from email import message_from_bytes, policy
from email.message import Message
from pathlib import Path
from typing import Dict, Iterator, List, Tuple
from unittest.mock import patch

from pstore import Draft, Recipient, Store
from pstore.importing import STAGING, Importer
from pstore.mail_files import MailFile, mbox_entry
from pstore.mime_in import draft_of, message_id_of, text_of
from pstore.tags import TAGS
from tests.support import MAILS, TOP, InFolder, generated, large_mail, needs_program, opened


def write_mails(folder: Path, mails: List[bytes]) -> None:
    folder.mkdir()
    for place, it in enumerate(mails):
        (folder / f"{place:05d}.eml").write_bytes(it)


def by_id(folder: Path) -> Dict[str, bytes]:
    return {message_id_of(it.read_bytes()): it.read_bytes() for it in folder.iterdir()}


def lines_of(raw: bytes) -> bytes:
    """A mail as an mbox has its lines."""
    return raw.replace(b"\r\n", b"\n")


@needs_program
class ThereAndBack(InFolder):
    def setUp(self):
        super().setUp()
        Store.create(self.file).close()

    def test_mails_come_back_as_they_were(self):
        mails = [*generated(MAILS), large_mail()]
        write_mails(self.folder / "in", mails)
        self.assertEqual(self.mail("import", "Inbox/Old", str(self.folder / "in")), f"{len(mails)} new, 0 there before, 0 failed\n")
        self.mail("export", "Inbox/Old", str(self.folder / "out"))
        wanted, found = by_id(self.folder / "in"), by_id(self.folder / "out")
        self.assertEqual(wanted.keys(), found.keys())
        for ident, raw in wanted.items():
            self.assertEqual(found[ident], raw)
        self.assertEqual(self.mail("import", "Inbox/Old", str(self.folder / "in")), f"0 new, {len(mails)} there before, 0 failed\n")
        self.mail("export", "Inbox/Old", str(self.folder / "box"), "--mbox")
        box = mailbox.mbox(str(self.folder / "box"))
        self.assertEqual(len(box), len(mails))
        box.close()
        with Store(self.file) as store:
            self.assertEqual([it.name for it in store.root.folders()], ["Top of Personal Folders", "Search Root", "Deleted Items"])

    def test_mbox_and_maildir(self):
        mails = generated(9, 4)
        for place, it in enumerate(mails[:4]):
            box = self.folder / "maildir" / "cur"
            box.mkdir(parents=True, exist_ok=True)
            (box / f"{place}.host:2,{'S' if place else 'FR'}").write_bytes(it)
        (self.folder / "box").write_bytes(b"".join(mbox_entry(it, "x@y", "Mon Jan  1 00:00:00 2024") for it in mails[4:]))
        self.assertEqual(self.mail("import", "Both", str(self.folder / "maildir"), str(self.folder / "box")), "9 new, 0 there before, 0 failed\n")
        marks = re.findall(r"\d\d:\d\d  (\S{3})", self.mail("list", "Both"))
        self.assertEqual((len(marks), sum(it[0] == "u" for it in marks), sum(it[2] == "f" for it in marks)), (9, 6, 1))
        self.mail("export", "Both", str(self.folder / "out"))
        self.assertEqual({lines_of(it) for it in by_id(self.folder / "out").values()}, {lines_of(it) for it in mails})

    def test_a_mail_that_is_refused_leaves_nothing(self):
        def spoiled(raw: bytes, *marks: bool) -> Draft:
            draft = draft_of(raw, *marks)
            if b"Subject: two" in raw:
                draft.values[TAGS["size"]] = 7  # which no line sets
            return draft

        mails = [MailFile(it, f"Subject: {it}\n\nbody\n".encode("ascii")) for it in ("one", "two", "three")]
        with Store(self.file) as store, patch("pstore.importing.draft_of", spoiled):
            inbox = store.make_folder("Inbox")
            with Importer(store, inbox) as importer:
                *_, done = importer.run(mails)
            first, last = inbox.messages()
            self.assertEqual((first.subject, last.subject, last.id - first.id), ("one", "three", 0x20))
        self.assertEqual((done.new, done.there, len(done.failed)), (2, 0, 1))
        self.assertTrue(done.failed[0].startswith("two: no protected"), done.failed)

    def test_a_mail_that_is_too_large(self):
        mails = [large_mail().replace(b"Content-Type: application", b"X-More: 1\r\nContent-Type: application"), b"Subject: next\n\nbody\n"]
        mails[0] = re.sub(rb"(\r\n[A-Za-z0-9+/]{76}){2}\r\n", lambda it: it[0] * 3, mails[0], count=1)
        write_mails(self.folder / "in", mails)
        said = self.mail("import", "Inbox", str(self.folder / "in"), status=1)
        self.assertIn("1 new, 0 there before, 1 failed\n", said)
        self.assertIn("where an attachment may have 8000000", said)


INNER = (
    b"From: Eff <eff@example.org>\r\nTo: Gee <gee@example.org>\r\nSubject: The inner one\r\nX-Mine:  kept\r\nMessage-ID: <inner@x>\r\n"
    b"MIME-Version: 1.0\r\nContent-Type: text/plain; charset=utf-8\r\nContent-Transfer-Encoding: 8bit\r\n\r\nGr\xc3\xbc\xc3\x9fe,\r\nEff\r\n"
)
OUTER = (
    b"From: Ann <ann@example.org>\r\nSubject: The outer one\r\nMessage-ID: <outer@x>\r\nMIME-Version: 1.0\r\nContent-Type: multipart/mixed; boundary=b\r\n\r\n"
    b"--b\r\n\r\nSee below.\r\n--b\r\nContent-Type: message/rfc822\r\n\r\n" + INNER + b"\r\n--b--\r\n"
)
PLAIN = b"From: Ann <ann@example.org>\r\nSubject: Outer\r\nMessage-ID: <plain@x>\r\n\r\nSee below.\r\n"
PARTS = (
    b"From: Eff <eff@example.org>\r\nSubject: With a part\r\nMessage-ID: <parts@x>\r\nMIME-Version: 1.0\r\nContent-Type: multipart/mixed; boundary=b\r\n\r\n"
    b'--b\r\n\r\nThe text.\r\n--b\r\nContent-Type: application/pdf; name="n.pdf"\r\nContent-Transfer-Encoding: base64\r\n\r\nQUJD\r\n--b--\r\n'
)


@needs_program
class Nested(InFolder):
    def setUp(self):
        super().setUp()
        Store.create(self.file).close()

    def exported(self, *told: str, status: int = 0) -> Dict[str, Message]:
        """The mails of the folder by their ids, as an export writes them that tells this."""
        said = self.mail("export", "Inbox", str(self.folder / "out"), status=status)
        for it in told:
            self.assertIn(it, said)
        return {ident: message_from_bytes(raw, policy=policy.default) for ident, raw in by_id(self.folder / "out").items()}

    def check_inner(self, inner: Message) -> None:
        wanted = message_from_bytes(INNER, policy=policy.default)
        self.assertEqual(inner.items(), wanted.items())
        self.assertEqual(inner.get_content().splitlines(), wanted.get_content().splitlines())

    def test_a_mail_in_a_mail_that_was_imported(self):
        write_mails(self.folder / "in", [OUTER])
        self.mail("import", "Inbox", str(self.folder / "in"))
        mail = self.exported("1 written, 0 parts left out\n")["<outer@x>"]
        body, part = mail.iter_parts()
        self.assertEqual((body.get_content().strip(), part.get_content_type()), ("See below.", "message/rfc822"))
        self.check_inner(part.get_content())
        self.assertEqual(by_id(self.folder / "out"), {"<outer@x>": OUTER})

    def test_a_message_that_was_embedded(self):
        write_mails(self.folder / "in", [INNER, PLAIN])
        self.mail("import", "Inbox", str(self.folder / "in"))
        with Store(self.file) as store:
            inner, outer = store.folder("Inbox").messages()
            outer.embed(inner, "The inner one")
            inner.remove()
        before = Path(self.file).read_bytes()
        mail = self.exported("1 written, 0 parts left out\n")["<plain@x>"]
        self.assertEqual(Path(self.file).read_bytes(), before)
        body, part = mail.iter_parts()
        self.assertEqual((mail["Subject"], body.get_content().strip()), ("Outer", "See below."))
        self.assertEqual((part.get_content_type(), part.get_filename()), ("message/rfc822", "The inner one.eml"))
        self.check_inner(part.get_content())

    def test_a_message_that_came_by_no_transport(self):
        values = {TAGS["subject"]: "Hello", TAGS["body"]: "A line.\r\n", TAGS["sender"]: "Eff", TAGS["sender_address"]: "eff@example.org"}
        with Store(self.file) as store:
            inbox = store.make_folder("Inbox")
            inner = inbox.add(Draft(values=values, recipients=[Recipient(1, "gee@example.org", "Gee"), Recipient(2, "dee@example.org", "")]))
            outer = inbox.add(Draft(values={TAGS["message_id"]: "<outer@x>"}))
            outer.embed(inner, "mail.msg")
            inner.remove()
        mail = self.exported("1 written, 0 parts left out\n")["<outer@x>"]
        _, part = mail.iter_parts()
        inner = part.get_content()
        self.assertEqual([str(inner[it]) for it in ("From", "To", "Cc", "Subject")], ["Eff <eff@example.org>", "Gee <gee@example.org>", "dee@example.org", "Hello"])
        self.assertEqual((inner.get_content().strip(), part.get_filename()), ("A line.", "mail.eml"))

    def test_attachments_of_an_embedded_message_are_left_out(self):
        write_mails(self.folder / "in", [PARTS, PLAIN])
        self.mail("import", "Inbox", str(self.folder / "in"))
        with Store(self.file) as store:
            inner, outer = store.folder("Inbox").messages()
            outer.embed(inner, "mail")
            inner.remove()
        mail = self.exported("1 written, 1 parts left out\n", "in attachment 0x8025 'mail': attachment 0x8025 'n.pdf' has no bytes that the program reads, and is left out\n", status=1)["<plain@x>"]
        _, part = mail.iter_parts()
        body, note = part.get_content().iter_parts()
        self.assertEqual((part.get_content()["Subject"], body.get_content().strip(), note.get_content_type()), ("With a part", "The text.", "text/plain"))
        self.assertIn("'n.pdf' was left out", note.get_content())


@needs_program
class Words(InFolder):
    def test_each_command(self):
        Store.create(self.file).close()
        first = b"Subject: First invoice\nFrom: Ann <ann@example.org>\nTo: Bee <bee@example.org>\nDate: Mon, 1 Jan 2024 10:00:00 +0000\nMessage-ID: <1@x>\n"
        parts = b'MIME-Version: 1.0\nContent-Type: multipart/mixed; boundary=b\n\n--b\n\nHello.\x1b[2J\n--b\nContent-Type: text/plain; name="n.txt"\n\nnote\n--b--\n'
        (self.folder / "a.eml").write_bytes(first + parts)
        (self.folder / "b.eml").write_bytes(b"Subject: Second\nFrom: cee@example.org\nDate: Tue, 2 Jan 2024 10:00:00 +0000\nContent-Type: text/html\n\n<p>Second <b>one</b></p>\n")
        self.mail("import", "Inbox", str(self.folder / "a.eml"))
        self.mail("import", "Inbox/Lists", str(self.folder / "b.eml"))
        self.assertEqual(self.mail("tree"), "Inbox  1\n  Lists  1\n")
        self.assertEqual(self.mail("tree", "Inbox/Lists"), "Lists  1\n")
        self.assertEqual(self.mail("list", "Inbox"), "    1  2024-01-01 10:00  ua-  Ann                       First invoice\n")
        wanted = "Date: 2024-01-01 10:00\nFrom: Ann <ann@example.org>\nTo: Bee <bee@example.org>\nSubject: First invoice\nAttachments: 1 n.txt (4 bytes)\n\nHello.\ufffd[2J\n"
        self.assertEqual(self.mail("show", "Inbox", "1"), wanted)
        self.assertIn("\n\nSecond one\n", self.mail("show", "Inbox/Lists", "1"))
        self.mail("save", "Inbox", "1", "n.txt", str(self.folder / "saved"))
        self.assertEqual((self.folder / "saved").read_bytes(), b"note")
        self.assertEqual(self.mail("find", "subject:INV", "from:ann"), "Inbox  1  2024-01-01 10:00  ua-  Ann                       First invoice\n")
        self.assertEqual(self.mail("find", "since:2024-01-03"), "")
        self.assertEqual(self.mail("find", "since:2024-01-02", "before:2024-01-03", "--keep", "January 2").split()[0], "Inbox/Lists")
        self.assertEqual(self.mail("tree", "/Search Root"), "Search Root  0\n  January 2  1  (search)\n")
        self.check_refusals()

    def check_refusals(self):
        for words, status in (
            (["list", "Nowhere"], 1), (["show", "Inbox", "7"], 1), (["save", "Inbox", "1", "other", "x"], 1), (["import", "Inbox", "/missing.eml"], 1), (["nonsense"], 2), (["list"], 2),
            (["find", "since:today"], 2), (["export", "Inbox", str(self.folder / "a.eml"), "--mbox"], 1),
        ):  # fmt: skip
            with self.subTest(words=words):
                self.assertIn("pstore-mail", self.mail(*words, status=status))


KILLER = """
import os, signal, sys
from contextlib import contextmanager
from pstore import cli, drafts, errors, store
lines, left = drafts.Draft.lines, [int(sys.argv[1])]
def some(self, message):
    left[0] -= 1
    for place, it in enumerate(lines(self, message)):
        if left[0] == 0 and place == 7:
            os.killpg(0, signal.SIGKILL)
        yield it
@contextmanager
def none(self):
    raise errors.TransactionLimitRefusal("begin", "limit transaction")
    yield
drafts.Draft.lines = some
if sys.argv[2] == "lines":
    store.Store.transaction = none
cli.main(sys.argv[3:])
"""


@needs_program
class Stopped(InFolder):
    def test_a_kill_in_the_middle_and_a_second_start(self):
        """The mail in hand is not there at all, neither in the folder nor anywhere else."""
        mails = self.check_killed("transactions")
        with opened(self.file) as store:
            self.assertEqual(len(store.folder("Inbox").messages()), 5)
            self.assertEqual(sum(len(messages) for _, _, messages in store.walk(store.root)), 5)
            self.assertNotIn(STAGING, [it.name for it in store.root.folders()])
        self.check_second_start(mails)

    def test_a_kill_where_mails_are_too_large_for_a_transaction(self):
        mails = self.check_killed("lines")
        with opened(self.file) as store:
            self.assertEqual(len(store.folder("Inbox").messages()), 5)
            self.assertEqual(len(store.folder(f"/{STAGING}").messages()), 1)
        self.check_second_start(mails)

    def check_killed(self, how: str) -> List[bytes]:
        Store.create(self.file).close()
        mails = generated(12, 5)
        write_mails(self.folder / "in", mails)
        words = [sys.executable, "-c", KILLER, "6", how, self.file, "import", "Inbox", str(self.folder / "in")]
        killed = subprocess.run(words, start_new_session=True, env={**os.environ, "PYTHONPATH": str(TOP)}, capture_output=True)
        self.assertEqual(killed.returncode, -9)
        return mails

    def check_second_start(self, mails: List[bytes]) -> None:
        self.assertEqual(self.mail("import", "Inbox", str(self.folder / "in")), "7 new, 5 there before, 0 failed\n")
        self.mail("export", "Inbox", str(self.folder / "out"))
        self.assertEqual(sorted(it.read_bytes() for it in (self.folder / "out").iterdir()), sorted(mails))
        with Store(self.file) as store:
            self.assertNotIn(STAGING, [it.name for it in store.root.folders()])


@needs_program
class BesideReadpst(InFolder):
    @unittest.skipUnless(shutil.which("readpst"), "readpst (Debian: pst-utils) isn't installed, so its export isn't compared")
    def test_both_exports_say_the_same(self):
        Store.create(self.file).close()
        mails = [it for it in generated(16, 6) if b"Message-ID: <" in it and not it.startswith(b"Subject")]
        write_mails(self.folder / "in", mails)
        self.mail("import", "Inbox", str(self.folder / "in"))
        self.mail("export", "Inbox", str(self.folder / "ours"))
        (self.folder / "theirs").mkdir()
        subprocess.run(["readpst", "-j", "0", "-q", "-e", "-o", str(self.folder / "theirs"), self.file], check=True, capture_output=True)
        ours, theirs = (_told(self.folder / it) for it in ("ours", "theirs"))
        self.assertEqual(ours.keys(), theirs.keys())
        for ident, (sender, subject, attached) in ours.items():
            self.assertEqual(theirs[ident][:2], (sender, subject))
            self.assertEqual(attached - theirs[ident][2], Counter())


def _told(folder: Path) -> Dict[str, Tuple[str, str, Counter]]:
    """What both exports must say of each mail by its Message-ID: from whom it is, its subject, and the bytes of what is attached by a name. readpst leaves empty attachments out."""
    found = {}
    for it in folder.rglob("*.eml"):
        mail = message_from_bytes(it.read_bytes())
        attached = Counter(part.get_payload(decode=True) for part in _leaves(mail) if part.get_filename())
        del attached[b""]
        found[str(mail["Message-ID"])] = (text_of(mail, "From"), text_of(mail, "Subject"), attached)
    return found


def _leaves(mail: Message) -> Iterator[Message]:
    """The parts of a mail that hold no others; a mail within it isn't looked into, since one of the two attaches it as a file."""
    if mail.get_content_maintype() == "multipart":
        for it in mail.get_payload():
            yield from _leaves(it)
    elif mail.get_content_type() != "message/rfc822":
        yield mail
