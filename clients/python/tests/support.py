"""What the tests share: the program, folders that go again, and mails to put in and out."""

from __future__ import annotations

import os
import random
import shutil
import stat
import subprocess
import sys
import tempfile
import time
import unittest
from email import policy
from email.message import EmailMessage
from pathlib import Path
from typing import List, Optional

from pstore import Store
from pstore.errors import BusyFile, ProgramMissing
from pstore.program import find_program

TOP = Path(__file__).resolve().parent.parent
MAILS = int(os.environ.get("PSTORE_TEST_MAILS", "200"))
"""How many mails go there and back. Fewer are for a program that was built with checks."""


def program() -> Optional[str]:
    """The built program. One that PSTORE names has to be there; without it, and without another, the tests that need one are skipped."""
    try:
        return find_program()
    except ProgramMissing:
        if "PSTORE" in os.environ:
            raise
        return None


def opened(file: str, seconds: float = 20) -> Store:
    """A store, also where a session that was killed still has its file for a moment."""
    end = time.monotonic() + seconds
    while True:
        try:
            return Store(file)
        except BusyFile:
            if time.monotonic() > end:
                raise
            time.sleep(0.1)


needs_program = unittest.skipUnless(program(), "no pstore program is built: ./pstore builds one, or PSTORE names it")


class InFolder(unittest.TestCase):
    """A test with a folder of its own, in memory where there is one, since nothing of it is to last."""

    def setUp(self) -> None:
        memory = "/dev/shm" if os.access("/dev/shm", os.W_OK) else None
        self.folder = Path(tempfile.mkdtemp(prefix="pstore-test-", dir=memory))
        self.addCleanup(shutil.rmtree, self.folder)
        self.file = str(self.folder / "mail.pst")

    def mail(self, *words: str, status: int = 0) -> str:
        """What `pstore-mail` says."""
        done = subprocess.run(
            [sys.executable, str(TOP / "pstore-mail"), self.file, *words], stdin=subprocess.DEVNULL, capture_output=True, env={**os.environ, "PYTHONIOENCODING": "utf-8", "TZ": "UTC"}
        )
        said = done.stdout.decode("utf-8")
        self.assertEqual((done.returncode, done.stderr.decode() if status == 0 else ""), (status, ""), said)
        return said if status == 0 else said + done.stderr.decode("utf-8")


class OverScript(InFolder):
    """A test over a program that is a script of its own."""

    def program(self, script: str) -> str:
        path = self.folder / "program"
        path.write_text(f"#!/bin/sh\n{script}\n")
        path.chmod(path.stat().st_mode | stat.S_IXUSR)
        return str(path)


TEXTS = {
    "utf-8": "Grüße aus Łódź, 日本 und 😀\n\n-- \nEnde",
    "iso-8859-1": "Füße, Straße, crème brûlée\n.\nEnde",
    "koi8-r": "Привет, как дела?\nХорошо.",
    "iso-2022-jp": "こんにちは、世界\n漢字",
    "gb18030": "你好,世界",
    "us-ascii": "Plain text.\n\tWith a tab, = signs and a line that ends with space \n>From here on.\n",
}
ENCODINGS = ("quoted-printable", "base64", "8bit", "7bit")


def generated(count: int, seed: int = 1) -> List[bytes]:
    """Mails of many kinds, each with its own Message-ID but for some that have none."""
    source = random.Random(seed)
    return [_generated(source, place) for place in range(count)]


def _generated(source: random.Random, place: int) -> bytes:
    if place % 10 == 7:
        return _raw(source, place)
    mail = EmailMessage(policy=policy.SMTP if place % 2 else policy.default)
    charset = source.choice(list(TEXTS))
    mail["From"] = source.choice(["Ann Ärmel <ann@example.org>", '"Bee, B." <bee@example.org>', "cee@example.org"])
    mail["To"] = "Dee <dee@example.org>, =?iso-8859-1?q?J=FCrgen?= <j@example.org>"
    if place % 3 == 0:
        mail["Cc"] = "list@example.org"
    mail["Subject"] = source.choice(["Re: ", "AW: ", ""]) + f"{place} " + TEXTS["utf-8" if place % 4 == 0 else "iso-8859-1"].split("\n")[0]
    mail["Date"] = f"Mon, {1 + place % 28} Jan 2024 10:00:00 +0200"
    if place % 25:
        mail["Message-ID"] = f"<{place}.{source.random()}@example.org>"
    mail["X-Long"] = "word " * source.randrange(60)
    encoding = source.choice([it for it in ENCODINGS if it != "7bit" or charset == "us-ascii"])
    mail.set_content(TEXTS[charset] * source.randrange(1, 4), charset=charset, cte=encoding)
    if place % 3 == 1:
        mail.add_alternative(f"<html><body><p>{TEXTS[charset]}</p></body></html>", subtype="html", charset=charset)
    for it in range(source.choice([0, 0, 1, 1, 3])):
        _attach(source, mail, it)
    if place % 6 == 5:
        inner = EmailMessage()
        inner["Subject"], inner["From"] = f"Inner {place}", "eff@example.org"
        inner.set_content("The inner one.")
        inner.add_attachment(b"inner", maintype="application", subtype="octet-stream", filename="inner.bin")
        mail.add_attachment(inner)
    return mail.as_bytes()


def _attach(source: random.Random, mail: EmailMessage, place: int) -> None:
    data = source.choice([b"", b"\0", source.randbytes(source.randrange(5000)), b"text\r\nlines\n"])
    name = source.choice(["a.bin", "b c.pdf", "Übersicht.xlsx", "日本.png", "x" * 120 + ".txt", "no ending"])
    if source.random() < 0.2:
        mail.add_attachment("Notes\nof two lines, ü\n", filename=f"{place}.txt")
    elif source.random() < 0.2:
        mail.add_attachment(data, maintype="image", subtype="png", cid=f"<{place}@example.org>", disposition="inline")
    else:
        mail.add_attachment(data, maintype="application", subtype="octet-stream", filename=name)


def _raw(source: random.Random, place: int) -> bytes:
    """Mails as programs with habits of their own spell them."""
    eol = source.choice([b"\n", b"\r\n"])
    head = b"Subject: caf\xe9 %d" % place if place % 20 == 7 else "Subject:naïve %d".encode("utf-8") % place
    lines = [head, b"From:  someone <some@example.org>", b"Message-ID: <raw%d@example.org>" % place, b"Date: Tue, 2 Jan 2024 03:04:05 -0000"]
    body = source.choice(
        [
            [b"", b"Just text, 8 bits: \xfc", b""],
            [b"Content-Type: text/plain; charset=nonsense", b"", b"caf\xe9"],
            [b"Content-Transfer-Encoding: quoted-printable", b"", b"a=3db =", b"c=20", b""],
            [b'Content-Type: multipart/mixed; boundary="=b"', b"", b"Preamble", b"--=b", b"", b"one", b"--=b  ", b"Content-Type: text/plain", b"", b"two", b"--=b--", b"Epilogue"],
            [b"Content-Type: multipart/digest; boundary=d", b"", b"--d", b"", b"Subject: first", b"", b"1", b"--d", b"", b"Subject: second", b"", b"2", b"--d--", b""],
            [b"Content-Type: application/pdf; name=x.pdf", b"Content-Transfer-Encoding: base64", b"", b"QUJD", b"REVG", b""],
            [b"Content-Type: multipart/mixed; boundary=never", b"", b"no parts at all", b""],
        ]
    )
    return eol.join(lines + body)


def large_mail() -> bytes:
    """A mail with an attachment as long as one may be."""
    mail = EmailMessage(policy=policy.SMTP)
    mail["Subject"], mail["From"], mail["Message-ID"] = "Large", "ann@example.org", "<large@example.org>"
    mail.set_content("See the attachment.")
    mail.add_attachment(random.Random(8).randbytes(8_000_000), maintype="application", subtype="octet-stream", filename="large.bin")
    return mail.as_bytes()
