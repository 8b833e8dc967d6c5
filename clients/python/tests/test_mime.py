"""Mails as drafts and back, without a program."""

import unittest
from datetime import datetime, timezone
from email import message_from_bytes, policy
from types import SimpleNamespace

from pstore import tags
from pstore.mail_files import _mbox, mbox_entry
from pstore.mime_in import decoded_words, draft_of, message_id_of
from pstore.mime_out import MAIL, NOTE, Attached, Content, _anew, _as_it_came, _entity
from pstore.mime_parts import Leaf, split
from pstore.replies import Recipient
from tests.support import generated, large_mail

NAMES = {tag: name for name, tag in tags.TAGS.items()}


def content_of(raw: bytes) -> Content:
    """What would be read of the message that a mail becomes."""
    draft = draft_of(raw)
    return Content({NAMES[tag]: it for tag, it in draft.values.items()}, [Attached(it.name, it.data) for it in draft.attachments])


class ThereAndBack(unittest.TestCase):
    def test_pieces_are_the_mail(self):
        for raw in generated(200, 2):
            self.assertEqual(b"".join(bytes(it) for it in split(raw)), raw)

    def test_mails_come_back_as_they_were(self):
        for raw in [*generated(200, 3), large_mail()]:
            self.assertEqual(_as_it_came(content_of(raw)), raw)

    def test_odd_ones_come_back(self):
        for raw in (b"Subject: x\n\nbody\n", b"Subject: x\r\n\r\nbody", b"\nonly body", b"Subject: \xe4\xff\n\n\xe4\xff\xfe", b"Content-Type: text/html\n\n\xff"):
            with self.subTest(raw=raw):
                self.assertEqual(_as_it_came(content_of(raw)), raw)

    def test_a_changed_body_is_told(self):
        content = content_of(b"Subject: x\nContent-Transfer-Encoding: quoted-printable\n\na=3db =\nc\n")
        content.values["body"] = "new\r\n"
        self.assertEqual(_as_it_came(content), b"Subject: x\nContent-Transfer-Encoding: quoted-printable\n\nnew\n")

    def test_another_attachment_asks_for_a_new_layout(self):
        content = content_of(b"Subject: x\n\nbody\n")
        content.attachments.append(Attached("a.bin", b"\0"))
        self.assertIsNone(_as_it_came(content))
        leaves = [it for it in split(_entity(content)) if isinstance(it, Leaf)]
        self.assertEqual([it.data for it in leaves], [b"body\r\n", b"\0"])


class Anew(unittest.TestCase):
    """Messages that came by no transport."""

    def test_headers_from_values(self):
        values = {
            "subject": "Grüße", "sent": datetime(2024, 1, 2, 3, 4, 5, tzinfo=timezone.utc), "representing": "Ann Ärmel", "representing_address": "ann@example.org",
            "sender": "Bee", "sender_address": "/O=ORG/CN=BEE", "message_id": "<1@x>", "body": "a\r\n" + "ü" * 2000, "html": b"<p>\xe4</p>", "codepage": 1252,
        }  # fmt: skip
        recipients = (Recipient(1, "cee@example.org", "Cee, C."), Recipient(2, "dee@example.org", ""), Recipient(3, "eff@example.org", "Eff"))
        raw = _anew(SimpleNamespace(recipients=recipients), Content(values, [Attached("a ü.pdf", b"\0"), Attached("b.eml", b"Subject: inner\n\nx")]))
        mail = message_from_bytes(raw, policy=policy.default)
        told = {name: str(mail[name]) for name in ("From", "Sender", "To", "Cc", "Bcc", "Subject", "Date", "Message-ID")}
        self.assertEqual(told["From"], "Ann Ärmel <ann@example.org>")
        self.assertEqual((told["To"], told["Cc"], told["Bcc"]), ('"Cee, C." <cee@example.org>', "dee@example.org", "Eff <eff@example.org>"))
        self.assertEqual((told["Subject"], told["Date"], told["Message-ID"]), ("Grüße", "Tue, 02 Jan 2024 03:04:05 +0000", "<1@x>"))
        self.assertIn("Bee", told["Sender"])
        self.assertEqual(mail.get_body(("plain",)).get_content().split(), ["a", "ü" * 2000])
        self.assertEqual(mail.get_body(("html",)).get_content().strip(), "<p>ä</p>")
        first, second = mail.iter_attachments()
        self.assertEqual((first.get_filename(), first.get_content(), second.get_content()["Subject"]), ("a ü.pdf", b"\0", "inner"))
        self.assertTrue(all(len(it) < 999 for it in raw.split(b"\r\n")))

    def test_names_that_no_header_carries(self):
        names = {"d\ne\ud800.pdf": "d_e_.pdf", "\0\x85.bin": "__.bin", "//[x": "//[x", "data:a/b c,": "data:a/b c,", "": None}
        raw = _anew(SimpleNamespace(recipients=()), Content({}, [Attached(it, b"\0") for it in names]))
        parts = list(message_from_bytes(raw, policy=policy.default).iter_attachments())
        self.assertEqual([it.get_filename() or None for it in parts], list(names.values()))
        self.assertEqual([it.get_content_type() for it in parts], ["application/pdf", *["application/octet-stream"] * 4])

    def test_a_mail_that_an_attachment_holds(self):
        raw = b"Subject: inner\r\nMIME-Version: 1.0\r\n\r\nx"
        content = Content({"body": "outer"}, [*(Attached(it, raw, MAIL) for it in ("a/b.MSG", "", "c\nd")), Attached("e.txt", b"left out", NOTE)])
        mail = message_from_bytes(_anew(SimpleNamespace(recipients=()), content), policy=policy.default)
        body, *mails, note = mail.iter_parts()
        self.assertEqual((body.get_content(), note.get_content(), note.get_content_type(), note.get_filename()), ("outer", "left out", "text/plain", None))
        self.assertEqual([it.get_filename() for it in mails], ["a/b.eml", "message.eml", "c_d.eml"])
        for it in mails:
            self.assertEqual((it.get_content_type(), it.get_content()["Subject"], it.get_content().get_content()), ("message/rfc822", "inner", "x"))

    def test_a_skeleton_tells_no_attachment_that_holds_a_mail(self):
        content = content_of(b"Subject: x\nContent-Type: application/pdf; name=a.pdf\nContent-Transfer-Encoding: base64\n\nQUJD\n")
        self.assertIsNotNone(_as_it_came(content))
        for kind in (MAIL, NOTE):
            content.attachments[0] = Attached("a.pdf", b"ABC", kind)
            self.assertIsNone(_as_it_came(content))

    def test_headers_as_they_came(self):
        told = "Subject: x\r\nX-Mine:  1\r\nContent-Type: multipart/mixed; boundary=b\r\n"
        raw = _anew(SimpleNamespace(recipients=()), Content({"headers": told, "body": "new"}, []))
        self.assertTrue(raw.startswith(b"Subject: x\r\nX-Mine:  1\r\nMIME-Version: 1.0\r\nContent-Type: text/plain"))

    def test_compressed_rtf_stays_as_it_is(self):
        mail = message_from_bytes(_anew(SimpleNamespace(recipients=()), Content({"rtf": b"LZFu"}, [])), policy=policy.default)
        (only,) = mail.iter_attachments()
        self.assertEqual((only.get_filename(), only.get_content()), ("body.rtf.lzfu", b"LZFu"))


class Properties(unittest.TestCase):
    def test_usual_ones(self):
        draft = draft_of(
            b"Subject: Re: =?utf-8?b?w6Q=?= =?utf-8?q?=C3=B6?=\nFrom: =?iso-8859-1?q?J=FCrgen?= <j@x>\nTo: \"B, C\" <b@x>, d@x\nCc: undisclosed:;\nDate: Mon, 1 Jan 2024 10:00:00 +0200\n"
            b"Received: by x; Mon, 1 Jan 2024 09:00:01 +0000\nImportance: High\nContent-Type: text/plain; charset=koi8-r\n\n\xd0\n"
        )
        values = {NAMES[tag]: it for tag, it in draft.values.items()}
        self.assertEqual((values["subject"], values["normalized_subject"], values["subject_prefix"]), ("Re: äö", "äö", "Re: "))
        self.assertEqual((values["sender"], values["sender_address"], values["to"], values["importance"]), ("Jürgen", "j@x", "B, C; d@x", 2))
        self.assertEqual((values["sent"].hour, values["received"].hour), (8, 9))
        self.assertEqual((values["body"], values["codepage"]), ("п\r\n", 20866))
        self.assertEqual([(it.type, it.address, it.name) for it in draft.recipients], [(1, "b@x", "B, C"), (1, "d@x", "")])

    def test_names_of_attachments(self):
        head = b"Content-Type: application/x; name*0*=utf-8''%C3%A4; name*1=b.x\n"
        for raw, name in ((head, "äb.x"), (b'Content-Disposition: attachment; filename="../../e.x"\n', "_.._e.x"), (b"Content-Type: image/png\n", "part-1")):
            with self.subTest(name=name):
                self.assertEqual(draft_of(raw + b"\nx").attachments[0].name, name)

    def test_encoded_words(self):
        self.assertEqual(decoded_words("a =?utf-8?q?=C3?= =?utf-8?q?=A4?= b =?nonsense?x?y?="), "a ä b =?nonsense?x?y?=")

    def test_a_mail_without_an_id(self):
        self.assertTrue(message_id_of(b"Subject: x\n\n").endswith("@pstore.invalid>"))
        self.assertNotEqual(message_id_of(b"Subject: x\n\n"), message_id_of(b"Subject: y\n\n"))


class Mbox(unittest.TestCase):
    def test_lines_that_look_like_a_beginning(self):
        mails = [b"Subject: x\n\nFrom here\n>From there\n\nFrom\n", b"Subject: y\n\nend\n\n"]
        box = b"".join(mbox_entry(it, "a b@c", "Mon Jan  1 00:00:00 2024") for it in mails)
        self.assertTrue(box.startswith(b"From a-b@c Mon"))
        self.assertEqual([it.raw for it in _mbox("box", iter(box.splitlines(keepends=True)))], mails)
