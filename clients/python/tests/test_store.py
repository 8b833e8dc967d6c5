"""Stores, folders, messages and attachments over the built program."""

import unittest
from datetime import datetime, timezone
from pathlib import Path

from pstore import Attachment, Draft, Folder, Message, Pin, Recipient, Store, compact, decode, errors, fill, mend
from pstore.drafts import DraftAttachment
from pstore.program import find_program, knows_look
from pstore.searches import restriction_of
from pstore.tags import TAGS, Tag
from tests.support import TOP, InFolder, needs_program, opened, program


@needs_program
class Stores(InFolder):
    def test_folders_messages_and_attachments(self):
        with Store.create(self.file) as store:
            self.check_folders(store)
            message = self.check_message(store)
            self.check_attachments(message)
            self.check_whole_mail(store)
        with Store(self.file) as store:
            (message,) = store.folder("inbox/Lists").messages()
            self.assertEqual((message.subject, message.attachment("a b.txt").read()), ("Grüße", b"hello world"))

    def test_a_file_of_outlook_is_decoded(self):
        cases = TOP.parent.parent / "crates" / "cases" / "data"
        encoded = str(cases / "one_permuted.pst")
        with self.assertRaises(errors.EncodedFile):
            Store.look(encoded)
        self.assertEqual(decode(encoded, self.file), 29)
        self.assertEqual(Path(self.file).read_bytes(), (cases / "one.pst").read_bytes())
        with self.assertRaises(errors.FileNotEmpty):
            decode(encoded, self.file)
        with Store(self.file) as store:
            self.assertEqual([len(list(it.messages())) for it in store.top.folders()], [1])

    def test_a_store_is_compacted(self):
        cases = TOP.parent.parent / "crates" / "cases" / "data"
        self.assertEqual(compact(str(cases / "one.pst"), self.file), 271360)
        self.assertEqual(Path(self.file).read_bytes(), (cases / "one_compact.pst").read_bytes())
        with self.assertRaises(errors.FileNotEmpty):
            compact(str(cases / "one.pst"), self.file)

    def test_stale_searches_are_mended(self):
        stale = TOP.parent.parent / "crates" / "cases" / "data" / "stale_searches.pst"
        Path(self.file).write_bytes(stale.read_bytes())
        with self.assertRaises(errors.StaleSearch):
            Store(self.file)
        self.assertEqual(mend(self.file), (2, 1))
        with Store(self.file) as store:
            found = [len(list(it.messages())) for it in store.folder("/Search Root").folders()]
        self.assertEqual(found, [2, 1, 2, 1])

    def test_a_store_is_filled(self):
        Store.create(self.file).close()
        words = ["letter", "letter", "invoice"]  # by (1 + I) mod 3: 1, 2, 0
        sizes = [52 + 2 * len(f"{words[i % 3]} {i}") + 2 * 250 * i for i in range(30)]
        self.assertEqual(fill(self.file, 1, 30), (10, sum(sizes)))
        with self.assertRaises(errors.NameTakenRefusal):
            fill(self.file, 1, 30)
        with Store(self.file) as store:
            self.assertEqual([it.subject for it in store.folder("/Search Root/Find 1").messages()][:2], ["invoice 2", "invoice 5"])
            self.assertEqual(len(list(store.folder("Fill 1").messages())), 30)

    def test_a_pin_keeps_a_moment(self):
        with Store.create(self.file) as store:
            inbox = store.make_folder("Inbox")
            message = inbox.add(Draft(values={TAGS["subject"]: "Then"}, attachments=[DraftAttachment("a.txt", b"hello")]))
            with store.pin() as then:
                self.check_pin(then, message)
            for it in (lambda: then.folder("Inbox"), then.unpin):
                with self.assertRaises(errors.NoPin):
                    it()
            pins = [store.pin() for _ in range(16)]
            self.assertEqual([it.number for it in pins], list(range(2, 18)))
            with self.assertRaises(errors.PinLimitRefusal):
                store.pin()
            pins[3].unpin()
            self.assertEqual(store.pin().number, 18)
        with Store(self.file) as store:
            self.assertEqual([it.subject for it in store.folder("Inbox").messages()], ["Other"])
            with self.assertRaises(errors.NoPin):
                store.session.at(18).ask("ls 0x122")
        with Store.look(self.file) as store, self.assertRaises(errors.LineRefusal):
            store.pin()

    def check_pin(self, then: Pin, message: Message):
        self.assertEqual(then.number, 1)
        message.subject = "Now"
        message.attachment("a.txt").append(b" world")
        other = message.copy(then.store.folder("Inbox"))
        other.subject = "Other"
        (pinned,) = then.folder("Inbox").messages()
        self.assertEqual((message.subject, pinned.subject, pinned.attachment("a.txt").read()), ("Now", "Then", b"hello"))
        message.remove()
        self.assertEqual(([names for names, _, _ in then.walk()], pinned.body, pinned.subject), ([[], ["Inbox"]], None, "Then"))
        for it, kind in ((lambda: pinned.set(subject="Other"), errors.LineRefusal), (lambda: then.make_folder("Other"), errors.LineRefusal), (lambda: then.message(other.id).details, errors.ObjectRefusal)):
            with self.assertRaises(kind):
                it()

    def test_a_view_sorts_a_folder(self):
        with Store.create(self.file) as store:
            inbox = store.make_folder("Inbox")
            times = [datetime(2024, 1, day, tzinfo=timezone.utc) for day in (3, 1, 2)]
            first, second, third = [inbox.add(Draft(values={TAGS["subject"]: text, TAGS["received"]: time})) for text, time in zip("bAa", times)]
            with store.view(inbox, "subject") as view, store.view(inbox, "received", descending=True) as newest:
                self.assertEqual((view.number, newest.number), (1, 2))
                self.assertEqual([(it.id, value) for it, value in view.rows()], [(second.id, "A"), (third.id, "a"), (first.id, "b")])
                self.assertEqual(view.groups(), [("A", 2), ("b", 1)])
                self.assertEqual([value for _, value in newest.rows()], [times[0], times[2], times[1]])
                first.unset("subject")
                third.remove()
                self.assertEqual([(it.id, value) for it, value in view.rows()], [(first.id, None), (second.id, "A")])
                self.assertEqual(view.groups(), [(None, 1), ("A", 1)])
            for it in view.rows, view.groups, newest.close:
                with self.assertRaises(errors.NoView):
                    it()
            self.check_view_refusals(store, inbox)
        with Store(self.file) as store:
            with self.assertRaises(errors.NoView):
                store.session.ask("rows 3")
            self.assertEqual(store.view(store.folder("Inbox"), TAGS["flags"]).groups(), [(0, 2)])
        with Store.look(self.file) as store, self.assertRaises(errors.LineRefusal):
            store.view(store.folder("Inbox"), "subject")

    def check_view_refusals(self, store: Store, inbox: Folder):
        with self.assertRaises(errors.ColumnRefusal):
            store.view(inbox, "body")
        with store.pin() as then, self.assertRaises(errors.LineRefusal):
            then.session.ask(f"view 0x{inbox.id:x} 0x0037001f up")
        other = store.make_folder("Other")
        views = [store.view(it, "size") for it in [other] * 2 + [inbox] * 14]
        self.assertEqual([it.number for it in views], list(range(3, 19)))
        with self.assertRaises(errors.ViewLimitRefusal):
            store.view(inbox, "size")
        other.remove()
        with self.assertRaises(errors.NoView):
            views[0].rows()
        with self.assertRaises(errors.ObjectRefusal):
            store.view(other, "size")
        with store.view(inbox, "size") as view:
            self.assertEqual(view.number, 19)

    def test_a_message_in_an_attachment(self):
        with Store.create(self.file) as store:
            inbox = store.make_folder("Inbox")
            inner = inbox.add(Draft(values={TAGS["subject"]: "Hello"}, recipients=[Recipient(1, "a@b.c", "Ann")], attachments=[DraftAttachment("a.txt", b"hello")]))
            outer = inbox.add(Draft(values={TAGS["subject"]: "Outer"}, attachments=[DraftAttachment("b.txt", b"data")]))
            attachment = outer.embed(inner, "the mail.msg")
            self.assertEqual([(it.id, it.length, it.name) for it in outer.attachments], [(0x8025, 4, "b.txt"), (attachment.id, 8, "the mail.msg")])
            self.check_embedded(inner, attachment)
            self.check_embedded_refusals(inner, outer, attachment)
            inner.remove()
            copy = outer.copy(inbox)
            copy.attachment("the mail.msg").embedded.subject = "In the copy"
        with Store(self.file) as store:
            outer, copy = store.folder("Inbox").messages()
            self.assertEqual([it.attachment("the mail.msg").embedded.subject for it in (outer, copy)], ["Bye", "In the copy"])
            outer.attachment("the mail.msg").remove()
            self.assertEqual([it.name for it in outer.attachments], ["b.txt"])
            with store.pin() as then, self.assertRaises(errors.LineRefusal):
                then.message(copy.id).attachment("the mail.msg").embedded
        with Store.look(self.file) as store:
            found = store.message(copy.id).attachment("the mail.msg").embedded
            self.assertEqual((found.subject, found.recipients[0].address, found.attachments[0].name), ("In the copy", "a@b.c", "a.txt"))
            with self.assertRaises(errors.LineRefusal):
                found.subject = "Other"

    def check_embedded(self, inner: Message, attachment: Attachment):
        found = attachment.embedded
        self.assertEqual((found.subject, found.message_class, found.body, found.get("size")), ("Hello", "IPM.Note", None, inner.get("size")))
        self.assertEqual([(it.type, it.address, it.name) for it in found.recipients], [(1, "a@b.c", "Ann")])
        self.assertEqual([(it.id, it.length, it.name) for it in found.attachments], [(0x8025, 5, "a.txt")])
        size, outer_size = found.get("size"), attachment.message.get("size")
        found.set(subject="Bye", body="x" * 5000)
        found.read = True
        self.assertEqual((found.subject, found.body, found.flags, found.get("size")), ("Bye", "x" * 5000, 17, size - 4 + 10_000))
        found.unset("body")
        self.assertEqual((found.body, found.get("size"), attachment.message.get("size")), (None, size - 4, outer_size))
        self.assertEqual((inner.subject, inner.read), ("Hello", False))

    def check_embedded_refusals(self, inner: Message, outer: Message, attachment: Attachment):
        self.assertIsNone(outer.attachment("b.txt").embedded)
        for it, kind in (
            (attachment.read, errors.PropertyRefusal), (lambda: attachment.append(b"x"), errors.PropertyRefusal), (lambda: attachment.embedded.set(size=5), errors.ProtectedRefusal),
            (lambda: attachment.embedded.unset("html"), errors.PropertyRefusal), (lambda: outer.store.session.ask(f"eget 0x{outer.id:x} 0x8025 {TAGS['subject']}"), errors.NoEmbedded),
            (lambda: outer.embed(Message(outer.store, 0x999), "x"), errors.ObjectRefusal),
        ):  # fmt: skip
            with self.assertRaises(kind):
                it()
        # An attachment stands at level 1 and its message at level 2, so that of the fourth stands at level 8 and has no room for one of its own.
        folder = outer.store.make_folder("Deep")
        chain = [folder.add(Draft()) for _ in range(6)]
        for above, below in zip(chain[1:5], chain):
            above.embed(below, "x")
        with self.assertRaises(errors.NestingLimitRefusal):
            chain[5].embed(chain[4], "x")
        self.assertEqual(chain[4].attachment("x").embedded.attachments[0].length, 8)

    def check_folders(self, store: Store):
        self.assertEqual(store.top.name, "Top of Personal Folders")
        lists = store.make_folder("Inbox/Lists")
        self.assertEqual(store.make_folder("inbox/lists").id, lists.id)
        self.assertEqual([names for names, _, _ in store.walk()], [[], ["Inbox"], ["Inbox", "Lists"]])
        odd = store.make_folder(["A/B"])
        self.assertEqual(store.folder("A\\/B").id, odd.id)
        odd.rename("C")
        odd.move(lists)
        self.assertEqual(store.folder("/Top of Personal Folders/Inbox/Lists/C").id, odd.id)
        with self.assertRaises(errors.NotEmptyRefusal):
            lists.remove()
        odd.remove()
        with self.assertRaises(errors.NotFound):
            store.folder("Inbox/Lists/C")

    def check_message(self, store: Store):
        message = store.folder("Inbox/Lists").add(Draft())
        sent = datetime(2024, 1, 2, 3, 4, 5, tzinfo=timezone.utc)
        message.set(subject="Grüße", body="line\r\n\\line", sender="Ann", sent=sent)
        self.assertEqual((message.subject, message.body, message.sender, message.sent, message.html), ("Grüße", "line\r\n\\line", "Ann", sent, None))
        message.sender = None
        self.assertIsNone(message.sender)
        self.assertFalse(message.read)
        message.read = True
        self.assertTrue(message.read)
        message.add_recipient(1, "ann@example.org", "Ann  A")
        bee = message.add_recipient(2, "bee@example.org")
        self.assertEqual([(it.type, it.address, it.name) for it in message.recipients], [(1, "ann@example.org", "Ann  A"), (2, "bee@example.org", "bee@example.org")])
        message.remove_recipient(bee)
        self.assertEqual(len(message.recipients), 1)
        message.put({Tag(0x0037, 0x001F): "\x01\x05Re: Grüße"})
        self.assertEqual(message.subject, "Re: Grüße")
        message.subject = "Grüße"
        return message

    def check_attachments(self, message):
        message.attach("a b.txt", b"hello")
        with message.attach_stream("stream.bin") as sink:
            for _ in range(3):
                sink.write(b"\0" * 400_000)
        first, second = message.attachments
        self.assertEqual((second.length, second.read()), (1_200_000, b"\0" * 1_200_000))
        first.append(b" world")
        self.assertEqual(message.attachment("1").open().read(), b"hello world")
        second.remove()
        with self.assertRaises(errors.NotFound):
            message.attachment("stream.bin")

    def check_whole_mail(self, store: Store):
        folder = store.make_folder("Drafts")
        draft = Draft(values={TAGS["subject"]: "Whole"}, recipients=[Recipient(1, "a@b", "")], attachments=[DraftAttachment("", b"")])
        message = folder.add(draft)
        self.assertEqual((message.subject, message.attachments[0].name, message.copy(folder).id != message.id), ("Whole", "attachment", True))
        draft.values[TAGS["size"]] = 7
        with self.assertRaises(errors.ProtectedRefusal):
            folder.add(draft)
        self.assertEqual(len(folder.messages()), 2)
        message.move(store.folder("Inbox"))
        self.assertEqual(list(store.folder("Inbox").values(store.folder("Inbox").messages(), "subject", "body")), [["Whole", None]])


@needs_program
class Transactions(InFolder):
    def setUp(self):
        super().setUp()
        self.store = Store.create(self.file)
        self.addCleanup(self.store.close)
        self.inbox = self.store.make_folder("Inbox")

    def bytes(self):
        return Path(self.file).read_bytes()

    def test_a_mail_is_one_commit(self):
        before = self.bytes()
        with self.store.transaction():
            draft = Draft(values={TAGS["subject"]: "Whole"}, recipients=[Recipient(1, "a@b.c", "Ann")], attachments=[DraftAttachment("a.txt", b"hello")])
            message = self.inbox.add(draft)
            message.attachment("a.txt").append(b" world")
            self.assertEqual((message.subject, message.attachment("a.txt").read(), len(self.inbox.messages())), ("Whole", b"hello world", 1))
            self.assertEqual(self.bytes(), before)
        self.assertNotEqual(self.bytes(), before)
        self.store.close()
        with Store(self.file) as store:
            (message,) = store.folder("Inbox").messages()
            self.assertEqual((message.subject, [it.name for it in message.recipients], message.attachment("a.txt").read()), ("Whole", ["Ann"], b"hello world"))

    def test_a_rollback_leaves_nothing(self):
        message = self.inbox.add(Draft(values={TAGS["subject"]: "Hello"}, attachments=[DraftAttachment("a.txt", b"hello")]))
        before, listed = self.bytes(), message.details
        with self.assertRaises(ValueError), self.store.transaction():
            message.subject = "Other"
            message.attachment("a.txt").remove()
            made = self.inbox.add(Draft(values={TAGS["subject"]: "Made"}))
            message.move(self.store.make_folder("Other/Deep"))
            self.assertEqual(([it.id for it in self.inbox.messages()], message.attachments), ([made.id], []))
            raise ValueError
        self.assertEqual(self.bytes(), before)
        self.assertEqual((message.details, message.subject, message.attachment("a.txt").read()), (listed, "Hello", b"hello"))
        self.assertEqual([it.id for it in self.inbox.messages()], [message.id])
        with self.assertRaises(errors.NotFound):
            self.store.folder("Other")
        with self.assertRaises(errors.ObjectRefusal):
            made.get("subject")
        self.assertEqual(self.inbox.add(Draft()).id, made.id)

    def test_a_refusal_that_is_caught_leaves_it_open(self):
        with self.store.transaction():
            message = self.inbox.add(Draft())
            with self.assertRaises(errors.ObjectRefusal):
                self.store.message(0x999).set(subject="x")
            with self.assertRaises(errors.ProtectedRefusal):
                self.inbox.add(Draft(values={TAGS["size"]: 7}))
            message.subject = "Kept"
        self.assertEqual([it.subject for it in self.inbox.messages()], ["Kept"])

    def test_searches_follow_within(self):
        search = self.store.folder("/Search Root").make_search("Found")
        search.search(6, [self.inbox], restriction_of("subject:inv"))
        with self.assertRaises(ValueError), self.store.transaction():
            message = self.inbox.add(Draft(values={TAGS["subject"]: "Invoice"}))
            self.assertEqual([it.id for it in search.messages()], [message.id])
            raise ValueError
        self.assertEqual(search.messages(), [])
        with self.store.transaction():
            message = self.inbox.add(Draft(values={TAGS["subject"]: "Invoice"}))
        self.assertEqual([it.id for it in search.messages()], [message.id])

    def test_lines_that_wait_for_its_end(self):
        with self.store.pin() as then:
            with self.store.transaction():
                for line in ("begin", "save", "pin", "unpin 1", "at 1 ls 0x122", "at 2 ls 0x122"):
                    with self.subTest(line=line), self.assertRaises(errors.LineRefusal):
                        self.store.session.ask(line)
                self.inbox.add(Draft())
            self.assertEqual((len(then.folder("Inbox").messages()), len(self.inbox.messages())), (0, 1))
        for line in ("commit", "rollback"):
            with self.subTest(line=line), self.assertRaises(errors.LineRefusal):
                self.store.session.ask(line)
        self.store.save()

    def test_views_are_those_of_its_beginning_after_a_rollback(self):
        message = self.inbox.add(Draft(values={TAGS["subject"]: "Hello"}))
        view, closed = self.store.view(self.inbox, "subject"), self.store.view(self.inbox, "size")
        with self.assertRaises(ValueError), self.store.transaction():
            message.subject = "Bye"
            self.assertEqual([value for _, value in view.rows()], ["Bye"])
            closed.close()
            made = self.store.view(self.inbox, "flags")
            raise ValueError
        self.assertEqual(([value for _, value in view.rows()], len(closed.rows())), (["Hello"], 1))
        with self.assertRaises(errors.NoView):
            made.rows()
        self.assertEqual((made.number, self.store.view(self.inbox, "flags").number), (3, 4))

    def test_a_kill_within_leaves_nothing(self):
        before = self.bytes()
        with self.assertRaises(errors.SessionEnded), self.store.transaction():
            message = self.inbox.add(Draft(values={TAGS["subject"]: "Hello"}))
            self.store.session._process.kill()
            for _ in range(1000):
                message.set(body="x")
        self.assertEqual(self.bytes(), before)
        with opened(self.file) as store:
            inbox = store.folder("Inbox")
            self.assertEqual(inbox.messages(), [])
            with store.transaction():
                self.assertEqual(inbox.add(Draft()).id, message.id)
            self.assertEqual(len(inbox.messages()), 1)

    def test_the_end_of_the_session_within_leaves_nothing(self):
        with self.assertRaises(errors.PstoreError), self.store.transaction():
            self.inbox.add(Draft())
            self.store.close()
        with Store(self.file) as store:
            self.assertEqual(store.folder("Inbox").messages(), [])
        with Store.look(self.file) as store, self.assertRaises(errors.TransactionsMissing), store.transaction():
            self.fail("a store of look has a transaction")

    def test_one_that_is_too_large(self):
        """A copy of the message has some 986 blocks of the 16,384 that there may be."""
        message = self.inbox.add(Draft(attachments=[DraftAttachment("large.bin", bytes(8_000_000))]))
        with self.store.transaction():
            copies = [message.copy(self.inbox) for _ in range(16)]
            with self.assertRaises(errors.TransactionLimitRefusal):
                message.copy(self.inbox)
            for it in copies[1:]:
                it.remove()
            last = message.copy(self.inbox)
        self.assertEqual([it.id for it in self.inbox.messages()], [message.id, copies[0].id, last.id])
        self.assertEqual(last.attachment("large.bin").length, 8_000_000)


@needs_program
class Looking(InFolder):
    @unittest.skipUnless(program() and knows_look(find_program()), "the program has no word `look` yet")
    def test_nothing_is_written(self):
        with Store.create(self.file) as store:
            store.make_folder("Inbox").add(Draft(values={TAGS["subject"]: "Seen"}))
        (self.folder / "mail.pst.gate").unlink()
        (self.folder / "mail.pst").chmod(0o444)
        before = (self.folder / "mail.pst").read_bytes()
        with Store.look(self.file) as store:
            (message,) = store.folder("Inbox").messages()
            self.assertEqual(message.subject, "Seen")
            with self.assertRaises(errors.LineRefusal):
                store.make_folder("Other")
        self.assertEqual((before, ["mail.pst"]), ((self.folder / "mail.pst").read_bytes(), [it.name for it in self.folder.iterdir()]))
