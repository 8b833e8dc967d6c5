"""Sessions: lines ahead, refusals, and ends."""

import os
import unittest
from datetime import datetime, timezone
from email import message_from_bytes, policy

from pstore import Draft, Recipient, errors
from pstore.importing import STAGING, Importer
from pstore.mail_files import MailFile
from pstore.mime_out import mail_of
from pstore.program import find_program
from pstore.session import Session
from pstore.store import Store
from pstore.tags import TAGS, Tag
from tests.support import InFolder, OverScript, needs_program


@needs_program
class Lines(unittest.TestCase):
    def test_replies_and_refusals(self):
        with Session(["scratch"]) as session:
            self.assertEqual(session.ask("mkdir 0x8022 A").id, 0x8082)
            for line, kind in (
                ("nonsense", errors.LineRefusal), ("mkdir 0x8022 ", errors.ValueRefusal), ("mkdir 0x9999 A", errors.ObjectRefusal), ("mkdir 0x8022 a", errors.NameTakenRefusal),
                ("rmdir 0x8022", errors.ProtectedRefusal), ("mvdir 0x8082 0x8082", errors.CycleRefusal), ("getcriteria 0x8082", errors.ReservedRefusal),
            ):  # fmt: skip
                with self.subTest(line=line), self.assertRaises(kind):
                    session.ask(line)
            answers = list(session.pipeline(["rename 0x8082 B", "no such line", "ls 0x8082"]))
            self.assertIsInstance(answers[1], errors.LineRefusal)
            self.assertEqual(answers[2].rest, "0")
            with self.assertRaises(errors.LineLimitRefusal):
                session.ask("x" * 1_048_577)

    def test_lines_far_ahead_of_their_replies(self):
        """More than the pipes hold in both directions, before the first reply is taken."""
        with Session(["scratch"]) as session:
            session.ask_all(f"mkdir 0x8022 {'long name ' * 20}{it}" for it in range(10))
            waiting = [(session.send("ls 0x8022"), session.send("x" * 3000)) for _ in range(60)]
            self.assertEqual({it.result().rest for it, _ in waiting}, {"10"})
            self.assertEqual({type(it.exception()) for _, it in waiting}, {errors.LineRefusal})

    def test_nothing_after_the_end(self):
        session = Session(["scratch"])
        session.close()
        session.close()
        with self.assertRaises(errors.PstoreError):
            session.ask("ls 0x122")

    def test_a_killed_program(self):
        session = Session(["scratch"])
        session.ask("ls 0x122")
        session._process.kill()
        with self.assertRaises(errors.SessionEnded) as caught:
            for _ in range(1000):
                session.ask("ls 0x122")
        self.assertEqual(caught.exception.status, -9)
        session.close()


@needs_program
class Files(InFolder):
    def test_refused_files(self):
        for name, data, kind in (("none", None, errors.EmptyFile), ("short", b"x" * 10, errors.ShortFile), ("other", b"x" * 9000, errors.NotPst)):
            path = self.folder / name
            if data is not None:
                path.write_bytes(data)
            with self.subTest(name=name), self.assertRaises(kind):
                Store(str(path))
        with self.assertRaises(errors.FileNotEmpty):
            Store.create(str(self.folder / "short"))


class Ends(OverScript):
    """Ends that a whole program comes to rarely, by one that just ends."""

    def test_each_status_is_an_exception(self):
        for status, kind, text in (
            (2, errors.WordsRefused, "words"), (4, errors.DiskFailed, "disk"), (5, errors.InputFailed, "input"), (6, errors.OutputFailed, "output"),
            (7, errors.NoMemory, "memory"), (8, errors.LinesSpent, "lines"), (9, errors.FileChanged, "changed 0x4400 1 2"), (77, errors.SessionEnded, ""),
        ):  # fmt: skip
            program = self.program(f"read line; echo 'ok 0'; read line; [ -z '{text}' ] || echo '{text}' >&2; exit {status}")
            with self.subTest(status=status):
                session = Session(["run", "FILE"], program)
                self.assertEqual(session.ask("first").rest, "0")
                with self.assertRaises(kind) as caught:
                    session.ask("second")
                self.assertEqual((caught.exception.status, caught.exception.text), (status, text))
                session.close()

    def test_an_end_that_shows_only_when_closing(self):
        session = Session(["run", "FILE"], self.program("read line; echo ok; echo disk >&2; exit 4"))
        with self.assertRaises(errors.DiskFailed):
            session.close()

    def test_a_refusal_with_its_advice(self):
        session = Session(["run", "FILE"], self.program("echo refused busy; echo 'another session has it' >&2; exit 3"))
        self.addCleanup(session.close)
        with self.assertRaises(errors.BusyFile) as caught:
            session.ask("ls 0x122")
        self.assertIn("another session has it", str(caught.exception))

    def test_what_is_no_reply(self):
        session = Session(["run", "FILE"], self.program("read line; echo what; cat >/dev/null"))
        self.addCleanup(session.close)
        with self.assertRaises(errors.ProtocolError):
            session.ask("ls 0x122")

    def test_a_program_that_is_not_there(self):
        with self.assertRaises(errors.ProgramMissing):
            find_program(os.path.join(str(self.folder), "missing"))


PINNED = """
while read -r line; do
  echo "$line" >>"$(dirname "$0")/asked"
  case "$line" in
    'ls 0x122' | 'at 1 ls 0x122') echo '- 0x8022 folder "Top of Personal Folders"'; echo 'ok 1' ;;
    pin) n=$((n + 1)); if [ $n = 2 ]; then echo 'no limit pins'; else echo "ok $n"; fi ;;
    'at 1 ls 0x8022') echo '- 0x8082 folder "Inbox"'; echo 'ok 1' ;;
    'at 1 ls 0x8082') echo '- 0x200024 message 62 "Hello"'; echo 'ok 1' ;;
    'at 1 get 0x200024 0x0037001f') echo 'ok "Hello"' ;;
    'at 1 props 0x200024') echo '- 0x0037001f 10'; echo '- attach 0x8025 2 "a.txt"'; echo 'ok 2' ;;
    'at 1 fetch 0x200024 0x8025') echo 'ok 6869' ;;
    'at 1 get 0x200024 '*) echo 'no property' ;;
    'at 1 ls '* | 'at 1 get '*) echo 'no object' ;;
    'at 2 ls '* | 'unpin 2') echo 'no pin' ;;
    'unpin 1' | quit) echo ok ;;
    *) echo 'no line' ;;
  esac
done
"""


class Pins(OverScript):
    """Which lines are sent for a pin, by a program that knows one folder with one message."""

    def setUp(self):
        super().setUp()
        self.store = Store("FILE", self.program(PINNED))
        self.addCleanup(self.store.close)

    def asked(self):
        return (self.folder / "asked").read_text().splitlines()

    def test_a_pin_is_read_as_a_store(self):
        with self.store.pin() as then:
            self.assertEqual((then.number, then.top.name), (1, "Top of Personal Folders"))
            (message,) = then.folder("Inbox").messages()
            self.assertEqual((message.subject, message.attachment("a.txt").read()), ("Hello", b"hi"))
            self.assertEqual([names for names, _, _ in then.walk()], [[], ["Inbox"]])
            self.assertEqual(list(then.folder("Inbox").values([message], "subject")), [["Hello"]])
            self.assertEqual(self.asked()[:3], ["ls 0x122", "pin", "at 1 ls 0x8022"])
        self.assertEqual(self.asked()[-1], "unpin 1")
        self.assertTrue(all(it.startswith("at 1 ") for it in self.asked()[2:-1]))

    def test_what_changes_something_is_refused_at_a_pin(self):
        with self.store.pin() as then:
            message = then.message(0x200024)
            for change in (lambda: message.set(subject="B"), message.remove, lambda: then.make_folder("Other"), lambda: then.top.add(Draft()), lambda: message.attach("b", b"")):
                with self.assertRaises(errors.LineRefusal):
                    change()
            with self.assertRaises(errors.ObjectRefusal):
                then.message(0x200044).get("subject")

    def test_the_end_of_a_pin(self):
        with self.store.pin() as then:
            then.unpin()
        self.assertEqual(self.asked().count("unpin 1"), 1)
        with self.assertRaises(errors.PinLimitRefusal):
            self.store.pin()
        with self.assertRaises(errors.NoPin):
            self.store.session.at(2).ask("ls 0x8022")
        with self.assertRaises(errors.NoPin):
            self.store.session.ask("unpin 2")

    def test_an_error_within_is_the_one_that_is_raised(self):
        with self.assertRaises(errors.ObjectRefusal):
            with self.store.pin() as then:
                then.number = 2  # so that its end is refused too
                then.message(0x200044).get("subject")


VIEWED = """
while read -r line; do
  echo "$line" >>"$(dirname "$0")/asked"
  case "$line" in
    'ls 0x122') echo '- 0x8022 folder "Top of Personal Folders"'; echo 'ok 1' ;;
    'ls 0x8022') echo '- 0x8082 folder "Inbox"'; echo 'ok 1' ;;
    'view 0x8082 0x0037001f up') echo 'ok 1' ;;
    'view 0x8082 0x0e060040 down') echo 'ok 2' ;;
    'view 0x8082 0x1000001f up') echo 'no column' ;;
    'view 0x8022 '*) echo 'no limit views' ;;
    'rows 1') echo '- 0x200064 none'; echo '- 0x200024 "1 \\u0022none\\u0022 2"'; echo '- 0x200044 "none"'; echo 'ok 3' ;;
    'groups 1') echo '- none 1'; echo '- "1 \\u0022none\\u0022 2" 1'; echo '- "none" 7'; echo 'ok 3' ;;
    'rows 2') echo '- 0x200024 133486382450000060'; echo '- 0x200044 none'; echo 'ok 2' ;;
    'groups 2') echo '- soon 1'; echo 'ok 1' ;;
    'rows 3' | 'groups 3' | 'unview 3') echo 'no view' ;;
    'get 0x200024 0x0037001f') echo 'ok "Hello"' ;;
    'get '*) echo 'no object' ;;
    'unview 1' | 'unview 2' | quit) echo ok ;;
    *) echo 'no line' ;;
  esac
done
"""


class Views(OverScript):
    """Which lines are sent for a view, and what is made of their replies, by a program that knows two views."""

    def setUp(self):
        super().setUp()
        self.store = Store("FILE", self.program(VIEWED))
        self.addCleanup(self.store.close)
        self.inbox = self.store.folder("Inbox")

    def asked(self):
        return (self.folder / "asked").read_text().splitlines()

    def test_rows_and_groups(self):
        with self.store.view(self.inbox, "subject") as view:
            self.assertEqual([(it.id, value) for it, value in view.rows()], [(0x200064, None), (0x200024, '1 "none" 2'), (0x200044, "none")])
            self.assertEqual(view.groups(), [(None, 1), ('1 "none" 2', 1), ("none", 7)])
            self.assertEqual(view.rows()[1][0].subject, "Hello")
        self.assertEqual([it for it in self.asked() if "view" in it], ["view 0x8082 0x0037001f up", "unview 1"])

    def test_times_from_the_last_on(self):
        view = self.store.view(self.inbox, 0x0E060040, descending=True)
        self.assertEqual(view.number, 2)
        self.assertEqual([value for _, value in view.rows()], [datetime(2024, 1, 2, 3, 4, 5, 6, timezone.utc), None])
        with self.assertRaises(errors.ProtocolError):
            view.groups()
        view.close()
        self.assertEqual(self.asked()[-1], "unview 2")

    def test_refusals(self):
        with self.assertRaises(errors.ColumnRefusal):
            self.store.view(self.inbox, "body")
        with self.assertRaises(errors.ViewLimitRefusal):
            self.store.view(self.store.top, Tag(0x0037, 0x1F), descending=True)
        self.assertEqual(self.asked()[-1], "view 0x8022 0x0037001f down")

    def test_the_end_of_a_view(self):
        with self.store.view(self.inbox, "subject") as view:
            view.close()
        self.assertEqual(self.asked().count("unview 1"), 1)
        with self.store.view(self.inbox, "subject") as view:
            view.number = 3  # as if its folder had been removed
            for it in view.rows, view.groups:
                with self.assertRaises(errors.NoView):
                    it()
        self.assertEqual(self.asked()[-1], "unview 3")
        with self.assertRaises(errors.NoView):
            view.close()

    def test_an_error_within_is_the_one_that_is_raised(self):
        with self.assertRaises(errors.ObjectRefusal):
            with self.store.view(self.inbox, "subject") as view:
                view.number = 4  # so that its end is refused too
                self.store.message(0x200044).get("subject")
        self.assertEqual(self.asked()[-1], "unview 4")


EMBEDDED = """
while read -r line; do
  echo "$line" >>"$(dirname "$0")/asked"
  case "$line" in
    'ls 0x122') echo '- 0x8022 folder "Top of Personal Folders"'; echo 'ok 1' ;;
    'props 0x200024') echo '- 0x0037001f 10'; echo '- attach 0x8025 8 "a.msg"'; echo '- attach 0x8045 2 "b"'; echo 'ok 3' ;;
    'eprops 0x200024 0x8025') echo '- 0x0037001f 6'; echo '- 0x0e070003 4'; echo '- rcpt 0 1 "a@b" "Ann"'; echo '- attach 0x8025 5 "c.txt"'; echo 'ok 4' ;;
    'eget 0x200024 0x8025 0x0037001f') echo 'ok "Bye"' ;;
    'eget 0x200024 0x8025 0x0e070003') echo 'ok 16' ;;
    'eget 0x200024 0x8025 '*) echo 'no property' ;;
    'eset 0x200024 0x8025 0x0e080003 5') echo 'no protected' ;;
    'eset 0x200024 0x8025 '* | 'eunset 0x200024 0x8025 0x0037001f') echo ok ;;
    'eprops 0x200024 0x8045' | 'eget 0x200024 0x8045 '* | 'eprops 0x200084 0x8025') echo 'no embedded' ;;
    'props 0x200084') printf '%s\\n' '- attach 0x8025 8 "o\\u000a.ole"' 'ok 1' ;;
    'fetch 0x200084 0x8025') echo 'no property' ;;
    'fetch 0x200024 0x8025') echo 'no property' ;;
    'fetch 0x200024 0x8045') echo 'ok 6869' ;;
    'get 0x200024 0x0037001f') echo 'ok "Outer"' ;;
    'at 1 props 0x200024') echo '- attach 0x8025 8 "a.msg"'; echo 'ok 1' ;;
    'at 1 fetch 0x200024 0x8025') echo 'no property' ;;
    pin) echo 'ok 1' ;;
    unpin*) echo ok ;;
    'embed 0x200024 0x200044 '*) echo 'ok 0x8065' ;;
    'embed 0x200024 0x200064 '*) echo 'no limit nesting' ;;
    quit) echo ok ;;
    *) echo 'no line' ;;
  esac
done
"""


class Embedded(OverScript):
    """Which lines are sent for messages in attachments, by a program that knows a message with two attachments."""

    def setUp(self):
        super().setUp()
        self.store = Store("FILE", self.program(EMBEDDED))
        self.addCleanup(self.store.close)
        self.message = self.store.message(0x200024)

    def asked(self):
        return (self.folder / "asked").read_text().splitlines()[1:]

    def test_what_an_attachment_holds(self):
        first, second = self.message.attachments
        self.assertIsNone(second.embedded)
        found = first.embedded
        self.assertEqual((found.subject, found.body, found.read, found.get("flags")), ("Bye", None, False, 16))
        self.assertEqual([(it.type, it.address, it.name) for it in found.recipients], [(1, "a@b", "Ann")])
        self.assertEqual([(it.id, it.length, it.name) for it in found.attachments], [(0x8025, 5, "c.txt")])
        self.assertEqual(self.asked()[:4], ["props 0x200024", "eprops 0x200024 0x8045", "eprops 0x200024 0x8025", "eget 0x200024 0x8025 0x0037001f"])
        self.assertEqual(self.asked().count("eprops 0x200024 0x8025"), 1)

    def test_it_is_told_as_a_mail(self):
        told = mail_of(self.message)
        self.assertEqual(told.lost, ["in attachment 0x8025 'a.msg': attachment 0x8025 'c.txt' has no bytes that the program reads"])
        mail = message_from_bytes(told.raw, policy=policy.default)
        _, inner, last = mail.iter_parts()
        self.assertEqual((mail["Subject"], inner.get_content_type(), inner.get_filename(), last.get_payload(decode=True)), ("Outer", "message/rfc822", "a.eml", b"hi"))
        inner = inner.get_content()
        self.assertEqual((inner["Subject"], inner["To"]), ("Bye", "Ann <a@b>"))
        body, note = inner.iter_parts()
        self.assertEqual((body.get_content().strip(), note.get_content().strip()), ("", "The attachment 'c.txt' was left out: the program reads no bytes of it."))

    def test_an_attachment_without_bytes_or_message_leaves_a_text(self):
        told = mail_of(self.store.message(0x200084))
        self.assertEqual(told.lost, [r"attachment 0x8025 'o\n.ole' has no bytes that the program reads"])
        _, note = message_from_bytes(told.raw, policy=policy.default).iter_parts()
        self.assertEqual(note.get_content().strip(), r"The attachment 'o\n.ole' was left out: the program reads no bytes of it.")

    def test_a_pin_tells_none(self):
        with self.store.pin() as then:
            told = mail_of(then.message(0x200024))
        self.assertEqual(told.lost, ["attachment 0x8025 'a.msg' has no bytes that the program reads"])
        self.assertIn(b"The attachment 'a.msg' was left out", told.raw)

    def test_values_are_given_and_taken_away(self):
        found = self.message.attachment("a.msg").embedded
        found.set(subject="a\nb", body=" c")
        found.read = True
        found.subject = "d"
        found.unset("subject")
        self.assertEqual(
            [it for it in self.asked() if it.startswith(("eset", "eunset"))],
            ["eset 0x200024 0x8025 0x0037001f a\\u000ab", "eset 0x200024 0x8025 0x1000001f  c", "eset 0x200024 0x8025 0x0e070003 17", "eset 0x200024 0x8025 0x0037001f d", "eunset 0x200024 0x8025 0x0037001f"],
        )
        with self.assertRaises(errors.ProtectedRefusal):
            found.set(size=5)
        self.assertEqual((len(found.details.values), len(self.message.attachments)), (2, 2))
        self.assertEqual((self.asked().count("eprops 0x200024 0x8025"), self.asked().count("props 0x200024")), (2, 2))

    def test_a_message_is_embedded(self):
        attachment = self.message.embed(self.store.message(0x200044), "the mail.msg")
        self.assertEqual((attachment.id, attachment.length, attachment.name), (0x8065, 8, "the mail.msg"))
        self.assertEqual(self.message.embed(self.store.message(0x200044), "").name, "message")
        with self.assertRaises(errors.NestingLimitRefusal):
            self.message.embed(self.store.message(0x200064), "x" * 300)
        self.assertEqual(self.asked(), ["embed 0x200024 0x200044 the mail.msg", "embed 0x200024 0x200044 message", f"embed 0x200024 0x200064 {'x' * 255}"])
        with self.assertRaises(errors.LineRefusal):
            attachment.embedded


TRANSACTED = """
while read -r line; do
  echo "$line" >>"$(dirname "$0")/asked"
  case "$line" in
    'ls 0x122') echo '- 0x8022 folder "Top of Personal Folders"'; echo 'ok 1' ;;
    'ls 0x8022') echo '- 0x8082 folder "Inbox"'; echo 'ok 1' ;;
    'ls 0x8082') echo 'ok 0' ;;
    'mkdir 0x122 '*) echo 'ok 0x80a2' ;;
    'new 0x8082 '* | 'new 0x80a2 '*) id=$((id + 1)); echo "ok 0x2000$((id))4" ;;
    'props '*) echo 'ok 0' ;;
    'set '*' large') if [ $open = yes ]; then echo 'no limit transaction'; else echo ok; fi ;;
    'set '*' wrong') echo 'no value' ;;
    'set '*' full') echo 'no full 3 7' ;;
    'set '*' fatal') echo disk >&2; exit 4 ;;
    'rcpt '*) echo 'ok 0' ;;
    begin) open=yes; echo ok ;;
    commit) if [ -e "$(dirname "$0")/no memory" ]; then echo 'no memory'; else open=no; echo ok; fi ;;
    rollback) open=no; echo ok ;;
    'set '* | 'mv '* | 'rm '* | 'rmdir '* | quit) echo ok ;;
    *) echo 'no line' ;;
  esac
done
"""


class Transactions(OverScript):
    """Which lines are sent for a transaction, by a program that remembers nothing but whether one is open."""

    def setUp(self):
        super().setUp()
        self.store = Store("FILE", self.program(TRANSACTED))
        self.addCleanup(self.store.close)
        self.inbox = self.store.folder("Inbox")

    def asked(self):
        return (self.folder / "asked").read_text().splitlines()[2:]

    def words(self):
        """The first words of the lines that were sent."""
        return " ".join(it.split()[0] for it in self.asked())

    def test_what_is_done_within_is_committed(self):
        with self.store.transaction():
            message = self.inbox.add(Draft(values={TAGS["subject"]: "Hello"}, recipients=[Recipient(1, "a@b", "Ann")]))
            message.set(body="x")
        self.assertEqual(self.words(), "begin new set rcpt set commit")
        with self.store.transaction():
            pass
        self.assertEqual(self.words(), "begin new set rcpt set commit begin commit")

    def test_an_error_within_rolls_back(self):
        for error in (ValueError, KeyboardInterrupt):
            with self.assertRaises(error), self.store.transaction():
                self.inbox.add(Draft())
                raise error
        self.assertEqual(self.words(), "begin new rollback begin new rollback")
        with self.assertRaises(errors.ValueRefusal), self.store.transaction():
            self.store.message(0x200014).set(subject="wrong")
        with self.store.transaction():
            pass
        self.assertEqual(self.words(), "begin new rollback begin new rollback begin set rollback begin commit")

    def test_what_was_listed_within_is_asked_anew_after_a_rollback(self):
        message = self.store.message(0x200014)
        with self.store.transaction():
            message.details
        message.details
        self.assertEqual(self.asked().count("props 0x200014"), 1)
        with self.assertRaises(ValueError), self.store.transaction():
            message.details
            raise ValueError
        message.details
        message.details
        self.assertEqual(self.asked().count("props 0x200014"), 2)

    def test_none_stands_in_another(self):
        with self.store.transaction():
            with self.assertRaises(RuntimeError), self.store.transaction():
                self.fail("a transaction began within another")
            self.inbox.add(Draft())
        self.assertEqual(self.words(), "begin new commit")

    def test_a_commit_without_memory_is_rolled_back(self):
        (self.folder / "no memory").touch()
        with self.assertRaises(errors.MemoryRefusal), self.store.transaction():
            self.inbox.add(Draft())
        (self.folder / "no memory").unlink()
        with self.store.transaction():
            pass
        self.assertEqual(self.words(), "begin new commit rollback begin commit")

    def test_the_end_of_the_program_within(self):
        with self.assertRaises(errors.DiskFailed), self.store.transaction():
            self.store.message(0x200014).set(subject="fatal")
        with self.assertRaises(errors.DiskFailed), self.store.transaction():
            self.fail("a transaction began after the end")

    def test_a_program_without_transactions(self):
        with Store("FILE", self.program(TRANSACTED.replace("    begin)", "    begins)"))) as store:
            with self.assertRaises(errors.TransactionsMissing) as caught, store.transaction():
                self.fail("a transaction began without one")
            self.assertIn("older than this package", str(caught.exception))
            with self.assertRaises(errors.TransactionsMissing), Importer(store, store.folder("Inbox")) as importer:
                list(importer.run([mail_about("one")]))

    def imported(self, *subjects):
        """What an import of mails with these subjects came to, and the lines for them."""
        before = len(self.asked())
        with Importer(self.store, self.inbox) as importer:
            *_, done = importer.run(mail_about(it) for it in subjects)
        return done, [it for it in self.asked()[before:] if it.split()[0] not in ("set", "rcpt") or it.endswith((" large", " wrong", " full"))]

    def test_each_mail_of_an_import_is_one(self):
        done, asked = self.imported("one", "two", "one")
        self.assertEqual((done.new, done.there, done.failed), (2, 1, []))
        self.assertEqual([it.split()[0] for it in asked], ["ls", "ls"] + ["begin", "new", "commit"] * 2)
        self.assertTrue(all(it.startswith("new 0x8082 ") for it in asked if it.startswith("new")))

    def test_a_mail_that_fails_is_rolled_back(self):
        done, asked = self.imported("one", "wrong", "two")
        self.assertEqual((done.new, done.there, len(done.failed)), (2, 0, 1))
        self.assertIn("no value", done.failed[0])
        words = " ".join(it.split()[0] for it in asked)
        self.assertTrue(words.startswith("ls ls begin new commit begin new set "), words)
        self.assertTrue(words.endswith(" rollback begin new commit"), words)

    def test_a_commit_that_is_refused_counts_as_failed(self):
        (self.folder / "no memory").touch()
        done, asked = self.imported("one", "one")
        self.assertEqual((done.new, done.there, len(done.failed)), (0, 0, 2))
        self.assertEqual([it.split()[0] for it in asked], ["ls", "ls"] + ["begin", "new", "commit", "rollback"] * 2)

    def test_a_mail_that_is_too_large_for_one_goes_line_by_line(self):
        done, asked = self.imported("one", "large", "two")
        self.assertEqual((done.new, done.there, done.failed), (3, 0, []))
        begun = asked.index("rollback")
        self.assertEqual(asked[begun + 1], f"mkdir 0x122 {STAGING}")
        self.assertTrue(asked[begun + 2].startswith("new 0x80a2 "))
        self.assertEqual([it.split()[0] for it in asked[begun + 2 :] if not it.startswith("set")], ["new", "mv", "begin", "new", "commit", "rmdir"])

    def test_a_file_that_is_full_ends_an_import(self):
        with self.assertRaises(errors.FullRefusal):
            self.imported("one", "full", "two")
        self.assertEqual(sum(it == "commit" for it in self.asked()), 1)
        self.assertNotIn("two", " ".join(self.asked()))


def mail_about(subject: str) -> MailFile:
    return MailFile(subject, f"Subject: {subject}\nMessage-ID: <{subject}@x>\n\nbody\n".encode("ascii"))
