"""Lines, replies, values and words, without a program."""

import unittest
from datetime import datetime, timedelta, timezone

from pstore import errors, spelling, tags
from pstore.codepages import charset_of, codepage_of, decoded
from pstore.html_text import text_of_html
from pstore.replies import Recipient, Reply, details, listed
from pstore.searches import BadSearch, restriction_of
from pstore.store import join_path, split_path


class Spelling(unittest.TestCase):
    def test_text_comes_back(self):
        for text in ("", "plain", 'a "b" \\ c', "line\r\nline\0\x1f", "ü 日本 😀", "\ud800 alone \udc00", "\u2028"):
            with self.subTest(text=text):
                self.assertEqual(spelling.unspell(spelling.spell(text)), text)
                self.assertNotIn("\n", spelling.spell(text))

    def test_a_word_has_no_space(self):
        self.assertEqual(spelling.spell_word("a b"), "a\\u0020b")

    def test_names_are_clipped_by_units(self):
        self.assertEqual(spelling.units("a😀"), 3)
        self.assertEqual(spelling.clip("😀" * 200), "😀" * 127)

    def test_paths(self):
        for names in (["Inbox"], ["A/B", "C\\D"], []):
            self.assertEqual(split_path(join_path(names)), names)
        self.assertEqual(split_path("/A//B/"), ["A", "B"])


class Replies(unittest.TestCase):
    def test_listings(self):
        self.assertEqual(listed('0x8082 folder "A \\u0022b\\u0022"').name, 'A "b"')
        message = listed('0x200024 message 62 ""')
        self.assertEqual((message.id, message.size, message.subject), (0x200024, 62, ""))
        with self.assertRaises(errors.ProtocolError):
            listed("nonsense")

    def test_details(self):
        found = details(Reply(["0x0037001f 10", 'rcpt 3 1 "a@b" "A  B"', 'attach 0x8025 5 "x y"'], "3"))
        self.assertEqual((found.values[0].id, found.values[0].kind, found.values[0].length), (0x37, 0x1F, 10))
        self.assertEqual(found.recipients, (Recipient(1, "a@b", "A  B", 3),))
        self.assertEqual((found.attachments[0].id, found.attachments[0].name), (0x8025, "x y"))


class Refusals(unittest.TestCase):
    def test_each_has_its_class(self):
        for said, kind in (
            ("object", errors.ObjectRefusal), ("limit rows", errors.RowLimitRefusal), ("full 3 7", errors.FullRefusal), ("restriction 12", errors.RestrictionRefusal),
            ("pin", errors.NoPin), ("limit pins", errors.PinLimitRefusal),
            ("view", errors.NoView), ("column", errors.ColumnRefusal), ("limit views", errors.ViewLimitRefusal),
            ("limit nesting", errors.NestingLimitRefusal), ("limit transaction", errors.TransactionLimitRefusal), ("embedded", errors.NoEmbedded), ("limit of tomorrow", errors.LimitRefusal), ("tomorrow", errors.Refusal),
        ):  # fmt: skip
            with self.subTest(said=said):
                self.assertIs(type(errors.refusal_of("line", said)), kind)
        full, restriction = errors.refusal_of("x", "full 3 7"), errors.refusal_of("x", "restriction 12")
        self.assertEqual((full.free, full.need, restriction.at), (3, 7, 12))

    def test_files(self):
        stale = errors.file_refusal_of("f", "stale 0x80023", "mend it")
        self.assertIs(type(stale), errors.StaleSearch)
        self.assertEqual((stale.detail, str(stale)), (["0x80023"], "f: refused stale 0x80023 (mend it)"))
        self.assertIs(type(errors.file_refusal_of("f", "crc partial 1 2")), errors.CrcRefused)


class Values(unittest.TestCase):
    def test_values_come_back(self):
        for kind, value, said in (
            (tags.LONG, -5, "-5"), (tags.BOOL, True, "true"), (tags.TEXT, "a\\b", '"a\\u005cb"'), (tags.BINARY, b"\0\xff", "00ff"), (tags.BINARY, b"", "-"),
            (tags.TIME, datetime(2024, 1, 2, 3, 4, 5, 6, timezone.utc), "133486382450000060"),
        ):  # fmt: skip
            with self.subTest(value=value):
                self.assertEqual(tags.value_of(kind, said), value)
                self.assertEqual(tags.spelled(kind, value), said.strip('"'))

    def test_times_beyond_pythons(self):
        self.assertEqual(tags.datetime_of(2**64 - 1).year, 9999)
        self.assertEqual(tags.filetime(datetime(1601, 1, 1, 2, tzinfo=timezone(timedelta(hours=2)))), 0)

    def test_code_pages(self):
        for name in ("utf-8", "iso-8859-15", "koi8-r", "windows-1252", "iso-2022-jp"):
            with self.subTest(name=name):
                self.assertEqual("Ab".encode(charset_of(codepage_of(name))), "Ab".encode(name))
        self.assertEqual(decoded(b"caf\xe9", "nonsense"), ("café", "cp1252"))

    def test_html(self):
        self.assertEqual(text_of_html(b"<html><head><title>t</title></head><p>a  b<br>c &amp; d</p><script>x</script>", 65001), "a b\nc & d")


class Searches(unittest.TestCase):
    def test_words(self):
        self.assertEqual(restriction_of("subject:inv").hex(), "03010001001f0037001f00370069006e0076000000")
        self.assertEqual(restriction_of("before:1601-01-02").hex(), "0400400039004000390000c0692ac9000000")
        self.assertEqual(restriction_of('since:2024-01-01 "two words"')[:3].hex(), "000200")

    def test_what_is_no_search(self):
        for words in ("", "since:tomorrow", 'subject:""'):
            with self.subTest(words=words), self.assertRaises(BadSearch):
                restriction_of(words)
