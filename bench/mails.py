"""Mails of ten lines each, for a script that measures them: as lines of a session, and as the same values in SQLite."""
import os, sqlite3, time

FOLDERS, IN_EACH = 10, 100  # so many folders, with so many mails in each
BODY = "a" * 500
PIECE = bytes(range(250)) * 4  # the bytes of an attachment come in two of these
TIME = 133_500_960_000_000_000
PART = 0x8025


def folder_of(number):
    """The folder of a mail: the first IN_EACH mails lie in the first folder, and so on."""
    return 0x8082 + 32 * (number // IN_EACH)


def message_of(number):
    """The id that a mail gets as the one of that number, from 0."""
    return 0x200024 + 32 * number


def texts(number):
    """Its values as text, by their tags."""
    return {0x0037001F: f"Letter {number:04}", 0x1000001F: BODY, 0x0C1A001F: "Ben Lee", 0x0C1F001F: "ben@example.com"}


RECIPIENTS = (1, "ann@example.com", "Ann Fox"), (2, "carl@example.com", "Carl")
NAME = "menu.txt"


def lines(number):
    """The ten lines of a mail, each with the reply that must come."""
    message = f"{message_of(number):#x}"
    made = [(f"new {folder_of(number):#x} IPM.Note {TIME}", f"ok {message}")]
    made += [(f"set {message} 0x{tag:08x} {text}", "ok") for tag, text in texts(number).items()]
    made += [(f"set {message} 0x00390040 {TIME}", "ok")]
    made += [(f"rcpt {message} {kind} {address} {name}", f"ok {row}") for row, (kind, address, name) in enumerate(RECIPIENTS)]
    made += [(f"attach {message} {NAME} {PIECE.hex()}", f"ok {PART:#x}"), (f"append {message} {PART:#x} {PIECE.hex()}", "ok")]
    return made


def size_of(number):
    """What `ls` tells as its size: 52 of a new message, its values, 12 and its texts of each recipient and of its attachment, and the bytes of that."""
    values = sum(2 * len(text) for text in texts(number).values()) + 8
    recipients = sum(12 + 2 * len(address) + 2 * len(name) for _, address, name in RECIPIENTS)
    return 52 + values + recipients + 12 + 2 * len(NAME) + 2 * len(PIECE)


PUT = "insert into parts values (?, ?, ?, ?)"
GROW = "update messages set size = size + ? where id = ?"


def statements(number):
    """The same ten lines for SQLite, each as the statements that it takes: one table has the messages with their sizes, the other all values."""
    message = message_of(number)
    utf = lambda text: text.encode("utf-16-le")

    def puts(part, values):
        size = sum(len(it) if isinstance(it, bytes) else 4 for it in values.values())
        return [(PUT, (message, part, tag, it)) for tag, it in values.items()] + [(GROW, (size, message))]

    new = {0x001A001F: utf("IPM.Note"), 0x0E070003: 0, 0x30070040: TIME.to_bytes(8, "little"), 0x30080040: TIME.to_bytes(8, "little"), 0x300B0102: bytes(16)}
    made = [[("insert into messages values (?, ?, 0)", (message, folder_of(number)))] + puts(0, new)]
    made += [puts(0, {tag: utf(text)}) for tag, text in texts(number).items()]
    made += [puts(0, {0x00390040: TIME.to_bytes(8, "little")})]
    for row, (kind, address, name) in enumerate(RECIPIENTS):
        made += [puts(1 + row, {0x0C150003: kind, 0x3001001F: utf(name), 0x3002001F: utf("SMTP"), 0x3003001F: utf(address)})]
    made += [puts(PART, {0x0E200003: len(PIECE), 0x37010102: PIECE, 0x3704001F: utf(NAME), 0x37050003: 1, 0x370B0003: -1})]
    where = (message, PART)
    made += [
        [
            ("update parts set value = value || ? where message = ? and part = ? and tag = 0x37010102", (PIECE, *where)),
            ("update parts set value = value + ? where message = ? and part = ? and tag = 0x0E200003", (len(PIECE), *where)),
            (GROW, (len(PIECE), message)),
        ]
    ]
    return made


def write_ahead(path, mails, group):
    """The seconds of SQLite for so many mails, with a write-ahead log, each commit of which is stable before the next begins: a commit of so many mails, or of each line where `group` is 0."""
    remove_base(path)
    base = sqlite3.connect(path + ".db", isolation_level=None)
    for line in (
        "pragma journal_mode = wal",
        "pragma synchronous = full",
        "create table messages (id integer primary key, folder integer, size integer)",
        "create index by_folder on messages (folder)",
        "create table parts (message integer, part integer, tag integer, value, primary key (message, part, tag)) without rowid",
    ):
        base.execute(line)
    work = [statements(number) for number in range(mails)]
    start = time.perf_counter()
    for number, each in enumerate(work):
        if group and number % group == 0:
            base.execute("begin")
        for line in each:
            if not group:
                base.execute("begin")
            for statement, values in line:
                base.execute(statement, values)
            if not group:
                base.execute("commit")
        if group and number % group == group - 1:
            base.execute("commit")
    took = time.perf_counter() - start
    found = base.execute("select count(*), min(size), max(size) from messages").fetchone()
    assert found == (mails, size_of(0), size_of(0)), found
    base.close()
    remove_base(path)
    return took


def remove_base(path):
    for end in ".db", ".db-wal", ".db-shm":
        if os.path.exists(path + end):
            os.remove(path + end)
