#!/bin/sh
# Prints how many mails a second a session over a file makes, of ten lines each, without transactions and in transactions of 1, 10 and 100 mails; how many bytes a commit writes;
# and beside them how many a bare loop of as many bytes and five syncs a commit makes, and SQLite with a write-ahead log for the same values in commits of the same lines.
# There are 1,000 mails in ten folders of 100. A mail is a `new`, five `set`, two `rcpt`, an `attach` and an `append`; each reply is awaited before the next line is sent.
# Ends with status 1 where a reply isn't the one that must come, where something is written between `begin` and `commit`, where the next session doesn't find each mail, or where `rollback` leaves another file.
# Files are made in a folder, so that its disk is measured. The words are the program, if it isn't the one that was built here, and that folder (default: a temporary one of the system).
cd "$(dirname "$0")/.." || exit 1
exec python3 - "${1:-crates/pstore/out/pstore}" "${2:-}" <<'END'
import os, subprocess, sys, tempfile, time

sys.path.insert(0, "bench")
from disk import bare
from mails import FOLDERS, IN_EACH, folder_of, lines, message_of, size_of, write_ahead
from timed_session import TimedSession, remove

MAILS = FOLDERS * IN_EACH
LINES = len(lines(0))
program, room = os.path.abspath(sys.argv[1]), sys.argv[2] or tempfile.mkdtemp()
path = os.path.join(room, "transactions.pst")
ill = 0


def check(name, came, wanted):
    global ill
    if came != wanted:
        ill += 1
        print(f"{name}: came {came!r}, wanted {wanted!r}", flush=True)


class Session(TimedSession):
    """A session that compares each reply, and counts the bytes of replies."""

    said = 0

    def send(self, line, wanted="ok"):
        self.process.stdin.write(line.encode() + b"\n")
        self.process.stdin.flush()
        came = self.process.stdout.readline()
        self.said += len(came)
        check(line[:40], came.decode().rstrip("\n"), wanted)

    def stored(self):
        """How many bytes it has written so far without replies."""
        return self.written() - self.said


def made():
    """A session over a new file with the folders."""
    remove(path)
    subprocess.run([program, "new", path, "Mail"], check=True, stdout=subprocess.DEVNULL)
    session = Session(program, path)
    for number in range(FOLDERS):
        folder = folder_of(IN_EACH * number)
        session.send(f"mkdir 0x8022 Folder {number}", f"ok {folder:#x}")
    return session


def found():
    """What a session that only reads lists of each folder."""
    asked = "".join(f"ls {folder_of(IN_EACH * number):#x}\n" for number in range(FOLDERS))
    return subprocess.run([program, "look", path], input=asked.encode(), stdout=subprocess.PIPE).stdout.decode().splitlines()


def wanted():
    """What it must list."""
    listed = []
    for number in range(FOLDERS):
        listed += [f'- {message_of(n):#x} message {size_of(n)} "Letter {n:04}"' for n in range(IN_EACH * number, IN_EACH * (number + 1))] + [f"ok {IN_EACH}"]
    return listed


def store(group):
    """The seconds of all mails, and the bytes that a commit writes; each line is a commit where `group` is 0."""
    session = made()
    work = [lines(number) for number in range(MAILS)]
    before = within = session.stored()
    start = time.perf_counter()
    for number, each in enumerate(work):
        if group and number % group == 0:
            session.send("begin")
            within = session.stored()
        for line, reply in each:
            session.send(line, reply)
        if group and number % group == group - 1:
            check("bytes that are written before `commit`", session.stored() - within, 0)
            session.send("commit")
    took = time.perf_counter() - start
    size = session.stored() - before
    session.end()
    check(f"the mails in commits of {group}", found() == wanted(), True)
    return took, size // commits_of(group)


def commits_of(group):
    return MAILS // group if group else MAILS * LINES


def content():
    names = [it for it in (path, path + ".gate") if os.path.exists(it)]
    return [open(it, "rb").read() for it in names]


def undone():
    """A transaction that is rolled back, and one that the input ends within, leave the file."""
    session = made()
    session.end()
    before = content()
    session = Session(program, path)
    for last in "rollback", None:
        session.send("begin")
        for number in range(IN_EACH):
            for line, reply in lines(number):
                session.send(line, reply)
        if last:
            session.send(last)
    session.end()
    check("the file after `rollback` and the end of the input", content() == before, True)


alone = None
for group in 0, 1, 10, 100:
    took, size = store(group)
    alone = alone or took
    commits = commits_of(group)
    loop = bare(path, size, min(commits, MAILS)) * commits
    log = write_ahead(path, MAILS, group)
    name = f"{group:3} mails a transaction" if group else "without transactions "
    print(
        f"{name} {MAILS / took:7.0f} mails/s, {took / MAILS / LINES * 1e6:5.0f} us a line, {alone / took:5.2f} times the rate without; {size:9,} bytes a commit;"
        f" bare loop {MAILS / loop:7.0f} mails/s ({loop / took:.2f} of it), SQLite {MAILS / log:7.0f} mails/s ({log / took:.2f} of it)",
        flush=True,
    )
undone()
remove(path)
print(f"{ill} weren't as they must be")
sys.exit(ill > 0)
END
