#!/bin/sh
# Prints how long a `set` of a subject takes in folders of 100, 2,000 and 20,000 messages of a file while no view, 1 and 16 views of its folder by subject are open, and how many times as long as without views; then how long `ls`, and `rows` and `groups` of one of those views take, and the session's greatest memory.
# The folders are laid by the format alone, and are the same in the three sessions, which take turns of 20 lines, so that a disk or a machine that is slower at one time is so for all of them.
# A line's time is from its writing to the end of its reply: of a `set` its five syncs are among it, of the others the reading of their lines, which takes this script some time too.
# Files are made in the folder that is named (default: a temporary one of the system), so that its disk is measured; in a folder in memory what the views themselves cost shows best.
# Needs crates/pstore/out/pstore, which ./pstore builds.
cd "$(dirname "$0")/.." || exit 1
exec python3 - crates/pstore/out/pstore "${1:-}" <<'END'
import os, shutil, statistics, sys, tempfile

sys.path.insert(0, "bench")
from lay_stores import store, text, u32
from timed_session import TimedSession, remove

SETS, TURN, ASKED = {100: 2_000, 2_000: 400, 20_000: 100}, 20, 10
FOLDER, FIRST = "0x8022", 0x200024
program, folder = sys.argv[1], sys.argv[2] or tempfile.mkdtemp()


def subject(number):
    """Subjects whose order isn't that of the numbers."""
    return f"Subject {number * 7_919 % 100_003:06}"


def laid(size):
    """The bytes of a store with so many messages in one folder."""
    values = lambda at: {(0x001A, 0x1F): text("IPM.Note"), (0x0037, 0x1F): text(subject(at)), (0x0E07, 3): u32(0), (0x0E08, 3): u32(52), (0x3007, 0x40): bytes(8), (0x3008, 0x40): bytes(8), (0x300B, 0x102): bytes(16)}
    return store({}, {FIRST + 32 * at: (values(at), {}) for at in range(size)})


class Session(TimedSession):
    """A session over a file of its own, in which some views are open."""

    def __init__(self, data, size, views):
        path = os.path.join(folder, f"views-{size}-{views}.pst")
        remove(path)
        with open(path, "wb") as file:
            file.write(data)
        super().__init__(program, path)
        self.size, self.views, self.turns = size, views, []
        for number in range(views):
            self.ask(f"view {FOLDER} 0x0037001f {'down' if number % 2 else 'up'}")

    def set(self, number):
        return self.ask(f"set {FIRST + 32 * (number % self.size):#x} 0x0037001f {subject(number + self.size)}")

    def end(self):
        super().end()
        self.remove()


for size, sets in SETS.items():
    data = laid(size)
    sessions = [Session(data, size, views) for views in (0, 1, 16)]
    for session in sessions:
        session.set(0)
    for first in range(0, sets, TURN):
        for session in sessions:
            session.turns.append(sum(session.set(number) for number in range(first, first + TURN)))
    alone = sessions[0].turns
    for session in sessions:
        times = statistics.median(took / beside for took, beside in zip(session.turns, alone))
        print(f"{size:6} messages {session.views:3} views  {sum(session.turns) / sets * 1e6:8.0f} us a set  {times:5.2f} times as long as without (median of the turns)  at most {session.most():.0f} MB of memory")
    for line in f"ls {FOLDER}", "rows 1", "rows 2", "groups 1":
        took = statistics.median(sessions[2].ask(line) for _ in range(ASKED))
        print(f"{size:6} messages  {line:9} {took * 1e3:9.2f} ms")
    print(f"{size:6} messages  after these at most {sessions[2].most():.0f} MB of memory")
    for session in sessions:
        session.end()
if not sys.argv[2]:
    shutil.rmtree(folder)
END
