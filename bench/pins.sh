#!/bin/sh
# Prints how long 2,000 `set` of a subject take in a folder of 100 messages of a file while 0, 1 and 16 pins are open, how many times as long as without pins, how long the longest `pin` took, and the session's greatest memory.
# The same lines come before in all three: 16 `set`, each behind one of the pins that are made, so that each pin has a tree of its own. A line's time is from its writing to the end of its reply, its five syncs among it.
# The three sessions take turns of 20 lines, so that a disk or a machine that is slower at one time is so for all of them.
# Files are made in the folder that is named (default: a temporary one of the system), so that its disk is measured; in a folder in memory what the pins themselves cost shows best.
# Needs crates/pstore/out/pstore, which ./pstore builds.
cd "$(dirname "$0")/.." || exit 1
exec python3 - crates/pstore/out/pstore "${1:-}" <<'END'
import os, statistics, subprocess, sys, tempfile

sys.path.insert(0, "bench")
from timed_session import TimedSession, remove

SETS, TURN, MESSAGES, MOST = 2_000, 20, 100, 16
FOLDER, FIRST = "0x8082", 0x200024
program, folder = sys.argv[1], sys.argv[2] or tempfile.mkdtemp()


class Session(TimedSession):
    """A session over a file of its own, in which some pins are open."""

    def __init__(self, pins):
        path = os.path.join(folder, f"pins-{pins}.pst")
        remove(path)
        subprocess.run([program, "new", path, "Mail"], check=True, stdout=subprocess.DEVNULL)
        super().__init__(program, path)
        self.pins = pins
        for line in ["mkdir 0x8022 A", *[f"new {FOLDER} IPM.Note 0"] * MESSAGES]:
            self.ask(line)
        self.longest, self.turns = 0.0, []
        for number in range(MOST):
            if number >= MOST - pins:
                self.longest = max(self.longest, self.ask("pin"))
            self.set(number)

    def set(self, number):
        return self.ask(f"set {FIRST + 32 * (number % MESSAGES):#x} 0x0037001f Subject {number % 10}")


sessions = [Session(pins) for pins in (0, 1, MOST)]
for first in range(0, SETS, TURN):
    for session in sessions:
        session.turns.append(sum(session.set(number) for number in range(first, first + TURN)))
alone = sessions[0].turns
for session in sessions:
    memory = session.most()
    session.end()
    times = statistics.median(took / beside for took, beside in zip(session.turns, alone))
    made_in = f", longest `pin` {session.longest * 1e3:.1f} ms" if session.pins else ""
    print(f"{session.pins:3} pins  {SETS} sets in {sum(session.turns):7.2f} s  {sum(session.turns) / SETS * 1e6:7.0f} us each  {times:5.2f} times as long as without (median of the turns)  {os.path.getsize(session.path) / 1e6:6.1f} MB  at most {memory:.0f} MB of memory{made_in}")
    session.remove()
END
