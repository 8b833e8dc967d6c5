#!/bin/sh
# Prints how long a line takes in a session in memory in a folder of 2,000 messages while 0, 1 and 64 searches run, in microseconds:
# `set` of a subject that stays in all lists, `set` of one that goes in and out of them by turns, `mv` out of their scope and back, and `criteria`, which builds a list.
# A line's time is from its writing to the end of its reply.
# Needs crates/pstore/out/pstore, which ./pstore builds.
cd "$(dirname "$0")/.." || exit 1
exec python3 - crates/pstore/out/pstore <<'END'
import subprocess, sys, time

TURNS, MESSAGES = 50, 2_000
FOLDER, OTHER, MESSAGE = "0x8082", "0x80a2", "0x200024"
INVOICE = "03010001001f0037001f00370069006e0076000000"  # the subject has `inv` in it, of either case


class Session:
    """A session in memory, asked line by line."""

    def __init__(self):
        self.process = subprocess.Popen([sys.argv[1], "scratch"], stdin=subprocess.PIPE, stdout=subprocess.PIPE)

    def ask(self, line):
        self.process.stdin.write(line.encode() + b"\n")
        self.process.stdin.flush()
        said = self.process.stdout.readline()
        assert said.startswith(b"ok"), said

    def end(self):
        self.process.stdin.close()
        assert self.process.wait() == 0


def made(searches):
    session = Session()
    lines = ["mkdir 0x8022 A", "mkdir 0x8022 B"]
    lines += [f"new {FOLDER} IPM.Note 0"] * MESSAGES
    lines += [f"set {0x200024 + 32 * i:#x} 0x0037001f invoice" for i in range(0, MESSAGES, 3)]
    for i in range(searches):
        lines += [f"mksearch 0x8042 S{i}", f"criteria {0x80023 + 32 * i:#x} 0x2 {FOLDER} {INVOICE}"]
    for line in lines:
        session.ask(line)
    return session


WORK = {
    "set, stays": [f"set {MESSAGE} 0x0037001f invoice"],
    "set, goes and comes": [f"set {MESSAGE} 0x0037001f letter", f"set {MESSAGE} 0x0037001f invoice"],
    "mv": [f"mv {MESSAGE} {OTHER}", f"mv {MESSAGE} {FOLDER}"],
    "criteria": ["criteria 0x80023 0x2 - -"],
}

for searches in 0, 1, 64:
    session = made(searches)
    for name, lines in WORK.items():
        if name == "criteria" and not searches:
            continue
        start = time.perf_counter()
        for line in lines * TURNS:
            session.ask(line)
        took = (time.perf_counter() - start) / (TURNS * len(lines))
        print(f"{searches:3} searches  {name:20} {took * 1e6:9.0f} us")
    session.end()
END
