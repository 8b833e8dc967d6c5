#!/bin/sh
# Prints how long `get`, `props`, `ls`, `set`, `mv`, `cp` and `new` of one message take in a session in memory, by how many messages the folder has, in microseconds.
# The folder is made in the same session before the clock starts; each line is said when the reply to the one before has come, so a time has two passes through a pipe in it.
# Needs crates/pstore/out/pstore, which ./pstore builds.
cd "$(dirname "$0")/.." || exit 1
exec python3 - crates/pstore/out/pstore <<'END'
import subprocess, sys, time

TURNS = 100
FOLDER, OTHER, MESSAGE = "0x8082", "0x80a2", "0x200024"
WORK = {
    "get": [f"get {MESSAGE} 0x001a001f"],
    "props": [f"props {MESSAGE}"],
    "ls": [f"ls {FOLDER}"],
    "set": [f"set {MESSAGE} 0x0037001f Hello"],
    "mv": [f"mv {MESSAGE} {OTHER}", f"mv {MESSAGE} {FOLDER}"],
    "cp": [f"cp {MESSAGE} {OTHER}"],
    "new": [f"new {FOLDER} IPM.Note 0"],
}

for size in 100, 500, 2_000:
    session = subprocess.Popen([sys.argv[1], "scratch"], stdin=subprocess.PIPE, stdout=subprocess.PIPE)

    def answer(line):
        session.stdin.write(line.encode() + b"\n")
        session.stdin.flush()
        while (said := session.stdout.readline()).startswith(b"- "):
            pass
        assert said.startswith(b"ok"), said

    for line in ["mkdir 0x8022 A", "mkdir 0x8022 B"] + [f"new {FOLDER} IPM.Note 0"] * size:
        answer(line)
    for name, lines in WORK.items():
        start = time.perf_counter()
        for line in lines * TURNS:
            answer(line)
        took = (time.perf_counter() - start) / (TURNS * len(lines))
        print(f"{size:6} {name:5} {took * 1e6:9.0f} us")
    session.stdin.close()
    session.wait()
END
