#!/bin/sh
# Prints how often a session over a file reads from it for one `get`, `set`, `mv`, `new` and `ls`, and how long that takes, by how many messages the folder has.
# The files are laid by bench/lay_stores.py; calls are those that strace counts, less those of a session without lines. A command's five syncs are in its time.
# Needs crates/pstore/out/pstore, which ./pstore builds, and strace.
cd "$(dirname "$0")/.." || exit 1
exec python3 - crates/pstore/out/pstore <<'END'
import os, re, shutil, subprocess, sys, tempfile, time

sys.path.insert(0, "bench")
from lay_stores import store, text, u32

FOLDER, OTHER, FIRST = "0x8022", "0x8042", 0x200024
WORK = {
    "get": [f"get {FIRST:#x} 0x0037001f"],
    "set": [f"set {FIRST:#x} 0x0037001f Hello"],
    "mv": [f"mv {FIRST:#x} {OTHER}", f"mv {FIRST:#x} {FOLDER}"],
    "new": [f"new {FOLDER} IPM.Note 0"],
    "ls": [f"ls {FOLDER}"],
}


def message(number):
    subject = text(f"Message {number}")
    return {(0x001A, 0x1F): text("IPM.Note"), (0x0037, 0x1F): subject, (0x0E07, 3): u32(0), (0x0E08, 3): u32(16 + len(subject) + 4)}, {}


def session(folder, lines):
    """The calls that read, and the seconds, of a session over a copy of the file."""
    shutil.copy(f"{folder}/laid", f"{folder}/FILE")
    if os.path.exists(f"{folder}/FILE.gate"):
        os.remove(f"{folder}/FILE.gate")
    input = "".join(line + "\n" for line in lines).encode()
    run = [os.path.abspath(sys.argv[1]), "run", "FILE"]
    start = time.perf_counter()
    said = subprocess.run(run, cwd=folder, input=input, check=True, stdout=subprocess.PIPE).stdout
    took = time.perf_counter() - start
    assert b"no " not in said, said
    shutil.copy(f"{folder}/laid", f"{folder}/FILE")
    os.remove(f"{folder}/FILE.gate")
    counted = subprocess.run(["strace", "-f", "-c", "-e", "trace=read,pread64,readv,preadv", *run], cwd=folder, input=input, check=True, stdout=subprocess.DEVNULL, stderr=subprocess.PIPE).stderr
    calls = sum(int(it[1]) for it in re.finditer(rb"^\s*[\d.]+\s+[\d.]+\s+\d+\s+(\d+)\s", counted, re.M))
    return calls, took


for size in 100, 2_000, 10_000:
    with tempfile.TemporaryDirectory() as folder:
        with open(f"{folder}/laid", "wb") as file:
            file.write(store({}, {FIRST + 32 * it: message(it) for it in range(size)}))
        calls, seconds = session(folder, [])
        print(f"{size:6} open {calls:8} reads {seconds * 1e3:9.1f} ms")
        for name, lines in WORK.items():
            turns = 4
            more, longer = session(folder, lines * turns)
            each = turns * len(lines)
            print(f"{size:6} {name:4} {(more - calls) / each:8.1f} reads {(longer - seconds) / each * 1e3:9.1f} ms")
END
