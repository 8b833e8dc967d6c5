#!/bin/sh
# Prints how long `append` of 500 bytes to one attachment takes, by how long the attachment is, and how long `attach` and `fetch` of 500,000 bytes take (a line holds little more), in memory and over a file, in microseconds.
# A time comes from the time between two numbers of lines, so that the start and the making of the attachment don't count.
# Needs crates/pstore/out/pstore, which ./pstore builds.
cd "$(dirname "$0")/.." || exit 1
exec python3 - "$PWD/crates/pstore/out/pstore" <<'END'
import os, subprocess, sys, tempfile, time

TRIES = 2
PROGRAM = sys.argv[1]
MESSAGE, PART = "0x200024", "0x8025"
START = ["new 0x8022 IPM.Note 0"]


def seconds(lines, in_file):
    text = "".join(line + "\n" for line in lines).encode()

    def once():
        with tempfile.TemporaryDirectory() as room:
            words = ["scratch"]
            if in_file:
                subprocess.run([PROGRAM, "new", "store.pst", "Mail"], cwd=room, check=True, stdout=subprocess.DEVNULL)
                words = ["run", "store.pst"]
            start = time.perf_counter()
            said = subprocess.run([PROGRAM, *words], cwd=room, input=text, check=True, stdout=subprocess.PIPE).stdout
            took = time.perf_counter() - start
        assert b"\nno " not in said, said[-200:]
        return took

    return min(once() for _ in range(TRIES))


def made(size):
    chunks = [min(500_000, size - at) for at in range(0, size, 500_000)]
    first, *rest = [chunk * "5a" for chunk in chunks] or ["-"]
    return START + [f"attach {MESSAGE} a.bin {first}"] + [f"append {MESSAGE} {PART} {chunk}" for chunk in rest]


for in_file in False, True:
    where = "file" if in_file else "memory"
    for size in 0, 50_000, 500_000, 5_000_000:
        turns = 100 if size < 5_000_000 else 20
        start = made(size)
        took = seconds(start + [f"append {MESSAGE} {PART} {500 * '5a'}"] * turns, in_file) - seconds(start, in_file)
        print(f"{where:6} append 500 bytes to {size:9,} {took / turns * 1e6:9.0f} us")
    start = seconds(START, in_file)
    attached = seconds(made(500_000), in_file)
    fetched = seconds(made(500_000) + [f"fetch {MESSAGE} {PART}"], in_file)
    print(f"{where:6} attach 500,000 bytes {(attached - start) * 1e6:9.0f} us")
    print(f"{where:6} fetch 500,000 bytes {(fetched - attached) * 1e6:9.0f} us")
    took = seconds(made(0) + [f"append {MESSAGE} {PART} {500 * '5a'}"] * 1_000, in_file) - seconds(made(0), in_file)
    print(f"{where:6} 1,000 appends of 500 bytes {took * 1e6:9.0f} us")
END
