#!/bin/sh
# Prints the seconds and the greatest memory of sessions in memory of 2,000 lines: folders all in one folder, folders and lists mixed over 500 folders, and lines that change nothing.
# The last two rows show that memory grows with the tree and not with the lines.
# Needs crates/pstore/out/pstore, which `./pstore` builds.
cd "$(dirname "$0")/.." || exit 1
exec python3 - crates/pstore/out/pstore <<'END'
import subprocess, sys, tempfile, time

LINES = 2_000


def folders(parents, lines):
    for i in range(lines):
        yield f"mkdir 0x{parents[i % len(parents)]:x} N{i:06}"


# The ids that a session gives out: index 404h and on, of kind 2.
def made(count):
    return [((0x404 + i) << 5) | 2 for i in range(count)]


PARENTS = made(500)


def mixed():
    yield from folders([0x8022], 500)
    for i in range((LINES - 500) // 2):
        parent = PARENTS[i % 500]
        yield f"mkdir 0x{parent:x} N{i:06}"
        yield f"ls 0x{parent:x}"


# The greatest memory of a process so far, in KiB, or what was seen last where it has ended.
def peak(pid, last):
    try:
        with open(f"/proc/{pid}/status") as status:
            return max([last] + [int(line.split()[1]) for line in status if line.startswith("VmHWM")])
    except (FileNotFoundError, ProcessLookupError):
        return last


def run(name, lines):
    with tempfile.TemporaryFile() as text:
        text.write(("\n".join(lines) + "\n").encode())
        text.seek(0)
        start = time.perf_counter()
        program = subprocess.Popen([sys.argv[1], "scratch"], stdin=text, stdout=subprocess.DEVNULL)
        most = 0
        while program.poll() is None:
            most = peak(program.pid, most)
            time.sleep(0.002)
        took = time.perf_counter() - start
    print(f"{name:24} {took:6.2f} s {most / 1024:6.1f} MB, status {program.returncode}")


run("one folder", folders([0x8022], LINES))
run("500 folders and lists", mixed())
run("lists", ("ls 0x8022" for _ in range(LINES)))
run("ten times as many lists", ("ls 0x8022" for _ in range(10 * LINES)))
END
