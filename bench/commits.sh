#!/bin/sh
# Prints how many commits a second `new`, `set` of a subject and `set` of a body of 10,000 bytes come to in a file, how many bytes each writes, and beside them how many a second a bare loop of the same writes and five syncs comes to, and SQLite with a write-ahead log for the same values.
# Then how long the opening of a file takes beside reading it with zlib's crc, and how much memory it needs.
# Files are made in the folder that is named (default: a temporary one of the system), so that its disk is measured.
# Needs crates/pstore/out/pstore, which ./pstore builds.
cd "$(dirname "$0")/.." || exit 1
exec python3 - crates/pstore/out/pstore "${1:-}" <<'END'
import os, resource, subprocess, sys, tempfile, time, zlib

sys.path.insert(0, "bench")
from disk import bare, write_ahead

COMMITS = 200
FOLDER, MESSAGE = "0x8082", "0x200024"
BODY = "a" * 5_000  # 10,000 bytes of text
program, folder = sys.argv[1], sys.argv[2] or tempfile.mkdtemp()
path = os.path.join(folder, "commits.pst")


class Session:
    """A session over the file, asked line by line."""

    def __init__(self):
        self.process = subprocess.Popen([program, "run", path], stdin=subprocess.PIPE, stdout=subprocess.PIPE)

    def ask(self, line):
        self.process.stdin.write(line.encode() + b"\n")
        self.process.stdin.flush()
        while not (said := self.process.stdout.readline()).startswith((b"ok", b"no")):
            assert said.startswith(b"- "), said
        assert said.startswith(b"ok"), said

    def written(self):
        with open(f"/proc/{self.process.pid}/io") as it:
            return int(next(line for line in it if line.startswith("wchar")).split()[1])

    def end(self):
        self.process.stdin.close()
        assert self.process.wait() == 0


def make():
    for name in path, path + ".gate":
        if os.path.exists(name):
            os.remove(name)
    subprocess.run([program, "new", path, "Mail"], check=True, stdout=subprocess.DEVNULL)
    session = Session()
    for line in f"mkdir 0x8022 Inbox", f"new {FOLDER} IPM.Note 0":
        session.ask(line)
    return session


VALUES = {"new": 100, "set": 10, "body": 2 * len(BODY)}  # how many bytes of values a commit puts
for name, line in {"new": f"new {FOLDER} IPM.Note 0", "set": f"set {MESSAGE} 0x0037001f Hello", "body": f"set {MESSAGE} 0x1000001f {BODY}"}.items():
    session = make()
    before, start = session.written(), time.perf_counter()
    for _ in range(COMMITS):
        session.ask(line)
    took, size = time.perf_counter() - start, (session.written() - before) // COMMITS
    session.end()
    print(f"{name:5} {COMMITS / took:8.0f} commits/s {size:8} bytes a commit, bare loop {1 / bare(path, size, COMMITS):8.0f} commits/s, SQLite {1 / write_ahead(path, VALUES[name], 1, COMMITS):8.0f} commits/s")

for megabytes in 30, 500:
    session = make()
    for i in range(megabytes):
        session.ask(f"new {FOLDER} IPM.Note 0")
        session.ask(f"set 0x{(0x10002 + i) * 32 + 4:x} 0x1000001f " + "b" * 500_000)
    session.end()
    start = time.perf_counter()
    Session().end()
    opened = time.perf_counter() - start
    start = time.perf_counter()
    with open(path, "rb") as it:
        while data := it.read(8_192):
            zlib.crc32(data)
    read = time.perf_counter() - start
    most = resource.getrusage(resource.RUSAGE_CHILDREN).ru_maxrss
    print(f"{os.path.getsize(path) / 1e6:7.1f} MB opened in {opened * 1e3:7.0f} ms, read with zlib's crc in {read * 1e3:7.0f} ms; at most {most / 1e3:.0f} MB")

for name in path, path + ".gate":
    os.remove(name)
END
