#!/bin/sh
# Prints how many messages a second `fill` comes to with 400 and with 2,000, beside how many a second a bare loop of as many bytes and the same five syncs comes to; and the same where another running search, over all of the user's folders, lists a third of them too.
# Beside it the lines of a session that make as many messages without any search, one commit each, but with neither subject nor body.
# Files are made in the folder that is named (default: a temporary one of the system), so that its disk is measured.
# Needs crates/pstore/out/pstore, which ./pstore builds.
cd "$(dirname "$0")/.." || exit 1
exec python3 - crates/pstore/out/pstore "${1:-}" <<'END'
import os, subprocess, sys, tempfile, time

sys.path.insert(0, "bench")
from disk import bare

INVOICE = "03010001001f0037001f00370069006e0076000000"  # the subject has `inv` in it, of either case
program, folder = sys.argv[1], sys.argv[2] or tempfile.mkdtemp()
path = os.path.join(folder, "fill.pst")


def ran(words, lines=()):
    """Runs the program to its end; what it said, the seconds that took, and the bytes that it wrote."""
    process = subprocess.Popen([program, *words], stdin=subprocess.PIPE, stdout=subprocess.PIPE)
    start = time.perf_counter()
    process.stdin.write("".join(line + "\n" for line in lines).encode())
    process.stdin.close()
    said = process.stdout.read().decode()
    os.waitid(os.P_PID, process.pid, os.WEXITED | os.WNOWAIT)
    took = time.perf_counter() - start
    with open(f"/proc/{process.pid}/io") as it:
        written = int(next(line for line in it if line.startswith("wchar")).split()[1])
    assert process.wait() == 0, said
    return said, took, written


def make():
    for name in path, path + ".gate":
        if os.path.exists(name):
            os.remove(name)
    ran(["new", path, "Mail"])


def show(name, count, took, written):
    size = written // count
    print(f"{name:22} {count:5} messages {count / took:8.0f} a second {size:8} bytes each, bare loop {1 / bare(path, size, min(count, 400)):8.0f} a second")


for count in 400, 2_000:
    make()
    said, took, written = ran(["fill", path, "1", str(count)])
    assert said.startswith(f"filled {count} "), said
    show("fill", count, took, written)
    make()
    ran(["run", path], ["mksearch 0x8042 All", f"criteria 0x80023 0x6 0x8022 {INVOICE}"])
    said, took, written = ran(["fill", path, "1", str(count)])
    assert said.startswith(f"filled {count} "), said
    show("with one search more", count, took, written)
    make()
    said, took, written = ran(["run", path], ["mkdir 0x8022 A", *["new 0x8082 IPM.Note 0"] * count])
    assert "no" not in said, said
    show("`new` without a search", count, took, written)

for name in path, path + ".gate":
    os.remove(name)
END
