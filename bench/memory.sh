#!/bin/sh
# Refuses the built program one allocation after another over a session of lines of many kinds. Each reply must be the step's or `no memory`, status 7 may come only before the first line,
# and the next opening must find what the lines left whose reply wasn't `no memory`: all of it is compared with sessions without those lines, to which nothing is refused.
# Says a line for each run that isn't so, and at last how many runs there were. The words are the program, if it isn't the one that was built here, how many allocations lie between two that are refused, and the first of them.
# Needs cc, for a `malloc` that refuses.
cd "$(dirname "$0")/.." || exit 1
exec python3 - "${1:-crates/pstore/out/pstore}" "${2:-1}" "${3:-1}" <<'END'
import collections, functools, os, shutil, subprocess, sys, tempfile

LINES = """mkdir 0x8022 Inbox
new 0x8082 IPM.Note 0
set 0x200024 0x0037001f Invoice
rcpt 0x200024 1 a@b.example Ann
attach 0x200024 a.bin 0001
append 0x200024 0x8025 02
pin
name 0820060000000000c000000000000046 0x8501
mksearch 0x8042 Find
criteria 0x80023 0x6 0x8082 081f003700
new 0x8082 IPM.Note 1
view 0x8082 0x0037001f up
view 0x80023 0x0037001f down
rows 1
rows 2
embed 0x200044 0x200024 b.msg
eprops 0x200044 0x8025
eget 0x200044 0x8025 0x0037001f
eset 0x200044 0x8025 0x0037001f Bill
eunset 0x200044 0x8025 0x0e070003
eunset 0x200044 0x8025 0x0037001f
eset 0x200044 0x8025 0x1000001f Pay
cp 0x200024 0x8062
rm 0x200024
ls 0x8082
groups 1
unview 1
at 1 ls 0x8082
at 1 get 0x200024 0x0037001f
at 1 props 0x200024
unpin 1
begin
new 0x8082 IPM.Note 2
set 0x200084 0x0037001f Draft
unview 2
rollback
rows 2
begin
mkdir 0x8022 Old
new 0x80a2 IPM.Note 3
set 0x200084 0x0037001f Letter
rcpt 0x200084 1 a@b.example Ann
attach 0x200084 a.bin 0001
view 0x80a2 0x0037001f up
mv 0x200044 0x80a2
rows 2
rows 3
commit
ls 0x80a2
begin
rm 0x200084
rmdir 0x80023
rollback
groups 3
save
quit""".split("\n")
LOOKS = ["ls 0x122", "ls 0x8022", "ls 0x8042", "ls 0x8062", "ls 0x8082", "ls 0x80a2", "ls 0x80023", "getcriteria 0x80023", "props 0x200024", "props 0x200044", "props 0x200064", "props 0x200084", "eprops 0x200044 0x8025", "eget 0x200044 0x8025 0x1000001f"]
REFUSE = r"""
#define _GNU_SOURCE
#include <dlfcn.h>
#include <fcntl.h>
#include <stdlib.h>

static long left = -1;

/* Whether this is the allocation that is refused; the file that REFUSED names then tells that it came. */
static int refused(void) {
    if (left < 0) left = getenv("REFUSE") ? atol(getenv("REFUSE")) : 0;
    if (left == 0 || --left > 0) return 0;
    open(getenv("REFUSED"), O_CREAT | O_WRONLY, 0600);
    return 1;
}

void *malloc(size_t size) {
    static void *(*next)(size_t);
    if (!next) next = (void *(*)(size_t))dlsym(RTLD_NEXT, "malloc");
    return refused() ? 0 : next(size);
}

void *realloc(void *old, size_t size) {
    static void *(*next)(void *, size_t);
    if (!next) next = (void *(*)(void *, size_t))dlsym(RTLD_NEXT, "realloc");
    return refused() ? 0 : next(old, size);
}
"""


def replies_of(said):
    """The replies: lines up to one that begins with `ok` or `no`."""
    replies, open_ = [], []
    for line in said.decode().splitlines():
        open_.append(line)
        if line.startswith(("ok", "no")):
            replies.append("\n".join(open_))
            open_ = []
    return replies + ["\n".join(open_)] * bool(open_)


def run(folder, lines, refuse=0):
    """The status and the replies of a session over FILE in a folder, of which an allocation is refused, and whether that allocation came."""
    env = {"REFUSE": str(refuse), "REFUSED": f"{folder}/refused", "LD_PRELOAD": f"{TOP}/refuse.so"} if refuse else {}
    done = subprocess.run([PROGRAM, "run", f"{folder}/FILE"], input="".join(it + "\n" for it in lines).encode(), env=env, stdout=subprocess.PIPE, stderr=subprocess.DEVNULL)
    came = os.path.exists(f"{folder}/refused")
    if came:
        os.remove(f"{folder}/refused")
    return done.returncode, replies_of(done.stdout), came


def begin():
    for name in "FILE", "FILE.gate":
        shutil.copy(f"{TOP}/new/{name}", f"{TOP}/{name}")


@functools.cache
def wanted(skipped):
    """The replies of a session without the lines of these numbers, with `no memory` in their place, and what is found afterwards."""
    begin()
    status, replies, _ = run(TOP, [it for n, it in enumerate(LINES) if n not in skipped])
    assert status == 0
    for n in sorted(skipped):
        replies.insert(n, "no memory")
    return replies, run(TOP, LOOKS)[1]


PROGRAM, EACH, FIRST = os.path.abspath(sys.argv[1]), int(sys.argv[2]), int(sys.argv[3])
counts, bad = collections.Counter(), 0
with tempfile.TemporaryDirectory() as TOP:
    with open(f"{TOP}/refuse.c", "w") as file:
        file.write(REFUSE)
    subprocess.run(["cc", "-shared", "-fPIC", "-O2", "-o", f"{TOP}/refuse.so", f"{TOP}/refuse.c"], check=True)
    os.mkdir(f"{TOP}/new")
    subprocess.run([PROGRAM, "new", f"{TOP}/new/FILE", "Mail"], check=True, stdout=subprocess.DEVNULL)
    number = FIRST
    while True:
        begin()
        status, replies, came = run(TOP, LINES, number)
        if not came:
            break
        found = run(TOP, LOOKS)[1]
        skipped = tuple(n for n, it in enumerate(replies) if it == "no memory")
        if status == 7:
            good = replies == [] and found == wanted(tuple(range(len(LINES) - 1)))[1]
        else:
            good = status == 0 and len(skipped) <= 1 and (replies, found) == wanted(skipped)
        if not good:
            bad += 1
            print(f"allocation {number}: status {status}, replies {replies}", flush=True)
        counts["status 7" if status == 7 else f"no memory: {LINES[skipped[0]].split()[0]}" if skipped else "all replies"] += 1
        number += EACH

print(f"{sum(counts.values())} runs, up to allocation {number}: " + ", ".join(f"{name} {n}" for name, n in counts.items()))
print(f"{bad} weren't as they must be")
sys.exit(bad > 0 or not counts)
END
