#!/bin/sh
# Runs `rt ci` once and says how many processor minutes each crate took, apart for its proofs, its tests and its must-fail edits, and how long the whole took.
# The gate's own lines go to the file that is named (default gate.log). It looks at the checks that run twice a second, so give it the machine alone. Machines differ by a factor of two, so it also says how long a fixed piece of work took on this one.
log=${1:-gate.log}
cd "$(dirname "$0")/.." || exit 1
rt ci >"$log" 2>&1 &
exec python3 - "$!" "$log" <<'PYTHON'
import os, re, sys, time

gate, log = int(sys.argv[1]), sys.argv[2]
TICKS = os.sysconf("SC_CLK_TCK")
spent = {}  # (process, its start) -> (crate, kind, processor seconds)


def look():
    for pid in filter(str.isdigit, os.listdir("/proc")):
        try:
            with open(f"/proc/{pid}/cmdline", "rb") as it:
                words = it.read().decode(errors="replace").split("\0")
            if not words[0].endswith("/rattle") or "--crate-name" not in words:
                continue
            with open(f"/proc/{pid}/stat") as it:
                fields = it.read().rpartition(")")[2].split()
            folder = os.readlink(f"/proc/{pid}/cwd")
        except (OSError, IndexError):
            continue
        crate = words[words.index("--crate-name") + 1]
        if folder.startswith(f"{os.getcwd()}/crates/"):
            kind = "tests" if "--test" in words else "proofs"
        elif "/rt-edit" in folder:
            kind = "edits"
        else:
            continue
        spent[pid, fields[19]] = crate, kind, (int(fields[11]) + int(fields[12])) / TICKS


def fixed_work():
    """How many processor seconds a loop takes that is always the same."""
    begun, sum = time.process_time(), 0
    for i in range(5_000_000):
        sum += i * i & 7
    return time.process_time() - begun


def ended():
    try:
        with open(f"/proc/{gate}/stat") as it:
            return it.read().rpartition(")")[2].split()[0] == "Z"
    except OSError:
        return True


begun = time.time()
work = fixed_work()
while not ended():
    look()
    time.sleep(0.5)
minutes = {}
for crate, kind, seconds in spent.values():
    minutes.setdefault(crate, {}).setdefault(kind, 0)
    minutes[crate][kind] += seconds / 60
print(f"{'processor minutes':20} proofs  tests  edits    all")
for crate, of in sorted(minutes.items(), key=lambda it: -sum(it[1].values())):
    parts = [of.get(kind, 0) for kind in ("proofs", "tests", "edits")]
    print(f"{crate:20} {parts[0]:6.1f} {parts[1]:6.1f} {parts[2]:6.1f} {sum(parts):6.1f}")
sums = [sum(of.get(kind, 0) for of in minutes.values()) for kind in ("proofs", "tests", "edits")]
print(f"{'all':20} {sums[0]:6.1f} {sums[1]:6.1f} {sums[2]:6.1f} {sum(sums):6.1f}")
print(f"minutes on the clock: {(time.time() - begun) / 60:.1f}")
print(f"seconds of the fixed work: {work:.2f} at the start, {fixed_work():.2f} at the end")
with open(log, errors="replace") as it:
    print([line.rstrip() for line in it][-1])
PYTHON
