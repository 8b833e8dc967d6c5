#!/bin/sh
# Says of each edit of a crate, in must-fail/ and in edits/, whether the rows or cases of a program notice its wrong body: which stand in the gate alone because the prover refuses them, and which would be found out without it.
# Works on a copy, and proves nothing: the program runs as `rt try` runs it.
[ $# -gt 1 ] || { echo "usage: bench/noticed.sh CRATE PROGRAM [FILE..]   (base_rows, file_rows or cases; all its files if none is named)" >&2; exit 2; }
top=$(cd "$(dirname "$0")/.." && pwd) || exit 1
copy=$(mktemp -d) || exit 1
trap 'rm -rf "$copy"' EXIT
cp -r "$top/crates" "$top/crates.txt" "$top/HANDLES" "$copy/" && git init -q "$copy" || exit 1
cd "$copy" && python3 - "$@" <<'PYTHON'
import glob, os, re, subprocess, sys

crate, program, files = sys.argv[1], f"crates/{sys.argv[2]}", sys.argv[3:]
with open(f"{program}/args") as it:
    files = files or it.read().split()
data = [word for name in sorted(os.listdir(f"{program}/data")) for word in ("--data", f"{name}=data/{name}")]


def told():
    """What the program says at last: how many rows or cases differ, or that it ended otherwise."""
    words = ["rt", "try", "--steps", "1000", "--seconds", "600", *data, "--", *files]
    ran = subprocess.run(words, cwd=program, stdout=subprocess.PIPE, stderr=subprocess.STDOUT, errors="replace")
    counts = re.findall(r"^\d+ (?:cases|rows), \d+ differ", ran.stdout, re.M)
    return counts[-1] if counts else ran.stdout.strip().splitlines()[-1]


def wrong(path):
    """The sources that an edit changes, by their paths: as they are, and with its wrong body."""
    sources = {}
    with open(path) as it:
        for line in it.read().splitlines():
            if line.startswith("file: "):
                source = f"crates/{crate}/{line[6:]}"
                if source not in sources:
                    with open(source) as of:
                        sources[source] = [of.read()] * 2
            elif line.startswith("old: "):
                old = line[5:]
            elif line.startswith("new: "):
                if sources[source][1].count(old) != 1:
                    sys.exit(f"{path}: this doesn't stand once in {source}: {old}")
                sources[source] = sources[source][0], sources[source][1].replace(old, line[5:])
    return sources


def write(sources, which):
    for source, texts in sources.items():
        with open(source, "w") as it:
            it.write(texts[which])


for path in sorted(glob.glob(f"crates/{crate}/must-fail/*.edit") + glob.glob(f"crates/{crate}/edits/*.edit")):
    sources = wrong(path)
    write(sources, 1)
    print(f"{os.path.basename(path)[:-5]}: {told()}", flush=True)
    write(sources, 0)
PYTHON
