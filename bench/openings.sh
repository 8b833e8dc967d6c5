#!/bin/sh
# Prints how long a file of 4,000 messages in ten folders takes to open while 0, 1, 4, 16 and 64 searches run over all of them, in milliseconds of a processor: the least of five openings.
# A running search is asked of every message again when a file is opened.
# Needs crates/pstore/out/pstore, which ./pstore builds.
cd "$(dirname "$0")/.." || exit 1
exec python3 - "$PWD/crates/pstore/out/pstore" <<'END'
import os, resource, subprocess, sys, tempfile

FOLDERS, EACH = 10, 400
INVOICE = "03010001001f0037001f00370069006e0076000000"  # the subject begins with `inv`, of either case


def session(lines):
    """Runs lines over the file, and gives the seconds that they took."""
    before = resource.getrusage(resource.RUSAGE_CHILDREN).ru_utime
    text = "".join(line + "\n" for line in lines)
    ran = subprocess.run([sys.argv[1], "run", "FILE"], input=text.encode(), stdout=subprocess.PIPE, check=True)
    assert b"\nno " not in b"\n" + ran.stdout, ran.stdout
    return resource.getrusage(resource.RUSAGE_CHILDREN).ru_utime - before


with tempfile.TemporaryDirectory() as folder:
    os.chdir(folder)
    subprocess.run([sys.argv[1], "new", "FILE", "Mail"], stdout=subprocess.DEVNULL, check=True)
    session([f"mkdir 0x8022 F{i}" for i in range(FOLDERS)])
    message = 0x200024
    for i in range(FOLDERS):
        lines = []
        for j in range(EACH):
            subject = "letter" if j % 3 else "invoice"
            lines += [f"new {0x8082 + 32 * i:#x} IPM.Note 0", f"set {message:#x} 0x0037001f {subject}"]
            message += 32
        session(lines)
    made = 0
    for searches in 0, 1, 4, 16, 64:
        lines = []
        while made < searches:
            lines += [f"mksearch 0x8042 S{made}", f"criteria {0x80023 + 32 * made:#x} 0x6 0x8022 {INVOICE}"]
            made += 1
        session(lines)
        took = min(session([]) for _ in range(5))
        print(f"{searches:3} searches  {took * 1e3:7.1f} ms")
END
