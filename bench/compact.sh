#!/bin/sh
# Prints how long `compact` takes on a store of some 500 MB in attachments and one of 40,000 small messages, beside an opening of the file (`look` without a line, which checks what `compact` checks before it copies), a copy of its bytes that is synced, and both; the least of three each, in seconds by the clock. The goal is at most 1.5 times both.
# Needs crates/pstore/out/pstore, which ./pstore builds, or the program named by PSTORE.
cd "$(dirname "$0")/.." || exit 1
exec python3 - "$(readlink -f "${PSTORE:-crates/pstore/out/pstore}")" <<'END'
import os, resource, subprocess, sys, tempfile, time

PART = bytes(i * i % 251 for i in range(500_000)).hex()


def session(lines):
    ran = subprocess.run([sys.argv[1], "run", "FILE"], input="".join(line + "\n" for line in lines).encode(), stdout=subprocess.PIPE, check=True)
    assert b"\nno " not in b"\n" + ran.stdout, ran.stdout[-200:]


def large():
    session(["mkdir 0x8022 A"])
    for message in range(63):
        nid = 0x200024 + 32 * message
        session(["new 0x8082 IPM.Note 0", f"attach {nid:#x} a.bin {PART}", *[f"append {nid:#x} 0x8025 {PART}"] * 15])


def many():
    session([f"mkdir 0x8022 F{folder}" for folder in range(100)])
    for folder in range(100):
        session([f"new {0x8082 + 32 * folder:#x} IPM.Note 0"] * 400)


def took(work):
    best = None
    for _ in range(3):
        if os.path.exists("TO"):
            os.remove("TO")
        begun = time.monotonic()
        work()
        best = min(best or 1e9, time.monotonic() - begun)
    return best


def ask(*words):
    subprocess.run([sys.argv[1], *words], stdin=subprocess.DEVNULL, stdout=subprocess.DEVNULL, check=True)


def copy():
    with open("FILE", "rb") as source, open("TO", "xb") as to:
        while piece := source.read(1 << 20):
            to.write(piece)
        to.flush()
        os.fsync(to.fileno())


for name, fill in ("attachments", large), ("messages", many):
    with tempfile.TemporaryDirectory() as folder:
        os.chdir(folder)
        ask("new", "FILE", "Mail")
        fill()
        opening, copying, whole = took(lambda: ask("look", "FILE")), took(copy), took(lambda: ask("compact", "FILE", "TO"))
        most = resource.getrusage(resource.RUSAGE_CHILDREN).ru_maxrss
        sizes = [os.path.getsize(it) / 1e6 for it in ("FILE", "TO")]
        print(f"{name:12} {sizes[0]:6.1f} MB to {sizes[1]:6.1f} MB: opening {opening:6.2f}  copying {copying:6.2f}  compact {whole:6.2f}  {whole / (opening + copying):5.2f} times both; memory {most / 1e3:5.1f} MB")
        os.chdir("/")
END
