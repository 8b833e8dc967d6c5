#!/bin/sh
# Prints how long lines on an embedded message take that has an attachment of 8 MB, and how many bytes each of them writes to the file.
# Ends with status 1 where a line writes more than 200,000 bytes but the one that makes the copy.
# Needs crates/pstore/out/pstore, which ./pstore builds.
cd "$(dirname "$0")/.." || exit 1
exec python3 - "$PWD/crates/pstore/out/pstore" <<'END'
import os, subprocess, sys, tempfile

sys.path.insert(0, "bench")
from timed_session import TimedSession

TURNS, MOST = 10, 200_000
SOURCE, MESSAGE, PART = "0x200024", "0x200044", "0x8025"
CHUNK = 500_000
WORK = {
    "embed": [f"embed {MESSAGE} {SOURCE} copy.msg"],
    "eprops": [f"eprops {MESSAGE} {PART}"],
    "eget": [f"eget {MESSAGE} {PART} 0x001a001f"],
    "eset": [f"eset {MESSAGE} {PART} 0x0037001f Hello {i}" for i in range(TURNS)],
    "eset of a long body": [f"eset {MESSAGE} {PART} 0x1000001f " + f"{i}" * 5_000 for i in range(TURNS)],
    "eunset": [f"eunset {MESSAGE} {PART} 0x0037001f"],
    "set beside it": [f"set {MESSAGE} 0x0037001f Hello {i}" for i in range(TURNS)],
    "append beside it": [f"attach {MESSAGE} a.bin 00"] + [f"append {MESSAGE} 0x8045 00"] * TURNS,
}
program = sys.argv[1]

too_much = False
with tempfile.TemporaryDirectory() as room:
    path = os.path.join(room, "store.pst")
    subprocess.run([program, "new", path, "Mail"], check=True, stdout=subprocess.DEVNULL)
    session = TimedSession(program, path)
    for line in ["new 0x8022 IPM.Note 0"] * 2 + [f"attach {SOURCE} a.bin " + "5a" * CHUNK] + [f"append {SOURCE} {PART} " + "5a" * CHUNK] * 15:
        session.ask(line)
    for name, lines in WORK.items():
        before = session.written()
        took, size = sum(map(session.ask, lines)) / len(lines), (session.written() - before) // len(lines)
        print(f"{name:20} {took * 1e6:9.0f} us {size:9,} bytes")
        too_much |= size > MOST and name != "embed"
    session.end()
sys.exit(too_much)
END
