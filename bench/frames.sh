#!/bin/sh
# Prints the rates, in MB of data a second, of sealing and of reading blocks of 8176 data bytes, and of their checksum alone.
# A rate comes from the time between two numbers of passes, so that the start doesn't count.
# Needs crates/rates/out/rates, which `rt run` in crates/rates builds.
cd "$(dirname "$0")/.." || exit 1
exec python3 - crates/rates/out/rates <<'END'
import subprocess, sys, time

DATA, FEW, MANY, TRIES = 8176, 1_000, 101_000, 3


def seconds(work, count):
    def once():
        start = time.perf_counter()
        subprocess.run([sys.argv[1], "frame", work, str(count)], check=True, stdout=subprocess.DEVNULL)
        return time.perf_counter() - start

    return min(once() for _ in range(TRIES))


for work in "crc", "seal", "read":
    took = seconds(work, MANY) - seconds(work, FEW)
    print(f"{work:5} {(MANY - FEW) * DATA / 1e6 / took:6.0f} MB/s")
END
