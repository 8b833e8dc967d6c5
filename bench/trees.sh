#!/bin/sh
# Prints the milliseconds that one change of 1, 100 and 10,000 new keys takes in block trees of 1,000 to 1,000,000 keys, over pages in memory.
# What making the tree, looking its keys up and taking them away takes is measured without a change, and taken off.
# Needs crates/rates/out/rates, which `rt run` in crates/rates builds.
cd "$(dirname "$0")/.." || exit 1
exec python3 - crates/rates/out/rates <<'END'
import subprocess, sys, time

TRIES = 3


def seconds(keys, each, changes):
    def once():
        start = time.perf_counter()
        subprocess.run([sys.argv[1], "tree", str(keys), str(each), str(changes)], check=True, stdout=subprocess.DEVNULL)
        return time.perf_counter() - start

    return min(once() for _ in range(TRIES))


for keys in 1_000, 10_000, 100_000, 1_000_000:
    made = seconds(keys, 1, 0)
    for each, changes in (1, 1_000), (100, 100), (10_000, 3):
        if each <= keys:
            took = (seconds(keys, each, changes) - made) / changes
            print(f"{keys:9} keys: made, read and emptied in {made:.2f} s, {each:6} new keys in {max(took, 0) * 1000:.3f} ms")
END
