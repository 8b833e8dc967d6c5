#!/bin/sh
# Prints the seconds that 100,000 blocks of 8192 bytes take over 8192 nearly full regions, and how many a second.
# Each row leaves some bytes free at the end of each region: what making the set takes is measured by giving one block, and taken off.
# Needs crates/rates/out/rates, which `rt run` in crates/rates builds.
cd "$(dirname "$0")/.." || exit 1
exec python3 - crates/rates/out/rates <<'END'
import subprocess, sys, time

REGIONS, BLOCKS, TRIES = 8192, 100_000, 3


def seconds(free, blocks):
    def once():
        start = time.perf_counter()
        subprocess.run([sys.argv[1], "slots", str(REGIONS), str(free), str(blocks)], check=True, stdout=subprocess.DEVNULL)
        return time.perf_counter() - start

    return min(once() for _ in range(TRIES))


for free in 106_496, 131_072, 245_760:
    made = seconds(free, 1)
    took = seconds(free, BLOCKS) - made
    print(f"{free:7} bytes free a region: made in {made:.2f} s, {BLOCKS} blocks in {took:.2f} s, {BLOCKS / took:.0f} a second")
END
