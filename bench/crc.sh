#!/bin/sh
# Prints the rates of the checksum's kernels and of Python's zlib, in MB/s, each over a buffer of 64 MiB.
# A rate comes from the time between 1 pass and 9 passes, so that the start and the filling of the buffer don't count.
# Needs crates/rates/out/rates, which `rt run` in crates/rates builds.
cd "$(dirname "$0")/.." || exit 1
exec python3 - crates/rates/out/rates <<'END'
import subprocess, sys, time, zlib

MIB, FEW, MANY, TRIES = 64, 1, 9, 3


def seconds(run):
    start = time.perf_counter()
    run()
    return time.perf_counter() - start


def passes(kernel, count):
    words = [sys.argv[1], "crc", kernel, str(MIB), str(count)]
    return lambda: subprocess.run(words, check=True, stdout=subprocess.DEVNULL)


def rate(once, more):
    took = min(seconds(more) for _ in range(TRIES)) - min(seconds(once) for _ in range(TRIES))
    return (MANY - FEW) * MIB * 2**20 / 1e6 / took


buffer = bytes(i * 5 & 255 for i in range(2**20)) * MIB
zlib_passes = lambda count: lambda: [zlib.crc32(buffer) for _ in range(count)]
for name in "one-table", "sliced":
    print(f"{name:10} {rate(passes(name, FEW), passes(name, MANY)):6.0f} MB/s")
print(f"{'zlib':10} {rate(zlib_passes(FEW), zlib_passes(MANY)):6.0f} MB/s")
END
