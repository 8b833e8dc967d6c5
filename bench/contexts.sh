#!/bin/sh
# Prints how long writing and reading a property context takes, and copying its values, for 1,000 and for 10,000 values of 63 bytes in the mean, and the same of tables of 10,000 and of 100,000 rows with a name of 33 bytes in the mean, in microseconds.
# A time comes from the time between two numbers of passes, so that the start doesn't count.
# Needs crates/rates/out/rates, which `rt run` in crates/rates builds.
cd "$(dirname "$0")/.." || exit 1
exec python3 - crates/rates/out/rates <<'END'
import subprocess, sys, time

TRIES = 3


def seconds(work, values, count):
    def once():
        start = time.perf_counter()
        subprocess.run([sys.argv[1], "context", work, str(values), str(count)], check=True, stdout=subprocess.DEVNULL)
        return time.perf_counter() - start

    return min(once() for _ in range(TRIES))


CASES = (1_000, 10, 510, ""), (10_000, 1, 51, ""), (10_000, 1, 21, "-rows"), (100_000, 1, 4, "-rows")
for size, few, many, subject in CASES:
    for work in "copy", "write", "read":
        took = (seconds(work + subject, size, many) - seconds(work + subject, size, few)) / (many - few)
        print(f"{size:6} {work + subject:10} {took * 1e6:9.0f} us")
END
