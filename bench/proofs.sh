#!/bin/sh
# Prints which functions of a crate take the longest to prove, in seconds, by when each of their files was written: `bench/proofs.sh CRATE [NUMBER]`.
# It proves the crate from nothing, with one processor, so it takes as long as a first check, once the crates below are proved.
[ -n "$1" ] || { echo "usage: bench/proofs.sh CRATE [NUMBER]" >&2; exit 2; }
cd "$(dirname "$0")/../crates/$1" || exit 1
rm -rf out/incremental
rt check --jobs 1 >/dev/null 2>&1 || { echo "bench/proofs.sh: $1 isn't proved" >&2; exit 1; }
exec python3 - "${2:-20}" <<'END'
import collections, os, re, sys

# what the files of a function's proof are called behind its path
PARTS = r"\.(Lts|Proof|Answers|Invariants|Tie|Reads|Code|Layout|Statement|Named|Kinds|Carried|TheLink|Met|Key|Goals|Given)\b.*"
written = []
for at, _, names in os.walk("out/incremental"):
    written += [(os.stat(os.path.join(at, name)).st_mtime, name) for name in names if name.endswith(".oantt")]
seconds, before = collections.Counter(), None
for when, name in sorted(written):
    path = re.sub(r"\.(decls\.)?oantt$", "", name.split("-", 2)[-1])
    path = re.sub(PARTS, "", re.sub(r"^(proofs|specs\.contracts)\.", "", path))
    seconds[path] += when - (before or when)
    before = when
for path, spent in seconds.most_common(int(sys.argv[1])):
    print(f"{spent:7.1f} {path}")
print(f"{sum(seconds.values()):7.1f} all")
END
