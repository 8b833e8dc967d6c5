#!/bin/sh
# Prints how many commits a second of one node and of ten nodes, of 1,000 bytes each, the keeper of a file makes, and how many bytes each writes; and beside them how many a second a bare loop of as many bytes and the same five syncs makes, and SQLite with a write-ahead log for the same values.
# Files are made in the folder that is named (default: a temporary one of the system), so that its disk is measured.
# Needs crates/rates/out/rates, which `rt run` in crates/rates builds.
cd "$(dirname "$0")/.." || exit 1
exec python3 - crates/rates/out/rates "${1:-}" <<'END'
import os, sys, tempfile, time

sys.path.insert(0, "bench")
from disk import bare, write_ahead

COMMITS = 1_000
TRIES = 3
program, folder = sys.argv[1], sys.argv[2] or tempfile.mkdtemp()
path = os.path.join(folder, "keeper.pst")


def remove(*ends):
    for end in ends:
        if os.path.exists(path + end):
            os.remove(path + end)


def run(nodes, count):
    """The seconds that the program takes, and the bytes that it writes."""
    remove("", ".gate")
    start = time.perf_counter()
    quiet = [(os.POSIX_SPAWN_OPEN, 1, os.devnull, os.O_WRONLY, 0)]
    process = os.posix_spawn(program, [program, "commits", str(nodes), str(count), path], os.environ, file_actions=quiet)
    os.waitid(os.P_PID, process, os.WEXITED | os.WNOWAIT)
    took = time.perf_counter() - start
    with open(f"/proc/{process}/io") as it:
        size = int(next(line for line in it if line.startswith("wchar")).split()[1])
    assert os.waitpid(process, 0)[1] == 0
    return took, size


def keeper(nodes):
    """Seconds and bytes of a commit: laying the file is taken off."""
    laid, more = min(run(nodes, 0) for _ in range(TRIES)), min(run(nodes, COMMITS) for _ in range(TRIES))
    return (more[0] - laid[0]) / COMMITS, (more[1] - laid[1]) // COMMITS


for nodes in 1, 10:
    took, size = keeper(nodes)
    loop = min(bare(path, size, COMMITS) for _ in range(TRIES))
    log = min(write_ahead(path, 1_000, nodes, COMMITS) for _ in range(TRIES))
    print(f"{nodes:2} nodes: {1 / took:6.0f} commits/s, {size:6} bytes a commit; bare loop {1 / loop:6.0f} ({loop / took:.2f} of it), SQLite {1 / log:6.0f}")
remove("", ".gate")
END
