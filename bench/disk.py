"""What a disk can do at most, for the scripts that measure commits beside it."""
import os, sqlite3, time


def bare(path, size, commits):
    """Seconds of a commit that is a bare loop's: as many bytes and the same five syncs, without a store. 1,145 of the bytes are the gate's and the header's."""
    names = path + ".bare", path + ".bare.gate"
    main, side = (os.open(name, os.O_RDWR | os.O_CREAT) for name in names)
    os.pwrite(main, bytes(1_000_000), 0)
    os.fsync(main)
    start = time.perf_counter()
    for i in range(commits):
        os.pwrite(main, bytes(max(size - 1_145, 1)), 20_000 + 4_096 * (i % 100))
        os.fsync(main)
        for part, data, at in (side, bytes(579), 1), (side, b"1", 0), (main, bytes(564), 0), (side, b"0", 0):
            os.pwrite(part, data, at)
            os.fsync(part)
    took = time.perf_counter() - start
    for part, name in zip((main, side), names):
        os.close(part)
        os.remove(name)
    return took / commits


def write_ahead(path, size, rows, commits):
    """Seconds of SQLite's commit of so many rows with so many bytes, with a write-ahead log, each of which is stable before the next begins."""
    base = sqlite3.connect(path + ".db", isolation_level=None)
    for line in "pragma journal_mode = wal", "pragma synchronous = full", "create table rows (id integer primary key, value blob)":
        base.execute(line)
    start = time.perf_counter()
    for i in range(commits):
        base.execute("begin")
        for row in range(rows):
            base.execute("insert or replace into rows values (?, ?)", ((i * rows + row) % 100, os.urandom(size)))
        base.execute("commit")
    took = time.perf_counter() - start
    base.close()
    for end in ".db", ".db-wal", ".db-shm":
        if os.path.exists(path + end):
            os.remove(path + end)
    return took / commits
