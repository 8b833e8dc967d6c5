#!/bin/sh
# Prints how long `nodes` takes over a file of about 30 MB with blocks of 8176 data bytes, beside reading the file and computing zlib's crc of each block, and beside `nodes` over a file of the same layout with blocks of 48 data bytes.
# The least of five times counts, with the program's start in it.
cd "$(dirname "$0")/.." || exit 1
./pstore scratch </dev/null >/dev/null || exit 1
exec python3 - ./pstore <<'END'
import os, struct, subprocess, sys, tempfile, time, zlib

FIRST, REGION, TRIES = 0x4400, 253952, 5


def crc(b):
    return zlib.crc32(b, 0xFFFFFFFF) ^ 0xFFFFFFFF


def sig(ib, bid):
    x = ib ^ bid
    return (x ^ x >> 16) & 0xFFFF


class File:
    """A file that is laid block by block and page by page."""

    def __init__(self, regions):
        self.bytes = bytearray(FIRST + REGION * regions)
        self.region, self.at = 0, 2048
        self.blocks, self.next_page = [], 1

    def place(self, size):
        """The next free place of so many bytes in one region, outside of its first 2048 bytes."""
        if self.at + size > REGION:
            self.region, self.at = self.region + 1, 2048
        ib = FIRST + REGION * self.region + self.at
        self.at += size
        return ib

    def block(self, data, internal=False):
        bid = 4 * (len(self.blocks) + 1) + 2 * internal
        size = (len(data) + 79) // 64 * 64
        ib = self.place(size)
        trailer = struct.pack("<HHIQ", len(data), sig(ib, bid), crc(data), bid)
        self.bytes[ib : ib + size] = data.ljust(size - 16, b"\0") + trailer
        self.blocks.append((bid, ib, len(data)))
        return bid

    def page(self, kind, level, size, most, entries):
        bid, self.next_page = self.next_page, self.next_page + 1
        ib = self.place(512)
        body = b"".join(entries).ljust(488, b"\0") + bytes([len(entries), most, size, level]) + bytes(4)
        self.bytes[ib : ib + 512] = body + struct.pack("<BBHIQ", kind, kind, sig(ib, bid), crc(body), bid)
        return bid, ib

    def tree(self, kind, size, most, entries):
        """A tree of entries, each a key and its bytes: its root's id and place."""
        level = 0
        while True:
            parts = [entries[i : i + most] for i in range(0, len(entries), most)] or [[]]
            pages = [(p[0][0] if p else 0, self.page(kind, level, size, most, [e for _, e in p])) for p in parts]
            if len(pages) == 1:
                return pages[0][1]
            entries = [(key, struct.pack("<QQQ", key, *page)) for key, page in pages]
            level, size, most = level + 1, 24, 20

    def header(self, nbt, bbt):
        h = bytearray(564)
        h[0:4], h[8:10], h[10:12] = b"!BDN", b"SM", struct.pack("<H", 23)
        h[32:40] = struct.pack("<Q", self.next_page)
        h[184:192] = struct.pack("<Q", len(self.bytes))
        h[216:248] = struct.pack("<QQQQ", *nbt, *bbt)
        h[516:524] = struct.pack("<Q", 4 * (len(self.blocks) + 1))
        h[4:8] = struct.pack("<I", crc(bytes(h[8:479])))
        h[524:528] = struct.pack("<I", crc(bytes(h[8:524])))
        self.bytes[0:564] = h


def lay(regions, count, size):
    """A file of nodes with 100 blocks of data each."""
    file, nodes = File(regions), []
    for i in range(count // 100):
        ids = [file.block(os.urandom(size)) for _ in range(100)]
        listing = struct.pack("<BBHI", 1, 1, 100, 100 * size) + b"".join(struct.pack("<Q", b) for b in ids)
        nid = 0x20 * (i + 1) + 4
        nodes.append((nid, struct.pack("<QQQII", nid, file.block(listing, True), 0, 0, 0)))
    entries = [(bid & ~1, struct.pack("<QQHHI", bid, ib, cb, 2, 0)) for bid, ib, cb in file.blocks]
    bbt = file.tree(0x80, 24, 20, entries)
    file.header(file.tree(0x81, 32, 15, nodes), bbt)
    return file


def least(work):
    def once():
        start = time.perf_counter()
        work()
        return time.perf_counter() - start

    return min(once() for _ in range(TRIES))


def read_all(path, blocks):
    with open(path, "rb") as f:
        b = memoryview(f.read())
    for _, ib, cb in blocks:
        zlib.crc32(b[ib : ib + cb])


with tempfile.TemporaryDirectory() as folder:
    path = os.path.join(folder, "bench.pst")
    for name, file in ("blocks of 8176", lay(124, 3600, 8176)), ("blocks of 48", lay(124, 200_000, 48)):
        with open(path, "wb") as f:
            f.write(file.bytes)
        mb = len(file.bytes) / 1e6
        said = subprocess.run([sys.argv[1], "nodes", path], capture_output=True, check=True, text=True).stdout
        assert said.endswith(f"ok {said.count(chr(10)) - 1}\n"), said[-100:]
        took = least(lambda: subprocess.run([sys.argv[1], "nodes", path], stdout=subprocess.DEVNULL, check=True))
        plain = least(lambda: read_all(path, file.blocks))
        print(f"{name:15} {mb:5.1f} MB  {len(file.blocks):6} blocks  nodes {took * 1e3:6.1f} ms  reading and zlib's crc {plain * 1e3:6.1f} ms")
END
