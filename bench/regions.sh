#!/bin/sh
# Tries the built program on files of many regions: where the map pages of new regions stand, that `save` writes maps that are exact, what it writes,
# that a file of 8192 regions with one free cell is full, and when one with some is for the lines of a transaction. The files are laid by bench/lay_stores.py; of those of 8192 regions most is holes, but they take a gigabyte of disk.
# Says a line for each thing that wasn't as it must be, and at last how many were. The words are the program, if it isn't the one that was built here, and a folder for the files.
cd "$(dirname "$0")/.." || exit 1
exec python3 - "${1:-crates/pstore/out/pstore}" "${2:-}" <<'END'
import os, re, struct, subprocess, sys, tempfile, time

sys.path.insert(0, "bench")
from lay_stores import REGION, Store, crc, laid, sig, text, u32, u64

FIRST, SLOTS, CELLS = 0x4400, 3968, 30
FRONT = 2048
well, ill = 0, 0


def check(name, came, wanted):
    global well, ill
    if came == wanted:
        well += 1
    else:
        ill += 1
        print(f"{name}: came {came}, wanted {wanted}")


def begin(region):
    return FIRST + REGION * region


def cell(region, number):
    return begin(region) + FRONT + 8192 * number


def lay(path, regions, free):
    """A store in a file of so many regions of which each cell of 8192 bytes, but for those that are free, meets a block of 48 zeros that no node leads to. The store stands in the first regions.
    No 8192 bytes beside them are free in the others. It gives how many blocks there are."""
    message = {(0x001A, 0x1F): text("IPM.Note"), (0x0037, 0x1F): text("Hello"), (0x0E07, 3): u32(0), (0x0E08, 3): u32(30)}
    s = laid({}, {0x200024: (message, {})})
    counters = {2: 0x403, 3: 0x4000, 4: 0x10001, 8: 0x8000}
    first, entries, end, places = s.bid, [], 0, []
    while True:
        made = Filled(s, entries).bytes(counters, eof=begin(regions))
        if len(made) > end:
            # So many pages name the blocks: these begin behind them. One more stands in the last 6144 bytes of a region, so that no full block fits behind its last cell's.
            end = len(made)
            places = [cell(r, c) for r in range(regions) for c in range(CELLS + 1) if cell(r, c) >= end and (r, min(c, CELLS - 1)) not in free]
            late = set()
        else:
            # With fewer blocks there are fewer pages, and cells between these and the blocks: their blocks stand at their ends, where no page comes.
            more = {cell(r, c) for r in range(regions) for c in range(CELLS) if len(made) <= cell(r, c) < end} - late
            if not more:
                break
            late |= more
            places += [it + 8192 - 64 for it in more]
        entries = [(first + 4 * n, struct.pack("<QQHHI", first + 4 * n, place, 48, 2, 0)) for n, place in enumerate(sorted(places))]
        s.bid = first + 4 * len(entries)
    with open(path, "wb") as file:
        file.write(made)
        for bid, entry in entries:
            place = struct.unpack_from("<Q", entry, 8)[0]
            file.seek(place)
            file.write(bytes(48) + struct.pack("<HHIQ", 48, sig(place, bid), 0, bid))
        file.truncate(begin(regions))
    return len(entries)


class Filled(Store):
    """A store with entries of more blocks in its block tree."""

    def __init__(self, store, entries):
        self.blocks, self.nodes, self.bid, self.more = store.blocks, store.nodes, store.bid, entries

    def tree(self, file, kind, size, entries):
        return super().tree(file, kind, size, entries + self.more if kind == 0x80 else entries)


def run(path, *lines, word="run"):
    """What a session says, its status and its seconds."""
    start = time.perf_counter()
    done = subprocess.run([*PROGRAM, word, path], input="".join(line + "\n" for line in lines).encode(), stdout=subprocess.PIPE)
    return done.stdout.decode().splitlines(), done.returncode, time.perf_counter() - start


class Found:
    """A file as this script reads it, without the program: its header, and the places of its blocks and pages."""

    def __init__(self, path):
        self.file = open(path, "rb")
        self.header = self.read(0, 564)
        self.eof, self.last_map, self.free = struct.unpack_from("<QQQ", self.header, 184)
        self.maps = self.header[248]
        self.places = []
        self.walk(struct.unpack_from("<Q", self.header, 224)[0], 32)
        self.walk(struct.unpack_from("<Q", self.header, 240)[0], 24)

    def read(self, at, size):
        self.file.seek(at)
        return self.file.read(size)

    def walk(self, ib, size):
        page = self.read(ib, 512)
        self.places.append((ib, 512))
        count, _, _, level = page[488:492]
        for i in range(count):
            if level:
                self.walk(struct.unpack_from("<Q", page, 24 * i + 16)[0], size)
            elif size == 24:
                ib, cb = struct.unpack_from("<QH", page, 24 * i + 8)
                self.places.append((ib, (cb + 16 + 63) // 64 * 64))

    def regions(self):
        return (self.eof - FIRST) // REGION

    def fixed(self, region):
        """The kinds of the fixed pages of a region, in their order."""
        return [0x84] + [0x83] * (region % 8 == 0) + [0x82] * (region >= 128 and (region - 128) % 496 == 0)

    def bad_maps(self):
        """The regions whose map page isn't exact, and how many bytes are free."""
        used = [bytearray(496) for _ in range(self.regions())]

        def mark(at, size):
            for slot in range((at - FIRST) // 64, (at - FIRST + size) // 64):
                used[slot // SLOTS][slot % SLOTS // 8] |= 0x80 >> slot % 8

        for region in range(self.regions()):
            mark(begin(region), 512 * len(self.fixed(region)))
        for at, size in self.places:
            mark(at, size)
        bad = [r for r in range(self.regions()) if self.read(begin(r), 512) != sealed(0x84, begin(r), bytes(used[r]))]
        return bad, 64 * sum(8 * 496 - sum(it.bit_count() for it in page) for page in used)


def sealed(kind, at, body):
    return body + struct.pack("<BBHIQ", kind, kind, 0, crc(body), at)


PROGRAM = [os.path.abspath(it) for it in sys.argv[1].split()]
FULL = b"\xff" * 496
with tempfile.TemporaryDirectory(dir=sys.argv[2] or None) as folder:
    path = f"{folder}/FILE"

    # 128 regions, all full, and an attachment that needs more: region 128 is the first with an FMap page.
    lay(path, 128, set())
    said, status, _ = run(path, "attach 0x200024 a.bin " + "61" * 20000, "ls 0x8022", "save")
    check("an attachment in a full file of 128 regions", (said, status), (["ok 0x8025", '- 0x200024 message 20052 "Hello"', "ok 1", "ok"], 0))
    found = Found(path)
    check("its end", found.eof, 32_777_216)
    check("that the FMap page of region 128 stands", found.read(32_524_288, 512) == sealed(0x82, 32_524_288, FULL), True)
    check("that its PMap page stands", found.read(32_523_776, 512) == sealed(0x83, 32_523_776, FULL), True)
    check("what `info` says of the maps", [it for it in run(path, word="info")[0] if it.startswith("maps")], ["maps 2"])
    bad, free = found.bad_maps()
    check("maps that aren't exact", bad, [])
    check("the free bytes of the header", found.free, free)
    check("the last map page of the header", found.last_map, begin(128))
    check("the session after it", run(path, "ls 0x8022")[:2], (['- 0x200024 message 20052 "Hello"', "ok 1"], 0))
    os.remove(path + ".gate")

    # 8192 regions, of which region 8191 has one free cell.
    blocks = lay(path, 8192, {(8191, 29)})
    print(f"8192 regions with {blocks} blocks, {os.stat(path).st_blocks * 512 // 2**20} MB on disk")
    said, status, took = run(path, "ls 0x8022", "set 0x200024 0x0037001f Bye", "ls 0x8022")
    print(f"a session over them: {took:.1f} s")
    check("what a full file lists", (said[:2], said[3:], status), (['- 0x200024 message 30 "Hello"', "ok 1"], ['- 0x200024 message 30 "Hello"', "ok 1"], 0))
    check("that it is full", bool(re.fullmatch(r"no full 1 \d+", said[2])), True)
    print(said[2])
    need = int(said[2].split()[-1])
    os.remove(path + ".gate")

    # The same with some more free cells. In a transaction a `new` needs what it needs outside, which is what `set` needed above, and three for each block that the transaction would write so far:
    # two each for the folder's values, its table of messages and its parent's table of folders, and two for each message. With fewer blocks the file has fewer pages, so that it needs a few cells less.
    room, most = need + 40, 12
    lay(path, 8192, {(8191 - i // CELLS, i % CELLS) for i in range(room)})
    said, status, _ = run(path, "begin", *["new 0x8022 IPM.Note 0"] * most, "commit", "ls 0x8022")
    made = sum(it.startswith("ok") for it in said[1 : 1 + most])
    check("a transaction in a file that is almost full", (said[:1], said[1 + most : 2 + most], said[-1:], status), (["ok"], ["ok"], [f"ok {1 + made}"], 0))
    check("which of its lines are carried out", said[1 : 1 + made], [f"ok {0x200044 + 32 * i:#x}" for i in range(made)])
    check("that there are some", 0 < made < most, True)
    refused = set(said[1 + made : 1 + most])
    check("that the others find it full", bool(len(refused) == 1 and re.fullmatch(rf"no full {room} \d+", min(refused))), True)
    print(*refused)
    asked = int(min(refused, default="0").split()[-1])
    check("that it is so at the first line that needs more", asked - 6 <= room < asked, True)
    check("what a line alone needs of that", need - 5 <= asked - 3 * (6 + 2 * made) <= need, True)
    os.remove(path + ".gate")

    # 8192 regions without such blocks: `save` writes each map once.
    lay(path, 2, set())
    with open(path, "r+b") as file:
        file.truncate(begin(8192))
        head = bytearray(file.read(564))
        head[184:192] = u64(begin(8192))
        head[4:8] = u32(crc(head[8:479]))
        head[524:528] = u32(crc(head[8:524]))
        file.seek(0)
        file.write(head)
    wrote = lambda lines: sum(int(it) for it in re.findall(rb"pwrite64\(.*\) = (\d+)", subprocess.run(["strace", "-f", "-e", "trace=pwrite64,write", *PROGRAM, "run", path], input=lines, stdout=subprocess.DEVNULL, stderr=subprocess.PIPE).stderr))
    run(path)
    written = wrote(b"save\n") - wrote(b"")
    check("`save` writes at most 512 bytes a region, and 4,096", 512 * 8192 <= written <= 512 * 8192 + 4096, True)
    print(f"`save` of 8192 regions writes {written} bytes")
    found = Found(path)
    bad, free = found.bad_maps()
    check("maps of 8192 regions that aren't exact", bad[:8], [])
    check("their free bytes", (found.free, found.maps, found.last_map), (free, 2, begin(8191)))

print(f"{well} were as they must be, {ill} weren't")
sys.exit(ill > 0)
END
