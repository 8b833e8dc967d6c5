#!/usr/bin/env python3
"""Lays the small stores of another writer that cases load, by [MS-PST] alone: strange where other programs may be strange.

Run by hand, with the folder of the case files: bench/lay_stores.py crates/cases/data
"""
import struct
import sys

TABLE = []
for byte in range(256):
    c = byte
    for _ in range(8):
        c = c >> 1 ^ 0xEDB88320 if c & 1 else c >> 1
    TABLE.append(c)


def crc(data):
    c = 0
    for byte in data:
        c = TABLE[(c ^ byte) & 0xFF] ^ c >> 8
    return c


def sig(place, bid):
    x = place ^ bid
    return (x ^ x >> 16) & 0xFFFF


def text(s):
    return s.encode("utf-16-le")


def u32(n):
    return struct.pack("<I", n & 0xFFFFFFFF)


def u64(n):
    return struct.pack("<Q", n)


class Heap:
    """A heap on the blocks of a node (2.3.1)."""

    def __init__(self):
        self.blocks = [[]]

    def head(self, at):
        return 12 if at == 0 else 66 if at % 128 == 8 else 2

    def add(self, item):
        at = len(self.blocks) - 1
        last = self.blocks[at]
        if self.head(at) + sum(map(len, last)) + len(item) + 1 + 6 + 2 * (len(last) + 1) > 8176:
            self.blocks.append([])
            at, last = at + 1, self.blocks[-1]
        last.append(item)
        return at << 16 | len(last) << 5

    def put(self, hid, item):
        self.blocks[hid >> 16][(hid >> 5 & 0x7FF) - 1] = item

    def made(self, client, root):
        whole = []
        for at, items in enumerate(self.blocks):
            head = (struct.pack("<BBI", 0xEC, client, root) if at == 0 else b"").ljust(self.head(at) - 2, b"\0")
            offsets, body = [self.head(at)], b""
            for item in items:
                body += item
                offsets.append(self.head(at) + len(body))
            place = self.head(at) + len(body)
            place += place % 2
            page_map = struct.pack("<HH", len(items), 0) + b"".join(struct.pack("<H", it) for it in offsets)
            whole.append(struct.pack("<H", place) + (head + body).ljust(place - 2, b"\0") + page_map)
            assert len(whole[-1]) <= 8176
        return whole


def bth(heap, header, key_size, entry_size, records):
    """The records in leaves, and an item above them if there are several, under the header item, which was added already (2.3.2)."""
    size, levels = key_size + entry_size, 0
    fits = 3580 // size
    items = [(it[:key_size], heap.add(b"".join(records[at : at + fits]))) for at in range(0, len(records), fits) for it in [records[at]]]
    if len(items) > 1:
        items, levels = [(b"", heap.add(b"".join(key + u32(hid) for key, hid in items)))], 1
    heap.put(header, struct.pack("<BBBBI", 0xB5, key_size, entry_size, levels, items[0][1] if items else 0))


IN_FIELD = {0x0002: 2, 0x0003: 4, 0x000B: 1}
IN_CELL = {0x0002: 2, 0x0003: 4, 0x0005: 8, 0x000B: 1, 0x0014: 8, 0x0040: 8}


def context(values):
    """The blocks of a property context with values by (id, kind), of which a number is the subnode that has the bytes, and its subnodes: the values that are too long for the heap (2.3.3)."""
    heap, records, subs = Heap(), [], {}
    header = heap.add(bytes(8))
    for (ident, kind), value in sorted(values.items()):
        if isinstance(value, int):
            field = u32(value)
        elif kind in IN_FIELD:
            field = value.ljust(4, b"\0")
        elif len(value) > 3580:
            nid = 0x3F + 0x20 * len(subs)
            subs[nid] = [value], {}
            field = u32(nid)
        else:
            field = u32(heap.add(value) if value else 0)
        records.append(struct.pack("<HH", ident, kind) + field)
    bth(heap, header, 2, 6, records)
    return heap.made(0xBC, header), subs


def properties(values):
    """The blocks of a property context of short values."""
    return context(values)[0]


class Columns:
    """Columns in the order of their cells, behind the row's id and version (2.3.4)."""

    def __init__(self, tags):
        self.columns, place, bit = {(0x67F2, 3): (0, 4, 0), (0x67F3, 3): (4, 4, 1)}, 8, 2
        ends = []
        for sizes in (8, 4), (2,), (1,):
            for tag in tags:
                size = IN_CELL.get(tag[1], 4)
                if size in sizes:
                    self.columns[tag] = place, size, bit
                    place, bit = place + size, bit + 1
            ends.append(place)
        self.ends = [*ends, place + (bit + 7) // 8]

    def row(self, heap, ident, values):
        row = bytearray(self.ends[3])
        for tag, (place, size, bit) in self.columns.items():
            value = {(0x67F2, 3): u32(ident), (0x67F3, 3): u32(0)}.get(tag, values.get(tag))
            if value is None:
                continue
            cell = value if tag[1] in IN_CELL else u32(heap.add(value) if value else 0)
            row[place : place + size] = cell
            row[self.ends[2] + bit // 8] |= 0x80 >> bit % 8
        return bytes(row)


MATRIX = 0x3F


def table(columns, rows):
    """The blocks of a table context with rows by their ids, and its subnodes: the rows, if they don't fit the heap."""
    heap, subs = Heap(), {}
    info, index = heap.add(bytes(22 + 8 * len(columns.columns))), heap.add(bytes(8))
    cells = [columns.row(heap, ident, rows[ident]) for ident in sorted(rows)]
    matrix = 0
    if sum(map(len, cells)) > 3580:
        matrix, fits = MATRIX, 8176 // columns.ends[3]
        blocks = [b"".join(cells[at : at + fits]) for at in range(0, len(cells), fits)]
        subs[MATRIX] = [it.ljust(8176, b"\0") for it in blocks[:-1]] + blocks[-1:], {}
    elif cells:
        matrix = heap.add(b"".join(cells))
    bth(heap, index, 4, 4, [u32(ident) + u32(at) for at, ident in enumerate(sorted(rows))])
    listed = sorted((ident << 16 | kind, it) for (ident, kind), it in columns.columns.items())
    described = b"".join(struct.pack("<IHBB", tag, place, size, bit) for tag, (place, size, bit) in listed)
    heap.put(info, struct.pack("<BB4HIII", 0x7C, len(listed), *columns.ends, index, matrix, 0) + described)
    return heap.made(0x7C, info), subs


REGION = 253952


def room(file, size):
    """Fills the file up to where so many bytes lie within one region, behind its maps."""
    begin = 0x4400 + (len(file) - 0x4400) // REGION * REGION
    if len(file) + size > begin + REGION:
        begin += REGION
    if len(file) < begin + 2048:
        file += bytes(begin + 2048 - len(file))


class Store:
    """A file: blocks from 4C00h on, then the pages of both trees."""

    def __init__(self):
        self.blocks, self.nodes, self.bid = [], {}, 4

    def block(self, data, internal=False):
        bid = self.bid | 2 * internal
        self.bid += 4
        self.blocks.append((bid, data))
        return bid

    def data(self, blocks):
        """What names the data blocks, if that isn't there already: nothing, the one, or an XBLOCK."""
        if isinstance(blocks, int):
            return blocks
        bids = [self.block(it) for it in blocks]
        if len(bids) < 2:
            return bids[0] if bids else 0
        return self.block(struct.pack("<BBHI", 1, 1, len(bids), sum(map(len, blocks))) + b"".join(map(u64, bids)), internal=True)

    def subnodes(self, subs):
        """The block that lists subnodes: (data blocks, subnodes) by their ids."""
        if not subs:
            return 0
        entries = b"".join(struct.pack("<QQQ", nid, self.data(blocks), self.subnodes(below)) for nid, (blocks, below) in sorted(subs.items()))
        return self.block(struct.pack("<BBHI", 2, 0, len(subs), 0) + entries, internal=True)

    def repeated(self, length):
        """What names data of so many zeros, more than 8,347,696: an XXBLOCK, whose XBLOCKs name one full block again and again, and a last one (2.2.2.8.3.2)."""
        full, rest = divmod(length, 8176)
        zeros, last = self.block(bytes(8176)), self.block(bytes(rest))
        names = lambda bids: self.block(struct.pack("<BBHI", 1, 1, len(bids), 8176 * bids.count(zeros) + rest * bids.count(last)) + b"".join(map(u64, bids)), internal=True)
        whole = names([zeros] * 1021)
        lists = [whole] * (full // 1021) + [names([zeros] * (full % 1021) + [last])]
        return self.block(struct.pack("<BBHI", 1, 2, len(lists), length) + b"".join(map(u64, lists)), internal=True)

    def node(self, nid, blocks, parent=0, subs=None):
        self.nodes[nid] = self.data(blocks), self.subnodes(subs or {}), parent

    def bytes(self, counters, eof=None):
        """The file's bytes, of which zeros behind are left out where its end is told."""
        file = bytearray(0x4C00)
        entries = []
        for bid, data in self.blocks:
            size = (len(data) + 16 + 63) // 64 * 64
            room(file, size)
            place = len(file)
            trailer = struct.pack("<HHIQ", len(data), sig(place, bid), crc(data), bid)
            file += data.ljust(size - 16, b"\0") + trailer
            entries.append((bid, struct.pack("<QQHHI", bid, place, len(data), 2, 0)))
        file += bytes(-len(file) % 512)
        self.page_bid = 1
        block_root = self.tree(file, 0x80, 24, sorted(entries))
        node_root = self.tree(file, 0x81, 32, sorted((nid, struct.pack("<QQQII", nid, *it, 0)) for nid, it in self.nodes.items()))
        file[:564] = self.header(eof or len(file), block_root, node_root, counters)
        return bytes(file)

    def tree(self, file, kind, size, entries):
        """Writes the pages of a tree, and gives the reference to its root."""
        level = 0
        while True:
            fits = 488 // size
            above = []
            for at in range(0, max(len(entries), 1), fits):
                part = entries[at : at + fits]
                body = b"".join(it for _, it in part).ljust(488, b"\0") + struct.pack("<BBBBI", len(part), fits, size, level, 0)
                room(file, 512)
                place, bid = len(file), self.page_bid
                self.page_bid += 1
                file += body + struct.pack("<BBHIQ", kind, kind, sig(place, bid), crc(body), bid)
                above.append((part[0][0] if part else 0, struct.pack("<QQQ", part[0][0] if part else 0, bid, place), bid, place))
            if len(above) == 1:
                return above[0][2:]
            entries, size, level = [(key, it) for key, it, _, _ in above], 24, level + 1

    def header(self, eof, block_root, node_root, counters):
        h = bytearray(564)
        h[0:4], h[8:16] = b"!BDN", b"SM" + struct.pack("<HHBB", 23, 19, 1, 1)
        h[32:40], h[40:44] = u64(self.page_bid), u32(1)
        for kind in range(32):
            h[44 + 4 * kind : 48 + 4 * kind] = u32(counters.get(kind, 0x400))
        root = u32(0) + u64(eof) + u64(0x4400) + u64(0) + u64(0)
        h[180:252] = root + struct.pack("<QQQQ", *node_root, *block_root) + bytes(4)
        h[256:512], h[512] = b"\xff" * 256, 0x80
        h[516:524] = u64(self.bid)
        h[4:8] = u32(crc(h[8:479]))
        h[524:528] = u32(crc(h[8:524]))
        return h


FOLDER_COLUMNS = Columns([(0x3001, 0x1F), (0x3602, 3), (0x3603, 3), (0x360A, 0xB)])
USUAL_COLUMNS = [(0x001A, 0x1F), (0x0037, 0x1F), (0x0039, 0x40), (0x0E06, 0x40), (0x0E07, 3), (0x0E08, 3), (0x3007, 0x40), (0x3008, 0x40)]
MESSAGE_COLUMNS = Columns(USUAL_COLUMNS)
KEY = u32(crc(b"Strange")) + u32(7) + b"PSTORE01"
FOLDERS = {0x8022: ("Top of Personal Folders", 0x122), 0x8042: ("Search Root", 0x122), 0x8062: ("Deleted Items", 0x122)}


def folder(name, count, has_folders):
    return {(0x3001, 0x1F): text(name), (0x3602, 3): u32(count), (0x3603, 3): u32(count), (0x360A, 0xB): bytes([has_folders])}


def folders_of(folders, messages, home):
    """The values of folders by their ids: of each its name and its parent; the messages lie in one of them."""
    parents = {parent for _, parent in folders.values()}
    return {nid: folder(name, len(messages) if nid == home else 0, nid in parents) for nid, (name, _) in folders.items()}


def laid(names, messages, folders=FOLDERS, home=0x8022, rows={}, subs={}):
    """A store with these values at the node of names, these folders, and these messages in one of them: their values and subnodes by their ids. Tables get rows that name nothing, and nodes get subnodes that are nothing."""
    s = Store()
    entry_id = lambda nid: u32(0) + KEY + u32(nid)
    put = lambda nid, made, parent=0: s.node(nid, made[0], parent, {**made[1], **subs.get(nid, {})})
    noise = {(0x3001, 0x1F): b"AAAAAA", (0x001A, 0x1F): b"AAAA"}
    own = lambda nid, columns, values: put(nid, table(columns, {**values, **{row: noise for row in rows.get(nid, [])}}))
    put(0x21, context({(0x0FF9, 0x102): KEY, (0x3001, 0x1F): text("Strange"), (0x35E0, 0x102): entry_id(0x8022), (0x35E3, 0x102): entry_id(0x8062), (0x35E7, 0x102): entry_id(0x8042)}))
    put(0x61, context({(0x0001, 3): u32(251), **names}))
    put(0x122, context(folder("", 0, True)), 0x122)
    values = folders_of(folders, messages, home)
    children = lambda parent: {nid: values[nid] for nid in folders if folders[nid][1] == parent}
    own(0x12D, FOLDER_COLUMNS, children(0x122))
    own(0x12E, MESSAGE_COLUMNS, {})
    own(0x12F, MESSAGE_COLUMNS, {})
    for nid, (_, parent) in folders.items():
        put(nid, context(values[nid]), parent)
        if nid & 31 == 2:
            own(nid + 11, FOLDER_COLUMNS, children(nid))
            own(nid + 12, MESSAGE_COLUMNS, {m: it[0] for m, it in messages.items()} if nid == home else {})
            own(nid + 13, MESSAGE_COLUMNS, {})
    for nid, (props, below) in messages.items():
        made = context(props)
        s.node(nid, made[0], home, {**made[1], **below})
    return s


def store(*of, **more):
    """The bytes of such a store, with numbers for new nodes behind those of its own."""
    s = laid(*of, **more)
    return s.bytes({2: 0x403, 3: 0x4000, 4: 0x10000 + len(of[1]), 8: 0x8000})


def full_names():
    """The last index that a property may have is taken."""
    entry = u32(0x8501) + struct.pack("<HH", 1 << 1, 32766)
    return store({(0x0002, 0x102): b"", (0x0003, 0x102): entry, (0x0004, 0x102): b"", (0x1000 + (0x8501 ^ 2) % 251, 0x102): entry}, {})


def crowded_names():
    """The same, in a node of names with 1,000 values that lacks the stream of GUIDs."""
    entry = u32(0x8501) + struct.pack("<HH", 1 << 1, 32766)
    names = {(0x0003, 0x102): entry, (0x0004, 0x102): b"", (0x1000 + (0x8501 ^ 2) % 251, 0x102): entry}
    return store({**names, **{(ident, 3): u32(ident) for ident in range(0x2000, 0x2000 + 996)}}, {})


def few_columns():
    """A message whose tables of recipients and of attachments lack columns, with a subnode like an attachment that no row names, and one of a kind of its own."""
    props = {(0x001A, 0x1F): text("IPM.Note"), (0x0037, 0x1F): text("Strange"), (0x0E07, 3): u32(16), (0x0E08, 3): u32(5)}
    recipients = table(Columns([(0x0C15, 3), (0x3001, 0x1F)]), {5: {(0x0C15, 3): u32(2), (0x3001, 0x1F): text("Old")}})
    parts = {0x8025: ("old.bin", b"\1\2"), 0x8065: ("two.bin", b"")}
    values = {nid: {(0x3704, 0x1F): text(name), (0x3701, 0x102): data, (0x7FFF, 3): u32(9)} for nid, (name, data) in parts.items()}
    attachments = table(Columns([(0x3704, 0x1F)]), {0x8025: {}, 0x8065: {(0x3704, 0x1F): text("stale")}})
    subs = {0x671: attachments, 0x692: recipients, 0x80A5: ([b"kept"], {}), 0x9F: ([b"unknown"], {0x3F: ([b"below"], {})})}
    for nid in parts:
        subs[nid] = context(values[nid])
    return store({}, {0x200024: (props, subs)})


def many_rows():
    """One table of 99,999 rows, one fewer than a command may bring a table to, without columns for them: as the recipients of a message, and as the messages of 0x8062, where its rows name nothing."""
    props = {(0x001A, 0x1F): text("IPM.Note"), (0x0E07, 3): u32(0), (0x0E08, 3): u32(0)}
    s = laid({}, {0x200024: (props, {})})
    heap, below = table(Columns([]), {32 * row + 8: {} for row in range(1, 100_000)})
    rows = s.data(heap), {nid: (s.data(blocks), {}) for nid, (blocks, _) in below.items()}
    s.node(0x806E, rows[0], subs=rows[1])
    s.node(0x200024, s.nodes[0x200024][0], parent=0x8022, subs={0x692: rows})
    return s.bytes({2: 0x403, 3: 0x4000, 4: 0x10001, 8: 0x8000})


def unknown(inner):
    """A node that is nothing known, with another one below it."""
    return [bytes([9] * 5)], {inner: ([bytes([8] * 3)], {})}


def attachment(data):
    blocks, subs = context({(0x3701, 0x102): data, (0x3704, 0x1F): b"AA"})
    return blocks, {**subs, 0x5001: unknown(0x41)}


def other_programs():
    """A search folder of another program; a node that is nothing known; rows that name nothing, and subnodes that are nothing, in a folder, its tables and its message, which has recipients and attachments."""
    props = {(0x001A, 0x1F): text("IPM.Note"), (0x0037, 0x1F): text("Hello"), (0x0E07, 3): u32(0), (0x0E08, 3): u32(0), (0x3007, 0x40): bytes(8), (0x3008, 0x40): bytes(8), (0x300B, 0x102): bytes(16)}
    columns, named = Columns([(0x3001, 0x1F)]), {(0x3001, 0x1F): b"AAAAAA"}
    subs = {0x671: table(columns, {0x8025: named, 0x8045: named}), 0x692: table(columns, {0: named, 1: named}), 0x8025: attachment(b"AAA"), 0x8045: attachment(b"A" * 3581)}
    subs |= {0x21: unknown(0x692), 0x700: unknown(0x671), 0x9001: unknown(0x8025)}
    folders = {**FOLDERS, 0x8082: ("Inbox", 0x8022), 0x8003: ("Found", 0x8042)}
    rows = {0x808D: [0x8084], 0x808E: [0x8088], 0x804D: [0x8023]}
    below = {nid: {0x21: unknown(0x41)} for nid in (0x8082, 0x808D, 0x808E)}
    s = laid({}, {0x200024: (props, subs)}, folders=folders, home=0x8082, rows=rows, subs=below)
    s.node(0x8085, *unknown(0x61)[:1], subs=unknown(0x61)[1])
    return s.bytes({2: 0x404, 3: 0x4000, 4: 0x10001, 8: 0x8000})


def deep_folders():
    """A chain of 65 folders, each in the one before it; their empty tables are one block each."""
    chain = [0x8022] + [0x8082 + 32 * at for at in range(64)]
    parents = [0x122] + chain[:-1]
    folders = {**FOLDERS, **{nid: ("A", parent) for nid, parent in zip(chain, parents)}}
    s = laid({}, {}, folders=folders)
    for nid in chain[1:]:
        for table_of in (12, 13):
            s.nodes[nid + table_of] = s.nodes[chain[0] + table_of]
    return s.bytes({2: 0x403 + len(chain), 3: 0x4000, 4: 0x10000, 8: 0x8000})


def many_values():
    """A message with more values than a command may give one."""
    props = {(0x001A, 0x1F): text("A"), (0x0E07, 3): u32(0), (0x0E08, 3): u32(0), **{(0x4000 + at, 3): u32(0) for at in range(1_005)}}
    return store({}, {0x200024: (props, {})})


def embedded_messages():
    """A message with attachments of which one holds a message, one a message without values, and each of the others nothing that counts as one; one whose table of attachments has no room for columns; and one with 999 values and neither flags nor a size, and an attachment that holds a message."""
    deep = {(0x3701, 0x102): b"\1\2\3", (0x3704, 0x1F): text("deep.bin")}
    recipients = table(Columns([(0x0C15, 3), (0x3001, 0x1F)]), {0: {(0x0C15, 3): u32(2), (0x3001, 0x1F): text("Bee")}})
    attachments = table(Columns([(0x3704, 0x1F)]), {0x8025: deep})
    props = {(0x001A, 0x1F): text("IPM.Note"), (0x0037, 0x1F): text("Inner"), (0x0E07, 3): u32(0), (0x0E08, 3): u32(7), (0x6600, 0xD): bytes(8)}
    inner = properties(props), {0x671: attachments, 0x692: recipients, 0x8025: (properties(deep), {})}
    lacking = properties(props), {0x671: attachments}
    is_one, named = {(0x3705, 3): u32(5)}, lambda nid: {(0x3701, 0xD): u32(nid) + u32(99)}
    parts = [
        ("right", {**is_one, **named(0x200064)}, {0x200064: inner}),
        ("method", {(0x3705, 3): u32(1), **named(0x200064)}, {0x200064: inner}),
        ("data", {**is_one, (0x3701, 0x102): u32(0x200064) + u32(99)}, {0x200064: inner}),
        ("short", {**is_one, (0x3701, 0xD): u32(0x200064)}, {0x200064: inner}),
        ("long", {**is_one, (0x3701, 0xD): u32(0x200064) + u32(99) + b"\0"}, {0x200064: inner}),
        ("nowhere", {**is_one, **named(0x8024)}, {0x200064: inner}),
        ("kind", {**is_one, **named(0x8022)}, {0x8022: inner}),
        ("broken", {**is_one, **named(0x8024)}, {0x8024: ([b"\1\2\3"], {})}),
        ("rows", {**is_one, **named(0x8024)}, {0x8024: lacking}),
        ("none", named(0x8024), {0x8024: inner}),
        ("bare", {**is_one, **named(0x8024)}, {0x8024: (properties({}), {})}),
        ("word", {(0x3705, 2): struct.pack("<H", 5), **named(0x8024)}, {0x8024: inner}),
    ]
    values = {0x8025 + 32 * at: ({**it, (0x3704, 0x1F): text(name)}, kept) for at, (name, it, kept) in enumerate(parts)}
    columns = Columns([(0x0E20, 3), (0x3704, 0x1F), (0x3705, 3), (0x370B, 3)])
    subs = {0x671: table(columns, {nid: it for nid, (it, _) in values.items()})}
    subs |= {nid: (properties(it), kept) for nid, (it, kept) in values.items()}
    outer = {(0x001A, 0x1F): text("IPM.Note"), (0x0037, 0x1F): text("Outer"), (0x0E07, 3): u32(16), (0x0E08, 3): u32(5)}
    wide = {(0x001A, 0x1F): text("IPM.Note"), (0x0037, 0x1F): text("Wide"), (0x0E07, 3): u32(0), (0x0E08, 3): u32(0)}
    room = {0x671: table(Columns([(0x4000 + at, 3) for at in range(253)]), {})}
    many = {(0x001A, 0x1F): text("A"), **{(0x4000 + at, 3): u32(0) for at in range(998)}}
    holding = {0x671: table(columns, {0x8025: values[0x8025][0]}), 0x8025: subs[0x8025]}
    return store({}, {0x200024: (outer, subs), 0x200044: (wide, room), 0x200064: (many, holding)})


def large_attachment():
    """A search folder with criteria of another program, two tables of messages that are one block, a size of another count, and an attachment of 20,000,000 bytes
    in a file of 90 regions, of which those behind the pages are zeros and left out here."""
    props = {(0x001A, 0x1F): text("IPM.Note"), (0x0037, 0x1F): text("Large"), (0x0E07, 3): u32(17), (0x0E08, 3): u32(12345)}
    s = laid({}, {0x200024: (props, {})}, folders={**FOLDERS, 0x80023: ("Unread Mail", 0x8042)})
    large = {(0x0E20, 3): u32(20_000_000), (0x3701, 0x102): 0x5F, (0x3704, 0x1F): text("large.bin"), (0x3705, 3): u32(1)}
    shown = {tag: value for tag, value in large.items() if tag[0] != 0x3701}
    attachments = table(Columns([(0x0E20, 3), (0x3704, 0x1F), (0x3705, 3), (0x370B, 3)]), {0x8025: shown})
    s.node(0x200024, context(props)[0], parent=0x8022, subs={0x671: attachments, 0x8025: (context(large)[0], {0x5F: (s.repeated(20_000_000), {})})})
    s.nodes[0x806E] = s.nodes[0x804E]
    s.node(0x80026, [])
    s.node(0x80027, context({(0x660B, 0x102): b"criteria of another program"})[0])
    s.node(0x80030, table(MESSAGE_COLUMNS, {0x200024: props})[0])
    return s.bytes({2: 0x403, 3: 0x4001, 4: 0x10001, 8: 0x8000}, eof=0x4400 + 90 * REGION)


def search(flags, version, words):
    """The values of a criteria object of this store: messages of 0x8082 whose subject begins with some letters, of either case."""
    restriction = bytes.fromhex("03010001001f0037001f003700") + text(words + "\0")
    values = {(0x6801, 0x1F): text(f"PSTORE-SEARCH-0{version}"), (0x6802, 3): u32(flags), (0x6803, 0x102): u32(0x8082), (0x6804, 0x102): restriction}
    return {**values, **({(0x6805, 3): u32(1)} if version == 2 else {})}


def many_columns():
    """A folder of six messages whose table has a column of each kind that a view sorts by, and columns of three others. One row isn't what its message has, one has a GUID of 15 bytes, and one lacks these cells."""
    tags = [(0x4001, 2), (0x4002, 0xB), (0x4003, 0x14), (0x4004, 0x48), (0x4005, 0x102), (0x4006, 5), (0x4007, 0x1003), (0x4008, 0x1E)]
    others = [struct.pack("<d", 1.5), u32(1) + u32(2), b"text"]
    shown = {
        0x200024: [struct.pack("<h", 5), b"\1", struct.pack("<q", 2**63 - 1), bytes(range(16, 32)), b"\2"],
        0x200044: [struct.pack("<h", -3), b"\0", struct.pack("<q", -1), b"\xff" * 16, b""],
        0x200064: [],
        0x200084: [struct.pack("<h", 5), b"\2", struct.pack("<q", -(2**63)), b"\1" + bytes(15), b"\1\xff"],
        0x2000A4: [struct.pack("<h", 32767), b"\1", struct.pack("<q", 0), b"\x80" * 15, b"\1"],
        0x2000C4: [struct.pack("<h", -32768), b"\0", struct.pack("<q", -1), bytes(16), b"\xff"],
    }
    usual = {(0x001A, 0x1F): text("IPM.Note"), (0x0E07, 3): u32(0), (0x0E08, 3): u32(0)}
    rows = {nid: {**usual, **dict(zip(tags, [*it, *others] if it else []))} for nid, it in shown.items()}
    messages = {nid: ({**it, **({(0x4001, 2): struct.pack("<h", 7)} if nid == 0x200024 else {})}, {}) for nid, it in rows.items()}
    s = laid({}, messages, folders={**FOLDERS, 0x8082: ("Inbox", 0x8022)}, home=0x8082)
    made = table(Columns([*USUAL_COLUMNS, *tags]), rows)
    s.node(0x808E, made[0], subs=made[1])
    return s.bytes({2: 0x404, 3: 0x4000, 4: 0x10006, 8: 0x8000})


def stale_searches():
    """Two running searches of this store whose lists another program left as they were, one with criteria of the first version and a right list, and a stopped one with a list of its own."""
    subjects = {0x200024: "invoice 1", 0x200044: "letter 2", 0x200064: "Invoice 3"}
    messages = {nid: ({(0x001A, 0x1F): text("IPM.Note"), (0x0037, 0x1F): text(subject), (0x0E07, 3): u32(0), (0x0E08, 3): u32(10 * at)}, {}) for at, (nid, subject) in enumerate(subjects.items(), 1)}
    searches = {
        0x80023: ("Invoices", search(6, 2, "inv"), [0x200024, 0x200044]),
        0x80043: ("Letters", search(6, 2, "let"), []),
        0x80063: ("Old", search(6, 1, "inv"), [0x200024, 0x200064]),
        0x80083: ("Stopped", search(5, 2, "inv"), [0x200044]),
    }
    folders = {**FOLDERS, 0x8082: ("Inbox", 0x8022), **{nid: (name, 0x8042) for nid, (name, _, _) in searches.items()}}
    s = laid({}, messages, folders=folders, home=0x8082)
    for nid, (_, criteria, rows) in searches.items():
        s.node(nid + 3, [])
        s.node(nid + 4, context(criteria)[0])
        s.node(nid + 13, table(MESSAGE_COLUMNS, {row: messages[row][0] for row in rows})[0])
    return s.bytes({2: 0x404, 3: 0x4004, 4: 0x10003, 8: 0x8000})


if __name__ == "__main__":
    for name, made in (
        ("full_names.pst", full_names()),
        ("crowded_names.pst", crowded_names()),
        ("few_columns.pst", few_columns()),
        ("many_rows.pst", many_rows()),
        ("other_programs.pst", other_programs()),
        ("many_values.pst", many_values()),
        ("embedded_messages.pst", embedded_messages()),
        ("large_attachment.pst", large_attachment()),
        ("deep_folders.pst", deep_folders()),
        ("stale_searches.pst", stale_searches()),
        ("many_columns.pst", many_columns()),
    ):
        with open(f"{sys.argv[1]}/{name}", "wb") as file:
            file.write(made)
        print(name, len(made))
