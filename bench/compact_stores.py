#!/usr/bin/env python3
"""What `compact` must make of stores, by [MS-PST] and docs/FORMAT.md alone: says where each copy ends, and writes it.

Run by hand: bench/compact_stores.py FILE [TO]
"""
import struct
import sys

from lay_stores import crc, sig

FIRST, REGION, PAGE = 0x4400, 253_952, 512
BLOCK_TREE, NODE_TREE = 0x80, 0x81


def number(data, at, size):
    return int.from_bytes(data[at : at + size], "little")


def disk_size(length):
    """How many bytes a block of data takes with its trailer (2.2.2.8)."""
    return (length + 16 + 63) // 64 * 64


def fixed(region):
    """How many bytes the fixed pages of a region take (2.2.2.7.2 to 2.2.2.7.5)."""
    return PAGE * (1 + (region % 8 == 0) + (region % 496 == 128))


class Source:
    """A file with its trees."""

    def __init__(self, data):
        self.data = data
        self.next_page = number(data, 32, 8)
        self.next_block = max(number(data, 516, 8), 4)
        self.blocks, self.nodes = {}, []
        for entry in self.leaves(number(data, 240, 8)):
            bid, place, length = struct.unpack_from("<QQH", entry)
            self.blocks[bid & ~1] = bid, place, length
            self.next_block = max(self.next_block, bid + 4)
        for entry in self.leaves(number(data, 224, 8)):
            nid, content, subs = struct.unpack_from("<QQQ", entry)
            self.nodes.append((nid & 0xFFFFFFFF, content, subs, number(entry, 24, 4)))
        self.next_block -= self.next_block % 4
        self.refs = {}

    def leaves(self, place):
        """The entries of a tree, in their order (2.2.2.7.7)."""
        page = self.data[place : place + PAGE]
        count, _, size, level = page[488:492]
        self.next_page = max(self.next_page, number(page, 504, 8) + 1)
        for at in range(0, count * size, size):
            entry = page[at : at + size]
            yield from self.leaves(number(entry, 16, 8)) if level else [entry]

    def block(self, bid):
        _, place, length = self.blocks[bid & ~1]
        return self.data[place : place + length]

    def reach(self, bid):
        """Counts a reference to a block and those that it makes, and answers the length of the data and how many subnodes stand directly in it (2.2.2.8.3)."""
        if bid == 0:
            return 0
        self.refs[bid & ~1] = self.refs.get(bid & ~1, 0) + 1
        block = self.block(bid)
        if not bid & 2:
            return len(block)
        assert block[0] == 1, "a tree of data"
        return sum(self.reach(number(block, 8 + 8 * it, 8)) for it in range(number(block, 2, 2)))

    def reach_subs(self, bid):
        """The same of a tree of subnodes: the lengths of all data below it, and how many subnodes."""
        if bid == 0:
            return [], 0
        self.refs[bid & ~1] = self.refs.get(bid & ~1, 0) + 1
        block = self.block(bid)
        assert block[0] == 2, "a tree of subnodes"
        lengths, count = [], 0
        for it in range(number(block, 2, 2)):
            if block[1]:
                more, below = self.reach_subs(number(block, 8 + 16 * it + 8, 8))
                lengths, count = lengths + more, count + below
            else:
                at = 8 + 24 * it
                more, below = self.reach_subs(number(block, at + 16, 8))
                lengths += [self.reach(number(block, at + 8, 8)), *more]
                count += 1 + below
        return lengths, count


def next_place(at, unit, length):
    """The first place for so many bytes that meets no fixed page."""
    at = (at + unit - 1) // unit * unit
    while True:
        region = (at - FIRST) // REGION
        start = FIRST + REGION * region
        if at < start + fixed(region):
            at = start + fixed(region)
        elif at + length > start + REGION:
            at = start + REGION
        else:
            return at


def page(kind, entries, size, level, most, bid, place):
    body = b"".join(entries).ljust(488, b"\0") + bytes([len(entries), most, size, level]) + bytes(4)
    return body + struct.pack("<BBHIQ", kind, kind, sig(place, bid), crc(body), bid)


def map_page(kind, body, place):
    return body + struct.pack("<BBHIQ", kind, kind, 0, crc(body), place)


class Copy:
    """The file without holes."""

    def __init__(self, source):
        self.source, self.pieces, self.at, self.next_page = source, {}, FIRST, source.next_page
        needs = [0]
        for _, content, subs, _ in source.nodes:
            length = source.reach(content)
            lengths, count = source.reach_subs(subs)
            needs += [length, *lengths, 24 * count]
        entries = [self.put_block(key) for key in sorted(source.refs)]
        nodes = [(nid, struct.pack("<QQQII", nid, content, subs, parent, 0)) for nid, content, subs, parent in source.nodes]
        self.node_root = self.put_tree(NODE_TREE, nodes, 32, 15)
        self.block_root = self.put_tree(BLOCK_TREE, entries, 24, 20)
        past = max(self.at, *needs, FIRST + REGION)
        self.regions = (past - FIRST + REGION - 1) // REGION
        self.end = FIRST + REGION * self.regions

    def put(self, unit, made, length):
        self.at = next_place(self.at, unit, length)
        self.pieces[self.at] = made(self.at)
        place, self.at = self.at, self.at + length
        return place

    def put_block(self, key):
        bid, _, length = self.source.blocks[key]
        data = self.source.block(bid)

        def made(place):
            trailer = struct.pack("<HHIQ", length, sig(place, bid), crc(data), bid)
            return data.ljust(disk_size(length) - 16, b"\0") + trailer

        place = self.put(64, made, disk_size(length))
        return key, struct.pack("<QQHHI", bid, place, length, min(self.source.refs[key] + 1, 65535), 0)

    def put_tree(self, kind, entries, size, most):
        level = 0
        while True:
            above = []
            for at in range(0, max(len(entries), 1), most):
                part, bid = entries[at : at + most], self.next_page
                place = self.put(PAGE, lambda place: page(kind, [it for _, it in part], size, level, most, bid, place), PAGE)
                self.next_page += 1
                above.append((part[0][0] if part else 0, bid, place))
            if len(above) == 1:
                return above[0][1:]
            entries, size, most, level = [(key, struct.pack("<QQQ", key, bid, place)) for key, bid, place in above], 24, 20, level + 1

    def made(self):
        whole = bytearray(self.end)
        used = bytearray(3968 * self.regions)

        def put(place, piece):
            whole[place : place + len(piece)] = piece
            if place >= FIRST:
                for slot in range((place - FIRST) // 64, (place - FIRST + len(piece)) // 64):
                    assert not used[slot]
                    used[slot] = 1

        for place, piece in self.pieces.items():
            put(place, piece)
        for region in range(self.regions):
            start = FIRST + REGION * region
            put(start, bytes(PAGE))
            kinds = [0x83] * (region % 8 == 0) + [0x82] * (region % 496 == 128)
            for at, kind in enumerate(kinds, 1):
                put(start + PAGE * at, map_page(kind, b"\xff" * 496, start + PAGE * at))
        for region in range(self.regions):
            slots = used[3968 * region : 3968 * (region + 1)]
            bits = bytes(sum(slots[8 * byte + bit] << 7 - bit for bit in range(8)) for byte in range(496))
            start = FIRST + REGION * region
            whole[start : start + PAGE] = map_page(0x84, bits, start)
        zeros = bytes(496)
        whole[0x4200:0x4400] = zeros + struct.pack("<BBHIQ", 0x86, 0x86, sig(0x4200, self.next_page), crc(zeros), self.next_page)
        whole[:564] = self.header(64 * (len(used) - sum(used)))
        return bytes(whole)

    def header(self, free):
        head = bytearray(self.source.data[:564])
        struct.pack_into("<QI", head, 32, self.next_page + 1, (number(head, 40, 4) + 1) & 0xFFFFFFFF)
        last = FIRST + REGION * (self.regions - 1)
        struct.pack_into("<QQQQQQQQB", head, 184, self.end, last, free, 0, *self.node_root, *self.block_root, 2)
        struct.pack_into("<Q", head, 516, self.source.next_block)
        struct.pack_into("<I", head, 4, crc(head[8 : 8 + 471]))
        struct.pack_into("<I", head, 524, crc(head[8 : 8 + 516]))
        return head


def main():
    with open(sys.argv[1], "rb") as file:
        copy = Copy(Source(file.read()))
    print("compacted", copy.end)
    if len(sys.argv) > 2:
        with open(sys.argv[2], "xb") as file:
            file.write(copy.made())


if __name__ == "__main__":
    main()
