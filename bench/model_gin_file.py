"""Reads the file of a GIN index as the map that it is, by docs/formats/gin.md and gin_postings.md.

A file of the program is held to all that those pages say of one; a server's own file, whose pages
are filled otherwise, is only read.
"""

from __future__ import annotations

import itertools
import mmap
import struct
from collections.abc import Iterator
from dataclasses import dataclass

from model_gin import KEY, MOST_TUPLE, Entry, Map, list_place, order_of
from model_page import PAGE, pointer_bytes
from model_statements import TYPES, Type
from model_values import Unread, Walk, aligned

DATA, LEAF, META, SEGMENTS = 1, 2, 8, 0x80
NO_LINK = 0xFFFFFFFF
IN_TREE = 0xFFFF
IN_TUPLE = 1 << 31

ROOT = 1
CONTENT = 32
SPECIAL = 8184

# What the items of a page with a right neighbour take at least, and what they may take.
LEAST_FILL = 4000
ROOM = 8160
POSTING_ROOM = 8152


class Unreadable(Exception):
    """Why a file is none of a GIN index."""


def want(holds: bool, why: str) -> None:
    if not holds:
        raise Unreadable(why)


@dataclass(frozen=True)
class Page:
    """A page of a GIN file."""

    block: int
    bytes: bytes

    def number(self, at: int, size: int) -> int:
        return int.from_bytes(self.bytes[at : at + size], "little")

    @property
    def right(self) -> int:
        return self.number(SPECIAL, 4)

    @property
    def flags(self) -> int:
        return self.number(SPECIAL + 6, 2)

    @property
    def lower(self) -> int:
        return self.number(12, 2)

    def content(self) -> bytes:
        """What a page of a posting tree has."""
        return self.bytes[CONTENT : self.lower]

    def tuples(self) -> list[bytes]:
        """The tuples of a page of the entry tree."""
        words = [self.number(at, 4) for at in range(24, self.lower, 4)]
        return [self.bytes[word & 0x7FFF :][: word >> 17] for word in words]


@dataclass(frozen=True)
class Item:
    """An item above a tree's leaves: the child, and the greatest key there."""

    child: int
    key: object


def pointer_at(data: bytes, at: int) -> tuple[int, int]:
    high, low, offset = struct.unpack_from("<HHH", data, at)
    return high << 16 | low, offset


def block_at(data: bytes, at: int) -> int:
    high, low = struct.unpack_from("<HH", data, at)
    return high << 16 | low


# ---- posting lists


def deltas_of(data: bytes) -> list[int]:
    """The deltas that bytes spell, each in the one way that it has."""
    deltas, delta, shift = [], 0, 0
    for byte in data:
        delta |= (byte & 0x7F) << shift
        if byte >= 0x80:
            shift += 7
        elif delta == 0 or (byte == 0 and shift > 0) or shift > 42:
            raise Unreadable("a delta has another spelling")
        else:
            deltas.append(delta)
            delta = shift = 0
    want(shift == 0, "a delta doesn't end")
    return deltas


def segment_at(data: bytes, at: int) -> tuple[list, int]:
    """The pointers of the segment that begins at a place, and where it ends."""
    want(at + 8 <= len(data), "a segment has no head")
    block, offset = pointer_at(data, at)
    end = at + 8 + int.from_bytes(data[at + 6 : at + 8], "little")
    want(end + end % 2 <= len(data), "a segment doesn't end")
    want(not any(data[end : end + end % 2]), "a segment has no zero behind it")
    numbers = itertools.accumulate(deltas_of(data[at + 8 : end]), initial=block << 11 | offset)
    return [(number >> 11, number & 0x7FF) for number in numbers], end + end % 2


def list_of(data: bytes) -> list:
    """The pointers of segments, one behind the other."""
    pointers, at = [], 0
    while at < len(data):
        more, at = segment_at(data, at)
        pointers += more
    return pointers


def segment_bytes(pointers: list) -> int:
    """How many bytes pointers take as one segment."""
    numbers = [block << 11 | offset for block, offset in pointers]
    deltas = [after - before for before, after in zip(numbers, numbers[1:])]
    return 8 + aligned(sum((delta.bit_length() + 6) // 7 for delta in deltas), 2)


# ---- the file


class File:
    """A file over arrays of a type."""

    def __init__(self, data: bytes | mmap.mmap, kind: Type) -> None:
        self.data = data
        self.kind = kind
        self.element = TYPES[kind.element]
        self.blocks = len(data) // PAGE
        self.seen: set[int] = set()
        """The blocks of the trees that were checked."""

    def page(self, block: int) -> Page:
        want(0 < block < self.blocks, f"block {block} isn't there")
        return Page(block, self.data[block * PAGE : (block + 1) * PAGE])

    def chain(self, first: int) -> Iterator[Page]:
        """The pages of a level, from the first along the right links."""
        block = first
        for _ in range(self.blocks):
            page = self.page(block)
            yield page
            if page.right == NO_LINK:
                return
            block = page.right
        raise Unreadable("right links don't end")

    def levels(self, root: int, items_of) -> list[list[Page]]:
        """The levels of a tree from its root down, each by its right links."""
        levels, first = [], root
        for _ in range(self.blocks):
            levels.append(list(self.chain(first)))
            if levels[-1][0].flags & LEAF:
                return levels
            first = items_of(levels[-1][0])[0].child
        raise Unreadable("a tree has no leaf")

    # ---- tuples of entries

    def entry_of(self, one: bytes) -> Entry:
        """The entry of a tuple."""
        info = int.from_bytes(one[6:8], "little")
        want(info & 0x1FFF == len(one), "a tuple has another size")
        if info & 0x8000:
            return one[16], None
        walk = Walk(one[8:])
        if self.element.width is None:
            _, header, raw = walk.pass_headed(self.element)
            return KEY, raw[header:]
        raw = walk.pass_fixed(self.element)
        return KEY, int.from_bytes(raw, "little", signed=True)

    def entry_items(self, page: Page) -> list[Item]:
        """The items of a page above the leaves of the entry tree."""
        return [Item(pointer_at(one, 0)[0], self.entry_of(one)) for one in page.tuples()]

    def posting_of(self, one: bytes) -> tuple[Entry, list]:
        """What a tuple on a leaf says: an entry, and its pointers."""
        entry = self.entry_of(one)
        front, count = pointer_at(one, 0)
        if count == IN_TREE:
            return entry, self.pointers_below(front)
        place = list_place(self.kind, entry)
        want(front == place + IN_TUPLE, f"{entry}: the list begins elsewhere")
        pointers, _ = segment_at(one, place)
        want(len(pointers) == count, f"{entry}: the list is counted otherwise")
        return entry, pointers

    # ---- posting trees

    @staticmethod
    def posting_items(page: Page) -> list[Item]:
        """The items of a page above the leaves of a posting tree."""
        data, count = page.content(), page.number(SPECIAL + 4, 2)
        want(len(data) >= 10 * count, "a page has fewer items than it counts")
        starts = range(0, 10 * count, 10)
        return [Item(block_at(data, at), pointer_at(data, at + 4)) for at in starts]

    def pointers_below(self, root: int) -> list:
        leaves = self.chain(self.first_leaf(root, self.posting_items))
        return [pointer for page in leaves for pointer in list_of(page.content())]

    # ---- as a whole

    def first_leaf(self, root: int, items_of) -> int:
        """The block of the leftmost leaf of a tree."""
        block = root
        for _ in range(self.blocks):
            page = self.page(block)
            if page.flags & LEAF:
                return block
            block = items_of(page)[0].child
        raise Unreadable("a tree has no leaf")

    def postings(self) -> Iterator[tuple[Entry, list]]:
        """The entries with their pointers, one behind the other."""
        last = None
        for page in self.chain(self.first_leaf(ROOT, self.entry_items)):
            for entry, pointers in map(self.posting_of, page.tuples()):
                want(last is None or last < order_of(entry), "entries don't ascend")
                ascend = all(a < b for a, b in zip(pointers, pointers[1:]))
                want(ascend, f"{entry}: a list doesn't ascend")
                last = order_of(entry)
                yield entry, pointers

    def map(self) -> Map:
        """The map that the file is read as."""
        return dict(self.postings())

    def check(self) -> None:
        """Holds the file to what is said of those that the program builds."""
        want(len(self.data) % PAGE == 0, "the file isn't whole")
        self.check_tree(ROOT, self.entry_items, self.greatest_entry, self.fill_of_entries)
        entry_pages = len(self.seen)
        entries = 0
        for page in self.levels(ROOT, self.entry_items)[-1]:
            for one in page.tuples():
                self.check_tuple(one)
                entries += 1
        want(self.seen == set(range(1, self.blocks)), "a block is of no tree")
        self.check_meta(entry_pages, entries)

    def check_tuple(self, one: bytes) -> None:
        """A list stands in its entry's tuple where that isn't too large, and else in a tree."""
        entry, pointers = self.posting_of(one)
        root, count = pointer_at(one, 0)
        size = aligned(list_place(self.kind, entry) + segment_bytes(pointers), 8)
        want((count == IN_TREE) == (size > MOST_TUPLE), f"{entry}: the list stands elsewhere")
        if count == IN_TREE:
            size = aligned(list_place(self.kind, entry), 8)
            self.check_tree(root, self.posting_items, self.greatest_pointer, self.fill_of_pointers)
        want(len(one) == size, f"{entry}: the tuple has {len(one)} bytes, not {size}")

    def check_tree(self, root: int, items_of, greatest_of, fill_of) -> None:
        """Each level names the pages of the level below, which are filled."""
        levels = self.levels(root, items_of)
        want(len(levels[0]) == 1, "a root has a neighbour")
        for level, below in zip(levels, levels[1:]):
            items = [item for page in level for item in items_of(page)]
            named = [Item(page.block, greatest_of(page)) for page in below]
            want(items == named, f"level of block {level[0].block}: other pages are named")
            want(len(below) > 1, "a level of one page has another above it")
        for page in (page for level in levels for page in level):
            want(page.block not in self.seen, f"block {page.block} is in two places")
            self.seen.add(page.block)
            fill = fill_of(page)
            full = page.right == NO_LINK or fill >= LEAST_FILL
            want(full, f"block {page.block} has {fill} bytes of items")

    def greatest_entry(self, page: Page) -> Entry:
        return self.entry_of(page.tuples()[-1])

    @staticmethod
    def fill_of_entries(page: Page) -> int:
        fill = sum(len(one) + 4 for one in page.tuples())
        want(fill <= ROOM, f"block {page.block} has {fill} bytes of items")
        want(page.flags in (0, LEAF), f"block {page.block} has flags {page.flags}")
        return fill

    def greatest_pointer(self, page: Page) -> tuple:
        if page.flags & LEAF:
            return list_of(page.content())[-1]
        return self.posting_items(page)[-1].key

    def fill_of_pointers(self, page: Page) -> int:
        fill = len(page.content())
        want(fill <= POSTING_ROOM, f"block {page.block} has {fill} bytes of items")
        flags = DATA | LEAF | SEGMENTS if page.flags & LEAF else DATA
        want(page.flags == flags, f"block {page.block} has flags {page.flags}")
        bound = bytes(6) if page.right == NO_LINK else pointer_bytes(self.greatest_pointer(page))
        want(page.bytes[24:30] == bound, f"block {page.block} has another right bound")
        return fill

    def check_meta(self, entry_pages: int, entries: int) -> None:
        """The meta page counts what is there, and nothing is pending."""
        fields = struct.unpack_from("<IIIIqIII4xqi4x", self.data, 24)
        data_pages = self.blocks - 1 - entry_pages
        counted = (NO_LINK, NO_LINK, 0, 0, 0, self.blocks, entry_pages, data_pages, entries, 2)
        want(fields == counted, f"the meta page says {fields}, not {counted}")
        want(Page(0, self.data[:PAGE]).flags == META, "block 0 is no meta page")


def difference(data: bytes, kind: Type, wanted: Map) -> str | None:
    """How a file of the program differs from the map that it has to be, or None."""
    file = File(data, kind)
    try:
        file.check()
        told = file.map()
    except (Unreadable, Unread, IndexError, struct.error) as why:
        return f"no GIN file: {why}"
    if told == wanted:
        return None
    entries = [entry for entry in {**wanted, **told} if wanted.get(entry) != told.get(entry)]
    return f"{len(entries)} entries have other rows, the first is {entries[0]!r:.60}"
