"""The B-tree file of sorted rows, read from docs/formats/btree.md and index_tuple.md alone."""

from __future__ import annotations

import struct
from dataclasses import dataclass, field

from model_page import pointer_bytes, with_header
from model_statements import Index, Table, Type
from model_values import aligned

SPECIAL = 8176
LEAF, ROOT, META = 1, 2, 8

# A list of row pointers makes a tuple of so many bytes at most, and a leaf's tuple has at most so
# many.
MOST_POSTING = 812
MOST_TUPLE = 2704

# What an empty page has beside the line pointers of its high key and of the next item, and what is
# left free above the leaves.
FREE = 8144
LEFT_FREE_ABOVE = 2457

ALTERNATE, VARIABLE, NULLS = 0x2000, 0x4000, 0x8000
WITH_POINTER = 0x1000


@dataclass(frozen=True)
class Row:
    values: tuple
    """The keys, and behind them the INCLUDE values."""
    pointer: tuple
    """Block and offset number."""


def with_value(data: bytes, kind: Type, value: object) -> bytes:
    """The data with a value more behind them."""
    if kind.width is not None:
        data += bytes(aligned(len(data), kind.alignment) - len(data))
        if isinstance(value, int):
            return data + (value % (1 << 8 * kind.width)).to_bytes(kind.width, "little")
        return data + value
    if len(value) <= 126:
        return data + bytes([2 * (len(value) + 1) + 1]) + value
    data += bytes(aligned(len(data), 4) - len(data))
    return data + struct.pack("<I", 4 * (len(value) + 4)) + value


def plain_tuple(
    kinds: list[Type], values: tuple, place: bytes, marks: int = 0, more: bytes = b""
) -> bytes:
    """The tuple of values, with these bytes in the row pointer's place, marks, and a tail."""
    data, bitmap = b"", 0
    for at, (kind, value) in enumerate(zip(kinds, values)):
        if value is not None:
            data = with_value(data, kind, value)
            bitmap |= 1 << at
            marks |= VARIABLE if kind.width is None else 0
    front = b""
    if None in values:
        marks |= NULLS
        front = struct.pack("<I4x", bitmap)
    body = front + data
    body += bytes(aligned(len(body), 8) - len(body)) + more
    return place + struct.pack("<H", marks | 8 + len(body)) + body


def row_tuple(kinds: list[Type], row: Row) -> bytes:
    return plain_tuple(kinds, row.values, pointer_bytes(row.pointer))


@dataclass
class Item:
    """An item of a level: its tuple, or how it is made with a child's block."""

    size: int
    list_size: int = 0
    """What a leaf item's list of row pointers takes."""
    rows: list = field(default_factory=list)
    """A leaf item's rows."""
    separator: tuple | None = None
    """Above the leaves: the keys that are kept, and a row pointer or None."""


class Tree:
    """The pages of an index over sorted rows."""

    def __init__(self, table: Table, index: Index, rows: list[Row]) -> None:
        self.index = index
        self.kinds = [table.kind(column) for column in index.columns()]
        self.rows = rows
        self.levels = []
        items = self.leaf_items()
        while items:
            level = self.level_of(items)
            self.levels.append(level)
            items = self.items_above(level) if len(level.starts) > 1 else None
        self.number()

    def keys_of(self, row: Row) -> tuple:
        return row.values[: len(self.index.keys)]

    def leaf_items(self) -> list[Item]:
        shares = self.index.deduplicate and not self.index.unique and not self.index.includes
        items = []
        for row in self.rows:
            size = len(row_tuple(self.kinds, row))
            if shares and items and self.keys_of(items[-1].rows[0]) == self.keys_of(row):
                count = len(items[-1].rows) + 1
                if aligned(size + 6 * count, 8) <= MOST_POSTING:
                    items[-1].rows.append(row)
                    items[-1].size = aligned(size + 6 * count, 8)
                    items[-1].list_size = items[-1].size - size
                    continue
            items.append(Item(size, rows=[row]))
        return items

    def level_of(self, items: list[Item]) -> Level:
        leaf = not self.levels
        left = 8192 * (100 - self.index.fill_factor) // 100 if leaf else LEFT_FREE_ABOVE
        starts, breaks = [0], []
        free, counted = FREE, 0
        at = 0
        while at < len(items):
            item = items[at]
            if counted >= 2 and (
                free < item.size + (8 if leaf else 0) or free + items[at - 1].list_size < left
            ):
                breaks.append(at)
                starts.append(at - 1)
                at -= 1
                free, counted = FREE, 0
                continue
            free -= 4 + (8 if not leaf and counted == 0 else item.size)
            counted += 1
            at += 1
        return Level(len(self.levels), items, starts, breaks)

    def separator(self, before: Item, item: Item) -> tuple:
        """The keys of an item up to the first in which the one before it differs."""
        left, right = self.keys_of(before.rows[-1]), self.keys_of(item.rows[0])
        for kept, (a, b) in enumerate(zip(left, right), 1):
            if a != b:
                return right[:kept], None
        return right, before.rows[-1].pointer

    def items_above(self, level: Level) -> list[Item]:
        """An item for each page of a level: minus infinity, and behind it the pages' separators."""
        items = [Item(8, separator=((), None))]
        for start in level.starts[1:]:
            one = level.items[start]
            separator = one.separator
            if separator is None:
                separator = self.separator(level.items[start - 1], one)
            items.append(Item(len(self.pivot(separator, 0)), separator=separator))
        return items

    def pivot(self, separator: tuple, child: int) -> bytes:
        keys, pointer = separator
        kept = len(keys) | (WITH_POINTER if pointer else 0)
        more = bytes(2) + pointer_bytes(pointer) if pointer else b""
        return plain_tuple(self.kinds, keys, pointer_bytes((child, kept)), ALTERNATE, more)

    def number(self) -> None:
        """Gives pages their blocks, in the order in which they are born."""
        born = []
        arrivals = list(range(1, len(self.levels[0].items) + 1)) if self.levels else []
        for level in self.levels:
            finished = [arrivals[at] for at in level.breaks]
            finished.append(len(self.levels[0].items) + 1 + level.height)
            births = [arrivals[0], *finished[:-1]]
            born += [(moment, level.height, page) for page, moment in enumerate(births)]
            arrivals = finished
        for block, (_, height, page) in enumerate(sorted(born), 1):
            self.levels[height].blocks[page] = block

    def item_bytes(self, level: Level, at: int, first: bool) -> bytes:
        item = level.items[at]
        if level.height > 0:
            child = self.levels[level.height - 1].blocks[at]
            return self.pivot(((), None) if first else item.separator, child)
        own = row_tuple(self.kinds, item.rows[0])
        if len(item.rows) == 1:
            return own
        count = len(item.rows) | ALTERNATE
        pointers = b"".join(pointer_bytes(row.pointer) for row in item.rows)
        pointers += bytes(item.size - len(own) - len(pointers))
        return plain_tuple(
            self.kinds, item.rows[0].values, pointer_bytes((len(own), count)), ALTERNATE, pointers
        )

    def page(self, level: Level, page: int) -> bytes:
        last = page + 1 == len(level.starts)
        end = len(level.items) if last else level.starts[page + 1]
        start = level.starts[page]
        tuples = [self.item_bytes(level, at, at == start) for at in range(start, end)]
        high_key = None
        if not last and level.height == 0:
            high_key = self.pivot(self.separator(level.items[end - 1], level.items[end]), 0)
        elif not last:
            high_key = self.item_bytes(level, end, False)
        before = level.blocks[page - 1] if page > 0 else 0
        behind = 0 if last else level.blocks[page + 1]
        flags = (LEAF if level.height == 0 else 0) | (ROOT if len(level.starts) == 1 else 0)
        return node(tuples, high_key, struct.pack("<IIIHH", before, behind, level.height, flags, 0))

    def file(self) -> bytes:
        pages = {}
        for level in self.levels:
            for page, block in level.blocks.items():
                pages[block] = self.page(level, page)
        root = (self.levels[-1].blocks[0], len(self.levels) - 1) if self.levels else (0, 0)
        return meta_page(*root, not self.index.includes) + b"".join(
            pages[block] for block in sorted(pages)
        )


@dataclass
class Level:
    height: int
    items: list
    starts: list
    """The item with which each page begins."""
    breaks: list
    """The item whose arrival finishes each page but the last."""
    blocks: dict = field(default_factory=dict)
    """The pages' blocks."""


def node(tuples: list[bytes], high_key: bytes | None, special: bytes) -> bytes:
    body, pointers = b"", []
    for one in [*tuples, *([] if high_key is None else [high_key])]:
        body = one + body
        pointers.append(SPECIAL - len(body) | 1 << 15 | len(one) << 17)
    if high_key is not None:
        pointers = [pointers[-1], *pointers[:-1]]
    return with_header(struct.pack(f"<{len(pointers)}I", *pointers), body, special)


def meta_page(root: int, level: int, equal_images: bool) -> bytes:
    fields = struct.pack(
        "<IIIIIII4xdB7x", 0x053162, 4, root, level, root, level, 0, -1.0, equal_images
    )
    return with_header(fields, b"", struct.pack("<IIIHH", 0, 0, 0, META, 0))
