"""The BRIN file of a heap's rows, read from docs/formats/brin.md and index_tuple.md alone."""

from __future__ import annotations

import struct
from collections.abc import Iterator
from dataclasses import dataclass

from model_btree import Row, with_value
from model_page import item_page, pointer_bytes, with_header
from model_statements import Type
from model_values import aligned

META, REVMAP, REGULAR = 0xF091, 0xF092, 0xF093
EMPTY_RANGE, HAS_NULLS = 0x20, 0x80

# What a page has for tuples and their line pointers, and the most bytes of a tuple.
ROOM = 8160
MOST_TUPLE = 8152

ON_REVMAP_PAGE = 1360


class TooWide(Exception):
    """The least range whose tuple no page takes, and the tuple's size."""


@dataclass(frozen=True)
class Column:
    """What a range knows of a column: the least and the greatest value, and whether one is null."""

    low: object
    high: object
    has_null: bool


def column_of(values: list) -> Column:
    there = [value for value in values if value is not None]
    return Column(min(there, default=None), max(there, default=None), None in values)


def bitmap_of(columns: list[Column]) -> bytes:
    """The null bitmap, empty where no flag is set."""
    flags = [column.low is None for column in columns] + [column.has_null for column in columns]
    bits = sum(1 << at for at, flag in enumerate(flags) if flag)
    return bits.to_bytes((len(flags) + 7) // 8, "little") if any(flags) else b""


def range_tuple(kinds: list[Type], first: int, rows: list[Row]) -> bytes:
    """The tuple of the range that begins with a block and has these rows."""
    columns = [column_of([row.values[at] for row in rows]) for at in range(len(kinds))]
    bitmap = bitmap_of(columns)
    place = aligned(5 + len(bitmap), 8)
    info = place | (0 if rows else EMPTY_RANGE) | (HAS_NULLS if bitmap else 0)
    data = b""
    for kind, column in zip(kinds, columns):
        if column.low is not None:
            data = with_value(with_value(data, kind, column.low), kind, column.high)
    front = struct.pack("<IB", first, info) + bitmap
    return front + bytes(place - len(front)) + data + bytes(-len(data) % 8)


def tuples_of(kinds: list[Type], rows: list[Row], blocks: int, size: int) -> Iterator[bytes]:
    """The tuples of all ranges of so many blocks each."""
    ranges = [[] for _ in range(0, blocks, size)]
    for row in rows:
        ranges[row.pointer[0] // size].append(row)
    for number, here in enumerate(ranges):
        made = range_tuple(kinds, number * size, here)
        if len(made) > MOST_TUPLE:
            raise TooWide(number, len(made))
        yield made


def pages_of(tuples: list[bytes]) -> list[list[bytes]]:
    """The tuples of each regular page."""
    pages, free = [], 0
    for one in tuples:
        if len(one) + 4 > free:
            pages.append([])
            free = ROOM
        pages[-1].append(one)
        free -= len(one) + 4
    return pages


def special(kind: int) -> bytes:
    return struct.pack("<4xHH", 0, kind)


def revmap_page(pointers: list[tuple]) -> bytes:
    """A page of the revmap. The pointers stand where other pages have their hole."""
    page = with_header(b"", b"", special(REVMAP))
    written = b"".join(pointer_bytes(pointer) for pointer in pointers)
    return page[:24] + written + page[24 + len(written) :]


def brin_file(kinds: list[Type], rows: list[Row], blocks: int, size: int) -> bytes:
    """The file of these rows of a heap of so many blocks, of which a range has so many."""
    pages = pages_of(list(tuples_of(kinds, rows, blocks, size)))
    count = sum(len(page) for page in pages)
    revmap = max(1, (count + ON_REVMAP_PAGE - 1) // ON_REVMAP_PAGE)
    pointers = [
        (block, offset)
        for block, page in enumerate(pages, 1 + revmap)
        for offset in range(1, len(page) + 1)
    ]
    fields = struct.pack("<IIII", 0xA8109CFA, 1, size, revmap)
    file = [with_header(fields, b"", special(META))]
    for page in range(revmap):
        start = page * ON_REVMAP_PAGE
        file.append(revmap_page(pointers[start : start + ON_REVMAP_PAGE]))
    return b"".join(file + [item_page(page, special(REGULAR)) for page in pages])
