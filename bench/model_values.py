"""The values of a heap tuple, WHERE and the order of rows, read from docs/formats alone."""

from __future__ import annotations

import functools
import math
import operator

from model_statements import TYPES, Condition, Index, Table, Type

ON_DISK = 18
EXTERNAL_LENGTH = 18
MOST_DIMENSIONS = 6
MOST_ELEMENTS = 134217727

PAST_THE_END, COMPRESSED, EXTERNAL, BAD_TRUTH, BAD_ARRAY = 7, 8, 9, 10, 11


class Unread(Exception):
    """A value that can't be read: its cause."""


def aligned(place: int, alignment: int) -> int:
    return (place + alignment - 1) // alignment * alignment


def number(data: bytes, place: int, width: int, signed: bool) -> int:
    return int.from_bytes(data[place : place + width], "little", signed=signed)


def header_of(data: bytes, place: int) -> tuple[str, int, int]:
    """How the value with a header at a place is stored, its header's bytes and its whole length."""
    first = data[place]
    if first == 1:
        if place + 2 > len(data):
            raise Unread(PAST_THE_END)
        if data[place + 1] != ON_DISK:
            raise Unread(EXTERNAL)
        return "external", 2, EXTERNAL_LENGTH
    if first % 2 == 1:
        return "plain", 1, first >> 1
    if place + 4 > len(data):
        raise Unread(PAST_THE_END)
    return ("compressed" if first % 4 == 2 else "plain"), 4, number(data, place, 4, False) >> 2


class Walk:
    """A walk over the columns of a tuple, whose data are given."""

    def __init__(self, data: bytes) -> None:
        self.data = data
        self.place = 0

    def pass_fixed(self, kind: Type) -> bytes:
        start = aligned(self.place, kind.alignment)
        self.place = start + kind.width
        if self.place > len(self.data):
            raise Unread(PAST_THE_END)
        return self.data[start : self.place]

    def pass_headed(self, kind: Type) -> tuple[str, int, bytes]:
        """How the next value is stored, its header's bytes, and its bytes with the header."""
        if self.place >= len(self.data):
            raise Unread(PAST_THE_END)
        start = self.place
        if self.data[start] == 0:
            start = aligned(start, kind.alignment)
            if start >= len(self.data):
                raise Unread(PAST_THE_END)
        stored, header, length = header_of(self.data, start)
        self.place = start + length
        if length < header or self.place > len(self.data):
            raise Unread(PAST_THE_END)
        return stored, header, self.data[start : self.place]


def value_of(walk: Walk, kind: Type, needed: bool) -> object:
    """The value of the next column, or None where it isn't needed."""
    if kind.width is not None:
        raw = walk.pass_fixed(kind)
        if not needed:
            return None
        if kind.form == "truth" and raw[0] > 1:
            raise Unread(BAD_TRUTH)
        return raw if kind.form == "bytes" else number(raw, 0, kind.width, kind.form == "signed")
    stored, header, raw = walk.pass_headed(kind)
    if not needed:
        return None
    if stored != "plain":
        raise Unread(COMPRESSED if stored == "compressed" else EXTERNAL)
    content = raw[header:]
    return elements_of(content, kind) if kind.form == "array" else content


def elements_of(content: bytes, kind: Type) -> list:
    """An array's elements. Places are counted as if its header had four bytes."""
    data = bytes(4) + content
    if len(data) < 16:
        raise Unread(BAD_ARRAY)
    dimensions, offset, oid = (number(data, at, 4, at < 12) for at in (4, 8, 12))
    element = TYPES[kind.element]
    if not 0 <= dimensions <= MOST_DIMENSIONS or oid != element.oid:
        raise Unread(BAD_ARRAY)
    if dimensions == 0:
        return []
    if 16 + 8 * dimensions > len(data):
        raise Unread(BAD_ARRAY)
    sizes = [number(data, 16 + 4 * at, 4, True) for at in range(dimensions)]
    count = math.prod(sizes)
    if min(sizes) < 0 or count > MOST_ELEMENTS or offset < 0:
        raise Unread(BAD_ARRAY)
    bitmap = 16 + 8 * dimensions
    if offset != 0 and bitmap + (count + 7) // 8 > min(offset, len(data)):
        raise Unread(BAD_ARRAY)
    place, elements = aligned(bitmap, 8) if offset == 0 else offset, []
    for at in range(count):
        if offset != 0 and not data[bitmap + at // 8] >> at % 8 & 1:
            elements.append(None)
            continue
        walk = Walk(data)
        walk.place = place
        elements.append(element_of(walk, element))
        place = walk.place
    return elements


def element_of(walk: Walk, kind: Type) -> object:
    walk.place = aligned(walk.place, kind.alignment)
    try:
        if kind.width is not None:
            return number(walk.pass_fixed(kind), 0, kind.width, True)
        if walk.place >= len(walk.data):
            raise Unread(BAD_ARRAY)
        stored, header, length = header_of(walk.data, walk.place)
    except Unread as unread:
        raise Unread(BAD_ARRAY) from unread
    end = walk.place + length
    if stored != "plain" or length < header or end > len(walk.data):
        raise Unread(BAD_ARRAY)
    start, walk.place = walk.place + header, end
    return walk.data[start:end]


def values_of(item, table: Table, needed: list[int]) -> dict:
    """The values of a tuple's needed columns, by column. A null is None."""
    walk = Walk(item.page[item.offset + item.hoff : item.end])
    bitmap = item.page[item.offset + 23 : item.offset + item.hoff]
    values = {}
    for column in range(max(needed) + 1):
        there = column < item.attributes
        if there and item.has(0x0001):
            there = bool(bitmap[column // 8] >> column % 8 & 1)
        values[column] = value_of(walk, table.kind(column), column in needed) if there else None
    return {column: values[column] for column in needed}


COMPARISONS = {
    "=": operator.eq, "<>": operator.ne, "<": operator.lt, "<=": operator.le, ">": operator.gt,
    ">=": operator.ge,
}  # fmt: skip


def is_true(condition: Condition, values: dict) -> bool:
    value = values[condition.column]
    if condition.test == "is null":
        return value is None
    if condition.test == "is not null":
        return value is not None
    return value is not None and COMPARISONS[condition.test](value, condition.value)


def keeps(index: Index, values: dict) -> bool:
    return all(is_true(condition, values) for condition in index.conditions)


def order_of(index: Index):
    """The order of rows, each its keys, INCLUDE values and row pointer, as a key for sorting."""

    def compare(one, other) -> int:
        for at, key in enumerate(index.keys):
            a, b = one.values[at], other.values[at]
            if a == b:
                continue
            if a is None or b is None:
                return -1 if (a is None) == key.nulls_first else 1
            return -1 if (a < b) != key.descending else 1
        return -1 if one.pointer < other.pointer else 1

    return functools.cmp_to_key(compare)
