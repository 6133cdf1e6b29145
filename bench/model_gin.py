"""What a GIN index says: the map from entries to rows, read from docs/formats/gin_entries.md.

An entry is a pair of a category and a key, which is None where there is none.
"""

from __future__ import annotations

from model_btree import Row, plain_tuple
from model_statements import TYPES, Type
from model_values import aligned

KEY, NULL_KEY, EMPTY_ITEM, NULL_ITEM = range(4)

# The most bytes of an entry's tuple.
MOST_TUPLE = 2712

Entry = tuple
Map = dict
"""The row pointers of each entry, ascending."""


def entries_of(value: list | None) -> set[Entry]:
    """The entries of a value."""
    if value is None:
        return {(NULL_ITEM, None)}
    if not value:
        return {(EMPTY_ITEM, None)}
    return {(NULL_KEY, None) if key is None else (KEY, key) for key in value}


def order_of(entry: Entry) -> tuple:
    """Where an entry stands among the others."""
    category, key = entry
    return category, 0 if key is None else key


def list_place(kind: Type, entry: Entry) -> int:
    """Where the posting list begins in the tuple of an entry of arrays of a type."""
    category, key = entry
    if category != KEY:
        return 18
    return len(plain_tuple([TYPES[kind.element]], (key,), bytes(6)))


def is_too_wide(kind: Type, value: list | None) -> bool:
    """Whether an entry's tuple would be too large, even with its list in a tree."""
    return any(aligned(list_place(kind, one), 8) > MOST_TUPLE for one in entries_of(value))


def map_of(rows: list[Row]) -> Map:
    """The map of rows, whose first value is the array."""
    pointers = {}
    for row in rows:
        for entry in entries_of(row.values[0]):
            pointers.setdefault(entry, []).append(row.pointer)
    return {entry: sorted(pointers[entry]) for entry in sorted(pointers, key=order_of)}
