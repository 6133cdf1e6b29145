#!/usr/bin/env python3
"""What a build has to answer to a heap file and two statements, read from docs/formats and from
nothing else of this repository.

    bench/model.py HEAP [INDEX] [TABLE-STATEMENT INDEX-STATEMENT]

prints the answer to a heap file, and writes the index file where there is one; of a GIN index,
whose bytes may be others, it prints the map. It follows the definitions as they stand, with no
thought of speed, so that it can be held against the program. `model_statements.py` reads the
statements, `model_heap.py` pages and chains, `model_values.py` the values of rows. A B-tree is made
by `model_btree.py`, a BRIN index by `model_brin.py`, the map of a GIN index by `model_gin.py`, as
which `model_gin_file.py` reads a file.
"""

from __future__ import annotations

import sys
from dataclasses import dataclass

# The repository gets no folder of compiled modules.
sys.dont_write_bytecode = True

import model_brin
import model_gin
import model_gin_file
import program
from model_btree import MOST_TUPLE, Row, Tree, row_tuple
from model_heap import MOST_BLOCKS, PAGE, Fault, read_items, rows_of
from model_statements import Index, Refused, Table, Type, read_index, read_table
from model_values import Unread, keeps, order_of, values_of

BUILT, STATEMENT_FAULT, HEAP_FAULT, DUPLICATE, RANGE_FAULT = 0, 3, 5, 6, 7

TOO_WIDE_FOR_BTREE, TOO_WIDE_FOR_GIN = 12, 13


@dataclass(frozen=True)
class Arrays:
    """The map of a GIN index over arrays of a type."""

    kind: Type
    map: model_gin.Map

    def __str__(self) -> str:
        lines = (f"{entry}: {pointers}" for entry, pointers in self.map.items())
        return "\n".join(lines)


@dataclass(frozen=True)
class Answer:
    """How a build ends."""

    status: int
    error: str
    """What it prints on standard error."""
    index: bytes | Arrays | None = None
    """The index file's bytes, or of a GIN index what it says."""
    rows: int = 0

    def difference(self, file: bytes) -> str | None:
        """How an index file that was built differs from the one that is told, or None."""
        if isinstance(self.index, Arrays):
            return model_gin_file.difference(file, self.index.kind, self.index.map)
        if file == self.index:
            return None
        pairs = enumerate(zip(file, self.index))
        at = next((at for at, (a, b) in pairs if a != b), min(len(file), len(self.index)))
        return (
            f"an index of {len(file)} bytes, the model's of {len(self.index)}, which differ first"
            f" at byte {at}"
        )


def heap_fault(block: int, item: int, cause: int) -> Answer:
    return Answer(HEAP_FAULT, f"heap block {block} item {item}: cause {cause}")


class HeapFault(Exception):
    """Block, item and cause."""


def rows_of_block(page: bytes, block: int, table: Table, index: Index) -> list[Row]:
    """The rows of an index in a block."""
    rows = []
    try:
        live = rows_of(read_items(page, len(table.columns)))
    except Fault as fault:
        raise HeapFault(block, *fault.args) from fault
    for item, root in live:
        try:
            values = values_of(item, table, index.needed())
        except Unread as unread:
            raise HeapFault(block, item.number, *unread.args) from unread
        if not keeps(index, values):
            continue
        row = Row(tuple(values[column] for column in index.columns()), (block, root))
        cause = cause_of_width(table, index, row)
        if cause is not None:
            raise HeapFault(block, item.number, cause)
        rows.append(row)
    return rows


def cause_of_width(table: Table, index: Index, row: Row) -> int | None:
    """The cause for which a row is too wide for its index, if it is."""
    kinds = kinds_of(table, index)
    if index.method == "btree" and len(row_tuple(kinds, row)) > MOST_TUPLE:
        return TOO_WIDE_FOR_BTREE
    if index.method == "gin" and model_gin.is_too_wide(kinds[0], row.values[0]):
        return TOO_WIDE_FOR_GIN
    return None


def kinds_of(table: Table, index: Index) -> list[Type]:
    return [table.kind(column) for column in index.columns()]


def first_clash(index: Index, rows: list[Row]) -> tuple[Row, Row] | None:
    """The first two neighbours of sorted rows that a unique index takes once."""
    count = len(index.keys)
    for one, other in zip(rows, rows[1:]):
        keys = one.values[:count]
        if keys == other.values[:count] and not (index.nulls_distinct and None in keys):
            return one, other
    return None


def statements(table: str, index: str) -> tuple[Table, Index] | Answer:
    """What the statements describe, or how they are refused."""
    number = 1
    try:
        described = read_table(table.encode())
        number = 2
        return described, read_index(index.encode(), described)
    except Refused as refused:
        place, cause = refused.args
        return Answer(STATEMENT_FAULT, f"statement {number} at {place}: cause {cause}")


def answer(heap: bytes, table: str = program.TABLE, index: str = program.INDEX) -> Answer:
    """What a build answers to the bytes of a heap file and two statements."""
    asked = statements(table, index)
    if isinstance(asked, Answer):
        return asked
    described, spec = asked
    if len(heap) > MOST_BLOCKS * PAGE:
        return heap_fault(MOST_BLOCKS, 0, 15)
    blocks = len(heap) // PAGE
    if len(heap) % PAGE != 0:
        return heap_fault(blocks, 0, 14)
    rows = []
    try:
        for block in range(blocks):
            page = heap[block * PAGE : (block + 1) * PAGE]
            rows += rows_of_block(page, block, described, spec)
    except HeapFault as fault:
        return heap_fault(*fault.args)
    return built(described, spec, rows, blocks)


def built(described: Table, spec: Index, rows: list[Row], blocks: int) -> Answer:
    """What a build answers to the rows of a heap of so many blocks."""
    kinds = kinds_of(described, spec)
    if spec.method == "gin":
        return Answer(BUILT, "", Arrays(kinds[0], model_gin.map_of(rows)), len(rows))
    if spec.method == "brin":
        try:
            index = model_brin.brin_file(kinds, rows, blocks, spec.pages_per_range)
        except model_brin.TooWide as wide:
            number, size = wide.args
            return Answer(RANGE_FAULT, f"range {number} too wide: {size} bytes")
        return Answer(BUILT, "", index, len(rows))
    rows.sort(key=order_of(spec))
    clash = first_clash(spec, rows) if spec.unique else None
    if clash is not None:
        first, second = ("({},{})".format(*row.pointer) for row in clash)
        return Answer(DUPLICATE, f"duplicate key: {first} and {second}")
    return Answer(BUILT, "", Tree(described, spec, rows).file(), len(rows))


def main() -> int:
    if len(sys.argv) not in (2, 3, 5):
        raise SystemExit(__doc__)
    with open(sys.argv[1], "rb") as heap:
        told = answer(heap.read(), *sys.argv[3:])
    if told.error:
        print(told.error, file=sys.stderr)
    if isinstance(told.index, Arrays):
        print(told.index)
    elif told.index is not None and len(sys.argv) > 2:
        with open(sys.argv[2], "wb") as index:
            index.write(told.index)
    return told.status


if __name__ == "__main__":
    sys.exit(main())
