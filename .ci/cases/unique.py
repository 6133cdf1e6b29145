"""Unique indexes: which two rows are told of those that clash, and rows that don't clash."""

import heaps
import program
from cases.case import built, int4_heap, int4_leaf, refused

PAIRS_TABLE = "CREATE TABLE t (a int4, b int4)"
UNIQUE = "CREATE UNIQUE INDEX i ON t (a)"
NULLS_CLASH = "CREATE UNIQUE INDEX i ON t (a) NULLS NOT DISTINCT"
UNIQUE_PAIRS = "CREATE UNIQUE INDEX i ON t (a, b)"
UNIQUE_WITH_INCLUDE = "CREATE UNIQUE INDEX i ON t (a) INCLUDE (b)"
UNIQUE_ABOVE_2 = "CREATE UNIQUE INDEX i ON t (a) WHERE a > 2"

# Runs of all rows, of four, and of one, by a leader alone and by several workers.
MANNERS = [
    ["--workers=0"],
    ["--workers=0", "--run-rows=4"],
    ["--workers=0", "--run-rows=1"],
    ["--workers=3"],
    ["--workers=31", "--run-rows=1"],
]

TWO_CLASHES = int4_heap([3, 1, 3, 1])
NULL_ROW = heaps.null_row(0)
TWO_NULLS = heaps.page([NULL_ROW, NULL_ROW])
ONE_NULL = heaps.page([NULL_ROW, heaps.Tuple(item=0, key=1)])
WITHOUT_KEY = heaps.page([heaps.Tuple(item=0, key=None)])
A_BLOCK_EACH = b"".join(int4_heap([key]) for key in (5, 1, 2, 3, 4, 5))

# Unique indexes over a page: the statements, the heap, and the first two rows of one key.
CLASHES = [
    ("the first in the order of keys", program.TABLE, UNIQUE, TWO_CLASHES, "(0,2) and (0,4)"),
    ("nulls that aren't distinct", program.TABLE, NULLS_CLASH, TWO_NULLS, "(0,1) and (0,2)"),
    ("INCLUDE values that differ", PAIRS_TABLE, UNIQUE_WITH_INCLUDE, int4_heap([7, 7], [1, 2]), "(0,1) and (0,2)"),
    ("both keys", PAIRS_TABLE, UNIQUE_PAIRS, int4_heap([7, 7, 7], [1, 2, 1]), "(0,1) and (0,3)"),
]


CASES = [
    built("unique: distinct nulls", TWO_NULLS, "btree: 2 rows, 2 blocks", statement=UNIQUE),
    built("unique: the same nulls in another index", TWO_NULLS, "btree: 2 rows, 2 blocks"),
    built("unique: one null of those that aren't distinct", ONE_NULL, "btree: 2 rows, 2 blocks", statement=NULLS_CLASH),
    built("unique: clashes that WHERE leaves out", int4_heap([2, 2, 3]), "btree: 1 rows, 2 blocks", int4_leaf((3, 3)),
          statement=UNIQUE_ABOVE_2),
    refused("unique: a fault of the heap behind a clash", TWO_CLASHES + WITHOUT_KEY, 5, "heap block 1 item 1: cause 7",
            statement=UNIQUE),
]

CASES += [
    refused(f"unique: {name}", heap, 6, f"duplicate key: {rows}", table, statement)
    for name, table, statement, heap, rows in CLASHES
]

CASES += [
    refused(f"unique: rows of one key on two of six blocks, {' '.join(options)}", A_BLOCK_EACH, 6,
            "duplicate key: (0,1) and (5,1)", statement=UNIQUE, options=options)
    for options in MANNERS
]
