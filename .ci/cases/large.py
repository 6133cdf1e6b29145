"""Indexes of more rows than a leaf takes, and of more than a million rows."""

import struct

import heaps
import model
import program
from cases.case import SAMPLE, Has, built, int4_heap

PAGE = heaps.PAGE

PAIRS_TABLE = "CREATE TABLE t (a int4, b int4)"
PAIRS = "CREATE INDEX i ON t (a, b)"
WITH_INCLUDE = "CREATE INDEX i ON t (a) INCLUDE (b)"
TEXT_TABLE = "CREATE TABLE t (a text)"
FEW_ON_A_LEAF = "CREATE INDEX i ON t (a) WITH (fillfactor = 10)"
BRIN = "CREATE INDEX i ON t USING brin (a)"
ARRAYS_TABLE = "CREATE TABLE t (a int4[])"
GIN = "CREATE INDEX i ON t USING gin (a)"

# The root's block 3 and level 1, twice, in a meta page.
ROOT_3 = {32: "03000000 01000000 03000000 01000000"}

# What the special spaces of two leaves and their root say: neighbours, level, flags.
LEFT_LEAF = {PAGE + 8176: "00000000 02000000 00000000 0100"}
RIGHT_LEAF = {2 * PAGE + 8176: "01000000 00000000 00000000 0100"}
ROOT = {3 * PAGE + 8176: "00000000 00000000 01000000 0200"}

# The root's first item, which has no key.
TO_LEFT_LEAF = {3 * PAGE + 8168: "00000100 0000 0820"}

TWO_LEVELS = ROOT_3 | LEFT_LEAF | RIGHT_LEAF | ROOT


# Indexes: the statements, the heap, how many rows and blocks the index has, and bytes of its file by their places.
PAGES = [
    ("as many keys as a leaf takes", program.TABLE, program.INDEX, int4_heap(range(1, 368)), 367, 2, {
        PAGE + 12: "D405 0009",
        PAGE + 2304: "00000100 8D00 1000 6F010000",
        PAGE + 8160: "00000000 0100 1000 01000000",
        PAGE + 8188: "0300",
    }),
    ("as many rows as a tuple takes", program.TABLE, program.INDEX, int4_heap(132 * [7]), 132, 2, {
        PAGE + 12: "1C00 C81C",
        PAGE + 24: "C89C5006",
        PAGE + 7368: "00001000 8420 2823 07000000 00000000 00000000 0100 00000000 0200",
        PAGE + 8170: "00000000 8400",
    }),
    ("a row more than a tuple takes", program.TABLE, program.INDEX, int4_heap(133 * [7]), 133, 2, {
        PAGE + 12: "2000 B81C",
        PAGE + 7352: "00000000 8500 1000 07000000",
        PAGE + 7368: "00001000 8420 2823 07",
    }),
    ("rows of one key and their own INCLUDE values", PAIRS_TABLE, WITH_INCLUDE, int4_heap(133 * [7], range(1, 134)),
     133, 2, {
        PAGE + 12: "2C02 A017",
        PAGE + 6048: "00000000 8500 1000 07000000 85",
        PAGE + 8160: "00000000 0100 1000 07000000 01",
    }),
    ("a key more than a leaf takes", program.TABLE, program.INDEX, int4_heap(range(1, 369)), 368, 4, TWO_LEVELS | {
        PAGE + 12: "D405 0009",
        PAGE + 2304: "00000000 0100 1020 6F010000 00000000 00000100 8C00 1000 6E01",
        2 * PAGE + 12: "2000 D01F",
        2 * PAGE + 8144: "00000100 8E00 1000 7001",
        2 * PAGE + 8160: "00000100 8D00 1000 6F01",
        3 * PAGE + 12: "2000 D81F",
        3 * PAGE + 8152: "00000200 0100 1020 6F010000 00000000",
    } | TO_LEFT_LEAF),
    ("more rows of one key than a leaf takes", program.TABLE, program.INDEX, int4_heap(1321 * [7]), 1321, 4,
     TWO_LEVELS | {
        PAGE + 12: "4000 7003",
        PAGE + 880: "00000000 0110 1820 07000000 00000000 00000000 0500 3A00",
        2 * PAGE + 7352: "00000500 BF00 1000 07000000",
        2 * PAGE + 7368: "00001000 8420 2823",
        3 * PAGE + 8144: "00000200 0110 1820 07000000 00000000 00000000 0500 3A00",
    } | TO_LEFT_LEAF),
    ("leaves that differ in the second key", PAIRS_TABLE, PAIRS, int4_heap(368 * [1], range(1, 369)), 368, 4, {
        PAGE + 2304: "00000000 0200 1020 01000000 6F010000",
    }),
    ("leaves that differ in the first key", PAIRS_TABLE, PAIRS, int4_heap(range(1, 369), 368 * [5]), 368, 4, {
        PAGE + 2304: "00000000 0100 1020 6F010000 00000000",
    }),
    ("leaves of one key and INCLUDE values", PAIRS_TABLE, WITH_INCLUDE, int4_heap(368 * [7], range(1, 369)), 368, 4,
     TWO_LEVELS | {
        PAGE + 12: "D405 F808",
        PAGE + 2296: "00000000 0110 1820 07000000 00000000 00000000 0100 8C00",
        3 * PAGE + 12: "2000 D01F",
    }),
]

# Ranges of 128 blocks, of which each has a page of its own over and over: 1,041,408 rows of 8,136 keys. A range is
# known by its least and its greatest row.
RANGE = 128
RANGES = 36
MANY_ROWS = b"".join(RANGE * int4_heap(range(first, first + 226)) for first in range(0, 1000 * RANGES, 1000))
ENDS_OF_RANGES = b"".join(
    int4_heap([first, first + 225]) + bytes((RANGE - 1) * PAGE) for first in range(0, 1000 * RANGES, 1000)
)

# Their B-tree: 904 leaves of 9 tuples, four pages above them, and the root on level 2 at block 290.
ROOT_290 = {32: "22010000 02000000 22010000 02000000"}

# A row on each of 5,000 blocks, in an order that isn't that of the blocks.
MANY_BLOCKS = b"".join(int4_heap([3 * block % 5000]) for block in range(5000))

# 600 rows of one long text, of which two fill a page of the heap, a leaf has one, and a page above two.
DEEP = 300 * heaps.page(2 * [heaps.Tuple(item=0, data=heaps.long_datum(2692 * b"x"))])

INT4 = struct.Struct("<i")


def long_arrays(count, size):
    """A row on each block, an int4[] of so many numbers that no other row has."""
    arrays = (range(first, first + size) for first in range(0, count * size, size))
    contents = (heaps.array_content(23, numbers, INT4.pack) for numbers in arrays)
    return b"".join(heaps.data_page([heaps.long_datum(content)]) for content in contents)


# 330,000 entries of a row each, and 149,600 rows of one entry.
ENTRIES = long_arrays(1100, 300)
ONES = 1100 * heaps.data_page(heaps.ARRAYS_ON_PAGE * [heaps.int4_array(1)])

# What the meta page tells of blocks, pages of entries, pages of postings, and entries; the root; and the first and the
# last entry. A leaf has 291 entries, the last one 6, and a page above names 408 leaves.
OF_ENTRIES = {
    48: "74040000 73040000 00000000 00000000 1009050000000000",
    PAGE + 12: "2400 C81F",
    2 * PAGE + 12: "A404 B004",
    2 * PAGE + 8160: "00801000 0100 1800 00000000 00000000 00000000 0100 0000 03000000 0000 0200",
    1136 * PAGE + 12: "3000 681F",
    1136 * PAGE + 8040: "00801000 0100 1800 0F090500 00000000 00004B04 0100 0000",
    1136 * PAGE + 8184: "FFFFFFFF 0000 0200",
}

# Of one entry the leaf has a tuple that leads to the root of a posting tree, above 20 leaves.
OF_ONES = {
    48: "17000000 01000000 15000000 00000000 0100000000000000",
    PAGE + 8168: "00001600 FFFF 1000 01000000 00000000",
    22 * PAGE + 8184: "FFFFFFFF 1400 0100",
}

# Statements of more than 8 KiB: by their blanks, by their columns, and by their condition.
BLANKS = f"CREATE TABLE t (a int4{60_000 * ' '})"
COLUMNS = f"CREATE TABLE t (a int4, {', '.join(f'c{number} int4' for number in range(2, 1601))})"
OF_THE_LAST_COLUMN = "CREATE INDEX i ON t (c1600, a)"
CONDITION = f"CREATE INDEX i ON t (a) WHERE {' AND '.join(1000 * ['a > 10'])}"


CASES = [
    built(f"large: {name}", heap, f"btree: {rows} rows, {blocks} blocks", Has(blocks, pieces), table, statement)
    for name, table, statement, heap, rows, blocks, pieces in PAGES
]

MANNERS = [[], ["--workers=31"]]
OF_RANGES = model.answer(ENDS_OF_RANGES, index=BRIN)
OF_BLOCKS = model.answer(MANY_BLOCKS)
OF_DEEP = model.answer(DEEP, TEXT_TABLE, FEW_ON_A_LEAF)

for options in MANNERS:
    manner = " ".join(options) or "no options"
    CASES += [
        built(f"large: ranges of more than a million rows, {manner}", MANY_ROWS, "brin: 1041408 rows, 3 blocks",
              OF_RANGES, statement=BRIN, options=options),
        built(f"large: more than a million rows, {manner}", MANY_ROWS, "btree: 1041408 rows, 910 blocks",
              Has(910, ROOT_290), options=options),
        built(f"large: a row on each of many blocks, {manner}", MANY_BLOCKS, "btree: 5000 rows, 16 blocks", OF_BLOCKS,
              options=options),
        built(f"large: ten levels, {manner}", DEEP, "btree: 600 rows, 1193 blocks", OF_DEEP, TEXT_TABLE,
              FEW_ON_A_LEAF, options),
        built(f"large: more than 100,000 entries, {manner}", ENTRIES, "gin: 1100 rows, 1140 blocks",
              Has(1140, OF_ENTRIES), ARRAYS_TABLE, GIN, options),
        built(f"large: more than 100,000 rows of an entry, {manner}", ONES, "gin: 149600 rows, 23 blocks",
              Has(23, OF_ONES), ARRAYS_TABLE, GIN, options),
    ]

CASES += [
    built("large: a statement of many blanks", SAMPLE, "btree: 3 rows, 2 blocks", table=BLANKS),
    built("large: a statement of many columns", SAMPLE, "btree: 3 rows, 2 blocks", table=COLUMNS,
          statement=OF_THE_LAST_COLUMN),
    built("large: a statement of many conditions", SAMPLE, "btree: 2 rows, 2 blocks", statement=CONDITION),
]
