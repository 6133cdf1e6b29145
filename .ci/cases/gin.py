"""GIN indexes of one leaf, of whose files all bytes are told."""

import struct

import heaps
from cases.case import Pieces, built, hex_row

PAGE = heaps.PAGE

GIN = "CREATE INDEX i ON t USING gin (c)"
NUMBERS_TABLE = "CREATE TABLE t (c int4[])"
LONG_NUMBERS_TABLE = "CREATE TABLE t (c int8[])"
TEXTS_TABLE = "CREATE TABLE t (c text[])"
COLUMNS_TABLE = "CREATE TABLE t (a int4, b text, c int4[])"

# The meta page of a file of two blocks, but for how many entries there are: its header, nothing pending, the blocks and
# the pages of the entry tree, the version, and what the page is.
META = {12: "5000 F81F F81F 0420", 24: "FFFFFFFF FFFFFFFF", 48: "02000000 01", 72: "02", 8184: "FFFFFFFF 0000 08"}

# The special space of a root that is a leaf.
LEAF = {PAGE + 8184: "FFFFFFFF 0000 02"}

# A root without a tuple.
NO_ENTRY = {PAGE + 12: "1800 F81F F81F 0420"}

DEAD = heaps.Tuple(item=1, infomask=0x0A00, data=heaps.int4_array())


def long_number_array(*elements):
    """An int8[] of a few elements as it stands in a tuple."""
    return heaps.short_datum(heaps.array_content(20, elements, lambda number: struct.pack("<q", number)))


def short_text_array(*elements):
    """A text[] of a few elements under a header of one byte."""
    return heaps.short_datum(heaps.array_content(25, elements, heaps.long_datum))


ONLY_7 = heaps.int4_array(7).hex()

# Indexes: the statements, the heap, the rows, and what isn't zero in the file but for what each has.
INDEXES = [
    (
        "keys, a null among elements, an empty array and a null", NUMBERS_TABLE, GIN,
        heaps.data_page([heaps.int4_array(5, 5, 1), heaps.int4_array(), None, heaps.int4_array(None, 1)]), 4,
        {
            64: "05",
            PAGE + 12: "2C00 601F F81F 0420",
            PAGE + 24: "D89F4000 C09F3000 A09F4000 809F4000 609F4000",
            PAGE + 8032: "0080 1200 0100 2080",
            PAGE + 8048: "03 00 0000 0000 0300",
            PAGE + 8064: "0080 1200 0100 2080",
            PAGE + 8080: "02 00 0000 0000 0200",
            PAGE + 8096: "0080 1200 0100 2080",
            PAGE + 8112: "01 00 0000 0000 0400",
            PAGE + 8128: "0080 1000 0100 1800 05000000",
            PAGE + 8144: "0000 0000 0100",
            PAGE + 8152: "0080 1000 0200 2000 01000000",
            PAGE + 8168: "0000 0000 0100 0100 03",
        },
    ),
    ("no block", NUMBERS_TABLE, GIN, b"", 0, NO_ENTRY),
    ("new pages alone", NUMBERS_TABLE, GIN, bytes(2 * PAGE), 0, NO_ENTRY),
    ("dead rows alone", NUMBERS_TABLE, GIN, heaps.page([DEAD, DEAD]) + heaps.page([DEAD]), 0, NO_ENTRY),
    (
        "rows that WHERE leaves out", NUMBERS_TABLE, f"{GIN} WHERE c IS NULL",
        heaps.data_page([heaps.int4_array(), heaps.int4_array(5, 5, 1)]), 0, NO_ENTRY,
    ),
    (
        "nulls alone, on two blocks", NUMBERS_TABLE, GIN, heaps.data_page([None, None]) + heaps.data_page([None]), 3,
        {
            64: "01",
            PAGE + 12: "1C00 D81F F81F 0420",
            PAGE + 24: "D89F4000",
            PAGE + 8152: "0080 1200 0300 2080",
            # (0,1), (0,2) and (1,1), which is 2,047 behind.
            PAGE + 8168: "03 00 0000 0000 0100 0300 01 FF0F",
        },
    ),
    (
        "an array of nulls, which are one entry", NUMBERS_TABLE, GIN,
        heaps.data_page([heaps.int4_array(None, None)]), 1,
        {
            64: "01",
            PAGE + 12: "1C00 D81F F81F 0420",
            PAGE + 24: "D89F4000",
            PAGE + 8152: "0080 1200 0100 2080",
            PAGE + 8168: "01 00 0000 0000 0100",
        },
    ),
    (
        "elements of eight bytes, a negative one first", LONG_NUMBERS_TABLE, f"{GIN} WITH (fastupdate=off)",
        heaps.data_page([long_number_array(2**32 + 2, -2)]), 1,
        {
            64: "02",
            PAGE + 12: "2000 C81F F81F 0420",
            PAGE + 24: "E09F3000 C89F3000",
            PAGE + 8136: "0080 1000 0100 1800 02000000 01000000",
            PAGE + 8152: "0000 0000 0100",
            PAGE + 8160: "0080 1000 0100 1800 FEFFFFFF FFFFFFFF",
            PAGE + 8176: "0000 0000 0100",
        },
    ),
    (
        "texts, a null, an empty one and one that is there twice", TEXTS_TABLE, GIN,
        heaps.data_page([short_text_array(b"b", None, b"", b"b")]), 1,
        {
            64: "03",
            PAGE + 12: "2400 A81F F81F 0420",
            PAGE + 24: "E09F3000 C89F3000 A89F4000",
            PAGE + 8104: "0080 1200 0100 2080",
            PAGE + 8120: "01 00 0000 0000 0100",
            PAGE + 8136: "0080 1000 0100 1840 05 62",
            PAGE + 8152: "0000 0000 0100",
            PAGE + 8160: "0080 1000 0100 1840 03",
            PAGE + 8176: "0000 0000 0100",
        },
    ),
    (
        "a condition on another column, and an array behind others", COLUMNS_TABLE, f"{GIN} WHERE a > 10",
        heaps.page(
            [
                hex_row(3, "04000000 0578" + ONLY_7),
                hex_row(3, "0B000000" + ONLY_7, b"\5"),
                hex_row(3, "1E000000 0578", b"\3"),
            ]
        ), 2,
        {
            64: "02",
            PAGE + 12: "2000 C01F F81F 0420",
            PAGE + 24: "E09F3000 C09F4000",
            PAGE + 8128: "0080 1200 0100 2080",
            PAGE + 8144: "03 00 0000 0000 0300",
            PAGE + 8160: "0080 1000 0100 1800 07000000",
            PAGE + 8176: "0000 0000 0200",
        },
    ),
]

# Numbers of workers, and runs of one entry.
MANNERS = [
    [],
    ["--workers=0"],
    ["--workers=0", "--run-rows=1"],
    ["--workers=1"],
    ["--workers=4", "--run-rows=2"],
    ["--workers=31"],
]

CASES = [
    built(f"gin: {name}, {' '.join(options) or 'no options'}", heap, f"gin: {rows} rows, 2 blocks",
          Pieces(2, {**META, **pieces, **LEAF}), table, statement, options)
    for options in MANNERS
    for name, table, statement, heap, rows, pieces in INDEXES
]
