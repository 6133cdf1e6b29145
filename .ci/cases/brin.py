"""The bytes of BRIN indexes by each number of workers, and ranges that are too wide."""

import heaps
import program
from cases.case import Has, Pieces, built, hex_row, int4_heap, refused, text_blocks, with_change

PAGE = heaps.PAGE

OF_INT4 = "CREATE INDEX i ON t USING brin (a)"
BY_THREES = "CREATE INDEX i ON t USING brin (a) WITH (pages_per_range=3)"
BY_BLOCKS = "CREATE INDEX i ON t USING brin (a) WITH (pages_per_range=1)"
ABOVE_9 = "CREATE INDEX i ON t USING brin (a) WHERE a > 9"
LARGEST_BELOW_9 = "CREATE INDEX i ON t USING brin (a) WITH (pages_per_range='131072') WHERE a < 9"
SIX_TABLE = "CREATE TABLE t (a int2, b int8, c date, d uuid, e text, f timestamp)"
OF_SIX_TYPES = "CREATE INDEX i ON t USING brin (a, b, c, d, e, f)"
TEXT_TABLE = "CREATE TABLE t (a text)"
TEXTS_BY_TWOS = "CREATE INDEX i ON t USING brin (a) WITH (pages_per_range=2)"

# Numbers of workers, and runs of one row, which a summary has no need of.
MANNERS = [
    [],
    ["--workers=0"],
    ["--workers=1", "--run-rows=1"],
    ["--workers=2"],
    ["--workers=3"],
    ["--workers=4"],
    ["--workers=31"],
]

# A new block of a heap, and rows of one int4.
NEW = bytes(PAGE)
XMIN_INVALID = 0x0200
MINUS_TWO = heaps.Tuple(item=0, key=-2)
DEAD = heaps.Tuple(item=0, infomask=XMIN_INVALID | heaps.XMAX_INVALID, key=1)
NULL = heaps.null_row(0)

RANGES = b"".join(
    [*(int4_heap([key]) for key in (5, -2, 9)), heaps.page([DEAD]), NEW, NEW, heaps.page([NULL])]
)
ALL_DEAD = heaps.page([DEAD, DEAD]) + heaps.page([DEAD])
ALL_NULL = heaps.page([NULL, NULL]) + heaps.page([NULL])
BELOW_9 = int4_heap([9, 5]) + NEW + heaps.page([MINUS_TWO, NULL])
SIX_TYPES = b"".join(
    heaps.page([hex_row(6, data)])
    for data in (
        "0700 000000000000 FFFFFFFFFFFFFFFF 64000000" + 16 * "11" + "09 626F62 0500000000000000",
        "FDFF 000000000000 0900000000000000 FBFFFFFF" + 16 * "22" + "09 616E6E FEFFFFFFFFFFFFFF",
    )
)

# The meta page but for how many blocks a range has, and the page of the revmap but for its pointers.
META = {12: "2800 F81F F81F 0420", 24: "FA9C10A8 01", 36: "01", 8190: "91F0"}
REVMAP = {PAGE + 12: "1800 F81F F81F 0420", PAGE + 8190: "92F0"}
FRONT = META | REVMAP

# The same with a pointer to the tuple of the one range, whose page follows with a tuple of so many bytes.
ONE_RANGE = FRONT | {PAGE + 24: "0000 0200 0100", 2 * PAGE + 8190: "93F0"}
ONE_OF_8 = ONE_RANGE | {2 * PAGE + 12: "1C00 F01F F81F 0420", 2 * PAGE + 24: "F09F 10"}
ONE_OF_16 = ONE_RANGE | {2 * PAGE + 12: "1C00 E81F F81F 0420", 2 * PAGE + 24: "E89F 20"}
ONE_OF_96 = ONE_RANGE | {2 * PAGE + 12: "1C00 981F F81F 0420", 2 * PAGE + 24: "989F C0"}
ONE_WITHOUT_ROWS = ONE_OF_8 | {32: "80", 2 * PAGE + 8176: "00000000 A801"}

# Indexes of which all bytes are told that aren't zero: the statements, the heap, how many rows the index has and how
# many blocks its file, and these bytes.
WHOLE = [
    ("values, a dead row before new pages, and a null", program.TABLE, BY_THREES, RANGES, 4, 3, FRONT | {
        32: "03",
        PAGE + 24: "0000 0200 0100 0000 0200 0200 0000 0200 0300",
        2 * PAGE + 12: "2400 D81F F81F 0420",
        2 * PAGE + 24: "E89F 2000 E09F 1000 D89F 10",
        2 * PAGE + 8152: "06000000 8803",
        2 * PAGE + 8160: "03000000 A801",
        2 * PAGE + 8168: "00000000 08000000 FEFFFFFF 09000000",
        2 * PAGE + 8190: "93F0",
    }),
    ("no block", program.TABLE, OF_INT4, b"", 0, 2, FRONT | {32: "80"}),
    ("new pages alone", program.TABLE, OF_INT4, NEW + NEW, 0, 3, ONE_WITHOUT_ROWS),
    ("dead rows alone", program.TABLE, OF_INT4, ALL_DEAD, 0, 3, ONE_WITHOUT_ROWS),
    ("rows that WHERE leaves out", program.TABLE, ABOVE_9, int4_heap([5, 9]), 0, 3, ONE_WITHOUT_ROWS),
    ("nulls alone", program.TABLE, OF_INT4, ALL_NULL, 3, 3, ONE_OF_8 | {
        32: "80",
        2 * PAGE + 8176: "00000000 8803",
    }),
    ("a range of 131,072 blocks, and a condition", program.TABLE, LARGEST_BELOW_9, BELOW_9, 2, 3, ONE_OF_16 | {
        34: "02",
        2 * PAGE + 8168: "00000000 08000000 FEFFFFFF 05",
    }),
    ("columns of six types", SIX_TABLE, OF_SIX_TYPES, SIX_TYPES, 2, 3, ONE_OF_96 | {
        32: "80",
        2 * PAGE + 8088: "00000000 08000000 FDFF 0700 00000000",
        2 * PAGE + 8104: "FFFFFFFFFFFFFFFF 0900000000000000",
        2 * PAGE + 8120: "FBFFFFFF 64000000",
        2 * PAGE + 8128: 16 * "11",
        2 * PAGE + 8144: 16 * "22",
        2 * PAGE + 8160: "09 616E6E 09 626F62",
        2 * PAGE + 8168: "FEFFFFFFFFFFFFFF 0500000000000000",
    }),
]

# The numbers from 1 to 3,000, of which a block has 226, and in ranges of three blocks their tuples.
NUMBERS = int4_heap(range(1, 3001))
OF_3000_NUMBERS = {
    PAGE + 24: "0000 0200 0100 0000 0200 0200 0000 0200 0300 0000 0200 0400 0000 0200 0500 0000",
    2 * PAGE + 12: "2C00 A81F",
    2 * PAGE + 8104: "0C000000 08000000 990A0000 B80B0000",
    2 * PAGE + 8120: "09000000 08000000 F3070000 980A0000",
    2 * PAGE + 8136: "06000000 08000000 4D050000 F2070000",
    2 * PAGE + 8152: "03000000 08000000 A7020000 4C050000",
    2 * PAGE + 8168: "00000000 08000000 01000000 A6020000",
}

# 1,361 ranges of a new block each: two pages of the revmap, two regular pages of 680 tuples, and one of one tuple.
OF_1361_RANGES = {
    32: "01000000 02000000",
    PAGE + 24: "0000 0300 0100 0000 0300 0200",
    PAGE + 24 + 6 * 679: "0000 0300 A802",
    PAGE + 24 + 6 * 680: "0000 0400 0100",
    PAGE + 24 + 6 * 1359: "0000 0400 A802 0000",
    2 * PAGE + 24: "0000 0500 0100 00000000",
    3 * PAGE + 12: "B80A B80A",
    4 * PAGE + 12: "B80A B80A",
    4 * PAGE + 8176: "A8020000 A8010000",
    5 * PAGE + 12: "1C00 F01F",
    5 * PAGE + 8176: "50050000 A8010000",
}

# The tuple of 8,152 bytes of two texts, 4,069 times a and 4,063 times b, which fills its page.
FULL_PAGE = {
    2 * PAGE + 12: "1C00 2000",
    2 * PAGE + 24: "2080 B03F 00000000",
    2 * PAGE + 32: "00000000 08000000 A43F0000 6161",
    2 * PAGE + 40 + 4076: "8C3F0000 62626262",
    2 * PAGE + 8183: "00000000000000 93F0",
}

# In ranges of two blocks narrow ones, and behind them a wide one and a wider one.
NARROW = text_blocks(10 * b"a", 10 * b"b")
WIDE = text_blocks(4069 * b"a", 4071 * b"b", 4090 * b"a", 4090 * b"b")

# A page of three rows with a special space.
BROKEN = with_change(int4_heap([30, 10, 20]), 16, bytes.fromhex("F81F"))


CASES = [
    built("brin: a revmap of more than 1,360 ranges", bytes(1361 * PAGE), "brin: 0 rows, 6 blocks",
          Has(6, OF_1361_RANGES), statement=BY_BLOCKS),
    built("brin: a range that fills a page", text_blocks(4063 * b"b", 4069 * b"a"), "brin: 2 rows, 3 blocks",
          Has(3, FULL_PAGE), TEXT_TABLE, TEXTS_BY_TWOS),
    refused("brin: a fault of the heap behind a wide range", WIDE + BROKEN, 5, "heap block 4 item 0: cause 1",
            TEXT_TABLE, TEXTS_BY_TWOS),
]

CASES += [
    refused(f"brin: the least wide range behind {narrow} narrow ones", narrow * NARROW + WIDE, 7,
            f"range {narrow} too wide: 8160 bytes", TEXT_TABLE, TEXTS_BY_TWOS)
    for narrow in (0, 1, 40)
]

for options in MANNERS:
    manner = " ".join(options) or "no options"
    CASES += [
        built(f"brin: {name}, {manner}", heap, f"brin: {rows} rows, {blocks} blocks", Pieces(blocks, pieces), table,
              statement, options)
        for name, table, statement, heap, rows, blocks, pieces in WHOLE
    ]
    CASES.append(
        built(f"brin: 3,000 numbers in ranges of three blocks, {manner}", NUMBERS, "brin: 3000 rows, 3 blocks",
              Has(3, OF_3000_NUMBERS), statement=BY_THREES, options=options)
    )
