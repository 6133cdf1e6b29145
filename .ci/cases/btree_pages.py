"""Pages of B-trees, of which the telling bytes are told: values of each type, several columns, and where pages end."""

import heaps
import program
from cases.case import Has, built, int4_heap

# Where the blocks behind the meta page begin.
ONE, TWO, THREE = (block * heaps.PAGE for block in (1, 2, 3))

PAIRS_TABLE = "CREATE TABLE t (a int4, b int4)"
TEXT_TABLE = "CREATE TABLE t (a text)"
ORDERS_TABLE = "CREATE TABLE t (a timestamptz, b int8)"
TRUTHS_TABLE = f"CREATE TABLE t ({', '.join(f'c{number} bool' for number in range(32))})"

TWO_KEYS = "CREATE INDEX i ON t (a, b)"
ONE_INCLUDED = "CREATE INDEX i ON t (a) INCLUDE (b)"
UNSHARED = "CREATE INDEX i ON t (a) WITH (deduplicate_items = off)"
UNIQUE = "CREATE UNIQUE INDEX i ON t (a)"
SEVENTY = "CREATE INDEX i ON t (a) WITH (fillfactor = 70)"
NULLS_FIRST = "CREATE INDEX i ON t (a NULLS FIRST)"
LATEST_FIRST = "CREATE INDEX i ON t (a DESC, b)"
OF_TRUTHS = f"CREATE INDEX i ON t ({', '.join(f'c{number}' for number in range(32))})"

# The root's block and its level stand twice in the meta page.
LEAF_ROOT = {32: "01000000 00000000 01000000 00000000"}
ROOT_ABOVE = {32: "03000000 01000000 03000000 01000000"}


def texts(count, letters):
    """Rows of a text of so many letters each, on a block each two of them at most."""
    content = letters * b"x"
    datum = heaps.short_datum(content) if letters < 127 else heaps.long_datum(content)
    row = heaps.Tuple(item=0, data=datum)
    return b"".join(heaps.page([row] * min(2, count - first)) for first in range(0, count, 2))


def moment(number, time):
    """A row of a time and a number."""
    time = None if time is None else time.to_bytes(8, "little")
    bitmap = b"\2" if time is None else b""
    return heaps.Tuple(item=0, infomask2=2, data=(time or b"") + number.to_bytes(8, "little"), bitmap=bitmap)


NULL_ROW = heaps.null_row(0)
TWO_NULLS = heaps.page([NULL_ROW, NULL_ROW])
A_NULL = heaps.page([heaps.Tuple(item=0, key=5), NULL_ROW])
MOMENTS = heaps.page(
    [moment(1, 800_000_000_000_000), moment(2, None), moment(3, 800_000_000_000_000), moment(4, 700_000_000_000_000)]
)
TWO_OF_THREE = heaps.page([heaps.Tuple(item=0, key=30), None, heaps.Tuple(item=0, key=20)])
TRUTHS = heaps.page(
    [
        heaps.Tuple(item=0, infomask2=32, data=32 * b"\1"),
        heaps.Tuple(item=0, infomask2=32, data=31 * b"\1", bitmap=bytes.fromhex("FFFFFF7F")),
    ]
)

# Indexes: the statements, the heap, how many rows and blocks the index has, and bytes of its file by their places.
PAGES = [
    ("no rows", program.TABLE, program.INDEX, b"", 0, 1, {32: 16 * "00", 64: "01"}),
    ("as many keys as a leaf takes", program.TABLE, program.INDEX, int4_heap(range(1, 368)), 367, 2, LEAF_ROOT | {
        ONE + 12: "D405",
        ONE + 8188: "03",
    }),
    ("a key more than a leaf takes", program.TABLE, program.INDEX, int4_heap(range(1, 369)), 368, 4, ROOT_ABOVE | {
        ONE + 12: "D405 0009 F01F 0420",
        ONE + 24: "00892000 E09F2000",
        ONE + 2304: "00000000 0100 1020 6F010000",
        ONE + 2320: "00000100 8C00 1000 6E010000",
        ONE + 8176: "00000000 02000000 00000000 0100",
        TWO + 12: "2000 D01F F01F 0420",
        TWO + 8160: "00000100 8D00 1000 6F010000",
        TWO + 8176: "01000000 00000000 00000000 0100",
        THREE + 12: "2000 D81F F01F 0420",
        THREE + 24: "E89F1000 D89F2000",
        THREE + 8152: "00000200 0100 1020 6F010000",
        THREE + 8168: "00000100 0000 0820",
        THREE + 8176: "00000000 00000000 01000000 0200",
    }),
    ("a key more than a leaf takes of a lower fill factor", program.TABLE, SEVENTY, int4_heap(range(1, 287)), 286, 4,
     ROOT_ABOVE),
    ("as many rows of one key as a tuple takes", program.TABLE, program.INDEX, int4_heap(132 * [7]), 132, 2, {
        ONE + 12: "1C00 C81C F01F 0420",
        ONE + 7368: "00001000 8420 2823 07",
        ONE + 7384: "00000000 0100 00000000 0200",
        ONE + 8164: "00000000 8300 00000000 8400",
    }),
    ("a row more than a tuple takes", program.TABLE, program.INDEX, int4_heap(133 * [7]), 133, 2, {
        ONE + 12: "2000 B81C F01F 0420",
        ONE + 7352: "00000000 8500 1000 07000000",
    }),
    ("two rows more than a tuple takes", program.TABLE, program.INDEX, int4_heap(134 * [7]), 134, 2, {
        ONE + 12: "2000 A81C F01F 0420",
        ONE + 7336: "00001000 0220 2020 0700",
        ONE + 7352: "00000000 8500 00000000 8600",
    }),
    ("a row more than two tuples take", program.TABLE, program.INDEX, int4_heap(265 * [7]), 265, 2, {
        ONE + 12: "2400 9019 F01F 0420",
        ONE + 6544: "00000100 2700 1000 07000000",
    }),
    ("more rows of one key than a leaf takes", program.TABLE, program.INDEX, int4_heap(1321 * [7]), 1321, 4,
     ROOT_ABOVE | {
        ONE + 12: "4000 7003 F01F 0420",
        ONE + 880: "00000000 0110 1820 07000000",
        ONE + 892: "00000000 00000000 0500 3A00",
        TWO + 12: "2000 B81C F01F 0420",
        TWO + 7352: "00000500 BF00 1000 07000000",
        THREE + 8144: "00000200 0110 1820 0700",
    }),
    ("rows of one key that have a tuple each", program.TABLE, UNSHARED, int4_heap(368 * [7]), 368, 4, {
        64: "01",
        ONE + 12: "D405 F808 F01F 0420",
        ONE + 2296: "00000000 0110 1820 07000000",
        ONE + 2308: "00000000 00000000 0100 8C00",
    }),
    ("two nulls of a unique index", program.TABLE, UNIQUE, TWO_NULLS, 2, 2, {
        ONE + 12: "2000 D01F F01F 0420",
        ONE + 8144: "00000000 0200 1080 00000000",
    }),
    ("two nulls that share a tuple", program.TABLE, program.INDEX, TWO_NULLS, 2, 2, {
        ONE + 8144: "00001000 0220 20A0 0000",
        ONE + 8160: "00000000 0100 00000000 0200 0000",
    }),
    # The first key of two tells no row from another.
    ("leaves that differ in the second key", PAIRS_TABLE, TWO_KEYS, int4_heap(368 * [1], range(1, 369)), 368, 4, {
        ONE + 12: "D405 0009",
        ONE + 2304: "00000000 0200 1020 01000000 6F010000",
    }),
    ("leaves that differ in the first key", PAIRS_TABLE, TWO_KEYS, int4_heap(range(1, 369), 368 * [5]), 368, 4, {
        ONE + 12: "D405 0009",
        ONE + 2304: "00000000 0100 1020 6F010000 00000000",
    }),
    # No row shares a tuple where there is a value beside the key.
    ("rows of one key and INCLUDE values", PAIRS_TABLE, ONE_INCLUDED, int4_heap(133 * [7], range(1, 134)), 133, 2, {
        64: "00",
        ONE + 12: "2C02 A017",
        ONE + 8160: "00000000 0100 1000 07000000 01000000",
    }),
    ("leaves of one key and INCLUDE values", PAIRS_TABLE, ONE_INCLUDED, int4_heap(368 * [7], range(1, 369)), 368, 4, {
        64: "00",
        ONE + 12: "D405 F808",
        ONE + 2296: "00000000 0110 1820 07000000",
        ONE + 2308: "00000000 00000000 0100 8C00",
        THREE + 12: "2000 D01F",
        THREE + 8144: "00000200 0110 1820 07000000",
    }),
    ("32 keys, the last of them null", TRUTHS_TABLE, OF_TRUTHS, TRUTHS, 2, 2, {
        ONE + 8136: "00000000 0100 2800 0101010101",
        ONE + 8088: "00000000 0200 3080 FFFFFF7F 00000000 0101",
        ONE + 8134: "0100",
    }),
    ("a text of 126 bytes", TEXT_TABLE, program.INDEX, texts(1, 126), 1, 2, {
        ONE + 8040: "00000000 0100 8840 FF 78",
    }),
    ("a text of 127 bytes", TEXT_TABLE, program.INDEX, texts(1, 127), 1, 2, {
        ONE + 8032: "00000000 0100 9040 0C020000 78",
    }),
    ("the longest text there is", TEXT_TABLE, program.INDEX, texts(1, 2692), 1, 2, {
        ONE + 12: "1C00 6015 F01F 0420",
        ONE + 5472: "00000000 0100 904A 202A0000 78",
    }),
    # None is shared, and the high key has 8 bytes more.
    ("four of the longest texts there are", TEXT_TABLE, program.INDEX, texts(4, 2692), 4, 4, {
        ONE + 12: "2400 3800 F01F 0420",
        ONE + 56: "00000000 0110 986A 202A0000 78",
        ONE + 2758: "7878 0000 00000000 0200 00000000 0200",
    }),
    ("the later time first and a null before all", ORDERS_TABLE, LATEST_FIRST, MOMENTS, 4, 2, {
        ONE + 12: "2800 901F F01F 0420",
        ONE + 8152: "00000000 0200 1880 0200000000000000 020000",
        ONE + 8128: "00000000 0100 1800 0000D28398D70200 01",
        ONE + 8104: "00000000 0300 1800 0000D28398D70200 03",
        ONE + 8080: "00000000 0400 1800 00C05773A57C0200 04",
    }),
    ("two rows in the other order", program.TABLE, SEVENTY, TWO_OF_THREE, 2, 2, {
        ONE + 8144: "00000000 0100 1000 1E000000",
        ONE + 8160: "00000000 0300 1000 14000000",
    }),
    ("a null first", program.TABLE, NULLS_FIRST, A_NULL, 2, 2, {
        ONE + 8144: "00000000 0100 1000 05000000 00000000",
        ONE + 8160: "00000000 0200 1080 0000000000000000",
    }),
    ("a null last", program.TABLE, program.INDEX, A_NULL, 2, 2, {
        ONE + 8144: "00000000 0200 1080 0000000000000000",
        ONE + 8160: "00000000 0100 1000 05000000 00000000",
    }),
]

# Types, a value of each as a heap has it, and the end of its tuple from the size on.
TYPES = [
    ("bool", "01", "1000 0100000000000000"),
    ("int2", "FEFF", "1000 FEFF000000000000"),
    ("int4", "FEFFFFFF", "1000 FEFFFFFF00000000"),
    ("int8", "00FFFFFFFFFFFFFF", "1000 00FFFFFFFFFFFFFF"),
    ("oid", "FFFFFFFF", "1000 FFFFFFFF00000000"),
    ("date", "FFFFFFFF", "1000 FFFFFFFF00000000"),
    ("timestamp", "0100000000000000", "1000 0100000000000000"),
    ("timestamptz", "0000D28398D70200", "1000 0000D28398D70200"),
    ("time", "0060D71D14000000", "1000 0060D71D14000000"),
    ("uuid", "30313233343536373839616263646566", "1800 30313233343536373839616263646566"),
    ("text", "09616E6E", "1040 09616E6E00000000"),
    ("varchar", "03", "1040 0300000000000000"),
    ("bytea", "0700FF", "1040 0700FF0000000000"),
]

# Fill factors, so many keys, and how many blocks their file has.
FULL_LEAVES = [
    (90, 1, 2),
    (70, 285, 2),
    (100, 407, 2),
    (100, 408, 4),
    (10, 39, 2),
    (10, 40, 4),
]


CASES = [
    built(f"btree pages: {name}", heap, f"btree: {rows} rows, {blocks} blocks", Has(blocks, pieces), table, statement)
    for name, table, statement, heap, rows, blocks, pieces in PAGES
]

CASES += [
    built(f"btree pages: a value of {kind}", heaps.page([heaps.Tuple(item=0, data=bytes.fromhex(value))]),
          "btree: 1 rows, 2 blocks", Has(2, {ONE + 8176 - len(bytes.fromhex(end)): end}), f"CREATE TABLE t (a {kind})")
    for kind, value, end in TYPES
]

CASES += [
    built(f"btree pages: {count} keys at fill factor {factor}", int4_heap(range(count)),
          f"btree: {count} rows, {blocks} blocks", statement=f"CREATE INDEX i ON t (a) WITH (fillfactor = {factor})")
    for factor, count, blocks in FULL_LEAVES
]
