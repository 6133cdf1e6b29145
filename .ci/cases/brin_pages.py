"""The bytes of BRIN indexes whose ranges are chosen by what a tuple has: values, nulls, neither, or a whole page."""

import heaps
import model
from cases.case import Has, built, hex_row, int4_heap, refused, text_blocks

PAGE = heaps.PAGE

BY_128 = "CREATE INDEX i ON t USING brin (a) WITH (pages_per_range=128)"
BY_THREES = "CREATE INDEX i ON t USING brin (a) WITH (pages_per_range=3)"
BY_TWOS = "CREATE INDEX i ON t USING brin (a) WITH (pages_per_range=2)"
BY_512 = "CREATE INDEX i ON t USING brin (a) WITH (pages_per_range=512)"
TEXT_TABLE = "CREATE TABLE t (a text)"
THREE_TABLE = "CREATE TABLE t (a int4, b text, c int8)"
OF_THREE = "CREATE INDEX i ON t USING brin (a, b, c) WITH (pages_per_range=1)"
PAIRS_TABLE = "CREATE TABLE t (a int4, b text)"
OF_PAIRS = "CREATE INDEX i ON t USING brin (a, b) WITH (pages_per_range=2)"

# Blocks of heaps, some of them new.
NEW = bytes(PAGE)
VALUES_NOTHING_AND_A_NULL = int4_heap([5, -2, 9]) + 5 * NEW + heaps.data_page([None])
NULLS_BESIDE_VALUES = b"".join(
    [
        heaps.page([hex_row(3, "07000000 09 626F62", b"\3"), hex_row(3, "09 616E6E", b"\2")]),
        heaps.page([hex_row(3, "01000000 03 000000 FFFFFFFFFFFFFFFF")]),
        heaps.page(2 * [hex_row(3, "", b"\0")]),
    ]
)
BEHIND_512 = 512 * NEW + heaps.data_page([heaps.short_datum(text) for text in (b"b", b"ab", b"ba")])

# Texts whose tuple fills its page: beside its minimum of 4,069 bytes, which takes 4,073 and three zeros, the maximum
# takes 4,067. Behind them are some that are wider, and then wider still.
NARROW = text_blocks(4069 * b"a", 4063 * b"b")
WIDE = text_blocks(4069 * b"a", 4071 * b"b")
WIDER = text_blocks(5000 * b"a", 5000 * b"b")

# Rows of an int4 and a text, parted in two blocks either way, and in one.
FOUR = hex_row(2, "04000000", b"\1")
MINUS_THREE = hex_row(2, "FDFFFFFF 05 6D")
NO_NUMBER = hex_row(2, "05 7A", b"\2")
FIRST = heaps.page([FOUR, MINUS_THREE])
SECOND = heaps.page([NO_NUMBER])
TOGETHER = heaps.page([NO_NUMBER, MINUS_THREE, FOUR]) + NEW
UNITED = model.answer(TOGETHER, PAIRS_TABLE, OF_PAIRS)


CASES = [
    built("brin pages: a heap without blocks", b"", "brin: 0 rows, 2 blocks", statement=BY_128, left=Has(2, {
        12: "2800 F81F F81F 0420",
        24: "FA9C10A8 01000000 80000000 01000000 0000",
        8184: "00000000 0000 91F0",
        PAGE + 12: "1800 F81F F81F 0420",
        PAGE + 24: "0000 0000 0000 0000 0000 0000",
        PAGE + 8184: "00000000 0000 92F0",
    })),
    built("brin pages: ranges of values, of no row and of a null", VALUES_NOTHING_AND_A_NULL,
          "brin: 4 rows, 3 blocks", statement=BY_THREES, left=Has(3, {
        32: "03000000 01000000",
        PAGE + 12: "1800 F81F",
        PAGE + 24: "0000 0200 0100 0000 0200 0200 0000 0200 0300 0000 0000 0000",
        2 * PAGE + 12: "2400 D81F F81F 0420",
        2 * PAGE + 24: "E89F 2000 E09F 1000 D89F 1000 0000",
        2 * PAGE + 8152: "06000000 88 03 0000 03000000 A8 01 0000",
        2 * PAGE + 8168: "00000000 08 000000 FEFFFFFF 09000000 00000000 0000 93F0",
    })),
    built("brin pages: nulls beside values of their column", NULLS_BESIDE_VALUES, "brin: 5 rows, 3 blocks",
          table=THREE_TABLE, statement=OF_THREE, left=Has(3, {
        2 * PAGE + 8160: "00000000 88 2C 0000 07000000 07000000 09 616E6E 09 626F62",
        2 * PAGE + 8120: "01000000 08 000000 01000000 01000000 03 03 000000000000" + 2 * "FFFFFFFFFFFFFFFF",
        2 * PAGE + 8112: "02000000 88 3F 0000",
    })),
    built("brin pages: a tuple begins with the first block of its range", BEHIND_512, "brin: 3 rows, 3 blocks",
          table=TEXT_TABLE, statement=BY_512, left=Has(3, {
        32: "00020000",
        2 * PAGE + 8176: "00000000 A8 01 0000",
        2 * PAGE + 8160: "00020000 08 000000 07 6162 07 6261 0000",
    })),
    built("brin pages: a tuple that fills its page, and another page behind it", NARROW + NEW,
          "brin: 2 rows, 4 blocks", table=TEXT_TABLE, statement=BY_TWOS, left=Has(4, {
        PAGE + 24: "0000 0200 0100 0000 0300 0100 0000",
        2 * PAGE + 12: "1C00 2000",
        2 * PAGE + 24: "2080 B03F 00000000",
        2 * PAGE + 32: "00000000 08 000000 A43F0000 6161",
        3 * PAGE + 8176: "02000000 A8 01 0000",
    })),
    refused("brin pages: a tuple that fills its page, a wide one, and a wider one", NARROW + WIDE + WIDER, 7,
            "range 1 too wide: 8160 bytes", TEXT_TABLE, BY_TWOS),
]

# A range whose parts may be seen by several workers, and are united in any order.
for workers in (0, 1, 4):
    CASES += [
        built(f"brin pages: {parts}, --workers={workers}", heap, "brin: 3 rows, 3 blocks", UNITED,
              PAIRS_TABLE, OF_PAIRS, [f"--workers={workers}"])
        for parts, heap in [
            ("rows in one block", TOGETHER),
            ("rows parted in two blocks", FIRST + SECOND),
            ("rows parted in two blocks the other way", SECOND + FIRST),
        ]
    ]
