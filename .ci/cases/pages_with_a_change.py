"""Pages of three rows with one change, which are refused or read as they stand."""

import heaps
from cases.case import BTREE_META, LEAF_IS_ROOT, Pieces, built, int4_heap, refused, with_change

PAGE = heaps.PAGE

# The tuples of the rows stand at 8160, 8128 and 8096.
HEAP = int4_heap([30, 10, 20])

# Indexes of which all bytes are told: the tuples of a leaf from its front to its back stand one below the other.
FRONT = BTREE_META | LEAF_IS_ROOT | {2 * PAGE - 4: "03"}
LEAF_OF_TWO = FRONT | {PAGE + 12: "2000 D01F F01F 0420", PAGE + 24: "E09F2000 D09F2000"}
LEAF_OF_THREE = FRONT | {PAGE + 12: "2400 C01F F01F 0420", PAGE + 24: "E09F2000 D09F2000 C09F2000"}

NO_ROW = (0, Pieces(1, BTREE_META))
THREE_ROWS = (3, Pieces(2, LEAF_OF_THREE | {
    PAGE + 8160: "00000000 0200 1000 0A000000",
    PAGE + 8144: "00000000 0300 1000 14000000",
    PAGE + 8128: "00000000 0100 1000 1E000000",
}))
WITHOUT_THE_SECOND = (2, Pieces(2, LEAF_OF_TWO | {
    PAGE + 8160: "00000000 0300 1000 14000000",
    PAGE + 8144: "00000000 0100 1000 1E000000",
}))
FIRST_IS_NULL = (3, Pieces(2, LEAF_OF_THREE | {
    PAGE + 8160: "00000000 0200 1000 0A000000",
    PAGE + 8144: "00000000 0300 1000 14000000",
    PAGE + 8128: "00000000 0100 1080 00000000 00000000",
}))

# Changes with which the page is read: the place and the bytes that are put there, and the index.
READ = [
    ("none", 0, "", THREE_ROWS),
    ("pd_flags 7", 10, "07", THREE_ROWS),
    ("pd_lower 39", 12, "2700", THREE_ROWS),
    ("pd_upper 0", 14, "0000", NO_ROW),
    ("the second is dead", 28, "00800100", WITHOUT_THE_SECOND),
    ("the second leads to itself", 28, "02000100", WITHOUT_THE_SECOND),
    ("the first has a null", 8180, "01091800", FIRST_IS_NULL),
    ("the first has no attribute", 8178, "0000", FIRST_IS_NULL),
]

# Changes with which it is refused: the place and the bytes, and the item and the cause of the fault.
AT_FAULT = [
    ("pd_flags 8", 10, "08", 0, 1),
    ("pd_lower 23", 12, "1700", 0, 1),
    ("pd_special 8184", 16, "F81F", 0, 1),
    ("version 5", 18, "0520", 0, 1),
    ("the second leads to 0", 28, "00000100", 2, 2),
    ("the second leads to 4", 28, "04000100", 2, 2),
    ("the second is the first", 28, "E09F3800", 2, 2),
    ("the second has length 24", 28, "C09F3000", 2, 7),
    ("the third is at 8097", 32, "A19F3800", 3, 2),
    ("the first has length 40", 24, "E09F5000", 1, 2),
    ("the third has length 36", 32, "A09F4800", 3, 2),
    ("the first has hoff 32", 8182, "20", 1, 3),
    ("the second has hoff 28", 8150, "1C", 2, 3),
    ("the second has two attributes", 8146, "0200", 2, 3),
    ("the third isn't settled", 8116, "0008", 3, 4),
    ("all bytes are FF", 0, PAGE * "FF", 0, 1),
]


CASES = [
    built(f"pages with a change: {name}", with_change(HEAP, place, bytes.fromhex(text)),
          f"btree: {rows} rows, {index.blocks} blocks", index)
    for name, place, text, (rows, index) in READ
]

CASES += [
    refused(f"pages with a change: {name}", with_change(HEAP, place, bytes.fromhex(text)), 5,
            f"heap block 0 item {item}: cause {cause}")
    for name, place, text, item, cause in AT_FAULT
]
