"""Values, which are asked for only where an index needs them."""

import heaps
import program
from cases.case import BTREE_META, LEAF_IS_ROOT, Has, Pieces, built, hex_row, refused

PAGE = heaps.PAGE

BOOLS_TABLE = "CREATE TABLE t (a bool)"
TEXTS_TABLE = "CREATE TABLE t (a text)"
TEXT_BEHIND = "CREATE TABLE t (a int4, b text)"
TEXT_BEFORE = "CREATE TABLE t (b text, a int4)"
ARRAY_BEHIND = "CREATE TABLE t (a int4, c int4[])"
INDEX = program.INDEX
TEXT_IN_WHERE = "CREATE INDEX i ON t (a) WHERE b IS NULL"
TEXT_INCLUDED = "CREATE INDEX i ON t (a) INCLUDE (b)"
ARRAY_IN_WHERE = "CREATE INDEX i ON t (a) WHERE c IS NOT NULL"


def row(data, columns=1):
    """A heap of one row with these data, as hex."""
    return heaps.page([hex_row(columns, data)])


# Lengths of a text and its header in the heap, the size of its index tuple, and this tuple but for the text.
LENGTHS = [
    (126, "FF", 136, "00000000 0100 8840 FF"),
    (126, "08020000", 136, "00000000 0100 8840 FF"),
    (127, "0C020000", 144, "00000000 0100 9040 0C020000"),
    (2692, "202A0000", 2704, "00000000 0100 904A 202A0000"),
]

# A text whose header tells more than is there, a truth value of 2, 5 with a text that is stored elsewhere, that text
# before 5, 5 with a compressed text, and 5 with an array of a 6.
TEXT_PAST_THE_END = row("0D 78")
BOOL_OF_2 = row("02")
EXTERNAL = row("05000000 0112" + 16 * "00", 2)
EXTERNAL_FIRST = row("0112" + 18 * "00" + "05000000", 2)
COMPRESSED = row("05000000 32000000 09000000 01020304", 2)
INT4_ARRAY = row("05000000 70000000 01000000 00000000 17000000 01000000 01000000 06000000", 2)
INT8_ARRAY = row("05000000 70000000 01000000 00000000 14000000 01000000 01000000 06000000", 2)

# Rows that can't be read, and the cause.
UNREAD = [
    ("a needed text past the end", TEXTS_TABLE, INDEX, TEXT_PAST_THE_END, 7),
    ("a compressed text in INCLUDE", TEXT_BEHIND, TEXT_INCLUDED, COMPRESSED, 8),
    ("a compressed text in WHERE", TEXT_BEHIND, TEXT_IN_WHERE, COMPRESSED, 8),
    ("an external text in WHERE", TEXT_BEHIND, TEXT_IN_WHERE, EXTERNAL, 9),
    ("a truth value of 2", BOOLS_TABLE, INDEX, BOOL_OF_2, 10),
    ("an array of another type", ARRAY_BEHIND, ARRAY_IN_WHERE, INT8_ARRAY, 11),
    ("a text of 2,693 bytes", TEXTS_TABLE, INDEX, row("242A0000" + 2693 * "78"), 12),
]

# Rows of the key 5 that are read, since what can't be isn't needed, and their index.
READ = [
    ("an external text behind", TEXT_BEHIND, INDEX, EXTERNAL),
    ("an external text before", TEXT_BEFORE, INDEX, EXTERNAL_FIRST),
    ("a compressed text behind", TEXT_BEHIND, INDEX, COMPRESSED),
    ("an array in WHERE", ARRAY_BEHIND, ARRAY_IN_WHERE, INT4_ARRAY),
]
LEAF_OF_5 = BTREE_META | LEAF_IS_ROOT | {
    PAGE + 12: "1C00 E01F F01F 0420",
    PAGE + 24: "E09F2000",
    PAGE + 8160: "00000000 0100 1000 05000000",
    PAGE + 8188: "03",
}


CASES = [
    built(f"values: a text of {length} bytes under a header of {len(header) // 2}", row(header + length * "78"),
          "btree: 1 rows, 2 blocks", Has(2, {2 * PAGE - 16 - size: begin + length * "78"}), TEXTS_TABLE)
    for length, header, size, begin in LENGTHS
]

CASES += [
    refused(f"values: {name}", heap, 5, f"heap block 0 item 1: cause {cause}", table, statement)
    for name, table, statement, heap, cause in UNREAD
]

CASES += [
    built(f"values: {name}", heap, "btree: 1 rows, 2 blocks", Pieces(2, LEAF_OF_5), table, statement)
    for name, table, statement, heap in READ
]
