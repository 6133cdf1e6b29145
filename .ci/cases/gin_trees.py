"""GIN indexes of many pointers, many entries and wide ones: posting trees, and entry trees of several levels."""

import struct
from dataclasses import dataclass, field

import heaps
import model
from cases.case import Has, Pieces, built, refused
from cases.gin import GIN, LEAF, META, NUMBERS_TABLE, TEXTS_TABLE

PAGE = heaps.PAGE

# Numbers of workers, and runs that cut the rows of an entry.
MANNERS = [[], ["--workers=0"], ["--workers=4", "--run-rows=100"], ["--workers=31"]]


@dataclass(frozen=True)
class Each:
    """A file that is told in several ways, as by pieces of it and by the map that the model has."""

    ways: tuple

    def difference(self, left):
        """How the bytes of a file differ from what the first of these tells that they differ from, or None."""
        return next(filter(None, (way.difference(left) for way in self.ways)), None)


@dataclass(frozen=True)
class Alike:
    """A file that several cases leave with the same bytes."""

    files: dict = field(default_factory=dict)

    def difference(self, left):
        """That the bytes of a file aren't those that the first of the cases left, or None."""
        return None if left == self.files.setdefault("first", left) else "other bytes than with other options"


def ones(count):
    """Rows {1}, as many on each page as fit."""
    return b"".join(heaps.array_pages(count))


def one_text(letter, length):
    """An array of one text of so many of a letter, without padding behind it."""
    return heaps.long_datum(struct.pack("<iiIii", 1, 0, 25, 1, 1) + heaps.long_datum(length * letter))


def text_row(letter, length):
    """A page of one row, an array of one text of so many of a letter."""
    return heaps.data_page([one_text(letter, length)])


def letters(count):
    """Rows of one text of 2,600 bytes each: the last letters of the alphabet, from z down."""
    return b"".join(text_row(bytes([ord("z") - number]), 2600) for number in range(count))


def countdown(count):
    """A page of one row: the numbers from a count down to 1, each twice."""
    numbers = [number for number in range(count, 0, -1) for _ in range(2)]
    return heaps.data_page([heaps.long_datum(heaps.array_content(23, numbers, struct.Struct("<i").pack))])


# The most rows whose list the tuple of their entry has: the tuple's first bytes, the first deltas, that to the next
# block, and the last.
LIST = {
    48: "02000000 01000000 00000000",
    PAGE + 24: "60953015",
    PAGE + 5472: "0080 1000 6E0A 980A 01000000 00000000 0000 0000 0100 800A 0101",
    PAGE + 5472 + 24 + 134: "01 F90E 01",
    PAGE + 8183: "01 FFFFFFFF 0000 0200",
}

# A tree of one page: what the meta page counts, the entry's tuple, and what the page is.
TREE = {
    48: "03000000 01000000 01000000 00000000 0100",
    PAGE + 8168: "0000 0200 FFFF 1000 01000000 00000000",
    2 * PAGE + 8184: "FFFFFFFF 0000 8300",
}

# A tree of three leaves and the root, of which all bytes are told. A leaf has its header, its right bound, the head of
# its first segment with 369 bytes of deltas, and its right link; the root an item for each leaf, with its greatest
# pointer.
THREE_LEAVES = {
    48: "06000000 01000000 04000000 00000000 0100",
    PAGE + 8168: "0000 0500 FFFF 1000 01000000",
    2 * PAGE + 12: "221F F81F F81F 0420",
    2 * PAGE + 24: "0000 3800 6200 0000",
    2 * PAGE + 32: "0000 0000 0100 7101 0101",
    2 * PAGE + 8184: "03000000 0000 8300",
    3 * PAGE + 12: "221F F81F F81F 0420",
    3 * PAGE + 24: "0000 7100 3B00 0000",
    3 * PAGE + 32: "0000 3800 6300 7101 0101",
    3 * PAGE + 8184: "04000000 0000 8300",
    4 * PAGE + 12: "8612 F81F F81F 0420",
    4 * PAGE + 24: "0000 0000 0000 0000",
    4 * PAGE + 32: "0000 7100 3C00 7101 0101",
    4 * PAGE + 8184: "FFFFFFFF 0000 8300",
    5 * PAGE: 12 * "00" + "3E00 F81F F81F 0420" + 12 * "00",
    5 * PAGE + 32: "0000 0200 0000 3800 6200 0000 0300 0000 7100 3B00 0000 0400 0000 9300 0800" + (8184 - 62) * "00",
    5 * PAGE + 8184: "FFFFFFFF 0300 0100",
}

# Lengths of a text, the blocks of its file, and its tuple's first bytes. Up to 2,692 letters the list of one pointer
# has room in the tuple.
LENGTHS = [
    (2692, 2, "0080 900A 0100 984A 202A0000 78"),
    (2693, 3, "0000 0200 FFFF 984A 242A0000 78"),
    (2699, 3, "0000 0200 FFFF 984A 3C2A0000 78"),
    (2700, 3, "0000 0200 FFFF 984A 402A0000 78"),
]

# Three tuples of 2,624 bytes to a leaf, so that z is on the second one; the root has the greatest text of each.
TWO_LEVELS = {
    48: "04000000 03000000 00000000 00000000 0400",
    PAGE + 12: "2000",
    PAGE + 8184: "FFFFFFFF 0000 0000",
    PAGE + 8184 - 2616: "0000 0200 0000 384A B0280000 79",
    PAGE + 8184 - 2 * 2616: "0000 0300 0000 384A B0280000 7A",
    2 * PAGE + 8184: "03000000 0000 0200",
    3 * PAGE + 8184 - 2624: "0080 380A 0100 404A B0280000 7A",
    3 * PAGE + 8184: "FFFFFFFF 0000 0200",
}

# Four leaves, two pages above, and the root.
THREE_LEVELS = {
    48: "08000000 07000000 00000000 00000000 0A00",
    PAGE + 8184 - 2616: "0000 0600 0000 384A B0280000 79",
    PAGE + 8184 - 2 * 2616: "0000 0700 0000 384A B0280000 7A",
    PAGE + 8184: "FFFFFFFF 0000 0000",
    4 * PAGE + 8184: "05000000 0000 0200",
    5 * PAGE + 8184: "FFFFFFFF 0000 0200",
    6 * PAGE + 8184 - 2616: "0000 0200 0000 384A B0280000 73",
    6 * PAGE + 8184: "07000000 0000 0000",
    7 * PAGE + 8184: "FFFFFFFF 0000 0000",
}

# 291 entries of 24 bytes to a leaf: the root with the greatest number of each leaf, and the first and the last leaf.
A_THOUSAND = {
    48: "06000000 05000000 00000000 00000000 E803",
    PAGE + 12: "2800 B81F",
    PAGE + 8120: "0000 0500 0000 1000 E803",
    PAGE + 8168: "0000 0200 0000 1000 2301",
    2 * PAGE + 12: "A404 B004",
    2 * PAGE + 8160: "0080 1000 0100 1800 01000000 00000000 0000 0000 0100 0000",
    5 * PAGE + 12: "1402",
}


# The tuple of a text of 2,693 of a letter, behind the block of its tree.
WIDE_X, WIDE_A, WIDE_B = ("FFFF 984A 242A0000" + 2693 * letter for letter in ("78", "61", "62"))

# Two leaves of rows, seven on a page, with a delta of two bytes behind each six of one.
SEVENS = 1000 * heaps.data_page(7 * [heaps.int4_array(1)])
TREE_OF_SEVENS = {
    48: "05000000 01000000 03000000",
    2 * PAGE + 24: "0000 CB03 0700 0000",
    2 * PAGE + 32: "0000 0000 0100 7101 010101010101 FA0F 01",
    3 * PAGE + 32: "0000 CC03 0100",
}

# A leaf of rows eight blocks apart, with deltas of three bytes: 123 in its first segment, and 5 in another one.
FAR_ROWS = 130 * (text_row(b"x", 2693) + bytes(7 * PAGE))
TREE_OF_FAR_ROWS = {
    48: "03000000 01000000 01000000",
    PAGE + 5472: "0000 0200" + WIDE_X,
    2 * PAGE + 12: "B201 F81F F81F 0420",
    2 * PAGE + 32: "0000 0000 0100 7101" + 123 * "808001" + "00",
    2 * PAGE + 32 + 378: "0000 E003 0100 0F00" + 5 * "808001" + "00",
}

# Eight trees of a page each, the last of the key 1; and four of them beside the leaves of 300 entries, of which the
# first leaf has 292.
EIGHT_KEYS = 28 * heaps.data_page(97 * [heaps.int4_array(*range(-6, 2))])
FOUR_KEYS_AND_MANY = 28 * heaps.data_page(97 * [heaps.int4_array(1, 2, 3, 4)]) + countdown(300)
TREES_AND_LEVELS = {
    12: "5000",
    24: "FFFFFFFF FFFFFFFF 00000000 00000000 00000000 00000000",
    48: "08000000 03000000 04000000 00000000 2C010000 00000000 02000000 00000000",
    PAGE + 8152: "0000 0700 0000 1000 2C010000 00000000",
    PAGE + 8168: "0000 0600 0000 1000 24010000 00000000",
    8184: "FFFFFFFF 0000 0800",
}

# Indexes: the table, the heap, how many rows and blocks, and pieces of the file.
BUILT_ONCE = [
    ("seven rows on each page", NUMBERS_TABLE, SEVENS, 7000, 5, TREE_OF_SEVENS),
    ("a row on each eighth block", TEXTS_TABLE, FAR_ROWS, 130, 3, TREE_OF_FAR_ROWS),
    ("a key whose tree is block 9", NUMBERS_TABLE, EIGHT_KEYS, 2716, 10,
     {PAGE + 8184 - 8 * 16: "0000 0900 FFFF 1000 01000000 00000000"}),
    ("trees beside two levels of entries", NUMBERS_TABLE, FOUR_KEYS_AND_MANY, 2717, 8, TREES_AND_LEVELS),
]

# A root of one tuple of 32 bytes.
ROOT_OF_ONE = {64: "01", PAGE + 12: "1C00 D81F F81F 0420", PAGE + 24: "D89F4000"}

# Heaps whose last row stands behind line pointers that are dead, and one of a text and of two others on the next block.
DEAD = heaps.Dead()
KEY_TWICE = heaps.page([heaps.Tuple(item=at, data=heaps.int4_array(1)) if at in (1, 4) else DEAD for at in range(1, 5)])
NULL_ELEMENT = heaps.page([DEAD, DEAD, DEAD, heaps.Tuple(item=4, data=heaps.int4_array(None))])
WIDE_TEXT = heaps.page([DEAD, DEAD, DEAD, heaps.Tuple(item=4, data=one_text(b"x", 2693))])
WIDE_TEXTS = bytes(PAGE) + text_row(b"a", 2693) + heaps.data_page(2 * [one_text(b"b", 2693)])

# Indexes of whose files all bytes are told: the table, the heap, how many rows and blocks, and what isn't zero.
EXACT = [
    ("a key and its list", NUMBERS_TABLE, KEY_TWICE, 2, 2, META | LEAF | ROOT_OF_ONE | {
        PAGE + 8152: "0080 1000 0200 2000 01000000 00000000 0000 0000 0100 0100 0300 0000 0000 0000",
    }),
    ("a null, its category and its list", NUMBERS_TABLE, NULL_ELEMENT, 1, 2, META | LEAF | ROOT_OF_ONE | {
        PAGE + 8152: "0080 1200 0100 2080 00000000 00000000 0100 0000 0000 0400 0000 0000 0000 0000",
    }),
    ("a tree of one pointer", TEXTS_TABLE, WIDE_TEXT, 1, 3, META | LEAF | {
        48: "03000000 01000000 01",
        64: "01",
        PAGE + 12: "1C00 6015 F81F 0420",
        PAGE + 24: "60953015",
        PAGE + 5472: "0000 0200" + WIDE_X,
        2 * PAGE + 12: "2800 F81F F81F 0420",
        2 * PAGE + 32: "0000 0000 0400 0000",
        2 * PAGE + 8184: "FFFFFFFF 0000 8300",
    }),
    ("a tree behind another one", TEXTS_TABLE, WIDE_TEXTS, 3, 4, META | LEAF | {
        48: "04000000 01000000 02",
        64: "02",
        PAGE + 12: "2000 C80A F81F 0420",
        PAGE + 24: "60953015 C88A3015",
        PAGE + 2760: "0000 0300" + WIDE_B,
        PAGE + 5472: "0000 0200" + WIDE_A,
        2 * PAGE + 12: "2800 F81F F81F 0420",
        2 * PAGE + 32: "0000 0100 0100 0000",
        2 * PAGE + 8184: "FFFFFFFF 0000 8300",
        3 * PAGE + 12: "2A00 F81F F81F 0420",
        3 * PAGE + 32: "0000 0200 0100 0100 0100",
        3 * PAGE + 8184: "FFFFFFFF 0000 8300",
    }),
]

# Indexes that have the same bytes in each manner: the table, the heap, how many rows and blocks, and pieces of the
# file. Some threads have no entry, others the list or the tree of one, or many entries.
BUILT = [
    ("a list of 300 rows", NUMBERS_TABLE, ones(300), 300, 2, {}),
    ("a list of 2,670 rows", NUMBERS_TABLE, ones(2670), 2670, 2, LIST),
    ("a tree of 2,671 rows", NUMBERS_TABLE, ones(2671), 2671, 3, TREE),
    ("a tree of 3,000 rows", NUMBERS_TABLE, ones(3000), 3000, 3, TREE),
    ("a tree of 20,000 rows", NUMBERS_TABLE, ones(20_000), 20_000, 6, THREE_LEAVES),
    ("four wide texts", TEXTS_TABLE, letters(4), 4, 4, TWO_LEVELS),
    ("ten wide texts", TEXTS_TABLE, letters(10), 10, 8, THREE_LEVELS),
    ("a row of a thousand numbers", NUMBERS_TABLE, countdown(1000), 1, 6, A_THOUSAND),
    ("eight rows of the same numbers", NUMBERS_TABLE, 8 * countdown(500), 8, 5, {48: "05000000 04000000 00000000"}),
    ("a text with a tree", TEXTS_TABLE, text_row(b"x", 2700), 1, 3, {}),
]

CASES = [
    built(f"gin_trees: {length} bytes", text_row(b"x", length), f"gin: 1 rows, {blocks} blocks",
          Has(blocks, {PAGE + 5472: tuple_bytes}), TEXTS_TABLE, GIN)
    for length, blocks, tuple_bytes in LENGTHS
]
CASES.append(
    refused("gin_trees: 2701 bytes", text_row(b"x", 2701), 5, "heap block 0 item 1: cause 13", TEXTS_TABLE, GIN)
)

CASES += [
    built(f"gin_trees: {name}", heap, f"gin: {rows} rows, {blocks} blocks", Pieces(blocks, pieces), table, GIN)
    for name, table, heap, rows, blocks, pieces in EXACT
]
CASES += [
    built(f"gin_trees: {name}", heap, f"gin: {rows} rows, {blocks} blocks",
          Each((Has(blocks, pieces), model.answer(heap, table, GIN))), table, GIN)
    for name, table, heap, rows, blocks, pieces in BUILT_ONCE
]

for name, table, heap, rows, blocks, pieces in BUILT:
    left = Each((Has(blocks, pieces), model.answer(heap, table, GIN), Alike()))
    CASES += [
        built(f"gin_trees: {name}, {' '.join(options) or 'no options'}", heap, f"gin: {rows} rows, {blocks} blocks",
              left, table, GIN, options)
        for options in MANNERS
    ]
