"""Each way in which the program ends, once."""

import heaps
import model
import program
from cases.case import SAMPLE, Case, build

UNREAD_ROW = heaps.page([heaps.Tuple(item=1, key=None)])
EQUAL_KEYS = b"".join(heaps.live_pages([7, 7]))
MANY_ROWS = b"".join(heaps.live_pages(range(1000, 0, -1)))

# A heap of zero bytes, which no run holds that gets so little memory.
LONG_HEAP = 256 << 20
LITTLE_MEMORY = 64 << 20

# Heaps that several workers share: a row a block, of which the first and the last are alike; new blocks; and new blocks
# with a fault in two of them.
WORKERS = (0, 1, 4, 31)
ROW_A_BLOCK = b"".join(page for key in (5, 1, 2, 3, 4, 5) for page in heaps.live_pages([key]))
NEW_BLOCKS = bytes(4096 * heaps.PAGE)
FLAGGED = SAMPLE[:10] + bytes([8]) + SAMPLE[11:]
TWO_FAULTS = b"".join(FLAGGED if block in (3, 4000) else bytes(heaps.PAGE) for block in range(4096))

INDEX = model.answer(SAMPLE).index
EMPTY_INDEX = model.answer(b"").index
REPORT = "built btree: 3 rows, 2 blocks\n"

# Rows in ranges of three blocks: values, a dead row before new blocks, and a null; and of two blocks with long texts.
BRIN = "CREATE INDEX i ON t USING brin (a)"
BY_THREES = "CREATE INDEX i ON t USING brin (a) WITH (pages_per_range=3)"
BY_BLOCKS = "CREATE INDEX i ON t USING brin (a) WITH (pages_per_range=1)"
RANGES = b"".join(
    [
        *(page for key in (5, -2, 9) for page in heaps.live_pages([key])),
        heaps.page([heaps.Tuple(item=1, infomask=heaps.DELETED)]),
        bytes(2 * heaps.PAGE),
        heaps.data_page([None]),
    ]
)
NEW_RANGES = bytes(1361 * heaps.PAGE)
TEXT_TABLE = "CREATE TABLE t (a text)"


def long_texts(last):
    """Blocks of a row each, the last of which has a text of so many bytes."""
    return b"".join(heaps.data_page([heaps.long_datum(text)]) for text in (4069 * b"a", last * b"b"))


# Arrays of numbers with each kind of entry, arrays {1} whose one entry has a list or a posting tree, and long texts.
GIN = "CREATE INDEX i ON t USING gin (c)"
NUMBERS_TABLE = "CREATE TABLE t (c int4[])"
TEXTS_TABLE = "CREATE TABLE t (c text[])"
ARRAYS = heaps.data_page([heaps.int4_array(5, 5, 1), heaps.int4_array(), None, heaps.int4_array(None, 1)])
ONES = {count: b"".join(heaps.array_pages(count)) for count in (2670, 2671, 3000)}
LONG_ELEMENTS = {length: heaps.data_page([heaps.text_array(length * b"x")]) for length in (2700, 2701)}

# Other statements, and the index of one.
UNIQUE = "CREATE UNIQUE INDEX i ON t (a)"
ABOVE_10 = "CREATE INDEX i ON t (a DESC) WITH (fillfactor = 70) WHERE a > 10"
INDEX_ABOVE_10 = model.answer(SAMPLE, index=ABOVE_10).index
LARGE_INDEX = model.answer(MANY_ROWS).index
VERSION = "pg_index 0.1.0, for PostgreSQL 18 files\n"
HELP = "pg_index builds a PostgreSQL 18 index file from a copied heap file.\n"


CASES = [
    Case("build", build(), 0, output=REPORT, left={"index": INDEX}),
    Case("--help", ["--help"], 0, output=HELP),
    Case("--version", ["--version"], 0, output=VERSION),
    Case("no words", [], 2, "usage: word 1\n"),
    Case("one word for both files", build(index="heap"), 2, "usage: word 3\n"),
    Case("the heap by a path from its folder", build(index="./heap"), 2, "usage: word 3\n"),
    Case("the heap by a path through its folder", build(index="../folder/heap"), 2, "usage: word 3\n"),
    Case("the heap by a link", build(index="link"), 2, "usage: word 3\n", links={"link": "heap"}),
    Case("the heap by a link to a link", build(index="far"), 2, "usage: word 3\n",
         links={"far": "link", "link": "heap"}),
    Case("a link for the heap", build(heap="link", index="heap"), 2, "usage: word 3\n", links={"link": "heap"}),
    Case("a link for the heap and no statements", ["build", "link", "heap"], 2, "usage: word 3\n",
         links={"link": "heap"}),
    Case("a link for a new index", build(index="link"), 0, output=REPORT, links={"link": "index"},
         left={"index": INDEX}),
    Case("a link for the heap alone", build(heap="link"), 0, output=REPORT, links={"link": "heap"},
         left={"index": INDEX}),
    Case("an option", build(options=["--run-rows=7"]), 0, output=REPORT, left={"index": INDEX}),
    Case("an option given twice", build(options=["--claims", "--claims"]), 2, "usage: word 7\n"),
    Case("an absent heap", build(), 4, "read fault\n", heap=None),
    Case("a heap that is a folder", build(heap="."), 4, "read fault\n"),
    Case("a heap that isn't whole", build(), 5, "heap block 0 item 0: cause 14\n", heap=SAMPLE[:-1]),
    Case("an index in an absent folder", build(index="absent/index"), 8, "write fault\n"),
    Case("an index on a full device", build(index="/dev/full"), 8, "write fault\n"),
    Case("a report on a full device", build(), 8, "write fault\n", output_to="/dev/full", left={"index": INDEX}),
    Case("--help on a full device", ["--help"], 8, "write fault\n", output_to="/dev/full"),
    Case("little memory", build(), 10, "out of memory\n", heap=LONG_HEAP, memory=LITTLE_MEMORY),
    Case("other statements", build(statement=ABOVE_10), 0, output="built btree: 2 rows, 2 blocks\n",
         left={"index": INDEX_ABOVE_10}),
    Case("more rows than a leaf holds", build(options=["--run-rows=100", "--workers=0"]), 0, heap=MANY_ROWS,
         output="built btree: 1000 rows, 5 blocks\n", left={"index": LARGE_INDEX}),
    Case("claims", build(options=["--workers=0", "--claims"]), 0, output="claim 0 0 1\nclaim 0 1 1\n" + REPORT,
         left={"index": INDEX}),
    Case("the most workers", build(options=["--workers=31"]), 0, output=REPORT, left={"index": INDEX}),
    Case("a table statement at fault", build(table="CREATE TABLE t (a int5)"), 3, "statement 1 at 18: cause 4\n"),
    Case("an index statement at fault", build(statement="CREATE INDEX i ON t (b)"), 3, "statement 2 at 21: cause 3\n"),
    Case("a row without an int4", build(), 5, "heap block 0 item 1: cause 7\n", heap=UNREAD_ROW),
    Case("rows with equal keys in a unique index", build(statement=UNIQUE), 6, "duplicate key: (0,1) and (0,2)\n",
         heap=EQUAL_KEYS),
    Case("a heap without blocks, by BRIN", build(statement=BRIN), 0, heap=b"", output="built brin: 0 rows, 2 blocks\n",
         left={"index": model.answer(b"", index=BRIN)}),
    Case("a heap without blocks, by GIN", build(table=NUMBERS_TABLE, statement=GIN), 0, heap=b"",
         output="built gin: 0 rows, 2 blocks\n", left={"index": model.answer(b"", NUMBERS_TABLE, GIN)}),
    Case("a long element", build(table=TEXTS_TABLE, statement=GIN), 0, heap=LONG_ELEMENTS[2700],
         output="built gin: 1 rows, 3 blocks\n", left={"index": model.answer(LONG_ELEMENTS[2700], TEXTS_TABLE, GIN)}),
    Case("an element that is too long", build(table=TEXTS_TABLE, statement=GIN), 5, "heap block 0 item 1: cause 13\n",
         heap=LONG_ELEMENTS[2701]),
]

# Indexes that each number of workers builds: the statements, the heap, and what is reported.
BUILT_BY_ALL = [
    ("ranges", program.TABLE, BY_THREES, RANGES, "brin: 4 rows, 3 blocks"),
    ("new ranges", program.TABLE, BY_BLOCKS, NEW_RANGES, "brin: 0 rows, 6 blocks"),
    ("a wide range", TEXT_TABLE, BRIN, long_texts(4063), "brin: 2 rows, 3 blocks"),
    ("arrays", NUMBERS_TABLE, GIN, ARRAYS, "gin: 4 rows, 2 blocks"),
    ("a list in a tuple", NUMBERS_TABLE, GIN, ONES[2670], "gin: 2670 rows, 2 blocks"),
    ("a list in a tree", NUMBERS_TABLE, GIN, ONES[2671], "gin: 2671 rows, 3 blocks"),
    ("a longer list in a tree", NUMBERS_TABLE, GIN, ONES[3000], "gin: 3000 rows, 3 blocks"),
]
ANSWERS = {name: model.answer(heap, table, statement) for name, table, statement, heap, _ in BUILT_BY_ALL}

for workers in WORKERS:
    option = f"--workers={workers}"
    CASES += [
        Case(f"new blocks, {option}", build(options=[option]), 0, heap=NEW_BLOCKS,
             output="built btree: 0 rows, 1 blocks\n", left={"index": EMPTY_INDEX}),
        Case(f"the first of two faults, {option}", build(options=[option]), 5, "heap block 3 item 0: cause 1\n",
             heap=TWO_FAULTS),
        Case(f"equal keys on two blocks, {option}", build(statement=UNIQUE, options=[option]), 6,
             "duplicate key: (0,1) and (5,1)\n", heap=ROW_A_BLOCK),
        Case(f"little memory, {option}", build(options=[option]), 10, "out of memory\n", heap=LONG_HEAP,
             memory=LITTLE_MEMORY),
        Case(f"the first of two faults by BRIN, {option}", build(statement=BRIN, options=[option]), 5,
             "heap block 3 item 0: cause 1\n", heap=TWO_FAULTS),
        Case(f"the first of two faults by GIN, {option}",
             build(table=NUMBERS_TABLE, statement=GIN, options=[option]), 5, "heap block 3 item 0: cause 1\n",
             heap=TWO_FAULTS),
        Case(f"a range that is too wide, {option}", build(table=TEXT_TABLE, statement=BRIN, options=[option]), 7,
             "range 0 too wide: 8160 bytes\n", heap=long_texts(4071)),
    ]
    CASES += [
        Case(f"{name}, {option}", build(table=table, statement=statement, options=[option]), 0, heap=heap,
             output=f"built {told}\n", left={"index": ANSWERS[name]})
        for name, table, statement, heap, told in BUILT_BY_ALL
    ]
