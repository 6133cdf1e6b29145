"""B-trees of one leaf, of which all bytes are told."""

import heaps
import program
from cases.case import BTREE_META, LEAF_IS_ROOT, Has, Pieces, built, int4_heap, int4_leaf, with_change

PAGE = heaps.PAGE

PAIRS_TABLE = "CREATE TABLE t (a int4, b int4)"
WITH_INCLUDE = "CREATE INDEX i ON t (a) INCLUDE (b)"
ORDERS_TABLE = "CREATE TABLE public.orders (id bigint NOT NULL, name text, created timestamp with time zone)"
OF_ORDERS = "CREATE INDEX orders_created_id_idx ON public.orders USING btree (created DESC, id)"

# Rows in one run, and in runs of a row each.
MANNERS = [[], ["--run-rows=1"]]


def order(data, bitmap=b""):
    """A row of a number, a name and a time, as VACUUM FREEZE leaves it."""
    infomask = 0x0B00 if bitmap else 0x0B02
    return heaps.Tuple(item=0, infomask2=3, infomask=infomask, data=bytes.fromhex(data), bitmap=bitmap)


# A page with an LSN, a checksum and a flag: two times alike, one earlier, and one that is null like the name beside it.
FROZEN_ORDERS = heaps.page(
    [
        order("0100000000000000 09616E6E 00000000 0000D28398D70200"),
        order("0200000000000000", bitmap=b"\1"),
        order("0300000000000000 09626F62 00000000 0000D28398D70200"),
        order("0400000000000000 076379 0000000000 00C05773A57C0200"),
    ]
)
FROZEN_ORDERS = with_change(FROZEN_ORDERS, 0, bytes.fromhex("00000000 283C5201 9AE1 04"))

SAMPLE = int4_heap([30, 10, 20])
FRONT = BTREE_META | LEAF_IS_ROOT

# Leaves of three rows, but for the rows.
LEAF_OF_3 = {
    PAGE + 12: "2400 C01F F01F 0420",
    PAGE + 24: "E09F2000 D09F2000 C09F20",
    PAGE + 8188: "03",
}

# Indexes: the statements, the heap, how many rows there are, and what isn't zero in the file.
WHOLE = [
    ("three rows", program.TABLE, program.INDEX, SAMPLE, 3, FRONT | LEAF_OF_3 | {
        PAGE + 8128: "00000000 0100 1000 1E",
        PAGE + 8144: "00000000 0300 1000 14",
        PAGE + 8160: "00000000 0200 1000 0A",
    }),
    ("an INCLUDE column", PAIRS_TABLE, WITH_INCLUDE, int4_heap([30, 10, 20], [7, 7, 7]), 3, FRONT | LEAF_OF_3 | {
        64: "00",
        PAGE + 8128: "00000000 0100 1000 1E000000 07",
        PAGE + 8144: "00000000 0300 1000 14000000 07",
        PAGE + 8160: "00000000 0200 1000 0A000000 07",
    }),
    ("frozen rows, the later time first and a null before all", ORDERS_TABLE, OF_ORDERS, FROZEN_ORDERS, 4, FRONT | {
        PAGE + 12: "2800 901F F01F 0420",
        PAGE + 24: "D89F3000 C09F3000 A89F3000 909F3000",
        PAGE + 8080: "00000000 0400 1800 00C05773A57C0200 04",
        PAGE + 8104: "00000000 0300 1800 0000D28398D70200 03",
        PAGE + 8128: "00000000 0100 1800 0000D28398D70200 01",
        PAGE + 8152: "00000000 0200 1880 0200000000000000 02",
        PAGE + 8188: "03",
    }),
]

# Indexes over the rows 30, 10 and 20: the statements, the options, and the entries.
OF_SAMPLE = [
    ("a schema, a fill factor and a condition", program.TABLE,
     "CREATE INDEX i ON public.t USING btree (a) WITH (fillfactor='70') WHERE (a > 10)", [], [(20, 3), (30, 1)]),
    ("descending, with a condition", program.TABLE, "CREATE INDEX i ON t (a DESC) WHERE a > 10", [],
     [(30, 1), (20, 3)]),
    ("a unique index", program.TABLE, "create unique index i on t (a) with (deduplicate_items = off);", [],
     [(10, 2), (20, 3), (30, 1)]),
    ("a quoted name", 'CREATE TABLE t ("A b" int4)', 'CREATE INDEX i ON t ("A b")', [],
     [(10, 2), (20, 3), (30, 1)]),
    ("runs of two rows", program.TABLE, program.INDEX, ["--run-rows=2", "--workers=0"],
     [(10, 2), (20, 3), (30, 1)]),
]

# Heaps without a row of the index, whose file is the meta page.
WITHOUT_ROWS = [
    ("a condition that no row meets", SAMPLE, "CREATE INDEX i ON t (a) WHERE a > 30 AND a IS NOT NULL"),
    ("no blocks", b"", program.INDEX),
    ("new blocks", bytes(10 * PAGE), program.INDEX),
]

# As many keys as an index may have, and the least row's tuple of 136 bytes: the first of its keys, and the last.
OF_32_KEYS = f"CREATE INDEX i ON t ({31 * 'a, '}a DESC)"
LEAST_OF_32_KEYS = {PAGE + 8040: "00000000 0200 8800 0A000000 0A", PAGE + 8172: "0A000000"}


CASES = [built("btree: 32 keys", SAMPLE, "btree: 3 rows, 2 blocks", Has(2, LEAST_OF_32_KEYS), statement=OF_32_KEYS)]

for options in MANNERS:
    manner = " ".join(options) or "no options"
    CASES += [
        built(f"btree: {name}, {manner}", heap, f"btree: {rows} rows, 2 blocks", Pieces(2, pieces), table, statement,
              options)
        for name, table, statement, heap, rows, pieces in WHOLE
    ]

CASES += [
    built(f"btree: {name}", SAMPLE, f"btree: {len(entries)} rows, 2 blocks", int4_leaf(*entries), table, statement,
          options)
    for name, table, statement, options, entries in OF_SAMPLE
]

CASES += [
    built(f"btree: {name}", heap, "btree: 0 rows, 1 blocks", Pieces(1, BTREE_META), statement=statement)
    for name, heap, statement in WITHOUT_ROWS
]
