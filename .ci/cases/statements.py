"""Statements at fault, which are told before a heap is asked for."""

import program
from cases.case import Case, build

TABLE = program.TABLE
INDEX = program.INDEX
PAIRS_TABLE = "CREATE TABLE t (a int4, b int4)"
ARRAYS_TABLE = "CREATE TABLE t (c int4[])"
KEYS_33 = f"CREATE INDEX i ON t ({', '.join(33 * 'a')})"

# Two statements, and which of them is at fault, where, and for which cause.
AT_FAULT = [
    ("a key that is no column", TABLE, "CREATE INDEX i ON t (b)", 2, 21, 3),
    ("keys without their end", TABLE, "CREATE INDEX i ON t (a", 2, 22, 2),
    ("a fillfactor of 9", TABLE, "CREATE INDEX i ON t (a) WITH (fillfactor=9)", 2, 41, 6),
    ("a unique BRIN index", TABLE, "CREATE UNIQUE INDEX i ON t USING brin (a)", 2, 33, 5),
    ("a type that isn't known", "CREATE TABLE t (a int5)", INDEX, 1, 18, 4),
    ("two columns of one name", "CREATE TABLE t (a int4, a int4)", INDEX, 1, 24, 7),
    ("two statements at fault", "CREATE TABLE t (a int5)", "CREATE INDEX", 1, 18, 4),
    ("a BRIN index with INCLUDE", PAIRS_TABLE, "CREATE INDEX i ON t USING brin (a) INCLUDE (b)", 2, 35, 5),
    ("33 keys", TABLE, KEYS_33, 2, 117, 5),
    ("an index on another table", TABLE, "CREATE INDEX i ON u (a)", 2, 18, 3),
    ("a B-tree over arrays", ARRAYS_TABLE, "CREATE INDEX i ON t (c)", 2, 21, 5),
    ("an empty table statement", "", INDEX, 1, 0, 2),
    ("a GIN key that is no column", ARRAYS_TABLE, "CREATE INDEX i ON t USING gin (d)", 2, 31, 3),
]


CASES = [
    Case(f"statements: {name}", build(heap="absent", table=table, statement=statement), 3,
         f"statement {number} at {place}: cause {cause}\n")
    for name, table, statement, number, place, cause in AT_FAULT
]
