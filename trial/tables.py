"""The tables of the trial: what a server makes of them before their heaps are copied."""

from __future__ import annotations

from dataclasses import dataclass


# Stands for the table's name in a history that several tables have.
TABLE_NAME = "TABLE_NAME"


@dataclass(frozen=True)
class Table:
    """A table, and what happens to it on the server."""

    name: str
    columns: str
    """The columns as the program is told of them."""
    history: str
    """The statements that fill and change it, each a transaction unless they say BEGIN."""
    made: str | None = None
    """The columns that the server makes it with, where it becomes the program's by its history."""

    def statement(self) -> str:
        """The statement that the program is given."""
        return f"CREATE TABLE {self.name} ({self.columns})"

    def sql(self) -> str:
        """The statements that make it on the server."""
        made = f"CREATE TABLE {self.name} ({self.made or self.columns});\n"
        return made + self.history.replace(TABLE_NAME, self.name)


# A number from 0 on and below a bound, that looks drawn and is the same at each run.
DRAWN = """
CREATE FUNCTION drawn(g int8, kind int8, below int8) RETURNS int8 LANGUAGE sql IMMUTABLE AS
  $$ SELECT (hashint8(g * 64 + kind)::int8 & 2147483647) % below $$;
"""

# Columns of all types: those of keys, and between them those that no key is of.
ALL_TYPES = """
  id int4 NOT NULL, flag bool, two int2, f4 float4, four int4, eight int8, f8 float8, o oid, d date,
  n numeric(12,3), ts timestamp, tz timestamptz, bp char(5), tm time, u uuid, nm name,
  t text COLLATE "C", js json, v varchar(40), iv interval, b bytea, jb jsonb,
  fours int4[], eights int8[], texts text[]"""


def drawn_types(first: int, last: int) -> str:
    """Inserts rows of all types. About every eighth value is null, others come several times."""
    values = [
        "drawn(g, 1, 2) = 1",
        "drawn(g, 2, 60000) - 30000",
        "drawn(g, 3, 1000) / 8.0",
        "drawn(g, 4, 2000) - 1000",
        "(drawn(g, 5, 2147483647) - 1000000000) * 4000000000",
        "drawn(g, 6, 1000) / 3.0",
        "drawn(g, 7, 5000)",
        "'2000-01-01'::date + drawn(g, 8, 9000)::int - 4500",
        "drawn(g, 9, 1000000) / 1000.0",
        "'2001-02-03 04:05:06.789'::timestamp + drawn(g, 10, 1000000000) * interval '1 second'",
        "'1999-12-31 23:59Z'::timestamptz - drawn(g, 11, 1000000000) * interval '1 second'",
        "drawn(g, 12, 10000)::text",
        "'00:00'::time + drawn(g, 13, 86400) * interval '1 second'",
        "md5(drawn(g, 14, 1500)::text)::uuid",
        "'n' || drawn(g, 15, 1000)",
        "repeat('x', drawn(g, 16, 140)::int) || drawn(g, 17, 50)",
        "'{\"a\": 1}'::json",
        "left(md5(drawn(g, 18, 700)::text), drawn(g, 19, 33)::int)",
        "drawn(g, 20, 1000) * interval '1 minute'",
        "decode(repeat(md5(drawn(g, 21, 300)::text), drawn(g, 22, 9)::int), 'hex')",
        "'[1, {\"b\": null}]'::jsonb",
        "ARRAY[g, NULL, 3]",
        "ARRAY[g * 5000000000]",
        "ARRAY['a', NULL, 'bc' || g]",
    ]
    row = ", ".join(
        f"CASE WHEN drawn(g, {32 + place}, 8) > 0 THEN {value} END"
        for place, value in enumerate(values)
    )
    return f"INSERT INTO TABLE_NAME SELECT g, {row} FROM generate_series({first}, {last}) AS g;"


# The least and the greatest values, the empty ones, and what is said by no number.
EXTREME_TYPES = """
INSERT INTO TABLE_NAME (id, flag, two, four, eight, o, d, ts, tz, tm, u, t, v, b) VALUES
  (-1, false, -32768, -2147483648, -9223372036854775808, 0, '-infinity', '-infinity', '-infinity',
   '00:00', '00000000-0000-0000-0000-000000000000', '', '', ''),
  (-2, true, 32767, 2147483647, 9223372036854775807, 4294967295, 'infinity', 'infinity', 'infinity',
   '24:00', 'ffffffff-ffff-ffff-ffff-ffffffffffff', U&'\\00ff\\4e2d', ' ', '\\x00'),
  (-3, true, 0, 0, 0, 2147483648, '4713-01-01 BC', '4713-01-01 BC', '4713-01-01 BC',
   '23:59:59.999999', '80000000-0000-0000-0000-000000000000', repeat('z', 126), repeat('z', 40),
   decode(repeat('ff', 126), 'hex')),
  (-4, false, -1, -1, -1, 1, '5874897-12-31', '294276-12-31', '294276-12-31',
   '12:00', '7fffffff-ffff-ffff-ffff-ffffffffffff', repeat('z', 127), 'a b',
   decode(repeat('00', 127), 'hex'));
"""

# Leaves room on each page for new versions of its rows.
ROOM = "ALTER TABLE TABLE_NAME SET (fillfactor = 60);"

# New versions of rows with other keys and without, and some that are rolled back.
UPDATES = """
UPDATE TABLE_NAME SET f8 = f8 + 1 WHERE id % 5 = 0;
UPDATE TABLE_NAME SET f8 = f8 + 1, nm = 'again' WHERE id % 10 = 0;
UPDATE TABLE_NAME SET four = four + 1, t = t || 'u' WHERE id % 7 = 0;
DELETE FROM TABLE_NAME WHERE id % 11 = 0;
BEGIN;
UPDATE TABLE_NAME SET four = 0, t = 'rolled back' WHERE id % 3 = 0;
DELETE FROM TABLE_NAME WHERE id % 13 = 0;
ROLLBACK;
BEGIN;
SAVEPOINT s;
UPDATE TABLE_NAME SET two = 1 WHERE id % 17 = 0;
ROLLBACK TO s;
UPDATE TABLE_NAME SET two = 2 WHERE id % 19 = 0;
COMMIT;
"""

# Rows of a few hundred values, all different ones in a, and mostly nulls in z.
NUMBERS = """
INSERT INTO numbers SELECT g, drawn(g, 1, 100), CASE WHEN drawn(g, 2, 10) = 0 THEN g END,
  drawn(g, 3, 3) - 1, 'key ' || drawn(g, 4, 300), drawn(g, 5, 2) = 0
  FROM generate_series(1, 20000) AS g ORDER BY drawn(g, 6, 2147483647);
VACUUM (FREEZE, ANALYZE) numbers;
"""

# Chains of several versions, pruned ones that begin with a redirect, and new chains behind those.
CHAINS = """
ALTER TABLE chains SET (fillfactor = 50);
INSERT INTO chains SELECT g, 'text ' || g % 400, 0 FROM generate_series(1, 4000) AS g;
UPDATE chains SET n = n + 1;
UPDATE chains SET n = n + 1 WHERE a % 2 = 0;
SELECT count(*) FROM chains;
UPDATE chains SET n = n + 1 WHERE a % 3 = 0;
DELETE FROM chains WHERE a % 29 = 0;
VACUUM chains;
UPDATE chains SET n = n + 1 WHERE a % 5 = 0;
BEGIN; UPDATE chains SET n = n + 1 WHERE a % 7 = 0; ROLLBACK;
UPDATE chains SET n = n + 1 WHERE a % 7 = 1;
UPDATE chains SET a = -a WHERE a % 31 = 0;
DELETE FROM chains WHERE a % 37 = 0;
INSERT INTO chains SELECT g, 'late', 0 FROM generate_series(5001, 5300) AS g;
"""

# Locks of all four strengths, by one transaction and by several, some of them rolled back.
LOCKS = """
INSERT INTO locks SELECT g, g % 50, 0 FROM generate_series(1, 2000) AS g;
SELECT count(*) FROM (SELECT FROM locks WHERE a % 9 = 0 FOR UPDATE) AS q;
SELECT count(*) FROM (SELECT FROM locks WHERE a % 9 = 1 FOR NO KEY UPDATE) AS q;
SELECT count(*) FROM (SELECT FROM locks WHERE a % 9 = 2 FOR SHARE) AS q;
SELECT count(*) FROM (SELECT FROM locks WHERE a % 9 = 3 FOR KEY SHARE) AS q;
BEGIN;
SELECT count(*) FROM (SELECT FROM locks WHERE a % 9 = 4 FOR KEY SHARE) AS q;
SAVEPOINT s;
SELECT count(*) FROM (SELECT FROM locks WHERE a % 9 = 4 FOR SHARE) AS q;
COMMIT;
BEGIN;
SELECT count(*) FROM (SELECT FROM locks WHERE a % 9 = 5 FOR KEY SHARE) AS q;
SAVEPOINT s;
UPDATE locks SET n = 1 WHERE a % 9 = 5;
ROLLBACK;
BEGIN;
SELECT count(*) FROM (SELECT FROM locks WHERE a % 9 = 6 FOR UPDATE) AS q;
ROLLBACK;
UPDATE locks SET n = 2 WHERE a % 9 = 7;
SELECT count(*) FROM (SELECT FROM locks WHERE a % 9 = 7 FOR UPDATE) AS q;
"""

# Updates of rows that the updater has locked under another number: the tuples name a multixact.
SHARED_UPDATES = """
INSERT INTO TABLE_NAME SELECT g, g % 50, 0 FROM generate_series(1, 1000) AS g;
BEGIN;
SELECT count(*) FROM (SELECT FROM TABLE_NAME WHERE a % 4 = 0 FOR KEY SHARE) AS q;
SAVEPOINT s;
UPDATE TABLE_NAME SET n = 1 WHERE a % 4 = 0;
COMMIT;
"""

# Values that stand in the tuple as they are, whatever their length, and so do the server's keys.
LONG_TEXTS = """
ALTER TABLE long_texts
  ALTER t SET STORAGE PLAIN, ALTER v SET STORAGE PLAIN, ALTER b SET STORAGE PLAIN;
INSERT INTO long_texts SELECT g, repeat(chr(97 + g % 2), drawn(g, 1, 2680)::int) || g,
  repeat('v', drawn(g, 2, 900)::int) || g,
  decode(repeat(md5((g % 40)::text), drawn(g, 3, 150)::int), 'hex')
  FROM generate_series(1, 900) AS g;
INSERT INTO long_texts VALUES
  (0, repeat('x', 2692), repeat('x', 126), decode(repeat('00', 2692), 'hex'));
DELETE FROM long_texts WHERE a % 10 = 0 AND a > 0;
"""

# A text that is compressed, or that stands in a table of its own, before columns of keys.
TOASTED = """
INSERT INTO toasted SELECT g, CASE g % 3
    WHEN 0 THEN repeat('compressed ', 500)
    WHEN 1 THEN (SELECT string_agg(md5(k::text), '') FROM generate_series(g, g + 200) AS k)
    ELSE 'short' END, drawn(g, 1, 500), 'key ' || g
  FROM generate_series(1, 1500) AS g;
UPDATE toasted SET b = b + 1 WHERE a % 4 = 0;
VACUUM toasted;
"""

# Texts that the heap keeps as they are, and that the server compresses in an index.
SQUEEZED = """
INSERT INTO squeezed SELECT g, repeat('squeeze ', 70 + g % 100) || g
  FROM generate_series(1, 300) AS g;
"""

MANY_TYPES = ("int4", "text", "int2", "bool", "int8", 'varchar(20) COLLATE "C"', "date", "oid")


def many_columns() -> list[str]:
    """Forty columns, c1 to c40, whose types follow each other."""
    return [f"c{k} {MANY_TYPES[(k - 1) % len(MANY_TYPES)]}" for k in range(1, 41)]


def many_history() -> str:
    """Rows whose first columns are mostly equal, so that an order needs those behind."""
    values = []
    for k in range(1, 41):
        value = f"drawn(g, {k}, {2 if k < 30 else 50})"
        kind = MANY_TYPES[(k - 1) % len(MANY_TYPES)]
        if kind == "bool":
            value = f"{value} % 2 = 1"
        elif kind == "date":
            value = f"'2020-01-01'::date + {value}::int"
        values.append(f"CASE WHEN drawn(g / {1 + k % 4}, {k}, 20) > 0 THEN {value} END")
    rows = f"SELECT {', '.join(values)} FROM generate_series(1, 3000) AS g"
    return f"INSERT INTO many {rows};\nDELETE FROM many WHERE c1 = 0 AND c3 = 1;"


# Columns that went and that came, the latter absent in older rows.
GROWN = """
INSERT INTO grown SELECT g, g * 3, 'first ' || g % 90 FROM generate_series(1, 1000) AS g;
ALTER TABLE grown DROP COLUMN gone;
INSERT INTO grown SELECT g, 'second ' || g % 90 FROM generate_series(1001, 1500) AS g;
ALTER TABLE grown ADD COLUMN late int4, ADD COLUMN later text;
INSERT INTO grown SELECT g, 'third ' || g % 90, g % 20, 'later ' || g
  FROM generate_series(1501, 2200) AS g;
UPDATE grown SET late = 7 WHERE a % 6 = 0;
DELETE FROM grown WHERE a % 8 = 0;
"""

# Keys that are there once, though dead versions have them too, and nulls.
UNIQUES = """
INSERT INTO uniques SELECT g, CASE WHEN g % 3 > 0 THEN g END, g % 40, g / 40, 0
  FROM generate_series(1, 3000) AS g;
UPDATE uniques SET n = n + 1 WHERE a % 4 = 0;
DELETE FROM uniques WHERE a % 10 = 0;
INSERT INTO uniques SELECT g, g, g % 40, g / 40, 9 FROM generate_series(10, 3000, 10) AS g;
BEGIN;
INSERT INTO uniques SELECT g, g, g % 40, g / 40, 0 FROM generate_series(1, 500) AS g;
ROLLBACK;
INSERT INTO uniques VALUES
  (3001, -1, NULL, NULL, 0), (3002, -2, NULL, 1, 0), (NULL, -3, 1, NULL, 0);
"""

# A text that stands in the heap as it is, and that no page of an index takes.
TOO_LONG = """
ALTER TABLE too_long ALTER t SET STORAGE PLAIN;
INSERT INTO too_long VALUES ('short'), (repeat('x', 2693));
"""

# Rows that fit one leaf.
ONE_LEAF = """
INSERT INTO t SELECT g * 7919 % 1009 - 500 FROM generate_series(1, 400) AS g;
DELETE FROM t WHERE a % 5 = 0;
UPDATE t SET a = a + 2000 WHERE a % 7 = 0;
"""

DEAD = """
INSERT INTO dead SELECT g, 'gone' FROM generate_series(1, 700) AS g;
DELETE FROM dead;
"""

TABLES = [
    Table("kinds", ALL_TYPES, ROOM + drawn_types(1, 3000) + EXTREME_TYPES + UPDATES),
    Table(
        "vacuumed", ALL_TYPES,
        ROOM + drawn_types(1, 1500) + EXTREME_TYPES + UPDATES + "VACUUM vacuumed;" + UPDATES
        + drawn_types(4001, 4400) + "VACUUM (FREEZE) vacuumed;",
    ),
    Table("numbers", "a int4, k int4, z int4, s int8, t text, f bool", NUMBERS),
    Table("chains", "a int4, t text, n int4", CHAINS),
    Table("locks", "a int4, k int4, n int4", LOCKS),
    Table("shared", "a int4, k int4, n int4", SHARED_UPDATES),
    Table("settled", "a int4, k int4, n int4", SHARED_UPDATES + "VACUUM FREEZE settled;"),
    Table("long_texts", "a int4, t text, v varchar, b bytea", LONG_TEXTS),
    Table("toasted", "a int4, long text, b int4, t text", TOASTED),
    Table("squeezed", "a int4, t text", SQUEEZED),
    Table("many", ", ".join(many_columns()), many_history()),
    Table(
        "grown", "a int4, dropped int8, t text, late int4, later text", GROWN,
        made="a int4, gone int8, t text",
    ),
    Table("uniques", "a int4, b int4, c int4, d int4, n int4", UNIQUES),
    Table("doubles", "a int4", "INSERT INTO doubles VALUES (1), (2), (NULL), (3), (2), (NULL);"),
    Table("too_long", "t text", TOO_LONG),
    Table("empty", "a int4, t text", ""),
    Table("dead", "a int4, t text", DEAD),
    Table("t", "a int4", ONE_LEAF),
    Table("single", "a int4, t text", "INSERT INTO single VALUES (NULL, 'one');"),
]  # fmt: skip
