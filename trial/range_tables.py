"""Tables of the trial that are for BRIN: rows in ranges of blocks, of which some have none."""

from __future__ import annotations

from tables import Table

# Values that ascend with the block but for some, nulls by the thousand, and blocks without a row.
READINGS = """
INSERT INTO readings SELECT g, g / 100, g::int8 * 1000000007, '2000-01-01'::date + g / 50,
  '2020-01-01'::timestamp + g * interval '1 minute',
  '00:00'::time + g % 86400 * interval '1 second', md5((g / 700)::text)::uuid,
  'reading ' || lpad((g / 30)::text, 5, '0'),
  CASE WHEN g / 1000 % 3 > 0 THEN drawn(g, 1, 500) END, drawn(g, 2, 30000)
  FROM generate_series(1, 30000) AS g;
UPDATE readings SET t = 'changed' WHERE a % 211 = 0;
DELETE FROM readings WHERE a BETWEEN 5000 AND 9000 OR a % 7 = 0;
VACUUM (FREEZE) readings;
INSERT INTO readings SELECT -g, NULL, NULL, 'infinity', '-infinity', '24:00', NULL, '', NULL, 1
  FROM generate_series(1, 300) AS g;
BEGIN; INSERT INTO readings (a) SELECT 1000000 FROM generate_series(1, 3000); ROLLBACK;
VACUUM (FREEZE, TRUNCATE off) readings;
"""

# More ranges of a block than a page of the revmap has pointers: three rows on each block.
MANY_BLOCKS = """
ALTER TABLE many_blocks ALTER filler SET STORAGE PLAIN;
INSERT INTO many_blocks SELECT g * 3, repeat('f', 2600) FROM generate_series(1, 4600) AS g;
DELETE FROM many_blocks WHERE a BETWEEN 6000 AND 6200;
VACUUM (FREEZE) many_blocks;
"""

# Two texts that fill a BRIN page, and then two that are too long for one.
BROAD_TEXTS = """
ALTER TABLE TABLE_NAME ALTER t SET STORAGE PLAIN;
INSERT INTO TABLE_NAME SELECT repeat('a', 4069);
INSERT INTO TABLE_NAME SELECT repeat('b', {length});
VACUUM (FREEZE) TABLE_NAME;
"""

TABLES = [
    Table(
        "readings",
        "a int4, two int2, eight int8, d date, ts timestamp, tm time, u uuid, t text COLLATE \"C\","
        " n int4, o oid",
        READINGS,
    ),
    Table("many_blocks", "a int4, filler text", MANY_BLOCKS),
    Table("broad", 't text COLLATE "C"', BROAD_TEXTS.format(length=4063)),
    Table("too_broad", 't text COLLATE "C"', BROAD_TEXTS.format(length=4071)),
]
