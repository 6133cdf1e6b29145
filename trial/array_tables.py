"""Tables of the trial that are for GIN: rows of arrays."""

from __future__ import annotations

from tables import Table

# Arrays of few values, of which some are without elements, null, or have nulls and repeats.
SETS = """
ALTER TABLE sets SET (fillfactor = 70);
INSERT INTO sets SELECT g,
  CASE drawn(g, 1, 9) WHEN 0 THEN NULL WHEN 1 THEN '{}'
    WHEN 2 THEN ARRAY[NULL, drawn(g, 2, 50), NULL] WHEN 3 THEN ARRAY[NULL]::int4[]
    ELSE ARRAY[drawn(g, 2, 50), drawn(g, 3, 1000), drawn(g, 2, 50)] END,
  CASE drawn(g, 4, 8) WHEN 0 THEN NULL WHEN 1 THEN '{}'
    ELSE ARRAY[drawn(g, 5, 300) * 5000000000 - 700000000000, NULL, g] END,
  CASE drawn(g, 6, 8) WHEN 0 THEN NULL WHEN 1 THEN '{}' WHEN 2 THEN ARRAY['', NULL]
    ELSE ARRAY['w' || drawn(g, 7, 200), repeat('x', drawn(g, 8, 140)::int), 'w' || g % 7] END
  FROM generate_series(1, 6000) AS g;
UPDATE sets SET a = a + 100000 WHERE a % 5 = 0;
UPDATE sets SET fours = fours || 7 WHERE a % 6 = 0;
DELETE FROM sets WHERE a % 11 = 0;
BEGIN; UPDATE sets SET fours = '{999999}' WHERE a % 3 = 0; ROLLBACK;
VACUUM sets;
UPDATE sets SET eights = ARRAY[1, 2, 3] WHERE a % 13 = 0;
INSERT INTO sets VALUES (0, '{-2147483648,2147483647,0,-1}',
  '{-9223372036854775808,9223372036854775807}', ARRAY[U&'\\00ff\\4e2d', ' ', repeat('z', 126)]),
  (-1, '{{1,2},{3,NULL}}', '{{5}}', '{{a,b},{c,d}}'), (-2, '[0:1]={8,9}', NULL, '[5:5]={e}');
SELECT count(*) FROM sets;
"""

# Lists of very many rows, and very many entries: both stand in trees of several levels.
TAGS = """
INSERT INTO tags SELECT g, ARRAY[1, 2 + g % 5, 1000 + g % 100, 100000 + g],
  ARRAY['all', 'tag ' || lpad(g::text, 6, '0') || md5(g::text), 'of ' || g % 300]
  FROM generate_series(1, 60000) AS g;
DELETE FROM tags WHERE a % 10 = 0;
VACUUM (FREEZE) tags;
"""

# A row of very many elements, and elements of hundreds of bytes that don't become less by
# compression.
LONG_ARRAYS = """
INSERT INTO long_arrays SELECT g,
  (SELECT array_agg(drawn(k, g, 400)) FROM generate_series(1, g % 300) AS k),
  ARRAY(SELECT (SELECT string_agg(md5((k * 1000 + g * 10 + j)::text), '')
    FROM generate_series(1, 4 + g % 9) AS j) FROM generate_series(1, 4) AS k)
  FROM generate_series(1, 400) AS g;
INSERT INTO long_arrays SELECT 0, array_agg(g), NULL FROM generate_series(1, 1900) AS g;
VACUUM (FREEZE) long_arrays;
"""

# An element that a GIN index doesn't take, in a row that isn't compressed.
LONG_ELEMENT = """
ALTER TABLE TABLE_NAME ALTER texts SET STORAGE PLAIN;
INSERT INTO TABLE_NAME VALUES ('{short}'), (ARRAY[repeat('x', {length})]);
"""

TABLES = [
    Table("sets", "a int4, fours int4[], eights int8[], texts text[] COLLATE \"C\"", SETS),
    Table("tags", "a int4, fours int4[], texts text[] COLLATE \"C\"", TAGS),
    Table(
        "long_arrays", "a int4, fours int4[], texts text[] COLLATE \"C\"",
        "ALTER TABLE long_arrays ALTER fours SET STORAGE PLAIN, ALTER texts SET STORAGE PLAIN;"
        + LONG_ARRAYS,
    ),
    Table("long_element", "texts text[]", LONG_ELEMENT.replace("{length}", "2700")),
    Table("too_long_element", "texts text[]", LONG_ELEMENT.replace("{length}", "2701")),
    Table("no_arrays", "a int4, fours int4[], texts text[]", ""),
]  # fmt: skip
