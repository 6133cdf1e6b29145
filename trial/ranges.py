"""Asks the server what a BRIN index says of its ranges, and queries with it and without any."""

from __future__ import annotations

import index_file
import queries
import server
from indexes import Index

BITMAP_SCANS = "SET enable_seqscan = off; SET enable_indexscan = off; SET enable_bitmapscan = on;"

# What pageinspect tells of an index: the ranges in the order of the revmap, with what is known of
# each column, and then how many pointers and tuples there are. A pointer that isn't used is (0,0).
INSPECTED = """
CREATE TEMP TABLE pages AS SELECT b::int, get_raw_page('{name}', b::int) AS page
  FROM generate_series(0, pg_relation_size('{name}') / 8192 - 1) AS b;
CREATE TEMP TABLE pointers AS SELECT (b - 1) * 1360 + place - 1 AS range, pointer
  FROM pages, ROWS FROM (brin_revmap_data(page)) WITH ORDINALITY AS q (pointer, place)
  WHERE brin_page_type(page) = 'revmap' AND pointer <> '(0,0)';
CREATE TEMP TABLE items AS SELECT b, itemoffset, blknum, attnum, allnulls, hasnulls, placeholder,
  value FROM pages, brin_page_items(page, '{name}') WHERE brin_page_type(page) = 'regular';
SELECT range, blknum, attnum, allnulls, hasnulls, placeholder, value FROM pointers
  JOIN items ON pointer = format('(%s,%s)', b, itemoffset)::tid ORDER BY range, attnum;
SELECT count(*) FROM pointers;
SELECT count(DISTINCT (b, itemoffset)) FROM items;
SELECT magic, version, pagesperrange FROM pages, brin_metapage_info(page) WHERE b = 0;
"""

# Ranges of blocks that came with the new rows are summarized before the second look.
AFTER_CHANGES = "SELECT brin_summarize_new_values('{name}');"


def inspected(cluster: server.Cluster, index: Index) -> str:
    """What pageinspect tells of an index."""
    return cluster.sql(INSPECTED.format(name=index.name))


def difference(index: Index, ours: str, theirs: str) -> tuple[str, str]:
    """How two files compare, and what is wrong with that: nothing, since their bytes may differ.

    A server puts the pages of a long revmap and the tuples where they come. It has none for the
    ranges behind the last row, before PostgreSQL 17, but one for a heap without blocks, and may
    compress long texts.
    """
    differs = index_file.difference(ours, theirs)
    return ("equal bytes" if differs is None else f"other bytes ({differs})"), ""


def check(cluster: server.Cluster, index: Index, wanted: str) -> str | None:
    """What speaks against an index beside what the server's own said of its ranges, or None."""
    ours, theirs = Inspected(inspected(cluster, index)), Inspected(wanted)
    front = min(len(ours.ranges), len(theirs.ranges))
    more = ours.ranges[front:] if ours.ranges else theirs.ranges
    if ours.ranges[:front] != theirs.ranges[:front] or not all(map(is_empty, more)):
        return f"pageinspect: ranges {ours.ranges}, the server's own {theirs.ranges}"
    if len(ours.ranges) < len(theirs.ranges) and ours.ranges:
        return f"pageinspect: {len(ours.ranges)} ranges, the server's own {len(theirs.ranges)}"
    if ours.pointers != ours.tuples or ours.meta != theirs.meta:
        return f"pageinspect: {ours.pointers} pointers, {ours.tuples} tuples, {ours.meta}"
    return None


class Inspected:
    """What pageinspect told of an index: a line for each range and column, and three more."""

    def __init__(self, told: str):
        lines = [line.split(server.SEPARATOR) for line in told.splitlines()]
        *self.ranges, self.pointers, self.tuples, self.meta = lines


def is_empty(line: list[str]) -> bool:
    """Whether a range without rows has this line of a column."""
    return line[3:] == ["t", "f", "f", ""]


class Asked(queries.Asked):
    """The queries that are asked of one BRIN index: each column by itself, by bitmap scans."""

    index_scans = BITMAP_SCANS

    def queries(self) -> list[str]:
        conditions = [self.conditions_of(column) for column in self.index.key_columns()]
        return [self.rows_where(one) for column in conditions for one in column]

    def conditions_of(self, column: str) -> list[str]:
        """Conditions with the values of some rows, and of nulls."""
        where = f"{self.where()} AND {column} IS NOT NULL"
        drawn = (
            f"(SELECT {column} FROM {self.index.table} WHERE {where}"
            f" ORDER BY md5(ctid::text) LIMIT 2) AS drawn"
        )
        told = self.cluster.sql(
            f"SELECT format('{column} %s %L', sign, {column}) FROM {drawn},"
            f" unnest(ARRAY['=', '<', '<=', '>', '>=']) AS sign;"
        )
        conditions = [condition for condition in told.split("\n") if condition]
        return [*conditions, f"{column} IS NULL", f"{column} IS NOT NULL"]
