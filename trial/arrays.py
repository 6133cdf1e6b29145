"""Asks the server what a GIN index says, and queries of its arrays with it and without any."""

from __future__ import annotations

import index_file
import model_gin_file
import queries
import server
from indexes import Index
from model_statements import TYPES

# Of whose columns an index may be, and their elements.
ELEMENTS = {"fours": "int4", "eights": "int8", "texts": "text"}

SIGNS = ("@>", "&&", "<@", "=")

BITMAP_SCANS = "SET enable_seqscan = off; SET enable_indexscan = off; SET enable_bitmapscan = on;"

# What pageinspect tells of the pages of an index: the meta page, and of the leaves of posting trees
# how many pointers they have.
INSPECTED = """
CREATE TEMP TABLE pages AS SELECT b::int, get_raw_page('{name}', b::int) AS page
  FROM generate_series(0, pg_relation_size('{name}') / 8192 - 1) AS b;
CREATE TEMP TABLE kinds AS SELECT b, page, rightlink, maxoff, flags
  FROM pages, gin_page_opaque_info(page);
SELECT pending_head, pending_tail, n_pending_pages, n_pending_tuples, n_entries, version
  FROM pages, gin_metapage_info(page) WHERE b = 0;
SELECT sum(cardinality(tids)), 'pointers on leaves' FROM kinds, gin_leafpage_items(page)
  WHERE flags = '{{data,leaf,compressed}}';
SELECT count(*), 'leaves' FROM kinds WHERE flags = '{{leaf}}' HAVING count(*) = 0;
"""

AFTER_CHANGES = ""

# For each element that is there the rows that have it, by the index, and by the table alone.
BY_ELEMENTS = """
CREATE TEMP TABLE elements AS SELECT DISTINCT element FROM {table}, unnest({column}) AS element
  WHERE element IS NOT NULL AND {where};
CREATE TEMP TABLE wanted AS SELECT element, array_agg(DISTINCT {table}.ctid) AS rows
  FROM {table}, unnest({column}) AS element WHERE element IS NOT NULL AND {where} GROUP BY element;
{scans}
CREATE TEMP TABLE told AS SELECT element, ARRAY(SELECT ctid FROM {table}
  WHERE {column} @> ARRAY[element] AND {where} ORDER BY ctid) AS rows FROM elements;
SELECT count(*) FROM wanted;
SELECT count(*) FROM wanted FULL JOIN told USING (element)
  WHERE wanted.rows IS DISTINCT FROM told.rows;
"""


def inspected(cluster: server.Cluster, index: Index) -> str:
    """What pageinspect tells of an index."""
    return cluster.sql(INSPECTED.format(name=index.name))


def difference(index: Index, ours: str, theirs: str) -> tuple[str, str]:
    """How two files compare, and what is wrong with that: both have to be read as one map."""
    blocks = index_file.blocks(theirs)
    if index.compressed:
        return f"the server's {blocks}, which has compressed keys", ""
    kind = TYPES[ELEMENTS[index.keys[0]] + "[]"]
    with open(theirs, "rb") as file:
        wanted = model_gin_file.File(file.read(), kind).map()
    with open(ours, "rb") as file:
        differs = model_gin_file.difference(file.read(), kind, wanted)
    return f"one map with the server's {blocks}", differs or ""


def check(cluster: server.Cluster, index: Index, wanted: str) -> str | None:
    """What speaks against an index, or None: pageinspect has to read all of its pages, and there
    are as many entries as in the server's own."""
    told, wanted = inspected(cluster, index).split("\n"), wanted.split("\n")
    if told[0] == wanted[0] and told[2:] == wanted[2:]:
        return None
    return f"pageinspect: {told} where the server's own has {wanted}"


class Asked(queries.Asked):
    """The queries that are asked of one GIN index."""

    index_scans = BITMAP_SCANS

    def queries(self) -> list[str]:
        column = self.index.keys[0]
        conditions = [f"{column} {sign} {array}" for array in self.arrays() for sign in SIGNS]
        return [self.rows_where(condition) for condition in conditions]

    def rows_where(self, condition: str) -> str:
        where = f"{self.where()} AND {condition}"
        return f"SELECT ctid FROM {self.index.table} WHERE {where} ORDER BY ctid"

    def arrays(self) -> list[str]:
        """Arrays of some rows, parts of them, the empty one, and ones with nulls and of nothing."""
        column, table = self.index.keys[0], self.index.table
        kind = f"{ELEMENTS[column]}[]"
        told = self.cluster.sql(
            f"SELECT format('%L::{kind}', part) FROM (SELECT {column} FROM {table}"
            f" WHERE {self.where()} AND cardinality({column}) BETWEEN 1 AND 400"
            f" ORDER BY md5(ctid::text) LIMIT {queries.SAMPLES}) AS drawn,"
            f" LATERAL (VALUES ({column}), ({column}[1:1]), ({column}[2:3])) AS parts (part);"
        )
        arrays = [array for array in told.split("\n") if array]
        return [*arrays, f"'{{}}'::{kind}", f"'{{NULL}}'::{kind}", f"'{{-77}}'::{kind}"]

    def wrong(self) -> tuple[int, list[str]]:
        count, wrong = super().wrong()
        elements, bad = self.by_elements()
        if bad > 0:
            wrong.append(f"{bad} of {elements} elements have other rows")
        return count + elements, wrong

    def by_elements(self) -> tuple[int, int]:
        """How many elements there are, and how many of them have other rows by the index."""
        column, table = self.index.keys[0], self.index.table
        text = BY_ELEMENTS.format(
            table=table, column=column, where=self.where(), scans=self.index_scans
        )
        told = self.cluster.sql(f"BEGIN; {queries.dropped(self.others)} {text} ROLLBACK;")
        elements, bad = told.split()
        return int(elements), int(bad)
