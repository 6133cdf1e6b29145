"""Asks the server what amcheck says of a B-tree, and the same queries with it and without any."""

from __future__ import annotations

from collections.abc import Iterable

import index_file
import server
from indexes import Index

# Rows whose values are looked up.
SAMPLES = 12

# Ends each query's answer in what psql prints.
END = "-- end of answer"

PLAN = "EXPLAIN (COSTS OFF) "

# So that a query goes by the one index that is there.
INDEX_SCANS = "SET enable_seqscan = off; SET enable_bitmapscan = off; SET enable_sort = off;"
TABLE_SCANS = "SET enable_seqscan = on; SET enable_sort = on;"


class Asked:
    """The queries that are asked of one B-tree."""

    index_scans = INDEX_SCANS

    def __init__(self, cluster: server.Cluster, index: Index, others: list[str]):
        self.cluster = cluster
        self.index = index
        self.others = others
        """The other indexes of the table."""

    def queries(self) -> list[str]:
        """The whole index in both directions, and rows by their values."""
        keys = list(self.index.keys)
        conditions = [*self.conditions_of_samples(), *self.conditions_of_nulls()]
        return [
            self.in_order(keys),
            self.in_order([turned(key) for key in keys]),
            self.values(),
            *(self.rows_where(condition) for condition in conditions),
        ]

    def where(self) -> str:
        return self.index.where or "TRUE"

    def in_order(self, keys: list[str]) -> str:
        """All rows by the index's columns, in an order."""
        columns = ", ".join(self.index.columns())
        names = ", ".join(self.index.key_columns())
        return (
            f"SELECT {names} FROM (SELECT {columns} FROM {self.index.table} WHERE {self.where()}"
            f" ORDER BY {', '.join(keys)}) AS q"
        )

    def values(self) -> str:
        """The values of all columns, which the index has."""
        columns = ", ".join(self.index.columns())
        return f"SELECT {columns} FROM {self.index.table} WHERE {self.where()} ORDER BY {columns}"

    def rows_where(self, condition: str) -> str:
        columns = ", ".join(["ctid", *self.index.columns()])
        where = f"{self.where()} AND {condition}"
        return f"SELECT {columns} FROM {self.index.table} WHERE {where} ORDER BY ctid"

    def conditions_of_samples(self) -> list[str]:
        """Conditions with the values of some rows: of all key columns, and around the first's."""
        columns = self.index.key_columns()
        equal = " || ' AND ' || ".join(
            f"CASE WHEN {name} IS NULL THEN '{name} IS NULL' ELSE format('{name} = %L', {name}) END"
            for name in columns
        )
        first = columns[0]
        sample = (
            f"(SELECT * FROM {self.index.table} WHERE {self.where()}"
            f" ORDER BY md5(ctid::text) LIMIT {SAMPLES}) AS sample"
        )
        near = " UNION ALL ".join(
            f"(SELECT format('{first} {sign} %L', {first}) FROM {sample}"
            f" WHERE {first} IS NOT NULL LIMIT 2)"
            for sign in ("<", "<=", ">", ">=")
        )
        told = self.cluster.sql(f"SELECT {equal} FROM {sample} UNION ALL {near};")
        return [condition for condition in told.split("\n") if condition]

    def conditions_of_nulls(self) -> list[str]:
        first = self.index.key_columns()[0]
        return [f"{first} IS NULL", f"{first} IS NOT NULL"]

    def wrong(self) -> tuple[int, list[str]]:
        """How many queries were asked, and which the index answers otherwise, or doesn't answer."""
        queries = self.queries()
        count = len(queries)
        told = self.cluster.sql(
            f"BEGIN; {dropped(self.others)} {self.index_scans}"
            f"{asked(PLAN + query for query in queries)}{asked(queries)}"
            f"{dropped([self.index.name])} {TABLE_SCANS} {asked(queries)} ROLLBACK;"
        )
        answers = told.split(f"{END}\n")
        plans, ours, theirs = answers[:count], answers[count : 2 * count], answers[2 * count : -1]
        used = [self.index.name in plan for plan in plans]
        wrong = [
            f"'{query}': {'another answer' if plan else 'the index is not used'}"
            for query, plan, one, other in zip(queries, used, ours, theirs, strict=True)
            if not plan or one != other
        ]
        return count, wrong


def dropped(names: list[str]) -> str:
    """Drops indexes, until a ROLLBACK."""
    return f"DROP INDEX {', '.join(names)};" if names else ""


def asked(queries: Iterable[str]) -> str:
    """The queries, and a line after each answer."""
    return "".join(f"{query};\n\\echo '{END}'\n" for query in queries)


def turned(key: str) -> str:
    """The key in the other direction: a scan backwards gives its order."""
    name, _, words = key.partition(" ")
    descending = words.startswith("DESC")
    nulls_first = descending if "NULLS" not in words else "FIRST" in words
    return f"{name} {'ASC' if descending else 'DESC'} NULLS {'LAST' if nulls_first else 'FIRST'}"


def inspected(cluster: server.Cluster, index: Index) -> str:
    """What the server's own index is held to beside its bytes: nothing."""
    return ""


def difference(index: Index, ours: str, theirs: str) -> tuple[str, str]:
    """How two files compare, and what is wrong with that."""
    differs = index_file.difference(ours, theirs)
    if differs is None:
        return "equal bytes", ""
    if index.compressed:
        return "other bytes, since the server compresses keys", ""
    return "", differs


def check(cluster: server.Cluster, index: Index, wanted: str) -> str | None:
    """What amcheck has against an index, or None."""
    name = index.name
    try:
        cluster.sql(
            f"SELECT bt_index_check('{name}', heapallindexed => true);"
            f"SELECT bt_index_parent_check('{name}', heapallindexed => true, rootdescend => true);"
        )
    except server.Refused as refused:
        return f"amcheck: {refused}"
    return None


# Run after a table was changed, before its indexes are asked again.
AFTER_CHANGES = ""
