"""The indexes of the trial: every form of B-tree, and of BRIN and GIN, that the program is for."""

from __future__ import annotations

from collections.abc import Iterator
from dataclasses import dataclass


@dataclass(frozen=True)
class Index:
    """An index, by the parts of its statement."""

    name: str
    table: str
    keys: tuple[str, ...]
    """The key columns, each with its direction, as in ORDER BY."""
    unique: bool = False
    include: tuple[str, ...] = ()
    nulls_distinct: bool = True
    options: str = ""
    where: str = ""
    refused: str = ""
    """What the program says of a heap that it refuses here."""
    compressed: bool = False
    """Whether the server compresses some keys, so that its file is another one."""
    method: str = "btree"

    def statement(self) -> str:
        parts = [
            f"CREATE {'UNIQUE ' if self.unique else ''}INDEX {self.name} ON {self.table}",
            "" if self.method == "btree" else f"USING {self.method}",
            f"({', '.join(self.keys)})",
            f"INCLUDE ({', '.join(self.include)})" if self.include else "",
            "" if self.nulls_distinct else "NULLS NOT DISTINCT",
            f"WITH ({self.options})" if self.options else "",
            f"WHERE {self.where}" if self.where else "",
        ]
        return " ".join(part for part in parts if part)

    def key_columns(self) -> list[str]:
        """The names of the key columns, each once."""
        return list(dict.fromkeys(key.split()[0] for key in self.keys))

    def columns(self) -> list[str]:
        """The names of all columns of the index, each once."""
        return list(dict.fromkeys([*self.key_columns(), *self.include]))


KEY_TYPES = ("flag", "two", "four", "eight", "o", "d", "ts", "tz", "tm", "u", "t", "v", "b")

DIRECTIONS = {"asc": "", "desc": " DESC", "first": " NULLS FIRST", "last": " DESC NULLS LAST"}

# An index has at most 32 columns.
MOST_COLUMNS = 32


def of_each_type() -> Iterator[Index]:
    """An index on each type of a key, in each direction."""
    for column in KEY_TYPES:
        for direction, words in DIRECTIONS.items():
            yield Index(f"kinds_{column}_{direction}", "kinds", (column + words,))
        yield Index(f"vacuumed_{column}", "vacuumed", (column,))


def of_several_columns() -> Iterator[Index]:
    """Indexes whose order needs more than the first column."""
    yield Index("kinds_pair", "kinds", ("d DESC", "id"))
    yield Index("kinds_mixed", "kinds", ("flag NULLS FIRST", "t DESC", "two", "u DESC NULLS LAST"))
    yield Index("kinds_bytes", "kinds", ("v", "b DESC", "tm"))
    yield Index("kinds_all", "kinds", KEY_TYPES)
    yield Index("kinds_twice", "kinds", ("two", "four DESC", "two DESC"))
    yield Index("numbers_pair", "numbers", ("k", "a"))
    yield Index("numbers_equal", "numbers", ("s", "z", "k DESC"))
    yield Index("many_first", "many", tuple(f"c{k}" for k in range(1, MOST_COLUMNS + 1)))
    yield Index("many_last", "many", tuple(f"c{k} DESC" for k in range(40, 40 - MOST_COLUMNS, -1)))
    yield Index(
        "many_include", "many", tuple(f"c{k} NULLS FIRST" for k in range(2, 20)),
        include=tuple(f"c{k}" for k in range(20, 20 + MOST_COLUMNS - 18)),
    )  # fmt: skip


def of_many_levels() -> Iterator[Index]:
    """Indexes on many rows, by the options that decide where pages end."""
    yield Index("numbers_a", "numbers", ("a",))
    yield Index("numbers_k", "numbers", ("k",))
    yield Index("numbers_z", "numbers", ("z DESC",))
    yield Index("numbers_s", "numbers", ("s",))
    yield Index("numbers_t", "numbers", ("t DESC",))
    yield Index("numbers_f", "numbers", ("f",))
    for factor in (10, 50, 70, 100):
        yield Index(f"numbers_a_{factor}", "numbers", ("a",), options=f"fillfactor = {factor}")
        yield Index(f"numbers_t_{factor}", "numbers", ("t",), options=f"fillfactor = {factor}")
    yield Index("numbers_k_single", "numbers", ("k",), options="deduplicate_items = off")
    yield Index(
        "numbers_both", "numbers", ("z", "k"), options="fillfactor = 33, deduplicate_items = off"
    )
    yield Index("numbers_on", "numbers", ("k DESC",), options="deduplicate_items = on")


def with_include() -> Iterator[Index]:
    yield Index("numbers_k_with_a", "numbers", ("k",), include=("a",))
    yield Index("numbers_t_with_z", "numbers", ("t DESC",), include=("z", "s"))
    yield Index("kinds_four_with", "kinds", ("four",), include=("t", "b", "tm", "flag"))
    yield Index("numbers_twice_in", "numbers", ("k", "f"), include=("k",))
    yield Index("uniques_with", "uniques", ("a",), unique=True, include=("n", "b"))


def with_where() -> Iterator[Index]:
    yield Index("numbers_above", "numbers", ("a",), where="k > 50")
    yield Index("numbers_flag", "numbers", ("k DESC",), where="f = TRUE")
    yield Index("numbers_not_null", "numbers", ("z",), where="z IS NOT NULL")
    yield Index("numbers_null", "numbers", ("a",), where="z IS NULL AND (k <> 3 AND t >= 'key 2')")
    yield Index("numbers_nothing", "numbers", ("a",), where="k = 100000")
    yield Index("kinds_where", "kinds", ("ts", "id"), where="t IS NOT NULL AND two <= -100")
    yield Index("kinds_text", "kinds", ("d",), where="v < '8' AND flag != TRUE AND eight > -5")
    yield Index(
        "uniques_where", "uniques", ("b",), unique=True, include=("d",), where="a > 100 AND c = 3"
    )


def unique_ones() -> Iterator[Index]:
    yield Index("uniques_a", "uniques", ("a",), unique=True)
    yield Index("uniques_a_equal", "uniques", ("a",), unique=True, nulls_distinct=False)
    yield Index("uniques_b", "uniques", ("b DESC",), unique=True)
    yield Index("uniques_pair", "uniques", ("c", "d DESC"), unique=True, options="fillfactor = 60")
    yield Index("uniques_pair_equal", "uniques", ("d", "c"), unique=True, nulls_distinct=False)
    yield Index("numbers_unique", "numbers", ("a DESC",), unique=True)
    yield Index("chains_unique", "chains", ("a", "t"), unique=True)


def by_history() -> Iterator[Index]:
    """Indexes that are about what happened to their rows, or how those are stored."""
    yield Index("chains_a", "chains", ("a",))
    yield Index("chains_t", "chains", ("t",))
    yield Index("chains_n", "chains", ("n DESC", "a"))
    yield Index("locks_a", "locks", ("a",))
    yield Index("locks_k", "locks", ("k", "n"))
    yield Index("settled_a", "settled", ("a",))
    yield Index("settled_n", "settled", ("n", "k"))
    yield Index("long_t", "long_texts", ("t",))
    yield Index("long_v", "long_texts", ("v DESC",), include=("a",))
    yield Index("long_b", "long_texts", ("b",))
    yield Index("long_b_single", "long_texts", ("b",), options="deduplicate_items = off")
    yield Index("toasted_b", "toasted", ("b",))
    yield Index("toasted_t", "toasted", ("t DESC", "b"))
    yield Index("squeezed_t", "squeezed", ("t",), compressed=True)
    yield Index("grown_a", "grown", ("a",))
    yield Index("grown_t", "grown", ("t", "a"))
    yield Index("grown_late", "grown", ("late", "later"))
    yield Index("grown_part", "grown", ("later",), include=("late",), where="late IS NOT NULL")


def of_few_rows() -> Iterator[Index]:
    yield Index("empty_a", "empty", ("a",))
    yield Index("empty_t", "empty", ("t",), unique=True, include=("a",))
    yield Index("dead_a", "dead", ("a", "t"))
    yield Index("i", "t", ("a",))
    yield Index("single_a", "single", ("a",), unique=True, nulls_distinct=False)
    yield Index("single_t", "single", ("t DESC",), include=("a",))


def refused_ones() -> Iterator[Index]:
    """Indexes that the program refuses. The server refuses all but the last of them too.

    It alone can ask the multixacts of those rows, which stand outside the heap.
    """
    twice = r"duplicate key: \(0,2\) and \(0,5\)"
    nulls = r"duplicate key: \(0,3\) and \(0,6\)"
    yield Index("doubles_a", "doubles", ("a",), unique=True, refused=twice)
    yield Index(
        "doubles_null", "doubles", ("a DESC",), unique=True, nulls_distinct=False, refused=nulls
    )
    yield Index("too_long_t", "too_long", ("t",), refused=r"heap block 0 item 2: cause 12")
    yield Index("shared_a", "shared", ("a",), refused=r"heap block \d+ item \d+: cause 4")


def by_brin(name: str, table: str, *keys: str, **more) -> Index:
    return Index(f"brin_{name}", table, keys, method="brin", **more)


# The types of keys that BRIN takes.
RANGE_TYPES = tuple(column for column in KEY_TYPES if column != "flag")

RANGES = ("1", "3", "128", "131072")

# As many columns of `many` as an index may have, but for those of bool.
RANGE_COLUMNS = [f"c{k}" for k in range(1, 41) if k % 8 != 4][:MOST_COLUMNS]


def of_ranges() -> Iterator[Index]:
    """BRIN indexes of one column, by its type and by how many blocks a range has."""
    for column in RANGE_TYPES:
        yield by_brin(f"kinds_{column}", "kinds", column, options="pages_per_range = 3")
    for column in ("a", "t", "n", "u"):
        for blocks in RANGES:
            options = f"pages_per_range = {blocks}"
            yield by_brin(f"readings_{column}_{blocks}", "readings", column, options=options)
    for blocks in ("1", "2"):
        options = f"pages_per_range = {blocks}"
        yield by_brin(f"many_blocks_{blocks}", "many_blocks", "a", options=options)


def of_ranges_of_columns() -> Iterator[Index]:
    """BRIN indexes of several columns, with conditions, and over tables of many histories."""
    one = {"options": "pages_per_range = 1"}
    yield by_brin("kinds_all", "kinds", *RANGE_TYPES, options="pages_per_range = 5")
    yield by_brin("vacuumed_all", "vacuumed", *RANGE_TYPES, **one)
    columns = ("a", "two", "eight", "d", "ts", "tm", "u", "t", "n", "o")
    yield by_brin("readings_all", "readings", *columns, options="pages_per_range = 3")
    yield by_brin("readings_where", "readings", "n", "t", where="a > 20000", **one)
    yield by_brin("readings_none", "readings", "n", where="a < -1000000")
    yield by_brin("many_first", "many", *RANGE_COLUMNS)
    yield by_brin("chains", "chains", "a", "t", "n", **one)
    yield by_brin("locks", "locks", "a", "k")
    yield by_brin("grown", "grown", "a", "late", "later", **one)
    yield by_brin("long_texts", "long_texts", "v", "a", options="pages_per_range = 2")
    yield by_brin("toasted", "toasted", "b", "t", **one)
    yield by_brin("empty", "empty", "a", "t")
    yield by_brin("dead", "dead", "a", "t", **one)
    yield by_brin("single", "single", "a", "t")
    yield by_brin("broad", "broad", "t")
    wide = r"range 0 too wide: 8160 bytes"
    yield by_brin("too_broad", "too_broad", "t", refused=wide)
    yield by_brin("shared", "shared", "a", refused=r"heap block \d+ item \d+: cause 4")


def by_gin(name: str, table: str, key: str, **more) -> Index:
    return Index(f"gin_{name}", table, (key,), method="gin", **more)


def of_arrays() -> Iterator[Index]:
    """GIN indexes, also with conditions, by each type of an element."""
    for column in ("fours", "eights", "texts"):
        for update in ("on", "off"):
            options = f"fastupdate = {update}"
            yield by_gin(f"sets_{column}_{update}", "sets", column, options=options)
        yield by_gin(f"kinds_{column}", "kinds", column)
        yield by_gin(f"vacuumed_{column}", "vacuumed", column)
    yield by_gin("sets_where", "sets", "fours", where="a > 3000 AND eights IS NOT NULL")
    yield by_gin("sets_null", "sets", "texts", where="fours IS NULL")
    yield by_gin("sets_none", "sets", "texts", where="a = 77777777")
    for column in ("fours", "texts"):
        yield by_gin(f"tags_{column}", "tags", column)
        yield by_gin(f"long_{column}", "long_arrays", column, options="fastupdate = off")
        yield by_gin(f"empty_{column}", "no_arrays", column)
    yield by_gin("long_element", "long_element", "texts", compressed=True)
    long = r"heap block 0 item 2: cause 13"
    yield by_gin("too_long_element", "too_long_element", "texts", refused=long)


def all_indexes() -> list[Index]:
    groups = (
        of_each_type, of_several_columns, of_many_levels, with_include, with_where, unique_ones,
        by_history, of_few_rows, refused_ones, of_ranges, of_ranges_of_columns, of_arrays,
    )  # fmt: skip
    return [index for group in groups for index in group()]
