"""Tables, their rows and indexes over them, drawn at random."""

from __future__ import annotations

import random
import struct
from dataclasses import dataclass

import heaps
from model_statements import TYPES, Type

NAMES = ["a", "b", "c", "d", "e", '"F g"']

# How a statement spells some types.
SPELT = {
    "int8": ["int8", "bigint"],
    "bool": ["bool", "BOOLEAN"],
    "timestamptz": ["timestamptz", "timestamp (3) with time zone"],
    "time": ["time", "time without time zone"],
    "varchar": ["varchar(20)", "character varying"],
    "bpchar": ["bpchar", "char (7)"],
    "numeric": ["numeric(9, 2)", "decimal"],
    "float8": ["float8", "double  precision"],
}


@dataclass(frozen=True)
class Drawn:
    """A heap and the statements of an index over its table."""

    heap: bytes
    table: str
    index: str


def number_of(chance: random.Random, kind: Type) -> bytes:
    """A number of a type, often a small one, so that values repeat."""
    most = 1 << 8 * kind.width
    drawn = chance.choice((chance.randrange(4), chance.randrange(40), chance.randrange(most)))
    edge = chance.choice((0, most - 1, most // 2, most // 2 - 1))
    value = edge if chance.random() < 0.05 else drawn
    return (value % most).to_bytes(kind.width, "little")


def text_of(chance: random.Random, long: float) -> bytes:
    """A few letters, or with some chance so many bytes that a page has few of them."""
    if chance.random() < long:
        length = chance.choice((125, 126, 127, 128, 300, 600))
        return bytes(chance.choices(b"abcd", k=12)) + (length - 12) * b"x"
    if chance.random() < 0.0002:
        return chance.choice((2691, 2692, 2693)) * b"y"
    return bytes(chance.choices(b"ab\0\xff", k=chance.choice((0, 1, 1, 2, 3, 8, 20))))


def array_of(chance: random.Random, kind: Type, long: float) -> bytes:
    """An array's content, without its header."""
    if chance.random() < 0.3:
        return struct.pack("<iiI", 0, 0, TYPES[kind.element].oid)
    element = TYPES[kind.element]
    count = chance.randint(1, 5)
    nulls = [chance.random() < 0.2 for _ in range(count)]
    data = struct.pack("<iii", count, 1, 0)[:8]
    offset = 0
    bitmap = b""
    if any(nulls):
        bits = sum(1 << at for at, null in enumerate(nulls) if not null)
        bitmap = bits.to_bytes((count + 7) // 8, "little")
        offset = (24 + len(bitmap) + 7) // 8 * 8
    body = struct.pack("<iiI", 1, offset, element.oid) + data + bitmap
    body += bytes((offset or 24) - 4 - len(body))
    for null in nulls:
        if not null:
            body = with_value(chance, body, element, long, start=4)
    return body


def with_value(
    chance: random.Random, data: bytes, kind: Type, long: float, start: int = 0
) -> bytes:
    """The data with a value more. Places are counted from `start` bytes before them."""
    padding = bytes(-(len(data) + start) % kind.alignment)
    if kind.form == "truth":
        return data + bytes([chance.randrange(2) if chance.random() < 0.995 else 2])
    if kind.width is not None:
        if kind.form == "bytes":
            return data + padding + bytes(chance.choice(b"ab") for _ in range(kind.width))
        return data + padding + number_of(chance, kind)
    array = kind.form == "array"
    content = array_of(chance, kind, long / 9) if array else text_of(chance, long)
    rare = chance.random()
    if rare < 0.002 and start == 0:
        return data + b"\x01\x12" + bytes(16)
    if rare < 0.004 and start == 0:
        return data + padding + struct.pack("<I", 4 * (len(content) + 4) + 2) + content
    if len(content) < 127 and start == 0 and chance.random() < 0.8:
        return data + bytes([2 * (len(content) + 1) + 1]) + content
    return data + padding + struct.pack("<I", 4 * (len(content) + 4)) + content


def row_of(chance: random.Random, kinds: list[Type], long: float, item: int) -> heaps.Tuple:
    """A live row, or in one of thirty draws a dead one. One in twenty lacks its last columns."""
    count = len(kinds) if chance.random() < 0.95 else chance.randrange(len(kinds) + 1)
    there = [chance.random() < 0.9 for _ in range(count)]
    data = b""
    for kind, is_there in zip(kinds, there):
        if is_there:
            data = with_value(chance, data, kind, long)
    bits = sum(1 << at for at, is_there in enumerate(there) if is_there)
    bitmap = b"" if all(there) else bits.to_bytes((count + 7) // 8, "little")
    mask = heaps.DELETED if chance.random() < 0.03 else heaps.INSERTED
    return heaps.Tuple(item=item, infomask=mask, infomask2=count, data=data, bitmap=bitmap)


def heap_of(chance: random.Random, kinds: list[Type], long: float, rows: int) -> bytes:
    """Pages of so many rows, each as full as they make it."""
    pages, lines, room = [], [], 0
    for _ in range(rows):
        row = row_of(chance, kinds, long, len(lines) + 1)
        size = 4 + (len(heaps.tuple_bytes(row)) + 7) // 8 * 8
        if size > room:
            if lines:
                pages.append(heaps.page(lines))
            lines, room = [], heaps.PAGE - heaps.HEADER
        lines.append(row)
        room -= size
    return b"".join([*pages, heaps.page(lines)] if lines else pages)


def table_of(chance: random.Random, kinds: list[Type]) -> str:
    columns = []
    for name, kind in zip(NAMES, kinds):
        spelt = chance.choice(SPELT.get(kind.name, [kind.name]))
        collated = ' COLLATE pg_catalog."C"' if kind.collated and chance.random() < 0.3 else ""
        columns.append(f"{name} {spelt}{collated}{chance.choice(('', '', ' NOT NULL', ' null'))}")
    return f"CREATE TABLE {chance.choice(('', 'public.'))}t ({', '.join(columns)})"


def literal_of(chance: random.Random, kind: Type) -> str:
    if kind.compared == "truth":
        return chance.choice(("TRUE", "false"))
    if kind.compared == "string":
        return chance.choice(("''", "'a'", "'b'::text", "'ab'", "'zz'"))
    return chance.choice(("0", "1", "2", "20", "-1", "- 3", "100000::int8"))


def condition_of(chance: random.Random, name: str, kind: Type) -> str:
    if not kind.compared or chance.random() < 0.3:
        return f"{name} IS {chance.choice(('NOT ', 'not ', ''))}NULL"
    signs = ("=", "<>", "!=")
    if kind.compared != "truth":
        signs = (*signs, "<", "<=", ">", ">=")
    text = f"{name} {chance.choice(signs)} {literal_of(chance, kind)}"
    return f"({text})" if chance.random() < 0.3 else text


ORDERS = ("", "", "", " ASC", " DESC", " NULLS FIRST", " DESC NULLS LAST", " desc nulls first")
FILL_FACTORS = ("10", "10", "50", "'70'", "100", "33")
TRUTHS = ("off", "on", "FALSE", "'True'")


RANGES = ("1", "1", "2", "3", "'7'", "128", "131072")

# Each option by its method, how often it is there, and its values.
OPTIONS = {
    "btree": [("fillfactor", 0.5, FILL_FACTORS), ("deduplicate_items", 0.3, TRUTHS)],
    "brin": [("pages_per_range", 0.8, RANGES)],
    "gin": [("fastupdate", 0.3, TRUTHS)],
}


def options_of(chance: random.Random, method: str) -> str:
    """WITH and its options, where some are drawn."""
    options = [
        f"{name} = {chance.choice(values)}"
        for name, often, values in OPTIONS[method]
        if chance.random() < often
    ]
    return f" WITH ({', '.join(chance.sample(options, len(options)))})" if options else ""


def btree_of(chance: random.Random, allowed: list[str]) -> str:
    """An index by B-tree over some of these columns, up to its options."""
    taken = chance.choices(allowed, k=chance.randint(1, 3))
    keys = [name + chance.choice(ORDERS) for name in taken]
    unique = chance.random() < 0.2
    method = chance.choice(("", "USING btree "))
    text = f"CREATE {'UNIQUE ' if unique else ''}INDEX i ON t {method}({', '.join(keys)})"
    if chance.random() < 0.25:
        text += f" INCLUDE ({', '.join(chance.choices(allowed, k=chance.randint(1, 2)))})"
    if unique and chance.random() < 0.5:
        text += chance.choice((" NULLS DISTINCT", " NULLS NOT DISTINCT"))
    return text


def index_of(chance: random.Random, kinds: list[Type], method: str) -> str:
    named = list(zip(NAMES, kinds))
    allowed = [name for name, kind in named if method in kind.methods]
    if method == "btree":
        text = btree_of(chance, allowed)
    else:
        keys = chance.choices(allowed, k=1 if method == "gin" else chance.randint(1, 3))
        text = f"CREATE INDEX i ON t USING {method} ({', '.join(keys)})"
    text += options_of(chance, method)
    if chance.random() < 0.3:
        chosen = chance.choices(named, k=chance.choice((1, 1, 2)))
        text += " WHERE " + " AND ".join(condition_of(chance, name, kind) for name, kind in chosen)
    return text + chance.choice(("", "", ";", " ; "))


def tall() -> Drawn:
    """An index of four levels: 2,000 texts of 302 bytes, and little on each page."""
    pages = []
    for first in range(0, 2000, 20):
        texts = [b"%04d" % (k * 7 % 2000) + 298 * b"x" for k in range(first, first + 20)]
        data = [struct.pack("<I", 4 * (len(text) + 4)) + text for text in texts]
        pages.append(heaps.page([heaps.Tuple(item=k, data=one) for k, one in enumerate(data, 1)]))
    index = "CREATE INDEX i ON t (a DESC) WITH (fillfactor = 10)"
    return Drawn(b"".join(pages), "CREATE TABLE t (a text)", index)


GIN = "CREATE INDEX i ON t USING gin (c)"


def tall_arrays() -> Drawn:
    """An entry tree of three levels: 400 texts of 1,204 bytes."""
    texts = [b"%04d" % (k * 7 % 400) + 1200 * b"x" for k in range(400)]
    rows = [heaps.text_array(text) for text in texts]
    pages = [heaps.data_page(rows[first : first + 6]) for first in range(0, 400, 6)]
    return Drawn(b"".join(pages), "CREATE TABLE t (c text[])", GIN)


def long_list() -> Drawn:
    """A posting tree of two levels: 20,000 rows of one entry."""
    return Drawn(b"".join(heaps.array_pages(20000)), "CREATE TABLE t (c int4[])", GIN)


def wide_texts(chance: random.Random) -> Drawn:
    """Texts about as long as a range of a BRIN index takes two of them."""
    lengths = (20, 4050, 4063, 4065, 4067, 4069, 4071)
    rows = [chance.choice(lengths) * chance.choice((b"a", b"b", b"c")) for _ in range(8)]
    pages = [heaps.data_page([heaps.long_datum(text)]) for text in rows]
    size = chance.choice((1, 2, 3))
    index = f"CREATE INDEX i ON t USING brin (a) WITH (pages_per_range = {size})"
    return Drawn(b"".join(pages), "CREATE TABLE t (a text)", index)


def wide_elements(chance: random.Random) -> Drawn:
    """Elements about as long as a GIN index takes them."""
    rows = [
        heaps.text_array(b"a", chance.choice((2691, 2692, 2693, 2699, 2700, 2700, 2701)) * letter)
        for letter in chance.sample((b"a", b"b", b"c", b"d", b"e"), chance.randint(1, 3))
    ]
    heap = b"".join(heaps.data_page([row]) for row in rows)
    return Drawn(heap, "CREATE TABLE t (c text[])", GIN)


# What a statement is broken with.
BITS = ("(", ")", "[", "]", ",", ";", "$", "'", '"', "::", "-", "=", "", " ")
BITS += ("NULL", "unique", "include", "asc", "0", "10", "t", "a", "x", "C")


def broken(chance: random.Random, statement: str) -> str:
    """A statement with some bytes left out, others in their place, or cut short."""
    at = chance.randrange(len(statement) + 1)
    if chance.random() < 0.2:
        return statement[:at]
    end = min(len(statement), at + chance.choice((0, 1, 1, 2, 5)))
    return statement[:at] + chance.choice((" ", "", "")) + chance.choice(BITS) + statement[end:]


# Types of a key, of which one is put where no column has one of its method.
KEYS = {
    "btree": ("int4", "text", "int8"),
    "brin": ("int4", "text", "uuid"),
    "gin": ("int4[]", "int8[]", "text[]"),
}


def drawn(chance: random.Random) -> Drawn:
    """A table of some columns, one of them a key at least, its rows, and an index over it."""
    rare = chance.random()
    if rare < 0.03:
        return wide_texts(chance) if rare < 0.015 else wide_elements(chance)
    kinds = [chance.choice(list(TYPES.values())) for _ in range(chance.randint(1, len(NAMES)))]
    method = chance.choice(("btree", "btree", "brin", "gin"))
    if not any(method in kind.methods for kind in kinds):
        kinds[chance.randrange(len(kinds))] = TYPES[chance.choice(KEYS[method])]
    rows = chance.choice((0, 3, 40, 300, chance.randrange(1200), chance.randrange(4000), 4000))
    long = chance.choice((0.02, 0.02, 0.02, 0.6))
    table, index = table_of(chance, kinds), index_of(chance, kinds, method)
    rare = chance.random()
    if rare < 0.1:
        table = broken(chance, table)
    elif rare < 0.3:
        index = broken(chance, index)
    return Drawn(heap_of(chance, kinds, long, rows), table, index)
