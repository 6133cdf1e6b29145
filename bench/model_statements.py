"""What the two statements of a build say, read from docs/formats/statements.md and values.md."""

from __future__ import annotations

import re
from dataclasses import dataclass, field

MOST_BYTES = 65536
MOST_TABLE_COLUMNS = 1600
MOST_INDEX_COLUMNS = 32
MOST_PARENTHESES = 16
MOST_PAGES_PER_RANGE = 131072


@dataclass(frozen=True)
class Type:
    """A row of the table of types."""

    name: str
    oid: int
    width: int | None
    """Its bytes, or None where values have a header."""
    alignment: int
    form: str
    """truth, signed, unsigned, bytes or array."""
    methods: tuple = ()
    """The index methods whose keys it may be."""
    compared: str = ""
    """What WHERE compares it with: truth, number, string or nothing."""
    collated: bool = False
    element: str = ""
    """The type of an array's elements."""


BOTH = ("btree", "brin")
TYPES = {
    one.name: one
    for one in (
        Type("bool", 16, 1, 1, "truth", ("btree",), "truth"),
        Type("int2", 21, 2, 2, "signed", BOTH, "number"),
        Type("int4", 23, 4, 4, "signed", BOTH, "number"),
        Type("int8", 20, 8, 8, "signed", BOTH, "number"),
        Type("oid", 26, 4, 4, "unsigned", BOTH, "number"),
        Type("date", 1082, 4, 4, "signed", BOTH),
        Type("timestamp", 1114, 8, 8, "signed", BOTH),
        Type("timestamptz", 1184, 8, 8, "signed", BOTH),
        Type("time", 1083, 8, 8, "signed", BOTH),
        Type("uuid", 2950, 16, 1, "bytes", BOTH),
        Type("text", 25, None, 4, "bytes", BOTH, "string", True),
        Type("varchar", 1043, None, 4, "bytes", BOTH, "string", True),
        Type("bytea", 17, None, 4, "bytes", BOTH),
        Type("float4", 700, 4, 4, "bytes"),
        Type("float8", 701, 8, 8, "bytes"),
        Type("numeric", 1700, None, 4, "bytes"),
        Type("bpchar", 1042, None, 4, "bytes", collated=True),
        Type("name", 19, 64, 1, "bytes", collated=True),
        Type("interval", 1186, 16, 8, "bytes"),
        Type("json", 114, None, 4, "bytes"),
        Type("jsonb", 3802, None, 4, "bytes"),
        Type("int4[]", 1007, None, 4, "array", ("gin",), element="int4"),
        Type("int8[]", 1016, None, 8, "array", ("gin",), element="int8"),
        Type("text[]", 1009, None, 4, "array", ("gin",), collated=True, element="text"),
    )
}

# The types of one word, and of the words that may be an array's too.
WORDS = {name: name for name in "bool int2 int4 int8 oid date timestamptz uuid text bytea".split()}
WORDS |= {name: name for name in "float4 float8 bpchar name interval json jsonb".split()}
WORDS |= {"boolean": "bool", "smallint": "int2", "int": "int4", "integer": "int4"}
WORDS |= {"bigint": "int8", "real": "float4"}
ARRAYS = ("int4", "int8", "text")

# The types of characters, with a length behind them where it is said.
LENGTHS = {"varchar": "varchar", "char": "bpchar", "character": "bpchar"}

KEYWORDS = set(
    "create table unique index on using include nulls not null distinct with where and is asc desc"
    " collate true false".split()
)

TOKEN = re.compile(
    rb"(?P<word>[A-Za-z_][A-Za-z0-9_]*)"
    rb'|"(?P<quoted>[^"\0]{1,63})"'
    rb"|(?P<number>[0-9]+)"
    rb"|'(?P<string>(?:[^']|'')*)'"
    rb"|(?P<sign><=|>=|<>|!=|::|[(),;.\-\[\]=<>])",
    re.DOTALL,
)


class Refused(Exception):
    """The fault of a statement: its place and its cause."""


@dataclass(frozen=True)
class Token:
    kind: str
    """word, quoted, number, string, sign, bad or end."""
    value: object
    place: int

    def is_word(self, *words: str) -> bool:
        return self.kind == "word" and self.value in words

    def is_sign(self, *signs: str) -> bool:
        return self.kind == "sign" and self.value in signs

    def is_name(self) -> bool:
        return self.kind == "quoted" or (self.kind == "word" and self.value not in KEYWORDS)


def next_token(text: bytes, place: int) -> tuple[Token, int]:
    """The token at a place or behind the blanks there, and where it ends."""
    while place < len(text) and text[place] in b" \t\n\r":
        place += 1
    if place == len(text):
        return Token("end", None, place), place
    found = TOKEN.match(text, place)
    if found is None:
        return Token("bad", None, place), place
    kind, raw = found.lastgroup, found[found.lastgroup]
    if (kind == "word" and len(raw) > 63) or (kind == "number" and len(raw) > 18):
        return Token("bad", None, place), place
    value = raw
    if kind == "word":
        value = raw.lower().decode()
    elif kind == "number":
        value = int(raw)
    elif kind == "string":
        value = raw.replace(b"''", b"'")
    elif kind == "sign":
        value = raw.decode()
    return Token(kind, value, place), found.end()


class Reader:
    """The tokens of a statement that are left."""

    def __init__(self, text: bytes) -> None:
        if len(text) > MOST_BYTES:
            raise Refused(MOST_BYTES, 1)
        self.text = text
        self.token, self.end = next_token(text, 0)

    def take(self) -> Token:
        token = self.token
        if token.kind == "bad":
            raise Refused(token.place, 1)
        self.token, self.end = next_token(self.text, self.end)
        return token

    def refuse(self, token: Token, cause: int = 2) -> Refused:
        """A token that doesn't fit: where it is bad, by cause 1."""
        return Refused(token.place, 1 if token.kind == "bad" else cause)

    def word(self, *words: str) -> Token:
        if not self.token.is_word(*words):
            raise self.refuse(self.token)
        return self.take()

    def has_word(self, *words: str) -> bool:
        """Takes one of these words where it is there."""
        if self.token.is_word(*words):
            self.take()
            return True
        return False

    def sign(self, *signs: str) -> Token:
        if not self.token.is_sign(*signs):
            raise self.refuse(self.token)
        return self.take()

    def has_sign(self, *signs: str) -> bool:
        if self.token.is_sign(*signs):
            self.take()
            return True
        return False

    def name(self) -> Token:
        if not self.token.is_name():
            raise self.refuse(self.token)
        return self.take()

    def finish(self) -> None:
        self.has_sign(";")
        if self.token.kind != "end":
            raise self.refuse(self.token)


def named(token: Token) -> bytes:
    """A name's bytes."""
    return token.value if token.kind == "quoted" else token.value.encode()


def qualified_name(reader: Reader) -> Token:
    """A name, or the one behind a schema and a point."""
    name = reader.name()
    return reader.name() if reader.has_sign(".") else name


def read_type(reader: Reader) -> Type:
    first = reader.token
    if first.kind not in ("word", "quoted"):
        raise reader.refuse(first)
    reader.take()

    def broken() -> Refused:
        """The type stops before it is whole: at a bad token, or else it is refused at its front."""
        bad = reader.token.kind == "bad"
        return Refused(reader.token.place, 1) if bad else Refused(first.place, 4)

    def need(found: bool) -> None:
        if not found:
            raise broken()

    def number() -> None:
        need(reader.token.kind == "number")
        reader.take()

    def length(most: int = 1) -> None:
        """Numbers in parentheses, where they are there."""
        if reader.has_sign("("):
            number()
            if most == 2 and reader.has_sign(","):
                number()
            need(reader.has_sign(")"))

    def zone(*words: str) -> str:
        """With or without time zone, where one of these words is there."""
        said = reader.token.value if reader.token.is_word(*words) else ""
        if said:
            reader.take()
            need(reader.has_word("time"))
            need(reader.has_word("zone"))
        return said

    word = first.value if first.kind == "word" else None
    if word in WORDS:
        kind = WORDS[word]
        if kind in ARRAYS and reader.has_sign("["):
            need(reader.has_sign("]"))
            kind += "[]"
    elif word == "timestamp":
        length()
        kind = "timestamptz" if zone("with", "without") == "with" else "timestamp"
    elif word == "time":
        length()
        zone("without")
        kind = "time"
    elif word in LENGTHS:
        kind = LENGTHS[word]
        if word == "character" and reader.has_word("varying"):
            kind = "varchar"
        length()
    elif word == "double":
        need(reader.has_word("precision"))
        kind = "float8"
    elif word in ("numeric", "decimal"):
        length(2)
        kind = "numeric"
    else:
        raise Refused(first.place, 4)
    return TYPES[kind]


def collation(reader: Reader, kind: Type) -> None:
    """COLLATE "C", where it is there."""
    if not reader.token.is_word("collate"):
        return
    if not kind.collated:
        raise Refused(reader.token.place, 5)
    reader.take()
    if reader.has_word("pg_catalog"):
        reader.sign(".")
    if reader.token.kind != "quoted" or reader.token.value != b"C":
        raise reader.refuse(reader.token)
    reader.take()


@dataclass(frozen=True)
class Table:
    name: bytes
    columns: tuple
    """Pairs of a name and a type."""

    def number(self, name: bytes) -> int | None:
        """The number of a column from 0 on."""
        return next((at for at, (one, _) in enumerate(self.columns) if one == name), None)

    def kind(self, column: int) -> Type:
        return self.columns[column][1]


def read_table(text: bytes) -> Table:
    reader = Reader(text)
    reader.word("create")
    reader.word("table")
    name = named(qualified_name(reader))
    reader.sign("(")
    columns = []
    while True:
        token = reader.name()
        if named(token) in (one for one, _ in columns):
            raise Refused(token.place, 7)
        if len(columns) == MOST_TABLE_COLUMNS:
            raise Refused(token.place, 5)
        kind = read_type(reader)
        collation(reader, kind)
        if reader.has_word("not"):
            reader.word("null")
        else:
            reader.has_word("null")
        columns.append((named(token), kind))
        if reader.sign(",", ")").value == ")":
            break
    reader.finish()
    return Table(name, tuple(columns))


@dataclass(frozen=True)
class Key:
    column: int
    descending: bool = False
    nulls_first: bool = False


@dataclass(frozen=True)
class Condition:
    column: int
    test: str
    """`is null`, `is not null` or an operator."""
    value: object = None


@dataclass
class Index:
    method: str = "btree"
    unique: bool = False
    nulls_distinct: bool = True
    keys: list = field(default_factory=list)
    includes: list = field(default_factory=list)
    fill_factor: int = 90
    deduplicate: bool = True
    pages_per_range: int = 128
    conditions: list = field(default_factory=list)

    def columns(self) -> list[int]:
        return [key.column for key in self.keys] + self.includes

    def needed(self) -> list[int]:
        return sorted({*self.columns(), *(condition.column for condition in self.conditions)})


class IndexReader(Reader):
    """Reads a CREATE INDEX over a table."""

    def __init__(self, text: bytes, table: Table) -> None:
        super().__init__(text)
        self.table = table
        self.index = Index()

    def read(self) -> Index:
        self.word("create")
        self.index.unique = self.has_word("unique")
        self.word("index")
        self.name()
        self.word("on")
        table = qualified_name(self)
        if named(table) != self.table.name:
            raise Refused(table.place, 3)
        if self.has_word("using"):
            self.method()
        self.listed(self.key)
        if self.token.is_word("include"):
            self.only_for_a_btree()
            self.listed(lambda: self.index.includes.append(self.column("btree")))
        self.nulls_rule()
        if self.has_word("with"):
            seen = set()
            self.listed(lambda: self.option(seen))
        if self.has_word("where"):
            self.conjunction(0)
        self.finish()
        return self.index

    def listed(self, item) -> None:
        """Items between parentheses."""
        self.sign("(")
        item()
        while self.sign(",", ")").value == ",":
            item()

    def method(self) -> None:
        if self.token.kind != "word":
            raise self.refuse(self.token)
        token = self.take()
        if token.value not in ("btree", "brin", "gin"):
            raise Refused(token.place, 5)
        if self.index.unique and token.value != "btree":
            raise Refused(token.place, 5)
        self.index.method = token.value

    def only_for_a_btree(self) -> Token:
        token = self.take()
        if self.index.method != "btree":
            raise Refused(token.place, 5)
        return token

    def column(self, method: str) -> int:
        token = self.name()
        number = self.table.number(named(token))
        if number is None:
            raise Refused(token.place, 3)
        most = 1 if self.index.method == "gin" else MOST_INDEX_COLUMNS
        allowed = method in self.table.kind(number).methods
        if not allowed or len(self.index.columns()) == most:
            raise Refused(token.place, 5)
        return number

    def key(self) -> None:
        column = self.column(self.index.method)
        collation(self, self.table.kind(column))
        descending = False
        if self.token.is_word("asc", "desc"):
            descending = self.only_for_a_btree().value == "desc"
        nulls_first = descending
        if self.token.is_word("nulls"):
            self.only_for_a_btree()
            nulls_first = self.word("first", "last").value == "first"
        self.index.keys.append(Key(column, descending, nulls_first))

    def nulls_rule(self) -> None:
        if not self.token.is_word("nulls"):
            return
        if not self.index.unique:
            raise Refused(self.token.place, 5)
        self.take()
        self.index.nulls_distinct = not self.has_word("not")
        self.word("distinct")

    def option(self, seen: set) -> None:
        if self.token.kind != "word":
            raise self.refuse(self.token)
        option = self.take()
        known = {
            "btree": ("fillfactor", "deduplicate_items"),
            "brin": ("pages_per_range",),
            "gin": ("fastupdate",),
        }
        if option.value in seen:
            raise Refused(option.place, 7)
        if option.value not in known[self.index.method]:
            raise Refused(option.place, 5)
        seen.add(option.value)
        self.sign("=")
        if self.token.kind not in ("number", "word", "string"):
            raise self.refuse(self.token)
        value = self.take()
        self.set(option.value, value, spelt(value))

    def set(self, option: str, token: Token, value: object) -> None:
        ranges = {"fillfactor": (10, 100), "pages_per_range": (1, MOST_PAGES_PER_RANGE)}
        truths = {"on": True, "true": True, "off": False, "false": False}
        if option in ranges:
            least, most = ranges[option]
            if not isinstance(value, int) or not least <= value <= most:
                raise Refused(token.place, 6)
        elif value not in truths:
            raise Refused(token.place, 6)
        if option == "fillfactor":
            self.index.fill_factor = value
        elif option == "pages_per_range":
            self.index.pages_per_range = value
        elif option == "deduplicate_items":
            self.index.deduplicate = truths[value]

    def conjunction(self, depth: int) -> None:
        self.condition(depth)
        while self.has_word("and"):
            self.condition(depth)

    def condition(self, depth: int) -> None:
        if self.token.is_sign("(") and depth < MOST_PARENTHESES:
            self.take()
            self.conjunction(depth + 1)
            self.sign(")")
            return
        token = self.name()
        column = self.table.number(named(token))
        if column is None:
            raise Refused(token.place, 3)
        if self.has_word("is"):
            test = "is not null" if self.has_word("not") else "is null"
            self.word("null")
            self.index.conditions.append(Condition(column, test))
            return
        kind = self.table.kind(column)
        if not self.token.is_sign("=", "<>", "!=", "<", "<=", ">", ">="):
            raise self.refuse(self.token)
        sign = self.take()
        test = "<>" if sign.value == "!=" else sign.value
        if not kind.compared or (kind.compared == "truth" and test not in ("=", "<>")):
            raise Refused(sign.place, 5)
        self.index.conditions.append(Condition(column, test, self.literal(kind)))
        if self.has_sign("::"):
            read_type(self)

    def literal(self, kind: Type) -> object:
        token = self.token
        if token.is_sign("-"):
            if kind.compared != "number":
                raise Refused(token.place, 5)
            self.take()
            if self.token.kind != "number":
                raise self.refuse(self.token)
            return -self.take().value
        if token.kind not in ("number", "string") and not token.is_word("true", "false"):
            raise self.refuse(token)
        self.take()
        wanted = {"number": "number", "string": "string", "word": "truth"}[token.kind]
        if wanted != kind.compared:
            raise Refused(token.place, 5)
        return int(token.value == "true") if wanted == "truth" else token.value


def spelt(token: Token) -> object:
    """The number or the word that a token of an option's value spells."""
    if token.kind != "string":
        return token.value
    if re.fullmatch(rb"[0-9]{1,18}", token.value):
        return int(token.value)
    return token.value.decode("latin-1").lower() if token.value.isascii() else None


def read_index(text: bytes, table: Table) -> Index:
    return IndexReader(text, table).read()
