"""What a case of `.ci/statuses` is: how the program is run, and how it ends."""

import struct
from dataclasses import dataclass, field

import heaps
import model
import program

SAMPLE = heaps.sample_page()


def build(heap="heap", index="index", table=program.TABLE, statement=program.INDEX, options=()):
    return ["build", heap, index, table, statement, *options]


@dataclass(frozen=True)
class Case:
    """How the program is run, and how it ends."""

    name: str
    words: list
    status: int
    error: str = ""
    heap: bytes | int | None = SAMPLE
    """The file `heap`: its bytes, a number of zero bytes, or None where it is absent."""
    output: str = ""
    """What it writes on standard output, or with `--help` begins with."""
    links: dict = field(default_factory=dict)
    """Symbolic links that lie beside the heap, by what they lead to. It leaves them as they are."""
    left: dict = field(default_factory=dict)
    """The files that it leaves beside the heap, which it leaves as it is: their bytes, or the model's answer for an
    index of which they aren't told."""
    output_to: str | None = None
    """A file for standard output, of which then nothing is asked."""
    memory: int | None = None
    """The most bytes of memory that it may map."""


def built(name, heap, report, left=None, table=program.TABLE, statement=program.INDEX, options=()):
    """A case that builds an index, by default the model's, and reports `built` with this."""
    if left is None:
        left = model.answer(heap, table, statement)
    return Case(name, build(table=table, statement=statement, options=options), 0, heap=heap,
                output=f"built {report}\n", left={"index": left})


def refused(name, heap, status, error, table=program.TABLE, statement=program.INDEX, options=()):
    """A case that says why it builds no index."""
    return Case(name, build(table=table, statement=statement, options=options), status, f"{error}\n", heap)


def with_change(content, place, piece):
    """A file's bytes with a piece put at a place."""
    return content[:place] + piece + content[place + len(piece) :]


@dataclass(frozen=True)
class Pieces:
    """A file told by what isn't zero in it: its length in blocks, and bytes by their place, as hex."""

    blocks: int
    pieces: dict

    def difference(self, left):
        """How the bytes of a file differ from these, or None."""
        wanted = bytearray(self.blocks * heaps.PAGE)
        for place, text in self.pieces.items():
            piece = bytes.fromhex(text)
            wanted[place : place + len(piece)] = piece
        if len(left) != len(wanted):
            return f"{len(left)} bytes in place of {len(wanted)}"
        if left == wanted:
            return None
        return f"another byte at {next(at for at in range(len(left)) if left[at] != wanted[at])}"


@dataclass(frozen=True)
class Has:
    """A file of which some pieces are told: its length in blocks, and bytes by their place, as hex."""

    blocks: int
    pieces: dict

    def difference(self, left):
        """Which of these pieces a file hasn't, or None."""
        if len(left) != self.blocks * heaps.PAGE:
            return f"{len(left)} bytes in place of {self.blocks * heaps.PAGE}"
        for place, text in self.pieces.items():
            if not left.startswith(bytes.fromhex(text), place):
                return f"other bytes at {place}"
        return None


def int4_heap(*columns):
    """A heap of live rows of one or two int4 columns, which are told by their values, as many on a page as fit."""
    form = f"<{len(columns)}i"
    rows = [
        heaps.Tuple(item=0, infomask2=len(columns), data=struct.pack(form, *values))
        for values in zip(*columns, strict=True)
    ]
    size = heaps.ROWS_ON_PAGE
    return b"".join(heaps.page(rows[first : first + size]) for first in range(0, len(rows), size))


# The meta page of a B-tree, but for its root, and what names block 1 as the root on level 0.
BTREE_META = {12: "4800 F01F F01F 0420", 24: "62310500 04000000", 62: "F0BF", 64: "01", 8188: "08"}
LEAF_IS_ROOT = {32: "01000000 00000000 01000000"}


def int4_leaf(*entries):
    """The B-tree of entries that one leaf holds: int4 keys and the numbers of their line pointers on block 0."""
    leaf = heaps.PAGE
    begin = 8176 - 16 * len(entries)
    pieces = {leaf + 12: struct.pack("<HHHH", 24 + 4 * len(entries), begin, 8176, 0x2004), leaf + 8188: b"\3"}
    for number, (key, item) in enumerate(entries):
        place = 8160 - 16 * number
        pieces[leaf + 24 + 4 * number] = struct.pack("<I", place | 1 << 15 | 16 << 17)
        pieces[leaf + place] = struct.pack("<IHHi", 0, item, 16, key)
    return Pieces(2, BTREE_META | LEAF_IS_ROOT | {place: piece.hex() for place, piece in pieces.items()})


def text_blocks(*texts):
    """A heap of a live row on each block, whose one column is one of these texts, however long."""
    return b"".join(heaps.page([heaps.Tuple(item=0, data=heaps.long_datum(text))]) for text in texts)


def hex_row(columns, data, bitmap=b""):
    """A live row of so many columns, whose data are told as hex."""
    return heaps.Tuple(item=0, infomask2=columns, data=bytes.fromhex(data), bitmap=bitmap)


# Three versions of a row that make a HOT chain behind the line pointers 1, 2 and 3. The first two are dead.
FIRST_VERSION = heaps.Tuple(
    item=2, xmin=100, xmax=101, infomask2=1 | heaps.HOT_UPDATED, infomask=heaps.DELETED, key=1
)
SECOND_VERSION = heaps.Tuple(
    item=3, xmin=101, xmax=102, infomask2=1 | heaps.HEAP_ONLY | heaps.HOT_UPDATED,
    infomask=heaps.DELETED | heaps.UPDATED, key=2,
)
THIRD_VERSION = heaps.Tuple(
    item=3, xmin=102, infomask2=1 | heaps.HEAP_ONLY, infomask=heaps.INSERTED | heaps.UPDATED, key=3
)


def settled_rows(*keys):
    """Five rows with these keys and an xmax: three that are locked, a frozen one, and an aborted insertion."""
    masks = (0x01C0, 0x0140, 0x1180, 0x0B00, 0x0A00)
    return [heaps.Tuple(item=0, xmax=900, infomask=mask, key=key) for mask, key in zip(masks, keys, strict=True)]
