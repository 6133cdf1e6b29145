#!/usr/bin/env python3
"""Heap files of int4 rows, made for measuring and for trying the program.

    bench/heaps.py KIND FILE [--pages N] [--keys K,K,..]

writes a heap of N pages of a kind to FILE:

    dead      226 deleted rows on each page
    live      226 rows on each page, with ascending keys from 0 on over the whole heap, or with the given keys
    chains    38 HOT chains on each page: a redirect and the five dead heap-only tuples that it leads to
    hostile   1,300 redirects on each page to the head of one chain of 100 dead heap-only tuples
    sample    the page of docs/formats/heap.md, "A worked heap": rows 30, 10, 20

The layouts are those of docs/formats. The block of a ctid is 0 on each page but those of `live`.
"""

import argparse
import itertools
import struct
import sys
from dataclasses import dataclass

PAGE = 8192
HEADER = 24
TUPLE_HEADER = 24

# Bits of a tuple's infomask and infomask2.
HAS_NULL = 0x0001
XMIN_COMMITTED = 0x0100
XMAX_COMMITTED = 0x0400
XMAX_INVALID = 0x0800
UPDATED = 0x2000
HOT_UPDATED = 0x4000
HEAP_ONLY = 0x8000

DELETED = XMIN_COMMITTED | XMAX_COMMITTED
INSERTED = XMIN_COMMITTED | XMAX_INVALID

# The rows of a full page: 4 bytes of line pointer and 32 of tuple each.
ROWS_ON_PAGE = 226

# Pages are written so many at a time.
PAGES_AT_ONCE = 128


@dataclass(frozen=True)
class Redirect:
    """A line pointer that leads to another one, by its number."""

    target: int


@dataclass(frozen=True)
class Dead:
    """A dead line pointer, without a tuple."""


@dataclass(frozen=True)
class Tuple:
    """A heap tuple of one int4, without its attribute where key is None, or of other attributes."""

    item: int
    """The offset number of its ctid."""
    xmin: int = 700
    xmax: int = 0
    infomask2: int = 1
    infomask: int = INSERTED
    key: int | None = 0
    block: int = 0
    """The block of its ctid."""
    data: bytes | None = None
    """Its attributes, where they aren't the one int4."""
    bitmap: bytes = b""
    """Its null bitmap, whose bit of the infomask is set with it."""
    hoff: int | None = None
    """Where its attributes begin, if not behind the bitmap."""


def tuple_bytes(row):
    """The tuple as it stands on a page, without padding."""
    hoff = row.hoff or (TUPLE_HEADER - 1 + max(len(row.bitmap), 1) + 7) // 8 * 8
    infomask = row.infomask | (HAS_NULL if row.bitmap else 0)
    header = struct.pack(
        "<IIIHHHHHB",
        row.xmin, row.xmax, 0,
        row.block >> 16, row.block & 0xFFFF, row.item,
        row.infomask2, infomask, hoff,
    )  # fmt: skip
    header += row.bitmap + bytes(hoff - len(header) - len(row.bitmap))
    if row.data is not None:
        return header + row.data
    return header if row.key is None else header + struct.pack("<i", row.key)


def page(lines):
    """The page of these line pointers, each a Redirect, a Tuple, a Dead or None for an unused one.

    Tuples stand downwards from the page's end in the order of their line pointers.
    """
    words = []
    upper = PAGE
    body = bytearray(PAGE)
    for line in lines:
        if line is None:
            words.append(0)
        elif isinstance(line, Redirect):
            words.append(line.target | 2 << 15)
        elif isinstance(line, Dead):
            words.append(3 << 15)
        else:
            data = tuple_bytes(line)
            upper -= (len(data) + 7) // 8 * 8
            body[upper : upper + len(data)] = data
            words.append(upper | 1 << 15 | len(data) << 17)
    lower = HEADER + 4 * len(words)
    assert lower <= upper, "more than a page holds"
    struct.pack_into("<HHHH", body, 12, lower, upper, PAGE, 0x2004)
    struct.pack_into(f"<{len(words)}I", body, HEADER, *words)
    return bytes(body)


def short_datum(content):
    """A value of variable width under a header of one byte."""
    return bytes([2 * (len(content) + 1) + 1]) + content


def long_datum(content):
    """The same under a header of four bytes, as at the begin of a tuple's data."""
    return struct.pack("<I", 4 * (len(content) + 4)) + content


def array_content(oid, elements, datum):
    """The content of an array of elements of a type with this oid, None for a null, behind an array's header.

    `datum` makes an element's bytes, which here begin at multiples of 4.
    """
    if not elements:
        return struct.pack("<iiI", 0, 0, oid)
    there = [element is not None for element in elements]
    bitmap = b""
    if not all(there):
        bits = sum(1 << at for at, is_there in enumerate(there) if is_there)
        bitmap = bits.to_bytes((len(elements) + 7) // 8, "little")
    place = (24 + len(bitmap) + 7) // 8 * 8
    content = struct.pack("<iiIii", 1, place if bitmap else 0, oid, len(elements), 1)
    content += bitmap + bytes(place - 24 - len(bitmap))
    for element in elements:
        if element is not None:
            one = datum(element)
            content += one + bytes(-len(one) % 4)
    return content


def int4_array(*elements):
    """An int4[] of a few elements as it stands in a tuple."""
    return short_datum(array_content(23, elements, lambda number: struct.pack("<i", number)))


def text_array(*elements):
    """A text[] as it stands at the begin of a tuple's data, however long."""
    return long_datum(array_content(25, elements, long_datum))


def null_row(item):
    """A live row whose one column is null."""
    return Tuple(item=item, data=b"", bitmap=b"\0")


def data_page(rows):
    """A page of live rows with these data, None for a row whose one column is null."""
    lines = enumerate(rows, 1)
    return page([null_row(item) if data is None else Tuple(item=item, data=data) for item, data in lines])


# Rows {1} of a page: 4 bytes of line pointer and 56 of tuple each.
ARRAYS_ON_PAGE = 136


def array_pages(count):
    """Pages of so many rows {1}, as many on each as fit."""
    for first in range(0, count, ARRAYS_ON_PAGE):
        yield data_page([int4_array(1)] * min(ARRAYS_ON_PAGE, count - first))


def heap_only_chain(first, length, key):
    """A chain of dead heap-only tuples under the line pointers from a number on: each one's updater inserted the next."""
    for step in range(length):
        item = first + step
        last = step == length - 1
        yield Tuple(
            item=item if last else item + 1,
            xmin=700 + step,
            xmax=701 + step,
            infomask2=1 | HEAP_ONLY | (0 if last else HOT_UPDATED),
            infomask=DELETED | UPDATED,
            key=key,
        )


def dead_page():
    """226 rows that transaction 700 inserted and 701 deleted."""
    return page([Tuple(item=item, xmax=701, infomask=DELETED) for item in range(1, ROWS_ON_PAGE + 1)])


def chains_page():
    """38 chains, each a redirect and behind it five dead heap-only tuples: 228 line pointers."""
    lines = []
    for _ in range(38):
        head = len(lines) + 2
        lines.append(Redirect(head))
        lines.extend(heap_only_chain(head, 5, 0))
    return page(lines)


def hostile_page():
    """1,300 redirects to the head of one chain of 100 dead heap-only tuples without an attribute's bytes."""
    return page([Redirect(1301)] * 1300 + list(heap_only_chain(1301, 100, None)))


def sample_page():
    """Three rows, with the keys 30, 10 and 20."""
    return page([Tuple(item=item, key=key) for item, key in enumerate((30, 10, 20), 1)])


def live_pages(keys):
    """Full pages of rows with these keys, the last one as far as they go."""
    keys = iter(keys)
    block = 0
    while True:
        here = list(itertools.islice(keys, ROWS_ON_PAGE))
        if here:
            yield page([Tuple(item=item, key=key, block=block) for item, key in enumerate(here, 1)])
        if len(here) < ROWS_ON_PAGE:
            return
        block += 1


PAGES_OF_ONE_KIND = {"dead": dead_page, "chains": chains_page, "hostile": hostile_page, "sample": sample_page}


def write_copies(path, one, pages):
    """Writes a heap that has one page so many times."""
    with open(path, "wb") as heap:
        some = one * min(pages, PAGES_AT_ONCE)
        for _ in range(pages // PAGES_AT_ONCE):
            heap.write(some)
        heap.write(one * (pages % PAGES_AT_ONCE))


def write_heap(path, kind, pages, keys=None):
    """Writes a heap of so many pages of a kind. Keys are for `live` alone, and decide the number of its pages."""
    if kind != "live":
        write_copies(path, PAGES_OF_ONE_KIND[kind](), pages)
        return
    with open(path, "wb") as heap:
        for one in live_pages(range(pages * ROWS_ON_PAGE) if keys is None else keys):
            heap.write(one)


def main():
    parser = argparse.ArgumentParser(description="Writes a heap file.")
    parser.add_argument("kind", choices=[*PAGES_OF_ONE_KIND, "live"])
    parser.add_argument("file")
    parser.add_argument("--pages", type=int, default=1)
    parser.add_argument("--keys", help="keys of live rows, as 30,10,20")
    words = parser.parse_args()
    keys = None if words.keys is None else [int(key) for key in words.keys.split(",")]
    if keys is not None and words.kind != "live":
        parser.error("--keys is for live alone")
    write_heap(words.file, words.kind, words.pages, keys)


if __name__ == "__main__":
    sys.exit(main())
