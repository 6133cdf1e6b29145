"""Holds two files of B-trees or BRIN indexes against each other, but for what differs by design.

The program writes no LSN and no checksum, zeros between pd_lower and pd_upper, and 0 as the block
of a leaf's high key, where a server leaves whatever stood there. A page of BRIN without tuples has
no such hole: pd_upper is 8184, and the revmap's pointers stand there.
"""

from __future__ import annotations

from collections.abc import Iterator

PAGE = 8192
HEADER = 24
SPECIAL = PAGE - 16

LEAF = 1
META = 8


def number(page: bytes | bytearray, at: int, size: int) -> int:
    return int.from_bytes(page[at : at + size], "little")


def comparable(page: bytes) -> bytes:
    """The page with zeros for what differs by design."""
    kept = bytearray(page)
    kept[0:10] = bytes(10)
    lower, upper = number(page, 12, 2), number(page, 14, 2)
    if HEADER <= lower <= upper <= SPECIAL:
        kept[lower:upper] = bytes(upper - lower)
    high_key = place_of_high_key(page, lower)
    if high_key is not None:
        kept[high_key : high_key + 4] = bytes(4)
    return bytes(kept)


def place_of_high_key(page: bytes, lower: int) -> int | None:
    """Where a leaf's high key begins. A leaf has one where it has a right neighbour."""
    flags, right = number(page, SPECIAL + 12, 2), number(page, SPECIAL + 4, 4)
    if not flags & LEAF or flags & META or right == 0 or lower < HEADER + 4:
        return None
    place = number(page, HEADER, 2) & 0x7FFF
    return place if HEADER <= place <= SPECIAL - 8 else None


def pages(path: str) -> Iterator[bytes]:
    """The file page by page.

    A script that held it whole would make the memory of the programs that it runs seem greater.
    """
    with open(path, "rb") as file:
        while page := file.read(PAGE):
            yield page


def blocks(path: str) -> int:
    return sum(1 for _ in pages(path))


def difference(ours: str, theirs: str) -> str | None:
    """Where the first of two files differs from the second, or None where it doesn't."""
    if blocks(ours) != blocks(theirs):
        return f"{blocks(ours)} blocks, the server's file {blocks(theirs)}"
    count, first = 0, ""
    for block, (one, other) in enumerate(zip(pages(ours), pages(theirs))):
        one, other = comparable(one), comparable(other)
        if one != other:
            at = next((at for at, (a, b) in enumerate(zip(one, other)) if a != b), 0)
            first = first or f"the first at block {block} byte {at}"
            count += 1
    return f"{count} blocks differ, {first}" if count > 0 else None
