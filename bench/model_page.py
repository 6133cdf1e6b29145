"""Pages of an index file as they are written, read from docs/formats/page.md alone."""

from __future__ import annotations

import struct

PAGE = 8192
HEADER = 24


def pointer_bytes(pointer: tuple) -> bytes:
    block, offset = pointer
    return struct.pack("<HHH", block >> 16, block & 0xFFFF, offset)


def with_header(fields: bytes, body: bytes, special: bytes) -> bytes:
    """A page of the bytes behind its header, those before its special space, and the latter."""
    start = PAGE - len(special)
    lower, upper = HEADER + len(fields), start - len(body)
    header = struct.pack("<12xHHHHI", lower, upper, start, 0x2004, 0)
    return header + fields + bytes(upper - lower) + body + special


def item_page(tuples: list[bytes], special: bytes) -> bytes:
    """A page of tuples, whose sizes are multiples of 8."""
    body, pointers = b"", []
    for one in tuples:
        body = one + body
        place = PAGE - len(special) - len(body)
        pointers.append(place | 1 << 15 | len(one) << 17)
    return with_header(struct.pack(f"<{len(pointers)}I", *pointers), body, special)
