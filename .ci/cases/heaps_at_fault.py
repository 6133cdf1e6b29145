"""Faults of heaps, of which the first in the file is told, whoever scans it."""

from dataclasses import replace

import heaps
from cases.case import FIRST_VERSION, SECOND_VERSION, THIRD_VERSION, int4_heap, refused, settled_rows, with_change

PAGE = heaps.PAGE

# A row, one without its attribute's bytes, one of two attributes, a heap-only version that nothing leads to, a tuple
# without hint bits for its xmin, and one whose xmax is a multixact that isn't a lock.
ROW = heaps.Tuple(item=0, key=1)
SHORT = heaps.Tuple(item=0, key=None)
WIDE = replace(ROW, infomask2=2)
ORPHAN = THIRD_VERSION
UNSETTLED = replace(ROW, xmax=900, infomask=0x0800)
MULTIXACT = replace(ROW, xmax=900, infomask=0x1100)

# Second versions whose updater was aborted, and whose xmax only locks.
UPDATE_ABORTED = replace(SECOND_VERSION, infomask=0x2900)
LOCKED_VERSION = replace(SECOND_VERSION, infomask=0x2180)

# The line pointers of a page, and the item and the cause of its fault.
PAGES = [
    ("a redirect past the last", [ROW, heaps.Redirect(4), ROW], 2, 2),
    ("two attributes", [ROW, WIDE, ROW], 2, 3),
    ("no hint bits for xmin behind all others", [*settled_rows(1, 1, 1, 1, 1), UNSETTLED], 6, 4),
    ("a multixact that isn't a lock", [MULTIXACT], 1, 4),
    ("an orphan", [ORPHAN, ROW, ROW], 1, 5),
    ("an aborted update ends a chain", [FIRST_VERSION, UPDATE_ABORTED, ORPHAN], 3, 5),
    ("two live versions on a chain", [FIRST_VERSION, LOCKED_VERSION, ORPHAN], 3, 6),
    ("an orphan on a page at fault", [ORPHAN, ROW, UNSETTLED], 3, 4),
    ("an orphan before a row that can't be read", [SHORT, ORPHAN], 2, 5),
]

# A page of three rows with a special space.
BROKEN = with_change(int4_heap([30, 10, 20]), 16, bytes.fromhex("F81F"))


def broken_at(blocks, places):
    """A heap of so many new blocks, but for broken pages at some places."""
    return b"".join(BROKEN if block in places else bytes(PAGE) for block in range(blocks))


# Heaps whose first fault is in block 3, and the numbers of workers that scan them.
FAULTS_FROM_3_ON = [
    ("ten blocks", broken_at(10, (3, 9)), (0, 1, 4, 31)),
    ("4,096 blocks", broken_at(4096, (3, 4000)), (0, 4, 31)),
]


CASES = [
    refused("heaps at fault: a value before a page", int4_heap([1]) + heaps.page([ROW, SHORT]) + BROKEN, 5,
            "heap block 1 item 2: cause 7"),
    refused("heaps at fault: 8,191 bytes", bytes(PAGE - 1), 5, "heap block 0 item 0: cause 14"),
    refused("heaps at fault: a broken page and a byte", BROKEN + bytes(1), 5, "heap block 1 item 0: cause 14"),
]

CASES += [
    refused(f"heaps at fault: {name}", heaps.page(lines), 5, f"heap block 0 item {item}: cause {cause}")
    for name, lines, item, cause in PAGES
]

CASES += [
    refused(f"heaps at fault: the first of {name}, --workers={workers}", heap, 5, "heap block 3 item 0: cause 1",
            options=[f"--workers={workers}"])
    for name, heap, numbers in FAULTS_FROM_3_ON
    for workers in numbers
]
