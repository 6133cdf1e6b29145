"""Live rows, each of which is indexed by the root of its chain."""

from dataclasses import replace

import heaps
from cases.case import FIRST_VERSION, SECOND_VERSION, THIRD_VERSION, built, int4_leaf, settled_rows

# A live row, one of an aborted insertion, and two dead versions that lead to each other.
ROW = heaps.Tuple(item=0, key=1)
DEAD_ROW = replace(ROW, infomask=0x0A00)
FORTH = replace(SECOND_VERSION, xmin=5, xmax=5)
BACK = replace(FORTH, item=2)

# The line pointers of a page, and the entries of its rows.
PAGES = [
    ("three versions", [FIRST_VERSION, SECOND_VERSION, THIRD_VERSION], [(3, 1)]),
    ("a chain that was pruned", [heaps.Redirect(3), None, THIRD_VERSION], [(3, 1)]),
    ("a circle of dead versions", [ROW, FORTH, BACK], [(1, 1)]),
    ("a dead row", [DEAD_ROW, ROW], [(1, 2)]),
    ("a dead line pointer", [heaps.Dead(), ROW], [(1, 2)]),
    ("a redirect to itself", [ROW, heaps.Redirect(2)], [(1, 1)]),
    ("locked rows, a frozen one, and an aborted insertion", settled_rows(9, 8, 7, 6, 5),
     [(6, 4), (7, 3), (8, 2), (9, 1)]),
]


CASES = [
    built(f"rows: {name}", heaps.page(lines), f"btree: {len(entries)} rows, 2 blocks", int4_leaf(*entries))
    for name, lines, entries in PAGES
]
