"""The pages of a heap file, their chains and rows, read from docs/formats/heap.md and chains.md."""

PAGE = 8192
MOST_BLOCKS = 131072

UNUSED, NORMAL, REDIRECT, DEAD = range(4)


class Fault(Exception):
    """What a page is refused for: item and cause."""


def u16(page, at):
    return int.from_bytes(page[at : at + 2], "little")


def u32(page, at):
    return int.from_bytes(page[at : at + 4], "little")


class Item:
    """A line pointer by its number, and its tuple's header where it leads to one on the page."""

    def __init__(self, page, number):
        word = u32(page, 20 + 4 * number)
        self.number = number
        self.offset = word & 0x7FFF
        self.state = word >> 15 & 3
        self.length = word >> 17
        self.end = self.offset + self.length
        self.page = page

    def read_header(self):
        at = self.offset
        self.xmin = u32(self.page, at)
        self.xmax = u32(self.page, at + 4)
        self.ctid_item = u16(self.page, at + 16)
        infomask2 = u16(self.page, at + 18)
        self.infomask = u16(self.page, at + 20)
        self.hoff = self.page[at + 22]
        self.attributes = infomask2 & 0x07FF
        self.heap_only = infomask2 & 0x8000 != 0
        updated = infomask2 & 0x4000 != 0
        self.hot_updated = updated and not self.has(0x0800) and not self.is_aborted()

    def has(self, bits):
        return self.infomask & bits != 0

    def is_aborted(self):
        return self.has(0x0200) and not self.has(0x0100)

    def state_of_row(self):
        """live, dead or None."""
        locked_only = self.has(0x0080) or self.infomask & 0x1050 == 0x0040
        lines = [
            (self.has(0xC000), None),
            (not self.has(0x0300), None),
            (self.is_aborted(), "dead"),
            (self.has(0x0800), "live"),
            (locked_only, "live"),
            (self.has(0x1000), None),
            (self.has(0x0400), "dead"),
            (True, None),
        ]
        return next(state for holds, state in lines if holds)


def check_header(page):
    if (
        u16(page, 18) != 0x2004
        or u16(page, 10) >= 8
        or u16(page, 16) != PAGE
        or u16(page, 12) < 24
        or u16(page, 14) < u16(page, 12)
        or u16(page, 14) > PAGE
    ):
        raise Fault(0, 1)


def is_bad_line(item, items, upper):
    if item.state == REDIRECT:
        return item.offset == 0 or item.offset > len(items)
    if item.state != NORMAL:
        return False
    if item.offset % 8 != 0 or item.offset < upper or item.end > PAGE or item.length < 24:
        return True
    lesser = (it for it in items[: item.number - 1] if it.state == NORMAL and it.end <= PAGE)
    return any(max(it.offset, item.offset) < min(it.end, item.end) for it in lesser)


def is_bad_tuple(item, columns):
    return (
        item.hoff < 24
        or item.hoff % 8 != 0
        or item.hoff > item.length
        or item.attributes > columns
        or (item.has(0x0001) and item.hoff < 23 + (item.attributes + 7) // 8)
    )


def read_items(page, columns=1):
    """The items of a page of a table of so many columns, the first of which has number 1.

    A page with one of the faults 1 to 4 raises it.
    """
    if u16(page, 14) == 0:
        return []
    check_header(page)
    items = [Item(page, number) for number in range(1, (u16(page, 12) - 24) // 4 + 1)]
    for item in items:
        if is_bad_line(item, items, u16(page, 14)):
            raise Fault(item.number, 2)
        if item.state == NORMAL:
            item.read_header()
            if is_bad_tuple(item, columns):
                raise Fault(item.number, 3)
            if item.state_of_row() is None:
                raise Fault(item.number, 4)
    return items


def normal(items, number):
    """The normal item of a number, or None."""
    if 1 <= number <= len(items) and items[number - 1].state == NORMAL:
        return items[number - 1]
    return None


def next_of(items, item):
    """The item that a chain goes on with, or None."""
    if not item.hot_updated:
        return None
    after = normal(items, item.ctid_item)
    return after if after is not None and after.xmin == item.xmax else None


def members_of(items, start):
    """The numbers of the items of a start's chain."""
    if start.state == REDIRECT:
        item = normal(items, start.offset)
    else:
        item = start if start.state == NORMAL and not start.heap_only else None
    members = set()
    while item is not None and item.number not in members:
        members.add(item.number)
        item = next_of(items, item)
    return members


def rows_of(items):
    """The live items of a page by number, each with the number of its root.

    A page with one of the faults 5 and 6 raises it.
    """
    greatest = {}
    for start in items:
        for number in members_of(items, start):
            greatest[number] = start.number
    rows = []
    taken = set()
    for item in items:
        if item.state == NORMAL and item.state_of_row() == "live":
            root = greatest.get(item.number) if item.heap_only else item.number
            if root is None:
                raise Fault(item.number, 5)
            if root in taken:
                raise Fault(item.number, 6)
            taken.add(root)
            rows.append((item, root))
    return rows
