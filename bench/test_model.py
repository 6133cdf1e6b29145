#!/usr/bin/env python3
"""Holds bench/model.py against cases whose answers are known: bench/test_model.py runs them."""

import struct
import sys
import unittest

# The repository gets no folder of compiled modules.
sys.dont_write_bytecode = True

import heaps
import model
import model_gin
import model_gin_file
import model_heap
import model_page
import model_statements

# The answer to a heap without a fault.
SOUND = None


def answer_of(page):
    """Item and cause of a page's fault, SOUND where an index comes, or else the answer."""
    told = model.answer(page)
    if told.status == model.HEAP_FAULT:
        item, cause = told.error.removeprefix("heap block 0 item ").split(": cause ")
        return int(item), int(cause)
    return SOUND if told.status == model.BUILT else told.error


def with_bytes(page, place, text):
    patch = bytes.fromhex(text)
    return page[:place] + patch + page[place + len(patch) :]


def roots_of(lines):
    """The items of a page's rows with their roots, or item and cause of its fault."""
    try:
        items = model_heap.read_items(heaps.page(lines))
        return [(item.number, root) for item, root in model_heap.rows_of(items)]
    except model_heap.Fault as fault:
        return fault.args


# The int4 5, and an empty array of int8 under a short header.
FIVE_AND_INT8_ARRAY = "05 00 00 00 1b 00 00 00 00 00 00 00 00 14 00 00 00"


ARRAYS_TABLE = "CREATE TABLE t (c int4[])"
GIN = "CREATE INDEX i ON t USING gin (c)"

RANGES = b"".join(
    [
        *(page for key in (5, -2, 9) for page in heaps.live_pages([key])),
        heaps.page([heaps.Tuple(item=1, infomask=heaps.DELETED)]),
        bytes(2 * heaps.PAGE),
        heaps.data_page([None]),
    ]
)


def gin_file_of_four_rows():
    """The GIN file of the rows {5,5,1}, {}, null and {NULL,1}, by its bytes."""
    zeros = 8 * " 00"
    tuples = [
        "00 80 10 00 02 00 20 00 01" + 11 * " 00" + " 01 00 01 00 03" + 7 * " 00",
        "00 80 10 00 01 00 18 00 05" + 11 * " 00" + " 01 00 00 00",
        f"00 80 12 00 01 00 20 80 {zeros} 01 00 00 00 00 00 04 00 {zeros}",
        f"00 80 12 00 01 00 20 80 {zeros} 02 00 00 00 00 00 02 00 {zeros}",
        f"00 80 12 00 01 00 20 80 {zeros} 03 00 00 00 00 00 03 00 {zeros}",
    ]
    meta = "ff ff ff ff ff ff ff ff" + 16 * " 00" + " 02 00 00 00 01 00 00 00" + zeros
    meta += " 05 00 00 00 00 00 00 00 02 00 00 00 00 00 00 00"
    root = model_page.item_page(
        [bytes.fromhex(one) for one in tuples], bytes.fromhex("ff ff ff ff 00 00 02 00")
    )
    special = bytes.fromhex("ff ff ff ff 00 00 08 00")
    return model_page.with_header(bytes.fromhex(meta), b"", special) + root


def text_heap(length):
    """A page of one text of so many bytes."""
    return heaps.page([heaps.Tuple(item=1, data=struct.pack("<I", 4 * (length + 4)) + length * b"x")])


class Model(unittest.TestCase):
    def test_faults_of_a_page(self):
        """A page of three live rows, at 8160, 8128 and 8096, with some bytes changed."""
        cases = [
            ("as it is", 12, "24 00", SOUND),
            ("pd_lower in the header", 12, "17 00", (0, 1)),
            ("pd_lower within a line pointer", 12, "27 00", SOUND),
            ("a new page", 14, "00 00", SOUND),
            ("a flag that is none", 10, "08 00", (0, 1)),
            ("all three flags", 10, "07 00", SOUND),
            ("a special space", 16, "f8 1f", (0, 1)),
            ("version 5", 18, "05 20", (0, 1)),
            ("pd_upper below pd_lower", 14, "23 00", (0, 1)),
            ("a dead line pointer", 28, "00 80 01 00", SOUND),
            ("a redirect to 0", 28, "00 00 01 00", (2, 2)),
            ("a redirect past the last", 28, "04 00 01 00", (2, 2)),
            ("a redirect to itself", 28, "02 00 01 00", SOUND),
            ("a redirect to the last", 28, "03 00 01 00", SOUND),
            ("offset 8097", 32, "a1 9f 38 00", (3, 2)),
            ("length 40 past the end", 24, "e0 9f 50 00", (1, 2)),
            ("length 36 into the next", 32, "a0 9f 48 00", (3, 2)),
            ("length 32 up to the next", 32, "a0 9f 40 00", SOUND),
            ("length 23", 24, "e0 9f 2e 00", (1, 2)),
            ("the same place twice", 28, "e0 9f 38 00", (2, 2)),
            ("above the tuples' lower end", 14, "a8 1f", (3, 2)),
            ("hoff 28", 8128 + 22, "1c", (2, 3)),
            ("hoff 32 of length 28", 8160 + 22, "20", (1, 3)),
            ("two attributes", 8128 + 18, "02 00", (2, 3)),
            ("no hint bits of the insertion", 8096 + 20, "00 08", (3, 4)),
            ("hoff before hint bits", 8096 + 20, "00 08 10", (3, 3)),
            ("the lesser item before the lesser cause", 28, "04 00 01 00 a1 9f", (2, 2)),
            ("a null bitmap", 8160 + 20, "01 09", SOUND),
            ("no attribute", 8160 + 18, "00 00", SOUND),
            ("length 24", 24, "e0 9f 30 00", (1, 7)),
            ("a null bitmap before a fault", 8160 + 20, "01 09 10", (1, 3)),
            ("equal keys", 8184, "0a 00 00 00", SOUND),
            ("heap-only without a chain", 8128 + 18, "01 80", (2, 5)),
            ("a bad line pointer of another row before it", 32, "a1 9f", (3, 2)),
        ]
        for name, place, text, wanted in cases:
            with self.subTest(name):
                self.assertEqual(answer_of(with_bytes(heaps.sample_page(), place, text)), wanted)

    def test_pages_of_one_byte(self):
        self.assertEqual(answer_of(b"\xff" * heaps.PAGE), (0, 1))
        self.assertEqual(answer_of(bytes(heaps.PAGE)), SOUND)
        unused = with_bytes(bytes(heaps.PAGE), 12, "00 20 00 20 00 20 04 20")
        self.assertEqual(len(model_heap.read_items(unused)), 2042)

    def test_hint_bits(self):
        cases = [
            (0x01C0, "live"),
            (0x0140, "live"),
            (0x1180, "live"),
            (0x0B00, "live"),
            (0x0A00, "dead"),
            (0x0800, None),
            (0x0500, "dead"),
            (0x2500, "dead"),
            (0x0900, "live"),
            (0x1100, None),
            (0x4900, None),
            (0x01D0, "live"),
            (0x0150, None),
        ]
        for infomask, wanted in cases:
            with self.subTest(hex(infomask)):
                page = heaps.page([heaps.Tuple(item=1, xmax=900, infomask=infomask)])
                item = model_heap.Item(page, 1)
                item.read_header()
                self.assertEqual(item.state_of_row(), wanted)

    def test_roots(self):
        def first(**other):
            return heaps.Tuple(**{"item": 2, "xmin": 100, "xmax": 101, "infomask2": 0x4001, "infomask": 0x0500, **other})

        def second(**other):
            return heaps.Tuple(**{"item": 3, "xmin": 101, "xmax": 102, "infomask2": 0xC001, "infomask": 0x2500, **other})

        third = heaps.Tuple(item=3, xmin=102, infomask2=0x8001, infomask=0x2900)
        redirect = heaps.Redirect(3)
        cases = [
            ("a chain of three versions", [first(), second(), third], [(3, 1)]),
            ("a chain that was pruned", [redirect, None, third], [(3, 1)]),
            ("a heap-only tuple alone", [third, None, None], (1, 5)),
            ("a chain that an aborted update ends", [first(), second(infomask=0x2900), third], (3, 5)),
            ("two live versions on a chain", [first(), second(infomask=0x2180), third], (3, 6)),
            ("a cycle that nothing starts", [first(infomask2=0xC001), second(item=1, xmax=100), None], []),
            ("a ctid that names another block", [first(), second(block=7), third], [(3, 1)]),
            ("two redirects to one tuple", [redirect, redirect, third], [(3, 2)]),
            ("an xmin that isn't the xmax", [first(), second(xmin=99), third], (3, 5)),
        ]
        for name, lines, wanted in cases:
            with self.subTest(name):
                self.assertEqual(roots_of(lines), wanted)

    def test_faults_of_a_heap(self):
        sound, bad = heaps.sample_page(), with_bytes(heaps.sample_page(), 10, "08 00")
        cases = [
            (sound + bad + bad, "heap block 1 item 0: cause 1"),
            (bad + sound[:-1], "heap block 1 item 0: cause 14"),
            (b"\0", "heap block 0 item 0: cause 14"),
            (with_bytes(sound, 8160 + 20, "01 09") + bad, "heap block 1 item 0: cause 1"),
            (sound + sound, ""),
            (b"".join(heaps.live_pages(range(368))), ""),
        ]
        for number, (heap, wanted) in enumerate(cases):
            with self.subTest(number):
                self.assertEqual(model.answer(heap).error, wanted)

    def test_faults_of_statements(self):
        table = "CREATE TABLE t (a int4, c int4[], b text)"
        cases = [
            ("CREATE INDEX i ON t (d)", 21, 3),
            ("CREATE INDEX i ON t (a", 22, 2),
            ("CREATE INDEX i ON t (a) WITH (fillfactor=9)", 41, 6),
            ("CREATE UNIQUE INDEX i ON t USING brin (a)", 33, 5),
            ("CREATE INDEX i ON t USING brin (a) INCLUDE (b)", 35, 5),
            ("CREATE INDEX i ON x $", 18, 3),
            ("CREATE INDEX i ON t (a) WHERE a = - 'x'", 36, 2),
            ("CREATE INDEX i ON t (a) WHERE b = -1", 34, 5),
            ("CREATE INDEX i ON t (a) WITH (null = 1)", 30, 5),
            ("CREATE INDEX i ON t (a) WITH (fillfactor = null)", 43, 6),
            ("CREATE INDEX i ON t (a) NULLS DISTINCT", 24, 5),
            ("CREATE INDEX i ON t (c)", 21, 5),
            ("CREATE INDEX i ON t USING gin (c, c)", 34, 5),
            (f"CREATE INDEX i ON t ({', '.join(33 * 'a')})", 117, 5),
            (f"CREATE INDEX i ON t (a) WHERE {17 * '('}a = 1{17 * ')'}", 46, 2),
        ]
        for text, place, cause in cases:
            with self.subTest(text):
                wanted = f"statement 2 at {place}: cause {cause}"
                self.assertEqual(model.answer(b"", table, text).error, wanted)
        for text, place, cause in [
            ("CREATE TABLE t (a int5)", 18, 4),
            ("CREATE TABLE t (a int5 $", 18, 4),
            ("CREATE TABLE t (a double $", 25, 1),
            ("CREATE TABLE t (a double)", 18, 4),
            ("CREATE TABLE t (a bool[])", 22, 2),
            ("CREATE TABLE t (a time with time zone)", 23, 2),
            ("CREATE TABLE t (a timestamp with", 18, 4),
            ("CREATE TABLE t (a int4, a int4)", 24, 7),
            (65537 * " ", 65536, 1),
        ]:
            with self.subTest(text[:40]):
                wanted = f"statement 1 at {place}: cause {cause}"
                self.assertEqual(model.answer(b"", text).error, wanted)

    def test_faults_of_values(self):
        cases = [
            ("text", "(a)", "01" + 17 * " 12", 9),
            ("text", "(a)", "01 13" + 16 * " 00", 9),
            ("text", "(a)", "01 12", 7),
            ("text", "(a)", "32 00 00 00 09 00 00 00 01 02 03 04", 8),
            ("text", "(a)", "0d 78", 7),
            ("bool", "(a)", "02", 10),
            ("int4, c int4[]", "(a) WHERE c IS NULL", FIVE_AND_INT8_ARRAY, 11),
            ("int4, c int4[]", "(a)", FIVE_AND_INT8_ARRAY, None),
        ]
        for columns, keys, text, cause in cases:
            with self.subTest(columns + keys + text):
                row = heaps.Tuple(item=1, infomask2=columns.count(",") + 1, data=bytes.fromhex(text))
                table = f"CREATE TABLE t (a {columns})"
                told = model.answer(heaps.page([row]), table, f"CREATE INDEX i ON t {keys}")
                wanted = "" if cause is None else f"heap block 0 item 1: cause {cause}"
                self.assertEqual(told.error, wanted)

    def test_texts_as_keys(self):
        for length, size, start in [
            (126, 136, "88 40 ff 78"),
            (127, 144, "90 40 0c 02 00 00 78"),
            (2692, 2704, "90 4a 20 2a 00 00 78"),
        ]:
            with self.subTest(length):
                index = model.answer(text_heap(length), "CREATE TABLE t (a text)").index
                at = 2 * heaps.PAGE - 16 - size
                self.assertEqual(index[at : at + 6].hex(" "), "00 00 00 00 01 00")
                self.assertTrue(index[at + 6 :].startswith(bytes.fromhex(start)))
        refused = model.answer(text_heap(2693), "CREATE TABLE t (a text)")
        self.assertEqual(refused.error, "heap block 0 item 1: cause 12")

    def test_clashes(self):
        def rows(*keys):
            null = heaps.Tuple(item=1, data=b"", bitmap=b"\0")
            return heaps.page([null if key is None else heaps.Tuple(item=1, key=key) for key in keys])

        unique = "CREATE UNIQUE INDEX i ON t (a)"
        cases = [
            (rows(3, 1, 3, 1), unique, "duplicate key: (0,2) and (0,4)"),
            (rows(None, None), unique, ""),
            (rows(None, None), unique + " NULLS NOT DISTINCT", "duplicate key: (0,1) and (0,2)"),
            (rows(1, 1, 2), unique + " WHERE a > 1", ""),
        ]
        for heap, statement, wanted in cases:
            with self.subTest(statement + wanted):
                self.assertEqual(model.answer(heap, index=statement).error, wanted)

    def test_levels(self):
        """Rows with one key or a key each, whose pages break: the blocks, and bytes at places."""
        cases = [
            ("a leaf that is full", range(1, 368), 2, [(8192 + 12, "d4 05 00 09")]),
            ("a key more", range(1, 369), 4, [
                (32, "03 00 00 00 01 00 00 00 03 00 00 00 01 00 00 00"),
                (8192 + 2304, "00 00 00 00 01 00 10 20 6f 01 00 00 00 00 00 00"),
                (8192 + 8176, "00 00 00 00 02 00 00 00 00 00 00 00 01 00"),
                (3 * 8192 + 8152, "00 00 02 00 01 00 10 20 6f 01 00 00 00 00 00 00"),
                (3 * 8192 + 8168, "00 00 01 00 00 00 08 20"),
            ]),
            ("rows of one tuple", 132 * [7], 2, [
                (8192 + 7368, "00 00 10 00 84 20 28 23 07 00 00 00 00 00 00 00"),
            ]),
            ("rows of eleven", 1321 * [7], 4, [
                (8192 + 880, "00 00 00 00 01 10 18 20 07 00 00 00 00 00 00 00 00 00 00 00 05 00 3a 00"),
                (2 * 8192 + 7352, "00 00 05 00 bf 00 10 00 07 00 00 00"),
            ]),
        ]  # fmt: skip
        for name, keys, blocks, pieces in cases:
            with self.subTest(name):
                index = model.answer(b"".join(heaps.live_pages(keys))).index
                self.assertEqual(len(index), blocks * heaps.PAGE)
                for place, text in pieces:
                    piece = bytes.fromhex(text)
                    self.assertEqual(index[place : place + len(piece)].hex(" "), text)

    def test_index_of_three_rows(self):
        index = bytearray(2 * heaps.PAGE)
        for place, text in [
            (12, "48 00 f0 1f f0 1f 04 20"),
            (24, "62 31 05 00 04 00 00 00 01 00 00 00 00 00 00 00 01 00 00 00"),
            (56, "00 00 00 00 00 00 f0 bf 01"),
            (8188, "08"),
            (8192 + 12, "24 00 c0 1f f0 1f 04 20"),
            (8192 + 24, "e0 9f 20 00 d0 9f 20 00 c0 9f 20 00"),
            (8192 + 8128, "00 00 00 00 01 00 10 00 1e 00 00 00"),
            (8192 + 8144, "00 00 00 00 03 00 10 00 14 00 00 00"),
            (8192 + 8160, "00 00 00 00 02 00 10 00 0a 00 00 00"),
            (8192 + 8188, "03"),
        ]:
            index = with_bytes(index, place, text)
        self.assertEqual(model.answer(heaps.sample_page()).index, bytes(index))

    def assert_bytes(self, file, pieces):
        """That a file has these bytes at these places."""
        for place, text in pieces:
            piece = bytes.fromhex(text)
            self.assertEqual(file[place : place + len(piece)].hex(" "), piece.hex(" "), place)

    def test_ranges(self):
        """Values, a dead row before new blocks, and a null, in ranges of three blocks."""
        statement = "CREATE INDEX i ON t USING brin (a) WITH (pages_per_range=3)"
        told = model.answer(RANGES, index=statement)
        self.assertEqual((told.rows, len(told.index)), (4, 3 * heaps.PAGE))
        self.assert_bytes(told.index, [
            (12, "28 00 f8 1f f8 1f 04 20"),
            (24, "fa 9c 10 a8 01 00 00 00 03 00 00 00 01 00 00 00"),
            (8184, "00 00 00 00 00 00 91 f0"),
            (8192 + 12, "18 00 f8 1f f8 1f 04 20"),
            (8192 + 24, "00 00 02 00 01 00 00 00 02 00 02 00 00 00 02 00 03 00 00 00 00 00"),
            (8192 + 8184, "00 00 00 00 00 00 92 f0"),
            (2 * 8192 + 12, "24 00 d8 1f f8 1f 04 20"),
            (2 * 8192 + 8152, "06 00 00 00 88 03 00 00 03 00 00 00 a8 01 00 00"),
            (2 * 8192 + 8168, "00 00 00 00 08 00 00 00 fe ff ff ff 09 00 00 00"),
            (2 * 8192 + 8184, "00 00 00 00 00 00 93 f0"),
        ])  # fmt: skip

    def test_many_ranges(self):
        """1,361 new blocks, a range each."""
        statement = "CREATE INDEX i ON t USING brin (a) WITH (pages_per_range=1)"
        index = model.answer(bytes(1361 * heaps.PAGE), index=statement).index
        self.assertEqual(len(index), 6 * heaps.PAGE)
        self.assert_bytes(index, [
            (36, "02 00 00 00"),
            (2 * 8192 + 24, "00 00 05 00 01 00 00 00"),
            (3 * 8192 + 12, "b8 0a b8 0a"),
            (4 * 8192 + 12, "b8 0a b8 0a"),
            (5 * 8192 + 12, "1c 00 f0 1f"),
        ])  # fmt: skip

    def test_wide_ranges(self):
        table, statement = "CREATE TABLE t (a text)", "CREATE INDEX i ON t USING brin (a)"
        for length, wanted in [(4063, ""), (4071, "range 0 too wide: 8160 bytes")]:
            with self.subTest(length):
                texts = (4069 * b"a", length * b"b")
                heap = b"".join(heaps.data_page([heaps.long_datum(text)]) for text in texts)
                self.assertEqual(model.answer(heap, table, statement).error, wanted)

    def test_entries(self):
        """Two keys, a null among elements, an empty array and a null."""
        arrays = heaps.int4_array(5, 5, 1), heaps.int4_array(), None, heaps.int4_array(None, 1)
        told = model.answer(heaps.data_page(arrays), ARRAYS_TABLE, GIN)
        self.assertEqual(told.rows, 4)
        self.assertEqual(list(told.index.map.items()), [
            ((0, 1), [(0, 1), (0, 4)]), ((0, 5), [(0, 1)]), ((1, None), [(0, 4)]),
            ((2, None), [(0, 2)]), ((3, None), [(0, 3)]),
        ])  # fmt: skip

    def test_reading_of_tuples(self):
        """The tuple of the key 1 at (0,1) and (0,4), and that of the nulls among elements at (0,4)."""
        file = model_gin_file.File(b"", model_statements.TYPES["int4[]"])
        key = "00 80 10 00 02 00 20 00 01" + 11 * " 00" + " 01 00 01 00 03" + 7 * " 00"
        null = "00 80 12 00 01 00 20 80" + 8 * " 00" + " 01 00 00 00 00 00 04" + 9 * " 00"
        for text, wanted in [(key, ((0, 1), [(0, 1), (0, 4)])), (null, ((1, None), [(0, 4)]))]:
            with self.subTest(text):
                self.assertEqual(file.posting_of(bytes.fromhex(text)), wanted)

    def test_reading_of_a_file(self):
        """The file of the four rows, and what is told of it with some bytes changed."""
        arrays = heaps.int4_array(5, 5, 1), heaps.int4_array(), None, heaps.int4_array(None, 1)
        wanted = model.answer(heaps.data_page(arrays), ARRAYS_TABLE, GIN)
        file = gin_file_of_four_rows()
        self.assertIsNone(wanted.difference(file))
        root = 8192
        for place, text, told in [
            (24, "00 00 00 00", "the meta page says"),
            (48, "03", "the meta page says"),
            (64, "04", "the meta page says"),
            (8190, "00", "block 0 is no meta page"),
            (root + 8190, "00", "isn't there"),
            (root + 8184, "01 00 00 00", "right links don't end"),
            (root + 8152, "00 00", "the list begins elsewhere"),
            (root + 8152 + 4, "01", "the list is counted otherwise"),
            (root + 8152 + 8, "02", "2 entries have other rows"),
            (root + 8152 + 8, "06", "entries don't ascend"),
            (root + 8152 + 24, "04", "1 entries have other rows"),
            (root + 8112, "02", "entries don't ascend"),
        ]:
            with self.subTest(f"{place} {text}"):
                self.assertIn(told, str(wanted.difference(with_bytes(file, place, text))))

    def test_segments(self):
        cases = [
            ("00 00 00 00 04 00 00 00", [(0, 4)]),
            ("00 00 00 00 01 00 01 00 03 00", [(0, 1), (0, 4)]),
            ("00 00 00 00 02 00 02 00 80 01", [(0, 2), (0, 130)]),
            ("00 00 00 00 02 00 07 00 80 80 80 80 80 80 01 00", [(0, 2), (2147483648, 2)]),
        ]
        for text, pointers in cases:
            with self.subTest(text):
                data = bytes.fromhex(text)
                self.assertEqual(model_gin_file.segment_at(data, 0), (pointers, len(data)))
                self.assertEqual(model_gin_file.segment_bytes(pointers), len(data))

    def test_broken_segments(self):
        for text in [
            "00 00 00 00 01 00 01 00 00 00",
            "00 00 00 00 01 00 02 00 83 00",
            "00 00 00 00 01 00 01 00 03 01",
            "00 00 00 00 01 00 01 00 03",
            "00 00 00 00 01 00 01 00 83 00",
        ]:
            with self.subTest(text), self.assertRaises(model_gin_file.Unreadable):
                model_gin_file.segment_at(bytes.fromhex(text), 0)

    def test_length_of_lists(self):
        for count, size in [(2670, 2696), (2671, 2698)]:
            heap = b"".join(heaps.array_pages(count))
            (pointers,) = model.answer(heap, ARRAYS_TABLE, GIN).index.map.values()
            with self.subTest(count):
                self.assertEqual(len(pointers), count)
                self.assertEqual(model_gin_file.segment_bytes(pointers), size)

    def test_long_elements(self):
        for length, wanted in [(2700, ""), (2701, "heap block 0 item 1: cause 13")]:
            with self.subTest(length):
                heap = heaps.data_page([heaps.text_array(length * b"x")])
                told = model.answer(heap, "CREATE TABLE t (c text[])", GIN)
                self.assertEqual(told.error, wanted)

    def test_size_of_entries(self):
        kinds = model_statements.TYPES
        for kind, key, size in [
            ("int4[]", 7, 16), ("int8[]", -7, 16), ("text[]", 7 * b"x", 16),
            ("text[]", 126 * b"x", 136), ("text[]", 127 * b"x", 144), ("text[]", 2700 * b"x", 2712),
        ]:  # fmt: skip
            with self.subTest(f"{kind} {size}"):
                self.assertEqual(model_gin.list_place(kinds[kind], (0, key)), size)
        self.assertEqual(model_gin.list_place(kinds["int4[]"], (3, None)), 18)

    def test_index_without_rows(self):
        index = model.answer(b"").index
        self.assertEqual(len(index), heaps.PAGE)
        self.assertEqual(index[24:48].hex(" "), "62 31 05 00 04 00 00 00 00 00 00 00 00 00 00 00 00 00 00 00 00 00 00 00")


if __name__ == "__main__":
    unittest.main()
