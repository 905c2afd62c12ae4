"""Tests of the Python module gvrs, which is found by PYTHONPATH, on the pages of the folder that GVRS_PAGES names. tests/installed/run
runs them. Those of Arrays are left out where NumPy is missing."""

import array
import copy
import ctypes
import itertools
import math
import os
import pickle
import random
import shutil
import statistics
import struct
import subprocess
import sys
import tempfile
import threading
import unittest
from pathlib import Path

import gvrs
from gvrs import Cell, Comparison, Deed, Fill, Outside, Page, Refused, Spot

try:
    import numpy
except ImportError:
    numpy = None

PAGES = Path(os.environ["GVRS_PAGES"])
EXAMPLES = Path(__file__).parent.parent / "examples"
TYPES = ("Integer", "integer-coded", "Float", "Short")
LETTERS = dict(zip(TYPES, "iifh"))


def page(name, compressor=None):
    return Page(PAGES / f"{name}.gvrs", compressor)


class Tests(unittest.TestCase):
    def assertRefused(self, number, place, ask, note=None):
        with self.assertRaises(Refused) as caught:
            ask()
        self.assertEqual((caught.exception.number, caught.exception.place), (number, place))
        self.assertIn(note or "", str(caught.exception))
        return caught.exception

    def assertSays(self, kind, text, ask, *arguments, **options):
        with self.assertRaises(kind) as caught:
            ask(*arguments, **options)
        self.assertIn(text, str(caught.exception))


class StoredPages(Tests):
    """What the module reads of the stored pages."""

    def test_shape(self):
        self.assertEqual(tuple(page("page").shape), (3, 3, 2, 2, 2, 2, 1, 8, 336, 1, 0, 1, True))
        self.assertEqual(tuple(page("packed").shape)[:8], (2, 15, 2, 4, 1, 4, 1, 16))
        self.assertEqual(page("packed").shape.metadata, 1)
        self.assertIs(page("packed").shape.checksums, False)

    def test_elements(self):
        self.assertEqual(page("page").elements, (("z", "Short", Fill(7), ""),))
        fills = (Fill(-1), Fill(0), Fill(-1.5), Fill(-32768))
        self.assertEqual(page("four-types").elements, tuple(zip("abcd", TYPES, fills, [""] * 4)))
        self.assertEqual([element.unit for element in page("units").elements], ["m", "", "\xb5m \"\\\n\x1b[31m\x7f\x85\xa0"])

    def test_cell(self):
        self.assertEqual(page("page").cell(2, 1, "z"), Cell("stored", 12, 12, 354, 2, 1))
        self.assertEqual(page("page").cell(0, 0, 0), Cell("fill", Fill(7), None, None, 0, 0))
        self.assertEqual(page("page").cell(2, 2, 0), Cell("fill", Fill(7), None, None, 3, 0))
        self.assertEqual(page("four-types").cell(1, 1, "d"), Cell("stored", -32768, 0x8000, 586, 0, 3))
        self.assertEqual(page("packed", 3).cell(1, 3, "score"), Cell("unpacked", 904, 904, 488, 0, 7))
        self.assertEqual(page("packed", 3).cell(1, 14, "score"), Cell("fill", Fill(950), None, None, 3, 6))

    def test_float(self):
        cell = page("four-types").cell(0, 1, "c")
        self.assertTrue(math.isnan(cell.value))
        self.assertEqual(cell.bits, 0x7FC12345)
        self.assertEqual(page("four-types").cell(1, 0, "c").value, -math.inf)
        self.assertEqual(math.copysign(1, page("four-types").cell(1, 1, "c").value), -1)

    def test_tile(self):
        self.assertEqual(page("page").tile(2, "z"), [[11, 12], [Outside(13), Outside(14)]])
        self.assertEqual(page("page").tile(3, "z"), [[Fill(7), Outside(None)], [Outside(None)] * 2])
        self.assertEqual(page("packed", 3).tile(0, 0), [[900, 901, 902, 903], [901, 902, 903, 904]])
        self.assertRefused(11, 472, lambda: page("packed").tile(0, 0))
        self.assertRefused(14, 512, lambda: page("packed", 3).tile(1, 0))

    def test_cells(self):
        fill = Fill(7)
        self.assertEqual(page("page").cells("z", 0, 0, 3, 3), [[fill] * 3, [fill] * 3, [11, 12, fill]])
        self.assertEqual(page("page").cells("z", 2, 0, 1, 2), [[11, 12]])
        self.assertEqual(page("page").cells("z", 3, 0, 0, 3), [])
        self.assertEqual(page("page").cells("z", 0, 3, 3, 0), [])
        [row] = page("packed", 3).cells("score", 1, 2, 1, 13)
        self.assertEqual(row[:2] + row[10:], [903, 904] + [Fill(950)] * 3)
        self.assertEqual([(x.number, x.place) for x in row[2:10]], [(14, None)] * 4 + [(11, None)] * 4)

    def test_cells_are_those_of_the_tiles(self):
        wide = page("wide")
        cells = wide.cells(0, 0, 0, 1100, 1000)
        self.assertEqual([row[800:900] for row in cells[1000:]], wide.tile(108, 0))
        self.assertEqual([row[:100] for row in cells[:100]], wide.tile(0, 0))
        self.assertEqual(cells[1099][999].number, 11)
        self.assertEqual(sum(isinstance(x, Fill) for row in cells for x in row), 1100 * 1000 - 3 * 10000)

    def test_pages_as_the_c_example_shows_them(self):
        stored = (EXAMPLES / "pages.txt").read_text()
        names = ("page 256", "four-types 256", "empty-file 0", "too-long 0", *(f"refused-{number} 0" for number in range(1, 10)))
        for name, compressor in (name.split() for name in names):
            with self.subTest(name):
                text = f"$ show_page {name}.gvrs {compressor}\n{self.as_the_example_shows(name)}$"
                self.assertIn(text, stored)

    def as_the_example_shows(self, name):
        asked = page(name)
        try:
            is_ = asked.shape
        except Refused as refused:
            return f"{refused}\nexit status 1\n"

        def value(kind, element, number):
            text = struct.pack(">f", number).hex() if element.type == "Float" else str(number)
            return f"{kind} {text}"

        def cell(row, column, element):
            try:
                x = asked.cell(row, column, element.name)
            except Refused as refused:
                return refused.words
            if x.bits is not None and element.type == "Float":
                return f"{x.kind} {x.bits:08x}"
            return value(x.kind, element, x.value.value if isinstance(x.value, Fill) else x.value)

        text = ""
        for element in asked.elements:
            text += f"{element.name}, {element.type}, {value('fill', element, element.fill.value)}\n"
            for row in range(is_.rows):
                text += "    " + ", ".join(cell(row, column, element) for column in range(is_.columns)) + "\n"
        return text

    def test_check(self):
        for name in ("page", "four-types", "packed", "wide", "65536-bytes"):
            self.assertIsNone(page(name).check())
        for number in range(1, 10):
            with self.subTest(number):
                bad = page(f"refused-{number}")
                place = {6: 376, 7: 376, 8: 336, 9: 16}.get(number, 0)
                self.assertRefused(number, place, bad.check)
                for ask in (lambda: bad.shape, lambda: bad.elements, lambda: bad.cell(0, 0, 0), lambda: bad.cell(0, 0, "z")):
                    self.assertRefused(number, place, ask)
                for ask in (lambda: bad.tile(0, 0), lambda: bad.cells(0, 0, 0, 1, 1), lambda: bad.cells(0, 0, 0, 2**64 - 1, 2)):
                    self.assertRefused(number, place, ask)

    def test_files_that_cannot_be_read(self):
        self.assertRaises(FileNotFoundError, page, "missing")
        self.assertRaises(IsADirectoryError, Page, PAGES)
        self.assertRefused(4, 0, page("longer").check)
        self.assertEqual(len(page("longer").file), 16_777_217)


class Deeds(Tests):
    """Scores of rectangles judged, by the rule that the page says."""

    def test_first_rule(self):
        z = page("page")
        self.assertEqual(z.deed("z", 2, 0, 1, 2), Deed("doubtful", 0, 11, 1000))
        self.assertEqual(z.deed(0, 0, 0, 3, 3), Deed("unread", 7, 11, 1000))
        self.assertEqual(z.deed("z", 0, 0, 2, 2), Deed("unread", 4, None, 1000))
        self.assertEqual(page("packed", 3).deed("score", 0, 0, 2, 4), Deed("certain", 0, 900, 1000))
        self.assertEqual(page("four-types").deed("d", 1, 1, 1, 1), Deed("doubtful", 0, -32768, 1000))

    def test_second_rule(self):
        ten_thousandths = page("second-rule")
        self.assertEqual(ten_thousandths.deed("score", 0, 0, 1, 2), Deed("certain", 0, 9500, 10000))
        self.assertEqual(ten_thousandths.deed("score", 0, 1, 1, 2), Deed("unread", 1, 10000, 10000))

    def test_refused(self):
        z, packed, no_rule = page("page"), page("packed"), page("no-rule")
        self.assertRefused(10, 0, lambda: z.deed("z", 0, 0, 4, 3), "there are rows 0 to 2")
        self.assertRefused(10, 0, lambda: no_rule.deed("score", 0, 0, 1, 4), "columns 0 to 2")
        self.assertRefused(12, 0, lambda: z.deed("z", 0, 0, 0, 3), "the rectangle has no cell")
        self.assertRefused(12, 0, lambda: page("four-types").deed("c", 0, 0, 1, 0), "the rectangle has no cell")
        self.assertRefused(12, 0, lambda: page("four-types").deed("c", 0, 0, 1, 1), "the element is no Short")
        self.assertRefused(12, 0, lambda: no_rule.deed("score", 0, 0, 1, 2), "metadata records named score_rule do not say one rule")
        self.assertRefused(11, 472, lambda: packed.deed("score", 0, 0, 2, 15))
        self.assertRefused(14, 512, lambda: page("packed", 3).deed("score", 0, 0, 2, 15))
        self.assertRefused(9, 16, lambda: page("refused-9").deed(0, 0, 0, 1, 1))

    def test_no_truth(self):
        self.assertSays(TypeError, "'unread'", bool, page("page").deed("z", 0, 0, 3, 3))

    def test_arguments(self):
        z = page("page")
        for position in range(5):
            for wrong, error in ((-1, ValueError), (2**64, ValueError), (1.0, TypeError), (None, TypeError)):
                self.assertRaises(error, z.deed, *[wrong if i == position else 0 for i in range(5)])


class Comparisons(Tests):
    """In which cells two pages differ."""

    ELEMENTS = [("z", "Short", 5)]

    def laid(self, tiles, elements=ELEMENTS, sides=(2, 3, 2, 2)):
        front = gvrs.front(*sides, elements, uuid=bytes(16))
        tiles = {index: {name: cells for name, _, _ in elements} for index, cells in tiles.items()}
        return Page.of_bytes(gvrs.lay_down(front, gvrs.pack(front, tiles), time=1))

    def test_sample_sums(self):
        first = self.laid({0: [1, 2, 3, 4], 1: [5, 9, 6, 9]})
        second = self.laid({0: [1, 0, 3, 0]})
        spots = [(0, 1, 0, 0, 1), (0, 2, 0, 1, 0), (1, 1, 0, 0, 3), (1, 2, 0, 1, 2)]
        for pages in ((first, second), (second, first)):
            self.assertEqual(gvrs.compare(*pages), Comparison(4, spots))
            self.assertEqual(gvrs.compare(*pages, most=1), (4, spots[:1]))
            self.assertEqual(gvrs.compare(*pages, most=0), (4, []))
            self.assertEqual(gvrs.compare(*pages, most=2**64 - 1), (4, spots))
        self.assertEqual(gvrs.compare(first, first), (0, []))
        spot = gvrs.compare(first, second).spots[1]
        self.assertIsInstance(spot, Spot)
        cells = [page.cell(*spot[:3]) for page in (first, second)]
        self.assertEqual([cell.value for cell in cells], [5, Fill(5)])
        for cell in cells:
            self.assertEqual((cell.tile, cell.inside), (spot.tile, spot.inside))

    def test_other_fills_and_names(self):
        first, second = self.laid({0: [1, 2, 3, 4]}), self.laid({0: [1, 2, 3, 4]}, [("other", "Short", 6)])
        self.assertEqual(gvrs.compare(first, second), (2, [(0, 2, 0, 1, 0), (1, 2, 0, 1, 2)]))

    def test_bits_are_compared(self):
        cells = [[math.nan, 0.0, 1.0, 2.0], [math.nan, -0.0, 1.0, 2.0]]
        pages = [self.laid({0: of_one}, [("z", "Float", 0.0)]) for of_one in cells]
        self.assertEqual(gvrs.compare(*pages), (1, [(0, 1, 0, 0, 1)]))

    def test_unreadable_cells(self):
        packed = page("packed", 3)
        none = self.laid({}, sides=(2, 15, 2, 4))
        self.assertRefused(14, 512, lambda: gvrs.compare(packed, packed), "the first page")
        self.assertRefused(14, 512, lambda: gvrs.compare(none, packed), "the second page")
        self.assertRefused(11, 472, lambda: gvrs.compare(page("packed", 4), packed), "the first page")
        self.assertRefused(11, 472, lambda: gvrs.compare(packed, page("packed")), "the second page")

    def test_refusals(self):
        good, worse = page("page"), page("refused-9")
        for number in range(1, 10):
            refused = page(f"refused-{number}")
            place = self.assertRaisesRefused(refused.check)
            self.assertRefused(number, place, lambda: gvrs.compare(refused, worse), "the first page")
            self.assertRefused(number, place, lambda: gvrs.compare(good, refused), "the second page")

    def assertRaisesRefused(self, ask):
        with self.assertRaises(Refused) as caught:
            ask()
        return caught.exception.place

    def test_unlike_pages(self):
        first, two = self.laid({}), [("z", "Short", 5), ("y", "Short", 5)]
        others = {
            "rows: 2 and 3": self.laid({}, sides=(3, 3, 2, 2)),
            "columns: 3 and 4": self.laid({}, sides=(2, 4, 2, 2)),
            "tile_rows: 2 and 1": self.laid({}, sides=(2, 3, 1, 2)),
            "tile_columns: 2 and 3": self.laid({}, sides=(2, 3, 2, 3)),
            "elements: 1 and 2": self.laid({}, two),
            "the type of element 0: Short and Integer": self.laid({}, [("z", "Integer", 5)]),
        }
        for note, other in others.items():
            self.assertRefused(12, 0, lambda: gvrs.compare(first, other), f"the pages differ in {note}")

    def test_wrong_arguments(self):
        good = page("page")
        self.assertSays(TypeError, "two Pages", gvrs.compare, good, good.file)
        self.assertSays(TypeError, "two Pages", gvrs.compare, None, good)
        self.assertSays(ValueError, "most is -1", gvrs.compare, good, good, most=-1)
        self.assertSays(TypeError, "most is 1.0", gvrs.compare, good, good, most=1.0)
        self.assertSays(TypeError, "its number is 0", bool, gvrs.compare(good, good))


class Numbers(Tests):
    """Numbers outside the grid are refused, and those outside their C type before anything is called."""

    def test_outside_the_grid(self):
        z = page("page")
        sides = "there are rows 0 to 2, columns 0 to 2, tiles 0 to 3 and elements 0 to 0"
        for ask in (lambda: z.cell(3, 0, 0), lambda: z.cell(0, 2**64 - 1, 0), lambda: z.cell(0, 0, 1), lambda: z.tile(4, 0),
                    lambda: z.tile(2**64 - 1, 0), lambda: z.cells(0, 0, 0, 4, 3), lambda: z.cells(0, 2**64 - 1, 0, 2, 1),
                    lambda: z.cells(1, 0, 0, 1, 1), lambda: z.cells(0, 0, 0, 2**63, 2)):
            self.assertRefused(10, 0, ask, sides)
        for name in ("Z", "", "zz", "é", "\ud800", "z\0"):
            self.assertRefused(10, 0, lambda: z.cell(0, 0, name), f"no element has the name {name!r}")

    def test_outside_the_c_type(self):
        z = page("page")
        for wrong in (-1, 2**64, 2**64 + 2, -(2**64), 10**40):
            for position in range(3):
                self.assertRaises(ValueError, z.cell, *[wrong if i == position else 0 for i in range(3)])
            for position in range(2):
                self.assertRaises(ValueError, z.tile, *[wrong if i == position else 0 for i in range(2)])
            for position in range(5):
                self.assertRaises(ValueError, z.cells, *[wrong if i == position else 0 for i in range(5)])
        for wrong in (-1, 256, 2**32, 2**32 + 3):
            self.assertRaises(ValueError, page, "packed", wrong)
            self.assertRaises(ValueError, Page.of_bytes, b"", wrong)

    def test_no_whole_number(self):
        z = page("page")
        for wrong in (1.0, None, b"z", [0], Fill(0)):
            self.assertRaises(TypeError, z.cell, wrong, 0, 0)
            self.assertRaises(TypeError, z.cell, 0, 0, wrong)
            self.assertRaises(TypeError, z.tile, wrong, 0)
            self.assertRaises(TypeError, z.cells, 0, 0, 0, wrong, 1)
        self.assertRaises(TypeError, z.cell, "2", 1, 0)

    def test_what_is_kept_stays(self):
        z = page("page")
        for name in ("file", "shape", "elements"):
            self.assertRaises(AttributeError, setattr, z, name, b"")
        self.assertRaises(TypeError, Page.of_bytes, 16)
        self.assertRaises(TypeError, Page.of_bytes, "gvrs")


class Marks(Tests):
    """A fill is never a number."""

    def test_no_number(self):
        for mark in (Fill(7), Fill(-1.5), Outside(13), Outside(None)):
            self.assertNotIsInstance(mark, (int, float, complex))
            for use in (float, int, round, abs, math.floor, bool, hex, lambda x: x + 1, lambda x: 1 + x, lambda x: -x, lambda x: x < 9,
                        lambda x: 9 > x, lambda x: x * 2, lambda x: [0][x], lambda x: sum([1, x]), lambda x: f"{x:d}", lambda x: "%d" % x,
                        lambda x: statistics.mean([1, x]), lambda x: max(1, x), lambda x: range(x), lambda x: array.array("h", [x]),
                        lambda x: struct.pack("<h", x), lambda x: math.isnan(x), lambda x: not x):
                self.assertRaises((TypeError, struct.error), use, mark)

    def test_equal_to_its_like_alone(self):
        self.assertEqual(Fill(7), Fill(7))
        self.assertEqual(len({Fill(7), Fill(7), Fill(7.0), Outside(7)}), 3)
        self.assertNotEqual(Fill(7), 7)
        self.assertNotEqual(7, Fill(7))
        self.assertNotEqual(Fill(0.0), Fill(-0.0))
        self.assertEqual(Fill(math.nan), Fill(math.nan))
        self.assertEqual(copy.deepcopy(Fill(7)), Fill(7))
        self.assertRaises(AttributeError, setattr, Fill(7), "value", 8)

    def test_text(self):
        self.assertEqual(f"{Fill(7)} {Outside(13)} {Outside(None)} {[Fill(-1.5)]}", "fill(7) outside(13) outside [fill(-1.5)]")

    def test_refused(self):
        refused = self.assertRefused(7, 376, page("refused-7").check)
        self.assertEqual(str(refused), "refused 7 at 376: a record's checksum is wrong")
        self.assertEqual(refused.words, "a record's checksum is wrong")
        again = pickle.loads(pickle.dumps(refused))
        self.assertEqual((again.number, again.place, str(again)), (7, 376, str(refused)))


class LayDown(Tests):
    """Pages made from nothing, laid down and read back."""

    def laid(self, sides, elements, tiles, time=1, **options):
        front = gvrs.front(*sides, elements, **options)
        return Page.of_bytes(gvrs.lay_down(front, gvrs.pack(front, tiles), time))

    def test_sample_page(self):
        made = self.laid((3, 3, 2, 2), [("z", "Short", 7)], {2: {"z": [11, 12, 13, 14]}}, uuid=bytes(16)).file
        sample = page("page").file
        self.assertEqual(len(made), len(sample))
        differ = {at for at in range(len(made)) if made[at] != sample[at]}
        self.assertLessEqual(differ, {*range(295, 303), *range(332, 336)})  # the range, and the header's checksum with it

    def test_every_type(self):
        numbers = {"Short": [0, -1, 32767, -32768, 7, 900], "Integer": [0, -1, 2**31 - 1, -(2**31), 7, 900],
                   "integer-coded": [5, -5, 2**31 - 1, -(2**31), 0, 1], "Float": [0.0, -1.5, math.inf, -math.inf, 2.0**-149, 3.5]}
        for (type_, values), name, checksums in itertools.product(numbers.items(), ("z", "zz", "score_1", "A" * 32), (True, False)):
            with self.subTest(type=type_, name=name, checksums=checksums):
                made = self.laid((2, 6, 2, 3), [(name, type_, values[1])], {1: {name: values}}, checksums=checksums)
                made.check()
                fill = Fill(values[1])
                self.assertEqual(made.elements, ((name, type_, fill, ""),))
                self.assertIs(made.shape.checksums, checksums)
                self.assertEqual(made.cells(name, 0, 0, 2, 6), [[fill] * 3 + values[:3], [fill] * 3 + values[3:]])
                self.assertEqual(made.tile(1, 0), [values[:3], values[3:]])

    def test_several_elements_and_tiles(self):
        elements = [("a", "Integer", -1), ("bb", "integer-coded", 0), ("ccc", "Float", math.nan), ("dddd", "Short", -2), ("e5", "Short", 3)]
        tiles = {index: {name: [[10 * index + e, 1], [2, 3]] for e, (name, _, _) in enumerate(elements)} for index in (5, 0, 3)}
        made = self.laid((5, 4, 2, 2), elements, tiles, time=2**64 - 1)
        self.assertEqual(made.shape[:8], (5, 4, 2, 2, 3, 2, 5, 64))
        self.assertEqual((made.shape.stored_tiles, made.shape.time), (3, 2**64 - 1))
        for e, (name, _, fill) in enumerate(elements):
            for index in range(6):
                cell = made.cell(index // 2 * 2, index % 2 * 2, name)
                self.assertEqual(cell.value, 10 * index + e if index in tiles else Fill(fill))
        self.assertEqual(made.tile(5, "dddd"), [[53, 1], [Outside(2), Outside(3)]])

    def test_units(self):
        for units in itertools.product(("", "m", "mm", "\xb5m", "m\0s", "m" * 65535), repeat=2):
            with self.subTest(lengths=[len(unit) for unit in units]):
                elements = [("first", "Short", Fill(7), units[0]), ("second", "Float", Fill(0.5), units[1])]
                self.assertEqual(self.laid((1, 1, 1, 1), elements, {}).elements, tuple(elements))
        self.assertEqual(self.laid((1, 1, 1, 1), [("z", "Short", 7)], {}).elements[0].unit, "")
        self.assertRaises(ValueError, gvrs.front, 1, 1, 1, 1, [("z", "Short", 7, "m" * 65536)])
        self.assertRaises(TypeError, gvrs.front, 1, 1, 1, 1, [("z", "Short", 7, b"m")])
        self.assertRaises(TypeError, gvrs.front, 1, 1, 1, 1, [("z", "Short", 7, "m", "", "", 0, 9, 1, 0, False, "m")])

    def test_bytes_of_a_front(self):
        """As G's Tables 6 to 12 have them, written out here once more."""
        elements = [("a", "Short", -1), ("bb", "Integer", 5), ("ccc", "Float", 0.5), ("dddd", "integer-coded", 9, "m")]
        for count in range(1, 5):
            entries = b"".join(map(self.entry, elements[:count]))
            body = struct.pack("<16s64x4i8xB151xi", bytes(range(16)), 3, 4, 2, 2, 0, count) + entries + bytes(4 + 2 + 8)
            record = bytes(8) + body + bytes(4)
            record += bytes(-len(record) % 8)
            front = b"gvrs raster\0\1\4\0\0" + struct.pack("<IB3x", len(record), 6) + record[8:]
            self.assertEqual(gvrs.front(3, 4, 2, 2, elements[:count], checksums=False, uuid=bytes(range(16))), front)

    @staticmethod
    def entry(element):
        name, type_, fill, unit = (*element, "")[:4]
        code, letter, least, greatest = {"Short": (3, "h2x", -(2**15), 2**15 - 1), "Integer": (0, "i", -(2**31), 2**31 - 1),
                                         "Float": (2, "f", -math.inf, math.inf), "integer-coded": (1, "i", -(2**31), 2**31 - 1)}[type_]
        floats = struct.pack("<5f", least, greatest, fill, 1, 0) if code == 1 else b""
        head = struct.pack("<B7xH", code, len(name)) + name.encode() + floats + struct.pack("<" + 3 * letter, least, greatest, fill)
        head += bytes(-len(head) % 4) + struct.pack("<4xH", len(unit)) + unit.encode()
        return head + bytes(-len(head) % 4)

    def test_texts_ranges_and_methods(self):
        element = gvrs.NewElement("s", "integer-coded", -4, "m", "label", "d\xe9scription", -8, 12, 4, 0.5, True)
        front = gvrs.front(3, 3, 2, 2, [element], uuid=bytes(16), label="product", methods=["GvrsHuffman", "GvrsDeflate"])
        self.assertEqual(front[284:286], b"\1\1")
        block = struct.pack("<5f3i", -1.5, 3.5, -0.5, 4, 0.5, -8, 12, -4)
        self.assertEqual(front[295:327], block)
        texts = [b"label", "d\xe9scription".encode(), b"m"]
        strings = b"".join(struct.pack("<H", len(text)) + text for text in texts)
        self.assertEqual(front[328 : 328 + len(strings)], strings)
        behind = struct.pack("<IH11sH11sH7s8x", 2, 11, b"GvrsHuffman", 11, b"GvrsDeflate", 7, b"product")
        self.assertIn(behind, front)
        made = Page.of_bytes(gvrs.lay_down(front, {}, 1))
        self.assertEqual(made.elements, (("s", "integer-coded", Fill(-4), "m"),))
        self.assertRefused(3, 0, lambda: gvrs.front(3, 3, 0, 2, [element]))
        self.assertRaises(ValueError, gvrs.front, 3, 3, 2, 2, [element], label="m" * 65536)
        self.assertRaises(ValueError, gvrs.front, 3, 3, 2, 2, [element], methods=["m" * 65536])

    def test_page_laid_down_again(self):
        for name in ("four-types", "units"):
            old = page(name)
            again = Page.of_bytes(gvrs.lay_down(gvrs.front(*old.shape[:4], old.elements), {}, 1))
            self.assertEqual(again.elements, old.elements)
            self.assertEqual(again.shape.stored_tiles, 0)
        front = page("page").file[:336]
        kept = gvrs.lay_down(front, gvrs.pack(front, {2: {"z": [11, 12, 13, 14]}}), 1)
        self.assertEqual(kept, page("page").file)

    def test_uuid(self):
        one, other = (gvrs.front(3, 3, 2, 2, [("z", "Short", 7)])[24:40] for _ in range(2))
        self.assertNotEqual(one, other)
        self.assertEqual(gvrs.front(3, 3, 2, 2, [("z", "Short", 7)], uuid=one)[24:40], one)
        self.assertRaises(ValueError, gvrs.front, 3, 3, 2, 2, [("z", "Short", 7)], uuid=b"z")

    def test_fronts_that_break_a_rule(self):
        z = [("z", "Short", 7)]
        for number, sides, elements in (
            (3, (0, 3, 2, 2), z), (3, (3, 3, 2, 0), z), (3, (3, 3, 2, 2), []), (3, (3, 3, 2, 2), z + z),
            (3, (3, 3, 2, 2), [("_z", "Short", 7)]), (3, (3, 3, 2, 2), [("z_", "Short", 7)]), (3, (3, 3, 2, 2), [("", "Short", 7)]),
            (3, (3, 3, 2, 2), [("z" * 33, "Short", 7)]), (3, (3, 3, 2, 2), [("é", "Short", 7)]), (4, (65537, 1, 2, 2), z),
            (4, (3, 3, 2, 4097), z), (4, (65536, 2, 1, 1), z), (4, (3, 3, 1024, 1024), z), (4, (2**31 - 1, 3, 2, 2), z),
            (4, (3, 3, 2, 2), [(f"z{number}", "Short", 7) for number in range(17)]),
        ):
            with self.subTest(sides=sides, elements=elements):
                self.assertRefused(number, 0, lambda: self.laid(sides, elements, {}))
        self.laid((65536, 65536, 256, 256), [(f"z{number}", "Short", 7) for number in range(8)], {}).check()

    def test_input_that_is_wrong(self):
        z, front = [("z", "Short", 7)], gvrs.front(3, 3, 2, 2, [("z", "Short", 7)])
        self.assertRefused(12, 0, lambda: gvrs.lay_down(front, {}, 0), "the time is 0")
        for index in (4, 2**32 - 1):
            self.assertRefused(12, 0, lambda: gvrs.lay_down(front, {index: bytes(8)}, 1), f"tile {index}: there are tiles 0 to 3")
        for count in (7, 9, 0, 16):
            self.assertRefused(12, 0, lambda: gvrs.lay_down(front, {3: bytes(count)}, 1), f"tile 3: {count} bytes, and its cells take 8")
        self.assertRefused(1, 0, lambda: gvrs.lay_down(b"", {}, 1))
        self.assertRefused(3, 0, lambda: gvrs.lay_down(front + b"\0", {}, 1))
        long = gvrs.front(100, 100, 1, 1, [(f"z{number}", "Integer", 7) for number in range(16)])
        self.assertEqual(len(gvrs.lay_down(long, {i: bytes(64) for i in range(10000)}, 1)) % 8, 0)
        large = gvrs.front(4096, 4096, 512, 512, [("z", "Integer", 7)])
        self.assertRefused(4, 0, lambda: gvrs.lay_down(large, {i: bytes(2**20) for i in range(16)}, 1))
        for wrong in (-1, 2**64):
            self.assertRaises(ValueError, gvrs.lay_down, front, {}, wrong)
        for wrong in (-1, 2**32):
            self.assertRaises(ValueError, gvrs.lay_down, front, {wrong: bytes(8)}, 1)
        for wrong in ([(0, bytes(8)), (0, bytes(8))], None, b"", 0):
            self.assertSays(TypeError, "tiles has to be a dict", gvrs.lay_down, front, wrong, 1)
        for wrong in (-1, 2**31, 2**64):
            for position in range(4):
                self.assertRaises(ValueError, gvrs.front, *[wrong if i == position else 2 for i in range(4)], z)

    def test_bytes_of_each_tile(self):
        front = gvrs.front(3, 3, 2, 2, [("z", "Short", 7)])
        tiles = {1: bytes(9), 0: bytes(8), 3: bytes(7)}  # as many bytes together as three tiles take
        self.assertRefused(12, 0, lambda: gvrs.lay_down(front, tiles, 1), "tile 1: 9 bytes, and its cells take 8")

    def test_elements_that_are_none(self):
        for wrong in ("z", ("z",), ("z", "Short"), (b"z", "Short", 7), None, ("z", "Short", None), ("z", "Short", 1.5),
                      ("z", "Float", "1"), ("z", "Short", True)):
            self.assertRaises(TypeError, gvrs.front, 3, 3, 2, 2, [wrong])
        for wrong in (("z", "short", 7), ("z", None, 7), ("z", "Short", 32768), ("z", "Integer", 2**31), ("z" * 65536, "Short", 7)):
            self.assertRaises(ValueError, gvrs.front, 3, 3, 2, 2, [wrong])


class Sheets(Tests):
    """Score sheets moved into pages, and pages out to score sheets."""

    FRONT = gvrs.front(2, 3, 2, 2, [("score", "Short", -1)])
    SCORES = [900, -1, 1000, -1, -1, 0]

    @staticmethod
    def of(rows, columns, scores):
        return struct.pack(">IBHH", 5 + 2 * len(scores), 1, rows, columns) + struct.pack(f">{len(scores)}h", *scores)

    def laid(self, tiles):
        return Page.of_bytes(gvrs.lay_down(self.FRONT, gvrs.pack(self.FRONT, tiles), 1))

    def test_sample(self):
        sheet = bytes.fromhex("00000011 01 0002 0003 0384 ffff 03e8 ffff ffff 0000")
        self.assertEqual(self.of(2, 3, self.SCORES), sheet)
        made = Page.of_bytes(gvrs.from_sheet(self.FRONT, sheet, 9))
        self.assertEqual(made.cells("score", 0, 0, 2, 3), [[900, -1, 1000], [-1, -1, 0]])
        self.assertEqual(made.tile(1, "score"), [[1000, Outside(-1)], [0, Outside(-1)]])
        self.assertEqual((made.shape.time, made.shape.stored_tiles), (9, 2))
        self.assertEqual(made.deed("score", 0, 0, 2, 3), Deed("unread", 3, 0, 1000))
        self.assertEqual(made.sheet(), sheet)

    def test_there_and_back(self):
        for rows, columns, tile_rows, tile_columns in ((1, 1, 1, 1), (3, 5, 2, 2), (5, 3, 1, 4), (40, 30, 7, 11)):
            front = gvrs.front(rows, columns, tile_rows, tile_columns, [("s", "Short", -1)], checksums=rows > 1)
            for scores in ([-1], [1000], [-1, 0, 1, 999, 1000], [-1] * 37 + [7]):
                sheet = self.of(rows, columns, [scores[at % len(scores)] for at in range(rows * columns)])
                for kind in (bytes, bytearray, memoryview):
                    self.assertEqual(Page.of_bytes(gvrs.from_sheet(front, kind(sheet), 1)).sheet(), sheet)

    def test_fills_and_stored(self):
        unread = Page.of_bytes(gvrs.from_sheet(self.FRONT, self.of(2, 3, [-1] * 6), 1))
        self.assertEqual(unread.cells(0, 0, 0, 2, 3), [[Fill(-1)] * 3] * 2)
        stored = self.laid({0: {"score": [-1] * 4}, 1: {"score": [-1, 5, -1, 1001]}})  # past the grid anything
        self.assertEqual(stored.sheet(), unread.sheet())
        again = Page.of_bytes(gvrs.from_sheet(self.FRONT, stored.sheet(), 1))
        self.assertEqual(again.file, unread.file)

    def test_bad_sheets(self):
        good, no_sheet = self.of(2, 3, self.SCORES), "the sheet is no score sheet"
        bad = [b"", good[:-1], good + b"\0", b"\1" + good[1:], good[:4] + b"\2" + good[5:], self.of(3, 2, self.SCORES), self.of(0, 0, [])]
        for sheet in bad + [self.of(2, 3, self.SCORES[:-1] + [number]) for number in (-2, 1001, -32768, 32767)]:
            self.assertRefused(12, 0, lambda: gvrs.from_sheet(self.FRONT, sheet, 1), no_sheet)
        for elements in ([("s", "Short", 0)], [("s", "Integer", -1)], [("s", "Short", -1), ("t", "Short", -1)]):
            self.assertRefused(12, 0, lambda: gvrs.from_sheet(gvrs.front(2, 3, 2, 2, elements), good, 1), no_sheet)
        self.assertRefused(12, 0, lambda: gvrs.from_sheet(self.FRONT, good, 0), "the time is 0")
        self.assertRefused(1, 0, lambda: gvrs.from_sheet(b"", good, 1))

    def test_no_sheets(self):
        element = "the page has not one element only, a Short with the fill -1"
        for name in ("page", "four-types", "no-rule"):
            self.assertRefused(12, 0, page(name).sheet, element)
        self.assertRefused(12, 0, page("tall").sheet, "the grid has more rows, columns or cells than a sheet can have")
        self.assertRefused(12, 0, page("no-scores").sheet, "a cell is neither -1 nor from 0 to 1000")
        self.assertRefused(9, 16, page("refused-9").sheet)
        for number in (-2, 1001):
            self.assertRefused(12, 0, self.laid({1: {"score": [number, 0, 0, 0]}}).sheet, "a cell is neither")
        self.assertEqual(page("right-scores").sheet(), self.of(2, 3, self.SCORES))

    def test_arguments(self):
        sheet = self.of(2, 3, self.SCORES)
        for arguments in ((None, sheet, 1), (self.FRONT, "sheet", 1), (self.FRONT, None, 1), (self.FRONT, sheet, None), (self.FRONT, sheet, 1.0)):
            self.assertRaises(TypeError, gvrs.from_sheet, *arguments)
        for time in (-1, 2**64):
            self.assertRaises(ValueError, gvrs.from_sheet, self.FRONT, sheet, time)


class Replays(Tests):
    """Correction logs replayed on pages."""

    @staticmethod
    def of(*entries):
        """The log of entries: a tile's index and its bytes, or None where it is removed."""
        rest = b"\1" + b"".join(struct.pack(">BI", 2 if cells is None else 1, index) + (cells or b"") for index, cells in entries)
        return struct.pack(">I", len(rest)) + rest

    def test_to_the_end(self):
        log = self.of((0, b"\x11" * 8), (2, None), (2, None))
        self.assertEqual(log, bytes.fromhex("00000018 01 01 00000000 1111111111111111 02 00000002 02 00000002"))
        for kind in (bytes, bytearray, memoryview):
            corrected = Page.of_bytes(page("page").replay(kind(log), 9))
            corrected.check()
            self.assertEqual((corrected.shape.stored_tiles, corrected.shape.time), (1, 9))
            self.assertEqual(corrected.tile(0, "z"), [[0x1111, 0x1111], [0x1111, 0x1111]])
            self.assertEqual(corrected.cell(2, 0, "z").value, Fill(7))

    def test_the_last_entry_decides(self):
        cells = [bytes([number] * 8) for number in range(4)]
        one = page("page").replay(self.of((3, cells[0]), (1, cells[0]), (3, None), (2, cells[1]), (1, cells[2]), (2, cells[3])), 9)
        two = page("page").replay(self.of((2, cells[3]), (3, None), (1, cells[2])), 9)
        self.assertNotEqual(one, two)
        for index in range(4):
            self.assertEqual(Page.of_bytes(one).tile(index, "z"), Page.of_bytes(two).tile(index, "z"))

    def test_no_entry(self):
        self.assertEqual(Page.of_bytes(page("page").replay(self.of(), 9)).shape[:10], page("page").shape[:10])

    def test_bad_logs(self):
        good, no_log = self.of((0, bytes(8)), (2, None)), "the log is no correction log of this page"
        for log in [good[:length] for length in range(len(good))] + [good + b"\0", self.of((4, None)), self.of((0, bytes(7)))]:
            self.assertRefused(12, 0, lambda: page("page").replay(log, 9), no_log)
        self.assertRefused(12, 0, lambda: page("page").replay(good, 0), "the time is 0")
        self.assertRefused(5, 0, lambda: page("refused-5").replay(good, 9))
        self.assertSays(TypeError, "log has to be bytes", page("page").replay, "log", 9)
        self.assertSays(ValueError, "time is -1", page("page").replay, good, -1)

    def test_stopped(self):
        large = page("large-tiles")
        size = large.shape.tile_bytes
        log = self.of(*((index, bytes([index]) * size) for index in range(20)))
        stopped = self.assertRefused(13, 0, lambda: large.replay(log, 9), "stopped behind 15 entries")
        self.assertIsInstance(stopped, gvrs.Stopped)
        self.assertEqual((stopped.entries, Page.of_bytes(stopped.file).shape.stored_tiles), (15, 15))
        again = pickle.loads(pickle.dumps(stopped))
        self.assertEqual((again.number, again.entries, again.file), (13, 15, stopped.file))


class Squeezes(Tests):
    """Pages squeezed tight, by themselves and behind a log."""

    LOG = Replays.of((2, None), (0, b"\x11" * 8), (3, b"\x22" * 8), (0, None))

    def test_squeezed(self):
        worn = Page.of_bytes(page("page").replay(self.LOG, 9))
        squeezed = Page.of_bytes(worn.squeeze(10))
        squeezed.check()
        self.assertEqual((len(worn.file), len(squeezed.file)), (488, 424))
        self.assertEqual(gvrs.compare(worn, squeezed).number, 0)
        self.assertEqual(squeezed.shape.time, 10)
        self.assertEqual(squeezed.squeeze(10), squeezed.file)

    def test_behind_a_log(self):
        self.assertEqual(page("page").replay(self.LOG, 9, squeeze=True), Page.of_bytes(page("page").replay(self.LOG, 9)).squeeze(9))
        again = page("page")
        for _ in range(20):
            again = Page.of_bytes(again.replay(self.LOG, 9, squeeze=True))
            self.assertEqual(len(again.file), 424)

    def test_packed(self):
        packed = page("packed", compressor=3)
        squeezed = Page.of_bytes(packed.squeeze(9), compressor=3)
        self.assertEqual(repr(squeezed.cells("score", 0, 0, 2, 15)), repr(packed.cells("score", 0, 0, 2, 15)))

    def test_refused(self):
        self.assertRefused(12, 0, lambda: page("page").squeeze(0), "the time is 0")
        self.assertRefused(5, 0, lambda: page("refused-5").squeeze(9))
        self.assertSays(ValueError, "time is -1", page("page").squeeze, -1)


class Packing(Tests):
    FRONT = gvrs.front(3, 3, 2, 2, [("z", "Short", 7)])
    TWO = gvrs.front(3, 3, 2, 2, [("glyph", "Integer", 0), ("score", "Short", -1)])

    def front(self, type_):
        return gvrs.front(3, 3, 2, 2, [("z", type_, 7)])

    def pack(self, values, type_="Short", **options):
        """What tile 2 is packed as, or None where it is left out."""
        return gvrs.pack(self.front(type_), {2: {"z": values}}, **options).get(2)

    def deed(self, file):
        """What a deed of the whole grid says of the last element: its grade, the fills, and the lowest score or None."""
        shape, memory, out = Page.of_bytes(file).shape, (ctypes.c_uint32 * 4)(), (ctypes.c_uint64 * 3)()
        wide = [ctypes.c_uint64(number) for number in (shape.elements - 1, 0, 0, shape.rows, shape.columns)]
        deed = gvrs._library.gvrs_deed
        deed.restype = ctypes.c_uint32
        grade = deed(file, ctypes.c_uint64(len(file)), ctypes.c_uint32(256), *wide, memory, ctypes.c_uint64(4), out, ctypes.c_uint64(3))
        lowest = struct.unpack("<h", struct.pack("<H", out[2]))[0] if out[1] else None
        return {64: "certain", 65: "doubtful", 66: "unread"}[grade], out[0], lowest


class Pack(Packing):
    """What becomes the cells of a page, and what does not."""

    def test_numbers(self):
        self.assertEqual(self.pack([[1, -1], (256, 0)]), b"\1\0\xff\xff\0\1\0\0")
        for values in ([1, 2, 3, 4], (1, 2, 3, 4), range(1, 5), [range(1, 3), [3, 4]], ((1, 2), (3, 4))):
            self.assertEqual(self.pack(values), struct.pack("<4h", 1, 2, 3, 4))
            self.assertEqual(self.pack(values, "Integer"), struct.pack("<4i", 1, 2, 3, 4))
            self.assertEqual(self.pack(values, "integer-coded"), struct.pack("<4i", 1, 2, 3, 4))
            self.assertEqual(self.pack(values, "Float"), struct.pack("<4f", 1, 2, 3, 4))
        self.assertEqual(self.pack([1.5, 2, 0.1, -math.inf], "Float"), struct.pack("<4f", 1.5, 2, 0.1, -math.inf))

    def test_numbers_that_do_not_fit(self):
        for type_, wrong in (("Short", 32768), ("Short", -32769), ("Short", 10**40), ("Integer", 2**31), ("Integer", -(2**31) - 1),
                             ("integer-coded", 2**31), ("integer-coded", -(2**31) - 1), ("Float", 1e39), ("Float", -1e39), ("Float", 10**400)):
            bits = 16 if type_ == "Short" else 32
            text = f"row 1, column 0 of tile 2, element 'z': {wrong} does not fit the {bits} bits of a {type_}"
            self.assertSays(ValueError, text, self.pack, [1, 2, wrong, 4], type_)
            self.assertSays(ValueError, text, self.pack, [[1, 2], [wrong, 4]], type_)
            self.assertSays(ValueError, "row 0, column 1 of tile 2", self.pack, [1, None, 3, 4], type_, unread=wrong)

    def test_no_numbers(self):
        for type_, wrong in (("Short", 1.0), ("Integer", 1.5), ("integer-coded", math.nan), ("Short", Fill(7)), ("Float", Fill(1.5)),
                             ("Float", Outside(1.0)), ("Short", Outside(None)), ("Float", "1"), ("Short", "1"), ("Short", b"1"),
                             ("Float", 1j), ("Short", True), ("Integer", False), ("Float", True), ("Short", [1]),
                             ("Short", Refused(11, None))):
            word = "number" if type_ == "Float" else "whole number"
            text = f"row 0, column 1 of tile 2, element 'z': {wrong!r} is no {word}"
            self.assertSays(TypeError, text, self.pack, [1, wrong, 3, 4], type_)
            self.assertSays(TypeError, text, self.pack, [1, None, 3, 4], type_, unread=wrong)

    def test_shape_of_numbers(self):
        for wrong, given in (([1, 2, 3], "3 numbers"), ([], "0 numbers"), (range(5), "5 numbers"), ([[1, 2], 3, 4], "3 numbers"),
                             ([[1, 2], [3]], "3 numbers in rows of 1 and 2"), ([[1, 2, 3], [4]], "4 numbers in rows of 1 and 3"),
                             ([[1, 2, 3, 4]], "4 numbers in rows of 4"), ([[1], [2], [3], [4]], "4 numbers in rows of 1"),
                             ([[1, 2], [3, 4], [5, 6]], "6 numbers in rows of 2"), ([[], []], "0 numbers in rows of 0"),
                             ([[[1, 2], [3, 4]]], "2 numbers in rows of 2")):
            self.assertSays(ValueError, f"tile 2, element 'z': {given}, and a tile has 2 by 2 cells", self.pack, wrong)

    def test_no_cells(self):
        for wrong in (b"\1\2\3\4", bytearray(8), memoryview(array.array("h", [1, 2, 3, 4])), "1234", {1: 2, 3: 4, 5: 6, 7: 8}, {1, 2, 3, 4},
                      iter([1, 2, 3, 4]), 1, None, Fill(7), (ctypes.c_int16 * 4)(1, 2, 3, 4)):
            text = f"tile 2, element 'z': cells are numbers, or an array of Python or of NumPy, and not {type(wrong).__name__}"
            self.assertSays(TypeError, text, self.pack, wrong)

    def test_arrays_of_python(self):
        for type_, letter in itertools.product(TYPES, "bBhHiIlLqQfd"):
            given = array.array(letter, [1, 2, 3, 4])
            if letter == LETTERS[type_]:
                self.assertEqual(self.pack(given, type_), struct.pack(f"<4{letter}", 1, 2, 3, 4))
                for count in (0, 2, 3, 5, 8):
                    text = f"tile 2, element 'z': an array of type {letter} and shape ({count},), and wanted are type {letter} and shape (4,)"
                    self.assertSays(ValueError, text, self.pack, array.array(letter, range(count)), type_)
            else:
                text = f"tile 2, element 'z': an array of type {letter} and shape (4,), and wanted are type {LETTERS[type_]} and shape (4,)"
                self.assertSays(TypeError, text, self.pack, given, type_)
        self.assertEqual(self.pack(array.array("i", [1, 2, 3, -4]).tolist()), struct.pack("<4h", 1, 2, 3, -4))

    def test_wider_numbers_are_not_scattered(self):
        two = array.array("i", [950, 950])  # as many bytes as four Shorts
        self.assertSays(TypeError, "tile 0 has to be 8 bytes", gvrs.lay_down, self.FRONT, {0: two}, 1)
        self.assertSays(TypeError, "type i and shape (2,), and wanted are type h and shape (4,)", self.pack, two)
        self.assertSays(ValueError, "2 numbers, and a tile has 2 by 2 cells", self.pack, two.tolist())

    def test_elements(self):
        glyphs, scores = [1, 2, 3, 4], array.array("h", [900, 910, 920, 930])
        packed = gvrs.pack(self.TWO, {0: {"score": scores, "glyph": glyphs}, 3: {"glyph": glyphs, "score": scores}})
        self.assertEqual(packed, dict.fromkeys((0, 3), struct.pack("<4i4h", 1, 2, 3, 4, 900, 910, 920, 930)))
        self.assertRaises(TypeError, gvrs.pack, self.TWO, {0: {"score": glyphs, "glyph": scores}})
        for wrong, given in (({"score": scores}, "score"), ({}, ""), ({"glyph": glyphs, "score": scores, "z": scores}, "glyph, score, z"),
                             ({0: glyphs, 1: scores}, "0, 1"), ([glyphs, scores], "list"), (bytes(24), "bytes"), (None, "NoneType")):
            text = f"tile 3: wanted is a dict with the cells of glyph, score, and not {given}"
            self.assertSays(TypeError, text, gvrs.pack, self.TWO, {3: wrong})

    def test_indexes(self):
        for index in (4, 2**32 - 1):
            for cell in (1, None):
                self.assertRefused(12, 0, lambda: gvrs.pack(self.FRONT, {index: {"z": [cell] * 4}}), f"tile {index}: there are tiles 0 to 3")
        for wrong in (-1, 2**32):
            self.assertRaises(ValueError, gvrs.pack, self.FRONT, {wrong: {"z": [1] * 4}})
        self.assertSays(TypeError, "tiles has to be a dict", gvrs.pack, self.FRONT, [(0, {"z": [1] * 4})])
        self.assertEqual(gvrs.pack(self.FRONT, {}), {})

    def test_page_or_front(self):
        for given in (page("page"), page("page").file[:336]):
            self.assertEqual(gvrs.pack(given, {2: {"z": [1, 2, 3, 4]}}), {2: struct.pack("<4h", 1, 2, 3, 4)})
        self.assertRefused(1, 0, lambda: gvrs.pack(b"", {}))
        self.assertRefused(7, 376, lambda: gvrs.pack(page("refused-7"), {}))
        self.assertRaises(TypeError, gvrs.pack, "Short", {})

    def test_masked_cells(self):
        for at in range(4):
            values = [None if i == at else 900 + i for i in range(4)]
            text = f"row {at // 2}, column {at % 2} of tile 2, element 'z', is masked"
            for given in (values, [values[:2], values[2:]]):
                self.assertSays(ValueError, text, self.pack, given)
                self.assertSays(ValueError, text, self.pack, given, unread={"y": -1})
                for unread in (-1, {"z": -1}, {"z": -1, "y": 5}):
                    self.assertEqual(self.pack(given, unread=unread), struct.pack("<4h", *(-1 if i == at else 900 + i for i in range(4))))

    def test_tiles_masked_whole(self):
        blank, some = [None] * 4, [1, 2, 3, 4]
        for unread in (None, -1, {"glyph": 0, "score": -1}):
            tiles = {0: {"glyph": blank, "score": blank}, 1: {"glyph": some, "score": some}}
            self.assertEqual(gvrs.pack(self.TWO, tiles, unread), {1: struct.pack("<4i4h", *some, *some)})
        for tile, name in (({"glyph": blank, "score": some}, "glyph"), ({"glyph": some, "score": blank}, "score")):
            self.assertSays(ValueError, f"row 0, column 0 of tile 3, element '{name}', is masked", gvrs.pack, self.TWO, {3: tile})
        self.assertEqual(gvrs.pack(self.TWO, {3: {"glyph": some, "score": blank}}, {"score": 5}), {3: struct.pack("<4i4h", *some, *[5] * 4)})
        self.assertRaises(ValueError, gvrs.pack, self.TWO, {3: {"glyph": blank, "score": [1, 2, 3]}})

    def test_what_a_deed_makes_of_it(self):
        front = gvrs.front(2, 4, 2, 2, [("score", "Short", -1)])
        read, part, blank = [[900, 910], [920, 930]], [[900, None], [920, 930]], [[None] * 2] * 2

        def deed(other, **options):
            return self.deed(gvrs.lay_down(front, gvrs.pack(front, {0: {"score": read}, 1: {"score": other}}, **options), 1))

        self.assertEqual(deed(read), ("certain", 0, 900))
        self.assertEqual(deed(blank), ("unread", 4, 900))
        self.assertEqual(deed(blank, unread=0), ("unread", 4, 900))
        self.assertEqual(deed(part, unread=0), ("doubtful", 0, 0))
        self.assertEqual(deed(part, unread=-1), ("unread", 1, 900))
        self.assertEqual(deed(part, unread=-2), ("doubtful", 0, -2))
        self.assertEqual(deed(part, unread=1001), ("doubtful", 0, 900))
        self.assertEqual(deed(part, unread=950), ("certain", 0, 900))

    def test_tiles_are_bytes(self):
        cells = struct.pack("<4h", 1, 2, 3, 4)
        kinds = (cells, bytearray(cells), memoryview(cells), memoryview(bytearray(b"0" + cells))[1:])
        laid = [gvrs.lay_down(self.FRONT, {2: tile}, 1) for tile in kinds]
        self.assertEqual(laid, laid[:1] * 4)
        self.assertEqual(Page.of_bytes(laid[0]).cells("z", 2, 0, 1, 2), [[1, 2]])
        two, four = array.array("i", [950, 950]), array.array("h", [1, 2, 3, 4])
        views = (memoryview(two), memoryview(four), *(memoryview(cells).cast(letter) for letter in "bcHQ?"), memoryview(cells).cast("B", (2, 4)),
                 memoryview(cells * 2)[::2], memoryview(cells)[::-1])
        for wrong in (two, four, array.array("B", cells), *views, (ctypes.c_uint8 * 8)(), [0] * 8, 8, "12345678", None):
            given = type(wrong).__name__
            if isinstance(wrong, memoryview):
                given = f"a memoryview of format {wrong.format!r} and shape {wrong.shape}"
            text = f"tile 2 has to be 8 bytes, as bytes, bytearray or a contiguous memoryview of format 'B', and not {given}: "
            self.assertSays(TypeError, text, gvrs.lay_down, self.FRONT, {0: bytes(8), 2: wrong}, 1)

    def test_numpy_is_not_imported(self):
        text = "import sys, gvrs; gvrs.pack(gvrs.front(1, 1, 1, 1, [('z', 'Short', 7)]), {0: {'z': [1]}}); print('numpy' in sys.modules)"
        done = subprocess.run([sys.executable, "-c", text], capture_output=True, text=True)
        self.assertEqual((done.stdout, done.stderr), ("False\n", ""))


@unittest.skipUnless(numpy, "NumPy is missing")
class Arrays(Packing):
    """Arrays of NumPy, and what is masked in them."""

    def masked(self, mask, under=950):
        return numpy.ma.MaskedArray(numpy.full((2, 2), under, "<i2"), mask)

    def test_masked_cells_are_no_scores(self):
        unread = numpy.ma.masked_all((2, 2), "<i2")
        unread.data[:] = 950
        self.assertSays(TypeError, "tile 0 has to be 8 bytes", gvrs.lay_down, self.FRONT, {0: unread}, 1)
        self.assertSays(TypeError, "not a memoryview of format 'h'", gvrs.lay_down, self.FRONT, {0: memoryview(unread)}, 1)
        front = gvrs.front(2, 2, 2, 2, [("z", "Short", 7)])
        for options in ({}, {"unread": 0}):
            packed = gvrs.pack(front, {0: {"z": unread}}, **options)
            self.assertEqual(packed, {})
            self.assertEqual(self.deed(gvrs.lay_down(front, packed, 1)), ("unread", 4, None))

    def test_wider_numbers_are_not_scattered(self):
        two = numpy.array([[900], [910]], "<i4")  # as many bytes as four Shorts
        self.assertSays(TypeError, "tile 0 has to be 8 bytes", gvrs.lay_down, self.FRONT, {0: two}, 1)
        self.assertSays(TypeError, "type int32 and shape (2, 1), and wanted are type int16 and shape (2, 2)", self.pack, two)
        self.assertSays(ValueError, "2 numbers in rows of 1, and a tile has 2 by 2 cells", self.pack, two.tolist())

    def test_other_byte_order_is_not_swapped(self):
        scores = numpy.array([[900, 910], [920, 930]], ">i2")
        self.assertSays(TypeError, "tile 0 has to be 8 bytes", gvrs.lay_down, self.FRONT, {0: scores}, 1)
        self.assertEqual(self.pack(scores), struct.pack("<4h", 900, 910, 920, 930))

    def test_no_array_is_a_tile(self):
        for type_, shape in (("<i2", (2, 2)), ("<i2", 4), ("u1", 8), ("u1", (2, 4)), ("i1", 8), ("S8", 1), ("V8", ()), ("?", 8), ("<f4", 2)):
            self.assertSays(TypeError, "tile 0 has to be 8 bytes", gvrs.lay_down, self.FRONT, {0: numpy.zeros(shape, type_)}, 1)
            self.assertSays(TypeError, "tile 0 has to be 8 bytes", gvrs.lay_down, self.FRONT, {0: numpy.ma.zeros(shape, type_)}, 1)

    def test_types(self):
        given = {*numpy.typecodes["All"], "S4", "U2", "V4", "M8[s]", "m8[s]", "i2,i2", numpy.dtype([("z", "<i2")])}
        for type_, dtype, order, masked in itertools.product(TYPES, given, "<>", (False, True)):
            dtype = numpy.dtype(dtype).newbyteorder(order)
            cells = numpy.ma.zeros((2, 2), dtype) if masked else numpy.zeros((2, 2), dtype)
            with self.subTest(type=type_, dtype=dtype, masked=masked):
                if dtype.newbyteorder("=") == LETTERS[type_]:
                    self.assertEqual(self.pack(cells, type_), bytes(8 if type_ == "Short" else 16))
                else:
                    self.assertSays(TypeError, "tile 2, element 'z': an array of type ", self.pack, cells, type_)

    def test_values(self):
        for type_, order in itertools.product(TYPES, "<>="):
            letter = LETTERS[type_]
            values = [1.5, -math.inf, 3e38, -0.0] if letter == "f" else [1, -2, 255, -(2 ** (8 * struct.calcsize(letter) - 1))]
            cells = numpy.array(values, order + letter).reshape(2, 2)
            self.assertEqual(self.pack(cells, type_), struct.pack(f"<4{letter}", *values))

    def test_nans_keep_their_bits(self):
        bits = [0x7FC00000, 0x7F800001, 0xFFC12345, 0xFF912345]
        for order in "<>":
            self.assertEqual(self.pack(numpy.array(bits, order + "u4").view(order + "f4").reshape(2, 2), "Float"), struct.pack("<4I", *bits))
        packed = self.pack(numpy.ma.MaskedArray(numpy.ones((2, 2), "f4"), [[0, 1], [0, 0]]), "Float", unread=math.nan)
        self.assertEqual(packed, struct.pack("<4f", 1, math.nan, 1, 1))

    def test_shapes(self):
        for shape in ((), (4,), (1, 4), (4, 1), (2, 1), (2, 3), (3, 2), (1, 2, 2), (2, 2, 1), (0, 2), (2, 0), (8,)):
            text = f"tile 2, element 'z': an array of type int16 and shape {shape}, and wanted are type int16 and shape (2, 2)"
            self.assertSays(ValueError, text, self.pack, numpy.zeros(shape, "i2"))
            self.assertSays(ValueError, text, self.pack, numpy.ma.zeros(shape, "i2"))

    def test_orders_in_memory(self):
        front = gvrs.front(2, 3, 2, 3, [("z", "Short", 7)])
        large = numpy.arange(900, 964, dtype="i2").reshape(8, 8)
        with tempfile.TemporaryFile() as file:
            memory = numpy.memmap(file, "i2", "w+", shape=(8, 8))
            memory[:] = large
            for cells in (large[:2, :3], large[::4, ::3], large[::-5, ::-3], large[3:, 4:].T[:2, :3], numpy.asfortranarray(large[:2, :3]),
                          numpy.broadcast_to(large[0, :3], (2, 3)), numpy.broadcast_to(large[:2, :1], (2, 3)), memory[1:3, 2:5],
                          memory[1:7:3, 2::2], numpy.matrix(large[:2, :3]), numpy.matrix(large[:3, :2]).T, large.astype(">i2")[:3:2, :5:2]):
                tile = gvrs.pack(front, {0: {"z": cells}})
                self.assertEqual(Page.of_bytes(gvrs.lay_down(front, tile, 1)).cells("z", 0, 0, 2, 3), cells.tolist())
                for at in itertools.product(range(2), range(3)):
                    other = numpy.ma.MaskedArray(cells, False)
                    other[at] = numpy.ma.masked
                    text = f"row {at[0]}, column {at[1]} of tile 0, element 'z', is masked"
                    self.assertSays(ValueError, text, gvrs.pack, front, {0: {"z": other}})
                    values = [-1 if (row, column) == at else cells[row, column] for row in range(2) for column in range(3)]
                    self.assertEqual(gvrs.pack(front, {0: {"z": other}}, unread=-1), {0: struct.pack("<6h", *values)})
            del memory, cells, other

    def test_masks(self):
        plain = struct.pack("<4h", *[950] * 4)
        for mask in (numpy.ma.nomask, False, numpy.zeros((2, 2), bool), [[0, 0], [0, 0]]):
            self.assertEqual(self.pack(self.masked(mask)), plain)
            self.assertEqual(self.pack(self.masked(mask), unread=-1), plain)
        self.assertIsNone(self.pack(self.masked(True)))
        self.assertIsNone(self.pack(self.masked(numpy.ones((2, 2), bool))))
        by_columns = self.masked(numpy.asfortranarray([[False, True], [False, False]]))
        self.assertTrue(by_columns.mask.flags.fnc)
        self.assertSays(ValueError, "row 0, column 1 of tile 2, element 'z', is masked", self.pack, by_columns)
        self.assertEqual(self.pack(by_columns, unread=-3), struct.pack("<4h", 950, -3, 950, 950))
        corner = self.masked([[0, 0], [0, 1]])
        shared = numpy.ma.MaskedArray(numpy.full((2, 2), 950, "i2"), corner.mask, copy=False)
        hard = self.masked([[0, 0], [0, 1]], under=1)
        hard.harden_mask()
        hard[:] = 950
        part = numpy.ma.MaskedArray(numpy.full((4, 4), 950, "i2"), numpy.eye(4))[2:, 1:3][::-1]
        for cells in (corner, shared, hard, corner.copy("F"), corner.astype(">i2"), corner.T, part):
            self.assertSays(ValueError, "row 1, column 1 of tile 2, element 'z', is masked", self.pack, cells)
            self.assertEqual(self.pack(cells, unread=-3), plain[:6] + struct.pack("<h", -3))

    def test_other_kinds_of_array(self):
        class Own(numpy.ndarray):
            pass

        class OwnMasked(numpy.ma.MaskedArray):
            pass

        cells = numpy.ones((2, 2), "i2")
        views = (cells.view(Own), cells.view(OwnMasked), cells.view(numpy.recarray), memoryview(cells), cells.flat)
        for wrong in (*views, numpy.ma.masked, numpy.int16(1), numpy.void(bytes(8))):
            text = f"tile 2, element 'z': cells are numbers, or an array of Python or of NumPy, and not {type(wrong).__name__}"
            self.assertSays(TypeError, text, self.pack, wrong)

    def test_lists_of_arrays(self):
        cells = self.masked([[0, 1], [0, 0]])
        self.assertRaises(ValueError, self.pack, list(cells))
        self.assertRaises(ValueError, self.pack, list(numpy.ones((2, 2), "i2")))
        self.assertRaises(TypeError, self.pack, list(numpy.ones((4, 1), "i2")))
        self.assertSays(ValueError, "row 0, column 1 of tile 2", self.pack, cells.tolist())
        self.assertSays(ValueError, "row 0, column 1 of tile 2", self.pack, [cells[0, 0], cells[0, 1], cells[1, 0], cells[1, 1]])
        self.assertEqual(self.pack([1, numpy.ma.masked, 3, 4], unread=-1), struct.pack("<4h", 1, -1, 3, 4))
        self.assertIsNone(self.pack([numpy.ma.masked] * 4))
        arrays = (numpy.ma.MaskedArray(950, True, "i2"), numpy.ma.MaskedArray(950, False, "i2"), numpy.array(950, "i2"), numpy.array([950], "i2"))
        others = (numpy.bool_(True), numpy.float32(1), numpy.float64(1), numpy.complex64(1), numpy.datetime64(1, "s"), numpy.str_("1"))
        for wrong in (*arrays, *others):
            self.assertSays(TypeError, "row 0, column 1 of tile 2", self.pack, [1, wrong, 3, 4])
            self.assertSays(TypeError, "row 0, column 0 of tile 2", self.pack, [None, 2, 3, 4], unread=wrong)
        self.assertRaises(TypeError, self.pack, [1, 2, 3, None], unread=numpy.ma.masked)

    def test_numbers_of_numpy(self):
        for kind in (numpy.int8, numpy.uint8, numpy.int16, numpy.uint16, numpy.int32, numpy.uint32, numpy.int64, numpy.uint64):
            self.assertEqual(self.pack([kind(number) for number in range(4)]), struct.pack("<4h", 0, 1, 2, 3))
            self.assertEqual(self.pack([None, 1, 2, 3], unread=kind(7)), struct.pack("<4h", 7, 1, 2, 3))
        for wrong in (numpy.uint16(40000), numpy.int64(2**40), numpy.uint64(2**64 - 1)):
            self.assertSays(ValueError, f"row 0, column 0 of tile 2, element 'z': {wrong} does not fit", self.pack, [wrong, 1, 2, 3])
        for kind in (numpy.float16, numpy.float32, numpy.float64):
            self.assertEqual(self.pack([kind(0.5), kind(math.inf), 2, kind(-1)], "Float"), struct.pack("<4f", 0.5, math.inf, 2, -1))

    def test_pages_at_random(self):
        chance = random.Random(1)
        for _ in range(60):
            rows, columns, tile_rows, tile_columns = (chance.randint(1, 5) for _ in range(4))
            elements = [(f"z{number}", chance.choice(TYPES), 7) for number in range(chance.randint(1, 3))]
            front = gvrs.front(rows, columns, tile_rows, tile_columns, elements)
            across = -(-columns // tile_columns)
            tiles, whole = {}, set()
            for index in range(-(-rows // tile_rows) * across):
                masks = chance.choice(("none", "some", "all"))
                for name, type_, _ in elements:
                    numbers = [chance.randint(-999, 999) for _ in range(tile_rows * tile_columns)]
                    cells = numpy.array(numbers, chance.choice("<>") + LETTERS[type_])
                    cells = numpy.ma.MaskedArray(cells.reshape((tile_rows, tile_columns), order=chance.choice("CF")), masks == "all")
                    if masks == "some":
                        cells.mask = [[chance.random() < 0.5 for _ in range(tile_columns)] for _ in range(tile_rows)]
                    tiles.setdefault(index, {})[name] = cells
                if all(cells.mask.all() for cells in tiles[index].values()):
                    whole.add(index)
            made = Page.of_bytes(gvrs.lay_down(front, gvrs.pack(front, tiles, unread=5), 1))
            self.assertEqual(made.shape.stored_tiles, len(tiles) - len(whole))
            for row, column, element in itertools.product(range(rows), range(columns), made.elements):
                index = row // tile_rows * across + column // tile_columns
                cell = tiles[index][element.name][row % tile_rows, column % tile_columns]
                wanted = element.fill if index in whole else 5 if cell is numpy.ma.masked else cell
                read = made.cell(row, column, element.name)
                self.assertEqual((read.value, read.tile, read.inside), (wanted, index, row % tile_rows * tile_columns + column % tile_columns))


class Library(Tests):
    """Where the library is looked for."""

    LIBRARY = gvrs._library._name

    def imported(self, module, **environment):
        """What a Python that imports the module says: where the library is, or the last line of what went wrong."""
        environment = {"PATH": os.environ["PATH"], "PYTHONDONTWRITEBYTECODE": "1", "PYTHONPATH": str(module), **environment}
        text = "import gvrs; print(gvrs._library._name)"
        done = subprocess.run([sys.executable, "-c", text], env=environment, capture_output=True, text=True)
        return (done.stdout or done.stderr).strip().split("\n")[-1]

    def test_places(self):
        with tempfile.TemporaryDirectory() as name:
            folder = Path(name).resolve()
            (folder / "lib/python3").mkdir(parents=True)
            module = folder / "lib/python3"
            shutil.copy(gvrs.__file__, module)
            self.assertRegex(self.imported(module), "ImportError: no library of the page store, .*: GVRS_LIBRARY is not set, .*/libgvrs.so")
            self.assertEqual(self.imported(module, GVRS_LIBRARY=self.LIBRARY), self.LIBRARY)
            shutil.copy(self.LIBRARY, folder / "lib/libgvrs.so")
            self.assertEqual(self.imported(module), str(folder / "lib/libgvrs.so"))
            shutil.copy(self.LIBRARY, module / "libgvrs.so")
            self.assertEqual(self.imported(module), str(module / "libgvrs.so"))
            self.assertEqual(self.imported(module, GVRS_LIBRARY=self.LIBRARY), self.LIBRARY)
            (module / "libgvrs.so").write_text("no library")
            self.assertIn("is no library of the page store", self.imported(module))
            self.assertIn("is no library of the page store", self.imported(module, GVRS_LIBRARY=str(folder / "none.so")))
            self.assertIn("is no library of the page store", self.imported(module, GVRS_LIBRARY="libc.so.6"))

    def test_threads(self):
        asked, wide, packed = [], page("wide"), page("packed", 3)

        def ask(number):
            asked.append((wide.cell(number, number, 0).value, packed.tile(0, 0)[1][3], page("page").cell(2, 1, "z").value))

        threads = [threading.Thread(target=ask, args=(number,)) for number in range(16)]
        for thread in threads:
            thread.start()
        for thread in threads:
            thread.join()
        self.assertEqual(sorted(asked), [(101 * number, 904, 12) for number in range(16)])


if __name__ == "__main__":
    unittest.main()
