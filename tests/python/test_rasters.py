"""Tests of the Python module gvrs: pages opened, asked once and closed; cells by rows, columns and slices; cells as arrays of NumPy, which
are left out where it is missing."""

import itertools
import math
import os
import random
import struct
import sys
import time
import unittest
from unittest import mock

import gvrs
from gvrs import Fill, Page, Refused
from test_gvrs import LETTERS, PAGES, TYPES, Tests, page

try:
    import numpy
except ImportError:
    numpy = None

NAMES = ("page", "four-types", "packed", "wide", "units", "second-rule")


def laid(rows, columns, tile_rows, tile_columns, elements, tiles):
    front = gvrs.front(rows, columns, tile_rows, tile_columns, elements)
    return Page.of_bytes(gvrs.lay_down(front, gvrs.pack(front, tiles), time=1))


class Opening(Tests):
    """What is refused on opening, and what is asked once."""

    def test_refused_on_opening(self):
        for number in range(1, 10):
            path = PAGES / f"refused-{number}.gvrs"
            looked_at = Page(path)
            place = self.assertRaisesRefused(looked_at.check).place
            for given in (path, str(path), os.fsencode(path)):
                refused = self.assertRefused(number, place, lambda: Page(given, check=True), f"refused {number} at {place}: ")
                self.assertEqual((refused.why, refused.path), (looked_at.explain(), str(path)))
                self.assertTrue(refused.in_full.startswith(f"{path}: {refused}"))
            refused = self.assertRefused(number, place, lambda: Page.of_bytes(looked_at.file, check=True))
            self.assertIsNone(refused.path)
            self.assertRefused(number, place, lambda: Page(path, 3, check=True))
            self.assertRefused(number, place, lambda: Page(path, "GvrsHuffman"))
            self.assertRefused(number, place, lambda: gvrs.compare(path, PAGES / "page.gvrs"))
        for name in ("too-long", "longer"):
            self.assertRefused(4, 0, lambda: Page(PAGES / f"{name}.gvrs", check=True))
        for name in NAMES:
            self.assertIsNone(Page(PAGES / f"{name}.gvrs", check=True).check())
        self.assertRaises(FileNotFoundError, Page, PAGES / "missing.gvrs")

    def assertRaisesRefused(self, ask):
        with self.assertRaises(Refused) as caught:
            ask()
        return caught.exception

    def test_looked_at(self):
        bad = page("refused-7")
        self.assertEqual(repr(bad), f"<gvrs.Page of {len(bad.file)} bytes>")
        self.assertEqual(bad.in_full, f"{PAGES / 'refused-7.gvrs'}: refused 7 at 376")
        self.assertEqual(bad.file, (PAGES / "refused-7.gvrs").read_bytes())
        for ask in (lambda: bad["z"], lambda: list(bad), lambda: len(bad), lambda: "z" in bad, lambda: bad.cells(0), lambda: bad.methods):
            self.assertRefused(7, 376, ask)

    def test_asked_once(self):
        """A read costs a read: what the page is, its elements and its check were told before."""
        for name, compressor in (("page", None), ("packed", 3), ("wide", None), ("four-types", None)):
            with self.subTest(name):
                asked = Page(PAGES / f"{name}.gvrs", compressor)
                element = asked.elements[0].name
                first = repr((asked.shape, asked.elements, asked.cells(element), asked.tiles(), asked.metadata, asked.methods))
                with mock.patch.object(gvrs, "_ask", wraps=gvrs._ask) as ask:
                    asked.check()
                    self.assertIsNone(asked.explain())
                    repr((asked, asked.shape, asked.elements, asked.tiles(), asked.metadata, asked.methods, asked.label, asked.uuid, asked.front))
                    self.assertEqual([call.args[0] for call in ask.mock_calls], [])
                    again = asked.cells(element)
                    asked[element][0:1, 0:1]
                    asked[element][0, 0]
                    asked.tile(0, element)
                    self.assertEqual(
                        [call.args[0] for call in ask.mock_calls], ["gvrs_cells", "gvrs_cells", "gvrs_cell_with", "gvrs_unpack"]
                    )
                told = (asked.shape, asked.elements, again, asked.tiles(), asked.metadata, asked.methods)
                self.assertEqual(repr(told), first)

    def test_a_refusal_is_asked_once(self):
        bad = page("refused-9")
        self.assertRefused(9, 16, bad.check)
        with mock.patch.object(gvrs, "_ask") as ask:
            for question in (bad.check, lambda: bad.shape, lambda: bad.cell(0, 0, 0), lambda: bad.tile(0, "z")):
                self.assertRefused(9, 16, question)
            self.assertEqual(bad.explain().rule, 49)
            self.assertEqual(ask.mock_calls, [])

    def test_elements_with_any_name(self):
        """Names that what is kept could be kept by."""
        names = ("page", "why", "tiles", "metadata", "methods", "element", "name")
        made = laid(1, 1, 1, 1, [(name, "Short", number) for number, name in enumerate(names)], {})
        made.tiles(), made.metadata, made.methods
        for _ in range(2):
            self.assertEqual([made[name].fill for name in names], [Fill(number) for number in range(len(names))])
            self.assertEqual([made.cell(0, 0, name).value for name in names], [Fill(number) for number in range(len(names))])

    def test_what_is_told_can_be_changed_by_no_one(self):
        asked = page("page")
        asked.tiles().clear()
        asked.cells("z").clear()
        self.assertEqual((len(asked.tiles()), len(asked.cells("z"))), (1, 3))

    def test_context_manager(self):
        with Page(PAGES / "page.gvrs") as asked:
            z = asked["z"]
            self.assertFalse(asked.closed)
        self.assertTrue(asked.closed)
        self.assertEqual(repr(asked), "<gvrs.Page, closed>")
        other = page("page")
        for ask in (lambda: asked.file, lambda: asked.shape, lambda: asked.elements, lambda: asked.cell(0, 0, 0), lambda: asked["z"],
                    lambda: z[0, 0], lambda: asked.check(), lambda: asked.tiles(), lambda: gvrs.compare(asked, other), lambda: asked.squeeze(),
                    lambda: asked.save("page.gvrs"), lambda: asked.explain()):
            self.assertSays(ValueError, "the page is closed", ask)
        asked.close()
        with self.assertRaises(ZeroDivisionError), Page(PAGES / "page.gvrs") as asked:
            1 / 0
        self.assertTrue(asked.closed)

    def test_a_mapping_of_names(self):
        four = page("four-types")
        self.assertEqual((list(four), len(four), list(four.keys())), (list("abcd"), 4, list("abcd")))
        self.assertEqual([(name, raster.type) for name, raster in four.items()], list(zip("abcd", TYPES)))
        self.assertTrue("a" in four and "e" not in four and 0 not in four)
        self.assertEqual((four[3].name, four["d"].name, four.get("e")), ("d", "d", None))
        for wrong in ("e", "", "A", 4, 2**64 - 1):
            self.assertSays(KeyError, "there are a, b, c, d", lambda: four[wrong])
        self.assertRaises(ValueError, lambda: four[-1])
        self.assertRaises(TypeError, lambda: four[1.0])
        self.assertEqual((four == four, four == page("four-types"), len({four, page("four-types")})), (True, False, 2))

    def test_names_and_texts(self):
        asked = page("page")
        self.assertEqual(asked.filename, str(PAGES / "page.gvrs"))
        sides = "3 by 3 cells in tiles of 2 by 2, 1 of 4 stored: z"
        self.assertEqual((repr(asked), asked.in_full), ("<gvrs.Page of 424 bytes>", f"{asked.filename}: {sides}"))
        of_bytes = Page.of_bytes(asked.file)
        self.assertEqual((of_bytes.filename, repr(of_bytes), of_bytes.in_full), (None, "<gvrs.Page of 424 bytes>", f"424 bytes: {sides}"))
        self.assertEqual(asked.front, asked.file[:336])


class Rasters(Tests):
    """Cells by rows and columns, as those of a list of rows."""

    def test_every_key(self):
        """Against the whole grid as a list of rows, of which Python takes the parts."""
        numbers, steps = [None, 0, 1, 2, 5, 15, 99, -1, -3, -99], [None, 1, 2, 7, -1, -2, -99]
        chance = random.Random(1)
        for name, compressor in (("page", None), ("packed", 3), ("four-types", None)):
            raster = page(name, compressor)[0]
            whole = [[str(cell) for cell in row] for row in raster[:]]

            def text(read):
                return [text(part) for part in read] if isinstance(read, list) else str(read)

            self.assertEqual(whole, text(page(name, compressor).cells(0)))
            for _ in range(300):
                rows, columns = (slice(*chance.choices(numbers, k=2), chance.choice(steps)) for _ in range(2))
                self.assertEqual(text(raster[rows, columns]), [row[columns] for row in whole[rows]])
                self.assertEqual(text(raster[rows]), whole[rows])
                self.assertEqual(text(raster[rows, ...]), whole[rows])
                self.assertEqual(text(raster[..., columns]), [row[columns] for row in whole])
                row = chance.randrange(-len(whole), len(whole))
                column = chance.randrange(-len(whole[0]), len(whole[0]))
                self.assertEqual(text(raster[row, columns]), whole[row][columns])
                self.assertEqual(text(raster[rows, column]), [cells[column] for cells in whole[rows]])
                self.assertEqual(text(raster[row]), whole[row])
                self.assertEqual(text(raster[..., column]), [cells[column] for cells in whole])
                if not whole[row][column].startswith("refused"):
                    self.assertEqual(text(raster[row, column]), whole[row][column])
            for key in (..., (), slice(None), (slice(None), slice(None)), (..., slice(None)), (slice(None), ..., slice(None))):
                self.assertEqual(text(raster[key]), whole)
            self.assertEqual(text(list(raster)), whole)

    def test_kinds_of_cells(self):
        packed = page("packed", 3)["score"]
        row = packed[1]
        self.assertEqual([cell if isinstance(cell, int) else repr(cell) for cell in (row[0], row[4], row[8], row[14])],
                         [901, "refused(14)", "refused(11)", "fill(950)"])
        self.assertEqual(f"{row[4]:>12}|{row[14]:>12}|{row[0]:>12}", " refused(14)|   fill(950)|         901")
        self.assertRefused(14, 512, lambda: packed[1, 4])
        self.assertRefused(11, 552, lambda: packed[1, 8])
        self.assertEqual(packed[1, 14], Fill(950))

    def test_keys_that_are_none(self):
        z = page("page")["z"]
        for key, text in ((3, "row 3: there are rows 0 to 2"), (-4, "row -4"), ((0, 3), "column 3: there are columns 0 to 2"),
                          ((slice(None), -4), "column -4"), ((0, 0, 0), "a page has rows and columns, and 3 keys are given"),
                          ((..., ...), "2 keys are given"), (2**70, "row 1180591620717411303424")):
            self.assertSays(IndexError, text, lambda: z[key])
        for key in ("z", 1.0, None, [0], [True, False, True], True, (0, False), Fill(0), (0, "1"), b"z", {}):
            self.assertSays(TypeError, "and has to be a whole number or a slice", lambda: z[key])
        self.assertRaises(ValueError, lambda: z[::0])
        self.assertRaises(TypeError, lambda: z[1.0:])
        self.assertFalse(hasattr(z, "__setitem__"))
        self.assertRaises(TypeError, lambda: 12 in z)

    def test_what_a_raster_is(self):
        score = page("packed", 3)["score"]
        self.assertEqual((score.shape, score.chunks, score.ndim, score.size, len(score)), ((2, 15), (2, 4), 2, 30, 2))
        self.assertEqual((score.name, score.type, score.fill, score.fillvalue), ("score", "Short", Fill(950), Fill(950)))
        self.assertEqual(score.element, score.page.elements[0])
        self.assertEqual(repr(score), "<gvrs.Raster 'score': 2 by 15 cells, Short, fill(950)>")

    def test_parts(self):
        for rows, columns, tile_rows, tile_columns in ((5, 7, 2, 3), (9, 4, 3, 4), (1, 1, 1, 1), (4, 6, 5, 7)):
            made = laid(rows, columns, tile_rows, tile_columns, [("z", "Short", 7)], {0: {"z": list(range(tile_rows * tile_columns))}})
            z = made["z"]
            for most in (*range(1, 40), gvrs.MOST_CELLS):
                parts = list(z.parts(most))
                spots = [(row, column) for part in parts for row in range(rows)[part[0]] for column in range(columns)[part[1]]]
                self.assertEqual(sorted(spots), list(itertools.product(range(rows), range(columns))))
                self.assertLessEqual(max(len(range(rows)[down]) * len(range(columns)[across]) for down, across in parts), most)
                if most >= tile_rows * columns:
                    self.assertTrue(all(down.start % tile_rows == 0 for down, _ in parts))
            self.assertEqual([row for part in z.parts(columns) for row in z[part]], made.cells("z"))
            self.assertSays(ValueError, "most is 0", lambda: list(z.parts(0)))
            self.assertSays(TypeError, "most is 1.5", lambda: list(z.parts(1.5)))

    def test_too_much_at_once(self):
        front = gvrs.front(65536, 65536, 256, 256, [("z", "Short", 7)])
        large = Page.of_bytes(gvrs.lay_down(front, {}, 1))
        text = "4294967296 cells are too many at once, since they would take more than 1 GiB: ask for at most 256 rows of 65536 columns, or go"
        for ask in (lambda: large.cells("z"), lambda: large["z"][:], lambda: large["z"][::-1, ::65535], lambda: large.cells(0, 0, 0, 65536, 65536)):
            self.assertSays(ValueError, text, ask)
        self.assertSays(ValueError, "page['z'].parts()", large.cells, "z")
        self.assertEqual(next(large["z"].parts()), (slice(0, 256), slice(0, 65536)))
        self.assertEqual(large["z"][65535, 65530:], [Fill(7)] * 6)
        self.assertRefused(10, 0, lambda: large.cells("z", 1, 0, 65536, 65536), "there are rows 0 to 65535")
        self.assertRefused(10, 0, lambda: large.cells("z", 0, 0, 2**64 - 1, 2**64 - 1))
        self.assertRefused(10, 0, lambda: large.cells(1, 0, 0, 65536, 65536))
        with mock.patch.object(gvrs, "MOST_CELLS", 8):
            z = page("page")
            self.assertSays(ValueError, "9 cells are too many at once", z.cells, "z")
            self.assertEqual(z.cells("z", 1), [[Fill(7)] * 3, [11, 12, Fill(7)]])

    def test_sides_that_are_not_given(self):
        z = page("page")
        self.assertEqual(z.cells("z"), z.cells("z", 0, 0, 3, 3))
        self.assertEqual(z.cells("z", 2), [[11, 12, Fill(7)]])
        self.assertEqual(z.cells("z", 1, 1), z.cells("z", 1, 1, 2, 2))
        self.assertEqual(z.cells("z", 3), [])
        self.assertEqual(z.deed("z", 2, columns=2), z.deed("z", 2, 0, 1, 2))
        self.assertRefused(10, 0, lambda: z.cells("z", 4), "there are rows 0 to 2")
        self.assertRefused(10, 0, lambda: z.cells("z", 0, 4))

    def test_no_plain_array(self):
        self.assertSays(TypeError, "page.array('z') is a masked one", page("page")["z"].__array__)

    def test_numpy_that_is_missing(self):
        with mock.patch.dict("sys.modules", {"numpy": None}):
            for ask in (lambda: page("page").array("z"), lambda: page("page").arrays("z"), lambda: page("page")["z"].array(),
                        lambda: page("page")["z"].dtype):
                self.assertSays(ImportError, "NumPy is not installed", ask)


class Formats(Tests):
    """What is no number in a table."""

    def test_width(self):
        for spec, text in (("", "fill(7)"), ("10", "   fill(7)"), (">10", "   fill(7)"), ("<10", "fill(7)   "), ("*^11", "**fill(7)**"), ("3", "fill(7)")):
            self.assertEqual(format(Fill(7), spec), text)
        self.assertEqual("{:>9}".format(Fill(-1.5)), "fill(-1.5)")
        for spec in ("d", "x", ".2f", "5d", "+", "08", ",", ".3", "s", "e", "5s", " ", "=8", "%"):
            self.assertSays(TypeError, f"fill(7) is no number: it takes a width, as in '>8', and not the format {spec!r}", format, Fill(7), spec)
            self.assertRaises(TypeError, format, gvrs.Outside(13), spec)

    def test_refused(self):
        self.assertEqual((format(Refused(11, None), "15"), f"{Refused(11, 5)}"), ("    refused(11)", "refused 11 at 5: the content asked for is compressed"))


@unittest.skipUnless(numpy, "NumPy is missing")
class ReadArrays(Tests):
    """Cells as arrays: numbers and kinds, and masked arrays in which no number is a fill."""

    LEAST = {"Short": -(2**15), "Integer": -(2**31), "integer-coded": -(2**31)}

    def test_as_lists(self):
        for name, compressor in ((name, compressor) for name in NAMES for compressor in (None, 3)):
            asked = page(name, compressor)
            for element in asked.elements:
                whole = asked.cells(element.name)
                cells, kinds = asked.arrays(element.name)
                self.assertEqual((cells.dtype, kinds.dtype), (numpy.dtype(LETTERS[element.type]), numpy.dtype("u4")))
                self.assertEqual((cells.shape, kinds.shape), (asked.shape[:2],) * 2)
                step = 1 if asked.shape.rows < 50 else 37
                for row, column in itertools.product(range(0, asked.shape.rows, step), range(0, asked.shape.columns, step)):
                    cell, number, kind = whole[row][column], cells[row, column], kinds[row, column]
                    if isinstance(cell, (Fill, Refused)):
                        self.assertEqual(kind, gvrs.FILL if isinstance(cell, Fill) else cell.number)
                        self.assertNotEqual(number, element.fill.value)
                    else:
                        self.assertIn(kind, (gvrs.STORED, gvrs.UNPACKED))
                        self.assertEqual(struct.pack("<f", number), struct.pack("<f", cell))

    def test_masked(self):
        z = page("page").array("z")
        self.assertIs(type(z), numpy.ma.MaskedArray)
        self.assertEqual(z.tolist(), [[None] * 3, [None] * 3, [11, 12, None]])
        self.assertEqual((z.data.tolist()[0], z.fill_value, z.filled().tolist()[2]), ([-32768] * 3, -32768, [11, 12, -32768]))
        self.assertEqual((float(z.mean()), int(z.count())), (11.5, 2))
        self.assertEqual(page("packed", 3).array("score", 0, 12).data.tolist(), [[-32768] * 3] * 2)
        self.assertEqual(page("page").array("z", 2, 0, 1, 2).mask.tolist(), [[False, False]])
        self.assertEqual(page("page").array("z", 3, 0, 0, 3).shape, (0, 3))

    def test_what_stands_under_the_mask(self):
        for type_, fill in itertools.product(TYPES, (0, 7, -1, -(2**15), -(2**31))):
            if type_ == "Short" and fill < -(2**15):
                continue
            made = laid(2, 4, 2, 2, [("z", type_, fill)], {0: {"z": [fill, 1, 2, 3]}})
            z = made.array("z")
            self.assertEqual((z[0, 0], z.mask.tolist()), (fill, [[False, False, True, True]] * 2))
            if type_ == "Float":
                self.assertTrue(numpy.isnan(z.data[:, 2:]).all() and numpy.isnan(z.fill_value))
            else:
                under = self.LEAST[type_] + (fill == self.LEAST[type_])
                self.assertEqual((set(z.data[:, 2:].ravel().tolist()), z.fill_value), ({under}, under))
            self.assertEqual(set(made.array("z", under=99).data[:, 2:].ravel().tolist()), {99})
            self.assertEqual(set(made.arrays("z", under=99).cells[:, 2:].ravel().tolist()), {99})
            self.assertSays(ValueError, f"under is {fill}, the fill of z", made.array, "z", under=fill)
        made = laid(1, 2, 1, 1, [("z", "Float", 0.1)], {0: {"z": [5]}})
        self.assertSays(ValueError, "the fill of z", made.array, "z", under=0.1)
        self.assertTrue(math.isnan(made.array("z", under=math.nan).data[0, 1]))
        for wrong in (32768, 1.5, True, "1", Fill(3)):
            self.assertRaises((TypeError, ValueError), page("page").array, "z", under=wrong)

    def test_the_old_error(self):
        """A fill that stands among scores draws a median towards itself by so little that no one sees it."""
        scores = [930, 935, 938, 941, 960]
        made = laid(2, 5, 1, 5, [("score", "Short", 950)], {0: {"score": scores}})
        score = made.array("score")
        self.assertEqual(float(numpy.ma.median(score)), 938)
        self.assertNotIn(950, score.data)
        self.assertLess(numpy.median(score.data), 0)

    def test_cells_that_cannot_be_read(self):
        self.assertRefused(11, 472, lambda: page("packed").array("score"))
        self.assertRefused(14, 512, lambda: page("packed", 3).array("score"))
        self.assertRefused(11, 552, lambda: page("packed", 3).array("score", 0, 8))
        cells, kinds = page("packed", 3).arrays("score", 1)
        self.assertEqual(kinds.tolist()[0], [34] * 4 + [14] * 4 + [11] * 4 + [33] * 3)
        self.assertEqual(cells.tolist()[0], [901, 902, 903, 904] + [-32768] * 11)
        self.assertEqual(page("packed", 3).array("score", 0, 0, 2, 4).tolist(), [[900, 901, 902, 903], [901, 902, 903, 904]])

    def test_keys(self):
        for name, compressor in (("page", None), ("four-types", None)):
            raster = page(name, compressor)[0]
            whole = raster.array()
            for key in (..., numpy.s_[0], numpy.s_[:, 1], numpy.s_[-1, 0:2], numpy.s_[::-1, ::2], numpy.s_[1:1], numpy.s_[:, 5:], numpy.s_[1:, -1]):
                read = raster.array(key)
                self.assertEqual((read.tolist(), read.shape), (whole[key].tolist(), whole[key].shape))
        self.assertEqual(raster.array(numpy.s_[::2, ::2], under=5).fill_value, 5)
        self.assertSays(IndexError, "row 9", raster.array, 9)
        z = laid(11, 10, 2, 5, [("z", "Short", 7)], {})["z"]
        self.assertEqual([z.array(part).shape for part in z.parts(50)], [(4, 10), (4, 10), (3, 10)])

    def test_refused(self):
        self.assertRefused(10, 0, lambda: page("page").array("z", 0, 0, 4, 3), "there are rows 0 to 2")
        self.assertRefused(10, 0, lambda: page("page").array("y"))
        front = gvrs.front(65536, 65536, 256, 256, [("z", "Short", 7)])
        large = Page.of_bytes(gvrs.lay_down(front, {}, 1))
        self.assertSays(ValueError, "ask for at most 1024 rows of 65536 columns", large.array, "z")

    def test_no_plain_array(self):
        for ask in (numpy.asarray, numpy.array, numpy.mean, numpy.ma.array):
            self.assertSays(TypeError, "page.array('z') is a masked one", ask, page("page")["z"])

    def test_packed_again(self):
        old = page("four-types")
        tiles = {0: {element.name: old.array(element.name, 0, 0, 2, 2) for element in old.elements}}
        self.assertEqual(Page.of_bytes(gvrs.lay_down(old, gvrs.pack(old, tiles), 1)).tile(0, "a"), old.tile(0, "a"))

    def test_time(self):
        """Two million stored cells and as many fills take about one and a half times what the library takes to fill two new arrays; twice that
        is a fault. In processor time, which other work lengthens less."""
        front = gvrs.front(2048, 2048, 256, 256, [("score", "Short", 950)])
        large = Page.of_bytes(gvrs.lay_down(front, {index: bytes(2 * 65536) for index in range(0, 64, 2)}, 1))

        def fill():
            kinds, bits = numpy.empty(2**22, "u4"), numpy.empty(2**22, "u4")
            large._into(0, [0, 0, 2048, 2048], kinds.ctypes.data_as(gvrs._LIST32), bits.ctypes.data_as(gvrs._LIST32), 2**22)

        def seconds(ask):
            begin = time.process_time()
            ask()
            return time.process_time() - begin

        large.array("score", 0, 0, 1, 1)
        both = [(seconds(fill), seconds(lambda: large.array("score"))) for _ in range(9)]
        library, array = (min(times) for times in zip(*both))
        print(f"\n4194304 cells: gvrs_cells {library:.3f} s, as a masked array {array:.3f} s", file=sys.stderr)
        self.assertLessEqual(array, 2 * library)


if __name__ == "__main__":
    unittest.main()
