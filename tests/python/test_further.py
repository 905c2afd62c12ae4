"""Tests of what the Python module gvrs tells further: what a page says of itself, why it is refused, and what an argument that is not given
stands for."""

import copy
import ctypes
import math
import pickle
import shutil
import struct
import tempfile
from pathlib import Path

import gvrs
import test_gvrs
from gvrs import Cell, Element, Fill, Metadata, Page, Refused, Tile, Why
from test_gvrs import PAGES, Tests, page


def whole(element):
    """An element with what the page says further of it."""
    return (*element, *element.further)


def wholes(page):
    return [whole(element) for element in page.elements]


def with_methods(file, names):
    """The front of the sample page, of one element, with these compression methods."""
    at = 316  # the number of methods
    front = file[:at] + struct.pack("<I", len(names)) + b"".join(struct.pack("<H", len(name)) + name for name in names) + bytes(2 + 8)
    length = (len(front) - 16 + 4 + 7) // 8 * 8
    return front[:16] + struct.pack("<I", length) + front[20:] + bytes(16 + length - len(front))


def with_texts(scale):
    """A front with a product label, and with an integer-coded element that has every text, a range, a scale and the offset 0.5."""

    def text(value):
        return struct.pack("<H", len(value.encode())) + value.encode()

    def padded(part, size):
        return part + bytes(-len(part) % size)

    coded = b"\1\1" + bytes(6) + text("h") + struct.pack("<5f3i", -1.5, 20.25, -9.0, scale, 0.5, -8, 79, -38)
    short = b"\3\0" + bytes(6) + text("q") + struct.pack("<h2xh2xh2x", -5, 900, -1)
    entries = padded(padded(coded, 4) + text("Höhe") + text("above the sea") + text("m"), 4) + padded(padded(short, 4) + 3 * text(""), 4)
    fixed = struct.pack("<16s64x4i8x3B149xi", bytes(range(16)), 2, 2, 2, 2, 1, 1, 2, 2)
    record = padded(bytes(8) + fixed + entries + bytes(4) + text("Blatt 7") + bytes(8 + 4), 8)
    return b"gvrs raster\0\1\4\0\0" + struct.pack("<IB3x", len(record), 6) + record[8:]


class Said(Tests):
    """What a page says of itself."""

    def test_texts(self):
        cells = {0: struct.pack("<4i4h", 905, -38, 0, 1, 1, 2, 3, 4)}
        said = Page.of_bytes(gvrs.lay_down(with_texts(4), cells, time=1))
        self.assertEqual((said.label, said.uuid), ("Blatt 7", bytes(range(16))))
        height, other = said.elements
        self.assertEqual(whole(height), ("h", "integer-coded", Fill(-38), "m", "Höhe", "above the sea", -8, 79, 4.0, 0.5, True))
        self.assertEqual(whole(other), ("q", "Short", Fill(-1), "", "", "", -5, 900, None, None, False))
        self.assertEqual((height.range, other.range), ((-8, 79), (-5, 900)))
        self.assertEqual([said.cell(*spot, "h").scaled for spot in ((0, 0), (0, 1), (1, 0), (1, 1))], [226.75, -9.0, 0.5, 0.75])
        self.assertEqual((said.cell(0, 0, "h").value, said.cell(0, 0, "q").scaled), (905, None))
        self.assertEqual((page("page").label, page("page").elements[0].range), ("", (0, 0)))
        fills = Page.of_bytes(gvrs.lay_down(with_texts(4), {}, time=1))
        self.assertEqual((fills.cell(0, 0, "h").value, fills.cell(0, 0, "h").scaled), (Fill(-38), None))
        for scale in (0, math.inf, math.nan):
            self.assertIsNone(Page.of_bytes(gvrs.lay_down(with_texts(scale), cells, time=1)).cell(0, 0, "h").scaled)
        again = gvrs.front(2, 2, 2, 2, said.elements, label=said.label, uuid=said.uuid)
        self.assertEqual(wholes(Page.of_bytes(gvrs.lay_down(again, cells, time=1))), wholes(said))

    def test_room_for_numbers(self):
        for file, place in ((page("page").file, None), (page("refused-7").file, 376)):
            functions = (("gvrs_page", (), 13), ("gvrs_element", (0,), 6), ("gvrs_page_said", (), 21), ("gvrs_element_said", (0,), 18))
            for name, arguments, most in functions:
                ask, outs = getattr(gvrs._library, name), []
                ask.restype = ctypes.c_uint32
                ask.argtypes = gvrs._FILE + [ctypes.c_uint64] * len(arguments) + [gvrs._LIST64, ctypes.c_uint64]
                for room in range(most + 3):
                    out = (ctypes.c_uint64 * room)(*[99] * room)
                    ask(file, len(file), *arguments, out, room)
                    outs.append(list(out))
                self.assertEqual(outs[-1][most:], [99, 99])
                self.assertEqual(outs, [outs[-1][:room] for room in range(most + 3)])
                if place is not None:
                    self.assertEqual(outs[-1][:most], [place] + [0] * (most - 1))

    def test_elements(self):
        self.assertEqual(wholes(page("page")), [("z", "Short", Fill(7), "", "", "", 0, 0, None, None, False)])
        self.assertEqual([element.scale for element in page("four-types").elements], [None, 0, None, None])
        score, height = page("said").elements
        self.assertEqual(whole(score), ("score", "Short", Fill(-1), "", "Score", "", 0, 1000, None, None, False))
        self.assertEqual(whole(height), ("height", "integer-coded", Fill(-38), "m", "H\xf6he", "above the sea\n", -8, 79, 4, 0.5, True))
        self.assertEqual((page("said").label, page("page").label), ('Blatt "7"', ""))

    def test_elements_are_tuples_of_four(self):
        score, height = page("said").elements
        self.assertEqual((len(height), tuple(height)), (4, ("height", "integer-coded", Fill(-38), "m")))
        self.assertEqual(repr(height), "Element(name='height', type='integer-coded', fill=fill(-38), unit='m')")
        self.assertEqual(height, Element("height", "integer-coded", Fill(-38), "m"))
        for again in (copy.copy(height), copy.deepcopy(height), pickle.loads(pickle.dumps(height)), height._replace(), Element(*whole(height))):
            self.assertEqual((type(again), whole(again)), (Element, whole(height)))
        self.assertEqual(whole(height._replace(name="h", least=0)), ("h", *whole(height)[1:6], 0, *whole(height)[7:]))
        self.assertEqual(whole(Element._make(score)), ("score", "Short", Fill(-1), "", "", "", None, None, None, None, False))
        for name in ("label", "least", "other"):
            self.assertSays(AttributeError, f"{name} cannot be set", setattr, height, name, 1)
            self.assertSays(AttributeError, f"{name} cannot be deleted", delattr, height, name)

    def test_cells_are_tuples_of_six(self):
        cell = Cell("stored", 905, 905, 354, 2, 1, 226.75)
        self.assertEqual((tuple(cell), cell.scaled), (("stored", 905, 905, 354, 2, 1), 226.75))
        self.assertEqual(repr(cell), "Cell(kind='stored', value=905, bits=905, place=354, tile=2, inside=1)")
        for again in (copy.copy(cell), pickle.loads(pickle.dumps(cell))):
            self.assertEqual((type(again), again, again.scaled), (Cell, cell, 226.75))
        self.assertIsNone(page("page").cell(2, 1, "z").scaled)

    def test_stored_tiles(self):
        self.assertEqual(page("page").tiles(), [Tile(2, 336, (), None)])
        self.assertEqual(page("packed").tiles(), [Tile(0, 472, (0,), 3), Tile(1, 512, (0,), 3), Tile(2, 552, (0,), 4)])
        self.assertEqual(page("four-types").tiles()[1], Tile(1, 592, (2,), None), "a Float has no compressor index")
        for name in ("page", "packed", "four-types", "wide"):
            self.assertEqual(len(page(name).tiles()), page(name).shape.stored_tiles)
        self.assertEqual([tile.index for tile in page("wide").tiles()], [0, 108, 109])

    def test_metadata(self):
        self.assertEqual(page("page").metadata, ())
        self.assertEqual(page("packed").metadata, (Metadata("scanner", 1, 8, b"", "", 384),))
        both = page("no-rule").metadata
        self.assertEqual([(record.name, record.id, record.start) for record in both], [("score_rule", 2, 440), ("score_rule", 1, 480)])
        self.assertEqual(page("no-rule").find_metadata("score_rule", 1), both[1])
        self.assertIsNone(page("no-rule").find_metadata("score_rule", 3))
        self.assertIsNone(page("no-rule").find_metadata("score_rul", 1))
        self.assertSays(ValueError, "id is -1", page("no-rule").find_metadata, "score_rule", -1)

    def test_methods(self):
        self.assertEqual(page("page").methods, ())
        long, many = [b"x" * 65535, b"y"], [b"m%d" % i for i in range(300)]
        for names in ([b"GvrsHuffman"], [b"a", b"", b"a", b'\xff"\\\x1b'], long, many):
            file = gvrs.lay_down(with_methods(page("page").file, names), {2: bytes(8)}, time=1)
            self.assertEqual(Page.of_bytes(file).methods, tuple(names))
        file = gvrs.lay_down(with_methods(page("page").file, [b"a", b"GvrsHuffman", b"GvrsHuffman"]), {2: bytes(8)}, time=1)
        self.assertEqual(Page.of_bytes(file, "GvrsHuffman")._compressor, 1)
        self.assertSays(ValueError, "no compression method of the page has that name", Page.of_bytes, file, "gvrsHuffman")

    def test_a_compressor_by_its_name(self):
        named, unnamed = page("said", "GvrsHuffman"), page("said")
        self.assertEqual(named.cells("score", 0, 0, 2, 4), [[900, 901, 902, 903], [901, 902, 903, 904]])
        self.assertEqual(named.cells("score", 0, 0, 2, 4), page("said", 3).cells("score", 0, 0, 2, 4))
        methods = "the page names the methods 0 b'GvrsDeflate', 1 b'two words', 2 b'GvrsFloat', 3 b'GvrsHuffman' and more"
        start = unnamed.tiles()[0].start
        for ask in (lambda: unnamed.cell(0, 0, "score"), lambda: unnamed.tile(0, "score"), lambda: unnamed.deed("score", 0, 0, 2, 4)):
            self.assertRefused(11, start, ask, methods)
        self.assertRefused(11, start, lambda: gvrs.compare(named, unnamed), "the second page: " + methods)
        for other, place in ((page("packed"), 472), (page("said", "GvrsDeflate"), start)):
            self.assertIsNone(self.assertRefused(11, place, lambda: other.cell(0, 0, 0)).note)
        self.assertSays(ValueError, methods, page, "said", "gvrsHuffman")
        self.assertSays(ValueError, "the page names no method", page, "packed", "GvrsHuffman")
        self.assertRefused(7, 376, lambda: page("refused-7", "GvrsHuffman"))

    def test_lists_of_refused_pages(self):
        damaged = page("page").file[:-1]
        for ask in (Page.tiles, Page.metadata.fget, Page.methods.fget, lambda is_: is_.find_metadata("a", 1)):
            self.assertRefused(6, 368, lambda: ask(Page.of_bytes(damaged)))


class Whys(Tests):
    """Why a page is refused."""

    def test_explain(self):
        whys = {
            1: (2, 0, 0, 0, 0, "no GVRS mark"),
            2: (4, 0, 13, 3, 4, "second version number is not 4"),
            3: (12, 0, 129, 3, 2, "raster space code is above 2"),
            4: (28, 0, 104, 65537, 65536, "a side is more than this store takes"),
            5: (32, 0, 48, 1, 0, "opened for writing and not closed"),
            8: (40, 0, 344, 5, 4, "a tile index is not below the tiles"),
            9: (49, 0, 80, 0, 0, "the reference to the tile directory is of no such record"),
        }
        for number in range(1, 10):
            with self.subTest(number):
                bad = page(f"refused-{number}")
                why = bad.explain()
                self.assertEqual(why, Why(*whys.get(number, why)))
                with self.assertRaises(Refused) as caught:
                    bad.check()
                self.assertEqual(caught.exception.why, why)
                with self.assertRaises(Refused) as caught:
                    gvrs.compare(page("page"), bad)
                self.assertEqual(caught.exception.why, why)
        self.assertEqual(page("refused-6").explain()[:3], (36, 1, 376))
        self.assertEqual(page("refused-7").explain()[:2], (38, 2))
        self.assertIsNone(page("page").explain())
        self.assertIsNone(self.assertRefused(10, 0, lambda: page("page").cell(9, 9, 0)).why)

    def test_in_full(self):
        refused = self.assertRefused(7, 376, page("refused-7").check)
        said = f"{PAGES / 'refused-7.gvrs'}: refused 7 at 376: a record's checksum is wrong: record 1 behind the header, at 428: found "
        self.assertEqual(refused.in_full[: len(said)], said)
        self.assertEqual(str(refused.why).split(":")[:2], ["record 1 behind the header", " a record's checksum is wrong, at 428"])
        again = pickle.loads(pickle.dumps(refused))
        self.assertEqual((again.in_full, again.why), (refused.in_full, refused.why))
        self.assertEqual(Refused(11, 5).in_full, str(Refused(11, 5)))

    def test_fronts(self):
        front = gvrs.front(3, 3, 2, 2, [("z", "Short", 7)])
        refused = self.assertRefused(1, 0, lambda: gvrs.lay_down(b"", {}, 1))
        self.assertEqual(refused.why, Why(1, 0, 0, 0, 16, "fewer than 16 bytes"))
        old = front[:13] + b"\3" + front[14:]
        for ask in (lambda: gvrs.lay_down(old, {}, 1), lambda: gvrs.from_sheet(old, bytes.fromhex("00000007 01 0001 0001 0000"), 1)):
            self.assertEqual(self.assertRefused(2, 0, ask).why, Why(4, 0, 13, 3, 4, "second version number is not 4"))
        too_long = self.assertRefused(3, 0, lambda: gvrs.lay_down(front + b"\0", {}, 1))
        self.assertIsNone(too_long.why)


class Made(Tests):
    """Pages that are made say what was given."""

    def test_texts_ranges_and_methods(self):
        element = gvrs.NewElement("s", "integer-coded", -4, "m", "label", "d\xe9scription", -8, 12, 4, 0.5, True)
        front = gvrs.front(3, 3, 2, 2, [element], uuid=bytes(16), label="product", methods=["GvrsHuffman", "GvrsDeflate"])
        made = Page.of_bytes(gvrs.lay_down(front, {}, 1))
        self.assertEqual(wholes(made), [element._replace(fill=Fill(-4))])
        self.assertEqual((made.label, made.methods, made.uuid), ("product", (b"GvrsHuffman", b"GvrsDeflate"), bytes(16)))

    def test_page_laid_down_again(self):
        for name in ("four-types", "units", "said"):
            old = page(name)
            again = Page.of_bytes(gvrs.lay_down(gvrs.front(*old.shape[:4], old.elements), {}, 1))
            self.assertEqual(wholes(again), wholes(old))


class NotGiven(Tests):
    """`...` stands for what is not given."""

    def test_sides(self):
        z = page("page")
        self.assertEqual(z.cells("z", 1, 1, ..., ...), z.cells("z", 1, 1, 2, 2))
        self.assertEqual(z.cells("z", 1), z.cells("z", 1, 0, 2, 3))
        self.assertEqual(z.deed("z", 0, 0, ..., 2), z.deed("z", 0, 0, 3, 2))
        for wrong in (None, "1", 1.0):
            for ask in (z.cells, z.deed):
                self.assertRaises(TypeError, ask, "z", 0, 0, wrong)
                self.assertRaises(TypeError, ask, "z", 0, 0, 1, wrong)

    def test_front_and_time(self):
        sheet = test_gvrs.Sheets.of(2, 3, test_gvrs.Sheets.SCORES)
        made = Page.of_bytes(gvrs.from_sheet(..., sheet))
        self.assertEqual((made.sheet(), list(made)), (sheet, ["score"]))
        self.assertGreater(made.shape.time, 1_600_000_000_000)
        front = gvrs.front(2, 3, 2, 2, [("score", "Short", -1)])
        for ask in (gvrs.from_sheet, lambda *rest: gvrs.lay_down(front, {}, rest[-1]), lambda *rest: page("page").squeeze(rest[-1])):
            self.assertRaises(TypeError, ask, front, sheet, None)
        self.assertRaises(TypeError, gvrs.from_sheet, None, sheet)
        self.assertRaises(TypeError, gvrs.Correction, page("page"), None)


class Loader(Tests):
    """The library by a name that the system's loader knows."""

    def test_named(self):
        library = test_gvrs.Library("imported")
        with tempfile.TemporaryDirectory() as name:
            folder = Path(name).resolve()
            (folder / "loader").mkdir()
            (folder / "module").mkdir()
            shutil.copy(gvrs.__file__, folder / "module")
            shutil.copy(library.LIBRARY, folder / "loader/libgvrs.so.1")
            named = {"GVRS_LIBRARY": "libgvrs.so.1", "LD_LIBRARY_PATH": str(folder / "loader")}
            self.assertEqual(library.imported(folder / "module", **named), "libgvrs.so.1")
