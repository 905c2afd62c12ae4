"""Pages of an archive, GVRS files of version 1.4: checked, read, judged, compared, made and corrected by the proved page store (libgvrs.so).
Score sheets and correction logs too.

>>> import gvrs
>>> page = gvrs.Page("page.gvrs", check=True)  # raises Refused where the check refuses the file
>>> page.in_full
'page.gvrs: 3 by 3 cells in tiles of 2 by 2, 1 of 4 stored: z'
>>> page["z"][2, 0:2]                    # numbers, which are stored
[11, 12]
>>> page["z"][0, 0]                      # nothing is stored there: a Fill, which is no number
fill(7)
>>> page.deed("z", 2, 0, 1, 2)           # whether scores are certain, doubtful or unread
Deed(grade='doubtful', fills=0, lowest=11, scale=1000)

A page from nothing, saved, corrected where it lies, and compared:

>>> front = gvrs.front(3, 3, 2, 2, [("z", "Short", 7)])
>>> tiles = gvrs.pack(front, {2: {"z": [[11, 12], [13, 14]]}})
>>> gvrs.save("new.gvrs", gvrs.lay_down(front, tiles))
>>> with gvrs.correcting("new.gvrs") as correction:
...     correction.store(0, {"z": [[1, 2], [3, 4]]})
>>> gvrs.compare(page, "new.gvrs").number
4

With NumPy, where it is installed, `page.array("z")` is a masked array, in which fills are masked. Rows, columns, elements and tiles count
from 0. An element is named by its number or its name, to pack by its name. What the store refuses raises Refused; a number that does not
fit the C type of its argument raises ValueError before anything is called; a file that cannot be read, locked or written raises OSError.

The library is the file that GVRS_LIBRARY names, or libgvrs.so beside this module, in the folder above it, or in `lib` of Python's own
prefix. A name without a folder, as GVRS_LIBRARY=libgvrs.so.1, is one for the system's loader. Any number of threads may call at once; each
has to have 320 KiB of stack left, which is less than Python gives one by itself. The examples here are run in a folder that has the sample
page as page.gvrs.
"""

from __future__ import annotations

import array
import ctypes
import errno
import fcntl
import math
import numbers
import operator
import os
import re
import signal
import stat
import struct
import sys
import time as clocks
from contextlib import contextmanager, suppress
from typing import TYPE_CHECKING, Any, Callable, Dict, Iterable, Iterator, Mapping, NamedTuple, NoReturn, Sequence, Tuple, Union
from uuid import uuid4

if TYPE_CHECKING:
    from types import EllipsisType as Dots

    import numpy
else:
    Dots = type(...)  # `...` stands for an argument that is not given, where None is none

__version__ = "1.1.0"

__all__ = [
    "COMPRESSED",
    "Arrays",
    "Cell",
    "Comparison",
    "Correction",
    "Deed",
    "Element",
    "FILL",
    "Fill",
    "Further",
    "MALFORMED",
    "Metadata",
    "NewElement",
    "Outside",
    "Page",
    "Raster",
    "Refused",
    "STORED",
    "Shape",
    "Spot",
    "Stopped",
    "Tile",
    "UNPACKED",
    "Why",
    "compare",
    "correcting",
    "from_sheet",
    "front",
    "lay_down",
    "pack",
    "save",
    "sheet",
]

LONGEST = 16_777_216  # bytes of a file
MOST_CELLS = 2**24  # of a rectangle as lists: of 64 bytes each, which is 1 GiB
MOST_IN_ARRAYS = 2**26  # of a rectangle as arrays of NumPy: of 16 bytes each, which is 1 GiB

# The kinds of cells in arrays.
STORED, FILL, UNPACKED, COMPRESSED, MALFORMED = 32, 33, 34, 11, 14

_TILE_CELLS = 524_288  # the most cells of a tile
_NO_COMPRESSOR = 256  # an index that no content has
_TYPES = ("Integer", "integer-coded", "Float", "Short")  # by their codes
_LETTERS = dict(zip(_TYPES, "iifh"))  # what struct, Python's arrays and NumPy call them
_DONE, _OUTSIDE, _INPUT, _ROOM = 0, 10, 12, 13
_GRADES = {64: "certain", 65: "doubtful", 66: "unread"}

Number = Union[int, float]
Name = Union[str, int]  # of an element
Path = Union[str, "os.PathLike[str]"]
Octets = Union[bytes, bytearray, memoryview]
Cells = Any  # of an element in a tile: numbers, rows of numbers, an array of Python or of NumPy


# The functions that are used here, each by its numbers of 32 and 64 bits, its bytes and its lists: include/gvrs.h declares them. All but
# gvrs_refusal and gvrs_rule are given `out` and its length last.
_U32, _U64, _BYTES = ctypes.c_uint32, ctypes.c_uint64, ctypes.c_char_p
_LIST32, _LIST64 = ctypes.POINTER(_U32), ctypes.POINTER(_U64)
_FILE = [_BYTES, _U64]
_FUNCTIONS = {
    "gvrs_explain": _FILE,
    "gvrs_page_said": _FILE,
    "gvrs_element_said": _FILE + [_U64],
    "gvrs_find_element": _FILE + [_BYTES, _U64],
    "gvrs_tiles": _FILE + [_U64, _LIST64, _U64],
    "gvrs_metadata": _FILE + [_U64, _LIST64, _U64],
    "gvrs_methods": _FILE + [_U64, _LIST64, _U64],
    "gvrs_find_metadata": _FILE + [_BYTES, _U64, _U32],
    "gvrs_cell_with": _FILE + [_U64, _U64, _U64, _U32, _U32],
    "gvrs_unpack": _FILE + [_U64, _U64, _U32, _LIST32, _U64],
    "gvrs_cells": _FILE + [_U32, _U64, _U64, _U64, _U64, _U64] + [_LIST32, _U64] * 3,
    "gvrs_deed": _FILE + [_U32, _U64, _U64, _U64, _U64, _U64, _LIST32, _U64],
    "gvrs_compare": (_FILE + [_U32]) * 2 + [_LIST32, _U64] * 2,
    "gvrs_front": [_LIST32, _U64, _BYTES, _U64, _LIST32, _U64, _BYTES, _U64, _BYTES, _U64],
    "gvrs_lay_down": _FILE + [_U64, _LIST32, _U64, _BYTES, _U64, _BYTES, _U64],
    "gvrs_open_page": _FILE + [_U64, _U64],
    "gvrs_store_tile": _FILE + [_U64, _U64, _BYTES, _U64],
    "gvrs_remove_tile_stopped": _FILE + [_U64, _U64, _U64],
    "gvrs_replay": _FILE + [_U64, _BYTES, _U64],
    "gvrs_tight_plan": _FILE + [_U64, _LIST64, _U64],
    "gvrs_squeeze": _FILE + [_U64, _LIST64, _U64],
    "gvrs_close_page": _FILE + [_U64, _U64],
    "gvrs_sheet_in": _FILE + [_U64, _BYTES, _U64, _BYTES, _U64],
    "gvrs_sheet_out": _FILE + [_U32, _LIST32, _U64, _BYTES, _U64],
}


def _find() -> ctypes.CDLL:
    """The library where it is named, or where it is installed."""
    named, here = os.environ.get("GVRS_LIBRARY"), os.path.dirname(os.path.abspath(__file__))
    places = [os.path.join(folder, "libgvrs.so") for folder in (here, os.path.dirname(here), os.path.join(sys.prefix, "lib"))]
    found = [named] if named else [place for place in places if os.path.exists(place)]
    if not found:
        installs = "which `tools/install PREFIX` installs: GVRS_LIBRARY is not set"
        raise ImportError(f"no library of the page store, {installs}, no {', '.join(places)}")
    try:
        return ctypes.CDLL(found[0])
    except OSError as error:
        raise ImportError(f"{found[0]} is no library of the page store: {error}") from None


def _load() -> ctypes.CDLL:
    library = _find()
    try:
        for name, arguments in _FUNCTIONS.items():
            getattr(library, name).restype = _U32
            getattr(library, name).argtypes = arguments + [_LIST64, _U64]
        for words in (library.gvrs_refusal, library.gvrs_rule):
            words.restype, words.argtypes = _BYTES, [_U32]
    except AttributeError as error:
        raise ImportError(f"{library._name} is no library of the page store, or one of another version: {error}") from None
    return library


_library = _load()

# What the number of a rule counts, by the rules; and the rules of which what is found and what is wanted are not compared, or not known: of
# a file that is too long no more than a byte too many is read.
_SIDES = ("grid rows", "grid columns", "tile rows", "tile columns")
_COUNTED: Tuple[Tuple[set, Callable[[int], str]], ...] = (
    ({9, 10, 28}, lambda number: _SIDES[number & 3]),
    ({*range(17, 23), 43, 44}, "element {}".format),
    ({*range(33, 38), *range(39, 43), *range(45, 49)}, "record {} behind the header".format),
    ({38}, lambda number: f"record {number - 1} behind the header" if number else "header"),
    ({50, 61, 66, 69, 75}, "record {} of its type".format),
    ({53, 54, 55}, lambda number: "columns" if number else "rows"),
    ({58, 59}, "tile {}".format),
)
_NOT_COMPARED = {2, *range(18, 23), 26, 27, 46, 48, 49, 59, 60, 67, 68}


class Why(NamedTuple):
    """The first rule that a file breaks: its number, 1 to 75; the number of what breaks it, by the rule a side, an element, a record or a
    tile; the position of its field in the file; what is found there and what is wanted; and what is broken in words. docs/LAYOUT.md has the
    rules, and what the numbers of each are. As text it says all of it.

    >>> why = gvrs.Page("refused-8.gvrs").explain()
    >>> why
    Why(rule=40, number=0, position=344, found=5, wanted=4, words='a tile index is not below the tiles')
    >>> print(why)
    record 0 behind the header: a tile index is not below the tiles, at 344: found 5, wanted 4
    """

    rule: int
    number: int
    position: int
    found: int
    wanted: int
    words: str

    @property
    def what(self) -> str:
        """What breaks the rule; empty where the rule is of one thing only.

        >>> gvrs.Page("refused-8.gvrs").explain().what
        'record 0 behind the header'
        """
        return next((name(self.number) for rules, name in _COUNTED if self.rule in rules), "")

    def _behind(self, words: str) -> str:
        """The text of it behind words of a refusal, which may be the rule's own and are not said twice."""
        compared = "" if self.rule in _NOT_COMPARED else f": found {self.found}, wanted {self.wanted}"
        parts = (self.what, "" if self.words == words else self.words)
        return "".join(f": {part}" for part in parts if part) + f", at {self.position}{compared}"

    def __str__(self) -> str:
        return self._behind("")[2:]


def _formatted(text: str, spec: str) -> str:
    """A text that stands where a number could, as wide as asked and to the right, as a number stands; no format of numbers."""
    wanted = re.fullmatch("(.?[<>^])?([1-9][0-9]*)?", spec, re.DOTALL)
    if not wanted:
        raise TypeError(f"{text} is no number: it takes a width, as in '>8', and not the format {spec!r}")
    return format(text, f"{wanted[1] or '>'}{wanted[2] or ''}")


class Refused(Exception):
    """A refusal of the store: its `number`, its `place` in the file, and in `words` what it says. Where it stands in a list of cells, for
    one cell that cannot be read, `place` is None. `note` says more, or is None. `why` is the rule that the file breaks, a Why, where the
    number is 1 to 9; of a front, also of one that could not be made, it is the front's, and None where that is too long; else None. `path`
    is the file's, where the number is 1 to 9 and the page was read from one.

    >>> try:
    ...     gvrs.Page("refused-7.gvrs").check()
    ... except gvrs.Refused as refused:
    ...     print(refused.number, refused.place, refused.words, refused.why.rule)
    7 376 a record's checksum is wrong 38
    """

    def __init__(self, number: int, place: int | None, note: str | None = None, why: Why | None = None, path: str | None = None) -> None:
        super().__init__(number, place, note, why, path)
        self.number, self.place, self.note, self.why, self.path = number, place, note, why, path
        self.words: str = _library.gvrs_refusal(number).decode()

    def __str__(self) -> str:
        place = "" if self.place is None else f" at {self.place}"
        return f"refused {self.number}{place}: {self.words}" + (f": {self.note}" if self.note else "")

    @property
    def in_full(self) -> str:
        """The text of it, with the path in front and the rule behind, where there are any.

        >>> try:
        ...     gvrs.Page("refused-8.gvrs").check()
        ... except gvrs.Refused as refused:
        ...     print(refused)
        ...     print(refused.in_full)
        refused 8 at 336: what a tile or metadata record holds is at fault
        refused-8.gvrs: refused 8 at 336: what a tile or metadata record holds is at fault: record 0 behind the header: ...
        """
        return ("" if self.path is None else f"{self.path}: ") + str(self) + (self.why._behind(self.words) if self.why else "")

    def __repr__(self) -> str:
        return f"refused({self.number})"

    def __format__(self, spec: str) -> str:
        return _formatted(repr(self), spec) if spec else str(self)


class Stopped(Refused):
    """A replay that stopped, with 13: `entries` is the number of entries done, and `file` the bytes of the file with these, closed, or None
    where closing it was refused too, and in a correction, which has them in its own page.

    >>> issubclass(gvrs.Stopped, gvrs.Refused)
    True
    """

    def __init__(self, number: int, place: int | None, note: str | None, entries: int, file: bytes | None) -> None:
        super().__init__(number, place, note)
        self.args = number, place, note, entries, file
        self.entries, self.file = entries, file


class _Mark:
    """A value that is no score. It is equal to a mark of its kind with the same value, and to nothing else; it has no order, no
    arithmetic and no truth, and float() and int() refuse it."""

    __slots__ = ("_value",)

    def __init__(self, value: Number | None) -> None:
        self._value = value

    @property
    def value(self) -> Any:
        """The value itself, for whoever has seen that it is no score.

        >>> gvrs.Fill(7).value
        7
        """
        return self._value

    def __repr__(self) -> str:
        word = type(self).__name__.lower()
        return word if self._value is None else f"{word}({self._value!r})"

    def __format__(self, spec: str) -> str:
        return _formatted(repr(self), spec)

    def __eq__(self, other: object) -> bool:
        return type(self) is type(other) and repr(self) == repr(other)

    def __hash__(self) -> int:
        return hash(repr(self))

    def __bool__(self) -> NoReturn:
        raise TypeError(f"{self!r} is no number: ask whether it is a {type(self).__name__}")


class Fill(_Mark):
    """What a cell reads as whose tile is not stored: its element's fill value, which no one has read off a page.

    >>> fill = gvrs.Page("page.gvrs")["z"][0, 0]
    >>> fill, f"{fill:>10}", isinstance(fill, gvrs.Fill)
    (fill(7), '   fill(7)', True)
    >>> fill + 1
    Traceback (most recent call last):
    TypeError: unsupported operand type(s) for +: 'Fill' and 'int'
    """

    __slots__ = ()


class Outside(_Mark):
    """What a tile holds for a place past the grid's edge, where the page has no cell; None where the tile is not stored.

    >>> gvrs.Page("page.gvrs").tile(2, "z")[1]
    [outside(13), outside(14)]
    """

    __slots__ = ()


Value = Union[int, float, Fill, Refused]


class Shape(NamedTuple):
    """What a page is in numbers. Sides count cells, but for tiles_down and tiles_across; tile_bytes are those of one tile, all elements
    together; front is the length of its identification block and header; stored_tiles and metadata count records; time is the time
    modified, in milliseconds since 1970.

    >>> shape = gvrs.Page("page.gvrs").shape
    >>> shape.rows, shape.columns, shape.stored_tiles, shape.tiles_down * shape.tiles_across
    (3, 3, 1, 4)
    """

    rows: int
    columns: int
    tile_rows: int
    tile_columns: int
    tiles_down: int
    tiles_across: int
    elements: int
    tile_bytes: int
    front: int
    stored_tiles: int
    metadata: int
    time: int
    checksums: bool


class Further(NamedTuple):
    """What a page says further of an element: its label and its description, which may be empty; the least and the greatest value that the
    header states, which the store carries and does not hold cells to; scale and offset of an integer-coded element, None of every other;
    and whether it is continuous.

    >>> gvrs.Page("page.gvrs")["z"].element.further
    Further(label='', description='', least=0, greatest=0, scale=None, offset=None, continuous=False)
    """

    label: str = ""
    description: str = ""
    least: Number | None = None
    greatest: Number | None = None
    scale: float | None = None
    offset: float | None = None
    continuous: bool = False


class _Stays:
    """A tuple with more to it than it has in it: that stays too."""

    def __setattr__(self, name: str, value: object) -> NoReturn:
        raise AttributeError(f"{name} cannot be set")

    def __delattr__(self, name: str) -> NoReturn:
        raise AttributeError(f"{name} cannot be deleted")


class _Element(NamedTuple):
    name: str
    type: str
    fill: Fill
    unit: str = ""


class Element(_Stays, _Element):
    """An element of a page, a tuple: its name, its type (Integer, integer-coded, Float or Short), its fill, a Fill, and its unit of measure,
    which may be empty. Not in the tuple, so that two elements may be equal that differ in it, is what the page says further: `label`,
    `description`, `least` and `greatest`, `scale`, `offset` and `continuous`, together in `further`, a Further. Of an integer-coded element
    least, greatest and fill are integers, and `scale` and `offset` say what each stands for: itself divided by the scale, plus the offset.

    >>> z, = gvrs.Page("page.gvrs").elements
    >>> z
    Element(name='z', type='Short', fill=fill(7), unit='')
    >>> z.label, z.range, z == ("z", "Short", gvrs.Fill(7), "")
    ('', (0, 0), True)
    """

    label: str = ""
    description: str = ""
    least: Number | None = None
    greatest: Number | None = None
    scale: float | None = None
    offset: float | None = None
    continuous: bool = False

    def __new__(
        cls,
        name: str,
        type: str,
        fill: Fill,
        unit: str = "",
        label: str = "",
        description: str = "",
        least: Number | None = None,
        greatest: Number | None = None,
        scale: float | None = None,
        offset: float | None = None,
        continuous: bool = False,
    ) -> Element:
        element = super().__new__(cls, name, type, fill, unit)
        element.__dict__.update(Further(label, description, least, greatest, scale, offset, continuous)._asdict())
        return element

    @property
    def further(self) -> Further:
        """What is not in the tuple, a Further.

        >>> gvrs.Element("score", "Short", gvrs.Fill(-1), "", "Score").further.label
        'Score'
        """
        return Further(*(getattr(self, name) for name in Further._fields))

    def _replace(self, **named: Any) -> Element:
        return Element(**{**self._asdict(), **self.further._asdict(), **named})

    @property
    def range(self) -> Tuple[Number | None, Number | None]:
        """The least and the greatest value, a pair.

        >>> gvrs.Element("score", "Short", gvrs.Fill(-1), least=0, greatest=1000).range
        (0, 1000)
        """
        return self.least, self.greatest

    def scaled(self, value: Number) -> float | None:
        """What an integer of an integer-coded element stands for: value / scale + offset, computed here, in Python's own numbers; the store
        carries the integer. None of another type, and where scale or offset is no finite number or the scale is 0.

        >>> gvrs.Element("height", "integer-coded", gvrs.Fill(-1), scale=4.0, offset=0.5).scaled(905)
        226.75
        """
        if self.type != "integer-coded" or not self.scale or not math.isfinite(self.scale) or not math.isfinite(self.offset):
            return None
        return value / self.scale + self.offset


class Tile(NamedTuple):
    """A stored tile: its index, the start of its record, the numbers of its packed elements, and the compressor index of the first of
    these that is no Float, None where there is none.

    >>> gvrs.Page("page.gvrs").tiles()
    [Tile(index=2, start=336, packed=(), compressor=None)]
    """

    index: int
    start: int
    packed: Tuple[int, ...]
    compressor: int | None


class Metadata(NamedTuple):
    """A metadata record: its name, its record ID, of 32 bits without a sign, its data type by its code, its content, as bytes, its
    description, and its start.

    >>> gvrs.Page("packed.gvrs").metadata
    (Metadata(name='scanner', id=1, type=8, content=b'', description='', start=384),)
    """

    name: str
    id: int
    type: int
    content: bytes
    description: str
    start: int


class _Cell(NamedTuple):
    kind: str
    value: Union[int, float, Fill]
    bits: int | None
    place: int | None
    tile: int
    inside: int


class Cell(_Stays, _Cell):
    """A cell, a tuple: its kind (stored, unpacked or fill); its value, a number or a Fill; the value's bits, which tell one NaN from another;
    the place of its first byte in the file, of an unpacked one that of its content; the index of its tile, and its number inside the tile,
    by rows. Bits and place of a fill are None. Not in the tuple is `scaled`, what the integer of an integer-coded cell stands for, as
    Element.scaled computes it in Python: the store carries the integer. It is None of a fill and of every other type.

    >>> gvrs.Page("page.gvrs").cell(2, 1, "z")
    Cell(kind='stored', value=12, bits=12, place=354, tile=2, inside=1)
    """

    scaled: float | None = None

    def __new__(
        cls,
        kind: str,
        value: Union[int, float, Fill],
        bits: int | None,
        place: int | None,
        tile: int,
        inside: int,
        scaled: float | None = None,
    ) -> Cell:
        cell = super().__new__(cls, kind, value, bits, place, tile, inside)
        cell.__dict__["scaled"] = scaled
        return cell


class Deed(NamedTuple):
    """What the scores of a rectangle are: the grade (certain, doubtful or unread); the number of fills; the lowest stored score, None where
    every cell is a fill; and the scale of the rule that the page says. Of 1000, scores are certain from 900 to 1000, of 10000 from 9500 to
    10000. A cell that holds -1 counts as a fill, and never as a score. It has no truth: ask for the grade.

    >>> gvrs.Page("page.gvrs").deed("z").grade
    'unread'
    """

    grade: str
    fills: int
    lowest: int | None
    scale: int

    def __bool__(self) -> NoReturn:
        raise TypeError(f"a deed is neither true nor false: its grade is {self.grade!r}")


class Spot(NamedTuple):
    """Where a cell is: its row, its column and its element's number, as Page.cell takes them: page.cell(*spot[:3]); then the index of its
    tile and its number inside the tile, by rows.

    >>> page = gvrs.Page("page.gvrs")
    >>> page.cell(*gvrs.Spot(2, 1, 0, 2, 1)[:3]).value
    12
    """

    row: int
    column: int
    element: int
    tile: int
    inside: int


class Comparison(NamedTuple):
    """In which cells two pages differ: their full number, and the Spots of the earliest of them, by row, then column, then element. It has
    no truth: ask for the number.

    >>> gvrs.compare("page.gvrs", "page.gvrs")
    Comparison(number=0, spots=[])
    """

    number: int
    spots: list[Spot]

    def __bool__(self) -> NoReturn:
        raise TypeError(f"a comparison is neither true nor false: its number is {self.number}")


class Arrays(NamedTuple):
    """The cells of a rectangle as two arrays of NumPy, of its rows and columns: the numbers, of the element's own type, and the kinds:
    STORED, UNPACKED, FILL, or COMPRESSED or MALFORMED of a cell that cannot be read. Where a cell has no number another one stands, which is
    never the fill: as Page.array has it under the mask.

    >>> cells, kinds = gvrs.Page("page.gvrs").arrays("z", 2, 0, 1, 3)
    >>> cells.tolist(), kinds.tolist(), kinds.tolist()[0][2] == gvrs.FILL
    ([[11, 12, -32768]], [[32, 32, 33]], True)
    """

    cells: numpy.ndarray
    kinds: numpy.ndarray


def _number(value: Any, most: int, what: str) -> int:
    try:
        number = operator.index(value)
    except TypeError:
        raise TypeError(f"{what} is {value!r}, and has to be a whole number") from None
    if not 0 <= number <= most:
        raise ValueError(f"{what} is {number}, and has to be from 0 to {most}")
    return number


def _number64(value: Any, what: str) -> int:
    return _number(value, 2**64 - 1, what)


def _now() -> int:
    """The clock's time, in milliseconds since 1970."""
    return clocks.time_ns() // 1_000_000


def _time(time: int | Dots) -> int:
    """A time that is given, or the clock's."""
    return _now() if time is ... else _number64(time, "time")


def _bytes(value: Any, what: str) -> bytes:
    """Bytes as they stand in memory; no list of numbers and no number, of which bytes() would make others."""
    try:
        return memoryview(value).tobytes()
    except TypeError:
        raise TypeError(f"{what} has to be bytes, and not {type(value).__name__}") from None


def _ask(name: str, room: int, *arguments: Any) -> Tuple[int, list]:
    out = (_U64 * room)()
    return getattr(_library, name)(*arguments, out, room), list(out)


def _why(file: bytes, number: int, place: int) -> Why | None:
    """Why the file, or a front by itself, is refused so; None where it is not by itself, as with a front that is too long."""
    given, [at, rule, *told] = _ask("gvrs_explain", 6, file, len(file))
    return Why(rule, *told, _library.gvrs_rule(rule).decode()) if rule and (given, at) == (number, place) else None


def _signed(bits: int, width: int) -> int:
    half = 1 << (width - 1)
    return (bits ^ half) - half


def _value(type_: str, bits: int) -> Number:
    if type_ == "Float":
        return struct.unpack("<f", struct.pack("<I", bits))[0]
    return _signed(bits, 16 if type_ == "Short" else 32)


def _values(type_: str, bits: bytearray) -> list:
    """Numbers of a type by their bits, which stand in four bytes each, in the file's byte order: the library is for x86-64."""
    numbers_ = memoryview(bits).cast(_LETTERS[type_])
    return (numbers_[::2] if type_ == "Short" else numbers_).tolist()


def _by_rows(values: list, columns: int) -> list:
    return [values[at : at + columns] for at in range(0, len(values), columns)] if columns else []


def _shown(names: Sequence[bytes]) -> str:
    """The first compression methods of a page in a message, each with its index and at most 32 bytes of its name."""
    few = ", ".join(f"{index} {name[:32]!r}" for index, name in enumerate(names[:4]))
    return f"the page names the methods {few}" + (" and more" if len(names) > 4 else "") if names else "the page names no method"


def _numpy() -> Any:
    """NumPy, which is imported by whoever asks for its arrays, and by no one else."""
    try:
        import numpy
    except ImportError:
        raise ImportError("NumPy is not installed, and arrays are its: cells and page['name'][0:10, 0:10] give lists") from None
    return numpy


class Page(Mapping[str, "Raster"]):
    """A page: the bytes of a file, read once and whole. Nothing is judged until something is asked: then every question but `explain` and
    `file` raises Refused where the check refuses the page. With `check=True` that is raised when it is opened. What is told of the page as a
    whole is asked once, since its bytes never change. `compressor` is the compressor index, 0 to 255, of the content that is to be unpacked,
    or the name of the page's compression method with that index, which is looked up at once; without it compressed cells are refused (11),
    and the refusal names the methods.

    A page is also a mapping from its elements' names to their cells, each a Raster, and a context manager, which closes it.

    >>> with gvrs.Page("page.gvrs") as page:
    ...     list(page), page["z"][2]
    (['z'], [11, 12, fill(7)])
    >>> gvrs.Page("refused-7.gvrs", check=True)
    Traceback (most recent call last):
    gvrs.Refused: refused 7 at 376: a record's checksum is wrong
    """

    def __init__(self, path: Path, compressor: int | str | None = None, check: bool = False) -> None:
        with open(path, "rb") as stream:
            self._keep(stream.read(LONGEST + 1), compressor, check, None if isinstance(path, int) else os.fsdecode(path))

    @classmethod
    def of_bytes(cls, file: Octets, compressor: int | str | None = None, check: bool = False) -> Page:
        """A page of bytes that are in memory, as lay_down gives them.

        >>> gvrs.Page.of_bytes(gvrs.Page("page.gvrs").squeeze())["z"][2]
        [11, 12, fill(7)]
        """
        page = cls.__new__(cls)
        page._keep(_bytes(file, "file"), compressor, check, None)
        return page

    def _keep(self, file: bytes, compressor: int | str | None, check: bool, path: str | None) -> None:
        self._file: bytes | None = file
        self._path, self._kept, self._compressor = path, {}, _NO_COMPRESSOR
        if compressor is not None and not isinstance(compressor, str):
            self._compressor = _number(compressor, 255, "compressor")
        if check:
            self.check()
        if isinstance(compressor, str):
            self._compressor = self._method(compressor)

    def _method(self, name: str) -> int:
        names = self.methods[:256]
        if name.encode(errors="surrogatepass") not in names:
            raise ValueError(f"compressor is {name!r}, and no compression method of the page has that name: {_shown(names)}")
        return names.index(name.encode(errors="surrogatepass"))

    def _methods_named(self) -> str | None:
        """What is said of compressed content where no compressor is named and the page has methods."""
        methods = self.methods if self._compressor == _NO_COMPRESSOR else ()
        return _shown(methods) if methods else None

    @property
    def file(self) -> bytes:
        """The bytes of the file; of one that is too long, those that show it.

        >>> len(gvrs.Page("page.gvrs").file)
        424
        """
        if self._file is None:
            raise ValueError("the page is closed")
        return self._file

    @property
    def filename(self) -> str | None:
        """The name of the file, as it was given; None of a page of bytes.

        >>> gvrs.Page("page.gvrs").filename
        'page.gvrs'
        """
        return self._path

    @property
    def closed(self) -> bool:
        """Whether the page is closed.

        >>> with gvrs.Page("page.gvrs") as page:
        ...     print(page.closed)
        False
        >>> page.closed
        True
        """
        return self._file is None

    def close(self) -> None:
        """Lets go of the bytes: every question then raises ValueError. No file is kept open, so that nothing is lost without it.

        >>> page = gvrs.Page("page.gvrs")
        >>> page.close()
        >>> page.shape
        Traceback (most recent call last):
        ValueError: the page is closed
        """
        self._file, self._kept = None, {}

    def __enter__(self) -> Page:
        return self

    def __exit__(self, *raised: object) -> None:
        self.close()

    def _once(self, what: Any, ask: Callable[[], Any]) -> Any:
        """What was told before, or is told now: the bytes of a page stay."""
        if what not in self._kept:
            self._kept[what] = ask()
        return self._kept[what]

    def _refusal(self, number: int, place: int) -> Refused:
        """The refusal of the check."""
        why = self._once("why", lambda: _why(self.file, number, place))
        return Refused(number, place, None, why, self._path)

    def _told(self) -> list:
        """The numbers of the page, behind the one check that is made; or raises its refusal."""
        number, out = self._once("page", lambda: _ask("gvrs_page_said", 21, self.file, len(self.file)))
        if number != _DONE:
            raise self._refusal(number, out[0])
        return out

    def _ask(self, name: str, room: int, *arguments: Any, place: int = 0, why: Callable[[], str] | None = None) -> Tuple[int, list]:
        """What a function answers and what `out` holds. A refusal is raised, with its place in out[place], of 10 with the page's sides, of
        11 with its methods and of 12 with what `why` says, but 13 is an answer."""
        self._told()
        number, out = _ask(name, room, self.file, len(self.file), *arguments)
        if _DONE < number < STORED and number != _ROOM:
            note = {_OUTSIDE: self._sides, COMPRESSED: self._methods_named, _INPUT: why}.get(number)
            raise Refused(number, out[place], note and note())
        return number, out

    def _sides(self) -> str:
        is_ = self.shape
        last = (is_.rows - 1, is_.columns - 1, is_.tiles_down * is_.tiles_across - 1, is_.elements - 1)
        return "there are rows 0 to %d, columns 0 to %d, tiles 0 to %d and elements 0 to %d" % last

    def check(self) -> None:
        """Nothing, where the file is accepted; else raises Refused, as any other question would.

        >>> gvrs.Page("page.gvrs").check()
        >>> gvrs.Page("refused-8.gvrs").check()
        Traceback (most recent call last):
        gvrs.Refused: refused 8 at 336: what a tile or metadata record holds is at fault
        """
        self._told()

    def explain(self) -> Why | None:
        """Why the file is refused, a Why: the first rule that it breaks. None where it is accepted.

        >>> print(gvrs.Page("refused-8.gvrs").explain())
        record 0 behind the header: a tile index is not below the tiles, at 344: found 5, wanted 4
        >>> gvrs.Page("page.gvrs").explain() is None
        True
        """
        try:
            self._told()
        except Refused as refused:
            return refused.why
        return None

    @property
    def shape(self) -> Shape:
        """What the page is in numbers, a Shape.

        >>> gvrs.Page("page.gvrs").shape.rows
        3
        """
        out = self._told()
        return Shape(*out[:12], checksums=out[12] == 1)

    @property
    def label(self) -> str:
        """The product label, which may be empty.

        >>> gvrs.Page("page.gvrs").label
        ''
        """
        return self._part(*self._told()[13:15]).decode()

    @property
    def uuid(self) -> bytes:
        """The UUID, 16 bytes as they stand in the file.

        >>> len(gvrs.Page("page.gvrs").uuid)
        16
        """
        return self._part(self._told()[15], 16)

    @property
    def front(self) -> bytes:
        """The identification block and the header, for lay_down and from_sheet, which take a Page too.

        >>> len(gvrs.Page("page.gvrs").front)
        336
        """
        return self._part(0, self.shape.front)

    def _element(self, number: int) -> Element:
        return self._once(("element", number), lambda: self._read_element(number))

    def _read_element(self, number: int) -> Element:
        _, [code, fill, *out] = self._ask("gvrs_element_said", 18, number)
        type_, coded = _TYPES[code], code == _TYPES.index("integer-coded")
        name, unit, label, description = (self._part(*out[at : at + 2]).decode() for at in range(0, 8, 2))
        least, greatest = (_value(type_, bits) for bits in out[9:11])
        scale, offset = (_value("Float", bits) if coded else None for bits in out[14:16])
        return Element(name, type_, Fill(_value(type_, fill)), unit, label, description, least, greatest, scale, offset, out[8] != 0)

    @property
    def elements(self) -> Tuple[Element, ...]:
        """The page's elements in their order, each an Element.

        >>> [element.name for element in gvrs.Page("page.gvrs").elements]
        ['z']
        """
        return tuple(self._element(number) for number in range(self.shape.elements))

    def _items(self, name: str, size: int, count: int) -> list:
        """The items of a list, each of `size` numbers."""
        numbers_ = (_U64 * (size * count))()
        _, [taken, _] = self._ask(name, 2, 0, numbers_, len(numbers_))
        return [tuple(numbers_[at : at + size]) for at in range(0, size * taken, size)]

    def _part(self, at: int, length: int) -> bytes:
        return self.file[at : at + length]

    def tiles(self) -> list[Tile]:
        """The stored tiles, ascending by index, each a Tile.

        >>> [tile.index for tile in gvrs.Page("page.gvrs").tiles()]
        [2]
        """
        items = self._once("tiles", lambda: self._items("gvrs_tiles", 4, self.shape.stored_tiles))
        return [
            Tile(index, start, tuple(e for e in range(mask.bit_length()) if mask >> e & 1), None if compressor == _NO_COMPRESSOR else compressor)
            for index, start, mask, compressor in items
        ]

    @property
    def metadata(self) -> Tuple[Metadata, ...]:
        """The metadata records in file order, each a Metadata.

        >>> [record.name for record in gvrs.Page("packed.gvrs").metadata]
        ['scanner']
        """
        return tuple(
            Metadata(self._part(name, name_n).decode(), id_, type_, self._part(content, n), self._part(text, text_n).decode(), start)
            for start, name, name_n, id_, type_, content, n, text, text_n in self._records()
        )

    def _records(self) -> list:
        return self._once("metadata", lambda: self._items("gvrs_metadata", 9, self.shape.metadata))

    def find_metadata(self, name: str, id: int) -> Metadata | None:
        """The metadata record with a name and a record ID, a Metadata, or None.

        >>> gvrs.Page("packed.gvrs").find_metadata("scanner", 1).start
        384
        """
        octets = name.encode(errors="surrogatepass")
        kind, [number] = self._ask("gvrs_find_metadata", 1, octets, len(octets), _number(id, 4294967295, "id"))
        return None if kind == FILL else self.metadata[number]

    @property
    def methods(self) -> Tuple[bytes, ...]:
        """The names of the page's compression methods, by their index, as bytes.

        >>> gvrs.Page("page.gvrs").methods
        ()
        """
        items = self._once("methods", lambda: self._items("gvrs_methods", 2, self._told()[16]))
        return tuple(self._part(at, length) for at, length in items)

    def _element_number(self, element: Name) -> int:
        if not isinstance(element, str):
            return _number64(element, "element")
        return self._once(("name", element), lambda: self._find_element(element))

    def _find_element(self, element: str) -> int:
        name = element.encode(errors="surrogatepass")
        kind, [number] = self._ask("gvrs_find_element", 1, name, len(name))
        if kind == FILL:
            raise Refused(_OUTSIDE, 0, f"no element has the name {element!r}")
        return number

    def __getitem__(self, element: Name) -> Raster:
        try:
            number = self._element_number(element)
            self._element(number)
        except Refused as refused:
            if refused.number != _OUTSIDE:
                raise
            raise KeyError(f"there is no element {element!r}: there are {', '.join(self)}") from None
        return Raster(self, number)

    def __iter__(self) -> Iterator[str]:
        return iter([element.name for element in self.elements])

    def __len__(self) -> int:
        return self.shape.elements

    def __contains__(self, element: object) -> bool:
        return element in list(self)

    __eq__, __hash__ = object.__eq__, object.__hash__

    def _memory(self) -> Any:
        """What a call may use to unpack tiles."""
        return (_U32 * (0 if self._compressor == _NO_COMPRESSOR else _TILE_CELLS))()

    def cell(self, row: int, column: int, element: Name) -> Cell:
        """One cell, a Cell. Raises Refused, 10 where it is not in the grid, 11 where it is compressed and not of the page's compressor
        index, or 14 where its compressed content is malformed. Each call checks the page: whoever wants many cells asks for rectangles.

        >>> gvrs.Page("page.gvrs").cell(2, 1, "z").value
        12
        """
        row, column, e = _number64(row, "row"), _number64(column, "column"), self._element_number(element)
        kind, [code, bits, place, tile, inside] = self._ask("gvrs_cell_with", 5, row, column, e, 0, self._compressor, place=2)
        value = _value(_TYPES[code], bits)
        if kind == FILL:
            return Cell("fill", Fill(value), None, None, tile, inside)
        scaled = self._element(e).scaled(value) if _TYPES[code] == "integer-coded" else None
        return Cell("unpacked" if kind == UNPACKED else "stored", value, bits, place, tile, inside, scaled)

    def tile(self, index: int, element: Name) -> list[list[Union[Value, Outside]]]:
        """An element's cells in a tile, as a list of the tile's rows: numbers, or where the tile is not stored Fills; and past the
        grid's edge, where the page has no cell, Outsides. Raises Refused as cell does.

        >>> gvrs.Page("page.gvrs").tile(2, "z")
        [[11, 12], [outside(13), outside(14)]]
        """
        index, e = _number64(index, "index"), self._element_number(element)
        shape = self.shape
        bits = bytearray(4 * shape.tile_rows * shape.tile_columns)
        count = len(bits) // 4
        kind, _ = self._ask("gvrs_unpack", 2, index, e, self._compressor, (_U32 * count).from_buffer(bits), count)
        is_ = self._element(e)
        read = _values(is_.type, bits)
        row, column = index // shape.tiles_across * shape.tile_rows, index % shape.tiles_across * shape.tile_columns

        def value(i: int) -> Any:
            inside = row + i // shape.tile_columns < shape.rows and column + i % shape.tile_columns < shape.columns
            if kind == FILL:
                return is_.fill if inside else Outside(None)
            return read[i] if inside else Outside(read[i])

        return _by_rows([value(i) for i in range(count)], shape.tile_columns)

    def _rectangle(self, row: int, column: int, rows: int | Dots, columns: int | Dots) -> list:
        """The sides of a rectangle; those that are not given reach to the grid's edge."""
        shape, row, column = self.shape, _number64(row, "row"), _number64(column, "column")
        rows = max(shape.rows - row, 0) if rows is ... else _number64(rows, "rows")
        columns = max(shape.columns - column, 0) if columns is ... else _number64(columns, "columns")
        return [row, column, rows, columns]

    def _into(self, e: int, sides: list, kinds: Any, bits: Any, room: int) -> None:
        """Fills two lists of numbers with the kinds and the bits of a rectangle's cells."""
        memory = self._memory()
        self._ask("gvrs_cells", 1, self._compressor, e, *sides, memory, len(memory), kinds, room, bits, room)

    def _room(self, e: int, sides: list, most: int) -> int:
        """The number of cells for which memory is wanted; none where a side is longer than the grid's, since the store refuses that."""
        rows, columns = sides[2:]
        count = rows * columns if rows <= self.shape.rows and columns <= self.shape.columns else 0
        if count <= most:
            return count
        self._into(e, sides, (_U32 * 0)(), (_U32 * 0)(), 0)  # refused where it is not in the grid
        name = self._element(e).name
        instead = f"ask for at most {most // columns} rows of {columns} columns, or go through page[{name!r}].parts()"
        raise ValueError(f"{count} cells are too many at once, since they would take more than 1 GiB: {instead}")

    def cells(self, element: Name, row: int = 0, column: int = 0, rows: int | Dots = ..., columns: int | Dots = ...) -> list[list[Value]]:
        """An element's cells in a rectangle, `rows` rows from `row` on and `columns` columns from `column` on, or up to the grid's edge, as
        a list of rows. Each is a number, a Fill, or, where it cannot be read, the Refused (11 or 14) that cell would raise. Raises Refused,
        10 where the rectangle is not in the grid, and ValueError where it has more than MOST_CELLS cells.

        >>> gvrs.Page("page.gvrs").cells("z", 1, 0, 2, 3)
        [[fill(7), fill(7), fill(7)], [11, 12, fill(7)]]
        """
        e, sides = self._element_number(element), self._rectangle(row, column, rows, columns)
        room = self._room(e, sides, MOST_CELLS)
        kinds, bits = bytearray(4 * room), bytearray(4 * room)
        self._into(e, sides, (_U32 * room).from_buffer(kinds), (_U32 * room).from_buffer(bits), room)
        is_ = self._element(e)
        values = _values(is_.type, bits)
        if kinds.count(STORED) + kinds.count(UNPACKED) < room:  # of each kind three bytes are zeros
            others = {FILL: is_.fill, COMPRESSED: Refused(COMPRESSED, None), MALFORMED: Refused(MALFORMED, None)}
            values = [others.get(kind, value) for kind, value in zip(memoryview(kinds).cast("I"), values)]
        return _by_rows(values, sides[3])

    def arrays(
        self, element: Name, row: int = 0, column: int = 0, rows: int | Dots = ..., columns: int | Dots = ..., under: Number | None = None
    ) -> Arrays:
        """An element's cells in a rectangle, given as for cells, as two arrays of NumPy, Arrays: numbers, and kinds. Where a cell has no
        number `under` stands, which cannot be the fill: unless it is given the least number of a Short, an Integer or an integer-coded
        element, or the next one where that is the fill; of a Float a NaN. Raises as cells does, but takes MOST_IN_ARRAYS cells, and
        ImportError where NumPy is not installed.

        >>> gvrs.Page("page.gvrs").arrays("z").cells.dtype.name
        'int16'
        """
        e, sides = self._element_number(element), self._rectangle(row, column, rows, columns)
        return self._arrays(e, sides, _under(self._element(e), under))[0]

    def _arrays(self, e: int, sides: list, under: Number, raises: bool = False) -> Tuple[Arrays, Any]:
        """The two arrays, and where a cell has no number. Where it is asked for a cell that cannot be read raises its refusal."""
        np, is_ = _numpy(), self._element(e)
        room = self._room(e, sides, MOST_IN_ARRAYS)
        kinds, bits = np.empty(room, np.uint32), np.empty(room, np.uint32)
        self._into(e, sides, kinds.ctypes.data_as(_LIST32), bits.ctypes.data_as(_LIST32), room)
        cells = bits.astype(np.int16) if is_.type == "Short" else bits.view(_LETTERS[is_.type])
        none = kinds == FILL
        if kinds.min(initial=STORED) < STORED:
            unread = kinds < STORED
            if raises:
                row, column = divmod(int(unread.argmax()), sides[3])
                self.cell(sides[0] + row, sides[1] + column, e)
            none |= unread
        if none.any():
            np.copyto(cells, under, where=none)
        return Arrays(cells.reshape(sides[2:]), kinds.reshape(sides[2:])), none.reshape(sides[2:])

    def array(
        self, element: Name, row: int = 0, column: int = 0, rows: int | Dots = ..., columns: int | Dots = ..., under: Number | None = None
    ) -> numpy.ma.MaskedArray:
        """An element's cells in a rectangle, given as for cells, as a masked array of NumPy in which fills are masked. Under the mask, and
        where `filled()` fills it, stands a number that is no score and not the fill: `under`, as for arrays. What does not look at the mask,
        as numpy.median, is then far off, and not off by a little. Raises as arrays does, and Refused, 11 or 14, of the first cell by rows
        that cannot be read.

        >>> z = gvrs.Page("page.gvrs").array("z")
        >>> z.tolist()
        [[None, None, None], [None, None, None], [11, 12, None]]
        >>> float(z.mean()), z.filled().tolist()[2]
        (11.5, [11, 12, -32768])
        """
        e, sides = self._element_number(element), self._rectangle(row, column, rows, columns)
        under = _under(self._element(e), under)
        (cells, _), none = self._arrays(e, sides, under, raises=True)
        return _numpy().ma.MaskedArray(cells, none, fill_value=under)

    def deed(self, element: Name, row: int = 0, column: int = 0, rows: int | Dots = ..., columns: int | Dots = ...) -> Deed:
        """Whether the scores of a Short element in a rectangle, given as for cells, are certain, doubtful or unread, a Deed. Raises
        Refused, 10 where the rectangle is not in the grid; 12 where it has no cell, where the element is no Short, or where the page's
        metadata records named score_rule do not say one rule; 11 or 14 of the first cell by rows that cannot be read.

        >>> gvrs.Page("page.gvrs").deed("z", 2, 0, 1, 2)
        Deed(grade='doubtful', fills=0, lowest=11, scale=1000)
        """
        e, sides = self._element_number(element), self._rectangle(row, column, rows, columns)

        def why() -> str:
            if 0 in sides[2:]:
                return "the rectangle has no cell"
            if self._element(e).type != "Short":
                return "the element is no Short"
            return "the metadata records named score_rule do not say one rule: there may be one, with ID 1 or 2, or none"

        memory = self._memory()
        number, out = self._ask("gvrs_deed", 4, self._compressor, e, *sides, memory, len(memory), why=why)
        fills, has_lowest, lowest, scale = out
        return Deed(_GRADES[number], fills, _signed(lowest, 16) if has_lowest else None, scale)

    def sheet(self) -> bytes:
        """The page as a score sheet, as from_sheet takes it: bytes. Raises Refused: 12 where it has not one element only, a Short with the
        fill -1, where its metadata records named score_rule do not say the first rule, or where the grid has more rows, columns or cells
        than a sheet can have; then 11 or 14, or 12 of a number that is neither -1 nor from 0 to 1000, of the first such cell by rows.

        >>> sheet = bytes.fromhex("00000009 01 0001 0002 0384 ffff")
        >>> gvrs.Page.of_bytes(gvrs.from_sheet(..., sheet)).sheet() == sheet
        True
        """
        memory = self._memory()

        def ask(room: int) -> Tuple[int, int, Any]:
            sheet = ctypes.create_string_buffer(max(room, 1))
            number, [out] = self._ask("gvrs_sheet_out", 1, self._compressor, memory, len(memory), sheet, room, why=self._no_sheet)
            return number, out, sheet

        number, out, sheet = ask(0)  # 13 of a page that can be one
        if number == _ROOM:
            _, out, sheet = ask(9 + 2 * self.shape.rows * self.shape.columns)
        return ctypes.string_at(sheet, out)

    def _no_sheet(self) -> str:
        shape = self.shape
        if shape.rows > 65535 or shape.columns > 65535 or 5 + 2 * shape.rows * shape.columns > 2**32 - 1:
            return "the grid has more rows, columns or cells than a sheet can have"
        if [(element.type, element.fill) for element in self.elements] != [("Short", Fill(-1))]:
            return "the page has not one element only, a Short with the fill -1"
        return "a cell is neither -1 nor from 0 to 1000, or the metadata records named score_rule do not say the first rule"

    def squeeze(self, time: int | Dots = ...) -> bytes:
        """The bytes of a new file: the page with its records moved together, so that no free space is left, opened, squeezed and closed.
        What is stored stays. `time` is the time modified, in milliseconds since 1970, the clock's unless it is given. Raises Refused: the
        check's, 12 where the time is 0.

        >>> len(gvrs.Page("page.gvrs").squeeze())
        424
        """
        correction = Correction(self, time)
        correction.squeeze()
        return correction.close()

    def replay(self, log: Octets, time: int | Dots = ..., squeeze: bool = False) -> bytes:
        """The bytes of a new file: the page with a correction log replayed on it, opened, corrected and closed. `log` is bytes, each number
        with its highest byte first: a length of all that follows in four bytes, a version byte 1, then entries: a byte 1, a tile's index in
        four and the tile's bytes, as pack makes them, to store it, or a byte 2 and an index to remove it. `time` is the time modified, in
        milliseconds since 1970, the clock's unless it is given. Where `squeeze` is true the page is squeezed too before it is closed. Raises
        Refused: the check's, 12 where the time is 0, or the log is not so or names a tile that the page has not; Stopped, with 13, at the
        first entry for which the file would be too long.

        >>> log = bytes.fromhex("00000006 01 02 00000002")
        >>> gvrs.Page.of_bytes(gvrs.Page("page.gvrs").replay(log)).tiles()
        []
        """
        log, correction = _bytes(log, "log"), Correction(self, time)
        stopped = None
        try:
            correction.replay(log)
        except Stopped as caught:
            stopped = caught
        if squeeze:
            correction.squeeze()
        try:
            corrected = correction.close()
        except Refused:
            if not stopped:
                raise
            corrected = None
        if stopped:
            raise Stopped(stopped.number, stopped.place, stopped.note, stopped.entries, corrected)
        return corrected

    def save(self, path: Path) -> None:
        """Saves the page as a new file, as gvrs.save does.

        >>> gvrs.Page("page.gvrs").save("copy.gvrs")
        >>> gvrs.compare("page.gvrs", "copy.gvrs").number
        0
        """
        save(path, self)

    def __repr__(self) -> str:
        if self.closed:
            return "<gvrs.Page, closed>"
        return f"<gvrs.Page of {len(self.file)} bytes>"

    @property
    def in_full(self) -> str:
        """The page's file, sides, stored tiles and elements in a line, or by what it is refused.

        >>> gvrs.Page("page.gvrs").in_full
        'page.gvrs: 3 by 3 cells in tiles of 2 by 2, 1 of 4 stored: z'
        """
        name = os.fsdecode(self._path) if self._path is not None else f"{len(self.file)} bytes"
        try:
            is_ = self.shape
        except Refused as refused:
            return f"{name}: refused {refused.number} at {refused.place}"
        sides = f"{is_.rows} by {is_.columns} cells in tiles of {is_.tile_rows} by {is_.tile_columns}"
        return f"{name}: {sides}, {is_.stored_tiles} of {is_.tiles_down * is_.tiles_across} stored: {', '.join(self)}"


def _under(element: Element, under: Number | None) -> Number:
    """The number that stands in an array where a cell has none."""
    fill = element.fill.value
    if under is None and element.type == "Float":
        return math.nan
    if under is None:
        least = -(2**15) if element.type == "Short" else -(2**31)
        return least + (fill == least)
    stands = _value(element.type, _bits(element.type, under))
    if stands == fill:
        raise ValueError(f"under is {under!r}, the fill of {element.name}, which would pass for a score where no one looks at the mask")
    return stands


class Raster:
    """The cells of one element of a page, by row and column: page["score"]. It is read as a list of rows is: by numbers and slices, also
    negative ones and with steps; a slice ends at the grid's edge. A part of it is a list of rows, one row a list, each cell a number, a
    Fill, or, where it cannot be read, a Refused (11 or 14); one cell alone is a number or a Fill, and raises Refused. A number past the
    edge raises IndexError, and ValueError is raised where more than MOST_CELLS cells would be read, those that a step passes over too.

    >>> z = gvrs.Page("page.gvrs")["z"]
    >>> z
    <gvrs.Raster 'z': 3 by 3 cells, Short, fill(7)>
    >>> z[2, 1], z[-1, 0:2], z[1:, ::2]
    (12, [11, 12], [[fill(7), fill(7)], [11, fill(7)]])
    >>> z[3]
    Traceback (most recent call last):
    IndexError: row 3: there are rows 0 to 2
    """

    def __init__(self, page: Page, number: int) -> None:
        self._page, self._number = page, number

    @property
    def page(self) -> Page:
        """The page.

        >>> page = gvrs.Page("page.gvrs")
        >>> page["z"].page is page
        True
        """
        return self._page

    @property
    def element(self) -> Element:
        """The Element.

        >>> gvrs.Page("page.gvrs")["z"].element.label
        ''
        """
        return self._page._element(self._number)

    @property
    def name(self) -> str:
        """The element's name.

        >>> gvrs.Page("page.gvrs")[0].name
        'z'
        """
        return self.element.name

    @property
    def type(self) -> str:
        """The element's type: Integer, integer-coded, Float or Short.

        >>> gvrs.Page("page.gvrs")["z"].type
        'Short'
        """
        return self.element.type

    @property
    def dtype(self) -> numpy.dtype:
        """The type that NumPy has for the element's numbers.

        >>> gvrs.Page("page.gvrs")["z"].dtype.name
        'int16'
        """
        return _numpy().dtype(_LETTERS[self.type])

    @property
    def fill(self) -> Fill:
        """The element's fill, which is no number.

        >>> gvrs.Page("page.gvrs")["z"].fill
        fill(7)
        """
        return self.element.fill

    fillvalue = fill

    @property
    def shape(self) -> Tuple[int, int]:
        """The rows and the columns of the grid.

        >>> gvrs.Page("page.gvrs")["z"].shape
        (3, 3)
        """
        return self._page.shape[:2]

    @property
    def chunks(self) -> Tuple[int, int]:
        """The rows and the columns of a tile.

        >>> gvrs.Page("page.gvrs")["z"].chunks
        (2, 2)
        """
        return self._page.shape[2:4]

    @property
    def ndim(self) -> int:
        """Two: rows and columns.

        >>> gvrs.Page("page.gvrs")["z"].ndim
        2
        """
        return len(self.shape)

    @property
    def size(self) -> int:
        """The number of cells.

        >>> gvrs.Page("page.gvrs")["z"].size
        9
        """
        return math.prod(self.shape)

    def __len__(self) -> int:
        return self.shape[0]

    def __iter__(self) -> Iterator[list[Value]]:
        for rows, columns in self.parts(2**20):
            yield from self[rows, columns]

    __contains__ = None  # whoever asks whether a number is in it has to say in which row

    def __getitem__(self, key: Any) -> Any:
        row, column = self._axes(key)
        if isinstance(row, int) and isinstance(column, int):
            return self._page.cell(row, column, self._number).value
        picked = self._picked(*_ranges(row, column))
        if isinstance(row, int):
            return picked[0]
        return [cells[0] for cells in picked] if isinstance(column, int) else picked

    def _axes(self, key: Any) -> Tuple[Union[int, range], Union[int, range]]:
        row, column = _both(key)
        return _axis(row, self.shape[0], "row"), _axis(column, self.shape[1], "column")

    def _picked(self, rows: range, columns: range) -> list[list[Value]]:
        """The cells of rows and columns, out of the least rectangle that has them."""
        if not rows or not columns:
            return [[] for _ in rows]
        row, column, last_row, last_column = min(rows), min(columns), max(rows), max(columns)
        read = self._page.cells(self._number, row, column, last_row - row + 1, last_column - column + 1)
        if rows.step == columns.step == 1:
            return read
        return [[read[r - row][c - column] for c in columns] for r in rows]

    def parts(self, most: int = MOST_CELLS) -> Iterator[Tuple[slice, slice]]:
        """The whole grid as rectangles of at most `most` cells, from its first row to its last: a slice of rows and one of columns each.
        They end where tiles do, if a row of tiles has no more cells than that.

        >>> z = gvrs.Page("page.gvrs")["z"]
        >>> [z[part] for part in z.parts(most=6)]
        [[[fill(7), fill(7), fill(7)], [fill(7), fill(7), fill(7)]], [[11, 12, fill(7)]]]
        """
        (rows, columns), (tile_rows, _), most = self.shape, self.chunks, _number64(most, "most")
        wide = min(columns, most)
        if wide == 0:
            raise ValueError("most is 0, and a part has a cell at least")
        high = most // wide
        high -= high % tile_rows if high >= tile_rows else 0
        for row in range(0, rows, high):
            for column in range(0, columns, wide):
                yield slice(row, min(row + high, rows)), slice(column, min(column + wide, columns))

    def array(self, key: Any = ..., under: Number | None = None) -> numpy.ma.MaskedArray:
        """The cells of a key, as those between brackets, as a masked array of NumPy: Page.array says what is masked, what stands under the
        mask, and what is raised.

        >>> z = gvrs.Page("page.gvrs")["z"]
        >>> z.array().shape, z.array(numpy.s_[1:, ::2]).tolist()
        ((3, 3), [[None, None], [11, None]])
        """
        row, column = self._axes(key)
        rows, columns = _ranges(row, column)
        first = min(rows, default=0), min(columns, default=0)
        sides = max(rows, default=-1) + 1 - first[0], max(columns, default=-1) + 1 - first[1]
        read = self._page.array(self._number, *first, *sides, under)
        if not rows.step == columns.step == 1:
            read = read[[r - first[0] for r in rows]][:, [c - first[1] for c in columns]]
        return read[0 if isinstance(row, int) else slice(None), 0 if isinstance(column, int) else slice(None)]

    def __array__(self, *wanted: Any, **options: Any) -> NoReturn:
        raise TypeError(f"a plain array cannot say which cells are fills: page.array({self.name!r}) is a masked one, page.arrays has kinds")

    def __repr__(self) -> str:
        return f"<gvrs.Raster {self.name!r}: {self.shape[0]} by {self.shape[1]} cells, {self.type}, {self.fill!r}>"


def _both(key: Any) -> Tuple[Any, Any]:
    """A key for the rows and one for the columns, also where one of them, or `...` in place of any, is not given."""
    keys = list(key) if isinstance(key, tuple) else [key]
    dots = [at for at, part in enumerate(keys) if part is Ellipsis]
    if len(dots) > 1 or len(keys) - len(dots) > 2:
        raise IndexError(f"a page has rows and columns, and {len(keys)} keys are given")
    at = dots[0] if dots else len(keys)
    keys[at : at + 1] = [slice(None)] * (2 - len(keys) + len(dots))
    return keys[0], keys[1]


def _axis(key: Any, length: int, what: str) -> Union[int, range]:
    """The rows or columns of a key: one, or a range of them."""
    if isinstance(key, slice):
        return range(*key.indices(length))
    if isinstance(key, bool) or not hasattr(type(key), "__index__"):
        raise TypeError(f"{what} is {key!r}, and has to be a whole number or a slice")
    number = operator.index(key)
    if not -length <= number < length:
        raise IndexError(f"{what} {number}: there are {what}s 0 to {length - 1}")
    return number % length


def _ranges(*axes: Union[int, range]) -> list:
    return [range(axis, axis + 1) if isinstance(axis, int) else axis for axis in axes]


class Correction:
    """A page that is corrected in memory, tile by tile, as correcting and Page.replay do it: opened when it is made, with its time; a call
    that is refused changes nothing. `before` is the page as it was; `changed` says whether anything was stored, removed, replayed or
    squeezed. Raises Refused: the check's, 12 where the time is 0.

    >>> correction = gvrs.Correction(gvrs.Page("page.gvrs"), time=2)
    >>> correction.store(0, {"z": [[1, 2], [3, 4]]})
    >>> correction.remove(2)
    True
    >>> gvrs.Page.of_bytes(correction.close())["z"][:]
    [[1, 2, fill(7)], [3, 4, fill(7)], [fill(7), fill(7), fill(7)]]
    """

    def __init__(self, page: Page, time: int | Dots = ...) -> None:
        page.check()
        self.before, self.changed, self._time = page, False, _time(time)
        self._file, self._length = ctypes.create_string_buffer(LONGEST), len(page.file)
        ctypes.memmove(self._file, page.file, self._length)
        self._call("gvrs_open_page", self._time, note=self._late)

    def _call(self, name: str, *arguments: Any, note: Callable[[], str | None] = lambda: None) -> int:
        """Makes a call on the page, which has a new length then; what the call tells behind that. A refusal is raised, of 10 and 12 with
        what `note` says."""
        number, [length, told] = _ask(name, 2, self._file, LONGEST, self._length, *arguments)
        if number == _ROOM:
            raise Refused(number, length, f"the page cannot grow: it would have more than {LONGEST} bytes")
        if number != _DONE:
            raise Refused(number, length, note() if number in (_OUTSIDE, _INPUT) else None)
        self._length = length
        return told

    def _late(self) -> str | None:
        return None if self._time else "the time is 0"

    def _tiles(self) -> str:
        return f"there are tiles 0 to {self.before.shape.tiles_down * self.before.shape.tiles_across - 1}"

    def store(self, index: int, cells: Any, unread: Number | Dict[str, Number] | None = None) -> None:
        """Stores a whole tile. `cells` is its bytes, or a dict from each element's name to its cells there, as pack takes it, with `unread`.
        Raises Refused: 10 where the page has no such tile, 12 where it has more or fewer bytes, 13 where the page would be too long.

        >>> correction = gvrs.Correction(gvrs.Page("page.gvrs"))
        >>> correction.store(3, {"z": [[900, 910], [920, 930]]})
        >>> correction.store(4, bytes(8))
        Traceback (most recent call last):
        gvrs.Refused: refused 10 at 0: what is asked for is not in the grid: there are tiles 0 to 3
        """
        index = _number64(index, "index")
        octets = self._packed(index, cells, unread) if isinstance(cells, dict) else _tile_bytes(index, cells, self.before.shape.tile_bytes)
        self._call("gvrs_store_tile", index, octets, len(octets), note=self._tiles)
        self.changed = True

    def _packed(self, index: int, cells: dict, unread: Any) -> bytes:
        if index >= self.before.shape.tiles_down * self.before.shape.tiles_across:
            raise Refused(_OUTSIDE, 0, self._tiles())
        packed = pack(self.before, {index: cells}, unread)
        if not packed:
            raise ValueError(f"tile {index} is masked whole: there is no number to store, and remove({index}) is what makes its cells fills")
        return packed[index]

    def remove(self, index: int) -> bool:
        """Removes a tile, so that its cells are fills: whether it was stored. Raises Refused, 10 where the page has no such tile.

        >>> correction = gvrs.Correction(gvrs.Page("page.gvrs"))
        >>> correction.remove(2), correction.remove(2)
        (True, False)
        """
        # With as many byte stores as it takes; there is none where the tile is not stored.
        stores = self._call("gvrs_remove_tile_stopped", _number64(index, "index"), 2**64 - 1, note=self._tiles)
        self.changed = self.changed or stores > 0
        return stores > 0

    def replay(self, log: Octets) -> int:
        """Replays a correction log, as Page.replay takes it: the number of its entries. Raises Refused: 12 where the log is not so or names a
        tile that the page has not; Stopped, with 13, at the first entry for which the page would be too long: those before it are done.

        >>> gvrs.Correction(gvrs.Page("page.gvrs")).replay(bytes.fromhex("00000006 01 02 00000002"))
        1
        """
        log = _bytes(log, "log")
        number, [length, entries] = _ask("gvrs_replay", 2, self._file, LONGEST, self._length, log, len(log))
        if number == _INPUT:
            raise Refused(number, length, "the log is no correction log of this page, or names a tile that the page has not")
        if number not in (_DONE, _ROOM):
            raise Refused(number, length)
        self._length, self.changed = length, self.changed or entries > 0
        if number == _ROOM:
            raise Stopped(number, 0, f"stopped behind {entries} entries", entries, None)
        return entries

    def squeeze(self) -> int:
        """Moves the records of the page together, so that no free space is left now: the page's new length.

        >>> correction = gvrs.Correction(gvrs.Page("page.gvrs"))
        >>> correction.remove(2), correction.squeeze()
        (True, 392)
        """
        page = self._file, LONGEST, self._length
        _, [_, starts] = _ask("gvrs_tight_plan", 2, *page, (_U64 * 1)(), 0)  # 13, and how many there are
        plan = (_U64 * starts)()
        _ask("gvrs_tight_plan", 2, *page, plan, starts)
        self._call("gvrs_squeeze", plan, starts)
        self.changed = True
        return self._length

    def close(self) -> bytes:
        """Closes the page: the bytes of its file, with the time modified. No call can be made behind it: 15. Raises Refused, 13 where its
        list of free space would make it too long.

        >>> correction = gvrs.Correction(gvrs.Page("page.gvrs"), time=5)
        >>> gvrs.Page.of_bytes(correction.close()).shape.time
        5
        """
        self._call("gvrs_close_page", self._time, note=self._late)
        return ctypes.string_at(self._file, self._length)

    def __repr__(self) -> str:
        return f"<gvrs.Correction of {self.before!r}, {'changed' if self.changed else 'nothing changed'}>"


def _failed(reason: int, words: str, name: Path) -> OSError:
    """The failure of a file, by the class that Python has for the reason."""
    return OSError(reason, words, os.fspath(name))


def _may_be_replaced(name: Path, is_: os.stat_result) -> None:
    if not stat.S_ISREG(is_.st_mode):
        raise _failed(errno.EINVAL, "not a file that can be replaced", name)
    if not is_.st_mode & 0o222:
        raise _failed(errno.EACCES, "no one may write to it", name)
    if is_.st_nlink > 1:
        raise _failed(errno.EMLINK, "it has another name, a hard link, which would keep the old page", name)


def _settle(path: str, done: str) -> None:
    """Sees to it that the names of a file's folder are on the disk. Where they may not be, what was done stands in any case."""
    try:
        stream = os.open(os.path.dirname(path), os.O_RDONLY | os.O_DIRECTORY | os.O_CLOEXEC)
        try:
            os.fsync(stream)
        finally:
            os.close(stream)
    except OSError as error:
        raise _failed(error.errno, f"{done}, but perhaps not on the disk yet: {error.strerror}", path) from None


@contextmanager
def _no_signals() -> Iterator[None]:
    """Signals wait, so that none leaves a copy behind."""
    before = signal.pthread_sigmask(signal.SIG_BLOCK, signal.valid_signals())
    try:
        yield
    finally:
        signal.pthread_sigmask(signal.SIG_SETMASK, before)


def _write(stream: int, file: bytes) -> None:
    """Writes all of some bytes, and sees to it that they are on the disk."""
    left = memoryview(file)
    while left:
        left = left[os.write(stream, left) :]
    os.fsync(stream)


@contextmanager
def _copy(beside: str, mode: int, file: bytes, prepare: Callable[[int], None] = lambda stream: None) -> Iterator[str]:
    """A file beside another with these bytes, on the disk, by its name; where it has that name still, it is gone afterwards."""
    name = os.path.join(os.path.dirname(beside), f".gvrs-{uuid4().hex[:12]}")
    try:
        stream = os.open(name, os.O_WRONLY | os.O_CREAT | os.O_EXCL | os.O_CLOEXEC, mode)
    except OSError as error:
        raise _failed(error.errno, f"no copy can be made beside it: {error.strerror}", beside) from None
    try:
        doing = "have its owner and group"
        try:
            prepare(stream)
            doing = "be written"
            _write(stream, file)
        except OSError as error:
            raise _failed(error.errno, f"its copy cannot {doing}: {error.strerror}", beside) from None
        finally:
            os.close(stream)
        yield name
    finally:
        with suppress(FileNotFoundError):
            os.unlink(name)


class _Original:
    """A file that is to be replaced: its name as it was given, and without symbolic links; the stream that has the lock, and what it was
    when it was locked. It is open for writing, without which a lock over a network fails; nothing is written to it."""

    def __init__(self, name: Path) -> None:
        self.name, self.path = name, os.path.realpath(name)
        _may_be_replaced(name, os.stat(self.path))
        self.stream = os.open(self.path, os.O_RDWR | os.O_CLOEXEC)

    def locked(self) -> bool:
        """Whether the lock is had, and of the file that has the name still: another correction replaces it."""
        try:
            fcntl.flock(self.stream, fcntl.LOCK_EX | fcntl.LOCK_NB)
        except BlockingIOError:
            return False
        except OSError as error:
            raise _failed(error.errno, f"it cannot be locked: {error.strerror}", self.name) from None
        self.was = os.fstat(self.stream)
        if not self.unchanged():
            return False
        _may_be_replaced(self.name, self.was)
        return True

    def unchanged(self) -> bool:
        """Whether the path still names the file that was locked, and no one has written to it. A file without a name has been replaced,
        also where the folder is on another machine and this one does not know of it yet."""
        try:
            is_ = os.stat(self.path)
        except OSError:
            return False
        return self.was.st_nlink > 0 and all(
            getattr(is_, part) == getattr(self.was, part) for part in ("st_dev", "st_ino", "st_size", "st_mtime_ns")
        )

    def read(self) -> bytes:
        with open(self.stream, "rb", closefd=False) as stream:
            return stream.read(LONGEST + 1)

    def keep_owner_and_mode(self, copy: int) -> None:
        """The owner comes before the mode, of which a change of owner may take bits away."""
        is_ = os.fstat(copy)
        if (is_.st_uid, is_.st_gid) != (self.was.st_uid, self.was.st_gid):
            os.fchown(copy, self.was.st_uid, self.was.st_gid)
        os.fchmod(copy, stat.S_IMODE(self.was.st_mode))

    def replace(self, file: bytes) -> None:
        """A copy with these bytes takes the file's name, unless the file was changed meanwhile."""
        with _no_signals():
            with _copy(self.path, 0o600, file, self.keep_owner_and_mode) as name:
                if not self.unchanged():
                    raise _failed(errno.ESTALE, "it was changed meanwhile, and is left as it is", self.name)
                os.rename(name, self.path)
            _settle(self.path, "replaced")

    def close(self) -> None:
        os.close(self.stream)


def _lock(name: Path, wait: float) -> _Original:
    """The file, locked, behind other corrections up to so many seconds. Each try opens it anew, since a correction replaces it."""
    end = clocks.monotonic() + wait
    while True:
        original = _Original(name)
        try:
            if original.locked():
                return original
        except BaseException:
            original.close()
            raise
        original.close()
        if clocks.monotonic() >= end:
            late = f"another correction of it is still under way after {wait} s" if wait else "another correction of it is under way"
            raise _failed(errno.EWOULDBLOCK, late if wait else f"{late}; wait=SECONDS waits for it", name)
        clocks.sleep(0.01)


@contextmanager
def correcting(path: Path, time: int | Dots = ..., wait: float = 0, squeeze: bool = False) -> Iterator[Correction]:
    """Corrects the page of a file, as the command `gvrs` does: the file is locked and read, and the block has a Correction, which stores and
    removes tiles, replays logs and squeezes. When the block ends the page is closed, written to a copy beside the file, with its owner and
    mode, and the copy takes the file's name when all of it is on the disk. Where the block raises, or anything else, nothing is written, and
    no copy is left. Where nothing was changed the file stays as it is, its time too.

    `time` is the time modified, in milliseconds since 1970, the clock's when the file is locked unless it is given; `wait` is how many
    seconds other corrections of the file are waited for; with `squeeze` the page is squeezed at the end, also where nothing else changed. A
    symbolic link is followed: it stays. Raises Refused as Correction does; BlockingIOError where another correction, or a command, has the
    file; another OSError where it cannot be read, locked or written, where no one may write to it, where it has another hard link, where its
    owner cannot be kept, and where it was changed meanwhile.

    >>> gvrs.Page("page.gvrs").save("worn.gvrs")
    >>> with gvrs.correcting("worn.gvrs", squeeze=True) as correction:
    ...     correction.store(0, {"z": [[1, 2], [3, 4]]})
    ...     correction.remove(2)
    True
    >>> gvrs.Page("worn.gvrs")["z"][:]
    [[1, 2, fill(7)], [3, 4, fill(7)], [fill(7), fill(7), fill(7)]]
    """
    original = _lock(path, wait)
    try:
        page = Page.__new__(Page)
        page._keep(original.read(), None, True, os.fsdecode(path))
        correction = Correction(page, time)
        yield correction
        if squeeze:
            correction.squeeze()
        if correction.changed:
            original.replace(correction.close())
    finally:
        original.close()


def save(path: Path, page: Page | Octets) -> None:
    """Saves a page as a new file: a Page, or bytes, as lay_down gives them, which the check has to accept. The file gets its name when all of
    it is on the disk. Raises FileExistsError where there is a file of that name, which stays as it is; correcting changes one. Raises Refused:
    the check's.

    >>> front = gvrs.front(3, 3, 2, 2, [("z", "Short", 7)])
    >>> gvrs.save("new.gvrs", gvrs.lay_down(front, {}))
    >>> gvrs.Page("new.gvrs").tiles()
    []
    >>> gvrs.save("new.gvrs", gvrs.lay_down(front, {}))
    Traceback (most recent call last):
    FileExistsError: [Errno 17] there is such a file already, and it stays as it is: 'new.gvrs'
    """
    page = page if isinstance(page, Page) else Page.of_bytes(page)
    page.check()
    whole = os.path.abspath(os.fsdecode(path))
    with _no_signals():
        with _copy(whole, 0o666, page.file) as name:
            try:
                os.link(name, whole)
            except FileExistsError:
                raise _failed(errno.EEXIST, "there is such a file already, and it stays as it is", path) from None
        _settle(whole, "written")


def _unlike(first: Page, second: Page) -> str:
    """In what two accepted pages are unlike."""
    for name in ("rows", "columns", "tile_rows", "tile_columns", "elements"):
        sides = getattr(first.shape, name), getattr(second.shape, name)
        if sides[0] != sides[1]:
            return "the pages differ in {}: {} and {}".format(name, *sides)
    types = [(one.type, other.type) for one, other in zip(first.elements, second.elements)]
    number = next(number for number, (one, other) in enumerate(types) if one != other)
    return "the pages differ in the type of element {}: {} and {}".format(number, *types[number])


def _page(page: Page | Path, caller: str) -> Page:
    """A Page, or that of a file."""
    if isinstance(page, Page):
        return page
    if isinstance(page, (str, os.PathLike)):
        return Page(page, check=True)
    raise TypeError(f"{caller} or names of files, and not {type(page).__name__}")


def compare(first: Page | Path, second: Page | Path, most: int | None = None) -> Comparison:
    """In which cells two pages differ, a Comparison: stored against fill, or in bits; a packed cell and a stored one of the same bits do
    not differ. Each is a Page, or the name of a file. `spots` has the earliest `most` of them, or all. What the cells are,
    `first.cell(*spot[:3])` and `second.cell(*spot[:3])` say.
    Raises Refused, with the page that it is about in `note`: as check does, the first page before the second; 12 where they differ in
    grid, tile sides or element types; 11 or 14 at the first cell that cannot be read in one of them.

    >>> page = gvrs.Page("page.gvrs")
    >>> other = gvrs.Page.of_bytes(gvrs.lay_down(page, {2: bytes([11, 0, 0, 0, 13, 0, 14, 0])}))
    >>> gvrs.compare(page, other)
    Comparison(number=1, spots=[Spot(row=2, column=1, element=0, tile=2, inside=1)])
    """
    pages = tuple(_page(page, "compare wants two Pages") for page in (first, second))
    most = None if most is None else _number64(most, "most")
    unpacks = any(page._compressor != _NO_COMPRESSOR for page in pages)
    memory, width = (_U32 * (2 * _TILE_CELLS if unpacks else 0))(), len(Spot._fields)

    def ask(count: int) -> Tuple[int, Any]:
        list_ = (_U32 * (width * count))()
        files = [argument for page in pages for argument in (page.file, len(page.file), page._compressor)]
        number, [out, whose] = _ask("gvrs_compare", 2, *files, memory, len(memory), list_, width * count)
        if number != _DONE:
            raise _compared(pages, number, out, whose)
        return out, list_

    number, _ = ask(0)
    _, list_ = ask(number if most is None else min(number, most)) if number else (0, [])
    return Comparison(number, [Spot(*list_[at : at + width]) for at in range(0, len(list_), width)])


def _compared(pages: Tuple[Page, ...], number: int, place: int, whose: int) -> Refused:
    """The refusal of a comparison, with the page that it is about: 1 the first, 2 the second, 0 neither."""
    if whose == 0:
        return Refused(number, place, _unlike(*pages))
    page, note = pages[whose - 1], ("the first page", "the second page")[whose - 1]
    methods = page._methods_named() if number == COMPRESSED else None
    return Refused(number, place, f"{note}: {methods}" if methods else note, _why(page.file, number, place))


def sheet(page: Page | Path) -> bytes:
    """The score sheet that a page becomes, bytes, as Page.sheet gives it; of a Page, or of the name of a file.

    >>> gvrs.sheet("right-scores.gvrs").hex(" ", 2)
    '00 0000 1101 0002 0003 0384 ffff 03e8 ffff ffff 0000'
    """
    return _page(page, "sheet wants a Page").sheet()


def _packed(type_: str, value: Any) -> bytes:
    """The bytes of one number of a type, as they stand in a file. True and False are no numbers: masks are made of them."""
    if type_ not in _LETTERS:
        raise ValueError(f"{type_!r} is no type: {', '.join(_TYPES)}")
    kind, word = (numbers.Real, "number") if type_ == "Float" else (numbers.Integral, "whole number")
    if isinstance(value, bool) or not isinstance(value, kind):
        raise TypeError(f"{value!r} is no {word}")
    letter = "<" + _LETTERS[type_]
    try:
        return struct.pack(letter, value)
    except (struct.error, OverflowError):
        raise ValueError(f"{value} does not fit the {8 * struct.calcsize(letter)} bits of a {type_}") from None


class NewElement(NamedTuple):
    """An element of a page that is to be made: a tuple of its first three or more will do, and an Element too. `least` and `greatest` are
    its type's unless they are given; the store carries them, and does not hold cells to them. Of an integer-coded element `least`,
    `greatest` and `fill` are the integers that are stored, of which each stands for itself divided by `scale`, plus `offset`.

    >>> score = gvrs.NewElement("score", "Short", -1, label="Score", least=0, greatest=1000)
    >>> gvrs.Page.of_bytes(gvrs.lay_down(gvrs.front(3, 3, 2, 2, [score]), {}))["score"].element.range
    (0, 1000)
    """

    name: str
    type: str
    fill: Union[Number, Fill]
    unit: str = ""
    label: str = ""
    description: str = ""
    least: Number | None = None
    greatest: Number | None = None
    scale: float = 1
    offset: float = 0
    continuous: bool = False


# The least and the greatest value of a type, which G's Tables 9 to 12 want beside its fill.
_RANGES = {"Short": (-(2**15), 2**15 - 1), "Integer": (-(2**31), 2**31 - 1), "Float": (-math.inf, math.inf)}


def _bits(type_: str, value: Any) -> int:
    return int.from_bytes(_packed(type_, value), "little")


def _block(element: NewElement) -> list:
    """G Tables 9 to 12: minimum, maximum and fill; of an integer-coded element as Floats, a NaN where they stand for nothing, its scale and
    offset, then as Integers."""
    fill = element.fill.value if isinstance(element.fill, Fill) else element.fill
    coded = element.type == "integer-coded"
    least, greatest = _RANGES["Integer" if coded else element.type] if element.type in _LETTERS else (0, 0)
    range_ = (least if element.least is None else element.least, greatest if element.greatest is None else element.greatest, fill)
    whole = [_bits("Integer" if coded else element.type, number) for number in range_]
    if not coded:
        return whole + [0] * 5
    scaled = [Element.scaled(element, number) for number in range_]
    floats = (*(math.nan if number is None else number for number in scaled), element.scale, element.offset)
    return [_bits("Float", number) for number in floats] + whole


def _told(element: Any) -> Tuple[list, list]:
    """An element's fourteen numbers for gvrs_front, and its texts: name, label, description and unit."""
    try:
        element = NewElement(*element, *element.further) if isinstance(element, Element) else NewElement(*element)
        texts = [text.encode() for text in (element.name, element.label, element.description, element.unit)]
    except (TypeError, ValueError, AttributeError):
        raise TypeError(f"an element is (name, type, fill), (name, type, fill, unit), an Element or a NewElement, and not {element!r}") from None
    block = _block(element)
    lengths = [_number(len(text), 65535, "the length of a text") for text in texts]
    return [_TYPES.index(element.type), bool(element.continuous), *lengths, *block], texts


def _strings(texts: Iterable[bytes]) -> bytes:
    return b"".join(struct.pack("<H", len(text)) + text for text in texts)


def _padded(octets: bytes, size: int) -> bytes:
    return octets + bytes(-len(octets) % size)


def _written(page: list, uuid: bytes, told: list, behind: list) -> bytes:
    """The bytes of a front that gvrs_front refuses, G Tables 5 to 12, for no other use than to have explained why."""
    entries = b""
    for (code, continuous, length, _, _, _, *block), (name, *texts) in told:
        block = block[: 8 if _TYPES[code] == "integer-coded" else 3]
        head = struct.pack("<BB6xH", code, continuous, length) + name + struct.pack(f"<{len(block)}I", *block)
        entries += _padded(_padded(head, 4) + _strings(texts), 4)
    label, *methods = behind
    fields = struct.pack("<16s64x4I8xB151xI", uuid, *page[:5], len(told)) + entries
    fields += struct.pack("<I", len(methods)) + _strings(methods) + _strings([label]) + bytes(8)
    record = _padded(bytes(8) + fields + bytes(4), 8)
    return b"gvrs raster\0\1\4\0\0" + struct.pack("<IB3x", len(record), 6) + record[8:]


def front(
    rows: int,
    columns: int,
    tile_rows: int,
    tile_columns: int,
    elements: Iterable[Union[tuple, Element, NewElement]],
    checksums: bool = True,
    uuid: Octets | None = None,
    label: str = "",
    methods: Sequence[str] = (),
) -> bytes:
    """The identification block and the header of a new page, for lay_down. `elements` is a list of (name, type, fill), of (name, type,
    fill, unit), of Elements as Page.elements has them, or of NewElement, which has labels, ranges and a scale too. `uuid` is 16 bytes, a
    new one unless given; `label` is the product label; `methods` are the names of the compression methods by their index, as
    "GvrsHuffman". No coordinates and no metadata. Raises Refused: 3 and 4 as lay_down would.

    >>> len(gvrs.front(4, 6, 2, 3, [("glyph", "Integer", 0), ("score", "Short", -1)]))
    376
    >>> gvrs.front(4, 6, 2, 3, [("score_", "Short", -1)])
    Traceback (most recent call last):
    gvrs.Refused: refused 3 at 0: header record at fault
    """
    names = ("rows", "columns", "tile_rows", "tile_columns")
    sides = [_number(side, 2**31 - 1, name) for side, name in zip((rows, columns, tile_rows, tile_columns), names)]
    told = [_told(element) for element in elements]
    uuid = uuid4().bytes if uuid is None else _bytes(uuid, "uuid")
    if len(uuid) != 16:
        raise ValueError(f"a uuid has 16 bytes, and this one {len(uuid)}")
    behind = [text.encode() for text in (label, *methods)]
    lengths = [_number(len(text), 65535, "the length of a text") for text in behind]
    texts = b"".join([text for _, texts in told for text in texts] + behind[1:] + behind[:1])
    page = [*sides, bool(checksums), *lengths]
    numbers_ = [number for element, _ in told for number in element]
    # Beside the texts a front has 300 bytes, at most 80 for each element and 2 for each method.
    room = 300 + 80 * len(told) + 2 * len(behind) + len(texts)
    file = ctypes.create_string_buffer(room)
    lists = (_U32 * len(page))(*page), len(page), uuid, 16, (_U32 * len(numbers_))(*numbers_), len(numbers_)
    number, [out] = _ask("gvrs_front", 1, *lists, texts, len(texts), file, room)
    if number != _DONE:
        raise Refused(number, out, None, _why(_written(page, uuid, told, behind), number, out))
    return file.raw[:out]


class _Part(NamedTuple):
    """An element in a tile that is to be packed: how errors name it, its type, its rows and columns."""

    name: str
    type: str
    sides: Tuple[int, int]

    def place(self, at: int) -> str:
        return f"row {at // self.sides[1]}, column {at % self.sides[1]} of {self.name}"

    def packed(self, at: int, value: Any) -> bytes:
        try:
            return _packed(self.type, value)
        except (TypeError, ValueError) as error:
            raise type(error)(f"{self.place(at)}: {error}") from None

    def cells(self, values: Cells) -> Tuple[bytes, bytes]:
        """The bytes of its cells, and its mask: a byte for each cell, 0 where the cell is not masked."""
        numpy = sys.modules.get("numpy")  # whoever gives an array of NumPy has imported it
        if isinstance(values, (list, tuple, range)):
            return self.of_numbers(values, numpy.ma.masked if numpy else None)
        letter = _LETTERS[self.type]
        if isinstance(values, array.array):
            self.compare((values.typecode, (len(values),)), (letter, (self.sides[0] * self.sides[1],)))
            return values.tobytes(), bytes(len(values))  # in the file's byte order: the library is for x86-64
        # No other subclass, which could have a mask of its own.
        if numpy and type(values) in (numpy.ndarray, numpy.memmap, numpy.matrix, numpy.ma.MaskedArray):
            self.compare((values.dtype.newbyteorder("="), values.shape), (numpy.dtype(letter), self.sides))
            return numpy.asarray(values, "<" + letter).tobytes(), numpy.ma.getmaskarray(values).tobytes()
        raise TypeError(f"{self.name}: cells are numbers, or an array of Python or of NumPy, and not {type(values).__name__}")

    def compare(self, given: tuple, wanted: tuple) -> None:
        """Raises an error where the type and the shape of an array are not those wanted."""
        text = "{}: an array of type {} and shape {}, and wanted are type {} and shape {}".format(self.name, *given, *wanted)
        if given[0] != wanted[0]:
            raise TypeError(f"{text}; tolist() gives its numbers, which are checked one by one")
        if given[1] != wanted[1]:
            raise ValueError(text)

    def of_numbers(self, values: Any, masked: Any) -> Tuple[bytes, bytes]:
        rows, columns = self.sides
        by_rows = len(values) > 0 and all(isinstance(row, (list, tuple, range)) for row in values)
        lengths = [len(row) for row in values] if by_rows else [len(values)]
        if lengths != ([columns] * rows if by_rows else [rows * columns]):
            in_rows = f" in rows of {' and '.join(map(str, sorted(set(lengths))))}" if by_rows else ""
            raise ValueError(f"{self.name}: {sum(lengths)} numbers{in_rows}, and a tile has {rows} by {columns} cells")
        flat = [value for row in values for value in row] if by_rows else values
        mask = bytes(value is None or value is masked for value in flat)
        return b"".join(self.packed(at, 0 if mask[at] else value) for at, value in enumerate(flat)), mask

    def stored(self, content: bytes, mask: bytes, unread: Number | None) -> bytes:
        """The bytes of its cells, where the masked ones are to be stored as the number `unread`."""
        if not any(mask):
            return content
        first = next(at for at, masked in enumerate(mask) if masked)
        if unread is None:
            raise ValueError(f"{self.place(first)}, is masked: there is no number to store, unless unread= says one")
        cell = self.packed(first, unread)
        return b"".join(cell if masked else content[at * len(cell) : (at + 1) * len(cell)] for at, masked in enumerate(mask))


def _by_index(tiles: Any, shape: Shape) -> dict:
    if not isinstance(tiles, dict):
        raise TypeError(f"tiles has to be a dict from indexes, and not {type(tiles).__name__}")
    tiles = {_number(index, 2**32 - 1, "index"): cells for index, cells in tiles.items()}
    for index in tiles:
        if index >= shape.tiles_down * shape.tiles_across:
            raise Refused(_INPUT, 0, f"tile {index}: there are tiles 0 to {shape.tiles_down * shape.tiles_across - 1}")
    return tiles


def pack(
    front: Page | Octets, tiles: Dict[int, Dict[str, Cells]], unread: Union[Number, Dict[str, Number], None] = None
) -> Dict[int, bytes]:
    """What lay_down takes: a dict from a tile's index to its bytes. `front` is the page's, or a Page; `tiles` a dict from a tile's index
    to a dict from each element's name to its cells there, places past the grid's edge too. Cells are numbers by rows, or rows of numbers;
    an array of Python (array.array); or a two-dimensional one of NumPy. An array is of the element's own type, in any byte order: h for a
    Short, i for an Integer and an integer-coded one, f for a Float. A number has to fit the type; one for a Float is rounded to 32 bits.

    A cell is masked where it is so in an array, and where it is None among numbers. That is an error, unless `unread` is the number to
    store there, or a dict of such numbers by the elements' names: nothing in the page tells it from one that was read. A tile that is
    masked whole in every element is left out, so that its cells are fills.

    >>> gvrs.pack(gvrs.Page("page.gvrs"), {2: {"z": [[1, 2], [3, None]]}}, unread=-1)
    {2: b'\\x01\\x00\\x02\\x00\\x03\\x00\\xff\\xff'}
    """
    page = front if isinstance(front, Page) else Page.of_bytes(_laid(_bytes(front, "front"), {}, 1))
    shape, elements, packed = page.shape, page.elements, {}
    names = [element.name for element in elements]
    unread = unread if isinstance(unread, dict) else dict.fromkeys(names, unread)
    for index, cells in _by_index(tiles, shape).items():
        if not isinstance(cells, dict) or set(cells) != set(names):
            given = ", ".join(map(str, cells)) if isinstance(cells, dict) else type(cells).__name__
            raise TypeError(f"tile {index}: wanted is a dict with the cells of {', '.join(names)}, and not {given}")
        parts = [_Part(f"tile {index}, element {name!r}", type_, shape[2:4]) for name, type_, *_ in elements]
        contents, masks = zip(*(part.cells(cells[name]) for part, name in zip(parts, names)))
        if not all(map(all, masks)):
            packed[index] = b"".join(
                part.stored(content, mask, unread.get(name)) for part, content, mask, name in zip(parts, contents, masks, names)
            )
    return packed


def _front(front: Page | Octets) -> bytes:
    """The bytes of a front, or of a page's."""
    return front.front if isinstance(front, Page) else _bytes(front, "front")


def _laid(front: bytes, tiles: Dict[int, bytes], time: int) -> bytes:
    indexes = sorted(tiles)
    cells, count = b"".join(tiles[index] for index in indexes), len(indexes)
    file = ctypes.create_string_buffer(LONGEST)
    number, [out] = _ask(
        "gvrs_lay_down", 1, front, len(front), time, (_U32 * count)(*indexes), count, cells, len(cells), file, LONGEST
    )
    if number != _DONE:
        raise Refused(number, out, "the time is 0" if number == _INPUT else None, _why(front, number, out))
    return ctypes.string_at(file, out)


def _tile_bytes(index: int, cells: Any, wanted: int) -> bytes:
    """The bytes of a tile; of no array, since masked cells have bytes too, and its numbers may have others than the cells of a page."""
    taken, given = isinstance(cells, (bytes, bytearray)), type(cells).__name__
    if isinstance(cells, memoryview):
        taken = cells.format == "B" and cells.ndim == 1 and cells.contiguous
        given = f"a memoryview of format {cells.format!r} and shape {cells.shape}"
    if not taken:
        kinds = "bytes, bytearray or a contiguous memoryview of format 'B'"
        raise TypeError(f"tile {index} has to be {wanted} bytes, as {kinds}, and not {given}: pack makes them of numbers and arrays")
    if len(cells) != wanted:
        raise Refused(_INPUT, 0, f"tile {index}: {len(cells)} bytes, and its cells take {wanted}")
    return bytes(cells)


def lay_down(front: Page | Octets, tiles: Dict[int, Octets], time: int | Dots = ...) -> bytes:
    """A new page, as the bytes of its file. `front` is the page's, as front makes it, or a Page, of which the front is taken. `tiles` is a
    dict from a tile's index to its bytes, all elements in order, as pack makes it: bytes, a bytearray or a memoryview of format B, and
    nothing else. Every other tile is not stored, and its cells are fills. `time` is the time modified, in milliseconds since 1970, the
    clock's unless it is given. Raises Refused: 1 to 4 of the front, 12 where the time is 0, an index is not below the number of tiles or a
    tile has more or fewer bytes than its cells take, 4 where the file would be too long.

    >>> file = gvrs.lay_down(gvrs.front(3, 3, 2, 2, [("z", "Short", 7)]), {2: bytes(8)})
    >>> gvrs.Page.of_bytes(file)["z"][2]
    [0, 0, fill(7)]
    """
    octets, time = _front(front), _time(time)
    shape = Page.of_bytes(_laid(octets, {}, time)).shape
    tiles = {index: _tile_bytes(index, cells, shape.tile_bytes) for index, cells in _by_index(tiles, shape).items()}
    return _laid(octets, tiles, time)


def _score_front(sheet: bytes) -> bytes:
    """A front for a score sheet, as the command makes it: tiles of at most 256 by 256, one element `score`, a Short with the fill -1. What
    is no sheet is refused later."""
    rows, columns = struct.unpack_from(">HH", sheet, 5) if len(sheet) >= 9 else (1, 1)
    rows, columns = max(rows, 1), max(columns, 1)
    return front(rows, columns, min(rows, 256), min(columns, 256), [("score", "Short", -1)])


def from_sheet(front: Page | Octets | Dots, sheet: Octets, time: int | Dots = ...) -> bytes:
    """A new page of a score sheet, as the bytes of its file. `front` is bytes, or a Page, of which the front is taken: the grid is the
    sheet's and the one element a Short with the fill -1; where it is `...` one is made, with an element `score` and tiles of at most 256 by
    256. `sheet` is bytes, each number with its highest byte first: a length of all that follows in four bytes, a version byte 1, rows and
    columns in two each, then each score by rows in two, -1 for unread, else 0 to 1000. A tile all -1 is not stored. `time` is the time
    modified, in milliseconds since 1970, the clock's unless it is given. Raises Refused: 1 to 4 of the front, 12 where the sheet or the
    front is not so, or the time is 0, 4 where the file would be too long.

    >>> sheet = bytes.fromhex("00000009 01 0001 0002 0384 ffff")
    >>> gvrs.Page.of_bytes(gvrs.from_sheet(..., sheet))["score"][:]
    [[900, -1]]
    """
    sheet, time = _bytes(sheet, "sheet"), _time(time)
    octets = _score_front(sheet) if front is ... else _front(front)
    file = ctypes.create_string_buffer(LONGEST)
    number, [out] = _ask("gvrs_sheet_in", 1, octets, len(octets), time, sheet, len(sheet), file, LONGEST)
    if number == _INPUT:
        why = "the sheet is no score sheet, or the front has not its rows and columns and one element only, a Short with the fill -1"
        raise Refused(number, out, why if time else "the time is 0")
    if number != _DONE:
        raise Refused(number, out, None, _why(octets, number, out))
    return ctypes.string_at(file, out)
