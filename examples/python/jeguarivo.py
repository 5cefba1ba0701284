"""Jeguarivo's entries for Python: a function for each entry of include/jeguarivo.h, on a shared object made from the archive.

    gcc -shared -o libjeguarivo.so -Wl,--whole-archive libjeguarivo.a -Wl,--no-whole-archive

JEGUARIVO_SO names the shared object; without it, the one that examples/tour builds is taken.

A cell is given as its code, a whole number that says its arrangement too. Each function answers the value, or raises Refused with the header's number. A
number that does not fit in 64 bits raises ctypes.ArgumentError: ctypes alone would cut it in silence.
"""

import ctypes
import operator
import os
import pathlib
from ctypes import c_char_p, c_double, c_int64, c_size_t, c_uint64
from typing import Iterable, List, NamedTuple, Optional, Tuple, Union

UP, RIGHT, DOWN, LEFT = range(4)
SHAPES = ("quad", "cap", "dart", "skew quad")
LONGEST_NAME, LONGEST_TEXT, MOST_AT_CORNERS = 16, 65536, 4
WGS84 = 6_694_379_990  # the squared eccentricity, in units of 10^-12

REASONS = {
    1: "a face above 5, an empty name, or a name that does not start with N to S",
    2: "a resolution or a depth above 15, or a name over 16 bytes",
    3: "a name byte that is no digit 0 to 8, a row or column outside the face, a child digit above 8, or a direction above 3",
    4: "a number that is no cell's code",
    5: "n or s above 3",
    6: "a longitude, z, sine or eccentricity out of range",
    7: "a point outside the image of the plane",
    8: "a buffer shorter than the answer",
    9: "a text that is not of the grammar",
    10: "a version neither 1 nor 2",
    11: "a list of codes that does not rise strictly, or with one cell inside another",
    12: "the parent of a cell of resolution 0, or a child of one of resolution 15",
    13: "a text longer than 65,536 bytes",
    14: "a question of another arrangement than the text's, a list with a code of another arrangement than the asked one, or two texts that differ in n or s",
    15: "a list outside the profile: a part of N or S, or a cell deeper than the asked depth",
    16: "a change of settings that was not made from the newest revision",
    17: "a change of settings past revision 65,535",
    18: "a revision of settings that is dropped or not yet made",
    19: "a face side that is not a number from 1 to 2^30, or a frame with an edge that is not a number",
}


class Refused(ValueError):
    """An entry refused its input: `number` says why. With 9, `place` is how much of the text some good text begins with."""

    def __init__(self, number: int, place: int = 0):
        words = REASONS.get(number, "an unknown reason") + (f", at place {place}" if number == 9 else "")
        super().__init__(f"refused with {number}: {words}")
        self.number, self.place = number, place


class Cell(NamedTuple):
    n: int
    s: int
    face: int
    resolution: int
    row: int
    column: int


class Listing(NamedTuple):
    codes: List[int]
    size: int


class Square(NamedTuple):
    left: int
    top: int
    side: int


class Point(NamedTuple):
    x: int
    y: int


class Fix(NamedTuple):
    longitude: int
    z: int


class Check(NamedTuple):
    version: int
    depth: int
    n: int
    s: int
    cells: int
    size: int


class Ask(NamedTuple):
    covered: bool
    settled: int


class Summary(NamedTuple):
    """Of each cell of resolution 2, in code order, the number of covered finest cells; all of them are 9^13."""

    n: int
    s: int
    counters: List[int]


class PointInMetres(NamedTuple):
    x: float
    y: float


class Frame(NamedTuple):
    """Four edges in metres: a cell's box, or a frame around several."""

    left: float
    bottom: float
    right: float
    top: float


Mark = Union[PointInMetres, Frame]  # what the plotter draws


class Settings(NamedTuple):
    """An arrangement, the working resolution and the squared eccentricity."""

    n: int
    s: int
    resolution: int
    eccentricity: int


def _struct(name: str, kind: type, *fields: str) -> type:
    """The struct of an answer: `refusal`, then fields of one kind, in the header's order."""
    return type(name, (ctypes.Structure,), {"_fields_": [("refusal", c_uint64), *((field, kind) for field in fields)]})


_Code = _struct("jgv_code", c_uint64, "code")
_Cell = _struct("jgv_cell", c_uint64, "n", "s", "face", "resolution", "row", "column")
_Name = _struct("jgv_name", c_uint64, "n", "s", "length")
_Length = _struct("jgv_length", c_uint64, "length")
_Size = _struct("jgv_size_answer", c_uint64, "size")
_Shape = _struct("jgv_shape_answer", c_uint64, "shape")
_Count = _struct("jgv_count", c_uint64, "count")
_Square = _struct("jgv_square_answer", c_int64, "left", "top", "side")
_Point = _struct("jgv_point", c_int64, "x", "y")
_Vertices = _struct("jgv_vertices_answer", c_int64 * 4, "x", "y")
_Fix = _struct("jgv_fix", c_int64, "longitude", "z")
_Z = _struct("jgv_z", c_int64, "z")
_Check = _struct("jgv_check", c_uint64, "place", "version", "depth", "n", "s", "cells", "size")
_List = _struct("jgv_list", c_uint64, "place", "count")
_Ask = _struct("jgv_ask", c_uint64, "place", "covered", "settled")
_Add = _struct("jgv_add", c_uint64, "place", "length")
_FrameAnswer = _struct("jgv_frame_answer", c_double, *Frame._fields)


class _MarkAnswer(ctypes.Structure):
    _fields_ = [("refusal", c_uint64), ("kind", c_uint64), ("numbers", c_double * 4)]


class _Summary(ctypes.Structure):
    _fields_ = [*((field, c_uint64) for field in ("refusal", "place", "n", "s")), ("counters", c_uint64 * 486)]


class _Frame(ctypes.Structure):
    _fields_ = [(edge, c_double) for edge in Frame._fields]
_Compare = _struct("jgv_compare", c_uint64, "place", "first_cells", "second_cells", "both_cells", "first_size", "second_size", "both_size")
_Rescue = _struct("jgv_rescue", c_uint64, "place", "length", "changes")
_Sheet = _struct("jgv_sheet", c_uint64, "place", "right", "record")
_SheetLength = _struct("jgv_sheet_length", c_uint64, "place", "length")
_SummaryAsk = _struct("jgv_summary_ask_answer", c_uint64, "covered")


class _Settings(ctypes.Structure):
    _fields_ = [(field, c_uint64) for field in Settings._fields]


class History(ctypes.Structure):
    """Settings with their past: `newest` is the newest revision. A value: the functions answer a new one."""

    _fields_ = [("newest", c_uint64), ("_kept", _Settings * 32)]


_HistoryAnswer = _struct("jgv_history_answer", History, "history")
_SettingsAnswer = _struct("jgv_settings_answer", _Settings, "settings")


class _U64:
    """An argument from 0 to 2^64 - 1."""

    @staticmethod
    def from_param(value):
        if not 0 <= operator.index(value) < 1 << 64:
            raise OverflowError(f"{value} is not from 0 to 2^64 - 1")
        return c_uint64(value)


class _I64:
    """An argument from -2^63 to 2^63 - 1."""

    @staticmethod
    def from_param(value):
        if not -1 << 63 <= operator.index(value) < 1 << 63:
            raise OverflowError(f"{value} is not from -2^63 to 2^63 - 1")
        return c_int64(value)


_BYTES, _ROOM, _CODES = c_char_p, ctypes.POINTER(ctypes.c_char), ctypes.POINTER(c_uint64)

_here = pathlib.Path(__file__).resolve().parent
_library = ctypes.CDLL(os.environ.get("JEGUARIVO_SO") or str(_here.parent.parent / "target/examples/libjeguarivo.so"))


def _entry(name: str, answer: type, *arguments):
    """The entry as a function that answers its struct, or raises Refused."""
    function = getattr(_library, name)
    function.argtypes, function.restype = arguments, answer

    def call(*values):
        got = function(*values)
        if got.refusal:
            raise Refused(got.refusal, getattr(got, "place", 0))
        return got

    return call


_cell_code = _entry("jgv_cell_code", _Code, _U64, _U64, _U64, _U64, _U64, _U64)
_code_cell = _entry("jgv_code_cell", _Cell, _U64)
_code_cells = _entry("jgv_code_cells", _Count, _CODES, c_size_t, _CODES, c_size_t)
_cell_codes = _entry("jgv_cell_codes", _Count, _CODES, c_size_t, _CODES, c_size_t)
_name_code = _entry("jgv_name_code", _Code, _U64, _U64, _BYTES, c_size_t)
_code_name = _entry("jgv_code_name", _Name, _U64, _ROOM, c_size_t)
_parent = _entry("jgv_parent", _Code, _U64)
_child = _entry("jgv_child", _Code, _U64, _U64)
_size = _entry("jgv_size", _Size, _U64)
_shape = _entry("jgv_shape", _Shape, _U64)
_corner_count = _entry("jgv_corner_count", _Count, _U64)
_corner_cells = _entry("jgv_corner_cells", _Count, _U64, _CODES, c_size_t)
_square = _entry("jgv_square", _Square, _U64)
_nucleus = _entry("jgv_nucleus", _Point, _U64)
_vertices = _entry("jgv_vertices", _Vertices, _U64)
_point_code = _entry("jgv_point_code", _Code, _U64, _U64, _U64, _I64, _I64)
_fix_code = _entry("jgv_fix_code", _Code, _U64, _U64, _U64, _I64, _I64)
_geodetic_z = _entry("jgv_geodetic_z", _Z, _I64, _U64)
_geodetic_code = _entry("jgv_geodetic_code", _Code, _U64, _U64, _U64, _I64, _I64, _U64)
_ground_nucleus = _entry("jgv_ground_nucleus", _Fix, _U64)
_neighbour = _entry("jgv_neighbour", _Code, _U64, _U64)
_coverage_check = _entry("jgv_coverage_check", _Check, _BYTES, c_size_t)
_coverage_list = _entry("jgv_coverage_list", _List, _BYTES, c_size_t, _CODES, c_size_t)
_coverage_write = _entry("jgv_coverage_write", _Length, _U64, _U64, _U64, _U64, _CODES, c_size_t, _ROOM, c_size_t)
_coverage_ask = _entry("jgv_coverage_ask", _Ask, _BYTES, c_size_t, _U64)
_coverage_add = _entry("jgv_coverage_add", _Add, _ROOM, c_size_t, _U64, _U64)
_mark_point = _entry("jgv_mark_point", _MarkAnswer, c_double, _U64, _U64, _I64, _I64)
_mark_code = _entry("jgv_mark_code", _MarkAnswer, c_double, _U64)
_frame_first = _entry("jgv_frame_first", _FrameAnswer, c_double, _U64)
_frame_grow = _entry("jgv_frame_grow", _FrameAnswer, c_double, _Frame, _U64)
_summary = _entry("jgv_summary", _Summary, _BYTES, c_size_t)
_summary_ask = _entry("jgv_summary_ask", _SummaryAsk, _U64, _U64, _CODES, _U64)
_settings_fresh = _entry("jgv_settings_fresh", _HistoryAnswer, _U64, _U64, _U64, _U64)
_settings_change = _entry("jgv_settings_change", _HistoryAnswer, History, _U64, _U64, _U64, _U64, _U64)
_settings_back = _entry("jgv_settings_back", _HistoryAnswer, History, _U64, _U64)
_settings_read = _entry("jgv_settings_read", _SettingsAnswer, History, _U64)
_coverage_compare = _entry("jgv_coverage_compare", _Compare, _BYTES, c_size_t, _BYTES, c_size_t, _CODES, c_size_t, _CODES, c_size_t, _CODES, c_size_t)
_coverage_rescue = _entry("jgv_coverage_rescue", _Rescue, _BYTES, c_size_t, _ROOM, c_size_t, _CODES, c_size_t)
_sheet_check = _entry("jgv_sheet_check", _Sheet, _BYTES, c_size_t, _BYTES, c_size_t)
_sheet_write = _entry("jgv_sheet_write", _SheetLength, _BYTES, c_size_t, _ROOM, c_size_t)


def cell_code(n: int, s: int, face: int, resolution: int, row: int, column: int) -> int:
    """The code of a cell in an arrangement."""
    return _cell_code(n, s, face, resolution, row, column).code


def code_cell(code: int) -> Cell:
    """The arrangement n and s, and the face, resolution, row and column of a code."""
    got = _code_cell(code)
    return Cell(got.n, got.s, got.face, got.resolution, got.row, got.column)


def code_cells(codes: Iterable[int]) -> List[Union[Cell, Refused]]:
    """What `code_cell` answers for each of many codes; a bad one has its Refused in its place."""
    given = [_U64.from_param(code) for code in codes]
    numbers = (c_uint64 * (7 * len(given)))()
    _code_cells((c_uint64 * len(given))(*given), len(given), numbers, len(numbers))
    return [Refused(numbers[at]) if numbers[at] else Cell(*numbers[at + 1 : at + 7]) for at in range(0, len(numbers), 7)]


def cell_codes(cells: Iterable[Cell]) -> List[Union[int, Refused]]:
    """What `cell_code` answers for each of many cells; a bad one has its Refused in its place."""
    given = [_U64.from_param(number) for n, s, face, resolution, row, column in cells for number in (n, s, face, resolution, row, column)]
    codes = (c_uint64 * (len(given) // 3))()
    _cell_codes((c_uint64 * len(given))(*given), len(given), codes, len(codes))
    return [Refused(codes[at]) if codes[at] else codes[at + 1] for at in range(0, len(codes), 2)]


def name_code(n: int, s: int, name: Union[str, bytes]) -> int:
    """The code of a name, such as "P41", in an arrangement."""
    name = name.encode() if isinstance(name, str) else bytes(name)
    return _name_code(n, s, name, len(name)).code


def code_name(code: int) -> str:
    """The name of a code; `code_cell` answers its arrangement."""
    room = ctypes.create_string_buffer(LONGEST_NAME)
    length = _code_name(code, room, LONGEST_NAME).length
    return room.raw[:length].decode("ascii")


def parent(code: int) -> int:
    """The cell of the next coarser resolution around a cell."""
    return _parent(code).code


def child(code: int, digit: int) -> int:
    """The child of a cell: 0 is top left, 8 bottom right."""
    return _child(code, digit).code


def size(code: int) -> int:
    """The number of finest cells in a cell."""
    return _size(code).size


def shape(code: int) -> str:
    """One of SHAPES."""
    return SHAPES[_shape(code).shape]


def corner_count(code: int) -> int:
    """How many cells meet a cell at a corner only."""
    return _corner_count(code).count


def corner_cells(code: int) -> List[int]:
    """Their codes, rising."""
    codes = (c_uint64 * MOST_AT_CORNERS)()
    return codes[: _corner_cells(code, codes, MOST_AT_CORNERS).count]


def square(code: int) -> Square:
    """The square of a cell in the plane."""
    got = _square(code)
    return Square(got.left, got.top, got.side)


def nucleus(code: int) -> Point:
    """The middle of a cell in the plane."""
    got = _nucleus(code)
    return Point(got.x, got.y)


def vertices(code: int) -> Tuple[Point, ...]:
    """The corners of a cell in the plane: top left, top right, bottom right, bottom left."""
    got = _vertices(code)
    return tuple(map(Point, got.x, got.y))


def point_code(n: int, s: int, resolution: int, x: int, y: int) -> int:
    """The cell of a resolution that owns a point of the plane."""
    return _point_code(n, s, resolution, x, y).code


def fix_code(n: int, s: int, resolution: int, longitude: int, z: int) -> int:
    """The cell in which a fix lies: longitude in units of 10^-7 degree, z (the sine of the authalic latitude) in units of 10^-18."""
    return _fix_code(n, s, resolution, longitude, z).code


def geodetic_z(sine: int, eccentricity: int) -> int:
    """z from the sine of a geodetic latitude, in units of 10^-18, and a squared eccentricity in units of 10^-12, such as WGS84."""
    return _geodetic_z(sine, eccentricity).z


def geodetic_code(n: int, s: int, resolution: int, longitude: int, sine: int, eccentricity: int) -> int:
    """The cell in which a fix with a geodetic latitude lies: that of the fix with `geodetic_z`."""
    return _geodetic_code(n, s, resolution, longitude, sine, eccentricity).code


def ground_nucleus(code: int) -> Fix:
    """The fix of a cell's middle, each number floored."""
    got = _ground_nucleus(code)
    return Fix(got.longitude, got.z)


def neighbour(code: int, direction: int) -> int:
    """The neighbour of a cell, in its arrangement: UP, RIGHT, DOWN or LEFT."""
    return _neighbour(code, direction).code


def coverage_check(text: bytes) -> Check:
    """A text's version, depth (15 at version 1), n and s, the number of its whole cells and the sum of their sizes."""
    got = _coverage_check(text, len(text))
    return Check(got.version, got.depth, got.n, got.s, got.cells, got.size)


def coverage_list(text: bytes) -> List[int]:
    """The codes of a text's whole cells, of its own arrangement, rising. A text has fewer whole cells than bytes."""
    codes = (c_uint64 * len(text))()
    return codes[: _coverage_list(text, len(text), codes, len(text)).count]


def coverage_write(n: int, s: int, codes: Iterable[int], depth: Optional[int] = None) -> bytes:
    """The coverage text of rising codes of an arrangement, none inside another: of version 1, or with a depth of version 2, for handhelds."""
    given = [_U64.from_param(code) for code in codes]
    version, depth = (1, 15) if depth is None else (2, depth)
    room = ctypes.create_string_buffer(LONGEST_TEXT)
    length = _coverage_write(version, depth, n, s, (c_uint64 * len(given))(*given), len(given), room, LONGEST_TEXT).length
    return room.raw[:length]


def coverage_ask(text: bytes, code: int) -> Ask:
    """Whether a text covers all finest cells of a cell of its arrangement, and how many letters and digits of the text settle that."""
    got = _coverage_ask(text, len(text), code)
    return Ask(got.covered == 1, got.settled)


def coverage_add(text: bytes, code: int) -> bytes:
    """The text with one cell of its arrangement more. It is at most 46 bytes longer."""
    size = len(text) + 46
    room = ctypes.create_string_buffer(text, size)
    length = _coverage_add(room, size, len(text), code).length
    return room.raw[:length]


def _mark(got) -> Mark:
    """Kind 1 is a point, 2 a box."""
    return PointInMetres(*got.numbers[:2]) if got.kind == 1 else Frame(*got.numbers)


def _frame(got) -> Frame:
    return Frame(got.left, got.bottom, got.right, got.top)


def mark_point(side: float, n: int, s: int, x: int, y: int) -> Mark:
    """A mark for the plotter at a point of the plane, in metres. Here and below `side` is the face side in metres, from 1 to 2^30."""
    return _mark(_mark_point(side, n, s, x, y))


def mark_code(side: float, code: int) -> Mark:
    """A mark for the plotter of a cell, in metres: its box."""
    return _mark(_mark_code(side, code))


def frame_first(side: float, code: int) -> Frame:
    """The first frame: a cell's box."""
    return _frame(_frame_first(side, code))


def frame_grow(side: float, frame: Frame, code: int) -> Frame:
    """A frame grown to hold the box of a further cell."""
    return _frame(_frame_grow(side, _Frame(*frame), code))


def settings_fresh(settings: Settings) -> History:
    """A history whose revision 0 is these settings."""
    return _settings_fresh(*settings).history


def settings_change(history: History, revision: int, settings: Settings) -> History:
    """The history with these settings as a new revision, made from `revision`, which must be the newest."""
    return _settings_change(history, revision, *settings).history


def settings_back(history: History, revision: int, wanted: int) -> History:
    """The same with the settings of a kept revision."""
    return _settings_back(history, revision, wanted).history


def settings_read(history: History, revision: int) -> Settings:
    """What was accepted under a kept revision."""
    got = _settings_read(history, revision).settings
    return Settings(got.n, got.s, got.resolution, got.eccentricity)


def coverage_compare(first: bytes, second: bytes) -> Tuple[Listing, Listing, Listing]:
    """What two texts of one arrangement cover: only the first, only the second, and both, each as the fewest cells, rising."""
    room = 3 * (len(first) + len(second))  # always enough
    firsts, seconds, boths = ((c_uint64 * room)() for _ in range(3))
    got = _coverage_compare(first, len(first), second, len(second), firsts, room, seconds, room, boths, room)
    return (
        Listing(firsts[: got.first_cells], got.first_size),
        Listing(seconds[: got.second_cells], got.second_size),
        Listing(boths[: got.both_cells], got.both_size),
    )


def coverage_rescue(text: bytes) -> Tuple[bytes, List[Tuple[int, int]]]:
    """The proper text of a hand-edited one, and what was changed: for each change its place in the text and its kind, 1 to 4."""
    proper = ctypes.create_string_buffer(len(text))  # never longer
    changed = (c_uint64 * (4 * len(text)))()  # always enough
    got = _coverage_rescue(text, len(text), proper, len(proper), changed, len(changed))
    return proper.raw[: got.length], [(changed[2 * i], changed[2 * i + 1]) for i in range(got.changes)]


def sheet_check(text: bytes, sheet: bytes) -> Optional[int]:
    """Whether a neighbour sheet is the one that our rules make of a text: None on yes, on no the number of the first wrong record."""
    got = _sheet_check(text, len(text), sheet, len(sheet))
    return None if got.right else got.record


def sheet_write(text: bytes) -> bytes:
    """The neighbour sheet that our rules make of a text: 40 bytes for each whole cell."""
    room = ctypes.create_string_buffer(40 * len(text))  # always enough
    got = _sheet_write(text, len(text), room, len(room))
    return room.raw[: got.length]


def summary(text: bytes) -> Summary:
    """A summary to be kept beside a text: its n and s, and how many finest cells of each cell of resolution 2 are covered."""
    got = _summary(text, len(text))
    return Summary(got.n, got.s, list(got.counters))


def summary_ask(kept: Summary, code: int) -> bool:
    """Whether all finest cells of a cell of resolution 0 to 2 are covered, by the counters of a summary: as the text answers."""
    if len(kept.counters) != 486:
        raise ValueError("a summary has 486 counters")
    return _summary_ask(kept.n, kept.s, (c_uint64 * 486)(*kept.counters), code).covered == 1
