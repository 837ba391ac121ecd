"""The C header as Python: its numbers, structs and calls, by the names that they have there. Made by python/generate from include/oatmarten.h;
change that file, and make this one anew."""
# flake8: noqa
from __future__ import annotations

import ctypes
import enum
from typing import Dict, Iterable, TypeVar, Union

from . import library
from .library import Refused
from .memory import Buffer, Struct, apart, lent, number, struct

Answer = TypeVar("Answer", bound=Struct)


# Grows by one when a struct, a call or a number of this header changes, or what a call answers.
OAT_REVISION = 9


class oat_refusal(enum.IntEnum):
    """The field `refusal`, with what it names. Where more than one applies, each call below says the order of its tests; ends are looked at P before
    Q, axes in the order x, y, z."""

    OAT_ACCEPTED = 0
    OAT_REFUSED_LIMIT = 1
    OAT_REFUSED_COUNT = 2
    OAT_REFUSED_BYTES = 3
    OAT_REFUSED_LAYER = 4
    OAT_REFUSED_OFF_GRID = 5
    OAT_REFUSED_ROOM = 6
    OAT_REFUSED_PLACEMENT = 7
    OAT_REFUSED_NOT_FINITE = 8
    OAT_REFUSED_OFF_SURVEY = 9
    OAT_REFUSED_RECORD = 10
    OAT_REFUSED_VERSION = 11
    OAT_REFUSED_RULE = 12
    OAT_REFUSED_STALE = 13
    OAT_REFUSED_CORNERS = 14


OAT_ACCEPTED = oat_refusal.OAT_ACCEPTED
OAT_REFUSED_LIMIT = oat_refusal.OAT_REFUSED_LIMIT
OAT_REFUSED_COUNT = oat_refusal.OAT_REFUSED_COUNT
OAT_REFUSED_BYTES = oat_refusal.OAT_REFUSED_BYTES
OAT_REFUSED_LAYER = oat_refusal.OAT_REFUSED_LAYER
OAT_REFUSED_OFF_GRID = oat_refusal.OAT_REFUSED_OFF_GRID
OAT_REFUSED_ROOM = oat_refusal.OAT_REFUSED_ROOM
OAT_REFUSED_PLACEMENT = oat_refusal.OAT_REFUSED_PLACEMENT
OAT_REFUSED_NOT_FINITE = oat_refusal.OAT_REFUSED_NOT_FINITE
OAT_REFUSED_OFF_SURVEY = oat_refusal.OAT_REFUSED_OFF_SURVEY
OAT_REFUSED_RECORD = oat_refusal.OAT_REFUSED_RECORD
OAT_REFUSED_VERSION = oat_refusal.OAT_REFUSED_VERSION
OAT_REFUSED_RULE = oat_refusal.OAT_REFUSED_RULE
OAT_REFUSED_STALE = oat_refusal.OAT_REFUSED_STALE
OAT_REFUSED_CORNERS = oat_refusal.OAT_REFUSED_CORNERS


class oat_end(enum.IntEnum):
    """The field `end`. In oat_sight P is the camera and Q the ball; in oat_cell_of the point is P. In oat_set the cell is P; in oat_refill the low
    corner is P and the high one Q."""

    OAT_END_NONE = 0
    OAT_END_P = 1
    OAT_END_Q = 2


OAT_END_NONE = oat_end.OAT_END_NONE
OAT_END_P = oat_end.OAT_END_P
OAT_END_Q = oat_end.OAT_END_Q


class oat_axis(enum.IntEnum):
    """The field `axis`; OAT_AXIS_EDGE only with OAT_REFUSED_PLACEMENT."""

    OAT_AXIS_NONE = 0
    OAT_AXIS_X = 1
    OAT_AXIS_Y = 2
    OAT_AXIS_Z = 3
    OAT_AXIS_EDGE = 4


OAT_AXIS_NONE = oat_axis.OAT_AXIS_NONE
OAT_AXIS_X = oat_axis.OAT_AXIS_X
OAT_AXIS_Y = oat_axis.OAT_AXIS_Y
OAT_AXIS_Z = oat_axis.OAT_AXIS_Z
OAT_AXIS_EDGE = oat_axis.OAT_AXIS_EDGE


class oat_byte(enum.IntEnum):
    """The byte of a cell: clear; near, which is not solid, but no long step of the adaptive walk starts there; or solid, OAT_SOLID_LEAST to 255,
    which is its material code. Two cells touch where they share a face, an edge or a corner."""

    OAT_CLEAR = 0
    OAT_NEAR = 1
    OAT_SOLID_LEAST = 2


OAT_CLEAR = oat_byte.OAT_CLEAR
OAT_NEAR = oat_byte.OAT_NEAR
OAT_SOLID_LEAST = oat_byte.OAT_SOLID_LEAST


class oat_face(enum.IntEnum):
    """The field `face`: which side of the solid cell the line came in by, told by the way in which the line moves. OAT_FACE_PLUS_X: it moves to
    larger x and comes in by the cell's low-x side; OAT_FACE_MINUS_X: it moves to smaller x and comes in by the high-x side; y and z likewise.
    OAT_FACE_NONE: the solid cell is the start p itself, so the line came in by no side; that is met with a tested start alone. Opposite moves have
    opposite numbers."""

    OAT_FACE_NONE = 0
    OAT_FACE_PLUS_X = 1
    OAT_FACE_MINUS_X = -1
    OAT_FACE_PLUS_Y = 2
    OAT_FACE_MINUS_Y = -2
    OAT_FACE_PLUS_Z = 3
    OAT_FACE_MINUS_Z = -3


OAT_FACE_NONE = oat_face.OAT_FACE_NONE
OAT_FACE_PLUS_X = oat_face.OAT_FACE_PLUS_X
OAT_FACE_MINUS_X = oat_face.OAT_FACE_MINUS_X
OAT_FACE_PLUS_Y = oat_face.OAT_FACE_PLUS_Y
OAT_FACE_MINUS_Y = oat_face.OAT_FACE_MINUS_Y
OAT_FACE_PLUS_Z = oat_face.OAT_FACE_PLUS_Z
OAT_FACE_MINUS_Z = oat_face.OAT_FACE_MINUS_Z


class oat_start(enum.IntEnum):
    """The field `start` of oat_manner, and the `start` of oat_touching: whether the cell where a walk starts can be what is in the way."""

    OAT_START_UNTESTED = 0
    OAT_START_TESTED = 1


OAT_START_UNTESTED = oat_start.OAT_START_UNTESTED
OAT_START_TESTED = oat_start.OAT_START_TESTED


class oat_rule(enum.IntEnum):
    """The rule of a 6-line: what it crosses first at a tie, where the segment between the two centres crosses faces of two or three axes at one
    point. Where there is no tie both rules give the same line. Any other number is refused 12."""

    OAT_RULE_1 = 1
    OAT_RULE_2 = 2


OAT_RULE_1 = oat_rule.OAT_RULE_1
OAT_RULE_2 = oat_rule.OAT_RULE_2

# cells along an axis of a grid
OAT_COUNT_MOST = 1024

# of an end of a line list
OAT_COORDINATE_LEAST = -8192
OAT_COORDINATE_MOST = 8191

# numbers that hold any 6-line: 49,150 cells
OAT_LINE6_ROOM = 147450

# numbers that hold any 26-line: 16,384 cells
OAT_LINE26_ROOM = 49152

# numbers that hold any touching line: 114,682 cells
OAT_TOUCHING_ROOM = 344046

# bytes of a venue record before its cells
OAT_VENUE_HEAD = 11

# bytes of a pair record of version 1
OAT_PAIR_BYTES = 17

# bytes of a pair record of version 2, which ends with its rule
OAT_PAIR_BYTES_2 = 18


class oat_cell(Struct):
    """A cell, by its numbers along the axes."""

    x: int
    y: int
    z: int
    _fields_ = [("x", ctypes.c_int32), ("y", ctypes.c_int32), ("z", ctypes.c_int32)]


class oat_counts(Struct):
    """A grid's cells along each axis, each 1 to OAT_COUNT_MOST. Its bytes lie x fastest, then y, then z: the byte of cell (x, y, z) is number x +
    nx*(y + ny*z)."""

    nx: int
    ny: int
    nz: int
    _fields_ = [("nx", ctypes.c_uint32), ("ny", ctypes.c_uint32), ("nz", ctypes.c_uint32)]


class oat_placement(Struct):
    """Where a grid lies, in metres: the corner of cell (0, 0, 0) with the least x, y and z, and the edge of a cell."""

    ox: float
    oy: float
    oz: float
    edge: float
    _fields_ = [("ox", ctypes.c_double), ("oy", ctypes.c_double), ("oz", ctypes.c_double), ("edge", ctypes.c_double)]


class oat_point(Struct):
    """A surveyed point, in metres."""

    x: float
    y: float
    z: float
    _fields_ = [("x", ctypes.c_double), ("y", ctypes.c_double), ("z", ctypes.c_double)]


class oat_manner(Struct):
    """How a walk is made; oat_touching, which knows no rule, takes a start alone, and what is said of it here holds there. OAT_MANNER_USUAL is the
    default, and can stand for the argument itself; it has an untested start, and goes by rule 1. Riggers model the box of a camera as solid. The
    camera stands inside that box, so with a tested start every such camera would be blocked at once, by its own housing. With an untested start
    the cell p, where the walk starts, is not tested. It is still read, and counted in `reads`. Where it is solid it counts as near, so no long
    step starts there. Only p is exempt: a second cell of the box is in the way, and so is q where it is solid and not p. Where p is not solid both
    starts give the same answer. To ask for something else, take the default and change a field, so that the rest stays usual. A zeroed oat_manner
    is not the default: it names no rule, and every call that takes it refuses it 12."""

    start: int
    rule: int
    _fields_ = [("start", ctypes.c_uint32), ("rule", ctypes.c_uint32)]


class oat_said(Struct):
    """What every answer begins with."""

    refusal: int
    end: int
    axis: int
    _fields_ = [("refusal", ctypes.c_uint32), ("end", ctypes.c_uint32), ("axis", ctypes.c_uint32)]


class oat_listed(Struct):
    """Of a list of cells."""

    said: oat_said
    count: int
    _fields_ = [("said", oat_said), ("count", ctypes.c_uint32)]


class oat_verdict(Struct):
    """Of a call that accepts or refuses."""

    said: oat_said
    _fields_ = [("said", oat_said)]


class oat_tally(Struct):
    """Of oat_build, oat_set and oat_refill."""

    said: oat_said
    total: int
    _fields_ = [("said", oat_said), ("total", ctypes.c_uint64)]


class oat_complete_answer(Struct):
    """Of oat_complete."""

    said: oat_said
    yes: int
    _fields_ = [("said", oat_said), ("yes", ctypes.c_uint32)]


class oat_part(Struct):
    """A part of the bytes that the caller lent."""

    said: oat_said
    offset: int
    length: int
    _fields_ = [("said", oat_said), ("offset", ctypes.c_uint64), ("length", ctypes.c_uint64)]


class oat_found(Struct):
    """The cell of a surveyed point."""

    said: oat_said
    x: int
    y: int
    z: int
    _fields_ = [("said", oat_said), ("x", ctypes.c_int32), ("y", ctypes.c_int32), ("z", ctypes.c_int32)]


class oat_venue(Struct):
    """A venue record that was read."""

    said: oat_said
    nx: int
    ny: int
    nz: int
    offset: int
    length: int
    _fields_ = [("said", oat_said), ("nx", ctypes.c_uint32), ("ny", ctypes.c_uint32), ("nz", ctypes.c_uint32), ("offset", ctypes.c_uint64), ("length",
                ctypes.c_uint64)]


class oat_pair(Struct):
    """A pair record that was read: the ends P and Q, and the rule of the line between them."""

    said: oat_said
    px: int
    py: int
    pz: int
    qx: int
    qy: int
    qz: int
    rule: int
    _fields_ = [("said", oat_said), ("px", ctypes.c_int32), ("py", ctypes.c_int32), ("pz", ctypes.c_int32), ("qx", ctypes.c_int32), ("qy",
                ctypes.c_int32), ("qz", ctypes.c_int32), ("rule", ctypes.c_uint32)]


class oat_written(Struct):
    """A venue record that was written."""

    said: oat_said
    written: int
    _fields_ = [("said", oat_said), ("written", ctypes.c_uint64)]


class oat_hit(Struct):
    """The first hit of a walk."""

    said: oat_said
    hit: int
    x: int
    y: int
    z: int
    code: int
    num: int
    den: int
    face: int
    reads: int
    _fields_ = [("said", oat_said), ("hit", ctypes.c_uint32), ("x", ctypes.c_int32), ("y", ctypes.c_int32), ("z", ctypes.c_int32), ("code",
                ctypes.c_uint32), ("num", ctypes.c_uint32), ("den", ctypes.c_uint32), ("face", ctypes.c_int32), ("reads", ctypes.c_uint32)]


class oat_sight_answer(Struct):
    """The sight from a camera to a ball."""

    said: oat_said
    blocked: int
    share: float
    x: int
    y: int
    z: int
    code: int
    reads: int
    face: int
    _fields_ = [("said", oat_said), ("blocked", ctypes.c_uint32), ("share", ctypes.c_double), ("x", ctypes.c_int32), ("y", ctypes.c_int32), ("z",
                ctypes.c_int32), ("code", ctypes.c_uint32), ("reads", ctypes.c_uint32), ("face", ctypes.c_int32)]


# what calls take: the struct, or as many numbers in its order
CellLike = Union[oat_cell, Iterable[int]]
CountsLike = Union[oat_counts, Iterable[int]]
PlacementLike = Union[oat_placement, Iterable[float]]
PointLike = Union[oat_point, Iterable[float]]
MannerLike = Union[oat_manner, Iterable[int]]

# the default of how a walk is made: start and rule
OAT_MANNER_USUAL = (OAT_START_UNTESTED, OAT_RULE_1)


def OAT_MASKS(nx: int, ny: int, nz: int) -> int:
    """The number of bricks of a grid, so of masks to lend."""
    return ((((nx) + 3) // 4) * (((ny) + 3) // 4) * (((nz) + 3) // 4))


# ends and axes that a refusal names, as words
ENDS: Dict[int, str] = {OAT_END_NONE: "", OAT_END_P: "P", OAT_END_Q: "Q"}
AXES: Dict[int, str] = {OAT_AXIS_NONE: "", OAT_AXIS_X: "x", OAT_AXIS_Y: "y", OAT_AXIS_Z: "z", OAT_AXIS_EDGE: "edge"}

# a refusal in a few words
WORDS: Dict[int, str] = {
    OAT_ACCEPTED: "accepted",
    OAT_REFUSED_LIMIT: "an end beyond the coordinate limit",
    OAT_REFUSED_COUNT: "a count outside 1 to 1024",
    OAT_REFUSED_BYTES: "the number of cell bytes is not nx*ny*nz",
    OAT_REFUSED_LAYER: "no such layer",
    OAT_REFUSED_OFF_GRID: "an end, a cell or a corner outside the grid",
    OAT_REFUSED_ROOM: "too little room for the answer, or too few masks",
    OAT_REFUSED_PLACEMENT: "an origin that is not finite, or an edge that is no length",
    OAT_REFUSED_NOT_FINITE: "a surveyed value not finite",
    OAT_REFUSED_OFF_SURVEY: "a surveyed value outside the grid",
    OAT_REFUSED_RECORD: "a record cut short or of the wrong length",
    OAT_REFUSED_VERSION: "a record of another version",
    OAT_REFUSED_RULE: "a rule that is neither 1 nor 2",
    OAT_REFUSED_STALE: "masks or a total that are not those of the cells",
    OAT_REFUSED_CORNERS: "a low corner above the high one",
}


def oat_refusal_words(refusal: int) -> str:
    """A refusal in a few words, by its number; any other number has words too."""
    return WORDS.get(refusal, "no refusal of this revision")


def _accepted(call: str, answer: Answer) -> Answer:
    """The answer, or what it says of a refusal, raised."""
    said = answer.said
    if said.refusal:
        raise Refused(call, said.refusal, ENDS[said.end], AXES[said.axis], oat_refusal_words(said.refusal))
    return answer


library.PROTOTYPES.update({
    "oat_revision": (ctypes.c_uint32, []),
    "oat_line6": (oat_listed, [oat_cell, oat_cell, ctypes.c_uint32, ctypes.c_void_p, ctypes.c_size_t]),
    "oat_line26": (oat_listed, [oat_cell, oat_cell, ctypes.c_void_p, ctypes.c_size_t]),
    "oat_line_touching": (oat_listed, [oat_cell, oat_cell, ctypes.c_void_p, ctypes.c_size_t]),
    "oat_mark": (oat_verdict, [oat_counts, ctypes.c_void_p, ctypes.c_size_t]),
    "oat_complete": (oat_complete_answer, [oat_counts, ctypes.c_void_p, ctypes.c_size_t]),
    "oat_layer": (oat_part, [oat_counts, ctypes.c_void_p, ctypes.c_size_t, ctypes.c_int32]),
    "oat_plain": (oat_hit, [oat_counts, ctypes.c_void_p, ctypes.c_size_t, oat_cell, oat_cell, oat_manner]),
    "oat_adaptive": (oat_hit, [oat_counts, ctypes.c_void_p, ctypes.c_size_t, oat_cell, oat_cell, oat_manner]),
    "oat_adaptive_cells": (oat_listed, [oat_counts, ctypes.c_void_p, ctypes.c_size_t, oat_cell, oat_cell, oat_manner, ctypes.c_void_p, ctypes.c_size_t]),
    "oat_touching": (oat_hit, [oat_counts, ctypes.c_void_p, ctypes.c_size_t, oat_cell, oat_cell, ctypes.c_uint32]),
    "oat_build": (oat_tally, [oat_counts, ctypes.c_void_p, ctypes.c_size_t, ctypes.c_void_p, ctypes.c_size_t]),
    "oat_set": (oat_tally, [oat_counts, ctypes.c_void_p, ctypes.c_size_t, ctypes.c_void_p, ctypes.c_size_t, ctypes.c_uint64, oat_cell, ctypes.c_uint8]),
    "oat_refill": (oat_tally, [oat_counts, ctypes.c_void_p, ctypes.c_size_t, ctypes.c_void_p, ctypes.c_size_t, ctypes.c_uint64, oat_cell, oat_cell, ctypes.c_uint8]),
    "oat_cell_of": (oat_found, [oat_counts, oat_placement, oat_point]),
    "oat_sight": (oat_sight_answer, [oat_counts, ctypes.c_void_p, ctypes.c_size_t, oat_placement, oat_point, oat_point, oat_manner]),
    "oat_read_venue": (oat_venue, [ctypes.c_void_p, ctypes.c_size_t]),
    "oat_read_pair": (oat_pair, [ctypes.c_void_p, ctypes.c_size_t]),
    "oat_write_venue": (oat_written, [oat_counts, ctypes.c_void_p, ctypes.c_size_t, ctypes.c_void_p, ctypes.c_size_t]),
})


def oat_revision() -> int:
    """The revision of the library that the program was linked with, or has loaded: where it is not OAT_REVISION, header and library do not belong
    together. It answers a number and no struct, as it cannot refuse."""
    return int(library.load().oat_revision())


def oat_line6(p: CellLike, q: CellLike, out: Buffer, rule: int = OAT_RULE_1) -> oat_listed:
    """Writes the cells of the 6-line from p to q, in order, three numbers a cell (x, y, z), at the front of `out`; the rest of `out` stays. It has A
    + B + C + 1 cells. `room` is the number of numbers that `out` holds; refused 6 exactly when it is below three times the cells. Neighbouring
    cells share a face; the line has every cell whose inside the segment between the two centres enters. Ties go by `rule`, a number of enum
    oat_rule."""
    with lent(out, True, 4, "out") as lent_out:
        answer: oat_listed = library.load().oat_line6(struct(oat_cell, p, "p"), struct(oat_cell, q, "q"), number(ctypes.c_uint32, rule, "rule"),
            lent_out.at, lent_out.bytes // 4)
    return _accepted("oat_line6", answer)


def oat_line26(p: CellLike, q: CellLike, out: Buffer) -> oat_listed:
    """The same for the 26-line, which knows no rule: M + 1 cells, one for each step along the longest axis; neighbouring cells share a face, an edge
    or a corner. On an axis with difference D, cell number m (from 0) has moved m*D/M cells towards q, rounded to the nearest; a half is rounded
    up, so towards q."""
    with lent(out, True, 4, "out") as lent_out:
        answer: oat_listed = library.load().oat_line26(struct(oat_cell, p, "p"), struct(oat_cell, q, "q"), lent_out.at, lent_out.bytes // 4)
    return _accepted("oat_line26", answer)


def oat_line_touching(p: CellLike, q: CellLike, out: Buffer) -> oat_listed:
    """The same for the touching line, which knows no rule either: every cell that has a point of the segment between the two centres, if only on a
    face, an edge or a corner; each once. It is for single layers of cells that run along a diagonal, such as netting: through an edge a 6-line
    goes by one of the two cells beside it, and leaves out the other. The touching line has both, and every cell of the 6-line by either rule. The
    first cell is p and the last is q; the others come in the order of the crossings. Where one face is crossed, the cell behind it comes. At a tie
    come, from the cell before it, first the cells that one of its crossings leads to, y, z, x; then those by two of them, yz, yx, zx; then the one
    by all three. So where two axes tie there are three cells, and where three do there are seven. From (0, 0, 0) to (1, 1, 1) it has (0, 0, 0),
    then (0, 1, 0), (0, 0, 1), (1, 0, 0), then (0, 1, 1), (1, 1, 0), (1, 0, 1), then (1, 1, 1). No list takes more than 3 + 7*(A + B + C) numbers,
    and where `room` is so many the cells need not be counted first. The longest, from one corner of the limits to the opposite one, has 114,682
    cells."""
    with lent(out, True, 4, "out") as lent_out:
        answer: oat_listed = library.load().oat_line_touching(struct(oat_cell, p, "p"), struct(oat_cell, q, "q"), lent_out.at, lent_out.bytes // 4)
    return _accepted("oat_line_touching", answer)


def oat_mark(n: CountsLike, cells: Buffer) -> oat_verdict:
    """Marks the near cells in place: each solid byte stays; any other becomes OAT_NEAR where its cell touches a solid one, else OAT_CLEAR, whatever
    it was."""
    with lent(cells, True, 1, "cells") as lent_cells:
        answer: oat_verdict = library.load().oat_mark(struct(oat_counts, n, "n"), lent_cells.at, lent_cells.bytes)
    return _accepted("oat_mark", answer)


def oat_complete(n: CountsLike, cells: Buffer) -> oat_complete_answer:
    """Whether the marks are complete: no clear cell touches a solid one. It holds after oat_mark. For oat_adaptive and oat_sight a mark that is
    missing at a corner alone does no harm; but a 0 does not tell which mark is missing, and no call tests for less: after a 0, mark."""
    with lent(cells, False, 1, "cells") as lent_cells:
        answer: oat_complete_answer = library.load().oat_complete(struct(oat_counts, n, "n"), lent_cells.at, lent_cells.bytes)
    return _accepted("oat_complete", answer)


def oat_layer(n: CountsLike, cells: Buffer, z: int) -> oat_part:
    """Where layer z lies: nx*ny bytes. Nothing is copied."""
    with lent(cells, False, 1, "cells") as lent_cells:
        answer: oat_part = library.load().oat_layer(struct(oat_counts, n, "n"), lent_cells.at, lent_cells.bytes, number(ctypes.c_int32, z, "z"))
    return _accepted("oat_layer", answer)


def oat_plain(n: CountsLike, cells: Buffer, p: CellLike, q: CellLike, how: MannerLike = OAT_MANNER_USUAL) -> oat_hit:
    """The first solid cell along the 6-line from p to q, made as `how` says. With an untested start it is a later cell than p, q at the last; where q
    is p the way is clear with one read, whatever the byte. With a tested start p comes first: where it is solid it is the hit, at 0/1 and by no
    side. Asks for no marks. By rule 2, with a tested start, the way from q to p is clear exactly where the way from p to q is."""
    with lent(cells, False, 1, "cells") as lent_cells:
        answer: oat_hit = library.load().oat_plain(struct(oat_counts, n, "n"), lent_cells.at, lent_cells.bytes, struct(oat_cell, p, "p"),
            struct(oat_cell, q, "q"), struct(oat_manner, how, "how"))
    return _accepted("oat_plain", answer)


def oat_adaptive(n: CountsLike, cells: Buffer, p: CellLike, q: CellLike, how: MannerLike = OAT_MANNER_USUAL) -> oat_hit:
    """The same with long steps over clear cells: from a clear cell of the 26-line to the next cell of the 26-line; from every other cell to the next
    of the 6-line by the rule of `how`, from a solid p that is not tested too. A cell that a long step leads to has the place and the side by which
    that 6-line enters it. After oat_mark, and wherever every cell across a face or an edge from a solid one is near or solid, it gives the answer
    that oat_plain gives for the same `how`, but for its reads, which are no more; elsewhere it may miss a solid cell, and never makes one up."""
    with lent(cells, False, 1, "cells") as lent_cells:
        answer: oat_hit = library.load().oat_adaptive(struct(oat_counts, n, "n"), lent_cells.at, lent_cells.bytes, struct(oat_cell, p, "p"),
            struct(oat_cell, q, "q"), struct(oat_manner, how, "how"))
    return _accepted("oat_adaptive", answer)


def oat_adaptive_cells(n: CountsLike, cells: Buffer, p: CellLike, q: CellLike, out: Buffer, how: MannerLike = OAT_MANNER_USUAL) -> oat_listed:
    """Writes the trail of that walk, the cells on which it stands, in order, three numbers a cell (x, y, z), at the front of `out`; the rest of `out`
    stays. They are the cells that oat_adaptive reads on the same inputs, as many as its `reads`: the first is p, the last is the cell of the hit,
    or q where the way is clear. Cells that a long step passes over are not among them. `room` is the number of numbers that `out` holds; refused 6
    exactly when it is below three times the cells, after all else. A trail has no more cells than the 6-line from p to q."""
    with lent(cells, False, 1, "cells") as lent_cells, lent(out, True, 4, "out") as lent_out:
        apart([("out", lent_out)], [("cells", lent_cells)])
        answer: oat_listed = library.load().oat_adaptive_cells(struct(oat_counts, n, "n"), lent_cells.at, lent_cells.bytes, struct(oat_cell, p, "p"),
            struct(oat_cell, q, "q"), struct(oat_manner, how, "how"), lent_out.at, lent_out.bytes // 4)
    return _accepted("oat_adaptive_cells", answer)


def oat_touching(n: CountsLike, cells: Buffer, p: CellLike, q: CellLike, start: int = OAT_START_UNTESTED) -> oat_hit:
    """The first solid cell along the touching line from p to q, in the order of oat_line_touching. `start` is a number of enum oat_start, and says of
    p what it says for oat_plain; there is no rule. Asks for no marks. At a tie, place and side of the hit are those of one crossing: of those that
    lead to the cell, the first in the order y, z, x. `reads` counts the cells of the list up to the hit, and all of them where the way is clear:
    it may read more cells than oat_plain. Where the way is clear, oat_plain with the same start is clear by either rule."""
    with lent(cells, False, 1, "cells") as lent_cells:
        answer: oat_hit = library.load().oat_touching(struct(oat_counts, n, "n"), lent_cells.at, lent_cells.bytes, struct(oat_cell, p, "p"),
            struct(oat_cell, q, "q"), number(ctypes.c_uint32, start, "start"))
    return _accepted("oat_touching", answer)


def oat_build(n: CountsLike, cells: Buffer, masks: Buffer) -> oat_tally:
    """Writes the mask of every brick at the front of `masks`, whatever was there, and answers the number of solid cells."""
    with lent(cells, False, 1, "cells") as lent_cells, lent(masks, True, 8, "masks") as lent_masks:
        apart([("masks", lent_masks)], [("cells", lent_cells)])
        answer: oat_tally = library.load().oat_build(struct(oat_counts, n, "n"), lent_cells.at, lent_cells.bytes, lent_masks.at, lent_masks.bytes //
            8)
    return _accepted("oat_build", answer)


def oat_set(n: CountsLike, cells: Buffer, masks: Buffer, total: int, cell: CellLike, byte: int) -> oat_tally:
    """Gives a cell a byte, writes the mask of its brick, and answers `total` less the ones of that mask as it was, and with those that it has now.
    Where the cell has that byte already nothing changes. A refusal 5 names P."""
    with lent(cells, True, 1, "cells") as lent_cells, lent(masks, True, 8, "masks") as lent_masks:
        apart([("cells", lent_cells), ("masks", lent_masks)], [])
        answer: oat_tally = library.load().oat_set(struct(oat_counts, n, "n"), lent_cells.at, lent_cells.bytes, lent_masks.at, lent_masks.bytes // 8,
            number(ctypes.c_uint64, total, "total"), struct(oat_cell, cell, "cell"), number(ctypes.c_uint8, byte, "byte"))
    return _accepted("oat_set", answer)


def oat_refill(n: CountsLike, cells: Buffer, masks: Buffer, total: int, low: CellLike, high: CellLike, byte: int) -> oat_tally:
    """The same for every cell of a box, with both its corners: gives each the byte, writes the masks of the bricks that hold one, and answers `total`
    less the ones of these masks as they were, and with those that they have now. Refusal 5 looks at the low corner as P, then at the high one as
    Q."""
    with lent(cells, True, 1, "cells") as lent_cells, lent(masks, True, 8, "masks") as lent_masks:
        apart([("cells", lent_cells), ("masks", lent_masks)], [])
        answer: oat_tally = library.load().oat_refill(struct(oat_counts, n, "n"), lent_cells.at, lent_cells.bytes, lent_masks.at, lent_masks.bytes //
            8, number(ctypes.c_uint64, total, "total"), struct(oat_cell, low, "low"), struct(oat_cell, high, "high"), number(ctypes.c_uint8, byte,
            "byte"))
    return _accepted("oat_refill", answer)


def oat_cell_of(n: CountsLike, at: PlacementLike, point: PointLike) -> oat_found:
    """The cell of a point: refusals 2, 7 (origin x, y, z, edge), then for each axis 8, then 9. On each axis let q be (point - origin) / edge, the
    difference and the quotient rounded once each. The cell is the whole number n below the count with n <= q < n + 1. The far faces belong to the
    last cells: where q equals the count it is the last one. A q below 0 or above the count is refused 9. The end that a refusal names is P."""
    answer: oat_found = library.load().oat_cell_of(struct(oat_counts, n, "n"), struct(oat_placement, at, "at"), struct(oat_point, point, "point"))
    return _accepted("oat_cell_of", answer)


def oat_sight(n: CountsLike, cells: Buffer, at: PlacementLike, camera: PointLike, ball: PointLike,
              how: MannerLike = OAT_MANNER_USUAL) -> oat_sight_answer:
    """Whether anything solid is in the way from the camera's cell to the ball's, each as oat_cell_of gives it, by the adaptive walk: refusals 12, 2,
    3, 7, then the camera (P) by axis 8, 9, then the ball (Q). The camera's own cell is tested where `how` says so, and by OAT_MANNER_USUAL it is
    not; a ball in that same cell is then seen. The ball's cell is tested otherwise. Takes the marks as they are: mark first."""
    with lent(cells, False, 1, "cells") as lent_cells:
        answer: oat_sight_answer = library.load().oat_sight(struct(oat_counts, n, "n"), lent_cells.at, lent_cells.bytes, struct(oat_placement, at,
            "at"), struct(oat_point, camera, "camera"), struct(oat_point, ball, "ball"), struct(oat_manner, how, "how"))
    return _accepted("oat_sight", answer)


def oat_read_venue(record: Buffer) -> oat_venue:
    """Reads a venue record: four bytes, the length of what follows; version 1; nx, ny, nz in two bytes each; the cells. Refusals, in this order: 10
    where there are fewer than four bytes, where the length is 0, or where fewer bytes follow than it announces; 11; 10 where the length is below
    7; 2; 3 where the length is not 7 + nx*ny*nz. The cells stay where they are, `offset` bytes into the record. They can be marked there, by
    oat_mark at record + offset: its first OAT_VENUE_HEAD + nx*ny*nz bytes are then the marked venue's record, ready to be saved."""
    with lent(record, False, 1, "record") as lent_record:
        answer: oat_venue = library.load().oat_read_venue(lent_record.at, lent_record.bytes)
    return _accepted("oat_read_venue", answer)


def oat_read_pair(record: Buffer) -> oat_pair:
    """Reads a pair record of version 1 or 2: four bytes, the length of what follows, which is 13 or 14; the version; P and Q, six signed numbers of
    two bytes; in version 2 the rule, a byte. Version 1 means OAT_RULE_1. Refusals, in this order: 10 as of a venue; 11; 10 where the length is not
    that of the version; 12."""
    with lent(record, False, 1, "record") as lent_record:
        answer: oat_pair = library.load().oat_read_pair(lent_record.at, lent_record.bytes)
    return _accepted("oat_read_pair", answer)


def oat_write_venue(n: CountsLike, cells: Buffer, out: Buffer) -> oat_written:
    """Writes a venue record at the front of `out`; the rest of `out` stays. Refusals 2, 3, then 6, exactly when `room` is below OAT_VENUE_HEAD +
    nx*ny*nz. `cells` and `out` must not overlap."""
    with lent(cells, False, 1, "cells") as lent_cells, lent(out, True, 1, "out") as lent_out:
        apart([("out", lent_out)], [("cells", lent_cells)])
        answer: oat_written = library.load().oat_write_venue(struct(oat_counts, n, "n"), lent_cells.at, lent_cells.bytes, lent_out.at, lent_out.bytes)
    return _accepted("oat_write_venue", answer)


__all__ = [
    "OAT_ACCEPTED", "OAT_AXIS_EDGE", "OAT_AXIS_NONE", "OAT_AXIS_X", "OAT_AXIS_Y", "OAT_AXIS_Z", "OAT_CLEAR", "OAT_COORDINATE_LEAST",
    "OAT_COORDINATE_MOST", "OAT_COUNT_MOST", "OAT_END_NONE", "OAT_END_P", "OAT_END_Q", "OAT_FACE_MINUS_X", "OAT_FACE_MINUS_Y", "OAT_FACE_MINUS_Z",
    "OAT_FACE_NONE", "OAT_FACE_PLUS_X", "OAT_FACE_PLUS_Y", "OAT_FACE_PLUS_Z", "OAT_LINE26_ROOM", "OAT_LINE6_ROOM", "OAT_MANNER_USUAL", "OAT_MASKS",
    "OAT_NEAR", "OAT_PAIR_BYTES", "OAT_PAIR_BYTES_2", "OAT_REFUSED_BYTES", "OAT_REFUSED_CORNERS", "OAT_REFUSED_COUNT", "OAT_REFUSED_LAYER",
    "OAT_REFUSED_LIMIT", "OAT_REFUSED_NOT_FINITE", "OAT_REFUSED_OFF_GRID", "OAT_REFUSED_OFF_SURVEY", "OAT_REFUSED_PLACEMENT", "OAT_REFUSED_RECORD",
    "OAT_REFUSED_ROOM", "OAT_REFUSED_RULE", "OAT_REFUSED_STALE", "OAT_REFUSED_VERSION", "OAT_REVISION", "OAT_RULE_1", "OAT_RULE_2", "OAT_SOLID_LEAST",
    "OAT_START_TESTED", "OAT_START_UNTESTED", "OAT_TOUCHING_ROOM", "OAT_VENUE_HEAD", "oat_adaptive", "oat_adaptive_cells", "oat_axis", "oat_build",
    "oat_byte", "oat_cell", "oat_cell_of", "oat_complete", "oat_complete_answer", "oat_counts", "oat_end", "oat_face", "oat_found", "oat_hit",
    "oat_layer", "oat_line26", "oat_line6", "oat_line_touching", "oat_listed", "oat_manner", "oat_mark", "oat_pair", "oat_part", "oat_placement",
    "oat_plain", "oat_point", "oat_read_pair", "oat_read_venue", "oat_refill", "oat_refusal", "oat_refusal_words", "oat_revision", "oat_rule",
    "oat_said", "oat_set", "oat_sight", "oat_sight_answer", "oat_start", "oat_tally", "oat_touching", "oat_venue", "oat_verdict", "oat_write_venue",
    "oat_written"
]
