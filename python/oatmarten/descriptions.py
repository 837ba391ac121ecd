"""Descriptions: a venue as lines of text, and who looks at what there. None of this needs the library.

A description has a line for each thing, first the grid; '#' and what follows it on a line is for the reader (demo/ground.txt):

    grid NX NY NZ                   the cells along each axis, each 1 to 1024
    sides AXIS LOW HIGH             what the sides are called at the low and at the high end of x, y or z, as in: sides x west east;
                                    where they have no name they are low-x and high-x
    solid NAME CODE X Y Z           a box of solid cells, along each axis a number or two with '-' between them, the lower one first, all of it
                                    within the grid; its code is 2 to 255. Where boxes overlap the last one stands
    camera NAME X Y Z               the cell of a camera, -32768 to 32767 along each axis; a ball likewise. One outside the grid is taken: walks from
                                    it are refused where they are asked for. No two cameras have one name, and no two balls
    both_ways CAMERA BALL           two pairs more, behind all others: from this camera to this ball and back, by rule 2, which gives the same line
                                    from either end; both stand in lines before this one

Every line is checked; the first that is wrong is told by its number."""
from __future__ import annotations

import io
import itertools
import re
from typing import Dict, List, NamedTuple, Optional, Sequence, Tuple

from .header import OAT_COUNT_MOST, OAT_RULE_2, OAT_SOLID_LEAST
from .inputs import Wrong, named, shown, taken, whole
from .telling import side_of

Cell = Tuple[int, int, int]
AXES = "xyz"


class Solid(NamedTuple):
    """A box of solid cells: its name, its code, and its cells along x, y and z."""

    name: str
    code: int
    box: Tuple[range, range, range]

    def covers(self, cell: Sequence[int]) -> bool:
        return all(at in span for at, span in zip(cell, self.box))


class Spot(NamedTuple):
    """A camera or a ball, by its name, and where it is."""

    kind: str
    name: str
    cell: Cell


class Pair(NamedTuple):
    """Where a line starts and ends, and its rule; None where the record does not say one: it is then of version 1."""

    start: Spot
    end: Spot
    rule: Optional[int]

    @property
    def title(self) -> str:
        return "%s to %s%s" % (self.start.name, self.end.name, "" if self.rule is None else ", rule %d" % self.rule)


class Description:
    """What a description says: `counts` (nx, ny, nz); `solids`, its boxes in their order; `cameras` and `balls`; `both_ways`, those of them that are
    looked at from either end; and `sides`, the names of the low and the high side by axis."""

    def __init__(self, counts: Cell) -> None:
        self.counts = counts
        self.solids: List[Solid] = []
        self.cameras: Dict[str, Spot] = {}
        self.balls: Dict[str, Spot] = {}
        self.both_ways: List[Tuple[Spot, Spot]] = []
        self.sides: Dict[str, Tuple[str, str]] = {}

    def cells(self) -> bytearray:
        """The bytes of the cells, without marks, x fastest, then y, then z; anew each time."""
        nx, ny, nz = self.counts
        cells = bytearray(nx * ny * nz)
        for solid in self.solids:
            _paint(cells, (1, nx, nx * ny), solid)
        return cells

    def standing_at(self, cell: Sequence[int]) -> Optional[Solid]:
        """What stands at a cell: the last box that covers it."""
        return next((solid for solid in reversed(self.solids) if solid.covers(cell)), None)

    def side(self, face: str) -> str:
        """What the side is called by which a line comes in, moving as `+x` or `-x` says."""
        return side_of(face, *self.sides.get(face[1], ("low-" + face[1], "high-" + face[1])))

    def pairs(self) -> List[Pair]:
        """Each camera with each ball; then there and back."""
        each = [Pair(camera, ball, None) for camera, ball in itertools.product(self.cameras.values(), self.balls.values())]
        return each + [Pair(start, end, int(OAT_RULE_2)) for two in self.both_ways for start, end in (two, two[::-1])]


def _paint(cells: bytearray, strides: Cell, solid: Solid) -> None:
    """Gives the cells of a box their code, by a slice for each row along its longest axis."""
    along = max(range(3), key=lambda axis: len(solid.box[axis]))
    run, step = solid.box[along], strides[along]
    row = bytes([solid.code]) * len(run)
    (across, by), (up, over) = [(solid.box[axis], strides[axis]) for axis in range(3) if axis != along]
    for k in up:
        for j in across:
            at = run[0] * step + j * by + k * over
            cells[at:at + step * (len(run) - 1) + 1:step] = row


# ---- lines

class _Line(Exception):
    """What is wrong with a line."""


def _number(word: str, least: int, most: int, what: str, given: str = "") -> int:
    """The number that a word is, a part of what was given or all of it."""
    value = whole(word)
    if value is None or not least <= value <= most:
        raise _Line("%s is a whole number from %d to %d, and '%s' was given" % (what, least, most, shown(given or word)))
    return value


def _span(word: str, count: int, axis: str) -> range:
    first, dash, last = word.partition("-")
    what = "the %s of a cell in this grid" % axis
    least = _number(first, 0, count - 1, what, word)
    most = _number(last, 0, count - 1, what, word) if dash else least
    if least > most:
        raise _Line("a box goes from its lower to its higher %s, and '%s' was given" % (axis, shown(word)))
    return range(least, most + 1)


def _grid(words: List[str]) -> Cell:
    if len(words) != 3:
        raise _Line("a grid has three counts, of its cells along x, y and z")
    nx, ny, nz = (_number(word, 1, OAT_COUNT_MOST, "the count along " + axis) for word, axis in zip(words, AXES))
    return nx, ny, nz


def _sides(ground: Description, words: List[str]) -> None:
    if len(words) != 3 or words[0] not in tuple(AXES):
        raise _Line("sides have an axis, x, y or z, and two names, of its low and of its high side")
    if words[0] in ground.sides:
        raise _Line("the sides along %s have their names already" % words[0])
    if words[1] == words[2]:
        raise _Line("the two sides along %s have one name, '%s'" % (words[0], shown(words[1])))
    ground.sides[words[0]] = (words[1], words[2])


def _solid(ground: Description, words: List[str]) -> None:
    if len(words) != 5:
        raise _Line("a solid has a name, a code, and its cells along x, y and z")
    code = _number(words[1], OAT_SOLID_LEAST, 255, "the code of a solid")
    x, y, z = (_span(word, count, axis) for word, count, axis in zip(words[2:], ground.counts, AXES))
    ground.solids.append(Solid(words[0], code, (x, y, z)))


def _spot(spots: Dict[str, Spot], kind: str, words: List[str]) -> None:
    if len(words) != 4:
        raise _Line("a %s has a name, and x, y and z of its cell" % kind)
    if words[0] in spots:
        raise _Line("there is a %s '%s' already" % (kind, shown(words[0])))
    x, y, z = (_number(word, -32768, 32767, "%s of a %s" % (axis, kind)) for word, axis in zip(words[1:], AXES))
    spots[words[0]] = Spot(kind, words[0], (x, y, z))


def _both_ways(ground: Description, words: List[str]) -> None:
    if len(words) != 2:
        raise _Line("both_ways takes two names, a camera's and a ball's")
    for kind, spots, name in (("camera", ground.cameras, words[0]), ("ball", ground.balls, words[1])):
        if name not in spots:
            raise _Line("there is no %s '%s' in the lines before" % (kind, shown(name)))
    ground.both_ways.append((ground.cameras[words[0]], ground.balls[words[1]]))


def _take(ground: Description, kind: str, words: List[str]) -> None:
    """Takes a line behind the grid's in."""
    if kind == "grid":
        raise _Line("a description has one grid, and this is the second")
    elif kind == "sides":
        _sides(ground, words)
    elif kind == "solid":
        _solid(ground, words)
    elif kind == "camera":
        _spot(ground.cameras, kind, words)
    elif kind == "ball":
        _spot(ground.balls, kind, words)
    else:
        _both_ways(ground, words)


KINDS = ("grid", "sides", "solid", "camera", "ball", "both_ways")


def parsed(text: bytes, name: str) -> Description:
    """The description that a text is; `name` says in errors where it came from."""
    try:
        lines = io.StringIO(text.decode("utf-8-sig"), newline=None)
    except UnicodeDecodeError as wrong:
        at = 1 + len(re.findall(b"\r\n|\r|\n", wrong.object[:wrong.start]))
        raise Wrong("%s, line %d: a description is text in UTF-8, and this is none" % (name, at)) from None
    ground: Optional[Description] = None
    at = 1
    for at, line in enumerate(lines, 1):
        words = line.split("#")[0].split()
        try:
            if not words:
                continue
            if words[0] not in KINDS:
                raise _Line("'%s' is not known; a line begins with %s or %s" % (shown(words[0]), ", ".join(KINDS[:-1]), KINDS[-1]))
            if ground is not None:
                _take(ground, words[0], words[1:])
            elif words[0] == "grid":
                ground = Description(_grid(words[1:]))
            else:
                raise _Line("the grid's line comes first, and this one begins with '%s'" % words[0])
        except _Line as wrong_line:
            raise Wrong("%s, line %d: %s" % (name, at, wrong_line)) from None
    if ground is None:
        raise Wrong("%s, line %d: the description ends, and has no grid" % (name, at))
    return ground


def read(path: str) -> Description:
    """The description of a file; `-` is standard input."""
    return parsed(taken(path), named(path))
