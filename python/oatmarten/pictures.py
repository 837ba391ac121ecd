"""Pictures as SVG text, by the standard library alone: both walks of a line over a layer and over the upright cut along the line (`walks_picture`),
and how many cameras see a ball in each cell of a layer (`coverage`, `coverage_picture`). Every cell, hit, face and count is what a call of the
library answered; here it is only drawn.

    with oatmarten.Venue.open("ground.venue") as venue:
        picture = walks_picture(venue.counts, venue.held, (20, 12, 7), (36, 8, 0))

A cell (x, y, z) of the plain walk is a rect of class `plain`, one of the adaptive walk a circle of class `adaptive`, each with data-cell="x,y,z"; a
hit is a group of class `hit` with data-cell and data-face; the panels are groups with data-panel `layer`, `cut` or `coverage`. A rect of a coverage
has data-run="x0,x1,y", both ends included, with data-seen, how many cameras see these cells, or with data-byte where they are solid."""
from __future__ import annotations

import colorsys
import ctypes
import itertools
from array import array
from typing import Any, Callable, Dict, Iterable, Iterator, List, Optional, Sequence, Tuple

from . import library
from .library import Refused
from .drawing import INK, MARGIN, SAMPLE, Labels, Page, Panel, Place, digits, group, path, tag, text, tick_step
from .header import (OAT_CLEAR, OAT_LINE6_ROOM, OAT_MANNER_USUAL, OAT_NEAR, OAT_SOLID_LEAST, CellLike, CountsLike, MannerLike, oat_adaptive,
                     oat_adaptive_cells, oat_cell, oat_complete, oat_counts, oat_hit, oat_layer, oat_line6, oat_manner, oat_plain)
from .looking import listed
from .memory import Buffer, Lent, lent, struct
from .telling import cell_words, code_words, face_name, hit_words, side_of

Cell = Tuple[int, ...]

PLAIN, ADAPTIVE, HIT = "#1457b8", "#e65100", "#c4002b"
# where a line is blocked and its cells would have fewer pixels than this, those up to so far from the hit are shown
CELL_LEAST, CLOSE = 3, 40
NOT_COMPLETE = "The marks are not complete: a walk may step over something solid, and count a camera that does not see the ball. Mark first."


# ---- colours

def colour(byte: int) -> str:
    """The colour of a cell by its byte: clear is white, near a light shade; each code has a colour of its own."""
    if byte < OAT_SOLID_LEAST:
        return "#f4ead0" if byte == OAT_NEAR else "#ffffff"
    k = byte - OAT_SOLID_LEAST
    shades = ((0.40, 0.42), (0.55, 0.34), (0.30, 0.36))
    light, strong = shades[k // 12 % 3]
    return _hex(colorsys.hls_to_rgb((0.02 + k * 0.381966) % 1.0, light + 0.01 * (k // 36), strong))


def _hex(parts: Iterable[float]) -> str:
    return "#" + "".join("%02x" % round(255 * part) for part in parts)


# from dark to light in even steps, told apart by those who do not see red or green too
_STOPS = ((62, 73, 137), (49, 104, 142), (38, 130, 142), (31, 158, 137), (53, 183, 121), (109, 205, 89), (180, 222, 44), (253, 231, 37))


def scale(seen: int, most: int) -> str:
    """The colour of a cell that `seen` of `most` cameras see: black where none does, then from dark blue to yellow, where all do."""
    if seen == 0:
        return "#000000"
    way = (seen - 1) / (most - 1) * (len(_STOPS) - 1) if most > 1 else len(_STOPS) - 1.0
    k = min(int(way), len(_STOPS) - 2)
    return _hex((a + (b - a) * (way - k)) / 255 for a, b in zip(_STOPS[k], _STOPS[k + 1]))


# ---- what the calls answer

class _Walks:
    """A line as the calls answer it: its 6-line, and of each walk the hit and the cells on which it stood."""

    def __init__(self, n: oat_counts, held: Lent, p: CellLike, q: CellLike, how: oat_manner) -> None:
        self.p, self.q = _triple(struct(oat_cell, p, "p")), _triple(struct(oat_cell, q, "q"))
        self.how = how
        self.plain, self.adaptive = oat_plain(n, held, self.p, self.q, how), oat_adaptive(n, held, self.p, self.q, how)
        self.line = listed(oat_line6, OAT_LINE6_ROOM, self.p, self.q, rule=how.rule)
        self.plain_cells = self.line[:self.plain.reads]
        self.adaptive_cells = listed(oat_adaptive_cells, OAT_LINE6_ROOM, n, held, self.p, self.q, how=how)
        self.missed = bool(self.plain.hit) and not (self.adaptive.hit and _triple(self.adaptive) == _triple(self.plain))
        # what a closer look is at
        self.focus = _triple(self.plain) if self.plain.hit else self.p


def _triple(cell: Any) -> Cell:
    return cell.x, cell.y, cell.z


def _layer_bytes(n: oat_counts, held: Lent, z: int) -> memoryview:
    """The bytes of a layer where they lie, row after row."""
    part = oat_layer(n, held, z)
    return memoryview((ctypes.c_uint8 * part.length).from_address(held.at + part.offset)).cast("B")


# ---- the panels

def _window(low: int, high: int, count: int, more: int, least: int) -> range:
    """The cells to show along an axis: those from low to high, some more on both sides, and no fewer than `least`, as far as there are any."""
    size = min(count, max(high - low + 1 + 2 * more, least))
    first = max(0, min((low + high + 1 - size) // 2, count - size))
    return range(first, first + size)


class _View(Panel):
    """A panel over cells of the grid, with the walks in it."""

    def bytes_of(self, row: int) -> Sequence[int]:
        """The bytes of the cells that are shown in a row."""
        raise NotImplementedError

    def here(self, cell: Cell) -> bool:
        """Whether a cell is one of those that are shown; else it lies above or below."""
        return True

    def move(self, face: int) -> Optional[Tuple[int, int]]:
        """How a line moves through a face, by columns and rows; None where that does not show."""
        raise NotImplementedError

    def way(self, walks: _Walks) -> List[Place]:
        """The segment from centre to centre, by points of the panel."""
        raise NotImplementedError


class _Layer(_View):
    """A layer seen from above."""

    name = "layer"

    def __init__(self, n: oat_counts, held: Lent, z: int, columns: range, rows: range, clipped: bool = False) -> None:
        super().__init__(columns, rows, clipped)
        self.nx, self.z, self.view = n.nx, z, _layer_bytes(n, held, z)

    def bytes_of(self, row: int) -> Sequence[int]:
        first = self.nx * row + self.columns[0]
        return self.view[first:first + len(self.columns)]

    def here(self, cell: Cell) -> bool:
        return cell[2] == self.z

    def move(self, face: int) -> Optional[Tuple[int, int]]:
        return {"+x": (1, 0), "-x": (-1, 0), "+y": (0, 1), "-y": (0, -1)}.get(face_name(face))

    def way(self, walks: _Walks) -> List[Place]:
        return [(end[0] + 0.5, end[1] + 0.5) for end in (walks.p, walks.q)]


class _Cut(_View):
    """The upright cut along a line: a column for each (x, y) of its 6-line, in order."""

    name, across, upwards, tick_wide, tick_lines = "cut", "along the line: column, and its x, y", "z", 68, 2

    def __init__(self, n: oat_counts, held: Lent, walks: _Walks, columns: range, rows: range, clipped: bool = False) -> None:
        super().__init__(columns, rows, clipped)
        self.n, self.held, self.plan = n, held, _plan(walks)
        self.column = {xy: k for k, xy in enumerate(self.plan)}

    def tick(self, column: int) -> List[str]:
        return [str(column), "%d, %d" % self.plan[column]]

    def at(self, cell: Sequence[int]) -> Tuple[int, int]:
        return self.column[cell[0], cell[1]], cell[2]

    def bytes_of(self, row: int) -> Sequence[int]:
        view = _layer_bytes(self.n, self.held, row)
        return [view[x + self.n.nx * y] for x, y in self.plan[self.columns[0]:self.columns[-1] + 1]]

    def move(self, face: int) -> Optional[Tuple[int, int]]:
        return {"0": None, "+z": (0, 1), "-z": (0, -1)}.get(face_name(face), (1, 0))

    def way(self, walks: _Walks) -> List[Place]:
        """Columns are of one width, however far the segment goes through each: so it bends from column to column."""
        p, q = walks.p, walks.q
        points = [(0.5, p[2] + 0.5)]
        for k, (one, two) in enumerate(zip(self.plan, self.plan[1:])):
            axis = 0 if one[0] != two[0] else 1
            share = (max(one[axis], two[axis]) - p[axis] - 0.5) / (q[axis] - p[axis])
            points.append((k + 1.0, p[2] + 0.5 + share * (q[2] - p[2])))
        return [*points, (len(self.plan) - 0.5, q[2] + 0.5)]


def _plan(walks: _Walks) -> List[Tuple[int, int]]:
    """The (x, y) of a 6-line, each once, in order."""
    return list(dict.fromkeys((cell[0], cell[1]) for cell in walks.line))


def _runs(values: Iterable[int]) -> Iterator[Tuple[int, int, int]]:
    """Equal neighbours as one: where they start, how many they are, and what."""
    first = 0
    for value, equal in itertools.groupby(values):
        many = len(list(equal))
        yield first, many, value
        first += many


def _ground(panel: _View) -> Tuple[str, List[int]]:
    """The cells of a panel, coloured by their bytes, and which bytes there are."""
    rects: Dict[int, List[str]] = {}
    for row in panel.rows:
        for first, many, byte in _runs(panel.bytes_of(row)):
            rects.setdefault(byte, []).append('<rect x="%d" y="%d" width="%d" height="1"/>' % (panel.columns[0] + first, row, many))
    drawn = [group(rects[byte], fill=colour(byte), data_byte=byte) for byte in sorted(rects) if byte != OAT_CLEAR]
    return group(drawn, shape_rendering="crispEdges"), sorted(rects)


# ---- marks, in the measure of a panel: a cell's side is 1

def _spelled(cell: Sequence[int]) -> str:
    return ",".join(map(str, cell))


def _handle(name: str, cell: Optional[Cell]) -> Dict[str, str]:
    """What a mark is found by: its class and its cell; a sample in the legend has neither."""
    return {"class_": name, "data_cell": _spelled(cell)} if cell else {}


def _square(at: Tuple[int, int], cell: Optional[Cell] = None) -> str:
    return tag("rect", **_handle("plain", cell), x=at[0] + 0.1, y=at[1] + 0.1, width=0.8, height=0.8)


def _dot(at: Tuple[int, int], radius: float, cell: Optional[Cell] = None) -> str:
    return tag("circle", **_handle("adaptive", cell), cx=at[0] + 0.5, cy=at[1] + 0.5, r=radius)


def _squares(inner: Iterable[str], here: bool, k: float) -> str:
    """How cells of the plain walk look, in the layer that is shown and elsewhere."""
    wide = max(0.13, 1.2 / k) if here else max(0.06, 0.9 / k)
    return group(inner, fill="none", stroke=PLAIN, stroke_width=wide, stroke_opacity=None if here else 0.55)


def _dots(inner: Iterable[str], here: bool, k: float) -> str:
    """How cells of the adaptive walk look."""
    return group(inner, fill=ADAPTIVE if here else "#ffe0c2", stroke="#ffffff" if here else ADAPTIVE, stroke_width=max(0.05, 0.3 / k))


def _radius(here: bool, k: float) -> float:
    return max(0.25, 1.8 / k) if here else max(0.16, 1.2 / k)


def _joined(points: Iterable[Place], k: float) -> str:
    """The way of the adaptive walk, from dot to dot."""
    d = path(points)
    return tag("path", d=d, fill="none", stroke="#ffffff", stroke_opacity=0.7, stroke_width=max(0.16, 1.6 / k)) + \
        tag("path", d=d, fill="none", stroke=ADAPTIVE, stroke_width=max(0.08, 0.9 / k))


def _segment(points: Iterable[Place], k: float) -> str:
    return tag("path", class_="segment", d=path(points), fill="none", stroke="#000000", stroke_width=max(0.05, 0.8 / k),
               stroke_dasharray="%s %s" % (digits(max(0.3, 5 / k)), digits(max(0.2, 3 / k))))


def _cross(x: float, y: float, arm: float, wide: float, stroke: str) -> str:
    return tag("path", d="M%s %sl%s %sm0 %sl%s %s" % tuple(map(digits, (x - arm, y - arm, 2 * arm, 2 * arm, -2 * arm, -2 * arm, 2 * arm))),
               fill="none", stroke=stroke, stroke_width=wide, stroke_linecap="round")


def _crossed(x: float, y: float, k: float, stroke: str) -> List[str]:
    """The cross of a hit, with a white edge."""
    arm = max(0.3, 3.2 / k)
    return [_cross(x, y, arm, max(0.3, 4 / k), "#ffffff"), _cross(x, y, arm, max(0.16, 2 / k), stroke)]


def _bar(x: float, y: float, move: Tuple[int, int], k: float) -> List[str]:
    """A bar on the side of a cell by which a line comes in that moves so."""
    off, half = max(0.5, 3 / k), max(0.5, 4 / k)
    ends = [(x - off * move[0] + s * half * move[1], y - off * move[1] + s * half * move[0]) for s in (-1, 1)]
    return [tag("path", class_=name, d=path(ends), fill="none", stroke=stroke, stroke_width=wide)
            for name, stroke, wide in ((None, "#ffffff", max(0.34, 4.5 / k)), ("side", "#000000", max(0.22, 3 / k)))]


def _ring(x: float, y: float, k: float, radius: float = 0.66) -> List[str]:
    """Around a hit whose side a layer does not show."""
    return [tag("circle", class_=name, cx=x, cy=y, r=max(radius, 6 / k), fill="none", stroke=stroke, stroke_width=wide)
            for name, stroke, wide in ((None, "#ffffff", max(0.26, 4 / k)), ("ring", "#000000", max(0.12, 2 / k)))]


def _hit_mark(panel: _View, hit: oat_hit, name: str, stroke: str) -> str:
    """A hit where it is, with the side by which the line comes in."""
    column, row = panel.at(_triple(hit))
    x, y, move = column + 0.5, row + 0.5, panel.move(hit.face)
    side = _bar(x, y, move, panel.k) if move else _ring(x, y, panel.k) if hit.face else []
    return group([*side, *_crossed(x, y, panel.k, stroke)], class_=name, data_cell=_spelled(_triple(hit)), data_face=face_name(hit.face),
                 opacity=None if panel.here(_triple(hit)) else 0.45)


def _marks(panel: _View, walks: _Walks) -> List[str]:
    """Both walks over a panel; of each what lies elsewhere first, so that it covers nothing that is shown."""
    k, away_then_here = panel.k, (False, True)
    plain, adaptive = [[c for c in cells if panel.shows(c)] for cells in (walks.plain_cells, walks.adaptive_cells)]
    return [*[_squares((_square(panel.at(c), c) for c in plain if panel.here(c) == here), here, k) for here in away_then_here],
            _segment(panel.way(walks), k),
            _joined([(column + 0.5, row + 0.5) for column, row in map(panel.at, walks.adaptive_cells)], k),
            *[_dots((_dot(panel.at(c), _radius(here, k), c) for c in adaptive if panel.here(c) == here), here, k) for here in away_then_here]]


def _hits_of(walks: _Walks) -> List[Tuple[oat_hit, str, str, str]]:
    """The hit of the plain walk, and that of the adaptive one where it is another: with its class, its colour and its words."""
    found = [(walks.plain, "hit", HIT, "hit")] if walks.plain.hit else []
    return [*found, (walks.adaptive, "hit-adaptive", ADAPTIVE, "hit of the adaptive walk")] if walks.missed and walks.adaptive.hit else found


# ---- both walks

def walks_picture(counts: CountsLike, cells: Buffer, p: CellLike, q: CellLike, how: MannerLike = OAT_MANNER_USUAL, layer: Optional[int] = None,
                  title: Optional[str] = None, reach: Optional[int] = None) -> str:
    """Both walks from p to q as one picture: over a layer, the hit's where the plain walk hits, else p's, or the one that is said; and over the
    upright cut along the line. It shows the line with what is around it, and no more than the cells up to `reach` from the hit (from p where the way
    is clear). Where no reach is said that is the whole line, unless it is blocked and so long that its cells could not be told apart."""
    if reach is not None and reach < 0:
        raise ValueError("a reach is 0 or more, and %d was given" % reach)
    n = struct(oat_counts, counts, "counts")
    with lent(cells, False, 1, "cells") as held:
        walks = _Walks(n, held, p, q, struct(oat_manner, how, "how"))
        (columns, rows, heights, along), clipped = _windows(n, walks, reach)
        z = walks.focus[2] if layer is None else layer
        over = _Layer(n, held, z, columns, rows, clipped)
        panels = [over, _Cut(n, held, walks, along, heights, clipped)]
        heading = title or "From %s to %s: %s" % (cell_words(walks.p), cell_words(walks.q), "blocked" if walks.plain.hit else "clear")
        page = Page(panels, heading, _stepped_over(walks) if walks.missed else "")
        bytes_shown = set()
        for panel, says in zip(panels, ("Layer z = %d, seen from above" % z, "Upright cut along the line, seen from its side")):
            page.place(panel, says)
            bytes_shown.update(_panel_of_walks(page, panel, walks))
        page.legend([*_byte_samples(sorted(bytes_shown)), *_walk_samples(over, walks)])
        return page.done(_caption(walks, clipped))


def _windows(n: oat_counts, walks: _Walks, reach: Optional[int]) -> Tuple[List[range], bool]:
    """What is shown along x, y, z, and along the line; and whether that is a part of the line only."""
    counts, plan = [n.nx, n.ny, n.nz], _plan(walks)
    whole = [_window(min(ends), max(ends), count, 6, least) for *ends, count, least in zip(walks.p, walks.q, counts, (40, 40, 24))]
    whole.append(range(len(plan)))
    if reach is None and (not walks.plain.hit or min(Panel(whole[0], whole[1]).k, Panel(whole[3], whole[2]).k) >= CELL_LEAST):
        return whole, False
    middle, far = [*walks.focus, plan.index((walks.focus[0], walks.focus[1]))], CLOSE if reach is None else reach
    part = [range(max(all_of[0], at - far), min(all_of[-1], at + far) + 1) for all_of, at in zip(whole, middle)]
    return part, part != whole


def _panel_of_walks(page: Page, panel: _View, walks: _Walks) -> List[int]:
    """A panel with both walks and its labels; the bytes that are in it."""
    ground, found = _ground(panel)
    hits = [_hit_mark(panel, hit, name, stroke) for hit, name, stroke, _ in _hits_of(walks) if panel.shows(_triple(hit))]
    page.add(panel.drawn([ground, panel.lattice(), *_marks(panel, walks), *_ends(panel, walks), *hits]))
    labels = Labels(page, panel, [panel.middle(c) for c in walks.line if panel.shows(c)])
    for cell, names in _named_cells(walks).items():
        if panel.shows(cell):
            labels.add(panel.middle(cell), "%s %s" % (names, cell_words(cell)), HIT if "hit" in names else INK)
    return found


def _named_cells(walks: _Walks) -> Dict[Cell, str]:
    """The cells that have a label: the ends, and the hit, which may be one of them."""
    names = {walks.p: "P", walks.q: "Q" if walks.p != walks.q else "P = Q"}
    if walks.plain.hit:
        cell = _triple(walks.plain)
        names[cell] = "%s, hit" % names[cell] if cell in names else "hit"
    return names


def _ends(panel: _View, walks: _Walks) -> List[str]:
    """Rings around the middles of P and Q."""
    shown = [(end, panel.at(end)) for end in (walks.p, walks.q) if panel.shows(end)]
    return [tag("circle", **_handle("end", end), cx=at[0] + 0.5, cy=at[1] + 0.5, r=max(0.36, 3 / panel.k), fill="none", stroke="#000000",
                stroke_width=max(0.08, 1.2 / panel.k)) for end, at in shown]


# ---- words

def _stepped_over(walks: _Walks) -> str:
    """That the adaptive walk does not find what is in the way."""
    return "Blocked at %s, but the adaptive walk steps over it: the marks are not complete." % cell_words(_triple(walks.plain))


def _caption(walks: _Walks, clipped: bool) -> List[str]:
    start = "tested" if walks.how.start else "not tested"
    said = ["Plain walk: %s." % hit_words(walks.plain), "Adaptive walk: %s." % hit_words(walks.adaptive),
            "P %s, Q %s; the start is %s; rule %d." % (cell_words(walks.p), cell_words(walks.q), start, walks.how.rule)]
    return [*said, "Shown is the part of the line around %s." % cell_words(walks.focus)] if clipped else said


# ---- the legend

def _byte_samples(shown: Iterable[int]) -> List[Tuple[str, str]]:
    """Each byte that is in the picture."""
    names: Dict[int, str] = {OAT_CLEAR: "clear", OAT_NEAR: "near"}
    return [(tag("rect", width=1, height=1, fill=colour(byte), stroke="#999999", stroke_width=0.07), names.get(byte, code_words(byte)))
            for byte in shown]


def _walk_samples(layer: _Layer, walks: _Walks) -> List[Tuple[str, str]]:
    """The marks of the walks, and of the hit."""
    level, k = [(-0.1, 0.5), (1.1, 0.5)], 14.0
    found = [(_squares([_square((0, 0))], True, k), "plain walk"),
             (_joined(level, k) + _dots([_dot((0, 0), _radius(True, k))], True, k), "adaptive walk")]
    if not all(layer.here(cell) for cell in walks.plain_cells):
        pale = _squares([_square((0, 0))], False, k) + _joined(level, k) + _dots([_dot((0, 0), _radius(False, k))], False, k)
        found.append((pale, "walks in other layers than z = %d" % layer.z))
    found.append((_segment(level, k), "from centre to centre"))
    hits = _hits_of(walks)
    found += [("".join(_crossed(0.5, 0.5, k, stroke)), words) for _, _, stroke, words in hits]
    faces = [hit.face for hit, *_ in hits if hit.face]
    if faces:
        found.append(("".join(_bar(0.7, 0.5, (1, 0), k)), "the side by which the line comes in"))
    for face in [face for face in faces if not layer.move(face)][:1]:
        found.append(("".join(_ring(0.5, 0.5, k, 0.4)), "it comes in from %s (%s), which a layer does not show" % (side_of(face_name(face), "below", "above"), face_name(face))))
    return found


# ---- how many cameras see a ball

def coverage(counts: CountsLike, cells: Buffer, layer: int, cameras: Iterable[CellLike], how: MannerLike = OAT_MANNER_USUAL,
             progress: Optional[Callable[[float], None]] = None) -> array[int]:
    """How many of the cameras see a ball in each cell of a layer, x fastest, then y; -1 where the cell is solid, and so no place for a ball. A camera
    sees it where oat_adaptive from its cell is clear: that is the truth where the marks are complete. `progress` is told the share that is done."""
    n, manner = struct(oat_counts, counts, "counts"), struct(oat_manner, how, "how")
    places = [struct(oat_cell, camera, "a camera") for camera in cameras]
    with lent(cells, False, 1, "cells") as held:
        seen = array("i", [-1 if byte >= OAT_SOLID_LEAST else 0 for byte in _layer_bytes(n, held, layer)])
        for camera in places:
            # what this call accepts is accepted for every other cell of the layer
            try:
                oat_adaptive(n, held, camera, (0, 0, layer), manner)
            except Refused as refused:
                refused.about, refused.called = "the camera at %s: " % cell_words(_triple(camera)), ("the camera", "the ball")
                raise
        for k, (camera, y) in enumerate(itertools.product(places, range(n.ny)), 1):
            _count_row(n, held, camera, oat_cell(0, y, layer), manner, seen)
            if progress:
                progress(k / (len(places) * n.ny))
    return seen


def _count_row(n: oat_counts, held: Lent, camera: oat_cell, ball: oat_cell, how: oat_manner, seen: array[int]) -> None:
    """Adds a camera to the cells of a row that it sees: by the bare call, as there are many."""
    call, at, size = library.load().oat_adaptive, held.at, held.bytes
    first = n.nx * ball.y
    for x in range(n.nx):
        if seen[first + x] >= 0:
            ball.x = x
            if not call(n, at, size, camera, ball, how).hit:
                seen[first + x] += 1


def coverage_picture(counts: CountsLike, cells: Buffer, layer: int, cameras: Iterable[CellLike], how: MannerLike = OAT_MANNER_USUAL,
                     names: Optional[Sequence[str]] = None, title: Optional[str] = None, progress: Optional[Callable[[float], None]] = None,
                     seen: Optional[array[int]] = None) -> str:
    """How many of the cameras see a ball in each cell of a layer, as a picture; `seen` is what `coverage` answered, where that is there already."""
    n, places = struct(oat_counts, counts, "counts"), [_triple(struct(oat_cell, camera, "a camera")) for camera in cameras]
    called = ["%d" % k for k in range(1, len(places) + 1)] if names is None else list(names)
    if not places or len(called) != len(places):
        raise ValueError("a coverage has a camera or more, and as many names where it has any: %d and %d were given" % (len(places), len(called)))
    with lent(cells, False, 1, "cells") as held:
        seen = coverage(n, held, layer, places, how, progress) if seen is None else seen
        panel = _Coverage(n, held, layer, range(n.nx), range(n.ny))
        page = Page([panel], title or "How many of %d cameras see a ball in layer z = %d" % (len(places), layer),
                    "" if oat_complete(n, held).yes else NOT_COMPLETE)
        page.place(panel, "Layer z = %d, seen from above" % layer)
        page.add(panel.drawn([*_heat(panel, seen, len(places)), *[_camera(panel.at(c), panel.here(c), panel.k, c) for c in places]]))
        labels = Labels(page, panel, [panel.middle(c) for c in places])
        for place, name in zip(places, called):
            labels.add(panel.middle(place), name if len(name) <= 24 else name[:23] + "\u2026")
        _colour_bar(page, len(places))
        page.legend(_coverage_samples(panel, places))
        listed = "; ".join("%s %s" % pair for pair in zip(called, map(cell_words, places)))
        return page.done([_counted(seen, len(places)), "Cameras: %s." % listed])


class _Coverage(_Layer):
    """A layer with the cameras that see it."""

    name = "coverage"


def _heat(panel: _Coverage, seen: array[int], most: int) -> List[str]:
    """The cells by how many cameras see them; solid ones are hatched in the colour of their code."""
    rects: Dict[int, List[str]] = {}
    for y in panel.rows:
        # a solid cell stands with its byte, below 0
        row = [many if many >= 0 else -byte for many, byte in zip(seen[panel.nx * y:], panel.bytes_of(y))]
        for x, wide, many in _runs(row):
            says = 'data-seen="%d"' % many if many >= 0 else 'data-byte="%d"' % -many
            run = '<rect data-run="%d,%d,%d" %s x="%d" y="%d" width="%d" height="1"/>' % (x, x + wide - 1, y, says, x, y, wide)
            rects.setdefault(many, []).append(run)
    hatches = [_hatch(-many, 6 / panel.k) for many in sorted(rects) if many < 0]
    drawn = [group(rects[many], fill=scale(many, most) if many >= 0 else "url(#%s)" % _hatch_name(-many)) for many in sorted(rects)]
    return [*([tag("defs", "".join(hatches))] if hatches else []), group(drawn, shape_rendering="crispEdges")]


def _hatch_name(byte: int) -> str:
    return "oat-solid-%d" % byte


def _hatch(byte: int, side: float) -> str:
    """The hatching of a code."""
    inner = tag("rect", width=side, height=side, fill="#ffffff") + tag("rect", width=side, height=side, fill=colour(byte), fill_opacity=0.25) + \
        tag("rect", width=side * 0.4, height=side, fill=colour(byte))
    return tag("pattern", inner, id=_hatch_name(byte), width=side, height=side, patternUnits="userSpaceOnUse", patternTransform="rotate(45)")


def _camera(at: Tuple[int, int], here: bool, k: float, cell: Optional[Cell] = None) -> str:
    """A camera: filled where it is in the layer, else hollow."""
    x, y = at[0] + 0.5, at[1] + 0.5
    return group([tag("circle", cx=x, cy=y, r=6.5 / k, fill="#ffffff"),
                  tag("circle", cx=x, cy=y, r=4.5 / k, fill="#d6006c" if here else "#ffffff", stroke="#d6006c", stroke_width=2.2 / k)],
                 **_handle("camera", cell))


def _colour_bar(page: Page, most: int) -> None:
    """A block for each number of cameras, with its number where there is room."""
    wide = min(40.0, (page.wide - 2 * MARGIN) / (most + 1))
    step, top = tick_step(24 / wide), page.y + 22
    page.add(text(MARGIN, top - 6, "cameras that see a ball there (black: none of them)"))
    page.add(group([tag("rect", x=MARGIN + k * wide, y=top, width=wide, height=16, fill=scale(k, most), shape_rendering="crispEdges")
                    for k in range(most + 1)], class_="colours"))
    page.add(*[text(MARGIN + (k + 0.5) * wide, top + 29, str(k), 11, text_anchor="middle") for k in range(0, most + 1, step)])
    page.y = top + 36


def _coverage_samples(panel: _Coverage, cameras: Sequence[Cell]) -> List[Tuple[str, str]]:
    """What is solid, and the cameras."""
    codes = sorted(byte for byte in set(panel.view) if byte >= OAT_SOLID_LEAST)
    # as large as in the panel, so that the hatching is the same
    side = SAMPLE / panel.k
    found = [(group([tag("rect", width=side, height=side, fill="url(#%s)" % _hatch_name(code), stroke="#999999", stroke_width=1 / panel.k)],
                    transform="scale(%s)" % digits(1 / side)), "%s, solid" % code_words(code)) for code in codes]
    heights = {panel.here(camera) for camera in cameras}
    words = {True: "camera in this layer", False: "camera in another layer"}
    return found + [(_camera((0, 0), here, 14.0), words[here]) for here in sorted(heights, reverse=True)]


def _counted(seen: array[int], most: int) -> str:
    """The counts in words."""
    open_to = [many for many in seen if many >= 0]
    if not open_to:
        return "All %d cells are solid: there is no place for a ball." % len(seen)
    share = [(what, sum(many == number for many in open_to)) for what, number in (("no camera", 0), ("all %d" % most, most))]
    parts = ["%d (%.1f %%) are seen by %s" % (many, 100 * many / len(open_to), what) for what, many in share]
    return "Of %d cells where a ball can be, %s; on average a cell is seen by %.2f of %d. The %d solid cells are no place for a ball." % (
        len(open_to), " and ".join(parts), sum(open_to) / len(open_to), most, len(seen) - len(open_to))
