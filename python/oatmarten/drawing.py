"""What pictures are drawn with, as plain SVG text: elements, a page that grows downwards, panels of square cells, and labels that keep clear."""
from __future__ import annotations

import itertools
import re
import textwrap
from typing import Any, Iterable, List, Optional, Sequence, Tuple
from xml.sax.saxutils import escape, quoteattr

INK, PALE_INK, ALARM = "#222222", "#666666", "#b00020"
# how wide a character is at most on average, in parts of the font's size; and where it is bold
WIDE, WIDE_BOLD = 0.6, 0.68
MARGIN, LEFT, RIGHT = 16, 56, 36
# a panel's cells: at most so many pixels a side, and fewer where the panel would be wider or higher than this
CELL_MOST, PANEL_WIDE, PANEL_HIGH = 20, 1200, 900
PAGE_LEAST = 720
# of a legend: the side of a sample, and how wide a column is
SAMPLE, LEGEND_COLUMN = 14, 132

Place = Tuple[float, float]
Box = Tuple[float, float, float, float]


def digits(value: Any) -> str:
    """An attribute's value: a number with three decimals at most, or a text as it is."""
    return ("%.3f" % value).rstrip("0").rstrip(".") if isinstance(value, float) else str(value)


def tag(name: str, inner: Optional[str] = None, **what: Any) -> str:
    """An element. The names of its attributes have `_` here for `-`, and one more behind a word of Python's. What is None is left out."""
    words = "".join(" %s=%s" % (key.rstrip("_").replace("_", "-"), quoteattr(digits(value))) for key, value in what.items() if value is not None)
    return "<%s%s/>" % (name, words) if inner is None else "<%s%s>%s</%s>" % (name, words, inner, name)


def clean(words: str) -> str:
    """Words as SVG can hold them: without control characters."""
    return escape(re.sub("[^\t\n\r\x20-\ud7ff\ue000-\ufffd\U00010000-\U0010ffff]", "\ufffd", words))


def group(inner: Iterable[str], **what: Any) -> str:
    """Elements that have something in common; nothing where there are none."""
    parts = list(inner)
    return tag("g", "\n".join(parts), **what) if parts else ""


def path(points: Iterable[Place]) -> str:
    """The `d` of a way from point to point."""
    return "M" + "L".join("%s %s" % (digits(float(x)), digits(float(y))) for x, y in points)


def text_wide(words: str, size: float, bold: bool = False) -> float:
    return len(words) * size * (WIDE_BOLD if bold else WIDE)


def text(x: float, y: float, words: str, size: int = 12, bold: bool = False, **what: Any) -> str:
    """Words at a place."""
    what.setdefault("fill", INK)
    return tag("text", clean(words), x=float(x), y=float(y), font_size=size, font_weight="bold" if bold else None, **what)


def tick_step(least: float) -> int:
    """The least of 1, 2, 5, 10, 20 .. that is not below this number."""
    return next(step * int(10 ** k) for k in itertools.count() for step in (1, 2, 5) if step * 10 ** k >= least)


class Panel:
    """A window of cells as squares: columns to the right, rows upwards. Inside it a cell's side is 1, and the square of column c in row r goes from
    (c, r) to (c + 1, r + 1). `k` is its side in pixels; `clipped` says that what is drawn may go beyond the window."""

    name, across, upwards, tick_wide, tick_lines = "", "x", "y", 34, 1

    def __init__(self, columns: range, rows: range, clipped: bool = False) -> None:
        most = min(CELL_MOST, PANEL_WIDE / len(columns), PANEL_HIGH / len(rows))
        self.k: float = int(most) if most >= 3 else most
        self.columns, self.rows, self.clipped = columns, rows, clipped
        self.wide, self.high = len(columns) * self.k, len(rows) * self.k
        self.left, self.top = float(LEFT), 0.0

    def tick(self, column: int) -> List[str]:
        """What stands below a column, line for line."""
        return [str(column)]

    def at(self, cell: Sequence[int]) -> Tuple[int, int]:
        """The column and the row of a cell of the grid."""
        return cell[0], cell[1]

    def shows(self, cell: Sequence[int]) -> bool:
        """Whether a cell's square lies in the window."""
        column, row = self.at(cell)
        return column in self.columns and row in self.rows

    def pixel(self, column: float, row: float) -> Place:
        """Where a point of the panel lies on the page."""
        return self.left + (column - self.columns[0]) * self.k, self.top + (self.rows[-1] + 1 - row) * self.k

    def middle(self, cell: Sequence[int]) -> Place:
        """Where the middle of a cell lies on the page."""
        column, row = self.at(cell)
        return self.pixel(column + 0.5, row + 0.5)

    def drawn(self, inner: Iterable[str]) -> str:
        """The panel with what is in it, in its own measure, and its edge."""
        c, r = self.columns[0], self.rows[-1] + 1
        window = tag("svg", group([tag("rect", x=c, y=self.rows[0], width=len(self.columns), height=len(self.rows), fill="#ffffff"), *inner],
                                  transform="scale(1 -1)"),
                     x=self.left, y=self.top, width=float(self.wide), height=float(self.high), overflow="hidden" if self.clipped else "visible",
                     viewBox="%d %d %d %d" % (c, -r, len(self.columns), len(self.rows)))
        edge = tag("rect", x=self.left, y=self.top, width=float(self.wide), height=float(self.high), fill="none", stroke=PALE_INK)
        return tag("g", window + "\n" + edge, data_panel=self.name)

    def lattice(self) -> str:
        """Thin lines between the cells, where these are large enough for them."""
        if self.k < 6:
            return ""
        upright = "".join("M%d %dv%d" % (c, self.rows[0], len(self.rows)) for c in self.columns[1:])
        level = "".join("M%d %dh%d" % (self.columns[0], r, len(self.columns)) for r in self.rows[1:])
        return tag("path", d=upright + level or "M0 0", fill="none", stroke="#000000", stroke_opacity=0.09, stroke_width=1 / self.k)


class Page:
    """A page that grows downwards: its title, an alarm where there is one, panels, a legend and a caption, one below the other."""

    def __init__(self, panels: Sequence[Panel], title: str, alarm: str = "") -> None:
        self.wide = max([PAGE_LEAST, *[LEFT + panel.wide + RIGHT for panel in panels]])
        self.y = float(MARGIN)
        self.parts: List[str] = []
        self.title, self.alarm = title, alarm
        self.words(title, 16, True)
        self.words(alarm, 13, True, ALARM)

    def add(self, *parts: str) -> None:
        self.parts.extend(part for part in parts if part)

    def words(self, words: str, size: int = 12, bold: bool = False, fill: str = INK) -> None:
        """A paragraph, in as many lines as it needs."""
        fits = int((self.wide - 2 * MARGIN) / text_wide("m", size, bold))
        for line in textwrap.wrap(words, fits):
            self.y += size * 1.35
            self.add(text(MARGIN, self.y, line, size, bold, fill=fill))
        self.y += size * 0.35

    def place(self, panel: Panel, heading: str) -> None:
        """Gives a panel its place, below its heading and with its axes; what is in it is added afterwards."""
        self.y += 10
        self.words(heading, 13, True)
        panel.top = self.y + 8
        below = self._across(panel, panel.top + panel.high)
        self._upwards(panel)
        self.y = below + 8

    def _across(self, panel: Panel, foot: float) -> float:
        step, marks, lowest = tick_step(panel.tick_wide / panel.k), "", foot + 14 + 12 * panel.tick_lines
        for column in panel.columns:
            if column % step == 0:
                x, _ = panel.pixel(column + 0.5, 0)
                marks += "M%s %sv4" % (digits(x), digits(foot))
                self.add(*[text(x, foot + 15 + 12 * k, line, 10, text_anchor="middle") for k, line in enumerate(panel.tick(column))])
        self.add(tag("path", d=marks, stroke=PALE_INK, fill="none") if marks else "")
        middle = max(panel.left + panel.wide / 2, MARGIN + text_wide(panel.across, 12) / 2)
        self.add(text(middle, lowest + 8, panel.across, 12, font_style="italic", text_anchor="middle"))
        return lowest + 8

    def _upwards(self, panel: Panel) -> None:
        step, marks = tick_step(24 / panel.k), ""
        for row in panel.rows:
            if row % step == 0:
                _, y = panel.pixel(0, row + 0.5)
                marks += "M%s %sh-4" % (digits(panel.left), digits(y))
                self.add(text(panel.left - 7, y + 3.5, str(row), 10, text_anchor="end"))
        self.add(tag("path", d=marks, stroke=PALE_INK, fill="none") if marks else "")
        self.add(text(MARGIN, panel.top + panel.high / 2 + 4, panel.upwards, 12, font_style="italic", text_anchor="middle"))

    def legend(self, entries: Iterable[Tuple[str, str]]) -> None:
        """Samples with their words, in columns; an entry takes as many columns as it needs. A sample is drawn in a cell of its own, as in a panel."""
        room = self.wide - 2 * MARGIN
        columns = int(room / LEGEND_COLUMN)
        column, self.y = 0, self.y + 6
        for sample, words in entries:
            takes = min(columns, int((SAMPLE + 20 + text_wide(words, 12)) / (room / columns)) + 1)
            if column + takes > columns:
                column, self.y = 0, self.y + 21
            x = MARGIN + column * room / columns
            self.add(group([sample], transform="translate(%s %s) scale(%d %d)" % (digits(x), digits(self.y + 17), SAMPLE, -SAMPLE)),
                     text(x + SAMPLE + 6, self.y + 14, words))
            column += takes
        self.y += 28

    def done(self, caption: Sequence[str]) -> str:
        """The whole picture, with its caption, a paragraph each."""
        for words in caption:
            self.words(words)
        wide, high = int(self.wide + 0.999), int(self.y + MARGIN)
        told = [tag("title", clean(self.title)), tag("desc", clean(" ".join([self.alarm, *caption]).strip()))]
        return tag("svg", "\n".join([*told, tag("rect", width=wide, height=high, fill="#ffffff"), *self.parts]) + "\n",
                   xmlns="http://www.w3.org/2000/svg", width=wide, height=high, viewBox="0 0 %d %d" % (wide, high), font_family="sans-serif") + "\n"


class Labels:
    """Labels beside points of a panel: of the places around its point a label takes the one where it covers the least."""

    SIZE = 11

    def __init__(self, page: Page, panel: Panel, covered: Iterable[Place]) -> None:
        self.page, self.panel = page, panel
        self.points = list(covered)
        self.boxes: List[Box] = []

    def add(self, point: Place, words: str, fill: str = INK) -> None:
        box, anchor = min(self._places(point, words), key=lambda one: self._cost(one[0], point))
        self.boxes.append(box)
        x = {"start": box[0], "middle": (box[0] + box[2]) / 2, "end": box[2]}[anchor]
        self.page.add(text(x, box[3] - 3, words, self.SIZE, True, fill=fill, stroke="#ffffff", stroke_width=3, stroke_linejoin="round",
                           paint_order="stroke", text_anchor=anchor))

    def _places(self, point: Place, words: str) -> List[Tuple[Box, str]]:
        """Boxes around the point, the nearest first, and where words begin in them; all on the page, and none higher or lower than the panel."""
        wide, high, found = text_wide(words, self.SIZE, True), self.SIZE + 3, []
        left, right, top, foot = self.panel.left + 2, self.page.wide - 4 - wide, self.panel.top, self.panel.top + self.panel.high - high
        for gap in (max(7, self.panel.k / 2) + more for more in (7, 16, 32, 58)):
            for dx, dy in ((1, 0), (-1, 0), (0, -1), (0, 1), (1, -1), (-1, -1), (1, 1), (-1, 1)):
                x = point[0] - wide / 2 + dx * (gap + wide / 2)
                y = point[1] - high / 2 + dy * (gap if dx else gap + high / 2)
                x, y = max(left, min(x, right)), max(top, min(y, foot))
                found.append(((x, y, x + wide, y + high), ("middle", "start", "end")[dx]))
        return found

    def _cost(self, box: Box, point: Place) -> float:
        """How much a label there would cover: other labels above all, then points; and how far it is off."""
        pad = self.panel.k / 2 + 1
        labels = sum(box[0] < other[2] + 4 and other[0] < box[2] + 4 and box[1] < other[3] and other[1] < box[3] for other in self.boxes)
        points = sum(box[0] - pad < x < box[2] + pad and box[1] - pad < y < box[3] + pad for x, y in self.points)
        away = max(box[0] - point[0], point[0] - box[2], 0) + max(box[1] - point[1], point[1] - box[3], 0)
        return 1000 * labels + 20 * points + away / 10
