#!/usr/bin/env python3
"""Holds the pictures of the Python module against the library's calls: parses each SVG, and looks at which cells, hits and counts stand in it, where
its texts are, and whether the segment goes through the cells of its line.

    PYTHONPATH=python python3 tests/pictures.py
"""
import random
import re
import sys
import unittest
import xml.etree.ElementTree as ET
from array import array

import oatmarten as oat
from oatmarten import pictures

SVG = "{http://www.w3.org/2000/svg}"
FACES = {0: "0", 1: "+x", -1: "-x", 2: "+y", -2: "-y", 3: "+z", -3: "-z"}
MANNERS = [(start, rule) for start in (oat.OAT_START_UNTESTED, oat.OAT_START_TESTED) for rule in (oat.OAT_RULE_1, oat.OAT_RULE_2)]


class Ground:
    """A venue in memory: boxes of solid cells, marked or bare."""

    def __init__(self, counts, boxes, marked=True):
        self.counts, (nx, ny, nz) = counts, counts
        self.cells = bytearray(nx * ny * nz)
        for code, xs, ys, zs in boxes:
            for z in range(zs[0], zs[1] + 1):
                for y in range(ys[0], ys[1] + 1):
                    first = nx * (y + ny * z)
                    self.cells[first + xs[0]:first + xs[1] + 1] = bytes([code]) * (xs[1] - xs[0] + 1)
        if marked:
            oat.oat_mark(counts, self.cells)

    def byte(self, cell):
        return self.cells[cell[0] + self.counts[0] * (cell[1] + self.counts[1] * cell[2])]


BOXES = [(3, (0, 39), (0, 1), (0, 2)), (3, (0, 39), (22, 23), (0, 3)), (2, (34, 34), (9, 9), (0, 4)), (2, (34, 34), (14, 14), (0, 4)),
         (4, (36, 36), (9, 14), (0, 3)), (5, (18, 21), (3, 20), (8, 8))]
MARKED, BARE = Ground((40, 24, 10), BOXES), Ground((40, 24, 10), BOXES, False)


def listed(call):
    out = array("i", bytes(4 * oat.OAT_LINE6_ROOM))
    return [tuple(out[3 * k:3 * k + 3]) for k in range(call(out).count)]


def numbers(words):
    return tuple(map(int, words.split(",")))


def panel_of(root, name):
    return next(one for one in root.iter(SVG + "g") if one.get("data-panel") == name)


def classed(root, kind, name):
    return [numbers(one.get("data-cell")) for one in root.iter(SVG + kind) if one.get("class") == name]


def away(points, column, row):
    """How far a way from point to point stays off a cell: 0 where it has a point of it."""
    least = 1e9
    for (x0, y0), (x1, y1) in zip(points, points[1:] if len(points) > 1 else points):
        low, high = max(min(x0, x1), column), min(max(x0, x1), column + 1)
        if low > high + 1e-9:
            continue
        ends = [y0, y1] if x1 == x0 else [y0 + (y1 - y0) * (x - x0) / (x1 - x0) for x in (low, high)]
        least = min(least, max(row - max(ends), min(ends) - row - 1, 0))
    return least


class Case(unittest.TestCase):
    def parsed(self, svg):
        """The picture's root, with what every picture has."""
        root = ET.fromstring(svg)
        wide, high = int(root.get("width")), int(root.get("height"))
        self.assertEqual(root.get("viewBox"), "0 0 %d %d" % (wide, high))
        self.assertTrue(root.find(SVG + "title").text and root.find(SVG + "desc").text)
        self.assertEqual(root.find(SVG + "rect").get("fill"), "#ffffff")
        for one in root.iter(SVG + "text"):
            self.within(one, wide, high)
        return root

    def within(self, one, wide, high):
        """A text lies on the page, with 0.6 of its size for a character."""
        size, x, y = float(one.get("font-size")), float(one.get("x")), float(one.get("y"))
        room = 0.6 * size * len(one.text)
        left = x - room * {"start": 0, "middle": 0.5, "end": 1}[one.get("text-anchor", "start")]
        self.assertTrue(0 <= left and left + room <= wide and size * 0.8 <= y <= high - 0.2 * size, (one.text, left, left + room, y, wide, high))


class Walks(Case):
    def look(self, ground, p, q, how=oat.OAT_MANNER_USUAL, **more):
        """A picture whose every part is what the calls answer."""
        root = self.parsed(pictures.walks_picture(ground.counts, ground.cells, p, q, how, **more))
        line = listed(lambda out: oat.oat_line6(p, q, out, how[1]))
        hit = oat.oat_plain(ground.counts, ground.cells, p, q, how)
        adaptive = listed(lambda out: oat.oat_adaptive_cells(ground.counts, ground.cells, p, q, out, how))
        plan = list(dict.fromkeys(cell[:2] for cell in line))
        layer = more.get("layer", hit.z if hit.hit else p[2])
        for name, at in (("layer", lambda c: c[:2]), ("cut", lambda c: (plan.index(c[:2]), c[2]))):
            panel = panel_of(root, name)
            shown = self.window(panel)
            self.assertEqual(sorted(classed(panel, "rect", "plain")), sorted(c for c in line[:hit.reads] if shown(at(c))))
            self.assertEqual(sorted(classed(panel, "circle", "adaptive")), sorted(c for c in adaptive if shown(at(c))))
            self.marks(panel, at)
            self.hit(panel, hit)
            self.side(panel, name, hit, at)
            self.ground(panel, ground, (lambda c, r: (c, r, layer)) if name == "layer" else (lambda c, r: (*plan[c], r)))
        self.segment(panel_of(root, "cut"), plan, line)
        return root, hit, adaptive

    def window(self, panel):
        left, top, wide, high = map(int, panel.find(SVG + "svg").get("viewBox").split())
        return lambda at: left <= at[0] < left + wide and -top - high <= at[1] < -top

    def marks(self, panel, at):
        """Each mark lies in the square of its cell."""
        for one in panel.iter():
            if one.get("class") in ("plain", "adaptive", "end"):
                column, row = at(numbers(one.get("data-cell")))
                x, y = (float(one.get("cx")), float(one.get("cy"))) if one.get("cx") else (float(one.get("x")) + 0.4, float(one.get("y")) + 0.4)
                self.assertAlmostEqual(x, column + 0.5)
                self.assertAlmostEqual(y, row + 0.5)

    def hit(self, panel, hit):
        found = [(numbers(one.get("data-cell")), one.get("data-face")) for one in panel.iter(SVG + "g") if one.get("class") == "hit"]
        self.assertEqual(found, [((hit.x, hit.y, hit.z), FACES[hit.face])] if hit.hit else [])

    def side(self, panel, name, hit, at):
        """The bar stands on the side by which the line comes in; a ring is where a layer cannot show it."""
        mark = [one for marked in panel.iter(SVG + "g") if marked.get("class") == "hit" for one in marked]
        bars = [re.findall(r"[ML]([^ML]+)", one.get("d")) for one in mark if one.get("class") == "side"]
        rings = [one for one in mark if one.get("class") == "ring"]
        sign = 1 if hit.face > 0 else -1
        turned = {"layer": {1: (sign, 0), 2: (0, sign)}, "cut": {1: (1, 0), 2: (1, 0), 3: (0, sign)}}[name].get(abs(hit.face))
        self.assertEqual((len(bars), len(rings)), (turned is not None, hit.face != 0 and turned is None))
        if turned:
            ends = [tuple(map(float, words.split())) for words in bars[0]]
            window = panel.find(SVG + "svg")
            # on the side itself; where cells are smaller than 6 pixels, so far off that it can be seen beside the cross
            off = max(0.5, 3 * int(window.get("viewBox").split()[2]) / float(window.get("width")))
            for axis, middle in enumerate(at((hit.x, hit.y, hit.z))):
                self.assertAlmostEqual((ends[0][axis] + ends[1][axis]) / 2, middle + 0.5 - off * turned[axis])
                self.assertEqual(ends[0][axis] == ends[1][axis], turned[axis] != 0)

    def ground(self, panel, ground, cell):
        """Each square has the byte of its cell: those that are drawn, and those that are left white."""
        left, top, wide, high = map(int, panel.find(SVG + "svg").get("viewBox").split())
        drawn = {}
        for one in panel.iter(SVG + "g"):
            for rect in one if one.get("data-byte") else []:
                x, y, many = int(rect.get("x")), int(rect.get("y")), int(rect.get("width"))
                drawn.update({(x + k, y): int(one.get("data-byte")) for k in range(many)})
        for column in range(left, left + wide):
            for row in range(-top - high, -top):
                self.assertEqual(drawn.pop((column, row), 0), ground.byte(cell(column, row)))
        self.assertFalse(drawn)

    def segment(self, panel, plan, line):
        """The segment has a point of each cell of the line, though columns are all of one width."""
        d = next(one for one in panel.iter(SVG + "path") if one.get("class") == "segment").get("d")
        points = [tuple(map(float, words.split())) for words in re.findall(r"[ML]([^ML]+)", d)]
        for cell in line:
            self.assertLess(away(points, plan.index(cell[:2]), cell[2]), 0.002, cell)

    def test_post(self):
        root, hit, _ = self.look(MARKED, (20, 12, 7), (36, 8, 0), title="a post <&> \"quoted\" \x01")
        self.assertEqual((hit.x, hit.y, hit.z), (34, 9, 1))
        self.assertEqual(root.find(SVG + "title").text, "a post <&> \"quoted\" \ufffd")
        self.assertIn("blocked at (34, 9, 1) by code 2 (0x02), at 27/32 of the way, by its low-x side (+x), 24 cells read", root.find(SVG + "desc").text)
        self.assertNotIn("steps over", root.find(SVG + "desc").text)

    def test_missed(self):
        root, _, _ = self.look(BARE, (20, 12, 7), (36, 8, 0))
        self.assertIn("the adaptive walk steps over it: the marks are not complete", root.find(SVG + "desc").text)
        self.assertTrue(any("steps over" in one.text for one in root.iter(SVG + "text")))

    def test_shapes(self):
        for p, q in (((8, 3, 1), (29, 12, 0)), ((20, 12, 0), (20, 12, 9)), ((20, 12, 9), (20, 12, 0)), ((20, 12, 8), (20, 12, 8)),
                     ((2, 2, 3), (21, 21, 9)), ((10, 3, 9), (13, 1, 0)), ((39, 23, 9), (0, 0, 0)), ((0, 5, 5), (39, 5, 5))):
            for how in MANNERS:
                self.look(MARKED, p, q, how)
        self.look(MARKED, (20, 12, 7), (36, 8, 0), layer=5)

    def test_random(self):
        draw = random.Random(10)
        for _ in range(60):
            counts = tuple(draw.randint(1, 14) for _ in range(3))
            ground = Ground(counts, [], False)
            ground.cells[:] = bytes(draw.choice((0, 0, 0, 0, 0, 0, 1, 255, draw.randint(2, 255))) for _ in ground.cells)
            p, q = (tuple(draw.randrange(count) for count in counts) for _ in "pq")
            self.look(ground, p, q, draw.choice(MANNERS))

    def test_reach(self):
        root, _, _ = self.look(MARKED, (20, 12, 7), (36, 8, 0), reach=3)
        self.assertIn("Shown is the part of the line around (34, 9, 1).", root.find(SVG + "desc").text)
        self.assertRaises(ValueError, pictures.walks_picture, MARKED.counts, MARKED.cells, (0, 0, 0), (1, 1, 1), reach=-1)

    def test_large(self):
        large = Ground((1024, 1024, 8), [(9, (500, 503), (500, 503), (0, 7)), (250, (0, 1023), (0, 30), (0, 2))], False)
        for p, q in (((0, 40, 1), (1023, 1023, 6)), ((3, 1000, 1), (1023, 1001, 6)), ((10, 10, 7), (1010, 1009, 1))):
            svg = pictures.walks_picture(large.counts, large.cells, p, q)
            self.parsed(svg)
            self.assertLess(len(svg), 1 << 20)
        root, hit, _ = self.look(large, (400, 403, 3), (600, 600, 4))
        self.assertTrue(hit.hit and classed(root, "rect", "plain"))

    def test_colours(self):
        self.assertEqual(len({pictures.colour(byte) for byte in range(256)}), 256)

    def test_refused(self):
        with self.assertRaises(oat.Refused) as raised:
            pictures.walks_picture(MARKED.counts, MARKED.cells, (0, 0, 0), (40, 0, 0))
        self.assertEqual(raised.exception.number, oat.OAT_REFUSED_OFF_GRID)


class Coverage(Case):
    CAMERAS = [(20, 12, 7), (8, 3, 1), (26, 20, 5), (39, 12, 2)]

    def look(self, ground, layer, how=oat.OAT_MANNER_USUAL, **more):
        """A picture whose runs are the layer, and whose counts are those of single calls."""
        told = []
        root = self.parsed(pictures.coverage_picture(ground.counts, ground.cells, layer, self.CAMERAS, how, progress=told.append, **more))
        self.assertTrue(told == sorted(told) and told[-1] == 1)
        panel, found = panel_of(root, "coverage"), {}
        for one in panel.iter(SVG + "rect"):
            if one.get("data-run"):
                first, last, y = numbers(one.get("data-run"))
                self.assertEqual((one.get("x"), one.get("y"), one.get("width")), (str(first), str(y), str(last - first + 1)))
                for x in range(first, last + 1):
                    self.assertNotIn((x, y), found)
                    found[x, y] = one.get("data-seen"), one.get("data-byte")
        self.assertEqual(len(found), ground.counts[0] * ground.counts[1])
        for (x, y), (seen, byte) in random.Random(layer).sample(sorted(found.items()), 200):
            single = [oat.oat_adaptive(ground.counts, ground.cells, camera, (x, y, layer), how).hit for camera in self.CAMERAS]
            solid = ground.byte((x, y, layer)) >= oat.OAT_SOLID_LEAST
            self.assertEqual((seen, byte), (None, str(ground.byte((x, y, layer)))) if solid else (str(single.count(0)), None))
        self.assertEqual(classed(panel, "g", "camera"), self.CAMERAS)
        return root, found

    def test_layers(self):
        for layer, how in zip((0, 1, 5, 9), MANNERS):
            root, found = self.look(MARKED, layer, how)
            said = root.find(SVG + "desc").text
            seen = [int(many) for many, _ in found.values() if many is not None]
            self.assertIn("Of %d cells where a ball can be, %d (" % (len(seen), seen.count(0)), said)
            self.assertIn("and %d (" % seen.count(4), said)
            self.assertIn("seen by %.2f of 4." % (sum(seen) / len(seen)), said)
            self.assertNotIn("not complete", said)

    def test_not_complete(self):
        root, _ = self.look(BARE, 1, names=["<gantry>", "south & side", "n" * 80, "behind goal"], title="bare")
        self.assertIn("The marks are not complete", root.find(SVG + "desc").text)
        self.assertIn("<gantry>", [one.text for one in root.iter(SVG + "text")])

    def test_answer(self):
        seen = pictures.coverage(MARKED.counts, bytes(MARKED.cells), 8, self.CAMERAS)
        self.assertEqual(len(seen), 40 * 24)
        self.assertEqual([many for many in seen if many < 0], [-1] * (4 * 18))
        svg = [pictures.coverage_picture(MARKED.counts, MARKED.cells, 8, self.CAMERAS, seen=one) for one in (seen, None)]
        self.assertEqual(svg[0], svg[1])

    def test_refused(self):
        for camera, layer, number in (((40, 0, 0), 0, oat.OAT_REFUSED_OFF_GRID), ((0, 0, 0), 10, oat.OAT_REFUSED_LAYER)):
            with self.assertRaises(oat.Refused) as raised:
                pictures.coverage(MARKED.counts, MARKED.cells, layer, [(1, 1, 1), camera])
            self.assertEqual(raised.exception.number, number)
        self.assertRaises(ValueError, pictures.coverage_picture, MARKED.counts, MARKED.cells, 0, [])
        self.assertRaises(ValueError, pictures.coverage_picture, MARKED.counts, MARKED.cells, 0, [(0, 0, 0)], names=["a", "b"])

    def test_colours(self):
        for most in (1, 2, 12, 40):
            self.assertEqual(len({pictures.scale(seen, most) for seen in range(most + 1)}), most + 1)


if __name__ == "__main__":
    unittest.main(argv=[sys.argv[0], *sys.argv[1:]])
