#!/usr/bin/env python3
"""What `oatmarten make` rests on: descriptions, .npy and binvox files, each right and wrong in every way that is told, and the venues made of them.

    PYTHONPATH=python python3 tests/making.py      needs the shared library (tests/shared); where it cannot be loaded, since it is for x86-64, what
                                                   does without it is tried"""
import contextlib
import importlib.machinery
import importlib.util
import io
import itertools
import os
import pathlib
import platform
import random
import struct
import subprocess
import sys
import tempfile
import time
import tracemalloc
import unittest

from oatmarten import descriptions, files, importers, making
from oatmarten.inputs import Wrong

ROOT = pathlib.Path(__file__).resolve().parent.parent
sys.dont_write_bytecode = True
needs_library = unittest.skipUnless(platform.machine() in ("x86_64", "AMD64"), "the library is for x86-64")


def load(path):
    loader = importlib.machinery.SourceFileLoader(os.path.basename(path), path)
    module = importlib.util.module_from_spec(importlib.util.spec_from_loader(loader.name, loader))
    loader.exec_module(module)
    return module


def every(nx, ny, nz):
    """All cells, in the order of a venue's bytes."""
    return [(x, y, z) for z in range(nz) for y in range(ny) for x in range(nx)]


class Made(unittest.TestCase):
    """A folder with a source, and what is made of it there."""

    def setUp(self):
        hold = tempfile.TemporaryDirectory()
        self.addCleanup(hold.cleanup)
        self.folder = pathlib.Path(hold.name)
        self.source, self.target = self.folder / "source", self.folder / "made.venue"

    def make(self, given, **how):
        """What is made of these bytes, or of this text; written as a command writes it."""
        self.source.write_bytes(given if isinstance(given, bytes) else given.encode())
        with files.aside(str(self.target)) as out:
            made = making.make(str(self.source), **how)
            out.write(made.record)
        self.assertEqual(self.target.read_bytes(), made.record)
        return made

    def cells(self, given, **how):
        """The counts, and the cells as they were given."""
        made = self.make(given, bare=True, **how)
        self.assertEqual(bytes(made.record[:11]), struct.pack(">IB3H", len(made.record) - 4, 1, *made.counts))
        return made.counts, bytes(made.record[11:])

    def wrong(self, given, sentence, **how):
        """It is wrong, in these words and in no others; and nothing is written, whether there was something or not."""
        for before in (None, b"before"):
            with contextlib.suppress(FileNotFoundError):
                self.target.unlink()
            if before:
                self.target.write_bytes(before)
            with self.assertRaises(Wrong) as caught:
                self.make(given, **how)
            self.assertEqual(str(caught.exception), sentence.replace("SOURCE", str(self.source)))
            self.assertEqual(sorted(self.folder.iterdir()), [self.target, self.source] if before else [self.source])
            if before:
                self.assertEqual(self.target.read_bytes(), before)


# ---- descriptions

GRID = "grid 10 20 30\n"
WHOLE = "the %s of a cell in this grid is a whole number from 0 to %d, and '%s' was given"
WORDS = "'%s' is not known; a line begins with grid, sides, solid, camera, ball or both_ways"
# a description, the number of its wrong line, and what is said of it
LINES = [
    ("", 1, "the description ends, and has no grid"),
    ("# a comment\n\n  # another\n", 3, "the description ends, and has no grid"),
    ("solid post 2 0 0 0\n", 1, "the grid's line comes first, and this one begins with 'solid'"),
    ("# first\n\ncamera c 0 0 0\n" + GRID, 3, "the grid's line comes first, and this one begins with 'camera'"),
    ("grid\n", 1, "a grid has three counts, of its cells along x, y and z"),
    ("grid 1 2\n", 1, "a grid has three counts, of its cells along x, y and z"),
    ("grid 1 2 3 4\n", 1, "a grid has three counts, of its cells along x, y and z"),
    ("grid 0 2 3\n", 1, "the count along x is a whole number from 1 to 1024, and '0' was given"),
    ("grid 1 1025 3\n", 1, "the count along y is a whole number from 1 to 1024, and '1025' was given"),
    ("grid 1 2 -3\n", 1, "the count along z is a whole number from 1 to 1024, and '-3' was given"),
    (GRID + GRID, 2, "a description has one grid, and this is the second"),
    (GRID + "wall w 2 0 0 0\n", 2, WORDS % "wall"),
    (GRID + "Solid w 2 0 0 0\n", 2, WORDS % "Solid"),
    ("wall\n", 1, WORDS % "wall"),
    (GRID + "a\x1b[31m" + "b" * 100 + "\n", 2, WORDS % ("a?[31m" + "b" * 32 + "..")),
    # solids
    (GRID + "solid post 2 0 0\n", 2, "a solid has a name, a code, and its cells along x, y and z"),
    (GRID + "solid post 2 0 0 0 0\n", 2, "a solid has a name, a code, and its cells along x, y and z"),
    (GRID + "solid a 1 0 0 0\n", 2, "the code of a solid is a whole number from 2 to 255, and '1' was given"),
    (GRID + "solid a 0 0 0 0\n", 2, "the code of a solid is a whole number from 2 to 255, and '0' was given"),
    (GRID + "solid a 256 0 0 0\n", 2, "the code of a solid is a whole number from 2 to 255, and '256' was given"),
    (GRID + "solid a -2 0 0 0\n", 2, "the code of a solid is a whole number from 2 to 255, and '-2' was given"),
    (GRID + "\n# more\nsolid a 255 9 19 29\nsolid b 2 10 0 0\n", 5, WHOLE % ("x", 9, "10")),
    (GRID + "solid a 2 0-9 0-20 0\n", 2, WHOLE % ("y", 19, "0-20")),
    (GRID + "solid a 2 0 0 30-31\n", 2, WHOLE % ("z", 29, "30-31")),
    (GRID + "solid a 2 -1 0 0\n", 2, WHOLE % ("x", 9, "-1")),
    (GRID + "solid a 2 -1-3 0 0\n", 2, WHOLE % ("x", 9, "-1-3")),
    (GRID + "solid a 2 0--3 0 0\n", 2, WHOLE % ("x", 9, "0--3")),
    (GRID + "solid a 2 3- 0 0\n", 2, WHOLE % ("x", 9, "3-")),
    (GRID + "solid a 2 3-4-5 0 0\n", 2, WHOLE % ("x", 9, "3-4-5")),
    (GRID + "solid a 2 9-3 0 0\n", 2, "a box goes from its lower to its higher x, and '9-3' was given"),
    (GRID + "solid a 2 0 0 29-28\n", 2, "a box goes from its lower to its higher z, and '29-28' was given"),
    # sides
    (GRID + "sides x west\n", 2, "sides have an axis, x, y or z, and two names, of its low and of its high side"),
    (GRID + "sides xy west east\n", 2, "sides have an axis, x, y or z, and two names, of its low and of its high side"),
    (GRID + "sides w west east\n", 2, "sides have an axis, x, y or z, and two names, of its low and of its high side"),
    (GRID + "sides x west west\n", 2, "the two sides along x have one name, 'west'"),
    (GRID + "sides x west east\nsides y a b\nsides x a b\n", 4, "the sides along x have their names already"),
    # cameras and balls
    (GRID + "camera c 0 0\n", 2, "a camera has a name, and x, y and z of its cell"),
    (GRID + "ball b 0 0 0 0\n", 2, "a ball has a name, and x, y and z of its cell"),
    (GRID + "camera c 0 0 32768\n", 2, "z of a camera is a whole number from -32768 to 32767, and '32768' was given"),
    (GRID + "ball b -32769 0 0\n", 2, "x of a ball is a whole number from -32768 to 32767, and '-32769' was given"),
    (GRID + "ball b 0 0-1 0\n", 2, "y of a ball is a whole number from -32768 to 32767, and '0-1' was given"),
    (GRID + "camera c 0 0 0\nball c 0 0 0\ncamera c 1 1 1\n", 4, "there is a camera 'c' already"),
    (GRID + "camera c 0 0 0\nball b 0 0 0\nball b 0 0 0\n", 4, "there is a ball 'b' already"),
    # there and back
    (GRID + "camera c 0 0 0\nball b 0 0 0\nboth_ways c\n", 4, "both_ways takes two names, a camera's and a ball's"),
    (GRID + "ball b 0 0 0\nboth_ways c b\ncamera c 0 0 0\n", 3, "there is no camera 'c' in the lines before"),
    (GRID + "camera c 0 0 0\nboth_ways c b\nball b 0 0 0\n", 3, "there is no ball 'b' in the lines before"),
    (GRID + "camera c 0 0 0\nball b 0 0 0\nboth_ways b c\n", 4, "there is no camera 'b' in the lines before"),
    # the first wrong line is told
    (GRID + "solid a 1 0 0 0\nwall\n", 2, "the code of a solid is a whole number from 2 to 255, and '1' was given"),
]
# words that are no number in decimal, though int() takes most of them
NO_NUMBERS = ["1_0", "\u0663", "+3", "0x3", "3.0", "1e1", "\uff13", "\u00b2", "three", "1" * 19, "1" * 5000, "--3"]


class Descriptions(Made):
    def test_wrong_lines(self):
        for text, at, said in LINES:
            with self.subTest(text=text):
                self.wrong(text, "SOURCE, line %d: %s" % (at, said))
                self.wrong(text.replace("\n", "\r\n"), "SOURCE, line %d: %s" % (at, said), pairs=True)

    def test_words_that_are_no_numbers(self):
        for word in NO_NUMBERS:
            cut = word if len(word) <= 40 else word[:38] + ".."
            with self.subTest(word=word[:50]):
                self.wrong("grid %s 1 1" % word, "SOURCE, line 1: the count along x is a whole number from 1 to 1024, and '%s' was given" % cut)
                self.wrong(GRID + "solid a %s 0 0 0" % word,
                           "SOURCE, line 2: the code of a solid is a whole number from 2 to 255, and '%s' was given" % cut)
                span = "0-" + word
                self.wrong(GRID + "solid a 2 %s 0 0" % span, "SOURCE, line 2: " + WHOLE % ("x", 9, span if len(span) <= 40 else span[:38] + ".."))
                self.wrong(GRID + "ball b 0 0 %s" % word,
                           "SOURCE, line 2: z of a ball is a whole number from -32768 to 32767, and '%s' was given" % cut)

    def test_files_that_are_none(self):
        self.wrong(GRID.encode() + b"# caf\xe9\n", "SOURCE, line 2: a description is text in UTF-8, and this is none")
        self.wrong(b"\xef\xbb\xbf" + GRID.encode() + b"\r\n\r\xff", "SOURCE, line 4: a description is text in UTF-8, and this is none")
        for name, why in (("nothing", "No such file or directory"), (".", "Is a directory")):
            path = str(self.folder / name)
            for reads in (making.make, descriptions.read):
                with self.assertRaises(Wrong) as caught:
                    reads(path)
                self.assertEqual(str(caught.exception), "%s cannot be read: %s" % (path, why))
        with self.assertRaises(Wrong) as caught:
            making.make("a\0b")
        self.assertEqual(str(caught.exception), "a?b cannot be read: it is no name of a file")

    def test_what_a_description_says(self):
        text = ("\ufeff# caf\u00e9\ngrid 4 3 2 # the counts\nsides x west east\nsolid a 2 0-3 0 0\nsolid b 255 1-2 0-1 0-1\nsolid a 7 03 2 1\n"
                "camera c -32768 0 32767\rcamera d 1 1 1\r\nball c 0 0 -0\nboth_ways d c\n")
        ground = descriptions.parsed(text.encode(), "text")
        self.assertEqual(ground.counts, (4, 3, 2))
        self.assertEqual(bytes(ground.cells()), bytes([2, 255, 255, 2, 0, 255, 255, 0, 0, 0, 0, 0, 0, 255, 255, 0, 0, 255, 255, 0, 0, 0, 0, 7]))
        self.assertEqual([(solid.name, solid.code) for solid in ground.solids], [("a", 2), ("b", 255), ("a", 7)])
        self.assertEqual([ground.standing_at(cell) for cell in ((0, 0, 0), (1, 0, 0), (3, 2, 1), (3, 2, 0))], [*ground.solids, None])
        self.assertEqual([spot.cell for spot in [*ground.cameras.values(), *ground.balls.values()]], [(-32768, 0, 32767), (1, 1, 1), (0, 0, 0)])
        self.assertEqual([pair.title for pair in ground.pairs()], ["c to c", "d to c", "d to c, rule 2", "c to d, rule 2"])
        self.assertEqual([ground.side(face) for face in ("+x", "-x", "+y", "-z")], ["west", "east", "low-y", "high-z"])

    def test_every_small_box(self):
        counts = (3, 4, 2)
        spans = [[(low, high) for high in range(many) for low in range(high + 1)] for many in counts]
        for box in itertools.product(*spans):
            text = "grid 3 4 2\nsolid a 9 %s\n" % " ".join("%d-%d" % both for both in box)
            wanted = bytes(9 if all(low <= at <= high for at, (low, high) in zip(cell, box)) else 0 for cell in every(*counts))
            self.assertEqual(descriptions.parsed(text.encode(), "text").cells(), wanted)

    def test_a_large_one_by_a_sample(self):
        r, counts, boxes = random.Random(5), (400, 300, 40), []
        for _ in range(600):
            low = [r.randrange(many) for many in counts]
            boxes.append((r.randint(2, 255), low, [min(many - 1, at + r.choice([0, 0, 1, 5, 40, many])) for at, many in zip(low, counts)]))
        lines = ["solid box%d %d %s\n" % (k, code, " ".join(map("%d-%d".__mod__, zip(low, high)))) for k, (code, low, high) in enumerate(boxes)]
        ground = descriptions.parsed("".join(["grid 400 300 40\n"] + lines).encode(), "text")
        began = time.monotonic()
        cells = ground.cells()
        self.assertLess(time.monotonic() - began, 10)
        for _ in range(2000):
            x, y, z = cell = [r.randrange(many) for many in counts]
            code, name = 0, None
            for k, (its, low, high) in enumerate(boxes):
                if all(low[a] <= cell[a] <= high[a] for a in range(3)):
                    code, name = its, "box%d" % k
            self.assertEqual(cells[x + 400 * (y + 300 * z)], code)
            self.assertEqual(getattr(ground.standing_at(cell), "name", None), name)

    def test_words_without_the_library(self):
        words = [sys.executable, str(ROOT / "demo/words"), "--names", str(ROOT / "demo/ground.txt")]
        done = subprocess.run(words, env=dict(os.environ, OATMARTEN_LIBRARY="/nowhere", PYTHONPATH=""), stdout=subprocess.PIPE, check=True)
        self.assertEqual(done.stdout.count(b"\n"), 18)

    @needs_library
    def test_the_demo(self):
        for name, bare in (("marked", False), ("bare", True)):
            made = making.make(str(ROOT / "demo/ground.txt"), bare=bare, pairs=True)
            self.assertEqual(made.record, (ROOT / ("demo/%s.records" % name)).read_bytes())
            self.assertEqual(made[:2] + made[3:], ("description", (40, 24, 10), 18, []))
            alone = making.make(str(ROOT / "demo/ground.txt"), bare=bare).record
            self.assertEqual(alone, made.record[:11 + 40 * 24 * 10])

    @needs_library
    def test_pair_records(self):
        made = self.make("grid 1 1 1\ncamera c -32768 -1 0\nball b 1 32767 300\nboth_ways c b\n", pairs=True)
        self.assertEqual(made.pairs, 3)
        self.assertEqual(made.record[12:].hex(), "0000000d01" "8000ffff0000" "00017fff012c" "0000000e02" "8000ffff0000" "00017fff012c" "02"
                         "0000000e02" "00017fff012c" "8000ffff0000" "02")
        self.assertEqual(self.make("grid 1 1 1\ncamera c 0 0 0\n", pairs=True).pairs, 0)

    @needs_library
    @unittest.skipIf(sys.version_info < (3, 9), "the independent program needs Python 3.9")
    def test_marks_by_the_independent_program(self):
        independent, r = load(str(ROOT / "tests/independent")), random.Random(7)
        for _ in range(60):
            counts = [r.choice([1, 2, 3, r.randint(1, 9)]) for _ in range(3)]
            text = "grid %d %d %d\n" % tuple(counts)
            for k in range(r.choice([0, 1, 2, 5])):
                low = [r.randrange(many) for many in counts]
                box = ["%d-%d" % (at, r.randint(at, min(many - 1, at + 2))) for at, many in zip(low, counts)]
                text += "solid s%d %d %s\n" % (k, r.randint(2, 255), " ".join(box))
            bare, marked = self.make(text, bare=True).record[11:], self.make(text).record[11:]
            call = "mark %s %d %s 1" % (" ".join(map(str, counts)), len(bare), " ".join(map(str, bare)))
            self.assertEqual("ok ; " + " ".join(map(str, marked)), independent.answer(call))


# ---- .npy

def npy(shape, cells, kind="|u1", fortran=False, version=(1, 0), head=None):
    """A .npy file as numpy.save writes it."""
    text = (head or "{'descr': %r, 'fortran_order': %s, 'shape': %s, }" % (kind, fortran, shape)).encode("latin-1")
    width = "<H" if version == (1, 0) else "<I"
    text += b" " * (-(8 + struct.calcsize(width) + len(text) + 1) % 64) + b"\n"
    return b"\x93NUMPY" + bytes(version) + struct.pack(width, len(text)) + text + cells


HEAD = "SOURCE has a head that is none of a .npy file with an array of bytes"
SHAPE = "SOURCE has the shape %s, and a venue has three numbers, (nz, ny, nx): a[z, y, x]"
TYPE = "SOURCE has numbers of the type %s, and cells are bytes: save a.astype(numpy.uint8), where all are 0 to 255, or a != 0"
BOTH = "SOURCE has cells of 1, which become %d, and cells of %d too: name another code, so that two materials do not become one"
CODE = "SOURCE: the code that 1 becomes is a number from 2 to 255, and %d was given"
COUNT = "SOURCE: refused 2: a count outside 1 to 1024, %s"


class Npy(Made):
    @needs_library
    def test_orders_kinds_and_versions(self):
        (nx, ny, nz), r = (5, 3, 2), random.Random(3)
        for kind, values in (("|u1", [0, 3, 9, 255]), ("|b1", [0])):
            at = {cell: r.choice(values) for cell in every(nx, ny, nz)}
            wanted = bytes(at[cell] for cell in every(nx, ny, nz))
            backwards = bytes(at[x, y, z] for x in range(nx) for y in range(ny) for z in range(nz))
            for version in ((1, 0), (2, 0), (3, 0)):
                for given in (npy((nz, ny, nx), wanted, kind, False, version), npy((nz, ny, nx), backwards, kind, True, version)):
                    self.assertEqual(self.cells(given), ((nx, ny, nz), wanted))
                    self.assertEqual(self.cells(given, kind="npy"), ((nx, ny, nz), wanted))
        marked = self.make(npy((1, 1, 4), bytes([0, 9, 0, 0])))
        self.assertEqual((marked.kind, bytes(marked.record[11:]), marked.notes), ("npy", bytes([1, 9, 1, 0]), []))

    @needs_library
    def test_what_bytes_become(self):
        whole = bytes(range(256))
        without = bytes([0]) + bytes(range(1, 256)).replace(b"\x02", b"").replace(b"\x07", b"") + bytes(2)
        for fortran, given in ((False, npy((1, 1, 256), whole)), (True, npy((1, 1, 256), whole, fortran=True))):
            self.wrong(given, BOTH % (2, 2))
            self.wrong(given, BOTH % (255, 255), code=255)
            for code in (None, 2, 7):
                made = self.make(npy((1, 1, 256), without, fortran=fortran), bare=True, code=code)
                self.assertEqual(made.record[11:], without.replace(b"\x01", bytes([code or 2])))
                self.assertEqual(made.notes, ["its cells of 1 are written as %d, since 1 means near" % (code or 2)])
            self.assertEqual(self.cells(npy((1, 1, 4), b"\0\1\1\0", "|b1", fortran), code=9), ((4, 1, 1), b"\0\x09\x09\0"))
        self.assertEqual(self.cells(npy((1, 1, 4), b"\0\2\3\0"), code=2), ((4, 1, 1), b"\0\2\3\0"))
        for code in (0, 1, 256, -1):
            self.wrong(npy((1, 1, 4), b"\0\2\3\0"), CODE % code, code=code)

    @needs_library
    def test_wrong_counts(self):
        for shape, axis in (((0, 1, 1), "z"), ((1, 0, 1), "y"), ((1, 1, 0), "x"), ((1025, 1, 1), "z"), ((1, 1025, 1), "y"), ((1, 1, 1025), "x"),
                            ((0, 2**64, 10**30), "x"), ((2**32 + 1, 1, 1), "z"), ((2**40, 2**40, 1), "y")):
            many = shape[0] * shape[1] * shape[2]
            for fortran in (False, True):
                self.wrong(npy(shape, bytes(many if many < 2000 else 5), fortran=fortran), COUNT % axis)

    @needs_library
    def test_wrong_lengths(self):
        for fortran in (False, True):
            good = npy((2, 3, 4), bytes(24), fortran=fortran)
            for given, has in ((good[:-1], 23), (good + b"\0", 25), (good[:-24], 0)):
                self.wrong(given, "SOURCE has %d bytes behind its head, and the shape (2, 3, 4) has 24" % has)
        tracemalloc.start()
        self.wrong(npy((1024, 1024, 1024), bytes(7)), "SOURCE has 7 bytes behind its head, and the shape (1024, 1024, 1024) has %d" % 2**30)
        self.assertLess(tracemalloc.get_traced_memory()[1], 1 << 22)
        tracemalloc.stop()
        self.wrong(npy((1, 1, 3), b"\0\1\7", "|b1"), "SOURCE has truth values, and among them a byte 7")

    def test_wrong_heads(self):
        good = npy((2, 3, 4), bytes(24))
        for cut in (8, 9, 10, 50, 127):
            self.wrong(good[:cut], "SOURCE is cut short: it ends within its head")
        for given in (good[:6], good[:7], good[:6] + b"\4\0" + good[8:], good[:6] + b"\1\1" + good[8:]):
            self.wrong(given, "SOURCE is no .npy file of version 1.0, 2.0 or 3.0")
        self.wrong(GRID, "SOURCE is no .npy file of version 1.0, 2.0 or 3.0", kind="npy")
        self.wrong(b"\x93NUMPY\2\0\xff\xff\xff\xff" + good[10:], "SOURCE is cut short: it ends within its head")
        most = "{'descr': '|u1', 'fortran_order': False, "
        for head in ("{", "[]", "7", "\0", most + "}", most + "'shape': (2, 3, 4), 'more': 1}", most + "'shape': (2, 3, 4)} + 1",
                     most + "'shape': f()}", "__import__('os').abort()", "(" * 3000, "-" * 3000 + "1", " " * 5000 + "{}", "{[]: 1}", "\xff", ""):
            self.wrong(npy(None, bytes(24), head=head or "\n"), HEAD)
        self.wrong(npy(None, bytes(24), head="\xff", version=(3, 0)), HEAD)
        for shape in ("(3, 4)", "(24,)", "24", "(1, 2, 3, 4)", "()", "[2, 3, 4]", "(2, 3, 4.0)", "(2, 3, True)", "(-2, 3, -4)", "('2', 3, 4)",
                      "None"):
            self.wrong(npy(shape, bytes(24)), SHAPE % shape)
        self.wrong(npy((2, 3, 4), bytes(24), fortran=1), HEAD)
        for kind in ("<f8", "<i8", "|i1", "<u2", "|S1", "|O", "u1", "<u1"):
            self.wrong(npy((2, 3, 4), bytes(24), kind), TYPE % repr(kind))
        self.wrong(npy((2, 3, 4), bytes(24), [("x", "|u1")]), TYPE % "[('x', '|u1')]")
        self.wrong(npy((2, 3, 4), bytes(24), 1), TYPE % "1")


# ---- binvox

def binvox(depth, height, width, solid, most=255):
    """A binvox file of the voxels (x, y, z) that are solid, x below depth, z below height, y below width, as the format orders them."""
    order = [int((x, y, z) in solid) for x in range(depth) for z in range(height) for y in range(width)]
    runs = b""
    for value, alike in itertools.groupby(order):
        many = len(list(alike))
        runs += bytes([value, most]) * (many // most) + (bytes([value, many % most]) if many % most else b"")
    return dims(depth, height, width, runs)


def dims(depth, height, width, runs):
    return b"#binvox 1\ndim %d %d %d\ntranslate -0.5 0 1e3\nscale 3.25\ndata\n" % (depth, height, width) + runs


NOTES = ["'translate -0.5 0 1e3' is not used", "'scale 3.25' is not used"]
BEGINS = "a binvox file begins with the line '#binvox 1'"
LINE = "SOURCE, line %d: '%s' is not known here; a binvox head has one line 'dim', may have 'translate' and 'scale', and ends with 'data'"


class Binvox(Made):
    @needs_library
    def test_order_and_up(self):
        r = random.Random(11)
        for depth, height, width, most in ((5, 2, 3, 255), (3, 4, 5, 1), (1, 1, 9, 2), (7, 1, 1, 3), (1, 6, 1, 255), (20, 30, 40, 255)):
            voxels = {(x, y, z) for x in range(depth) for y in range(width) for z in range(height) if r.random() < 0.3}
            given = binvox(depth, height, width, voxels, most)
            wanted = bytes(2 if cell in voxels else 0 for cell in every(depth, width, height))
            self.assertEqual(self.cells(given), ((depth, width, height), wanted))
            self.assertEqual(self.cells(given, up="z", kind="binvox"), ((depth, width, height), wanted))
            turned = bytes(2 if (x, z, height - 1 - y) in voxels else 0 for x, y, z in every(depth, height, width))
            self.assertEqual(self.cells(given, up="y"), ((depth, height, width), turned))
            self.assertEqual(self.cells(given, code=77)[1], wanted.replace(b"\2", b"\x4d"))

    @needs_library
    def test_turned_and_not_mirrored(self):
        """x, then y, then z of the file, seen from a corner, go the same way round before and behind."""
        given = binvox(3, 3, 3, {(0, 0, 0), (2, 0, 0), (0, 1, 0)})
        counts, cells = self.cells(given, up="y")
        self.assertEqual([cell for cell, byte in zip(every(*counts), cells) if byte], [(0, 2, 0), (2, 2, 0), (0, 2, 1)])

    @needs_library
    def test_marks_and_notes(self):
        made = self.make(binvox(4, 1, 1, {(1, 0, 0)}), code=9)
        self.assertEqual((made.kind, bytes(made.record[11:])), ("binvox", bytes([1, 9, 1, 0])))
        self.assertEqual(made.notes, [*NOTES, "its cells of 1 are written as 9, since 1 means near"])
        self.assertEqual(self.make(b"#binvox 1\r\ndim 1 1 1\r\ndata\r\n\0\1").notes, [])
        self.assertEqual(self.make("#binvox comes first here\ngrid 1 1 1", kind="description").kind, "description")

    @needs_library
    def test_wrong_runs(self):
        good = b"\0\5\1\7\0\x0c"
        self.assertEqual(self.cells(dims(2, 3, 4, good))[0], (2, 4, 3))
        for runs, said in ((good[:-1], "is cut short: it ends within a run"), (good[:-2], "has 12 voxels in its runs, and its dim says 24"),
                           (b"", "has 0 voxels in its runs, and its dim says 24"), (good + b"\0\1", "has 25 voxels in its runs, and its dim says 24"),
                           (good + b"\n", "has a run of the value 10, and a voxel is 0 or 1"), (good + b"\0", "is cut short: it ends within a run"),
                           (b"\7\5" + good[2:], "has a run of the value 7, and a voxel is 0 or 1"),
                           (b"\0\0" + good, "has a run of no voxels, and a run has 1 to 255")):
            for up in ("y", "z"):
                self.wrong(dims(2, 3, 4, runs), "SOURCE " + said, up=up)
        tracemalloc.start()
        self.wrong(dims(1024, 1024, 1024, good), "SOURCE has 24 voxels in its runs, and its dim says %d" % 2**30)
        self.wrong(dims(10**9, 10**9, 10**9, b"\0\xff" * 100000), COUNT % "x")
        self.assertLess(tracemalloc.get_traced_memory()[1], 1 << 22)
        tracemalloc.stop()

    @needs_library
    def test_wrong_counts(self):
        for three, axis, turned in (((0, 1, 1), "x", "x"), ((1, 0, 1), "z", "y"), ((1, 1, 0), "y", "z"), ((1025, 1, 1), "x", "x"),
                                    ((1, 1025, 1), "z", "y"), ((1, 1, 1025), "y", "z"), ((2**33, 1, 1), "x", "x")):
            self.wrong(dims(*three, b"\0\xff" * 4 + b"\0\5"), COUNT % axis)
            self.wrong(dims(*three, b"\0\xff" * 4 + b"\0\5"), COUNT % turned, up="y")

    def test_wrong_heads(self):
        dim = "SOURCE, line %d: dim has three whole numbers, along x, z and y"
        first = "SOURCE, line 1: " + BEGINS
        for head in ("#binvox 2\n", "#binvox\n", "#binvox 1 2\n", "#binvox1\n", "#binvox", "#binvox 1"):
            self.wrong(head, first)
        self.wrong(GRID, first, kind="binvox")
        for words in ("2 3", "2 3 4 5", "2 3 four", "2 3 -4", "2 3 4.0", "2 3 " + "9" * 30, ""):
            self.wrong("#binvox 1\nscale 1\ndim %s\ndata\n" % words, dim % 3)
        self.wrong("#binvox 1\ndim 1 1 1\ndim 1 1 1\ndata\n", LINE % (3, "dim 1 1 1"))
        self.wrong("#binvox 1\ndata\n", LINE % (2, "data"))
        self.wrong("#binvox 1\ndim 1 1 1\n\ndata\n", LINE % (3, ""))
        self.wrong("#binvox 1\ndim 1 1 1\nrotate 7\ndata\n", LINE % (3, "rotate 7"))
        for more in ("", "dim 1 1 1\n", "dim 1 1 1\ndata", "scale 1\n" * 50, "scale " * 500 + "\n"):
            self.wrong("#binvox 1\n" + more, "SOURCE has a head that does not end: there is no line 'data'")
        self.wrong(dims(1, 1, 1, b"\0\1"), "SOURCE: up is y or z, and 'x' was given", up="x")
        self.wrong(dims(1, 1, 1, b"\0\1"), CODE % 1, code=1)


class Asked(Made):
    def test_what_a_kind_does_not_have(self):
        array, voxels = npy((1, 1, 1), b"\0"), dims(1, 1, 1, b"\0\1")
        self.wrong(array, "SOURCE is taken for a .npy file, and pairs are told by a description alone", pairs=True)
        self.wrong(voxels, "SOURCE is taken for a binvox file, and pairs are told by a description alone", pairs=True)
        self.wrong(GRID, "SOURCE is taken for a description, and it says the code of each solid itself", code=3)
        self.wrong(GRID, "SOURCE is taken for a description, and an axis that points upwards is asked of binvox files alone", up="z")
        self.wrong(array, "SOURCE is taken for a .npy file, and an axis that points upwards is asked of binvox files alone", up="y")
        self.wrong(GRID, "a source is of the kind description or npy or binvox, and 'obj' was given", kind="obj")

    @needs_library
    def test_standard_input(self):
        held = sys.stdin
        try:
            sys.stdin = io.TextIOWrapper(io.BytesIO(GRID.encode()))
            self.assertEqual(making.make("-").record, self.make(GRID).record)
            for given, said in ((GRID + "wall", "line 2: " + WORDS % "wall"), ("#binvox 2\n", "line 1: " + BEGINS)):
                sys.stdin = io.TextIOWrapper(io.BytesIO(given.encode()))
                with self.assertRaises(Wrong) as caught:
                    making.make("-")
                self.assertEqual(str(caught.exception), "standard input, " + said)
        finally:
            sys.stdin = held

    def test_kinds(self):
        self.assertEqual([making.kind_of(data) for data in (b"", b"grid 1 1 1", b"\x93NUMPY\1\0", b"#binvox 1\n", b"# binvox", b"\x93NUMP")],
                         ["description", "description", "npy", "binvox", "description", "description"])
        self.assertEqual(importers.NPY + importers.BINVOX, b"\x93NUMPY#binvox")


if __name__ == "__main__":
    unittest.main()
