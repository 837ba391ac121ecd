"""What is asked: the made-up stadium of stadium.c in a grid, marked, with its segments; and not marked, with masks and a total, with cells to set and
boxes to refill."""
import ctypes
import math
import random

SEGMENTS = 2000
# cells to set, all over the grid and within a region that is so many cells wide; how wide boxes are, and how many there are; those within the region
ALL_OVER, REGION, IN_REGION, BOXES, BOXES_IN_REGION = 10_000, 16, 1000, {2: 500, 8: 100, 32: 8}, {2: 500, 8: 100}


def struct(name, *fields):
    """a struct of loops.c"""
    return type(name, (ctypes.Structure,), {"_fields_": fields})


Cell = struct("Cell", *[(axis, ctypes.c_int32) for axis in "xyz"])
Place = struct("Place", ("cell", Cell), ("byte", ctypes.c_uint32))
Box = struct("Box", ("low", Cell), ("high", Cell))
Held = struct("Held", ("cells", ctypes.c_void_p), ("masks", ctypes.c_void_p), ("total", ctypes.c_uint64))


class Venue:
    """a stadium in a grid, marked, with two sets of segments"""

    def __init__(self, tools, engine, counts, rng):
        self.counts, self.many, self.rng = counts, counts[0] * counts[1] * counts[2], rng
        self.name = " x ".join(map(str, counts))
        self.raw = (ctypes.c_uint8 * self.many)()
        tools.build_stadium(*map(ctypes.c_uint32, counts), self.raw)
        self.cells = self.copy()
        engine.ask("loop_mark", "mark", 1, *self.grid(self.cells))
        self.bytes = memoryview(self.cells).cast("B")
        self.segments = {"camera to ball": self.ends(self.camera, self.ball), "random ends": self.ends(self.anywhere, self.anywhere)}
        # one with cells to set, and one with boxes to refill, which are empty from the first turn on
        self.set_in, self.refill_in = Kept(self.raw, counts), Kept(self.raw, counts)
        for kept in (self.set_in, self.refill_in):
            engine.ask("loop_build", "build", 1, *kept.words())
        for boxes in self.refill_in.boxes.values():
            engine.ask("loop_refills", "refill", 1, *self.refill_in.words(boxes))

    def copy(self):
        return (ctypes.c_uint8 * self.many).from_buffer_copy(self.raw)

    def grid(self, cells):
        """the words of a grid, for a loop"""
        return *self.counts, ctypes.addressof(cells)

    def free(self, x, y, z):
        return self.bytes[x + self.counts[0] * (y + self.counts[1] * z)] < 2

    def at(self, u, v):
        return int((u + 1) / 2 * self.counts[0]), int((v + 1) / 2 * self.counts[1])

    def anywhere(self):
        return tuple(self.rng.randrange(n) for n in self.counts)

    def camera(self):
        """over the seats, a thirty-second of the grid's height above them where there is air"""
        while True:
            u, v = self.rng.uniform(-1, 1), self.rng.uniform(-1, 1)
            if 0.56 ** 2 < u * u + v * v < 0.94 ** 2:
                x, y = self.at(u, v)
                seat = next(z for z in range(self.counts[2]) if self.free(x, y, z))
                above = seat + max(1, self.counts[2] // 32)
                return x, y, above if self.free(x, y, above) else seat

    def ball(self):
        """over the pitch, mostly low"""
        while True:
            x, y = self.at(self.rng.uniform(-0.44, 0.44), self.rng.uniform(-0.28, 0.28))
            z = 1 + int(self.rng.random() ** 2 * self.counts[2] / 8)
            if self.free(x, y, z):
                return x, y, z

    def ends(self, p, q):
        return (Cell * (2 * SEGMENTS))(*[Cell(*end()) for _ in range(SEGMENTS) for end in (p, q)])

    def chunks(self, ends):
        """the words of each chunk of the segments, for a loop; so few that a chunk takes some tenths of a millisecond"""
        chunk = 32_000 // max(self.counts)
        return [(ctypes.addressof(ends) + 2 * start * ctypes.sizeof(Cell), min(chunk, SEGMENTS - start)) for start in range(0, SEGMENTS, chunk)]


class Kept:
    """a grid of these counts, of as many of the cells as it takes, with room for its masks and a total; cells to set, with their bytes, and boxes to
    refill"""

    def __init__(self, cells, counts):
        self.counts, many, rng = counts, math.prod(counts), random.Random(math.prod(counts))
        self.cells = (ctypes.c_uint8 * many).from_buffer_copy(cells)
        self.masks = (ctypes.c_uint64 * math.prod((n + 3) // 4 for n in counts))()
        self.held = Held(ctypes.addressof(self.cells), ctypes.addressof(self.masks), 0)
        # the region begins with a brick, and what is asked there is the same in every grid
        within, first, region = random.Random(REGION), [4 * rng.randrange((n - REGION) // 4 + 1) for n in counts], f"one {name_of(REGION)} region"
        self.places = {"cells all over the grid": self.places_at(ALL_OVER, lambda: [rng.randrange(n) for n in counts]),
                       f"cells of {region}": self.places_at(IN_REGION, lambda: [at + within.randrange(REGION) for at in first])}
        self.boxes = {f"boxes of {name_of(wide)}": self.boxes_at(many, lambda: [rng.randrange(n - wide + 1) for n in counts], wide)
                      for wide, many in BOXES.items()}
        self.boxes |= {f"boxes of {name_of(wide)} in {region}":
                       self.boxes_at(many, lambda: [at + within.randrange(REGION - wide + 1) for at in first], wide)
                       for wide, many in BOXES_IN_REGION.items()}

    def places_at(self, many, cell):
        bytes_of, (nx, ny, _) = memoryview(self.cells).cast("B"), self.counts
        cells = [cell() for _ in range(many)]
        return (Place * many)(*[Place(Cell(x, y, z), bytes_of[x + nx * (y + ny * z)]) for x, y, z in cells])

    def boxes_at(self, many, corner, wide):
        return (Box * many)(*[Box(Cell(*low), Cell(*[at + wide - 1 for at in low])) for low in (corner() for _ in range(many))])

    def words(self, asked=None):
        """the words of a loop: the grid, what is kept, and cells or boxes"""
        return *self.counts, ctypes.addressof(self.held), *([ctypes.addressof(asked), len(asked)] if asked else [])


def name_of(wide):
    return f"{wide} x {wide} x {wide}"
