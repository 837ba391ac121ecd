"""What is looked at of a whole venue: how many cells of each kind there are, which marks are missing, and whether both walks agree on many lines."""
from __future__ import annotations

import array
import random
import time
from typing import Any, Callable, Dict, Iterator, List, NamedTuple, Optional, Tuple

from .header import OAT_CLEAR, OAT_NEAR, oat_adaptive, oat_cell, oat_manner, oat_mark, oat_plain
from .memory import Lent
from .telling import same_hit
from .venues import copied

# bytes that are looked at in one go
_PIECE = 1 << 24
Cell = Tuple[int, int, int]
# what is told on the way: the share that is done
Progress = Callable[[float], None]


def _silent(share: float) -> None:
    pass


def kinds(cells: memoryview, progress: Progress = _silent) -> Dict[int, int]:
    """How many cells have each byte, smallest byte first."""
    found: Dict[int, int] = {}
    for at in range(0, len(cells), _PIECE):
        progress(at / len(cells))
        piece = bytes(cells[at:at + _PIECE])
        new = piece.translate(None, bytes(found))
        while new:
            found[new[0]] = 0
            new = new.translate(None, new[:1])
        for byte in found:
            found[byte] += piece.count(byte)
    return dict(sorted(found.items()))


def near_cells(cells: memoryview) -> int:
    """How many cells are near."""
    return sum(bytes(cells[at:at + _PIECE]).count(OAT_NEAR) for at in range(0, len(cells), _PIECE))


def cell_at(counts: Cell, index: int) -> Cell:
    """The cell of a byte: x runs fastest, then y, then z."""
    nx, ny, _ = counts
    return index % nx, index // nx % ny, index // (nx * ny)


class Marks(NamedTuple):
    """What marking would change: clear cells that touch a solid one, the first of them, and near cells that touch none."""

    missing: int
    first: Optional[Cell]
    needless: int


def _where(byte: int) -> bytes:
    """A table that turns one byte to 1 and all others to 0."""
    return bytes(int(b == byte) for b in range(256))


def _both(one: bytes, other: bytes) -> bytes:
    """1 where both have 1."""
    return (int.from_bytes(one, "little") & int.from_bytes(other, "little")).to_bytes(len(one), "little")


def marks(counts: Cell, cells: memoryview, progress: Progress = _silent) -> Marks:
    """Marks a copy, and compares the bytes."""
    clear, near = _where(OAT_CLEAR), _where(OAT_NEAR)
    missing, first, needless = 0, None, 0
    with copied(cells) as copy:
        oat_mark(counts, memoryview(copy)[:len(cells)])
        for at in range(0, len(cells), _PIECE):
            progress(at / len(cells))
            had, has = bytes(cells[at:at + _PIECE]), copy[at:min(at + _PIECE, len(cells))]
            if had == has:
                continue
            gone = _both(had.translate(clear), has.translate(near))
            if first is None and b"\1" in gone:
                first = cell_at(counts, at + gone.index(b"\1"))
            missing += gone.count(b"\1")
            needless += _both(had.translate(near), has.translate(clear)).count(b"\1")
    return Marks(missing, first, needless)


# ---- both walks on many lines

Line = Tuple[Cell, Cell]


def _anywhere(chance: random.Random, counts: Cell) -> Cell:
    return chance.randrange(counts[0]), chance.randrange(counts[1]), chance.randrange(counts[2])


def _camera_and_ball(chance: random.Random, counts: Cell) -> Line:
    """A camera in the upper half at one of the four sides, and a ball in the lowest quarter of the middle."""
    nx, ny, nz = counts
    x, y, _ = _anywhere(chance, counts)
    x, y = chance.choice(((0, y), (nx - 1, y), (x, 0), (x, ny - 1)))
    ball = tuple(chance.randrange(n // 4, max(n // 4 + 1, n - n // 4)) for n in (nx, ny))
    return (x, y, chance.randrange(nz // 2, nz)), (ball[0], ball[1], chance.randrange(max(1, nz // 4)))


def lines(counts: Cell, many: int, seed: int) -> Iterator[Line]:
    """Lines by turns: between random cells, and from a camera at a side to a ball in the middle. The same seed gives the same lines."""
    chance = random.Random("%d" % seed)
    for k in range(many):
        yield _camera_and_ball(chance, counts) if k % 2 else (_anywhere(chance, counts), _anywhere(chance, counts))


class Compared:
    """What both walks said of many lines."""

    def __init__(self) -> None:
        self.lines = self.agreed = self.blocked = self.plain_reads = self.adaptive_reads = 0
        self.first: Optional[Tuple[Line, Any, Any]] = None
        self.seconds = 0.0

    @property
    def differing(self) -> int:
        return self.lines - self.agreed

    def take(self, line: Line, plain: Any, adaptive: Any) -> None:
        self.lines += 1
        self.blocked += plain.hit
        self.plain_reads += plain.reads
        self.adaptive_reads += adaptive.reads
        if same_hit(plain, adaptive):
            self.agreed += 1
        elif self.first is None:
            self.first = line, plain, adaptive


def compare(counts: Cell, cells: Lent, many: int, seed: int, how: Any, progress: Progress = _silent) -> Compared:
    """Both walks, over the same lines."""
    said, began, manner = Compared(), time.perf_counter(), oat_manner(*how)
    for k, line in enumerate(lines(counts, many, seed)):
        p, q = oat_cell(*line[0]), oat_cell(*line[1])
        said.take(line, oat_plain(counts, cells, p, q, manner), oat_adaptive(counts, cells, p, q, manner))
        if k % 1024 == 0:
            progress(k / many)
    said.seconds = time.perf_counter() - began
    return said


def listed(call: Callable[..., Any], room: int, *given: Any, **named: Any) -> List[Cell]:
    """The cells that a call lists, in memory for so many numbers."""
    out = array.array("i", bytes(4 * room))
    count = call(*given, out=out, **named).count
    return list(zip(out[0:3 * count:3], out[1:3 * count:3], out[2:3 * count:3]))
