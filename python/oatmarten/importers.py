"""Voxels of other tools, as a venue's counts and cells: numpy's .npy, and binvox.

What their bytes become, the one rule for both: 0 stays 0, clear. 1 becomes a code, 2 where none is named, since the byte 1 means near in a venue.
2 to 255 stay what they are, a code each. Where a file has 1s and also cells of the code that they would get, it is an error, so that two materials do
not become one: name another code. (Near marks are no material: where the 1s of an array are marks, save it with 0 in their place.)

What is wrong with a file is told in one sentence. No memory is taken for cells before the counts are accepted and the file is as long as they say."""
from __future__ import annotations

import ast
import sys
from typing import Any, List, NamedTuple, Optional, Tuple, Union

from .header import OAT_SOLID_LEAST, oat_cell_of
from .inputs import Wrong, shown, whole

NPY, BINVOX = b"\x93NUMPY", b"#binvox"
Counts = Tuple[int, int, int]


class Imported(NamedTuple):
    """The counts (nx, ny, nz), the cells, x fastest, then y, then z, and notes: what of the file was changed or not used."""

    counts: Counts
    cells: Union[bytes, bytearray, memoryview]
    notes: List[str]


def _accepted(counts: Counts) -> None:
    """Asks the library whether a grid can have these counts, by a point in its first cell: Refused where it cannot."""
    oat_cell_of([min(count, 2**32 - 1) for count in counts], (0, 0, 0, 1), (0, 0, 0))


def _coded(code: Optional[int], name: str) -> int:
    """What 1 becomes."""
    if code is None:
        return int(OAT_SOLID_LEAST)
    if not OAT_SOLID_LEAST <= code <= 255:
        raise Wrong("%s: the code that 1 becomes is a number from %d to 255, and %d was given" % (name, OAT_SOLID_LEAST, code))
    return code


def _table(code: int) -> bytes:
    """The rule for bytes.translate."""
    return bytes([0, code, *range(2, 256)])


def _said(code: int) -> str:
    return "its cells of 1 are written as %d, since 1 means near" % code


def _turned(layer: bytes, rows: range) -> bytes:
    """A layer with x fastest, of one with x slowest; its rows in this order."""
    return b"".join([layer[row::len(rows)] for row in rows])


# ---- .npy

# what comes behind the name: the format's version, and the length of the head, in two or in four bytes
_WIDTH = {b"\1\0": 2, b"\2\0": 4, b"\3\0": 4}
# a head of three numbers has 118 bytes; numpy itself reads up to 10,000
_HEAD_MOST = 4096


def _npy_head(data: bytes, name: str) -> Tuple[Any, Any, Any, int]:
    """The head's three things, and where the cells start."""
    version = data[6:8]
    if data[:6] != NPY or version not in _WIDTH:
        raise Wrong("%s is no .npy file of version 1.0, 2.0 or 3.0" % name)
    start = 8 + _WIDTH[version]
    length = int.from_bytes(data[8:start], "little")
    if len(data) < start + length:
        raise Wrong("%s is cut short: it ends within its head" % name)
    try:
        if length > _HEAD_MOST:
            raise ValueError
        head = ast.literal_eval(data[start:start + length].decode("utf-8" if version == b"\3\0" else "latin-1"))
        told = head.pop("descr"), head.pop("fortran_order"), head.pop("shape"), start + length
        if head or type(told[1]) is not bool:
            raise ValueError
        return told
    except (ValueError, TypeError, SyntaxError, KeyError, AttributeError, MemoryError, RecursionError):
        raise Wrong("%s has a head that is none of a .npy file with an array of bytes" % name) from None


def npy(data: bytes, name: str, code: Optional[int] = None) -> Imported:
    """The array of a .npy file, version 1.0, 2.0 or 3.0: a[z, y, x], so of shape (nz, ny, nx), in C or in Fortran order; bytes ('|u1') or truth
    values ('|b1')."""
    code = _coded(code, name)
    kind, fortran, shape, start = _npy_head(data, name)
    if kind not in ("|u1", "|b1"):
        raise Wrong("%s has numbers of the type %s, and cells are bytes: save a.astype(numpy.uint8), where all are 0 to 255, or a != 0"
                    % (name, shown(repr(kind))))
    if not isinstance(shape, tuple) or len(shape) != 3 or any(type(count) is not int or count < 0 for count in shape):
        raise Wrong("%s has the shape %s, and a venue has three numbers, (nz, ny, nx): a[z, y, x]" % (name, shown(repr(shape))))
    nz, ny, nx = shape
    counts = (nx, ny, nz)
    _accepted(counts)
    if len(data) - start != nx * ny * nz:
        raise Wrong("%s has %d bytes behind its head, and the shape (%d, %d, %d) has %d" % (name, len(data) - start, nz, ny, nx, nx * ny * nz))
    if kind == "|b1":
        other = data[start:].translate(None, b"\0\1")
        if other:
            raise Wrong("%s has truth values, and among them a byte %d" % (name, other[0]))
    cells: Union[bytes, memoryview] = memoryview(data)[start:]
    notes = []
    if data.find(1, start) >= 0:
        if data.find(code, start) >= 0:
            raise Wrong("%s has cells of 1, which become %d, and cells of %d too: name another code, so that two materials do not become one"
                        % (name, code, code))
        cells = data[start:].translate(_table(code))
        notes.append(_said(code))
    if fortran:
        # there z runs fastest, then y, then x
        flat = bytes(cells)
        cells = b"".join([_turned(flat[z::nz], range(ny)) for z in range(nz)])
    return Imported(counts, cells, notes)


# ---- binvox

def _binvox_head(data: bytes, name: str) -> Tuple[Counts, List[str], int]:
    """The three numbers of `dim`, the lines that are not used, and where the runs start."""
    first, ends, _ = data[:1000].partition(b"\n")
    if first.split() != [BINVOX, b"1"] or not ends:
        raise Wrong("%s, line 1: a binvox file begins with the line '#binvox 1'" % name)
    dim: Optional[Counts] = None
    unused: List[str] = []
    start = len(first) + 1
    for at in range(2, 20):
        end = data.find(b"\n", start, start + 1000)
        if end < 0:
            break
        words, start = data[start:end].decode("latin-1").split(), end + 1
        if words == ["data"] and dim is not None:
            return dim, unused, start
        if words[:1] == ["dim"] and dim is None:
            three = [count for count in map(whole, words[1:]) if count is not None and count >= 0]
            if len(words) != 4 or len(three) != 3:
                raise Wrong("%s, line %d: dim has three whole numbers, along x, z and y" % (name, at))
            dim = (three[0], three[1], three[2])
        elif words[:1] in (["translate"], ["scale"]):
            unused.append(shown(" ".join(words), 100))
        else:
            raise Wrong("%s, line %d: '%s' is not known here; a binvox head has one line 'dim', may have 'translate' and 'scale', and ends with "
                        "'data'" % (name, at, shown(" ".join(words))))
    raise Wrong("%s has a head that does not end: there is no line 'data'" % name)


# a run by its two bytes, value and length, read as one number
_RUNS = {int.from_bytes(bytes((value, length)), sys.byteorder): bytes([value]) * length for value in (0, 1) for length in range(1, 256)}
_PIECE = 1 << 20


def _expanded(runs: bytes, many: int, name: str) -> bytes:
    """The voxels of the runs, which have to be so many."""
    values, lengths = runs[::2], runs[1::2]
    other = values.translate(None, b"\0\1")
    if other:
        raise Wrong("%s has a run of the value %d, and a voxel is 0 or 1" % (name, other[0]))
    if len(values) != len(lengths):
        raise Wrong("%s is cut short: it ends within a run" % name)
    if 0 in lengths:
        raise Wrong("%s has a run of no voxels, and a run has 1 to 255" % name)
    if sum(lengths) != many:
        raise Wrong("%s has %d voxels in its runs, and its dim says %d" % (name, sum(lengths), many))
    pairs = memoryview(runs).cast("H")
    return b"".join([b"".join(map(_RUNS.__getitem__, pairs[at:at + _PIECE])) for at in range(0, len(pairs), _PIECE)])


def binvox(data: bytes, name: str, code: Optional[int] = None, up: str = "z") -> Imported:
    """The voxels of a binvox file, version 1. Its line is `dim depth height width`, and voxel (x, y, z), with x below depth, z below height and y
    below width, is number (x * height + z) * width + y: y runs fastest, then z, then x. They come as runs, two bytes each: a value, 0 or 1, and how
    often it comes, 1 to 255.

    up="z" takes the axes by their names: nx is depth, ny width, nz height. Many binvox models stand with y upwards: up="y" turns them about the x
    axis, so that their y is the venue's z and nothing is mirrored. Cell (x, y, z) is then the voxel (x, z, height - 1 - y): ny is height, nz width.

    `translate` and `scale` are told in the notes, and are not used: where a grid lies is said to the calls that ask."""
    code = _coded(code, name)
    if up not in ("y", "z"):
        raise Wrong("%s: up is y or z, and '%s' was given" % (name, shown(up)))
    (depth, height, width), unused, start = _binvox_head(data, name)
    counts = (depth, width, height) if up == "z" else (depth, height, width)
    _accepted(counts)
    flat = _expanded(data[start:], depth * height * width, name)
    notes = ["'%s' is not used" % line for line in unused]
    if 1 in flat:
        flat = flat.translate(_table(code))
        notes.append(_said(code))
    if up == "z":
        layers = (b"".join([flat[at:at + width] for at in range(z * width, len(flat), height * width)]) for z in range(height))
        return Imported(counts, b"".join([_turned(layer, range(width)) for layer in layers]), notes)
    return Imported(counts, b"".join([_turned(flat[y::width], range(height)[::-1]) for y in range(width)]), notes)
