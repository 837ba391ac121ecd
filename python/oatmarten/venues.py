"""Venues: a record where it lies, in a file by memory map or in memory. The bytes of the cells lie x fastest, then y, then z: as an array they are
a[z, y, x] in C order, of shape (nz, ny, nx)."""
from __future__ import annotations

import contextlib
import mmap
import os
import stat
from typing import Any, BinaryIO, Iterator, Tuple

from .files import read_most, standard_input
from .header import OAT_VENUE_HEAD, oat_counts, oat_read_venue, oat_write_venue
from .memory import Buffer, Lent, lent


class Venue:
    """A venue's record that was read: `counts` (nx, ny, nz), `cells`, a memoryview of its bytes where they lie, and `rest`, how many bytes follow the
    record. `held` is the cells for calls, held until the venue is closed:

        with Venue.open("ground.venue") as venue:
            hit = oat_plain(venue.counts, venue.held, (20, 12, 7), (36, 8, 0))

    With numpy, numpy.frombuffer(venue.cells, numpy.uint8).reshape(nz, ny, nx) is the same bytes as a[z, y, x]."""

    def __init__(self, record: Buffer, writable: bool = False, owner: Any = None) -> None:
        self._owner = owner
        self._record = memoryview(record).cast("B")
        read = oat_read_venue(self._record)
        self.counts: Tuple[int, int, int] = (read.nx, read.ny, read.nz)
        self.n = oat_counts(*self.counts)
        self.offset: int = read.offset
        self.cells = self._record[read.offset:read.offset + read.length]
        self.rest: int = len(self._record) - read.offset - read.length
        self.held = Lent(self.cells, writable)

    @classmethod
    def open(cls, path: str, writable: bool = False) -> "Venue":
        """A venue file by memory map, so that it takes no memory of its own: for reading, or (writable) so that what calls write is written to the
        file. `-` is standard input; that, and whatever cannot be mapped, is read into memory."""
        if path == "-":
            return cls(bytearray(read_most(standard_input())), True)
        with open(path, "r+b" if writable else "rb") as file:
            return cls.of(file, writable)

    @classmethod
    def of(cls, file: BinaryIO, writable: bool = False) -> "Venue":
        """The same of a file that is open already, which may be closed afterwards."""
        here = os.fstat(file.fileno())
        if not stat.S_ISREG(here.st_mode) or not here.st_size:
            return cls(bytearray(read_most(file)), True)
        mapped = mmap.mmap(file.fileno(), 0, access=mmap.ACCESS_WRITE if writable else mmap.ACCESS_READ)
        try:
            return cls(mapped, writable, mapped)
        except BaseException:
            _closed(mapped)
            raise

    def close(self) -> None:
        """Gives the memory back; a map that was written reaches its file. Where someone has a view of the cells still, such as a numpy array, the memory
        stays for it and goes with it."""
        self.held.release()
        try:
            self.cells.release()
            self._record.release()
        except BufferError:
            pass
        if self._owner is not None:
            _closed(self._owner)
            self._owner = None

    def __enter__(self) -> "Venue":
        return self

    def __exit__(self, *raised: object) -> None:
        self.close()


def _closed(mapped: mmap.mmap) -> None:
    """Closes a map; where someone holds a part of it still, it goes with that."""
    try:
        mapped.close()
    except BufferError:
        pass


def record_of(counts: Any, cells: Buffer) -> bytearray:
    """A venue's record, in memory of its own: the head and the cells."""
    with lent(cells, False, 1, "cells") as held:
        out = bytearray(OAT_VENUE_HEAD + held.bytes)
        oat_write_venue(counts, held, out)
    return out


@contextlib.contextmanager
def copied(cells: Buffer) -> Iterator[mmap.mmap]:
    """The same bytes in memory of their own, that may be written."""
    with Lent(cells) as held:
        copy = mmap.mmap(-1, max(1, held.bytes))
        copy[:held.bytes] = memoryview(cells).cast("B") if held.bytes else b""
    try:
        yield copy
    finally:
        _closed(copy)
