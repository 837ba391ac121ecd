"""Venues made of what a user has: a description, or the voxels of another tool. Marks are the library's, and so is the record."""
from __future__ import annotations

import struct
from typing import List, NamedTuple, Optional, Tuple

from .descriptions import Pair, parsed
from .header import OAT_PAIR_BYTES, OAT_PAIR_BYTES_2, OAT_RULE_1, OAT_VENUE_HEAD, oat_mark, oat_read_pair
from .importers import BINVOX, NPY, Imported, binvox, npy
from .inputs import Wrong, named, shown, taken
from .library import Refused
from .memory import Buffer
from .venues import record_of

KINDS = ("description", "npy", "binvox")
WHAT = dict(zip(KINDS, ("a description", "a .npy file", "a binvox file")))


class Made(NamedTuple):
    """What was made: of which kind the source is, the counts, the venue's record with the pairs behind it, how many pairs, and notes: sentences on
    what of the source was changed or not used."""

    kind: str
    counts: Tuple[int, int, int]
    record: bytearray
    pairs: int
    notes: List[str]


def kind_of(data: bytes) -> str:
    """The kind of a source, by how it begins: a .npy or a binvox file, else a description."""
    return "npy" if data.startswith(NPY) else "binvox" if data.startswith(BINVOX) else "description"


def pair_record(pair: Pair) -> bytes:
    """A pair's record: of version 2, which ends with its rule; of version 1 where the pair says none. The library reads it back."""
    p, q = pair.start.cell, pair.end.cell
    if pair.rule is None:
        record = struct.pack(">IB6h", OAT_PAIR_BYTES - 4, 1, *p, *q)
    else:
        record = struct.pack(">IB6hB", OAT_PAIR_BYTES_2 - 4, 2, *p, *q, pair.rule)
    read = oat_read_pair(record)
    if (read.px, read.py, read.pz, read.qx, read.qy, read.qz, read.rule) != (*p, *q, OAT_RULE_1 if pair.rule is None else pair.rule):
        raise RuntimeError("the record of the pair %s was read back as another one" % pair.title)
    return record


def venue_record(counts: Tuple[int, int, int], cells: Buffer, bare: bool = False) -> bytearray:
    """A venue's record, marked in full by the library; with the cells as they are where it is to be bare."""
    record = record_of(counts, cells)
    if not bare:
        with memoryview(record) as whole, whole[OAT_VENUE_HEAD:] as inside:
            oat_mark(counts, inside)
    return record


def make(source: str, kind: Optional[str] = None, bare: bool = False, pairs: bool = False, code: Optional[int] = None,
         up: Optional[str] = None) -> Made:
    """The venue of a file, `-` being standard input. Its kind is told by how it begins where none is named ("description", "npy", "binvox").

    `bare` leaves the near marks out. `pairs`, of a description, puts records of pairs behind the venue's: each camera with each ball, of version 1;
    then those of both_ways, there and back by rule 2, of version 2. `code`, of .npy and binvox, is what cells of 1 become, 2 where none is named;
    `up`, of binvox, is the axis that points upwards in the file, "y" or "z", which it is where none is named.

    Raises Wrong, with one sentence, where anything is wrong. Nothing is written here."""
    name = named(source)
    if kind is not None and kind not in KINDS:
        raise Wrong("a source is of the kind %s, and '%s' was given" % (" or ".join(KINDS), shown(kind)))
    data = taken(source)
    kind = kind or kind_of(data)
    for given, kinds, why in ((pairs, KINDS[:1], "pairs are told by a description alone"),
                              (code is not None, KINDS[1:], "it says the code of each solid itself"),
                              (up is not None, KINDS[2:], "an axis that points upwards is asked of binvox files alone")):
        if given and kind not in kinds:
            raise Wrong("%s is taken for %s, and %s" % (name, WHAT[kind], why))
    records: List[bytes] = []
    try:
        if kind == "description":
            ground = parsed(data, name)
            taken_in = Imported(ground.counts, ground.cells(), [])
            records = [pair_record(pair) for pair in ground.pairs()] if pairs else []
        elif kind == "npy":
            taken_in = npy(data, name, code)
        else:
            taken_in = binvox(data, name, code, up or "z")
        record = venue_record(taken_in.counts, taken_in.cells, bare)
    except Refused as refused:
        raise Wrong("%s: %s" % (name, refused)) from None
    except MemoryError:
        raise Wrong("%s: there is too little memory for its cells" % name) from None
    record += b"".join(records)
    return Made(kind, taken_in.counts, record, len(records), taken_in.notes)
