"""Answers in words, and as plain numbers for --json."""
from __future__ import annotations

from typing import Any, Dict, Sequence

from .header import OAT_FACE_NONE, OAT_RULE_1, OAT_RULE_2, OAT_START_TESTED, OAT_START_UNTESTED, oat_face
from .library import Refused

STARTS = {"untested": OAT_START_UNTESTED, "tested": OAT_START_TESTED}
RULES = {"1": OAT_RULE_1, "2": OAT_RULE_2}


def cell_words(cell: Sequence[int]) -> str:
    return "(%s)" % ", ".join(str(c) for c in cell)


def code_words(code: int) -> str:
    """A material's code, as the file has it and as people write it."""
    return "code %d (0x%02x)" % (code, code)


def face_name(face: int) -> str:
    """The face by the way in which the line moves: +x, or 0 where it started there."""
    if face == OAT_FACE_NONE:
        return "0"
    _, _, sign, axis = oat_face(face).name.split("_")
    return ("+" if sign == "PLUS" else "-") + axis.lower()


def face_words(face: int) -> str:
    """The side by which the line comes in."""
    if face == OAT_FACE_NONE:
        return "where the line starts"
    name = face_name(face)
    return "by its %s-%s side (%s)" % (side_of(name, "low", "high"), name[1], name)


def side_of(face: str, low: str, high: str) -> str:
    """Which of two sides a line meets that moves so: moving to larger numbers, as +x says, the low one."""
    return low if face[0] == "+" else high


def cells_read(reads: int) -> str:
    return "%d cell%s read" % (reads, "" if reads == 1 else "s")


def hit_words(hit: Any) -> str:
    """The first hit of a walk."""
    if not hit.hit:
        return "clear, " + cells_read(hit.reads)
    return "blocked at %s by %s, at %d/%d of the way, %s, %s" % (cell_words((hit.x, hit.y, hit.z)), code_words(hit.code), hit.num, hit.den, face_words(hit.face),
                                                                   cells_read(hit.reads))


def hit_numbers(hit: Any) -> Dict[str, Any]:
    if not hit.hit:
        return {"hit": False, "reads": hit.reads}
    return {"hit": True, "cell": [hit.x, hit.y, hit.z], "code": hit.code, "place": [hit.num, hit.den], "face": face_name(hit.face), "reads": hit.reads}


def same_hit(one: Any, other: Any) -> bool:
    """Whether two walks tell one story: the same first solid cell, code, place and face, or both none. Reads are the walks' own."""
    return all(getattr(one, field) == getattr(other, field) for field, _ in one._fields_ if field != "reads")


def sight_words(seen: Any) -> str:
    if not seen.blocked:
        return "clear"
    return "blocked after %.1f%% of the way at %s by %s, %s, %s" % (100 * seen.share, cell_words((seen.x, seen.y, seen.z)), code_words(seen.code), face_words(seen.face),
                                                                     cells_read(seen.reads))


def sight_numbers(seen: Any) -> Dict[str, Any]:
    if not seen.blocked:
        return {"blocked": False}
    return {"blocked": True, "share": seen.share, "cell": [seen.x, seen.y, seen.z], "code": seen.code, "face": face_name(seen.face), "reads": seen.reads}


def refused_numbers(refused: Refused) -> Dict[str, Any]:
    return {"refused": refused.number, "end": refused.end, "axis": refused.axis, "words": refused.words, "call": refused.call}
