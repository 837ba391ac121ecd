"""The shared library: where it is found, and what a call that refuses raises."""
from __future__ import annotations

import ctypes
import os
import pathlib
import platform
from typing import Any, Dict, List, Optional, Tuple

# set by the header's module: the calls {name: (what it answers, [what it takes])}
PROTOTYPES: Dict[str, Tuple[Any, List[Any]]] = {}

_loaded: Optional[ctypes.CDLL] = None


class LibraryError(OSError):
    """The shared library is not there, or is not the one that this module is made for."""


class Refused(Exception):
    """A call refused. `number` is the refusal's, `end` "P", "Q" or "", `axis` "x", "y", "z", "edge" or "", `words` what it means; `call` says which
    call it was. Nothing was written."""

    # for whoever tells it: what the refusal is about, and what P and Q are called
    about = ""
    called = ("P", "Q")

    def __init__(self, call: str, number: int, end: str, axis: str, words: str) -> None:
        self.call, self.number, self.end, self.axis, self.words = call, number, end, axis, words
        super().__init__(call, number, end, axis, words)

    def __str__(self) -> str:
        names = [dict(zip("PQ", self.called)).get(self.end, ""), self.axis]
        return "%srefused %d: %s%s" % (self.about, self.number, self.words, "".join(", " + name for name in names if name))


def candidates(revision: int) -> List[pathlib.Path]:
    """Where the library may be, without OATMARTEN_LIBRARY: beside the module, in the folders above it (PREFIX/lib of an installed one), and where
    the repository builds it."""
    name = "liboatmarten.so.%d" % revision
    here = pathlib.Path(__file__).resolve().parent
    return [folder / name for folder in [here, *list(here.parents)[:3], here.parent.parent / "target" / "shared"]]


def path(revision: int) -> str:
    """The library's file: the one that OATMARTEN_LIBRARY names, or the first that is there."""
    named = os.environ.get("OATMARTEN_LIBRARY")
    if named:
        return named
    places = candidates(revision)
    for place in places:
        if place.exists():
            return str(place)
    raise LibraryError("the library %s is not there: neither with the module, under %s, nor built in a repository (tests/shared); OATMARTEN_LIBRARY can name it"
                       % (places[0].name, places[3].parent))


def load() -> ctypes.CDLL:
    """The library, loaded once, each call with its types. It is the revision that this module is made for."""
    global _loaded
    if _loaded is None:
        from .header import OAT_REVISION
        file = path(OAT_REVISION)
        try:
            library = ctypes.CDLL(os.path.abspath(file))
            answered = library.oat_revision()
        except OSError as wrong:
            machine = platform.machine()
            why = "it is for x86-64, and this machine is %s" % machine if machine not in ("x86_64", "AMD64") else str(wrong)
            raise LibraryError("the library %s cannot be loaded: %s" % (file, why)) from None
        except AttributeError:
            raise LibraryError("%s is no library of Oatmarten's, or one from before revision 9" % file) from None
        if answered != OAT_REVISION:
            raise LibraryError("%s is revision %d of the library, and this module is for revision %d" % (file, answered, OAT_REVISION))
        for name, (answer, takes) in PROTOTYPES.items():
            try:
                call = getattr(library, name)
            except AttributeError:
                raise LibraryError("%s has no call %s, though it is of revision %d" % (file, name, answered)) from None
            call.restype, call.argtypes = answer, takes
        _loaded = library
    return _loaded
