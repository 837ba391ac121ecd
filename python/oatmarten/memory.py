"""Memory that is lent to calls: any object with the buffer protocol, where it lies, without a copy."""
from __future__ import annotations

import ctypes
import re
import threading
from typing import Any, ContextManager, Dict, List, Tuple, Union

# what a call can be lent: bytes, bytearray, memoryview, array.array, mmap.mmap, ctypes arrays, numpy arrays .., or a Lent that is held already
Buffer = Any


class _View(ctypes.Structure):
    """CPython's Py_buffer."""

    _fields_ = [("buf", ctypes.c_void_p), ("obj", ctypes.c_void_p), ("len", ctypes.c_ssize_t), ("itemsize", ctypes.c_ssize_t),
                ("readonly", ctypes.c_int), ("ndim", ctypes.c_int), ("format", ctypes.c_char_p), ("shape", ctypes.c_void_p),
                ("strides", ctypes.c_void_p), ("suboffsets", ctypes.c_void_p), ("internal", ctypes.c_void_p)]


_get = ctypes.pythonapi.PyObject_GetBuffer
_get.argtypes, _get.restype = [ctypes.py_object, ctypes.POINTER(_View), ctypes.c_int], ctypes.c_int
# to be written; in one piece, in C order, with the kind of its items told
_WRITABLE, _IN_ONE_PIECE = 0x1, 0x4 | 0x8
_release = ctypes.pythonapi.PyBuffer_Release
_release.argtypes, _release.restype = [ctypes.POINTER(_View)], None

# where memory of no bytes lies: a call takes no null pointer
_NOWHERE = ctypes.create_string_buffer(16)
_SOMEWHERE = (ctypes.addressof(_NOWHERE) + 7) // 8 * 8


class Lent:
    """Memory that is held for calls, until it is released: `at` is where it lies, `bytes` how many bytes it has.

    A call holds what it is lent by itself. Holding it once pays where many calls are made over the same memory:

        with Lent(cells) as held:
            for p, q in lines:
                oat_plain(n, held, p, q)

    `writable` asks for memory that may be written; without it read-only memory (bytes, a map of a file that was opened for reading) will do. The
    bytes must lie in one piece, in C order. Memory that cannot be lent so raises BufferError, and what has no bytes TypeError. Where a call runs over
    it in another thread, it is given back when that is over."""

    __slots__ = ("_view", "at", "bytes", "writable", "item", "_held", "_taken", "_lock", "_calls")

    def __init__(self, thing: Buffer, writable: bool = False) -> None:
        # whether calls may begin, whether the memory is still taken, and how many calls run
        self._held, self._taken, self._calls, self._lock = False, False, 0, threading.Lock()
        self._view = _View()
        try:
            _get(thing, self._view, _IN_ONE_PIECE | (_WRITABLE if writable else 0))
        except TypeError:
            raise TypeError("memory to lend is an object with bytes, and %s was given" % type(thing).__name__) from None
        except (BufferError, ValueError) as wrong:
            raise BufferError("memory that cannot be lent to be %s: %s" % ("written" if writable else "read", wrong)) from None
        self._held = self._taken = True
        self.writable = writable
        self.bytes: int = self._view.len
        # its items: how wide they are, and what they are, as the struct module writes it
        self.item: Tuple[int, str] = (self._view.itemsize, (self._view.format or b"B").decode("ascii", "replace"))
        self.at: int = self._view.buf if self.bytes else _SOMEWHERE

    def release(self) -> None:
        """Gives the memory back; what was lent may be closed or resized again."""
        with self._lock:
            self._held = False
            self._give_back()

    def _give_back(self) -> None:
        """Where nobody holds it and no call runs."""
        if self._taken and not self._held and not self._calls:
            self._taken = False
            _release(self._view)

    def __enter__(self) -> "Lent":
        return self

    def __exit__(self, *raised: object) -> None:
        self.release()

    def __del__(self) -> None:
        # a call that runs knows it, so none does
        if getattr(self, "_taken", False):
            self._taken = False
            _release(self._view)


class _Again:
    """A Lent that someone else holds and releases; while this is entered it stays."""

    __slots__ = ("held", "what")

    def __init__(self, held: Lent, what: str) -> None:
        self.held, self.what = held, what

    def __enter__(self) -> Lent:
        with self.held._lock:
            if not self.held._held:
                raise ValueError("%s were lent by a Lent that was released" % self.what)
            self.held._calls += 1
        return self.held

    def __exit__(self, *raised: object) -> None:
        with self.held._lock:
            self.held._calls -= 1
            self.held._give_back()


def _fits(held: Lent, width: int, what: str) -> None:
    """Items of the wrong kind are a mistake: a call would take their bytes for something else."""
    wide, kind = held.item
    if kind == "?" if wide == 1 else wide != width or not re.fullmatch("[@=<]?[iIlLqQ]", kind):
        raise TypeError("%s are %s, and memory with items of %d bytes ('%s') was lent" % (what, "bytes" if width == 1 else "whole numbers of %d bytes" % width, wide, kind))
    if held.at % width:
        raise ValueError("%s are numbers of %d bytes, and do not lie at a multiple of %d" % (what, width, width))


def lent(thing: Buffer, writable: bool, width: int, what: str) -> ContextManager[Lent]:
    """Holds memory for one call; its numbers are `width` bytes wide, and have to be aligned so."""
    if isinstance(thing, Lent):
        if writable and not thing.writable:
            raise BufferError("%s are to be written, and were lent for reading" % what)
        _fits(thing, width, what)
        return _Again(thing, what)
    held = Lent(thing, writable)
    try:
        _fits(held, width, what)
    except (TypeError, ValueError):
        held.release()
        raise
    return held


def apart(written: List[Tuple[str, Lent]], others: List[Tuple[str, Lent]]) -> None:
    """What a call writes overlaps nothing else that is lent to it."""
    for k, (name, one) in enumerate(written):
        for other_name, other in written[k + 1:] + others:
            if one.at < other.at + other.bytes and other.at < one.at + one.bytes:
                raise ValueError("%s and %s overlap, and a call that writes takes them apart" % (name, other_name))


# ---- numbers and structs that a call takes

_WHOLE = {ctypes.c_uint8: (0, 255), ctypes.c_uint32: (0, 2**32 - 1), ctypes.c_int32: (-(2**31), 2**31 - 1), ctypes.c_uint64: (0, 2**64 - 1)}
Number = Union[int, float]


def number(kind: Any, value: Any, what: str) -> Number:
    """A number that the type holds: ctypes alone would cut it."""
    if kind is ctypes.c_double:
        if isinstance(value, (str, bytes)):
            raise TypeError("%s is a number, and %r was given" % (what, value[:40]))
        return float(value)
    least, most = _WHOLE[kind]
    try:
        whole = value.__index__()
    except AttributeError:
        raise TypeError("%s is a whole number, and %r was given" % (what, value)) from None
    if not least <= whole <= most:
        raise OverflowError("%s is a number from %d to %d, and %s was given" % (what, least, most, whole if abs(whole) < 10**40 else "one far beyond it"))
    return int(whole)


def struct(kind: Any, value: Any, what: str) -> Any:
    """A struct of the header: itself, or one made of as many numbers."""
    if type(value) is kind:
        return value
    try:
        given = tuple(value)
    except TypeError:
        given = ()
    if len(given) != len(kind._fields_):
        raise TypeError("%s has %s, and %r was given" % (what, ", ".join(field for field, _ in kind._fields_), value))
    return kind(*[number(form, one, "%s of %s" % (field, what)) for (field, form), one in zip(kind._fields_, given)])


class Struct(ctypes.Structure):
    """A struct of the header; two are equal where all their fields are. A number that a field does not hold is not taken."""

    _kinds: Dict[str, Any] = {}

    def __init_subclass__(cls, **named: Any) -> None:
        super().__init_subclass__(**named)
        cls._kinds = {field[0]: field[1] for field in cls._fields_ if field[1] in _WHOLE}

    def __setattr__(self, name: str, value: Any) -> None:
        kind = self._kinds.get(name)
        super().__setattr__(name, value if kind is None else number(kind, value, name))

    def __repr__(self) -> str:
        return "%s(%s)" % (type(self).__name__, ", ".join("%s=%r" % (field[0], getattr(self, field[0])) for field in self._fields_))

    def __eq__(self, other: object) -> bool:
        return type(other) is type(self) and all(getattr(self, f[0]) == getattr(other, f[0]) for f in self._fields_)

    def __iter__(self) -> Any:
        return (getattr(self, field[0]) for field in self._fields_)

    __hash__ = None  # type: ignore[assignment]
