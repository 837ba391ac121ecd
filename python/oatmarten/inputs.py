"""What a user hands in: files that are read whole, and the one error for what is wrong with them."""
from __future__ import annotations

import re
from typing import Optional

from .files import read_most, standard_input


class Wrong(Exception):
    """What is wrong with a file that was handed in, or with what was asked of it, in one sentence that names the file."""


def named(path: str) -> str:
    """What a sentence calls a file; `-` is standard input."""
    return "standard input" if path == "-" else shown(path, 4096)


def taken(path: str) -> bytes:
    """The bytes of a file; `-` is standard input."""
    try:
        if path == "-":
            return read_most(standard_input())
        with open(path, "rb") as file:
            return read_most(file)
    except (OSError, ValueError) as wrong:
        why = wrong.strerror if isinstance(wrong, OSError) else "it is no name of a file"
        raise Wrong("%s cannot be read: %s" % (named(path), why)) from None
    except MemoryError:
        raise Wrong("%s cannot be read: it is larger than the memory" % named(path)) from None


def shown(word: str, most: int = 40) -> str:
    """A word as a sentence can say it: cut where it is long, and without what a terminal would obey."""
    return "".join(sign if sign.isprintable() else "?" for sign in (word if len(word) <= most else word[:most - 2] + ".."))


def whole(word: str) -> Optional[int]:
    """The number that a word is in decimal, a minus before it where it is below 0; None where it is none, or has more than 18 digits."""
    return int(word) if re.fullmatch("-?[0-9]{1,18}", word) else None
