"""Files that are written whole or not at all: aside, then renamed."""
from __future__ import annotations

import contextlib
import errno
import io
import os
import re
import signal
import stat
import sys
import tempfile
from typing import BinaryIO, Iterator, List, Union

from .header import OAT_COUNT_MOST, OAT_VENUE_HEAD


# the largest venue, and some records behind it
MOST = OAT_VENUE_HEAD + OAT_COUNT_MOST ** 3 + (1 << 24)


def standard_input() -> BinaryIO:
    """Standard input's bytes; where it is closed that is an error like any other of reading."""
    if sys.stdin is None:
        raise OSError(errno.EBADF, os.strerror(errno.EBADF), "standard input")
    return sys.stdin.buffer


def read_most(file: BinaryIO) -> bytes:
    """All of a stream, but no more than a venue can have: a stream may have no end."""
    pieces: List[bytes] = []
    many = 0
    while many <= MOST:
        piece = file.read(1 << 20)
        if piece is None:  # a stream that does not wait
            raise OSError(errno.EAGAIN, os.strerror(errno.EAGAIN))
        if not piece:
            return b"".join(pieces)
        pieces.append(piece)
        many += len(piece)
    raise OSError(errno.EFBIG, "it has more bytes than a venue can have")


def put_out(data: Union[bytes, memoryview]) -> None:
    """All of it to standard output. Python's own stream may take a part and say nothing, where it is not buffered."""
    if sys.stdout is None:
        raise OSError(errno.EBADF, os.strerror(errno.EBADF), "standard output")
    try:
        to = sys.stdout.fileno()
    except (AttributeError, io.UnsupportedOperation):  # something that stands in for it
        sys.stdout.write(bytes(data).decode())
        return
    sys.stdout.flush()
    rest = memoryview(data)
    while rest:
        try:
            rest = rest[os.write(to, rest):]
        except OSError as wrong:
            raise OSError(wrong.errno, wrong.strerror, "standard output") from None


# names of the process's own streams: a file behind one is not replaced
_STREAMS = re.compile(r"/dev/(std(in|out|err)|fd/\d+)|/proc/(self|\d+)/fd/\d+")
STANDARD_OUTPUT = ("-", "/dev/stdout", "/dev/fd/1", "/proc/self/fd/1")


def _is_special(path: str) -> bool:
    """Whether the name stands for something that cannot be replaced: a device, a pipe, a stream."""
    if _STREAMS.fullmatch(path):
        return True
    try:
        return not stat.S_ISREG(os.stat(path).st_mode)
    except OSError:
        return False


def _checked(path: str) -> None:
    """A name that can become a file's: where there is one that may not be written, it is not replaced either."""
    if not path:
        raise OSError(errno.ENOENT, "a file to write has a name", "-o")
    if path != "-":
        wrong = errno.EISDIR if os.path.isdir(path) else errno.ENOTDIR if path.endswith(os.sep) else 0
        try:
            os.stat(path)
            wrong = wrong or (0 if os.access(path, os.W_OK) else errno.EACCES)
        except FileNotFoundError:
            pass
        except OSError as found:
            wrong = wrong or found.errno or errno.EIO
        if wrong:
            raise OSError(wrong, os.strerror(wrong), path)


def _mode(path: str) -> int:
    """The rights of the file that is there, or of a new one."""
    try:
        return stat.S_IMODE(os.stat(path).st_mode)
    except OSError:
        mask = os.umask(0)
        os.umask(mask)
        return 0o666 & ~mask


@contextlib.contextmanager
def aside(path: str) -> Iterator[BinaryIO]:
    """A file to write and read, that becomes `path` where all goes well; else nothing is there, or what was there before. `-` is standard output,
    which gets all of it at the end; so does a device or a pipe."""
    _checked(path)
    through = path == "-" or _is_special(path)
    # a link stays a link: what it leads to is replaced
    path = path if through else os.path.realpath(path)
    folder = None if through else os.path.dirname(path) or "."
    # a signal waits until the file's name is known
    waiting = signal.pthread_sigmask(signal.SIG_BLOCK, signal.valid_signals())
    name = ""
    try:
        try:
            handle, name = tempfile.mkstemp(prefix=".oatmarten-", dir=folder)
        except OSError as wrong:
            raise OSError(wrong.errno, wrong.strerror, path) from None
        finally:
            signal.pthread_sigmask(signal.SIG_SETMASK, waiting)
        with os.fdopen(handle, "w+b") as file:
            yield file
            file.flush()
            if through:
                _hand_on(file, path)
            else:
                os.fchmod(file.fileno(), _mode(path))
        if not through:
            try:
                os.replace(name, path)
            except OSError as wrong:
                raise OSError(wrong.errno, wrong.strerror, path) from None
            name = ""
    finally:
        if name:
            with contextlib.suppress(OSError):
                os.unlink(name)


def _hand_on(file: BinaryIO, path: str) -> None:
    file.seek(0)
    with contextlib.ExitStack() as stack:
        to = None if path == "-" else stack.enter_context(open(path, "ab"))
        while True:
            piece = file.read(1 << 20)
            if not piece:
                break
            if to is None:
                put_out(piece)
            else:
                to.write(piece)
