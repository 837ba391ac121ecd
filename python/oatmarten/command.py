"""The command `oatmarten`: what a venue file holds, what is in the way of a line through it, pictures of it. Every answer is the library's."""
from __future__ import annotations

import argparse
import contextlib
import json
import os
import re
import signal
import sys
import threading
import time
from typing import Any, Callable, Dict, Iterator, List, NoReturn, Optional, Sequence, Tuple

from .header import (OAT_CLEAR, OAT_NEAR, OAT_LINE6_ROOM, OAT_LINE26_ROOM, OAT_REVISION, OAT_TOUCHING_ROOM, oat_adaptive, oat_complete, oat_line6, oat_line26,
                     oat_line_touching, oat_mark, oat_plain, oat_revision, oat_sight)
from . import library, looking, telling
from .files import STANDARD_OUTPUT, aside, put_out, read_most, standard_input
from .inputs import Wrong, named, shown as shortened
from .library import LibraryError, Refused
from .venues import Venue

DONE, NOT, WRONG = 0, 1, 2  # what the command ends with: yes or done; no; a refusal or an error
# those that ask to end, and leave time to take away what was begun
SIGNALS = ("SIGTERM", "SIGHUP", "SIGQUIT", "SIGALRM", "SIGXCPU", "SIGUSR1", "SIGUSR2")


class Parser(argparse.ArgumentParser):
    """A parser that says what is wrong in one sentence, and takes any number that begins with '-' for a number."""

    given: Sequence[str] = ()

    def __init__(self, *given: Any, **named: Any) -> None:
        super().__init__(*given, **named)
        self._negative_number_matcher = re.compile(r"-(\d+\.?\d*|\.\d+)(e[-+]?\d+)?$|-(inf|infinity|nan)$", re.I)

    def _print_message(self, message: str, file: Any = None) -> None:
        """Help goes out whole, or what is wrong is told."""
        if file is sys.stderr:
            complain(message)
        else:
            put_text(message)

    def error(self, message: str) -> NoReturn:
        said = "%s: %s (%s --help says more)" % (self.prog, shortened(message, 1000), self.prog)
        if "--json" in self.given:
            with contextlib.suppress(OSError):
                put_text(json.dumps({"error": said}) + "\n")
        self.exit(WRONG, said + "\n")


# ---- words of the command line

def whole(word: str) -> int:
    if not re.fullmatch("-?[0-9]{1,1000}", word):
        raise argparse.ArgumentTypeError("'%s' is no whole number" % shortened(word))
    return int(word)


def some(word: str) -> int:
    if whole(word) < 1:
        raise argparse.ArgumentTypeError("'%s' is not above 0" % shortened(word))
    return whole(word)


def real(word: str) -> float:
    try:
        return float(word.replace("_", "?"))
    except ValueError:
        raise argparse.ArgumentTypeError("'%s' is no number" % shortened(word)) from None


def manner(asked: argparse.Namespace) -> Tuple[int, int]:
    return telling.STARTS[asked.start], telling.RULES[asked.rule]


# ---- what is said, and where

def put_text(text: str) -> None:
    """Text to standard output; what its encoding does not have is written as an escape."""
    encoding = getattr(sys.stdout, "encoding", None) or "utf-8"
    put_out(text.encode(encoding, "backslashreplace"))


def complain(text: str) -> None:
    """A line to standard error, where there is one; over a line of progress."""
    if sys.stderr is not None:
        with contextlib.suppress(OSError):
            sys.stderr.write(("\r\033[K" if sys.stderr.isatty() else "") + text)
            sys.stderr.flush()


def warn(what: str) -> None:
    complain("oatmarten: %s\n" % shortened(what, 100000))


def many(number: int, what: str) -> str:
    return "%d %s%s" % (number, what, "" if number == 1 else "s")


class Said:
    """What a command says: lines for people, or one JSON object for machines."""

    def __init__(self, as_json: bool) -> None:
        self.as_json = as_json

    def __call__(self, words: Sequence[str], numbers: Dict[str, Any]) -> None:
        text = json.dumps(numbers) if self.as_json else "\n".join(words)
        if text:
            put_text(text + "\n")


def shown(what: str) -> Callable[[float], None]:
    """Progress, where someone looks: a line that is written over."""
    to = sys.stderr
    if to is None or not to.isatty():
        return lambda share: None
    last = [0.0]

    def show(share: float) -> None:
        if time.monotonic() - last[0] > 0.1 or share >= 1:
            last[0] = time.monotonic()
            to.write("\r%s %3d%%%s" % (what, int(100 * share), "\r\033[K" if share >= 1 else ""))
            to.flush()
    return show


@contextlib.contextmanager
def opened(path: str) -> Iterator[Venue]:
    """The venue of a file; what cannot be read is told by the file's name."""
    try:
        venue = Venue.open(path)
    except Refused as refused:
        raise no_venue(path, refused)
    except LibraryError:
        raise
    except OSError as wrong:
        raise Wrong("%s cannot be read: %s" % (named(path), wrong.strerror or wrong)) from None
    with venue:
        yield venue


def no_venue(path: str, refused: Refused) -> Refused:
    refused.about = "%s is no venue record: " % named(path)
    return refused


# ---- the commands: each takes what was asked and says; it answers the status

def info(asked: argparse.Namespace, say: Said) -> int:
    with opened(asked.file) as venue:
        show = shown("info")
        kinds = looking.kinds(venue.cells, lambda share: show(share / 2))
        complete = bool(oat_complete(venue.n, venue.held).yes)
        marks = looking.marks(venue.counts, venue.cells, lambda share: show(0.5 + share / 2))
        show(1)
        clear, near = kinds.pop(OAT_CLEAR, 0), kinds.pop(OAT_NEAR, 0)
        nx, ny, nz = venue.counts
        words = ["%d x %d x %d, %s" % (nx, ny, nz, many(len(venue.cells), "cell")), "clear: %d" % clear, "near: %d" % near, "solid: %d" % sum(kinds.values())]
        words += ["    %s: %d" % (telling.code_words(code), count) for code, count in kinds.items()]
        words.append("marks: complete" if complete else "marks: not complete, %s touch%s a solid one, the first is %s" % (
            many(marks.missing, "clear cell"), "es" if marks.missing == 1 else "", telling.cell_words(marks.first or ())))
        if marks.needless:
            words.append("near cells that touch no solid one: %d" % marks.needless)
        if venue.rest:
            words.append("bytes behind the record: %d" % venue.rest)
        say(words, {"counts": list(venue.counts), "clear": clear, "near": near, "solid": {str(code): count for code, count in kinds.items()}, "complete": complete,
                    "missing": marks.missing, "first_missing": list(marks.first) if marks.first else None, "needless": marks.needless, "rest": venue.rest})
    return DONE if complete else NOT


def mark(asked: argparse.Namespace, say: Said) -> int:
    with aside(asked.out) as out:
        for piece in pieces(asked.file):
            out.write(piece)
        out.flush()
        near = marked_in_place(out, asked.file)
    if asked.out != "-":
        say(["%s: %s" % (asked.out, many(near, "near cell"))], {"out": asked.out, "near": near})
    return DONE


def pieces(path: str) -> Iterator[bytes]:
    """The bytes of a file, or of a stream as far as a venue can reach."""
    try:
        with contextlib.ExitStack() as stack:
            given = standard_input() if path == "-" else stack.enter_context(open(path, "rb"))
            if path == "-" or not os.path.isfile(path):
                yield read_most(given)
                return
            while True:
                piece = given.read(1 << 20)
                if not piece:
                    return
                yield piece
    except OSError as wrong:
        raise Wrong("%s cannot be read: %s" % (named(path), wrong.strerror)) from None


def marked_in_place(file: Any, name: str) -> int:
    """Marks the venue that the file holds, where it lies."""
    try:
        with Venue.of(file, True) as venue:
            oat_mark(venue.n, venue.held)
            return looking.near_cells(venue.cells)
    except Refused as refused:
        raise no_venue(name, refused)


def hit(asked: argparse.Namespace, say: Said) -> int:
    with opened(asked.file) as venue:
        plain = oat_plain(venue.n, venue.held, asked.p, asked.q, manner(asked))
        adaptive = oat_adaptive(venue.n, venue.held, asked.p, asked.q, manner(asked))
        agree = telling.same_hit(plain, adaptive)
        words = ["plain:    " + telling.hit_words(plain), "adaptive: " + telling.hit_words(adaptive)]
        words.append("they agree" if agree else "they differ: marks are missing, and the plain walk is right (oatmarten mark makes them)")
        say(words, {"p": asked.p, "q": asked.q, "start": asked.start, "rule": int(asked.rule), "plain": telling.hit_numbers(plain),
                    "adaptive": telling.hit_numbers(adaptive), "agree": agree})
    return NOT if plain.hit else DONE


def sight(asked: argparse.Namespace, say: Said) -> int:
    with opened(asked.file) as venue:
        try:
            seen = oat_sight(venue.n, venue.held, (*asked.origin, asked.edge), asked.camera, asked.ball, manner(asked))
        except Refused as refused:
            refused.called = ("camera", "ball")
            raise
        complete = bool(oat_complete(venue.n, venue.held).yes)
        say([telling.sight_words(seen)], {**telling.sight_numbers(seen), "start": asked.start, "rule": int(asked.rule), "complete": complete})
    if not complete:
        warn("the marks are not complete, so that a sight may step over what is in the way; oatmarten mark makes them")
    return NOT if seen.blocked else DONE


LISTS: Dict[str, Tuple[Callable[..., Any], int]] = {"6": (oat_line6, OAT_LINE6_ROOM), "26": (oat_line26, OAT_LINE26_ROOM),
                                                    "touching": (oat_line_touching, OAT_TOUCHING_ROOM)}


def list_cells(asked: argparse.Namespace, say: Said) -> int:
    if asked.rule is not None and asked.line != "6":
        raise Wrong("a rule is for the 6-line; the %s line knows none" % asked.line)
    rule = {} if asked.line != "6" else {"rule": telling.RULES[asked.rule or "1"]}
    call, room = LISTS[asked.line]
    cells = looking.listed(call, room, asked.p, asked.q, **rule)
    say(["%d %d %d" % cell for cell in cells], {"line": asked.line, **{name: int(value) for name, value in rule.items()}, "cells": [list(cell) for cell in cells]})
    return DONE


def compare(asked: argparse.Namespace, say: Said) -> int:
    with opened(asked.file) as venue:
        show = shown("compare")
        said = looking.compare(venue.counts, venue.held, asked.lines, asked.seed, manner(asked), show)
        show(1)
    saved = 1 - said.adaptive_reads / said.plain_reads
    words = ["%s, %d blocked: %d agreed, %d differing" % (many(said.lines, "line"), said.blocked, said.agreed, said.differing)]
    first: Optional[Dict[str, Any]] = None
    if said.first:
        (p, q), plain, adaptive = said.first
        first = {"p": list(p), "q": list(q), "plain": telling.hit_numbers(plain), "adaptive": telling.hit_numbers(adaptive)}
        words += ["the first that differs, from %s to %s:" % (telling.cell_words(p), telling.cell_words(q)), "    plain:    " + telling.hit_words(plain),
                  "    adaptive: " + telling.hit_words(adaptive)]
    words.append("cells read: plain %d, adaptive %d, %.1f%% saved" % (said.plain_reads, said.adaptive_reads, 100 * saved))
    words.append("%.0f lines a second, both walks" % (said.lines / max(said.seconds, 1e-9)))
    say(words, {"lines": said.lines, "blocked": said.blocked, "agreed": said.agreed, "differing": said.differing, "first": first, "plain_reads": said.plain_reads,
                "adaptive_reads": said.adaptive_reads, "lines_per_second": said.lines / max(said.seconds, 1e-9)})
    return NOT if said.differing else DONE


def picture(asked: argparse.Namespace, say: Said) -> int:
    from . import pictures
    with opened(asked.file) as venue:
        drawn = pictures.walks_picture(venue.counts, venue.held, asked.p, asked.q, manner(asked), asked.layer, asked.title, asked.reach)
    return written(asked.out, drawn, say)


def coverage(asked: argparse.Namespace, say: Said) -> int:
    from . import pictures
    names, cameras = cameras_of(asked)
    with opened(asked.file) as venue:
        show = shown("coverage")
        drawn = pictures.coverage_picture(venue.counts, venue.held, asked.layer, cameras, manner(asked), names, asked.title, show)
        show(1)
    return written(asked.out, drawn, say)


def cameras_of(asked: argparse.Namespace) -> Tuple[List[str], List[Tuple[int, int, int]]]:
    """The cameras that were named one by one, and those of a description."""
    names, cells = [str(k) for k, _ in enumerate(asked.camera, 1)], [(x, y, z) for x, y, z in asked.camera]
    if asked.cameras:
        from . import descriptions
        for name, spot in descriptions.read(asked.cameras).cameras.items():
            names.append(name)
            cells.append(spot.cell)
    if not cells:
        raise Wrong("name a camera or more, by --camera X Y Z, or a description that has some, by --cameras FILE")
    return names, cells


def make(asked: argparse.Namespace, say: Said) -> int:
    from . import making
    made = making.make(asked.source, asked.kind, asked.bare, asked.pairs, asked.code, asked.up)
    with aside(asked.out) as out:
        out.write(made.record)
    for note in made.notes:
        warn(note)
    if asked.out != "-":
        pairs = ", and %s" % many(made.pairs, "pair") if asked.pairs else ""
        say(["%s: %s cells, %s%s" % (asked.out, " x ".join(map(str, made.counts)), "bare" if asked.bare else "marked", pairs)],
            {"out": asked.out, "kind": made.kind, "counts": list(made.counts), "bare": asked.bare, "pairs": made.pairs, "notes": made.notes})
    return DONE


def written(path: str, text: str, say: Said) -> int:
    with aside(path) as out:
        out.write(text.encode())
    if path != "-":
        say([path], {"out": path})
    return DONE


# ---- the command line

def commands(parser: Parser) -> None:
    both = Parser(add_help=False)
    both.add_argument("--start", choices=list(telling.STARTS), default="untested", help="whether the cell where the line starts can be in the way (untested: it cannot)")
    both.add_argument("--rule", choices=list(telling.RULES), default="1", help="what a line crosses first at a tie: 1, y then z then x; 2, the same cells from either end (1)")
    as_json = Parser(add_help=False)
    as_json.add_argument("--json", action="store_true", help="one JSON object instead of words")
    sub = parser.add_subparsers(dest="command", metavar="COMMAND", parser_class=Parser)

    def command(name: str, does: Callable[[argparse.Namespace, Said], int], text: str, ends: str, parents: Sequence[Parser] = ()) -> Parser:
        made = sub.add_parser(name, parents=[as_json, *parents], help=text, description=text[0].upper() + text[1:] + ".", epilog="Ends with status %s; 2 where "
                              "something was refused or went wrong." % ends)
        made.set_defaults(does=does)
        return made

    def venue(made: Parser) -> Parser:
        made.add_argument("file", metavar="FILE", help="a venue record; - is standard input")
        return made

    def cells(made: Parser) -> None:
        made.add_argument("p", metavar="P", nargs=3, type=whole, help="where the line starts: x, y and z of a cell")
        made.add_argument("q", metavar="Q", nargs=3, type=whole, help="where it ends")

    def out(made: Parser, what: str) -> None:
        made.add_argument("-o", "--out", metavar="OUT", required=True, help=what + "; written whole or not at all; - is standard output")

    venue(command("info", info, "says what a venue holds: counts, cells of each kind and code, and whether its near marks are complete",
                  "0 where the marks are complete, 1 where they are not"))
    out(venue(command("mark", mark, "makes the near marks of a venue", "0")), "the marked venue")
    cells(venue(command("hit", hit, "finds the first solid cell between two cells, by both walks", "0 where the way is clear, 1 where it is blocked", [both])))
    made = venue(command("sight", sight, "says whether a camera sees a ball, by surveyed points in metres", "0 where the sight is clear, 1 where it is blocked", [both]))
    made.add_argument("--origin", metavar=("X", "Y", "Z"), nargs=3, type=real, required=True, help="the corner of cell (0, 0, 0) with the least x, y and z")
    made.add_argument("--edge", metavar="E", type=real, required=True, help="the edge of a cell")
    made.add_argument("camera", metavar="CAMERA", nargs=3, type=real, help="x, y and z of the camera")
    made.add_argument("ball", metavar="BALL", nargs=3, type=real, help="x, y and z of the ball")
    made = command("list", list_cells, "lists the cells of a line, one a line", "0")
    made.add_argument("line", metavar="6|26|touching", choices=list(LISTS), help="from face to face; one cell for each step along the longest axis; every cell that it touches")
    cells(made)
    made.add_argument("--rule", choices=list(telling.RULES), help="the rule of a 6-line (1)")
    made = venue(command("compare", compare, "runs both walks on many lines, by turns between random cells and from a camera at a side to a ball in the middle",
                         "0 where both walks agree on all of them, 1 where they do not", [both]))
    made.add_argument("--lines", metavar="N", type=some, default=10000, help="how many (10000)")
    made.add_argument("--seed", metavar="S", type=whole, default=1, help="the same seed makes the same lines (1)")
    picture_commands(command, venue, cells, out, both)
    made = command("make", make, "makes a venue of a description in text, of a numpy array (.npy) or of a binvox file", "0")
    made.add_argument("source", metavar="SOURCE", help="the file to make it of; what it is, is told by how it begins")
    out(made, "the venue")
    made.add_argument("--from", dest="kind", choices=("description", "npy", "binvox"), help="what the source is")
    made.add_argument("--bare", action="store_true", help="leave the near marks out")
    made.add_argument("--pairs", action="store_true", help="of a description: behind the venue a pair record for each camera with each ball, as the program sightlines reads them")
    made.add_argument("--code", metavar="N", type=whole, help="of an array or a binvox file: the code that cells of value 1 get, since byte 1 means near (2)")
    made.add_argument("--up", choices=("y", "z"), help="of a binvox file: which of its axes points up, and becomes z (z)")


def picture_commands(command: Any, venue: Any, cells: Any, out: Any, both: Parser) -> None:
    made = venue(command("picture", picture, "draws both walks between two cells, over a layer and over the vertical cut along the line, as SVG", "0", [both]))
    cells(made)
    out(made, "the picture")
    made.add_argument("--layer", metavar="Z", type=whole, help="the layer (that of the hit, or of P)")
    made.add_argument("--reach", metavar="N", type=some, help="show the cells up to N from the hit, or from P (all of the line, unless its cells could not be told apart)")
    made.add_argument("--title", metavar="TEXT", help="what stands above it (from where to where)")
    made = venue(command("coverage", coverage, "draws how many cameras see a ball in each cell of a layer, as SVG", "0", [both]))
    made.add_argument("--layer", metavar="Z", type=whole, required=True, help="the layer of the ball")
    made.add_argument("--camera", metavar=("X", "Y", "Z"), nargs=3, type=whole, action="append", default=[], help="the cell of a camera; as often as there are cameras")
    made.add_argument("--cameras", metavar="FILE", help="a description, whose cameras are taken")
    out(made, "the picture")
    made.add_argument("--title", metavar="TEXT", help="what stands above it (how many cameras there are)")


def revision_words() -> str:
    return "oatmarten, revision %d (%s)" % (oat_revision(), library.path(OAT_REVISION))


def ended(number: int, frame: Any) -> None:
    """A signal that asks to end: files that were begun are taken away on the way out."""
    raise SystemExit(128 + number)


def taken_apart(asked: argparse.Namespace) -> None:
    """Standard output by its other names; and what is drawn or made does not replace what it is made of."""
    out, of = getattr(asked, "out", None), getattr(asked, "source", getattr(asked, "file", None))
    if out in STANDARD_OUTPUT:
        asked.out = "-"
    elif out and of and asked.command != "mark" and os.path.isfile(out) and os.path.exists(of) and os.path.samefile(out, of):
        raise Wrong("%s is what it is made of: name another file to write" % named(out))


def told(wrong: BaseException, asked: argparse.Namespace) -> str:
    """What went wrong, in a sentence."""
    if isinstance(wrong, (Refused, Wrong, LibraryError, OverflowError)):
        return str(wrong)
    if isinstance(wrong, OSError):
        name = wrong.filename or getattr(asked, "out", None) or "a file"
        return "%s: %s" % ("standard output" if name == "-" else os.fsdecode(name), wrong.strerror or wrong)
    if isinstance(wrong, MemoryError):
        return "there is not enough memory"
    return "a fault of the command's own: %s: %s" % (type(wrong).__name__, wrong)


def run(asked: argparse.Namespace) -> int:
    """The command; whatever goes wrong is told."""
    say = Said(asked.json)
    try:
        taken_apart(asked)
        if asked.version:
            say([revision_words()], {"revision": oat_revision(), "library": library.path(OAT_REVISION)})
            return DONE
        if getattr(asked, "out", None) == "-" and asked.command in ("mark", "make") and sys.stdout is not None and sys.stdout.isatty():
            raise Wrong("a venue is bytes, not text: send it to a file")
        return int(asked.does(asked, say))
    except Exception as wrong:
        warn(told(wrong, asked))
        if asked.json:
            with contextlib.suppress(OSError):
                say([], {"error": told(wrong, asked), **(telling.refused_numbers(wrong) if isinstance(wrong, Refused) else {})})
        return WRONG


def main(words: Optional[List[str]] = None) -> int:
    """The command line; answers the status that it ends with."""
    parser = Parser(prog="oatmarten", description="Exact sight lines through a voxel model of a venue, by the proved library.")
    parser.add_argument("--version", action="store_true", help="says the revision of the library, and where it is")
    parser.add_argument("--json", action="store_true", help="one JSON object instead of words")
    commands(parser)
    try:
        if threading.current_thread() is threading.main_thread():
            for number in (getattr(signal, name) for name in SIGNALS):
                if signal.getsignal(number) is not signal.SIG_IGN:  # as nohup has it
                    signal.signal(number, ended)
        Parser.given = sys.argv[1:] if words is None else words
        try:
            asked = parser.parse_args(words)
        except OSError as wrong:  # help that cannot be written
            warn(told(wrong, argparse.Namespace()))
            return WRONG
        if not asked.command and not asked.version:
            parser.error("say a command: info, mark, hit, sight, list, compare, picture, coverage or make")
        return run(asked)
    except KeyboardInterrupt:
        warn("interrupted")
        return 130
