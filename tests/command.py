#!/usr/bin/env python3
"""Holds the command `oatmarten` against the independent program and against the library: answers, words, statuses, refusals and bad input of every
command, files that are written whole or not at all. Exits 0 only where all agreed. Run it by tests/gate/python."""
import contextlib
import ctypes
import io
import json
import os
import pathlib
import random
import re
import resource
import signal
import struct
import subprocess
import sys
import tempfile
import threading
import time
import xml.etree.ElementTree

HERE = pathlib.Path(__file__).resolve().parent
sys.path.insert(0, str(HERE.parent / "python"))
import oatmarten as oat  # noqa: E402
from oatmarten import command, looking, memory  # noqa: E402

WORK = pathlib.Path(tempfile.mkdtemp(prefix="oatmarten-"))
ENV = {**os.environ, "PYTHONPATH": str(HERE.parent / "python")}
COMMAND = [sys.executable, "-m", "oatmarten"]


def fail(what):
    print("command: " + what)
    sys.exit(1)


def same(what, got, expected):
    if got != expected:
        fail("%s\n  got      %s\n  expected %s" % (what, got, expected))


def asked(*words):
    """What the command says in this process: status, standard output, standard error."""
    out, err = io.StringIO(), io.StringIO()
    with contextlib.redirect_stdout(out), contextlib.redirect_stderr(err):
        try:
            status = command.main([str(word) for word in words])
        except SystemExit as ended:
            status = ended.code
    return status, out.getvalue(), err.getvalue()


def as_json(*words):
    status, out, _ = asked(*words, "--json")
    return status, json.loads(out)


def run(*words, **named):
    """The same as a process of its own."""
    return subprocess.run([*COMMAND, *map(str, words)], env=ENV, stdout=subprocess.PIPE, stderr=subprocess.PIPE, **named)


def independent(calls):
    told = subprocess.run([str(HERE / "independent")], input="".join(call + "\n" for call in calls), stdout=subprocess.PIPE, text=True, check=True)
    return told.stdout.splitlines()


# ---- venues and lines

def venue(chance, name):
    """A random venue file, with marks, without, or with some missing: counts, cells and path."""
    counts = [chance.randint(1, 7) for _ in range(3)]
    cells = bytearray(chance.choice((0, 0, 0, 0, 0, 1, 2, 2, 3, 255)) for _ in range(counts[0] * counts[1] * counts[2]))
    if chance.random() < 0.6:
        oat.oat_mark(counts, cells)
    if chance.random() < 0.3:
        cells[chance.randrange(len(cells))] = 0
    path = WORK / name
    path.write_bytes(oat.record_of(counts, cells) + b"rest" * chance.randrange(2))
    return counts, cells, path


def grid_words(counts, cells):
    return " ".join(map(str, [*counts, len(cells), *cells]))


def ends(chance, counts, off=0.1):
    """Two cells, now and then outside."""
    return [[chance.randint(-1, n) if chance.random() < off else chance.randrange(n) for n in counts] for _ in range(2)]


def plain_words(numbers):
    """A hit of --json in the words of tests/independent."""
    if not numbers["hit"]:
        return "clear %d" % numbers["reads"]
    return "hit %s %d %d %d %s %d" % (" ".join(map(str, numbers["cell"])), numbers["code"], *numbers["place"], numbers["face"], numbers["reads"])


def refused_words(numbers):
    return "refused %d %s %s" % (numbers["refused"], numbers["end"] or "-", numbers["axis"] or "-")


# ---- each command against the independent program

def hits(chance):
    calls, got, blocked, differ = [], [], 0, 0
    for k in range(300):
        counts, cells, path = venue(chance, "hit.venue")
        (p, q), start, rule = ends(chance, counts), chance.choice(("tested", "untested")), chance.choice((1, 2))
        status, said = as_json("hit", path, *p, *q, "--start", start, "--rule", rule)
        for name, walk in (("plain", "plain"), ("adapt", "adaptive")):
            calls.append("%s %s %s %d %d" % (name, grid_words(counts, cells), " ".join(map(str, p + q)), start == "untested", rule))
            got.append(refused_words(said) if "refused" in said else plain_words(said[walk]))
        if "refused" in said:
            same("status of a refusal", status, 2)
        else:
            same("status of hit", status, int(said["plain"]["hit"]))
            without = [{k: v for k, v in said[walk].items() if k != "reads"} for walk in ("plain", "adaptive")]
            same("whether they agree", said["agree"], without[0] == without[1])
            blocked, differ = blocked + status, differ + (not said["agree"])
    for call, one, other in zip(calls, got, independent(calls)):
        same(call, one, other)
    print("command: hit, %d answers of both walks agree, %d lines blocked, %d where the walks differ" % (len(calls), blocked, differ))


def sights(chance):
    calls, got = [], []
    for k in range(200):
        counts, cells, path = venue(chance, "sight.venue")
        origin, edge = [chance.uniform(-5, 5) for _ in range(3)], chance.choice((0.25, 1.0, 0.7))
        points = [[o + edge * chance.uniform(-0.05, n + 0.05) for o, n in zip(origin, counts)] for _ in range(2)]
        if chance.random() < 0.05:
            points[0][1] = chance.choice((float("nan"), float("inf"), float("-inf")))
        start, rule = chance.choice(("tested", "untested")), chance.choice((1, 2))
        status, said = as_json("sight", path, "--origin", *origin, "--edge", edge, *points[0], *points[1], "--start", start, "--rule", rule)
        bits = [struct.unpack("<Q", struct.pack("<d", v))[0] for v in [*origin, edge, *points[0], *points[1]]]
        calls.append("sight %s %s %d %d" % (grid_words(counts, cells), " ".join(map(str, bits)), start == "untested", rule))
        if "refused" in said:
            got.append(refused_words(said))
            same("status of a refused sight", status, 2)
        else:
            share, = struct.unpack("<Q", struct.pack("<d", said.get("share", 0.0)))
            got.append("blocked %d %s %d %d %s" % (share, " ".join(map(str, said["cell"])), said["code"], said["reads"], said["face"]) if said["blocked"] else "clear")
            same("status of sight", status, int(said["blocked"]))
    for call, one, other in zip(calls, got, independent(calls)):
        same(call, one, other)
    print("command: sight, %d answers agree" % len(calls))


def lists(chance):
    calls, got = [], []
    for k in range(120):
        p, q = [[chance.randint(-9, 9) * chance.choice((1, 1, 1, 1000)) for _ in range(3)] for _ in range(2)]
        line = chance.choice(("6", "26", "touching"))
        rule = chance.choice((1, 2))
        status, said = as_json("list", line, *p, *q, *(["--rule", rule] if line == "6" else []))
        calls.append("%s %s%s 500000" % ({"6": "six", "26": "tw6", "touching": "touch"}[line], " ".join(map(str, p + q)), " %d" % rule if line == "6" else ""))
        got.append(refused_words(said) if "refused" in said else " ".join(map(str, [n for cell in said["cells"] for n in cell])))
        same("status of list", status, 2 if "refused" in said else 0)
        if k < 6 and "cells" in said:
            same("the same in words", asked("list", line, *p, *q, *(["--rule", rule] if line == "6" else []))[1], "".join("%d %d %d\n" % tuple(c) for c in said["cells"]))
    for call, one, other in zip(calls, got, independent(calls)):
        same(call, one, other.split(" ;")[0] if one.startswith("refused") else " ".join(other.split(" ; ")[1].split()[:3 * int(other.split()[1])]) if other.startswith("ok") else other)
    print("command: list, %d lists agree" % len(calls))


def infos(chance):
    calls, got, missing = [], [], 0
    for k in range(120):
        counts, cells, path = venue(chance, "info.venue")
        status, said = as_json("info", path)
        same("kinds", [said["counts"], said["clear"], said["near"], said["solid"]],
             [counts, cells.count(0), cells.count(1), {str(code): cells.count(code) for code in range(2, 256) if code in cells}])
        same("status of info", status, int(not said["complete"]))
        out = WORK / "marked.venue"
        same("status of mark", asked("mark", path, "-o", out)[0], 0)
        data = out.read_bytes()
        same("what is around the cells", (data[:11], data[11 + len(cells):]), (path.read_bytes()[:11], path.read_bytes()[11 + len(cells):]))
        calls += ["%s %s 1" % (name, grid_words(counts, cells)) for name in ("complete", "mark")]
        marked = data[11:11 + len(cells)]
        got += ["yes" if said["complete"] else "no", "ok ; " + " ".join(map(str, marked))]
        gone = [i for i in range(len(cells)) if cells[i] == 0 and marked[i] == 1]
        same("missing marks", [said["missing"], said["first_missing"]], [len(gone), list(looking.cell_at(counts, gone[0])) if gone else None])
        same("needless marks", said["needless"], sum(cells[i] == 1 and marked[i] == 0 for i in range(len(cells))))
        same("complete", said["complete"], not gone)
        missing += bool(gone)
    for call, one, other in zip(calls, got, independent(calls)):
        same(call, one, other)
    print("command: info and mark, %d venues agree, %d of them with marks missing" % (len(calls) // 2, missing))


def compares(chance):
    calls, due = [], []
    for k in range(8):
        counts, cells, path = venue(chance, "compare.venue")
        start, rule, seed = chance.choice(("tested", "untested")), chance.choice((1, 2)), chance.randrange(1000)
        status, said = as_json("compare", path, "--lines", 60, "--seed", seed, "--start", start, "--rule", rule)
        due.append((status, said))
        for line in looking.lines(tuple(counts), 60, seed):
            calls += ["%s %s %s %d %d" % (name, grid_words(counts, cells), " ".join(map(str, line[0] + line[1])), start == "untested", rule) for name in ("plain", "adapt")]
    told = independent(calls)
    for k, (status, said) in enumerate(due):
        walks = [word.rsplit(" ", 1) for word in told[120 * k:120 * k + 120]]
        reads = [sum(int(n) for _, n in walks[side::2]) for side in (0, 1)]
        agreed = sum(walks[i][0] == walks[i + 1][0] for i in range(0, 120, 2))
        same("compare", [said["lines"], said["agreed"], said["differing"], said["plain_reads"], said["adaptive_reads"], said["blocked"]],
             [60, agreed, 60 - agreed, *reads, sum(word[0] != "clear" for word in walks[0::2])])
        same("status of compare", status, int(agreed < 60))
        same("the first that differs", said["first"] is None, agreed == 60)
    print("command: compare, %d lines by both walks agree with the independent program" % (60 * len(due)))


# ---- words, errors, files

def one_sentence(what, ended):
    """One line on standard error that begins with the command's name, and no traceback."""
    lines = ended.stderr.decode().splitlines()
    if ended.returncode != 2 or len(lines) != 1 or not lines[0].startswith("oatmarten"):
        fail("%s: status %d, standard error %r" % (what, ended.returncode, ended.stderr))
    return lines[0]


def wrong_words():
    good = WORK / "good.venue"
    good.write_bytes(oat.record_of((4, 2, 1), bytes([1, 1, 1, 0, 1, 2, 1, 0])))
    short, empty, version, counts = (WORK / name for name in ("short", "empty", "version", "counts"))
    short.write_bytes(good.read_bytes()[:-1])
    empty.write_bytes(b"")
    version.write_bytes(good.read_bytes()[:4] + b"\2" + good.read_bytes()[5:])
    counts.write_bytes(struct.pack(">IB3H", 7, 1, 0, 2, 1))
    line, survey = "0 0 0 3 1 0".split(), "--origin 0 0 0 --edge 1 0.5 0.5 0.5 3.5 1.5 0.5".split()
    out = ["-o", WORK / "never"]
    over_files = {"info": [], "mark": out, "hit": line, "sight": survey, "compare": [], "picture": [*line, *out], "coverage": ["--layer", 0, "--camera", 0, 0, 0, *out]}
    tried = 0
    for name, rest in over_files.items():
        for file, words in ((short, "refused 10"), (empty, "refused 10"), (version, "refused 11"), (counts, "refused 2"), (WORK / "none", "No such file"), (WORK, "Is a directory")):
            said = one_sentence("%s of %s" % (name, file.name), run(name, file, *rest))
            if words not in said or str(file) not in said:
                fail("%s of %s says %s" % (name, file.name, said))
            tried += 1
    for words, part in [([], "say a command"), (["fly"], "invalid choice"), (["info"], "required"), (["info", good, "more"], "unrecognized"), (["info", good, "--loud"], "unrecognized"),
                        (["hit", good, *line[:5]], "required: Q"), (["hit", good, *line[:5], "x"], "no whole number"), (["hit", good, *line[:5], "1.5"], "no whole number"),
                        (["hit", good, *line[:5], "9"], "refused 5"), (["hit", good, *line[:5], 2**31], "from -2147483648 to 2147483647"), (["hit", good, *line, "--rule", 3], "invalid choice"),
                        (["hit", good, *line, "--start", "solid"], "invalid choice"), (["sight", good, *survey[4:]], "required"), (["sight", good, *survey[:-1], "nine"], "no number"),
                        (["sight", good, *survey[:-1], "1e300"], "refused 9"), (["sight", good, *survey[:-1], "-1e-3"], "refused 9: a surveyed value outside the grid, ball, z"),
                        (["sight", good, *survey[:5], "-1", *survey[6:]], "refused 7"), (["list", "18", *line], "invalid choice"), (["list", "26", *line, "--rule", 1], "knows none"),
                        (["list", "6", *line[:5], 8192], "refused 1"), (["compare", good, "--lines", 0], "not above 0"), (["mark", good], "required"),
                        (["mark", good, "-o", WORK / "no" / "where"], "No such file"), (["mark", good, "-o", WORK], "Is a directory"), (["picture", good, *line, "--layer", 7, *out], "refused 4"),
                        (["coverage", good, "--layer", 0, *out], "name a camera"), (["coverage", good, "--layer", 0, "--camera", 9, 0, 0, *out], "refused 5"),
                        (["make", WORK / "none", *out], "cannot be read"), (["make", good], "required")]:
        said = one_sentence(" ".join(map(str, words)), run(*words))
        if part not in said:
            fail("%s says %s" % (words, said))
        tried += 1
    same("files of commands that failed", [name for name in os.listdir(WORK) if name in ("never", "no") or name.startswith(".")], [])
    for name in (None, *over_files, "list", "make"):
        told = run(*([name] if name else []), "--help")
        same("help of %s" % name, (told.returncode, told.stdout.startswith(b"usage: oatmarten"), told.stderr), (0, True, b""))
    print("command: %d wrong words and files, each told in one sentence with status 2, and nothing written; help for each command" % tried)


def streams():
    """Standard input and output; outputs that fail, or are interrupted, leave no file and a status that is not 0."""
    good = WORK / "good.venue"
    same("info of standard input", run("info", "-", stdin=good.open("rb")).stdout, run("info", good).stdout)
    told = run("mark", "-", "-o", "-", stdin=good.open("rb"))
    same("mark from standard input to standard output", (told.returncode, told.stdout), (0, good.read_bytes()))
    one_sentence("nothing on standard input", run("info", "-", stdin=subprocess.DEVNULL))
    if os.path.exists("/dev/full"):
        for words in (["info", good], ["list", "6", *"000999"], ["--version"]):
            with open("/dev/full", "wb") as full:
                ended = subprocess.run([*COMMAND, *map(str, words)], env=ENV, stdout=full, stderr=subprocess.PIPE)
            one_sentence("%s to a full disk" % words, ended)
        one_sentence("mark to a full disk", run("mark", good, "-o", "/dev/full"))
    else:
        print("command: a full disk SKIPPED, there is no /dev/full")
    # a reader that goes away
    reader = subprocess.Popen([*COMMAND, "list", "6", *"0 0 0 8000 8000 8000".split()], env=ENV, stdout=subprocess.PIPE, stderr=subprocess.PIPE)
    reader.stdout.close()
    same("a closed pipe", (reader.stderr.read().count(b"\n"), reader.wait()), (1, 2))
    closed(good)
    large(good)
    print("command: standard input and output, a full disk, a closed pipe, a limit on the size of files, an interruption: no half file, and a status that is not 0")


def shell(words, **more):
    return subprocess.run(["bash", "-c", words], env={**ENV, "O": " ".join(COMMAND), "V": str(WORK / "good.venue"), **more}, stdout=subprocess.PIPE, stderr=subprocess.PIPE)


def closed(good):
    """Streams that are closed, names that standard output cannot write, output that is not buffered."""
    for words in ("$O hit $V 0 0 0 3 1 0 >&-", "$O info $V >&-", "$O --version >&-", "$O mark $V -o - >&-", "$O info - <&-", "$O mark - -o x <&-", "$O make - -o x <&-", "$O --help >&-"):
        one_sentence(words, shell(words))
    same("standard error is closed", (shell("$O info $V 2>&-").returncode, shell("$O compare $V --lines 9 2>&-").returncode), (0, 0))
    told = shell("$O hit $V 0 0 0 99 0 0 --json 2>&-")
    same("an error with standard error closed", (told.returncode, json.loads(told.stdout)["refused"]), (2, 5))
    odd = WORK / "\u00fc\u2603.venue"
    for encoding in ("ascii", "utf-8:strict"):
        told = shell('$O mark $V -o "$OUT"', OUT=str(odd), PYTHONIOENCODING=encoding)
        same("a name that standard output cannot write", (told.returncode, odd.read_bytes() == good.read_bytes(), told.stderr), (0, True, b""))
    for unbuffered in ("", "1"):
        told = shell("ulimit -f 1; trap '' XFSZ; $O list 6 0 0 0 900 900 900 --json >%s/cut" % WORK, PYTHONUNBUFFERED=unbuffered)
        one_sentence("a limit, not buffered", told)
    log = WORK / "log"
    for name in ("/dev/stdout", "/dev/fd/1"):
        told = shell("{ echo head; $O mark $V -o %s; echo tail; } >>%s" % (name, log))
        same("output by another name", (told.returncode, log.read_bytes()), (0, b"head\n" + good.read_bytes() + b"tail\n"))
        log.unlink()
    same("a pipe by another name", shell("$O mark $V -o /dev/stdout | cat").stdout, good.read_bytes())
    told = shell("trap '' HUP; $O compare $V --lines 60000 & p=$!; sleep 1; kill -HUP $p 2>/dev/null || true; wait $p")
    same("a signal that is ignored", (told.returncode, told.stderr), (0, b""))
    for words, part in (("$O hit $V x 0 0 1 1 1 --json", "no whole number"), ("$O hit $V 9 0 0 1 1 1 --json", "refused 5"), ("$O fly --json", "invalid choice")):
        told = shell(words)
        same(words, (told.returncode, part in json.loads(told.stdout)["error"]), (2, True))
    same("the revision for machines", json.loads(shell("$O --version --json").stdout)["revision"], oat.OAT_REVISION)
    for words in ("$O picture $V 0 0 0 1 0 0 -o $V", "$O make $V -o $V"):
        one_sentence(words, shell(words))
    same("what it was made of", oat.Venue.open(str(good)).counts, (4, 2, 1))
    for words in ("$O info $V $'a\\nb\\e[31m'", "$O mark /proc/self/mem -o x", "$O list 6 0 0 0 0 0 %s" % ("9" * 900)):
        if len(one_sentence(words, shell(words))) > 300:
            fail("%s: a long sentence" % words[:40])
    same("an error for machines", json.loads(shell("$O info /none --json").stdout), {"error": "/none cannot be read: No such file or directory"})
    if "the library /none cannot be loaded" not in one_sentence("no library", shell("OATMARTEN_LIBRARY=/none $O --version")):
        fail("--version without a library")


def large(good):
    """A large output under a limit, and one that is interrupted."""
    big, out = WORK / "big.venue", WORK / "big.marked"
    with big.open("wb") as file:
        file.write(struct.pack(">IB3H", 7 + 2**26, 1, 1024, 1024, 64))
        file.truncate(11 + 2**26)

    def limited():
        signal.signal(signal.SIGXFSZ, signal.SIG_IGN)
        resource.setrlimit(resource.RLIMIT_FSIZE, (2**24, 2**24))
    one_sentence("a limit on the size of files", run("mark", big, "-o", out, preexec_fn=limited))
    for k, number in enumerate([signal.SIGINT, signal.SIGTERM, signal.SIGQUIT] * 4):
        words = ["compare", str(big), "--lines", "100000000"] if k < 3 else ["info", str(big)]
        interrupted(words, number, 0.5 if k < 3 else 0.15 + 0.03 * k)
    same("what is left", [name for name in os.listdir(WORK) if name.startswith((".", "big.marked"))], [])


def interrupted(words, number, wait):
    """A signal some time after the start; a process that had not begun yet is given more time."""
    for _ in range(8):
        # a job in the background is started with some signals ignored, and so would this be
        process = subprocess.Popen([*COMMAND, *words], env=ENV, stdout=subprocess.PIPE, stderr=subprocess.PIPE, preexec_fn=lambda: signal.signal(number, signal.SIG_DFL))
        time.sleep(wait)
        process.send_signal(number)
        out_said, err_said = process.communicate(timeout=120)
        if process.returncode == 0 and words[0] == "info":  # it was done before
            return
        if process.returncode != -number:
            same("%s, interrupted by %d" % (words[0], number), (process.returncode, b"Traceback" in err_said, out_said), (128 + number, False, b""))
            return
        wait *= 1.6
    fail("no signal reached the command at work")


def in_place():
    """A venue of 1024 x 1024 x 64 cells, by memory map: marked in the file, and looked at there."""
    path, chance = WORK / "big.venue", random.Random(5)
    solid = [(chance.randrange(1024), chance.randrange(1024), chance.randrange(64)) for _ in range(200)]
    with oat.Venue.open(str(path), writable=True) as venue:
        for x, y, z in solid:
            venue.cells[x + 1024 * (y + 1024 * z)] = 9
        same("before", oat.oat_complete(venue.counts, venue.held).yes, 0)
        oat.oat_mark(venue.counts, venue.held)
        same("after", oat.oat_complete(venue.counts, venue.held).yes, 1)
    near = {(x + a, y + b, z + c) for x, y, z in solid for a in (-1, 0, 1) for b in (-1, 0, 1) for c in (-1, 0, 1)
            if 0 <= x + a < 1024 and 0 <= y + b < 1024 and 0 <= z + c < 64} - set(solid)
    data = path.read_bytes()
    same("the length of the file", len(data), 11 + 2**26)
    same("cells that are marked", {looking.cell_at((1024, 1024, 64), i - 11) for i in indices(data, 1)}, near)
    status, said = as_json("info", path)
    same("info of it", (status, said["near"], said["solid"], said["complete"]), (0, len(near), {"9": len(set(solid))}, True))
    with oat.Venue.open(str(path)) as venue:
        try:
            oat.oat_mark(venue.counts, venue.cells)
            fail("a map for reading was marked")
        except BufferError:
            pass
    print("command: a venue of 1024 x 1024 x 64 marked and looked at in its file")


def indices(data, byte):
    at = data.find(bytes([byte]), 11)
    while at >= 0:
        yield at
        at = data.find(bytes([byte]), at + 1)


def drawn():
    """README's pictures are those that the command draws of the demo's ground; what it makes of that ground is what the demo has stored."""
    ground, docs = HERE.parent / "demo" / "ground.txt", HERE.parent / "docs"
    for stored, words in (("marked.records", []), ("bare.records", ["--bare"])):
        out = WORK / stored
        same("make " + stored, run("make", ground, "--pairs", *words, "-o", out).returncode, 0)
        if out.read_bytes() != (HERE.parent / "demo" / stored).read_bytes():
            fail("demo/%s is not what oatmarten make --pairs %s makes of demo/ground.txt" % (stored, " ".join(words)))
    for stored, words in (("walks.svg", ["picture", WORK / "bare.records", *"20 12 7 36 8 0".split()]),
                          ("coverage.svg", ["coverage", WORK / "marked.records", "--layer", 1, "--cameras", ground])):
        same("the words of " + stored, run(*words, "-o", WORK / stored).stdout.decode(), "%s\n" % (WORK / stored))
        if (WORK / stored).read_bytes() != (docs / stored).read_bytes():
            fail("docs/%s is not what oatmarten %s draws" % (stored, " ".join(map(str, words))))
        xml.etree.ElementTree.parse(WORK / stored)
    pages(ground)
    by_hand = run("coverage", WORK / "marked.records", "--layer", 1, *"--camera 20 12 7 --camera 8 3 1".split(), "-o", "-")
    same("cameras by hand", (by_hand.returncode, b"How many of 2 cameras" in by_hand.stdout), (0, True))
    print("command: README's pictures and the demo's records are what the command makes")


def pages(ground):
    """What README and docs/PYTHON.md show, as it stands there: the shell's words and the programs run, and what a command prints is that."""
    place = WORK / "pages"
    place.mkdir()
    (place / "demo").mkdir()
    (place / "demo" / "ground.txt").write_bytes(ground.read_bytes())
    readme, guide = [(HERE.parent / name).read_text() for name in ("README.md", "docs/PYTHON.md")]
    commands = [line.split("#")[0].split() for line in readme.splitlines() if line.startswith("oatmarten ")]
    for words in commands:
        told = subprocess.run([*COMMAND, *words[1:]], env=ENV, cwd=place, stdout=subprocess.PIPE, stderr=subprocess.PIPE)
        same(" ".join(words), (told.returncode, told.stderr), (int(words[1] == "hit"), b""))
    programs = [text for page in (readme, guide) for text in re.findall(r"^```python\n(.*?)^```$", page, re.M | re.S)]
    for text in programs:
        subprocess.run([sys.executable, "-c", text], env=ENV, cwd=place, stdout=subprocess.DEVNULL, check=True)
    shown = re.findall(r"^```text\n\$ oatmarten (.*?)\n(.*?)^```$", guide, re.M | re.S)
    for words, printed in shown:
        same(words, subprocess.run([*COMMAND, *words.split()], env=ENV, cwd=place, stdout=subprocess.PIPE).stdout.decode(), printed)
    described = [text for text in re.findall(r"^```text\n(.*?)^```$", guide, re.M | re.S) if text.startswith("grid ")]
    for text in described:
        (place / "described.txt").write_text(text)
        same("the description of the page", subprocess.run([*COMMAND, "make", "described.txt", "--pairs", "-o", "x"], env=ENV, cwd=place, stdout=subprocess.DEVNULL).returncode, 0)
    same("what the pages show", (len(commands) >= 5, len(programs), len(shown), len(described)), (True, 2, 1, 1))


def memories():
    """What may be lent, and what is not taken."""
    import array
    n, cells = (4, 2, 1), bytes([0, 0, 0, 0, 0, 2, 0, 0])
    for what, lent, error in (("a number", 7, TypeError), ("every other byte", memoryview(bytearray(16))[::2], BufferError), ("a list", [0] * 8, TypeError),
                              ("numbers of two bytes", array.array("H", [0] * 4), TypeError), ("truth values", memoryview(bytearray(8)).cast("?"), TypeError)):
        try:
            oat.oat_plain(n, lent, (0, 0, 0), (3, 1, 0))
            fail("%s was lent" % what)
        except error:
            pass
    swapped = (ctypes.c_int32.__ctype_be__ * 30)()
    for what, lent in (("numbers of 64 bits", array.array("q", [0] * 30)), ("floats", array.array("f", [0.0] * 30)), ("numbers the other way round", swapped)):
        try:
            oat.oat_line6((0, 0, 0), (2, 1, 0), lent)
            fail("%s were lent for a list" % what)
        except TypeError:
            pass
    both = bytearray(64)
    for what, call in (("overlap", lambda: oat.oat_write_venue(n, memoryview(both)[:8], memoryview(both)[4:])),
                       ("not aligned", lambda: oat.oat_build(n, cells, memoryview(bytearray(64))[1:])),
                       ("released", lambda: oat.oat_plain(n, gone, (0, 0, 0), (3, 1, 0)))):
        gone = oat.Lent(cells)
        gone.release()
        try:
            call()
            fail("memory was lent that is %s" % what)
        except ValueError:
            pass
    for what, call in (("a coordinate", lambda: oat.oat_plain(n, cells, (0, 0, 0), (2**31, 0, 0))), ("a rule", lambda: oat.oat_line6((0, 0, 0), (1, 0, 0), array.array("i", [0] * 9), 2**32)),
                       ("a byte", lambda: oat.oat_set(n, bytearray(cells), array.array("Q", [32]), 1, (0, 0, 0), 256)), ("a total", lambda: oat.oat_set(n, bytearray(cells), array.array("Q", [32]), -1, (0, 0, 0), 2)),
                       ("a cell", lambda: oat.oat_cell(2**32 + 1, 2, 2)), ("counts", lambda: oat.oat_counts(-1, 4, 4)), ("a field", lambda: setattr(oat.oat_cell(0, 0, 0), "x", 2**31))):
        try:
            call()
            fail("%s was cut" % what)
        except OverflowError:
            pass
    own = memoryview(oat.record_of(n, oat.Lent(cells)))
    with oat.Venue(own):
        pass
    same("a view of the caller's own", own[4], 1)
    held = bytearray(cells)
    with oat.Lent(held):
        try:
            held.append(0)
            fail("memory that is held was resized")
        except BufferError:
            pass
    held.append(0)
    threads()
    try:
        import numpy
    except ImportError:
        print("command: numpy SKIPPED, it is not there")
    else:
        a = numpy.zeros((1, 2, 4), numpy.uint8)
        a[0, 1, 1] = 2
        oat.oat_mark(n, a)
        same("a numpy array, marked where it lies", a.tobytes(), bytes([1, 1, 1, 0, 1, 2, 1, 0]))
    print("command: memory that cannot be lent, overlaps, is not aligned or was given back is not taken, and no number is cut")


def threads():
    """Memory is given back when the calls that run over it are done; calls run at the same time."""
    path = WORK / "big.venue"
    venue = oat.Venue.open(str(path))
    with memory.lent(venue.held, False, 1, "cells") as held:  # as a call in another thread does
        venue.close()
        same("memory under a call", ctypes.string_at(held.at, 4), bytes(path.read_bytes()[11:15]))
        try:
            oat.oat_complete(venue.counts, venue.held)
            fail("a venue that was closed was lent")
        except ValueError:
            pass
    same("memory after it", held._taken, False)
    venue, said = oat.Venue.open(str(path)), []
    running = [threading.Thread(target=lambda: said.append(oat.oat_build(venue.counts, venue.held, bytearray(8 * oat.OAT_MASKS(*venue.counts))).total)) for _ in range(3)]
    for thread in running:
        thread.start()
    for thread in running:
        thread.join()
    same("three at once", len(set(said)), 1)
    venue.close()
    with oat.Venue.open(str(path)) as venue:
        view = memoryview(venue.cells)[:4]
    same("a view that outlives its venue", len(view), 4)


def libraries():
    """The library that OATMARTEN_LIBRARY names; what is no library is told in a sentence."""
    for name, words in ((str(WORK / "none.so"), "cannot be loaded"), (str(WORK / "good.venue"), "cannot be loaded"), ("libc.so.6", "cannot be loaded")):
        ended = subprocess.run([*COMMAND, "list", "6", *"000111"], env={**ENV, "OATMARTEN_LIBRARY": name}, stdout=subprocess.PIPE, stderr=subprocess.PIPE)
        said = one_sentence("the library " + name, ended)
        if words not in said:
            fail("the library %s: %s" % (name, said))
    print("command: a library that is none is told in a sentence")


def main():
    chance = random.Random(20)
    for test in (hits, sights, lists, infos, compares):
        test(chance)
    for test in (wrong_words, streams, in_place, drawn, memories, libraries):
        test()


try:
    main()
finally:
    import shutil
    shutil.rmtree(WORK, ignore_errors=True)
