"""What is timed, built and loaded: the library of this tree, the plain C, and the library of an earlier commit.

Each stands in a shared object with the loops of its own tree. Where code lies in memory moves times by a tenth on some processors, with not a byte of
it changed, so every object is linked in several orders; and in each order a function begins at the same place of a line of the processor's cache,
whatever stands before it, so that one that did not change takes the same time in both trees."""
import ctypes
import io
import pathlib
import platform
import re
import shutil
import subprocess
import sys
import tarfile
import tempfile

ROOT = pathlib.Path(__file__).resolve().parent.parent
MACHINE = platform.machine()
ORDERS, LINE = range(4), 64
WORDS = [ctypes.c_uint64] * 8
LOOP = ctypes.CFUNCTYPE(ctypes.c_uint64, *WORDS)


def fail(what):
    print("bench/run: " + what, file=sys.stderr)
    sys.exit(2)


def say(what):
    print("bench/run: " + what, file=sys.stderr, flush=True)


def kit():
    rt = shutil.which("rt") or fail("rt is not there; the library is built by the Rattle toolchain")
    return pathlib.Path(rt).resolve().parent.parent


class Engine:
    """functions of one kind, PREFIX_CALL, and the loops around them, in each link order; of each loop the one whose name ends so"""

    def __init__(self, name, prefix, objects, ending=""):
        self.name, self.prefix, self.objects, self.ending = name, prefix, objects, ending

    def by(self, name, ending):
        """the same functions in loops of another ending"""
        return Engine(name, self.prefix, self.objects, ending)

    def only(self, name, loop, call):
        """this loop around this function, whatever loop and function are asked for"""
        return One(name, self.prefix, self.objects, loop, call)

    def address(self, order, symbol):
        return ctypes.cast(self.objects[order][symbol], ctypes.c_void_p).value

    def has(self, loop, call):
        return all(hasattr(held, symbol) for held in self.objects for symbol in (loop + self.ending, f"{self.prefix}_{call}"))

    def lacks(self, calls):
        """those of these calls that it has no function for"""
        return [call for call in calls if not all(hasattr(held, f"{self.prefix}_{call}") for held in self.objects)]

    def piece(self, order, loop, call, *words):
        """a loop, and the words that it takes: a call, and what follows"""
        return self.address(order, loop + self.ending), (ctypes.c_uint64 * 8)(self.address(order, f"{self.prefix}_{call}"), *words)

    def ask(self, loop, call, *words):
        """what a loop gives"""
        run, held = self.piece(0, loop, call, *words)
        return LOOP(run)(*held)


class One(Engine):
    """one function in one loop, to take turns with another one of the same words"""

    def __init__(self, name, prefix, objects, loop, call):
        super().__init__(name, prefix, objects)
        self.loop, self.call = loop, call

    def piece(self, order, loop, call, *words):
        return super().piece(order, self.loop, self.call, *words)


class Workshop:
    """compilers, the linker, and a folder for what they make"""

    def __init__(self, work):
        self.work, self.tools = work, kit() / "toolchain/bin"
        self.clang = [self.tools / "clang", f"--target={MACHINE}-unknown-linux-gnu", "-nostdinc", "-isystem", ROOT / "tests/headers"]
        self.compilers = {"clang": (self.clang, "the kit's " + version(self.tools / "clang"))}
        if shutil.which("gcc"):
            self.compilers["gcc"] = (["gcc"], version("gcc"))

    def compiled(self, command, source, name, *flags, quiet=False):
        """the object of a C file, or None where it was not compiled"""
        out = self.work / f"{name}.o"
        done = subprocess.run([*command, "-fPIC", "-Wall", "-Wextra", "-ffunction-sections", *flags, "-c", source, "-o", out],
                              stderr=subprocess.DEVNULL if quiet else None)
        return None if done.returncode else out

    def part(self, command, source, name, *flags):
        return self.compiled(command, source, name, *flags) or fail(f"{source} was not compiled, as said above")

    def loops(self, source, name, quiet=False):
        """the loops around a library, which is called as on x86-64 (bench/retarget)"""
        if MACHINE == "x86_64":
            return self.compiled(self.clang, source, name, "-O2", quiet=quiet)
        clang, out = [self.clang[0], "--target=x86_64-unknown-linux-gnu", *self.clang[2:]], self.work / f"{name}.o"
        module = self.compiled(clang, source, f"{name}-x86", "-O2", "-emit-llvm", quiet=quiet)
        return out if module and not subprocess.run([ROOT / "bench/retarget", module, out]).returncode else None

    def linked(self, name, objects, order=0):
        """a shared object of these, in one of the link orders"""
        shared, found, script = [self.work / f"{name}-{order}{end}" for end in (".so", ".map", ".ld")]
        link = [self.tools / "ld.lld", "-shared", "-o", shared, "--whole-archive", *objects]
        if subprocess.run([*link, f"-Map={found}"]).returncode:
            fail(f"{name} was not linked, as said above")
        script.write_text(layout(re.findall(r"(\S+):\((\.text[^)]*)\)$", found.read_text(), re.M), order))
        if subprocess.run([*link, "-T", script]).returncode:
            fail(f"{name} was not linked in order {order}, as said above")
        return ctypes.CDLL(str(shared))


def layout(functions, order):
    """A linker script for functions, each with its file: file after file, each one's functions forwards or backwards, and each so many bytes behind the
    start of a cache line. Compilers let functions begin at multiples of 16 bytes on x86-64, and of 4 on Arm."""
    start = order * (16 if MACHINE == "x86_64" else 20)
    files = list(dict.fromkeys(file for file, _ in functions))
    ordered = [name for file in files for name in [name for its, name in functions if its == file][::-1 if order % 2 else 1]]
    placed = "\n".join(f'. = ALIGN({LINE}) + {start}; *("{name}")' for name in dict.fromkeys(ordered))
    return f"""SECTIONS {{
. = SIZEOF_HEADERS;
.rodata : {{ *(.rodata .rodata.*) }}
.text ALIGN(CONSTANT(MAXPAGESIZE)) : {{
{placed}
}}
.plt : {{ *(.plt) }}
.dynamic ALIGN(CONSTANT(MAXPAGESIZE)) : {{ *(.dynamic) }}
}}
"""


def version(command):
    return subprocess.run([command, "--version"], check=True, capture_output=True, text=True).stdout.splitlines()[0]


# ---- this tree

def helpers(shop):
    """the timer and the stadium"""
    tools = shop.linked("tools", [shop.part(shop.clang, ROOT / f"bench/{name}.c", name, "-O2") for name in ("timing", "stadium")])
    tools.timed.restype = ctypes.c_uint64
    return tools


def how_built():
    return "the archive of `rt lib` as it is" if MACHINE == "x86_64" else \
        f"the library's modules compiled for {MACHINE}, for timing alone: what ships is for x86-64"


def library():
    """the library of this tree, built first where it is out of date"""
    if MACHINE == "x86_64":
        done = subprocess.run([ROOT / "tests/archive"], stdout=subprocess.PIPE, text=True)
        return ROOT / done.stdout.strip() if not done.returncode else fail("the archive could not be built, as said above")
    held = ROOT / "target/bench/library.o"
    held.parent.mkdir(parents=True, exist_ok=True)
    sources = [ROOT / "crates.txt", ROOT / "bench/native-archive", *ROOT.glob("crates/*/src/**/*")]
    if not held.exists() or any(source.stat().st_mtime > held.stat().st_mtime for source in sources):
        say(f"builds the library for {MACHINE}; what it rests on is proved first, where that was not kept")
        native(ROOT, held, "the library")
    return held


def native(tree, out, what):
    if subprocess.run([ROOT / "bench/native-archive", "oatmarten_c", out], cwd=tree, stdout=sys.stderr).returncode:
        fail(f"{what} could not be built, as said above")


def around(shop):
    """the library of this tree, and then its loops: where its code lies does not hang on theirs"""
    return [library(), shop.loops(ROOT / "bench/loops.c", "loops") or fail("bench/loops.c was not compiled, as said above")]


def contestants(shop, orders):
    """the library and the plain C by each compiler"""
    plain = [shop.part(command, ROOT / "bench/plain.c", name, "-O3", f"-DBY(x)={name}_##x") for name, (command, _) in shop.compilers.items()]
    plain.append(shop.part(shop.clang, ROOT / "bench/loops.c", "plain-loops", "-O2"))
    ours, theirs = [[shop.linked(name, objects, order) for order in orders] for name, objects in (("library", around(shop)), ("plain", plain))]
    return [Engine("library", "oat", ours), *[Engine(name, name, theirs) for name in shop.compilers]]


# ---- an earlier commit

def git(*words):
    done = subprocess.run(["git", "-C", ROOT, *words], stdout=subprocess.PIPE, stderr=subprocess.PIPE)
    return None if done.returncode else done.stdout


def commit_of(rev):
    """the commit that a word names, with how people read it"""
    if not shutil.which("git") or git("rev-parse", "--git-dir") is None:
        fail("--against takes an earlier commit out of the git history, and there is none here")
    found = git("rev-parse", "--verify", "--quiet", "--end-of-options", rev + "^{commit}") or fail(f"git knows no commit '{rev}'")
    commit = found.decode().strip()
    if git("cat-file", "-e", f"{commit}:include/oatmarten.h") is None:
        fail(f"'{rev}' is older than the C interface: it has no include/oatmarten.h")
    if git("cat-file", "-e", f"{commit}:crates/oatmarten_c") is None:
        fail(f"'{rev}' was written for an older toolchain, and this one cannot build its library: it has no crate oatmarten_c")
    return commit, git("log", "-1", "--format=%h, %s", commit).decode().strip()


def earlier(rev, commit):
    """A folder with the library of that commit, its header and its loops. It is built once, apart, and kept below target/."""
    kept, made_by = ROOT / "target/against" / commit, f"{MACHINE}, {(kit() / 'KIT-ID').read_text()}"
    if (kept / "made-by").exists() and (kept / "made-by").read_text() == made_by:
        return kept
    kept.parent.mkdir(parents=True, exist_ok=True)
    say(f"builds the library of {rev} apart; what is not proved here already is proved first. It is kept for the next time")
    with tempfile.TemporaryDirectory(dir=kept.parent) as work:
        tree, new = pathlib.Path(work) / "tree", pathlib.Path(work) / "new"
        with tarfile.open(fileobj=io.BytesIO(git("archive", "--format=tar", commit))) as tar:
            tar.extraction_filter = getattr(tarfile, "data_filter", lambda member, _: member)
            tar.extractall(tree)
        new.mkdir()
        build(tree, new / "library", rev)
        shutil.copytree(tree / "include", new / "include")
        if (tree / "bench/loops.c").exists():
            (new / "bench").mkdir()
            shutil.copy(tree / "bench/loops.c", new / "bench/loops.c")
        (new / "made-by").write_text(made_by)
        shutil.rmtree(kept, ignore_errors=True)
        new.rename(kept)
    return kept


def build(tree, out, rev):
    """rt takes what it proved of the same files in this tree"""
    if MACHINE != "x86_64":
        return native(tree, out, f"the library of {rev}")
    crate = tree / "crates/oatmarten_c"
    if subprocess.run(["rt", "lib", "--cpu", "x86-64"], cwd=crate, stdout=sys.stderr).returncode:
        fail(f"the library of {rev} could not be built, as said above")
    shutil.copy(crate / "out/liboatmarten_c.a", out)


def loops_of(shop, kept, rev):
    """The loops for an earlier commit, compiled against its header: those of this tree where they can be, so that both sides run the same ones;
    where a call takes or answers something else by now, its own. (object, whose)"""
    staged = shop.work / "earlier"
    shutil.copytree(kept, staged)
    (staged / "here").mkdir()
    shutil.copy(ROOT / "bench/loops.c", staged / "here/loops.c")
    if loops := shop.loops(staged / "here/loops.c", "earlier-loops", quiet=True):
        return loops, "the loops of this tree"
    if not (staged / "bench/loops.c").exists():
        fail(f"'{rev}' has no bench/loops.c of its own, and this tree's does not fit its header")
    loops = shop.loops(staged / "bench/loops.c", "earlier-loops") or fail(f"bench/loops.c of '{rev}' was not compiled, as said above")
    return loops, "its own loops: the interface is another one by now"


def two_trees(shop, rev, commit):
    """this tree's library and that of an earlier commit; and whose loops the earlier one has"""
    kept = earlier(rev, commit)
    loops, whose = loops_of(shop, kept, rev)
    return [Engine(name, "oat", [shop.linked(name, objects, order) for order in ORDERS])
            for name, objects in (("here", around(shop)), ("earlier", [kept / "library", loops]))], whose
