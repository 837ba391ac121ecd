#!/usr/bin/env python3
"""Brings this repository's own names of definitions and lemmas to today's spelling: words in snake case, types in camel case.

usage: tools/respell.py        at the top of the repository, once, straight after port.py

A name is this repository's own where a file of specs/ or proofs/ declares it. It is respelled wherever it stands as a whole word in an
.antt file, in the clauses, ghost items and ghost imports of an .rt file, and in the texts of must-fail edits. Comments are respelled where they
quote a name. Functions of src/, exported names and strings keep theirs. Two names that would fall together stop the script before
anything is written.
"""
import glob
import os
import re
import sys

# what a hyphen's turn into an underscore alone would leave unreadable
ODD = {
    "T→true": "true_of_is_true",
    "true→T": "is_true_of_true",
    "false→T-not": "is_true_not_of_false",
    "T-not→false": "false_of_is_true_not",
    "T_true": "is_true_iff",
    "and-both-T": "and_both_is_true",
    "total-T": "total_is_true",
    "apart-T": "apart_is_true",
    "back-T": "back_is_true",
    "compared-T": "compared_is_true",
    "Seen-there": "SeenThere",
    "Seen-back": "SeenBack",
    "Ball-on-walls": "BallOnWalls",
    "Camera-on-walls": "CameraOnWalls",
    "Found-there": "FoundThere",
    "Found-on-wall": "FoundOnWall",
    "Found-behind": "FoundBehind",
}
# a character that a name may have; a dot ends one
LETTER = r"[^\s(){}\[\],;.«»:`\"]"
WORD = re.compile(r"(?<![^\s(){}\[\],;.«»:`\"])" + LETTER + "+")
DECLARED = re.compile(r"^\s*(?:where +)?(?:unfoldable |abbrev |pub |data |record |ruleset |infix[lr]? \d+ )*([^\s:(){}]+) *(?:\([^)]*\) *|\{[^}]*\} *)*:(?: |$)")
QUOTED = re.compile(r"`[^`\n]*`")
GHOST = re.compile(r"\b(ghost use|ghost|requires\*?|ensures\*?)\b")


def turned(name):
    if name in ODD:
        return ODD[name]
    name = name.replace("leZ", "le_z").replace("ltZ", "lt_z")
    return name.replace("-", "_")


def texts(*patterns):
    return sorted(f for p in patterns for f in glob.glob(p, recursive=True) if "/out/" not in f)


def own_names():
    names = set()
    for f in texts("crates/*/specs/**/*.antt", "crates/*/proofs/*.antt"):
        for line in open(f, encoding="utf-8"):
            m = None if line.lstrip().startswith("--") else DECLARED.match(line)
            if m and (m[1] in ODD or re.fullmatch(r"[≤<]?ℤ?[A-Za-z][\w'-]*|[≤<]ℤ-is", m[1])) and turned(m[1]) != m[1]:
                names.add(m[1])
    return {n: turned(n) for n in names}


def words(t, names):
    return WORD.sub(lambda m: names.get(m[0], m[0]), t)


def in_antt(t, names):
    out = []
    for line in t.split("\n"):
        code, mark, said = line, "", ""
        m = re.search(r"(^|\s)--(\s|$)", line)
        if m:
            code, mark, said = line[: m.start()] + m[1], "--", line[m.start() + len(m[1]) + 2 :]
        out.append(words(code, names) + mark + QUOTED.sub(lambda q: words(q[0], names), said))
    return "\n".join(out)


def closing(t, i):
    deep = 0
    for k in range(i, len(t)):
        deep += (t[k] == "{") - (t[k] == "}")
        if not deep:
            return k + 1
    return len(t)


def in_rt(t, names):
    """The clauses and ghost items by braces, comments where they quote."""
    lines = re.sub(r"//[^\n]*", lambda m: QUOTED.sub(lambda q: words(q[0], names), m[0]), t)
    out, i = [], 0
    while i < len(lines):
        if lines.startswith("//", i):
            j = lines.find("\n", i)
            j = len(lines) if j < 0 else j
            out.append(lines[i:j])
            i = j
            continue
        m = GHOST.match(lines, i) if (i == 0 or not (lines[i - 1].isalnum() or lines[i - 1] == "_")) else None
        if m:
            if m[1] == "ghost use":
                j = lines.index(";", i) + 1
            else:
                brace, semi = lines.find("{", i), lines.find(";", i)
                j = closing(lines, brace) if brace >= 0 else i + 1
            out.append(words(lines[i:j], names))
            i = j
            continue
        out.append(lines[i])
        i += 1
    return "".join(out)


def main():
    names = own_names()
    back = {}
    for old, new in names.items():
        back.setdefault(new, []).append(old)
    clash = [f"{olds} would all be {new}" for new, olds in back.items() if len(olds) > 1]
    # an own name of that spelling already
    declared = {}
    for f in texts("crates/*/specs/**/*.antt", "crates/*/proofs/*.antt"):
        for line in open(f, encoding="utf-8"):
            m = None if line.lstrip().startswith("--") else DECLARED.match(line)
            if m:
                declared.setdefault(m[1], f)
    clash += [f"{old} would be {new}, which {declared[new]} declares" for old, new in names.items() if new in declared]
    clash = [c for c in clash if c not in ALLOWED]
    if clash:
        print("\n".join(clash))
        sys.exit(1)
    for f in texts("crates/**/*.antt", "crates/*/src/**/*.rt", "crates/*/must-fail/*.edit"):
        t = open(f, encoding="utf-8").read()
        if f.endswith(".antt"):
            new = in_antt(t, names)
        elif f.endswith(".rt"):
            new = in_rt(t, names)
        else:
            new = "\n".join(line if line.startswith("file:") else words(line, names) for line in t.split("\n"))
        if new != t:
            open(f, "w", encoding="utf-8").write(new)
    print(f"respell: {len(names)} names")


# pairs of names that stay apart since they stand in different modules, none of which sees the other
ALLOWED = set()

if __name__ == "__main__":
    os.chdir(os.path.join(os.path.dirname(os.path.abspath(__file__)), ".."))
    main()
