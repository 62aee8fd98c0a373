#!/usr/bin/env python3
"""Lists the clauses that are too long to be read aloud, those of more than 240 characters, and fails where there is one.

docs/clauses.py          prints each with its place, its name and its length, the longest first, and then how many there are
docs/clauses.py CRATE..  those of these crates

Looked at are the clauses (`requires` and `ensures`) of each .rt file, and the types of the lemmas in the files of laws: those
of proofs/ that a crate's src/laws.rt names, or the proofs of its functions do. Blanks and ends of lines count as one character.
"""
import glob
import os
import re
import sys

TOP = os.path.dirname(os.path.dirname(os.path.abspath(__file__)))
MOST = 240


def read(path):
    with open(path, encoding="utf-8") as it:
        return it.read()


def flat(text):
    return " ".join(text.split())


def inside(text, begin):
    """The text between the brace that opens in front of this place and the one that closes it."""
    depth, at = 1, begin
    while depth:
        depth += {"{": 1, "}": -1}.get(text[at], 0)
        at += 1
    return text[begin:at - 1]


def clauses_of(text):
    """The clauses of a .rt file, by the number of their line and what they are called; a line of comment has none."""
    code = re.sub(r"//[^\n]*", lambda found: " " * len(found.group()), text)
    for found in re.finditer(r"\b(requires|ensures)\*?\s*(\w*)\s*\{", code):
        yield code.count("\n", 0, found.start()) + 1, " ".join(found.groups()).strip(), flat(inside(code, found.end()))


def lemmas_of(text):
    """The lemmas of a .antt file, by the number of their line and their name, with their types."""
    lines = re.sub(r"--[^\n]*", "", text).split("\n")
    for number, line in enumerate(lines):
        begun = re.match(r"\s*(?:pub )?([^\s:]+) : (.*)", line)
        if not begun or line.lstrip().startswith(("abbrev", "unfoldable", "record", "data")):
            continue
        name, type_of, after = begun.group(1), [begun.group(2)], number + 1
        while after < len(lines) and not re.match(rf"\s*({re.escape(name)}\b|unfolding |$)", lines[after]):
            type_of.append(lines[after])
            after += 1
        if after < len(lines) and re.match(rf"\s*({re.escape(name)}(?![^\s=])|unfolding )", lines[after]):
            yield number + 1, name, flat(" ".join(type_of))


def law_files(crate):
    """The files of laws of a crate."""
    laws = os.path.join(crate, "src", "laws.rt")
    if not os.path.exists(laws):
        return []
    names = set(re.findall(r"crate::proofs::(\w+)::", read(laws)))
    for path in glob.glob(os.path.join(crate, "proofs", "laws", "**", "*.antt"), recursive=True):
        names |= set(re.findall(rf"Rattle\.{os.path.basename(crate)}\.proofs\.(\w+)\.\{{", read(path)))
    return sorted(path for path in (os.path.join(crate, "proofs", name + ".antt") for name in names) if os.path.exists(path))


def main():
    crates = [os.path.join(TOP, "crates", name) for name in sys.argv[1:]] or sorted(glob.glob(os.path.join(TOP, "crates", "*")))
    long, count = [], 0
    for crate in crates:
        sources = sorted(glob.glob(os.path.join(crate, "src", "**", "*.rt"), recursive=True))
        for path, found in [(path, clauses_of) for path in sources] + [(path, lemmas_of) for path in law_files(crate)]:
            for line, name, clause in found(read(path)):
                count += 1
                if len(clause) > MOST:
                    long.append((len(clause), f"{os.path.relpath(path, TOP)}:{line}: {name}: {len(clause)} characters"))
    for _, line in sorted(long, key=lambda each: (-each[0], each[1])):
        print(line)
    print(f"{len(long)} of {count} clauses have more than {MOST} characters")
    return 1 if long else 0


sys.exit(main())
