#!/usr/bin/env python3
"""Writes what the files give: docs/DEFINITIONS.md, the list of the files of definitions, each with the first sentence of its comment;
and into docs/ARCHITECTURE.md the layers of the crates with the longest chain, by crates.txt, and the counts of must-fail edits.

docs/definitions.py          writes them
docs/definitions.py --check  fails where a page has others
"""
import glob
import os
import re
import sys
import textwrap
from functools import cache

TOP = os.path.dirname(os.path.dirname(os.path.abspath(__file__)))
ARCHITECTURE = os.path.join(TOP, "docs", "ARCHITECTURE.md")
DEFINITIONS = os.path.join(TOP, "docs", "DEFINITIONS.md")
LAYERS = "<!-- layers: made by docs/definitions.py -->\n", "<!-- end of layers -->\n"
EDITS = "<!-- must-fail edits: made by docs/definitions.py -->\n", "<!-- end of must-fail edits -->\n"
HEAD = """# Definitions

Contracts say what they promise in the words of definitions, which stand in the files of `specs/`. This is the list of these files, with the first sentence of the comment at the head of each. `docs/definitions.py` makes this page.

- The crates have the order and the headings of `crates.txt`, the lowest first: a definition uses those of its own crate and of crates in front of it. In each crate the files have the order in which they are to be read.
- The `use` lines of a file say in which files the definitions stand that it takes from others. A comment in front of a definition says it in words.
- [Rules](RULES.md) leads from a rule to its definition, its contract and its proof; [Architecture](ARCHITECTURE.md#shared-forms) tells the forms that many definitions have.

"""


@cache
def rooms():
    """The headings of crates.txt, each with its crates in their order, and what each of these stands on."""
    found = []
    with open(os.path.join(TOP, "crates.txt"), encoding="utf-8") as it:
        for line in it:
            name, _, on = line.partition(":")
            if line.startswith("#"):
                found.append((line.lstrip("# ").strip(), {}))
            elif name.strip():
                found[-1][1][name.strip()] = on.split()
    return found


def crates():
    """The crates in their order, and what each stands on."""
    return {name: on for _, room in rooms() for name, on in room.items()}


def sentence(path):
    """The first sentence of the comment at the head of a file."""
    lines = []
    for line in open(path, encoding="utf-8"):
        if not line.startswith("--"):
            break
        lines.append(line[2:].strip())
    text = re.split(r"(?<=[a-z)`])\. ", " ".join(lines) + " ", maxsplit=1)[0].strip().rstrip(".")
    return text[:1].lower() + text[1:] if not re.match(r"[A-Z]{2}|JaCoCo|Java", text) else text


def files_of(name):
    """The files of a crate's definitions, in the order in which they are read, as lines of the list."""
    lib = os.path.join(TOP, "crates", name, "specs", "Lib.antt")
    if not os.path.exists(lib):
        return []
    modules = re.findall(r"^pub mod (\w+)$", open(lib, encoding="utf-8").read(), re.M)
    told = [(module, sentence(os.path.join(os.path.dirname(lib), module + ".antt"))) for module in modules]
    return [f"- [{module}](../crates/{name}/specs/{module}.antt): {text}" for module, text in told]


def definitions():
    """The page of the definitions, by the headings of crates.txt."""
    parts = []
    for heading, room in rooms():
        told = [(name, files_of(name)) for name in room]
        if any(lines for _, lines in told):
            parts.append(f"## {heading}\n")
        parts += [f"### {name}\n\n" + "\n".join(lines) + "\n" for name, lines in told if lines]
    return HEAD + "\n".join(parts)


def layers():
    """The layers, the highest first: a crate's is the one above the highest of what it stands on. Then the longest chain."""
    stands = crates()

    @cache
    def chain(name):
        return max((chain(on) for on in stands[name] if on in stands), key=len, default=()) + (name,)

    longest = max((chain(name) for name in stands), key=len)
    lines = []
    for layer in range(len(longest), 0, -1):
        here = " ".join(name for name in stands if len(chain(name)) == layer)
        lines.append(textwrap.fill(here, 120, initial_indent=f"{layer:>2}  ", subsequent_indent="    "))
    picture = "```text\n" + "\n".join(lines) + "\n```\n\n"
    return picture + f"The longest chain has {len(longest)} crates: {', '.join(longest)}.\n\n"


def table():
    """The table: how many edits the gate tries of each crate, and how many bench/must-fail.sh does."""
    parts = ["| Crate | In the gate | In bench/must-fail |", "|---|---|---|"]
    for name in crates():
        counts = [len(glob.glob(os.path.join(TOP, folder, "*.edit"))) for folder in (f"crates/{name}/must-fail", f"bench/must-fail/{name}")]
        if any(counts):
            parts.append(f"| {name} | {counts[0]} | {counts[1]} |")
    return "\n".join(parts) + "\n\n"


def put(page, marks, text):
    """The page with the text between the marks."""
    begin, end = page.index(marks[0]) + len(marks[0]), page.index(marks[1])
    return page[:begin] + "\n" + text + page[end:]


def read(path):
    if not os.path.exists(path):
        return ""
    with open(path, encoding="utf-8") as it:
        return it.read()


def main():
    pages = {ARCHITECTURE: put(put(read(ARCHITECTURE), LAYERS, layers()), EDITS, table()), DEFINITIONS: definitions()}
    others = [path for path, text in pages.items() if read(path) != text]
    if "--check" in sys.argv[1:]:
        sys.exit("\n".join(f"{os.path.relpath(path, TOP)}: run docs/definitions.py" for path in others) or 0)
    for path in others:
        with open(path, "w", encoding="utf-8") as it:
            it.write(pages[path])


if __name__ == "__main__":
    main()
