#!/usr/bin/env python3
"""Looks up in the files what the documents name, and fails where something isn't there.

docs/check.py          prints each name that isn't there, by page and line

- A link leads to a file, and behind `#` to a heading of that page.
- A link whose text is names in backquotes leads to a file that declares them, or in which they are clauses.
- Each other name in backquotes stands somewhere in the repository; each name of a crate is that of one; each path is there.
- README.md: each promise leads to its row in RULES.md and to its calls, and names their clauses. ARCHITECTURE.md: the files, calls and
  clauses of the promises; and a row for each crate, under the headings and in the order of crates.txt.
- crates.txt names each folder of crates/, and for each crate only what a file of its code, definitions or proofs names.
- No file that git tracks names a crate as it was called before.
- docs/callers: the code behind the words `From FILE:`, FILE in backquotes, stands in that file word for word, and all Rust code
  of these pages is so.
- The text that a must-fail edit changes stands once in its file.
- No line of a definition or a proof has more than 200 characters, but for imports.
"""
import glob
import os
import re
import subprocess
import sys
from functools import cache

sys.dont_write_bytecode = True
from definitions import crates, rooms

TOP = os.path.dirname(os.path.dirname(os.path.abspath(__file__)))
PAGES = ["README.md", "bench/README.md"] + sorted(os.path.relpath(page, TOP) for page in glob.glob(os.path.join(TOP, "docs", "**", "*.md"), recursive=True))
# Where a name may stand.
CODE = ("crates/*/src/**/*.rt", "crates/*/specs/**/*.antt", "crates/*/proofs/**/*.antt")
SOURCES = CODE + ("crates/*/std*", "bench/**/*", "examples/**/*", "docs/*.py", "crates.txt")
# Files of bytes, and texts that are wrong on purpose.
UNREAD = (".class", ".exec", ".pyc", ".edit", "docs/check.py")
CRATE = r"(?:jc|tests|examples)_\w+"
# What crates were called before.
OLD_NAMES = r"""
    jc_entries jc_after jc_verify jc_code jc_run_work jc_run_parts jc_run_program jc_run_command jc_cover_work jc_cover_laws
    jc_cover_files jc_cover_command jc_exec_commands jc_class_commands jc_words jc_work jc_sample jc_world jc_world_laws
    jc_same_runs jc_case_text jc_effects jc_operations jc_store jc_perform jc_simulation jc_exact jc_linking jc_rows
    jc_worker_rows jc_examples jc_world_examples jc_simulation_examples jc_callers vectors_\w+
"""
wrong = []


@cache
def read(path):
    with open(os.path.join(TOP, path), encoding="utf-8") as it:
        return it.read()


def files(*patterns):
    for pattern in patterns:
        for path in glob.glob(os.path.join(TOP, pattern), recursive=True):
            if os.path.isfile(path):
                yield os.path.relpath(path, TOP)


def is_there(path):
    return os.path.exists(os.path.join(TOP, path))


@cache
def anchors(page):
    heads = re.findall(r"^#+ (.*)$", read(page), re.M)
    return {re.sub(r"[^\w\- ]", "", head.lower()).replace(" ", "-") for head in heads}


@cache
def declared(path):
    """What a file declares: its items and clauses, or the definitions and lemmas in it."""
    text = read(path)
    if path.endswith(".rt"):
        names = re.findall(r"\b(?:fn|struct|enum|trait|type|const)\s+(\w+)", text)
        return set(names + re.findall(r"\b(?:ensures|requires)\s+(\w+)\s*\{", text))
    return set(re.findall(r"^\s*(?:(?:pub|abbrev|unfoldable|record|data) )*(\S+)\s*[:({]", text, re.M))


def names_in(text):
    return re.findall(r"`([A-Za-z_][\w:$]*)`", text)


def wants(where, name, paths):
    """The last part of a name is declared in one of the files."""
    if not any(name.split("::")[-1] in declared(path) for path in paths if is_there(path)):
        wrong.append(f"{where}: `{name}` isn't declared in {', '.join(paths)}")


def check_links(page, where, line):
    """A link leads to a file or a heading that is there, and one on names to a file that declares them."""
    for text, target in re.findall(r"\[([^][]*)\]\(([^()\s]+)\)", line):
        if "://" in target:
            continue
        path, _, anchor = target.partition("#")
        path = os.path.normpath(os.path.join(os.path.dirname(page), path)) if path else page
        if not is_there(path):
            wrong.append(f"{where}: no file {path}")
        elif anchor and anchor not in anchors(path):
            wrong.append(f"{where}: no heading #{anchor} in {path}")
        elif path.endswith((".rt", ".antt")):
            for name in names_in(text):
                wants(where, name, [path])


def check_names(where, line, words, names):
    """A name in backquotes that has an underscore, or a capital inside, stands somewhere."""
    for name in names_in(line):
        parts = [part for part in re.split(r"::", name) if part]
        if any("_" in part or re.search(r"[a-z][A-Z]", part) for part in parts) and not all(part in words for part in parts):
            wrong.append(f"{where}: `{name}` stands nowhere")
    for name in re.findall(rf"\b{CRATE}", line):
        if name not in names:
            wrong.append(f"{where}: no crate {name}")


def check_paths(where, line):
    """A path in backquotes that begins with a folder of the repository, or stands behind the name of its crate."""
    told = re.findall(r"`((?:crates|bench|docs|examples)/[\w./-]+)`", line)
    told += [f"crates/{path}" for path in re.findall(rf"`((?:{CRATE}|jcov)/[\w./-]+)`", line)]
    told += [f"crates/{crate}/{path}" for crate, path in re.findall(rf"\b({CRATE}) \(?`((?:specs|src|proofs)/[\w./]+)`", line)]
    wrong.extend(f"{where}: no file {path}" for path in told if not is_there(path) and "NAME" not in path and "/out/" not in path)


def rows(page, heading):
    """The rows of the table behind a heading, each with its line's number."""
    lines = read(page).split("\n")
    for number in range(lines.index(heading) + 1, len(lines)):
        if lines[number].startswith("## "):
            return
        if lines[number].startswith("| "):
            yield f"{page}:{number + 1}", [cell.strip() for cell in lines[number].strip("| ").split(" | ")]


def check_promises(page):
    """The files of each promise are there, and declare its calls and clauses."""
    for where, cells in list(rows(page, "## Where each promise stands"))[1:]:
        paths, folder = [], ""
        for path in re.findall(r"[\w/]+\.rt|\w+/src(?![\w/])", cells[1]):
            folder = os.path.dirname(path) or folder
            paths.append("crates/" + path if "/" in path else f"crates/{folder}/{path}")
        for path in paths:
            if not is_there(path):
                wrong.append(f"{where}: no file {path}")
        paths = [each for path in paths for each in ([path] if path.endswith(".rt") else files(path + "/*.rt"))]
        specs = [f"crates/{os.path.relpath(paths[0], 'crates').split('/')[0]}/{each}" for each in re.findall(r"specs/\w+\.antt", cells[2])]
        for name in names_in(re.sub(r"\[`[^][]*\]\([^()]*\)", "", cells[2])):
            wants(where, name, paths + specs)


def check_readme():
    """Each promise leads to a heading of RULES.md; each call leads to its file, and has a row in RULES.md; each clause without a link
    is one of the calls' own."""
    ruled = {name.split("::")[-1] for line in read("docs/RULES.md").split("\n") if line.startswith("| ") for name in names_in(line)}
    link = r"\[([^][]*)\]\(([^()\s#]+)\)"
    for where, (promise, calls, clauses) in list(rows("README.md", "## What is proved"))[1:]:
        if "](docs/RULES.md#" not in promise:
            wrong.append(f"{where}: the promise leads to no heading of RULES.md")
        wrong.extend(f"{where}: `{name}` leads to no file" for name in names_in(re.sub(link, "", calls)))
        called = [(name.split("::")[-1], read(path)) for told, path in re.findall(link, calls) if is_there(path) for name in names_in(told)]
        wrong.extend(f"{where}: `{name}` has no row in RULES.md" for name, _ in called if name not in ruled)
        found = [re.search(rf"\bfn {name}\b.*?(?=\n *(?:pub )?fn |\Z)", text, re.S) for name, text in called]
        own = {name for each in found if each for name in re.findall(r"\bensures\*? (\w+) \{", each.group())}
        wrong.extend(f"{where}: `{name}` is no clause of the calls" for name in names_in(re.sub(link, "", clauses)) if name not in own)


def check_crates(page):
    """Each heading of crates.txt has a table with a row for each of its crates, in their order; `each other one` are those without."""
    lines = read(page).split("\n")
    told, heading = [], ""
    for line in lines[lines.index("## Crates") + 1:lines.index("### The layers")]:
        if line.startswith("### "):
            heading = line[4:]
            told.append((heading, []))
        elif line.startswith("| ") and not line.startswith("| Crate |"):
            told[-1][1].append(line.strip("| ").split(" | ")[0])
    wanted = [(heading, list(room)) for heading, room in rooms()]
    if [heading for heading, _ in told] != [heading for heading, _ in wanted]:
        wrong.append(f"{page}: the headings of the crates are those of crates.txt: {'; '.join(heading for heading, _ in wanted)}")
        return
    for (heading, have), (_, names) in zip(told, wanted):
        if have[-1:] == ["each other one"]:
            have = have[:-1]
            names = [name for name in names if name in have]
        if have != names:
            wrong.append(f"{page}: the rows under {heading} are to be {', '.join(names)}")


def check_stands():
    """crates.txt has each folder of crates/, and of what each crate stands on only what its files name, not in comments alone."""
    folders = {os.path.basename(path) for path in glob.glob(os.path.join(TOP, "crates", "*"))}
    wrong.extend(f"crates.txt: {name} is in it alone, or in crates/ alone" for name in sorted(folders ^ set(crates())))
    for name, on in crates().items():
        paths = files(*(pattern.replace("*", name, 1) for pattern in CODE))
        code = " ".join(re.sub(r"//.*" if path.endswith(".rt") else r"--.*", "", read(path)) for path in paths)
        named = set(re.findall(r"\w+", code))
        wrong.extend(f"crates.txt: no file of {name} names {each}" for each in on if each not in named)


def check_old_names():
    """No file that git tracks names a crate as it was called before, but for the list of these names; nor does its path."""
    old = re.compile(r"\b(?:%s)\b" % "|".join(OLD_NAMES.split()))
    tracked = subprocess.run(["git", "ls-files", "-z"], cwd=TOP, stdout=subprocess.PIPE, check=True).stdout.decode()
    for path in tracked.split("\0"):
        name = os.path.join(TOP, path)
        if not os.path.isfile(name):
            continue
        with open(name, encoding="utf-8", errors="replace") as it:
            text = it.read()
        if path == "docs/check.py":
            text = text.replace(OLD_NAMES, "")
        wrong.extend(f"{path}: its path has the old name {found}" for found in old.findall(path))
        wrong.extend(f"{path}:{text.count(chr(10), 0, found.start()) + 1}: the old name {found.group()}" for found in old.finditer(text))


def check_code(page):
    """Each piece of code of a page for callers is from a file, and stands in it."""
    text = read(page)
    for found in re.finditer(r"^```rust\n(.*?)^```$", text, re.M | re.S):
        where = f"{page}:{text.count(chr(10), 0, found.start()) + 1}"
        source = re.search(r"^From `([^`\n]+)`:\n\n\Z", text[:found.start()], re.M)
        if not source:
            wrong.append(f"{where}: no file is named for this code")
        elif not is_there(source.group(1)) or found.group(1) not in read(source.group(1)):
            wrong.append(f"{where}: this code doesn't stand in {source.group(1)}")


def check_edits():
    """The text that each must-fail edit changes is there, once."""
    for path in files("crates/*/must-fail/*.edit", "bench/must-fail/*/*.edit"):
        crate = path.split("/")[-3 if path.startswith("crates") else -2]
        file, old = re.match(r"file: (\S+)\nold: (.*?)\nnew: ", read(path), re.S).groups()
        if not is_there(f"crates/{crate}/{file}") or read(f"crates/{crate}/{file}").count(old.rstrip("\n")) != 1:
            wrong.append(f"{path}: its text isn't once in {file}")


def check_lines():
    """Each line of a definition or a proof can be read without scrolling: no more than 200 characters, but for imports."""
    for path in files("crates/*/specs/**/*.antt", "crates/*/proofs/**/*.antt"):
        for number, line in enumerate(read(path).split("\n"), 1):
            if len(line) > 200 and not line.startswith(("use ", "pub use ")):
                wrong.append(f"{path}:{number}: {len(line)} characters")


def main():
    names = set(crates())
    words = set(re.findall(r"[\w$]+", " ".join(read(path) + " " + path for path in files(*SOURCES) if not path.endswith(UNREAD))))
    for page in PAGES:
        for number, line in enumerate(read(page).split("\n"), 1):
            where = f"{page}:{number}"
            check_links(page, where, line)
            check_names(where, line, words, names)
            check_paths(where, line)
    for page in PAGES:
        if page.startswith("docs/callers/"):
            check_code(page)
    page = "docs/ARCHITECTURE.md"
    check_promises(page)
    check_readme()
    check_crates(page)
    check_stands()
    check_old_names()
    check_edits()
    check_lines()
    sys.exit("\n".join(wrong) if wrong else 0)


main()
