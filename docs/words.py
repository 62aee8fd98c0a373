#!/usr/bin/env python3
"""Writes the man page and the shell completions by the words of docs/COMMANDS.md and the statuses of README.md.

docs/words.py          writes docs/man/jcov.1 and docs/completions
docs/words.py --check  fails where one of these files isn't what it would write

The commands, their options and the values of these are those of the table of words, and the usage text there has to name the same
commands; a command or an option that has no text here yet is named, and ends it.
"""
import os
import re
import sys
import textwrap
from typing import NamedTuple

TOP = os.path.dirname(os.path.dirname(os.path.abspath(__file__)))
COMMANDS = {
    "instrument": "write class files with probes",
    "run": "run the cases of a run plan",
    "merge": "write the union of execution data",
    "report": "write a CSV report",
    "execinfo": "print what execution data holds",
    "classinfo": "print what class files hold",
    "cover": "instrument, run and report",
    "refs": "say whether references suit what takes them",
    "lines": "print which lines were reached",
    "check": "end with status 6 where a rule on coverage doesn't hold",
}
OPTIONS = {
    "--dest": "the folder below which class files are written",
    "--plan": "the run plan",
    "--destfile": "the execution data to write",
    "--workers": "how many workers run cases, from 1 to 16",
    "--dumps": "the folder to which dumps of the execution data are written",
    "--every": "after how many cases each dump is taken, from 1 to 256",
    "--monitors": "let threads take and release locks",
    "--csv": "the CSV file to write",
    "--name": "the name of the report",
    "--exec": "the execution data to read",
    "--sample": "how many methods the generated class has, from 1 to 1000",
    "--min": "the least coverage, as instruction=4/5,branch=1/2",
}
# What a value or a further word names, and the end of such a file's name.
PATHS = {"DIR": "/", "PLAN": "", "EXEC": ".exec", "IN": ".exec", "OUT": ".csv", "FILE": ".class", "CLASSFILE": ".class"}
DESCRIPTION = """`jcov` puts probes into class files, runs them on a small machine of its own, merges what probes saw, and reports which
code was reached. Instrumented classes run on a Java machine too, beside a runtime class."""
RULES = """Options stand behind the command in any order, each at most once, as two words or joined by `=`, and in front of the files. A FILE
that ends with `/` is a folder: it stands for the class files in it, not for those in folders below it. A FILE is relative, without
`.` and `..`; an IN and a CLASSFILE need not be. No two words name one path."""
EXAMPLE = [
    "jcov instrument --dest inst $(find classes -type d | sed 's,$,/,' | sort)",
    "jcov merge --destfile all.exec first.exec second.exec",
    "jcov report --csv report.csv --exec all.exec $(find classes -name '*.class')",
]
MADE = "Made by docs/words.py from docs/COMMANDS.md"


class Command(NamedTuple):
    """A command: its forms with what each does, its options with their values, none for a flag, and what the words behind them name."""

    name: str
    forms: list
    options: dict
    rest: str


def read(path):
    with open(os.path.join(TOP, path), encoding="utf-8") as file:
        return file.read()


def cells_behind(text, head):
    """The rows of the table that begins with this row."""
    rows = text[text.index(head) :].split("\n\n")[0].split("\n")
    return [[cell.strip() for cell in row.strip("| ").split(" | ")] for row in rows[2:]]


def read_commands():
    found = {}
    for words, does in cells_behind(read("docs/COMMANDS.md"), "| Words | What it does |"):
        form = words.strip("`")
        name, rest = form.split()[0], form.split()[-1]
        command = found.setdefault(name, Command(name, [], {}, rest.removesuffix("..")))
        command.forms.append((form, does))
        command.options.update(re.findall(r"(--[a-z]+)(?: ([A-Z]+)\b(?!\.\.))?", form))
    usage = re.search(r"`commands: ([a-z ]*)`", read("docs/COMMANDS.md")).group(1)
    if usage.split() != list(found):
        sys.exit("docs/COMMANDS.md has a row of words for %s, and its usage text names %s" % (" ".join(found), usage))
    return list(found.values())


def statuses():
    """The exit statuses with what they mean, by README."""
    head = re.search(r"^\| Exit status \|.*$", read("README.md"), re.M).group()
    numbers = [cell.strip() for cell in head.strip("| ").split(" | ")][1:]
    means = cells_behind(read("README.md"), head)[0][-len(numbers) :]
    told = [row[1] for row in cells_behind(read("docs/COMMANDS.md"), "| Status | Exit status |")]
    if numbers != told:
        sys.exit("README.md has the exit statuses %s, docs/COMMANDS.md %s" % (numbers, told))
    return list(zip(numbers, means))


# ---- the man page


def roff(text):
    """A text, with what is special in a man page put otherwise. Links have their words alone."""
    text = re.sub(r" ?\(\[[^][]*\]\([^()]*\)\)", "", text)
    text = re.sub(r"\[([^][]*)\]\([^()]*\)", r"\1", text)
    text = text.replace("\\", "\\e").replace("-", "\\-").replace("'", "\\(aq")
    return re.sub(r"`([^`]*)`", r"\\fB\1\\fR", text)


def wrapped(text):
    """The lines of a text."""
    return textwrap.wrap(roff(text), 79, break_long_words=False, break_on_hyphens=False)


def roff_form(form):
    """The words of a form: those that stand as they are in bold, and those that stand for others in italics."""
    made = re.sub(r"--[a-z]+|\b[a-z]+\b", lambda word: "\\fB%s\\fR" % word.group().replace("-", "\\-"), form)
    return re.sub(r"\b[A-Z]+\b(?!\\)", lambda word: "\\fI%s\\fR" % word.group(), made)


def man_page(commands):
    lines = ['.\\" %s and README.md' % MADE, ".TH JCOV 1", ".SH NAME", "jcov \\- offline coverage of Java class files", ".SH SYNOPSIS"]
    for command in commands:
        for form, _ in command.forms:
            lines += [".br", "\\fBjcov\\fR " + roff_form(form)]
    lines.remove(".br")
    lines += [".SH DESCRIPTION", *wrapped(DESCRIPTION), ".PP", *wrapped(RULES), ".SH COMMANDS"]
    for command in commands:
        for form, does in command.forms:
            lines += [".TP", roff_form(form), *wrapped(does + ".")]
    lines.append(".SH OPTIONS")
    for option, value in options_of(commands).items():
        lines += [".TP", roff_form(("%s %s" % (option, value)).strip()), *wrapped(OPTIONS[option] + ".")]
    lines.append(".SH EXIT STATUS")
    for number, means in statuses():
        lines += [".TP", "\\fB%s\\fR" % number, *wrapped(means + ".")]
    lines += [".SH EXAMPLES", "Instrument a tree, and report what runs of its tests reached:", ".PP", ".nf", ".RS", *map(roff, EXAMPLE), ".RE", ".fi"]
    lines += [".SH SEE ALSO", *wrapped("README.md of the sources, and in its docs COMMANDS.md, BUILDS.md and FORMATS.md.")]
    return "\n".join(lines) + "\n"


def options_of(commands):
    """All options with their values, each once, in the order of the table."""
    return {option: value for command in commands for option, value in command.options.items()}


# ---- completions

BASH = """# {made}
# Source it, or put it as jcov into /usr/share/bash-completion/completions.
_jcov_paths() {{
    compopt -o filenames
    mapfile -t COMPREPLY < <(compgen -d -- "$2"; [ "$1" = / ] || compgen -f -X "!*$1" -- "$2")
}}

_jcov() {{
    local word=${{COMP_WORDS[COMP_CWORD]}} before=${{COMP_WORDS[COMP_CWORD - 1]}} options rest
    COMPREPLY=()
    if [ "$COMP_CWORD" -eq 1 ]; then
        mapfile -t COMPREPLY < <(compgen -W "{names}" -- "$word")
        return
    fi
    if [ "$word" = = ]; then
        word=
    elif [ "$before" = = ]; then
        before=${{COMP_WORDS[COMP_CWORD - 2]}}
    fi
    case $before in
{values}
    esac
    case ${{COMP_WORDS[1]}} in
{commands}
        *) return ;;
    esac
    if [[ $word == -* ]]; then
        for before in "${{COMP_WORDS[@]:2:COMP_CWORD-2}}"; do
            options=${{options/"$before "/}}
        done
        mapfile -t COMPREPLY < <(compgen -W "$options" -- "$word")
    elif [ -n "$rest" ]; then
        _jcov_paths "$rest" "$word"
    fi
}}
complete -F _jcov jcov
"""


def bash(commands):
    values, cases = [], []
    for option, value in options_of(commands).items():
        if not value:
            continue
        values.append("        %s) %sreturn ;;" % (option, '_jcov_paths "%s" "$word"; ' % PATHS[value] if value in PATHS else ""))
    for command in commands:
        options = "".join(option + " " for option in command.options)
        cases.append('        %s) options="%s" rest="%s" ;;' % (command.name, options, PATHS[command.rest]))
    names = " ".join(command.name for command in commands)
    return BASH.format(made=MADE, names=names, values="\n".join(values), commands="\n".join(cases))


ZSH = """#compdef jcov
# {made}
# Put it into a folder of fpath, as /usr/share/zsh/vendor-completions.
_jcov() {{
    local -a commands
    commands=(
{names}
    )
    if (( CURRENT == 2 )); then
        _describe command commands
        return
    fi
    shift words
    (( CURRENT-- ))
    case $words[1] in
{commands}
    esac
}}
_jcov "$@"
"""


def zsh(commands):
    plain = lambda text: text.replace("'", "'\\''")
    paths = lambda value: "_files -/" if PATHS[value] == "/" else '_files -g "*%s(-.)"' % PATHS[value] if PATHS[value] else "_files"
    names = ["        '%s:%s'" % (command.name, plain(COMMANDS[command.name])) for command in commands]
    cases = []
    for command in commands:
        words = []
        for option, value in command.options.items():
            if not value:
                words.append("'%s[%s]'" % (option, plain(OPTIONS[option])))
                continue
            words.append("'%s=[%s]:%s:%s'" % (option, plain(OPTIONS[option]), value, paths(value) if value in PATHS else " "))
        words.append("'*:%s:%s'" % (command.rest, paths(command.rest)))
        cases.append("        %s)\n            _arguments \\\n                %s\n            ;;" % (command.name, " \\\n                ".join(words)))
    return ZSH.format(made=MADE, names="\n".join(names), commands="\n".join(cases))


def fish(commands):
    plain = lambda text: text.replace("'", "\\'")
    completes = lambda value: " -a '(__fish_complete_directories)'" if PATHS[value] == "/" else " -a '(__fish_complete_suffix %s)'" % PATHS[value]
    lines = ["# " + MADE, "# Put it into /usr/share/fish/vendor_completions.d.", "complete -c jcov -f"]
    for command in commands:
        lines.append("complete -c jcov -n __fish_use_subcommand -a %s -d '%s'" % (command.name, plain(COMMANDS[command.name])))
    for command in commands:
        begin = "complete -c jcov -n '__fish_seen_subcommand_from %s'" % command.name
        for option, value in command.options.items():
            path = "" if not value else " -x" if value not in PATHS else " -r -F" if not PATHS[value] else " -x" + completes(value)
            lines.append("%s -l %s%s -d '%s'" % (begin, option[2:], path, plain(OPTIONS[option])))
        lines.append(begin + completes(command.rest))
    return "\n".join(lines) + "\n"


def main():
    commands = read_commands()
    without = [command.name for command in commands if command.name not in COMMANDS]
    without += [option for option in options_of(commands) if option not in OPTIONS]
    if without:
        sys.exit("docs/words.py has no text for " + ", ".join(without))
    made = {"docs/man/jcov.1": man_page(commands), "docs/completions/jcov.bash": bash(commands)}
    made.update({"docs/completions/_jcov": zsh(commands), "docs/completions/jcov.fish": fish(commands)})
    if sys.argv[1:] == ["--check"]:
        wrong = [path for path, text in made.items() if not os.path.exists(os.path.join(TOP, path)) or read(path) != text]
        sys.exit("docs/words.py would change " + ", ".join(wrong) if wrong else 0)
    for path, text in made.items():
        with open(os.path.join(TOP, path), "w", encoding="utf-8") as file:
            file.write(text)


main()
