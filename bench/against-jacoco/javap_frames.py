#!/usr/bin/env python3
"""The stack map frames of class files in full, as `javap -v` prints their tables.

usage: javap_frames.py LINES FILE..
LINES is what `jc_listing frames FILE..` printed. Each method's frames there are compared with those that the
table that javap prints stands for (JVM Specification 4.7.4). Ends with status 1 where two differ.
"""
import re, subprocess, sys

WIDE = ("long", "double")


def kind(text, number_at):
    """A verification type, as jc_listing prints it."""
    if text.startswith("class "):
        return "class:" + text[6:].strip('"')
    if text.startswith("uninitialized "):
        return "new:%d" % number_at[int(text[14:])]
    return "top" if text == "bogus" else text


def entry_items(owner, name, desc, flags):
    """The types of the arguments (JVM Specification 4.10.1.6)."""
    items = [] if flags & 8 else ["this" if name == "<init>" else "class:" + owner]
    for word in re.findall(r"\[+L[^;]*;|\[+[A-Z]|L[^;]*;|[A-Z]", desc[1:desc.index(")")]):
        if word[0] == "[":
            items.append("class:" + word)
        elif word[0] == "L":
            items.append("class:" + word[1:-1])
        else:
            items.append({"J": "long", "D": "double", "F": "float"}.get(word, "int"))
    return items


def slots(items, count):
    """The types of all local variables: behind a long or a double stands one that may not be read."""
    all_slots = []
    for item in items:
        all_slots += [item, "top"] if item in WIDE else [item]
    return all_slots + ["top"] * (count - len(all_slots))


class Method:
    """A method with code, as javap prints it."""

    def __init__(self, owner, desc, flags):
        self.owner, self.desc, self.flags = owner, desc, flags
        self.max_locals, self.offsets, self.table = 0, [], []

    def lines(self, name):
        number_at = {offset: number for number, offset in enumerate(self.offsets)}
        items, at, lines = entry_items(self.owner, name, self.desc, self.flags), -1, []
        for form, delta, locals_, stack in self.table:
            new_locals = [kind(text, number_at) for text in locals_]
            new_stack = [kind(text, number_at) for text in stack]
            if form < 64:
                delta = form
            elif form < 128:
                delta = form - 64
            elif 248 <= form <= 250:
                items = items[:len(items) - (251 - form)]
            elif 252 <= form <= 254:
                items = items + new_locals
                assert len(new_locals) == form - 251
            elif form == 255:
                items = new_locals
            at += delta + 1
            kinds = slots(items, self.max_locals)
            lines.append(" ".join(["frame", str(number_at[at]), "locals"] + kinds + ["stack"] + new_stack))
        return lines


def listed(line):
    inside = line[line.index("[") + 1:line.rindex("]")].strip()
    return re.split(r",\s+", inside) if inside else []


def methods_of(files):
    """The methods with code, in order, that javap prints of the files."""
    text = subprocess.run(["javap", "-v", "-p"] + files, stdout=subprocess.PIPE, check=True).stdout.decode()
    methods, owner, desc, flags, part, in_switch = [], None, None, 0, None, False
    for line in text.split("\n"):
        if line.startswith("  this_class:"):
            owner = line[line.index("//") + 2:].strip().strip('"')
        elif line.startswith("    descriptor: "):
            desc, part = line[16:], None
        elif line.startswith("    flags: ("):
            flags = int(line[12:line.index(")")], 16)
        elif line == "    Code:":
            methods.append(Method(owner, desc, flags))
            part = "code"
        elif part == "code" and line.startswith("      stack="):
            methods[-1].max_locals = int(re.search(r"locals=(\d+)", line).group(1))
        elif part == "code" and in_switch:
            in_switch = line.strip() != "}"
        elif part == "code" and re.match(r" +\d+: [a-z]", line):
            number, insn = line.strip().split(": ", 1)
            methods[-1].offsets.append(int(number))
            in_switch = insn.startswith(("tableswitch", "lookupswitch"))
        elif part and line.startswith("      StackMapTable:"):
            part = "table"
        elif part == "table" and line.startswith("        frame_type = "):
            methods[-1].table.append([int(line.split()[2]), 0, [], []])
        elif part == "table" and line.startswith("          offset_delta = "):
            methods[-1].table[-1][1] = int(line.split()[2])
        elif part == "table" and line.startswith("          locals = "):
            methods[-1].table[-1][2] = listed(line)
        elif part == "table" and line.startswith("          stack = "):
            methods[-1].table[-1][3] = listed(line)
        elif part and re.match(r" {0,6}[A-Za-z{}]", line):
            part = "other" if line.startswith("      ") else None
    return methods


def main():
    lines = open(sys.argv[1], encoding="utf-8", errors="surrogateescape").read().split("\n")
    said, frames, refused = [], 0, 0
    for line in lines:
        if line.startswith("method "):
            words = line.split(" ")
            said.append((words[1], int(words[3]), []))
        elif line.startswith("frame "):
            said[-1][2].append(line)
        elif line.startswith("refused "):
            refused += 1
    wanted = []
    for first in range(2, len(sys.argv), 200):
        wanted += methods_of(sys.argv[first:first + 200])
    differ = abs(len(said) - len(wanted))
    if differ:
        print("%d methods, and %d by javap" % (len(said), len(wanted)))
    for (name_desc, count, given), method in zip(said, wanted):
        name = name_desc[:name_desc.index("(")]
        expected = method.lines(name)
        frames += len(expected)
        if name_desc != name + method.desc or count != len(method.offsets) or given != expected:
            differ += 1
            print("%s %s: %d instructions, %d by javap" % (method.owner, name_desc, count, len(method.offsets)))
            print("\n".join("  -%s\n  +%s" % pair for pair in zip(given, expected) if pair[0] != pair[1]))
    print("%d methods with %d frames; %d differ, %d classes refused" % (len(wanted), frames, differ, refused))
    sys.exit(1 if differ or refused else 0)


main()
