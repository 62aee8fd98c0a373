#!/usr/bin/env python3
"""Makes the input and the output of the driver program tests_machine from the rows of bench/random/machine-rows.txt.

    bench/random/machine_rows.py           writes crates/tests_machine/stdin and stdout
    bench/random/machine_rows.py check     compares the rows with what bench/random/slow_machine.py answers
    bench/random/machine_rows.py java DIR  compares those of one thread that ends with the Java machine; DIR has the compiled Machine.java

The lines of machine-rows.txt:

    file NAME                       a class file; the indented lines below are those of class_bytes.py, parted by ` ; `
    FILES: CASE ;; CASE = TEXT ;; TEXT # HITS     a run of cases over these files
    monitors FILES: ..              the same in worlds with locks
    # a comment                     goes into both files

A case is its threads, joined by ` & `, and ` @ SCHEDULE`, without which it is `robin 100`. `22*0` in a schedule is 22
times 0. A text is the lines that are printed behind `case K`, joined by ` | `, and by ` & ` where they are ends of threads,
which lack `thread T`. `-` is an empty line that is printed. Of a text of more than 4,000 bytes the length and the last 40
bytes are told, as `long LENGTH BYTES`. HITS has, for each class with probes, its name, and 1 for each probe that is hit and 0
for each other, as `A:01`. Two instructions have short forms: `out` is `getstatic` of the print stream, and `println I` a call
on it.
"""
import os
import re
import subprocess
import sys
import tempfile

HERE = os.path.dirname(os.path.abspath(__file__))
sys.path[:0] = [os.path.join(HERE, "..", "lib"), os.path.join(HERE, "..", "monitors")]

import class_bytes
import class_reader
import slow_machine
import slow_monitors
import slow_programs

CRATE = os.path.dirname(os.path.dirname(HERE)) + "/crates/tests_machine"
ENDS = ("returned", "threw", "running", "stuck")


def plan(text, repeated=lambda count, number: " " + " ".join([number] * count)):
    """The text of a plan, in which repeated numbers are spelled out, or as `repeated` has them."""
    lines = []
    for case in text.split(" ;; "):
        threads, _, turns = case.partition(" @ ")
        lines += ["case", *("thread " + thread for thread in threads.split(" & "))]
        turns = re.sub(r" (\d+)\*(\d+)", lambda found: repeated(int(found[1]), found[2]), turns or "robin 100")
        lines.append("schedule " + turns)
    return "".join(line + "\n" for line in lines)


def shortened(text):
    """A text as the answer of a call has it."""
    text = text.replace("\n", "|")
    return "long %d %s" % (len(text), text[-40:]) if len(text) > 4000 else text


def answer(text):
    """The answer that a row gives: the text of the cases."""
    if text.startswith(("long ", "no entry ", "same ", "class ")):
        return text
    lines = []
    for number, case in enumerate(text.split(" ;; "), 1):
        lines.append("case %d" % number)
        thread = 0
        for part in case.split(" | "):
            for line in part.split(" & ") if part.startswith(ENDS) else [part]:
                if line.startswith(ENDS):
                    line, thread = "thread %d %s" % (thread, line), thread + 1
                lines.append("" if line == "-" else line)
    return shortened("".join(line + "\n" for line in lines))


class Row:
    def __init__(self, files, line):
        names, _, rest = line.partition(": ")
        cases, _, rest = rest.partition(" = ")
        text, _, hits = rest.partition(" # ")
        self.line, self.has_locks = line, names.startswith("monitors ")
        self.names = names.split()[self.has_locks :]
        self.files = [files[name] for name in self.names]
        self.plan, self.text, self.hits = plan(cases), answer(text), hits
        self.words = plan(cases, "~{}*_{}~".format).replace(" ", "_").replace("\n", "|").replace("~~", " ").replace("~", " ")

    def slow(self):
        """What the slow program answers: the text, and the hits."""
        program = slow_programs.Program([bytes.fromhex(file) for file in self.files])
        if self.text.startswith("class "):
            return self.text, ""
        refusal = slow_programs.clash(program)
        if refusal:
            return refusal, ""
        cases = slow_programs.plan_cases(self.plan)
        lines = [line for case in cases for line in case.threads if not program.entry(line)]
        if lines:
            return "no entry in line %d" % lines[0].line, ""
        world_of = slow_monitors.MonitorWorld if self.has_locks else slow_machine.World
        hits = set().union(*(slow_machine.run(program, case, case.turns(), world_of).hits for case in cases))
        probed = [(k, linked) for k, linked in enumerate(program.classes) if linked.probes]
        bits = ["".join("01"[(k, i) in hits] for i in range(linked.probes[1])) for k, linked in probed]
        names = [linked.name for _, linked in probed]
        return shortened(slow_machine.texts(program, cases, world_of)), " ".join("%s:%s" % pair for pair in zip(names, bits))


def spelled(line):
    """A line of class_bytes.py, of which two have short forms."""
    if line == "out":
        return "getstatic java/lang/System.out:Ljava/io/PrintStream;"
    if line.startswith("println"):
        return "invokevirtual java/io/PrintStream.println:(%s)V" % line[8:]
    return line


def read(path):
    """The rows and comments of a file, in order."""
    files, items, name, lines = {}, [], None, []
    with open(path, encoding="utf-8") as text:
        for line in [*text.read().splitlines(), ""]:
            if line.startswith("    "):
                lines += [spelled(each) for each in line.strip().split(" ; ")]
                continue
            if name:
                files[name], name, lines = class_bytes.class_bytes(lines).hex(), None, []
            if line.startswith("file "):
                name = line[5:]
            elif line == "" or line.startswith("#"):
                items.append(line)
            else:
                items.append(Row(files, line))
    return items[:-1]


def rows(items):
    """Pairs of a line of the input and its answer, which is None for a line that is no call."""
    kept = None
    for item in items:
        if isinstance(item, str):
            yield item, None
            continue
        if item.names != kept:
            kept = item.names
            for number, (name, file) in enumerate(zip(item.names, item.files)):
                yield "# " + name, None
                yield ("also " if number else "only ") + file, str(number + 1)
        yield ("monitors " if item.has_locks else "run ") + item.words, item.text
        if item.hits:
            yield ("monitor-hits " if item.has_locks else "hits ") + item.words, item.hits


# ---- the Java machine


def is_plain(row):
    """Whether a row has one case of one thread, which ends, over classes that aren't instrumented."""
    odd = re.search(r"stuck|running|no entry|^long|^same|^class", row.text)
    return not odd and not row.has_locks and row.plan.count("thread") == 1 and not row.hits and not any(name.endswith("'") for name in row.names)


def by_java(harness, rows):
    """What the Java machine prints of rows over the same files, which aren't verified: many have methods that it would refuse."""
    with tempfile.TemporaryDirectory() as folder:
        names = []
        for file in rows[0].files:
            names.append(class_reader.ClassFile(bytes.fromhex(file)).name)
            with open("%s/%s.class" % (folder, names[-1].replace("/", "-")), "wb") as out:
                out.write(bytes.fromhex(file))
        with open(folder + "/list", "w", encoding="utf-8") as out:
            for number, row in enumerate(rows):
                out.write(" ".join(["r%d" % number, *(name + ".class" for name in names if "/" not in name)]) + "\n")
                with open("%s/r%d.plan" % (folder, number), "w", encoding="utf-8") as plan_file:
                    plan_file.write(row.plan)
        words = ["java", "-Xint", "-Xmx64m", "-XX:+UseSerialGC", "-XX:+UnlockDiagnosticVMOptions", "-XX:-BytecodeVerificationRemote"]
        ran = subprocess.run([*words, "-cp", harness, "Machine", folder], capture_output=True, text=True, check=True)
        return re.split(r"^program \S+\n", ran.stdout, flags=re.M)[1:]


def compare_java(harness, rows):
    groups, counts = {}, {"alike": 0, "not loaded": 0, "other": 0}
    for row in filter(is_plain, rows):
        groups.setdefault(tuple(row.names), []).append(row)
    for group in groups.values():
        for row, text in zip(group, by_java(harness, group)):
            kind = "not loaded" if "no run" in text else "alike" if shortened(text) == row.text else "other"
            counts[kind] += 1
            if kind == "other":
                print("%s\n    %s" % (row.line, shortened(text)))
    print("; ".join("%s: %d" % pair for pair in counts.items()))


def main():
    items = read(HERE + "/machine-rows.txt")
    if sys.argv[1:2] == ["java"]:
        return compare_java(sys.argv[2], [item for item in items if isinstance(item, Row)])
    if sys.argv[1:] == ["check"]:
        bad = [(item, item.slow()) for item in items if isinstance(item, Row) and item.slow() != (item.text, item.hits)]
        for item, slow in bad:
            print("%s\n    %s %s" % (item.line, *slow))
        print("%d rows, %d differ" % (sum(isinstance(item, Row) for item in items), len(bad)))
        sys.exit(1 if bad else 0)
    os.makedirs(CRATE, exist_ok=True)
    lines = list(rows(items))
    with open(CRATE + "/stdin", "w", encoding="utf-8") as file:
        file.writelines(line + "\n" for line, _ in lines)
    with open(CRATE + "/stdout", "w", encoding="utf-8") as file:
        file.writelines(line + ("\n" if answer is None else " = %s\n" % answer) for line, answer in lines)
    return None


if __name__ == "__main__":
    main()
