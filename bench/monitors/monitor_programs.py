#!/usr/bin/env python3
"""Random programs of the machine's profile whose threads take locks, each with a run plan.

    bench/monitors/monitor_programs.py SEED COUNT FOLDER [THREADS]

Writes what bench/random/machine_programs.py does. Methods are synchronized, and there are synchronized blocks on arrays and
throwables that static fields, local variables and handlers hold. Two of three programs are compiled by javac from Java source. The
third is written as bytes, where what is entered need not be left again. Without THREADS a plan has one case of one thread that runs to
its end, and all programs are compiled. With THREADS it has cases of 1 to THREADS threads, under `robin` and `seed`.
"""
import os
import random
import re
import subprocess
import sys

HERE = os.path.dirname(os.path.abspath(__file__))
sys.path[:0] = [os.path.join(HERE, "..", "lib"), os.path.join(HERE, "..", "random")]

import class_bytes
import machine_bytes
import machine_classes
import machine_programs
import machine_source

# The machine's one OutOfMemoryError has no lock, and the Java machine's has.
MAYBE_MEMORY = ("Throwable", "Error", "OutOfMemoryError")
# Types of static fields whose objects are locked, and what makes one.
LOCKED = [
    ("int[]", "int[2]"),
    ("Throwable", "IllegalStateException()"),
    ("RuntimeException", "ArithmeticException()"),
    ("byte[]", "byte[3]"),
]


# ---- Java source


class SourceMethod(machine_source.Method):
    """The maker of one method's statements."""

    def text(self, size):
        lines = super().text(size)
        if self.program.calm or self.random.random() < 0.85:
            lines[1:1] = ["        if (%s == null) %s = new %s;" % (name, name, new) for name, new in self.program.locks]
        return lines

    def statement(self, indent):
        if self.random.random() < 0.14 and self.depth < 4:
            return self.locked("    " * indent, self.lock(), indent)
        return super().statement(indent)

    def locked(self, pad, lock, indent):
        return ["%ssynchronized (%s) {" % (pad, lock), *self.block(indent + 1, 3), pad + "}"]

    def lock(self):
        """What is locked: an object of a static field, mostly."""
        chance, found = self.random.random(), self.array()
        if chance < 0.65 or self.program.calm:
            return self.random.choice(self.program.locks)[0]
        if chance < 0.9 and found:
            return found[0]
        return self.random.choice(["new int[1]", "new ArithmeticException()", "new long[%s & 3]" % self.atom("int", 1), self.program.null])

    def guarded(self, indent):
        """Now and then what is caught is locked."""
        pad, made = "    " * indent, []
        for line in super().guarded(indent):
            made.append(line)
            caught = re.fullmatch(pad + r"\} catch \((\w+) (e\d+)\) \{", line)
            if caught and self.random.random() < 0.3 and (self.program.odd or caught[1] not in MAYBE_MEMORY):
                made += self.locked(pad + "    ", caught[2], indent + 1)
        return made


class SourceProgram(machine_source.Program):
    """The classes of one program. `locks` has static fields of objects that are locked, with what makes one. Where it is odd, what has
    no lock here and one on the Java machine is locked too."""

    method_of = SourceMethod

    def __init__(self, chance, name, size, calm, odd):
        super().__init__(chance, name, size, calm)
        self.odd, self.synchronized, self.made = odd, set(), None
        kinds = [chance.choice(LOCKED) for _ in range(chance.randrange(1, 4))]
        self.lock_fields = [(chance.choice(self.names), "lock%d" % k, kind) for k, (kind, _) in enumerate(kinds)]
        self.lock_fields.append((name, "none", "short[]"))
        self.null = name + ".none"
        self.locks = [("%s.%s" % (owner, field), new) for (owner, field, _), (_, new) in zip(self.lock_fields, kinds)]

    def source(self):
        """The source, which is made once."""
        self.made = self.made or super().source()
        return self.made

    def class_text(self, owner):
        lines = ["class %s {" % owner]
        lines += ["    static %s %s;" % (kind, name) for each, name, kind in self.lock_fields if each == owner]
        for line in super().class_text(owner)[1:]:
            head = re.match(r"    static \S+ (\w+)\(", line)
            if head and self.random.random() < ((0.03 if self.odd else 0) if head[1] == "m0" else 0.4):
                line = line.replace("static", "static synchronized", 1)
                self.synchronized.add((owner, head[1]))
            lines.append(line)
        return lines


# ---- bytes


class BytesMethod(machine_bytes.Method):
    """The maker of one method, which enters and leaves monitors where it likes."""

    def step(self):
        if self.live and self.random.random() < 0.1 and len(self.stack) < 5:
            return self.random.choice([self.enters, self.enters, self.leaves_monitor])()
        return super().step()

    def enters(self):
        """The lock of a reference, which mostly stays on the stack."""
        if not self.stack or self.stack[-1][0] != "c":
            self.value("class:" + self.random.choice(["[I", "[I", "[J", "java/lang/ArithmeticException"]))
        if self.random.random() < 0.8:
            self.emit("dup")
            self.push(self.stack[-1])
        self.emit("monitorenter")
        self.took(1)

    def leaves_monitor(self):
        if not self.stack or self.stack[-1][0] != "c":
            return
        self.emit("monitorexit")
        self.took(1)


class BytesProgram(machine_classes.Program):
    """The classes of one program as lines for class_bytes.py."""

    method_of = BytesMethod

    def __init__(self, *words):
        super().__init__(*words)
        self.synchronized = {(owner, name) for owner, name, *_ in self.methods if self.random.random() < (0.03 if name == "m0" else 0.4)}

    def lines(self, owner):
        lines = super().lines(owner)
        for k, line in enumerate(lines):
            words = line.split()
            if words[0] == "method" and (owner, words[2]) in self.synchronized:
                lines[k] = " ".join(["method", "0x29", *words[2:]])
        return lines


# ---- plans


def plan(chance, program, threads):
    """The text of the plan of a program. A synchronized method with which a thread begins is stuck, so there are few."""
    found = machine_programs.entries(program)
    usual = [entry for entry in found if entry[:2] not in program.synchronized] or found
    if not threads:
        return "case\n%s\nschedule robin 1000000\n" % machine_programs.thread_line(program, usual[0])
    text = ""
    for _ in range(4):
        count = chance.randrange(1, threads + 1)
        entries = [chance.choice(found if chance.random() < 0.05 else usual) for _ in range(count)]
        turns = int(10 ** chance.uniform(2, 4.2))
        schedule = "robin %d" % turns if chance.random() < 0.4 else "seed %d %d" % (chance.randrange(2**64), turns)
        lines = [machine_programs.thread_line(program, entry) for entry in entries]
        text += "\n".join(["case", *lines, "schedule " + schedule]) + "\n"
    return text


def main():
    seed, count, folder = int(sys.argv[1]), int(sys.argv[2]), sys.argv[3]
    threads = int(sys.argv[4]) if len(sys.argv) > 4 else 0
    os.makedirs(folder + "/source", exist_ok=True)
    sources, lines = [], []
    for k in range(count):
        chance, name = random.Random("monitors %d %d" % (seed, k)), "Q%05d" % k
        calm = chance.random() < 0.5
        if threads and k % 3 == 2:
            program = BytesProgram(chance, name, chance.choice([40, 120]), calm)
            for owner in program.names:
                with open("%s/%s.class" % (folder, owner), "wb") as file:
                    file.write(class_bytes.class_bytes(program.lines(owner)))
        else:
            program = SourceProgram(chance, name, chance.choice([6, 12, 18]), calm, threads > 0)
            sources.append("%s/source/%s.java" % (folder, name))
            with open(sources[-1], "w", encoding="utf-8") as file:
                file.write(program.source())
        with open("%s/%s.plan" % (folder, name), "w", encoding="utf-8") as file:
            file.write(plan(chance, program, threads))
        lines.append(" ".join([name] + ["%s.class" % owner for owner in program.names]))
    words = ["javac", "-J-XX:TieredStopAtLevel=1", "-nowarn", "-Xlint:-options", "-encoding", "UTF-8", "--release", "8", "-g:lines"]
    subprocess.run([*words, "-d", folder, *sources], check=True)
    with open(folder + "/list", "w", encoding="utf-8") as file:
        file.write("\n".join(lines) + "\n")


if __name__ == "__main__":
    main()
