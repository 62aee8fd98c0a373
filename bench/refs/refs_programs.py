#!/usr/bin/env python3
"""Random programs of the machine's profile with references of many classes, some of them wrong, each with a run plan.

    bench/refs/refs_programs.py SEED COUNT FOLDER [THREADS]

Writes what bench/random/machine_programs.py does. Static fields, parameters, results, local variables and frames are of arrays, of
throwables, of `java/lang/Object`, of the print stream and of a class of the program. In two of three programs slips are
made: a value of another class in the place of one, another class in a frame, a row, a constructor's call or a field's
descriptor, and another instruction on arrays. Some of them do no harm, as where the other class is a superclass.
"""
import os
import random
import sys

HERE = os.path.dirname(os.path.abspath(__file__))
sys.path[:0] = [os.path.join(HERE, "..", "lib"), os.path.join(HERE, "..", "random")]

import class_bytes
import machine_bytes
import machine_classes
import machine_programs
from slow_machine import ABOVE

ARRAYS = list(machine_bytes.ARRAYS)
OBJECT, STREAM, STRING = "java/lang/Object", "java/io/PrintStream", "java/lang/String"
THROWABLES = ["java/lang/" + name for name in ABOVE]
ARRAY_CODES = list(machine_bytes.ARRAYS.values())
# Instructions on arrays that take the same operands.
INT_ARRAYS = ["iaload", "baload", "caload", "saload"], ["iastore", "bastore", "castore", "sastore"]


def is_below(name, other):
    """Whether one class is the other or extends it, as far as the machine knows."""
    if name == other or other == OBJECT:
        return True
    return name in THROWABLES and ABOVE[name[10:]] is not None and is_below("java/lang/" + ABOVE[name[10:]], other)


def desc_of(name):
    return name if name[0] == "[" else "L%s;" % name


class Method(machine_bytes.Method):
    """The maker of one method."""

    def fits(self, label, stack=None):
        stack = self.stack if stack is None else stack
        kinds = list(zip(self.slots, label.slots)) + list(zip(stack, label.stack))
        return len(stack) == len(label.stack) and all(fits(here, there) for here, there in kinds)

    def some_kind(self):
        if self.random.random() < 0.6:
            return super().some_kind()
        return "class:" + self.random.choice(self.program.classes)

    def fill(self):
        """Puts values into most static fields of references."""
        for owner, name, desc in self.program.fields:
            if desc[0] in "[L" and self.random.random() < 0.8:
                self.value(machine_bytes.kind_of(desc))
                self.emit("putstatic", "%s.%s:%s" % (owner, name, desc))
                self.stack.pop()

    def value(self, kind):
        """Now and then a value of a subclass, and with a slip one of any class."""
        if kind[0] == "c":
            slips = self.random.random() < self.program.slips
            others = [name for name in self.program.classes if slips or is_below(name, kind[6:])]
            if slips or others and self.random.random() < 0.3:
                super().value("class:" + self.random.choice(others))
                self.stack[-1] = kind
                return kind
        return super().value(kind)

    def throwable_made(self, name):
        """An object of a class: of a throwable, or of another one where there are some."""
        if name == STREAM:
            return self.emit("getstatic", "java/lang/System.out:Ljava/io/PrintStream;")
        if name == OBJECT:
            return self.value_of_some_class()
        if name not in THROWABLES:
            return self.emit("aconst_null")
        if name.endswith("VirtualMachineError"):
            name = "java/lang/StackOverflowError"
        if self.random.random() < 0.9:
            return super().throwable_made(name)
        return self.waits(name)

    def value_of_some_class(self):
        if self.random.random() < 0.5:
            return self.array_made(self.random.choice(ARRAYS))
        return super().throwable_made(self.random.choice(THROWABLES[4:11]))

    def waits(self, name):
        """An object that waits for its constructor while a jump is made."""
        kind = "uninitialized:%d" % len(self.insns)
        self.emit("new", name)
        self.emit("dup")
        label = machine_bytes.Label(self.slots, self.stack + [kind, kind])
        self.emit("iconst_1")
        self.emit("ifeq", label)
        self.emit("nop")
        self.most = max(self.most, sum(2 if each == "long" else 1 for each in self.stack) + 3)
        label.at = len(self.insns)
        self.frames[label.at] = label
        self.emit("nop")
        self.emit("invokespecial", name + ".<init>:()V")

    def leaves(self):
        """A throw takes what the types say to be a throwable."""
        kind = self.stack[-1] if self.stack else ""
        if kind.startswith("class:java/lang/") and kind[6:] not in THROWABLES:
            return self.returns() if self.random.random() < 0.12 else None
        return super().leaves()

    def caught(self, name):
        return self.random.choice([name, name] + [each for each in THROWABLES if is_below(each, name)])

    def lines_of(self):
        lines = super().lines_of()
        if 0 not in self.frames and self.random.random() < 0.3:
            lines.insert(next((k for k, line in enumerate(lines) if line.startswith("frame")), 1 + len(self.insns)), self.first_frame())
        for _ in range(self.random.choice([1, 1, 2, 3]) if self.random.random() < self.program.slips * 8 else 0):
            self.slip(lines)
        return lines

    def first_frame(self):
        """A frame in front of the first instruction, with the parameters."""
        kinds = [machine_bytes.kind_of(desc) for desc in self.types]
        for k, kind in enumerate(kinds):
            if kind[0] == "c" and self.random.random() < self.program.slips * 5:
                kinds[k] = "class:" + self.random.choice(self.program.classes)
        return "frame 0 %s |" % " ".join(kinds)

    def slip(self, lines):
        """Puts another word into one of the lines, of a kind that is chosen first."""
        kinds = {}
        for at, line in enumerate(lines):
            words = line.split()
            kind = next((k for k, names in enumerate(INT_ARRAYS) if words[0] in names), words[0])
            if kind in (0, 1, "newarray", "handler", "invokespecial") or kind == "frame" and "class:" in line or is_on_reference(words):
                kinds.setdefault(kind, []).append(at)
        if kinds:
            at = self.random.choice(self.random.choice(list(kinds.values())))
            lines[at] = " ".join(self.slipped(lines[at].split()))

    def slipped(self, words):
        chance, name = self.random, words[0]
        if name == "frame":
            at = chance.choice([k for k, word in enumerate(words) if word.startswith("class:")])
            words[at] = "class:" + chance.choice(self.program.classes)
        elif name == "newarray":
            words[1] = str(chance.choice([*ARRAY_CODES, *ARRAY_CODES, 6]))
        elif name == "handler":
            words[4] = chance.choice(["any", "java/io/IOException", *THROWABLES])
        elif name == "invokespecial":
            words[1] = chance.choice(THROWABLES) + ".<init>:()V"
        elif name in ("getstatic", "putstatic"):
            words[1] = chance.choice(["%s.%s:%s" % field for field in self.program.fields if field[2][0] in "[L"])
        else:
            words[0] = chance.choice(next(names for names in INT_ARRAYS if name in names))
        return words


def is_on_reference(words):
    """Whether the instruction is on a static field of references of the program."""
    return words[0] in ("getstatic", "putstatic") and words[1].split(":")[1][0] in "[L" and "java/lang/System" not in words[1]


def fits(here, there):
    if there is None or there == here:
        return True
    if there[:6] != "class:":
        return False
    return here == "null" or here is not None and here[:6] == "class:" and is_below(here[6:], there[6:])


class Program(machine_classes.Program):
    """The classes of one program. `slips` says how often a value is of another class than the one that is wanted."""

    def __init__(self, chance, name, size, calm, slips):
        self.random, self.calm, self.slips, self.sizes = chance, calm, slips, size
        self.names = [name] + ([name + "B"] if chance.random() < 0.5 else [])
        self.majors = {owner: chance.choice([50, 51, 52, 52, 55, 61, 65]) for owner in self.names}
        self.classes = chance.sample(THROWABLES, 4) + chance.sample(ARRAYS, 3) + [OBJECT, STREAM, self.names[-1]]
        self.classes += chance.sample([STRING, "java/lang/Throwable", "java/lang/Exception", "[[I"], 2)
        self.fields, self.methods = [(name, "fuel", "I")], []
        for owner in self.names:
            for k in range(chance.randrange(4, 9)):
                self.fields.append((owner, "f%d" % k, chance.choice(["I", "J", "Z", *ARRAYS, *map(desc_of, self.classes)])))
        for k in range(chance.randrange(2, 6)):
            self.methods.append(self.method(k))
        self.methods += [(self.names[-1], "deep", "(IJ)I", ["I", "J"], "I"), (name, "empty", "()V", [], "V")]

    def method(self, k):
        kinds = ["I", "I", "J", "Z"] + ([desc_of(name) for name in self.classes] if k else [])
        types = self.random.choices(kinds, k=self.random.randrange(0, 4))
        result = self.random.choice(["V", "I", "J", *(desc_of(name) for name in self.classes)])
        owner = self.names[0] if k == 0 else self.random.choice(self.names)
        return owner, "m%d" % k, "(%s)%s" % ("".join(types), result), types, result

    def first(self, name, desc):
        return "" if desc[0] in "[L" else super().first(name, desc)

    def lines(self, owner):
        lines = ["class %s %d" % (owner, self.majors[owner])]
        lines += ["field 0x9 %s %s%s" % (name, desc, self.first(name, desc)) for each, name, desc in self.fields if each == owner]
        for each, name, desc, types, result in self.methods:
            if each != owner:
                continue
            if name[0] == "m":
                size = self.random.randrange(self.sizes // 4, self.sizes)
                lines += Method(self.random, owner, (name, desc, types, result), self, size).make()
            else:
                lines += self.deep(owner) if name == "deep" else ["method 0x9 empty ()V 0 0", "return", "line 0 2"]
        return lines

    def entries(self):
        """The methods with which a thread can begin."""
        return [(owner, name, types) for owner, name, _, types, _ in self.methods if not any(each[0] in "[L" for each in types)]


def plan(chance, program, threads):
    text = ""
    for _ in range(4):
        count = chance.randrange(1, threads + 1)
        lines = [machine_programs.thread_line(program, chance.choice(program.entries())) for _ in range(count)]
        text += "\n".join(["case", *lines, machine_programs.schedule(chance, count, program.calm)]) + "\n"
    return text


def main():
    seed, count, folder = int(sys.argv[1]), int(sys.argv[2]), sys.argv[3]
    threads = int(sys.argv[4]) if len(sys.argv) > 4 else 8
    os.makedirs(folder, exist_ok=True)
    with open(folder + "/list", "w", encoding="utf-8") as listed:
        for k in range(count):
            chance, name = random.Random("refs %d %d" % (seed, k)), "R%05d" % k
            slips = 0 if k % 3 == 0 else chance.choice([0.01, 0.04, 0.1])
            program = Program(chance, name, chance.choice([40, 120, 240]), chance.random() < 0.3, slips)
            for owner in program.names:
                with open("%s/%s.class" % (folder, owner), "wb") as file:
                    file.write(class_bytes.class_bytes(program.lines(owner)))
            with open("%s/%s.plan" % (folder, name), "w", encoding="utf-8") as file:
                file.write(plan(chance, program, threads))
            listed.write(" ".join([name] + ["%s.class" % owner for owner in program.names]) + "\n")


if __name__ == "__main__":
    main()
