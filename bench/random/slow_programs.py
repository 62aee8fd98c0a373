"""Linked classes and run plans, for bench/random/slow_machine.py. Well formed ones are expected."""
import struct
from typing import NamedTuple

import class_reader

NATURAL = {"Z": 1, "B": 8, "S": 16, "C": 16, "I": 32, "J": 64}
INIT, DATA = "$jacocoInit", "$jacocoData"
FETCH = ("org/jacoco/agent/rt/internal/Offline", "getProbes", "(JLjava/lang/String;I)[Z")
LOOKUP = "(Ljava/lang/invoke/MethodHandles$Lookup;Ljava/lang/String;Ljava/lang/Class;)[Z"
MOST_SLOTS = 1_000
MOST_SHORT, MOST_PROBES = 32_767, 65_535
BY_CONSTANT = 55


class Long(NamedTuple):
    """A value of type long."""

    n: int


def wrapped(n, bits):
    """The number of so many bits, with a sign, that is congruent to n."""
    n &= (1 << bits) - 1
    return n - (1 << bits) if n >> (bits - 1) else n


def narrowed(kind, n):
    """A number as a static field, an element or a returned value of the type holds it."""
    if kind == "Z":
        return n & 1
    if kind == "C":
        return n & 0xFFFF
    return wrapped(n, NATURAL[kind])


# ---- programs


class Linked:
    """A class of a program: its static fields, its bodies, and its id and number of probes."""

    def __init__(self, file):
        self.name, self.file, self.bodies = file.name, file, file.bodies()
        self.statics = [field for field in file.fields if field.flags & 8]
        self.has_clinit = any(method.name == "<clinit>" for method in file.methods)
        self.slots = MOST_SLOTS + (4 if any(body.name == INIT for body in self.bodies) else 0)
        # The constant by which its methods get the array of probes.
        self.given = None
        self.probes = self.found_constant() if file.major >= BY_CONSTANT else self.found_probes()

    def found_probes(self):
        for body in self.bodies:
            if (body.name, body.desc) == (INIT, "()[Z"):
                return self.probes_in(body.code)
        return None

    def found_constant(self):
        """The same of a class that gets its array by the constant of its last bootstrap method."""
        code = next((body.code for body in self.bodies if (body.name, body.desc) == (INIT, LOOKUP)), [])
        held = [body for name, body in self.file.attributes if name == "BootstrapMethods"]
        entries = bootstraps(held[0]) if len(held) == 1 else None
        if len(code) != 5 or code[0][0] != "ldc2_w" or not entries or len(entries[-1]) != 1:
            return None
        if self.file.pool.handle(entries[-1][0]) != (6, 10, self.name, INIT, LOOKUP):
            return None
        count = self.count_in(code[2])
        if count is None or code != [code[0], ["ldc", ("string", self.name)], code[2], ["invokestatic", *FETCH], ["areturn"]]:
            return None
        self.given = ("dynamic", (len(entries) - 1, DATA, "Ljava/lang/Object;"))
        return code[0][1][1], count

    def count_in(self, push):
        """The number of probes that an instruction pushes the shortest way."""
        name = push[0]
        if name[:7] == "iconst_" and name[7:].isdigit():
            return int(name[7:])
        if name in ("bipush", "sipush"):
            return push[1] if push[1] >= (6 if name == "bipush" else 128) else None
        return push[1][1] if name == "ldc" and push[1][0] == "int" and MOST_SHORT < push[1][1] <= MOST_PROBES else None

    def probes_in(self, code):
        """The id and the number of probes, where the code is that by which the class asks for its probe array."""
        if len(code) != 11 or code[4][0] != "ldc2_w" or code[4][1][0] != "long":
            return None
        data, push = (self.name, DATA, "[Z"), code[6]
        wanted = [["getstatic", *data], ["dup"], ["ifnonnull", 10], ["pop"], code[4], ["ldc", ("string", self.name)], push]
        wanted += [["invokestatic", *FETCH], ["dup"], ["putstatic", *data], ["areturn"]]
        count = self.count_in(push)
        return (code[4][1][1], count) if code == wanted and count is not None else None

    def first(self, field):
        """The value of a static field before a case begins."""
        if field.desc not in NATURAL:
            return None
        values = [body for name, body in field.attributes if name == "ConstantValue"]
        number = 0
        if len(values) == 1 and len(values[0]) == 2:
            kind, value = self.file.pool.constant(int.from_bytes(values[0], "big"))
            number = narrowed(field.desc, value) if kind == ("long" if field.desc == "J" else "int") else 0
        return Long(number) if field.desc == "J" else number

    def body(self, name, desc):
        """The number of the first body with this name and descriptor."""
        return next((k for k, body in enumerate(self.bodies) if (body.name, body.desc) == (name, desc)), None)


def bootstraps(held):
    """The bootstrap methods of an attribute: of each the places of its handle and its arguments. None where it is of no form."""
    data, found = class_reader.Bytes(held), []
    try:
        for _ in range(data.u2()):
            handle = data.u2()
            found.append([handle, *(data.u2() for _ in range(data.u2()))])
    except struct.error:
        return None
    return found if data.at == len(held) else None


class Program:
    def __init__(self, files):
        self.classes = [Linked(class_reader.ClassFile(text)) for text in files]
        self.numbers = {linked.name: number for number, linked in reversed(list(enumerate(self.classes)))}

    def body(self, method):
        return self.classes[method[0]].bodies[method[1]]

    def is_enterable(self, method):
        """Whether the profile lets a thread enter the method."""
        linked, body = self.classes[method[0]], self.body(method)
        fits = body.max_locals + body.max_stack <= linked.slots
        return body.flags & 8 and not body.flags & 0x120 and fits and not linked.has_clinit

    def is_init(self, method):
        return self.body(method).name == INIT

    def entry(self, thread):
        """The method with which a thread of a plan begins."""
        number = self.numbers.get(thread.name)
        for k, body in enumerate([] if number is None else self.classes[number].bodies):
            types = class_reader.parameters(body.desc)[0]
            if body.flags & 8 and body.name == thread.method != INIT and takes(types, thread.numbers):
                return number, k
        return None


def clash(program):
    """The first two classes of one name, or else of one id, or None."""
    for kind, marks in (("name", [linked.name for linked in program.classes]), ("id", [linked.probes and linked.probes[0] for linked in program.classes])):
        for second, mark in enumerate(marks):
            if mark is not None and mark in marks[:second]:
                return "same %s %d %d" % (kind, marks.index(mark), second)
    return None


def takes(types, numbers):
    """Whether the numbers are values of the types."""
    if len(types) != len(numbers) or not all(kind in NATURAL for kind in types):
        return False
    return all(narrowed(kind, n) == n for kind, n in zip(types, numbers))


# ---- plans


class ThreadLine(NamedTuple):
    name: str
    method: str
    numbers: list
    line: int


class Case(NamedTuple):
    threads: list
    schedule: list

    def turns(self):
        """The turns of the schedule."""
        kind, words, count = self.schedule[0], [int(word) for word in self.schedule[1:]], len(self.threads)
        if kind == "list":
            return words
        if kind == "robin":
            return [k % count for k in range(words[0])]
        x, turns = words[0], []
        for _ in range(words[1]):
            x = (x * 6364136223846793005 + 1442695040888963407) % 2**64
            turns.append((x >> 33) % count)
        return turns


def plan_cases(text):
    """The cases of a well formed plan."""
    cases = []
    for number, line in enumerate(text.split("\n"), 1):
        words = line.split()
        if not words or words[0].startswith("#"):
            continue
        if words[0] == "case":
            cases.append(Case([], []))
        elif words[0] == "thread":
            name, _, method = words[1].rpartition(".")
            cases[-1].threads.append(ThreadLine(name.replace(".", "/"), method, [int(word) for word in words[2:]], number))
        else:
            cases[-1].schedule.extend(words[1:])
    return cases
