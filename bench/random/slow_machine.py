#!/usr/bin/env python3
"""The machine a second time, as a slow program that was written from docs/MACHINE.md and the JVM Specification.

    bench/random/slow_machine.py PLAN CLASSFILE..
    bench/random/slow_machine.py FOLDER

Prints what `jcov run` prints: the texts of the plan's cases. With a folder of bench/random/machine_programs.py it prints the text
of each of its programs behind a line `program NAME`. `slow_twin.py` compares runs of instrumented classes with runs of
their originals by it.

A value is an int, a `Long`, None for null, an `Array` or a `Throwable` of the heap, or one of the words for a reference
to the print stream, to the probe array of a class, and to the text of a `$jacocoInit`.
"""
import os
import sys
from typing import NamedTuple

sys.path.insert(0, os.path.join(os.path.dirname(os.path.abspath(__file__)), "..", "lib"))

import class_reader
from slow_programs import DATA, FETCH, INIT, NATURAL, Long, Program, narrowed, plan_cases, wrapped

ELEMENTS = {4: "Z", 5: "C", 8: "B", 9: "S", 10: "I", 11: "J"}
LOADED = {"iaload": "I", "laload": "J", "baload": "BZ", "caload": "C", "saload": "S"}
STORED = {name.replace("load", "store"): types for name, types in LOADED.items()}
ABOVE = {"Throwable": None, "Exception": "Throwable", "Error": "Throwable", "RuntimeException": "Exception"}
ABOVE.update(ArithmeticException="RuntimeException", IllegalArgumentException="RuntimeException")
ABOVE.update(IllegalStateException="RuntimeException", NullPointerException="RuntimeException")
ABOVE.update(NegativeArraySizeException="RuntimeException", ArrayStoreException="RuntimeException")
ABOVE.update(IndexOutOfBoundsException="RuntimeException", ArrayIndexOutOfBoundsException="IndexOutOfBoundsException")
ABOVE.update(VirtualMachineError="Error", StackOverflowError="VirtualMachineError", OutOfMemoryError="VirtualMachineError")
MOST_FRAMES, MOST_WORDS, MOST_PRINTED = 128, 1_000_000, 1_048_576


class Word(NamedTuple):
    """The print stream, or the probe array or the text of the class with this number."""

    kind: str
    of: int


PRINT = Word("stream", 0)


class Array:
    def __init__(self, element, items, number):
        self.element, self.items, self.number = element, items, number


class Throwable:
    def __init__(self, name, number):
        self.name, self.number = name, number


class Stuck(Exception):
    """The thread has come to something outside of the profile."""


class Raised(Exception):
    """The instruction raises a throwable of the class with this name."""

    def __init__(self, name):
        self.name = name


def short_name(name):
    """The name of a throwable of java/lang without its package, or None for another class."""
    package, _, last = name.rpartition("/")
    return last if package == "java/lang" and last in ABOVE else None


def is_below(name, other):
    """Whether the throwable class is the other one or extends it."""
    while name is not None and name != other:
        name = ABOVE[name]
    return name is not None


# ---- worlds


class Frame:
    """A frame: `at` is the instruction that comes next, or the call at which it waits."""

    def __init__(self, method, body, values):
        self.method, self.body, self.at, self.stack, self.locals = method, body, 0, [], [None] * body.max_locals
        slot = 0
        for value in values:
            self.locals[slot] = value
            slot += 2 if isinstance(value, Long) else 1


class Thread:
    """A thread: `end` is None while it runs, `frames` has its frames, and `stood` where a stuck one stood."""

    def __init__(self, frames):
        self.frames, self.end, self.stood = frames, None, None


class World:
    """The world of a case; `taken` has the edges that turns took, as (class, body, instruction, branch)."""

    def __init__(self, program, case):
        self.program, self.heap, self.words, self.output, self.printed = program, [], 0, [], 0
        self.statics = [[linked.first(field) for field in linked.statics] for linked in program.classes]
        self.hits, self.taken, self.raised = set(), set(), False
        self.memory_error = Throwable("OutOfMemoryError", -1)
        self.threads = [self.begun(program.entry(line), line) for line in case.threads]

    def begun(self, method, line):
        if method is None:
            raise ValueError("no entry for " + line.method)
        body = self.program.body(method)
        kinds = class_reader.parameters(body.desc)[0]
        frame = Frame(method, body, [Long(n) if kind == "J" else n for kind, n in zip(kinds, line.numbers)])
        thread = Thread([frame])
        if not self.program.is_enterable(method):
            thread.frames, thread.end, thread.stood = [], "stuck", (method, 0)
        return thread

    # -- turns

    def turn(self, number):
        """One turn of a thread."""
        thread = self.threads[number]
        if thread.end is not None:
            return
        frame = thread.frames[-1]
        insn, stack = frame.body.code[frame.at], list(frame.stack)
        try:
            self.execute(thread, frame, insn)
        except Stuck:
            thread.end, thread.stood, thread.frames = "stuck", (frame.method, frame.at), []
        except Raised as raised:
            frame.stack = stack
            self.throw(thread, self.thrown(raised.name))

    def edge(self, frame, branch):
        self.taken.add((*frame.method, frame.at, branch))

    def go(self, frame):
        """The instruction goes on to the next."""
        self.edge(frame, 0)
        frame.at += 1

    def jump(self, frame, branch, to):
        self.edge(frame, branch)
        frame.at = to

    def room(self, words):
        if self.words + words > MOST_WORDS:
            raise Raised("OutOfMemoryError")
        self.words += words

    def placed(self, made):
        self.heap.append(made)
        return made

    def thrown(self, name):
        """A throwable of the class, or the case's one error where no word is left for it."""
        if name == "OutOfMemoryError" or self.words + 1 > MOST_WORDS:
            return self.memory_error
        self.words += 1
        return self.placed(Throwable(name, len(self.heap)))

    def throw(self, thread, thrown):
        """Unwinds to a handler, or to the thread's end."""
        self.raised = True
        while thread.frames:
            frame = thread.frames[-1]
            for start, end, target, caught in frame.body.handlers:
                fits = caught is None or short_name(caught) is not None and is_below(thrown.name, short_name(caught))
                if start <= frame.at < end and fits:
                    frame.at, frame.stack = target, [thrown]
                    return
            thread.frames.pop()
        thread.end = "threw java.lang." + thrown.name

    # -- instructions

    def execute(self, thread, frame, insn):
        name, stack = insn[0], frame.stack
        if name in LOADED or name in STORED:
            self.element(frame, name, stack)
        elif name in class_reader.LOCALS:
            self.local(frame, name, insn[1])
        elif name in class_reader.JUMPS:
            self.jumped(frame, name, insn[1], stack)
        elif name in ("tableswitch", "lookupswitch"):
            self.switched(frame, insn, stack.pop())
        elif name in class_reader.RETURNS:
            self.leave(thread, frame, name, stack)
        elif name == "athrow":
            self.edge(frame, 0)
            self.athrow(thread, stack.pop())
        elif name in ("getstatic", "putstatic"):
            self.static(frame, name, insn[1:], stack)
        elif name == "invokestatic":
            self.call(thread, frame, insn[1:], stack)
        elif name == "checkcast":
            self.cast(frame, insn[1], stack)
        elif name in ("invokevirtual", "invokespecial"):
            self.special(frame, name, insn[1:], stack)
        elif name in ("new", "newarray", "arraylength"):
            self.make(name, insn, stack)
            self.go(frame)
        else:
            self.compute(frame, insn, stack)
            self.go(frame)

    def compute(self, frame, insn, stack):
        """Instructions on constants and the stack alone, and iinc."""
        name = insn[0]
        if name in ("bipush", "sipush"):
            stack.append(insn[1])
        elif name.startswith("iconst_"):
            stack.append(-1 if name == "iconst_m1" else int(name[7:]))
        elif name.startswith("lconst_"):
            stack.append(Long(int(name[7:])))
        elif name == "aconst_null":
            stack.append(None)
        elif name in ("ldc", "ldc2_w"):
            stack.append(self.constant(frame, insn[1]))
        elif name == "iinc":
            frame.locals[insn[1]] = wrapped(frame.locals[insn[1]] + insn[2], 32)
        elif name.startswith(("pop", "dup", "swap")):
            moved(name, stack)
        elif name in ("i2l", "l2i", "i2b", "i2c", "i2s", "lcmp"):
            converted(name, stack)
        elif name != "nop":
            calculated(name, stack)

    def constant(self, frame, constant):
        kind, value = constant
        if kind == "int":
            return value
        if kind == "long":
            return Long(value)
        linked = self.program.classes[frame.method[0]]
        if constant == linked.given and frame.at == 0:
            return Word("probes", frame.method[0])
        if kind == "string" and (frame.body.name, frame.body.desc) == (INIT, "()[Z") and linked.probes:
            return Word("text", frame.method[0])
        raise Stuck

    def cast(self, frame, name, stack):
        """The array that the constant gave stays on top."""
        first, given = frame.body.code[0], self.program.classes[frame.method[0]].given
        if frame.at != 1 or name != "[Z" or given is None or first != ["ldc", given] or stack[-1] != Word("probes", frame.method[0]):
            raise Stuck
        self.go(frame)

    def local(self, frame, name, slot):
        if name[0] not in "ila":
            raise Stuck
        if name.endswith("load"):
            frame.stack.append(frame.locals[slot])
        else:
            frame.locals[slot] = frame.stack.pop()
        self.go(frame)

    def jumped(self, frame, name, to, stack):
        if name == "goto":
            return self.jump(frame, 1, to)
        right = stack.pop()
        left = stack.pop() if "cmp" in name else None if name.endswith("null") else 0
        left, right = (left, right) if "cmp" in name else (right, left)
        if name.startswith("if_acmp") or name.endswith("null"):
            same = left is right or isinstance(left, Word) and left == right
            holds = same == name.endswith(("eq", "ifnull"))
        else:
            test = name[-2:]
            holds = {"eq": left == right, "ne": left != right, "lt": left < right, "ge": left >= right, "gt": left > right, "le": left <= right}[test]
        return self.jump(frame, 1, to) if holds else self.go(frame)

    def switched(self, frame, insn, key):
        default, arms = insn[1], dict(insn[2])
        to = arms.get(key, default)
        branches = [default]
        for _, target in insn[2]:
            if target not in branches:
                branches.append(target)
        self.jump(frame, branches.index(to), to)

    def static(self, frame, name, member, stack):
        owner, field, desc = member
        if name == "getstatic" and tuple(member) == ("java/lang/System", "out", "Ljava/io/PrintStream;"):
            stack.append(PRINT)
            return self.go(frame)
        number = self.program.numbers.get(owner)
        statics = [] if number is None else self.program.classes[number].statics
        place = next((k for k, static in enumerate(statics) if (static.name, static.desc) == (field, desc)), None)
        if place is None or desc in ("F", "D"):
            raise Stuck
        if field == DATA and (frame.body.name != INIT or frame.method[0] != number):
            raise Stuck
        values = self.statics[number]
        if name == "getstatic":
            stack.append(values[place])
        else:
            value = stack.pop()
            values[place] = narrowed(desc, value) if isinstance(value, int) else value
        return self.go(frame)

    def depth(self, thread):
        """How many frames a thread has, those of `$jacocoInit` not counted."""
        return sum(not self.program.is_init(each.method) for each in thread.frames)

    def call(self, thread, frame, member, stack):
        owner, name, desc = member
        if frame.body.name == INIT:
            return self.fetch(frame, member, stack)
        number = self.program.numbers.get(owner)
        place = None if number is None else self.program.classes[number].body(name, desc)
        if place is None or not self.program.is_enterable((number, place)):
            raise Stuck
        if name == INIT and (frame.at != 0 or frame.method[0] != number or self.program.classes[number].given is not None):
            raise Stuck
        if name != INIT and self.depth(thread) >= MOST_FRAMES:
            raise Raised("StackOverflowError")
        self.enter(thread, (number, place), stack)

    def enter(self, thread, method, stack):
        """A frame for a callee, which gets its arguments from the stack of its caller."""
        body = self.program.body(method)
        count = len(class_reader.parameters(body.desc)[0])
        values = stack[len(stack) - count :]
        del stack[len(stack) - count :]
        thread.frames.append(Frame(method, body, values))

    def fetch(self, frame, member, stack):
        linked = self.program.classes[frame.method[0]]
        if tuple(member) != FETCH or frame.body.desc != "()[Z" or not linked.probes:
            raise Stuck
        if stack[-3:] != [Long(linked.probes[0]), Word("text", frame.method[0]), linked.probes[1]]:
            raise Stuck
        stack[-3:] = [Word("probes", frame.method[0])]
        self.go(frame)

    def leave(self, thread, frame, name, stack):
        if name in ("freturn", "dreturn"):
            raise Stuck
        value = None if name == "return" else stack.pop()
        kind = class_reader.parameters(frame.body.desc)[1]
        if isinstance(value, int) and name == "ireturn":
            value = narrowed(kind, value)
        self.edge(frame, 0)
        thread.frames.pop()
        if not thread.frames:
            thread.end = "returned" if name == "return" else "returned " + shown(value)
            return
        below = thread.frames[-1]
        if name != "return":
            below.stack.append(value)
        self.go(below)

    def athrow(self, thread, value):
        if value is None:
            raise Raised("NullPointerException")
        if not isinstance(value, Throwable):
            raise Stuck
        self.throw(thread, value)

    def make(self, name, insn, stack):
        if name == "new":
            short = short_name(insn[1])
            if short in (None, "VirtualMachineError"):
                raise Stuck
            self.room(1)
            stack.append(self.placed(Throwable(short, len(self.heap))))
        elif name == "newarray":
            count = stack.pop()
            if insn[1] not in ELEMENTS:
                raise Stuck
            if count < 0:
                raise Raised("NegativeArraySizeException")
            self.room(count + 1)
            stack.append(self.placed(Array(ELEMENTS[insn[1]], [0] * count, len(self.heap))))
        else:
            array = stack.pop()
            if array is None:
                raise Raised("NullPointerException")
            if not isinstance(array, Array):
                raise Stuck
            stack.append(len(array.items))

    def element(self, frame, name, stack):
        """A load from an array, or a store into one."""
        stored = stack.pop() if name in STORED else None
        index, array = stack.pop(), stack.pop()
        if array is None:
            raise Raised("NullPointerException")
        if isinstance(array, Word) and array.kind == "probes" and name == "bastore":
            if not 0 <= index < self.program.classes[array.of].probes[1]:
                raise Raised("ArrayIndexOutOfBoundsException")
            if stored % 2 == 0:
                raise Stuck
            self.hits.add((array.of, index))
            return self.go(frame)
        if not isinstance(array, Array) or array.element not in (LOADED | STORED)[name]:
            raise Stuck
        if not 0 <= index < len(array.items):
            raise Raised("ArrayIndexOutOfBoundsException")
        if name in STORED:
            array.items[index] = stored.n if array.element == "J" else narrowed(array.element, stored)
        else:
            stack.append(Long(array.items[index]) if array.element == "J" else array.items[index])
        return self.go(frame)

    def special(self, frame, name, member, stack):
        owner, method, desc = member
        if frame.body.name == INIT:
            raise Stuck
        if name == "invokespecial":
            short = short_name(owner)
            value = stack.pop()
            if (method, desc) != ("<init>", "()V") or short in (None, "VirtualMachineError"):
                raise Stuck
            if not isinstance(value, Throwable) or value.name != short:
                raise Stuck
            return self.go(frame)
        if (owner, method) != ("java/io/PrintStream", "println") or desc not in ("(I)V", "(J)V", "(Z)V", "()V"):
            raise Stuck
        value = None if desc == "()V" else stack.pop()
        text = "" if desc == "()V" else ("true" if value % 2 else "false") if desc == "(Z)V" else shown(value)
        self.put(stack.pop(), text + "\n")
        return self.go(frame)

    def put(self, stream, text):
        if stream is None:
            raise Raised("NullPointerException")
        if stream != PRINT or self.printed + len(text) > MOST_PRINTED:
            raise Stuck
        self.output.append(text)
        self.printed += len(text)

    # -- ends

    def locks(self):
        """The locks that are held, which this machine has none of; bench/monitors has one with locks."""
        return None

    def text(self):
        """What is printed of a case behind its number."""
        lines = ["thread %d %s\n" % (number, thread.end or "running") for number, thread in enumerate(self.threads)]
        for linked, values in zip(self.program.classes, self.statics):
            for field, value in zip(linked.statics, values):
                if field.desc in NATURAL:
                    lines.append("static %s.%s %s\n" % (linked.name, field.name, shown(value)))
        return "".join(self.output + lines)


def shown(value):
    if isinstance(value, Long):
        return str(value.n)
    return str(value) if isinstance(value, int) else "null" if value is None else "ref"


# ---- instructions on the stack alone


def moved(name, stack):
    """pop to swap. A long counts as two values, whose second is below: None stands for it here."""
    slots = []
    while len(slots) < 4 and stack:
        value = stack.pop()
        slots += [(value, 1), (value, 2)] if isinstance(value, Long) else [(value, 0)]
    if name in ("pop", "pop2"):
        slots = slots[2 if name == "pop2" else 1 :]
    elif name == "swap":
        slots[0], slots[1] = slots[1], slots[0]
    else:
        count = 2 if name.startswith("dup2") else 1
        depth = count + (int(name[-1]) if "_x" in name else 0)
        slots = slots[:depth] + slots[:count] + slots[depth:]
    for value, part in reversed(slots):
        if part != 2:
            stack.append(value)


def converted(name, stack):
    value = stack.pop()
    if name == "lcmp":
        left = stack.pop().n
        stack.append((left > value.n) - (left < value.n))
    elif name == "i2l":
        stack.append(Long(value))
    elif name == "l2i":
        stack.append(wrapped(value.n, 32))
    else:
        stack.append(narrowed({"i2b": "B", "i2c": "C", "i2s": "S"}[name], value))


OPERATIONS = {
    "add": lambda x, y, bits: x + y,
    "sub": lambda x, y, bits: x - y,
    "mul": lambda x, y, bits: x * y,
    "div": lambda x, y, bits: quotient(x, y),
    "rem": lambda x, y, bits: x - y * quotient(x, y),
    "and": lambda x, y, bits: x & y,
    "or": lambda x, y, bits: x | y,
    "xor": lambda x, y, bits: x ^ y,
    "shl": lambda x, y, bits: x << y % bits,
    "shr": lambda x, y, bits: x >> y % bits,
    "ushr": lambda x, y, bits: x % 2**bits >> y % bits,
}


def quotient(x, y):
    """The quotient, rounded towards zero."""
    if y == 0:
        raise Raised("ArithmeticException")
    return abs(x) // abs(y) * (1 if (x < 0) == (y < 0) else -1)


def calculated(name, stack):
    """Arithmetic, shifts and bit operations on int and long."""
    kind, operation = name[0], name[1:]
    if kind not in "il" or operation not in OPERATIONS and operation != "neg":
        raise Stuck
    bits, number = (64, lambda value: value.n) if kind == "l" else (32, lambda value: value)
    right = stack.pop()
    if operation == "neg":
        result = -number(right)
    else:
        count = right if operation.endswith(("shl", "shr")) else number(right)
        result = OPERATIONS[operation](number(stack.pop()), count, bits)
    result = wrapped(result, bits)
    stack.append(Long(result) if kind == "l" else result)


# ---- cases


def run(program, case, turns, world_of=World):
    """The world that the turns of a case leave."""
    world = world_of(program, case)
    for number in turns:
        world.turn(number)
        if not any(thread.frames for thread in world.threads):
            break
    return world


def texts(program, cases, world_of=World):
    return "".join("case %d\n%s" % (k, run(program, case, case.turns(), world_of).text()) for k, case in enumerate(cases, 1))


def contents(path):
    with open(path, "rb") as file:
        return file.read()


def put(plan, paths, world_of):
    program = Program([contents(path) for path in paths])
    sys.stdout.write(texts(program, plan_cases(contents(plan).decode()), world_of))


def main(world_of=World):
    if len(sys.argv) > 2:
        return put(sys.argv[1], sys.argv[2:], world_of)
    for line in contents(sys.argv[1] + "/list").decode().splitlines():
        name, *files = line.split()
        sys.stdout.write("program %s\n" % name)
        put("%s/%s.plan" % (sys.argv[1], name), ["%s/%s" % (sys.argv[1], file) for file in files], world_of)
    return None


if __name__ == "__main__":
    main()
