#!/usr/bin/env python3
"""The reference check a second time, as a slow program that was written from docs/MACHINE.md and the JVM Specification.

    bench/refs/slow_refs.py CLASSFILE..

Prints what `jcov refs` prints of class files that link: `refs ok`, or the first instruction whose reference doesn't suit. The state
before each instruction is worked out from the frames and by one table over the instructions; nothing is checked of it but
what the reference check asks, so class files that jcov refuses for another reason have no meaning here.

A type is a word, as `int`, `top` and `null`, or a pair: `class` and a name, or `new` and the instruction that made the object.
"""
import os
import sys
from typing import NamedTuple

HERE = os.path.dirname(os.path.abspath(__file__))
sys.path[:0] = [os.path.join(HERE, "..", "lib"), os.path.join(HERE, "..", "random")]

import class_reader
import slow_machine
from slow_programs import DATA, FETCH, INIT, Program

LETTERS = {"i": "int", "l": "long", "f": "float", "d": "double", "a": "null", "b": "int", "c": "int", "s": "int"}
OBJECT, STREAM, STRING = "java/lang/Object", "java/io/PrintStream", "java/lang/String"
CONSTANTS = {"string": STRING, "class": "java/lang/Class", "type": "java/lang/invoke/MethodType", "handle": "java/lang/invoke/MethodHandle"}
TAGS = ["top", "int", "float", "double", "long", "null", "this"]
BRANCHING = {"goto", "athrow", *class_reader.RETURNS}


class State(NamedTuple):
    """The types of the local variables by their slots, and of the values on the stack."""

    locals: list
    stack: list


def of_class(name):
    return "class", name


def type_of(desc):
    """The type of a value that is kept as one of this descriptor."""
    if desc[0] in "ZBCSI":
        return "int"
    return {"J": "long", "F": "float", "D": "double"}.get(desc[0]) or of_class(desc if desc[0] == "[" else desc[1:-1])


def slots(types, count):
    """A list of types by slots: a long and a double take two."""
    found = []
    for each in types:
        found += [each, "top"] if each in ("long", "double") else [each]
    return found + ["top"] * (count - len(found))


def is_reference(a):
    return a in ("null", "this") or isinstance(a, tuple)


# ---- what suits what


def suits(a, b):
    """Whether a reference of the first type suits the second."""
    if b == "top" or a == b or b == of_class(OBJECT):
        return True
    if a == "null":
        return b[0] == "class"
    if a[0] != "class" or b[0] != "class":
        return False
    names = slow_machine.short_name(a[1]), slow_machine.short_name(b[1])
    return None not in names and slow_machine.is_below(*names)


def suit(some, others):
    """Whether each reference suits what stands at its place."""
    return all(suits(a, b) for a, b in zip(some, others) if is_reference(a))


# ---- states


class States:
    """The states before the instructions of a body."""

    def __init__(self, file, body):
        self.file, self.body, self.entry = file, body, []
        if not body.flags & 8:
            self.entry.append("this" if body.name == "<init>" else of_class(file.name))
        self.entry += [type_of(each) for each in class_reader.parameters(body.desc)[0]]
        self.frames = self.read_frames() if body.frames else {}
        self.before = []
        for i in range(len(body.code)):
            self.before.append(self.frames[i] if i in self.frames else self.after(i - 1) if i else self.first())

    def first(self):
        """The state in which the method begins."""
        return State(slots(self.entry, self.body.max_locals), [])

    def read_frames(self):
        """The frames by their instructions (JVM Specification 4.7.4)."""
        data, places = class_reader.Bytes(self.body.frames[0]), self.body.frames[1]
        found, offset, kept = {}, -1, list(self.entry)
        some = lambda count: [self.read_type(data, places) for _ in range(count)]
        for _ in range(data.u2()):
            form, stack = data.u1(), []
            offset += 1 + (form if form < 64 else form - 64 if form < 128 else data.u2())
            if 64 <= form < 128 or form == 247:
                stack = some(1)
            elif 248 <= form <= 250:
                kept = kept[: len(kept) + form - 251]
            elif 252 <= form <= 254:
                kept = kept + some(form - 251)
            elif form == 255:
                kept = some(data.u2())
                stack = some(data.u2())
            found[places[offset]] = State(slots(kept, self.body.max_locals), stack)
        return found

    def read_type(self, data, places):
        tag = data.u1()
        if tag == 7:
            return of_class(self.file.pool.name(data.u2()))
        return ("new", places[data.u2()]) if tag == 8 else TAGS[tag]

    def made(self, a):
        """The class of an object whose constructor wasn't called."""
        return self.file.name if a == "this" else self.body.code[a[1]][1]

    def after(self, i):
        """What an instruction leaves of the state before it."""
        (name, *operands), before = self.body.code[i], self.before[i]
        kept, stack = list(before.locals), list(before.stack)
        if name in class_reader.LOCALS:
            local(name, operands[0], kept, stack)
        elif name.startswith(("pop", "dup", "swap")):
            moved(name, stack)
        elif name.startswith("invoke"):
            self.call(name, operands, kept, stack)
        elif name == "new":
            kept = ["top" if each == ("new", i) else each for each in kept]
            stack.append(("new", i))
        else:
            taken, left = self.effect(name, operands, stack)
            stack = stack[: len(stack) - taken] + left
        return State(kept, stack)

    def call(self, name, operands, kept, stack):
        """A call leaves what it returns. Behind a constructor an object is one of its class."""
        desc = self.file.pool.signature(self.file.pool.entries[operands[0]][1][1])[1] if name == "invokedynamic" else None
        member = self.file.pool.member(operands[0]) if name == "invokeinterface" else operands
        types, result = class_reader.parameters(desc or member[2])
        del stack[len(stack) - len(types) :]
        if name not in ("invokestatic", "invokedynamic"):
            receiver = stack.pop()
            if name == "invokespecial" and member[1] == "<init>":
                built = of_class(self.made(receiver))
                kept[:] = [built if each == receiver else each for each in kept]
                stack[:] = [built if each == receiver else each for each in stack]
        stack += [] if result == "V" else [type_of(result)]

    def effect(self, name, operands, stack):
        """How many values another instruction takes, and the types of what it leaves (JVM Specification 6.5)."""
        if name in ("nop", "iinc", "goto", "return"):
            return 0, []
        if name in FIXED:
            return FIXED[name]
        if "const" in name:
            return 0, [LETTERS[name[0]]]
        if name in ("ldc", "ldc2_w"):
            kind, value = operands[0]
            return 0, [type_of(value[2]) if kind == "dynamic" else of_class(CONSTANTS[kind]) if kind in CONSTANTS else kind]
        if name in class_reader.JUMPS:
            return (2 if "cmp" in name else 1), []
        if name in ("getstatic", "putstatic", "getfield", "putfield"):
            return (name[0] == "p") + name.endswith("field"), [type_of(operands[2])] if name[0] == "g" else []
        if name in ("anewarray", "checkcast", "newarray", "multianewarray"):
            return operands[1] if name == "multianewarray" else 1, [self.built(name, operands[0])]
        if name == "aaload":
            return 2, ["null" if stack[-2] == "null" else type_of(stack[-2][1][1:])]
        if name.endswith("aload"):
            return 2, [LETTERS[name[0]]]
        if name.endswith("astore"):
            return 3, []
        if name[1] == "2":
            return 1, [LETTERS[name[2]]]
        return (1 if name.endswith("neg") else 2), ["int" if "cmp" in name else LETTERS[name[0]]]

    def built(self, name, what):
        if name == "newarray":
            return of_class("[" + {4: "Z", 5: "C", 6: "F", 7: "D", 8: "B", 9: "S", 10: "I", 11: "J"}[what])
        if name == "anewarray":
            return of_class("[" + (what if what[0] == "[" else "L%s;" % what))
        return of_class(what)


FIXED = {"bipush": (0, ["int"]), "sipush": (0, ["int"]), "arraylength": (1, ["int"]), "instanceof": (1, ["int"])}
FIXED.update({name: (1, []) for name in ("athrow", "monitorenter", "monitorexit", "tableswitch", "lookupswitch", *class_reader.RETURNS[:-1])})


def local(name, slot, kept, stack):
    if name.endswith("load"):
        return stack.append(kept[slot])
    kept[slot] = stack.pop()
    if slot and kept[slot - 1] in ("long", "double"):
        kept[slot - 1] = "top"
    if kept[slot] in ("long", "double"):
        kept[slot + 1] = "top"
    return None


def moved(name, stack):
    """pop to swap, by words: a long and a double take two."""
    words = []
    for each in stack:
        words += [(each, 1), (each, 2)] if each in ("long", "double") else [(each, 0)]
    if name == "swap":
        words[-2:] = [words[-1], words[-2]]
    elif name.startswith("pop"):
        del words[-1 if name == "pop" else -2 :]
    else:
        count = 2 if name.startswith("dup2") else 1
        place = len(words) - count - (int(name[-1]) if "_x" in name else 0)
        words[place:place] = words[len(words) - count :]
    stack[:] = [each for each, part in words if part != 2]


# ---- what instructions need


class Need(NamedTuple):
    """A reference under so many other values, and a test on its type."""

    above: int
    takes: object


def arrays(types):
    return lambda a: a in [of_class("[" + each) for each in types]


def kept_as(desc, above):
    """What is kept as a value of a descriptor suits it."""
    wanted = type_of(desc)
    return [Need(above, lambda a: suits(a, wanted))] if is_reference(wanted) else []


def arguments(desc):
    types = class_reader.parameters(desc)[0]
    return [need for k, each in enumerate(types) for need in kept_as(each, len(types) - 1 - k)]


def needs(program, method, i):
    """The needs of an instruction, where the profile has it."""
    body, (name, *operands) = program.body(method), program.body(method).code[i]
    if name in slow_machine.LOADED:
        return [Need(1, arrays(slow_machine.LOADED[name]))]
    if name in slow_machine.STORED:
        return [Need(2, arrays(slow_machine.STORED[name]))]
    if name == "arraylength":
        return [Need(0, arrays("ZCBSIJ"))]
    if name == "athrow":
        return [Need(0, lambda a: a[0] == "new" or a == "this" or a[0] == "class" and slow_machine.short_name(a[1]) is not None)]
    if name == "areturn":
        return kept_as(class_reader.parameters(body.desc)[1], 0)
    if name == "putstatic":
        return kept_as(operands[2], 0) if is_static(program, method, operands) else []
    if name == "invokestatic":
        return arguments(operands[2]) if is_call(program, method, i, operands) else []
    if body.name == INIT:
        return []
    if name == "invokevirtual" and operands[:2] == [STREAM, "println"] and operands[2] in ("(I)V", "(J)V", "(Z)V", "()V"):
        return [Need(0 if operands[2] == "()V" else 1, lambda a: a == of_class(STREAM))]
    if name == "invokespecial" and operands[1:] == ["<init>", "()V"] and slow_machine.short_name(operands[0]) not in (None, "VirtualMachineError"):
        return [Need(0, lambda a: a == of_class(operands[0]) or a[0] == "new" and body.code[a[1]][1] == operands[0])]
    return []


def is_static(program, method, member):
    """Whether the profile has an instruction on this static field there."""
    owner, name, desc = member
    number = program.numbers.get(owner)
    if number is None or name == DATA and (program.body(method).name != INIT or method[0] != number):
        return False
    return any((static.name, static.desc) == (name, desc) for static in program.classes[number].statics)


def is_call(program, method, i, member):
    """Whether the profile has a call of this method there."""
    owner, name, desc = member
    body = program.body(method)
    if body.name == INIT:
        return tuple(member) == FETCH and body.desc == "()[Z" and bool(program.classes[method[0]].probes)
    number = program.numbers.get(owner)
    place = None if number is None else program.classes[number].body(name, desc)
    if place is None or not program.is_enterable((number, place)):
        return False
    return name != INIT or i == 0 and method[0] == number and program.classes[number].given is None


# ---- the check


def leads(code, i):
    """The instructions to which an instruction branches."""
    name = code[i][0]
    if name.endswith("switch"):
        return {code[i][1], *(to for _, to in code[i][2])}
    return ({code[i][1]} if name in class_reader.JUMPS else set()) | (set() if name in BRANCHING else {i + 1})


def is_suited(program, method, states, i):
    """Whether each reference of an instruction suits what takes it."""
    body, state = states.body, states.before[i]
    for need in needs(program, method, i):
        operand = state.stack[-1 - need.above]
        if is_reference(operand) and operand != "null" and not need.takes(operand):
            return False
    for to in leads(body.code, i):
        left, there = states.after(i), states.before[to]
        if not suit(left.locals, there.locals) or not suit(left.stack, there.stack):
            return False
    for start, end, target, caught in body.handlers:
        if start <= i < end:
            there, thrown = states.before[target], of_class(caught or "java/lang/Throwable")
            if not suit(state.locals, there.locals) or there.stack[0][0] != "class" or not suits(thrown, there.stack[0]):
                return False
    return i > 0 or suit(states.first().locals, state.locals)


def first_fault(program):
    """The class, the method and the instruction of the first fault, or None."""
    for c, linked in enumerate(program.classes):
        for k, body in enumerate(linked.bodies):
            if not program.is_enterable((c, k)):
                continue
            states = States(linked.file, body)
            for i in range(len(body.code)):
                if not is_suited(program, (c, k), states, i):
                    return c, next(number for number, each in enumerate(linked.file.methods) if each is body), i
    return None


def answer(program, paths):
    fault = first_fault(program)
    return "refs ok" if fault is None else "%s: reference in method %d at %d" % (paths[fault[0]], *fault[1:])


# ---- wrong references of a run


def class_of(value):
    """The class of what a reference of the slow machine refers to."""
    if isinstance(value, slow_machine.Array):
        return "[" + value.element
    if isinstance(value, slow_machine.Throwable):
        return "java/lang/" + value.name
    return {"stream": STREAM, "probes": "[Z", "text": STRING}[value.kind]


class Watch:
    """Looks at each turn of a program's runs."""

    def __init__(self, program):
        self.program, self.needs = program, {}

    def is_wrong(self, thread):
        """Whether a thread stands at an instruction that takes a reference of none of the classes that it needs."""
        if thread.end is not None:
            return False
        frame = thread.frames[-1]
        place = (*frame.method, frame.at)
        if place not in self.needs:
            self.needs[place] = needs(self.program, frame.method, frame.at)
        for need in self.needs[place]:
            value = frame.stack[-1 - need.above]
            if value is not None and not need.takes(of_class(class_of(value))):
                return True
        return False


def main():
    paths = sys.argv[1:]
    print(answer(Program([slow_machine.contents(path) for path in paths]), paths))


if __name__ == "__main__":
    main()
