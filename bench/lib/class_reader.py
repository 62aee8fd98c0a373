"""Class files as a slow program reads them (JVM Specification, chapters 4 and 6): their fields and methods, with each
instruction as a list of its name and operands, and each place in the code as the number of an instruction.

Instructions that differ in their spelling alone have one name: `iload_0` and the wide form are `iload`, `ldc_w` is `ldc`,
and `goto_w` is `goto`. What stands in the constant pool is written out: a member as its class, name and descriptor, and a
constant as its kind and value. Well formed class files are expected; nothing here judges them.
"""
import struct

from class_bytes import MNEMONICS

JUMPS = {name for name in MNEMONICS if name.startswith("if") or name in ("goto", "goto_w")}
LOCALS = {kind + form for kind in "ilfda" for form in ("load", "store")}
RETURNS = ("ireturn", "lreturn", "freturn", "dreturn", "areturn", "return")


class Bytes:
    """Bytes that are read from the front."""

    def __init__(self, text):
        self.text, self.at = text, 0

    def take(self, form):
        values = struct.unpack_from(">" + form, self.text, self.at)
        self.at += struct.calcsize(">" + form)
        return values[0]

    def u1(self):
        return self.take("B")

    def u2(self):
        return self.take("H")

    def u4(self):
        return self.take("I")

    def bytes(self, count):
        self.at += count
        return self.text[self.at - count : self.at]


class Pool:
    """A constant pool: at each place the tag and what stands behind it."""

    def __init__(self, data):
        self.entries, count = {}, data.u2()
        place = 1
        while place < count:
            tag = data.u1()
            if tag == 1:
                value = data.bytes(data.u2()).decode("utf-8", "surrogateescape")
            else:
                forms = {3: "i", 4: "f", 5: "q", 6: "d", 15: "BH"}
                form = forms.get(tag, "H" if tag in (7, 8, 16, 19, 20) else "HH")
                value = tuple(data.take(one) for one in form)
            self.entries[place] = (tag, value)
            place += 2 if tag in (5, 6) else 1

    def utf8(self, place):
        return self.entries[place][1]

    def name(self, place):
        """The name of a class."""
        return self.utf8(self.entries[place][1][0])

    def signature(self, place):
        name, desc = self.entries[place][1]
        return self.utf8(name), self.utf8(desc)

    def signature_of(self, place):
        """The same, or places where no NameAndType stands."""
        return self.signature(place) if self.entries.get(place, (0,))[0] == 12 else (place, place)

    def member(self, place):
        owner, signature = self.entries[place][1]
        return (self.name(owner), *self.signature(signature))

    def handle(self, place):
        """The kind of a method handle, the tag of its member, and the member; or None."""
        tag, value = self.entries.get(place, (0, None))
        if tag != 15 or self.entries.get(value[1], (0,))[0] not in (9, 10, 11):
            return None
        return (value[0], self.entries[value[1]][0], *self.member(value[1]))

    def constant(self, place):
        tag, value = self.entries[place]
        if tag == 17:
            return "dynamic", (value[0], *self.signature_of(value[1]))
        kinds = {3: "int", 4: "float", 5: "long", 6: "double", 7: "class", 8: "string", 15: "handle", 16: "type"}
        return kinds.get(tag, "other"), self.utf8(value[0]) if tag in (7, 8) else value[0]


class Field:
    def __init__(self, data, pool):
        self.flags, self.name, self.desc = data.u2(), pool.utf8(data.u2()), pool.utf8(data.u2())
        self.attributes = attributes(data, pool)


class Method:
    """A method: `code` is None where it has none, and `wide` says whether it has a `goto_w`. Variables have their names and
    descriptors as places of the pool. `frames` has the bytes of its stack map frames, and the instructions by their offsets."""

    def __init__(self, data, pool):
        self.flags, self.name, self.desc = data.u2(), pool.utf8(data.u2()), pool.utf8(data.u2())
        self.code, self.wide, self.handlers, self.lines, self.vars, self.types, self.frames = None, False, [], [], [], [], None
        for name, body in attributes(data, pool):
            if name == "Code":
                self.read_code(Bytes(body), pool)

    def read_code(self, data, pool):
        self.max_stack, self.max_locals = data.u2(), data.u2()
        code = Bytes(data.bytes(data.u4()))
        self.code, offsets = [], []
        while code.at < len(code.text):
            offsets.append(code.at)
            self.code.append(self.instruction(code, pool))
        offsets.append(code.at)
        places = {offset: place for place, offset in enumerate(offsets)}
        self.code = [aimed(insn, places) for insn in self.code]
        for _ in range(data.u2()):
            start, end, target, caught = data.u2(), data.u2(), data.u2(), data.u2()
            self.handlers.append((places[start], places[end], places[target], pool.name(caught) if caught else None))
        for name, body in attributes(data, pool):
            if name == "LineNumberTable":
                table = Bytes(body)
                self.lines += [(places[table.u2()], table.u2()) for _ in range(table.u2())]
            if name == "StackMapTable":
                self.frames = body, places
            if name in ("LocalVariableTable", "LocalVariableTypeTable"):
                (self.vars if name == "LocalVariableTable" else self.types).extend(variables(Bytes(body), places))

    def instruction(self, code, pool):
        """The next instruction, with offsets where others have places."""
        at, name = code.at, MNEMONICS[code.u1()]
        head = name.rsplit("_", 1)
        if head[0] in LOCALS and len(head) == 2:
            return [head[0], int(head[1])]
        if name in ("bipush", "sipush"):
            return [name, code.take("b" if name == "bipush" else "h")]
        if name in ("ldc", "ldc_w", "ldc2_w"):
            return ["ldc2_w" if name == "ldc2_w" else "ldc", pool.constant(code.u1() if name == "ldc" else code.u2())]
        if name == "iinc":
            return [name, code.u1(), code.take("b")]
        if name == "wide":
            name = MNEMONICS[code.u1()]
            return [name, code.u2(), code.take("h")] if name == "iinc" else [name, code.u2()]
        if name in ("getstatic", "putstatic", "getfield", "putfield", "invokevirtual", "invokespecial", "invokestatic"):
            return [name, *pool.member(code.u2())]
        if name in ("invokeinterface", "invokedynamic"):
            place, count = code.u2(), code.u2()
            return [name, place, count]
        if name in ("new", "anewarray", "checkcast", "instanceof"):
            return [name, pool.name(code.u2())]
        if name == "multianewarray":
            return [name, pool.name(code.u2()), code.u1()]
        if name == "newarray" or name in LOCALS:
            return [name, code.u1()]
        if name in JUMPS:
            to = at + code.take("i" if name == "goto_w" else "h")
            self.wide = self.wide or name == "goto_w"
            return ["goto" if name == "goto_w" else name, to]
        if name in ("tableswitch", "lookupswitch"):
            return switch(name, at, code)
        return [name]


def switch(name, at, code):
    """A switch: its default, and its keys with their targets."""
    code.bytes(-code.at % 4)
    default = at + code.take("i")
    if name == "tableswitch":
        low, high = code.take("i"), code.take("i")
        return [name, default, [(key, at + code.take("i")) for key in range(low, high + 1)]]
    return [name, default, [(code.take("i"), at + code.take("i")) for _ in range(code.u4())]]


def aimed(insn, places):
    """The instruction, with places for offsets."""
    if insn[0] in JUMPS:
        return [insn[0], places[insn[1]]]
    if insn[0].endswith("switch"):
        return [insn[0], places[insn[1]], [(key, places[to]) for key, to in insn[2]]]
    return insn


def variables(table, places):
    """The entries of a table of local variables: where each begins and ends, the places of its texts, and its number."""
    found = []
    for _ in range(table.u2()):
        start, length, name, desc, slot = (table.u2() for _ in range(5))
        found.append((places[start], places[start + length], name, desc, slot))
    return found


def attributes(data, pool):
    """The attributes that stand here: their names and bytes."""
    return [(pool.utf8(data.u2()), data.bytes(data.u4())) for _ in range(data.u2())]


class ClassFile:
    """A class file, and the CRC-64 by which JaCoCo names the class."""

    def __init__(self, text):
        data = Bytes(text)
        data.bytes(6)
        self.major, self.pool = data.u2(), Pool(data)
        self.flags, self.name, above = data.u2(), self.pool.name(data.u2()), data.u2()
        self.above = self.pool.name(above) if above else None
        self.interfaces = [self.pool.name(data.u2()) for _ in range(data.u2())]
        self.fields = [Field(data, self.pool) for _ in range(data.u2())]
        self.methods = [Method(data, self.pool) for _ in range(data.u2())]
        self.attributes = attributes(data, self.pool)
        self.id = class_id(text)

    def bodies(self):
        """The methods with code."""
        return [method for method in self.methods if method.code is not None]


def class_id(text):
    """A CRC-64, bit by bit, with version 53 counted as 52."""
    number = 0
    for place, byte in enumerate(text):
        number ^= 0x34 if place == 7 and text[6:8] == b"\x00\x35" else byte
        for _ in range(8):
            number = (number >> 1) ^ (0xD800000000000000 if number & 1 else 0)
    return number


def parameters(desc):
    """The types of a method descriptor's parameters, and the type that it returns."""
    types, at = [], 1
    while desc[at] != ")":
        begin = at
        while desc[at] == "[":
            at += 1
        at = desc.index(";", at) + 1 if desc[at] == "L" else at + 1
        types.append(desc[begin:at])
    return types, desc[at + 1 :]
