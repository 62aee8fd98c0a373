"""Instrumented class files as a slow program makes them, byte by byte, by docs/PROBES.md, docs/EMISSION.md and docs/CLASSES.md.

    python3 bench/random/slow_instrument.py < CLASS    prints the digits of the instrumented class file

It reads what bench/lib/class_bytes.py makes, whatever the version: frames are full ones, or such as the one before. Methods whose
new code needs further frames, since a conditional jump or a switch has a probe, and jumps that would have to be wide aren't
instrumented here. `python3 bench/lib/class_bytes.py < METHODS | xxd -r -p` gives a CLASS.
"""
import os
import struct
import sys

sys.path.insert(0, os.path.join(os.path.dirname(os.path.abspath(__file__)), "..", "lib"))

import class_reader
import slow_twin
from class_bytes import u1, u2, u4

RUNTIME = (b"org/jacoco/agent/rt/internal/Offline", b"getProbes", b"(JLjava/lang/String;I)[Z")
DATA, INIT, ARRAY = b"$jacocoData", b"$jacocoInit", b"[Z"
LOOKUP = b"(Ljava/lang/invoke/MethodHandles$Lookup;Ljava/lang/String;Ljava/lang/Class;)[Z"
SIZES = {3: 4, 4: 4, 5: 8, 6: 8, 7: 2, 8: 2, 9: 4, 10: 4, 11: 4, 12: 4, 15: 3, 16: 2, 17: 4, 18: 4, 19: 2, 20: 2}
BY_CONSTANT = 55
NUMBERS = " IFDJ"


class PoolFull(Exception):
    pass


class GrownPool:
    """A constant pool that grows. Entries are equal by what they stand for, and the first one of equal ones is taken."""

    def __init__(self, data):
        self.entries, self.first, self.spelled = {}, {}, b""
        self.count = data.u2()
        place = 1
        while place < self.count:
            tag = data.u1()
            size = data.u2() if tag == 1 else SIZES[tag]
            body = data.bytes(size)
            self.entries[place] = (tag, body)
            self.spelled += u1(tag) + (u2(size) if tag == 1 else b"") + body
            place += 2 if tag in (5, 6) else 1
        for place in sorted(self.entries):
            self.first.setdefault(self.content(place), place)

    def content(self, place):
        """What an entry stands for. A place that isn't there stands for nothing else."""
        if place not in self.entries:
            return ("nowhere", place)
        tag, body = self.entries[place]
        at = lambda offset: self.content(struct.unpack_from(">H", body, offset)[0])
        if tag in (7, 8, 16, 19, 20):
            return (tag, at(0))
        if tag in (9, 10, 11, 12):
            return (tag, at(0), at(2))
        if tag == 15:
            return (tag, body[0], at(1))
        if tag in (17, 18):
            return (tag, struct.unpack_from(">H", body)[0], at(2))
        return (tag, body)

    def take(self, content):
        """The place of an entry, which is added behind its missing parts where it isn't there."""
        if content in self.first:
            return self.first[content]
        tag = content[0]
        parts = [u2(self.take(part)) if isinstance(part, tuple) else part for part in content[1:]]
        if tag == 15:
            parts[0] = u1(content[1])
        if tag in (17, 18):
            parts[0] = u2(content[1])
        body = b"".join(parts)
        place, self.count = self.count, self.count + (2 if tag in (5, 6) else 1)
        if self.count > 65535:
            raise PoolFull()
        self.first[content] = place
        self.spelled += u1(tag) + (u2(len(body)) if tag == 1 else b"") + body
        return place

    def text(self, place):
        return self.entries[place][1]


def text(name):
    return (1, name)


def of_class(name):
    return (7, text(name))


def signature(name, desc):
    return (12, text(name), text(desc))


def member(tag, owner, name, desc):
    return (tag, of_class(owner), signature(name, desc))


def dynamic(number):
    return (17, number, signature(DATA, b"Ljava/lang/Object;"))


def integer(value):
    return (3, struct.pack(">i", value))


class Member:
    """A field or a method: its flags, the places of its name and type, and its attributes as places of names and bytes."""

    def __init__(self, data):
        self.head, self.attributes = data.bytes(6), pairs(data)

    def spelled(self):
        return self.head + spelled_pairs(self.attributes)


def pairs(data):
    return [(data.u2(), data.bytes(data.u4())) for _ in range(data.u2())]


def spelled_pairs(attributes):
    return u2(len(attributes)) + b"".join(u2(name) + u4(len(body)) + body for name, body in attributes)


class Body:
    """A method's code with its probes: a list of items, each a size and what spells it once the offsets are known."""

    def __init__(self, body, code, first, pool, prelude):
        self.body, self.code, self.pool = body, code, pool
        self.probes = slow_twin.Probes(body, first)
        self.slots = sum(2 if kind in "JD" else 1 for kind in class_reader.parameters(body.desc)[0]) + (0 if body.flags & 8 else 1)
        self.offsets, self.lead, self.land, self.image, self.made = offsets_of(code), [], [], [], b""
        self.jumps = []
        self.put(prelude + self.local(0x3A, self.slots))
        for i, insn in enumerate(body.code):
            self.lead.append(len(self.made))
            self.probe(self.probes.lead.get(i))
            self.land.append(len(self.made))
            self.of_insn(i, insn)
        self.lead.append(len(self.made))
        self.land.append(len(self.made))
        self.aim()

    def put(self, spelled):
        self.made += spelled

    def local(self, opcode, slot):
        """An instruction on a local variable: its short form to 3, its wide form from 256 on."""
        if opcode != 0x84 and slot <= 3:
            base = 0x1A + 4 * (opcode - 0x15) if opcode < 0x36 else 0x3B + 4 * (opcode - 0x36)
            return u1(base + slot)
        return u1(opcode) + u1(slot) if slot <= 255 else u1(0xC4) + u1(opcode) + u2(slot)

    def push(self, number):
        return short_push(number) if number <= 32767 else ldc(self.pool.take(integer(number)))

    def probe(self, number):
        if number is not None:
            self.put(self.local(0x19, self.slots) + self.push(number) + b"\x04\x54")

    def of_insn(self, i, insn):
        at, end = self.offsets[i], self.offsets[i + 1]
        raw, name = self.code[at:end], insn[0]
        if name.endswith("switch"):
            raise ValueError("switches aren't instrumented here")
        if name in class_reader.JUMPS and name != "goto":
            if (i, 1) in self.probes.out:
                raise ValueError("jumps with probes aren't instrumented here")
        elif (i, 1 if name == "goto" else 0) in self.probes.out:
            self.probe(self.probes.out[i, 1 if name == "goto" else 0])
        self.image.append(len(self.made))
        if name in class_reader.JUMPS:
            self.jumps.append((len(self.made), insn[1]))
            self.put(raw[:1] + b"\0\0")
        elif name in class_reader.LOCALS and insn[1] >= self.slots:
            kind = "ilfda".index(name[0]) + (0x15 if name.endswith("load") else 0x36)
            self.put(self.local(kind, insn[1] + 1))
        elif name == "iinc" and insn[1] >= self.slots:
            raise ValueError("iinc of a further local variable isn't instrumented here")
        else:
            self.put(raw)

    def aim(self):
        for at, to in self.jumps:
            self.made = self.made[: at + 1] + struct.pack(">h", self.land[to] - at) + self.made[at + 3 :]


def short_push(number):
    """The shortest instruction that pushes a number to 32,767."""
    if number <= 5:
        return u1(3 + number)
    return b"\x10" + u1(number) if number <= 127 else b"\x11" + u2(number)


def ldc(place):
    return b"\x12" + u1(place) if place <= 255 else b"\x13" + u2(place)


def offsets_of(code):
    """The offsets of the instructions, and that of the end."""
    reader, found = class_reader.Bytes(code), []
    method = class_reader.Method.__new__(class_reader.Method)
    while reader.at < len(code):
        found.append(reader.at)
        method.wide = False
        method.instruction(reader, Blank())
    return found + [len(code)]


class Blank:
    """A pool of which nothing is asked."""

    def __getattr__(self, name):
        return lambda place: () if name == "member" else ""


def full_frames(table, desc):
    """The frames of a StackMapTable: each with its offset and two lists of kinds. Full frames are read, and such as have the local
    variables of the frame before and no stack, behind arguments that are numbers."""
    data, found, base = class_reader.Bytes(table), [], 0
    slots = [(NUMBERS.index(kind),) for kind in (number_kind(each) for each in class_reader.parameters(desc)[0])]
    for _ in range(data.u2()):
        tag = data.u1()
        if 64 <= tag <= 250 or 252 <= tag <= 254:
            raise ValueError("only full frames and equal ones are read here")
        at, stack = base + (tag if tag < 64 else data.u2()), []
        if tag == 255:
            slots, stack = [[kind(data) for _ in range(data.u2())] for _ in range(2)]
        found.append((at, slots, stack))
        base = at + 1
    return found


def number_kind(desc):
    return desc if desc in "FDJ" else "I"


def kind(data):
    tag = data.u1()
    return (tag, data.u2()) if tag in (7, 8) else (tag,)


class Instrumented:
    """The instrumented class file of `data`."""

    def __init__(self, data):
        self.data, self.file, reader = data, class_reader.ClassFile(data), class_reader.Bytes(data)
        self.head = reader.bytes(8)
        self.pool = GrownPool(reader)
        self.names = reader.bytes(6)
        self.interfaces = [reader.bytes(2) for _ in range(reader.u2())]
        self.fields = [Member(reader) for _ in range(reader.u2())]
        self.methods = [Member(reader) for _ in range(reader.u2())]
        self.attributes = pairs(reader)
        self.by_constant = self.file.major >= BY_CONSTANT
        self.owner = self.pool.text(struct.unpack(">H", self.pool.entries[struct.unpack_from(">H", self.names, 2)[0]][1])[0])
        self.grow()
        self.build()

    def bootstraps(self):
        """The attribute of bootstrap methods, by its index, and how many it has."""
        for k, (name, body) in enumerate(self.attributes):
            if self.pool.text(name) == b"BootstrapMethods":
                return k, struct.unpack_from(">H", body)[0]
        return None, 0

    def count(self):
        """How many probes the class has."""
        first = 0
        for body in self.file.bodies():
            first = slow_twin.Probes(body, first).next
        return first

    def grow(self):
        """The places of all that the class needs, in their order."""
        take, self.probes = self.pool.take, self.count()
        number, owner = class_reader.class_id(self.data), self.owner
        self.giver = take(dynamic(self.bootstraps()[1])) if self.by_constant else None
        for value in range(32768, self.probes):
            take(integer(value))
        framed = any(name == "StackMapTable" for method in self.methods for name in self.code_attributes(method))
        if self.by_constant:
            self.init = take(text(INIT)), take(text(LOOKUP))
            self.handle = take((15, 6, member(10, owner, INIT, LOOKUP)))
        else:
            self.data = take(text(DATA)), take(text(ARRAY))
            self.init = take(text(INIT)), take(text(b"()[Z"))
            self.field, self.giver = take(member(9, owner, DATA, ARRAY)), take(member(10, owner, INIT, b"()[Z"))
        self.fetch = take(member(10, *RUNTIME))
        self.code = take(text(b"Code"))
        if self.by_constant:
            self.table = take(text(b"BootstrapMethods"))
        else:
            self.frames = take(text(b"StackMapTable"))
        self.id, self.string = take((5, number.to_bytes(8, "big"))), take((8, text(owner)))
        self.array = take(of_class(ARRAY))
        self.number = take(integer(self.probes)) if self.probes > 32767 else None
        if self.by_constant and framed:
            self.frames = take(text(b"StackMapTable"))

    def code_attributes(self, method):
        """The names of the attributes of a method's code."""
        found = []
        for name, body in method.attributes:
            if self.pool.text(name) == b"Code":
                data = class_reader.Bytes(body)
                data.bytes(4)
                data.bytes(data.u4())
                data.bytes(8 * data.u2())
                found += [self.pool.text(each).decode() for each, _ in pairs(data)]
        return found

    def prelude(self):
        if self.by_constant:
            return ldc(self.giver) + b"\xc0" + u2(self.array)
        return b"\xb8" + u2(self.giver)

    def build(self):
        first, bodies = 0, iter(self.file.bodies())
        for method in self.methods:
            for k, (name, body) in enumerate(method.attributes):
                if self.pool.text(name) == b"Code":
                    made, first = self.of_method(next(bodies), body, first)
                    method.attributes[k] = (name, made)
        if not self.by_constant:
            self.fields.append(Added(b"\x10\x8a" + u2(self.data[0]) + u2(self.data[1]), []))
        self.methods.append(Added(b"\x10\x0a" + u2(self.init[0]) + u2(self.init[1]), [(self.code, self.added_code())]))
        if self.by_constant:
            k, count = self.bootstraps()
            entry = u2(self.handle) + u2(0)
            if k is None:
                self.attributes.append((self.table, u2(1) + entry))
            else:
                name, body = self.attributes[k]
                self.attributes[k] = (name, u2(count + 1) + body[2:] + entry)

    def added_code(self):
        """What the Code attribute of the added method holds."""
        count = self.probes
        push = b"\x13" + u2(self.number) if self.number else short_push(count)
        asks = b"\x14" + u2(self.id) + b"\x13" + u2(self.string) + push + b"\xb8" + u2(self.fetch)
        if self.by_constant:
            return u2(4) + u2(3) + u4(len(asks) + 1) + asks + b"\xb0" + u2(0) + u2(0)
        behind = asks + b"\x59\xb3" + u2(self.field)
        code = b"\xb2" + u2(self.field) + b"\x59\xc7" + u2(3 + 1 + len(behind)) + b"\x57" + behind + b"\xb0"
        frame = u2(1) + b"\xff" + u2(len(code) - 1) + u2(0) + u2(1) + b"\x07" + u2(self.array)
        return u2(4) + u2(0) + u4(len(code)) + code + u2(0) + spelled_pairs([(self.frames, frame)])

    def of_method(self, body, held, first):
        """What the new Code attribute holds, and the next id."""
        data = class_reader.Bytes(held)
        stack, slots, code = data.u2(), data.u2(), data.bytes(data.u4())
        made = Body(body, code, first, self.pool, self.prelude())
        rows = [data.bytes(8) for _ in range(data.u2())]
        tables = {self.pool.text(name).decode(): table for name, table in pairs(data)}
        spelled = u2(stack + 3) + u2(slots + 1) + u4(len(made.made)) + made.made + u2(len(rows))
        for (start, end, target, _), row in zip(body.handlers, rows):
            spelled += u2(made.lead[start]) + u2(made.lead[end]) + u2(made.land[target]) + row[6:]
        kept = []
        if body.lines:
            kept.append(("LineNumberTable", b"".join(u2(made.land[at]) + u2(line) for at, line in body.lines), len(body.lines)))
        for name, entries in (("LocalVariableTable", body.vars), ("LocalVariableTypeTable", body.types)):
            if entries:
                kept.append((name, b"".join(self.variable(made, entry) for entry in entries), len(entries)))
        frames = full_frames(tables["StackMapTable"], body.desc) if "StackMapTable" in tables else []
        if frames:
            kept.append(("StackMapTable", self.stack_map(made, frames), len(frames)))
        attributes = [(self.pool.take(text(name.encode())), u2(count) + table) for name, table, count in kept]
        return spelled + spelled_pairs(attributes), made.probes.next

    def variable(self, made, entry):
        start, end, name, desc, slot = entry
        first = made.land[start]
        return u2(first) + u2(made.land[end] - first) + u2(name) + u2(desc) + u2(slot + (slot >= made.slots))

    def stack_map(self, made, frames):
        table, base = b"", 0
        for at, slots, stack in frames:
            i = made.offsets.index(at)
            new = made.land[i]
            table += b"\xff" + u2(new - base)
            for kinds in (self.with_array(made, slots), stack):
                table += u2(len(kinds)) + b"".join(self.kind(made, each) for each in kinds)
            base = new + 1
        return table

    def with_array(self, made, slots):
        """The kinds of the local variables, with the array behind the arguments."""
        found, at = [], 0
        for each in slots:
            if at == made.slots:
                found.append((7, self.array))
            found.append(each)
            at += 2 if each[0] in (3, 4) else 1
        if at <= made.slots:
            found += [(0,)] * (made.slots - at) + [(7, self.array)]
        return found

    def kind(self, made, each):
        if each[0] == 7:
            return b"\x07" + u2(self.array if each[1] == self.array else self.pool.take(self.pool.content(each[1])))
        return u1(8) + u2(made.image[made.offsets.index(each[1])]) if each[0] == 8 else u1(each[0])

    def spelled(self):
        fields = u2(len(self.fields)) + b"".join(field.spelled() for field in self.fields)
        methods = u2(len(self.methods)) + b"".join(method.spelled() for method in self.methods)
        members = u2(len(self.interfaces)) + b"".join(self.interfaces) + fields + methods
        return self.head + u2(self.pool.count) + self.pool.spelled + self.names + members + spelled_pairs(self.attributes)


class Added(Member):
    """An added member."""

    def __init__(self, head, attributes):
        self.head, self.attributes = head, attributes


def instrumented(data):
    """The bytes of the instrumented class file, and the number of its probes; or PoolFull is raised."""
    made = Instrumented(data)
    return made.spelled(), made.probes


if __name__ == "__main__":
    print(instrumented(sys.stdin.buffer.read())[0].hex())
