#!/usr/bin/env python3
"""Class files from methods that are written in words, for rows of calls whose answers are known.

    python3 bench/lib/class_bytes.py < METHODS

The lines of METHODS make a class file (JVM Specification 4.1), which is printed in hexadecimal digits:

    class NAME MAJOR
    flags FLAGS             the flags of the class, 0x21 without this line
    extends NAME            its superclass, java/lang/Object without this line
    field FLAGS NAME DESCRIPTOR CONSTANT..     a field with a ConstantValue attribute for each constant
    constant CONSTANT       a further one of the last field; `bytes:` and digits stand for what an attribute holds
    probes ID COUNT         the field and the method by which an instrumented class asks for its probe array; from version 55
                            on the bootstrap method, which is the last one
    bootstrap HANDLE ARGUMENTS     an entry of the BootstrapMethods attribute, of constants; a number is a place of the pool
    attribute NAME DIGITS   a further attribute of the class, with what it holds
    pool CONSTANT           a constant that stands in the pool in front of what has no such line
    method FLAGS NAME DESCRIPTOR MAX_STACK MAX_LOCALS
    MNEMONIC OPERANDS       the next instruction of the method
    frame AT TYPES | TYPES  a stack map frame: its instruction, the local variables, and the stack
    handler START END TARGET CLASS     a row of the exception table, with `any` for all exceptions
    line AT LINE            an entry of a LineNumberTable
    var START END NAME DESCRIPTOR SLOT     an entry of a LocalVariableTable
    type START END NAME SIGNATURE SLOT     an entry of a LocalVariableTypeTable
    # a comment

Places in the code are numbers of instructions. A jump has its target as its operand, `tableswitch` its default, its
least key and the targets, and `lookupswitch` its default and `KEY:TARGET`s. What stands in the constant pool is written
as its class and name with the descriptor, as `B.f:(I)V`, a class by its name, and a constant as `int:7`, `long:7`,
`float:0`, `double:0`, `string:x`, `class:A`, `handle:B.f:()V`, `type:()V`, `dynamic:f:I` or `text:x`. A dynamic constant and
the operand of `invokedynamic` have the number of their bootstrap method in front, as `dynamic:1:f:I`, or 0. A type of a frame is
`top`, `int`, `float`, `double`, `long`, `null`, `uninitializedThis`, `class:NAME` or `uninitialized:AT`, and a long or a
double in local variables stands for both of its own. Frames are written in full, and `pad N` puts N `nop`s. Instructions on local
variables are wide where they have to be.
"""
import struct
import sys

MNEMONICS = """nop aconst_null iconst_m1 iconst_0 iconst_1 iconst_2 iconst_3 iconst_4 iconst_5 lconst_0 lconst_1 fconst_0
fconst_1 fconst_2 dconst_0 dconst_1 bipush sipush ldc ldc_w ldc2_w iload lload fload dload aload iload_0 iload_1 iload_2
iload_3 lload_0 lload_1 lload_2 lload_3 fload_0 fload_1 fload_2 fload_3 dload_0 dload_1 dload_2 dload_3 aload_0 aload_1
aload_2 aload_3 iaload laload faload daload aaload baload caload saload istore lstore fstore dstore astore istore_0
istore_1 istore_2 istore_3 lstore_0 lstore_1 lstore_2 lstore_3 fstore_0 fstore_1 fstore_2 fstore_3 dstore_0 dstore_1
dstore_2 dstore_3 astore_0 astore_1 astore_2 astore_3 iastore lastore fastore dastore aastore bastore castore sastore pop
pop2 dup dup_x1 dup_x2 dup2 dup2_x1 dup2_x2 swap iadd ladd fadd dadd isub lsub fsub dsub imul lmul fmul dmul idiv ldiv
fdiv ddiv irem lrem frem drem ineg lneg fneg dneg ishl lshl ishr lshr iushr lushr iand land ior lor ixor lxor iinc i2l i2f
i2d l2i l2f l2d f2i f2l f2d d2i d2l d2f i2b i2c i2s lcmp fcmpl fcmpg dcmpl dcmpg ifeq ifne iflt ifge ifgt ifle if_icmpeq
if_icmpne if_icmplt if_icmpge if_icmpgt if_icmple if_acmpeq if_acmpne goto jsr ret tableswitch lookupswitch ireturn
lreturn freturn dreturn areturn return getstatic putstatic getfield putfield invokevirtual invokespecial invokestatic
invokeinterface invokedynamic new newarray anewarray arraylength athrow checkcast instanceof monitorenter monitorexit wide
multianewarray ifnull ifnonnull goto_w jsr_w""".split()
OPCODES = {name: op for op, name in enumerate(MNEMONICS)}
TYPES = ["top", "int", "float", "double", "long", "null", "uninitializedThis"]
LOOKUP = "(Ljava/lang/invoke/MethodHandles$Lookup;Ljava/lang/String;Ljava/lang/Class;)[Z"
CONSTANTS = ("int", "long", "float", "double", "string", "class", "handle", "type", "dynamic", "text")


def u1(value):
    return struct.pack(">B", value)


def u2(value):
    return struct.pack(">H", value)


def u4(value):
    return struct.pack(">I", value)


class Pool:
    """A constant pool (JVM Specification 4.4): each entry has the place at which it is first asked for."""

    def __init__(self):
        self.places, self.text, self.count = {}, b"", 1

    def place(self, entry, slots=1):
        if entry not in self.places:
            self.places[entry] = self.count
            self.text += entry
            self.count += slots
        return self.places[entry]

    def utf8(self, text):
        spelled = text.encode()
        return self.place(u1(1) + u2(len(spelled)) + spelled)

    def of_class(self, name):
        return self.place(u1(7) + u2(self.utf8(name)))

    def signature(self, text):
        name, desc = text.split(":", 1)
        return self.place(u1(12) + u2(self.utf8(name)) + u2(self.utf8(desc)))

    def member(self, tag, text):
        owner, rest = text.split(".", 1)
        return self.place(u1(tag) + u2(self.of_class(owner)) + u2(self.signature(rest)))

    def computed(self, tag, text):
        """A dynamic constant or call site: the number of its bootstrap method, its name and its descriptor."""
        number, rest = text.split(":", 1) if text.split(":")[0].isdigit() else ("0", text)
        return self.place(u1(tag) + u2(int(number)) + u2(self.signature(rest)))

    def constant(self, text):
        if text.isdigit():
            return int(text)
        kind, value = text.split(":", 1)
        if kind == "int":
            return self.place(u1(3) + struct.pack(">i", int(value)))
        if kind == "float":
            return self.place(u1(4) + struct.pack(">f", float(value)))
        if kind == "long":
            return self.place(u1(5) + struct.pack(">q", int(value)), 2)
        if kind == "double":
            return self.place(u1(6) + struct.pack(">d", float(value)), 2)
        if kind == "string":
            return self.place(u1(8) + u2(self.utf8(value)))
        if kind == "class":
            return self.of_class(value)
        if kind == "handle":
            return self.place(u1(15) + u1(6) + u2(self.member(10, value)))
        if kind == "type":
            return self.place(u1(16) + u2(self.utf8(value)))
        if kind == "dynamic":
            return self.computed(17, value)
        if kind == "text":
            return self.utf8(value)
        raise ValueError("unknown constant " + text)


class Field:
    """A field, with the constants of its ConstantValue attributes."""

    def __init__(self, words):
        self.flags, self.name, self.desc, self.constants = int(words[0], 0), words[1], words[2], words[3:]

    def member(self, pool):
        names = u2(self.flags) + u2(pool.utf8(self.name)) + u2(pool.utf8(self.desc))
        held = [bytes.fromhex(word[6:]) if word.startswith("bytes:") else u2(pool.constant(word)) for word in self.constants]
        return names + u2(len(held)) + b"".join(attribute(pool, "ConstantValue", body) for body in held)


def pushed(count):
    """The instruction that pushes a number of probes."""
    if count < 6:
        return "iconst_%d" % count
    return "bipush %d" % count if count < 128 else "sipush %d" % count if count < 32768 else "ldc_w int:%d" % count


def asks(name, number, count):
    """The instructions that ask for the class's probe array: `number` is its id, and `count` says its probes."""
    fetch = "invokestatic org/jacoco/agent/rt/internal/Offline.getProbes:(JLjava/lang/String;I)[Z"
    return ["ldc2_w long:%s" % number, "ldc_w string:" + name, pushed(count), fetch]


def probe_array(name, number, count):
    """The field and the method by which the class gets its probe array."""
    lines = ["getstatic %s.$jacocoData:[Z" % name, "dup", "ifnonnull 10", "pop", *asks(name, number, count), "dup"]
    lines += ["putstatic %s.$jacocoData:[Z" % name, "areturn"]
    method = Method(["0x100A", "$jacocoInit", "()[Z", "4", "0"])
    method.insns = [line.split() for line in lines]
    method.frames = [["10", "|", "class:[Z"]]
    return Field(["0x108A", "$jacocoData", "[Z"]), method


def probe_constant(name, number, count):
    """The bootstrap method of the constant by which the class gets its probe array."""
    method = Method(["0x100A", "$jacocoInit", LOOKUP, "4", "3"])
    method.insns = [line.split() for line in [*asks(name, number, count), "areturn"]]
    return method


class Method:
    """A method: its instructions, as lists of a mnemonic and operands, and its tables."""

    def __init__(self, words):
        self.flags, self.max_stack, self.max_locals = int(words[0], 0), int(words[3]), int(words[4])
        self.name, self.desc = words[1], words[2]
        self.insns, self.frames, self.handlers, self.lines, self.vars, self.types = [], [], [], [], [], []

    def is_wide(self, name, operands):
        """Whether an instruction on a local variable needs its wide form (JVM Specification 6.5, wide)."""
        if name == "iinc":
            return int(operands[0]) > 255 or not -128 <= int(operands[1]) <= 127
        return len(operands) == 1 and 0x15 <= OPCODES[name] <= 0x3A and int(operands[0]) > 255

    def size(self, insn, at):
        """The length of an instruction at an offset."""
        name, operands = insn[0], insn[1:]
        if name in ("tableswitch", "lookupswitch"):
            arms = operands[2:] if name == "tableswitch" else operands[1:]
            return 1 + (-(at + 1)) % 4 + (12 if name == "tableswitch" else 8) + (4 if name == "tableswitch" else 8) * len(arms)
        if name in ("invokeinterface", "invokedynamic"):
            return 5
        if name == "multianewarray":
            return 4
        if self.is_wide(name, operands):
            return 6 if name == "iinc" else 4
        if name in ("bipush", "ldc", "newarray") or (len(operands) == 1 and 0x15 <= OPCODES[name] <= 0x3A):
            return 2
        return 3 if operands else 1

    def starts(self):
        starts = [0]
        for insn in self.insns:
            starts.append(starts[-1] + self.size(insn, starts[-1]))
        return starts

    def spelled(self, pool, insn, at, starts):
        """The bytes of an instruction at an offset (JVM Specification 6.5)."""
        name, operands = insn[0], insn[1:]
        op = u1(OPCODES[name])
        if name == "tableswitch":
            low, arms = int(operands[1]), operands[2:]
            head = [operands[0]], struct.pack(">ii", low, low + len(arms) - 1)
            jumps = b"".join(struct.pack(">i", starts[int(to)] - at) for to in arms)
            return op + bytes((-(at + 1)) % 4) + struct.pack(">i", starts[int(head[0][0])] - at) + head[1] + jumps
        if name == "lookupswitch":
            pairs = [arm.split(":") for arm in operands[1:]]
            jumps = b"".join(struct.pack(">ii", int(key), starts[int(to)] - at) for key, to in pairs)
            return op + bytes((-(at + 1)) % 4) + struct.pack(">iI", starts[int(operands[0])] - at, len(pairs)) + jumps
        if name == "bipush":
            return op + struct.pack(">b", int(operands[0]))
        if name == "sipush":
            return op + struct.pack(">h", int(operands[0]))
        if name == "ldc":
            return op + u1(pool.constant(operands[0]))
        if name in ("ldc_w", "ldc2_w"):
            return op + u2(pool.constant(operands[0]))
        if self.is_wide(name, operands):
            return u1(0xC4) + op + u2(int(operands[0])) + (struct.pack(">h", int(operands[1])) if name == "iinc" else b"")
        if name == "iinc":
            return op + u1(int(operands[0])) + struct.pack(">b", int(operands[1]))
        if name == "newarray":
            return op + u1(int(operands[0]))
        if name in ("getstatic", "putstatic", "getfield", "putfield"):
            return op + u2(pool.member(9, operands[0]))
        if name in ("invokevirtual", "invokespecial", "invokestatic"):
            return op + u2(pool.member(10, operands[0]))
        if name == "invokeinterface":
            return op + u2(pool.member(11, operands[0])) + u1(int(operands[1])) + u1(0)
        if name == "invokedynamic":
            return op + u2(pool.computed(18, operands[0])) + u2(0)
        if name in ("new", "anewarray", "checkcast", "instanceof"):
            return op + u2(pool.of_class(operands[0]))
        if name == "multianewarray":
            return op + u2(pool.of_class(operands[0])) + u1(int(operands[1]))
        if len(operands) == 1 and 0x15 <= OPCODES[name] <= 0x3A:
            return op + u1(int(operands[0]))
        if operands:
            return op + struct.pack(">h", starts[int(operands[0])] - at)
        return op

    def type_bytes(self, pool, word, starts):
        if word.startswith("class:"):
            return u1(7) + u2(pool.of_class(word[6:]))
        if word.startswith("uninitialized:"):
            return u1(8) + u2(starts[int(word[14:])])
        return u1(TYPES.index(word))

    def stack_map(self, pool, starts):
        """A StackMapTable of full frames (JVM Specification 4.7.4)."""
        table, base = u2(len(self.frames)), 0
        for words in self.frames:
            at, bar = int(words[0]), words.index("|")
            table += u1(255) + u2(starts[at] - base)
            for values in (words[1:bar], words[bar + 1 :]):
                table += u2(len(values)) + b"".join(self.type_bytes(pool, word, starts) for word in values)
            base = starts[at] + 1
        return table

    def variables(self, pool, entries, starts):
        """A table of local variables, or of their types (JVM Specification 4.7.13, 4.7.14)."""
        table = u2(len(entries))
        for start, end, name, desc, slot in entries:
            first = starts[int(start)]
            table += u2(first) + u2(starts[int(end)] - first) + u2(pool.utf8(name)) + u2(pool.utf8(desc)) + u2(int(slot))
        return table

    def code(self, pool):
        """What a Code attribute holds (JVM Specification 4.7.3)."""
        starts = self.starts()
        code = b"".join(self.spelled(pool, insn, at, starts) for insn, at in zip(self.insns, starts))
        rows, tables = u2(len(self.handlers)), []
        for start, end, target, caught in self.handlers:
            place = 0 if caught == "any" else pool.of_class(caught)
            rows += u2(starts[int(start)]) + u2(starts[int(end)]) + u2(starts[int(target)]) + u2(place)
        if self.lines:
            entries = b"".join(u2(starts[int(at)]) + u2(int(line)) for at, line in self.lines)
            tables.append(attribute(pool, "LineNumberTable", u2(len(self.lines)) + entries))
        for name, entries in (("LocalVariableTable", self.vars), ("LocalVariableTypeTable", self.types)):
            if entries:
                tables.append(attribute(pool, name, self.variables(pool, entries, starts)))
        if self.frames:
            tables.append(attribute(pool, "StackMapTable", self.stack_map(pool, starts)))
        return u2(self.max_stack) + u2(self.max_locals) + u4(len(code)) + code + rows + u2(len(tables)) + b"".join(tables)

    def member(self, pool):
        names = u2(self.flags) + u2(pool.utf8(self.name)) + u2(pool.utf8(self.desc))
        return names + u2(1) + attribute(pool, "Code", self.code(pool)) if self.insns else names + u2(0)


def attribute(pool, name, body):
    return u2(pool.utf8(name)) + u4(len(body)) + body


def class_attributes(pool, bootstraps, others):
    """The attributes of a class: its bootstrap methods (JVM Specification 4.7.23), if there are some, and others."""
    made = []
    if bootstraps:
        entries = [[pool.constant(word) for word in words] for words in bootstraps]
        table = b"".join(u2(places[0]) + u2(len(places) - 1) + b"".join(map(u2, places[1:])) for places in entries)
        made.append(attribute(pool, "BootstrapMethods", u2(len(entries)) + table))
    made += [attribute(pool, words[0], bytes.fromhex("".join(words[1:]))) for words in others]
    return u2(len(made)) + b"".join(made)


def class_bytes(lines, pool=None):
    """The class file that lines make; `pool` has its constant pool afterwards."""
    pool, name, major, methods, fields, flags, extended, probes = pool or Pool(), "A", 52, [], [], 0x21, "java/lang/Object", None
    bootstraps, others = [], []
    for line in lines:
        words = line.split()
        if not words or words[0].startswith("#"):
            continue
        if words[0] == "class":
            name, major = words[1], int(words[2])
        elif words[0] == "flags":
            flags = int(words[1], 0)
        elif words[0] == "extends":
            extended = words[1]
        elif words[0] == "bootstrap":
            bootstraps.append(words[1:])
        elif words[0] == "attribute":
            others.append(words[1:])
        elif words[0] == "pool":
            pool.constant(words[1])
        elif words[0] == "field":
            fields.append(Field(words[1:]))
        elif words[0] == "constant":
            fields[-1].constants.append(words[1])
        elif words[0] == "probes":
            probes = words[1], int(words[2])
        elif words[0] == "method":
            methods.append(Method(words[1:]))
        elif words[0] == "pad":
            methods[-1].insns += [["nop"]] * int(words[1])
        elif words[0] in ("frame", "handler", "line", "var", "type"):
            getattr(methods[-1], words[0] + "s").append(words[1:])
        else:
            methods[-1].insns.append(words)
    if probes and major < 55:
        field, method = probe_array(name, *probes)
        fields.append(field)
        methods.append(method)
    elif probes:
        methods.append(probe_constant(name, *probes))
        bootstraps.append(["handle:%s.$jacocoInit:%s" % (name, LOOKUP)])
    this, above = pool.of_class(name), pool.of_class(extended)
    members = u2(len(fields)) + b"".join(field.member(pool) for field in fields)
    members += u2(len(methods)) + b"".join(method.member(pool) for method in methods) + class_attributes(pool, bootstraps, others)
    head = b"\xca\xfe\xba\xbe" + u2(0) + u2(major) + u2(pool.count) + pool.text
    return head + u2(flags) + u2(this) + u2(above) + u2(0) + members


if __name__ == "__main__":
    print(class_bytes(sys.stdin).hex())
