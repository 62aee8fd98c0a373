"""Class files whose code is as long as the format allows, or which name one long text again and again.

What a command keeps of each method or of each use of a text is what they cost: an analysis of a class should hold neither all of its
instructions at once nor a text as often as it is named.
"""
from class_inputs import LONGEST, NOP, POP, PUBLIC, RETURN, STATIC, ACONST_NULL, ICONST_0, Pool, attribute, caught_frames, class_file
from class_inputs import ATHROW, code_of, method, of_ints, op, row, static_field, static_method, u1, u2

NAME = "x" * 65500


def nops(methods, size):
    """Methods of `nop` alone."""
    pool = Pool()
    body = code_of(pool, 0, 0, NOP * (size - 1) + RETURN)
    return class_file(pool, [static_method(pool, "m%d" % k, "()V", body) for k in range(methods)])


def long_names(count, desc, locals_):
    """Methods of one line and one instruction, which all have one long name and one long descriptor."""
    pool = Pool()
    lines = attribute(pool, "LineNumberTable", u2(1) + u2(0) + u2(1))
    one = static_method(pool, "m" * LONGEST, desc, code_of(pool, 0, locals_, RETURN, tables=[lines]))
    return class_file(pool, [one] * count)


def long_class_names(count):
    """The same with short names of methods, whose descriptor names one class: what a descriptor costs where it is looked through."""
    pool = Pool()
    one = static_method(pool, "m", "(L" + "a" * (LONGEST - 5) + ";)V", code_of(pool, 0, 1, RETURN))
    return class_file(pool, [one] * count)


def interfaces():
    """As many interfaces as there may be, all of one long name."""
    pool = Pool()
    return class_file(pool, [], u2(pool.of_class("a" * LONGEST)) * LONGEST)


def items():
    """As many interfaces, fields and abstract methods as there may be, all of long names and descriptors."""
    pool = Pool()
    field = u2(1) + u2(pool.utf8("a" * LONGEST)) + u2(pool.utf8("L" + "a" * (LONGEST - 2) + ";")) + u2(0)
    one = method(pool, PUBLIC | 0x400, "a" * LONGEST, of_ints(LONGEST - 3))
    return class_file(pool, [one] * LONGEST, u2(pool.of_class("a" * LONGEST)) * LONGEST, [field] * LONGEST)


def repeated(make):
    """Two methods that name one place of the pool at each of their instructions; `make` gives the instructions of one use."""
    pool = Pool()
    use = make(pool)
    return class_file(pool, [static_method(pool, "f", "()V", code_of(pool, 2, 1, use * (65000 // len(use)) + RETURN))] * 2)


def calls():
    """Calls of one method that gives an object of a class with a long name."""
    return repeated(lambda pool: op("invokestatic", u2(pool.member(10, f"A.g:()L{NAME};"))) + POP)


def owners():
    """Calls of one method of a class with a long name."""
    return repeated(lambda pool: op("invokestatic", u2(pool.member(10, f"{NAME}.g:()V"))))


def fields():
    """Reads of one static field of a class with a long name."""
    return repeated(lambda pool: op("getstatic", u2(pool.member(9, f"A.g:L{NAME};"))) + POP)


def news():
    """Objects of a class with a long name, which nothing initializes."""
    return repeated(lambda pool: op("new", u2(pool.of_class(NAME))) + POP)


def casts():
    """Casts of null to a class with a long name."""
    return repeated(lambda pool: ACONST_NULL + op("checkcast", u2(pool.of_class(NAME))) + POP)


def arrays():
    """Arrays of a class with a long name, whose own class has no place of the pool."""
    return repeated(lambda pool: ICONST_0 + op("anewarray", u2(pool.of_class(NAME))) + POP)


def rows():
    """As many exception rows as there may be, of one class with a long name."""
    pool = Pool()
    caught = pool.of_class(NAME)
    body = code_of(pool, 1, 0, NOP + RETURN + ATHROW, row(0, 1, 2, caught) * LONGEST, [caught_frames(pool, [2])])
    return class_file(pool, [static_method(pool, "f", "()V", body)])


def frame_names(count, locals_):
    """Frames whose local variables are all of one class with a long name."""
    pool = Pool()
    types = u2(locals_) + (u1(7) + u2(pool.of_class(NAME))) * locals_ + u2(0)
    table = u1(255) + u2(1) + types + (u1(255) + u2(0) + types) * (count - 1)
    body = code_of(pool, 1, locals_, RETURN * (count + 1), tables=[attribute(pool, "StackMapTable", u2(count) + table)])
    return class_file(pool, [static_method(pool, "f", "()V", body)])


def lines(count):
    """Entries of line number tables of one body, in no order."""
    pool, tables = Pool(), []
    for first in range(0, count, 60000):
        entries = range(first, min(first + 60000, count))
        text = b"".join(u2(k * 7919 % 65000) + u2(k % 65536) for k in entries)
        tables.append(attribute(pool, "LineNumberTable", u2(len(entries)) + text))
    return class_file(pool, [static_method(pool, "f", "()V", code_of(pool, 0, 1, NOP * 65534 + RETURN, tables=tables))])


def variables(count):
    """Entries of local variable tables of one body."""
    pool, tables = Pool(), []
    entry = u2(1) + u2(pool.utf8("x")) + u2(pool.utf8("I")) + u2(0)
    for first in range(0, count, 60000):
        entries = range(first, min(first + 60000, count))
        text = b"".join(u2(k * 7919 % 65000) + entry for k in entries)
        tables.append(attribute(pool, "LocalVariableTable", u2(len(entries)) + text))
    return class_file(pool, [static_method(pool, "f", "()V", code_of(pool, 0, 1, NOP * 65534 + RETURN, tables=tables))])


def attributes(count):
    """Attributes without a byte, of a method and of its code."""
    pool = Pool()
    unknown = attribute(pool, "Z", b"")
    body = code_of(pool, 0, 0, RETURN, tables=[unknown] * count)
    return class_file(pool, [static_method(pool, "f", "()V", body, *[unknown] * (count - 1))])


def returns(methods):
    """Methods of 1,000 returns, each with a frame: a probe for each byte of code."""
    pool = Pool()
    table = attribute(pool, "StackMapTable", u2(999) + u1(1) + u1(0) * 998)
    body = code_of(pool, 0, 0, RETURN * 1000, tables=[table])
    return class_file(pool, [static_method(pool, "f%d" % k, "()V", body) for k in range(methods)])


def small_files(count):
    """A folder of class files of one method each."""
    files = {}
    for k in range(count):
        pool, name = Pool(), "C%d" % k
        files[f"d/{name}.class"] = class_file(pool, [static_method(pool, "f", "()V", code_of(pool, 0, 0, RETURN))], name=name)
    return files


def members(count):
    """Methods and fields of a few bytes."""
    pool = Pool()
    one = static_method(pool, "f", "()V", code_of(pool, 0, 0, RETURN))
    return class_file(pool, [one] * count, fields=[static_field(pool, "x")] * count)


def array_loads(dimensions):
    """Eight methods of one `aaload` after the other, each from an array of these dimensions down to its class."""
    pool = Pool()
    loads = op("aload_0") + (ICONST_0 + op("aaload")) * dimensions + POP
    code = loads * ((LONGEST - 1) // len(loads)) + RETURN
    desc = "(" + "[" * dimensions + "L" + "a" * (LONGEST - 5 - dimensions) + ";)V"
    return class_file(pool, [method(pool, PUBLIC | STATIC, "m%d" % k, desc, code_of(pool, 2, 1, code)) for k in range(8)])


LEAN = ("classinfo", "report", "lines", "check")
INPUTS = [
    ("nops, 1,023 methods of 65,535 bytes", nops, (1023, LONGEST), LEAN),
    ("nops, 512 methods of 65,535 bytes", nops, (512, LONGEST), ("instrument",)),
    ("nops, 512 methods of 65,500 bytes", nops, (512, 65500), ("instrument",)),
    ("30,000 methods of long names", long_names, (30000, "(L" + "a" * (LONGEST - 5) + ";)V", 1), (*LEAN, "instrument")),
    ("30,000 methods of a long descriptor", long_class_names, (30000,), ("classinfo", "instrument")),
    ("3,000 methods of 65,532 ints", long_names, (3000, of_ints(LONGEST - 3), LONGEST - 3), ("classinfo", "instrument")),
    ("65,535 interfaces of one long name", interfaces, (), LEAN),
    ("interfaces, fields, methods of long names", items, (), LEAN),
    ("calls that give a long class", calls, (), ("classinfo", "report", "instrument")),
    ("calls of a long class", owners, (), ("classinfo", "report", "instrument")),
    ("reads of a field of a long class", fields, (), ("classinfo", "report", "instrument")),
    ("objects of a long class", news, (), ("classinfo", "report", "instrument")),
    ("casts to a long class", casts, (), ("classinfo", "report", "instrument")),
    ("arrays of a long class", arrays, (), ("classinfo", "report", "instrument")),
    ("rows of a long class", rows, (), ("classinfo", "report")),
    ("10 frames of 20,000 long classes", frame_names, (10, 20000), ("classinfo", "report")),
    ("aaload of a long class, 8 methods", array_loads, (1,), ("classinfo",)),
    ("aaload of its 255 arrays, 8 methods", array_loads, (255,), ("classinfo",)),
    ("250,000 line entries", lines, (250000,), ("classinfo", "report", "lines")),
    ("90,000 local variable entries", variables, (90000,), ("classinfo", "instrument")),
    ("65,000 attributes", attributes, (65000,), ("classinfo", "instrument")),
    ("32,000 returns", returns, (32,), ("classinfo", "report", "instrument")),
    ("65,000 methods and fields", members, (65000,), ("classinfo", "report")),
    ("2,000 small class files", small_files, (2000,), ("report files", "instrument files")),
]
