"""Class files that the inputs beside this file are made of (JVM Specification 4)."""
import os
import sys

sys.path.insert(0, os.path.join(os.path.dirname(os.path.abspath(__file__)), "..", "lib"))

from class_bytes import OPCODES, Pool, attribute, u1, u2, u4  # noqa: E402, F401

LONGEST = 65535  # of a text, of code, of a table of a class file
PUBLIC, STATIC = 1, 8
OWN = "A"  # the class of a file of one class
THROWABLE, ARITHMETIC = "java/lang/Throwable", "java/lang/ArithmeticException"


def op(name, *operands):
    """An instruction without operands, or with those that are given as bytes."""
    return u1(OPCODES[name]) + b"".join(operands)


def jump(name, at, target):
    """A jump at one place of the code to another."""
    return op(name, u2((target - at) % 2**16))


NOP, POP, ILOAD_0, ALOAD_0, ICONST_0, ICONST_1 = (op(name) for name in ("nop", "pop", "iload_0", "aload_0", "iconst_0", "iconst_1"))
ACONST_NULL, AALOAD, RETURN, ATHROW = (op(name) for name in ("aconst_null", "aaload", "return", "athrow"))


def of_ints(count, others=""):
    """The descriptor of a method with so many int arguments behind others, which gives nothing."""
    return "(" + others + "I" * count + ")V"


def code_of(pool, stack, locals_, code, rows=b"", tables=()):
    """A Code attribute (JVM Specification 4.7.3): rows are those of its exception table, tables its attributes."""
    body = u2(stack) + u2(locals_) + u4(len(code)) + code + u2(len(rows) // 8) + rows + u2(len(tables)) + b"".join(tables)
    return attribute(pool, "Code", body)


def row(start, end, handler, place=0):
    """A row of an exception table; the class of what it catches is a place of the pool, or any."""
    return u2(start) + u2(end) + u2(handler) + u2(place)


def method(pool, flags, name, desc, *attributes):
    return u2(flags) + u2(pool.utf8(name)) + u2(pool.utf8(desc)) + u2(len(attributes)) + b"".join(attributes)


def static_method(pool, name, desc, *attributes):
    return method(pool, PUBLIC | STATIC, name, desc, *attributes)


def static_field(pool, name, desc="I"):
    return method(pool, PUBLIC | STATIC, name, desc)


def class_file(pool, methods, interfaces=b"", fields=(), name=OWN):
    """A class file of version 52 (JVM Specification 4.1)."""
    head = u2(0x21) + u2(pool.of_class(name)) + u2(pool.of_class("java/lang/Object"))
    rest = u2(len(interfaces) // 2) + interfaces + u2(len(fields)) + b"".join(fields) + u2(len(methods)) + b"".join(methods)
    return b"\xca\xfe\xba\xbe" + u2(0) + u2(52) + u2(pool.count) + pool.text + head + rest + u2(0)


def frame_table(pool, frames):
    """A StackMapTable of frames that are spelled already."""
    return attribute(pool, "StackMapTable", u2(len(frames)) + b"".join(frames))


def steps(places):
    """How far each frame is behind the one in front of it (JVM Specification 4.7.4)."""
    after = 0
    for place in places:
        yield place - after
        after = place + 1


def same_frames(pool, places):
    """A StackMapTable of frames that have the locals of the one before and no stack."""
    return frame_table(pool, [u1(delta) if delta < 64 else u1(251) + u2(delta) for delta in steps(places)])


def caught_frames(pool, places):
    """Frames with the locals of the one before and a Throwable on the stack."""
    caught = u1(7) + u2(pool.of_class(THROWABLE))
    return frame_table(pool, [(u1(64 + delta) if delta < 64 else u1(247) + u2(delta)) + caught for delta in steps(places)])


def a_plan(turns=1, thread="A.f", cases=1, threads=1):
    """A run plan of cases that are all alike."""
    return ("case\n" + f"thread {thread}\n" * threads + f"schedule robin {turns}\n").encode() * cases
