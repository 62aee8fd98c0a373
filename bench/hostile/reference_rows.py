#!/usr/bin/env python3
"""Times of the reference check beside the kind check, on methods of 65,535 exception rows and many local variables that hold objects.

    bench/lib/build-unproved.py reference_times PROGRAM bench/hostile/reference-times.txt jc_bytes jc_methods jc_programs jc_kinds jc_link jc_refs_check
    bench/hostile/reference_rows.py PROGRAM [WORD..]

For each class file, or those whose names have one of the WORDs, one line of the program.
"""
import os
import subprocess
import sys
import tempfile

sys.path.insert(0, os.path.join(os.path.dirname(os.path.abspath(__file__)), "..", "lib"))

from class_bytes import OPCODES, Pool, attribute, u1, u2, u4

ROWS, SLOTS, LONG, SHORT = 65535, 498, 65534, 512
NOP, ACONST_NULL, RETURN, ATHROW = (u1(OPCODES[name]) for name in ("nop", "aconst_null", "return", "athrow"))
PUBLIC, STATIC = 1, 8


def same_frame(pool, at, after):
    """A frame of the local variables of the one before, with a Throwable on the stack (JVM Specification 4.7.4)."""
    delta = at - after
    return (u1(64 + delta) if delta < 64 else u1(247) + u2(delta)) + u1(7) + u2(pool.of_class("java/lang/Throwable"))


def full_frame(pool, delta, classes):
    """A frame of objects of these classes, with a Throwable on the stack."""
    kinds = b"".join(u1(7) + u2(pool.of_class(name)) for name in classes)
    return u1(255) + u2(delta) + u2(len(classes)) + kinds + u2(1) + u1(7) + u2(pool.of_class("java/lang/Throwable"))


def method(pool, name, code, rows, frames):
    """A static method of as many arguments as local variables, all of one class."""
    table = attribute(pool, "StackMapTable", u2(len(frames)) + b"".join(frames))
    written = b"".join(u2(start) + u2(end) + u2(target) + u2(0) for start, end, target in rows)
    body = u2(1) + u2(SLOTS) + u4(len(code)) + code + u2(len(rows)) + written + u2(1) + table
    desc = "(" + "La;" * SLOTS + ")V"
    return u2(PUBLIC | STATIC) + u2(pool.utf8(name)) + u2(pool.utf8(desc)) + u2(1) + attribute(pool, "Code", body)


def class_file(pool, methods):
    """A class file of version 52 (JVM Specification 4.1)."""
    head = u2(0x21) + u2(pool.of_class("A")) + u2(pool.of_class("java/lang/Object")) + u2(0) + u2(0)
    return b"\xca\xfe\xba\xbe" + u2(0) + u2(52) + u2(pool.count) + pool.text + head + u2(len(methods)) + b"".join(methods) + u2(0)


def one(size, rows):
    """One handler, the last instruction."""
    pool = Pool()
    code = NOP * (size - 2) + RETURN + ATHROW
    rows = [(start, end, size - 1) for start, end in rows]
    return class_file(pool, [method(pool, "m", code, rows, [same_frame(pool, size - 1, 0)])])


def each(size, rows, count=1):
    """A frame at each instruction but the first, each with the local variables of the one before."""
    pool = Pool()
    code = ACONST_NULL + NOP * (size - 2) + ATHROW
    frames = [same_frame(pool, 1, 0)] + [same_frame(pool, 0, 0)] * (size - 2)
    return class_file(pool, [method(pool, "m%d" % k, code, rows, frames) for k in range(count)])


def unlike(size, rows):
    """Throws, of which each but the first has a frame: at even places objects of the arguments' class, at odd ones some are of Object."""
    pool = Pool()
    code = ACONST_NULL + ATHROW * (size - 1)
    names = ["a", "java/lang/Object"]
    frames = [full_frame(pool, 1 if at == 1 else 0, [names[at % 2 & at >> 1 + slot % 15] for slot in range(SLOTS)]) for at in range(1, size)]
    return class_file(pool, [method(pool, "m", code, rows, frames)])


def target(size, k):
    return 1 + k * 7919 % (size - 1)


ALL = range(ROWS)
INPUTS = [
    ("one handler, each row all", lambda: one(LONG, [(0, LONG - 1)] * ROWS)),
    ("one handler, each row its own instruction", lambda: one(LONG, [(k % (LONG - 1), k % (LONG - 1) + 1) for k in ALL])),
    ("one handler, nested rows", lambda: one(LONG, [(k % 32000, LONG - 1 - k % 32000) for k in ALL])),
    ("one handler, overlapping rows", lambda: one(LONG, [(k % 32000, 32000 + k % 32000) for k in ALL])),
    ("each its handler, each row all", lambda: each(LONG, [(0, LONG, target(LONG, k)) for k in ALL])),
    ("each its handler and its own instruction", lambda: each(LONG, [(k % (LONG - 1), k % (LONG - 1) + 1, target(LONG, k)) for k in ALL])),
    ("each its handler, nested rows", lambda: each(LONG, [(k % 32000, LONG - 1 - k % 32000, target(LONG, k)) for k in ALL])),
    ("each its handler, overlapping rows", lambda: each(LONG, [(k % 32000, 32000 + k % 32000, target(LONG, k)) for k in ALL])),
    ("512 instructions, one handler", lambda: one(SHORT, [(k % 255, 511 - k // 255 % 256) for k in ALL])),
    ("512 instructions, each its handler", lambda: each(SHORT, [(k % 255, 511 - k // 255 % 256, target(SHORT, k)) for k in ALL])),
    ("512 instructions, rows of one instruction", lambda: each(SHORT, [(2 * (k % 256), 2 * (k % 256) + 1, 1 + k // 256) for k in ALL])),
    ("512 instructions, rows of one, unlike frames", lambda: unlike(SHORT, [(2 * (k % 256), 2 * (k % 256) + 1, 2 * (k // 256) + 1) for k in ALL])),
    ("4 instructions", lambda: each(4, [(0, 4, 1 + k % 3) for k in ALL])),
    ("20 methods of 16 instructions", lambda: each(16, [(0, 16, 1 + k % 15) for k in ALL], 20)),
]


def main():
    program, chosen = os.path.abspath(sys.argv[1]), sys.argv[2:]
    with tempfile.TemporaryDirectory() as folder:
        path = os.path.join(folder, "A.class")
        for name, make in INPUTS:
            if not chosen or any(word in name for word in chosen):
                with open(path, "wb") as out:
                    out.write(make())
                run = subprocess.run([program, path], capture_output=True, check=True)
                print("%-46s %s" % (name, run.stdout.decode().strip()), flush=True)


main()
