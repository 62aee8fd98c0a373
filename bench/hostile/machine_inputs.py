"""Programs and run plans whose turns, entries or printed texts cost much.

A turn is to cost the same whatever the size of an exception table, and a thread the same whatever other methods there are; what a
case prints is to be held once.
"""
from class_inputs import ACONST_NULL, ARITHMETIC, ATHROW, ILOAD_0, RETURN, Pool, a_plan, attribute, caught_frames, class_file, code_of
from class_inputs import ICONST_1, POP, THROWABLE, frame_table, jump, of_ints, op, row, same_frames, static_field, static_method, u1, u2


def rows_raise(turns):
    """A case whose every turn is an `athrow` of null behind 65,533 rows that don't catch NullPointerException, and one that does."""
    pool = Pool()
    rows = row(2, 3, 2, pool.of_class(ARITHMETIC)) * 65533 + row(0, 3, 2)
    body = code_of(pool, 1, 0, ACONST_NULL + ATHROW + ATHROW, rows, [caught_frames(pool, [2])])
    return {"A.class": class_file(pool, [static_method(pool, "f", "()V", body)]), "p": a_plan(turns)}


def rows_frames(turns):
    """A method calls another 126 deep; there an `athrow` leaves frame after frame, each of 32,767 rows that don't fit, to the first."""
    pool = Pool()
    call = op("invokestatic", u2(pool.member(10, "A.g:(I)V")))
    rows = row(0, 13, 13, pool.of_class(ARITHMETIC)) * 32767
    # g: while its argument isn't 0 it calls itself with one less; else it throws null
    deep = ILOAD_0 + jump("ifeq", 1, 11) + ILOAD_0 + ICONST_1 + op("isub") + call + RETURN + ACONST_NULL + ATHROW + ATHROW
    caught = u1(64 + 1) + u1(7) + u2(pool.of_class(THROWABLE))
    g = code_of(pool, 2, 1, deep, rows, [frame_table(pool, [u1(11), caught])])
    first = op("bipush", u1(125)) + call + jump("goto", 5, 0) + POP + jump("goto", 9, 0)
    behind = u1(64 + 7) + u1(7) + u2(pool.of_class(THROWABLE))
    f = code_of(pool, 1, 0, first, row(0, 8, 8), [frame_table(pool, [u1(0), behind])])
    return {"A.class": class_file(pool, [static_method(pool, "f", "()V", f), static_method(pool, "g", "(I)V", g)]), "p": a_plan(turns)}


def entry_scan(threads):
    """A thread with 32,001 numbers, over 10,000 methods of its name whose descriptors differ from its own in their last type."""
    pool = Pool()
    body = code_of(pool, 0, 32001, RETURN)
    other = static_method(pool, "f", "(" + "I" * 32000 + "[I)V", body)
    wanted = static_method(pool, "f", of_ints(32001), body)
    return {"A.class": class_file(pool, [other] * 10000 + [wanted]), "p": a_plan(thread="A.f" + " 0" * 32001, threads=threads)}


def entry_plain():
    """The same class with a thread of another method: what linking the class takes."""
    files = entry_scan(1)
    return {"A.class": files["A.class"], "p": a_plan(thread="A.g")}


def static_lines(count):
    """Static fields of one long name in a class of a long name: the lines of their values."""
    pool, name = Pool(), "C" * 65000
    field = static_field(pool, "f" * 65000)
    only = static_method(pool, "f", "()V", code_of(pool, 1, 0, RETURN))
    return {"A.class": class_file(pool, [only], fields=[field] * count, name=name), "p": a_plan(3, name + ".f")}


def static_ends(count):
    """Static fields, in the texts of 256 cases."""
    pool = Pool()
    only = static_method(pool, "f", "()V", code_of(pool, 1, 0, RETURN))
    return {"A.class": class_file(pool, [only], fields=[static_field(pool, "x")] * count), "p": a_plan(3, cases=256)}


def prints(cases):
    """Cases that each print as much as one may."""
    pool = Pool()
    out = op("getstatic", u2(pool.member(9, "java/lang/System.out:Ljava/io/PrintStream;")))
    number = op("ldc2_w", u2(pool.constant("long:-9223372036854775808")))
    call = op("invokevirtual", u2(pool.member(10, "java/io/PrintStream.println:(J)V")))
    body = code_of(pool, 3, 0, out + number + call + jump("goto", 9, 0), tables=[same_frames(pool, [0])])
    return {"A.class": class_file(pool, [static_method(pool, "f", "()V", body)]), "p": a_plan(1000000, cases=cases)}


INPUTS = [
    ("50,000 throws over 65,533 rows", rows_raise, (50000,), ("run",)),
    ("throws over 126 frames of 32,767 rows", rows_frames, (1000000,), ("run",)),
    ("an entry among 10,000 of a long descriptor", entry_scan, (1,), ("run",)),
    ("no entry among 10,000 of a long descriptor", entry_plain, (), ("run",)),
    ("2,000 static fields of long names", static_lines, (2000,), ("run",)),
    ("65,000 static fields in 256 cases", static_ends, (65000,), ("run",)),
    ("64 cases of a megabyte of text", prints, (64,), ("run",)),
]
