"""Class files and programs whose names all fall into one place of a hash table with a fixed seed.

Each name is then compared with all in front of it, so time grows with the square of their number. `colliding_names.c` finds them, for
the hash that the kit's maps have; COLLIDING names a folder in which they are kept, so that they are looked for once. The search for
each of the three lists takes a minute of a processor.
"""
import os
import subprocess
import tempfile

from class_inputs import ICONST_1, POP, RETURN, Pool, a_plan, class_file, code_of, op, static_field, static_method, u2

COUNT, BITS = 20000, 11  # a table for so many has 16 * 2^BITS places
HERE = os.path.dirname(os.path.abspath(__file__))


def made(path, descriptor):
    """Looks for the names and writes them into a file."""
    with tempfile.TemporaryDirectory() as room:
        finder, part = f"{room}/finder", f"{path}.part"
        subprocess.run(["gcc", "-O3", "-march=native", "-o", finder, f"{HERE}/colliding_names.c"], check=True)
        with open(part, "wb") as out:
            subprocess.run([finder, str(COUNT), str(BITS), *descriptor], stdout=out, check=True)
        os.rename(part, path)


def names(kind, *descriptor):
    """Names that collide by themselves, or with the descriptor behind them."""
    folder = os.environ.get("COLLIDING") or os.path.join(tempfile.gettempdir(), "colliding-names")
    os.makedirs(folder, exist_ok=True)
    path = f"{folder}/{kind}"
    if not os.path.exists(path):
        made(path, descriptor)
    with open(path, encoding="ascii") as lines:
        found = lines.read().split()
    if len(found) < COUNT:
        raise SystemExit(f"{path} has {len(found)} names")
    return found[:COUNT]


def simple(pool, name="f"):
    """A method that returns."""
    return static_method(pool, name, "()V", code_of(pool, 0, 0, RETURN))


def pool_texts():
    """Texts of the pool that nothing names: the index of the pool that an instrumented class has."""
    pool = Pool()
    pool.of_class("A")
    for name in names("names"):
        pool.utf8(name)
    return class_file(pool, [simple(pool)])


def pool_classes():
    """Classes that are made by `new`: the list of class names of an analysis, and the classes of the pool."""
    pool, methods, uses = Pool(), [], [op("new", u2(0)) + POP]
    places = [pool.of_class(name) for name in names("names")]
    size = 60000 // len(uses[0])
    for first in range(0, len(places), size):
        code = b"".join(op("new", u2(place)) + POP for place in places[first:first + size])
        methods.append(static_method(pool, "f%d" % first, "()V", code_of(pool, 1, 0, code + RETURN)))
    return class_file(pool, methods)


def fields():
    """Static fields whose names collide in front of the descriptor I: the fields of a program."""
    pool = Pool()
    found = [static_field(pool, name) for name in names("fields", "I")]
    return {"A.class": class_file(pool, [simple(pool)], fields=found), "p": a_plan()}


def methods():
    """Methods whose names collide in front of the descriptor ()V: the methods of a program."""
    pool = Pool()
    return {"A.class": class_file(pool, [simple(pool), *(simple(pool, name) for name in names("methods", "()V"))]), "p": a_plan()}


def calls():
    """The same, each of them called once."""
    pool, found = Pool(), names("methods", "()V")
    code = b"".join(op("invokestatic", u2(pool.member(10, f"A.{name}:()V"))) for name in found)
    body = static_method(pool, "f", "()V", code_of(pool, 0, 0, code + RETURN))
    return {"A.class": class_file(pool, [body, *(simple(pool, name) for name in found)]), "p": a_plan()}


def assigned():
    """The fields, each of them assigned once: the members that a twin's pool and a prepared program look up."""
    pool, found = Pool(), names("fields", "I")
    half = found[:9000]
    code = b"".join(ICONST_1 + op("putstatic", u2(pool.member(9, f"A.{name}:I"))) for name in half)
    body = static_method(pool, "f", "()V", code_of(pool, 1, 0, code + RETURN))
    return {"A.class": class_file(pool, [body], fields=[static_field(pool, name) for name in half]), "p": a_plan()}


def classes():
    """A folder of class files whose own names collide: the classes of a program and of a report."""
    files = {"p": a_plan()}
    for name in names("names")[:5000]:
        pool = Pool()
        files[f"d/{name}.class"] = class_file(pool, [simple(pool)], name=name)
    pool = Pool()
    files["d/A.class"] = class_file(pool, [simple(pool)])
    return files


INPUTS = [
    ("20,000 colliding texts of a pool", pool_texts, (), ("classinfo", "instrument")),
    ("20,000 colliding classes", pool_classes, (), ("classinfo", "report", "instrument", "refs")),
    ("20,000 colliding fields", fields, (), ("classinfo", "instrument", "run")),
    ("20,000 colliding methods", methods, (), ("classinfo", "report", "instrument", "run")),
    ("20,000 colliding methods, called", calls, (), ("instrument", "run")),
    ("9,000 colliding fields, assigned", assigned, (), ("instrument", "run")),
    ("5,001 class files of colliding names", classes, (), ("report files", "run files")),
]
