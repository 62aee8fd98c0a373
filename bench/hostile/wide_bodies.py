"""Class files whose methods have many local variables, and many places at which their types are looked at.

Frames, switches, handlers and instructions cost a byte or two each; a state of all local variables is kept or compared for each of
them where one is made. What a body uses is little: a local variable that no instruction names has no type.
"""
from class_inputs import ATHROW, ICONST_0, ILOAD_0, LONGEST, NOP, PUBLIC, RETURN, STATIC, THROWABLE, Pool, a_plan, attribute
from class_inputs import ACONST_NULL, caught_frames, class_file, code_of, jump, method, of_ints, op, row, same_frames, static_method
from class_inputs import u1, u2, u4

MOST = LONGEST - 2  # local variables of a body that has room for the array of probes


def with_plan(text):
    """The class with a plan of one turn: what `run` takes to link it."""
    return {"A.class": text, "p": a_plan()}


def frame_tops(count):
    """Methods of 511 `nop`s over 65,533 local variables that nothing uses, with a frame at each: 1.1 kB each."""
    pool = Pool()
    body = code_of(pool, 0, MOST, NOP * 511 + RETURN, tables=[same_frames(pool, range(511))])
    return with_plan(class_file(pool, [static_method(pool, "f", "()V", body)] * count))


def frames_of_ints(count):
    """The same with arguments in all of them, of descriptors that differ."""
    pool, methods = Pool(), []
    table = same_frames(pool, range(512))
    for k in range(count):
        desc = "(" + "I" * k + "F" + "I" * (LONGEST - 4 - k) + ")V"
        methods.append(method(pool, PUBLIC, "m", desc, code_of(pool, 0, MOST, NOP * 511 + RETURN, tables=[table])))
    return class_file(pool, methods)


def wide_nops(count):
    """Methods of 511 `nop`s over 65,533 local variables that nothing uses, without a frame: half a kB each."""
    pool = Pool()
    body = code_of(pool, 0, MOST, NOP * 510 + RETURN)
    return with_plan(class_file(pool, [static_method(pool, "f", "()V", body)] * count))


def inverted_jumps(count):
    """Methods of a descriptor of 65,000 ints, with 170 jumps to one end: each jump that is inverted wants a frame of all ints."""
    pool, end = Pool(), 4 * 170
    code = b"".join(ILOAD_0 + jump("ifeq", at, end) for at in range(1, end, 4)) + RETURN
    body = code_of(pool, 1, 65000, code, tables=[same_frames(pool, [end])])
    return class_file(pool, [static_method(pool, "f", of_ints(65000), body)] * count)


def switches(count, targets, locals_, desc, methods=1):
    """Switches that each name the same targets, which stand behind them, and the next of them as their default."""
    pool, starts, code = Pool(), [0], b""
    for _ in range(count):
        at = starts[-1] + 1
        starts.append(at + 1 + (-(at + 1)) % 4 + 12 + 4 * targets)
    arms = range(starts[-1], starts[-1] + targets)
    for start, after in zip(starts, starts[1:]):
        at = start + 1
        jumps = b"".join(u4(arm - at) for arm in arms)
        code += ICONST_0 + op("tableswitch") + bytes((-(at + 1)) % 4) + u4(after - at) + u4(0) + u4(targets - 1) + jumps
    table = same_frames(pool, [*starts[1:], *arms[1:]])
    body = code_of(pool, 1, locals_, code + NOP * targets + RETURN, tables=[table])
    return class_file(pool, [static_method(pool, "m", desc, body)] * methods)


def one_handler(size, locals_):
    """Code whose instructions are all guarded by each exception row, all of one handler, the last instruction."""
    pool = Pool()
    code = NOP * (size - 2) + RETURN + ATHROW
    body = code_of(pool, 1, locals_, code, row(0, size, size - 1) * LONGEST, [caught_frames(pool, [size - 1])])
    return class_file(pool, [static_method(pool, "m", of_ints(locals_), body)])


def each_handler(size, locals_):
    """Code with a frame and a handler at each instruction but the first, where each row guards all instructions."""
    pool = Pool()
    code = ACONST_NULL + NOP * (size - 2) + ATHROW
    rows = b"".join(row(0, size, 1 + k * 7919 % (size - 1)) for k in range(LONGEST))
    body = code_of(pool, 1, locals_, code, rows, [caught_frames(pool, range(1, size))])
    return class_file(pool, [static_method(pool, "m", of_ints(locals_), body)])


def handler_runs(methods, runs, locals_):
    """Methods of so many frames that have no local variable and one int in turn, and as many handlers, each of which guards all."""
    pool = Pool()
    caught = u1(64) + u1(7) + u2(pool.of_class(THROWABLE))
    runs -= 1 - runs % 2  # so that the frames of the handlers have no local variable
    apart = [u1(0), *((u1(252) + u2(0) + u1(1)) if k % 2 else (u1(250) + u2(0)) for k in range(1, runs))]
    table = u2(2 * runs) + b"".join(apart) + caught * runs
    rows = b"".join(row(0, runs, runs + k) for k in range(runs))
    body = code_of(pool, 1, locals_, RETURN * runs + ATHROW * runs, rows, [attribute(pool, "StackMapTable", table)])
    return class_file(pool, [static_method(pool, "f%d" % k, "()V", body) for k in range(methods)])


BOTH = ("classinfo", "instrument")
INPUTS = [
    ("frames over 65,533 unused locals, 8 methods", frame_tops, (8,), ("classinfo", "report", "lines", "instrument", "run")),
    ("frames over 65,533 ints, 10 methods", frames_of_ints, (10,), ("instrument",)),
    ("nops over 65,533 unused locals, 100 methods", wide_nops, (100,), ("classinfo", "instrument", "run")),
    ("170 inverted jumps of 65,000 ints, 20 methods", inverted_jumps, (20,), ("instrument",)),
    ("120 switches of 125, 65,000 ints, 2 methods", switches, (120, 125, 65000, of_ints(65000), 2), BOTH),
    ("2 switches of 250, 65,000 ints", switches, (2, 250, 65000, of_ints(65000)), ("instrument",)),
    ("8 switches of 480, 65,000 unused locals", switches, (8, 480, 65000, "()V"), ("instrument",)),
    ("30 switches of 256, 65,000 ints", switches, (30, 256, 65000, of_ints(65000)), BOTH),
    ("8 switches of 480, 32,000 locals", switches, (8, 480, 32000, of_ints(1)), ("instrument",)),
    ("one handler, 512 nops, 65,500 ints", one_handler, (512, 65500), ("classinfo",)),
    ("one handler, 65,534 nops, 511 ints", one_handler, (LONGEST - 1, 511), ("classinfo", "refs")),
    ("each its handler, 65,534 nops, 511 ints", each_handler, (LONGEST - 1, 511), ("classinfo", "refs")),
    ("256 runs and handlers, 65,000 locals", handler_runs, (1, 256, 65000), BOTH),
    ("8,190 runs and handlers, 2,046 locals", handler_runs, (1, 8190, 2046), BOTH),
    ("21,840 runs and handlers, 760 locals", handler_runs, (1, 21840, 760), ("classinfo",)),
]
