#!/bin/sh
# Time of `jcov classinfo` on methods with 65,535 exception rows, two of 65,534 instructions and 511 local variables, and
# two of 512 instructions and 65,500 local variables: nearly all of it goes into the states of the kind check.
# usage: bench/hostile/exception-rows.sh [JCOV]      JCOV: the built program; else the one of crates/jcov/out
set -e
. "$(dirname "$0")/../lib/jcov-path.sh"
folder=$(mktemp -d)
trap 'rm -rf "$folder"' EXIT
cd "$folder"

# one.class has one handler; each.class has a frame at each instruction but the first, and a handler at each of them;
# wide.class has 512 instructions, 65,500 local variables and one handler; apart.class has as many, and 256 handlers, each of
# which guards every other instruction by a row of its own.
cat > make.py <<'PY'
import struct

ROWS = 65535


def short(*numbers):
    return b"".join(struct.pack(">H", n) for n in numbers)


def text(body):
    return b"\1" + short(len(body)) + body


def attribute(name, body):
    return short(name) + struct.pack(">I", len(body)) + body


# 1 A, 2 its class, 3 m, 4 the descriptor, 5 Code, 6 StackMapTable, 7 java/lang/Throwable, 8 its class
def pool(slots):
    return (text(b"A") + b"\7" + short(1) + text(b"m") + text(b"(" + b"I" * slots + b")V") + text(b"Code")
            + text(b"StackMapTable") + text(b"java/lang/Throwable") + b"\7" + short(7))


def class_file(slots, code, rows, frames):
    table = short(len(frames)) + b"".join(frames)
    body = (short(1, slots) + struct.pack(">I", len(code)) + code + short(len(rows))
            + b"".join(short(start, end, target, 0) for start, end, target in rows) + short(1) + attribute(6, table))
    method = short(8, 3, 4, 1) + attribute(5, body)
    return (struct.pack(">I", 0xCAFEBABE) + short(0, 52, 9) + pool(slots) + short(0x21, 2, 0, 0, 0, 1) + method + short(0))


NOP, ACONST_NULL, RETURN, ATHROW = b"\0", b"\1", b"\xb1", b"\xbf"


def one_handler(count, slots, ranges):
    """The frame of the last instruction, with what is caught on the stack."""
    code = NOP * (count - 2) + RETURN + ATHROW
    last = b"\xf7" + short(count - 1) + b"\7" + short(8)
    return class_file(slots, code, [(start, end, count - 1) for start, end in ranges], [last])


def many_handlers(count, slots, rows):
    """A frame at each instruction but the first, with a reference on the stack."""
    code = ACONST_NULL + NOP * (count - 2) + ATHROW
    frames = [bytes([65]) + b"\7" + short(8)] + [bytes([64]) + b"\7" + short(8)] * (count - 2)
    return class_file(slots, code, rows, frames)


open("one.class", "wb").write(one_handler(65534, 511, [(0, 65534)] * ROWS))
targets = [1 + k * 7919 % 65533 for k in range(ROWS)]
open("each.class", "wb").write(many_handlers(65534, 511, [(0, 65534, target) for target in targets]))
spans = [(k % 255, 511 - k // 255 % 256) for k in range(ROWS)]
open("wide.class", "wb").write(one_handler(512, 65500, spans))
rows = [(2 * (k % 256), 2 * (k % 256) + 1, 1 + k // 256) for k in range(ROWS)]
open("apart.class", "wb").write(many_handlers(512, 65500, rows))
PY

cat > measure.py <<'PY'
import os, subprocess, sys, time

for path in sys.argv[2:]:
    begin = time.monotonic()
    run = subprocess.Popen([sys.argv[1], "classinfo", path], stdout=subprocess.PIPE)
    line = run.stdout.read().decode().splitlines()[0]
    _, status, usage = os.wait4(run.pid, 0)
    if status != 0:
        sys.exit("wait status %d at %s" % (status, path))
    clock, spent = time.monotonic() - begin, usage.ru_utime + usage.ru_stime
    print("%s, %d bytes: %s; %.2f s, processor time %.2f s, peak %.0f MB"
          % (path, os.path.getsize(path), line, clock, spent, usage.ru_maxrss * 1024 / 1e6))
PY

echo "load before: $(cut -d' ' -f1 /proc/loadavg)"
python3 make.py
python3 measure.py "$jcov" one.class each.class wide.class apart.class
