#!/usr/bin/env python3
"""Time and peak memory of `jcov merge`, `jcov execinfo` and `jcov report` on execution data of 64 MiB, beside what the store says.

    python3 bench/hostile/execution_peaks.py JCOV [WORD..]

One line for each input and command. "says" is what the store says: names, ids, bits eight to a byte, and sessions. "bound" is twice
that for `merge` and once for the others, with 24 bytes a record and 16 MB. `report` reads one file, beside a class without methods. WORD: only inputs whose names have one of these words.
"""
import os
import subprocess
import sys
import tempfile
import time

HERE = os.path.dirname(os.path.abspath(__file__))
sys.path.insert(0, f"{HERE}/../lib")
from exec_bytes import HEADER, count_bytes, spread_ids  # noqa: E402

SIZE = 64 << 20


def record(number, name, probes, bits):
    """The block of a class."""
    return b"\x11" + number.to_bytes(8, "big") + len(name).to_bytes(2, "big") + name + count_bytes(probes) + bits


def repeated(blocks, says, ids):
    """A header and as many blocks as fit, one of each id: the text, how many there are, and what they say."""
    parts, room, count, said = [HEADER], SIZE - len(HEADER), 0, 0
    for number in ids:
        block = blocks(number, count)
        if len(block) > room:
            break
        parts.append(block)
        room -= len(block)
        count += 1
        said += says(block)
    return b"".join(parts), count, said


def short(number, count):
    return record(number, b"org/some/package/C%07d" % count, 40, b"\x55\xaa\x0f\xf0\x81")


def long(number, count):
    return record(number, b"org/some/package/C%07d" % count, 65535, b"\xa5" * 8191 + b"\x7f")


def tiny(number, count):
    return record(number, b"", 8, b"\x01")


def session(number, count):
    name = b"host.example.org-%08x" % count
    return b"\x10" + len(name).to_bytes(2, "big") + name + count.to_bytes(8, "big") + (2 * count).to_bytes(8, "big")


def all_ids():
    return spread_ids(1 << 30)


def colliding_ids():
    """Ids that have one home among the slots that the index has for 2^19 ids."""
    return (k * (1065015 - 16) for k in range(1 << 30))


def ids_of_one_home():
    blocks = [short(number, count) for count, number in zip(range(1 << 19), colliding_ids())]
    return HEADER + b"".join(blocks), 1 << 19, (len(blocks[0]) - 4) << 19


def again_and_again():
    one = short(12345, 1)
    return HEADER + one * ((SIZE - 5) // len(one)), 1, len(one) - 4


def refused_last():
    text, count, said = repeated(short, lambda block: len(block) - 4, all_ids())
    return text[: SIZE - 64] + b"\x02", count, said


# A class `A` of version 50 without methods.
CLASS = bytes.fromhex("cafebabe 0000 0032 0005 01 0001 41 07 0001 01 0010") + b"java/lang/Object" + bytes.fromhex("07 0003 0021 0002 0004 0000 0000 0000 0000")


# What makes a file of each input: its text, its records and what the store says of it. And how many files of it there are.
INPUTS = {
    "short records": (lambda: repeated(short, lambda block: len(block) - 4, all_ids()), 1),
    "long records": (lambda: repeated(long, lambda block: len(block) - 6, all_ids()), 1),
    "records of 13 bytes": (lambda: repeated(tiny, lambda block: len(block) - 4, all_ids()), 1),
    "one id again and again": (again_and_again, 1),
    "sessions": (lambda: repeated(session, lambda block: len(block) - 3, range(1 << 30)), 1),
    "refused at the first byte": (lambda: (b"\x02" + bytes(SIZE - 1), 0, 0), 1),
    "short records, refused at the last byte": (refused_last, 1),
    "ten files of the same ids": (lambda: repeated(long, lambda block: len(block) - 6, all_ids()), 10),
    "2^19 short records of one home": (ids_of_one_home, 1),
}


def make(name, folder):
    """Writes the files of an input, and prints its records and what the store says."""
    made, files = INPUTS[name]
    text, count, said = made()
    for number in range(files):
        with open(f"{folder}/{number}.exec", "wb") as out:
            out.write(text)
    print(count, said)


def measured(words):
    """The time by the clock, the processor time, the peak in bytes and the status of a run."""
    begin = time.monotonic()
    run = subprocess.Popen(words, stdout=subprocess.DEVNULL, stderr=subprocess.DEVNULL)
    _, status, usage = os.wait4(run.pid, 0)
    return time.monotonic() - begin, usage.ru_utime + usage.ru_stime, usage.ru_maxrss * 1024, status


def main():
    if sys.argv[1] == "--make":
        return make(*sys.argv[2:])
    jcov, words = os.path.abspath(sys.argv[1]), sys.argv[2:]
    for name in INPUTS:
        if words and not any(word in name for word in words):
            continue
        with tempfile.TemporaryDirectory() as folder:
            # A process of its own makes the files, since a child's peak is at least what its parent holds.
            made = subprocess.run([sys.executable, __file__, "--make", name, folder], stdout=subprocess.PIPE, check=True)
            count, said = map(int, made.stdout.split())
            paths = sorted(f"{folder}/{file}" for file in os.listdir(folder))
            with open(f"{folder}/A.class", "wb") as out:
                out.write(CLASS)
            report = ["report", "--csv", f"{folder}/o", "--exec", paths[0], f"{folder}/A.class"]
            for times, command in ((2, ["merge", "--destfile", f"{folder}/o", *paths]), (1, ["execinfo", *paths]), (1, report)):
                clock, spent, peak, status = measured([jcov, *command])
                bound = times * said + 24 * count + 16_000_000
                print("%-40s %-8s %5.2f s, processor %5.2f s, peak %6.1f MB, says %5.1f MB, bound %5.1f MB, status %d"
                      % (name, command[0], clock, spent, peak / 1e6, said / 1e6, bound / 1e6, status >> 8), flush=True)


if __name__ == "__main__":
    main()
