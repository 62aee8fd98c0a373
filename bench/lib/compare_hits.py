#!/usr/bin/env python3
"""Compares the execution data of two runs of one program, probe by probe: once instrumented by jcov, once by JaCoCo.

usage: compare_hits.py OURS THEIRS LINES REFUSALS THEIR_REFUSALS
OURS and THEIRS are the execution data. LINES and REFUSALS are what `jcov instrument` printed on `out` and on `err`, and
THEIR_REFUSALS what bench/lib/Instrument.java printed on `err`. Classes that one of the two gives no probes are left out:
interfaces with code are refused by jcov, synthetic classes stay unchanged, and JaCoCo instruments both.
"""
import struct
import sys


def records(path):
    """For each class id of execution data the name and the probes."""
    with open(path, "rb") as file:
        data = file.read()
    at, found = 5, {}

    def text():
        nonlocal at
        size = struct.unpack_from(">H", data, at)[0]
        at += 2 + size
        return data[at - size:at].decode()

    while at < len(data):
        block, at = data[at], at + 1
        if block == 0x10:
            text()
            at += 16
            continue
        number, at = struct.unpack_from(">Q", data, at)[0], at + 8
        name, count, shift = text(), 0, 0
        while True:
            byte, at = data[at], at + 1
            count |= (byte & 0x7f) << shift
            shift += 7
            if byte < 0x80:
                break
        size = (count + 7) // 8
        bits, at = data[at:at + size], at + size
        found[number] = (name, [bits[k // 8] >> k % 8 & 1 for k in range(count)])
    return found


def second_words(path, first):
    """The names of the classes in the lines that begin so."""
    with open(path, encoding="utf-8") as lines:
        return {line.split()[1].rstrip(":").removesuffix(".class") for line in lines if line.startswith(first + " ")}


def main():
    ours, theirs = records(sys.argv[1]), records(sys.argv[2])
    without = second_words(sys.argv[3], "unchanged") | second_words(sys.argv[4], "refused")
    refused = second_words(sys.argv[5], "refused")
    print("%d classes without probes of jcov, %d of them with a record of JaCoCo's; %d refused by JaCoCo, %d of them with"
          " a record of jcov's" % (len(without), sum(name in without for name, _ in theirs.values()), len(refused),
                                   sum(name in refused for name, _ in ours.values())))
    both = [number for number in ours if number in theirs]
    alone = [number for number in ours.keys() ^ theirs.keys()
             if ours.get(number, theirs.get(number))[0] not in without | refused]
    unlike = [number for number in both if ours[number] != theirs[number]]
    print("%d records, %d probes, %d of them hit; %d records differ, %d stand on one side alone"
          % (len(both), sum(len(ours[it][1]) for it in both), sum(sum(ours[it][1]) for it in both), len(unlike), len(alone)))
    for number in unlike + alone:
        print("%016x %s" % (number, ours.get(number, theirs.get(number))[0]))


main()
