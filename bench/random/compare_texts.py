#!/usr/bin/env python3
"""Compares the texts of programs that two machines printed.

    bench/random/compare_texts.py TEXT OTHER

Each text of a program begins with a line `program NAME`. Prints how many are alike, how their threads ended, and the first
lines in which the others differ; ends with status 1 where some do.
"""
import collections
import re
import sys


def programs(path):
    with open(path, encoding="utf-8") as file:
        parts = re.split(r"^program (\S+)\n", file.read(), flags=re.M)
    return dict(zip(parts[1::2], parts[2::2]))


def main():
    ones, others = programs(sys.argv[1]), programs(sys.argv[2])
    ends, differ, lines = collections.Counter(), 0, 0
    for name in sorted(ones.keys() | others.keys()):
        one, other = ones.get(name, ""), others.get(name, "")
        lines += one.count("\n")
        for end in re.findall(r"^thread \d+ (\w+(?: java\.\S+)?)", one, flags=re.M):
            ends[end] += 1
        if one != other:
            differ += 1
            pairs = list(zip(one.splitlines() + [""], other.splitlines() + [""]))
            at = next((k for k, (x, y) in enumerate(pairs) if x != y), len(pairs) - 1)
            print("%s, line %d: %s | %s" % (name, at + 1, *pairs[at]))
    print("%d programs, %d lines; %d differ" % (len(ones.keys() | others.keys()), lines, differ))
    print("; ".join("%s %d" % (end, count) for end, count in ends.most_common()))
    sys.exit(1 if differ else 0)


main()
