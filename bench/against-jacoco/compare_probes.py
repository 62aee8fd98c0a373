#!/usr/bin/env python3
"""Compares two listings of the same class files, class by class, and says what was refused.

usage: compare_probes.py LIST OURS THEIRS [VERDICTS]
LIST has a line for each file, which begins with its path and a tab. OURS is what jc_listing or jcov printed of these
files, in order: the lines of a class, or a line with the path where it is refused. THEIRS is what ProbeCounts
printed of them, VERDICTS what Verify printed. Ends with status 1 where two classes differ, or where a class is
refused that the Java machine loads, unless for its version, a subroutine or an interface with code. A class that
JaCoCo's library can't read is only counted.
"""
import collections, re, sys

BY_RULE = ("Version", "Subroutine", "InterfaceBody", "AlreadyInstrumented")


def groups(path, begins):
    """The lines of each class."""
    found = []
    with open(path, encoding="utf-8", errors="surrogateescape") as file:
        for line in file:
            if begins.match(line):
                found.append([])
            found[-1].append(line.rstrip("\n"))
    return found


paths = [line.split("\t")[0] for line in open(sys.argv[1])]
begins = re.compile(r"class |refused |\S+\.class: ")
ours, theirs = groups(sys.argv[2], begins), groups(sys.argv[3], begins)
if not len(paths) == len(ours) == len(theirs):
    sys.exit("%d files, %d listed by us, %d by JaCoCo" % (len(paths), len(ours), len(theirs)))
verdicts = {}
if len(sys.argv) > 4:
    for line in open(sys.argv[4]):
        path, verdict, *why = line.rstrip("\n").split(" ", 2)
        verdicts[path] = (verdict, why[0] if why else "")

same, differ, refused, wrong = collections.Counter(), 0, collections.Counter(), 0
unread, accepted = collections.Counter(), collections.Counter()
for path, mine, other in zip(paths, ours, theirs):
    verdict, why = verdicts.get(path, ("not tried", ""))
    if mine[0].startswith("class "):
        accepted[verdict] += 1
    if not mine[0].startswith("class "):
        kind = mine[0].split(": ", 1)[1].split(" ")[0]
        refused[kind, verdict] += 1
        if kind not in BY_RULE and verdict != "refused":
            wrong += verdict == "loaded"
            print("%s (the machine: %s %s)" % (mine[0], verdict, why))
    elif not other[0].startswith("class "):
        unread[verdict] += 1
    elif mine != other:
        differ += 1
        print("%s %s:" % (path, mine[0]))
        shown = [pair for pair in zip(mine, other) if pair[0] != pair[1]]
        print("\n".join("  - %s\n  + %s" % pair for pair in shown[:4]))
        if len(mine) != len(other):
            print("  %d lines, %d by JaCoCo" % (len(mine), len(other)))
    else:
        same["classes"] += 1
        for line in mine:
            word = line.split(" ", 1)[0]
            same[word + "s"] += word in ("method", "probe")
            if word == "method":
                same["instructions"] += int(line.split(" ")[3])
said = {"loaded": "loads", "lacks": "can't link for want of a class", "refused": "refuses", "not tried": "wasn't asked about"}
print("%d class files; alike: %s; %d differ" % (len(paths), ", ".join("%d %s" % (n, word) for word, n in same.items() if n), differ))
for verdict, count in sorted(accepted.items()):
    print("taken: %d that the machine %s" % (count, said[verdict]))
for (kind, verdict), count in sorted(refused.items()):
    print("refused, %s: %d that the machine %s" % (kind, count, said[verdict]))
for verdict, count in sorted(unread.items()):
    print("taken, but not read by JaCoCo's library: %d that the machine %s" % (count, said[verdict]))
sys.exit(1 if differ or wrong else 0)
