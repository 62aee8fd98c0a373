#!/usr/bin/env python3
"""Compares `jcov run --monitors` with slow_monitors.py, and runs of instrumented files with runs of their originals.

    bench/monitors/compare_monitors.py FOLDER SEED [JCOV INSTRUMENTED]

FOLDER has programs of monitor_programs.py, and INSTRUMENTED their class files as `jcov instrument` writes them; without these two
words the instrumented files are made by the rules on emission, as in bench/random/slow_ways.py, and no command runs. Of each program

- the text of `run --monitors` is that of the slow program, for the originals and for the instrumented files;
- the execution data that it writes has the hits of the slow program;
- after each case the worlds of both are the same, with the same locks, the original having made the kept turns alone;
- a random list of turns of the original is spread, its kept turns are that list again, and both leave one world;
- a thread makes at most 17 probe turns in a row;
- a case of one thread that ends prints in the instrumented files what it prints in the originals.
"""
import os
import random
import subprocess
import sys
from collections import Counter

HERE = os.path.dirname(os.path.abspath(__file__))
sys.path[:0] = [os.path.join(HERE, "..", "lib"), os.path.join(HERE, "..", "random")]

import slow_machine
import slow_monitors
import slow_twin
import slow_ways
from slow_programs import Program, plan_cases

ALWAYS = 300_000


class Pair(slow_twin.Pair):
    world_of = slow_monitors.MonitorWorld


class MadePair(slow_ways.MadePair):
    world_of = slow_monitors.MonitorWorld


class Comparison:
    def __init__(self, folder, seed, jcov, instrumented):
        self.folder, self.jcov, self.instrumented = folder, jcov, instrumented
        self.random, self.faults, self.counts = random.Random(seed), [], Counter()

    def read(self, folder, files):
        return Program([slow_machine.contents("%s/%s" % (folder, file)) for file in files])

    def program(self, number, name, files):
        plan, before = os.path.abspath("%s/%s.plan" % (self.folder, name)), self.read(self.folder, files)
        cases = plan_cases(slow_machine.contents(plan).decode())
        if self.jcov:
            pair = Pair(before, self.read(self.instrumented, files))
        else:
            pair = MadePair(before, self.random, number % 4 == 3)
        first, second, hits = "", "", set()
        for case_number, case in enumerate(cases, 1):
            old = pair.original(case, case.turns())
            new = self.case(pair, case, case_number, old)
            first += "case %d\n%s" % (case_number, old.text())
            second += "case %d\n%s" % (case_number, new.text())
            hits |= new.hits
        if self.jcov:
            self.run(name, self.folder, files, plan, first, [])
            self.run(name, self.instrumented, files, plan, second, records(pair.after, hits))
        self.faults += ["%s: %s" % (name, fault) for fault in pair.faults]
        self.counts["programs"] += 1

    def case(self, pair, case, number, old):
        """Runs a case of the instrumented files, and compares its world with that of the original."""
        new, kept, most = pair.run(case, case.turns())
        pair.faults += ["case %d: %s" % (number, each) for each in pair.differences(pair.original(case, kept), new)]
        pair.faults += ["case %d: %d probe turns" % (number, most)] if most > 17 else []
        slow_twin.Comparison.spread(self, pair, case, number)
        if len(case.threads) == 1 and old.threads[0].end:
            ended = pair.run(case, [0] * ALWAYS)[0]
            pair.faults += ["case %d: one thread prints another text" % number] if ended.text() != old.text() else []
            self.counts["cases of one thread that ended"] += 1
        self.count(case, old)
        self.count(case, new)
        return new

    def count(self, case, world):
        self.counts["runs of cases"] += 1
        self.counts["idle turns at locks"] += world.idle_turns
        self.counts["runs with idle turns"] += world.idle_turns > 0
        self.counts["locks held at the end"] += len(world.held)
        ends = [(thread.end or "running").split()[0] for thread in world.threads]
        for end in ends:
            self.counts["threads " + end] += 1
        self.counts["runs that end in a deadlock"] += len(world.waiting) >= 2 and len(world.waiting) == ends.count("running")

    def run(self, name, folder, files, plan, text, wanted):
        """Compares the text and the execution data of a command."""
        words = [self.jcov, "run", "--monitors", "--plan", plan, "--destfile", "hits.exec", *files]
        made = subprocess.run(words, cwd=folder, capture_output=True, check=False)
        said = (made.stdout + made.stderr).decode("utf-8", "surrogateescape")
        if (said, made.returncode) != (text, 0):
            self.faults.append("%s: `run` in %s says, with status %d: %s" % (name, folder, made.returncode, difference(said, text)))
        elif slow_machine.contents(folder + "/hits.exec") != slow_twin.exec_text(wanted):
            self.faults.append("%s: other hits" % name)
        self.counts["texts compared"] += 1


def difference(said, text):
    """The first lines that differ."""
    pairs = zip(said.splitlines() + [""], text.splitlines() + [""])
    return next(("line %d: %s | %s" % (k, *pair) for k, pair in enumerate(pairs, 1) if pair[0] != pair[1]), "a longer text")


def records(program, hits):
    """The records of the classes with a hit: id, name and bits."""
    found = []
    for c, linked in enumerate(program.classes):
        if linked.probes and any(each == c for each, _ in hits):
            found.append((linked.probes[0], linked.name, [(c, k) in hits for k in range(linked.probes[1])]))
    return found


def main():
    folder, seed, jcov, instrumented = [*sys.argv[1:], None, None][:4]
    comparison = Comparison(folder, seed, jcov and os.path.abspath(jcov), instrumented)
    for number, line in enumerate(slow_machine.contents(folder + "/list").decode().splitlines()):
        name, *files = line.split()
        comparison.program(number, name, files)
    for fault in comparison.faults:
        print(fault)
    print("; ".join("%s: %d" % pair for pair in sorted(comparison.counts.items())))
    print("%d faults" % len(comparison.faults))
    sys.exit(1 if comparison.faults else 0)


if __name__ == "__main__":
    main()
