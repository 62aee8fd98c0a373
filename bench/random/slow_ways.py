#!/usr/bin/env python3
"""Compares runs of programs whose classes get their probe array by the method or by a constant with runs of their originals.

    bench/random/slow_ways.py FOLDER SEED

FOLDER has programs of bench/random/machine_programs.py. No class file is written by a constant, so the twins are made here by the
rules on emission (docs/EMISSION.md): each class is left as it is, or gets its array by the method or by the constant, with all
jumps wide or none, at random; in every fourth program each class gets it by the constant. Both programs run on slow_machine.py,
under the schedules of the plan and under random turns, and as in slow_twin.py

- after each case the two worlds are the same, the original having made the kept turns alone;
- a random list of turns of the original is spread, its kept turns are that list again, and both leave one world;
- a thread makes at most 17 probe turns in a row, or 9 where each changed class gets its array by the constant.
"""
import random
import sys
from types import SimpleNamespace

import slow_machine
import slow_programs
import slow_twin

CONSTANT = ("dynamic", (0, slow_programs.DATA, "Ljava/lang/Object;"))


def added(desc, slots, code):
    """A method `$jacocoInit`."""
    return SimpleNamespace(name=slow_programs.INIT, desc=desc, flags=0x100A, code=code, handlers=[], lines=[], max_stack=4, max_locals=slots, wide=False)


class Made(slow_programs.Linked):
    """A class with its probes, which gets its array by the constant or by the method."""

    def __init__(self, old, twins, count, by_constant):
        super().__init__(old.file)
        number = slow_programs.wrapped(old.file.id, 64)
        push = slow_twin.pushed(count)
        asks = [["ldc2_w", ("long", number)], ["ldc", ("string", old.name)], push, ["invokestatic", *slow_programs.FETCH]]
        if by_constant:
            self.given = CONSTANT
            init = added(slow_programs.LOOKUP, 3, asks + [["areturn"]])
        else:
            data = (old.name, slow_programs.DATA, "[Z")
            init = added("()[Z", 0, [["getstatic", *data], ["dup"], ["ifnonnull", 10], ["pop"], *asks, ["dup"], ["putstatic", *data], ["areturn"]])
            self.statics = [*self.statics, SimpleNamespace(name=slow_programs.DATA, desc="[Z", flags=0x100A, attributes=[])]
        self.bodies, self.probes = [*twins, init], (number, count)
        self.slots = slow_programs.MOST_SLOTS + 4


class MadePair(slow_twin.Pair):
    """A program and a twin that is made at random."""

    def __init__(self, before, chance, all_by_constant):
        self.before, self.twins, self.probes, self.faults, self.made = before, {}, {}, [], 0
        ways = ["constant"] * len(before.classes)
        if not all_by_constant:
            ways = ["method", "constant", *chance.choices(["none", "method", "constant"], k=len(ways))][: len(ways)]
            chance.shuffle(ways)
        self.ways, classes = set(ways), []
        for c, old in enumerate(before.classes):
            classes.append(old if ways[c] == "none" or not old.bodies else self.changed(c, old, ways[c] == "constant", chance))
        self.after = slow_programs.Program([])
        self.after.classes, self.after.numbers = classes, before.numbers

    def changed(self, c, old, by_constant, chance):
        bodies, first = [], 0
        for k, body in enumerate(old.bodies):
            probes = slow_twin.Probes(body, first)
            twin = slow_twin.Twin(old.name, body, probes, chance.random() < 0.5, CONSTANT if by_constant else None)
            self.probes[c, k], self.twins[c, k], first = probes, twin, probes.next
            bodies.append(twin.as_body())
        return Made(old, bodies, first, by_constant)


class Comparison:
    """All programs of a folder."""

    def __init__(self, folder, seed):
        self.folder, self.random, self.faults = folder, random.Random(seed), []
        self.counts = dict.fromkeys(["programs", "mixed", "cases", "turns", "kept", "longest", "by_constant"], 0)

    def program(self, name, files, all_by_constant):
        before = slow_programs.Program([slow_machine.contents("%s/%s" % (self.folder, file)) for file in files])
        pair = MadePair(before, self.random, all_by_constant)
        cases = slow_programs.plan_cases(slow_machine.contents("%s/%s.plan" % (self.folder, name)).decode())
        for number, case in enumerate(cases, 1):
            count = len(case.threads)
            for turns in (case.turns(), [self.random.randrange(count) for _ in range(self.random.choice([50, 500, 2000]))]):
                self.case(pair, case, number, turns, all_by_constant)
        self.faults += ["%s: %s" % (name, fault) for fault in pair.faults]
        self.counts["programs"] += 1
        self.counts["mixed"] += {"method", "constant"} <= pair.ways

    def case(self, pair, case, number, turns, all_by_constant):
        new, kept, most = pair.run(case, turns)
        made = pair.made
        old = pair.original(case, kept)
        pair.faults += ["case %d: %s" % (number, each) for each in pair.differences(old, new)]
        pair.faults += ["case %d: %d probe turns" % (number, most)] if most > (9 if all_by_constant else 17) else []
        slow_twin.Comparison.spread(self, pair, case, number)
        self.counts["cases"] += 1
        self.counts["turns"] += made
        self.counts["kept"] += len(kept)
        longest = "by_constant" if all_by_constant else "longest"
        self.counts[longest] = max(self.counts[longest], most)


def main():
    folder, seed = sys.argv[1:3]
    comparison = Comparison(folder, seed)
    for k, line in enumerate(slow_machine.contents(folder + "/list").decode().splitlines()):
        name, *files = line.split()
        comparison.program(name, files, k % 4 == 3)
    for fault in comparison.faults:
        print(fault)
    counts = comparison.counts
    print("%(programs)d programs, %(mixed)d of both ways; %(cases)d runs of cases, %(turns)d turns of running threads, %(kept)d of them kept" % counts)
    print("at most %(longest)d others in a row, and %(by_constant)d where each class gets its array by the constant" % counts)
    print("%d faults" % len(comparison.faults))
    sys.exit(1 if comparison.faults else 0)


if __name__ == "__main__":
    main()
