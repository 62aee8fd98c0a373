#!/usr/bin/env python3
"""Compares `jcov refs` with slow_refs.py, and looks at runs of what was accepted.

    bench/refs/compare_refs.py JCOV FOLDER [INSTRUMENTED]

FOLDER has `list`, with a line for each program: its name and its class files, and INSTRUMENTED what `jcov instrument` makes of these.
Of each program, original and instrumented, that links, the answers have to be the same. Where there is a plan `NAME.plan`, its cases
run on the slow machine, which looks at each turn of each thread, and on `jcov run`, whose texts have to be those of the slow machine.
No thread of an accepted program may come to a wrong reference; those of refused ones do now and then. Instrumented files of
an accepted program have to be accepted.
"""
import os
import re
import subprocess
import sys
from collections import Counter

HERE = os.path.dirname(os.path.abspath(__file__))
sys.path[:0] = [os.path.join(HERE, "..", "lib"), os.path.join(HERE, "..", "random")]

import slow_machine
import slow_refs
from slow_programs import Program, plan_cases

ANSWER = re.compile(r"refs ok|\S+: reference in method \d+ at \d+")


def said(words, folder):
    """What a command printed, on both, and its status."""
    made = subprocess.run(words, cwd=folder, capture_output=True, check=False)
    return (made.stdout + made.stderr).decode("utf-8", "surrogateescape"), made.returncode


class Comparison:
    def __init__(self, jcov):
        self.jcov, self.faults, self.counts, self.stuck = jcov, [], Counter(), Counter()

    def fault(self, name, what):
        self.faults.append("%s: %s" % (name, what))

    def answer(self, name, folder, files):
        """Whether the references of a program suit, or None where it doesn't link."""
        theirs, status = said([self.jcov, "refs", *files], folder)
        theirs = theirs.rstrip("\n")
        if not ANSWER.fullmatch(theirs):
            self.counts["not linked"] += 1
            return None
        program = Program([slow_machine.contents("%s/%s" % (folder, file)) for file in files])
        ours = slow_refs.answer(program, files)
        if ours != theirs or status != (0 if ours == "refs ok" else 1):
            self.fault(name, "`%s` with status %d, and the slow program says `%s`" % (theirs, status, ours))
        self.counts["accepted" if ours == "refs ok" else "refused"] += 1
        return program, ours == "refs ok"

    def runs(self, name, folder, files, plan, program, accepted):
        """Runs the cases of the plan."""
        cases, watch, text = plan_cases(slow_machine.contents(plan).decode()), slow_refs.Watch(program), ""
        kind = "of accepted programs" if accepted else "of refused programs"
        for number, case in enumerate(cases, 1):
            world, wrong = slow_machine.World(program, case), set()
            for t in case.turns():
                thread = world.threads[t]
                if thread.end is None and watch.is_wrong(thread):
                    wrong.add(t)
                self.counts["turns " + kind] += thread.end is None
                world.turn(t)
                if not any(each.frames for each in world.threads):
                    break
            self.counts["runs " + kind] += 1
            self.counts["runs with a wrong reference " + kind] += bool(wrong)
            for t, thread in enumerate(world.threads):
                if thread.end == "stuck":
                    self.stuck[kind, t in wrong, program.body(thread.stood[0]).code[thread.stood[1]][0]] += 1
            if accepted and wrong:
                self.fault(name, "case %d comes to a wrong reference" % number)
            text += "case %d\n%s" % (number, world.text())
        theirs, status = said([self.jcov, "run", "--plan", plan, "--destfile", os.devnull, *files], folder)
        if (theirs, status) != (text, 0):
            self.fault(name, "the texts of `run` differ, status %d" % status)

    def program(self, name, files, folder, instrumented):
        plan, accepted = os.path.abspath("%s/%s.plan" % (folder, name)), []
        for where in (folder, instrumented):
            found = self.answer(name, where, files) if where else None
            if not found:
                continue
            accepted.append(found[1])
            if os.path.exists(plan):
                self.runs(name, where, files, plan, *found)
        if accepted == [True, False]:
            self.fault(name, "accepted, and its instrumented files aren't")
        self.counts["programs"] += 1


def main():
    jcov, folder = os.path.abspath(sys.argv[1]), sys.argv[2]
    comparison = Comparison(jcov)
    for line in slow_machine.contents(folder + "/list").decode().splitlines():
        name, *files = line.split()
        comparison.program(name, files, folder, sys.argv[3] if len(sys.argv) > 3 else None)
    for fault in comparison.faults:
        print(fault)
    for what, count in sorted(comparison.counts.items()):
        print("%s: %d" % (what, count))
    for (kind, wrong, insn), count in sorted(comparison.stuck.items()):
        print("stuck threads %s%s at %s: %d" % (kind, ", behind a wrong reference," if wrong else "", insn, count))
    print("%d faults" % len(comparison.faults))
    sys.exit(1 if comparison.faults else 0)


if __name__ == "__main__":
    main()
