#!/usr/bin/env python3
"""Checks what `emit` gives for random methods, sentence by sentence.

    bench/random/slow_emission.py PROGRAM [SEED [METHODS]]

PROGRAM is `emitted.txt`, built without proofs:

    bench/lib/build-unproved.py emitted PROGRAM bench/random/emitted.txt jc_bytes jc_methods jc_outside jc_class jc_body \\
        jc_insn jc_kinds jc_plan jc_emit

The methods are those of `emission_bodies.py`. Each is emitted in both ways of getting the array of probes, with random first
ids, without wide jumps, with all jumps wide and with random ones wide. What the sentences of docs/EMISSION.md say is worked
out here from the method, its probes (`slow_twin.py`) and its states, and looked for in the bytes, the marks, the tables and
the frames. The places in the pool of what the prelude names are 0.
"""
import os
import random
import subprocess
import sys
import tempfile

sys.path.insert(0, os.path.join(os.path.dirname(os.path.abspath(__file__)), "..", "lib"))

import class_reader
import emission_bodies
import slow_twin

PRELUDES = {
    "member": ([["invokestatic", "place 0"], ["astore"]], [0, 1]),
    "constant": ([["ldc", "place 0"], ["checkcast", "place 0"], ["astore"]], [0, 1, 1]),
}
SHORT = 32767
MOST = 65535


class EmittedPool:
    """The pool as the emitted code reads it: nothing has the place 0 yet, and the Integers of ids stand behind the rest."""

    def __init__(self, pool, first):
        self.pool, self.first = pool, first

    def constant(self, place):
        if place == 0:
            return "place 0"
        if place >= self.first:
            return ("int", SHORT + 1 + place - self.first)
        return self.pool.constant(place)

    def member(self, place):
        return ["place 0"] if place == 0 else self.pool.member(place)

    def name(self, place):
        return "place 0" if place == 0 else self.pool.name(place)


class Printed:
    """What the program printed of a method: for each word at the front of a line what stands behind it."""

    def __init__(self):
        self.refused, self.lines = None, {}

    def add(self, word, rest):
        self.lines.setdefault(word, []).append(rest)

    def numbers(self, word):
        return [tuple(map(int, rest)) for rest in self.lines.get(word, [])]

    def frames(self, word):
        found = []
        for rest in self.lines.get(word, []):
            bar = rest.index("stack")
            found.append((int(rest[0]), rest[2:bar], rest[bar + 1 :]))
        return found


def decoded(text, pool):
    """The instructions that bytes spell, with places for offsets, and which of them are spelled with four bytes."""
    method, code, offsets, insns, far = class_reader.Method.__new__(class_reader.Method), class_reader.Bytes(text), [], [], []
    while code.at < len(text):
        offsets.append(code.at)
        method.wide = False
        insns.append(method.instruction(code, pool))
        far.append(method.wide)
    offsets.append(code.at)
    places = {offset: place for place, offset in enumerate(offsets)}
    return [class_reader.aimed(insn, places) for insn in insns], far


def pushed(number):
    """The instruction that pushes an id."""
    if number <= 5:
        return ["iconst_%d" % number]
    return ["bipush" if number <= 127 else "sipush", number] if number <= SHORT else ["ldc", ("int", number)]


def is_test(insn):
    return insn[0] in class_reader.JUMPS and insn[0] != "goto"


def operands(insn):
    return 2 if insn[0].startswith(("if_icmp", "if_acmp")) else 1


def argument_slots(body):
    return sum(2 if kind in "JD" else 1 for kind in class_reader.parameters(body.desc)[0]) + (0 if body.flags & 8 else 1)


class Narrow:
    """The emitted code before its layout: its bytes where no jump is wide, and its marks."""

    def __init__(self, printed, pool):
        self.code, far = decoded(bytes.fromhex(printed.lines["code"][0][0]), pool)
        self.at, self.own, self.extra = (list(map(int, printed.lines[word][0])) for word in ("at", "own", "extra"))
        self.far = any(far)


class Wide:
    """The code where some jumps are wide, with marks: the `goto` behind a wide conditional jump has none of its own yet."""

    def __init__(self, printed, pool, narrow, bits):
        self.code, self.far = decoded(bytes.fromhex(printed.lines["code"][0][0]), pool)
        self.places, self.marks, self.wide = [], [], []
        for k, insn in enumerate(narrow.code):
            wide = bits[k % len(bits)] == "1"
            self.places.append(len(self.marks))
            self.marks.append((narrow.at[k], narrow.own[k], narrow.extra[k]))
            self.wide.append(wide and insn[0] in class_reader.JUMPS)
            if wide and is_test(insn):
                self.marks.append(None)
                self.wide.append(True)
        self.places.append(len(self.marks))

    def place(self, at):
        return self.places[at] if at < len(self.places) else -1


class Check:
    """The sentences on one emitted method. `faults` has those that are false."""

    def __init__(self, body, states, frames, first, way, pool):
        self.body, self.states, self.frames, self.way, self.pool = body, states, frames, way, pool
        self.v, self.first = argument_slots(body), first
        self.probes = slow_twin.Probes(body, first)
        self.faults = []

    def that(self, holds, sentence):
        if not holds:
            self.faults.append(sentence)
        return holds

    # -- the code

    def sentences(self, emitted):
        """All sentences on the code. The places where own instructions stand are told by the marks alone."""
        self.emitted = emitted
        self.code, self.marks = emitted.code, list(emitted.marks)
        self.images = [q for q, mark in enumerate(self.marks) if mark is not None and mark[1]]
        if not self.that(len(self.code) == len(self.marks), "lengths") or not self.that(
            len(self.images) == len(self.body.code), "one image for each instruction"
        ):
            return
        self.images.append(len(self.code))
        self.seen = set()
        self.prelude()
        self.land = [self.landing(i) for i in range(len(self.body.code))]
        self.lead = [self.leading(i) for i in range(len(self.body.code))] + [len(self.code)]
        self.that(self.lead[0] == len(PRELUDES[self.way][0]), "the first lead place")
        for i, insn in enumerate(self.body.code):
            self.image(i, insn)
        self.that(self.seen == set(range(len(self.code))), "nothing else")

    def prelude(self):
        insns, extra = PRELUDES[self.way]
        for q, insn in enumerate(insns):
            wanted = ["astore", self.v] if insn == ["astore"] else insn
            self.stands(q, wanted, (0, 0, extra[q]), "the prelude")

    def stands(self, q, insn, mark, sentence):
        self.seen.add(q)
        self.that(self.code[q : q + 1] == [insn] and self.marks[q] == mark, "%s at %d" % (sentence, q))

    def hop(self, q, to, at, sentence):
        self.stands(q, ["goto", to], (at, 0, 0), sentence)
        self.that(not self.emitted.far[q] or self.emitted.wide[q], "a short hop at %d" % q)

    def probe(self, q, number, at):
        for extra, insn in enumerate([["aload", self.v], pushed(number), ["iconst_1"], ["bastore"]]):
            self.stands(q + extra, insn, (at, 0, extra), "the probe %d" % number)

    def landing(self, i):
        """Where jumps to the instruction land: the probe in front of a `goto`, a return or an `athrow`, or the image."""
        name = self.body.code[i][0]
        number = None
        if name == "goto":
            number = self.probes.out.get((i, 1))
        elif name == "athrow" or name in class_reader.RETURNS:
            number = self.probes.out.get((i, 0))
        if number is None:
            return self.images[i]
        self.probe(self.images[i] - 4, number, i)
        return self.images[i] - 4

    def leading(self, i):
        number = self.probes.lead.get(i)
        if number is None:
            return self.land[i]
        self.probe(self.land[i] - 4, number, i)
        return self.land[i] - 4

    def image(self, i, insn):
        """The image, and all that stands behind it and belongs to the instruction."""
        q, name = self.images[i], insn[0]
        if is_test(insn):
            behind = self.test(i, q, insn)
        elif name.endswith("switch"):
            behind = self.switch(i, q, insn)
        else:
            wanted = list(insn)
            if name == "goto":
                wanted = [name, self.land[insn[1]]]
            elif name in class_reader.LOCALS or name == "iinc":
                wanted[1] += wanted[1] >= self.v
            self.stands(q, wanted, (i, 1, 0), "the image")
            behind = q + 1
        self.that(self.lead[i + 1] == behind, "the next lead place behind %d" % q)

    def test(self, i, q, insn):
        number = self.probes.out.get((i, 1))
        asked = [insn[0], self.land[insn[1]]] if number is None else [slow_twin.INVERSE[insn[0]], self.lead[i + 1]]
        behind = q + 1
        if self.emitted.wide[q]:
            self.stands(q, [slow_twin.INVERSE[asked[0]], q + 2], (i, 1, 0), "the wide image")
            self.marks[q + 1] = (insn[1] if number is None else i + 1, 0, 0)
            self.hop(q + 1, asked[1], self.marks[q + 1][0], "the goto of a wide jump")
            behind = q + 2
        else:
            self.stands(q, asked, (i, 1, 0), "the image")
        if number is not None:
            self.probe(behind, number, insn[1])
            self.hop(behind + 4, self.land[insn[1]], insn[1], "the goto behind a probe")
            behind += 5
        return behind

    def arms(self, i):
        """The probed targets of a switch in the order of their ids."""
        targets = slow_twin.switch_targets(self.body.code[i])
        probed = [(self.probes.out[i, branch], to) for branch, to in enumerate(targets) if (i, branch) in self.probes.out]
        return sorted(probed)

    def switch(self, i, q, insn):
        behind, arms = q + 1, {}
        for number, to in self.arms(i):
            arms[to] = behind
            self.probe(behind, number, to)
            self.hop(behind + 4, self.land[to], to, "the goto of an arm")
            behind += 5
        place = lambda to: arms.get(to, self.land[to])
        self.stands(q, [insn[0], place(insn[1]), [(key, place(to)) for key, to in insn[2]]], (i, 1, 0), "the switch")
        return behind

    def each_probe(self):
        """Each probed edge has one probe, told by the instructions alone."""
        found = []
        for q in range(len(self.code) - 3):
            if self.code[q] == ["aload", self.v] and self.code[q + 2 : q + 4] == [["iconst_1"], ["bastore"]]:
                if not any(mark[1] for mark in self.marks[q : q + 4]):
                    found.append(self.code[q + 1])
        wanted = [pushed(number) for number in range(self.first, self.probes.next)]
        self.that(sorted(map(str, found)) == sorted(map(str, wanted)), "each edge one probe")

    # -- tables and frames

    def tables(self, printed, word, place):
        rows = [(place(a), place(b), place(c), self.pool.name(d) if d else None) for a, b, c, d in printed.numbers(word + "row")]
        wanted = [(self.lead[a], self.lead[b], self.land[c], caught) for a, b, c, caught in self.body.handlers]
        self.that(rows == wanted, word + "rows")
        for (start, end, _, _), (old, new, _, _) in zip(rows, self.body.handlers):
            inside = [start <= self.images[i] < end for i in range(len(self.body.code))]
            self.that(inside == [old <= i < new for i in range(len(self.body.code))], word + "what a row holds")
        land = self.land + [len(self.code)]
        lines = [(place(at), line) for at, line in printed.numbers(word + "line")]
        self.that(lines == [(land[at], line) for at, line in self.body.lines], word + "lines")
        for name, table in (("var", self.body.vars), ("type", self.body.types)):
            found = [(place(a), place(b), *rest) for a, b, *rest in printed.numbers(word + name)]
            wanted = [(land[a], land[b], name_, desc, slot + (slot >= self.v)) for a, b, name_, desc, slot in table]
            self.that(found == wanted, word + name)
        sizes = [(self.body.max_stack + 3, self.body.max_locals + 1)]
        self.that(printed.numbers(word + "sizes") == sizes, word + "sizes")

    def moved(self, state):
        """The shifted form of a state: `[Z` behind the arguments, and each `new` by its image."""
        kinds = lambda each: ["new:%d" % self.images[int(kind[4:])] if kind.startswith("new:") else kind for kind in each]
        locals_ = kinds(state[0])
        return locals_[: self.v] + ["class:[Z"] + locals_[self.v :], kinds(state[1])

    def left(self, i):
        """The state that a jump or a switch leaves."""
        locals_, stack = self.states[i]
        return locals_, stack[: len(stack) - operands(self.body.code[i])]

    def asked_frames(self, wide):
        """The places of all frames that are asked for, with their states."""
        asked = [(self.land[at], self.frames[at]) for at in self.frames]
        for i, insn in enumerate(self.body.code):
            if is_test(insn):
                probed = (i, 1) in self.probes.out
                if probed:
                    asked.append((self.lead[i + 1], self.states[i + 1]))
                if wide[self.images[i]]:
                    asked.append((self.images[i] + 2, self.left(i) if probed else self.states[i + 1]))
            elif insn[0].endswith("switch"):
                asked += [(self.images[i] + 1 + 5 * k, self.left(i)) for k in range(len(self.arms(i)))]
        return [(at, *self.moved(state)) for at, state in asked]

    def all_frames(self, found, place, wide, word):
        wanted = {}
        for at, *state in self.asked_frames(wide):
            self.that(wanted.setdefault(at, state) == state, word + ": two states at %d" % at)
        renamed = lambda kinds: ["new:%d" % place(int(kind[4:])) if kind.startswith("new:") else kind for kind in kinds]
        found = [(place(at), [renamed(locals_), renamed(stack)]) for at, locals_, stack in found]
        self.that(found == sorted(wanted.items()), word)

    def frames_behind(self, found):
        """Before the layout is chosen: one frame for each conditional jump, in order, behind it."""
        wanted = []
        for i, insn in enumerate(self.body.code):
            if is_test(insn):
                wanted.append((self.images[i] + 1, *self.moved(self.left(i) if (i, 1) in self.probes.out else self.states[i + 1])))
        self.that(found == wanted, "the frames behind jumps")


def refusal(body, states, frames):
    """Why a method isn't instrumented, if it isn't: a long or a double between the arguments and the next local variable."""
    v, found = argument_slots(body), []
    for i, insn in enumerate(body.code):
        if insn[0] in ("lload", "lstore", "dload", "dstore") and insn[1] == v - 1:
            found.append(i)
        if v and i in frames and emission_bodies.is_double(frames[i][0][v - 1]):
            found.append(i)
    return min(found) if v and found else None


class Run:
    """Random classes, and what the program prints of them."""

    def __init__(self, program, seed):
        self.program, self.random, self.faults = program, random.Random(seed), []
        self.counts = dict.fromkeys(["methods", "refused", "checks", "probes", "Integers", "wide", "instructions", "frames"], 0)

    def printed(self, folder, text, asked):
        """What is printed of the methods of a class for each group of words."""
        path = folder + "/A.class"
        with open(path, "wb") as file:
            file.write(text)
        words = [word for way, first, place, bits in asked for word in (path, way, str(first), str(place), bits)]
        ran = subprocess.run([self.program, *words], capture_output=True, check=True)
        files = []
        for line in ran.stdout.decode("utf-8", "surrogateescape").splitlines():
            word, *rest = line.split(" ")
            if word == "file":
                files.append([])
            elif word == "body":
                files[-1].append(Printed())
            elif word == "refused":
                files[-1][-1].refused = rest
            else:
                files[-1][-1].add(word, rest)
        return files

    def first_id(self):
        return self.random.choice([0, 0, 3, 100, 125, 32700, 32740, 32760, 32767, 32768, 50000, 65400])

    def of_class(self, folder, count):
        text, makers = emission_bodies.random_class(self.random, count)
        file = class_reader.ClassFile(text)
        place = max(file.pool.entries) + 2
        asked = []
        for way in PRELUDES:
            first = self.first_id()
            some = "".join(self.random.choice("01") for _ in range(self.random.randrange(2, 40)))
            asked += [(way, first, place, bits) for bits in ("0", "1", some, some[::-1])]
        files = self.printed(folder, text, asked)
        pool = EmittedPool(file.pool, place)
        for k, maker in enumerate(makers):
            self.counts["methods"] += 1
            narrow = None
            for group, methods in zip(asked, files):
                narrow = self.method(file.methods[k], maker, group, methods[k], narrow, pool)

    def method(self, body, maker, group, printed, narrow, pool):
        """Checks a method in one layout, and gives its code without wide jumps."""
        way, first, _, bits = group
        states, frames = maker.known(), maker.frames
        self.that_rows(body, maker)
        reason = refusal(body, states, frames)
        if printed.refused or reason is not None:
            self.counts["refused"] += 1
            if printed.refused != ["StraddlingLocal", str(reason)]:
                self.faults.append("%s: refused as %s, and not at %s" % (body.name, printed.refused, reason))
            return None
        if bits == "0":
            narrow = Narrow(printed, pool)
        check, wide = Check(body, states, frames, first, way, pool), Wide(printed, pool, narrow, bits)
        check.that(not narrow.far, "a wide jump where none is")
        check.sentences(wide)
        if not check.faults:
            self.tables(check, printed, wide, bits)
        self.count(check, wide)
        self.faults += ["%s, %s, first id %d, wide %s: %s" % (body.name, way, first, bits, fault) for fault in check.faults]
        return narrow

    def that_rows(self, body, maker):
        """The tables of the class file are those that the method was made with."""
        assert [row[:3] for row in body.handlers] == [row[:3] for row in maker.rows] and body.lines == maker.lines
        assert len(maker.states) == len(body.code) and len(body.vars) == len(maker.vars)

    def tables(self, check, printed, wide, bits):
        same = lambda at: at
        check.each_probe()
        for insn, far, is_wide in zip(wide.code, wide.far, wide.wide):
            check.that(insn[0] != "goto" or far == is_wide, "how a goto is spelled")
        check.that(printed.lines["stages"] == [["same"]], "the stages")
        if bits == "0":
            check.tables(printed, "", same)
            check.all_frames(printed.frames("frame"), same, wide.wide, "frames")
            check.frames_behind(printed.frames("behind"))
        check.tables(printed, "parts_", wide.place)
        check.all_frames(printed.frames("parts_frame"), wide.place, wide.wide, "frames of the layout")

    def count(self, check, wide):
        self.counts["checks"] += 1
        self.counts["probes"] += check.probes.next - check.first
        self.counts["Integers"] += sum(number > SHORT for number in range(check.first, check.probes.next))
        self.counts["wide"] += sum(is_test(insn) and far for insn, far in zip(wide.code, wide.wide))
        self.counts["instructions"] += len(wide.code)
        self.counts["frames"] += len(check.frames)


def main():
    if len(sys.argv) < 2:
        sys.exit(__doc__)
    program, seed, methods = sys.argv[1], *[int(word) for word in (sys.argv[2:] + ["1", "500"][len(sys.argv) - 2 :])[:2]]
    run = Run(program, seed)
    with tempfile.TemporaryDirectory() as folder:
        while run.counts["methods"] < methods:
            run.of_class(folder, min(10, methods - run.counts["methods"]))
    print(", ".join("%s %d" % each for each in run.counts.items()))
    for fault in run.faults[:40]:
        print(fault)
    print("%d differences" % len(run.faults))
    return 1 if run.faults else 0


if __name__ == "__main__":
    sys.exit(main())
