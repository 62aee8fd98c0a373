#!/usr/bin/env python3
"""Compares runs of instrumented classes with runs of their originals, and coverage with the edges that were taken.

    bench/random/slow_twin.py FOLDER INSTRUMENTED SEED

FOLDER has programs of bench/random/machine_programs.py, and INSTRUMENTED their class files as `jcov instrument` writes them. Both
run on bench/random/slow_machine.py. All that is looked at here is worked out anew, from docs/PROBES.md, docs/EMISSION.md,
docs/SIMULATION.md and docs/COVERAGE.md:

- each instrumented body is the one that the rules on probes and emission give, with its exception table;
- after each case the two worlds are the same, the original having made the kept turns alone;
- a random list of turns of the original is spread, its kept turns are that list again, and both leave one world;
- a thread makes at most 17 probe turns in a row;
- each covered edge was reached in the kept turns, and where all threads returned and nothing was thrown the covered edges
  are those that were taken.

Writes FOLDER/hits.exec, execution data with the hits of all cases, FOLDER/rows.csv with the rows of a report by the rules on
counters, where nothing was thrown by the edges taken, and FOLDER/texts with the texts of the instrumented programs.
"""
import os
import random
import sys
from types import SimpleNamespace

sys.path.insert(0, os.path.join(os.path.dirname(os.path.abspath(__file__)), "..", "lib"))

import class_reader
import slow_machine
import slow_programs

ENDING = {"goto", "tableswitch", "lookupswitch", "athrow", *class_reader.RETURNS}
INVERSE = {"ifnull": "ifnonnull", "ifnonnull": "ifnull"}
for one, other in (("eq", "ne"), ("lt", "ge"), ("gt", "le")):
    for head in ("if", "if_icmp", "if_acmp"):
        INVERSE[head + one], INVERSE[head + other] = head + other, head + one


# ---- edges and probes


def falls(insn):
    return insn[0] not in ENDING


def switch_targets(insn):
    """The default's target, and then each other one, in the order of the table."""
    return list(dict.fromkeys([insn[1], *(to for _, to in insn[2])]))


def branches(body, i):
    """The branches of an instruction: pairs of a number and the place where it leads, which is None for an exit."""
    insn = body.code[i]
    if insn[0].endswith("switch"):
        return list(enumerate(switch_targets(insn)))
    if insn[0] == "goto":
        return [(1, insn[1])]
    if insn[0] == "athrow" or insn[0] in class_reader.RETURNS:
        return [(0, None)]
    return [(0, i + 1)] + ([(1, insn[1])] if insn[0] in class_reader.JUMPS else [])


class Probes:
    """The probes of a body: `lead` has those of the fall-throughs into instructions, `out` those of branches."""

    def __init__(self, body, first):
        self.body, self.next = body, first
        self.entered = [0] * len(body.code)
        self.count_entries()
        self.lines = self.invocation_lines()
        self.lead, self.out = {}, {}
        for i in range(len(body.code)):
            if self.falls_into(i) and (self.is_multi(i) or i in self.lines):
                self.lead[i] = self.number()
            for branch, to in branches(body, i):
                if to is None or (body.code[i][0].endswith("switch") or branch == 1) and self.is_multi(to):
                    self.out[i, branch] = self.number()

    def number(self):
        self.next += 1
        return self.next - 1

    def count_entries(self):
        self.entered[0] += 1
        for start, _, target, _ in self.body.handlers:
            self.entered[start] += 1
            self.entered[target] += 1
        for insn in self.body.code:
            if insn[0] in class_reader.JUMPS:
                self.entered[insn[1]] += 1
            elif insn[0].endswith("switch"):
                for to in switch_targets(insn):
                    self.entered[to] += 1

    def falls_into(self, i):
        return i > 0 and falls(self.body.code[i - 1])

    def is_multi(self, i):
        return self.entered[i] >= 2 or self.entered[i] >= 1 and self.falls_into(i)

    def invocation_lines(self):
        """The line starts behind which a method is invoked before the next one."""
        starts = sorted({at for at, _ in self.body.lines})
        ends = starts[1:] + [len(self.body.code)]
        invokes = lambda start, end: any(insn[0].startswith("invoke") for insn in self.body.code[start:end])
        return {start for start, end in zip(starts, ends) if invokes(start, end)}

    def probe(self, i, branch, to):
        """The probe of an edge."""
        if branch == 0 and to is not None and not self.body.code[i][0].endswith("switch"):
            return self.lead.get(to)
        return self.out.get((i, branch))


# ---- the instrumented body


def pushed(number):
    return ["iconst_%d" % number] if number < 6 else ["bipush" if number < 128 else "sipush", number]


class Twin:
    """The body that instrumentation makes, where all conditional jumps are wide, or those in a set: for each instruction whether it is an image, where it belongs, and how many
    values of a probe stand on the stack before it."""

    def __init__(self, owner, body, probes, wide, constant=None):
        self.body, self.probes, self.wide = body, probes, wide
        self.slots = sum(2 if kind in "JD" else 1 for kind in class_reader.parameters(body.desc)[0]) + (0 if body.flags & 8 else 1)
        self.code, self.own, self.at, self.extra, self.lead, self.land = [], [], [], [], [], []
        if constant is None:
            self.put(["invokestatic", owner, slow_programs.INIT, "()[Z"], False, 0, 0)
        else:
            self.put(["ldc", constant], False, 0, 0)
            self.put(["checkcast", "[Z"], False, 0, 1)
        self.put(["astore", self.slots], False, 0, 1)
        for i, insn in enumerate(body.code):
            self.lead.append(len(self.code))
            if i in probes.lead:
                self.put_probe(probes.lead[i], i)
            self.land.append(len(self.code))
            self.put_image(i, insn)
        self.lead.append(len(self.code))
        self.aim()

    def put(self, insn, own, at, extra):
        self.code.append(insn)
        self.own.append(own)
        self.at.append(at)
        self.extra.append(extra)

    def put_probe(self, number, at):
        for extra, insn in enumerate([["aload", self.slots], pushed(number), ["iconst_1"], ["bastore"]]):
            self.put(insn, False, at, extra)

    def put_image(self, i, insn):
        name = insn[0]
        if name.endswith("switch"):
            self.put_switch(i, insn)
        elif name in class_reader.JUMPS and name != "goto":
            self.put_jump(i, name, insn[1])
        else:
            for branch, to in branches(self.body, i):
                if (i, branch) in self.probes.out:
                    self.put_probe(self.probes.out[i, branch], i)
            shifted = name in class_reader.LOCALS or name == "iinc"
            slot = [insn[1] + (insn[1] >= self.slots), *insn[2:]] if shifted else insn[1:]
            self.put([name, ("land", insn[1])] if name == "goto" else [name, *slot], True, i, 0)

    def put_jump(self, i, name, to):
        number = self.probes.out.get((i, 1))
        asked, place, at = (name, ("land", to), to) if number is None else (INVERSE[name], ("lead", i + 1), i + 1)
        if self.wide is True or self.wide and i in self.wide:
            self.put([INVERSE[asked], ("place", len(self.code) + 2)], True, i, 0)
            self.put(["goto", place], False, at, 0)
        else:
            self.put([asked, place], True, i, 0)
        if number is not None:
            self.put_probe(number, to)
            self.put(["goto", ("land", to)], False, to, 0)

    def put_switch(self, i, insn):
        probed = [(to, self.probes.out[i, branch]) for branch, to in branches(self.body, i) if (i, branch) in self.probes.out]
        arms = {to: ("place", len(self.code) + 1 + 5 * k) for k, (to, _) in enumerate(probed)}
        place = lambda to: arms.get(to, ("land", to))
        self.put([insn[0], place(insn[1]), [(key, place(to)) for key, to in insn[2]]], True, i, 0)
        for to, number in probed:
            self.put_probe(number, to)
            self.put(["goto", ("land", to)], False, to, 0)

    def aim(self):
        """Puts places for what stands for them."""
        places = {"land": self.land.__getitem__, "lead": self.lead.__getitem__, "place": lambda at: at}
        aimed = lambda to: places[to[0]](to[1])
        for insn in self.code:
            if insn[0] in class_reader.JUMPS or insn[0].endswith("switch"):
                insn[1] = aimed(insn[1])
            if insn[0].endswith("switch"):
                insn[2] = [(key, aimed(to)) for key, to in insn[2]]

    def as_body(self):
        handlers = [(self.lead[start], self.lead[end], self.land[target], caught) for start, end, target, caught in self.body.handlers]
        same = {"name": self.body.name, "desc": self.body.desc, "flags": self.body.flags, "lines": []}
        return SimpleNamespace(code=self.code, handlers=handlers, max_stack=self.body.max_stack + 3, max_locals=self.body.max_locals + 1, **same)

    def differs(self, found):
        """Whether another body was written."""
        ours = self.as_body()
        return any(getattr(ours, what) != getattr(found, what) for what in ("code", "handlers", "max_stack", "max_locals"))


def twin_beside(owner, body, probes, found):
    """The twin in which those conditional jumps are wide that are so in the body that was written: there another instruction stands.
    slow_layout.py looks at which ones have to be."""
    wide = set()
    while True:
        twin = Twin(owner, body, probes, wide)
        others = (i for i, ours, theirs in zip(twin.at, twin.code, found.code) if ours[0] != theirs[0])
        first = next(others, None)
        if first is None or first in wide:
            return twin
        wide.add(first)


class Pair:
    """A program and its instrumented files, whose worlds are of `world_of`."""

    world_of = slow_machine.World

    def __init__(self, before, after):
        self.before, self.after, self.twins, self.probes, self.faults, self.made = before, after, {}, {}, [], 0
        for c, (old, new) in enumerate(zip(before.classes, after.classes)):
            if not new.probes:
                self.faults += ["%s: unchanged" % old.name] if old.bodies else []
                continue
            first = 0
            for k, body in enumerate(old.bodies):
                self.probes[c, k] = Probes(body, first)
                self.twins[c, k] = twin_beside(old.name, body, self.probes[c, k], new.bodies[k])
                first = self.probes[c, k].next
                if self.twins[c, k].differs(new.bodies[k]):
                    self.faults.append("%s.%s: another body" % (old.name, body.name))
            if (slow_programs.wrapped(old.file.id, 64), first) != new.probes or len(new.bodies) != len(old.bodies) + 1:
                self.faults.append("%s: other probes" % old.name)

    # -- turns

    def is_kept(self, thread):
        """Whether the next turn of the thread is one of the original."""
        if thread.end is not None or self.after.is_init(thread.frames[-1].method):
            return False
        frame = thread.frames[-1]
        return frame.method not in self.twins or self.twins[frame.method].own[frame.at]

    def run(self, case, turns):
        """The world that turns of the instrumented files leave, the kept ones of them, and the most others in a row."""
        world, kept, row, most = self.world_of(self.after, case), [], [0] * len(case.threads), 0
        self.made = 0
        for t in turns:
            thread = world.threads[t]
            if thread.end is None:
                self.made += 1
                if self.is_kept(thread):
                    kept.append(t)
                row[t] = 0 if self.is_kept(thread) else row[t] + 1
                most = max(most, row[t])
                world.turn(t)
            elif not any(each.frames for each in world.threads):
                break
        return world, kept, most

    def original(self, case, turns):
        """The world that turns of the original leave."""
        return slow_machine.run(self.before, case, turns, self.world_of)

    def spread(self, case, turns):
        """Turns of the instrumented files that make these turns of the original."""
        world, made = self.world_of(self.after, case), []
        for t in turns:
            thread = world.threads[t]
            while thread.end is None:
                kept = self.is_kept(thread)
                made.append(t)
                world.turn(t)
                if kept:
                    break
        return made

    # -- the same world

    def differences(self, old, new):
        """How two worlds differ that should be the same."""
        found = []
        for what in ("output", "raised", "words"):
            if getattr(old, what) != getattr(new, what):
                found.append(what)
        if [key(each) for each in old.heap] != [key(each) for each in new.heap]:
            found.append("heap")
        if old.locks() != new.locks():
            found.append("locks")
        for c, (ours, theirs) in enumerate(zip(old.statics, new.statics)):
            if [value_key(v) for v in ours] != [value_key(v) for v in theirs[: len(ours)]]:
                found.append("statics of class %d" % c)
        for t, (ours, theirs) in enumerate(zip(old.threads, new.threads)):
            if not self.same_thread(ours, theirs):
                found.append("thread %d" % t)
        return found

    def belongs(self, method, place):
        return self.twins[method].at[place] if method in self.twins else place

    def same_thread(self, ours, theirs):
        if ours.end != theirs.end:
            return False
        if ours.end == "stuck":
            return (theirs.stood[0], self.belongs(*theirs.stood)) == ours.stood
        frames = [frame for frame in theirs.frames if not self.after.is_init(frame.method)]
        return len(frames) == len(ours.frames) and all(self.same_frame(*pair) for pair in zip(ours.frames, frames))

    def same_frame(self, ours, theirs):
        if ours.method != theirs.method or ours.at != self.belongs(theirs.method, theirs.at):
            return False
        slots, extra = list(theirs.locals), 0
        if theirs.method in self.twins:
            twin = self.twins[theirs.method]
            del slots[twin.slots]
            extra = twin.extra[theirs.at]
        stack = theirs.stack[: len(theirs.stack) - extra]
        return [value_key(v) for v in ours.locals + ours.stack] == [value_key(v) for v in slots + stack]

    # -- coverage

    def covered(self, hits):
        """The covered edges of the changed classes, as (class, body, instruction, branch)."""
        found = set()
        for (c, k), probes in self.probes.items():
            places = [set() for _ in probes.body.code]
            edges = [(i, branch, to) for i in range(len(probes.body.code)) for branch, to in branches(probes.body, i)]
            waiting, inward = [], {}
            for i, branch, to in edges:
                number = probes.probe(i, branch, to)
                if number is None:
                    inward.setdefault(to, []).append((i, branch))
                elif (c, number) in hits:
                    waiting.append((i, branch))
            while waiting:
                i, branch = waiting.pop()
                if branch not in places[i]:
                    places[i].add(branch)
                    waiting += inward.get(i, [])
            found |= {(c, k, i, branch) for i, some in enumerate(places) for branch in some}
        return found

    def standing(self, world):
        """The edges of the instructions without another one at which threads stand."""
        found = set()
        for thread in world.threads:
            places = [(frame.method, frame.at) for frame in thread.frames[-1:]] or [thread.stood] if thread.end in (None, "stuck") else []
            for method, at in places:
                body = self.before.body(method)
                if body.code[at][0] in ENDING and not body.code[at][0].endswith("switch"):
                    found |= {(*method, at, branch) for branch, _ in branches(body, at)}
        return found

    def counters(self, c, edges):
        """The counters of a class by its covered edges: pairs of missed and covered, in the order of a report."""
        totals = {name: [0, 0] for name in ("instruction", "branch", "line", "complexity", "method")}
        lines = {}
        for k, body in enumerate(self.before.classes[c].bodies):
            if body.flags & 0x1000 and not body.name.startswith("lambda$"):
                continue
            any_covered = False
            for i in range(len(body.code)):
                all_branches = branches(body, i)
                got = sum((c, k, i, branch) in edges for branch, _ in all_branches)
                any_covered = any_covered or got > 0
                totals["instruction"][got > 0] += 1
                if len(all_branches) >= 2:
                    totals["branch"][1] += got
                    totals["branch"][0] += len(all_branches) - got
                    totals["complexity"][1] += max(0, got - 1)
                    totals["complexity"][0] += len(all_branches) - 1 - max(0, got - 1)
                line = self.line_of(body, i)
                if line is not None:
                    lines[line] = lines.get(line, False) or got > 0
            totals["method"][any_covered] += 1
            totals["complexity"][any_covered] += 1
        for got in lines.values():
            totals["line"][got] += 1
        return [count for name in totals for count in totals[name]]

    def line_of(self, body, i):
        """The line of the last entry of those with the greatest start not past the instruction."""
        best = None
        for at, line in body.lines:
            if at <= i and (best is None or at >= best[0]):
                best = (at, line)
        return best and best[1]


def key(thing):
    """An object of the heap, told by what it holds."""
    return (thing.element, thing.items) if isinstance(thing, slow_machine.Array) else thing.name


def value_key(value):
    """A value, told by the number of the object that it refers to."""
    return ("object", value.number) if isinstance(value, (slow_machine.Array, slow_machine.Throwable)) else value


# ---- execution data and reports


def exec_text(records):
    """Execution data with a record for each class: its id, its name and its bits, of which there are fewer than 16,384."""
    text = bytes.fromhex("01c0c01007")
    for number, name, bits in records:
        spelled, count = name.encode(), len(bits)
        packed = bytearray((count + 7) // 8)
        for k, bit in enumerate(bits):
            packed[k // 8] |= bit << k % 8
        size = bytes([count]) if count < 128 else bytes([count % 128 + 128, count // 128])
        text += b"\x11" + (number % 2**64).to_bytes(8, "big") + len(spelled).to_bytes(2, "big") + spelled + size + bytes(packed)
    return text


class Comparison:
    """All programs of a folder."""

    def __init__(self, folder, instrumented, seed):
        self.folder, self.instrumented, self.random = folder, instrumented, random.Random(seed)
        self.faults, self.records, self.rows, self.texts = [], [], [], []
        self.counts = dict.fromkeys(["programs", "cases", "turns", "kept", "clean", "edges", "longest"], 0)

    def program(self, name, files):
        read = lambda folder: slow_programs.Program([slow_machine.contents("%s/%s" % (folder, file)) for file in files])
        pair = Pair(read(self.folder), read(self.instrumented))
        cases = slow_programs.plan_cases(slow_machine.contents("%s/%s.plan" % (self.folder, name)).decode())
        hits, reached, taken, clean, text = set(), set(), set(), True, []
        for number, case in enumerate(cases, 1):
            new, kept, most = pair.run(case, case.turns())
            made = pair.made
            old = pair.original(case, kept)
            pair.faults += ["case %d: %s" % (number, each) for each in pair.differences(old, new)]
            pair.faults += ["case %d: %d probe turns" % (number, most)] if most > 17 else []
            self.spread(pair, case, number)
            hits |= new.hits
            taken |= old.taken
            reached |= old.taken | pair.standing(old)
            clean = clean and not old.raised and all((thread.end or "").startswith("returned") for thread in old.threads)
            text.append("case %d\n%s" % (number, new.text()))
            self.counts["cases"] += 1
            self.counts["turns"] += made
            self.counts["kept"] += len(kept)
            self.counts["longest"] = max(self.counts["longest"], most)
        self.coverage(pair, pair.covered(hits), taken, reached, clean)
        self.faults += ["%s: %s" % (name, fault) for fault in pair.faults]
        self.counts["programs"] += 1
        self.counts["clean"] += clean
        self.texts.append("program %s\n%s" % (name, "".join(text)))
        for c, linked in enumerate(pair.after.classes):
            if linked.probes and any(each == c for each, _ in hits):
                self.records.append((linked.probes[0], linked.name, [(c, k) in hits for k in range(linked.probes[1])]))

    def spread(self, pair, case, number):
        """Turns of the original, spread over the instrumented files."""
        turns = [self.random.randrange(len(case.threads)) for _ in range(self.random.choice([20, 200, 600]))]
        made = pair.spread(case, turns)
        _, kept, _ = pair.run(case, made)
        one, other = pair.original(case, kept), pair.original(case, turns)
        if len(made) > 18 * len(turns):
            pair.faults.append("case %d: too many turns" % number)
        left = lambda world: (world.text(), world.locks(), [thread.frames and frame_keys(thread) for thread in world.threads])
        if left(one) != left(other):
            pair.faults.append("case %d: spread" % number)

    def coverage(self, pair, covered, taken, reached, clean):
        """The covered edges beside those that were taken, and the rows of a report."""
        ran = {edge for edge in taken if edge[:2] in pair.probes}
        pair.faults += ["covered and not reached: %s" % (edge,) for edge in sorted(covered - reached)]
        if clean:
            pair.faults += ["taken and not covered: %s" % (edge,) for edge in sorted(ran - covered)]
        self.counts["edges"] += len(covered)
        for c, linked in enumerate(pair.before.classes):
            if pair.after.classes[c].probes:
                row = pair.counters(c, ran if clean else covered)
                self.rows.append(",".join(["R", "default", linked.name.replace("$", "."), *(str(count) for count in row)]))

    def write(self):
        with open(self.folder + "/hits.exec", "wb") as file:
            file.write(exec_text(self.records))
        with open(self.folder + "/rows.csv", "w", encoding="utf-8") as file:
            file.writelines(row + "\n" for row in sorted(self.rows))
        with open(self.folder + "/texts", "w", encoding="utf-8") as file:
            file.writelines(self.texts)


def frame_keys(thread):
    return [(frame.method, frame.at, [value_key(v) for v in frame.locals + frame.stack]) for frame in thread.frames]


def main():
    folder, instrumented, seed = sys.argv[1:4]
    comparison = Comparison(folder, instrumented, seed)
    for line in slow_machine.contents(folder + "/list").decode().splitlines():
        name, *files = line.split()
        comparison.program(name, files)
    comparison.write()
    for fault in comparison.faults:
        print(fault)
    counts = comparison.counts
    print("%(programs)d programs, %(cases)d cases, %(turns)d turns of running threads, %(kept)d of them kept, at most %(longest)d others in a row" % counts)
    print("%(edges)d covered edges; in %(clean)d programs all threads returned and nothing was thrown" % counts)
    print("%d faults" % len(comparison.faults))
    sys.exit(1 if comparison.faults else 0)


if __name__ == "__main__":
    main()
