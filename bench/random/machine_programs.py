#!/usr/bin/env python3
"""Random programs of the machine's profile, each with a run plan.

    bench/random/machine_programs.py SEED COUNT FOLDER [THREADS]

Writes into FOLDER the class files of COUNT programs, for each a plan `NAME.plan`, and `list` with a line for each: its
name and its class files. Every second one is compiled by javac from Java source (machine_source.py), and the others are
written by class_bytes.py (machine_bytes.py). Without THREADS a plan has one case of one thread that runs to its end. With
THREADS it has cases of 1 to THREADS threads, with schedules of each form, of which some end in the midst of the program.
"""
import os
import random
import subprocess
import sys

sys.path.insert(0, os.path.join(os.path.dirname(os.path.abspath(__file__)), "..", "lib"))

import class_bytes
import machine_classes
import machine_source


def entries(program):
    """The methods with which a thread can begin, as their class, name and parameters."""
    if isinstance(program, machine_source.Program):
        return [(owner, name, types) for owner, name, _, types in program.methods if not any(each.endswith("]") for each in types)]
    methods = program.methods
    return [(owner, name, types) for owner, name, _, types, _ in methods if (name[0] == "m" or name == "empty") and not any(each[0] == "[" for each in types)]


def thread_line(program, entry):
    owner, name, types = entry
    return " ".join(["thread %s.%s" % (owner, name)] + [str(number) for number in program.arguments(types)])


def schedule(chance, threads, calm):
    """A schedule of some hundred or thousand turns, and mostly of more where the program is calm, so that its threads end."""
    turns = 30000 if calm and chance.random() < 0.95 else int(10 ** chance.uniform(0.5, 3.6))
    form = chance.choice(["list", "robin", "seed"] if turns < 30000 else ["robin", "seed"])
    if form == "list":
        turns, numbers = min(turns, 1500), []
        while len(numbers) < turns:
            numbers += [str(chance.randrange(threads))] * chance.choice([1, 1, 1, 2, 3, 10, 40])
        return "schedule list " + " ".join(numbers)
    return "schedule robin %d" % turns if form == "robin" else "schedule seed %d %d" % (chance.randrange(2**64), turns)


def plan(chance, program, threads):
    """The text of the plan of a program."""
    found = entries(program)
    if not threads:
        return "case\n%s\nschedule robin 1000000\n" % thread_line(program, found[0])
    text = ""
    for _ in range(4):
        count = chance.randrange(1, threads + 1)
        lines = [thread_line(program, chance.choice(found)) for _ in range(count)]
        text += "\n".join(["case", *lines, schedule(chance, count, program.calm)]) + "\n"
    return text


def main():
    seed, count, folder = int(sys.argv[1]), int(sys.argv[2]), sys.argv[3]
    threads = int(sys.argv[4]) if len(sys.argv) > 4 else 0
    os.makedirs(folder + "/source", exist_ok=True)
    sources, lines = [], []
    for k in range(count):
        chance, name = random.Random("%d %d" % (seed, k)), "P%05d" % k
        calm = chance.random() < (0.5 if threads else 0.35)
        if k % 2:
            program = machine_classes.Program(chance, name, chance.choice([40, 120, 240]), calm)
            for owner in program.names:
                with open("%s/%s.class" % (folder, owner), "wb") as file:
                    file.write(class_bytes.class_bytes(program.lines(owner)))
        else:
            program = machine_source.Program(chance, name, chance.choice([6, 12, 24]), calm)
            sources.append("%s/source/%s.java" % (folder, name))
            with open(sources[-1], "w", encoding="utf-8") as file:
                file.write(program.source())
        with open("%s/%s.plan" % (folder, name), "w", encoding="utf-8") as file:
            file.write(plan(chance, program, threads))
        lines.append(" ".join([name] + ["%s.class" % owner for owner in program.names]))
    if sources:
        words = ["javac", "-J-XX:TieredStopAtLevel=1", "-nowarn", "-Xlint:-options", "-encoding", "UTF-8", "--release", "8", "-g:lines"]
        subprocess.run([*words, "-d", folder, *sources], check=True)
    with open(folder + "/list", "w", encoding="utf-8") as file:
        file.write("\n".join(lines) + "\n")


if __name__ == "__main__":
    main()
