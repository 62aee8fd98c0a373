#!/usr/bin/env python3
"""Inputs that are made to cost much, what the program needs for each, and whether that is within the aim.

    python3 bench/hostile/inputs.py JCOV [WORD..]

For each input and each command that is named with it, one line: the bytes that are read and written, with what is printed; the
processor time and the peak of memory; each divided by its aim; and `met` or `not met`. The aim for the peak is four times the bytes
and 64 MB, and for the time 2 s for each megabyte, or 0.5 s below one; MB is 1,000,000 bytes. A run that is stopped, or has too
little memory, hasn't met it. With WORDs only inputs are made whose names have one of them, and with WORDs that begin with `=`
only commands that are these.

A run has at most MEMORY megabytes of address space (6000) and SECONDS of processor time (120), by these variables, and one input
stands at a time. The inputs are made by the files beside this one, whose functions say what each shows: `long_inputs.py`,
`wide_bodies.py`, `colliding_names.py` and `machine_inputs.py`.
"""
import os
import resource
import shutil
import signal
import subprocess
import sys
import tempfile

sys.path.insert(0, os.path.join(os.path.dirname(os.path.abspath(__file__)), "..", "lib"))

import colliding_names  # noqa: E402
import long_inputs  # noqa: E402
import machine_inputs  # noqa: E402
import wide_bodies  # noqa: E402
from exec_bytes import records_within, spread_ids, write_records  # noqa: E402

MEMORY = int(os.environ.get("MEMORY", "6000")) * 10**6
SECONDS = int(os.environ.get("SECONDS", "120"))
MB = 1e6


def one_bucket(count, bits):
    """Ids that all fall into one bucket of a map of 2^bits buckets."""
    finder = os.path.join(os.path.dirname(os.path.abspath(__file__)), "OneBucket.java")
    found = subprocess.run(["java", finder, str(count), str(bits)], check=True, stdout=subprocess.PIPE)
    return map(int, found.stdout.split())


def records(probes, ids):
    """Execution data with a record of each id."""
    write_records("a.exec", probes, ids())
    with open("a.exec", "rb") as file:
        return {"a.exec": file.read()}


RECORDS = [
    ("records of 40 probes", records, (40, lambda: spread_ids(records_within(40, 2**26))), ("merge",)),
    ("records of 65,535 probes", records, (65535, lambda: spread_ids(records_within(65535, 2**26))), ("merge",)),
    ("65,536 records of spread ids", records, (40, lambda: spread_ids(65536)), ("merge",)),
    ("65,536 records of one bucket", records, (40, lambda: one_bucket(65536, 13)), ("merge",)),
]
INPUTS = [*long_inputs.INPUTS, *wide_bodies.INPUTS, *colliding_names.INPUTS, *machine_inputs.INPUTS, *RECORDS]
RUN = ["run", "--plan", "p", "--destfile", "out/e", "--workers", "1"]
COMMANDS = {
    "classinfo": ["classinfo", "A.class"],
    "report": ["report", "--csv", "out/r", "A.class"],
    "report files": ["report", "--csv", "out/r", "d/"],
    "lines": ["lines", "A.class"],
    "check": ["check", "--min", "instruction=0/1", "A.class"],
    "instrument": ["instrument", "--dest", "out", "A.class"],
    "instrument files": ["instrument", "--dest", "out", "d/"],
    "refs": ["refs", "A.class"],
    "run": [*RUN, "A.class"],
    "run files": [*RUN, "d/"],
    "merge": ["merge", "--destfile", "out/a", "a.exec"],
}


def bounds():
    resource.setrlimit(resource.RLIMIT_AS, (MEMORY, MEMORY))
    resource.setrlimit(resource.RLIMIT_CPU, (SECONDS, SECONDS + 5))


def ended(status, line):
    """How a run ended: by a signal, or with a status and the first line that it wrote, where it isn't 0."""
    if status & 127 == signal.SIGXCPU:
        return "stopped"
    if status & 127:
        return signal.Signals(status & 127).name
    if status >> 8 == 5:
        return "Memory"
    return "" if status == 0 else "status %d: %s" % (status >> 8, line.decode(errors="replace"))


def sizes(folder):
    """How many bytes the files below a folder have."""
    return sum(os.path.getsize(os.path.join(at, name)) for at, _, names in os.walk(folder) for name in names)


def measured(jcov, command):
    """The bytes that a command printed, what it used, and how it ended."""
    run = subprocess.Popen([jcov, *COMMANDS[command]], stdout=subprocess.PIPE, stderr=subprocess.STDOUT, preexec_fn=bounds)
    count, line = 0, b""
    while True:
        part = run.stdout.read(1 << 20)
        if not part:
            break
        line = line or part.split(b"\n")[0][:60]
        count += len(part)
    _, status, usage = os.wait4(run.pid, 0)
    return count, usage.ru_utime + usage.ru_stime, usage.ru_maxrss * 1024, ended(status, line)


def made(make, words):
    """Makes an input in a process of its own, so that this one stays small: a process begins with the peak of the one it comes from."""
    child = os.fork()
    if child == 0:
        files = make(*words)
        for path, text in (files if isinstance(files, dict) else {"A.class": files}).items():
            os.makedirs(os.path.dirname(path) or ".", exist_ok=True)
            with open(path, "wb") as out:
                out.write(text)
        os._exit(0)
    if os.waitpid(child, 0)[1] != 0:
        sys.exit("the input wasn't made")


def shown(name, command, jcov, read):
    """The line of a run."""
    os.makedirs("out", exist_ok=True)
    count, spent, peak, end = measured(jcov, command)
    written = count + sizes("out")
    shutil.rmtree("out")
    moved = read + written
    memory, time = peak / (4 * moved + 64 * MB), spent / (2 * moved / MB if moved >= MB else 0.5)
    is_met = memory <= 1 and time <= 1 and end not in ("stopped", "Memory")
    print("%-46s %-12s %11d %12d %9.2f %7.0f %9.2f %9.2f  %-8s %s"
          % (name, command, read, written, spent, peak / MB, memory, time, "met" if is_met else "not met", end), flush=True)
    return is_met


def main():
    jcov = os.path.abspath(sys.argv[1])
    chosen, commands = ([word for word in sys.argv[2:] if word.startswith("=") == is_command] for is_command in (False, True))
    print("%-46s %-12s %11s %12s %9s %7s %9s %9s" % ("input", "command", "bytes read", "written", "s", "MB", "peak/aim", "time/aim"))
    met = count = 0
    for name, make, words, named in INPUTS:
        named = [command for command in named if not commands or "=" + command in commands]
        if not named or chosen and not any(word in name for word in chosen):
            continue
        with tempfile.TemporaryDirectory() as folder:
            os.chdir(folder)
            made(make, words)
            # A plan stands beside each class that `run` takes, for all commands.
            read = sizes(folder)
            plan = os.path.getsize("p") if os.path.exists("p") else 0
            for command in named:
                met += shown(name, command, jcov, read if command.startswith("run") else read - plan)
                count += 1
            os.chdir("/")
    print("%d of %d met" % (met, count))


if __name__ == "__main__":
    main()
