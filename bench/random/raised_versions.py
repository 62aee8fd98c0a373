#!/usr/bin/env python3
"""Compares what class files become with what they become at the versions 62 to 65, which no Java machine here takes.

    bench/random/raised_versions.py JCOV FOLDER..

The class files of version 61 below each FOLDER are raised to each of these versions and instrumented: the lines are those at 61, and
the bytes too, but for the version and the id.
"""
import os
import subprocess
import sys
import tempfile

VERSIONS = (62, 63, 64, 65)


def table():
    found = []
    for byte in range(256):
        for _ in range(8):
            byte = (byte >> 1) ^ (0xD800000000000000 if byte & 1 else 0)
        found.append(byte)
    return found


TABLE = table()


def class_id(text):
    """The CRC-64 by which JaCoCo names a class, with version 53 counted as 52."""
    number = 0
    for byte in text:
        number = (number >> 8) ^ TABLE[(number ^ byte) & 255]
    return number.to_bytes(8, "big")


def contents(path):
    with open(path, "rb") as file:
        return file.read()


def raised(text, version):
    return text[:6] + version.to_bytes(2, "big") + text[8:]


def files_below(folders):
    """The class files of version 61."""
    found = []
    for top in folders:
        for folder, _, names in os.walk(top):
            for name in sorted(names):
                text = contents(os.path.join(folder, name)) if name.endswith(".class") else b""
                if text[6:8] == b"\x00\x3d":
                    found.append(text)
    return found


def instrumented(jcov, texts):
    """The lines that are printed, and what each file becomes."""
    with tempfile.TemporaryDirectory() as folder:
        names, lines = ["%05d.class" % number for number in range(len(texts))], []
        for name, text in zip(names, texts):
            with open(os.path.join(folder, name), "wb") as file:
                file.write(text)
        for k in range(0, len(names), 256):
            ran = subprocess.run([jcov, "instrument", "--dest", "made", *names[k : k + 256]], cwd=folder, capture_output=True, check=True)
            lines += ran.stdout.splitlines() + ran.stderr.splitlines()
        return lines, [contents(os.path.join(folder, "made", name)) for name in names]


def main():
    if len(sys.argv) < 3:
        sys.exit(__doc__)
    jcov, texts = os.path.abspath(sys.argv[1]), files_below(sys.argv[2:])
    lines, made = instrumented(jcov, texts)
    changed, ids, bad = sum(one != two for one, two in zip(texts, made)), [class_id(text) for text in texts], 0
    for version in VERSIONS:
        others = [raised(text, version) for text in texts]
        other_lines, other_made = instrumented(jcov, others)
        bad += lines != other_lines
        for text, new, other, number in zip(others, made, other_made, ids):
            bad += raised(new, version).replace(number, class_id(text)) != other
    print("%d class files of version 61, %d of them changed, at %d other versions: %d differences" % (len(texts), changed, len(VERSIONS), bad))
    return 1 if bad else 0


if __name__ == "__main__":
    sys.exit(main())
