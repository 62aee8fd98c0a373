#!/usr/bin/env python3
"""Unpacks class files of all versions under short names.

usage: unpack.py FOLDER JAR..
A JAR is a jar, which is taken once, or a folder with class files below it. Writes FOLDER/c/NNNNN.class,
FOLDER/list, a line `c/NNNNN.class JAR ENTRY` for each, parted by tabs, and FOLDER/paths, the first words of these.
"""
import collections, os, sys, zipfile


def classes_of_jar(jar):
    with zipfile.ZipFile(jar) as archive:
        for name in archive.namelist():
            if name.endswith(".class"):
                yield name, archive.read(name)


def classes_below(top):
    for folder, folders, names in os.walk(top):
        folders.sort()
        for name in sorted(names):
            if name.endswith(".class"):
                path = os.path.join(folder, name)
                with open(path, "rb") as file:
                    yield os.path.relpath(path, top), file.read()


folder = sys.argv[1]
jars = sorted(set(map(os.path.realpath, sys.argv[2:])))
os.makedirs(os.path.join(folder, "c"))
count, size, versions = 0, 0, collections.Counter()
with open(os.path.join(folder, "list"), "w") as listed, open(os.path.join(folder, "paths"), "w") as paths:
    for jar in jars:
        for name, data in classes_below(jar) if os.path.isdir(jar) else classes_of_jar(jar):
            path = "c/%05d.class" % count
            with open(os.path.join(folder, path), "wb") as out:
                out.write(data)
            listed.write("%s\t%s\t%s\n" % (path, jar, name))
            paths.write(path + "\n")
            versions[int.from_bytes(data[6:8], "big")] += 1
            count += 1
            size += len(data)
by_version = ", ".join("%d: %d" % item for item in sorted(versions.items()))
print("%d class files of %d jars, %d bytes; by version %s" % (count, len(jars), size, by_version))
