#!/bin/sh
# Makes LCOV's tracefile of what `jcov lines` prints, for genhtml (Debian's lcov).
# usage: jcov lines [--exec IN] CLASSFILE.. | lcov-trace.sh SOURCES.. > TRACE
# SOURCES are folders, in which the source of a class stands by its package and the name of its outermost class: that of
# `shop/Price$Kind` is `shop/Price.java`. A class without a source there is left out, and named on the standard error.
# A line has one hit where `jcov lines` says `fully` or `partly` of it, of some class of that source, and none where it says `not`.
set -e
if [ $# -eq 0 ]; then
    sed -n 's/^# usage: /usage: /p' "$0" >&2
    exit 2
fi
LC_ALL=C exec awk '
    BEGIN {
        for (i = 1; i < ARGC; i++) {
            roots[i] = ARGV[i]
            sub(/\/+$/, "", roots[i])
        }
        count = ARGC - 1
        ARGC = 1
    }
    $1 == "class" {
        name = substr($0, 7)
        at = match(name, /[^\/]*$/)
        last = substr(name, at)
        end = index(substr(last, 2), "$")
        if (end) last = substr(last, 1, end)
        file = found(substr(name, 1, at - 1) last ".java")
        if (file == "") print "no source of " name > "/dev/stderr"
        next
    }
    file != "" && $2 != "empty" {
        if (!((file, $1) in hits)) lines[file] = lines[file] " " $1
        hits[file, $1] += $2 != "not"
    }
    END {
        for (i = 1; i <= files; i++) put(order[i])
    }
    function found(path, i, whole, line) {
        for (i = 1; i <= count; i++) {
            whole = roots[i] "/" path
            if (whole in lines) return whole
            if ((getline line < whole) >= 0) {
                close(whole)
                order[++files] = whole
                lines[whole] = ""
                return whole
            }
        }
        return ""
    }
    function put(file, all, n, i, hit, total) {
        print "TN:\nSF:" file
        n = split(lines[file], all, " ")
        for (i = 1; i <= n; i++) {
            hit = hits[file, all[i]] > 0
            total += hit
            print "DA:" all[i] "," hit
        }
        print "LF:" n "\nLH:" total + 0 "\nend_of_record"
    }
' "$@"
