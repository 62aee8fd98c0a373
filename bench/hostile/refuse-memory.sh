#!/bin/sh
# Refuses each allocation of the built `jcov` in turn, and looks at what it answers and leaves.
# usage: bench/hostile/refuse-memory.sh [JCOV]      JCOV: the built program; else the one of crates/jcov/out
#
# A library loaded in front of the C library's `malloc` and `realloc` refuses the Nth call, for
# N from 1 on, until a run has fewer than N calls. Each run has to end with status 5, nothing on
# `out` and `err` and all files as before, or as the run does in which nothing is refused. `cover`
# writes on its way: with status 5 it may leave first ones of its writes.
set -e
. "$(dirname "$0")/../lib/jcov-path.sh"
folder=$(mktemp -d)
trap 'rm -rf "$folder"' EXIT
cd "$folder"

cat > refuse.c <<'C'
#define _GNU_SOURCE
#include <dlfcn.h>
#include <errno.h>
#include <fcntl.h>
#include <stdatomic.h>
#include <stdio.h>
#include <stdlib.h>
#include <unistd.h>

static atomic_long calls;
static long refused;

__attribute__((constructor)) static void begin(void) {
    const char *number = getenv("REFUSED_CALL");
    refused = number ? atol(number) : 0;
    calls = 0;
}

/* The Nth call says by a file that the run has reached it. */
static int is_refused(void) {
    if (atomic_fetch_add(&calls, 1) + 1 != refused) return 0;
    int file = open(getenv("REFUSED_MARK"), O_CREAT | O_WRONLY, 0600);
    if (file >= 0) close(file);
    return 1;
}

void *malloc(size_t size) {
    static void *(*next)(size_t);
    if (!next) next = dlsym(RTLD_NEXT, "malloc");
    if (is_refused()) {
        errno = ENOMEM;
        return NULL;
    }
    return next(size);
}

void *realloc(void *old, size_t size) {
    static void *(*next)(void *, size_t);
    if (!next) next = dlsym(RTLD_NEXT, "realloc");
    if (is_refused()) {
        errno = ENOMEM;
        return NULL;
    }
    return next(old, size);
}
C
cc -O2 -shared -fPIC -o refuse.so refuse.c -ldl

# A run in the folder `run`, which has the inputs: its status, both texts, and all files afterwards.
mkdir run
run() {
    rm -rf run/o run/d run/r reached
    status=0
    (cd run && REFUSED_CALL=$1 REFUSED_MARK=$folder/reached LD_PRELOAD=$folder/refuse.so exec "$jcov" $words >../out 2>../err) || status=$?
    files=$(cd run && find . -type f | sort | xargs cksum)
    shown="status $status, out $(cksum < out), err $(cksum < err), files $files"
}

# Whether a run left first ones of the writes of the usual run.
is_front() {
    cmp -s -n "$(wc -c < out)" out usual-out && cmp -s -n "$(wc -c < err)" err usual-err || return 1
    for file in $(cd run && find o d r -type f 2> /dev/null); do
        [ "$(cksum < "run/$file")" = "$(cksum < "usual/$file")" ] || return 1
    done
}

# One list of words: each allocation refused in turn.
try_words() {
    words=$1
    rm -rf run/o run/d run/r
    before=$(cd run && find . -type f | sort | xargs cksum)
    run 0
    usual=$shown
    usual_status=$status
    rm -rf usual
    cp -R run usual
    cp out usual-out
    cp err usual-err
    memory=0 front=0 same=0 other=0
    number=1
    while :; do
        run "$number"
        [ -e reached ] || break
        if [ "$shown" = "$usual" ]; then
            same=$((same + 1))
        elif [ "$status" -eq 5 ] && [ ! -s out ] && [ ! -s err ] && [ "$files" = "$before" ]; then
            memory=$((memory + 1))
        elif [ "$status" -eq 5 ] && [ "${words#cover}" != "$words" ] && is_front; then
            front=$((front + 1))
        else
            other=$((other + 1))
            echo "  allocation $number: $shown"
        fi
        number=$((number + 1))
    done
    echo "jcov $words: usual status $usual_status; $((number - 1)) allocations; status 5 and nothing written $memory times, status 5 behind first writes $front times, as usual $same times, anything else $other times"
    [ "$other" -eq 0 ] || failed=1
}

(cd run && python3 - <<'PY'
header = bytes.fromhex("01c0c01007")
record = bytes.fromhex("11000000000000000100014103") + b"\x05"
open("a.exec", "wb").write(header + record)
many = b"".join(b"\x11" + k.to_bytes(8, "big") + bytes.fromhex("0001418201") + b"\xff" * 16 + b"\x03" for k in range(300))
open("many.exec", "wb").write(header + many)
open("bad.exec", "wb").write(header + b"\x10")
other = bytes.fromhex("11000000000000000100014203") + b"\x05"
open("other.exec", "wb").write(header + other)
session = lambda name, start, dump: b"\x10\x00\x01" + name + start.to_bytes(8, "big") + dump.to_bytes(8, "big")
dumps = header + session(b"a", 1, 200) + record + header + session(b"b", 2, 100) + record
open("dumps.exec", "wb").write(dumps)

# An interface of version 52 or 66 without members, over java/lang/Object.
def made(name, major):
    utf8 = lambda text: b"\x01" + len(text).to_bytes(2, "big") + text
    pool = utf8(name) + bytes.fromhex("070001") + utf8(b"java/lang/Object") + bytes.fromhex("070003")
    return bytes.fromhex("cafebabe0000") + major.to_bytes(2, "big") + b"\x00\x05" + pool + bytes.fromhex("0600000200040000000000000000")

open("A.class", "wb").write(made(b"A", 52))
open("B.class", "wb").write(made(b"B", 52))
open("C.class", "wb").write(made(b"C", 66))

# A class of version 52 with one method, whose code is `return`.
utf8 = lambda text: b"\x01" + len(text).to_bytes(2, "big") + text
pool = utf8(b"D") + bytes.fromhex("070001") + utf8(b"java/lang/Object") + bytes.fromhex("070003") + utf8(b"f") + utf8(b"()V") + utf8(b"Code")
code = bytes.fromhex("00070000000d0000000000000001b100000000")
method = bytes.fromhex("0009000500060001") + code
open("D.class", "wb").write(bytes.fromhex("cafebabe000000340008") + pool + bytes.fromhex("00210002000400000000" + "0001") + method + bytes.fromhex("0000"))
open("p.txt", "w").write("case\nthread D.f\nthread D.f\nschedule robin 40\n" * 3)
open("none.txt", "w").write("case\nthread D.none\nschedule robin 40\n")
PY
)

failed=0
try_words "merge --destfile o a.exec"
try_words "merge --destfile d/e/o a.exec"
try_words "merge --destfile o many.exec"
try_words "merge --destfile o bad.exec"
try_words "merge --destfile o dumps.exec a.exec"
try_words "merge --destfile o a.exec other.exec"
try_words "merge --destfile o none"
try_words "merge"
try_words "execinfo dumps.exec many.exec"
try_words "execinfo a.exec bad.exec"
try_words "classinfo A.class B.class"
try_words "classinfo A.class C.class"
try_words "classinfo A.class a.exec"
try_words "report --csv o --exec a.exec D.class"
try_words "report --csv o D.class a.exec"
try_words "instrument --dest d D.class A.class"
try_words "instrument --dest d a.exec D.class"
try_words "run --plan p.txt --destfile o D.class"
try_words "run --plan p.txt --destfile o --workers 2 D.class"
try_words "run --monitors --plan p.txt --destfile o D.class"
try_words "run --plan p.txt --destfile o --dumps d --every 2 D.class"
try_words "run --plan p.txt --destfile o --dumps d --every 1 --workers 2 D.class"
try_words "run --plan a.exec --destfile o D.class"
try_words "run --plan none.txt --destfile o A.class D.class"
try_words "cover --dest d --plan p.txt --destfile o --csv r D.class A.class a.exec"
try_words "cover --dest d --plan p.txt --destfile o --csv r --workers 2 D.class"
try_words "cover --dest d --plan none.txt --destfile o --csv r D.class"
try_words "cover --sample 2"
exit "$failed"
