# Sourced by the scripts beside this one: sets `top` to the folder of the repository, puts the built program, which is the
# script's first word or crates/jcov/out/jcov, as `jcov` on the PATH, and goes to a new folder that is removed at the end.
top=$(cd "$(dirname "$0")/../.." && pwd)
program=${1:-$top/crates/jcov/out/jcov}
if [ ! -x "$program" ]; then
    echo "no built jcov at $program" >&2
    exit 2
fi
program=$(cd "$(dirname "$program")" && pwd)/$(basename "$program")
folder=$(mktemp -d)
trap 'rm -rf "$folder"' EXIT
cd "$folder"
mkdir bin
ln -s "$program" bin/jcov
PATH=$folder/bin:$PATH

# Ends the script with what was expected.
fail() {
    echo "$0: $1" >&2
    exit 1
}

# The command that follows the status ends with it, and says nothing here.
ends_with() {
    wanted=$1
    shift
    got=0
    "$@" > said 2> complaint || got=$?
    [ "$got" -eq "$wanted" ] || fail "status $got in place of $wanted: $*"
}

# The class file of the words on the input, at TREE/CLASS.class.
make_file() {
    mkdir -p "$(dirname "$1/$2")"
    python3 "$top/bench/lib/class_bytes.py" |
        python3 -c 'import sys; sys.stdout.buffer.write(bytes.fromhex(sys.stdin.read()))' > "$1/$2.class"
}

# A class of version 52 with `static int abs(int)`, which has two probes.
make_class() {
    make_file "$1" "$2" <<CLASS
class $2 52
method 0x9 abs (I)I 1 1
iload_0
ifge 5
iload_0
ineg
ireturn
iload_0
ireturn
frame 5 int |
CLASS
}

# An interface with code, which is refused.
make_refused() {
    make_file "$1" "$2" <<CLASS
class $2 52
flags 0x601
method 0x1 size ()I 1 1
iconst_0
ireturn
CLASS
}
