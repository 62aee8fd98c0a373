# Sourced by the scripts of the folders beside this one: sets `top` to the folder of the repository, and `jcov` to the absolute
# path of the built program, which is the script's first argument, or the program that `rt run` built, or is built now.
top=$(cd "$(dirname "$0")/../.." && pwd)
jcov=${1:-$top/crates/jcov/out/jcov}
if [ $# -eq 0 ] && [ ! -x "$jcov" ]; then
    echo "building jcov by rt run" >&2
    (cd "$top/crates/jcov" && rt run >/dev/null 2>&1)
fi
if [ ! -x "$jcov" ]; then
    echo "no built jcov at $jcov" >&2
    exit 2
fi
jcov=$(cd "$(dirname "$jcov")" && pwd)/$(basename "$jcov")
