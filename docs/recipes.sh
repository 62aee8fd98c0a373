#!/bin/sh
# Runs the recipes of examples/builds that need no JDK, with the built program, and fails where one of them does or the program
# isn't there. A recipe is left out where a command that it needs isn't installed: GNU parallel, and for two machines rsync and ssh.
# usage: docs/recipes.sh [JCOV]      JCOV: the built program; else the one of crates/jcov/out
set -e
top=$(cd "$(dirname "$0")/.." && pwd)
jcov=${1:-$top/crates/jcov/out/jcov}
if [ ! -x "$jcov" ]; then
    echo "no built jcov at $jcov" >&2
    exit 2
fi

# The first command that the recipe needs and that isn't there.
missing() {
    case $1 in
        shards) set -- parallel ;;
        machines) set -- parallel rsync ssh ssh-keygen /usr/sbin/sshd ;;
        *) return ;;
    esac
    for needed; do
        if ! command -v "$needed" > /dev/null; then
            echo "$needed"
            return
        fi
    done
}

count=0
for recipe in whole-tree dumps try-check-coverage try-lcov-trace shards machines; do
    lacks=$(missing $recipe)
    if [ -n "$lacks" ]; then
        echo "left out: $recipe, for want of $lacks"
        continue
    fi
    if ! said=$(sh "$top/examples/builds/$recipe.sh" "$jcov" 2>&1); then
        echo "$said" >&2
        echo "failed: $recipe" >&2
        exit 1
    fi
    count=$((count + 1))
done
echo "$count recipes passed"
