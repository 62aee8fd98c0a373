# Sourced by frames-by-javap.sh: sets `program` to the absolute path of the program of `listing.txt`.
# It is the script's first argument, or is built now.
program=${1:-${TMPDIR:-/tmp}/jc_listing}
[ $# -gt 0 ] || "$(dirname "$0")/build-listing.sh" "$program"
[ -x "$program" ] || { echo "no program at $program" >&2; exit 2; }
program=$(cd "$(dirname "$program")" && pwd)/$(basename "$program")
