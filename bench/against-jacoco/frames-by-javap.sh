#!/bin/sh
# Stack map frames by the crates and by `javap -v`: those of the classes that javac makes of Frames.java for some
# versions, or of the jars that JARS names, parted by spaces.
# usage: bench/against-jacoco/frames-by-javap.sh [PROGRAM]      PROGRAM: what build-listing.sh built; else it is built now
set -e
here=$(cd "$(dirname "$0")" && pwd)
lib=$here/../lib
. "$here/listing-path.sh"
folder=$(mktemp -d)
trap 'rm -rf "$folder"' EXIT
cd "$folder"
if [ -z "$JARS" ]; then
    for release in 7 8 11 17; do
        javac -Xlint:-options --release "$release" -d "made/$release" "$here/Frames.java"
    done
    JARS=made
fi
python3 "$lib/unpack.py" . $JARS
xargs -n 2000 "$program" frames < paths > lines
xargs -x python3 "$here/javap_frames.py" lines < paths
