#!/bin/sh
# Tries lcov-trace.sh on lines that are written here as `jcov lines` prints them. No program is run.
# usage: examples/builds/try-lcov-trace.sh
set -e
top=$(cd "$(dirname "$0")/../.." && pwd)
folder=$(mktemp -d)
trap 'rm -rf "$folder"' EXIT
cd "$folder"
mkdir -p first/demo second/demo second/shop
touch first/demo/Calc.java second/demo/Calc.java "second/shop/\$Price.java" second/Plain.java
# A source of two classes, of which one has a line that the other has too; one in the default package; one whose name begins with
# a dollar sign; and classes without a source.
cat > lines <<'LINES'
class demo/Calc
1 not
2 empty
3 partly
4 not
6 fully
class demo/Other
1 fully
class demo/Calc$Kind$1
4 fully
7 not
class Plain
class shop/$Price$Kind
2 fully
LINES
cat > wanted <<'TRACE'
TN:
SF:first/demo/Calc.java
DA:1,0
DA:3,1
DA:4,1
DA:6,1
DA:7,0
LF:5
LH:3
end_of_record
TN:
SF:second/Plain.java
LF:0
LH:0
end_of_record
TN:
SF:second/shop/$Price.java
DA:2,1
LF:1
LH:1
end_of_record
TRACE
sh "$top/examples/builds/lcov-trace.sh" none first/ second < lines > trace 2> said
cmp trace wanted
echo "no source of demo/Other" | cmp - said
echo "the tracefile is as expected"
