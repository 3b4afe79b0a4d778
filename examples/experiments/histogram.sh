#!/bin/sh
# Prints the table of the histogram: shared and private bins on 1 to 16 units. SVCSIM is the program.
set -eu
here=$(dirname "$0")
images=$(mktemp -d)
trap 'rm -rf "$images"' EXIT
header=yes
for program in shared private; do
    "${SVCSIM:-svcsim}" assemble "$here/$program.s" "$images/$program"
    for units in 1 2 4 8 16; do
        HEADER=$header "$here/point.sh" "$program/$units" "$images/$program" "--units $units" "--schedule rotate"
        header=
    done
done | sed '1s/label/program,units/; s,/,\,,'
