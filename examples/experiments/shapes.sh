#!/bin/sh
# Prints the table of the cache shapes: tasks of rows and of columns on four units, over caches of 4 to 64 lines. SVCSIM is the
# program.
set -eu
here=$(dirname "$0")
images=$(mktemp -d)
trap 'rm -rf "$images"' EXIT
header=yes
for program in rows columns; do
    "${SVCSIM:-svcsim}" assemble "$here/$program.s" "$images/$program"
    for lines in 4 8 16 32 64; do
        for ways in 1 2 4; do
            sets=$((lines / ways))
            HEADER=$header "$here/point.sh" "$program/$lines/$sets/$ways" "$images/$program" \
                "--units 4 --sets $sets --ways $ways" "--schedule rotate"
            header=
        done
    done
done | sed '1s/label/program,lines,sets,ways/; s,/,\,,g'
