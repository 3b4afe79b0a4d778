#!/bin/sh
# Prints the table of guesses and orders: a walk where each kind of task is always followed by the same kind, and one where that
# changes, by two orders on 1 to 16 units. SVCSIM is the program.
set -eu
here=$(dirname "$0")
images=$(mktemp -d)
trap 'rm -rf "$images"' EXIT
header=yes
for walk in steady changing; do
    "${SVCSIM:-svcsim}" assemble "$here/$walk.s" "$images/$walk"
    for order in rotate youngest; do
        for units in 1 2 4 6 8 10 12 14 16; do
            HEADER=$header "$here/point.sh" "$walk/$order/$units" "$images/$walk" "--units $units" "--schedule $order"
            header=
        done
    done
done | sed '1s/label/walk,order,units/; s,/,\,,g'
