#!/bin/sh
# Runs an image at one point of a design space, and prints the row of its profile, labelled UNITS/SETS/WAYS/ORDER/SEED.
#
#   point.sh IMAGE UNITS SETS WAYS ORDER [SEED]
#
# SVCSIM is the program, HEADER=--header puts the names of the columns first. Nothing is kept but what is printed.
set -eu
image=$1 units=$2 sets=$3 ways=$4 order=$5 seed=${6:-}
machine="--units $units --sets $sets --ways $ways --events 1000000"
trace=$(mktemp)
trap 'rm -f "$trace"' EXIT

# Where the run has not come to its exit, its row stands there all the same.
"${SVCSIM:-svcsim}" run "$image" $machine --schedule "$order" ${seed:+--seed "$seed"} --trace "$trace" >/dev/null || [ $? = 2 ]
"${SVCSIM:-svcsim}" profile "$image" "$trace" $machine --row "$units/$sets/$ways/$order/$seed" ${HEADER:-}
