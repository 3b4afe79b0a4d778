#!/bin/sh
# Runs an image at one point, and prints a row: the label, how the run ended, and counts of events and turns.
#
#   point.sh LABEL IMAGE MACHINE SCHEDULE
#
# MACHINE and SCHEDULE are options in one word each, as '--units 4 --sets 8' and '--schedule rotate'. SVCSIM is the program,
# and HEADER=yes puts the names of the columns first. Nothing is kept but what is printed.
set -eu
label=$1 image=$2 machine=$3 schedule=$4
svcsim=${SVCSIM:-svcsim}
trace=$(mktemp)
trap 'rm -f "$trace"' EXIT

# Where the run has not come to its exit, its row stands there all the same.
run=$("$svcsim" run "$image" $machine $schedule --trace "$trace" --row "$label") || [ $? = 2 ]
profile=$("$svcsim" profile "$image" "$trace" $machine --row "$label")

# A pass is a rotation over the units. A line is spilled if the task that loses it has stored it.
seen=$(awk -F, 'NR == 1 { next }
    NR == 2 || $2 <= last { passes++ }
    { last = $2 }
    $1 == "assign" || $1 == "commit" { for (line in dirty) if (index(line, $2 " ") == 1) delete dirty[line] }
    $6 == "stored" { dirty[$2 " " $7] }
    $1 == "replace" && ($2 " " $7) in dirty { spilled++; delete dirty[$2 " " $7] }
    END { print passes + 0 "," spilled + 0 }' "$trace")

if [ -n "${HEADER:-}" ]; then echo label,ending,events,violations,guesses,turns,squashed,replaced,passes,spilled; fi
echo "$run,$profile,$seen" | awk -F, -v OFS=, '{ print $1, $3, $20, $16, $17, $27, $28, $42, $43, $44 }'
