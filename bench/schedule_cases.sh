#!/usr/bin/env bash
# Makes the cases of schedules anew: their image, what they want by the twin in unproved Rust, and their list. How many they are
# also stands in crates/svc_cases/stdout.
#
#   bench/schedule_cases.sh
#
# Needs rustc.
set -euo pipefail

root=$(cd "$(dirname "${BASH_SOURCE[0]}")/.." && pwd)
data=$root/crates/svc_cases/data
folder=$(mktemp -d)
trap 'rm -rf "$folder"' EXIT
for name in images schedule_twin; do
    rustc -O --edition 2024 -o "$folder/$name" "$root/bench/$name.rs"
done
rm -rf "$data/schedules"
mkdir -p "$data/schedules"
"$folder/images" chain "$data/chain.svci"
echo name,status,out,err,saved,words > "$data/cases/schedules.csv"

# A case: name, image, units, sets, ways, events, order, seed, burst, `saved` where its trace is wanted too, the script that
# comes first, and the number of steps.
case_of() {
    local name=schedule_$1 image=$2 units=$3 sets=$4 ways=$5 events=$6 order=$7 seed=$8 burst=$9 saved=${10:-} after=${11:-} turns=${12:-}
    local script=-
    local words="run $image --units $units --sets $sets --ways $ways --events $events --schedule $order --burst $burst"
    local status=2 kept=
    if [ "$order" = random ]; then words="$words --seed $seed"; fi
    if [ -n "$turns" ]; then words="$words --turns $turns"; fi
    if [ -n "$after" ]; then words="$words --after $after" script=$data/$after; fi
    "$folder/schedule_twin" "$data/$image" "$units" "$sets" "$ways" "$events" "${turns:-1000000}" "$order" "$seed" "$burst" \
        "$folder/trace" "$script" > "$data/schedules/$name.txt"
    if grep -q '^exit,' "$data/schedules/$name.txt"; then status=0; fi
    if [ -n "$saved" ]; then
        cp "$folder/trace" "$data/schedules/$name.csv"
        kept=trace.csv=schedules/$name.csv
        words="$words --trace trace.csv"
    fi
    echo "$name,$status,schedules/$name.txt,,$kept,$words" >> "$data/cases/schedules.csv"
}

# The sample images under each order.
for image in p p1 r; do
    for order in rotate oldest youngest random; do
        case_of "of_${image}_by_$order" "$image.svci" 4 16 2 100000 "$order" 7 63 saved
    done
done

# 60 tasks that hand a sum on. Traces of single turns are long, so one of them is wanted, and else the summary, which counts
# their events.
for burst in 1 5 63; do
    for units in 1 2 3 4 16; do
        saved=saved
        if [ "$burst" = 1 ] && [ "$units" != 2 ]; then saved=; fi
        case_of "of_a_chain_on_${units}_by_bursts_of_$burst" chain.svci "$units" 16 2 100000 rotate 0 "$burst" "$saved"
    done
done

# One line in each cache: lines are replaced, and pinned ones wait.
for order in rotate oldest youngest random; do
    case_of "of_a_chain_over_one_line_by_$order" chain.svci 4 1 1 100000 "$order" 9 63 saved
done

# Seeds, and limits of events.
for seed in 0 1 4294967295; do
    case_of "of_a_chain_by_seed_$seed" chain.svci 3 16 2 100000 random "$seed" 5
done
for ((events = 1; events <= 40; events++)); do
    case_of "of_p_with_room_for_$events" p.svci 4 16 2 "$events" rotate 0 1
done

# Scripts that come first: each order goes on from where one leads, refused events are passed over, and the steps are counted
# from there.
for order in rotate oldest youngest random; do
    case_of "after_a_load_too_early_by_$order" p.svci 4 16 2 100000 "$order" 7 63 saved scripts/first/load_too_early.csv
    case_of "after_refused_events_by_$order" chain.svci 3 1 1 100000 "$order" 9 5 saved scripts/first/refused.csv
done
case_of after_one_step p.svci 4 16 2 100000 youngest 0 63 saved scripts/first/load_too_early.csv 1
case_of after_no_event p.svci 4 16 2 100000 rotate 0 63 saved scripts/first/none.csv
case_of after_a_full_history p.svci 4 16 2 2 rotate 0 63 saved scripts/first/load_too_early.csv
case_of after_the_whole_program p1.svci 2 16 2 100000 rotate 0 63 saved scripts/first/whole.csv

# By hand: a cancel of the second task leaves the machine as it was before that, so `oldest` goes on as from the first task.
name=schedule_after_a_cancel
(echo kind,unit,arg; echo assign,0,0; echo assign,1,12; echo cancel,1,) > "$data/scripts/first/cancelled.csv"
(
    head -n 2 "$data/schedules/schedule_of_p_by_oldest.csv"
    echo assign,1,12,,,assigned,,12,,,,,
    echo cancel,1,,,,cancelled,,,,,cancel,1,1
    tail -n +3 "$data/schedules/schedule_of_p_by_oldest.csv"
) > "$data/schedules/$name.csv"
awk -F, -v OFS=, '$1 == "kind-assign" { $2++ } $1 == "kind-cancel" || $1 == "cut-cancel" { $2 = 1 } { print }' \
    "$data/schedules/schedule_of_p_by_oldest.txt" > "$data/schedules/$name.txt"
echo "$name,0,schedules/$name.txt,,trace.csv=schedules/$name.csv,run p.svci --units 4 --schedule oldest --after scripts/first/cancelled.csv --trace trace.csv" \
    >> "$data/cases/schedules.csv"
