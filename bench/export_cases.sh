#!/usr/bin/env bash
# Makes what the cases of exports expect, by the twin in Python.
#
#   bench/export_cases.sh
set -euo pipefail

root=$(cd "$(dirname "${BASH_SOURCE[0]}")/.." && pwd)
cd "$root/crates/svc_cases/data"
twin=$root/bench/export_twin.py

"$twin" chrome traces/ten_events.csv 2 > wanted/events_of_a_load_too_early.json
"$twin" chrome traces/the_first_0_entries_are_sound.csv 4 > wanted/events_of_no_entries.json
"$twin" vcd traces/ten_events.csv 2 0 > wanted/changes_of_a_load_too_early.vcd
"$twin" vcd traces/the_first_0_entries_are_sound.csv 4 > wanted/changes_of_no_entries.vcd
# each with the words of its data
for words in "handed_on 0 1" "wrong_guess 0" "full_set 0 1"; do
    read -ra parts <<<"$words"
    name=${parts[0]}
    "$twin" chrome "examples/$name.csv" 2 > "wanted/events_of_$name.json"
    "$twin" vcd "examples/$name.csv" 2 "${parts[@]:1}" > "wanted/changes_of_$name.vcd"
done
for file in wanted/events_of_*.json; do
    python3 -m json.tool "$file" > /dev/null
done
