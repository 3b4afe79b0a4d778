#!/usr/bin/env bash
# Makes the cases of `explore` anew: what they want by the twin in unproved Rust, and their list in svc_cases.
#
#   bench/explore_cases.sh
#
# Needs rustc, Python and Debian's binutils-riscv64-unknown-elf, which assemble the programs that are texts. It prints how many cases
# there are, which crates/svc_cases/stdout says too.
set -euo pipefail

root=$(cd "$(dirname "${BASH_SOURCE[0]}")/.." && pwd)
data=$root/crates/svc_cases/data
folder=$(mktemp -d)
trap 'rm -rf "$folder"' EXIT
rustc -O --edition 2024 -o "$folder/explore_twin" "$root/bench/explore_twin.rs"
rm -rf "$data/explore"
mkdir "$data/explore"
cases=$folder/cases
: > "$cases"

# The file of an image, or of one that is a text below programs/.
image_of() {
    case $1 in
        programs/*) "$root/bench/example_image.py" "$data/${1%.svci}.s" "$folder/image" "$folder/listing" ;;
        *) cp "$data/$1" "$folder/image" ;;
    esac
}

# A case: name, image, the options that differ from their defaults (units=2 burst=1 find=load,1 ..), and the image that the twin
# reads where it is another of the same program. What a trace is saved as is named by `trace=`.
case_of() {
    local name=explore_$1 image=$2 options=$3 program=${4:-$2} status=0 wanted err="" saved=""
    local units=4 sets=16 ways=2 events=100000 burst=63 states=1000000 find=- trace=- words="explore $image" option
    for option in $options; do
        local "${option?}"
        words="$words --${option%%=*} ${option#*=}"
    done
    image_of "$program"
    wanted=explore/$name.txt
    "$folder/explore_twin" "$folder/image" "$units" "$sets" "$ways" "$events" "$burst" "$states" "$find" "$folder/trace" \
        > "$data/$wanted" || status=$?
    if [ "$status" = 1 ]; then
        err="svcsim: explore limit"
        wanted=""
        rm "$data/explore/$name.txt"
    fi
    if [ "$trace" != - ] && [ "$status" = 0 ]; then
        saved=$trace=explore/$name.csv
        cp "$folder/trace" "$data/explore/$name.csv"
    fi
    case $words in
        *,*) words="\"$words\"" ;;
    esac
    echo "$name,$status,$wanted,$err,$saved,$words" >> "$cases"
}

# A case by hand: its line, and what it wants.
by_hand() {
    echo "explore_$1" >> "$cases"
    if [ $# -gt 1 ]; then printf '%b' "$2" > "$data/explore/explore_${1%%,*}.txt"; fi
}

# What a trace shows: name, image, trace, its folder, and the options of its machine.
of_trace() {
    local folder=${4:-traces} name=explore_of_$1
    "$root/bench/sightings_twin.py" < "$data/$folder/$3.csv" > "$data/explore/$name.txt"
    echo "$name,0,explore/$name.txt,,,explore $2 --of $folder/$3.csv${5:-}" >> "$cases"
}

# The samples, one in the byte form, and one of version 2, whose program is the first one's.
for burst in 1 2 63; do
    for image in p p1 r; do
        case_of "${image}_on_2_by_$burst" "$image.svci" "units=2 burst=$burst"
    done
    case_of "p_in_version_2_on_2_by_$burst" programs/upgraded.svci "units=2 burst=$burst" p.svci
done
case_of p_on_1 p.svci units=1
case_of p_on_3 p.svci units=3
case_of p_on_4 p.svci units=4

# The teaching programs.
for program in violation handed_on wrong_guess full_set lost_stack; do
    for burst in 1 2 63; do
        case_of "${program}_on_2_by_$burst" "examples/$program.svci" "units=2 burst=$burst"
    done
done
case_of violation_on_3 examples/violation.svci units=3

# A set of one line.
case_of violation_over_one_line examples/violation.svci "units=2 sets=1 ways=1"
case_of handed_on_over_one_line examples/handed_on.svci "units=2 sets=1 ways=1"
case_of full_set_of_one_line examples/full_set.svci "units=2 sets=1 ways=1 burst=2"

# Tasks of which none needs another within two: no violation is seen. A trap in a task. Parts of words.
case_of every_third_on_2 programs/every_third.svci units=2
case_of a_task_that_traps programs/break.svci units=2
case_of trap_in_the_middle programs/trap_in_the_middle.svci units=2
case_of part_stores programs/part_stores.svci units=2

# Limits: of standings, met and just kept; of events, met and just kept.
for states in 1 36 37 38; do
    case_of "p_of_${states}_states" p.svci "units=2 states=$states"
done
for events in 1 10 11 12; do
    case_of "p_of_${events}_events" p.svci "units=2 events=$events"
done

# What is looked for: each kind of observation, by the task and the word, with its trace; and what isn't seen.
case_of find_begin p.svci "units=2 find=begin"
case_of find_a_load p.svci "units=2 find=load"
case_of find_a_load_of_a_task p.svci "units=2 find=load,1 trace=trace.csv"
case_of find_a_load_of_a_task_and_a_word p.svci "units=2 find=load,1,0 trace=trace.csv"
case_of find_a_store_of_any_task p.svci "units=2 find=store,,0 trace=trace.csv"
case_of find_a_store_of_a_later_task p.svci "units=2 burst=1 find=store,2 trace=trace.csv"
case_of find_an_output examples/violation.svci "units=2 find=output,1 trace=trace.csv"
case_of find_a_trap examples/lost_stack.svci "units=2 find=trap trace=trace.csv"
case_of find_a_replacement examples/full_set.svci "units=2 sets=1 ways=1 burst=2 find=replace trace=trace.csv"
case_of find_a_commit p.svci "units=2 find=commit,1 trace=trace.csv"
case_of find_a_violation examples/violation.svci "units=2 find=squash,1,0 trace=trace.csv"
case_of find_a_wrong_guess p.svci "units=2 find=squash,2 trace=trace.csv"
case_of find_a_squash_on_3 p.svci "units=3 find=squash,2 trace=trace.csv"
case_of find_no_trap p.svci "units=2 find=trap trace=trace.csv"
case_of find_no_load_of_a_task p.svci "units=2 find=load,0"
case_of find_no_load_of_a_word p.svci "units=2 find=load,1,1"
case_of find_no_begin_of_a_word p.svci "units=2 find=begin,,0"
case_of find_no_violation programs/every_third.svci "units=2 find=squash,,0"
case_of find_before_a_limit p.svci "units=2 states=6 find=load trace=trace.csv"
case_of find_after_a_limit p.svci "units=2 states=6 find=squash trace=trace.csv"
case_of find_after_a_limit_of_events p.svci "units=2 events=4 find=commit,1"
case_of find_with_the_last_event p.svci "units=2 events=8 find=commit,1 trace=trace.csv"

by_hand "find_nothing_at_all,1,,\"error: a value is required for '--find <WHAT[,TASK[,WORD]]>' but none was supplied...\",,explore p.svci --find"
by_hand "find_no_such_thing,1,,error: the value of '--find' is not WHAT...,,explore p.svci --find cancel"
by_hand "find_by_an_empty_word,1,,error: the value of '--find' is not WHAT...,,\"explore p.svci --find load,1,\""
by_hand "find_by_a_leading_zero,1,,error: the value of '--find' is not WHAT...,,\"explore p.svci --find load,01\""
by_hand "find_by_a_fourth_field,1,,error: the value of '--find' is not WHAT...,,\"explore p.svci --find load,1,0,5\""
by_hand "find_past_the_words,1,,error: the value of '--find' is not WHAT...,,\"explore p.svci --find load,1,4294967296\""
by_hand "saves_what_is_not_looked_for,1,,error: the following required arguments were not provided:...,,explore p.svci --trace trace.csv"
by_hand "saves_over_its_image,1,,svcsim: file fault,,explore p.svci --units 2 --find load --trace p.svci"
by_hand "saves_where_it_cannot,1,,svcsim: file fault,,explore p.svci --units 2 --find load --trace missing/trace.csv"
by_hand "of_no_image_saves_nothing,1,,svcsim: image fault 2,,explore p_magic.svci --units 2 --find load --trace trace.csv"

# What a trace shows.
of_trace ten_events p.svci ten_events
of_trace no_event p.svci the_first_0_entries_are_sound
of_trace a_spill p.svci a_trace_of_a_spill_is_sound
of_trace a_reuse programs/load_in_both_tasks.svci a_trace_of_a_reuse_is_sound
of_trace a_version p.svci a_trace_of_a_version_is_sound
of_trace a_trap programs/store_past_data.svci a_trace_of_a_trap_is_sound
of_trace a_cancel p.svci a_trace_of_a_cancel_is_sound
of_trace a_wrong_guess p.svci a_trace_of_a_wrong_guess_is_sound
of_trace a_replacement p.svci a_trace_of_a_replacement_is_sound
of_trace a_chain_on_3 chain.svci schedule_of_a_chain_on_3_by_bursts_of_5 schedules " --units 3"
of_trace a_chain_over_one_line chain.svci schedule_of_a_chain_over_one_line_by_random schedules " --sets 1 --ways 1"

by_hand "of_an_unsound_trace,1,,svcsim: trace fault 3 at entry 6,,explore p.svci --of traces/a_trace_with_another_loaded_word.csv"
by_hand "of_a_bad_record,1,,svcsim: report fault 4 row 4 column 7,,explore p.svci --of traces/a_trace_with_a_plus_sign.csv"
by_hand "of_a_trace_that_is_not_there,1,,svcsim: file fault,,explore p.svci --of missing.csv"
by_hand "of_a_trace_of_no_image,1,,svcsim: image fault 2,,explore p_magic.svci --of traces/ten_events.csv"
by_hand "of_a_trace_and_a_search,1,,error: the argument '--of <TRACE>' cannot be used with '--find...,,explore p.svci --of traces/ten_events.csv --find load"
by_hand "of_a_trace_by_bursts,1,,error: the argument '--of <TRACE>' cannot be used with '--burst...,,explore p.svci --of traces/ten_events.csv --burst 3"
by_hand "of_a_trace_of_states,1,,error: the argument '--of <TRACE>' cannot be used with '--states...,,explore p.svci --of traces/ten_events.csv --states 3"

by_hand "without_a_file,1,,error: the following required arguments were not provided:...,,explore"
by_hand "of_a_file_that_is_not_there,1,,svcsim: file fault,,explore missing.svci"
by_hand "of_no_image,1,,svcsim: image fault 2,,explore p_magic.svci --units 2"
by_hand "on_17_units,1,,svcsim: config fault 1,,explore p.svci --units 17"
by_hand "by_no_turns,1,,error: invalid value '0'...,,explore p.svci --burst 0"
by_hand "by_64_turns,1,,error: invalid value '64'...,,explore p.svci --burst 64"
by_hand "of_no_state,1,,error: invalid value '0'...,,explore p.svci --states 0"
by_hand "by_a_schedule,1,,error: unexpected argument '--schedule'...,,explore p.svci --schedule rotate"
by_hand "has_help,0,wanted/help_explore.txt,,,explore --help"

{ echo name,status,out,err,saved,words; cat "$cases"; } > "$data/cases/explore.csv"
echo "explore: $(wc -l < "$cases") cases"
