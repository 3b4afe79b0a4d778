#!/usr/bin/env bash
# Makes the cases of `depend` anew: what they want by the twin in unproved Rust, and their list in svc_cases.
#
#   bench/depend_cases.sh
#
# Needs rustc, Python and Debian's binutils-riscv64-unknown-elf, which assemble the programs that are texts. It prints how many cases
# there are, which crates/svc_cases/stdout says too.
set -euo pipefail

root=$(cd "$(dirname "${BASH_SOURCE[0]}")/.." && pwd)
data=$root/crates/svc_cases/data
folder=$(mktemp -d)
trap 'rm -rf "$folder"' EXIT
rustc -O --edition 2024 -o "$folder/depend_twin" "$root/bench/depend_twin.rs"
rustc -O --edition 2024 -o "$folder/schedule_twin" "$root/bench/schedule_twin.rs"
rm -rf "$data/depend"
mkdir "$data/depend"
: > "$folder/cases"

# The file of an image, or of one that is a text below programs/.
image_of() {
    case $1 in
        programs/*) "$root/bench/example_image.py" "$data/${1%.svci}.s" "$folder/image" "$folder/listing" ;;
        *) cp "$data/$1" "$folder/image" ;;
    esac
}

# A case: name, image, tasks, a table, `dot` or `all`, and the image that the twin reads where it is another of the same program.
case_of() {
    local name=depend_$1 image=$2 tasks=$3 by=$4 program=${5:-$2} status=2
    local words="depend $image"
    if [ "$tasks" != 1000000 ]; then words="$words --tasks $tasks"; fi
    case $by in
        all) ;;
        dot) name=${name}_as_graph words="$words --dot" ;;
        *) name=${name}_by_$by words="$words --by $by" ;;
    esac
    image_of "$program"
    "$folder/depend_twin" "$folder/image" "$tasks" "$by" > "$data/depend/$name.txt"
    "$folder/depend_twin" "$folder/image" "$tasks" all > "$folder/totals"
    if grep -q '^exit,' "$folder/totals"; then status=0; fi
    echo "$name,$status,depend/$name.txt,,,$words" >> "$folder/cases"
}

# A case by hand: its line, and what it wants.
by_hand() {
    echo "depend_$1" >> "$folder/cases"
    if [ $# -gt 1 ]; then printf '%b' "$2" > "$data/depend/depend_${1%%,*}.txt"; fi
}

# A run by random of the program whose nearest distance is 3, by bursts of one turn: units, seed.
run_of() {
    local units=$1 seed=$2 name=depend_third_on_${1}_by_seed_$2
    image_of programs/every_third.svci
    "$folder/schedule_twin" "$folder/image" "$units" 16 2 100000 1000000 random "$seed" 1 - - > "$data/depend/$name.txt"
    grep -q "^cut-violation,$3" "$data/depend/$name.txt"
    echo "$name,0,depend/$name.txt,,,run programs/every_third.svci --units $units --schedule random --burst 1 --seed $seed" >> "$folder/cases"
}

# In all, by each table, and as a graph: the samples, one in the byte form, one of a task that needs nothing, and one of version 2, whose
# program is the first one's; the teaching programs; the tasks that hand a sum on; stores of parts of a word; a trap in the middle; tasks
# that need the third one before.
for by in all task pair word dot; do
    for image in p p1 r chain; do
        case_of "of_${image}" "$image.svci" 1000000 "$by"
    done
    case_of of_p_in_version_2 programs/upgraded.svci 1000000 "$by" p.svci
    for program in violation handed_on wrong_guess full_set lost_stack from_c apart; do
        case_of "of_${program}" "examples/$program.svci" 1000000 "$by"
    done
    case_of of_a_task_that_traps programs/break.svci 1000000 "$by"
    for program in part_stores trap_in_the_middle every_third; do
        case_of "of_${program}" "programs/$program.svci" 1000000 "$by"
    done
    case_of of_no_task p.svci 0 "$by"
    case_of of_one_task_of_two p.svci 1 "$by"
    case_of of_29_tasks_of_a_chain chain.svci 29 "$by"
done
case_of of_a_thousand_tasks storm.svci 1000000 all
case_of of_999_tasks_of_a_thousand storm.svci 999 all
case_of of_a_byte_load_below_the_data programs/byte_load_below_data.svci 1000000 task
case_of of_a_half_store_between_halves programs/half_store_between_halves.svci 1000000 task

# On as many units as are told no seed has a violation, and on one more some seed has one.
for seed in $(seq 0 49); do
    run_of 3 "$seed" '0$'
done
run_of 4 0 '[1-9]'

# The first task of p2.svci traps at its third turn, a store into a read-only word, and has touched no other.
by_hand of_a_store_into_a_read_only_word,2,depend/depend_of_a_store_into_a_read_only_word.txt,,,"depend p2.svci" \
    'tasks,1\ntrap,10\nturns,3\nneeds,0\nmemory,0\nnearest,0\nunits,16\nchain,3\n'
by_hand of_a_store_into_a_read_only_word_by_word,2,depend/depend_of_a_store_into_a_read_only_word_by_word.txt,,,"depend p2.svci --by word" \
    'word,readers,writers,nearest\n'
by_hand "without_a_file,1,,error: the following required arguments were not provided:...,,depend"
by_hand "of_a_file_that_is_not_there,1,,svcsim: file fault,,depend missing.svci"
by_hand "of_no_image,1,,svcsim: image fault 2,,depend p_magic.svci --by task"
by_hand "of_too_many_tasks,1,,error: invalid value '1000001'...,,depend p.svci --tasks 1000001"
by_hand "by_another_table,1,,error: invalid value 'unit'...,,depend p.svci --by unit"
by_hand "as_graph_by_a_table,1,,error: the argument '--by <TABLE>' cannot be used with '--dot'...,,depend p.svci --by pair --dot"
by_hand "as_graph_twice,1,,error: the argument '--dot' cannot be used multiple times...,,depend p.svci --dot --dot"
by_hand "on_units,1,,error: unexpected argument '--units'...,,depend p.svci --units 2"
by_hand "has_help,0,wanted/help_depend.txt,,,depend --help"

{ echo name,status,out,err,saved,words; cat "$folder/cases"; } > "$data/cases/depend.csv"
echo "depend: $(wc -l < "$folder/cases") cases"
