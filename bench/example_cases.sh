#!/usr/bin/env bash
# Makes what the cases of the example programs want: their images and listings by GNU's assembler and disassembler, what a run
# by a schedule prints and saves by the twin in unproved Rust, and their list. How many they are also stands in
# crates/svc_cases/stdout.
#
#   bench/example_cases.sh
#
# Needs rustc, gcc, Python and Debian's binutils-riscv64-unknown-elf. Their pictures are cases of another list.
set -euo pipefail

root=$(cd "$(dirname "${BASH_SOURCE[0]}")/.." && pwd)
data=$root/crates/svc_cases/data
folder=$(mktemp -d)
trap 'rm -rf "$folder"' EXIT
rustc -O --edition 2024 -o "$folder/schedule_twin" "$root/bench/schedule_twin.rs"
echo name,status,out,err,saved,words > "$data/cases/examples.csv"

# A program: name, units, sets, ways, schedule, and the status of its run where that isn't 0.
example() {
    local name=$1 units=$2 sets=$3 ways=$4 order=$5 status=${6:-0} at=examples/$1
    "$root/bench/example_image.py" "$data/$at.s" "$data/$at.svci" "$data/$at.listing.s"
    "$folder/schedule_twin" "$data/$at.svci" "$units" "$sets" "$ways" 100000 1000000 "$order" 0 63 "$data/$at.csv" - > "$data/$at.txt"
    cat >> "$data/cases/examples.csv" <<END
example_${name}_is_assembled,0,,,made.svci=$at.svci,assemble $at.s made.svci
example_${name}_is_listed,0,$at.listing.s,,,list $at.svci
example_${name}_is_assembled_again,0,,,made.svci=$at.svci,assemble $at.listing.s made.svci
example_${name}_is_run,$status,$at.txt,,trace.csv=$at.csv,run $at.svci --units $units --sets $sets --ways $ways --schedule $order --trace trace.csv
END
}

# A program from C, whose text examples/c/build.sh makes, and its C file: what it prints on the host, and by a schedule its summary
# alone, as its trace is long.
from_c() {
    local name=$1 at=examples/$1
    "$root/bench/example_image.py" "$data/$at.s" "$data/$at.svci" "$data/$at.listing.s"
    "$folder/schedule_twin" "$data/$at.svci" 4 16 2 100000 1000000 rotate 0 63 - - > "$data/$at.txt"
    gcc -O2 -DHOST -o "$folder/host" "$root/examples/c/$2.c"
    "$folder/host" > "$data/$at.host.txt"
    cat >> "$data/cases/examples.csv" <<END
example_${name}_is_assembled,0,,,made.svci=$at.svci,assemble $at.s made.svci
example_${name}_is_listed,0,$at.listing.s,,,list $at.svci
example_${name}_is_assembled_again,0,,,made.svci=$at.svci,assemble $at.listing.s made.svci
example_${name}_is_as_on_the_host,0,$at.host.txt,,,seq $at.svci --tasks 100
example_${name}_is_run,0,$at.txt,,,run $at.svci --units 4 --sets 16 --ways 2 --schedule rotate
END
}

example violation 2 16 2 youngest
example handed_on 2 16 2 rotate
example wrong_guess 2 16 2 rotate
example full_set 2 1 1 rotate
example lost_stack 2 16 2 rotate 2
from_c from_c tasks
from_c apart apart
