#!/usr/bin/env bash
# Runs the same images by svcsim and by the plain twins in unproved Rust, in turn, and prints one table of the median times.
#
#   bench/run.sh [ROUNDS [SVCSIM]]
#
# SVCSIM is the program to be measured; without it the proved one is built by `rt run`. Needs rustc, and rt without SVCSIM.
# What both print of the tasks is compared with the sequential twin's, in each round. The rows of `profile` and `draw` have
# `check` of the same trace in the twin's place, and those of `list` and `assemble` GNU's assembler of the same text: they need
# Python and Debian's binutils-riscv64-unknown-elf, and are left out without it.
set -euo pipefail

rounds=${1:-10}
root=$(cd "$(dirname "${BASH_SOURCE[0]}")/.." && pwd)
folder=$(mktemp -d)
trap 'rm -rf "$folder"' EXIT
svcsim=${2:-}
if [ -z "$svcsim" ]; then
    svcsim=$root/crates/svcsim/out/svcsim
    (cd "$root/crates/svcsim" && rt run > /dev/null)
fi
svcsim=$(realpath "$svcsim")
for name in images plain_twin threads_twin schedule_twin explore_twin; do
    rustc -O -C codegen-units=1 --edition 2024 -o "$folder/$name" "$root/bench/$name.rs"
done
cd "$folder"
cp "$root/images/p.svci" .
./images short short.svci
for name in loop local apart memory small large spin; do
    ./images "$name" "$name.svci"
    ./plain_twin "$name.svci" 1000000 > "$name.expected"
done
# The image of the greatest size and its listing; the lines of this project's directives, which GNU's assembler lacks, are few.
if command -v riscv64-unknown-elf-as > /dev/null; then
    "$root/bench/greatest_image.py" greatest.svci
    "$svcsim" list greatest.svci > greatest.s
    grep -v '^\.svc_' greatest.s > gnu.s
fi

# Runs a command of a row, its output going to the file `printed`. Its times go to `times` once `amount` is known.
timed() {
    local TIMEFORMAT='%R %U %S'
    { time "$@" > printed || [ $? -eq 2 ]; } 2> spent
}

# Notes the times of the last command: row, program, amount of what is counted.
note() {
    echo "$1 $2 $3 $(cat spent)" >> times
}

fail() {
    echo "run.sh: $1" >&2
    exit 1
}

# The rows of the tasks alone, and how many events there were.
tasks_printed() { grep -E '^(out|tasks|exit|trap|full|open),' printed; }
events_printed() { awk -F, '/^kind-/ { sum += $2 } END { print sum }' printed; }

# The sequential runner: 400 tasks of 50,187 turns.
race_seq() {
    timed "$svcsim" seq loop.svci --tasks 1000000
    cmp printed loop.expected
    note seq proved 20074800
    timed ./plain_twin loop.svci 1000000
    cmp printed loop.expected
    note seq twin 20074800
}

# The machine: image, units, row, and what is counted: events or so many tasks.
race_run() {
    local image=$1 units=$2 row=$3 tasks=${4:-}
    timed "$svcsim" run "$image.svci" --units "$units" --events 1000000 --turns 10000000
    tasks_printed | cmp - "$image.expected"
    note "$row" proved "${tasks:-$(events_printed)}"
    timed ./threads_twin run "$image.svci" "$units" 1000000 -
    tasks_printed | cmp - "$image.expected"
    note "$row" twin "${tasks:-$(events_printed)}"
}

# A million events of tasks of one turn, which no run ends: what both print is compared with each other.
race_short() {
    timed "$svcsim" run short.svci --units 1 --events 1000000 --turns 10000000
    cp printed short.expected
    note short proved 1000000
    timed ./threads_twin run short.svci 1 1000000 -
    cmp printed short.expected
    note short twin 1000000
}

# A run by a schedule, which both print the same of.
race_schedule() {
    local units=$1 burst=$2
    timed "$svcsim" run memory.svci --units "$units" --events 1000000 --turns 10000000 --schedule rotate --burst "$burst"
    cp printed proved.printed
    note "rotate-$burst-$units" proved "$(events_printed)"
    timed ./schedule_twin memory.svci "$units" 16 2 1000000 10000000 rotate 0 "$burst" -
    cmp printed proved.printed
    note "rotate-$burst-$units" twin "$(events_printed)"
}

# All schedules of a sample on six units, which both print the same of.
race_explore() {
    timed "$svcsim" explore p.svci --units 6 --burst 1
    cp printed proved.printed
    grep -q '^states,123611$' printed || fail "svcsim does not tell 123,611 standings apart"
    note explore proved 1
    timed ./explore_twin p.svci 6 16 2 100000 1 1000000 - -
    cmp printed proved.printed
    note explore twin 1
}

# A history of 100,000 entries by one unit, written and checked. One unit leaves no choice, so the traces are the same.
race_trace() {
    timed "$svcsim" run memory.svci --units 1 --events 100000 --turns 10000000 --trace proved.csv
    [ "$(events_printed)" = 100000 ] || fail "svcsim has not written 100,000 entries"
    note trace proved 100000
    timed ./threads_twin run memory.svci 1 100000 twin.csv
    cmp proved.csv twin.csv
    note trace twin 100000
    timed "$svcsim" check memory.svci proved.csv --units 1 --events 100000
    [ "$(cat printed)" = sound,100000 ] || fail "svcsim does not find the trace sound"
    note check proved 100000
    note profile twin 100000
    note draw twin 100000
    timed "$svcsim" profile memory.svci proved.csv --units 1 --events 100000
    note profile proved 100000
    timed "$svcsim" draw memory.svci proved.csv picture.svg --count 400 --units 1 --events 100000
    note draw proved 100000
    timed ./threads_twin check memory.svci 1 100000 proved.csv
    [ "$(cat printed)" = sound,100000 ] || fail "the twin does not find the trace sound"
    note check twin 100000
}

# The image of the greatest size, listed and assembled again. GNU's assembler stops at its object: it doesn't link.
race_assembly() {
    [ -f gnu.s ] || return 0
    timed "$svcsim" list greatest.svci
    cmp printed greatest.s
    note list proved 1
    timed "$svcsim" assemble greatest.s made.svci
    cmp made.svci greatest.svci
    note assemble proved 1
    timed riscv64-unknown-elf-as -march=rv32i -mabi=ilp32 gnu.s -o gnu.o
    note list twin 1
    note assemble twin 1
}

for ((round = 0; round < rounds; round++)); do
    race_seq
    for units in 1 2 4; do
        race_run local "$units" "local-$units"
        race_run apart "$units" "apart-$units"
        race_run memory "$units" "memory-$units"
    done
    race_short
    race_run spin 1 spin
    for units in 1 4 16; do
        race_schedule "$units" 63
        race_schedule "$units" 1
    done
    race_explore
    race_trace
    race_run small 1 commit-100 150000
    race_run large 1 commit-65536 150000
    race_assembly
done

# The median times for one of what is counted, and their ratios: below 1 svcsim is the faster one.
awk -v rounds="$rounds" '
    # Keeps the values of a key in rising order.
    function keep(key, value,   i) {
        for (i = ++count[key]; i > 1 && kept[key, i - 1] > value; i--) kept[key, i] = kept[key, i - 1]
        kept[key, i] = value
    }
    function median(name, program, clock) { return quantile(name, program, clock, 0.5) }
    # The value below which such a share of the values lies.
    function quantile(name, program, clock, share,   key) {
        key = name SUBSEP program SUBSEP clock
        return kept[key, int(1 + share * (count[key] - 1))]
    }
    # The geometric mean of what a run took, as a share of what one with one unit took in the same round.
    function paired(image, units,   sum, i) {
        sum = 0
        for (i = 1; i <= rounds; i++) sum += log(whole[image "-" units, i] / whole[image "-1", i])
        return exp(sum / rounds)
    }
    # The quartiles of the wall times of svcsim for a whole run, as shares of the median with one unit.
    function spread(image, text,   units, one, cells, i) {
        one = median(image "-1", "proved", "whole")
        for (units = 1; units <= 4; units *= 2) {
            cells = ""
            for (i = 1; i <= 3; i++) cells = cells sprintf(" %5.2f |", quantile(image "-" units, "proved", "whole", i / 4) / one)
            printf "| %-58s |%s %5.2f |\n", text ", units: " units, cells, paired(image, units)
        }
    }
    function row(name, text, scale, form,   cells, i, columns) {
        columns = split("proved,cpu twin,cpu proved,wall twin,wall", keys, " ")
        cells = ""
        for (i = 1; i <= columns; i += 2) {
            split(keys[i], key, ",")
            a = median(name, "proved", key[2]); b = median(name, "twin", key[2])
            cells = cells sprintf(" " form " | " form " | %5.2f |", value(a, scale), value(b, scale), a / b)
        }
        printf "| %-58s |%s\n", text, cells
    }
    # A scale below 0 asks for how many there are in a second, in millions.
    function value(seconds, scale) { return scale < 0 ? 1 / seconds / 1000000 : seconds * scale }
    {
        keep($1 SUBSEP $2 SUBSEP "wall", $4 / $3)
        keep($1 SUBSEP $2 SUBSEP "cpu", ($5 + $6) / $3)
        keep($1 SUBSEP $2 SUBSEP "whole", $4)
        if ($2 == "proved") whole[$1, ++seen[$1]] = $4
    }
    END {
        print "Medians of " rounds " rounds. Ratios are of times: below 1 svcsim is faster than the twin."
        print ""
        printf "| %-58s | svcsim  | twin    | ratio | svcsim  | twin    | ratio |\n", "by processor time, and by wall time"
        print "|---|---|---|---|---|---|---|"
        row("seq", "seq, million instructions a second", -1, "%7.2f")
        for (i = 1; i <= 4; i *= 2)
            row("local-" i, "run, local turns, units: " i ", million events a second", -1, "%7.3f")
        for (i = 1; i <= 4; i *= 2)
            row("apart-" i, "run, long bursts, units: " i ", million events a second", -1, "%7.3f")
        for (i = 1; i <= 4; i *= 2)
            row("memory-" i, "run, loads and stores, units: " i ", million events a second", -1, "%7.3f")
        row("short", "run, tasks of one turn, units: 1, million events a second", -1, "%7.3f")
        row("spin", "run, turns that ask nothing, units: 1, million events a second", -1, "%7.3f")
        for (i = 1; i <= 16; i *= 4) {
            row("rotate-63-" i, "run --schedule rotate, bursts of 63, units: " i ", million events a second", -1, "%7.3f")
            row("rotate-1-" i, "run --schedule rotate, bursts of 1, units: " i ", million events a second", -1, "%7.3f")
        }
        row("explore", "explore, six units by bursts of 1, seconds for 123,611 standings", 1, "%7.3f")
        row("trace", "run --trace, seconds for 100,000 entries", 100000, "%7.3f")
        row("check", "check, seconds for 100,000 entries", 100000, "%7.3f")
        row("profile", "profile, seconds for 100,000 entries, beside check", 100000, "%7.3f")
        row("draw", "draw of 400 of 100,000 entries, seconds, beside check", 100000, "%7.3f")
        if (("list", "twin", "cpu") in count) {
            row("list", "list, seconds for 131,072 words, beside GNU\047s assembler", 1, "%7.3f")
            row("assemble", "assemble, seconds for 131,072 words, beside GNU\047s", 1, "%7.3f")
        }
        row("commit-100", "a task of two accesses over 100 words, ns", 1e9, "%7.0f")
        row("commit-65536", "the same over 65,536 words, ns", 1e9, "%7.0f")
        print ""
        printf "A task over 65,536 words against one over 100, by processor time: svcsim %.2f, twin %.2f\n",
            median("commit-65536", "proved", "cpu") / median("commit-100", "proved", "cpu"),
            median("commit-65536", "twin", "cpu") / median("commit-100", "twin", "cpu")
        print ""
        print "The wall time of a run by svcsim, as a share of the median with one unit, and of the same round with one unit:"
        print ""
        printf "| %-58s | quarter | median | three quarters | by rounds |\n", ""
        print "|---|---|---|---|---|"
        spread("local", "local turns")
        spread("apart", "long bursts")
        spread("memory", "loads and stores")
    }' times
