#!/usr/bin/env python3
"""Writes what the cases of a show's options expect, by `show_twin.py`, and prints their rows of the list.

Run it in `crates/svc_cases/data`."""
import os
import subprocess

BENCH = os.path.dirname(os.path.abspath(__file__))
TEN = ("p.svci", "traces/ten_events.csv")
SCHEDULES = "schedules/schedule_of_a_chain_"
USUAL = {"units": 4, "events": 100000, "sets": 64, "ways": 2}


def case(name, image, trace, options, at=None, names=None, **config):
    numbers = {**USUAL, **config}
    count = at if at is not None else sum(1 for _ in open(trace)) - 1
    words = ["python3", f"{BENCH}/show_twin.py", image, trace, str(count), *(str(numbers[it]) for it in USUAL), *options.split()]
    text = subprocess.run(words, capture_output=True, text=True, check=True).stdout
    asked = "".join(f" --{it} {number}" for it, number in config.items()) + (f" --at {at}" if at is not None else "") + f" {options}"
    if names:
        words = ["python3", f"{BENCH}/names_twin.py", f"names/{names}.csv", "shown"]
        text = subprocess.run(words, input=text, capture_output=True, text=True, check=True).stdout
        asked += f" --names names/{names}.csv"
    with open(f"wanted/{name}.txt", "w") as wanted:
        wanted.write(text)
    print(f"{name},0,wanted/{name}.txt,,,show {image} {trace}{asked}")


for at in range(11):
    case(f"show_with_all_of_the_first_{at}_entries", *TEN, "--detail --moves --memory 0-1", at)
for option, name in (("--detail", "details"), ("--moves", "moves")):
    case(f"show_with_{name}_of_the_first_3_entries", *TEN, option, 3)
    case(f"show_with_{name}_of_a_spill", "p.svci", "traces/a_trace_of_a_spill_is_sound.csv", option)
    case(f"show_with_{name}_of_a_version", "p.svci", "traces/a_trace_of_a_version_is_sound.csv", option)
    case(f"show_with_{name}_of_a_chain_on_4_units", "chain.svci", SCHEDULES + "on_4_by_bursts_of_5.csv", option, sets=16)
    case(f"show_with_{name}_of_a_chain_on_4_units_at_600", "chain.svci", SCHEDULES + "on_4_by_bursts_of_5.csv", option, 600, sets=16)
    case(f"show_with_{name}_of_a_chain_on_16_units_at_2000", "chain.svci", SCHEDULES + "on_16_by_bursts_of_5.csv", option, 2000, units=16, sets=16)
    case(f"show_with_{name}_of_a_chain_over_one_line_at_100", "chain.svci", SCHEDULES + "over_one_line_by_rotate.csv", option, 100, sets=1, ways=1)
    case(f"show_with_{name}_of_a_chain_over_one_line_at_400", "chain.svci", SCHEDULES + "over_one_line_by_rotate.csv", option, 400, sets=1, ways=1)
case("show_with_moves_of_a_full_history", "p.svci", "traces/the_first_4_entries_are_sound.csv", "--moves", events=4)
case("show_with_moves_of_a_wrong_guess", "p.svci", "traces/a_trace_of_a_wrong_guess_is_sound.csv", "--moves")
case("show_with_memory_of_two_words", *TEN, "--memory 0-1", 4)
case("show_with_memory_of_one_word", *TEN, "--memory 1-1", 4)
case("show_with_memory_past_the_data", *TEN, "--memory 1-4294967295", 4)
case("show_with_memory_past_all_data", *TEN, "--memory 9-12", 4)
case("show_with_memory_of_a_chain_at_600", "chain.svci", SCHEDULES + "on_4_by_bursts_of_5.csv", "--memory 100-120", 600, sets=16)
for at in (3, 9):
    case(f"show_with_all_of_the_first_{at}_entries_with_names", *TEN, "--detail --moves --memory 0-1", at, "p")
