#!/usr/bin/env python3
"""Writes the cases with names: what they expect, by `names_twin.py` from what the cases without names expect, and their list.

Run it in `crates/svc_cases/data`. The tables in `names/` and the faults are written by hand."""
import csv
import os
import subprocess

TWIN = os.path.join(os.path.dirname(os.path.abspath(__file__)), "names_twin.py")
TEN = "p.svci traces/ten_events.csv"
os.makedirs("names/wanted", exist_ok=True)
rows = []


def told(name, words, table, form, source, status=0):
    """A case whose output is that of another one with names."""
    with open(source) as text:
        named = subprocess.run(["python3", TWIN, f"names/{table}.csv", form], stdin=text, capture_output=True, text=True, check=True)
    with open(f"names/wanted/{name}.txt", "w") as wanted:
        wanted.write(named.stdout)
    rows.append(f"{name},{status},names/wanted/{name}.txt,,,{words} --names names/{table}.csv")


def of_case(subject, name, table, form):
    """The same for a case of a list."""
    with open(f"cases/{subject}.csv") as lines:
        case = next(row for row in csv.DictReader(lines) if row["name"] == name)
    told(name + "_with_names", case["words"], table, form, case["out"], case["status"])


def fault(name, table, row, column, words="show " + TEN):
    rows.append(f"{name},1,,svcsim: names fault row {row} column {column},,{words} --names names/{table}.csv")


def other(name, err, words):
    rows.append(f"{name},1,,{err},,{words}")


for at in (0, 1, 4, 9):
    of_case("show", f"show_of_the_first_{at}_entries", "p", "shown")
FOUR = "wanted/show_of_the_first_4_entries.txt"
told("show_with_names_between", f"show {TEN} --at 4", "between", "shown", FOUR)
told("show_with_several_names_at_one_address", f"show {TEN} --at 4", "several", "shown", FOUR)
told("show_with_no_names", f"show {TEN} --at 4", "none", "shown", FOUR)
told("show_with_a_name_at_two_addresses", f"show {TEN} --at 4", "at_two_places", "shown", FOUR)
told("show_with_a_name_past_all", f"show {TEN} --at 4", "as_high_as_can_be", "shown", FOUR)
told("show_with_a_name_of_2000_characters", f"show {TEN} --at 4", "of_2000_characters", "shown", FOUR)
rows.append(f"show_with_names_in_quotes,0,names/wanted/show_with_names_in_quotes.txt,,,show {TEN} --at 4 --names names/quoted.csv")
told("profile_with_names", f"profile {TEN}", "p", "counts", "wanted/profile_of_a_load_too_early.txt")
told("profile_by_task_with_names", f"profile {TEN} --by task", "p", "entry=2", "wanted/profile_by_task.txt")
told("profile_by_unit_with_names", f"profile {TEN} --by unit", "p", "table", "wanted/profile_by_unit.txt")
of_case("profiles", "profile_by_word_of_a_chain", "chain", "word=0")
told("depend_with_names", "depend p.svci", "p", "counts", "depend/depend_of_p.txt")
told("depend_of_no_task_with_names", "depend p.svci --tasks 0", "p", "counts", "depend/depend_of_no_task.txt", 2)
told("depend_by_task_with_names", "depend chain.svci --by task", "chain", "entry=1", "depend/depend_of_chain_by_task.txt")
told("depend_by_word_with_names", "depend chain.svci --by word", "chain", "word=0", "depend/depend_of_chain_by_word.txt")
told("depend_by_pair_with_names", "depend chain.svci --by pair", "chain", "table", "depend/depend_of_chain_by_pair.txt")
told("depend_as_graph_with_names", "depend chain.svci --dot", "chain", "graph", "depend/depend_of_chain_as_graph.txt")
told("depend_as_graph_with_no_names", "depend chain.svci --dot", "none", "graph", "depend/depend_of_chain_as_graph.txt")
for form, by, table in (("by_word", "--by word", "word=0"), ("by_task", "--by task", "entry=1"), ("as_graph", "--dot", "graph")):
    told(f"depend_of_from_c_{form}_with_names", f"depend examples/from_c.svci {by}", "from_c", table, f"depend/depend_of_from_c_{form}.txt")

for name in ("explore_p_on_2_by_63", "explore_p_of_1_states", "explore_find_a_load", "explore_find_begin", "explore_of_ten_events"):
    of_case("explore", name, "p", "seen")
of_case("explore", "explore_p_on_2_by_1", "between", "seen")

of_case("assembly", "listing_of_two_tasks", "p", "listing")
of_case("assembly", "listing_of_version_2", "between", "listing")
of_case("examples", "example_from_c_is_listed", "from_c", "listing")
for version, image in (("two_tasks", "p"), ("version_2", "p2")):
    listed = f"names/wanted/listing_of_{version}_with_names.txt"
    rows.append(f"a_listing_of_{version}_with_names_makes_its_image,0,,,made.svci={image}.svci,assemble {listed} made.svci")

fault("names_without_a_header", "without_a_header", 1, 1)
fault("names_of_another_column", "of_another_column", 1, 2)
fault("names_in_an_empty_file", "empty", 1, 0)
fault("a_name_of_three_fields", "three_fields", 3, 0)
fault("a_name_with_a_dash", "a_dash", 3, 1)
fault("a_row_with_no_name", "no_name", 2, 1)
fault("a_name_after_a_space", "a_space", 2, 1)
fault("an_address_with_a_leading_zero", "a_leading_zero", 2, 2)
fault("an_address_in_hexadecimal", "hexadecimal", 2, 2)
fault("an_address_of_33_bits", "too_high", 2, 2)
fault("a_name_below_the_one_before_it", "falling", 3, 2)
fault("names_of_one_address_out_of_order", "names_falling", 3, 2)
fault("a_name_given_twice", "twice", 3, 2)
fault("a_name_of_2001_characters", "of_2001_characters", 2, 1)
fault("bad_names_told_by_profile", "falling", 3, 2, f"profile {TEN}")
fault("bad_names_told_by_depend", "falling", 3, 2, "depend p.svci")
fault("bad_names_told_by_depend_as_graph", "falling", 3, 2, "depend p.svci --dot")
fault("bad_names_told_by_explore", "falling", 3, 2, "explore p.svci")
fault("bad_names_told_by_a_search", "falling", 3, 2, "explore p.svci --find load")
fault("bad_names_told_by_list", "falling", 3, 2, "list p.svci")
fault("bad_names_told_by_observe", "falling", 3, 2, "explore p.svci --of traces/ten_events.csv")
other("a_trace_over_the_names", "svcsim: file fault", "explore p.svci --units 2 --find load --trace names/p.csv --names names/p.csv")
other("names_that_are_not_there", "svcsim: file fault", f"show {TEN} --names names/nowhere.csv")
other("a_bad_image_is_told_before_bad_names", "svcsim: image fault 2", "show p_magic.svci traces/ten_events.csv --names names/falling.csv")
other("a_bad_image_is_told_before_bad_names_by_depend", "svcsim: image fault 2", "depend p_magic.svci --names names/falling.csv")
other("names_beside_a_row", "error: the argument '--row <LABEL>' cannot be used with '--names <FILE>'...", f"profile {TEN} --row a --names names/p.csv")
other("names_of_a_check", "error: unexpected argument '--names'...", f"check {TEN} --names names/p.csv")
with open("cases/names.csv", "w") as lines:
    lines.write("name,status,out,err,saved,words\n" + "\n".join(rows) + "\n")
print(len(rows), "cases")
