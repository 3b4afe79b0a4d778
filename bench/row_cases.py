#!/usr/bin/env python3
"""Makes what the cases of rows of tables want, from the summaries and profiles that other cases want: data/rows/.

Only the fields of a row that calls for quotes stand here by hand.
"""

from pathlib import Path

DATA = Path(__file__).parent.parent / "crates/svc_cases/data"
ENDINGS = ("exit", "trap", "full", "open")


def columns(text):
    """The names and the fields of a row, from the rows of a summary or a profile."""
    for line in text.splitlines():
        name, number = line.split(",")
        if name in ENDINGS:
            yield "ending", name
            yield "number", number
        elif name != "out":
            yield name, number


def row(case, label, of, header=False):
    names, fields = zip(("label", label), *columns((DATA / of).read_text()))
    lines = [names, fields] if header else [fields]
    (DATA / "rows" / f"{case}.txt").write_text("".join(",".join(line) + "\n" for line in lines))


(DATA / "rows").mkdir(exist_ok=True)
row("run", "two", "schedules/schedule_of_a_chain_on_2_by_bursts_of_5.txt")
row("run_with_header", "two", "schedules/schedule_of_a_chain_on_2_by_bursts_of_5.txt", header=True)
row("run_that_puts_out", "p", "schedules/schedule_of_p_by_youngest.txt")
row("run_that_is_full", "5", "schedules/schedule_of_p_with_room_for_5.txt")
row("run_in_a_thread", "p1", "wanted/built_in_run.txt")
row("label_with_a_quote", '"a""b"', "schedules/schedule_of_p_by_youngest.txt")
row("profile", "two", "wanted/profile_of_a_chain_on_4_by_bursts_of_5.txt")
row("profile_with_header", "two", "wanted/profile_of_a_chain_on_4_by_bursts_of_5.txt", header=True)
