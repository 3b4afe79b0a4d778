#!/usr/bin/env python3
"""Tells what a trace shows, from its rows alone: TRACE on standard input, rows of `explore --of` on standard output."""
import csv
import sys

WHAT = {
    "assigned": "begin",
    "loaded": "load",
    "stored": "store",
    "emitted": "output",
    "trapped": "trap",
    "replaced": "replace",
    "committed": "commit",
}
ORDER = ["begin", "load", "store", "output", "trap", "replace", "commit", "squash"]
BY = ["", "hit", "reuse", "version", "spill", "committed", "memory", "violation", "guess", "cancel"]


class Tasks:
    """The units of the active tasks, the oldest first, and how many tasks are committed."""

    def __init__(self):
        self.units = []
        self.committed = 0

    def number_of(self, unit):
        """The number of the unit's task, or of the next one to begin."""
        place = self.units.index(unit) if unit in self.units else len(self.units)
        return self.committed + place

    def follow(self, row):
        if row["kind"] == "assign":
            self.units.append(row["unit"])
        if row["kind"] == "commit":
            self.units.pop(0)
            self.committed += 1
        if row["squashed"]:
            del self.units[len(self.units) - int(row["squashed"]):]


def supplier(tasks, row):
    if row["served"] == "version":
        return f"version:{tasks.number_of(row['from'])}"
    return row["served"]


def observations(tasks, row):
    """What a row shows: WHAT, TASK, WORD, VALUE, BY."""
    what = WHAT.get(row["reply"])
    if what == "commit":
        yield (what, tasks.committed, row["addr"], "", supplier(tasks, row))
    elif what:
        yield (what, tasks.number_of(row["unit"]), row["addr"], row["word"], supplier(tasks, row))
    if row["cause"]:
        word = row["addr"] if row["cause"] == "violation" else ""
        yield ("squash", int(row["first"]), word, row["squashed"], row["cause"])


def place(seen):
    what, task, word, value, by = seen
    kind, _, version = by.partition(":")
    return (ORDER.index(what), task, int(word or -1), int(value or -1), BY.index(kind), int(version or 0))


first = {}
active = Tasks()
for number, entry in enumerate(csv.DictReader(sys.stdin)):
    for seen in observations(active, entry):
        first.setdefault(seen, number)
    active.follow(entry)
for seen in sorted(first, key=place):
    print("seen", *seen, first[seen], sep=",")
