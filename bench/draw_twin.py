#!/usr/bin/env python3
"""What a picture shows, as rows: a twin of svc_marks's `picture_rows`, from a trace alone.

draw_twin.py TRACE [FROM] [COUNT] [unit=A-B] [task=A-B] [word=A-B]
"""
import csv
import sys

KINDS = {"loaded": "load", "stored": "store", "emitted": "output", "replaced": "replace", "committed": "commit"}
FATES = {"violation": "violation", "guess": "guess", "cancel": "cancel"}


def number(text):
    return int(text) if text else None


class Task:
    def __init__(self, index, row, at):
        self.number, self.unit, self.entry, self.first = index, row["unit"], row["word"] or "0", at
        self.last, self.fate = None, "active"


def tasks_of(rows):
    """Tasks in the order in which their fates are decided, then the active ones."""
    done, active, commits = [], [], 0
    for at, row in enumerate(rows):
        first = number(row["first"])
        begun = Task(commits + len(active), row, at) if row["kind"] == "assign" else None
        for task in active:
            if first is not None and first <= task.number:
                task.fate, task.last = FATES[row["cause"]], at
            elif row["kind"] == "commit" and number(row["word"]) == task.number:
                task.fate, task.last = "committed", at
        done += [t for t in active if t.last is not None]
        active = [t for t in active if t.last is None]
        if begun:
            active.append(begun)
        commits += row["kind"] == "commit"
    return done + active


def show(value):
    return "" if value is None else str(value)


class Choice:
    """The units, tasks and words that are shown: each a first and a last number, or None. What has no word is shown with any."""

    def __init__(self, options):
        self.ranges = {}
        for name in ["unit", "task", "word"]:
            first, _, last = options.get(name, "").partition("-")
            if first:
                self.ranges[name] = (int(first), int(last or first))

    def has(self, **numbers):
        for name, value in numbers.items():
            if name not in self.ranges or (name == "word" and value == ""):
                continue
            first, last = self.ranges[name]
            if value is None or not first <= int(value) <= last:
                return False
        return True


def asked(words):
    """Numbers, and options as a dictionary."""
    options = dict(word.split("=") for word in words if "=" in word)
    return [int(word) for word in words if "=" not in word], options


def main(path, *words):
    numbers, options = asked(words)
    show_rows(path, Choice(options), *numbers)


def show_rows(path, choice, begin=0, count=1000000):
    with open(path, newline="") as file:
        rows = list(csv.DictReader(file))
    rows = rows[: begin + count]
    begin = min(begin, len(rows))
    end = len(rows)
    bars = [t for t in tasks_of(rows) if t.first < end and (end if t.last is None else t.last) >= begin]
    for t in bars:
        if choice.has(unit=t.unit, task=t.number):
            print(f"bar,{t.number},{t.unit},{t.entry},{t.first},{show(t.last)},{t.fate}")
    stores = {}

    def runs(task, unit, at):
        last = end if task.last is None else task.last
        return task.unit == unit and max(task.first, begin) <= at <= min(last, end)

    for at in range(begin, end):
        row = rows[at]
        task = next((t for t in bars if runs(t, row["unit"], at)), None)
        kind = KINDS.get(row["reply"])
        shown = choice.has(unit=row["unit"], task=task.number if task else None, word=row["addr"])
        if kind and shown:
            values = [at, row["unit"], task.number if task else "", kind, row["addr"], row["word"], row["served"]]
            print("mark," + ",".join(map(str, values)))
        if shown and row["from"] and row["served"] in ("version", "spill", "committed"):
            print(f"arrow,{show(stores.get((row['from'], row['addr'])))},{at},version,{row['addr']}")
        if shown and row["cause"] == "violation":
            victim = next((t for t in bars if t.number == number(row["first"]) and t.last == at), None)
            if victim:
                reads = [
                    k
                    for k in range(max(victim.first, begin), at)
                    if rows[k]["unit"] == victim.unit and rows[k]["addr"] == row["addr"] != ""
                    and rows[k]["served"] not in ("", "hit")
                ]
                print(f"arrow,{at},{show(reads[0] if reads else None)},violation,{row['addr']}")
        if row["reply"] == "stored" and row["addr"]:
            stores[(row["unit"], row["addr"])] = at


if __name__ == "__main__":
    main(*sys.argv[1:])
