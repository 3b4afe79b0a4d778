#!/usr/bin/env python3
"""The profile of a trace, by another way than the program's: python3 profile_twin.py TRACE.csv [TABLE [UNITS]]

TABLE is task, unit, word, pair or supplier.

It keeps the queue of active tasks as a list of units, and counts each squash from the queue's end by the row's number
of squashed tasks, where the program goes by the tasks' numbers.
"""
import csv
import sys

MEASURES = ["tasks", "turns", "loads", "stores"]
totals = {}


def settle(task, fate, last=""):
    task["fate"], task["last"] = fate, last
    for measure in MEASURES:
        key = (measure, fate)
        totals[key] = totals.get(key, 0) + task[measure]


queue, tasks = [], []
served = {}
words = {}
pairs, supplies = {}, {}
events = begun = replaced = committed = 0
for at, row in enumerate(csv.DictReader(open(sys.argv[1], newline=""))):
    events += 1
    kind = row["kind"]
    word = words.setdefault(int(row["addr"]), [0] * 6) if row["addr"] else [0] * 6
    word[0] += row["reply"] == "loaded"
    word[1] += row["reply"] == "stored"
    word[2] += row["served"] == "version"
    word[3] += row["cause"] == "violation"
    if row["served"]:
        served[row["served"]] = served.get(row["served"], 0) + 1
    if kind == "assign":
        begun += 1
        task = {"unit": row["unit"], "tasks": 1, "turns": 0, "loads": 0, "stores": 0}
        task |= {"number": committed + len(queue), "entry": row["word"], "first": at}
        queue.append(task)
        tasks.append(task)
    elif kind == "submit":
        task = next(t for t in queue if t["unit"] == row["unit"])
        task["turns"] += int(row["local"]) + int(row["ask"])
        task["loads"] += row["reply"] == "loaded"
        task["stores"] += row["reply"] == "stored"
    elif kind == "replace":
        replaced += 1
    elif kind == "commit":
        settle(queue.pop(0), "committed", at)
        committed += 1
    if row["served"] == "version":
        places = [next(i for i, t in enumerate(queue) if t["unit"] == row[name]) for name in ("from", "unit")]
        met = (*(committed + place for place in places), int(row["addr"]))
        supplies[met] = supplies.get(met, 0) + 1
    if row["cause"] == "violation":
        storer = next(t for t in queue if t["unit"] == row["unit"])
        victims = queue[-int(row["squashed"]):]
        pair = pairs.setdefault((storer["number"], victims[0]["number"], int(row["addr"])), [0, 0])
        pair[0] += 1
        pair[1] += sum(t["turns"] for t in victims)
    for _ in range(int(row["squashed"] or 0)):
        if row["cause"] == "violation":
            word[4] += 1
            word[5] += queue[-1]["turns"]
        settle(queue.pop(), row["cause"], at)
for task in queue:
    settle(task, "active")


def total(measure, *fates):
    return sum(totals.get((measure, fate), 0) for fate in fates)


def by_task():
    columns = ["number", "unit", "entry", "first", "last", "turns", "loads", "stores", "fate"]
    print("task," + ",".join(columns[1:]))
    for task in tasks:
        print(",".join(str(task[column]) for column in columns))


def by_unit(units):
    print("unit,begun,committed,squashed,turns-committed,turns-squashed,loads,stores")
    for unit in range(units):
        own = [task for task in tasks if task["unit"] == str(unit)]
        kept = [task for task in own if task["fate"] == "committed"]
        lost = [task for task in own if task["fate"] not in ("committed", "active")]
        counts = [len(own), len(kept), len(lost)]
        counts += [sum(task[name] for task in part) for name, part in
                   (("turns", kept), ("turns", lost), ("loads", own), ("stores", own))]
        print(",".join(map(str, [unit, *counts])))


def by_word():
    print("word,loads,stores,versions,violations,squashed,turns-squashed")
    for word in sorted(words):
        print(",".join(map(str, [word, *words[word]])))


def by_pair():
    print("storer,victim,word,squashes,turns-squashed")
    for pair in sorted(pairs):
        print(",".join(map(str, [*pair, *pairs[pair]])))


def by_supplier():
    print("supplier,reader,word,reads")
    for met in sorted(supplies):
        print(",".join(map(str, [*met, supplies[met]])))


table = sys.argv[2] if len(sys.argv) > 2 else None
if table:
    tables = {"task": by_task, "unit": lambda: by_unit(int(sys.argv[3])), "word": by_word}
    (tables | {"pair": by_pair, "supplier": by_supplier})[table]()
    sys.exit()
print(f"events,{events}")
print(f"tasks-begun,{begun}")
for fate in ["committed", "violation", "guess", "cancel", "active"]:
    print(f"tasks-{fate},{total('tasks', fate)}")
for measure in MEASURES[1:]:
    print(f"{measure}-committed,{total(measure, 'committed')}")
    print(f"{measure}-squashed,{total(measure, 'violation', 'guess', 'cancel')}")
    print(f"{measure}-active,{total(measure, 'active')}")
for supplier in ["hit", "reuse", "version", "spill", "committed", "memory"]:
    print(f"served-{supplier},{served.get(supplier, 0)}")
print(f"replaced,{replaced}")
