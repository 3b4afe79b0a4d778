#!/usr/bin/env python3
"""What `svcsim export` saves of a trace: a twin of svc_export's `export_text`, from the trace's rows alone.

export_twin.py chrome|vcd TRACE UNITS [WORD..]
"""
import csv
import json
import sys

from draw_twin import KINDS, number, tasks_of

GIVEN = ("version", "spill", "committed")


def event(name, phase, at, unit, **more):
    """An event of a unit's track; its keys stand in the order in which the program writes them."""
    return {"name": name, **more.pop("before", {}), "ph": phase, **more.pop("after", {}), "ts": at, **more.pop("dur", {}),
            "pid": 0, "tid": unit, **more}


def fields(**told):
    return {key: value for key, value in told.items() if value is not None}


def flow(kind, digit, entry, store, storer, reader, read, word):
    """The two ends of a flow from a store to a reader, at the entry that shows it."""
    cat, name = {"cat": "flow"}, int(f"{digit}{entry}")
    yield event(kind, "s", store, storer, before=cat, after={"id": name})
    yield event(kind, "f", entry, reader, before=cat, after={"bp": "e", "id": name},
                args=fields(store=store, read=read, word=word))


def chrome(rows, units):
    total = len(rows)
    yield {"name": "process_name", "ph": "M", "pid": 0, "args": {"name": "svcsim"}}
    for unit in range(units):
        yield {"name": "thread_name", "ph": "M", "pid": 0, "tid": unit, "args": {"name": f"unit {unit}"}}
    tasks = tasks_of(rows)
    for t in tasks:
        end = total if t.last is None else t.last + 1
        yield event(f"task {t.number}", "X", t.first, int(t.unit), before={"cat": t.fate}, dur={"dur": end - t.first},
                    args={"task": t.number, "address": int(t.entry)})
    stores = {}
    for at, row in enumerate(rows):
        unit, word, value = int(row["unit"]), number(row["addr"]), number(row["word"])
        kind = None if row["reply"] == "replaced" else KINDS.get(row["reply"])
        runs = [t for t in tasks if t.unit == row["unit"] and t.first <= at and (t.last is None or at <= t.last)]
        if kind == "commit":
            yield event(kind, "i", at, unit, after={"s": "t"}, args=fields(entry=at, task=value))
        elif kind:
            told = fields(entry=at, task=runs[0].number if runs else None, word=word, value=value, by=row["served"] or None)
            yield event(kind, "i", at, unit, after={"s": "t"}, args=told)
        store = stores.get((row["from"], row["addr"]))
        if row["from"] and row["served"] in GIVEN and store is not None:
            yield from flow("version", 1, at, store, int(row["from"]), unit, at, word)
        if row["cause"] == "violation":
            victim = next((t for t in tasks if t.number == number(row["first"]) and t.last == at), None)
            if victim:
                reads = [k for k in range(victim.first, at) if rows[k]["unit"] == victim.unit
                         and rows[k]["addr"] == row["addr"] != "" and rows[k]["served"] not in ("", "hit")]
                yield from flow("violation", 2, at, at, unit, int(victim.unit), reads[0] if reads else None, word)
        if row["reply"] == "stored" and row["addr"]:
            stores[(row["unit"], row["addr"])] = at
    for at, row in enumerate(rows):
        if row["reply"] == "replaced":
            yield event("replacement", "i", at, int(row["unit"]), after={"s": "t"}, args=fields(entry=at, word=number(row["addr"])))


def chrome_text(rows, units):
    lines = (json.dumps(e, separators=(",", ":")) for e in chrome(rows, units))
    return '{"traceEvents":[\n' + ",\n".join(lines) + "\n]}\n"


def bits(value):
    return f"b{value:032b}"


def vcd(rows, units, words):
    yield "$timescale 1 us $end"
    yield "$scope module svcsim $end"
    for unit in range(units):
        yield f"$scope module unit{unit} $end"
        yield f"$var integer 32 t{unit} task $end"
        yield f"$var wire 32 a{unit} address $end"
        yield f"$var wire 1 b{unit} busy $end"
        yield "$upscope $end"
    for word in words:
        yield f"$var wire 32 w{word} word{word} $end"
    yield "$upscope $end"
    yield "$enddefinitions $end"
    yield "#0"
    yield "$dumpvars"
    for unit in range(units):
        yield from (f"bx t{unit}", f"bx a{unit}", f"0b{unit}")
    for word in words:
        yield f"bx w{word}"
    yield "$end"
    tasks = tasks_of(rows)
    begun = {t.first: t for t in tasks}
    for at, row in enumerate(rows):
        if at in begun:
            t = begun[at]
            yield from (f"{bits(t.number)} t{t.unit}", f"{bits(int(t.entry))} a{t.unit}", f"1b{t.unit}")
        for t in tasks:
            if t.last != at:
                continue
            yield from (f"bx t{t.unit}", f"bx a{t.unit}", f"0b{t.unit}")
            if t.fate != "committed":
                continue
            for word in words:
                left = [r["word"] for r in rows[t.first:at]
                        if r["unit"] == t.unit and r["reply"] == "stored" and r["addr"] == str(word)]
                if left:
                    yield f"{bits(int(left[-1]))} w{word}"
        yield f"#{at + 1}"


def main(form, path, units, *words):
    with open(path, newline="") as file:
        rows = list(csv.DictReader(file))
    if form == "chrome":
        sys.stdout.write(chrome_text(rows, int(units)))
    else:
        sys.stdout.write("".join(line + "\n" for line in vcd(rows, int(units), list(map(int, words)))))


if __name__ == "__main__":
    main(*sys.argv[1:])
