#!/usr/bin/env python3
"""What the speculation of a trace cost by instruction, by another way than the program's:
python3 instruction_twin.py IMAGE TRACE.csv [N]

It goes by the first N entries, or by all. It runs each task alone, by the interpreter of show_twin.py, and gives its
loads the values that the rows tell; there is no machine and no cache. Each task keeps its own rows. The queue of active
tasks is a list, and a squash is counted from its end by the row's number of squashed tasks.
"""
import csv
import sys

from show_twin import Image, Task, turn

COLUMNS = ["loads", "stores", "outputs", "loads-squashed", "violations-found", "violations-suffered"]
REPLIES = {"loaded": "loads", "stored": "stores", "emitted": "outputs"}


class NoBus:
    """Memory that is all 0: what a load gives is put into its register afterwards."""

    def read(self, task, word):
        return 0

    def write(self, task, word, value):
        pass


def run(task, row, image):
    """The turns of a row; answers where the asked one stands, if there is one."""
    for _ in range(int(row["local"])):
        turn(task, image, NoBus())
        assert task.reply[0] in ("ran", "trapped"), row
    if row["ask"] == "0":
        return None
    at = task.pc
    turn(task, image, NoBus())
    assert task.reply[0] == row["reply"] and str(task.reply[1]) == row["addr"], row
    register = image.text[at // 4] >> 7 & 31
    if row["reply"] == "loaded" and register:
        task.regs[register] = int(row["word"])
    return at


def replay(image, rows):
    """For each row, the address where its asked turn stands, if there is one, and the tasks that it squashes."""
    queue = []
    for row in rows:
        own = next((task for task in queue if str(task.unit) == row["unit"]), None)
        at = None
        if row["kind"] == "assign":
            queue.append(Task(0, int(row["unit"]), int(row["word"]), image))
            queue[-1].rows = []
        elif row["kind"] == "submit":
            at = run(own, row, image)
            own.rows.append((at, row))
        elif row["kind"] == "commit":
            queue.pop(0)
        victims = queue[len(queue) - int(row["squashed"] or 0):]
        yield row, at, victims
        for task in victims:
            queue.remove(task)


def addresses(path, rows):
    """The address of the instruction at which each row of a trace asks, if it does."""
    return [at for _, at, _ in replay(Image(path), rows)]


def table_of(image, rows):
    table = {}

    def count(at, column):
        table.setdefault(at, [0] * len(COLUMNS))[COLUMNS.index(column)] += 1

    for row, at, victims in replay(image, rows):
        if at is not None:
            table.setdefault(at, [0] * len(COLUMNS))
            if row["reply"] in REPLIES:
                count(at, REPLIES[row["reply"]])
        if row["cause"] == "violation":
            count(at, "violations-found")
            first = next(at for at, it in victims[0].rows if it["served"] and it["addr"] == row["addr"])
            count(first, "violations-suffered")
        for task in victims:
            for at, it in task.rows:
                if it["reply"] == "loaded":
                    count(at, "loads-squashed")
    return table


def main(image, trace, most=None):
    rows = list(csv.DictReader(open(trace, newline="")))
    table = table_of(Image(image), rows[:len(rows) if most is None else int(most)])
    print(",".join(["pc", *COLUMNS]))
    for at in sorted(table):
        print(",".join(map(str, [at, *table[at]])))


if __name__ == "__main__":
    main(*sys.argv[1:])
