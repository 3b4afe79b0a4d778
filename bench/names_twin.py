#!/usr/bin/env python3
"""Puts names at the ends of rows, as `--names` does: names_twin.py NAMES FORM < text.

FORM is `shown` (rows of a machine), `counts` (rows of counts and an ending), `seen` (rows of what can be seen), `table` (a table without addresses),
`entry=N` or `word=N` (a table with an entry or a word in column N, counted from 0), `graph` (labels of words), or `listing`
(assembly whose comments begin with an address).
It reads the table by a dictionary and looks an address up from it downwards, unlike the program."""
import re
import sys

DATA = 0x100000


def name_of(names, address):
    """The nearest name at or below, of the same kind."""
    low = DATA if address >= DATA else 0
    for place in range(address, low - 1, -1):
        if place in names:
            behind = address - place
            return names[place] + (f"+{behind}" if behind else "")
    return ""


def address_of(form, fields):
    """The address of a row, if it has one."""
    if form == "shown":
        where = {"due": 1, "guess": 1, "full": 1, "open": 1, "task": 3, "pc": 2, "line": 2, "spill": 1, "order": 1, "memory": 1,
                 "move assign": 3, "move replace": 3}
        kind = " ".join((fields[0], fields[2])) if fields[0] == "move" else fields[0]
        place = where.get(kind)
        is_word = kind in ("line", "spill", "order", "memory", "move replace")
    elif form == "counts":
        place = 1 if fields[0] in ("full", "open") else None
        is_word = False
    elif form == "seen":
        if fields[0] != "seen":
            return None
        is_word = fields[1] != "begin"
        place = 3 if is_word else 4
    elif "=" in form:
        place = int(form.split("=")[1])
        is_word = form.startswith("word")
    else:
        return None
    if place is None or place >= len(fields) or not fields[place].isdigit():
        return None
    number = int(fields[place])
    return DATA + 4 * number if is_word else number


def names_in(path):
    """The first name of each address."""
    names = {}
    with open(path) as table:
        for row in table.read().splitlines()[1:]:
            name, address = row.split(",")
            names.setdefault(int(address), name)
    return names


def main():
    names = names_in(sys.argv[1])
    form = sys.argv[2]
    for number, row in enumerate(sys.stdin.read().splitlines()):
        if form == "graph":
            def named(label):
                words = [w if w.startswith("+") else name_of(names, DATA + 4 * int(w)) or w for w in label.split()]
                return " ".join(words)
            print(re.sub(r'(?<=label=")[^"]*', lambda found: named(found.group()), row))
            continue
        if form == "listing":
            comment = re.search(r"\t# 0x([0-9a-f]{8})", row)
            name = name_of(names, int(comment.group(1), 16)) if comment else ""
            print(f"{row} {name}" if name else row)
            continue
        fields = row.split(",")
        if number == 0 and form not in ("shown", "counts", "seen"):
            print(row + ",name")
            continue
        address = address_of(form, fields)
        print(row + "," + (name_of(names, address) if address is not None else ""))


if __name__ == "__main__":
    main()
