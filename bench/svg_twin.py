#!/usr/bin/env python3
"""The picture that `draw` saves: a twin of svc_draw's text, from a trace, with the addresses that instruction_twin.py finds.

svg_twin.py IMAGE TRACE UNITS [FROM] [COUNT] [unit=A-B] [task=A-B] [word=A-B] [values=auto|all|none] [compact=yes] [names=TABLE]
"""
import csv
import sys

from draw_twin import Choice, asked, number, tasks_of
from instruction_twin import addresses
from names_twin import DATA, name_of, names_in

LEFT, WIDTH, RIGHT, TOP = 90, 1490, 1580, 118
FILLS = {
    "active": "url(#active)", "committed": "#d3ead0", "violation": "url(#violation)", "guess": "url(#guess)", "cancel": "url(#cancel)",
}
NAMES = {
    "active": "still active", "committed": "committed", "violation": "squashed: read too early", "guess": "squashed: wrong guess",
    "cancel": "squashed: cancelled",
}
STEPS = [1, 2, 5, 10, 20, 50, 100, 200, 500, 1000, 2000, 5000, 10000, 20000, 50000, 100000]
LETTERS = {"": "", "hit": "H", "reuse": "R", "version": "V", "spill": "S", "committed": "C", "memory": "M"}
# Of many entries, things of a kind that stand near one another are joined: what these are called, and what they have in common.
STRIPES = {
    "committed": ("committed", " fill='#d3ead0' stroke='#333'"), "violation": ("read too early", " fill='url(#violation)'"),
    "guess": ("wrong guess", " fill='url(#guess)'"), "cancel": ("cancelled", " fill='url(#cancel)'"),
}
JOINED = {
    "commit": ("commits", " stroke='#2e7d32' stroke-width='2' stroke-dasharray='6 4'"),
    "version": ("versions read", " stroke='#14508c' stroke-width='2' marker-end='url(#thin)'"),
    "violation": ("reads too early", " stroke='#b01010' stroke-width='4' marker-end='url(#bold)'"),
    "load": ("loads", ""), "store": ("stores", ""), "output": ("words put out", ""), "replace": ("lines replaced", ""),
}
# What became of a task, by which entry; and what a read was given.
CAUSES = {
    "committed": "committed it", "violation": "squashed it: an earlier task stored to a word that had been read too early",
    "guess": "squashed it: a task before it went on elsewhere than guessed, or ended the program",
    "cancel": "squashed it: it, or a task before it, was cancelled",
}
SUPPLIES = {
    "hit": "its own line", "reuse": "its own committed line", "version": "the version", "spill": "the spilled version",
    "committed": "the committed version", "memory": "memory",
}
ROWS = ["load", "store", "output", "replace"]
RIM = "<g paint-order='stroke' stroke='#fff' stroke-width='4' stroke-linejoin='round'>\n"


def shape(kind, size):
    """A kind of mark, about its middle."""
    more = size + 2
    return {
        "load": f"<circle r='{size}' fill='#fff' stroke='#111' stroke-width='2'/>",
        "store": f"<rect x='-{size}' y='-{size}' width='{2 * size}' height='{2 * size}' fill='#111'/>",
        "output": f"<path d='M-{more} 0L0 -{more}L{more} 0L0 {more}Z' fill='#ffe04a' stroke='#111' stroke-width='2'/>",
        "replace": f"<path d='M-{size} -{size}L{size} {size}M-{size} {size}L{size} -{size}' stroke='#111' stroke-width='3'/>",
    }[kind]


def letter(size, fill, text):
    if size >= 7:
        style = f"font-size='{size + 2}' font-weight='bold' text-anchor='middle' fill='{fill}'"
        return f"<text y='{(size + 2) * 9 // 25}' {style}>{text}</text>"
    return f"<text y='-{size + 2}' font-size='9' font-weight='bold' text-anchor='middle'>{text}</text>"


def kinds(size):
    text = ""
    for kind in ["load", "store", "output", "replace"]:
        text += f"<g id='{kind}'>{shape(kind, size)}</g>\n"
    for supplier in "HRVSCM":
        for kind, fill in [("load", "#111"), ("store", "#fff")]:
            text += f"<g id='{kind}{supplier}'>{shape(kind, size)}{letter(size, fill, supplier)}</g>\n"
    return text


def sample(x, y, kind, after, words):
    return f"<use href='#{kind}' x='{x}' y='{y}'/><text x='{after}' y='{y + 5}'>{words}</text>\n"


def label(x, y, style, words):
    return f"<text x='{x}' y='{y}' {style}>{words}</text>\n"


class Picture:
    def __init__(self, image, lines, options, units, begin=0, count=1000000):
        self.choice, self.values = Choice(options), options.get("values", "auto")
        self.compact = options.get("compact") == "yes"
        self.names = names_in(options["names"]) if "names" in options else {}
        self.height = 240 if self.compact else 720
        self.bottom = TOP + self.height
        # Later entries aren't looked at.
        self.lines, self.units = lines[: begin + count + 1], units
        rows = list(csv.DictReader(self.lines))
        self.total = len(rows)
        self.begin = min(begin, self.total)
        self.end = min(self.begin + count, self.total)
        self.all_rows, self.rows = rows, rows[: self.end]
        self.addresses = addresses(image, self.rows)
        self.shown = max(self.end - self.begin, 1)
        self.bar_height = min(self.height // units * 4 // 5, 130)
        self.columns = min(360 // units, 149)
        self.radius = min(min(max(WIDTH // self.shown // 3, 4), 10), self.bar_height // 4)
        tasks = tasks_of(rows)
        self.bars = [t for t in tasks if t.first < self.end and (self.end if t.last is None else t.last) >= self.begin]
        self.turns()

    def turns(self):
        """How many turns each task took: those of its submits."""
        for task in self.bars:
            last = self.total if task.last is None else task.last + 1
            mine = [r for r in self.all_rows[task.first : last] if r["kind"] == "submit" and r["unit"] == task.unit]
            task.turns = sum(int(r["local"]) + int(r["ask"]) for r in mine)

    def x(self, place):
        if place is None:
            return LEFT
        before = max(min(place, self.end) - self.begin, 0)
        return LEFT + min((2 * before + 1) * WIDTH // (2 * self.shown), WIDTH)

    def lane_top(self, lane):
        return TOP + min(lane * self.height // self.units, self.height)

    def bar_top(self, lane):
        return self.lane_top(lane) + (self.height // self.units - self.bar_height) // 2

    def y(self, lane):
        return self.bar_top(lane) + self.bar_height * 18 // 25

    def bar_left(self, task):
        return LEFT if task.first < self.begin else self.x(task.first)

    def bar_width(self, task):
        ends = task.last is None or task.last >= self.end
        return max((RIGHT if ends else self.x(task.last)) - self.bar_left(task), 2)

    # ---- what each picture has

    def head(self):
        patterns = [
            ("violation", " patternTransform='rotate(45)'", "#fbd5d0", "<rect width='2' height='8' fill='#d9655a'/>"),
            ("guess", " patternTransform='rotate(135)'", "#fdeac3", "<rect width='2' height='8' fill='#c9922e'/>"),
            ("cancel", "", "#e6ddf3", "<circle cx='4' cy='4' r='2' fill='#7a5bb0'/>"),
            ("active", "", "#ffffff", "<rect width='8' height='1' y='4' fill='#9ab4d0'/>"),
        ]
        text = "<?xml version='1.0' encoding='UTF-8'?>\n<svg xmlns='http://www.w3.org/2000/svg' width='1600' "
        text += f"height='{self.bottom + 62}' viewBox='0 0 1600 {self.bottom + 62}' "
        text += "font-family='Helvetica, Arial, sans-serif' font-size='14' fill='#111'>\n<defs>\n"
        for name, turn, paper, lines in patterns:
            text += f"<pattern id='{name}' width='8' height='8' patternUnits='userSpaceOnUse'{turn}>"
            text += f"<rect width='8' height='8' fill='{paper}'/>{lines}</pattern>\n"
        text += f"</defs>\n<rect width='1600' height='{self.bottom + 62}' fill='#fff'/>\n<defs>\n"
        for name, width, height, tip, path, color in [
            ("thin", 12, 10, 11, "M0 0L11 5L0 10Z", "#14508c"), ("bold", 18, 16, 18, "M0 0L17 8L0 16Z", "#b01010"),
        ]:
            text += f"<marker id='{name}' markerWidth='{width}' markerHeight='{height}' refX='{tip + self.radius}' refY='{height // 2}' "
            text += f"orient='auto' markerUnits='userSpaceOnUse'><path d='{path}' fill='{color}'/></marker>"
        return text + "\n" + kinds(self.radius) + "</defs>\n"

    def legend(self):
        count = self.end - self.begin
        text = "<text x='90' y='30' font-size='18' font-weight='bold'>"
        text += f"{count} of {self.total} entries, from entry {self.begin}; units: {self.units}</text>\n"
        for x, by in [(790, "hit"), (875, "reuse"), (980, "version"), (1095, "spill"), (1190, "committed"), (1325, "memory")]:
            text += sample(x, 25, "load" + LETTERS[by], x + 20, by)
        text += sample(1445, 25, "replace", 1465, "line replaced")
        for x, fate in zip(range(90, 1011, 230), ["committed", "violation", "guess", "cancel", "active"]):
            text += f"<rect x='{x}' y='48' width='32' height='18' fill='{FILLS[fate]}' stroke='#111'/>"
            text += f"<text x='{x + 40}' y='62'>{NAMES[fate]}</text>\n"
        for x, kind, words in [(106, "load", "load"), (226, "store", "store"), (346, "output", "word put out")]:
            text += sample(x, 90, kind, x + 24, words)
        text += "<path d='M550 80V100' stroke='#2e7d32' stroke-width='2' stroke-dasharray='6 4'/><text x='562' y='95'>commit</text>\n"
        for color, width, name, start, end, words in [
            ("#14508c", 2, "thin", 670, 735, "a version goes from its store to a reader"),
            ("#b01010", 4, "bold", 1090, 1160, "a store finds a read too early, and squashes its task"),
        ]:
            text += f"<path d='M{start} 90H{end}' stroke='{color}' stroke-width='{width}' marker-end='url(#{name})'/>"
            text += sample(end, 90, "load", end + 20, words)
        return text

    def lanes(self):
        text = ""
        for n in range(self.units):
            top = self.lane_top(n)
            height = self.lane_top(n + 1) - top
            text += f"<rect x='90' y='{top}' width='1490' height='{height}' fill='{'#fff' if n % 2 else '#f4f5f7'}'/>"
            text += f"<text x='20' y='{top + height // 2 + 5}'>unit {n}</text>\n"
        return text + f"<rect x='90' y='118' width='1490' height='{self.height}' fill='none' stroke='#888'/>\n"

    # ---- bars and marks

    def word_name(self, word):
        return name_of(self.names, DATA + 4 * int(word)) if word else ""

    def bar(self, t):
        lane = int(t.unit)
        name = name_of(self.names, int(t.entry))
        entry = f"{t.entry} {name}" if name else t.entry
        text = f"<rect x='{self.bar_left(t)}' y='{self.bar_top(lane)}' width='{self.bar_width(t)}' height='{self.bar_height}' rx='3' "
        text += f"fill='{FILLS[t.fate]}' stroke='#333'><title>task {t.number} at address {entry}, begun by entry {t.first}: "
        became = "nothing has decided yet what becomes of it" if t.last is None else f"entry {t.last} {CAUSES[t.fate]}"
        return text + f"{NAMES[t.fate]}; turns: {t.turns}\n{became}</title></rect>\n"

    def bar_name(self, t):
        letters = max(self.bar_width(t) - 8, 0) // 7
        entry = name_of(self.names, int(t.entry)) or t.entry
        number, both = len(str(t.number)), len(str(t.number)) + len(entry)
        if letters < number:
            return ""
        words = f"task {t.number} @ {entry}" if both + 8 <= letters else f"{t.number}@{entry}" if both + 1 <= letters else str(t.number)
        return label(self.bar_left(t) + 4, self.bar_top(int(t.unit)) + 12, "font-size='12'", words)

    def chosen_bars(self):
        return [t for t in self.bars if self.choice.has(unit=t.unit, task=t.number)]

    def chosen_marks(self):
        chosen = []
        if not self.choice.ranges:
            return self.marks()
        for mark in self.marks():
            at, row = mark[1], self.rows[mark[1]]
            runs = [t for t in self.bars if t.unit == row["unit"] and t.first <= at and (t.last is None or at <= t.last)]
            if self.choice.has(unit=row["unit"], task=runs[0].number if runs else None, word=row["addr"]):
                chosen.append(mark)
        return chosen

    def marks(self):
        """Kind, index and, of an arrow, its other end: a unit and an index."""
        stores, found = {}, []
        for at in range(self.begin, self.end):
            row = self.rows[at]
            kind = {"loaded": "load", "stored": "store", "emitted": "output", "replaced": "replace", "committed": "commit"}.get(row["reply"])
            if kind:
                found.append((kind, at, None))
            if row["from"] and row["served"] in ("version", "spill", "committed"):
                found.append(("version", at, (int(row["from"]), stores.get((row["from"], row["addr"])))))
            if row["cause"] == "violation":
                found += self.violation(at, row)
            if row["reply"] == "stored" and row["addr"]:
                stores[(row["unit"], row["addr"])] = at
        return found

    def violation(self, at, row):
        for t in self.bars:
            if t.number == number(row["first"]) and t.last == at:
                for k in range(max(t.first, self.begin), at):
                    read = self.rows[k]
                    if read["unit"] == t.unit and read["addr"] == row["addr"] != "" and read["served"] not in ("", "hit"):
                        return [("violation", at, (int(t.unit), k))]
                return [("violation", at, (int(t.unit), None))]
        return []

    def ends(self, mark):
        kind, at, other = mark
        here = (self.x(at), self.y(int(self.rows[at]["unit"])))
        there = (self.x(other[1]), self.y(other[0])) if other else here
        return here, there

    def mark(self, mark):
        kind, at, _ = mark
        (x, y), (right, down) = self.ends(mark)
        row = self.rows[at]
        used = kind + (LETTERS[row["served"]] if kind in ("load", "store") else "")
        shape, element = {
            "commit": (f"<path d='M{x} 118V{self.bottom}' fill='none' stroke='#2e7d32' stroke-width='2' stroke-dasharray='6 4'>", "path"),
            "version": (f"<path d='M{right} {down}L{x} {y}' fill='none' stroke='#14508c' stroke-width='2' marker-end='url(#thin)'>", "path"),
            "violation": (f"<path d='M{x} {y}L{right} {down}' fill='none' stroke='#b01010' stroke-width='4' marker-end='url(#bold)'>", "path"),
        }.get(kind, (f"<use href='#{used}' x='{x}' y='{y}'>", "use"))
        name = self.word_name(row["addr"])
        called = f"word {row['addr']} is {name}\n" if name else ""
        told = f"entry {at}: {self.lines[at + 1]}{self.sentence(mark)}\n{called}{self.address(at)}"
        return f"{shape}<title>{told}</title></{element}>\n"

    def address(self, at):
        """A line with the address of the instruction at which an entry asks, if it does, and its name."""
        address = self.addresses[at]
        if address is None:
            return ""
        name = name_of(self.names, address)
        return f"at address {address} {name}\n" if name else f"at address {address}\n"

    def sentence(self, mark):
        """What a mark means."""
        kind, at, other = mark
        row = self.rows[at]
        task = next((t for t in self.bars if t.unit == row["unit"] and t.first <= at and (t.last is None or at <= t.last)), None)
        actor = f"task {task.number} on unit {row['unit']}" if task else f"unit {row['unit']}"
        supply = SUPPLIES.get(row["served"], "")
        if supply.endswith("version") and row["from"]:
            supply += f" of unit {row['from']}"
        word = f"word {row['addr']}"
        if kind == "commit":
            return f"task {row['word']} is committed, as unit {row['unit']} asked"
        if kind == "replace":
            return f"unit {row['unit']} lets a line go, of {word}"
        if kind == "output":
            return f"{actor} puts out {row['word']}"
        if kind == "version":
            stored = f", stored by entry {other[1]}" if other[1] is not None else ""
            return f"{actor} reads {word} in the version of unit {other[0]}{stored}"
        if kind == "violation":
            read = f" in entry {other[1]}" if other[1] is not None else ""
            return f"{actor} stores {word}, which task {row['first']} read too early{read}; tasks squashed: {row['squashed']}"
        done = f"{word} as {row['word']}" if row["addr"] else row["word"]
        before = {"load": "from", "store": "its other bytes from"}[kind]
        return f"{actor} {kind}s {done}" + (f", {before} {supply}" if supply else "")

    def all_words(self, marks):
        """The words of marks, which have room up to the mark before theirs on the lane."""
        edges, text = {}, ""
        for mark in marks:
            unit = self.rows[mark[1]]["unit"]
            text += self.words(mark, edges.get(unit, LEFT))
            edges[unit] = self.x(mark[1]) + self.radius
        return text

    def words(self, mark, edge):
        kind, at, _ = mark
        row = self.rows[at]
        (x, y), (right, down) = self.ends(mark)
        value = row["word"] or "0"
        ended = "text-anchor='end'"
        if kind in ("load", "store", "output"):
            end = x - self.radius - 6
            letters = max(end - edge, 0) // 8
            both = f"{self.word_name(row['addr']) or 'word ' + row['addr']} = {value}" if row["addr"] else value
            words = both if len(both) <= letters else value
            said = {"auto": len(value) <= letters, "all": True, "none": False}[self.values]
            return label(end, y + 5, ended, words) if said else ""
        if kind == "replace" or WIDTH // self.shown < 100 or self.bar_height < 60:
            return ""
        if kind == "commit":
            return label(x - 6, 136, ended, f"task {value} is committed")
        words = "the version goes to a reader" if kind == "version" else "read too early"
        return label((x + right) // 2 + 12, (y + down) // 2 + 2, "font-style='italic'", words)

    # ---- things that are joined

    def column(self, place):
        return max(min(place, self.end) - self.begin, 0) * self.columns // self.shown

    def column_x(self, place):
        return LEFT + min((2 * self.column(place) + 1) * WIDTH // (2 * self.columns), WIDTH)

    def spot_x(self, place):
        return LEFT if place is None else self.column_x(place)

    def row_y(self, lane, kind):
        return self.bar_top(lane) + self.bar_height * (2 * ROWS.index(kind) + 1) // 8

    def is_short(self, task):
        end = self.end if task.last is None else min(task.last, self.end)
        return self.column(max(task.first, self.begin)) == self.column(end)

    def joined(self, cells, name, style, element, shape):
        """A group with an element for each cell, in order, of things that are pairs of a first and a last entry."""
        text = f"<g{style}>\n"
        for key in sorted(cells):
            things = cells[key]
            text += f"{shape(key, things)}<title>{len(things)} {name}, entries {things[0][0]} to {things[-1][1]}</title></{element}>\n"
        return text + "</g>\n"

    def stripes(self, fate):
        cells = {}
        for t in self.chosen_bars():
            if t.fate == fate and self.is_short(t):
                begin = max(t.first, self.begin)
                cells.setdefault((int(t.unit), self.column(begin)), []).append((begin, t.last))

        def box(key, things):
            left, right = self.x(things[0][0]), self.x(things[-1][1])
            y = self.bar_top(key[0]) + self.bar_height * list(STRIPES).index(fate) // 4
            return f"<rect x='{left}' y='{y}' width='{max(right - left, 2)}' height='{self.bar_height // 4}'>"

        return self.joined(cells, *STRIPES[fate], "rect", box)

    def joined_marks(self, marks, kind):
        cells = {}
        for mark in marks:
            if mark[0] == kind:
                lane = 0 if kind == "commit" else int(self.rows[mark[1]]["unit"])
                cells.setdefault((lane, self.column(mark[1])), []).append((mark[1], mark[1], mark[2]))

        def line(x, y, right, down):
            return f"<path d='M{x} {y}L{right} {down}'>"

        def shape(key, things):
            at, _, other = things[0]
            lane = int(self.rows[at]["unit"])
            x = self.column_x(at)
            if kind == "commit":
                return line(x, TOP, x, self.bottom)
            if kind == "version":
                return line(self.spot_x(other[1]), self.row_y(other[0], "store"), x, self.row_y(lane, "load"))
            if kind == "violation":
                return line(x, self.row_y(lane, "store"), self.spot_x(other[1]), self.row_y(other[0], "load"))
            return f"<use href='#{kind}' x='{x}' y='{self.row_y(lane, kind)}'>"

        return self.joined(cells, *JOINED[kind], "use" if kind in ROWS else "path", shape)

    def joined_text(self, marks):
        long = [t for t in self.chosen_bars() if not self.is_short(t)]
        parts = [self.head(), self.legend(), self.lanes(), *map(self.bar, long), *map(self.stripes, STRIPES)]
        parts += [self.joined_marks(marks, kind) for kind in JOINED]
        parts += [] if self.compact else [RIM, *map(self.bar_name, long), "</g>\n"]
        parts += [f"<text x='835' y='{self.bottom + 46}' text-anchor='middle'>"]
        parts += ["a mark stands for all of its kind near it; point at it for how many</text>\n"]
        return "".join(parts + [self.axis(), "</svg>\n"])

    def axis(self):
        step = next((s for s in STEPS if 44 * self.shown <= s * WIDTH), 100000)
        text = ""
        for at in range(self.begin, self.end):
            if at % step == 0:
                x = self.x(at)
                text += f"<path d='M{x} {self.bottom}V{self.bottom + 7}' stroke='#111'/>"
                text += f"<text x='{x}' y='{self.bottom + 22}' text-anchor='middle'>{at}</text>\n"
        if not self.compact:
            text += f"<text x='90' y='{self.bottom + 46}'>in a bar: the number of its task @ the address where that began</text>\n"
        return text + f"<text x='1580' y='{self.bottom + 46}' text-anchor='end'>entry of the trace, counted from 0</text>\n"

    def text(self):
        marks, bars = self.chosen_marks(), self.chosen_bars()
        if self.shown >= 1000:
            return self.joined_text(marks)
        layers = [["commit"], ["version", "violation"], ["load", "store", "output", "replace"]]
        parts = [self.head(), self.legend(), self.lanes(), *map(self.bar, bars)]
        parts += [self.mark(m) for layer in layers for m in marks if m[0] in layer]
        parts += [] if self.compact else [RIM, self.all_words(marks), *map(self.bar_name, bars), "</g>\n"]
        return "".join(parts + [self.axis(), "</svg>\n"])


def main(image, path, *words):
    numbers, options = asked(words)
    with open(path, newline="") as file:
        lines = file.read().splitlines(keepends=True)
    sys.stdout.write(Picture(image, lines, options, *numbers).text())


if __name__ == "__main__":
    main(*sys.argv[1:])
