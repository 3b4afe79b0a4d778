#!/usr/bin/env python3
"""What `show`, `profile`, `draw` and `export` take beside `check`, in instructions: python3 views.py [SVCSIM]

SVCSIM is the program to be measured; without it the proved one is built by `rt run`. It needs rustc and valgrind, whose
callgrind counts the instructions of each command on the same trace with the same configuration. Traces come from runs by
`--schedule rotate`, so each time they are the same. The table is that of docs/speed.md.
"""
import os
import subprocess
import sys
import tempfile

ROOT = os.path.realpath(os.path.join(os.path.dirname(__file__), ".."))
EVENTS = 100000

# image, units, sets, ways, burst, and how many events there may be
ROWS = [
    ("memory", 1, 16, 2, 63, 0),
    ("memory", 1, 16, 2, 63, 10),
    ("memory", 1, 16, 2, 63, 1000),
    ("memory", 1, 16, 2, 63, EVENTS),
    ("memory", 4, 16, 2, 63, 10000),
    ("memory", 16, 16, 2, 63, 10000),
    ("memory", 16, 1, 1, 1, 10000),
    ("local", 4, 16, 2, 63, 10000),
    ("short", 1, 16, 2, 63, 10000),
    ("short", 16, 16, 2, 63, 10000),
    ("short", 16, 1, 1, 63, 10000),
    ("chain", 4, 16, 2, 63, 1000),
    ("small", 16, 16, 2, 63, 10000),
    ("large", 1, 16, 2, 63, 10),
    ("large", 16, 16, 2, 63, 0),
    ("large", 16, 16, 2, 63, 10),
    ("large", 16, 256, 4, 63, 1000),
    ("last", 1, 16, 2, 63, 10),
    ("last", 16, 16, 2, 63, 10),
    ("loads", 16, 256, 4, 63, 20000),
    ("stores", 16, 256, 4, 63, 20000),
    ("table", 4, 256, 4, 63, 70000),
    ("table", 16, 256, 4, 63, 70000),
]

# the name of a column, and what stands before and after the files
COLUMNS = [
    ("show", ["show"], []),
    ("show --at 1", ["show"], ["--at", "1"]),
    ("show, all", ["show"], ["--detail", "--moves", "--memory", "0-255"]),
    ("profile", ["profile"], []),
    ("--by task", ["profile"], ["--by", "task"]),
    ("--by unit", ["profile"], ["--by", "unit"]),
    ("--by word", ["profile"], ["--by", "word"]),
    ("--by pair", ["profile"], ["--by", "pair"]),
    ("--by supplier", ["profile"], ["--by", "supplier"]),
    ("--by pc", ["profile"], ["--by", "pc"]),
    ("draw, 400", ["draw"], ["--count", "400"]),
    ("draw, 1,000", ["draw"], ["--count", "1000"]),
    ("chrome", ["export"], ["--format", "chrome"]),
    ("vcd", ["export"], ["--format", "vcd", "--words", "0-7"]),
]


def one_by_one(tasks, words, store):
    """Tasks of which each goes over so many words of its own, which no other task names."""
    lines = [".svc_limit 65536"]
    for task in range(tasks):
        address = 0x100000 + 4 * words * task
        upper = (address + 0x800) >> 12
        lines += [
            ".svc_entry",
            f"    lui t0, {upper}",
            f"    addi t0, t0, {address - (upper << 12)}",
            f"    li t1, {words}",
            f"round{task}:",
            "    sw t1, 0(t0)" if store else "    lw t2, 0(t0)",
            "    addi t0, t0, 4",
            "    addi t1, t1, -1",
            f"    bnez t1, round{task}",
        ]
    lines += [".svc_entry", "    mv a7, zero", "    ecall", ".data"]
    return "\n".join(lines + ["    .word 0"] * (tasks * words)) + "\n"


def last_word(words):
    """One task that loads the last of so many words."""
    return f".svc_entry\n    li t0, {0x100000 + 4 * (words - 1)}\n    lw a0, 0(t0)\n    mv a7, zero\n    ecall\n.data\n" + "    .word 0\n" * words


TEXTS = {
    "loads": one_by_one(16, 1024, False),
    "stores": one_by_one(16, 1024, True),
    "table": one_by_one(64, 1024, False),
    "last": last_word(65536),
}


def run(words, **how):
    return subprocess.run(words, capture_output=True, text=True, **how)


def make_image(svcsim, images, name):
    if name in TEXTS:
        with open(f"{name}.s", "w") as text:
            text.write(TEXTS[name])
        run([svcsim, "assemble", f"{name}.s", f"{name}.svci"], check=True)
    else:
        run([images, name, f"{name}.svci"], check=True)


def instructions(words):
    """How many instructions a command takes, as callgrind counts them."""
    ran = run(["valgrind", "--tool=callgrind", "--callgrind-out-file=counts", *words])
    if ran.returncode != 0:
        sys.exit(f"views.py: {' '.join(words)}: {ran.stderr}")
    with open("counts") as counts:
        return int([line for line in counts if line.startswith("totals:")][-1].split()[1])


def measure(svcsim, row):
    image, units, sets, ways, burst, events = row
    config = ["--units", str(units), "--sets", str(sets), "--ways", str(ways), "--events", str(max(events, 1))]
    schedule = ["--turns", "10000000", "--schedule", "rotate", "--burst", str(burst)]
    run([svcsim, "run", f"{image}.svci", "--trace", "trace.csv", *schedule, *config])
    with open("trace.csv") as trace:
        lines = trace.readlines()
    lines = lines[: events + 1]
    with open("trace.csv", "w") as trace:
        trace.writelines(lines)
    base = instructions([svcsim, "check", f"{image}.svci", "trace.csv", *config])
    cells = []
    for name, before, after in COLUMNS:
        if "--at" in after and len(lines) < 2:
            cells.append("")
            continue
        files = [f"{image}.svci", "trace.csv"] + (["saved"] if before in (["draw"], ["export"]) else [])
        cells.append(f"{instructions([svcsim, *before, *files, *after, *config]) / base:.2f}")
    print(f"| {image} | {units} | {sets} | {ways} | {len(lines) - 1:,} | {base / 1e6:,.2f} | {' | '.join(cells)} |", flush=True)


def main():
    if len(sys.argv) > 1:
        svcsim = os.path.realpath(sys.argv[1])
    else:
        svcsim = f"{ROOT}/crates/svcsim/out/svcsim"
        run(["rt", "run"], cwd=f"{ROOT}/crates/svcsim", check=True)
    with tempfile.TemporaryDirectory() as folder:
        os.chdir(folder)
        images = f"{folder}/images"
        run(["rustc", "-O", "--edition", "2024", "-o", images, f"{ROOT}/bench/images.rs"], check=True)
        for name in sorted({row[0] for row in ROWS}):
            make_image(svcsim, images, name)
        print("| image | units | sets | ways | entries | check, million | " + " | ".join(name for name, _, _ in COLUMNS) + " |")
        print("|---" * (6 + len(COLUMNS)) + "|")
        for row in ROWS:
            measure(svcsim, row)


if __name__ == "__main__":
    main()
