#!/usr/bin/env python3
"""Holds `svcsim assemble` to what compilers write: compiles each C file of a folder by gcc and by clang, at several levels,
assembles what they write, compares the image with that of GNU's assembler and linker, runs it in order and on four units, and
compares its exit with that of the same file on the host. No part of the gate.

    examples/c/compilers.py FOLDER ["COMPILER OPTIONS" ..] [--every N] [--jobs N] [--rows FILE]

Without "COMPILER OPTIONS", as "gcc -O2 -g", it takes those of WAYS; with `--every N`, each N-th file. It prints a table with a line
for each way to compile, which counts the files that pass each step, and then why files don't, with how many and one of them. FILE
gets a row for each file and way. Needs gcc, clang and Debian's gcc-riscv64-unknown-elf. SVCSIM is the program's command, without it
crates/svcsim/out/svcsim.

A program is the compiled file, the functions of library.c and runtime.s that it needs, an `ebreak` for each name that is still
undefined, and start_main.s. One with such an `ebreak` is assembled and compared, and not run.
"""
import argparse
import collections
import concurrent.futures
import csv
import functools
import os
import pathlib
import re
import shlex
import subprocess
import sys
import tempfile

HERE = pathlib.Path(__file__).resolve().parent
ROOT = HERE.parents[1]
sys.path.insert(0, str(ROOT / "bench"))
import example_image  # noqa: E402

SVCSIM = shlex.split(os.environ.get("SVCSIM", str(ROOT / "crates/svcsim/out/svcsim")))
GNU = "riscv64-unknown-elf-"
RV32I = ["-march=rv32i", "-mabi=ilp32"]
COMPILERS = {"gcc": [GNU + "gcc"], "clang": ["clang", "--target=riscv32"]}
WAYS = [f"{name} {level}" for name in COMPILERS for level in ("-O0", "-O1", "-O2", "-O3", "-O2 -g")]
STEPS = ("compiled", "joined by GNU's tools", "assembled", "the same bytes", "all defined", "run", "as on the host")
SECONDS = 60

# What svcsim passes over and this version of GNU's assembler refuses, in what clang writes.
FOR_OTHER_TOOLS = re.compile(r"""^\s*\.section\s+"?\.(?:note|debug_|comment|eh_frame|gcc_except_tabl|stab).*\n
                                 (?:(?!\s*\.(?:section|text|data|bss)\b).*\n)* | ^\s*\.addrsig.*\n""", re.M | re.X)


class Refused(Exception):
    """Why a file doesn't pass a step."""


def output(words, **options):
    """What a command prints, if it ends well."""
    it = subprocess.run(words, capture_output=True, text=True, errors="replace", timeout=SECONDS, **options)
    if it.returncode != 0:
        raise Refused(it.stderr)
    return it.stdout


def undefined(text, room):
    """The names that a text leaves undefined, but for weak ones."""
    (room / "part.s").write_text(FOR_OTHER_TOOLS.sub("", text))
    output([GNU + "as", *RV32I, "-o", str(room / "part.o"), str(room / "part.s")])
    return re.findall(r"U (\S+)", output([GNU + "nm", "-u", str(room / "part.o")]))


def library(room):
    """The functions of library.c and runtime.s by name: the text of each, and the names that it needs."""
    options = ["-S", "-O2", "-fno-builtin", "-fno-tree-loop-distribute-patterns", "-ffunction-sections", "-o", "-"]
    made = output([*COMPILERS["gcc"], *RV32I, *options, str(HERE / "library.c")]).replace(".L", ".Llibrary_")
    head = "\t.section\t.text."
    texts = {it.split(",")[0]: head + it for it in made.split("\t.ident")[0].split(head)[1:]}
    texts |= dict.fromkeys(("__mulsi3", "__udivsi3", "__umodsi3"), (HERE / "runtime.s").read_text())
    return {name: (text, undefined(text, room)) for name, text in texts.items()}


def joined(compiled, functions, room):
    """A compiled text with all that it calls, and the names that nothing defines."""
    start = (HERE / "start_main.s").read_text()
    wanted = undefined(compiled, room) + ([] if re.search("^main:", compiled, re.M) else ["main"])
    texts, missing = {compiled: None}, []  # (a text comes once, in the order in which it is first wanted)
    for name in wanted:
        if name in functions:
            texts[functions[name][0]] = None
            wanted += [it for it in functions[name][1] if it not in wanted]
        elif not re.search(f"^{re.escape(name)}:", start, re.M):
            missing.append(name)
    return "".join(texts) + "".join(f"\n.text\n{name}: ebreak\n" for name in missing) + start, missing


def assemble(text, image):
    """Assembles a text, or says what is refused: what was expected, and the line."""
    try:
        output([*SVCSIM, "assemble", str(text), str(image)])
    except Refused as it:
        place = re.search(r":(\d+):\d+: found .*?, expected (.*)", str(it))
        line = text.read_text().splitlines()[int(place[1]) - 1:][:1] if place else []
        raise Refused(f"{place[2]} | {' '.join(' '.join(line).split())}" if place else str(it)) from it


def ending(*words):
    """What a run of svcsim outputs, and how it ends; what it says is wrong, where it does."""
    it = subprocess.run([*SVCSIM, *words], capture_output=True, text=True, timeout=SECONDS)
    return [line for line in it.stdout.splitlines() if re.match("(out|exit|trap),", line)] or [it.stderr.strip()]


@functools.cache
def on_the_host(source):
    """The status with which the file ends on the host, as a shell tells it."""
    with tempfile.TemporaryDirectory() as room:
        output(["gcc", "-w", "-O1", "-o", f"{room}/host", str(source), "-lm"])
        status = subprocess.run([f"{room}/host"], capture_output=True, timeout=SECONDS).returncode
    return status if status >= 0 else 128 - status


def steps(source, way, functions, room):
    """Compiles a file in a way and holds svcsim to it: yields at each step that it passes, and else raises."""
    name, *options = way.split()
    text, plain, image = room / "joined.s", room / "plain.s", room / "made.svci"
    compiled = output([*COMPILERS[name], *RV32I, "-S", "-w", *options, "-o", "-", str(source)], cwd=room)
    yield
    whole, missing = joined(compiled, functions, room)
    text.write_text(whole)
    plain.write_text(FOR_OTHER_TOOLS.sub("", whole))
    wanted = example_image.image_of([plain])[0]
    yield
    assemble(text, image)
    yield
    if image.read_bytes() != wanted:
        raise Refused("other bytes than GNU's")
    yield
    if missing:
        raise Refused("names that nothing defines | " + " ".join(sorted(missing)[:3]))
    yield
    ends = ending("seq", str(image), "--tasks", "9")
    if ends != ending("run", str(image), "--units", "4", "--schedule", "rotate") or not ends[-1].startswith("exit,"):
        raise Refused(f"in order it ends with {ends[-1]}")
    yield
    status = on_the_host(source)
    if int(ends[-1].split(",")[1]) % 256 != status:
        raise Refused(f"{ends[-1]}, and on the host {status}")
    yield


def reason(it):
    """Why, on one line without the names of files and places, so that equal reasons are equal."""
    said = getattr(it, "stderr", None) or str(it) or type(it).__name__
    line = next((line for line in said.splitlines() if re.search("rror|svcsim|relocation", line)), said.splitlines()[0])
    return re.sub(r"\S*/\S+:|\(\.text\S*|(fatal )?[eE]rror:|svcsim:", "", line).strip()[:160]


def passed(source, way, functions):
    """How many steps a file passes if compiled in a way, and why not the next one."""
    count = 0
    with tempfile.TemporaryDirectory() as room:
        try:
            for _ in steps(source, way, functions, pathlib.Path(room)):
                count += 1
        except (Refused, subprocess.SubprocessError, KeyError) as it:
            return count, reason(it)
    return count, ""


def report(ways, rows):
    """The table, and the reasons with the step that they end before."""
    print(f"| Compiled by | files | {' | '.join(STEPS)} |\n|---|" + "---|" * (len(STEPS) + 1))
    for way in ways:
        counts = [count for _, its, count, _ in rows if its == way]
        print(f"| `{way}` | {len(counts)} | {' | '.join(str(sum(it > at for it in counts)) for at in range(len(STEPS)))} |")
    for at, step in enumerate(STEPS):
        why = collections.defaultdict(list)
        for name, way, count, said in rows:
            if count == at:
                why[said.split(" | ")[0]].append(f"{name}, {way}: {said}")
        print(f"\nNot {step}: {sum(map(len, why.values()))}")
        for said, its in sorted(why.items(), key=lambda it: -len(it[1])):
            print(f"  {len(its)}: {said} ({its[0]})")


def main():
    wants = argparse.ArgumentParser()
    wants.add_argument("folder", type=pathlib.Path)
    wants.add_argument("ways", nargs="*", default=WAYS)
    wants.add_argument("--every", type=int, default=1)
    wants.add_argument("--jobs", type=int, default=2)
    wants.add_argument("--rows", default=os.devnull)
    words = wants.parse_args()
    with tempfile.TemporaryDirectory() as room:
        functions = library(pathlib.Path(room))
    tries = [(it, way) for it in sorted(words.folder.resolve().rglob("*.c"))[::words.every] for way in words.ways]
    rows = []
    with concurrent.futures.ThreadPoolExecutor(words.jobs) as pool, open(words.rows, "w", newline="", buffering=1) as to:
        for (it, way), its in zip(tries, pool.map(lambda it: passed(*it, functions), tries)):
            rows.append((it.stem, way, *its))
            csv.writer(to, lineterminator="\n").writerow(rows[-1])
    report(words.ways, rows)


if __name__ == "__main__":
    main()
