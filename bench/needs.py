#!/usr/bin/env python3
"""What `depend` takes beside `seq`, in instructions: python3 needs.py [SVCSIM]

SVCSIM is the program to be measured; without it the proved one is built by `rt run`. It needs rustc and valgrind, whose
callgrind counts the instructions of each command on the same tasks of the same image. A ratio above 3 ends it with status 1.
"""
import os
import subprocess
import sys
import tempfile

ROOT = os.path.realpath(os.path.join(os.path.dirname(__file__), ".."))
MOST = 3

# an image that images.rs makes or a case has, and how many tasks
ROWS = [
    ("memory", 1000),
    ("local", 1000),
    ("short", 1000),
    ("small", 1000),
    ("large", 10),
    ("chain.svci", 1000),
    ("storm.svci", 1000),
    ("examples/from_c.svci", 1000),
]

FORMS = [[], ["--by", "task"], ["--by", "pair"], ["--by", "word"], ["--dot"]]


def instructions(words):
    """How many instructions a command takes, as callgrind counts them."""
    ran = subprocess.run(["valgrind", "--tool=callgrind", "--callgrind-out-file=counts", *words], capture_output=True, text=True)
    if ran.returncode not in (0, 2):
        sys.exit(f"needs.py: {' '.join(words)}: {ran.stderr}")
    with open("counts") as counts:
        return int([line for line in counts if line.startswith("totals:")][-1].split()[1])


def main():
    svcsim = os.path.realpath(sys.argv[1]) if len(sys.argv) > 1 else f"{ROOT}/crates/svcsim/out/svcsim"
    if len(sys.argv) == 1:
        subprocess.run(["rt", "run"], cwd=f"{ROOT}/crates/svcsim", capture_output=True, check=True)
    greatest = 0
    with tempfile.TemporaryDirectory() as folder:
        os.chdir(folder)
        images = f"{folder}/images"
        subprocess.run(["rustc", "-O", "--edition", "2024", "-o", images, f"{ROOT}/bench/images.rs"], check=True)
        print("| image | tasks | seq, million | " + " | ".join(" ".join(["depend", *form]) for form in FORMS) + " |")
        print("|---" * (3 + len(FORMS)) + "|")
        for name, tasks in ROWS:
            image = f"{ROOT}/crates/svc_cases/data/{name}"
            if "." not in name:
                image = f"{name}.svci"
                subprocess.run([images, name, image], check=True)
            base = instructions([svcsim, "seq", image, "--tasks", str(tasks)])
            ratios = [instructions([svcsim, "depend", image, "--tasks", str(tasks), *form]) / base for form in FORMS]
            greatest = max(greatest, *ratios)
            cells = " | ".join(f"{ratio:.2f}" for ratio in ratios)
            print(f"| {name} | {tasks} | {base / 1e6:,.2f} | {cells} |", flush=True)
    sys.exit(greatest > MOST)


main()
