#!/usr/bin/env python3
"""Writes what the cases of pictures expect, by `svg_twin.py`: for each line of the list that saves one, and whose other
words it reads. Run it in `crates/svc_cases/data`. Images of programs' texts are made by GNU's tools."""
import csv
import os
import subprocess
import tempfile

BENCH = os.path.dirname(os.path.abspath(__file__))


def image_file(image, folder):
    """The image, made of a text if it is one of the programs."""
    if not image.startswith("programs/"):
        return image
    path = f"{folder}/image"
    subprocess.run(["python3", f"{BENCH}/example_image.py", image.replace(".svci", ".s"), path, f"{folder}/listing"], check=True)
    return path


def picture(words, folder):
    """The picture that the words of a command ask for."""
    image, trace, _ = words[1:4]
    given = {}
    for word in words[4:]:
        if word.startswith("--"):
            given[last := word[2:]] = "yes"
        else:
            given[last] = word
    options = [f"{it}={given[it]}" for it in ("unit", "task", "word", "values", "compact", "names") if it in given]
    numbers = [given.get("units", "4"), given.get("from", "0"), given.get("count", "1000000")]
    line = ["python3", f"{BENCH}/svg_twin.py", image_file(image, folder), trace, *numbers, *options]
    return subprocess.run(line, capture_output=True, check=True).stdout


with tempfile.TemporaryDirectory() as folder:
    for row in csv.DictReader(open("cases/pictures.csv", newline="")):
        words = row["words"].split()
        if words[0] == "draw" and row["saved"].startswith("picture.svg="):
            text = picture(words, folder)
            with open(row["saved"].partition("=")[2], "wb") as wanted:
                wanted.write(text)
