#!/usr/bin/env python3
"""Writes the script that leads to a trace: TRACE on standard input, the script on standard output."""
import csv
import sys


def arg_of(row):
    """A submit has as many turns as were taken, local ones and the one that asked; other steps have the trace's number."""
    if row["kind"] == "submit":
        return str(int(row["local"]) + int(row["ask"]))
    return row["arg"]


print("kind,unit,arg")
for entry in csv.DictReader(sys.stdin):
    print(entry["kind"], entry["unit"], arg_of(entry), sep=",")
