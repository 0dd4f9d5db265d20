#!/usr/bin/env python3
"""Holds the lines of every crate's specs/ to 120 characters.

    tests/widths.py

What an auditor must believe has to be readable first. Lines of `use` are left out: they name, and say nothing. A line for
each fault, with its file and its line, and then 1."""

import glob
import os
import sys

ROOT = os.path.dirname(os.path.dirname(os.path.abspath(__file__)))
SPECS = "crates/*/specs/*.antt"
WIDEST = 120


def main():
    os.chdir(ROOT)
    files = sorted(glob.glob(SPECS))
    if not files:
        sys.exit(f"widths: no file is {SPECS}")
    faults = 0
    for path in files:
        with open(path, encoding="utf-8") as file:
            for number, line in enumerate(file, 1):
                width = len(line.rstrip("\n"))
                if width > WIDEST and not line.startswith("use "):
                    print(f"{path}:{number}: {width} characters, of {WIDEST} at most")
                    faults += 1
    if faults:
        sys.exit(1)
    print(f"widths: {len(files)} files, no line over {WIDEST} characters")


main()
