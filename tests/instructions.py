#!/usr/bin/env python3
"""Counts the instructions of the port and of the original, an item at a time, on the inputs of `make bench`.

    tests/instructions.py BENCH [WORD..]

BENCH is the program that `make bench` builds; it is run once under valgrind, whose counts do not depend on what else the
machine does. Words leave out the cases that don't have them in their name. Counted are the calls of `counted`, two to a
case: the port's side, then the original's. The loop around the calls, the same on both sides, is in both counts."""

import glob
import os
import re
import shutil
import subprocess
import sys
import tempfile


def totals(folder):
    """The instructions of each dump, in the order in which they were written. Only those with a trigger are of a call."""
    found = []
    for path in glob.glob(os.path.join(folder, "counts.*")):
        text = open(path, encoding="utf-8").read()
        number = re.search(r"^part: (\d+)$", text, re.M)
        if "desc: Trigger: --dump-after=counted" in text:
            found.append((int(number.group(1)), int(re.search(r"^(?:summary|totals): (\d+)", text, re.M).group(1))))
    return [count for _, count in sorted(found)]


def main(bench, words):
    if not shutil.which("valgrind"):
        raise SystemExit("instructions: there is no valgrind here")
    with tempfile.TemporaryDirectory() as folder:
        said = subprocess.run(
            ["valgrind", "--quiet", "--tool=callgrind", "--toggle-collect=counted", "--dump-after=counted",
             f"--callgrind-out-file={folder}/counts", bench, "--once", *words],
            check=True, stdout=subprocess.PIPE, encoding="utf-8",
        ).stdout
        counts = totals(folder)
    cases = [line.split("\t") for line in said.splitlines()]
    if len(counts) != 2 * len(cases):
        raise SystemExit(f"instructions: {len(counts)} counts for {len(cases)} cases")
    print(f"{'':52} {'port':>10} {'original':>10} {'ratio':>6}")
    for (items, name), port, original in zip(cases, counts[::2], counts[1::2]):
        print(f"{name:52} {port / int(items):10.1f} {original / int(items):10.1f} {port / original:6.2f}")


if __name__ == "__main__":
    if len(sys.argv) < 2:
        raise SystemExit(__doc__)
    main(sys.argv[1], sys.argv[2:])
