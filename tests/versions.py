#!/usr/bin/env python3
"""Holds every place that names the version or the layout's number to the file VERSION.

    tests/versions.py [FILE.pc ..]

VERSION has the version in its first line and `layout N` in its second. The places are the C header, the two Rust packages,
the lock files that name them, docs/LAYOUT.md, what the pkg-config file is written from, and pkg-config files that are
given, as installed. A line for each place that differs, and then 1."""

import glob
import os
import re
import sys

ROOT = os.path.dirname(os.path.dirname(os.path.abspath(__file__)))
PACKAGES = ["guovssalu-sys", "guovssalu"]


def places(version, layout, installed):
    """File, what stands in it before the number, the number that is due."""
    for part, number in zip(("MAJOR", "MINOR", "PATCH"), version.split(".")):
        yield "include/guovssalu.h", f"#define GUOVSSALU_VERSION_{part} ", number
    yield "include/guovssalu.h", "#define GUOVSSALU_LAYOUT ", layout
    yield "docs/LAYOUT.md", "This is layout ", layout
    for package in PACKAGES:
        yield f"rust/{package}/Cargo.toml", "version = ", version
        for lock in sorted(glob.glob(os.path.join(ROOT, "*/Cargo.lock"))):
            lock = os.path.relpath(lock, ROOT)
            if lock.startswith("rust/") or f'name = "{package}"\n' in read(lock):
                yield lock, f'name = "{package}"\nversion = ', version
    yield "include/guovssalu.pc.in", "Version: ", "@VERSION@"
    yield "include/guovssalu.pc.in", "layout=", "@LAYOUT@"
    for path in installed:
        yield path, "Version: ", version
        yield path, "layout=", layout


def read(path):
    return open(os.path.join(ROOT, path), encoding="utf-8").read()


def main():
    found = re.fullmatch(r"(\d+\.\d+\.\d+)\nlayout (\d+)\n", read("VERSION"))
    if not found:
        print("versions: VERSION is not a version and a line `layout N`")
        return 1
    version, layout = found.groups()
    checked, faults = set(), 0
    for path, before, due in places(version, layout, [os.path.abspath(path) for path in sys.argv[1:]]):
        stands = re.findall(rf'^{re.escape(before)}"?([\w.@]+)', read(path), re.M)
        checked.add(path)
        if stands != [due]:
            faults += 1
            before = " ".join(before.split())
            print(f"{path}: {before} {', '.join(stands) or '(nothing)'}, and it should be {due}")
    if faults:
        print(f"versions: faults: {faults}")
        return 1
    print(f"versions: {version}, layout {layout}, in {len(checked)} files")
    return 0


if __name__ == "__main__":
    sys.exit(main())
