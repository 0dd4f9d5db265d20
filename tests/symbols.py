#!/usr/bin/env python3
"""Holds the declarations of the exported calls to each other, and to an archive.

    tests/symbols.py [ARCHIVE]

Every function that include/guovssalu.h declares is declared by rust/guovssalu-sys, in the same order, with the same
arguments, the same answer and the same comment, and the other way round. No other Rust file declares one. With ARCHIVE:
these functions are the symbols that it defines for others, and it asks nothing of whoever links it but what ALLOWED has
(`nm`). A line for each fault, and then 1."""

import glob
import os
import re
import subprocess
import sys

ROOT = os.path.dirname(os.path.dirname(os.path.abspath(__file__)))
HEADER = "include/guovssalu.h"
PACKAGE = "rust/guovssalu-sys/src/lib.rs"
# What the archive may ask for.
ALLOWED = {"memcpy"}
KINDS = {
    "uint32_t": "u32",
    "uint64_t": "u64",
    "size_t": "usize",
    "uint8_t *": "*mut u8",
    "const uint8_t *": "*const u8",
    "const uint64_t *": "*const u64",
}
faults = []


def read(path):
    return open(os.path.join(ROOT, path), encoding="utf-8").read()


def words(text):
    return " ".join(text.split())


def kind(of_c):
    if of_c not in KINDS:
        faults.append(f"{HEADER}: no kind of the Rust package's is known for {of_c}")
    return KINDS.get(of_c, of_c)


def of_header():
    """Name, arguments, answer and comment of each function, in order."""
    text = re.sub(r"^ *#.*(?:\\\n.*)*", "", read(HEADER), flags=re.M)
    text = re.sub(r'extern "C" \{|^\}$', "", text, flags=re.M)
    functions = []
    for comments, statement in re.findall(r"((?:\s*/\*.*?\*/)*)\s*((?:/\*.*?\*/|[^;])*);", text, re.S):
        statement = words(re.sub(r"/\*.*?\*/", " ", statement, flags=re.S))
        found = re.fullmatch(r"((?:const )?\w+(?: \*)?) ?(\w+)\(([^()]*)\)", statement)
        if found:
            answer, name, arguments = found.groups()
            pairs = [re.fullmatch(r"(.*?) ?(\w+)", words(one)).groups() for one in arguments.split(",") if one != "void"]
            comment = re.findall(r"/\*(.*?)\*/", comments, re.S)[-1:] or [""]
            comment = words(re.sub(r"^ \*", "", comment[0], flags=re.M))
            functions.append((name, [(one, kind(of)) for of, one in pairs], kind(answer), comment))
        elif not re.match(r"(enum|typedef)\b", statement):
            faults.append(f"{HEADER}: this is no function, no enum and no typedef: {statement}")
    return functions


def of_package():
    """The same of the Rust package."""
    functions = []
    for comment, name, arguments, answer in re.findall(
        r"((?:^ *///.*\n)*) *pub fn (\w+)\(([^()]*)\)(?: -> ([^;]*))?;", read(PACKAGE), re.M
    ):
        pairs = [tuple(words(one).split(": ")) for one in arguments.split(",") if one.strip()]
        comment = words(re.sub(r"^ *///", "", comment, flags=re.M))
        named = lambda found: "GUOVSSALU_" + found.group(1).replace("::", "_").upper()
        comment = re.sub(r"\[`(guovssalu_\w+)`\]", r"\1", comment)
        functions.append((name, pairs, answer, re.sub(r"\[`table::([\w:]+)`\]", named, comment)))
    return functions


def compare(header, package):
    """The two lists, function by function."""
    names = [function[0] for function in header]
    others = [function[0] for function in package]
    for name in sorted(set(names) ^ set(others)):
        here, there = (HEADER, PACKAGE) if name in names else (PACKAGE, HEADER)
        faults.append(f"{name}: declared in {here}, and not in {there}")
    if set(names) == set(others) and names != others:
        faults.append(f"{PACKAGE}: the functions stand in another order than in {HEADER}")
    for name, *of_c in header:
        for of_rust in (function[1:] for function in package if function[0] == name):
            for what, one, other in zip(("arguments", "answer", "comment"), of_c, of_rust):
                if one != other:
                    faults.append(f"{name}: its {what} in {HEADER}: {one}; in {PACKAGE}: {other}")


def declared_elsewhere(names):
    """Other Rust files that declare one of the functions."""
    for path in sorted(glob.glob(os.path.join(ROOT, "*/**/*.rs"), recursive=True)):
        path = os.path.relpath(path, ROOT)
        if path != PACKAGE and not path.startswith("target/") and "/target/" not in path:
            for name in re.findall(r"\bfn (guovssalu_\w+)", read(path)):
                faults.append(f"{path}: it declares {name}, as {PACKAGE} does")
    for name in names:
        if not name.startswith("guovssalu_"):
            faults.append(f"{HEADER}: {name} does not begin with guovssalu_")


def symbols(archive):
    """The names that an archive defines for others, and those that it asks for."""
    lines = subprocess.run(["nm", "-g", "-P", archive], check=True, stdout=subprocess.PIPE, text=True).stdout
    found = re.findall(r"^(\S+) ([A-Za-z])(?: .*)?$", lines, re.M)
    asked = {name for name, letter in found if letter in "Uw"}
    defined = {name for name, letter in found} - asked
    return defined, asked - defined


def check_archive(archive, names):
    defined, asked = symbols(archive)
    for name in sorted(names - defined):
        faults.append(f"{name}: declared in {HEADER}, and not defined in {archive}")
    for name in sorted(defined - names):
        faults.append(f"{name}: defined in {archive}, and not declared in {HEADER}")
    for name in sorted(asked - ALLOWED):
        faults.append(f"{name}: asked for by {archive}, and not allowed")
    return asked


def main():
    header, package = of_header(), of_package()
    names = {function[0] for function in header}
    compare(header, package)
    declared_elsewhere(names)
    asked = check_archive(sys.argv[1], names) if sys.argv[1:] else None
    if not names:
        faults.append(f"{HEADER}: it declares no function")
    print("".join(line + "\n" for line in faults), end="")
    if faults:
        print(f"symbols: faults: {len(faults)}")
        return 1
    of_archive = "" if asked is None else f", and defined in the archive, which asks for {', '.join(sorted(asked)) or 'nothing'}"
    print(f"symbols: {len(names)} functions, declared alike for C and Rust{of_archive}")
    return 0


if __name__ == "__main__":
    sys.exit(main())
