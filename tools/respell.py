#!/usr/bin/env python3
"""Brings the names of an older Rattle to today's spelling, around the kit's own script port.py.

usage: respell.py before     at the top, before port.py: what would mislead it
       respell.py after      at the top, after it: the definitions and lemmas of the repository, in snake case

Functions and fields of src/, exported names, strings, inputs and outputs keep their names."""

import collections
import os
import re
import sys


def files():
    for folder, dirs, names in os.walk("crates"):
        dirs[:] = sorted(d for d in dirs if d != "out")
        for name in sorted(names):
            if name.endswith((".rt", ".antt", ".edit")):
                yield os.path.join(folder, name)


def read(path):
    with open(path, encoding="utf-8") as f:
        return f.read()


def write(path, text):
    with open(path, "w", encoding="utf-8") as f:
        f.write(text)


# Two aliases that are spelled as names of today's library, by which port.py would take the whole for turned already.
ALIASES = [
    ("crates/text/proofs/Determined.antt", "find.end_of as end_of", "find.end_of as end"),
    ("crates/text/proofs/Determined.antt", "word.same_text as same_text", "word.same_text as alike"),
    ("crates/text/proofs/Determined.antt", "OneReply end_of.", "OneReply end."),
    ("crates/text/proofs/Determined.antt", "OneReply same_text.", "OneReply alike."),
]


def before():
    for path, old, new in ALIASES:
        write(path, read(path).replace(old, new))
    # No module of specs/ is called contracts.
    os.rename("crates/units/specs/Contracts.antt", "crates/units/specs/Outcomes.antt")
    os.rename("crates/units/proofs/Contracts.antt", "crates/units/proofs/Outcomes.antt")
    for path in files():
        text = read(path)
        new = text.replace("specs/Contracts.antt", "specs/Outcomes.antt").replace("specs.Contracts.", "specs.Outcomes.")
        new = new.replace("proofs.Contracts.", "proofs.Outcomes.")
        if path in ("crates/units/specs/Lib.antt", "crates/units/proofs/Lib.antt"):
            new = new.replace("mod Contracts", "mod Outcomes")
        if new != text:
            write(path, new)



# ---- after port.py: words in snake case

DECLARED = re.compile(r"^[ ]*(?:pub |abbrev |unfoldable )*([^\s:(){}.]+) :(?=\s)", re.M)
# What stands between names: a path's dots too.
BETWEEN = re.compile(r"([\s(){}\[\];,.«»\"`⌜⌝]+)")
# A dash stays between two of these: the left side of a law, the outer call first.
CALLS = {"length", "append", "take", "drop", "map", "set", "sets", "get_or", "sum", "reverse"}


def snake(name):
    return re.sub(r"(?<=[a-z0-9])([A-Z])", lambda m: "_" + m.group(1).lower(), name)


def undashed(name):
    parts = name.split("-")
    made = snake(parts[0])
    for left, right in zip(parts, parts[1:]):
        made += ("-" if left in CALLS and right in CALLS else "_") + snake(right)
    return made


def declared():
    """The names that .antt files declare: of specs/ and of proofs/, and those of a function's own proof."""
    found = collections.defaultdict(set)
    for path in files():
        if path.endswith(".antt"):
            kind = "function" if path.endswith("/Proof.antt") else "specs" if "/specs/" in path else "proofs"
            for name in DECLARED.findall(read(path)):
                found[name].add(kind)
    return found


def table():
    found = declared()
    names = {name for name, kinds in found.items() if kinds != {"function"} and name[0].islower()}
    made = {name: undashed(name) for name in names if undashed(name) != name}
    taken = collections.defaultdict(set)
    for name in names:
        taken[made.get(name, name)].add(name)
    for new, olds in taken.items():
        if len(olds) > 1:
            # A definition of specs/ has the name; a lemma or a field that would fall together with it gets `_lem`.
            first = sorted(olds, key=lambda n: ("specs" not in found[n], "-" in n, n))[0]
            for old in olds - {first}:
                made[old] = new + "_lem"
    return made


def turned(text, made, dashes, rust=False):
    """A name that is in snake case already and moves aside is also a function of src/: not in code, nor behind a dot."""
    pieces = BETWEEN.split(text)
    for k in range(0, len(pieces), 2):
        old = pieces[k]
        new = made.get(old)
        plain = old.islower() and "-" not in old
        if new and (dashes or "-" not in old) and not (plain and (rust or k and pieces[k - 1] == ".")):
            pieces[k] = new
    return "".join(pieces)


def turn_line(line, made, rust):
    """Code is turned whole; a comment by its camel case alone, since a dash there is a plain word's."""
    mark = "//" if rust else "--"
    at = line.find(mark)
    if not rust and at > 0 and line[at - 1] not in " \t":
        at = -1
    if at < 0:
        at = len(line)
    return turned(line[:at], made, not rust or line.startswith("ghost use"), rust) + turned(line[at:], made, False, rust)


def after():
    made = table()
    for path in files():
        text = read(path)
        rust = path.endswith(".rt")
        if path.endswith(".edit"):
            specs = "file: specs/" in text
            new = "\n".join(turn_line(l, made, not specs) if l.startswith(("old:", "new:")) else turned(l, made, False, True) for l in text.split("\n"))
        else:
            new = "\n".join(turn_line(l, made, rust) for l in text.split("\n"))
        if new != text:
            write(path, new)
    for name in sorted(made):
        print(name, made[name])


if __name__ == "__main__":
    if sys.argv[1:] == ["before"]:
        before()
    elif sys.argv[1:] == ["after"]:
        after()
    else:
        sys.exit(__doc__)
