#!/usr/bin/env python3
"""Small changes to the source, or to the definitions, each of which the prover must refuse.

    tests/mutants.py [--specs] [--crate NAME].. SEED COUNT
    tests/mutants.py --named [--crate NAME]..

The first takes COUNT changes at random places of crates/*/src (with --specs, of crates/*/specs), one at a time: an
operator, a constant, a comparison, a swapped argument or field, a dropped step, a wrong variant. The second takes the
edits in tests/wrong, chosen by hand and written as those in crates/*/must-fail. Each is made in a copy of the repository,
and the prover is run on its crate. What the language itself refuses, as a wrong type, is not counted. Of the others it
says:

    a fact fails       the contract, or a law, rules the change out
    a proof misfits    refused, but only since a proof file no longer has the shape of the code; then the programs are
                       run with the change, and must write something else than they should
    a run differs      a change to a program, or to a part of programs, that is proved: its run must differ
    a floor above      a changed definition with which its own crate is proved: a crate above must not be
    survived           none of these: harmless, and then it stands with its reason in tests/mutants.txt, or a hole
    not told           the prover ended without a verdict

Ends with 1 where a survivor isn't explained; an edit of tests/wrong that is no program, or is not told, counts as one. `rt
all check` has to have proved everything before: a check in the copy begins with what it kept."""

import argparse
import os
import random
import re
import shutil
import subprocess
import sys
import tempfile

ROOT = os.path.dirname(os.path.dirname(os.path.abspath(__file__)))
KNOWN = os.path.join(ROOT, "tests", "mutants.txt")

# What is found, as a pattern, and what is put in its place.
CODE = [
    (r" < ", " <= "),
    (r" <= ", " < "),
    (r" > ", " >= "),
    (r" >= ", " > "),
    (r" == ", " != "),
    (r" != ", " == "),
    (r" \+ ", " - "),
    (r" - ", " + "),
    (r" \* ", " + "),
    (r" / ", " * "),
    (r" % ", " / "),
    (r" & ", " | "),
    (r" \| ", " & "),
    (r" << ", " >> "),
    (r" >> ", " << "),
    (r"!(?=[a-z(])", ""),
    (r"\btrue\b", "false"),
    (r"\bfalse\b", "true"),
    (r"\bmax\(", "min("),
    (r"\bmin\(", "max("),
]
SPECS = [
    (r"\bltb\b", "leb"),
    (r"\bleb\b", "ltb"),
    (r" \+ ", " - "),
    (r" - ", " + "),
    (r" \* ", " + "),
    (r" / ", " * "),
    (r" && ", " || "),
    (r" \|\| ", " && "),
    (r"\bnot ", ""),
    (r"\btrue\b", "false"),
    (r"\bfalse\b", "true"),
    (r"\bmax\b", "min"),
    (r"\bmin\b", "max"),
]
NUMBER = re.compile(r"(?<![\w.])(0x[0-9a-f_]+|\d[\d_]*)(?![\w.])")
ARGUMENTS = re.compile(r"\((\w+), (\w+)")
FIELD = re.compile(r"\b(\w+)\.([a-z]\w*)\b(?!\()")
STEP = re.compile(r"^\s+[\w.\[\]]+ [+*-]?= .*;$")
VARIANT = re.compile(r"\b([A-Z]\w+)::([A-Z]\w+)\b")
# two arguments of a function, in a definition
NAMES = re.compile(r"(?<=\w )([a-z]\w*) ([a-z]\w*)(?=[) ]|$)")
SKIPPED = ("//", "use ", "pub use ", "ghost ", "pub mod ", "mod ", "#", "pub struct ", "struct ", "pub enum ", "enum ", "impl ")
CLAUSE = re.compile(r"(ensures|requires)\b")


class Change:
    """A line of a file, and what is put in its place."""

    def __init__(self, path, line, old, new):
        self.path, self.line, self.old, self.new = path, line, old, new

    def __str__(self):
        return f"{self.path}:{self.line + 1}: {self.old.strip()}  =>  {self.new.strip() or '(nothing)'}"

    def key(self):
        return (self.path, self.old.strip(), self.new.strip())

    def files(self):
        text = read(self.path).split("\n")
        text[self.line] = self.new
        return {self.path: "\n".join(text)}


class Edit:
    """An edit written by hand."""

    def __init__(self, crate, path):
        self.crate, self.path = crate, path

    def __str__(self):
        return self.path

    def key(self):
        return (self.path, "", "")

    def files(self):
        """The files that it changes, as they are then. An `old:` text stands in its file once."""
        changed, old = {}, None
        for line in read(self.path).split("\n"):
            word, _, rest = line.partition(": ")
            if word == "file":
                path = os.path.join("crates", self.crate, rest)
            elif word == "old":
                old = rest
            elif word in ("new", "new:"):
                text = changed.get(path) or read(path)
                if text.count(old) != 1:
                    raise SystemExit(f"{self.path}: an `old:` text stands {text.count(old)} times in {path}")
                changed[path] = text.replace(old, rest)
        return changed


def read(path):
    return open(os.path.join(ROOT, path), encoding="utf-8").read()


def files(crate, specs):
    folder = os.path.join(ROOT, "crates", crate, "specs" if specs else "src")
    for at, _, names in sorted(os.walk(folder)):
        for name in sorted(names):
            if name.endswith(".antt" if specs else ".rt") and name not in ("Lib.antt", "Examples.antt"):
                yield os.path.relpath(os.path.join(at, name), ROOT)


def code_lines(text):
    """The lines of function bodies and constants: no comment, no import, no signature, no clause, no declared field."""
    declared, depth = False, 0
    for index, line in enumerate(text):
        bare = line.strip()
        if depth or CLAUSE.match(bare):
            depth += bare.count("{") - bare.count("}")
            continue
        if bare.startswith(("pub struct", "struct", "pub enum", "enum")):
            declared = bare.endswith("{")
            continue
        if declared:
            declared = bare != "}"
            continue
        if not bare or bare.startswith(SKIPPED) or re.search(r"\bfn \w+", bare):
            continue
        yield index, line


def definition_lines(text):
    for index, line in enumerate(text):
        bare = line.strip()
        if bare and not bare.startswith(("--", "use ", "pub mod", "pub record", "module", "unfolding", "abbrev pub", "unfoldable pub")) and " : " not in bare:
            yield index, line


def replaced(line, match, new):
    return line[: match.start()] + new + line[match.end() :]


def changes(path, specs, variants, fields):
    text = read(path).split("\n")
    for index, line in (definition_lines if specs else code_lines)(text):
        # of a definition, what stands to the right of its `=`
        start = line.find(" = ") + 1 if specs else 0
        for pattern, new in SPECS if specs else CODE:
            for match in re.compile(pattern).finditer(line, start):
                yield Change(path, index, line, replaced(line, match, new))
        for match in NUMBER.finditer(line, start):
            word = match.group(1)
            value = int(word.replace("_", ""), 16 if word.startswith("0x") else 10)
            for other in {value + 1, max(value - 1, 0)} - {value}:
                yield Change(path, index, line, replaced(line, match, str(other)))
        if specs:
            for match in NAMES.finditer(line, start):
                yield Change(path, index, line, replaced(line, match, f"{match.group(2)} {match.group(1)}"))
            continue
        for match in ARGUMENTS.finditer(line):
            if match.group(1) != match.group(2):
                yield Change(path, index, line, replaced(line, match, f"({match.group(2)}, {match.group(1)}"))
        for match in FIELD.finditer(line):
            for other in sorted(fields.get(match.group(2), ())):
                yield Change(path, index, line, replaced(line, match, f"{match.group(1)}.{other}"))
        for match in VARIANT.finditer(line):
            for other in sorted(others(variants.get(match.group(1), []), match.group(2))):
                yield Change(path, index, line, replaced(line, match, f"{match.group(1)}::{other}"))
        if STEP.match(line) and not line.strip().startswith("let "):
            yield Change(path, index, line, "")


def others(enums, variant):
    """The other variants of the enum of that name that has this one: two crates may each have an enum of one name."""
    return {other for enum in enums if variant in enum for other in enum} - {variant}


def declared():
    """The variants of the enums, by name; for every field the other fields of the same type in the same struct."""
    variants, fields = {}, {}
    for crate in needs():
        for path in files(crate, False):
            text = read(path)
            for kind, name, body in re.findall(r"^pub (struct|enum) (\w+) \{\n(.*?)^\}", text, re.M | re.S):
                if kind == "enum":
                    variants.setdefault(name, []).append(re.findall(r"^    ([A-Z]\w*)(?: = \d+)?,", body, re.M))
                    continue
                typed = re.findall(r"^    pub (\w+): ([\w:]+),", body, re.M)
                for field, of in typed:
                    fields.setdefault(field, set()).update(f for f, t in typed if t == of and f != field)
    return variants, fields


def known():
    explained = set()
    if os.path.exists(KNOWN):
        for line in open(KNOWN, encoding="utf-8"):
            parts = [part.strip() for part in line.split(" | ")]
            if len(parts) == 4:
                explained.add(tuple(parts[:3]))
    return explained


# Lines of the prover that name a place; where a proof file only names what is gone; where a text can't be read; and what
# it says then of an error that has a name.
TOLD = re.compile(r"(?:note: .*|\S+:\d+:\d+: .*error.*)", re.M)
PLACE = re.compile(r"(?:note: )?\S+:\d+:\d+:")
MISFIT = re.compile(r"(?:note: )?(?:\./)?proofs/.*(?:has no field|is not in scope|has no `|was not admitted)")
UNREAD = re.compile(r"^(?:\./)?(?:src|specs)/\S+?:\d+:\d+: error: (?:(`[^`]*`): )?(.*)$", re.M)
NOT_READ = re.compile(r"is not in scope|has no field|is no name|operand is missing|expected the end|cannot continue")
# The programs that reach every floor.
RUNS = ("serve", "answers")


def checked(copy, crate):
    """What `rt check` of a crate ends with and prints."""
    how = {"cwd": os.path.join(copy, "crates", crate), "stdout": subprocess.PIPE, "stderr": subprocess.STDOUT}
    ran = subprocess.run(["rt", "check"], timeout=1800, **how)
    return ran.returncode, ran.stdout.decode("utf-8", "replace")


def run_differs(copy, program):
    """Whether a program, built without proof, writes something else than its file `stdout`, or doesn't end well."""
    folder = os.path.join(copy, "crates", program)
    text = lambda name: open(os.path.join(folder, name), "rb").read() if os.path.exists(os.path.join(folder, name)) else b""
    data = os.path.join(folder, "data")
    given = [f"{name}=data/{name}" for name in sorted(os.listdir(data))] if os.path.isdir(data) else []
    words = [word for one in given for word in ("--data", one)] + ["--", *text("args").decode().splitlines()]
    how = {"cwd": folder, "input": text("stdin"), "stdout": subprocess.PIPE, "stderr": subprocess.DEVNULL}
    ran = subprocess.run(["rt", "try", *words], timeout=1800, **how)
    return (ran.returncode, ran.stdout) != (int(text("status") or 0), text("stdout"))


def outcome(copy, crate, specs):
    """What became of the change that stands in the copy."""
    status, said = checked(copy, crate)
    if status == 0:
        return survivor(copy, crate, specs)
    if any(not name or NOT_READ.search(re.sub(r"`[^`]*`", "", rest)) for name, rest in UNREAD.findall(said)):
        return "no program"
    if not re.search(r"^logic=not-proved", said, re.M):
        return "no program" if re.search(r"\berror\[[\w-]+\]", said) else "not told"
    told = [line for line in TOLD.findall(said) if PLACE.match(line)]
    if specs or not told or not all(map(MISFIT.match, told)):
        return "a fact fails"
    return "a proof misfits" if any(run_differs(copy, p) for p in reaching(crate)) else "survived"


def survivor(copy, crate, specs):
    """Of a change with which its own crate is proved: what else notices it."""
    if specs:
        return "a floor above" if any(checked(copy, one)[0] == 1 for one in above(crate)) else "survived"
    if os.path.exists(os.path.join(copy, "crates", crate, "specs")):
        return "survived"
    return "a run differs" if any(run_differs(copy, p) for p in reaching(crate)) else "survived"


def needs():
    """The crates that each crate names in crates.txt."""
    lines = (line.split("#")[0] for line in open(os.path.join(ROOT, "crates.txt"), encoding="utf-8"))
    return {line.split()[0].strip(":"): line.split(":")[1].split() for line in lines if ":" in line}


def above(crate):
    return [name for name, below in needs().items() if crate in below]


def reaching(crate):
    """The programs whose run a change in the crate can show in: itself, or those that reach it."""
    programs = [p for p in needs() if os.path.exists(os.path.join(ROOT, "crates", p, "src", "main.rt"))]
    if crate in programs:
        return [crate]
    return [p for p in RUNS if crate in needs()[p]] or [p for p in programs if crate in needs()[p]]


def named(crates):
    """The edits of tests/wrong, by crate."""
    found = {}
    for crate in crates:
        folder = os.path.join("tests", "wrong", crate)
        if os.path.isdir(os.path.join(ROOT, folder)):
            names = sorted(os.listdir(os.path.join(ROOT, folder)))
            found[crate] = [Edit(crate, os.path.join(folder, name)) for name in names]
    return found


def places(crates, specs):
    """Every change at every place, by crate."""
    variants, fields = declared()
    found = {c: [x for p in files(c, specs) for x in changes(p, specs, variants, fields) if x.new != x.old] for c in crates}
    return {c: all_of_it for c, all_of_it in found.items() if all_of_it}


def in_order(found, seed):
    """The changes, at random: a crate, then a place in it."""
    chosen = random.Random(seed)
    while any(found.values()):
        crate = chosen.choice([c for c in found if found[c]])
        yield crate, found[crate].pop(chosen.randrange(len(found[crate])))


def tried(copy, crate, change, specs):
    """What becomes of one change, made in the copy and taken back."""
    after = change.files()
    for path, text in after.items():
        open(os.path.join(copy, path), "w", encoding="utf-8").write(text)
    found = outcome(copy, crate, specs)
    for path in after:
        open(os.path.join(copy, path), "w", encoding="utf-8").write(read(path))
    return found


def main():
    reader = argparse.ArgumentParser(description=__doc__, formatter_class=argparse.RawDescriptionHelpFormatter)
    reader.add_argument("--specs", action="store_true")
    reader.add_argument("--named", action="store_true")
    reader.add_argument("--crate", action="append")
    reader.add_argument("seed", type=int, nargs="?", default=1)
    reader.add_argument("count", type=int, nargs="?", default=300)
    asked = reader.parse_args()
    names = asked.crate or list(needs())
    found = named(names) if asked.named else places(names, asked.specs)
    most = sum(map(len, found.values())) if asked.named else asked.count
    tally = {c: {} for c in found}
    counted, unexplained = 0, 0
    with tempfile.TemporaryDirectory() as folder:
        copy = os.path.join(folder, "repository")
        shutil.copytree(ROOT, copy, symlinks=True, ignore=shutil.ignore_patterns(".git", "out", "target"))
        for crate, change in in_order(found, asked.seed):
            if counted == most:
                break
            end = tried(copy, crate, change, asked.specs)
            tally[crate][end] = tally[crate].get(end, 0) + 1
            if end == "no program" and not asked.named:
                continue
            counted += 1
            print(f"{counted} of {most}: {end}: {change}", file=sys.stderr, flush=True)
            if end in ("survived", "not told", "no program"):
                harmless = end == "survived" and change.key() in known()
                unexplained += not harmless
                print(f"{end}, {'explained' if harmless else 'NOT EXPLAINED'}: {change}", flush=True)
    for crate, ends in tally.items():
        print(f"{crate}: " + ", ".join(f"{n} {end}" for end, n in sorted(ends.items())))
    print(f"{counted} changes, {unexplained} survivors not explained")
    return 1 if unexplained else 0


if __name__ == "__main__":
    sys.exit(main())
