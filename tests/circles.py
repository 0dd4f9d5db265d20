#!/usr/bin/env python3
"""Fails on a circle among the modules of a Rust package: each may need only modules that don't need it back.

    tests/circles.py          looks at every program and library of every Rust package here
    tests/circles.py needs    shows what each module needs, too, the lowest modules first

A module needs what it names by a path from `crate`, `self` or `super`, in a `use` or anywhere else but in comments and
strings. It needs the modules that it declares, so nothing may need an item of the root, main.rs or lib.rs; a name that the
root only passes on is one of the module that it is from. A module inside a file is part of that file, and what the oracle
lays around the original's files is one module, `recovery`. Where a package's README.md has a section "The modules", its
table names every module once, and each needs only modules named after it. Before it looks, the script tries itself on
small packages with known circles. A line for each fault, and then 1."""

import glob
import os
import re
import sys

ROOT = os.path.dirname(os.path.dirname(os.path.abspath(__file__)))
TARGETS = ["src/main.rs", "src/lib.rs", "src/bin/*.rs", "src/bin/*/main.rs", "build.rs"]
TARGETS += [f"{kind}/{file}" for kind in ["examples", "tests", "benches"] for file in ["*.rs", "*/main.rs"]]
# The module that oracle/build.rs lays out around the original's own files, how a root takes it in, and our files in it.
LAID_OUT = "recovery"
TAKES_IN = re.compile(r'include!\(concat!\(env!\("OUT_DIR"\), "/original\.rs"\)\)')
OURS = ["oracle/src/appended/*.rs", "oracle/src/stubs/*.rs"]

HIDDEN = re.compile(
    r"""//[^\n]*|/\*.*?\*/|\bb?r(#*)".*?"\1|b?"(?:\\.|[^"\\])*"|b?'(?:\\[^\n']+|\\'|[^'\\\n])'""", re.S
)
PLACED = re.compile(r'#\[path = "([^"]+)"\]\s*(?:#\[[^\]]*\]\s*)*(?:pub(?:\([^)]*\))? )?mod (\w+);')
TOKEN = re.compile(r"[A-Za-z_]\w*|::|\S")
IS_NAME = re.compile(r"[A-Za-z_]\w*\Z")
ITEMS = {"fn", "struct", "enum", "union", "const", "static", "trait", "type", "mod", "macro_rules"}


class Source:
    """What a file says: the modules it declares, the items of its own, what it takes by `use`, and the paths it names."""

    def __init__(self, text):
        self.declared, self.items, self.uses, self.paths = [], set(), [], []
        self.placed = {name: path for path, name in PLACED.findall(text)}
        taken_in = TAKES_IN.search(text)
        self.takes_in = text.count("\n", 0, taken_in.start()) + 1 if taken_in else 0
        shown = HIDDEN.sub(lambda found: " " + "\n" * found.group().count("\n"), text)
        self.tokens, self.lines = [], []
        for number, line in enumerate(shown.split("\n"), 1):
            for token in TOKEN.findall(line):
                self.tokens.append(token)
                self.lines.append(number)
        self.read()

    def token(self, at):
        return self.tokens[at] if 0 <= at < len(self.tokens) else ""

    def read(self):
        inside, depth, at = [], 0, 0
        while at < len(self.tokens):
            token, name, after = self.token(at), self.token(at + 1), self.token(at + 2)
            module = tuple(name for name, _ in inside)
            if token == "mod" and after == ";":
                self.declared.append((module + (name,), self.lines[at]))
            elif token == "mod" and after == "{":
                inside.append((name, depth))
            elif token == "use" and (name in ("::", "{") or IS_NAME.match(name)):
                at = self.tree(at + 1, [], module)
            elif token == "pub" and name == "(" and after == "in":
                at = self.tokens.index(")", at)
            elif token in ("crate", "self", "super") and name == "::" and self.token(at - 1) != "::":
                at = self.path(at, module)
            if token in ITEMS and depth == 0:
                self.items.add(after if name in ("!", "mut") else name)
            depth += {"{": 1, "}": -1}.get(self.token(at), 0)
            if token == "mod" and after == "{":
                depth, at = depth + 1, at + 2
            if inside and inside[-1][1] == depth:
                inside.pop()
            at += 1

    def path(self, at, module):
        """Takes the path that begins here; where its last name is."""
        names, line = [self.token(at)], self.lines[at]
        while self.token(at + 1) == "::" and IS_NAME.match(self.token(at + 2)):
            at += 2
            names.append(self.token(at))
        self.paths.append((module, names, line))
        return at

    def tree(self, at, before, module):
        """Takes what a `use` names after these names; where the next token is."""
        names, line = list(before), self.lines[at]
        if self.token(at) == "::":
            names, at = ["::"], at + 1
        while self.token(at) not in "{,};":
            names.append(self.token(at))
            at += 2 if self.token(at + 1) == "::" else 1
            if self.token(at) == "as" or self.token(at - 1) != "::":
                break
        if self.token(at) == "{":
            at += 1
            while self.token(at) != "}":
                at = self.tree(at, names, module) if self.token(at) != "," else at + 1
            return at + 1
        if names[-1] == "self" and len(names) > 1:
            names.pop()
        alias = names[-1]
        if self.token(at) == "as":
            alias, at = self.token(at + 1), at + 2
        self.uses.append((module, names, alias, line))
        return at


class Target:
    """The modules of a program or a library, by their paths, and what each needs and where it says so."""

    def __init__(self, root, read):
        self.root, self.read = root, read
        self.files, self.sources, self.needs = {}, {}, {}
        self.add((), root, os.path.dirname(root))
        self.imports = {}
        for module, names, alias, _ in self.sources[()][0][1].uses:
            if module == ():
                self.imports.setdefault(alias, []).append(self.absolute((), names))
        for path, sources in self.sources.items():
            for file, source in sources:
                self.look(path, file, source)

    def add(self, path, file, folder):
        """Reads a module of a file, whose own modules are in a folder, and those that it declares."""
        source = Source(self.read(file))
        self.files[path] = file
        self.sources[path] = [(file, source)]
        self.needs[path] = {}
        for names, line in source.declared:
            placed = source.placed.get(names[-1])
            below = os.path.join(folder, *names)
            if placed:
                found = os.path.normpath(os.path.join(os.path.dirname(file), placed))
            else:
                found = below + ".rs" if self.read(below + ".rs") is not None else below + "/mod.rs"
            if self.read(found) is None:
                sys.exit(f"{file}:{line}: there is no file of the module {names[-1]}")
            self.needs[path].setdefault(path + names, (file, line))
            self.add(path + names, found, below)
        if source.takes_in:
            ours = [name for pattern in OURS for name in found_files(pattern)]
            self.files[(LAID_OUT,)] = LAID_OUT
            self.sources[(LAID_OUT,)] = [(name, Source(self.read(name))) for name in ours]
            self.needs[(LAID_OUT,)] = {}
            self.needs[path][(LAID_OUT,)] = (file, source.takes_in)

    def absolute(self, module, names):
        """The path from the root of names that a module says, or none for another package's."""
        if names[0] not in ("crate", "self", "super"):
            return module + tuple(names) if module + (names[0],) in self.files else None
        at = () if names[0] == "crate" else module
        for place, name in enumerate(names):
            if name == "super":
                at = at[:-1]
            elif name not in ("crate", "self"):
                return at + tuple(names[place:])
        return at

    def modules(self, path):
        """The modules of files that a path leads to."""
        for length in range(len(path), 0, -1):
            if path[:length] in self.files:
                return [path[:length]]
        root = self.sources[()][0][1]
        name = path[0] if path else "*"
        if name == "*" or name in root.items:
            return [()]
        if name not in self.imports and "*" not in self.imports:
            return [()]
        passed_on = self.imports.get(name) or self.imports["*"]
        return [module for path in passed_on if path for module in self.modules(path)]

    def look(self, path, file, source):
        # Our files of the laid out tree stand somewhere deep in it.
        place = path if file == self.files[path] else path + ("",) * 4
        named = source.paths + [(inside, names, line) for inside, names, _, line in source.uses]
        for inside, names, line in named:
            absolute = self.absolute(place + inside, names)
            for module in [] if absolute is None else self.modules(absolute):
                if module != path:
                    self.needs[path].setdefault(module, (file, line))

    def reached(self, module):
        seen, left = set(), [module]
        while left:
            for other in self.needs[left.pop()]:
                if other not in seen:
                    seen.add(other)
                    left.append(other)
        return seen

    def circles(self):
        """Sets of modules that need each other."""
        reached = {module: self.reached(module) for module in self.needs}
        around = {frozenset(it for it in reached[module] if module in reached[it]) for module in reached}
        return sorted((circle for circle in around if circle), key=sorted)

    def name(self, module):
        return "::".join(module) or "the root"

    def told(self, circle):
        for module in sorted(circle):
            for other, (file, line) in sorted(self.needs[module].items()):
                if other in circle:
                    yield f"{file}:{line}: {self.name(module)} needs {self.name(other)}"

    def shown(self):
        """What each module needs; those that need few come first."""
        yield f"{self.root}:"
        for module in sorted(self.needs, key=lambda it: (len(self.reached(it)), it)):
            yield f"  {self.name(module)}: {' '.join(sorted(map(self.name, self.needs[module]))) or 'nothing'}"


def found_files(pattern):
    return sorted(os.path.relpath(path, ROOT) for path in glob.glob(os.path.join(ROOT, pattern), recursive=True))


def read_file(path):
    path = os.path.join(ROOT, path)
    if not os.path.isfile(path):
        return None
    with open(path, encoding="utf-8") as file:
        return file.read()


def packages():
    """The folders of the Rust packages."""
    for pattern in ["*/Cargo.toml", "*/*/Cargo.toml"]:
        for path in found_files(pattern):
            if not path.startswith("target/") and "[package]" in read_file(path):
                yield os.path.dirname(path)


def targets(package):
    """The root files of a package's programs, libraries, examples and tests."""
    named = re.findall(r'^path = "([^"]+\.rs)"', read_file(package + "/Cargo.toml"), re.M)
    roots = {path for target in TARGETS for path in found_files(f"{package}/{target}")}
    return sorted(roots | {os.path.normpath(f"{package}/{path}") for path in named})


def off_the_page(page, target):
    """What the list of modules on a page, if it has one, says otherwise than the source."""
    section = re.search(r"^## The modules\n(.*?)(?=^## |\Z)", read_file(page) or "", re.M | re.S)
    if not section:
        return
    rows = re.findall(r"^\| ([\w, ]+) \|", section.group(1), re.M)[1:]
    listed = [name for row in rows for name in row.split(", ")]
    names = {module: "::".join(module) or os.path.basename(target.root)[:-3] for module in target.needs}
    for name in sorted(set(listed) ^ set(names.values())):
        yield f"{page}: {name} is {'no module' if name in listed else 'not listed'}"
    for name in sorted({name for name in listed if listed.count(name) > 1}):
        yield f"{page}: {name} is listed twice"
    places = {name: place for place, name in enumerate(listed)}
    for module, needs in target.needs.items():
        for other, (file, line) in needs.items():
            if places.get(names[module], -1) > places.get(names[other], len(listed)):
                yield f"{page}: {names[module]} is listed after {names[other]}, which it needs ({file}:{line})"


# Small packages, and the modules of their circle.
TRIALS = [
    ({"a": "use crate::b::X;", "b": "pub struct X;"}, ""),
    ({"a": "use crate::b::X;", "b": "use crate::a::Y;"}, "a b"),
    ({"a": "use crate::b;", "b": "fn f() -> u64 { crate::a::g::<u64>(1) }"}, "a b"),
    ({"a": "use super::b::X;", "b": "use super::a::Y;"}, "a b"),
    ({"a": "use crate::{b, c};", "b": "", "c": "pub use {std::X, crate::a::{self, Y}};"}, "a c"),
    ({"a": "mod tests { use super::super::b::X; }", "b": "mod tests { use super::*; use crate::a as other; }"}, "a b"),
    ({"a": "use crate::b::X;", "b": "use crate::c::X;", "c": "fn f(x: crate::a::X) {}"}, "a b c"),
    ({"a": "use crate::B;", "b": "use crate::A;", "root": "pub use a::A; pub use b::X as B;"}, "a b"),
    ({"a": "use crate::B;", "b": "", "root": "pub use b::B; pub use std::env;"}, ""),
    ({"a": "use crate::B;", "b": "use crate::a::A;", "root": "pub use b::*;"}, "a b"),
    ({"a": "use crate::limit;", "b": "", "root": "fn limit() {}"}, "a root"),
    ({"a": "use super::*;", "b": ""}, "a root"),
    ({"a": "mod tests { use super::*; fn f() { self::g() } } use crate::b;", "b": "pub(in crate::a) fn f() {}"}, ""),
    ({"a": "use crate::b;", "b": "// crate::a\n/* crate::a */ const X: &str = \"crate::a\"; fn f<'a>(c: &'a str) { '\"' }"}, ""),
    ({"a": "use crate::b;", "b": "fn f<'a>(c: &'a str, d: char) { '\"'; '\\''; crate::a::f() }"}, "a b"),
]


def tried():
    """Whether the small packages have the circles that they should."""
    for files, due in TRIALS:
        texts = {f"{name}.rs": text for name, text in files.items() if name != "root"}
        mods = "".join(f"mod {name[:-3]};\n" for name in texts)
        texts["main.rs"] = mods + files.get("root", "")
        found = Target("main.rs", texts.get).circles()
        circle = " ".join(sorted(":".join(module) or "root" for it in found for module in it))
        if circle.replace("root", "").split() != due.replace("root", "").split() or ("root" in circle) != ("root" in due):
            yield f"circles: a trial has the circle {circle or 'none'!r}, and should have {due or 'none'!r}: {files}"


def main():
    faults, looked, modules, needs = list(tried()), 0, set(), 0
    for package in packages():
        reached = set()
        for root in targets(package):
            target = Target(root, read_file)
            looked += 1
            needs += sum(map(len, target.needs.values()))
            reached |= {file for sources in target.sources.values() for file, _ in sources}
            if sys.argv[1:] == ["needs"]:
                print("\n".join(target.shown()))
            for circle in target.circles():
                faults.append(f"{root}: {len(circle)} modules need each other")
                faults += ["  " + line for line in target.told(circle)]
            if root in (package + "/src/main.rs", package + "/src/lib.rs"):
                faults += off_the_page(package + "/README.md", target)
        modules |= reached
        unread = set(found_files(f"{package}/src/**/*.rs")) - reached
        faults += [f"{file}: no root of its package declares it" for file in sorted(unread)]
    if faults or not looked:
        print("\n".join(faults or ["circles: there is no Rust package"]))
        sys.exit(1)
    print(f"circles: none among the modules of {looked} programs and libraries, {len(modules)} files with {needs} needs")


main()
