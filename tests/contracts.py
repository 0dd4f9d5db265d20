#!/usr/bin/env python3
"""Holds docs/CONTRACTS.md against the source.

    tests/contracts.py

Every public function of a library crate has one row, and every row is of such a function. What a row names as a definition
is cited in the function's contract, and a name alone is a definition of that crate's specs/ or of a lower crate's; what the
contract cites besides, the row names too. Two wrong programs or more, an origin, must-fail edits that are there, in the
crate's must-fail/ or in tests/wrong. Every edit is named somewhere, and what it replaces stands once in its file. Where a crate has proofs/Determined.antt, each of its
functions stands in it. The crate of the archive exports the library's functions, each with its contract word for word. The
paths that this and the other pages name are there, but for the page of changes, which names files as they were. And the page
of theorems counts the lines that its reader has to believe as they are. A line for each fault, and then 1."""

import collections
import glob
import os
import re
import sys

ROOT = os.path.dirname(os.path.dirname(os.path.abspath(__file__)))
PAGE = "docs/CONTRACTS.md"
THEOREMS = "crates/theorems/specs/Theorems.antt"
# Names files as they were.
HISTORY = "docs/CHANGES.md"
# What is exported, and whose functions they are.
ARCHIVE, OF_ARCHIVE = "guovssalu_c", "guovssalu"
PAGES = ["docs/*.md", "*.md", "NOTICE", "rust/README.md", "oracle/README.md", "hostile/README.md"]
COLUMNS = ["function", "answers", "definition", "from", "rules out", "must-fail"]
FOLDERS = ["crates", "docs", "tests", "rust", "oracle", "include", "bench", "hostile", "traces"]
# Cited by so many contracts that the page says once what they are.
LEFT_OUT = {"number", "kept", "caused", "given", "settled", "zero_bandwidth", "zero_length", "zero_moment", "zero_gain"}

NAME = re.compile(r"[A-Za-z][\w']*")
SPAN = re.compile(r"`([^`]*)`")
CELL = re.compile(r"(?:`[^`]*`|\\\||[^|`])+")
# Up to the brace of the body.
FUNCTION = re.compile(r'^ *pub (?:extern "C" |const |unsafe )*fn (\w+)(.*?)(?:\n *\{| \{)\n', re.M | re.S)
DEFINED = re.compile(r"^(?:abbrev |unfoldable |opaque )?pub (?!mod )(?:record |data )?([A-Za-z][\w']*)", re.M)
DECLARED = re.compile(
    r"(?:^ *(?:abbrev |unfoldable |opaque )?pub (?!fn |struct |enum |const )|\b(?:fn|struct|enum|const) )([A-Za-z][\w']*)", re.M
)
faults = []


def read(path):
    return open(os.path.join(ROOT, path), encoding="utf-8").read()


def files(pattern):
    return sorted(os.path.relpath(path, ROOT) for path in glob.glob(os.path.join(ROOT, pattern), recursive=True))


def exists(path):
    return os.path.exists(os.path.join(ROOT, path))


def is_reached(crate, module, names):
    """Whether another crate can name a thing of a module: the module is public, or the thing is named again in lib.rt."""
    lib = read(f"crates/{crate}/src/lib.rt")
    again = re.findall(rf"^pub use (?:crate::)?{module}::(\w+);", lib, re.M)
    return module == "lib" or re.search(rf"^pub mod {module};", lib, re.M) or set(names) & set(again)


def functions(crate):
    """The public functions, by their names on the page: the signature and what is promised."""
    for path in files(f"crates/{crate}/src/**/*.rt"):
        text = read(path)
        for found in FUNCTION.finditer(text):
            above = re.findall(r"^(?:impl (?:\w+ for )?(\w+)|\})", text[: found.start()], re.M)
            owner = above[-1] + "::" if above and above[-1] else ""
            if not is_reached(crate, os.path.splitext(os.path.basename(path))[0], [found.group(1), owner.rstrip(":")]):
                continue
            clauses = re.split(r"\n *(?=requires|ensures)", found.group(2))
            promised = [re.sub(r"^ensures \w* ?\{", "", clause) for clause in clauses if clause.startswith("ensures")]
            yield owner + found.group(1), (clauses[0], " ".join(" ".join(promised).split()))


def tables():
    """The rows of the page's tables: line, heading, columns, cells."""
    heading, columns = "", None
    for index, line in enumerate(read(PAGE).split("\n"), 1):
        cells = [cell.strip() for cell in CELL.findall(line.strip().strip("|"))]
        if line.startswith("#"):
            heading = line.lstrip("# ").strip()
        if not line.lstrip().startswith("|"):
            columns = None
        elif columns is None:
            columns = cells
        elif not re.fullmatch(r"[\s|:-]+", line):
            yield index, heading, columns, cells


def check_row(fault, crate, row, function, defined, edits):
    signature, promised = function
    spans = SPAN.findall(row[2])
    cited = set(NAME.findall(re.sub(r"(?<=[\w)])\.\w+", "", promised))) & defined - set(re.findall(r"(\w+):", signature))
    if not (spans if promised else row[2] == "none"):
        fault("no definition" if promised else "it has no contract, and the row does not say: none")
    for span in spans:
        if not NAME.fullmatch(span):
            if span not in promised:
                fault(f"its contract does not say {span}")
        elif span not in defined:
            fault(f"{span} is no definition of its specs/ or of a lower crate's")
        elif span not in cited:
            fault(f"its contract does not cite {span}")
    for name in sorted(cited - LEFT_OUT - {name for span in spans for name in NAME.findall(span)}):
        fault(f"its contract cites {name}, and the row does not")
    if not row[1].strip("- ") or not row[3].strip("- "):
        fault("no answer or no origin")
    if len({wrong.strip() for wrong in row[4].split(";") if wrong.strip("- ")}) < 2:
        fault("fewer than two wrong programs")
    for edit in [] if row[5] == "-" else [edit.strip(" `*") for edit in row[5].split(",")]:
        if (edit if "/" in edit else f"{crate}/{edit}") not in edits:
            fault(f"there is no must-fail edit {edit or '(empty)'}")
    return cited


def check_paths(path, crates):
    """Paths of the repository, or from the page's folder, or below crates/. A part in capitals stands for any."""
    below = f"(?:{'|'.join(FOLDERS)})/|(?:{'|'.join(crates)})/(?:specs|proofs|src|data|must-fail)\\b/?"
    for index, line in enumerate(read(path).split("\n"), 1):
        links = re.findall(r"\]\(([^)#:]+)\)", line)
        for named in links + re.findall(rf"(?<![\w./-])((?:{below})(?:[\w-][\w.-]*/?)*)", line):
            named = named.rstrip(".")
            places = [named, os.path.join(os.path.dirname(path), named), os.path.join("crates", named)]
            if not re.search(r"\btarget/|/[A-Z]+(/|$)", named) and not any(map(exists, places)):
                faults.append(f"{path}:{index}: there is no {named}")


def believed(page):
    """The lines of the definitions that a page is made of, by crate: of every file of specs/ that `use` lines lead to."""
    reached, ahead = set(), [page]
    while ahead:
        path = ahead.pop()
        reached.add(path)
        for crate, name in re.findall(r"^(?:pub )?use Rattle\.(\w+)\.specs\.(\w+)(?=[.\s])", read(path), re.M):
            used = f"crates/{crate}/specs/{name}.antt"
            if used not in reached and exists(used):
                ahead.append(used)
    lines = collections.Counter()
    for path in reached:
        lines[path.split("/")[1]] += read(path).count("\n")
    return lines


def check_count(page, crates):
    """The page's last lines are that count."""
    lines = believed(page)
    count = ", ".join(f"{crate} {lines[crate]}" for crate in crates if lines[crate]) + f": together {sum(lines.values())}"
    if not " ".join(read(page).replace("\n--", " ").split()).endswith(count):
        faults.append(f"{page}: it should end with: {count}")


def check_sentence(at, row, declared, edits):
    """A sentence of document 01: the definitions and theorems that it names are there, and the edits."""
    for name in (name for cell in row[1:3] for name in SPAN.findall(cell) if NAME.fullmatch(name)):
        if name not in declared:
            faults.append(f"{at}: there is no {name}")
    for name in re.findall(r"(?<![\w/.])[a-z\d]+(?:_[a-z\d]+)+(?![\w/.])", SPAN.sub("", row[-1])):
        if not any(edit.endswith("/" + name) for edit in edits):
            faults.append(f"{at}: there is no must-fail edit {name}")


def check_tables(public, lower, specs, edits):
    """How many rows each function has, and the definitions that are cited."""
    sources = [path for folder in ("specs", "proofs", "src") for path in files(f"crates/*/{folder}/**/*.*")]
    declared = {"false"}.union(*specs.values(), *(DECLARED.findall(read(path)) for path in sources))
    rows, used = collections.Counter(), set()
    for index, heading, columns, row in tables():
        at = f"{PAGE}:{index}"
        if columns[0] == "sentence":
            check_sentence(at, row, declared, edits)
        if columns != COLUMNS:
            continue
        called = re.match(r"`((?:\w+::)?\w+)\(", row[0])
        key = (heading, called.group(1) if called else row[0])
        rows[key] += 1
        if key not in public:
            faults.append(f"{at}: crates/{heading} has no public function {key[1]}")
        elif len(row) != len(COLUMNS):
            faults.append(f"{at}: {len(row)} cells instead of {len(COLUMNS)}")
        else:
            defined = set().union(*(specs.get(crate, set()) for crate in [heading] + lower.get(heading, "").split()))
            fault = lambda what: faults.append(f"{at}: {heading}, {key[1]}: {what}")
            used |= check_row(fault, heading, row, public[key], defined, edits)
    return rows, used


def whole(crate):
    """The functions of a crate whose names begin with the archive's, whole but for their bodies, by file and name."""
    for path in files(f"crates/{crate}/src/*.rt"):
        for found in FUNCTION.finditer(read(path)):
            if found.group(1).startswith(OF_ARCHIVE + "_"):
                # in one line, since an exported function's first line is longer
                promised = " ".join(found.group(2).split()).replace("( ", "(").replace(", )", ")")
                yield (os.path.basename(path), found.group(1)), (promised, found.group(0))


def check_archive():
    """What the archive exports is each function of the library's that has its name, with the same parameters, the same
    answer and the same contract, word for word, and its body is the call of that function. Gives how many there are."""
    library, exported = dict(whole(OF_ARCHIVE)), dict(whole(ARCHIVE))
    for path, name in sorted(set(library) ^ set(exported)):
        faults.append(f"{path}: {name} stands in one of crates/{OF_ARCHIVE} and crates/{ARCHIVE}, and not in both")
    for key in sorted(set(library) & set(exported)):
        path, name = key
        promised, text = exported[key]
        if promised != library[key][0]:
            faults.append(f"crates/{ARCHIVE}/src/{path}: {name} has another contract than in crates/{OF_ARCHIVE}")
        above, _, below = read(f"crates/{ARCHIVE}/src/{path}").partition(text)
        given = ", ".join(re.findall(r"(\w+):(?!:)", promised.split("->")[0]))
        if not above.endswith("#[unsafe(no_mangle)]\n") or not text.startswith('pub extern "C" fn '):
            faults.append(f"crates/{ARCHIVE}/src/{path}: {name} is not exported")
        if below.partition("\n}\n")[0].strip() != f"{path[:-3]}::{name}({given})":
            faults.append(f"crates/{ARCHIVE}/src/{path}: {name} is not the call of {path[:-3]}::{name}")
    return len(exported)


def check_edit(path):
    """An edit's `old:` texts stand once in the file that it names, each after the changes before it."""
    crate = path.split("/")[2 if path.startswith("tests/") else 1]
    text = old = None
    for line in read(path).split("\n"):
        word, _, rest = line.partition(": ")
        if word == "file":
            text = read(f"crates/{crate}/{rest}")
        elif word == "old":
            old = rest
        elif word in ("new", "new:"):
            if text.count(old) != 1:
                faults.append(f"{path}: an `old:` text stands {text.count(old)} times in its file")
            text = text.replace(old, rest)


def main():
    lower = dict(line.split(":") for line in read("crates.txt").splitlines() if ":" in line and not line.startswith("#"))
    lower = {crate.split()[0]: below for crate, below in lower.items()}
    specs = {c: {n for p in files(f"crates/{c}/specs/**/*.antt") for n in DEFINED.findall(read(p))} for c in lower}
    edits = {"/".join(path[: -len(".edit")].split("/")[1::2]) for path in files("crates/*/must-fail/*.edit")}
    edits |= {"/".join(path[: -len(".edit")].split("/")[2:]) for path in files("tests/wrong/*/*.edit")}
    libraries = [path.split("/")[1] for path in files("crates/*/src/lib.rt")]
    libraries.remove(ARCHIVE)
    listed = [(crate, name, function) for crate in libraries for name, function in functions(crate)]
    public = {(crate, name): function for crate, name, function in listed}
    rows, used = check_tables(public, lower, specs, edits)
    for crate, name, function in listed:
        if rows[crate, name] != 1 or [one[:2] for one in listed].count((crate, name)) != 1:
            faults.append(f"{PAGE}: {rows[crate, name]} rows for {name} of crates/{crate}")
        proof, last = f"crates/{crate}/proofs/Determined.antt", name.split("::")[-1]
        alike = sum(1 for c, other, _ in listed if c == crate and other.split("::")[-1] == last)
        if exists(proof) and len(re.findall(rf"\.{last}(?![\w'])", read(proof))) < alike:
            faults.append(f"{proof}: {name} is missing")
    for path in files("crates/*/must-fail/*.edit") + files("tests/wrong/*/*.edit"):
        check_edit(path)
    for edit in sorted(edits):
        if not re.search(rf"(?<!\w){edit.split('/')[1]}(?!\w)", read(PAGE)):
            faults.append(f"{PAGE}: the must-fail edit {edit} is named nowhere")
    for path in (path for pattern in PAGES for path in files(pattern) if path != HISTORY):
        check_paths(path, lower)
    exported = check_archive()
    check_count(THEOREMS, lower)
    print("".join(line + "\n" for line in faults), end="")
    if faults:
        print(f"contracts: faults: {len(faults)}")
        return 1
    print(f"contracts: {len(public)} public functions, {len(used)} definitions, {len(edits)} must-fail edits: all named; {exported} of them exported")
    return 0


if __name__ == "__main__":
    sys.exit(main())
