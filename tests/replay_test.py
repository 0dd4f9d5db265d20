#!/usr/bin/env python3
"""Holds the program `replay` to what is kept and shown of it, and tests the two commands around it.

    tests/replay_test.py

Held to the program, or to the command in the variable PORT: document 02's input with its output, traces/lossy_day.csv
with its rows, and every example of docs/TRACE.md, each byte for byte. Where the program is not built this is left out and
said so, but not where CI is true. The rest needs no program: tests/replay.py, tests/replay.sh, tests/trace_picture.py and
the Makefile are run on small made inputs with others in its place, a shell for which each trace is what it is to do, and
one that writes rows that stand in a file; the kept trace is made again, and so is its picture. A line for each fault, and
then 1."""

import contextlib
import io
import os
import random
import re
import subprocess
import sys
import tempfile
import time
from concurrent.futures import ThreadPoolExecutor
from fractions import Fraction
from xml.dom import minidom
from xml.parsers.expat import ExpatError

import lossy_day
import replay
import trace_picture
from port import program
from words import ROOT

PAGE, DAY, DAY_ROWS, PICTURE = "docs/TRACE.md", "traces/lossy_day.csv", "traces/lossy_day.rows.csv", "docs/trace.svg"
# Document 02's input and output.
HEADER = "kind,time,cwnd,inflight,number,bytes,acked,lost,bw,rtt,probing"
ASKED = [HEADER, "start,0,,,,,,,,100000000,", "sent,500,,0,1,1300,,,,,", "event,1000,1300,1300,1,,0,1300,,,0"]
ROWS = "line,refusal,round,max_bw,lo,hi"
ANSWERED = [ROWS, "1,0,0,0,,", "2,0,0,0,,", "3,0,1,0,910,"]
# The refusals that a trace can give, and of 6 each cause, by a line that has it.
REFUSALS = {"6", "2.1", "2.2", "2.3", "2.4", "2.5", "2.9", "3", "4", "10"}
CAUSES = {
    "over 4,096 bytes": r"4,.*<\d+ zeros>.*",
    "without CR LF": r"4,.*<LF>",
    "the end of the input": r"4,.*<end>",
    "too few fields": r"4,([^,]*,){9}[^,]*",
    "too many fields": r"4,([^,]*,){11}[^,]*",
    "an empty line": r"4,<nothing>",
    "cut": r"4,sent,\d+",
    "an unknown kind": r"4,(?!start|sent|event)[A-Za-z]+,.*",
    "probing": r"4,event,.*,2",
    "probing, empty": r"4,event,.*,",
    "quotes": r'4,sent,"\d+",.*',
    "a leading zero": r"4,sent,0\d+,.*",
    "a sign": r"4,sent,\d+,,-1,.*",
    "a blank": r"4,sent, .*",
    "a byte that is no digit": r"4,sent,\d+<NUL>,.*",
    "above 2^64 - 1": r"4,sent,18446744073709551616,.*",
    "empty": r"4,sent,,.*",
    "filled": r"4,sent,\d+,\d+,.*",
    "a send before a start": r"1,sent,2500,,0,2,1300,,,,,",
    "an event before a start": r"1,event,2500,1300,0,,,0,0,,,0",
}

faults = []


def due(where, is_so, said=""):
    """Keeps a fault where something is not so."""
    if not is_so:
        faults.append(f"{where}: {said}" if said else where)


def verdict(name, said):
    """Prints the faults, or what was held where there is none. Answers what to end with."""
    print("".join(line + "\n" for line in faults), end="")
    print(f"{name}: faults: {len(faults)}" if faults else f"{name}: {said}")
    return 1 if faults else 0


def text_of(lines):
    return "".join(line + "\r\n" for line in lines).encode()


def read(path):
    with open(os.path.join(ROOT, path), "rb") as file:
        return file.read()


def write(path, content):
    with open(path, "wb") as file:
        file.write(content if isinstance(content, bytes) else content.encode())
    return path


def files_of(folder):
    """What is in a folder, by name: the bytes of a file, and None of what is none."""
    paths = {name: os.path.join(folder, name) for name in (os.listdir(folder) if os.path.isdir(folder) else [])}
    return {name: read(path) if os.path.isfile(path) else None for name, path in paths.items()}


# ---- the page


class Page:
    """What docs/TRACE.md shows: whole traces with their rows, lines with their rows, a summary and a table; of a mending
    mended traces with their lists and what is said, and lines with their entries in a list."""

    def __init__(self, text):
        blocks = re.findall(r"^```(\w+) ?(\S*)\n(.*?)^```$", text, re.M | re.S)
        self.text, self.traces, self.named, self.summaries, self.tables = text, [], {}, {}, []
        self.mended, self.lists, self.said = {}, {}, {}
        for place, (kind, name, body) in enumerate(blocks):
            if kind == "trace":
                lines, follows = body.splitlines(), blocks[place + 1 : place + 2]
                due(f"{PAGE}: trace {place}", follows and follows[0][0] == "rows", "no rows follow it")
                self.traces.append((text_of(lines), text_of(follows[0][2].splitlines()) if follows else b""))
                if name:
                    self.named[name] = text_of(lines)
            elif kind == "summary":
                self.summaries[name] = body
            elif kind == "table":
                self.tables.append(body)
            elif kind in ("mended", "list"):
                (self.mended if kind == "mended" else self.lists)[name] = text_of(body.splitlines())
            elif kind == "said":
                self.said[name] = body
        # A row has five commas, an entry of a list has one.
        shown = lambda commas: rf"^\| `([^`]*?)` \| `((?:[\d.]*,){{{commas}}}\d*)` \| .+ \|$"
        self.lines, self.entries = (re.findall(shown(n), text.replace("| `` |", "| `<nothing>` |"), re.M) for n in (5, 1))
        self.words = dict(re.findall(r"^\| ([\d.]+) \| `([^`]+)` \|$", text, re.M))
        self.formats = re.findall(r'snprintf\(line, sizeof line, (".*"), (.*)\);', text)
        # The trace without a name is what the lines follow.
        self.before = next((trace for trace, _ in self.traces if trace not in self.named.values()), b"")

    def example(self, line, row):
        """The whole input of a line's example, and the number that its row has to have."""
        expanded = re.sub(r"<(\d+) zeros>", lambda found: "0" * int(found[1]), line.replace("<nothing>", ""))
        expanded = expanded.replace("<NUL>", "\0")
        ending = next((end for mark, end in (("<LF>", "\n"), ("<end>", "")) if expanded.endswith(mark)), "\r\n")
        expanded = re.sub(r"<(LF|end)>$", "", expanded) + ending
        alone = row.startswith("1,")
        before = text_of([HEADER]) if alone else self.before
        return before + expanded.encode(), 1 if alone else before.count(b"\n")


def check_page(page):
    """What the page has, whatever the program does."""
    due(
        PAGE,
        len(page.traces) == 3 and page.traces[0] == (text_of(ASKED), text_of(ANSWERED)),
        "document 02's example isn't the first of three",
    )
    shown = {row.split(",")[1] for _, row in page.lines}
    due(PAGE, shown == REFUSALS | {"0"}, f"the refusals of its lines are {sorted(shown)}")
    sixes = [f"{row.split(',')[0]},{line}" for line, row in page.lines if row.split(",")[1] == "6"]
    for cause, pattern in CAUSES.items():
        due(PAGE, any(re.fullmatch(pattern, line) for line in sixes), f"no line with a refusal 6 for this: {cause}")
    for line, row in page.lines:
        text, number = page.example(line, row)
        due(f"{PAGE}: {line}", row.startswith(f"{number},"), f"its row should begin with {number}")
        if "zeros" in line:
            last = text.split(b"\n")[-2] + b"\n"
            due(f"{PAGE}: {line}", len(last) == 4097, f"it has {len(last)} bytes")
    due(PAGE, set(page.words) == REFUSALS, f"it has words for {sorted(page.words)}")
    for (given, names), wanted in zip(page.formats, ["start,1,,,,,,,,2,", "sent,1,,2,3,4,,,,,", "event,1,2,3,4,,5,6,7,8,9"]):
        # As C reads it, with 1, 2, 3 and so on for the numbers.
        numbers = iter(range(1, 11))
        made = re.sub('%" PRIu64 "', lambda _: str(next(numbers)), given)
        due(f"{PAGE}: {given}", made == f'"{wanted}\\r\\n"' and next(numbers) == names.count(",") + 2, f"it makes {made} of {names}")
    due(PAGE, len(page.formats) == 3, "no line in C for each kind")
    due(
        PAGE,
        set(page.named) == {"example.csv", "damaged.csv"} and set(page.summaries) == {"damaged.csv"} and len(page.tables) == 1,
        "its blocks",
    )


# ---- the program


def answered(words, text):
    """What the program writes for an input: the rows, and what it says."""
    try:
        done = subprocess.run(words, cwd=ROOT, input=text, stdout=subprocess.PIPE, stderr=subprocess.PIPE)
    except OSError as error:
        return b"", f"{words[0]}: {error.strerror}"
    return done.stdout, done.stderr.decode(errors="backslashreplace")


def check_rows(where, rows, wanted):
    """Says the first row that is not as it should be."""
    if rows == wanted:
        return
    pairs = zip(rows.split(b"\n") + [None], wanted.split(b"\n") + [None])
    place, (given, right) = next((place, pair) for place, pair in enumerate(pairs) if pair[0] != pair[1])
    faults.append(f"{where}: row {place} is {given}, and should be {right}")


def check_held(words, page):
    """The program beside what is kept and shown. Answers how many inputs it was given."""
    wanted = [("document 02", text_of(ASKED), text_of(ANSWERED)), (DAY, read(DAY), read(DAY_ROWS))]
    wanted += [(f"{PAGE}, trace {place}", *pair) for place, pair in enumerate(page.traces, 1)]
    wanted += [("a wrong header", b"kind\r\n", text_of([ROWS, "0,6,,,,"])), ("a header alone", text_of([HEADER]), text_of([ROWS]))]
    examples = [(line, row, *page.example(line, row)) for line, row in page.lines]
    with ThreadPoolExecutor(os.cpu_count() or 1) as pool:
        whole = pool.map(lambda one: answered(words, one[1])[0], wanted)
        single = pool.map(lambda one: answered(words, one[2]), examples)
        for (where, _, rows), given in zip(wanted, whole):
            check_rows(where, given, rows)
        for (line, row, _, _), (given, said) in zip(examples, single):
            last, refusal = given.split(b"\r\n")[-2:], row.split(",")[1]
            due(f"{PAGE}: {line}", last == [row.encode(), b""], f"its row is {last}, and {row} stands there")
            if refusal != "0":
                wanted = f"\n  {refusal}: 1, {page.words.get(refusal)}\n"
                due(f"{PAGE}: {line}", wanted in said, f"{said!r} is its summary, and should have {wanted!r}")
    for name, summary in page.summaries.items():
        said = answered(words, page.named[name])[1]
        due(f"{PAGE}: summary of {name}", said == summary, f"{said!r} is what the program says")
    return len(wanted) + len(examples)


def check_failing(words, page):
    """A wrong header, a read and a write that fail: the page's sentence, and no summary."""
    cases = [(os.path.join(ROOT, PAGE), os.devnull, NO_HEADER), (ROOT, os.devnull, "the input can't be read: Is a directory")]
    if os.path.exists("/dev/full"):
        cases.append((os.path.join(ROOT, DAY), "/dev/full", "the rows can't be written: No space left on device"))
    for source, target, sentence in cases:
        given, taken = os.open(source, os.O_RDONLY), os.open(target, os.O_WRONLY)
        try:
            done = subprocess.run(words, cwd=ROOT, stdin=given, stdout=taken, stderr=subprocess.PIPE)
            due(sentence, done.stderr.decode() == sentence + "\n", f"{done.stderr.decode()!r} is what the program says")
        finally:
            os.close(given)
            os.close(taken)
        on_page = re.sub(": [A-Z].*", ": ..", sentence)
        due(PAGE, f"`{on_page}`" in page.text, f"it does not have the sentence {on_page}")


def check_page_table(folder, page):
    """The table of the page, by the program."""
    others = [("lossy_day.csv", read(DAY)), ("lossy_day.svg", read(PICTURE)), ("notes.txt", b"nothing\n")]
    for name, content in [*page.named.items(), *others]:
        write(os.path.join(folder, name), content)
    status, said, errors = run("replay.py", folder, port=None)
    due(
        f"{PAGE}: the table",
        (status, said) == (1, page.tables[0]),
        f"tests/replay.py ends with {status} and says {said}{errors}",
    )


# ---- the commands


@contextlib.contextmanager
def port_set(port):
    """The variable PORT, for a while; None takes it away."""
    before = os.environ.pop("PORT", None)
    try:
        os.environ.update({} if port is None else {"PORT": port})
        yield
    finally:
        os.environ.pop("PORT", None)
        os.environ.update({} if before is None else {"PORT": before})


def run(script, *arguments, port, **streams):
    """How a command ends and what it says, with another command for the program. None leaves it as it is."""
    setting = dict(os.environ) if port is None else {**os.environ, "PORT": port}
    streams = {"stdout": subprocess.PIPE, "stderr": subprocess.PIPE, **streams}
    done = subprocess.run([sys.executable, os.path.join(ROOT, "tests", script), *arguments], env=setting, **streams)
    return done.returncode, (done.stdout or b"").decode(), (done.stderr or b"").decode()


def called(main, arguments, port):
    """The same without a process of its own."""
    said, errors = io.StringIO(), io.StringIO()
    try:
        with port_set(port), contextlib.redirect_stdout(said), contextlib.redirect_stderr(errors):
            status = main(arguments)
    except replay.Fault as fault:
        status = 1
        errors.write(str(fault))
    return status, said.getvalue(), errors.getvalue()


def ended(words, root=ROOT, **setting):
    """How a command of the shell, or of make in a folder, ends and what it says, with variables set."""
    words = words if words[0] == "sh" else ["make", "-s", "-C", root, "--no-print-directory", *words]
    given = {name: value for name, value in os.environ.items() if name not in ("MAKEFLAGS", "MAKELEVEL", "PORT", *MADE)}
    done = subprocess.run(words, env={**given, **setting}, stdout=subprocess.PIPE, stderr=subprocess.PIPE)
    said = "".join(line + "\n" for line in done.stderr.decode().splitlines() if not line.startswith("make: *** "))
    return done.returncode, done.stdout.decode(), said


def check_run(where, given, status, said, error):
    """A command's end, its output as a whole, and a part of its errors: a sentence, and never a traceback."""
    due(where, given[0] == status, f"it ends with {given[0]}, and should with {status}")
    due(where, given[1] == said, f"it says {given[1]!r}, and should {said!r}")
    fine = error in given[2] if error else not given[2]
    due(where, fine and "Traceback" not in given[2], f"its errors are {given[2]!r}, and should have {error!r}")


NO_HEADER = "the header is wrong or missing: nothing was replayed"
SUMMARY = "printf 'lines: 7\\nrefused: 3, first in line 4\\n  6: 2, words, and more: 8, words\\n  2.9: 1, words\\nrounds: 1\\nlowest lo: 910\\n' >&2\n"
UNSET = "echo '4194304 lines' >&2; printf 'lines: 4200000\\nrefused: 0\\nrounds: 100\\nlowest lo: never set\\n' >&2\n"
LATE = "printf 'lines: 20\\nrefused: 12, first in line 9\\n  5: 1, w\\n  2.9: 1, w\\n  10: 4, w\\n  3: 6, w\\nrounds: 2\\nlowest lo: 0\\n' >&2\n"
# Traces for a shell, each with what its line says.
SHELL = {
    "a2.csv": ("printf 'rows of a'\n" + SUMMARY, "      7        3              4       1        910  6: 2, 2.9: 1"),
    "a10.csv": (UNSET, "4200000        0              -     100  never set  -"),
    "c.CSV": (LATE, "     20       12              9       2          0  2.9: 1, 3: 6, 10: 4, 5: 1"),
    "died.csv": ("printf rows; kill -9 $$\n", "the program was ended by signal 9"),
    "ended.csv": ("echo 'no room left' >&2; exit 3\n" + SUMMARY, "the program ended with 3: no room left"),
    "failed.csv": (SUMMARY + "exit 1\n", "the program ended with 1: lowest lo: 910"),
    "header.csv": (f"echo '{NO_HEADER}' >&2\n", NO_HEADER),
    "link.csv": (None, "it can't be read: No such file or directory"),
    "more.csv": (SUMMARY + "echo 'a write failed' >&2\n", "a write failed"),
    "odd\n\udcff.csv": (UNSET, "4200000        0              -     100  never set  -"),
    "pipe.csv": (None, "it is no regular file"),
    "silent.csv": ("true\n", "the program ended without a summary"),
}
# The variables that the Makefile hands on.
MADE = ("TRACE", "TRACES", "OUT", "QLOG")
TABLE_HEAD = "lines  refused  first in line  rounds  lowest lo  refusals"


def fill(folder, traces):
    """A folder of traces, with what has to be left out beside them."""
    os.makedirs(os.path.join(folder, "below"))
    for name in (".hidden.csv", "a2.rows.csv", "a2.list.csv", "c.LIST.CSV", "below/d.csv"):
        write(os.path.join(folder, name), SUMMARY)
    for name, content in traces.items():
        write(os.path.join(folder, name), content)
    return folder


def check_table(folder):
    """A folder with traces of every sort."""
    fill(folder, {name: script for name, (script, _) in SHELL.items() if script})
    os.symlink("nowhere", os.path.join(folder, "link.csv"))
    os.mkfifo(os.path.join(folder, "pipe.csv"))
    width = max(len(replay.shown(name)) for name in SHELL)
    said = f"{'trace':{width}}    {TABLE_HEAD}\n"
    said += "".join(f"{replay.shown(name):{width}}  {line}\n" for name, (_, line) in SHELL.items())
    said += "12 traces: 8400027 lines, 15 refused in 2 traces (6: 2, 2.9: 2, 3: 6, 10: 4, 5: 1), 203 rounds, "
    said += "lowest lo 0 (c.CSV); 8 not replayed\n"
    check_run("a folder", run("replay.py", folder, port="sh"), 1, said, "")
    for name, others in (("a.svg", "1 picture or qlog"), ("b.SQLOG", "2 pictures or qlogs"), ("c.qlog", "3 pictures or qlogs")):
        write(os.path.join(folder, name), SUMMARY)
        check_run("other files", called(replay.main, [folder], "sh"), 1, f"{said}{others} left out\n", "")
    due("a folder", replay.shown("odd\n\udcff") == "odd\\n\\udcff", "a name on one line")


def check_rows_kept(folder, out):
    """Rows go to another folder, whole or not at all, and no trace is written to."""
    late = SHELL["c.CSV"][0]
    traces = {"a.csv": SHELL["a2.csv"][0], "bad.csv": SHELL["died.csv"][0], "c.CSV": late, "c.mended.csv": late, "d": late}
    fill(folder, traces)
    os.makedirs(out)
    os.link(os.path.join(folder, "a.csv"), os.path.join(out, "a.rows.csv"))
    write(os.path.join(out, "bad.rows.csv"), "before")
    status, _, errors = run("replay.py", folder, out, port="sh")
    wanted = {"a.rows.csv": b"rows of a", "bad.rows.csv": b"before", **{f"{name}.rows.csv": b"" for name in ("c", "c.mended", "d")}}
    due("rows kept", (status, errors, files_of(out)) == (1, "", wanted), f"{status}, {errors!r} and {files_of(out)}")
    kept = {name: read(os.path.join(folder, name)).decode() for name in traces}
    due("rows kept", kept == traces, "a trace was written to")
    new = os.path.join(out, "new", "one")
    status, _, errors = called(replay.main, [folder, new], "sh")
    del wanted["bad.rows.csv"]
    due("a new folder", (status, errors, files_of(new)) == (1, "", wanted), f"{status}, {errors!r} and {files_of(new)}")
    one = called(replay.main, [folder, folder + "/."], "sh")
    check_run("one folder for both", one, 1, "", "the rows need another folder")
    no_folder = called(replay.main, [folder, os.path.join(out, "a.rows.csv", "x")], "sh")
    check_run("no folder", no_folder, 1, "", "the folder for the rows can't be made: Not a directory")
    write(os.path.join(folder, "c.csv"), SUMMARY)
    check_run("rows of two", called(replay.main, [folder, out], "sh"), 1, "", "the same rows")


def check_one(folder):
    """One trace by tests/replay.sh, and what the Makefile hands on, with names of every sort."""
    os.makedirs(folder)
    trace = lambda name, script: write(os.path.join(folder, name), script)
    odd = trace("o'd\"d $(name) $$x.csv", SHELL["a2.csv"][0])
    summary = "lines: 7\nrefused: 3, first in line 4\n  6: 2, words, and more: 8, words\n  2.9: 1, words\nrounds: 1\nlowest lo: 910\n"
    shell = ["sh", os.path.join(ROOT, "tests", "replay.sh")]
    none = os.path.join(folder, "none.csv")
    for words, status, rows, errors in [
        ([*shell, odd], 0, "rows of a", summary),
        ([*shell, trace("silent.csv", "printf rows\n")], 1, "rows", "the program ended without a summary\n"),
        ([*shell, trace("died.csv", "echo '8 lines' >&2; kill -PIPE $$\n")], 1, "", "8 lines\nthe program ended without a summary\n"),
        ([*shell, trace("header.csv", f"echo '{NO_HEADER}' >&2\n")], 1, "", f"{NO_HEADER}\n"),
        ([*shell, trace("cut.csv", "printf 'no LF' >&2\n")], 1, "", "no LF\n"),
        ([*shell, folder], 1, "", f"{folder} is a folder: TRACES={folder} replays every trace in it.\n"),
        ([*shell, none], 1, "", f"There is no file {none}.\n"),
        (shell, 1, "", "replay: name a trace\n"),
        (["replay", f"TRACE={odd}"], 0, "rows of a", summary),
        (["replay", f"TRACE={none}"], 2, "", f"There is no {none}.\n"),
        (["replay", f"TRACE={trace('fails.csv', 'true')}"], 2, "", "the program ended without a summary\n"),
        (["replay"], 2, "", "Name a trace, TRACE=file, or a folder of them, TRACES=folder.\n"),
        (["replay", f"TRACE={odd}", f"TRACES={folder}"], 2, "", "Name TRACE alone, or TRACES with or without OUT.\n"),
        (["picture"], 2, "", "Name a trace, TRACE=file.\n"),
        (["picture", f"TRACE={none}"], 2, "", f"There is no {none}.\n"),
        (["qlog"], 2, "", "Name a qlog, QLOG=file.\n"),
    ]:
        # Nothing is built: the program stands in PORT.
        given = ended(words, PORT="sh")
        due(f"{words[-2:]}", given == (status, rows, errors), f"{given}, and should be {(status, rows, errors)}")


def check_cores(folder):
    """Several at a time, and no more than there are cores."""
    cores, log = os.cpu_count() or 1, os.path.join(folder, "log")
    os.makedirs(folder)
    for place in range(2 * cores + 1):
        write(os.path.join(folder, f"{place}.csv"), f"echo + >>{log}; sleep 0.15; echo - >>{log}\n" + UNSET)
    status, said, _ = run("replay.py", folder, port="sh")
    running = most = 0
    for mark in read(log).decode().split():
        running += 1 if mark == "+" else -1
        most = max(most, running)
    due(
        "at a time",
        status == 0 and min(cores, 2) <= most <= cores,
        f"it ends with {status}, and {most} traces went on at a time, with {cores} cores",
    )
    due(
        "at a time",
        said.endswith(f"\n{2 * cores + 1} traces: {(2 * cores + 1) * 4200000} lines, 0 refused, {(2 * cores + 1) * 100} rounds, lowest lo never set\n"),
        said,
    )


def check_folders(folder):
    """What is no folder of traces."""
    os.makedirs(os.path.join(folder, "empty", "below"))
    write(os.path.join(folder, "empty", ".hidden.csv"), "")
    write(os.path.join(folder, "empty", "day.svg"), "")
    write(os.path.join(folder, "empty", "a.rows.csv"), "")
    write(os.path.join(folder, "empty", "a.list.csv"), "")
    one = write(os.path.join(folder, "one.csv"), SUMMARY)
    cases = [
        ([os.path.join(folder, "empty")], "sh", "there is no trace in this folder"),
        ([os.path.join(folder, "none")], "sh", "No such file or directory"),
        ([one], "sh", "one trace: make replay TRACE="),
        ([], "sh", "tests/replay.py FOLDER [OUT]"),
        ([folder, folder, folder], "sh", "tests/replay.py FOLDER [OUT]"),
    ]
    for arguments, port, error in cases:
        check_run(f"replay.py {arguments}", called(replay.main, arguments, port), 1, "", error)
    status, said, errors = run("replay.py", folder, port="no-such-program")
    due(
        "no such program",
        status == 1 and "the program can't be run: no-such-program: No such file" in said and not errors,
        f"{status} {said} {errors}",
    )


def check_closed(folder, day, rows):
    """An output that is closed, or full, is a sentence and no traceback."""
    os.makedirs(folder)
    write(os.path.join(folder, "a.csv"), SUMMARY)
    svg = os.path.join(folder, "day.svg")
    cases = (("replay.py", [folder], "sh"), ("trace_picture.py", [day, svg], f"cat {rows}"), ("lossy_day.py", [], "sh"))
    for script, arguments, port in cases:
        reader, writer = os.pipe()
        os.close(reader)
        check_run(
            f"{script}, closed",
            run(script, *arguments, port=port, stdout=writer),
            1,
            "",
            "standard output can't be written",
        )
        os.close(writer)
        if os.path.exists("/dev/full"):
            with open("/dev/full", "wb") as full:
                check_run(
                    f"{script}, full",
                    run(script, *arguments, port=port, stdout=full),
                    1,
                    "",
                    "standard output can't be written",
                )


# ---- the kept day


def check_day():
    """The kept trace is made again, and is what it is said to be."""
    made, kept, rows = text_of([lossy_day.HEADER, *lossy_day.day(lossy_day.SEED)]), read(DAY), read(DAY_ROWS)
    due(DAY, made == kept, "tests/lossy_day.py makes another")
    due(DAY, lossy_day.HEADER == HEADER, "its header")
    lines = [line.split(",") for line in kept.decode().split("\r\n")[1:-1]]
    answers = [row.split(",") for row in rows.decode().split("\r\n")[1:-1]]
    due(DAY, 3000 <= len(lines) <= 6000 and len(kept) < 400_000, f"{len(lines)} lines, {len(kept)} bytes")
    due(
        DAY_ROWS,
        [row[0] for row in answers] == [str(place) for place in range(1, len(lines) + 1)],
        "not a row for each line",
    )
    due(DAY_ROWS, all(row[1] == "0" for row in answers), "a line is refused")
    due(DAY, 85_000 * 10**9 < int(lines[-1][1]) < 86_400 * 10**9, "it is no day")
    events = [line for line in lines if line[0] == "event"]
    due(DAY, {line[10] for line in events} == {"0", "1"}, "no round probes")
    due(
        DAY,
        max(int(line[2]) for line in events) <= 65_536 and all(int(line[2]) % 1300 == 0 for line in events),
        "its windows",
    )
    due(DAY, all(40 * 10**6 <= int(line[9]) <= 200 * 10**6 for line in lines if line[9]), "its round trips")
    due(DAY, all(10**5 <= int(line[8]) <= 2 * 10**6 for line in lines if line[8]), "its bandwidths")
    return lines, answers


def exact_day(lines, answers):
    """The largest difference of the day by fractions, its line, and the reductions since the start."""
    lo, worst = None, (Fraction(0), 0, 0)
    for place, (line, row) in enumerate(zip(lines, answers), 1):
        if line[0] == "start":
            lo, k, rounds, told, before = None, 0, 0, 0, 0
        if line[0] == "event":
            told = int(line[7])
            if int(row[2]) > rounds:
                if told > before and line[10] == "0":
                    lo, k = (Fraction(line[2]) if lo is None else lo) * Fraction(11744051, 2**24), k + 1
                rounds, before = int(row[2]), told
        due(
            f"{DAY}, line {place}",
            (lo is None) == (row[4] == ""),
            "lo is set where the exact one isn't, or the other way round",
        )
        if lo is not None and row[4] and abs(int(row[4]) - lo) > worst[0]:
            worst = (abs(int(row[4]) - lo), place, k)
    return worst


def check_picture(folder, lines, answers):
    """The kept picture is made again, and says what fractions say."""
    svg = os.path.join(folder, "day.svg")
    difference, place, k = exact_day(lines, answers)
    said = f"{svg}: {len(lines):,} lines, 0 refused. The largest difference is {float(difference):.6f} bytes, "
    said += f"in line {place:,}, after {k} reductions. None is outside the bounds.\n"
    check_run("the picture", run("trace_picture.py", os.path.join(ROOT, DAY), svg, port=f"cat {DAY_ROWS}"), 0, said, "")
    due(
        PICTURE,
        os.path.exists(svg) and read(svg) == read(PICTURE),
        f"it is not the picture of {DAY}: python3 tests/trace_picture.py {DAY} {PICTURE}",
    )


# ---- the exact lo

START, SENT = "start,0,,,,,,,,1,", "sent,0,,0,9,1300,,,,,"


def event(lost, probing=0, cwnd=1300):
    return f"event,0,{cwnd},0,,,0,{lost},,,{probing}"


# Lines with what their rows show, the refusal and round and lo; then how many differences are outside a bound.
RUNS = {
    "a loss": ([(START, "0", 0, ""), (event(1), "0", 1, 910)], 0),
    "0.99998 below": ([(START, "0", 0, ""), (event(1), "0", 1, 909)], 0),
    "1.00002 above": ([(START, "0", 0, ""), (event(1), "0", 1, 911)], 1),
    "1.99998 below": ([(START, "0", 0, ""), (event(1), "0", 1, 908)], 1),
    "not reduced": ([(START, "0", 0, ""), (event(1), "0", 1, "")], 1),
    "set too early": ([(START, "0", 0, 910), (event(1), "0", 1, 910)], 1),
    "no loss": ([(START, "0", 0, ""), (event(0), "0", 1, "")], 0),
    "no loss, but reduced": ([(START, "0", 0, ""), (event(0), "0", 1, 910)], 1),
    "no round": ([(START, "0", 0, ""), (event(1), "0", 0, "")], 0),
    "probing": ([(START, "0", 0, ""), (event(1, 1), "0", 1, "")], 0),
    "probing, and the round's losses are gone": ([(START, "0", 0, ""), (event(1, 1), "0", 1, ""), (event(1), "0", 2, "")], 0),
    "a loss before the round's end": ([(START, "0", 0, ""), (event(5), "0", 0, ""), (event(5), "0", 1, 910)], 0),
    "one round after the other": (
        [(START, "0", 0, ""), (event(1), "0", 1, 910), (event(1), "0", 2, 910), (event(2), "0", 3, 637)],
        0,
    ),
    "another window": ([(START, "0", 0, ""), (event(1), "0", 1, 910), (event(2, 0, 9000), "0", 2, 637)], 0),
    "a refused event": ([(START, "0", 0, ""), (event(7), "2.9", 0, ""), (event(0), "0", 1, "")], 0),
    "a refused start": ([(START, "0", 0, ""), (event(1), "0", 1, 910), (START, "2.9", 1, 910)], 0),
    "a refused line changes lo": ([(START, "0", 0, ""), (event(1), "0", 1, 910), (SENT, "3", 1, 914)], 1),
    "a second start": ([(START, "0", 0, ""), (event(9), "0", 1, 910), (START, "0", 0, ""), (event(0), "0", 1, "")], 0),
    "a second start keeps lo": ([(START, "0", 0, ""), (event(9), "0", 1, 910), (START, "0", 0, 910)], 1),
    "before a start": ([(SENT, "6", "", ""), (START, "0", 0, "")], 0),
    "no promise": ([(START, "0", 0, ""), (event(1, 0, 16777223), "0", 1, 11744057)], 0),
    "no promise, then a start": (
        [(START, "0", 0, ""), (event(1, 0, 2**40), "0", 1, 5), (START, "0", 0, ""), (event(1), "0", 1, 5)],
        1,
    ),
    "the largest window": ([(START, "0", 0, ""), (event(1, 0, 2**24), "0", 1, 11744052)], 1),
}


def run_of(folder, lines):
    """A trace, and its rows, as files."""
    trace = write(os.path.join(folder, "run.csv"), text_of([HEADER, *(line for line, *_ in lines)]))
    rows = [f"{place},{refusal},{round},{'' if round == '' else 0},{lo}," for place, (_, refusal, round, lo) in enumerate(lines, 1)]
    return trace, write(os.path.join(folder, "run.rows"), text_of([ROWS, *rows]))


def check_runs(folder):
    """Small runs, each with so many differences outside."""
    for name, (lines, outside) in RUNS.items():
        trace, rows = run_of(folder, lines)
        seen = trace_picture.gone_through(["cat", rows], trace)
        due(name, seen.outside == outside, f"{seen.outside} differences are outside, and {outside} should be")
        due(name, bool(seen.first_unpromised) == ("promise" in name), "whether something is promised")
        due(name, minidom_reads(trace_picture.drawing(seen, "<&>\xff")[1]), "the picture is no XML")


# Runs, and what their pictures say below the panels: the legend, and how the caption begins.
LOSS = ["as the program has it: lo", "exact lo", "an accepted start", "bound 1 / (1 - b)", "bound k, up to 4"]
DRAWN = {
    "no loss": (["as the program has it: max_bw", "an accepted start", "bound 1 / (1 - b)"], "2 lines, 0 refused. lo was never set."),
    "a loss": (LOSS, "2 lines, 0 refused. The largest"),
    "far below": ([*LOSS, "a larger difference"], "2 lines, 0 refused. The largest"),
}


def check_drawn(folder):
    """The legend has what is drawn and no more; marks, the bound k, the title and the clock."""
    far = [(START, "0", 0, ""), (event(1), "0", 1, 5)]
    for name, (names, caption) in DRAWN.items():
        trace, rows = run_of(folder, far if name == "far below" else RUNS[name][0])
        seen = trace_picture.gone_through(["cat", rows], trace)
        words = re.findall(r">([^<]+)</text>", "".join(trace_picture.drawing(seen, "n" * 60)[1]))
        below = words[words.index("line of the trace, and below it the time since the first accepted one") + 1 :]
        legend = below[: next(place for place, one in enumerate(below) if " refused. " in one)]
        fits = len(legend) == len(names) and all(one.startswith(wanted) for one, wanted in zip(below, [*names, caption]))
        due(f"drawn: {name}", fits, f"below it says {below}")
        due(f"drawn: {name}", words[0] == "n" * 55 + ".., replayed at beta 0.3", f"its title is {words[0]}")
    # Six reductions: k is drawn up to 4, and unset after that; a difference outside is marked, above and below.
    lines = [(START, "0", 0, "")] + [(event(k), "0", k, (910, 637, 445, 311, 217, 151)[k - 1]) for k in range(1, 7)]
    trace, rows = run_of(folder, lines)
    thinned = trace_picture.gone_through(["cat", rows], trace).thinned
    counts = [one.last[trace_picture.COUNT] for one in thinned.stretches]
    due("drawn: k", counts == [None, 1, 2, 3, 4, None, None], f"{counts}")
    for lo, marks in ((905, ["v-9"]), (915, ["v9"]), (906, []), (914, [])):
        trace, rows = run_of(folder, [(START, "0", 0, ""), (event(1), "0", 1, lo)])
        panel = trace_picture.difference_panel(trace_picture.gone_through(["cat", rows], trace).thinned, 0)
        found = re.findall(r"v-?9", "".join(panel.out))
        due("drawn: a mark", found == marks, f"lo {lo}: {found}")
    late = [START.replace("start,0", "start,7000000000"), SENT.replace("sent,0", "sent,7000000000"), START.replace("start,0", "start,5000000000")]
    trace, rows = run_of(folder, [(late[0], "0", 0, ""), (late[1], "0", 0, ""), (late[2], "0", 0, "")])
    panel = trace_picture.bandwidth_panel(trace_picture.gone_through(["cat", rows], trace).thinned, 0)
    times = re.findall(r'fill="#666">([^<]+)<', "".join(panel.out))
    due("drawn: the clock", times == ["0 ns", "0 ns", "-2 s"], f"{times}")


def minidom_reads(lines):
    """Whether the lines of a picture are XML."""
    try:
        return minidom.parseString("<svg>" + "".join(lines) + "</svg>") is not None
    except ExpatError:
        return False


def check_exact():
    """The exact lo beside fractions, and both bounds at their edges."""
    rng, b = random.Random(5), Fraction(11744051, 2**24)
    for window in (0, 1, 1300, 2**24, *(rng.randrange(2**24) for _ in range(20))):
        exact, fraction = trace_picture.Exact(), Fraction(window)
        for k in range(1, 60):
            exact.reduce(window)
            fraction *= b
            below = fraction - Fraction(exact.parts, trace_picture.PARTS)
            due(
                "the exact lo",
                0 <= below < Fraction(1, 2**94) and exact.count == k,
                f"{window} after {k}: {float(below)} below",
            )
            bound = min(Fraction(k), 1 / (1 - b))
            for lo in range(int(fraction) - 4, int(fraction) + 6):
                due(
                    "the bounds",
                    exact.is_kept(lo) == (abs(lo - fraction) < bound),
                    f"{window} after {k}: {lo} and {float(fraction)}",
                )


def check_thinned():
    """Thinned out, nothing of the least and the largest is lost."""
    rng = random.Random(6)
    for count in (1, 1199, 1200, 1201, 2400, 2401, 9999):
        thinned, given, values = trace_picture.Thinned(), [], None
        for place in range(count):
            if values is None or rng.random() < 0.3:
                values = tuple(rng.choice((None, rng.randrange(100))) for _ in trace_picture.SERIES)
            given.append((rng.random() < 0.01, values))
            thinned.add(b"%d" % place, *given[-1])
        due(
            "thinned out",
            thinned.lines == count and len(thinned.stretches) <= 1200,
            f"{count} lines: {len(thinned.stretches)} stretches",
        )
        due(
            "thinned out",
            count <= 1200 or len(thinned.stretches) >= 600,
            f"{count} lines: only {len(thinned.stretches)} stretches",
        )
        for place, one in enumerate(thinned.stretches):
            part = given[place * thinned.length : (place + 1) * thinned.length]
            for at in trace_picture.SERIES:
                of = [values[at] for _, values in part]
                known = [value for value in of if value is not None]
                wanted = (min(known, default=None), max(known, default=None), of[-1], None in of)
                stands = (one.least[at], one.largest[at], one.last[at], one.gap[at])
                due("thinned out", stands == wanted, f"{count} lines, stretch {place}: {stands}, and should be {wanted}")
            due(
                "thinned out",
                one.starts == any(start for start, _ in part) and one.time == b"%d" % (place * thinned.length),
                "starts and times",
            )


def check_pictures(folder):
    """What the picture's command does with wrong programs, wrong traces and wrong names."""
    asked = write(os.path.join(folder, "asked.csv"), text_of(ASKED))
    out = os.path.join(folder, "asked.svg")
    rows = lambda *lines: "cat " + write(os.path.join(folder, f"rows{time.monotonic_ns()}"), text_of(lines))
    right = rows(*ANSWERED)
    cases = [
        (
            [asked],
            right,
            0,
            f"{out}: 3 lines, 0 refused. The largest difference is 0.000015 bytes, in line 3, after 1 reduction. None is outside the bounds.\n",
            "",
        ),
        (
            [asked, out],
            rows(*ANSWERED[:3], "3,0,1,0,912,"),
            1,
            f"{out}: 3 lines, 0 refused. The largest difference is 2.000015 bytes, in line 3, after 1 reduction. Outside the bounds: 1, the first in line 3.\n",
            "",
        ),
        ([asked], rows(ROWS, "1,0,0,0,,", "2,6,0,0,,", "3,6,0,0,,"), 0, f"{out}: 3 lines, 2 refused. lo was never set.\n", ""),
        ([asked], rows(*ANSWERED[:3]), 1, "", "asked.csv: the rows end before line 3: the program ended without a summary"),
        ([asked], rows(*ANSWERED, "4,0,1,0,910,"), 1, "", "the program wrote row 4 where the trace has ended"),
        ([asked], rows(*ANSWERED[:2], "3,0,1,0,910,"), 1, "", "the program wrote row 3 where 2 is due"),
        ([asked], rows(*ANSWERED[:2], "2,0,x,0,910,"), 1, "", "what is no row: 2,0,x,0,910,"),
        ([asked], rows(*ANSWERED[:2], "2,0,1"), 1, "", "what is no row"),
        ([asked], rows(ROWS, "0,6,,,,"), 1, "", "the header is wrong or missing"),
        ([asked], "false", 1, "", "asked.csv: the program ended with 1"),
        ([asked], "no-such-program", 1, "", "can't be run"),
        ([asked, asked], right, 1, "", "has to end in .svg"),
        ([asked, os.path.join(folder, "none", "a.svg")], right, 1, "", "the picture can't be written"),
        ([write(os.path.join(folder, "t.svg"), text_of(ASKED))], right, 1, "", "that is the trace itself"),
        ([write(os.path.join(folder, "header.csv"), text_of([HEADER]))], rows(ROWS), 1, "", "the trace has no lines"),
        (
            [write(os.path.join(folder, "zero.csv"), b"%b\r\n\0\xff\n" % HEADER.encode())],
            rows(ROWS, "1,0,0,0,,"),
            1,
            "",
            "accepted line 1, which is no line",
        ),
        ([folder], right, 1, "", "it is no regular file"),
        ([os.path.join(folder, "none.csv")], right, 1, "", "it can't be read: No such file"),
        ([], right, 1, "", "tests/trace_picture.py TRACE [OUT.svg]"),
    ]
    for arguments, port, *end in cases:
        check_run(f"trace_picture.py {arguments}, {port}", called(trace_picture.main, arguments, port), *end)
    check_run("trace_picture.py", run("trace_picture.py", folder, port=right), 1, "", "it is no regular file")
    due(
        "the trace",
        read(asked) == text_of(ASKED) and read(os.path.join(folder, "t.svg")) == text_of(ASKED),
        "it was written to",
    )


def check_damaged(folder):
    """Lines are found as the program finds them: too long, without CR, cut."""
    long = b"9" * 300_000
    trace = write(os.path.join(folder, "damaged.csv"), text_of([HEADER, START]) + b"\r\n" + long + b"\n" + event(1).encode() + b"\r\nsent")
    rows = text_of([ROWS, "1,0,0,0,,", "2,6,0,0,,", "3,6,0,0,,", "4,0,1,0,910,", "5,6,1,0,910,"])
    seen = trace_picture.gone_through(["cat", write(os.path.join(folder, "damaged.rows"), rows)], trace)
    due(
        "a damaged trace",
        (seen.thinned.lines, seen.refused, seen.outside) == (5, 3, 0),
        f"{seen.thinned.lines}, {seen.refused}, {seen.outside}",
    )


def main():
    began = time.monotonic()
    page = Page(read(PAGE).decode())
    check_page(page)
    lines, answers = check_day()
    with tempfile.TemporaryDirectory() as work:
        below = lambda name: os.path.join(work, name)
        check_picture(work, lines, answers)
        check_runs(work)
        check_drawn(work)
        check_exact()
        check_thinned()
        check_pictures(work)
        check_damaged(work)
        check_table(below("table"))
        check_rows_kept(below("kept"), below("out"))
        check_one(below("one"))
        check_cores(below("cores"))
        check_folders(below("folders"))
        check_closed(below("closed"), os.path.join(ROOT, DAY), DAY_ROWS)
        try:
            words = program("replay")
            held = f"{check_held(words, page)} inputs held to the program"
            check_failing(words, page)
            os.makedirs(below("page"))
            check_page_table(below("page"), page)
        except replay.Fault as fault:
            held = f"the program's rows were not held: {fault}"
            due("the program", os.environ.get("CI") != "true", str(fault))
    return verdict("replay", f"{len(page.lines)} lines of {PAGE}, {len(RUNS)} runs beside the exact lo, three commands; {held}")


if __name__ == "__main__":
    sys.exit(main())
