#!/usr/bin/env python3
"""Replays every file of a folder, as many at a time as there are cores, and ends with a table of them.

    tests/replay.py FOLDER [OUT]

A line a trace, by name: how many lines it has, how many were refused, the line of the first refusal, how many rounds
ended, the lowest lo, and which refusals came how often. Below them a line has all of them together. These are the
figures of the program's own summary (docs/TRACE.md). Where OUT, another folder, is given, the rows of NAME.csv go to
OUT/NAME.rows.csv; otherwise nowhere. A file of that name is replaced once the new one is whole.

Every file is taken for a trace, a mended one too, but for rows (.rows.csv), lists of a mending (.list.csv), hidden files
and what is made of a trace or made into one: a picture (.svg) or a qlog (.qlog, .sqlog); a last line says how many of
these there are. Subfolders are not entered. Of a trace that can't be replayed its line says why; the others go on, and
then it ends with 1.

The variable PORT, where it is set, is the command that replays a trace from standard input, seen from the root of the
repository; otherwise it is the program `replay`, as it was built last."""

import collections
import os
import re
import signal
import stat
import subprocess
import sys
import tempfile
import time
from concurrent.futures import ThreadPoolExecutor, as_completed

from port import Fault, program
from words import ROOT

COLUMNS = ("trace", "lines", "refused", "first in line", "rounds", "lowest lo", "refusals")
TRACE, ROWS, LIST = ".csv", ".rows.csv", ".list.csv"
BESIDE = (".svg", ".qlog", ".sqlog")
# In the order in which they are asked.
REFUSALS = ("6", "1", *(f"2.{kind}" for kind in range(1, 10)), "3", "4", "10", "5")
# The lines of a summary that are kept, and the bytes of one: far more than it has.
KEPT, WIDEST = 64, 4096
SUMMARY = re.compile(
    r"^lines: (?P<lines>\d+)\nrefused: (?P<refused>\d+)(?:, first in line (?P<first>\d+))?\n"
    r"(?P<kinds>(?:  [\d.]+: \d+, .*\n)*)rounds: (?P<rounds>\d+)\nlowest lo: (?P<lowest>\d+|never set)\n\Z",
    re.M,
)

# What became of a trace: its figures, or None and why there are none.
Replayed = collections.namedtuple("Replayed", ["name", "figures", "fault"])
Figures = collections.namedtuple("Figures", ["lines", "refused", "first", "rounds", "lowest", "kinds"])


def begun(words, **streams):
    """The program at work."""
    try:
        return subprocess.Popen(words, cwd=ROOT, **streams)
    except OSError as error:
        raise Fault(f"the program can't be run: {words[0]}: {error.strerror}") from None


def shown(name):
    """A name on one line, whatever its bytes are."""
    return "".join(letter if letter.isprintable() else letter.encode("unicode_escape").decode() for letter in name)


# ---- one trace


def figures_of(said):
    """The figures of a summary, or None where it is not whole."""
    found = SUMMARY.search(said)
    if not found:
        return None
    kinds = collections.Counter()
    for line in found["kinds"].splitlines():
        number, rest = line.strip().split(": ", 1)
        kinds[number] = int(rest.split(",")[0])
    first = int(found["first"]) if found["first"] else None
    lowest = None if found["lowest"] == "never set" else int(found["lowest"])
    return Figures(int(found["lines"]), int(found["refused"]), first, int(found["rounds"]), lowest, kinds)


def last_said(stream):
    """The last lines that the program writes to standard error, up to its end."""
    kept = collections.deque(maxlen=KEPT)
    for line in iter(lambda: stream.readline(WIDEST), b""):
        kept.append(line.decode(errors="backslashreplace"))
    return "".join(kept)


def fault_of(status, said):
    """Why there are no figures."""
    why = said.strip().splitlines()[-1] if said.strip() else ""
    if status < 0:
        return f"the program was ended by signal {-status}"
    if status > 0:
        return f"the program ended with {status}" + (f": {shown(why)}" if why else "")
    return shown(why) if why else "the program ended without a summary"


def regular(path):
    """Opens a trace. What isn't a file is told without opening it, since a pipe would wait for its writer."""
    try:
        if not stat.S_ISREG(os.stat(path).st_mode):
            raise Fault("it is no regular file")
        return open(path, "rb")
    except OSError as error:
        raise Fault(f"it can't be read: {error.strerror}") from None


def replay(words, path, rows):
    """The figures of a trace. Its rows go to the open file."""
    with regular(path) as trace:
        with begun(words, stdin=trace, stdout=rows, stderr=subprocess.PIPE) as program:
            said = last_said(program.stderr)
    figures = figures_of(said) if program.returncode == 0 else None
    if figures is None:
        raise Fault(fault_of(program.returncode, said))
    return figures


def kept(words, path, target):
    """The figures of a trace. Its rows are put to their place once they are whole."""
    part = None
    try:
        with tempfile.NamedTemporaryFile(dir=os.path.dirname(target), prefix=".rows.", delete=False) as rows:
            part = rows.name
            figures = replay(words, path, rows)
        os.chmod(part, 0o644)
        os.replace(part, target)
        return figures
    except OSError as error:
        raise Fault(f"its rows can't be written: {error.strerror}") from None
    finally:
        if part and os.path.exists(part):
            os.remove(part)


def replayed(words, folder, name, out):
    """What became of one trace."""
    path = os.path.join(folder, name)
    try:
        if out:
            return Replayed(name, kept(words, path, rows_of(out, name)), None)
        return Replayed(name, replay(words, path, subprocess.DEVNULL), None)
    except Fault as fault:
        return Replayed(name, None, str(fault))


# ---- a folder


def rows_of(out, name):
    """Where the rows of a trace go."""
    return os.path.join(out, (name[: -len(TRACE)] if name.lower().endswith(TRACE) else name) + ROWS)


def by_name(name):
    """Names in the order in which they are read: 2 before 10."""
    parts = re.split("([0-9]+)", name)
    return [int(part) if place % 2 else part for place, part in enumerate(parts)], name


def traces_of(folder):
    """The names of the traces of a folder, and how many pictures and qlogs there are beside them."""
    try:
        names = os.listdir(folder)
    except OSError as error:
        hint = f" (one trace: make replay TRACE={shown(folder)})" if os.path.isfile(folder) else ""
        raise Fault(f"{shown(folder)}: the folder can't be read: {error.strerror}{hint}") from None
    files = [name for name in names if not name.startswith(".") and not os.path.isdir(os.path.join(folder, name))]
    beside = [name for name in files if name.lower().endswith(BESIDE)]
    found = sorted((name for name in files if not name.lower().endswith((ROWS, LIST, *BESIDE))), key=by_name)
    if not found:
        raise Fault(f"{shown(folder)}: there is no trace in this folder")
    return found, len(beside)


def check_out(folder, names, out):
    """Makes the folder for the rows. Ends where they would stand among the traces, or those of two traces in one file."""
    try:
        os.makedirs(out, exist_ok=True)
    except OSError as error:
        raise Fault(f"{shown(out)}: the folder for the rows can't be made: {error.strerror}") from None
    if os.path.samefile(folder, out):
        raise Fault(f"{shown(out)}: the rows need another folder than the traces")
    targets = collections.Counter(rows_of(out, name) for name in names)
    for name in names:
        if targets[rows_of(out, name)] > 1:
            raise Fault(f"{shown(name)}: another trace has the same name but for its ending, and so the same rows")


class Progress:
    """How many are done, now and then, where someone looks on."""

    def __init__(self, all):
        self.all, self.done, self.next = all, 0, time.monotonic() + 1
        self.seen = sys.stderr.isatty()

    def step(self):
        self.done += 1
        if self.seen and time.monotonic() >= self.next:
            self.next = time.monotonic() + 1
            print(f"\r{self.done} of {self.all}", end="", file=sys.stderr, flush=True)

    def end(self):
        if self.seen:
            print("\r" + " " * 30 + "\r", end="", file=sys.stderr, flush=True)


def all_replayed(words, folder, names, out):
    """What became of each trace, in their order."""
    progress = Progress(len(names))
    with ThreadPoolExecutor(max_workers=os.cpu_count() or 1) as pool:
        work = [pool.submit(replayed, words, folder, name, out) for name in names]
        try:
            for _ in as_completed(work):
                progress.step()
        except KeyboardInterrupt:
            for one in work:
                one.cancel()
            raise
        finally:
            progress.end()
    return [one.result() for one in work]


# ---- the table


def known(figure, otherwise="-"):
    return otherwise if figure is None else str(figure)


def counted(kinds):
    """Which refusals came how often, in the order in which they are asked."""
    order = {number: place for place, number in enumerate(REFUSALS)}
    numbers = sorted(kinds, key=lambda number: (order.get(number, len(order)), number))
    return ", ".join(f"{number}: {kinds[number]}" for number in numbers)


def cells(one):
    """The cells of a trace's line."""
    if one.figures is None:
        return (shown(one.name), None, one.fault)
    f = one.figures
    lowest = known(f.lowest, "never set")
    return (shown(one.name), str(f.lines), str(f.refused), known(f.first), str(f.rounds), lowest, counted(f.kinds) or "-")


def table(found):
    """The lines of the table: names and refusals from the left, numbers from the right."""
    rows = [COLUMNS, *map(cells, found)]
    whole = [row for row in rows if row[1] is not None]
    widths = [max(len(row[0]) for row in rows)] + [max(len(row[at]) for row in whole) for at in range(1, 6)]
    for row in rows:
        if row[1] is None:
            yield f"{row[0]:{widths[0]}}  {row[2]}"
        else:
            numbers = "  ".join(f"{row[at]:>{widths[at]}}" for at in range(1, 6))
            yield f"{row[0]:{widths[0]}}  {numbers}  {row[6]}"


def many(count, what):
    return f"{count} {what}" + ("" if count == 1 else "s")


def totals(found):
    """The line of all together."""
    done = [one for one in found if one.figures]
    kinds = sum((one.figures.kinds for one in done), collections.Counter())
    lines, refused, rounds = (sum(getattr(one.figures, name) for one in done) for name in ("lines", "refused", "rounds"))
    said = f"{many(len(found), 'trace')}: {many(lines, 'line')}, {refused} refused"
    if refused:
        said += f" in {many(sum(one.figures.refused > 0 for one in done), 'trace')} ({counted(kinds)})"
    set_ones = [one for one in done if one.figures.lowest is not None]
    lowest = min(set_ones, key=lambda one: one.figures.lowest, default=None)
    said += f", {many(rounds, 'round')}, lowest lo "
    said += f"{lowest.figures.lowest} ({shown(lowest.name)})" if lowest else "never set"
    return said + (f"; {len(found) - len(done)} not replayed" if len(done) < len(found) else "")


def main(arguments):
    if len(arguments) not in (1, 2) or arguments[0] in ("-h", "--help"):
        asked = arguments in (["-h"], ["--help"])
        print(__doc__, file=sys.stdout if asked else sys.stderr)
        return 0 if asked else 1
    folder, out = arguments[0], arguments[1] if len(arguments) == 2 else None
    names, others = traces_of(folder)
    if out:
        check_out(folder, names, out)
    found = all_replayed(program("replay"), folder, names, out)
    for line in table(found):
        print(line)
    print(totals(found))
    if others:
        print("1 picture or qlog left out" if others == 1 else f"{others} pictures or qlogs left out")
    return 1 if any(one.fault for one in found) else 0


def guarded(main):
    """Ends with what a command answers. A fault is a sentence on standard error and 1, and so is a closed output."""
    if sys.stdout is None or sys.stderr is None:
        sys.exit("standard output and standard error have to be open")
    sys.stdout.reconfigure(errors="backslashreplace")
    sys.stderr.reconfigure(errors="backslashreplace")
    try:
        status = main(sys.argv[1:])
        sys.stdout.flush()
    except Fault as fault:
        print(fault, file=sys.stderr)
        status = 1
    except OSError as error:
        os.dup2(os.open(os.devnull, os.O_WRONLY), sys.stdout.fileno())
        print(f"standard output can't be written: {error.strerror}", file=sys.stderr)
        status = 1
    except KeyboardInterrupt:
        print("interrupted", file=sys.stderr)
        status = 128 + signal.SIGINT
    sys.exit(status)


if __name__ == "__main__":
    guarded(main)
