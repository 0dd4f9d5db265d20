#!/usr/bin/env python3
"""Times the program `mend` beside `cat` and beside a Rust program that reads and writes the same, and looks at its memory.

    tests/mend_bench.py [LINES] [TURNS]

The trace is that of tests/replay_bench.py: LINES sound lines, 10,000,000 where they are not given. First both programs
have to write the same bytes for it and for traces/broken.csv, and the same lists. Then four take it TURNS times, 10 where
they are not given, by turns, with their output to nowhere and a new list each time: the port, the Rust program, `cat`,
which copies alone, and a Rust program that only reads every line. Of the user time and of the whole time of each the
least and the middle are shown, and how many lines that is in a second, by the middle of the whole time. The ratios are
the port's time by the Rust program's in the same turn, and by that of `cat` and of the reading together.

Then the port alone is handed lines through a pipe, and the most that was ever resident of it is looked at after 100,000
and after 100,000,000 of them in one run, as tests/replay_bench.py says: once with sound lines, once with lines that are
all dropped. Of the list, which nobody reads there, only the part that was written last is left on the disk.

The port is the command in the variable PORT, or else the program `mend`, as it was built last. The others are the commands
`mend LIST` and `parse` of the one in ORACLE, or else of target/oracle/release/oracle, as tests/mend_diff.sh builds it. All
are seen from the root of the repository. Where what is written differs, a program fails, or the memory grows by more than
64 KiB, it ends with 1."""

import collections
import os
import random
import subprocess
import tempfile
from statistics import median

from lossy_day import HEADER
from port import Fault, program
from replay import Progress, begun, guarded, regular
from replay_bench import APART, BLOCK, FEW, MANY, SEED, Took
from replay_bench import check_end, check_rows, connection, counts_of, most_resident, new_trace, timed, wait_until_read
from words import ROOT

ORACLE, BROKEN = "target/oracle/release/oracle", "traces/broken.csv"
# How far the port may be from `cat` and the reading together.
AIM = 1.5
# Blocks of lines after which the list's bytes are dropped.
CLEARED = 1000

# A program: what it is called here, its command, and whether that ends with the name of a list.
Timed = collections.namedtuple("Timed", ["name", "words", "lists"])


def in_full(one, target):
    """The whole command, with a list that is not there yet."""
    return [*one.words, target] if one.lists else one.words


# ---- what is written


def written(one, path, target):
    """What a program writes for a trace, and its list."""
    words = in_full(one, target)
    with regular(path) as trace, begun(words, stdin=trace, stdout=subprocess.PIPE, stderr=subprocess.DEVNULL) as running:
        text = running.stdout.read()
    check_end(words, running.returncode)
    with regular(target) as listed:
        return text, listed.read()


def check_written(port, rust, path, lines, folder):
    """Ends where the two don't write the same, of the sound trace all of it."""
    targets = [os.path.join(folder, one.name) for one in (port, rust)]
    broken = [written(one, os.path.join(ROOT, BROKEN), target + " broken") for one, target in zip((port, rust), targets)]
    if broken[0] != broken[1]:
        raise Fault(f"the two don't write the same for {BROKEN}")
    check_rows(in_full(port, targets[0]), in_full(rust, targets[1]), path, lines)
    for target in targets:
        with regular(target) as listed:
            if listed.read() != b"line,field\r\n":
                raise Fault("a list of the sound trace has more than its header")


# ---- the time


def by_turns(programs, path, turns, folder):
    """What each took in each turn, by name. Which of them is first changes from turn to turn."""
    taken, progress = {one.name: [] for one in programs}, Progress(turns)
    target = os.path.join(folder, "list")
    try:
        for turn in range(turns):
            first = turn % len(programs)
            for one in programs[first:] + programs[:first]:
                taken[one.name].append(timed(in_full(one, target), path))
                if one.lists:
                    os.remove(target)
            progress.step()
    finally:
        progress.end()
    return taken


def shown_ratio(taken, of, others):
    """The port's times by those of others together, turn by turn, in words; and the middle one."""
    mine = [getattr(one, of) for one in taken["port"]]
    theirs = [sum(getattr(one, of) for one in turn) for turn in zip(*(taken[name] for name in others))]
    if not all(theirs):
        raise Fault("these are too few lines to be timed")
    found = [one / other for one, other in zip(mine, theirs)]
    middle = median(found)
    return f"port by {' and '.join(others)}, {of} time: {min(found):.2f} to {max(found):.2f}, the middle {middle:.2f}", middle


def shown_times(taken, lines):
    """The lines of the table of times, and the ratios."""
    yield "seconds  user: least  middle   whole: least  middle   lines a second"
    for name, took in taken.items():
        user, whole = [one.user for one in took], [one.whole for one in took]
        yield f"{name:7}{min(user):13.3f}{median(user):8.3f}{min(whole):15.3f}{median(whole):8.3f}{round(lines / median(whole)):17,}"
    for of in Took._fields:
        yield shown_ratio(taken, of, ["rust"])[0]
        said, middle = shown_ratio(taken, of, ["cat", "parse"])
        yield f"{said}; the aim, at most {AIM}, is {'kept' if middle <= AIM else 'missed'}"


# ---- the memory


def fed(running, block, target, blocks):
    """Hands a program so many blocks of lines, and waits until it has read them."""
    for count in range(1, blocks + 1):
        running.stdin.write(block)
        if count % CLEARED == 0:
            os.truncate(target, 0)
    running.stdin.flush()
    wait_until_read(running.pid, running.stdin)


def resident_after(port, block, target):
    """The most KiB that were resident of one run of the port after few lines, and after many."""
    words, found, before = in_full(port, target), [], 0
    running = begun(words, stdin=subprocess.PIPE, stdout=subprocess.DEVNULL, stderr=subprocess.DEVNULL)
    try:
        running.stdin.write(f"{HEADER}\r\n".encode())
        for lines in (FEW, MANY):
            fed(running, block, target, (lines - before) // BLOCK)
            found.append(most_resident(running.pid))
            before = lines
        running.stdin.close()
        check_end(words, running.wait())
    except OSError as error:
        raise Fault(f"the port's memory can't be looked at: {error.strerror}") from None
    finally:
        running.kill()
    os.remove(target)
    return found


def shown_memory(port, folder):
    """Prints the memory after few and after many lines. Answers whether they are as near as they should be."""
    sound, near = connection(random.Random(SEED), 0, BLOCK // 2)[0].encode(), []
    for name, block in (("sound", sound), ("dropped", sound.replace(b"\r\n", b"\n"))):
        few, many = resident_after(port, block, os.path.join(folder, "list"))
        near.append(many - few <= APART)
        print(f"most resident of the port after {FEW:,} {name} lines: {few:,} KiB, after {MANY:,}: {many:,} KiB;", end=" ")
        print(f"the aim, at most {APART} KiB more, is {'kept' if near[-1] else 'missed'}", flush=True)
    return all(near)


# ---- the command


def programs():
    """The port, the Rust program, `cat`, and the Rust program that only reads."""
    given = os.environ.get("ORACLE", "").split()
    words = given or [ORACLE]
    if not given and not os.path.exists(os.path.join(ROOT, ORACLE)):
        raise Fault(f"{ORACLE} is not built yet: `sh tests/mend_diff.sh gate` builds it; or set ORACLE")
    rust = [Timed("rust", [*words, "mend"], True), Timed("cat", ["cat"], False), Timed("parse", [*words, "parse"], False)]
    return [Timed("port", program("mend"), True), *rust]


def run(all, file, lines, turns, folder):
    """Times all, and looks at the port's memory. Answers whether that stays."""
    path = f"/proc/self/fd/{file.fileno()}"
    check_written(*all[:2], path, lines, folder)
    print(f"{lines:,} lines, {os.path.getsize(path):,} bytes, {turns:,} turns: both write the same", flush=True)
    for line in shown_times(by_turns(all, path, turns, folder), lines):
        print(line, flush=True)
    return shown_memory(all[0], folder)


def main(arguments):
    if arguments in (["-h"], ["--help"]):
        print(__doc__)
        return 0
    lines, turns = counts_of(arguments)
    all = programs()
    with new_trace(lines) as file, tempfile.TemporaryDirectory() as folder:
        return 0 if run(all, file, lines, turns, folder) else 1


if __name__ == "__main__":
    guarded(main)
