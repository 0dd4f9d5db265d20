#!/usr/bin/env python3
"""Times the program `replay` beside a Rust program that reads the same and asks the original, and looks at its memory.

    tests/replay_bench.py [LINES] [TURNS]

A trace of LINES lines, 10,000,000 where they are not given, is made from a seed, in a temporary file: sends and events by
turns, losses, and now and then another start. No line is refused. First both programs have to write the same bytes for
it. Then each replays it TURNS times, 10 where they are not given, by turns, with its output to nowhere. Of the user time
and of the whole time of each the least and the middle are shown, and how many lines that is in a second, by the middle of
the whole time. The ratio is the port's time by the original's in the same turn.

Then the port alone is handed lines through a pipe, one block of them again and again, and the most that was ever resident
of it is looked at twice in one run: when it has read 100,000 lines and waits for more, and after 100,000,000. What the
system tells at a program's end would not do, since that counts what was resident of this script when it was started, and
neither would two runs: with where the system puts the program its memory differs by more than 64 KiB.

The port is the command in the variable PORT, or else the program `replay`, as it was built last. The other is the command
in ORIGINAL_REPLAY, or else target/oracle/release/oracle replay, as tests/trace.sh builds it. Both are seen from the root
of the repository. Where the rows differ, a program fails, or the memory grows by more than 64 KiB, it ends with 1."""

import collections
import fcntl
import os
import random
import re
import struct
import subprocess
import tempfile
import termios
import time
from itertools import zip_longest
from statistics import median

from lossy_day import HEADER
from port import Fault, program
from replay import Progress, begun, fault_of, guarded, regular, shown
from words import ROOT

LINES, TURNS, SEED = 10_000_000, 10, 7
ORIGINAL = "target/oracle/release/oracle replay"
# How far the port may be from the original in time, and its memory after many lines from that after few, in KiB.
AIM, APART = 2, 64
FEW, MANY = 100_000, 100_000_000
# The lines of a block, a start and pairs: an odd number of which both are multiples.
BLOCK = 3125
# Bytes of a packet, and how many packets are sent before the first of them is acked.
PACKET, AHEAD = 1300, 20
# Bytes of the rows that are compared at a time.
PART = 1 << 20
# Seconds after which a port that has not read all is given up.
PATIENCE = 60

Took = collections.namedtuple("Took", ["user", "whole"])


# ---- the trace


def send_and_event(rng, number, now, acked, lost):
    """A send of a packet and an event that acks an earlier one; in one of 50, more bytes are lost."""
    bits = rng.getrandbits(32)
    flight = PACKET * min(number, AHEAD)
    packet = number - AHEAD if number > AHEAD else ""
    bandwidth = 50_000_000 + bits % 5_000_011 if bits & 7 else ""
    rtt = 20_000_000 + bits % 19_999_999 if bits & 56 else ""
    later, window, probing = now + 1 + bits % 300_007, PACKET * (10 + number % 41), int(number % 4000 >= 3500)
    sent = f"sent,{now},,{flight},{number},{PACKET},,,,,\r\n"
    return f"{sent}event,{later},{window},{flight},{packet},,{acked},{lost},{bandwidth},{rtt},{probing}\r\n"


def connection(rng, now, pairs):
    """The text of a start and of so many pairs of a send and an event, and the moment after them."""
    text = [f"start,{now},,,,,,,,{rng.randrange(40, 160)}000000,\r\n"]
    acked = lost = 0
    for number in range(1, pairs + 1):
        now += 400_000
        is_loss = rng.random() < 0.02
        acked, lost = acked + PACKET * (not is_loss), lost + PACKET * is_loss
        text.append(send_and_event(rng, number, now, acked, lost))
    return "".join(text), now + 400_000


def write_trace(file, lines):
    """Writes a trace of so many lines."""
    rng, now, left = random.Random(SEED), 0, lines
    file.write(f"{HEADER}\r\n".encode())
    while left:
        pairs = min(rng.randrange(1000, 4000), (left - 1) // 2)
        text, now = connection(rng, now, pairs)
        file.write(text.encode())
        left -= 1 + 2 * pairs
    file.flush()


def new_trace(lines):
    """A nameless file with a trace of so many lines."""
    try:
        file = tempfile.TemporaryFile()
        write_trace(file, lines)
        return file
    except OSError as error:
        raise Fault(f"the trace can't be written: {error.strerror}") from None


# ---- the rows


def difference(row, one, other):
    """Says the first row in which two parts differ, of which the first begins in this row."""
    pairs = enumerate(zip_longest(one.split(b"\n"), other.split(b"\n")))
    place, both = next((place, both) for place, both in pairs if both[0] != both[1])
    one, other = ("nothing" if part is None else shown(part[:80].decode(errors="backslashreplace")) for part in both)
    return f"the rows differ, first in row {row + place}: the port has {one}, the original {other}"


def rows_of_both(one, other):
    """How many rows both write, the header too. They have to be the same."""
    rows = 0
    while True:
        parts = one.read(PART), other.read(PART)
        if parts[0] != parts[1]:
            raise Fault(difference(rows, *parts))
        if not parts[0]:
            return rows
        rows += parts[0].count(b"\n")


def check_rows(port, original, path, lines):
    """Ends where the two don't write the same rows, one for each line."""
    streams = {"stdout": subprocess.PIPE, "stderr": subprocess.DEVNULL}
    with regular(path) as trace, regular(path) as again:
        with begun(port, stdin=trace, **streams) as one, begun(original, stdin=again, **streams) as other:
            try:
                rows = rows_of_both(one.stdout, other.stdout)
            except BaseException:
                one.kill()
                other.kill()
                raise
    for words, status in ((port, one.returncode), (original, other.returncode)):
        check_end(words, status)
    if rows != lines + 1:
        raise Fault(f"both wrote {rows:,} rows with the header, for {lines:,} lines")


# ---- the time


def check_end(words, status):
    if status != 0:
        raise Fault(f"{shown(' '.join(words))}: {fault_of(status, '')}")


def timed(words, path):
    """The seconds that a program takes for the trace."""
    with regular(path) as trace:
        began = time.monotonic()
        running = begun(words, stdin=trace, stdout=subprocess.DEVNULL, stderr=subprocess.DEVNULL)
        try:
            _, status, used = os.wait4(running.pid, 0)
        except BaseException:
            running.kill()
            raise
        whole = time.monotonic() - began
    running.returncode = -os.WTERMSIG(status) if os.WIFSIGNALED(status) else os.WEXITSTATUS(status)
    check_end(words, running.returncode)
    return Took(used.ru_utime, whole)


def by_turns(port, original, path, turns):
    """What both took in each turn. Which of them is first changes from turn to turn."""
    taken, progress = [], Progress(turns)
    try:
        for turn in range(turns):
            order = (port, original) if turn % 2 == 0 else (original, port)
            times = [timed(words, path) for words in order]
            taken.append(times if turn % 2 == 0 else times[::-1])
            progress.step()
    finally:
        progress.end()
    return taken


def ratios(taken, of):
    """The port's times by the original's, turn by turn."""
    return [getattr(port, of) / getattr(original, of) for port, original in taken]


def shown_times(taken, lines):
    """The lines of the table of times."""
    yield "seconds   user: least   middle   whole: least   middle   lines a second"
    for name, took in zip(("port", "original"), zip(*taken)):
        user, whole = [one.user for one in took], [one.whole for one in took]
        seconds = f"{min(user):11.3f}   {median(user):6.3f}   {min(whole):12.3f}   {median(whole):6.3f}"
        yield f"{name:8}  {seconds}   {round(lines / median(whole)):14,}"
    for of in Took._fields:
        found = ratios(taken, of)
        least, most, middle = min(found), max(found), median(found)
        verdict = f"the aim, at most {AIM}, is {'kept' if middle <= AIM else 'missed'}"
        yield f"port by original, {of} time: {least:.2f} to {most:.2f}, the middle {middle:.2f}; {verdict}"


# ---- the memory


def is_waiting(pid, pipe):
    """Whether a program has read all that was written and waits for more, or has ended."""
    unread = struct.unpack("i", fcntl.ioctl(pipe, termios.FIONREAD, bytes(4)))[0]
    with open(f"/proc/{pid}/stat") as stat:
        state = stat.read().rsplit(")", 1)[1].split()[0]
    return state == "Z" or (unread == 0 and state == "S")


def most_resident(pid):
    """The most KiB that ever were resident of a program at work."""
    with open(f"/proc/{pid}/status") as status:
        found = re.search(r"^VmHWM:\s*(\d+) kB$", status.read(), re.M)
    if not found:
        raise Fault("the port ends before its input does")
    return int(found[1])


def wait_until_read(pid, pipe):
    """Waits until a program has read all that was written."""
    until = time.monotonic() + PATIENCE
    while not is_waiting(pid, pipe):
        if time.monotonic() > until:
            raise Fault(f"the port has not read its input after {PATIENCE} seconds")
        time.sleep(0.01)


def resident_after(words, *counts):
    """The most KiB that were resident of one run of the port, when it had read so many lines, and so many."""
    block = connection(random.Random(SEED), 0, BLOCK // 2)[0].encode()
    running = begun(words, stdin=subprocess.PIPE, stdout=subprocess.DEVNULL, stderr=subprocess.DEVNULL)
    to, before, found = running.stdin, 0, []
    try:
        to.write(f"{HEADER}\r\n".encode())
        for lines in counts:
            for _ in range((lines - before) // BLOCK):
                to.write(block)
            to.flush()
            wait_until_read(running.pid, to)
            found.append(most_resident(running.pid))
            before = lines
        to.close()
        check_end(words, running.wait())
        return found
    except OSError as error:
        raise Fault(f"the port's memory can't be looked at: {error.strerror}") from None
    finally:
        running.kill()


def shown_memory(port):
    """Prints the memory after few and after many lines. Answers whether they are as near as they should be."""
    few, many = resident_after(port, FEW, MANY)
    is_near = many - few <= APART
    print(f"most resident of the port after {FEW:,} lines: {few:,} KiB, after {MANY:,} lines: {many:,} KiB")
    print(f"the aim, at most {APART} KiB more, is {'kept' if is_near else 'missed'}")
    return is_near


# ---- the command


def counts_of(arguments):
    """How many lines and how many turns."""
    if len(arguments) > 2:
        raise Fault("there are at most two arguments: how many lines, and how many turns")
    for given in arguments:
        if not re.fullmatch(r"[1-9][0-9]{0,9}", given):
            raise Fault(f"{shown(given)}: how many lines or turns is a whole number from 1 to 9,999,999,999")
    return tuple(int(given or usual) for given, usual in zip_longest(arguments, (LINES, TURNS)))


def original_program():
    """The words of the command that asks the original."""
    given = os.environ.get("ORIGINAL_REPLAY", "").split()
    words = given or ORIGINAL.split()
    if not given and not os.path.exists(os.path.join(ROOT, words[0])):
        raise Fault(f"{words[0]} is not built yet: `sh tests/trace.sh gate` builds it; or set ORIGINAL_REPLAY")
    return words


def run(port, original, file, lines, turns):
    """Times both, and looks at the port's memory. Answers whether that stays."""
    path = f"/proc/self/fd/{file.fileno()}"
    check_rows(port, original, path, lines)
    print(f"{lines:,} lines, {os.path.getsize(path):,} bytes, {turns:,} turns: both write the same rows", flush=True)
    taken = by_turns(port, original, path, turns)
    if not all(one.user and one.whole for both in taken for one in both):
        raise Fault(f"{lines:,} lines are too few to be timed")
    for line in shown_times(taken, lines):
        print(line, flush=True)
    return shown_memory(port)


def main(arguments):
    if arguments in (["-h"], ["--help"]):
        print(__doc__)
        return 0
    lines, turns = counts_of(arguments)
    port, original = program("replay"), original_program()
    with new_trace(lines) as file:
        return 0 if run(port, original, file, lines, turns) else 1


if __name__ == "__main__":
    guarded(main)
