#!/usr/bin/env python3
"""Draws a replayed trace: lo beside the exact lo, their difference between both bounds, hi, and max_bw.

    tests/trace_picture.py TRACE [OUT.svg]

Without OUT it is drawn beside the trace, with .svg for the ending. The rows come from the program `replay`, or from the
command in the variable PORT, as in tests/replay.py. It prints one line, with the refused lines and the largest
difference and where that was, and ends with 1 if a difference is outside a bound, or lo is set where the exact one isn't (docs/DRIFT.md).

The exact lo is made here, from the accepted lines of the trace and the rounds that the rows show. A start unsets it. An
event that ends a round reduces it, unless it probes or nothing was lost in the round: to b times the exact lo, or where
that is unset b times cwnd, with b = 11744051 / 2^24, the float 1 - beta at beta 0.3. The bounds are k, the reductions
since it was last unset, and 1 / (1 - b) = 3.3333.. bytes, each never reached.

A fraction would grow by 24 bits with each reduction. So the exact lo is kept in whole parts of 2^-96 bytes, rounded down
at each reduction: it is never above the exact value, and less than 2^-94 bytes below it, however many reductions there
are, since each takes three tenths off the error before it. A difference counts as outside where it may be outside.

From an accepted event with a window above 16,777,216 bytes on, up to the next start, nothing is promised: the picture
says so, and no difference there counts as outside.

The trace is gone through once, line by line, whatever its length. What is drawn is thinned out to the least and the
largest of at most 1,200 stretches of lines."""

import os
import subprocess
import sys
from concurrent.futures import ThreadPoolExecutor
from html import escape
from itertools import zip_longest
from math import ceil, floor, log10

from drift import USUAL_BETA, factor
from port import Fault, drawn, program
from replay import begun, fault_of, guarded, last_said, regular, shown

B = factor(USUAL_BETA)
FACTOR, WHOLE = B.numerator, B.denominator
PARTS = 2**96
# What the exact lo can be below the exact value, in parts, and the bound on a difference however many reductions.
BELOW = 4
RATE = 1 / (1 - B)
# The largest window for which something is promised.
PROMISED = 2**24
# The longest line of a trace with its end, and the row that stands alone after a wrong header.
LONGEST = 4096
NO_TRACE = b"0,6,,,,"
# The most stretches of lines that are drawn, and the most of them with a start.
STRETCHES, MOST_STARTS = 1200, 160
EVENT_LOST, EVENT_CWND, EVENT_PROBING = 7, 2, 10


# ---- the exact lo


class Exact:
    """The exact lo of a connection, and the reductions since it was unset."""

    def __init__(self):
        self.parts, self.count = None, 0
        self.round = self.lost = self.lost_in_round = 0
        self.promised = True

    def event(self, fields, round):
        """Takes an accepted event, after which so many rounds have ended."""
        lost, window = int(fields[EVENT_LOST]), int(fields[EVENT_CWND])
        self.promised = self.promised and window <= PROMISED
        self.lost_in_round += lost - self.lost
        self.lost = lost
        if round == self.round:
            return
        self.round = round
        if self.lost_in_round > 0 and fields[EVENT_PROBING] == b"0":
            self.reduce(window)
        self.lost_in_round = 0

    def reduce(self, window):
        before = PARTS * window if self.parts is None else self.parts
        self.parts = before * FACTOR // WHOLE
        self.count += 1

    def is_kept(self, lo):
        """Whether lo is where it is promised to be."""
        if lo is None or self.parts is None:
            return lo is None and self.parts is None
        above = abs(PARTS * lo - self.parts)
        furthest = max(above, abs(PARTS * lo - self.parts - BELOW))
        return furthest < PARTS * self.count and furthest < PARTS * RATE

    def bytes(self):
        return None if self.parts is None else self.parts / PARTS

    def difference(self, lo):
        return None if lo is None or self.parts is None else (PARTS * lo - self.parts) / PARTS


# ---- the trace and its rows


def lines_of(trace):
    """The lines of a trace after its header: each without its end, and those that are too long as nothing."""
    first = True
    for line in iter(lambda: trace.readline(LONGEST + 1), b""):
        whole = line
        while not line.endswith(b"\n") and line:
            line = trace.readline(LONGEST + 1)
        if not first:
            yield whole.rstrip(b"\r\n") if len(whole) <= LONGEST else b""
        first = False


def number(cell):
    return int(cell) if cell else None


def rows_of(rows):
    """The number of each row, its refusal, and round, max_bw, lo and hi, None where they are empty. A cut row is none."""
    rows.readline(LONGEST)
    for row in iter(lambda: rows.readline(LONGEST), b""):
        cells = row.rstrip(b"\r\n").split(b",")
        if len(row) < LONGEST and not row.endswith(b"\n"):
            return
        if cells == NO_TRACE.split(b","):
            raise Fault("the header is wrong or missing: nothing was replayed")
        try:
            line, refusal, *state = cells
            round, bandwidth, lo, hi = map(number, state)
            yield int(line), refusal, round, bandwidth, lo, hi
        except ValueError:
            raise Fault(f"the program wrote what is no row: {shown(row[:80].decode(errors='backslashreplace'))}") from None


# ---- what is drawn of many lines

SERIES = LO, EXACT, HI, DIFFERENCE, COUNT, BANDWIDTH = range(6)


class Stretch:
    """What some lines show: of each series the least, the largest and the last value, and whether it was ever unset."""

    def __init__(self, values):
        self.time, self.starts = None, False
        self.least, self.largest, self.last = list(values), list(values), list(values)
        self.gap = [value is None for value in values]

    def take(self, least, largest, last, gap):
        """Takes in what comes next."""
        for at in SERIES:
            if least[at] is not None:
                self.least[at] = least[at] if self.least[at] is None else min(self.least[at], least[at])
                self.largest[at] = largest[at] if self.largest[at] is None else max(self.largest[at], largest[at])
            self.last[at] = last[at]
            self.gap[at] = self.gap[at] or gap[at]

    def join(self, other):
        """Takes the next stretch in."""
        self.take(other.least, other.largest, other.last, other.gap)
        self.time, self.starts = self.time or other.time, self.starts or other.starts


class Thinned:
    """At most so many stretches of lines, all of one length but the last."""

    def __init__(self):
        self.stretches, self.length, self.lines, self.values = [], 1, 0, None

    def add(self, time, is_start, values):
        if self.lines % self.length == 0:
            if len(self.stretches) == STRETCHES:
                self.halve()
            if self.lines % self.length == 0:
                self.stretches.append(Stretch(values))
        one = self.stretches[-1]
        if values is not self.values:
            one.take(values, values, values, [value is None for value in values])
            self.values = values
        one.time, one.starts = one.time or time, one.starts or is_start
        self.lines += 1

    def halve(self):
        """Joins them two by two."""
        for left, right in zip(self.stretches[::2], self.stretches[1::2]):
            left.join(right)
        del self.stretches[1::2]
        self.length *= 2


class Seen:
    """A trace gone through: what is drawn of it, and what is said of its differences."""

    def __init__(self):
        self.thinned, self.exact = Thinned(), Exact()
        self.refused = self.outside = 0
        self.first_outside = self.first_unpromised = None
        self.largest = (0, None, 0)
        self.shown, self.values = None, (None,) * len(SERIES)

    def line(self, place, line, row):
        """Takes a line and its row."""
        _, refusal, round, bandwidth, lo, hi = row
        time, is_start = None, False
        if refusal == b"0":
            fields = line.split(b",")
            time, is_start = fields[1], fields[0] == b"start"
            if is_start:
                self.exact = Exact()
            elif fields[0] == b"event":
                self.exact.event(fields, round)
        else:
            self.refused += 1
        if not self.exact.promised:
            self.first_unpromised = self.first_unpromised or place
        now = (bandwidth, lo, hi, self.exact.parts, self.exact.count)
        if now != self.shown:
            self.shown = now
            self.look(place, bandwidth, lo, hi)
        self.thinned.add(time, is_start, self.values)

    def look(self, place, bandwidth, lo, hi):
        """What a changed state shows."""
        exact = self.exact
        difference = exact.difference(lo)
        count = None if exact.parts is None or exact.count > SHOWN else exact.count
        self.values = (lo, exact.bytes(), hi, difference, count, bandwidth)
        if not exact.promised:
            return
        if not exact.is_kept(lo):
            self.outside += 1
            self.first_outside = self.first_outside or place
        if difference is not None and abs(difference) > self.largest[0]:
            self.largest = (abs(difference), place, exact.count)


def beside(trace, rows):
    """The trace gone through beside its rows, and the line at which the rows end too early, if they do."""
    seen = Seen()
    for place, (line, row) in enumerate(zip_longest(lines_of(trace), rows_of(rows)), 1):
        if row is None:
            return seen, place
        if line is None or row[0] != place:
            raise Fault(f"the program wrote row {row[0]} where " + ("the trace has ended" if line is None else f"{place} is due"))
        try:
            seen.line(place, line, row)
        except (ValueError, IndexError):
            raise Fault(f"the program accepted line {place}, which is no line of a trace") from None
    return seen, None


def gone_through(words, path):
    """Replays a trace, and goes through its lines beside the rows."""
    with regular(path) as trace, regular(path) as again, ThreadPoolExecutor(1) as pool:
        with begun(words, stdin=again, stdout=subprocess.PIPE, stderr=subprocess.PIPE) as program:
            errors = pool.submit(last_said, program.stderr)
            try:
                seen, cut = beside(trace, program.stdout)
            except BaseException:
                program.kill()
                raise
        if program.returncode != 0:
            raise Fault(fault_of(program.returncode, errors.result()))
        if cut:
            raise Fault(f"the rows end before line {cut}: {fault_of(0, errors.result())}")
    if not seen.thinned.lines:
        raise Fault("the trace has no lines: there is nothing to draw")
    return seen


# ---- the picture

LEFT, RIGHT, TOP, GAP = 76, 860, 70, 52
BLACK, ORANGE, GREEN, RED, BLUE = "#222", "#f90", "#2a7", "#b00", "#06c"
WIDE, THIN, DASHED, DOTTED = 'stroke-width="5"', 'stroke-width="1.4"', 'stroke-dasharray="6 4"', 'stroke-dasharray="2 3"'
# The largest difference that is shown, and the letters of a title.
SHOWN, TITLE = 4.4, 55
BYTES = ((1, "bytes"), (10**3, "KB"), (10**6, "MB"), (10**9, "GB"), (10**12, "TB"))
BITS = ((1, "bit/s"), (10**3, "kbit/s"), (10**6, "Mbit/s"), (10**9, "Gbit/s"), (10**12, "Tbit/s"))


def unit_of(most, units):
    """The unit in which the largest number has at most five digits before the point."""
    return next(((size, name) for size, name in units if most < 100_000 * size), units[-1])


def steps(least, most, wanted):
    """Some round numbers from the least to the largest."""
    rough = max((most - least) / wanted, 1e-9)
    size = 10 ** floor(log10(rough))
    step = next(size * times for times in (1, 2, 5, 10) if size * times >= rough)
    return [place * step for place in range(ceil(least / step), floor(most / step) + 1)]


def clock(nanoseconds):
    """A length of time, shortly. It is below 0 where a later start has an earlier time."""
    if nanoseconds < 0:
        return "-" + clock(-nanoseconds)
    seconds = nanoseconds // 10**9
    if seconds < 60:
        size, unit = (1, "ns") if nanoseconds < 10**6 else (10**6, "ms") if nanoseconds < 10**9 else (10**9, "s")
        return f"{nanoseconds // size:,} {unit}"
    return f"{seconds // 60} min" if seconds < 3600 else f"{seconds // 3600} h {seconds % 3600 // 60} min"


class Panel:
    """One drawing over the lines of the trace."""

    def __init__(self, thinned, top, height, least, most):
        self.thinned, self.top, self.height, self.least, self.most = thinned, top, height, least, most
        self.out = []

    def x(self, line):
        """Where a line begins: each has its own room, up to the next."""
        return LEFT + (line - 1) * (RIGHT - LEFT) / self.thinned.lines

    def y(self, value):
        inside = max(self.least, min(self.most, value))
        return self.top + (self.most - inside) * self.height / (self.most - self.least)

    def text(self, x, y, text, manner=""):
        self.out.append(f'<text x="{x:.1f}" y="{y:.1f}" {manner}>{text}</text>')

    def axes(self, title, size, wanted):
        """The title, the numbers beside it, the ground line, and the starts."""
        bottom = self.top + self.height
        self.text(LEFT, self.top - 12, title, 'font-weight="bold"')
        for value in steps(self.least / size, self.most / size, wanted):
            y = self.y(value * size)
            self.out.append(f'<path d="M{LEFT} {y:.1f}H{RIGHT}" stroke="#e4e4e4"/>')
            self.text(LEFT - 8, y + 4, f"{value:,.10g}", 'text-anchor="end"')
        starts = [] if is_crowded(self.thinned) else starts_of(self.thinned)
        marks = "".join(f"M{self.x(1 + place * self.thinned.length):.1f} {self.top}V{bottom}" for place in starts)
        self.out.append(f'<path d="{marks}" stroke="#aaa" stroke-width="0.6"/>')
        self.out.append(f'<path d="M{LEFT} {self.top}V{bottom}H{RIGHT}" fill="none" stroke="#888"/>')

    def level(self, value, manner):
        self.out.append(f'<path d="M{LEFT} {self.y(value):.1f}H{RIGHT}" {manner}/>')

    def series(self, at, manner, sign=1):
        """One number over all lines, in steps."""
        path, pen = [], None
        for place, one in enumerate(self.thinned.stretches):
            x = f"{self.x(1 + place * self.thinned.length):.1f}"
            if one.least[at] is None:
                if pen is not None:
                    path.append(f"H{x}")
                pen = None
                continue
            values = (one.least[at], one.largest[at], one.last[at])
            low, high, last = (None if value is None else f"{self.y(sign * value):.1f}" for value in values)
            if low == high == last == pen and not one.gap[at]:
                continue
            path.append((f"H{x}" if pen is not None else "") + (f"M{x} {low}" if pen is None or one.gap[at] else f"V{low}"))
            path.append((f"V{high}" if high != low else "") + (f"V{last}" if last not in (None, high) else ""))
            pen = last
        path.append(f"H{RIGHT}" if pen is not None else "")
        self.out.append(f'<path d="{"".join(path)}" fill="none" {manner}/>')

    def marks(self, at):
        """A mark at the edge wherever a number is outside the panel."""
        for place, one in enumerate(self.thinned.stretches):
            x, bottom = self.x(1 + place * self.thinned.length), self.top + self.height
            if is_above(one, at, self.most):
                self.out.append(f'<path d="M{x:.1f} {self.top}v9" {stroke(RED, WIDE)}/>')
            if is_below(one, at, self.least):
                self.out.append(f'<path d="M{x:.1f} {bottom}v-9" {stroke(RED, WIDE)}/>')

    def lines(self):
        """The numbers of lines below, with the time since the first accepted one."""
        bottom = self.top + self.height
        first = next((int(one.time) for one in self.thinned.stretches if one.time), 0)
        for line in [1, *(int(line) for line in steps(2, self.thinned.lines, 8) if line == int(line))]:
            x, at = self.x(line), (line - 1) // self.thinned.length
            times = [one.time for one in self.thinned.stretches[: at + 1] if one.time]
            self.out.append(f'<path d="M{x:.1f} {bottom}v5" stroke="#888"/>')
            self.text(x, bottom + 19, f"{line:,}", 'text-anchor="middle"')
            if times:
                self.text(x, bottom + 35, clock(int(times[-1]) - first), 'text-anchor="middle" fill="#666"')
        self.text(RIGHT, bottom + 53, "line of the trace, and below it the time since the first accepted one", 'text-anchor="end"')


def starts_of(thinned):
    """The places of the stretches that have an accepted start."""
    return [place for place, one in enumerate(thinned.stretches) if one.starts]


def is_crowded(thinned):
    """Whether there are too many starts to draw them, and the bound that begins anew with each."""
    return len(starts_of(thinned)) > MOST_STARTS


def is_above(stretch, at, value):
    return stretch.largest[at] is not None and stretch.largest[at] > value


def is_below(stretch, at, value):
    return stretch.least[at] is not None and stretch.least[at] < value


def is_set(thinned, at):
    """Whether a series ever has a value."""
    return any(one.largest[at] is not None for one in thinned.stretches)


def most_of(thinned, *series):
    """The largest value of these series, or 0."""
    return max((one.largest[at] for one in thinned.stretches for at in series if one.largest[at] is not None), default=0)


def stroke(color, *manners):
    return " ".join([f'stroke="{color}"', *manners])


def bounds_panel(thinned, top):
    """lo and the exact lo, and hi where it is ever set."""
    most = most_of(thinned, LO, EXACT, HI)
    size, unit = unit_of(most, BYTES)
    panel = Panel(thinned, top, 190, 0, 1.08 * most or 1)
    panel.axes(f"lo beside the exact lo, in {unit}", size, 5)
    panel.series(EXACT, stroke(ORANGE, WIDE))
    panel.series(LO, stroke(BLACK, THIN))
    panel.series(HI, stroke(GREEN, THIN))
    return panel


def difference_panel(thinned, top):
    """How far lo is from the exact lo, between both bounds."""
    panel = Panel(thinned, top, 190, -SHOWN, SHOWN)
    panel.axes("lo less the exact lo, in bytes", 1, 9)
    for sign in () if is_crowded(thinned) else (1, -1):
        panel.series(COUNT, stroke(BLUE, DOTTED), sign)
    panel.series(DIFFERENCE, stroke(BLACK, THIN))
    panel.marks(DIFFERENCE)
    for sign in (1, -1):
        panel.level(sign * float(RATE), stroke(RED, DASHED))
    return panel


def bandwidth_panel(thinned, top):
    most = most_of(thinned, BANDWIDTH)
    size, unit = unit_of(most, BITS)
    panel = Panel(thinned, top, 120, 0, 1.08 * most or 1)
    panel.axes(f"max_bw, in {unit}", size, 4)
    panel.series(BANDWIDTH, stroke(BLACK, THIN))
    panel.lines()
    return panel


def legend(thinned, top):
    """What is drawn, in words: rows of three. Answers where the next line stands, too."""
    beyond = any(is_above(one, DIFFERENCE, SHOWN) or is_below(one, DIFFERENCE, -SHOWN) for one in thinned.stretches)
    starts = starts_of(thinned) and not is_crowded(thinned)
    names = [
        (True, stroke(BLACK, THIN), "as the program has it: " + ("lo, its difference, max_bw" if is_set(thinned, LO) else "max_bw")),
        (is_set(thinned, EXACT), stroke(ORANGE, WIDE), "exact lo"),
        (is_set(thinned, HI), stroke(GREEN, THIN), "hi"),
        (starts, stroke("#aaa"), "an accepted start"),
        (True, stroke(RED, DASHED), "bound 1 / (1 - b): 3.33 bytes, never reached"),
        (is_set(thinned, COUNT) and starts, stroke(BLUE, DOTTED), "bound k, up to 4: reductions since lo was unset"),
        (beyond, stroke(RED, WIDE), "a larger difference"),
    ]
    out = []
    for place, (_, manner, name) in enumerate(one for one in names if one[0]):
        x, y = LEFT + (0, 340, 660)[place % 3], top + 20 * (place // 3)
        out.append(f'<path d="M{x} {y - 4}h24" {manner}/><text x="{x + 32}" y="{y}">{name}</text>')
    return out, y + 4


def captions(seen):
    """What has to be known besides."""
    thinned = seen.thinned
    yield f"{counts(seen)}. {largest(seen)}."
    if thinned.length > 1:
        yield f"Drawn of each {thinned.length:,} lines: the least, the largest and the last value."
    if is_crowded(thinned):
        yield "There are too many starts to draw them, and the bound k, which begins anew with each."
    if seen.outside:
        yield outside(seen) + "."
    if seen.first_unpromised:
        yield f"In line {seen.first_unpromised:,} a window is above 16,777,216 bytes. From such a line on, up to the next start,"
        yield "nothing is promised of lo, and its differences don't count."


def counts(seen):
    lines = seen.thinned.lines
    return f"{lines:,} line{'' if lines == 1 else 's'}, {seen.refused:,} refused"


def largest(seen):
    difference, place, count = seen.largest
    if not is_set(seen.thinned, LO):
        return "lo was never set"
    if place is None:
        return "No difference was seen" + (" that counts" if seen.first_unpromised else "")
    times = "reduction" if count == 1 else "reductions"
    return f"The largest difference is {difference:.6f} bytes, in line {place:,}, after {count:,} {times}"


def said(seen):
    """What there is to say of the trace."""
    yield counts(seen) + "."
    yield largest(seen) + "."
    if seen.outside:
        yield outside(seen) + "."
    elif seen.largest[1] is not None:
        yield "None is outside the bounds."
    if seen.first_unpromised:
        yield f"Nothing is promised from line {seen.first_unpromised:,} on: its window is above 16,777,216 bytes."


def outside(seen):
    return f"Outside the bounds: {seen.outside:,}, the first in line {seen.first_outside:,}"


def drawing(seen, name):
    """The height and the lines of the picture."""
    short = shown(name) if len(shown(name)) <= TITLE else shown(name)[:TITLE] + ".."
    title = escape(short).encode("ascii", "xmlcharrefreplace").decode()
    out = [f'<text x="{LEFT}" y="28" font-size="15" font-weight="bold">{title}, replayed at beta 0.3</text>']
    top = TOP
    for draw in (bounds_panel, difference_panel, bandwidth_panel):
        panel = draw(seen.thinned, top)
        out += panel.out
        top += panel.height + GAP
    top += 44
    words, top = legend(seen.thinned, top)
    out += words
    for text in captions(seen):
        top += 20
        out.append(f'<text x="{LEFT}" y="{top}">{text}</text>')
    return top + 20, out


def target_of(path, given):
    """Where the picture goes: never over a trace."""
    target = given or os.path.splitext(path)[0] + ".svg"
    if not target.endswith(".svg"):
        raise Fault(f"{shown(target)}: a picture's name has to end in .svg")
    if os.path.exists(target) and os.path.exists(path) and os.path.samefile(path, target):
        raise Fault(f"{shown(target)}: that is the trace itself")
    return target


def main(arguments):
    if len(arguments) not in (1, 2) or arguments[0] in ("-h", "--help"):
        asked = arguments in (["-h"], ["--help"])
        print(__doc__, file=sys.stdout if asked else sys.stderr)
        return 0 if asked else 1
    path, target = arguments[0], target_of(arguments[0], arguments[1] if len(arguments) == 2 else None)
    try:
        seen = gone_through(program("replay"), path)
    except Fault as fault:
        raise Fault(f"{shown(path)}: {fault}") from None
    try:
        drawn(target, *drawing(seen, os.path.basename(path)))
    except OSError as error:
        raise Fault(f"{shown(target)}: the picture can't be written: {error.strerror}") from None
    print(f"{shown(target)}: {' '.join(said(seen))}")
    return 1 if seen.outside else 0


if __name__ == "__main__":
    guarded(main)
