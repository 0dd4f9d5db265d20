#!/usr/bin/env python3
"""Runs of the port's round-trip estimator beside the same rules on exact fractions.

    tests/rtt_drift.py [SEED [RUNS]]        compares, and prints the worst cases beside their bounds
    tests/rtt_drift.py --picture FILE.svg   draws runs of the port against the exact run

tests/drift.py does the first, too. The port is the program `serve` (crates/serve); its call 50 is the exported run of
an estimator. The exact run here is written from rtt.rs, with Python's fractions and with the least of all samples as
the minimum. It is given the calls of the real run that must not be refused, and works the adjusted samples out itself.

RUNS are random. Some more are made to come near the bounds: by a blind search for each next sample, and by known
residues."""

import random
from collections import Counter
from fractions import Fraction

from port import FRAME, asked, by_arguments, drawn, panel, program, started
from words import CALL_WORDS, LONGEST, RTT_ANSWER_BYTES, RTT_ANSWER_WORDS, RTT_CALL_BYTES, RTT_STATE_BYTES
from words import RTT_STATE_WORDS, STATE_WORDS, UNSET, reply, rtt_answer, rtt_argument, rtt_call, rtt_state

RUN = 50
NEW, UPDATE, LIMIT = rtt_call.NEW, rtt_call.UPDATE_RTT, rtt_call.UPDATE_MAX_ACK_DELAY
# The arguments of a call by its number, and the largest word of each kind.
ARGUMENTS = {getattr(rtt_call, name.upper()): names.items() for name, names, _ in rtt_argument.items()}
MOST = {"length": LONGEST, "flag": 1}
# Calls in one exported run, and where its memory begins in the answer of `serve`: the state's, and the answers'.
MOST_CALLS = 9
STATE_IN_SHOWN, ANSWERS_IN_SHOWN = 2, 9
NO_STATE = [0] * STATE_WORDS

# What is looked at, less than how many ns each is, and to what the runs by known residues come at least.
DIFFERENCES = ("exact - smoothed_rtt", "exact - rttvar", "rttvar - exact")
BOUNDS = (14, 20, 14)
NEAR = (Fraction("13.9999"), Fraction("19.55"), Fraction("13.10"))


class Exact:
    """The estimator, both averages as fractions."""

    def __init__(self, initial, limit):
        self.begin(initial)
        self.latest, self.least, self.limit = 0, UNSET, limit

    def begin(self, length):
        """Both averages from one length on. What the first bound still leaves of 14 is 14 (7/8)^n after n samples."""
        self.smoothed, self.variation = Fraction(length), Fraction(length, 2)
        self.largest, self.left = length, Fraction(14)

    def update(self, latest, delay, confirmed):
        self.latest = latest
        if self.least == UNSET:
            self.begin(latest)
            self.least = latest
            return
        self.least, self.largest = min(self.least, latest), max(self.largest, latest)
        delay = min(delay, self.limit) if confirmed else delay
        adjusted = latest - delay if latest >= self.least + delay else latest
        self.variation = self.variation * 3 / 4 + abs(self.smoothed - adjusted) / 4
        self.smoothed = self.smoothed * 7 / 8 + Fraction(adjusted) / 8
        self.left *= Fraction(7, 8)

    def differences(self, smoothed, variation):
        return self.smoothed - smoothed, self.variation - variation, variation - self.variation


def is_refused(call):
    """Whether a call has a bad argument, or the number of none."""
    number, *_ = call
    return number not in ARGUMENTS or any(call[word] > MOST[kind] for _, word, kind in ARGUMENTS[number])


def after(exact, call):
    """The exact run after a call. A refused one counts as not made; a refused `new` leaves a fresh one of 0 and 0."""
    number, *arguments = call
    if number == NEW:
        return Exact(0, 0) if is_refused(call) else Exact(*arguments[:2])
    if number == UPDATE and not is_refused(call):
        exact.update(*arguments)
    if number == LIMIT and not is_refused(call):
        exact.limit = arguments[0]
    return exact


# ---- the port


def part_of(state, calls):
    """The words of a call of `serve`: an exported run on this state."""
    sizes = [RTT_STATE_BYTES, RTT_CALL_BYTES * len(calls), RTT_ANSWER_BYTES * len(calls)]
    words = [RUN, *sizes, *state, 0, *(word for call in calls for word in call)]
    return words + [0] * (CALL_WORDS - len(words))


def shown_by(state):
    """The words of a state as an answer has them."""
    least = state[rtt_state.MIN_RTT] if state[rtt_state.HAS_FIRST_RTT_SAMPLE] else UNSET
    return (reply.DONE, state[rtt_state.LATEST_RTT], least, state[rtt_state.SMOOTHED_RTT], state[rtt_state.RTTVAR])


def any_state(place):
    """Words that encode a state; the first call of a run must not look at them."""
    rng = random.Random(place)
    return [rng.randrange(2**64) for _ in range(RTT_STATE_WORDS - 1)] + [rng.randrange(2)]


def followed(port, runs):
    """What the port answers to each call of at most FRAME runs, which go on side by side; and after that what it
    stores, where an exported run ends with the call."""
    states, rows = [any_state(place) for place in range(len(runs))], [[] for _ in runs]
    for at in range(0, max(map(len, runs)), MOST_CALLS):
        parts = [run[at : at + MOST_CALLS] for run in runs]
        for place, words in enumerate(asked(port, NO_STATE, [part_of(*one) for one in zip(states, parts)])):
            if words[0] != reply.DONE:
                raise SystemExit(f"an exported run was refused with {words[0]}")
            states[place] = words[STATE_IN_SHOWN : STATE_IN_SHOWN + RTT_STATE_WORDS]
            for answer in range(len(parts[place])):
                first = ANSWERS_IN_SHOWN + RTT_ANSWER_WORDS * answer
                rows[place].append([words[first : first + RTT_ANSWER_WORDS]])
            if parts[place]:
                rows[place][-1].append(shown_by(states[place]))
    return rows


# ---- the comparison


def broken(exact, answer, bounds=BOUNDS):
    """What is not as promised in an answer of a call that was done."""
    latest, least, smoothed, variation = answer[rtt_answer.LATEST_RTT :]
    differences = exact.differences(smoothed, variation)
    kept = {
        "latest_rtt is not the last sample": latest == exact.latest,
        "min_rtt is not the least sample": least == exact.least,
        "smoothed_rtt is above the exact one": differences[0] >= 0,
        "smoothed_rtt is further below than its bound by count": differences[0] <= 14 - exact.left,
        "an average is above the largest sample": max(smoothed, variation) <= exact.largest,
    }
    kept |= {f"{name} is not below {bound}": d < bound for name, d, bound in zip(DIFFERENCES, differences, bounds)}
    return [name for name, holds in kept.items() if not holds]


def refused_wrongly(call, answer):
    """Whether a call was refused that is none to refuse, or the other way round, or a refused one answers numbers."""
    if is_refused(call):
        return answer[rtt_answer.REPLY] % 256 != reply.BAD_ARGUMENT or any(answer[rtt_answer.LATEST_RTT :])
    return answer[rtt_answer.REPLY] != reply.DONE


def checked(run, rows, worst, counts):
    """Says what is broken in a run and by which call, or None."""
    exact = None
    for place, (call, answers) in enumerate(zip(run, rows)):
        exact, refused = after(exact, call), is_refused(call)
        faults = ["the reply"] if refused_wrongly(call, answers[0]) else []
        faults += [fault for answer in answers[refused:] for fault in broken(exact, answer)]
        if faults:
            return f"call {place}, {call}: {answers}: " + ", ".join(faults)
        counts["refused"] += refused
        if call[0] == UPDATE and not refused:
            differences = exact.differences(*answers[0][rtt_answer.SMOOTHED_RTT :])
            counts["samples"] += 1
            counts["reached"] += differences[0] == 14 - exact.left > 0
            for name, difference in zip(DIFFERENCES, differences):
                worst[name] = max(worst[name], difference)
    return None


def held_to(port, runs, counts):
    """The worst cases of these runs. Ends with one that leaves a bound."""
    worst = dict.fromkeys(DIFFERENCES, Fraction(0))
    for at in range(0, len(runs), FRAME):
        group = runs[at : at + FRAME]
        for run, rows in zip(group, followed(port, group)):
            fault = checked(run, rows, worst, counts)
            if fault:
                print("\n".join(" ".join(map(str, call)) for call in run))
                raise SystemExit(f"outside the bounds: {fault}")
    return worst


# ---- random runs


def within(number):
    """The nearest length."""
    return max(0, min(LONGEST, number))


def length_of(rng, manner, last):
    """A length: about 50 ms, small, any, at an end, near the last one, or the last one."""
    if manner == "usual":
        return 50_000_000 + rng.randrange(-5_000_000, 5_000_000)
    if manner == "small":
        return rng.randrange(64)
    if manner == "any":
        return rng.randrange(LONGEST + 1)
    if manner == "ends":
        return rng.choice((0, 1, LONGEST - 1, LONGEST))
    return within(last + rng.randrange(-20, 21) * (manner == "near"))


def delay_of(rng, exact, latest):
    """An ack delay: none, at which the sample is just plausible or about the limit, usual, or any."""
    least = latest if exact.least == UNSET else min(exact.least, latest)
    edge = rng.choice((latest - least, exact.limit)) + rng.choice((-1, 0, 1))
    return rng.choice((0, within(edge), within(edge), rng.randrange(25_000_000), rng.randrange(LONGEST + 1)))


def refused_call(rng):
    """A call that must be refused: a length that is too long, a flag that is none, a number that is no call's."""
    long = rng.choice((LONGEST + 1, UNSET, rng.randrange(LONGEST + 1, UNSET)))
    length, flag = rng.randrange(LONGEST + 1), rng.randrange(2)
    return rng.choice((
        (UPDATE, long, length, flag),
        (UPDATE, length, long, flag),
        (UPDATE, length, length, rng.choice((2, 256, UNSET))),
        (LIMIT, long, length, flag),
        (rng.choice((3, 256, UNSET)), length, length, flag),
    ))


def new_call(rng):
    """A `new`; one of ten is refused."""
    lengths = [rng.choice((0, 25_000_000, 333_000_000, LONGEST, rng.randrange(LONGEST + 1))) for _ in range(2)]
    if rng.random() < 0.1:
        lengths[rng.randrange(2)] = LONGEST + 1
    return (NEW, *lengths, rng.randrange(2**64))


def random_run(rng, length):
    """A run: a `new`, then samples, and between them other calls and refused ones."""
    run, last, manner = [new_call(rng)], 50_000_000, "usual"
    exact = after(None, run[0])
    for _ in range(length):
        pick = rng.random()
        if pick < 0.08:
            call = refused_call(rng)
        elif pick < 0.12:
            limit = rng.choice((0, 25_000_000, rng.randrange(LONGEST + 1)))
            call = (LIMIT, limit, rng.randrange(2**64), rng.randrange(2**64))
        elif pick < 0.13:
            call = new_call(rng)
        else:
            if rng.random() < 0.1:
                manner = rng.choice(("usual", "usual", "small", "any", "ends", "near", "same"))
            last = length_of(rng, manner, last)
            call = (UPDATE, last, delay_of(rng, exact, last), rng.randrange(2))
        run.append(call)
        exact = after(exact, call)
    return run


# ---- runs near the bounds


def sought(rng, first, sign):
    """A run of which each sample is the best of 200: for the variation's difference, of this sign, and with a weight of
    3 for the smoothed one's, both after it and with what is cut off next, whatever sample comes then."""
    run, smoothed, variation = [(NEW, first, 0, 0), (UPDATE, first, 0, 0)], first, first // 2
    below, lower = 0.0, first % 2 / 2
    for _ in range(100):
        found = []
        for sample in (within(smoothed + rng.randrange(-160, 161)) for _ in range(200)):
            apart = abs(smoothed - sample)
            stored = smoothed * 7 // 8 + sample // 8, variation * 3 // 4 + apart // 4
            left = (
                below * 7 / 8 + (smoothed * 7 % 8 + sample % 8) / 8,
                lower * 3 / 4 + (variation * 3 % 4 + apart % 4 + abs(below + smoothed - sample) - apart) / 4,
            )
            worth = 3 * (left[0] + stored[0] * 7 % 8 / 8) + sign * (left[1] + stored[1] * 3 % 4 / 4)
            found.append((worth, sample, *stored, *left))
        _, sample, smoothed, variation, below, lower = max(found)
        run.append((UPDATE, sample, 0, 0))
    return run


# How far each adjusted sample is from the smoothed value before it. The first sample is 1 mod 8, and so is the smoothed
# value until the last samples. In RISE it stays what it is, 7/8 are cut off from both of its parts, and the exact
# average comes to 14 above it; the variation falls to 12. In PULL the variation stays 45, 3/4 and 2/4 are cut off from
# its parts, and the samples are below: further from the exact average than from the smoothed value. In PUSH nothing is
# cut off from the variation, and the samples are above. The last five of both cut less off the smoothed value.
RISE = [14] * 150
PULL = [142] + [-50] * 60 + [-51, -51, -51, -35, -43]
PUSH = [76, 28, 60, 20, 16]
# For each of the differences.
KNOWN = (RISE, RISE + PULL, RISE + PUSH)


def aimed(rng, first, offsets):
    """A run with these offsets. Its ack delay is taken off again, or is not plausible."""
    delay, least, smoothed = rng.choice((0, 1, rng.randrange(1000))), first, first
    run = [new_call(rng), (LIMIT, LONGEST, 0, 0), (UPDATE, first, delay, rng.randrange(2))]
    for offset in offsets:
        adjusted = smoothed + offset
        latest = adjusted + delay if adjusted >= least else adjusted
        run += [refused_call(rng)] * (rng.random() < 0.1)
        run.append((UPDATE, latest, delay, rng.randrange(2)))
        least, smoothed = min(least, latest), smoothed * 7 // 8 + adjusted // 8
    return run


def first_of(rng):
    """A first sample from which the offsets can be made."""
    return 8 * rng.randrange(75, 2 ** rng.randrange(8, 33)) + 1


# ---- that this check notices


def ends(port, run):
    """The exact run after a run, and the port's last answer."""
    exact = None
    for call in run:
        exact = after(exact, call)
    ((*_, (answer, *_)),) = followed(port, [run])
    return exact, answer


def notices(port, rng):
    """Ends if a number of a right answer can be off by one, or if a smaller whole bound is kept."""
    new, sampled = [(NEW, 100, 0, 0)], [(NEW, 100, 0, 0), (UPDATE, 81, 0, 0)]
    known = [aimed(rng, first_of(rng), offsets) for offsets in KNOWN]
    whole = (rtt_answer.LATEST_RTT, rtt_answer.MIN_RTT, rtt_answer.SMOOTHED_RTT)
    cases = [(sampled, word, by) for word in whole for by in (1, -1)]
    cases += [(new, rtt_answer.LATEST_RTT, 1), (new, rtt_answer.MIN_RTT, -1)]
    cases += zip(known, (rtt_answer.SMOOTHED_RTT, rtt_answer.RTTVAR, rtt_answer.RTTVAR), (-1, -1, 1))
    for run, word, by in cases:
        exact, answer = ends(port, run)
        changed = list(answer)
        changed[word] += by
        if broken(exact, answer) or not broken(exact, changed):
            raise SystemExit(f"this check notices nothing: {answer} and {changed} after {run[-1]}")
    for place, run in enumerate(known):
        bounds = [bound - (at == place) for at, bound in enumerate(BOUNDS)]
        if not broken(*ends(port, run), bounds):
            raise SystemExit(f"{DIFFERENCES[place]} is below {bounds[place]}: this check notices nothing")
    print(f"{len(cases)} numbers off by one are noticed, and the bounds 13, 19 and 13 are left.")


def come_near(worst):
    """Ends if runs by known residues stay away from the bounds. So they do where less is cut off than in rtt.rs: then
    every bound is kept, and the port is wrong all the same."""
    for name, near in zip(DIFFERENCES, NEAR):
        if worst[name] < near:
            come = f"{name} comes to {cut(worst[name])} by known residues, and not to {float(near)}"
            raise SystemExit(f"other than in rtt.rs: {come}")


def compare(seed, runs):
    """Holds random runs and those near the bounds to these, and prints the worst cases."""
    rng, counts, times = random.Random(seed), Counter(), 4 + runs // 100
    made = {
        "random": [random_run(rng, rng.choice([3, 10, 25, 60])) for _ in range(runs)],
        "searched": [sought(rng, rng.randrange(10**4, 10**8), sign) for sign in (1, -1) for _ in range(times // 2)],
        "by residues": [aimed(rng, first_of(rng), offsets) for offsets in KNOWN for _ in range(times)],
    }
    with started(program()) as port:
        worst = [held_to(port, some, counts) for some in made.values()]
        print(f"{'the worst, in ns':22}" + "".join(f"{name:>14}" for name in made) + "    less than")
        for name, bound in zip(DIFFERENCES, BOUNDS):
            print(f"{name:22}" + "".join(f"{cut(one[name]):>14}" for one in worst) + f"{bound:13}")
        print("runs: " + ", ".join(f"{len(some)} {name}" for name, some in made.items()), end="; ")
        print(f"{counts['samples']} samples, {counts['refused']} calls refused: 0 outside the bounds")
        come_near(worst[-1])
        print(f"{counts['reached']} times smoothed_rtt was exactly 14 (1 - (7/8)^n) below.", end=" ")
        notices(port, rng)


def cut(number):
    """A number with six digits, not rounded up to a bound."""
    return f"{number // Fraction(1, 10**6) / 10**6:.6f}"


# ---- the picture

SHOWN = 150


def differences(port, run):
    """After each sample past the first: how far both averages are from their exact values."""
    exact, smoothed, variation = None, [], []
    for call, (answer, *_) in zip(run, *followed(port, [run])):
        exact = after(exact, call)
        if call[0] == UPDATE and not is_refused(call):
            below, lower, _ = exact.differences(*answer[rtt_answer.SMOOTHED_RTT :])
            smoothed.append((len(smoothed), -float(below)))
            variation.append((len(variation), -float(lower)))
    return smoothed, variation


def picture(path):
    rng = random.Random(3)
    usual = [(NEW, 0, 25_000_000, 0)]
    usual += [(UPDATE, length_of(rng, "usual", 0), rng.randrange(5_000_000), 1) for _ in range(SHOWN + 1)]
    chosen = [aimed(rng, 50_000_001, RISE[: SHOWN - len(rest)] + rest) for rest in ([], PULL, PUSH)]
    with started(program()) as port:
        dark, green, violet, orange = (differences(port, run) for run in [usual, *chosen])
    curve = [(n, 14 * 0.875**n - 14) for n in range(SHOWN + 1)]
    runs = [("#333", dark[0]), ("#2a7", green[0])]
    bounds = [(-14, "-14", curve), (-16, "-16", [])]
    out = panel(0, "smoothed_rtt less the exact average, in nanoseconds", (-18, 2), SHOWN, bounds, runs)
    runs = [("#333", dark[1]), ("#a6a", violet[1]), ("#d80", orange[1])]
    bounds = [(14, "14", []), (-20, "-20", [])]
    out += panel(450, "rttvar less the exact variation, in nanoseconds", (-23, 17), SHOWN, bounds, runs)
    lines = (
        "Across: samples n past the first. Red: bounds, never reached; of smoothed_rtt 16 was asked. It is never above"
        " the exact average.",
        "Blue: the bound after n samples, 14 (1 - (7/8)^n); the green line is on it. Orange and violet begin alike.",
        "Lines: random round trips about 50 ms (dark); samples chosen for smoothed_rtt (green), for rttvar above (orange)"
        " and below (violet).",
    )
    out += [f'<text x="46" y="{402 + 18 * place}">{line}</text>' for place, line in enumerate(lines)]
    drawn(path, 448, out)


if __name__ == "__main__":
    by_arguments(compare, 4000, picture)
