#!/usr/bin/env python3
"""Random runs of the port's windowed filter, held to what is promised of its three estimates.

    tests/estimate.py [SEED [UPDATES]]     goes on until so many updates were accepted
    tests/estimate.py --picture FILE.svg   draws two runs of the port

The port is the program `serve` (crates/serve). Its call 46 does an operation on a filter that is handed in; its call 48
is the exported run, which begins with an empty filter and shows samples only. Nothing is known here of the filter's
steps: what the port answers is held to a list of the samples that were accepted since the last clear. A reset is a
clear, and then its sample is fed. The promises, by the words that name them:

    samples   best >= second >= third
    times     the best's time <= the second's <= the third's
    newest    the newest accepted sample <= the third
    fed       each estimate was accepted since the last clear, with its own time
    age       the best's time is at most the window before the latest time accepted since the last clear
    later     each estimate is at least every sample accepted after it
    refused   an update is refused exactly if it is earlier than a stored time; it leaves the filter as it was
    empty     the filter holds nothing exactly if nothing was fed since the last clear; its window stays

Not promised: that the best is the largest sample of the window. How often it is below that is counted.

A run is written as `window 8: 3@0 2@8 clear reset:1@9`: samples, each with its time."""

import random
from collections import Counter
from heapq import heappop, heappush

from port import FRAME, asked, by_arguments, drawn, program, started
from words import CALL_WORDS, PAIR_BYTES, SAMPLES_BYTES, SAMPLES_WORDS, STATE_WORDS, WORD_BYTES, reply

FILTER, FILTER_RUN = 46, 48
NEW, RESET, UPDATE, CLEAR = range(4)
COUNTED = {NEW: "filters", RESET: "resets", CLEAR: "clears"}
MOST = 2**64 - 1
NO_STATE = [0] * STATE_WORDS
# The words of an answer to call 46: the reply, the reason, then the filter.
PLACES = ("reply", "reason", "window", "set", "best", "best_time", "second", "second_time", "third", "third_time")
REPLY, _, WINDOW, SET, BEST, BEST_TIME, SECOND, SECOND_TIME, THIRD, THIRD_TIME = range(len(PLACES))
# Most pairs of an exported run whose output `serve` shows whole, and a word of output that was not written.
MOST_PAIRS, KEPT = 16, int.from_bytes([165] * WORD_BYTES, "little")


class Fed:
    """What was accepted since the last clear."""

    def __init__(self):
        self.standing = {}  # each pair of a sample and a time: whether no larger sample was fed after it
        self.unexceeded = []  # the pairs of which that is so, in their order
        self.last_time = {}  # the time at which each sample was fed last
        self.heap = []  # for the largest sample of the window
        self.newest = self.latest = 0

    def feed(self, sample, time):
        """An accepted sample."""
        while self.unexceeded and self.unexceeded[-1][0] < sample:
            self.standing[self.unexceeded.pop()] = False
        self.unexceeded.append((sample, time))
        self.standing[sample, time] = True
        self.last_time[sample] = time
        self.newest, self.latest = sample, max(self.latest, time)
        heappush(self.heap, (-sample, time))

    def largest(self, window):
        """The largest sample whose time is at most the window before the latest."""
        while self.latest - self.heap[0][1] > window:
            heappop(self.heap)
        return -self.heap[0][0]


class Filter:
    """A filter: what the port answered last, its operations, and what was fed since the last clear."""

    def __init__(self, window, answer=(0,) * len(PLACES)):
        self.window, self.answer = window, answer
        self.operations, self.fed = [], Fed()

    def pairs(self):
        """Best, second and third, each with its time."""
        return [self.answer[place : place + 2] for place in (BEST, SECOND, THIRD)]


# ---- the promises


def broken(filter, operation, answer):
    """Takes the answer as what the filter is now, and says by their words which promises it breaks."""
    op, x, y = operation
    before, filter.answer = filter.answer, answer
    if op == UPDATE and before[SET] and y < max(before[BEST_TIME], before[SECOND_TIME], before[THIRD_TIME]):
        stays = answer[REPLY] == reply.EARLIER_MOMENT and answer[WINDOW:] == before[WINDOW:]
        return [] if stays else ["refused"]
    if op != UPDATE:
        filter.fed = Fed()
    if op in (UPDATE, RESET):
        filter.fed.feed(x, y)
    faults = [] if answer[REPLY] == reply.DONE else ["refused"]
    if not filter.fed.unexceeded:
        return faults + (["empty"] if any(answer[SET:]) or answer[WINDOW] != filter.window else [])
    if answer[WINDOW] != filter.window or answer[SET] != 1:
        return faults + ["empty"]
    return faults + of_estimates(filter)


def of_estimates(filter):
    """Which promises three estimates with their times break."""
    fed, (best, second, third) = filter.fed, filter.pairs()
    faults = of_samples(fed, best[0], second[0], third[0])
    if not best[1] <= second[1] <= third[1]:
        faults.append("times")
    if fed.latest - best[1] > filter.window:
        faults.append("age")
    for pair in (best, second, third):
        if not fed.standing.get(pair):
            faults.append("later" if pair in fed.standing else "fed")
    return faults


def of_samples(fed, best, second, third):
    """Which promises the samples of three estimates break among themselves, and beside the newest."""
    faults = [] if best >= second >= third else ["samples"]
    return faults if fed.newest <= third else faults + ["newest"]


def run_broken(window, pairs, answer):
    """Which promises an answer to the exported run breaks, as far as samples alone tell."""
    times = [time for time, _ in pairs]
    falls = any(time < max(times[:place]) for place, time in enumerate(times) if place)
    must_be_refused = any(time < min(times[:place]) for place, time in enumerate(times) if place)
    if answer[REPLY] == reply.EARLIER_MOMENT:
        return [] if falls and all(word == KEPT for word in answer[2:]) else ["refused"]
    faults, fed = ["refused"] if answer[REPLY] != reply.DONE or must_be_refused else [], Fed()
    for place, (time, sample) in enumerate(pairs):
        fed.feed(sample, time)
        faults += of_row(fed, window, *answer[row_of(place) : row_of(place) + 3])
    return faults


def row_of(place):
    """Where the output of a pair begins in the answer to an exported run."""
    return 2 + SAMPLES_WORDS * place


def of_row(fed, window, best, second, third):
    """Which promises three samples break with whatever times, since theirs are not shown."""
    faults = of_samples(fed, best, second, third)
    times = {}
    for sample, time in fed.unexceeded:
        times.setdefault(sample, []).append(time)
    for sample in (best, second, third):
        if sample not in times:
            faults.append("later" if sample in fed.last_time else "fed")
    if best in times and fed.latest - max(times[best]) > window:
        faults.append("age")
    return faults if faults or in_order(times, fed.latest - window, (best, second, third)) else ["times"]


def in_order(times, earliest, samples):
    """Whether each sample has a time that is not before the one chosen for the sample before it."""
    for sample in samples:
        earliest = min((time for time in times[sample] if time >= earliest), default=None)
        if earliest is None:
            return False
    return True


# ---- what is counted of a filter after an accepted update

AT_AGE = "the best was exactly the window old"
AT_NEWEST = "the newest sample was equal to the third"
AT_LATER = "a sample fed after an estimate was equal to it"
BELOW_LARGEST = "the best was below the largest sample of the window"
LIMITS = {
    AT_AGE: lambda filter: filter.fed.latest - filter.answer[BEST_TIME] == filter.window,
    AT_NEWEST: lambda filter: filter.fed.newest == filter.answer[THIRD],
    AT_LATER: lambda filter: any(filter.fed.last_time[sample] != time for sample, time in filter.pairs()),
    BELOW_LARGEST: lambda filter: filter.answer[BEST] < filter.fed.largest(filter.window),
}


def count(counts, filter, operation):
    """Counts an operation that was made, and what is so after it."""
    op, _, time = operation
    if op != UPDATE:
        counts[COUNTED[op]] += 1
    elif filter.answer[REPLY] != reply.DONE:
        counts["refused"] += 1
    else:
        counts["accepted"] += 1
        counts["earlier"] += time < filter.fed.latest
        for name, reached in LIMITS.items():
            counts[name] += reached(filter)


# ---- runs of the port


def answered(port, filters, operations):
    """What the port answers to one operation of each filter, at most FRAME of them."""
    rest = [0] * (CALL_WORDS - 2 - len(PLACES))
    calls = [[FILTER, *made, *filter.answer[WINDOW:], *rest] for filter, made in zip(filters, operations)]
    return [answer[: len(PLACES)] for answer in asked(port, NO_STATE, calls)]


def run_answered(port, runs):
    """What the port answers to exported runs: each a window and pairs of a time and a sample."""
    calls = []
    for window, pairs in runs:
        words = [FILTER_RUN, window, PAIR_BYTES * len(pairs), SAMPLES_BYTES * len(pairs)]
        words += [word for pair in pairs for word in pair]
        calls.append(words + [0] * (CALL_WORDS - len(words)))
    return asked(port, NO_STATE, calls)


def held_to(filter, operation, answer):
    """Ends with the filter's history where an answer breaks a promise."""
    filter.operations.append(operation)
    faults = broken(filter, operation, answer)
    if faults:
        words = (f"{name} {word}" for name, word in zip(PLACES, answer))
        ended(" ".join(map(text_of, filter.operations)), ", ".join(words), faults)


def ended(run, words, faults):
    """Ends with a run, its last answer, and the promises that this breaks."""
    print(f"{run}\nanswered: {words}")
    raise SystemExit("broken: " + ", ".join(dict.fromkeys(faults)))


def text_of(operation):
    """An operation in the short form; operation_of reads it."""
    op, x, y = operation
    return {NEW: f"window {x}:", RESET: f"reset:{x}@{y}", UPDATE: f"{x}@{y}", CLEAR: "clear"}[op]


def text_of_pairs(pairs):
    return " ".join(f"{sample}@{time}" for time, sample in pairs)


def pairs_of(text):
    """The pairs of a time and a sample of a run that has updates only."""
    return [(time, sample) for _, sample, time in map(operation_of, text.split())]


def operation_of(text):
    if text == "clear":
        return CLEAR, 0, 0
    op, pair = (RESET, text[len("reset:") :]) if text.startswith("reset:") else (UPDATE, text)
    return op, *map(int, pair.split("@"))


def operations_of(window, text):
    """The operations of a run, from the new filter on."""
    return [(NEW, window, 0)] + [operation_of(one) for one in text.split()]


def living(port, window, operations):
    """A filter before a run of the port and after each operation, each answer held to the promises."""
    filter = Filter(window)
    yield filter
    for operation in operations:
        (answer,) = answered(port, [filter], [operation])
        held_to(filter, operation, answer)
        yield filter


def lived(port, window, operations):
    """The same after the whole run."""
    *_, filter = living(port, window, operations)
    return filter


# ---- that this check notices: changed answers, and promises that are not made

# At window 8 the best is 0 after it, though 1 was fed one time unit before.
WORKED = "3@0 2@8 1@16 0@16 0@17"
# A promise, the window, a run, and how its last answer is changed: best, second and third are replaced, - keeps one;
# `name=n` replaces a word, and `name+1` adds one to it.
CHANGES = [
    ("samples", 8, "4@5 3@5", "3@5 4@5 3@5"),
    ("samples", 8, "4@5 3@5", "4@5 3@5 4@5"),
    ("times", 8, "4@5 4@6", "4@6 4@5 4@6"),
    ("times", 8, "4@5 4@6", "4@5 4@6 4@5"),
    ("newest", 8, "5@0 3@1 4@2", "5@0 5@0 3@1"),
    # Fed with another time, or another sample at that time.
    ("fed", 8, "6@0 5@2 4@4", "6@1 5@2 4@4"),
    ("fed", 8, "6@0 5@2 4@4", "6@0 5@3 4@4"),
    ("fed", 8, "6@0 5@2 4@4", "6@0 5@2 4@3"),
    ("fed", 8, "6@0 5@2 4@4", "7@0 5@2 4@4"),
    ("fed", 8, "6@0 5@2 4@4", "6@0 6@2 4@4"),
    ("fed", 8, "6@0 5@2 4@4", "6@0 5@2 5@4"),
    # Fed before the clear only, before the reset only, or refused.
    ("fed", 8, "9@0 clear 5@1 4@2", "9@0 5@1 4@2"),
    ("fed", 8, "5@1 clear 6@0 4@2", "6@0 5@1 4@2"),
    ("fed", 8, "4@2 clear 6@0 5@1 4@1", "6@0 5@1 4@2"),
    ("fed", 8, "9@0 reset:5@1 4@2", "9@0 5@1 4@2"),
    ("fed", 8, "5@1 reset:6@0 4@2", "6@0 5@1 4@2"),
    ("fed", 8, "4@2 reset:6@0 5@1 4@1", "6@0 5@1 4@2"),
    ("fed", 8, "6@1 5@4 9@0 4@8", "9@0 5@4 4@8"),
    ("fed", 8, "6@1 5@4 6@3 4@9", "6@1 6@3 4@9"),
    ("fed", 8, "6@1 5@4 4@9 5@8 4@9", "6@1 5@4 5@8"),
    # One older than the window; the last of them seen from the latest time, and not from the newest sample's.
    ("age", 8, "5@0 5@1 4@9", "5@0 - -"),
    ("age", 0, "5@0 5@1", "5@0 - -"),
    ("age", MOST - 1, f"5@0 5@1 4@{MOST}", "5@0 - -"),
    ("age", 8, "3@0 2@8 1@12 0@13 0@17 0@19 0@21 0@20", "1@12 - -"),
    ("later", 8, "5@0 6@1 5@2 5@3", "5@0 5@2 5@2"),
    ("later", 8, "5@1 6@1 5@2", "6@1 5@1 5@2"),
    ("later", 8, "5@1 6@1 5@2", "6@1 6@1 5@1"),
    # Earlier by one than the third, the second, the best; one that moves the filter; what is not too early at all.
    ("refused", 8, "6@1 5@4 4@9 3@8", "reply=0"),
    ("refused", 8, "6@1 5@4 4@9 3@3", "reply=0"),
    ("refused", 8, "6@1 5@4 4@9 3@0", "reply=0"),
    ("refused", 8, "6@1 5@4 4@9 3@8", "reply=2"),
    *(("refused", 8, "6@1 5@4 4@9 3@8", f"{name}+1") for name in PLACES[WINDOW:]),
    ("refused", 8, "6@1 5@4 4@9 3@9", "reply=3"),
    ("refused", 8, "6@1 5@4 4@9 3@9", "reply=3 6@1 5@4 4@9"),
    ("refused", 8, "5@0 1@2 1@1", "reply=3"),
    ("refused", 8, "5@0", "reply=3"),
    ("refused", 8, "5@1 reset:5@0", "reply=3"),
    ("refused", 8, "5@1 clear", "reply=3"),
    ("refused", 8, "", "reply=3"),
    ("empty", 8, "", "set=1"),
    ("empty", 8, "5@1 clear", "set=1 5@1 5@1 5@1"),
    ("empty", 8, "5@1 clear", "5@1 5@1 5@1"),
    ("empty", 8, "5@1", "set=0"),
    ("empty", 8, "5@1", "set=0 0@0 0@0 0@0"),
    ("empty", 8, "5@1", "set=2"),
    ("empty", 8, "5@1 reset:4@0", "set=0 0@0 0@0 0@0"),
    *(("empty", 8, run, "window+1") for run in ("", "5@1", "5@1 4@9", "5@1 reset:4@0", "5@1 clear")),
]
# The same of the exported run, whose last three samples are replaced; `unwritten` leaves all output as it was.
RUN_CHANGES = [
    ("samples", 8, "4@5 3@5", "3 4 3"),
    ("samples", 8, "4@5 3@5", "4 3 4"),
    ("newest", 8, "5@0 3@1 4@2", "5 5 3"),
    ("fed", 8, "8@0 5@2 4@4", "9 5 4"),
    ("fed", 8, "8@0 5@2 4@4", "8 6 4"),
    ("fed", 8, "8@0 5@2 4@4", "8 8 6"),
    ("later", 8, "5@0 6@1 4@2", "5 4 4"),
    ("later", 8, "5@0 6@1 4@2", "6 5 4"),
    ("later", 8, "5@0 6@1 4@2", "6 6 5"),
    ("times", 8, "5@0 4@2 3@1", "5 4 3"),
    ("age", 8, "5@0 4@9", "5 - -"),
    ("age", 0, "5@0 4@1", "5 - -"),
    ("age", 8, "3@0 2@8 1@12 0@13 0@17 0@19 0@21 0@20", "1 - -"),
    ("refused", 8, "5@0 4@1", "reply=3"),
    ("refused", 8, "5@0 4@1", "reply=3 unwritten"),
    ("refused", 8, "5@0 4@1", "reply=2"),
    ("refused", 8, "5@1 4@0", "reply=0"),
    ("refused", 8, "5@1 4@0", "output+1"),
    ("refused", 8, "5@1 4@0", "end+1"),
]
# What is not promised, what is counted where it fails, and a run at whose end it does.
NOT_PROMISED = [
    ("best at least every sample of the window", BELOW_LARGEST, 8, WORKED),
    ("age below the window", AT_AGE, 8, "5@0 4@8"),
    ("newest below the third", AT_NEWEST, 8, "5@0"),
    ("each estimate above every sample fed after it", AT_LATER, 8, "5@0 5@1"),
]


def changed(answer, text, spots):
    """The answer with this change; the spots are where best, second and third stand."""
    words, spots = list(answer), iter(spots)
    named = {name: place for place, name in enumerate(PLACES)} | {"output": 2, "end": len(answer) - 1}
    for one in text.split():
        if one == "unwritten":
            words[2:] = [KEPT] * (len(words) - 2)
        elif "=" in one:
            name, number = one.split("=")
            words[named[name]] = int(number)
        elif "+1" in one:
            words[named[one.split("+")[0]]] += 1
        else:
            spot, numbers = next(spots), one.split("@")
            words[spot : spot + len(numbers)] = words[spot : spot + len(numbers)] if one == "-" else map(int, numbers)
    return tuple(words)


def found_in_update(port, window, run, change):
    """What the check finds broken where the last answer of a run is changed, after the run itself was held to it."""
    operations = operations_of(window, run)
    lived(port, window, operations)
    filter = lived(port, window, operations[:-1])
    (answer,) = answered(port, [filter], operations[-1:])
    return broken(filter, operations[-1], changed(answer, change, (BEST, SECOND, THIRD)))


def found_in_run(port, window, run, change):
    """The same of an exported run."""
    pairs = pairs_of(run)
    (answer,) = run_answered(port, [(window, pairs)])
    run_held_to(window, pairs, answer)
    last = row_of(len(pairs) - 1)
    return run_broken(window, pairs, changed(answer, change, range(last, last + 3)))


def notices(port):
    """Ends if a changed answer is taken, or if what is not promised holds in the run that is to show it."""
    for cases, found in ((CHANGES, found_in_update), (RUN_CHANGES, found_in_run)):
        for name, window, run, change in cases:
            faults = found(port, window, run, change)
            if name not in faults:
                seen = ", ".join(faults) or "nothing"
                raise SystemExit(f"this check notices nothing of {name}: window {window}: {run}, then {change}: {seen}")
    for name, limit, window, run in NOT_PROMISED:
        if not LIMITS[limit](lived(port, window, operations_of(window, run))):
            raise SystemExit(f"this check notices nothing of {name}: it holds after window {window}: {run}")
    print(f"{len(CHANGES) + len(RUN_CHANGES)} changed answers noticed, each by the promise that it breaks;", end=" ")
    print(f"{len(NOT_PROMISED)} promises that are not made found broken")


# ---- random runs


def within(number):
    """The nearest number of 64 bits."""
    return max(0, min(MOST, number))


def window_of(rng):
    """A window: at an end of 64 bits, small, next to a power of two, or any."""
    pick = rng.random()
    if pick < 0.4:
        return rng.choice((0, 1, 2, 3, 4, 8))
    if pick < 0.7:
        return rng.randrange(5, 200)
    if pick < 0.8:
        return rng.choice((MOST - 1, MOST))
    if pick < 0.9:
        return within(2 ** rng.randrange(65) + rng.choice((-1, 0, 1)))
    return rng.randrange(MOST + 1)


def first_time(rng, window):
    """A time for an empty filter: early, anywhere, or near the end."""
    return rng.choice((0, 1, rng.randrange(100), rng.randrange(MOST + 1), within(MOST - rng.randrange(20) * window)))


def step(rng, window):
    """By how much a time rises: next to a part of the window, or hardly."""
    return max(0, rng.choice((0, 1, 1, window // 16, window // 4, window // 2, window)) + rng.choice((-1, 0, 1)))


def time_of(rng, filter):
    """A time for a filter: mostly not before the latest, else about its stored times."""
    latest, stored = filter.fed.latest, filter.answer[BEST_TIME::2]
    if not filter.answer[SET]:
        return first_time(rng, filter.window)
    pick = rng.random()
    if pick < 0.6:
        return within(max(latest, rng.choice((latest, *stored)) + step(rng, filter.window)))
    if pick < 0.8:
        return rng.randint(stored[2], latest)
    if pick < 0.96:
        return within(rng.choice(stored) + rng.choice((-1, 0, 1)))
    if pick < 0.99:
        return rng.randint(stored[0], stored[2])
    return rng.randrange(MOST + 1)


def manner_of(rng):
    """How samples are chosen for a while."""
    return rng.choice(("few", "falling", "falling", "rising", "any", "ends", "beside"))


def sample_of(rng, manner, newest, known):
    """A sample: one of few, on a ramp down or up, any, at an end, or beside one that is known."""
    if manner == "few":
        return 1000 + rng.randrange(4)
    if manner == "falling":
        return within(newest - rng.randrange(3))
    if manner == "rising":
        return within(newest + rng.randrange(3))
    if manner == "any":
        return rng.randrange(MOST + 1)
    if manner == "ends":
        return rng.choice((0, 1, MOST - 1, MOST))
    return within(rng.choice(known) + rng.choice((-1, 0, 1)))


class Lives:
    """A filter after another, each with its own window and its own length of life."""

    def __init__(self, rng):
        self.rng = rng
        self.filter = self.manner = None
        self.left = 0

    def next_operation(self):
        """What is done to the filter next; where its life is over, a new one is made."""
        rng, self.left = self.rng, self.left - 1
        if self.left < 0 or (self.filter.fed.latest == MOST and rng.random() < 0.1):
            self.filter = Filter(window_of(rng), self.filter.answer) if self.filter else Filter(window_of(rng))
            self.left, self.manner = rng.choice((5, 20, 60, 200, 600)), manner_of(rng)
            return NEW, self.filter.window, 0
        if rng.random() < 0.08:
            self.manner = manner_of(rng)
        filter, pick = self.filter, rng.random()
        sample = sample_of(rng, self.manner, filter.fed.newest, filter.answer[BEST::2])
        if pick < 0.02:
            return CLEAR, 0, 0
        if pick < 0.04:
            return RESET, sample, rng.choice((time_of(rng, filter), first_time(rng, filter.window)))
        return UPDATE, sample, time_of(rng, filter)


def run_updates(port, rng, updates, counts):
    """Feeds as many filters as a frame has calls, side by side, until so many updates were accepted."""
    lives = [Lives(rng) for _ in range(FRAME)]
    while counts["accepted"] < updates:
        operations = [life.next_operation() for life in lives]
        filters = [life.filter for life in lives]
        for filter, operation, answer in zip(filters, operations, answered(port, filters, operations)):
            if counts["accepted"] < updates:
                held_to(filter, operation, answer)
                count(counts, filter, operation)


def random_pairs(rng):
    """A window, and pairs for an exported run."""
    window, manner, falling = window_of(rng), manner_of(rng), rng.random() < 0.3
    time, sample, pairs = first_time(rng, window), sample_of(rng, "few", 0, ()), []
    for _ in range(rng.randrange(1, MOST_PAIRS + 1)):
        pairs.append((time, sample))
        latest = max(time for time, _ in pairs)
        fall = falling and rng.random() < 0.2
        time = within(latest - rng.randrange(3)) if fall else within(latest + step(rng, window))
        manner = manner_of(rng) if rng.random() < 0.1 else manner
        sample = sample_of(rng, manner, sample, (sample,))
    return window, pairs


def run_held_to(window, pairs, answer):
    """Ends with the pairs where an answer to an exported run breaks a promise."""
    faults = run_broken(window, pairs, answer)
    if faults:
        run = f"exported run, window {window}: {text_of_pairs(pairs)}"
        ended(run, " ".join(map(str, answer[: row_of(len(pairs))])), faults)


def run_exported(port, rng, pairs_wanted, counts):
    """Makes exported runs until those that were accepted had so many pairs."""
    while counts["pairs"] < pairs_wanted:
        runs = [random_pairs(rng) for _ in range(FRAME)]
        for (window, pairs), answer in zip(runs, run_answered(port, runs)):
            run_held_to(window, pairs, answer)
            accepted = answer[REPLY] == reply.DONE
            counts["runs accepted" if accepted else "runs refused"] += 1
            counts["pairs"] += accepted * len(pairs)


def compare(seed, updates):
    """Holds random runs to the promises, and prints what was met."""
    rng, counts = random.Random(seed), Counter()
    with started(program()) as port:
        notices(port)
        run_updates(port, rng, updates, counts)
        run_exported(port, rng, updates // 10, counts)
    print(f"{counts['accepted']} updates accepted, {counts['earlier']} of them with a time before the latest")
    print(f"{counts['refused']} updates refused, {counts['clears']} clears, {counts['resets']} resets,", end=" ")
    print(f"{counts['filters']} filters")
    print(f"exported: {counts['pairs']} pairs in {counts['runs accepted']} runs, {counts['runs refused']} runs refused")
    print("After so many of the accepted updates")
    for name in LIMITS:
        print(f"{counts[name]:10}  {name}" + (": nothing promises that it is not" if name == BELOW_LARGEST else ""))
        if not counts[name]:
            raise SystemExit("not once: too few updates to say anything")
    print(f"{counts['accepted']} updates, 0 broken")


# ---- the picture

# How each line is drawn, the widest first, so that those which coincide are seen beside each other.
LINES = (
    ("best", "#fb6", 'stroke-width="11"'),
    ("second", "#38c", 'stroke-width="6"'),
    ("third", "#7d4", 'stroke-width="2.5"'),
    ("the largest sample of the window that ends at the newest", "#000", 'stroke-width="1.3" stroke-dasharray="5 4"'),
)
TOP, HEIGHT = 56, 270


def traced(port, window, run):
    """After each update of a run: its time and sample, the three estimates, and the largest sample of the window."""
    rows = []
    for filter in living(port, window, operations_of(window, run)):
        if filter.answer[SET]:
            _, sample, time = filter.operations[-1]
            rows.append((time, sample, *filter.answer[BEST::2], filter.fed.largest(window)))
    return rows


def bandwidths():
    """Sixty rounds with a sample each: a bandwidth that falls and recovers, and jitters all the time."""
    rng, corners, pairs = random.Random(8), [(0, 40), (12, 40), (30, 12), (42, 12), (48, 34), (60, 34)], []
    for (begin, low), (end, high) in zip(corners, corners[1:]):
        for time in range(begin, end):
            pairs.append((time, low + (high - low) * (time - begin) // (end - begin) + rng.randrange(-3, 4)))
    return pairs


def axes(x, y, until, every, samples, names):
    """The two axes with their numbers and names."""
    out = [f'<path d="M{x(0):.1f} {TOP} V{y(0):.1f} H{x(until):.1f}" fill="none" stroke="#888"/>']
    for sample in samples:
        out.append(f'<text x="{x(0) - 14:.1f}" y="{y(sample) + 4:.1f}" text-anchor="end">{sample}</text>')
    for time in range(0, until + 1, every):
        out.append(f'<text x="{x(time):.1f}" y="{y(0) + 24:.1f}" text-anchor="middle">{time}</text>')
    out.append(f'<text x="{x(until):.1f}" y="{y(0) + 42:.1f}" text-anchor="end">{names[0]}</text>')
    out.append(f'<text x="{x(0) - 14:.1f}" y="{TOP - 12}">{names[1]}</text>')
    return out


def panel(left, width, title, rows, until, every, samples, names):
    """One drawing: the samples of a run as dots, the estimates as steps, and where the best is below the largest."""
    x = lambda time: left + 46 + time * (width - 66) / until
    y = lambda sample: TOP + HEIGHT - sample * HEIGHT / (samples[-1] * 1.1)
    out = [f'<text x="{left + 32}" y="{TOP - 32}" font-weight="bold">{title}</text>']
    ends = [row[0] for row in rows[1:]] + [until]
    for (time, _, best, _, _, largest), end in zip(rows, ends):
        if best < largest and time < end:
            size = f'width="{x(end) - x(time):.1f}" height="{y(best) - y(largest):.1f}"'
            out.append(f'<rect x="{x(time):.1f}" y="{y(largest):.1f}" {size} fill="#fbb"/>')
    out += axes(x, y, until, every, samples, names)
    for place, (_, color, manner) in enumerate(LINES, 2):
        path = f"M{x(rows[0][0]):.1f} {y(rows[0][place]):.1f}"
        path += "".join(f" H{x(row[0]):.1f} V{y(row[place]):.1f}" for row in rows[1:])
        out.append(f'<path d="{path} H{x(until):.1f}" fill="none" stroke="{color}" {manner}/>')
    for time, sample, *_ in rows:
        out.append(f'<circle cx="{x(time):.1f}" cy="{y(sample):.1f}" r="3.5" stroke="white"/>')
    return out


def legend(top):
    """What the lines, the dots and the ground are, in words."""
    out = []
    for place, (name, color, manner) in enumerate(LINES):
        left = 46 + 110 * place
        out.append(f'<path d="M{left} {top - 4} h26" stroke="{color}" {manner}/>')
        out.append(f'<text x="{left + 34}" y="{top}">{name}</text>')
    out.append(f'<circle cx="796" cy="{top - 4}" r="3.5"/><text x="807" y="{top}">a sample</text>')
    out.append(f'<rect x="46" y="{top + 14}" width="26" height="12" fill="#fbb"/>')
    lines = (
        "Here the best is below the largest sample of the window. Nothing promises that it is not.",
        "Left: 3 at time 0, 2 at 8, 1 and then 0 at 16, 0 at 17. Now the best is 0, though 1 was fed one unit before.",
        "Promised: an estimate is a sample that was fed, none after it is larger, the best is at most the window old.",
    )
    for place, text in enumerate(lines):
        out.append(f'<text x="{46 if place else 80}" y="{top + 24 + 22 * place}">{text}</text>')
    return out


def picture(path):
    with started(program()) as port:
        worked = traced(port, 8, WORKED)
        longer = traced(port, 10, text_of_pairs(bandwidths()))
    out = panel(0, 330, "Five samples, window 8", worked, 20, 4, [0, 1, 2, 3], ("time", "sample"))
    names = ("time, in rounds", "sample, in Mbit/s")
    out += panel(330, 570, "A sample in each of sixty rounds, window 10", longer, 60, 10, [0, 10, 20, 30, 40], names)
    drawn(path, 490, out + legend(404))


by_arguments(compare, 1_000_000, picture)
