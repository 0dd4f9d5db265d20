#!/usr/bin/env python3
"""Random runs of the port beside the same rules on exact fractions.

    tests/drift.py [SEED [RUNS]]        compares, and prints the worst cases beside their bounds
    tests/drift.py --picture FILE.svg   draws runs of the port against the exact run

The port is the program `serve` (crates/serve), which carries out frames of calls (oracle/README.md); nothing is taken
from it but the replies and the two lower bounds. The exact run here is written from network_model.rs, with Python's
fractions. Then tests/rtt_drift.py does the same for the round-trip estimator."""

import random
import struct
from fractions import Fraction

import rtt_drift
from port import FRAME, asked, by_arguments, drawn, number_alone, panel, program, started
from words import ANSWER_WORDS, EVENT_IN_CALL, PARAMS_IN_CALL, REPLY_IN_ANSWER, STATE_WORDS, UNSET
from words import argument, call, event, params, sample, state

PARTS = 2**24
# The bits of beta 0.3.
USUAL_BETA = 0x3E99999A
START = call.START
SENT = call.ON_PACKET_SENT
EVENT = call.ON_CONGESTION_EVENT_START
FINISH = call.ON_CONGESTION_EVENT_FINISH
RESTART = call.RESTART_ROUND_EARLY
HIGH = call.SET_INFLIGHT_HI
CAP = call.CAP_INFLIGHT_LO
CLEAR_INFLIGHT = call.CLEAR_INFLIGHT_LO
CLEAR_BANDWIDTH = call.CLEAR_BANDWIDTH_LO
ADVANCE = call.ADVANCE_MAX_BANDWIDTH_FILTER
CRUISE = call.ENTER_PROBE_CRUISE
REFILL = call.ENTER_PROBE_REFILL
# The original's own parameters but beta.
USUAL = {
    params.LOSS_THRESHOLD: 0.015,
    params.INFLIGHT_HI_HEADROOM: 0.15,
    params.FULL_BW_THRESHOLD: 1.25,
    params.STARTUP_CWND_GAIN: 2.0,
    params.STARTUP_PACING_GAIN: 2.773,
    params.STARTUP_FULL_BW_ROUNDS: 3,
    params.MAX_STARTUP_QUEUE_ROUNDS: 0,
    params.PROBE_RTT_PERIOD: 10_000_000_000,
    params.PROBE_BW_PROBE_BASE_DURATION: 2_000_000_000,
    params.IGNORE_APP_LIMITED_FOR_NO_BANDWIDTH_GROWTH: 1,
}


def f32(bits):
    return struct.unpack("<f", struct.pack("<I", bits))[0]


def bits_of(x):
    return struct.unpack("<I", struct.pack("<f", x))[0]


def factor(beta_bits):
    """b, the f32 1 - beta, exactly. The double 1 - beta is exact here, and packing rounds it to f32."""
    return Fraction(f32(bits_of(1.0 - f32(beta_bits))))


class Exact:
    """The model as far as the lower bounds need it: whole numbers, and the two lower bounds as fractions."""

    def __init__(self, beta_bits):
        self.b = factor(beta_bits)
        self.sent = 0
        self.end = None
        self.acked = self.lost = 0
        self.round_lost = 0
        self.slots = [0, 0]
        self.latest_bandwidth = self.latest_inflight = 0
        self.high = UNSET
        self.inflight = self.bandwidth = None
        self.inflight_count = self.bandwidth_count = 0
        self.ended = False

    def call(self, op, a):
        if op == SENT:
            self.sent = a[0]
        elif op == EVENT:
            self.event(*a)
        elif op == FINISH:
            if self.ended:
                self.round_lost = 0
        elif op == HIGH:
            self.high = a[0]
        elif op == CAP:
            self.cap(a[0])
        elif op == CLEAR_INFLIGHT:
            self.clear_inflight()
        elif op == CLEAR_BANDWIDTH:
            self.clear_bandwidth()
        elif op == ADVANCE:
            if self.slots[1] != 0:
                self.slots = [self.slots[1], 0]
        elif op == CRUISE:
            self.cap(self.high)
        elif op == REFILL:
            self.clear_inflight()
            self.clear_bandwidth()
            self.restart()
        elif op == RESTART:
            self.restart()

    def restart(self):
        self.round_lost = 0
        self.end = self.sent

    def cap(self, bytes):
        if self.inflight is not None:
            self.inflight = min(self.inflight, Fraction(bytes))

    def clear_inflight(self):
        self.inflight = None
        self.inflight_count = 0

    def clear_bandwidth(self):
        self.bandwidth = None
        self.bandwidth_count = 0

    def event(self, window, probing, acked, lost, packet, bandwidth, limited, inflight):
        self.ended = packet != 0 and (self.end is None or packet > self.end)
        if self.ended:
            self.end = self.sent
        if bandwidth != UNSET and acked != self.acked:
            if not limited or bandwidth > max(self.slots):
                self.slots[1] = max(self.slots[1], bandwidth)
        self.round_lost += lost - self.lost
        self.acked, self.lost = acked, lost
        if bandwidth != UNSET:
            self.latest_bandwidth = max(self.latest_bandwidth, bandwidth)
        self.latest_inflight = max(self.latest_inflight, inflight)
        if self.ended and not probing and self.round_lost > 0:
            self.reduce(window)
        if self.ended:
            if bandwidth != UNSET:
                self.latest_bandwidth = bandwidth
            if inflight > 0:
                self.latest_inflight = inflight

    def reduce(self, window):
        lo = Fraction(window) if self.inflight is None else self.inflight
        self.inflight = max(Fraction(self.latest_inflight), lo * self.b)
        self.inflight_count += 1
        lo = Fraction(max(self.slots)) if self.bandwidth is None else self.bandwidth
        self.bandwidth = max(Fraction(self.latest_bandwidth), lo * self.b)
        self.bandwidth_count += 1


# ---- runs


def betas(rng):
    ends = [0x3A800000, 0x3A800001, 0x3F7FC000, 0x3F7FBFFF, 0x3F000000, 0x3F000001, 0x3EFFFFFF, 0x3E800000, 0x3DCCCCCD]
    pick = rng.random()
    if pick < 0.4:
        return USUAL_BETA
    if pick < 0.6:
        return rng.choice(ends)
    return rng.randint(0x3A800000, 0x3F7FC000)


def window(rng):
    pick = rng.random()
    if pick < 0.2:
        return PARTS - rng.randrange(64)
    if pick < 0.3:
        return rng.randrange(5000)
    return rng.randrange(PARTS + 1)


def run_of(rng, rounds):
    """A run: a start, then lossy rounds with what else may come between."""
    beta = betas(rng)
    calls = [(START, [beta])]
    packet = acked = lost = 0
    lonely = rng.random() < 0.5  # nothing but losses: the longest drift
    rate = rng.randrange(1, 2**40 + 1)
    for _ in range(rounds):
        packet += 1
        calls.append((SENT, [packet]))
        acked += rng.randrange(1, 20000)
        if rng.random() < 0.9:
            lost += rng.randrange(1, 5000)
        inflight = 0 if lonely or rng.random() < 0.8 else rng.randrange(1, rng.choice([2000, 100000, PARTS + 1]))
        bandwidth = UNSET
        if packet == 1:
            bandwidth = rate
        elif not lonely and rng.random() < 0.3:
            bandwidth = rng.randrange(1, rate + 1)
        elif packet == 2:
            bandwidth = 1
        probing = not lonely and rng.random() < 0.1
        numbers = packet if rng.random() < 0.95 else 0
        limited = not lonely and rng.random() < 0.2
        calls.append((EVENT, [window(rng), int(probing), acked, lost, numbers, bandwidth, int(limited), inflight]))
        if rng.random() < 0.7:
            calls.append((FINISH, []))
        if not lonely:
            calls += between(rng)
    return calls


def between(rng):
    pick = rng.random()
    if pick < 0.05:
        return [(CAP, [rng.choice([rng.randrange(PARTS + 1), rng.randrange(2**40), UNSET])])]
    if pick < 0.07:
        return [(HIGH, [rng.choice([rng.randrange(PARTS + 1), UNSET])])]
    if pick < 0.09:
        return [(CRUISE, [])]
    if pick < 0.10:
        return [(REFILL, [])]
    if pick < 0.11:
        return [(CLEAR_INFLIGHT, [])]
    if pick < 0.12:
        return [(CLEAR_BANDWIDTH, [])]
    if pick < 0.14:
        return [(ADVANCE, [])]
    if pick < 0.15:
        return [(RESTART, [])]
    return []


# ---- the port


def text_of(calls):
    return "".join(" ".join(map(str, [op] + a)) + "\n" for op, a in calls)


def words_of(op, a, beta, told):
    """The words of a call. The parameters but beta are the original's own, the clock stands still, the rest is 0."""
    words = number_alone(op)
    words[PARAMS_IN_CALL + params.BETA] = beta
    for place, number in USUAL.items():
        words[PARAMS_IN_CALL + place] = bits_of(number) if isinstance(number, float) else number
    if op == SENT:
        words[argument.on_packet_sent.PACKET_NUMBER] = a[0]
    elif op == EVENT:
        window, probing, acked, lost, packet, bandwidth, limited, inflight = a
        if bandwidth != UNSET:
            words[sample.SAMPLE_MAX_BANDWIDTH_SET], words[sample.SAMPLE_MAX_BANDWIDTH] = 1, bandwidth
        words[sample.SAMPLE_IS_APP_LIMITED], words[sample.SAMPLE_MAX_INFLIGHT] = limited, inflight
        words[sample.TOTAL_BYTES_ACKED], words[sample.TOTAL_BYTES_LOST] = acked, lost
        if packet != 0:
            words[sample.ACKED_COUNT], words[sample.ACKED_PACKETS] = 1, packet
        words[EVENT_IN_CALL + event.PRIOR_CWND] = window
        words[EVENT_IN_CALL + event.IS_PROBING_FOR_BANDWIDTH] = probing
    elif op == FINISH:
        words[EVENT_IN_CALL + event.END_OF_ROUND_TRIP] = int(told.ended)
    elif op == HIGH:
        words[argument.set_inflight_hi.NEW_INFLIGHT_HI] = a[0]
    elif op == CAP:
        words[argument.cap_inflight_lo.CAP] = a[0]
    return words


def encoded(calls):
    """The words of all calls. Whether the record handed to a finish says that a round ended is worked out here."""
    out, beta, told = [], 0, None
    for op, a in calls:
        if op == START:
            beta, told = a[0], Exact(a[0])
        else:
            told.call(op, a)
        out.append(words_of(op, a, beta, told))
    return out


def followed(command, calls):
    """What the port has after each call: the reply's number, inflight_lo and bandwidth_lo."""
    words, rows, after = encoded(calls), [], [0] * STATE_WORDS
    with started(command) as port:
        for at in range(0, len(words), FRAME):
            for answer in asked(port, after, words[at : at + FRAME]):
                after = answer[ANSWER_WORDS:]
                bandwidth = after[state.BANDWIDTH_LO] if after[state.BANDWIDTH_LO_SET] else UNSET
                rows.append((answer[REPLY_IN_ANSWER], after[state.INFLIGHT_LO], bandwidth))
    return rows


# ---- the comparison


class Worst:
    """The largest differences seen at one beta, with the bound that each had."""

    def __init__(self):
        self.inflight = (Fraction(0), 0, 0)
        self.bandwidth = (Fraction(0), 0, 0)


def difference(stored, exact):
    if (stored == UNSET) != (exact is None):
        return None
    return Fraction(0) if exact is None else abs(stored - exact)


def checked(calls, rows, worst, counts):
    """Says where a run leaves a bound, or None."""
    exact = None
    for place, ((op, a), (reply, inflight, bandwidth)) in enumerate(zip(calls, rows)):
        if op == START:
            exact = Exact(a[0])
            seen = worst.setdefault(a[0], Worst())
        else:
            exact.call(op, a)
        if reply != 0:
            return f"call {place}, {op} {a}: refused with {reply}"
        rate = 1 / (1 - exact.b)
        step = Fraction(4097, 8192)
        for name, stored, value, k, unit in (
            ("inflight", inflight, exact.inflight, exact.inflight_count, Fraction(1)),
            ("bandwidth", bandwidth, exact.bandwidth, exact.bandwidth_count, step),
        ):
            d = difference(stored, value)
            if d is None:
                return f"call {place}, {op} {a}: {name}_lo is {stored}, but exactly {value}"
            if value is None:
                continue
            bound = min(k, rate) * unit
            if d >= bound:
                return f"call {place}, {op} {a}: {name}_lo is {stored}, exactly {float(value)}, {float(d)} away, not below {float(bound)} after {k} reductions"
            if d > getattr(seen, name)[0]:
                setattr(seen, name, (d, k, bound))
        if op == EVENT:
            counts["events"] += 1
        counts["calls"] += 1
    return None


def compare(seed, runs):
    command = program()
    worst, counts = {}, {"calls": 0, "events": 0}
    rng = random.Random(seed)
    chosen = [run_of(rng, rng.choice([3, 10, 25, 60])) for _ in range(runs)]
    rows = followed(command, [call for calls in chosen for call in calls])
    at = 0
    for calls in chosen:
        fault = checked(calls, rows[at : at + len(calls)], worst, counts)
        at += len(calls)
        if fault:
            print(text_of(calls), end="")
            raise SystemExit(f"outside the bounds: {fault}")
    calls = losses(USUAL_BETA, 16777223, 1)
    if not checked(calls, followed(command, calls), {}, {"calls": 0, "events": 0}):
        raise SystemExit("a window of 16,777,223 bytes is within the bounds: this check notices nothing")
    print("      beta   inflight_lo: worst   its bound   for any k   bandwidth_lo: worst   its bound   for any k")
    usual = [0x3A800000, 0x3DCCCCCD, 0x3E800000, USUAL_BETA, 0x3F000000, 0x3F7FC000]
    for beta in usual:
        if beta in worst:
            line(f"{f32(beta):10.6f}", factor(beta), worst[beta])
    nearest = max(worst, key=lambda beta: ratio(worst[beta].inflight))
    line(f"{f32(nearest):10.6f}", factor(nearest), worst[nearest])
    print(f"{runs} runs at {len(worst)} betas, {counts['calls']} calls, {counts['events']} events: 0 outside the bounds")
    print("The last line of the table is the nearest to its bound. A window of 16,777,223 bytes is noticed to leave it.")


def ratio(seen):
    return seen[0] / seen[2] if seen[2] else Fraction(0)


def line(name, b, seen):
    rate = float(1 / (1 - b))
    i, w = seen.inflight, seen.bandwidth
    print(f"{name} {float(i[0]):20.6f} {float(i[2]):11.4f} {rate:11.4f} {float(w[0]):21.6f} {float(w[2]):11.4f} {rate * 4097 / 8192:11.4f}")


# ---- the picture


def losses(beta, window, reductions):
    """A run of lossy rounds and nothing else."""
    calls = [(START, [beta])]
    for n in range(1, reductions + 1):
        calls += [(SENT, [n]), (EVENT, [window, 0, n, n, n, UNSET, 0, 0]), (FINISH, [])]
    return calls


def differences(command, beta, window, reductions):
    """After each reduction of a run: how far inflight_lo is from the exact value."""
    calls = losses(beta, window, reductions)
    exact, points = Exact(beta), [(0, 0.0)]
    for (op, a), (_, inflight, _) in zip(calls, followed(command, calls)):
        if op != START:
            exact.call(op, a)
        if op == EVENT:
            points.append((exact.inflight_count, float(inflight - exact.inflight)))
    return points


def drawing(command, left, title, beta, reductions):
    """Runs at one beta, from four first windows, and the two bounds."""
    rate = float(1 / (1 - factor(beta)))
    peak = rate * 1.25
    k = min(reductions, peak)
    bounds = [(sign * rate, f"{sign * rate:.2f}", [(0, 0), (k, sign * k)]) for sign in (1, -1)]
    windows = {"#333": 14744309, "#2a7": 16777216, "#a6a": 12345678, "#d80": 5000011}
    runs = [(color, differences(command, beta, window, reductions)) for color, window in windows.items()]
    return panel(left, title, (-peak, peak), reductions, bounds, runs)


def picture(path):
    command = program()
    out = drawing(command, 0, "beta 0.3: bytes between inflight_lo and the exact value", USUAL_BETA, 40)
    out += drawing(command, 450, "beta 1/64", 0x3C800000, 500)
    out.append('<text x="46" y="402">Across: reductions k. Red: 1 / (1 - b). Blue: k.</text>')
    out.append('<text x="46" y="420">Lines: first windows of 14,744,309 (dark), 16,777,216 (green), 12,345,678 (violet) and 5,000,011 bytes (orange).</text>')
    drawn(path, 430, out)


def both(seed, runs):
    """The lower bounds, then the round-trip estimator."""
    compare(seed, runs)
    print()
    rtt_drift.compare(seed, runs)


def main():
    by_arguments(both, 4000, picture)


if __name__ == "__main__":
    main()
