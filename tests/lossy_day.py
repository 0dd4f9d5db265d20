#!/usr/bin/env python3
"""Makes up a trace: a day of one module at a site that loses packets.

    tests/lossy_day.py [SEED] >traces/lossy_day.csv

The kept one is that of seed 7. Nothing of it was measured. Every quarter of an hour the module uploads some 8 to 40 KB in
packets of 1,300 bytes, and between uploads it says now and then that it is there. A packet is lost by chance, more often
in the evening. What an ack shows to be lost, and what a timer gives up, is counted as lost and sent again. After a loss
the window shrinks, otherwise it grows, from 10 packets to at most 50. Every eighth upload probes for bandwidth. Every
few hours the link breaks, so that the last packets are never answered, and the module connects anew: a second start,
which alone clears lo in a trace. No line is refused."""

import random
import sys

from replay import guarded

HEADER = "kind,time,cwnd,inflight,number,bytes,acked,lost,bw,rtt,probing"
SEED = 7
DAY = 86_400 * 10**9
SECOND, MILLISECOND = 10**9, 10**6
PACKET = 1300
FEWEST, FIRST, MOST = 4, 10, 50
QUARTER = 900 * SECOND


class Module:
    """What the module knows of its connection, and the lines that it wrote."""

    def __init__(self, rng):
        self.rng, self.lines, self.now = rng, [], 3 * SECOND

    def write(self, *fields):
        self.lines.append(",".join("" if field is None else str(field) for field in fields))

    def start(self):
        """Connects anew: totals, numbers and window begin again, and the clock goes on."""
        self.rtt = self.rng.randrange(40, 160) * MILLISECOND
        self.rate = self.rng.randrange(300_000, 1_800_000)
        self.window, self.number, self.acked, self.lost = FIRST, 0, 0, 0
        self.out = []
        self.write("start", self.now, None, None, None, None, None, None, None, self.rtt, None)

    def is_lost(self):
        """Whether a packet is lost: one of 40, in the evening one of 12."""
        evening = 17 <= self.now // (3600 * SECOND) < 23
        return self.rng.random() < (1 / 12 if evening else 1 / 40)

    def in_flight(self):
        return PACKET * len(self.out)

    def send(self):
        self.write("sent", self.now, None, self.in_flight(), self.number, PACKET, None, None, None, None, None)
        self.out.append(self.number)
        self.number += 1
        self.now += self.rng.randrange(200_000, 3 * MILLISECOND)

    def event(self, arrived, gone, probing):
        """An ack of the packets that arrived, or a timer where none did, with those that are given up. Answers how many."""
        window, before = PACKET * self.window, self.in_flight()
        self.acked += PACKET * len(arrived)
        self.lost += PACKET * len(gone)
        self.out = [number for number in self.out if number not in arrived and number not in gone]
        rtt = bandwidth = number = None
        if arrived:
            number = max(arrived)
            rtt = min(200 * MILLISECOND, self.rtt + self.rng.randrange(40 * MILLISECOND))
            if len(arrived) > 1:
                bandwidth = int(self.rate * self.rng.uniform(0.4, 1.1))
        self.write("event", self.now, window, before, number, None, self.acked, self.lost, bandwidth, rtt, probing)
        grown = self.window * 7 // 10 if gone else self.window + len(arrived)
        self.window = max(FEWEST, min(MOST, grown))
        return len(gone)

    def flight(self, packets, probing):
        """One round: packets leave, acks of two at a time come back, and gaps are given up. Answers how many."""
        for _ in range(packets):
            self.send()
        self.now += self.rtt
        arrived = [number for number in self.out if not self.is_lost()]
        given_up = 0
        for pair in (arrived[at : at + 2] for at in range(0, len(arrived), 2)):
            self.now += self.rng.randrange(1, 8) * MILLISECOND
            gone = [number for number in self.out if number + 3 <= pair[-1] and number not in arrived]
            given_up += self.event(pair, gone, probing)
        if self.out:
            self.now += 3 * self.rtt
            given_up += self.event([], list(self.out), probing)
        return given_up

    def upload(self, probing):
        """Flights until all packets of an upload have arrived."""
        left = self.rng.randrange(6, 32)
        while left > 0:
            packets = min(left, self.window, self.rng.randrange(2, 8))
            left += self.flight(packets, probing) - packets

    def unanswered(self):
        """The link breaks: a few packets leave and nothing comes back. Seconds later the module connects anew."""
        for _ in range(self.rng.randrange(2, 6)):
            self.send()
        self.now += self.rng.randrange(20, 90) * SECOND
        self.start()


def day(seed):
    """The lines of a day."""
    module = Module(random.Random(seed))
    rng = module.rng
    module.start()
    breaks = module.now + rng.randrange(3600, 3 * 3600) * SECOND
    for upload in range(DAY // QUARTER):
        module.now = max(module.now, upload * QUARTER + rng.randrange(5, 30) * SECOND)
        if module.now >= breaks:
            module.unanswered()
            breaks = module.now + rng.randrange(3600, 3 * 3600) * SECOND
        module.upload(int(upload % 8 == 7))
        for minute in (5, 10):
            module.now = max(module.now, upload * QUARTER + minute * 60 * SECOND)
            module.flight(1, 0)
    return module.lines


def main(arguments):
    if len(arguments) > 1 or not all(argument.isdecimal() for argument in arguments):
        print(__doc__, file=sys.stderr)
        return 1
    lines = day(int(arguments[0]) if arguments else SEED)
    sys.stdout.buffer.write("".join(line + "\r\n" for line in [HEADER, *lines]).encode("ascii"))
    return 0


if __name__ == "__main__":
    guarded(main)
