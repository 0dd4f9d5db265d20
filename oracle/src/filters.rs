//! Lists of the filters and of the round counter: a line is a step of a run
//! that goes on from the line before.

use std::collections::BTreeMap;

use guovssalu_sys::table::reason;

use crate::filter_steps;
use crate::list::List;
use crate::reasons::Tally;
use crate::recovery::gcongestion::MaxBandwidth;
use crate::recovery::gcongestion::MinRtt;
use crate::recovery::gcongestion::Rounds;
use crate::values::Random;
use crate::windowed;
use crate::windowed::Filter;
use crate::windowed::Foreseen;

/// How often at least each reason, and each pair of steps that both act, occurs
/// in the list of the windowed filter.
const LEAST_REASONS: u64 = 20;
const LEAST_PAIRS: u64 = 5;

/// A run that was worked out by hand: the window, and time, sample and reason of
/// each update.
type Worked = (u64, &'static [(u64, u64, u64)]);

/// Runs worked out for request f.
const WORKED: [Worked; 5] = [
    (4, &[(0, 0, 0), (0, 1, 0), (2, 0, 5), (5, 1, 3)]),
    (4, &[(0, 1, 0), (2, 1, 5), (5, 0, 3), (7, 1, 4)]),
    (8, &[(0, 3, 0), (3, 2, 5), (8, 0, 6), (9, 1, 3)]),
    (4, &[(0, 1, 0), (2, 1, 5), (5, 0, 3), (5, 1, 5)]),
    (
        8,
        &[
            (0, 5, 0),
            (2, 5, 7),
            (3, 5, 5),
            (5, 3, 7),
            (8, 4, 5),
            (9, 2, 3),
            (12, 6, 0),
        ],
    ),
];

/// Runs in which the third is older than half the window, with another sample
/// than the second's, and with the same of another time.
const OLD_THIRD: [Worked; 2] = [
    (
        12,
        &[
            (0, 9, 0),
            (4, 8, 5),
            (12, 7, 6),
            (13, 6, 3),
            (17, 5, 3),
            (24, 4, 7),
        ],
    ),
    (
        12,
        &[
            (0, 9, 0),
            (4, 8, 5),
            (12, 7, 6),
            (13, 6, 3),
            (17, 5, 3),
            (17, 6, 2),
            (24, 4, 6),
        ],
    ),
];

/// Acked numbers in any order, and whether they end a round whose end is 5: by
/// request d the greatest decides. Worked out by hand.
const OUT_OF_ORDER: [(&[u64], bool); 12] = [
    (&[], false),
    (&[6, 5], true),
    (&[5, 6], true),
    (&[5, 5], false),
    (&[6, 6], true),
    (&[5, 4, 6], true),
    (&[6, 5, 4], true),
    (&[4, 6, 5], true),
    (&[5, 4, 5], false),
    (&[9, 8, 7], true),
    (&[u64::MAX, 0], true),
    (&[0, u64::MAX], true),
];

/// A run of the windowed filter, and what its steps went through.
struct Windowed {
    list: List,
    filter: Filter,
    /// The time of the last step.
    last: u64,
    counts: BTreeMap<&'static str, u64>,
    tally: Tally,
}

impl Windowed {
    fn add(&mut self, op: u64, x: u64, y: u64, reason: u64) {
        let line = [&[op, x, y], &self.filter[1..], &[reason]].concat();
        self.list.add(&line);
    }

    fn operate(&mut self, op: u64, x: u64, y: u64) {
        windowed::operate(&mut self.filter, op, x, y);
        self.add(op, x, y, 0);
    }

    fn start(&mut self, window: u64) {
        self.last = 0;
        self.operate(0, window, 0);
    }

    fn reset(&mut self, sample: u64, time: u64) {
        self.last = time;
        self.operate(1, sample, time);
    }

    /// A run that was worked out; stops where the reading has another reason.
    fn worked(&mut self, (window, updates): Worked) {
        self.start(window);
        for &(time, sample, reason) in updates {
            let read = self.update(sample, time);
            assert_eq!(read, reason, "window {window}: {sample} at {time}");
        }
    }

    fn clear(&mut self) {
        self.operate(3, 0, 0);
    }

    /// Makes an update; its reason.
    fn update(&mut self, sample: u64, time: u64) -> u64 {
        for mark in self.foresee(sample, time).marks {
            *self.counts.entry(mark).or_default() += 1;
        }
        let updated = windowed::update(&mut self.filter, sample, time);
        let updated = updated.expect("the list has no update that is refused");
        self.tally.add([&updated]);
        self.tally.hold();
        self.last = time;
        self.add(2, sample, time, updated.reason);
        updated.reason
    }

    /// Foresees an update; a mark if its time falls.
    fn foresee(&self, sample: u64, time: u64) -> Foreseen {
        let mut foreseen = windowed::foresee(&self.filter, sample, time);
        if self.is_full() && time < self.last {
            foreseen.marks.push("time falls");
        }
        foreseen
    }

    fn is_full(&self) -> bool {
        self.filter[1] == 1
    }
}

/// A sample and a time for an update, at a limit if luck has it; nothing if
/// the time would be past 64 bits or earlier than a stored one.
fn attempt(run: &Windowed, random: &mut Random) -> Option<(u64, u64)> {
    let [window, _, best, first, second, next, third, newest] = run.filter;
    let (samples, times) = ([best, second, third], [first, next, newest]);

    let from = random.pick(&times);
    let wait = match random.below(8) {
        0 => 0,
        1 => window,
        2 => window / 4,
        3 => window / 2,
        4 => random.below(window / 2 + 2),
        5 => random.below(window + 2),
        6 => run.last.saturating_sub(from),
        _ => run.last.saturating_sub(from).saturating_sub(1),
    };
    let time = from.checked_add(wait)?.checked_add(random.below(2))?;
    if times.iter().any(|&stored| time < stored) {
        return None;
    }

    let near = random.pick(&samples);
    let sample = match random.below(10) {
        0..=3 => near,
        4 => near.saturating_add(1),
        5 => near.saturating_sub(1),
        6 => random.below(best.saturating_add(1)),
        7 => random.below(third.saturating_add(1)),
        8 => random.below(1000),
        _ => 0,
    };
    Some((sample, time))
}

pub fn windowed_filter() -> List {
    let mut random = Random::new(9);
    let mut run = Windowed {
        list: List::new("windowed_filter.txt"),
        filter: [0; 8],
        last: 0,
        counts: BTreeMap::new(),
        tally: Tally::default(),
    };

    // The marked example, both ways, the worked runs, and times that fall.
    for (time, reason) in [(2, reason::UNCHANGED), (3, reason::QUARTER_REFRESH)] {
        run.start(8);
        run.reset(5, 0);
        assert_eq!(run.update(5, time), reason, "the reason at {time}");
    }
    for worked in WORKED {
        run.worked(worked);
    }
    run.start(8);
    run.update(5, 0);
    run.update(1, 2);
    run.update(1, 1);

    // The ends of 64 bits.
    run.start(u64::MAX);
    run.update(u64::MAX, 0);
    run.update(u64::MAX, u64::MAX / 4);
    run.update(u64::MAX, u64::MAX / 4 + 1);
    run.update(0, u64::MAX);
    run.update(u64::MAX, u64::MAX);
    run.reset(0, 0);
    run.update(0, u64::MAX);
    run.clear();
    run.update(0, u64::MAX);

    for (window, steps) in [
        (0, 50),
        (1, 70),
        (2, 85),
        (3, 110),
        (4, 100),
        (7, 140),
        (8, 150),
        (100, 170),
        (1 << 62, 100),
    ] {
        let mut seen: BTreeMap<Vec<&str>, u64> = BTreeMap::new();
        run.start(window);
        for _ in 0..steps {
            if !run.is_full() {
                let sample = 500 + random.below(500);
                let time = run.last.saturating_add(random.below(10));
                run.update(sample, time);
                continue;
            }
            if random.one_in(40) {
                run.clear();
                continue;
            }
            if random.one_in(30) || run.last >= 3 << 62 {
                // Of any sample and time, an earlier one too.
                run.reset(100 + random.below(900), random.below(1000));
                continue;
            }

            if random.one_in(2) {
                let rare = filter_steps::rare(&mut random, &run.filter);
                if let Some((sample, time)) = rare {
                    run.update(sample, time);
                    continue;
                }
            }

            // Of some attempts, the one whose way as a whole was gone least
            // often, the one with the rarest single mark or, in half of the
            // cases, the one whose steps acted least often.
            let mut chosen: Option<(u64, Vec<&str>, u64, u64)> = None;
            let manner = random.below(4);
            for _ in 0..40 {
                let Some((sample, time)) = attempt(&run, &mut random) else {
                    continue;
                };
                let foreseen = run.foresee(sample, time);
                let count = |mark| run.counts.get(mark).copied().unwrap_or(0);
                let often = match manner {
                    0 => seen.get(&foreseen.marks).copied().unwrap_or(0),
                    1 => foreseen.marks.iter().map(count).min().unwrap(),
                    _ => run.tally.acted(&foreseen),
                };
                if chosen.as_ref().is_none_or(|(least, ..)| often < *least) {
                    chosen = Some((often, foreseen.marks, sample, time));
                }
            }
            let (_, marks, sample, time) = chosen.unwrap();
            *seen.entry(marks).or_default() += 1;
            run.update(sample, time);
        }
    }

    for worked in OLD_THIRD {
        run.worked(worked);
    }

    for (mark, count) in &run.counts {
        eprintln!("windowed_filter: {count:4} x {mark}");
    }
    for (what, count) in run.tally.told() {
        eprintln!("windowed_filter: {count:4} x {what}");
    }
    run.tally.demand(LEAST_REASONS, LEAST_PAIRS);
    run.list
}

pub fn max_bandwidth_filter() -> List {
    fn add(list: &mut List, filter: &MaxBandwidth, op: u64, x: u64) {
        let [first, second] = filter.slots();
        list.add(&[op, x, first, second, filter.get()]);
    }

    let mut random = Random::new(10);
    let mut list = List::new("max_bandwidth_filter.txt");

    // The marked example, then the ends.
    const FRESH: (u64, u64) = (0, 0);
    const ADVANCE: (u64, u64) = (2, 0);
    let marked = [
        FRESH,
        ADVANCE,
        ADVANCE,
        (1, 9),
        ADVANCE,
        ADVANCE,
        (1, 4),
        ADVANCE,
        ADVANCE,
        FRESH,
        (1, 0),
        ADVANCE,
        (1, 1),
        (1, 0),
        ADVANCE,
        (1, 0),
        ADVANCE,
        (1, u64::MAX),
        ADVANCE,
        (1, u64::MAX - 1),
        (1, 1 << 40),
        ADVANCE,
        (1, 7),
        (1, 7),
        (1, 6),
        (1, 8),
        ADVANCE,
        (1, 8),
        ADVANCE,
    ];
    let mut filter = MaxBandwidth::fresh();
    for (op, x) in marked {
        match op {
            0 => filter = MaxBandwidth::fresh(),
            1 => filter.update(x),
            _ => filter.advance(),
        }
        add(&mut list, &filter, op, x);
    }

    for run in 0..12 {
        let length = if run < 8 { 40 } else { 64 };
        filter = MaxBandwidth::fresh();
        add(&mut list, &filter, 0, 0);
        for _ in 0..32 {
            if random.one_in(4) {
                filter.advance();
                add(&mut list, &filter, 2, 0);
                continue;
            }
            let near = random.pick(&filter.slots());
            let x = match random.below(6) {
                0 => near,
                1 => near.saturating_add(1),
                2 => near.saturating_sub(1),
                3 => random.pick(&[0, 1, 1 << 40]),
                _ => random.of_length(length),
            };
            filter.update(x);
            add(&mut list, &filter, 1, x);
        }
    }
    list
}

pub fn min_rtt_filter() -> List {
    fn add(list: &mut List, filter: &MinRtt, op: u64, rtt: u64, time: u64) {
        list.add(&[op, rtt, time, filter.get(), filter.timestamp()]);
    }

    let mut random = Random::new(11);
    let mut list = List::new("min_rtt_filter.txt");

    for run in 0..14 {
        let (rtt, mut time) = match run {
            0 => (0, 0),
            1 => (1, 0),
            2 => (1 << 36, 1 << 61),
            3 => (u64::MAX, 0),
            4 => (333_000_000, 1_000_000_000),
            _ => (random.of_length(36), random.of_length(60)),
        };
        let mut filter = MinRtt::new(rtt, time);
        add(&mut list, &filter, 0, rtt, time);
        for _ in 0..28 {
            time = match random.below(16) {
                0 | 1 => time,
                2 | 3 => time + 1,
                // The filter takes an earlier moment.
                4 | 5 => time - time.min(random.of_length(20)),
                6 => random.of_length(61),
                7 if random.one_in(3) => 1 << 62,
                _ => time + random.of_length(34),
            };
            time = time.min(1 << 62);
            let least = filter.get();
            let rtt = match random.below(10) {
                0 | 1 => least,
                2 | 3 => least.saturating_sub(1),
                4 => least.saturating_add(1),
                5 => least - least.min(random.of_length(30)),
                6 => 1 << 36,
                7 => random.pick(&[0, 1, u64::MAX]),
                _ => random.of_length(36),
            };
            // A minimum of 0 leaves only force_update something to do.
            let force = if least == 0 { 2 } else { 5 };
            if random.one_in(force) {
                filter.force_update(rtt, time);
                add(&mut list, &filter, 2, rtt, time);
            } else {
                filter.update(rtt, time);
                add(&mut list, &filter, 1, rtt, time);
            }
        }
    }
    list
}

pub fn round_trip_counter() -> List {
    struct Run {
        list: List,
        rounds: Rounds,
    }

    impl Run {
        fn add(&mut self, op: u64, numbers: &[u64], ended: bool) {
            let length = if op == 2 { numbers.len() } else { 0 };
            let mut line = vec![op, length as u64, 0, 0, 0, ended as u64];
            line[2..2 + numbers.len()].copy_from_slice(numbers);
            let rounds = &self.rounds;
            let end = rounds.end();
            line.extend([rounds.count(), rounds.last_sent()]);
            line.extend([end.is_some() as u64, end.unwrap_or(0)]);
            self.list.add(&line);
        }

        fn fresh(&mut self) {
            self.rounds = Rounds::fresh();
            self.add(0, &[], false);
        }

        fn sent(&mut self, number: u64) {
            self.rounds.on_packet_sent(number);
            self.add(1, &[number], false);
        }

        /// Whether the event ended a round.
        fn acked(&mut self, numbers: &[u64]) -> bool {
            let ended = self.rounds.acked(numbers);
            self.add(2, numbers, ended);
            ended
        }

        fn restart(&mut self) {
            self.rounds.restart_round();
            self.add(3, &[], false);
        }

        /// A round that ends with packet 5, while packet 7 is the last sent.
        fn at_five(&mut self) {
            self.fresh();
            self.sent(5);
            self.acked(&[3]);
            self.sent(7);
        }
    }

    let mut random = Random::new(12);
    let mut run = Run {
        list: List::new("round_trip_counter.txt"),
        rounds: Rounds::fresh(),
    };

    // No end set: any number ends the round, an empty slice never.
    run.fresh();
    run.acked(&[]);
    run.acked(&[0]);
    run.acked(&[0]);
    run.acked(&[1]);
    // At the end, past it, and the greatest of the slice, not the last.
    run.at_five();
    run.acked(&[5]);
    run.acked(&[6, 5]);
    run.acked(&[4, 6]);
    run.acked(&[]);
    run.acked(&[9, 8, 7]);
    run.acked(&[1, 2, 8]);
    // A restart, before a send and after it.
    run.fresh();
    run.restart();
    run.acked(&[0]);
    run.acked(&[1]);
    run.sent(9);
    run.restart();
    run.acked(&[9]);
    run.acked(&[10]);
    // The ends of 64 bits.
    run.fresh();
    run.sent(u64::MAX);
    run.acked(&[u64::MAX]);
    run.acked(&[u64::MAX]);
    run.sent(u64::MAX - 1);
    run.restart();
    run.acked(&[u64::MAX - 1]);
    run.acked(&[0, 0, u64::MAX]);
    run.sent(0);
    run.acked(&[u64::MAX]);
    run.acked(&[u64::MAX, 0]);
    // No end set, and the greatest anywhere.
    for acked in [&[u64::MAX, 0], &[0, u64::MAX], &[0, 0]] {
        run.fresh();
        run.acked(&[]);
        run.acked(acked);
    }
    // Packets out of order, at the end 5.
    for (acked, ends) in OUT_OF_ORDER {
        run.at_five();
        assert_eq!(run.acked(acked), ends, "{acked:?} at the end 5");
    }
    // All lists of up to three numbers below, at and past the end, in every
    // order.
    run.at_five();
    for length in 0..=3 {
        for which in 0..3usize.pow(length) {
            let end = run.rounds.end().unwrap();
            let number = |place| end - 1 + (which / 3usize.pow(place) % 3) as u64;
            let acked: Vec<u64> = (0..length).map(number).collect();
            run.acked(&acked);
            // The next end is one at which a number can be past it.
            if run.rounds.end() == Some(run.rounds.last_sent()) {
                run.sent(run.rounds.last_sent() + 2);
            }
        }
    }
    // None is past the last number, and one is past the last but one.
    run.fresh();
    run.sent(u64::MAX - 1);
    run.acked(&[0]);
    run.sent(u64::MAX);
    run.acked(&[u64::MAX - 1, 0, u64::MAX - 1]);
    run.acked(&[u64::MAX, 0]);
    run.acked(&[u64::MAX, 0]);
    run.acked(&[0, u64::MAX, 0]);

    for turn in 0..12 {
        // Most runs count up; the last ones send and ack any numbers.
        let ordered = turn < 9;
        let mut next = if turn % 3 == 2 {
            random.of_length(63)
        } else {
            0
        };
        run.fresh();
        for _ in 0..38 {
            let end = run.rounds.end().unwrap_or(0);
            match random.below(20) {
                0..=7 => {
                    next = if ordered {
                        next + 1 + random.below(3)
                    } else {
                        random.of_length(64)
                    };
                    run.sent(next);
                }
                8 => run.restart(),
                9 => {
                    run.acked(&[]);
                }
                _ => {
                    let mut numbers = Vec::new();
                    for _ in 0..1 + random.below(3) {
                        numbers.push(match random.below(6) {
                            0 | 1 => end,
                            2 => end.saturating_add(1),
                            3 => end.saturating_sub(1),
                            4 => run.rounds.last_sent(),
                            _ if ordered => random.below(next.max(1)),
                            _ => random.of_length(64),
                        });
                    }
                    run.acked(&numbers);
                }
            }
        }
    }
    run.list
}
