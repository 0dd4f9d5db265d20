//! The round-trip estimator: what it answers, by hand and by the rules as they are written; its bounds; what is
//! refused, and that nothing changes then; many calls in a run.
//!
//! The numbers of calls, places of words, sizes and texts in this file are written by hand, and not taken from
//! the table that the package is written with: a wrong table is noticed here.

use std::time;

use guovssalu::rtt_run;
use guovssalu::table::place;
use guovssalu::Duration;
use guovssalu::Fault;
use guovssalu::FaultKind;
use guovssalu::Refusal;
use guovssalu::RttAnswer;
use guovssalu::RttCall;
use guovssalu::RttStats;

/// The longest length that a call takes.
const MOST: u64 = 1 << 36;

/// What the answer's minimum is before the first sample.
const UNSET: u64 = u64::MAX;

fn length(nanos: u64) -> Duration {
    Duration::from_nanos(nanos)
}

fn fresh(initial_rtt: u64, max_ack_delay: u64) -> RttStats {
    RttStats::new(length(initial_rtt), length(max_ack_delay)).unwrap()
}

/// A sample, its delay, and whether the handshake is confirmed.
type Trip = (u64, u64, bool);

/// A fresh estimator with this limit of delays, after these samples.
fn after(max_ack_delay: u64, trips: &[Trip]) -> RttStats {
    let mut stats = fresh(333_000_000, max_ack_delay);
    for (latest_rtt, ack_delay, confirmed) in trips {
        let (latest_rtt, ack_delay) = (length(*latest_rtt), length(*ack_delay));
        stats.update_rtt(latest_rtt, ack_delay, *confirmed).unwrap();
    }
    stats
}

/// The latest, the smallest, the smoothed and the variation.
fn shown(stats: &RttStats) -> [u64; 4] {
    let smallest = stats.min_rtt().unwrap();
    [
        stats.latest_rtt().unwrap().as_nanos(),
        smallest.map_or(UNSET, Duration::as_nanos),
        stats.rtt().unwrap().as_nanos(),
        stats.rttvar().unwrap().as_nanos(),
    ]
}

fn bytes(words: &[u64]) -> Vec<u8> {
    words.iter().flat_map(|word| word.to_le_bytes()).collect()
}

fn words(bytes: &[u8]) -> Vec<u64> {
    let word = |bytes: &[u8]| u64::from_le_bytes(bytes.try_into().unwrap());
    bytes.chunks_exact(8).map(word).collect()
}

// ---- what it answers

#[test]
fn a_fresh_one() {
    let stats = fresh(333_000_001, 25);
    assert_eq!(shown(&stats), [0, UNSET, 333_000_001, 166_500_000]);
    assert_eq!(stats.min_rtt(), Ok(None));
    assert!(!stats.has_first_rtt_sample());
    assert_eq!(stats.max_ack_delay(), length(25));
    let state = [0, 333_000_001, 333_000_001, 166_500_000, 25, 0];
    assert_eq!(words(stats.as_bytes()), state);
    assert_eq!(shown(&fresh(0, 0)), [0, UNSET, 0, 0]);
    assert_eq!(shown(&fresh(MOST, MOST)), [0, UNSET, MOST, MOST / 2]);
}

/// Delay and flag don't count, whatever the initial round trip and the limit were.
#[test]
fn the_first_sample_is_taken_whole() {
    for limit in [0, 25, MOST] {
        for (delay, confirmed) in [(0, false), (40, false), (40, true), (MOST, true)] {
            let stats = after(limit, &[(101, delay, confirmed)]);
            assert_eq!(shown(&stats), [101, 101, 101, 50]);
            assert!(stats.has_first_rtt_sample());
            assert_eq!(words(stats.as_bytes()), [101, 101, 101, 50, limit, 1]);
        }
    }
}

/// Worked out by hand from the rules.
#[test]
fn samples_by_hand() {
    let cases: [(u64, &[Trip], [u64; 4]); 14] = [
        // 85,000,000 is what is left of the second.
        (
            25_000_000,
            &[(80_000_001, 0, true), (90_000_000, 5_000_000, true)],
            [90_000_000, 80_000_001, 80_625_000, 31_249_999],
        ),
        // The variation moves before the average: 37 + 25, and not 37 + 22.
        (0, &[(100, 0, true), (200, 0, true)], [200, 100, 112, 62]),
        // Each of two parts is rounded down: 0 + 0, and neither 14/8 nor 1 - 0 + 0.
        (0, &[(1, 0, true), (7, 0, true)], [7, 1, 0, 1]),
        // The smallest and the delay are the sample: the delay is taken off.
        (20, &[(60, 0, true), (80, 20, true)], [80, 60, 59, 22]),
        // One less, and it isn't.
        (20, &[(60, 0, true), (79, 20, true)], [79, 60, 61, 26]),
        // The limit counts where the handshake is confirmed.
        (0, &[(60, 0, true), (80, 20, true)], [80, 60, 62, 27]),
        (0, &[(60, 0, true), (80, 20, false)], [80, 60, 59, 22]),
        // At the limit, and past it.
        (20, &[(60, 0, true), (90, 20, true)], [90, 60, 60, 24]),
        (20, &[(60, 0, true), (90, 25, true)], [90, 60, 60, 24]),
        (20, &[(60, 0, true), (90, 25, false)], [90, 60, 60, 23]),
        (20, &[(60, 0, true), (90, 30, false)], [90, 60, 59, 22]),
        // A sample below all others is the smallest, and nothing is taken off it.
        (25, &[(60, 0, true), (40, 20, true)], [40, 40, 57, 27]),
        // The longest, and none.
        (
            MOST,
            &[(MOST, 0, true), (MOST, MOST, false)],
            [MOST, MOST, MOST, 3 << 33],
        ),
        (0, &[(0, 0, false), (0, MOST, true)], [0, 0, 0, 0]),
    ];
    for (limit, trips, due) in cases {
        assert_eq!(shown(&after(limit, trips)), due, "{:?}", trips);
    }
}

/// It is the least of all samples, also long after; the initial round trip is none.
#[test]
fn the_smallest_of_all_samples() {
    let mut stats = fresh(5, 0);
    let mut least = u64::MAX;
    for nanos in [900, 800, 850, 300, 301, 300, 299, 5_000] {
        least = least.min(nanos);
        stats.update_rtt(length(nanos), length(0), true).unwrap();
        assert_eq!(stats.min_rtt(), Ok(Some(length(least))));
        assert_eq!(stats.latest_rtt(), Ok(length(nanos)));
    }
    for _ in 0..10_000 {
        stats.update_rtt(length(5_000), length(0), true).unwrap();
    }
    assert_eq!(stats.min_rtt(), Ok(Some(length(299))));
}

#[test]
fn the_largest_delay_is_set() {
    for trips in [&[][..], &[(100, 0, true), (120, 5, true)]] {
        let mut stats = after(7, trips);
        let before = words(stats.as_bytes());
        assert_eq!(stats.update_max_ack_delay(length(MOST)), Ok(()));
        let mut due = before.clone();
        due[4] = MOST;
        assert_eq!(words(stats.as_bytes()), due);
        assert_eq!(stats.max_ack_delay(), length(MOST));
    }
}

// ---- many calls

/// The estimator in whole numbers, by the rules as they are written: RFC 9002, A.7, with each part rounded
/// down.
#[derive(Clone, Copy, Default)]
struct Rules {
    latest: u64,
    smallest: u64,
    smoothed: u64,
    variation: u64,
    limit: u64,
    sampled: bool,
}

impl Rules {
    fn new(initial: u64, limit: u64) -> Self {
        Rules {
            smallest: initial,
            smoothed: initial,
            variation: initial / 2,
            limit,
            ..Rules::default()
        }
    }

    fn update(&mut self, (sample, delay, confirmed): Trip) {
        self.latest = sample;
        if !self.sampled {
            let limit = self.limit;
            *self = Rules {
                latest: sample,
                sampled: true,
                ..Rules::new(sample, limit)
            };
            return;
        }
        self.smallest = self.smallest.min(sample);
        let most = if confirmed { self.limit } else { delay };
        let mut adjusted = sample;
        if sample >= self.smallest + delay.min(most) {
            adjusted -= delay.min(most);
        }
        let off = self.smoothed.max(adjusted) - self.smoothed.min(adjusted);
        self.variation = self.variation * 3 / 4 + off / 4;
        self.smoothed = self.smoothed * 7 / 8 + adjusted / 8;
    }

    fn shown(&self) -> [u64; 4] {
        let smallest = if self.sampled { self.smallest } else { UNSET };
        [self.latest, smallest, self.smoothed, self.variation]
    }
}

/// Numbers from a seed, by splitmix64.
struct Random(u64);

impl Random {
    fn next(&mut self) -> u64 {
        self.0 = self.0.wrapping_add(0x9e37_79b9_7f4a_7c15);
        let z = (self.0 ^ (self.0 >> 30)).wrapping_mul(0xbf58_476d_1ce4_e5b9);
        let z = (z ^ (z >> 27)).wrapping_mul(0x94d0_49bb_1331_11eb);
        z ^ (z >> 31)
    }

    /// A length of so many bits at most, now and then the longest or none.
    fn length(&mut self, bits: u64) -> u64 {
        match self.next() % 16 {
            0 => 0,
            1 => MOST,
            _ => self.next() % (1 << (1 + self.next() % bits)),
        }
    }
}

/// A step of the estimator: a fresh one, a sample or a limit.
#[derive(Clone, Copy, Debug)]
enum Step {
    New(u64, u64),
    Update(Trip),
    Limit(u64),
}

impl Step {
    /// Most are samples, many of which are the smallest and the delay, or one off it.
    fn any(random: &mut Random, rules: &Rules) -> Self {
        match random.next() % 64 {
            0 => Step::New(random.length(36), random.length(36)),
            1..=3 => Step::Limit(random.length(30)),
            choice => {
                let bits = [8, 28, 36][(choice % 3) as usize];
                let (mut sample, delay) = (random.length(bits), random.length(bits));
                let confirmed = random.next() % 2 == 0;
                if choice % 4 == 0 {
                    let near = (rules.smallest + delay + random.next() % 3).saturating_sub(1);
                    sample = near.min(MOST);
                }
                Step::Update((sample, delay, confirmed))
            }
        }
    }

    fn by_rules(self, rules: &mut Rules) {
        match self {
            Step::New(initial, limit) => *rules = Rules::new(initial, limit),
            Step::Update(trip) => rules.update(trip),
            Step::Limit(limit) => rules.limit = limit,
        }
    }

    fn by_methods(self, stats: &mut RttStats) -> Result<(), Refusal> {
        match self {
            Step::New(initial, limit) => *stats = RttStats::new(length(initial), length(limit))?,
            Step::Update((sample, delay, confirmed)) => {
                stats.update_rtt(length(sample), length(delay), confirmed)?
            }
            Step::Limit(limit) => stats.update_max_ack_delay(length(limit))?,
        }
        Ok(())
    }

    fn call(self) -> RttCall {
        match self {
            Step::New(initial, limit) => RttCall::new(length(initial), length(limit)),
            Step::Update((sample, delay, confirmed)) => {
                RttCall::update_rtt(length(sample), length(delay), confirmed)
            }
            Step::Limit(limit) => RttCall::update_max_ack_delay(length(limit)),
        }
    }
}

/// Random steps, by the methods one by one and by a run: after each it is what the rules make of it.
#[test]
fn a_run_is_its_calls_one_by_one() {
    for seed in 0..40 {
        let mut random = Random(seed);
        let mut rules = Rules::new(100_000_000, 0);
        let mut single = fresh(100_000_000, 0);
        let mut together = single.clone();
        let (mut calls, mut due) = (Vec::new(), Vec::new());
        for _ in 0..1 + random.next() % 500 {
            let step = Step::any(&mut random, &rules);
            step.by_rules(&mut rules);
            assert_eq!(step.by_methods(&mut single), Ok(()), "{:?}", step);
            assert_eq!(shown(&single), rules.shown(), "{:?}", step);
            calls.extend(step.call().as_bytes());
            due.push(rules.shown());
        }
        let mut answers = vec![0; 40 * due.len()];
        assert_eq!(together.run(&calls, &mut answers), Ok(()));
        assert_eq!(together, single);
        for (answer, due) in answers.chunks_exact(40).zip(due) {
            assert_eq!(words(answer), [&[0][..], &due].concat());
            let answer = RttAnswer::from_bytes(answer.try_into().unwrap());
            assert_eq!(answer.done(), Ok(()));
            assert_eq!(answer.latest_rtt(), Ok(length(due[0])));
            let smallest = Some(due[1]).filter(|smallest| *smallest != UNSET);
            assert_eq!(answer.min_rtt(), Ok(smallest.map(length)));
            assert_eq!(answer.rtt(), Ok(length(due[2])));
            assert_eq!(answer.rttvar(), Ok(length(due[3])));
        }
        // In two parts it is the same.
        let mut parted = fresh(100_000_000, 0);
        let (first, second) = calls.split_at(calls.len() / 64 * 32);
        let mut state = *parted.as_bytes();
        assert_eq!(rtt_run(&mut state, first, &mut answers), Ok(()));
        parted = RttStats::from_bytes(&state).unwrap();
        assert_eq!(parted.run(second, &mut answers), Ok(()));
        assert_eq!(parted, single);
    }
}

/// The words of each call.
#[test]
fn the_words_of_calls() {
    let update = RttCall::update_rtt(length(11), length(12), true);
    let unconfirmed = RttCall::update_rtt(length(MOST), length(UNSET), false);
    for (call, due) in [
        (RttCall::new(length(9), length(8)), [0, 9, 8, 0]),
        (update, [1, 11, 12, 1]),
        (unconfirmed, [1, MOST, UNSET, 0]),
        (RttCall::update_max_ack_delay(length(7)), [2, 7, 0, 0]),
    ] {
        assert_eq!(words(call.as_bytes()), due);
    }
    assert_eq!(
        (RttStats::BYTES, RttCall::BYTES, RttAnswer::BYTES),
        (48, 32, 40)
    );
}

// ---- what is refused

/// The refusal of a length at a place.
fn too_long(place: u8) -> Refusal {
    Refusal::BadArgument(Fault::new(FaultKind::Length, place))
}

/// What a call with a length replies.
type Method = fn(&mut RttStats, u64) -> Result<(), Refusal>;

/// The calls with a length: the text of its refusal.
const LENGTHS: [(&str, Method); 5] = [
    (
        "2.4 at 1: initial_rtt is longer than 2^36 ns",
        |stats, nanos| {
            *stats = RttStats::new(length(nanos), length(0))?;
            Ok(())
        },
    ),
    (
        "2.4 at 2: max_ack_delay is longer than 2^36 ns",
        |stats, nanos| {
            *stats = RttStats::new(length(0), length(nanos))?;
            Ok(())
        },
    ),
    (
        "2.4 at 1: latest_rtt is longer than 2^36 ns",
        |stats, nanos| stats.update_rtt(length(nanos), length(0), true),
    ),
    (
        "2.4 at 2: ack_delay is longer than 2^36 ns",
        |stats, nanos| stats.update_rtt(length(0), length(nanos), true),
    ),
    (
        "2.4 at 1: max_ack_delay is longer than 2^36 ns",
        |stats, nanos| stats.update_max_ack_delay(length(nanos)),
    ),
];

/// Each length at its bound and past it, before the first sample and after: a refused call leaves every byte.
#[test]
fn lengths_at_their_bound() {
    for before in [fresh(100, 7), after(7, &[(90, 0, true), (80, 3, true)])] {
        for (text, call) in LENGTHS {
            for nanos in [0, MOST - 1, MOST] {
                assert_eq!(call(&mut before.clone(), nanos), Ok(()), "{}", text);
            }
            let longest = Duration::from_secs(u64::MAX).as_nanos();
            for nanos in [MOST + 1, MOST + 8, 1 << 37, 1 << 63, longest] {
                let mut stats = before.clone();
                let refusal = call(&mut stats, nanos).expect_err(text);
                assert_eq!(refusal.to_string(), text);
                assert_eq!((refusal.number(), refusal.code()), (2, "2.4"));
                let place = text["2.4 at ".len()..][..1].parse().unwrap();
                assert_eq!(refusal, too_long(place));
                assert_eq!(refusal.reply(), 2 + 256 * 4 + 65_536 * u64::from(place));
                match refusal {
                    Refusal::BadArgument(fault) => {
                        let named = fault.argument().unwrap();
                        assert!(text.contains(&format!(": {} is", named)), "{}", named);
                    }
                    _ => unreachable!(),
                }
                assert_eq!(stats.as_bytes(), before.as_bytes(), "{}", text);
            }
        }
    }
    // The system's longest is none of the package's.
    assert!(Duration::try_from(time::Duration::MAX).is_err());
}

/// Of two the first is named; both are looked at before the first sample, too.
#[test]
fn the_first_argument_is_named() {
    let long = length(MOST + 1);
    let new = RttStats::new(long, long).unwrap_err();
    assert_eq!(
        new.to_string(),
        "2.4 at 1: initial_rtt is longer than 2^36 ns"
    );
    for mut stats in [fresh(0, 0), after(0, &[(5, 0, true)])] {
        let before = stats.clone();
        for confirmed in [false, true] {
            assert_eq!(stats.update_rtt(long, long, confirmed), Err(too_long(1)));
            let late = stats.update_rtt(length(1), long, confirmed);
            assert_eq!(late, Err(too_long(2)));
        }
        assert_eq!(stats, before);
    }
}

/// What a refused call leaves isn't counted by those after it.
#[test]
fn refused_samples_do_not_count() {
    let long = length(MOST + 1);
    let mut stats = fresh(100, 0);
    assert!(stats.update_rtt(long, length(0), true).is_err());
    assert!(stats.update_rtt(length(1), long, true).is_err());
    assert_eq!(shown(&stats), [0, UNSET, 100, 50]);
    stats.update_rtt(length(60), length(0), true).unwrap();
    assert!(stats.update_rtt(length(1), long, true).is_err());
    assert!(stats.update_max_ack_delay(long).is_err());
    stats.update_rtt(length(80), length(20), true).unwrap();
    assert_eq!(shown(&stats), [80, 60, 62, 27]);
}

// ---- bytes that were kept

/// The words of an estimator: after 60, and 79 with a delay of 20.
const STATE: [u64; 6] = [79, 60, 61, 26, 20, 1];

#[test]
fn kept_bytes_go_on() {
    let stats = after(20, &[(60, 0, true), (79, 20, true)]);
    let mut kept = RttStats::from_bytes(stats.as_bytes()).unwrap();
    assert_eq!(kept, stats);
    assert_eq!(words(kept.as_bytes()), STATE);
    // By hand: 61 is left of the sample; 19 + 0, and 53 + 7.
    kept.update_rtt(length(70), length(9), true).unwrap();
    assert_eq!(shown(&kept), [70, 60, 60, 19]);
    assert_eq!(stats.latest_rtt(), Ok(length(79)));
}

#[test]
fn bytes_of_another_length_are_refused() {
    let long = vec![0; 408];
    for count in [0, 1, 8, 40, 47, 49, 56, 280, 408] {
        let refusal = RttStats::from_bytes(&long[..count]).unwrap_err();
        assert_eq!(
            refusal.to_string(),
            "2.8 at 1: bytes has a wrong length",
            "{} bytes",
            count
        );
    }
    assert_eq!(RttStats::from_bytes(&long[..48]), Ok(fresh(0, 0)));
}

#[test]
fn what_encodes_no_state_is_refused() {
    for flag in [2, 3, 255, 256, 1 << 32, (1 << 63) + 1, u64::MAX] {
        let kept = bytes(&[90, 60, 61, 26, 20, flag]);
        assert_eq!(RttStats::from_bytes(&kept), Err(Refusal::OutOfBounds));
    }
}

/// A stored length at its bound is taken, and past it too, but then no call takes the estimator: 1, before the
/// arguments are looked at. Nothing changes.
#[test]
fn a_stored_length_past_its_bound() {
    for sampled in [0, 1] {
        for at in 0..5 {
            let mut state = [90, 60, 61, 26, 20, sampled];
            state[at] = MOST;
            let mut stats = RttStats::from_bytes(&bytes(&state)).unwrap();
            assert!(stats.rtt().is_ok() && stats.min_rtt().is_ok());
            assert!(stats.latest_rtt().is_ok() && stats.rttvar().is_ok());
            assert_eq!(stats.update_rtt(length(5), length(0), true), Ok(()));

            for nanos in [MOST + 1, 1 << 63, u64::MAX] {
                state[at] = nanos;
                let mut stats = RttStats::from_bytes(&bytes(&state)).unwrap();
                let out = Refusal::OutOfBounds;
                assert_eq!(stats.rtt(), Err(out));
                assert_eq!(stats.latest_rtt(), Err(out));
                assert_eq!(stats.rttvar(), Err(out));
                assert_eq!(stats.min_rtt(), Err(out));
                for argument in [0, MOST, MOST + 1] {
                    let argument = length(argument);
                    assert_eq!(stats.update_rtt(argument, argument, true), Err(out));
                    assert_eq!(stats.update_max_ack_delay(argument), Err(out));
                }
                assert_eq!(words(stats.as_bytes()), state);
                assert_eq!(stats.has_first_rtt_sample(), sampled == 1);
                assert_eq!(stats.max_ack_delay(), length(state[4]));
            }
        }
    }
}

// ---- calls as bytes

/// The words of a call's answer, and of the state that it leaves of these.
fn answered(state: &[u64], call: &[u64]) -> (Vec<u64>, Vec<u64>) {
    let (mut state, mut answer) = (bytes(state), [0x77; 40]);
    assert_eq!(rtt_run(&mut state, &bytes(call), &mut answer), Ok(()));
    (words(&answer), words(&state))
}

/// The reply of a kind at a place.
fn fault(kind: u64, place: u64) -> u64 {
    2 + 256 * kind + 65_536 * place
}

/// A flag of another word than 0 and 1, a number that is no call's, and what comes before them. Only in calls
/// that this package didn't write.
#[test]
fn malformed_calls() {
    let out = [79, 60, MOST + 1, 26, 20, 1];
    for word in [2, 3, 256, 257, 1 << 32, (1 << 32) + 1, u64::MAX] {
        for (state, call, due) in [
            (STATE, [1, 70, 9, word], fault(8, 3)),
            (STATE, [1, 70, MOST + 1, word], fault(4, 2)),
            (STATE, [1, MOST + 1, 9, word], fault(4, 1)),
            (STATE, [word | 3, 70, 9, word], fault(8, 0)),
            (out, [1, 70, 9, word], 1),
            (out, [word | 3, 70, 9, 1], 1),
            ([0; 6], [1, 70, 9, word], fault(8, 3)),
        ] {
            let (answer, left) = answered(&state, &call);
            assert_eq!(answer, [due, 0, 0, 0, 0], "{:?}", call);
            assert_eq!(left, state, "{:?}", call);
        }
    }
    // Words that a call doesn't name count for nothing.
    for word in [0, 2, MOST + 1, u64::MAX] {
        let (answer, left) = answered(&STATE, &[2, 5, word, word]);
        assert_eq!(answer, [0, 79, 60, 61, 26]);
        assert_eq!(left, [79, 60, 61, 26, 5, 1]);
        let (answer, left) = answered(&out, &[0, 7, 8, word]);
        assert_eq!(answer, [0, 0, UNSET, 7, 3]);
        assert_eq!(left, [0, 7, 7, 3, 8, 0]);
    }
}

/// A refused new leaves an estimator of 0 and 0, in a state out of bounds, too, and the run goes on.
#[test]
fn a_refused_new_in_a_run() {
    for state in [STATE, [0; 6], [u64::MAX, 0, 0, 0, 0, 1]] {
        for (call, due) in [
            ([0, MOST + 1, 0, 0], fault(4, 1)),
            ([0, MOST, MOST + 1, 0], fault(4, 2)),
            ([0, u64::MAX, u64::MAX, u64::MAX], fault(4, 1)),
        ] {
            let (answer, left) = answered(&state, &call);
            assert_eq!(answer, [due, 0, 0, 0, 0]);
            assert_eq!(left, [0; 6]);
        }
    }
    let mut stats = after(25, &[(60, 0, true)]);
    let mut calls = Vec::new();
    calls.extend(RttCall::new(length(MOST + 1), length(0)).as_bytes());
    calls.extend(RttCall::update_rtt(length(40), length(20), true).as_bytes());
    let mut answers = [0; 2 * RttAnswer::BYTES];
    assert_eq!(stats.run(&calls, &mut answers), Ok(()));
    assert_eq!(shown(&stats), [40, 40, 40, 20]);
    assert_eq!(stats.max_ack_delay(), length(0));
}

/// Refused calls between others: each says why, and the others are answered as they are without them.
#[test]
fn refused_calls_in_a_run() {
    let taken = [
        ([1, 60, 0, 0], [0, 60, 60, 60, 30]),
        ([2, 20, 0, 0], [0, 60, 60, 60, 30]),
        ([1, 80, 25, 1], [0, 80, 60, 59, 22]),
        ([2, 0, 0, 0], [0, 80, 60, 59, 22]),
        ([1, 80, 20, 1], [0, 80, 60, 61, 21]),
        ([1, 40, 0, 0], [0, 40, 40, 58, 20]),
    ];
    let refused = [
        ([1, MOST + 1, 0, 0], fault(4, 1)),
        ([1, 1, MOST + 1, 0], fault(4, 2)),
        ([1, 1, 0, 2], fault(8, 3)),
        ([2, MOST + 1, 0, 0], fault(4, 1)),
        ([3, 1, 1, 1], fault(8, 0)),
        ([u64::MAX, 1, 1, 1], fault(8, 0)),
    ];
    // Every one of them stands before every other call once.
    for turn in 0..refused.len() {
        let (mut calls, mut due) = (Vec::new(), Vec::new());
        for (at, (call, answer)) in taken.iter().enumerate() {
            let (wrong, why) = refused[(at + turn) % refused.len()];
            calls.extend(bytes(&wrong));
            due.extend([why, 0, 0, 0, 0]);
            calls.extend(bytes(call));
            due.extend(answer);
        }
        let mut stats = fresh(333, 5);
        let mut answers = vec![0x77; 8 * due.len()];
        assert_eq!(stats.run(&calls, &mut answers), Ok(()));
        assert_eq!(words(&answers), due);
        assert_eq!(words(stats.as_bytes()), [40, 40, 58, 20, 0, 1]);
    }
}

/// An answer doesn't know its call; with it, its argument is named. Every fault that a call can have.
#[test]
fn texts_of_answers() {
    const LONG: u64 = MOST + 1;
    const LENGTH: &str = "an argument is longer than 2^36 ns";
    let cases = [
        (
            [0, LONG, LONG, 0],
            ("2.4 at 1", LENGTH),
            "initial_rtt is longer than 2^36 ns",
        ),
        (
            [0, 1, LONG, 0],
            ("2.4 at 2", LENGTH),
            "max_ack_delay is longer than 2^36 ns",
        ),
        (
            [1, LONG, LONG, 2],
            ("2.4 at 1", LENGTH),
            "latest_rtt is longer than 2^36 ns",
        ),
        (
            [1, 1, LONG, 2],
            ("2.4 at 2", LENGTH),
            "ack_delay is longer than 2^36 ns",
        ),
        (
            [1, 1, 1, 2],
            ("2.8 at 3", "an argument is malformed"),
            "handshake_confirmed is neither 0 nor 1",
        ),
        (
            [2, LONG, LONG, 2],
            ("2.4 at 1", LENGTH),
            "max_ack_delay is longer than 2^36 ns",
        ),
        (
            [3, LONG, LONG, 2],
            ("2.8 at 0", "the number is no call's"),
            "the number is no call's",
        ),
    ];
    let arguments = place::RTT_CALLS.iter().copied().flatten();
    let listed: usize = arguments.map(|argument| argument.faults.len()).sum();
    assert_eq!(listed + 1, cases.len());
    for (call, (code, unnamed), named) in cases {
        let [unnamed, named] = [unnamed, named].map(|text| format!("{}: {}", code, text));
        let mut answer = [0; RttAnswer::BYTES];
        assert_eq!(fresh(5, 5).run(&bytes(&call), &mut answer), Ok(()));
        let answer = RttAnswer::from_bytes(&answer);
        let refusal = answer.done().unwrap_err();
        assert_eq!(refusal.to_string(), unnamed);
        assert_eq!(refusal.of_rtt_call(call[0]).to_string(), named);
        assert_eq!(refusal.of_rtt_call(call[0]), refusal);
        // Of no call, no argument.
        for number in [3, 255, 256, 257, 258, u64::MAX] {
            assert_eq!(refusal.of_rtt_call(number).to_string(), unnamed);
        }
        assert_eq!(answer.rtt(), Err(refusal));
        assert_eq!(answer.latest_rtt(), Err(refusal));
        assert_eq!(answer.rttvar(), Err(refusal));
        assert_eq!(answer.min_rtt(), Err(refusal));
    }
    // Another row has none.
    let refusal = Refusal::OutOfBounds;
    assert_eq!(refusal.of_rtt_call(1), refusal);
}
