//! Counts what runs of the estimator show: how the updates went, and the cases
//! without which an error could stay unseen, by document 02, request a.

use std::collections::BTreeMap;

use guovssalu_sys::table::place;
use guovssalu_sys::table::reply::OUT_OF_BOUNDS;
use guovssalu_sys::table::reply::SHORT_OUTPUT;
use guovssalu_sys::table::rtt_answer;
use guovssalu_sys::table::rtt_argument::new;
use guovssalu_sys::table::rtt_argument::update_max_ack_delay;
use guovssalu_sys::table::rtt_argument::update_rtt;
use guovssalu_sys::table::rtt_call;
use guovssalu_sys::table::rtt_state;
use guovssalu_sys::table::RTT_ANSWER_BYTES;
use guovssalu_sys::table::RTT_CALL_BYTES;
use guovssalu_sys::table::RTT_NUMBER_IN_CALL;
use guovssalu_sys::table::RTT_STATE_BYTES;
use guovssalu_sys::table::RTT_STATE_WORDS;

use crate::bounds::LENGTH;
use crate::estimator;
use crate::estimator::Call;
use crate::estimator::Estimator;
use crate::estimator::Lent;
use crate::estimator::Made;
use crate::estimator::Ran;
use crate::places::NO_CALL;
use crate::places::STATE_LENGTH;
use crate::replies;
use crate::wanted::Wanted;

/// What has to occur, each at least `LEAST` times in `MANY` runs, beside arguments
/// and stored lengths at their bounds: of runs, and of calls.
const RUNS: [&str; 18] = [
    "a run: done, without a call",
    "a run: done, and bytes of answers are left",
    "a run: 1, the flag is 2",
    "a run: 1, and the calls' length is wrong, too",
    "a run: 1, and the answers are too short, too",
    "a run: the state is a byte short",
    "a run: the state is a byte long",
    "a run: the state's length, and the flag is none, too",
    "a run: the state's length, and the calls' is wrong, too",
    "a run: the state's length, and the answers are too short, too",
    "a run: the calls are a byte short",
    "a run: the calls are a byte long",
    "a run: the calls' length, and the answers are too short, too",
    "a run: 7, a byte short",
    "a run: refused between two updates: new",
    "a run: refused between two updates: update_rtt",
    "a run: refused between two updates: update_max_ack_delay",
    "a run: refused between two updates: a number that is no call's",
];
const CALLS: [&str; 39] = [
    "1, and an argument is at fault, too",
    "1, and the number is no call's",
    "a number that is no call's",
    "new: done, after a sample",
    "new: done, though a stored length is out",
    "new: refused, after a sample",
    "new: refused, though a stored length is out",
    "new: done, and a word that it doesn't name is out",
    "new: both lengths are at fault",
    "update_rtt: the sample and the delay are at fault",
    "update_rtt: the sample and the flag are at fault",
    "update_rtt: the delay and the flag are at fault",
    "update_rtt: the delay is at fault, and the sample is another than the latest",
    "update_max_ack_delay: done, another limit",
    "update_max_ack_delay: done, before a sample",
    "update_max_ack_delay: done, and a word that it doesn't name is out",
    "update_max_ack_delay: refused",
    "first sample: above the initial round trip",
    "first sample: below the initial round trip",
    "first sample: with a delay that could be taken off",
    "first sample: with a delay above the limit, confirmed",
    "first sample: the delay is at fault",
    "first sample: the flag is at fault",
    "later sample: lower than the minimum",
    "later sample: is the minimum",
    "later sample: is the minimum and the delay",
    "later sample: is one above the minimum and the delay",
    "later sample: is one below the minimum and the delay",
    "later sample: adjusted",
    "later sample: not adjusted, though there is a delay",
    "later sample: the delay is the limit, confirmed",
    "later sample: the delay is one above the limit, confirmed",
    "later sample: the delay is one below the limit, confirmed",
    "later sample: the delay is one above the limit, not confirmed",
    "later sample: adjusted by the limit, and not by the delay",
    "later sample: adjusted by a delay above the limit, not confirmed",
    "later sample: adjusted, above the smoothed one",
    "later sample: adjusted, below the smoothed one",
    "later sample: adjusted, the smoothed one",
];
const LEAST: u64 = 3;
const MANY: u64 = 20_000;

/// How many updates come in a row, without a `new`, at least once among so many that
/// are done. Each pair of rests is met then, too.
const IN_A_ROW: u64 = 8_000;
const MANY_UPDATES: u64 = 100_000;

/// The arguments of each call, by their words in the order of their places: apart
/// from the reading, so that an error of it is seen.
pub const ARGUMENTS: [&[usize]; 3] = [
    &[new::INITIAL_RTT, new::MAX_ACK_DELAY],
    &[
        update_rtt::LATEST_RTT,
        update_rtt::ACK_DELAY,
        update_rtt::HANDSHAKE_CONFIRMED,
    ],
    &[update_max_ack_delay::MAX_ACK_DELAY],
];

/// The words of a state that are lengths: all but the last.
pub const STORED: [usize; 5] = [0, 1, 2, 3, 4];

/// The numbers at which an argument is counted: a length at its bounds and past
/// them, or a flag and what is none.
const LENGTHS: [u64; 6] = [0, 1, LENGTH - 1, LENGTH, LENGTH + 1, u64::MAX];
const FLAGS: [u64; 3] = [0, 1, 2];

#[derive(Default)]
struct Updates {
    accepted: u64,
    first: u64,
    adjusted: u64,
    limited: u64,
}

pub struct RttCounts {
    of_runs: Wanted,
    of_calls: Wanted,
    /// Arguments and stored lengths at their bounds.
    bounds: Wanted,
    updates: Updates,
    /// How often the smoothed round trip before an update had this rest by 8, and
    /// the adjusted sample that; and by 4 the variation before it, and the distance
    /// of the two.
    by_8: Rests<8>,
    by_4: Rests<4>,
    runs: u64,
    /// The estimator that the last run left; how many updates were accepted since its
    /// `new`, or since its state was restored, and the most of those.
    left: Vec<u64>,
    since: u64,
    longest: u64,
}

/// How often each pair of rests by N occurs.
struct Rests<const N: usize>([[u64; N]; N]);

/// A later sample, as the update takes it.
struct Sample {
    /// The minimum with this sample in it.
    minimum: u64,
    /// The delay as far as it counts.
    delay: u64,
    adjusted: u64,
}

impl RttCounts {
    pub fn new() -> Self {
        let arguments = rtt_call::ALL.into_iter().flat_map(|number| {
            let words = ARGUMENTS[number as usize].iter();
            words.flat_map(move |word| {
                let ends = ends(number, *word).iter();
                ends.map(move |end| argument(number, *word, *end))
            })
        });
        let stored = STORED.into_iter().flat_map(|at| {
            let ends = [LENGTH, LENGTH + 1];
            ends.map(|end| stored(at, end))
        });
        let bounds: Vec<String> = arguments.chain(stored).collect();
        RttCounts {
            of_runs: Wanted::new(&RUNS),
            of_calls: Wanted::new(&CALLS),
            bounds: Wanted::new(&bounds),
            updates: Updates::default(),
            by_8: Rests([[0; 8]; 8]),
            by_4: Rests([[0; 4]; 4]),
            runs: 0,
            left: Vec::new(),
            since: 0,
            longest: 0,
        }
    }

    /// Looks at a run.
    pub fn look(&mut self, lent: &Lent, ran: &Ran) {
        self.runs += 1;
        self.run(lent, ran);
        if ran.reply != 0 {
            return;
        }
        if self.left != lent.estimator() {
            self.since = 0;
        }
        for made in &ran.made {
            self.call(made);
        }
        self.between(ran);
        self.left = ran.state[..RTT_STATE_WORDS].to_vec();
    }

    /// The lengths of a run, and its flag.
    fn run(&mut self, lent: &Lent, ran: &Ran) {
        let [state, calls, answers] = lent.bytes;
        let due = lent.whole() * RTT_ANSWER_BYTES;
        let flag = lent.estimator()[rtt_state::HAS_FIRST_RTT_SAMPLE];
        let (short, part) = (answers < due, lent.part());
        let marks = match ran.reply {
            0 => vec![
                ("done, without a call", calls == 0),
                ("done, and bytes of answers are left", answers > due),
            ],
            OUT_OF_BOUNDS => vec![
                ("1, the flag is 2", flag == 2),
                ("1, and the calls' length is wrong, too", part != 0),
                ("1, and the answers are too short, too", short),
            ],
            SHORT_OUTPUT => vec![("7, a byte short", answers + 1 == due)],
            reply if reply == STATE_LENGTH.reply() => vec![
                ("the state is a byte short", state + 1 == RTT_STATE_BYTES),
                ("the state is a byte long", state == RTT_STATE_BYTES + 1),
                (
                    "the state's length, and the flag is none, too",
                    state > RTT_STATE_BYTES && flag > 1,
                ),
                (
                    "the state's length, and the calls' is wrong, too",
                    part != 0,
                ),
                (
                    "the state's length, and the answers are too short, too",
                    short,
                ),
            ],
            _ => vec![
                ("the calls are a byte short", part + 1 == RTT_CALL_BYTES),
                ("the calls are a byte long", part == 1),
                (
                    "the calls' length, and the answers are too short, too",
                    short,
                ),
            ],
        };
        for (what, holds) in marks {
            self.of_runs.mark(&format!("a run: {what}"), holds);
        }
    }

    /// Calls that are refused between two updates that are done.
    fn between(&mut self, ran: &Ran) {
        let is_done = |made: &Made| made.answer[rtt_answer::REPLY] == 0;
        let number = |made: &Made| made.call[RTT_NUMBER_IN_CALL];
        let is_update = |made: &Made| is_done(made) && number(made) == rtt_call::UPDATE_RTT;
        for calls in ran.made.windows(3) {
            if is_update(&calls[0]) && !is_done(&calls[1]) && is_update(&calls[2]) {
                let name = rtt_call::NAMES.get(number(&calls[1]) as usize);
                let name = name.unwrap_or(&"a number that is no call's");
                let what = format!("a run: refused between two updates: {name}");
                self.of_runs.mark(&what, true);
            }
        }
    }

    fn call(&mut self, made: &Made) {
        let Made {
            before,
            call,
            answer,
        } = made;
        let reply = answer[rtt_answer::REPLY];
        let number = call[RTT_NUMBER_IN_CALL];
        if reply == OUT_OF_BOUNDS {
            self.out(before, call);
            return;
        }
        self.mark("a number that is no call's", reply == NO_CALL.reply());
        self.at_bounds(made);
        let faults: Vec<u64> = estimator::faults(call).map(|fault| fault.place).collect();
        match number {
            rtt_call::NEW => self.new_one(before, call, &faults),
            rtt_call::UPDATE_RTT if faults.is_empty() => self.update(before, call),
            rtt_call::UPDATE_RTT => self.refused_update(before, call, &faults),
            rtt_call::UPDATE_MAX_ACK_DELAY => self.limit(before, call, &faults),
            _ => {}
        }
    }

    /// A call that is refused with 1.
    fn out(&mut self, before: &Estimator, call: &Call) {
        let out = STORED.into_iter().filter(|&at| before[at] > LENGTH);
        if let [at] = out.collect::<Vec<usize>>()[..] {
            if before[at] == LENGTH + 1 {
                self.bounds.count(stored(at, before[at]));
            }
        }
        self.mark(
            "1, and an argument is at fault, too",
            estimator::faults(call).next().is_some(),
        );
        self.mark(
            "1, and the number is no call's",
            call[RTT_NUMBER_IN_CALL] >= ARGUMENTS.len() as u64,
        );
    }

    /// Arguments at their bounds, in a call that is done, and past them, in one that
    /// names them; and stored lengths at their bounds.
    fn at_bounds(&mut self, made: &Made) {
        let Made {
            before,
            call,
            answer,
        } = made;
        let reply = answer[rtt_answer::REPLY];
        let number = call[RTT_NUMBER_IN_CALL];
        let arguments = ARGUMENTS.get(number as usize).copied().unwrap_or(&[]);
        for (place, &word) in (1..).zip(arguments) {
            let end = call[word];
            let told = reply == 0 || replies::named(reply).1 == place;
            if told && ends(number, word).contains(&end) {
                self.bounds.count(argument(number, word, end));
            }
        }
        for at in STORED {
            if reply == 0 && number != rtt_call::NEW && before[at] == LENGTH {
                self.bounds.count(stored(at, LENGTH));
            }
        }
    }

    fn new_one(&mut self, before: &Estimator, call: &Call, faults: &[u64]) {
        self.since = 0;
        let sampled = before[rtt_state::HAS_FIRST_RTT_SAMPLE] == 1;
        let out = !estimator::is_within(before);
        if !faults.is_empty() {
            self.mark("new: refused, after a sample", sampled);
            self.mark("new: refused, though a stored length is out", out);
            self.mark("new: both lengths are at fault", faults == [1, 2]);
            return;
        }
        self.mark("new: done, after a sample", sampled);
        self.mark("new: done, though a stored length is out", out);
        self.mark(
            "new: done, and a word that it doesn't name is out",
            call[3] > LENGTH,
        );
    }

    fn limit(&mut self, before: &Estimator, call: &Call, faults: &[u64]) {
        if !faults.is_empty() {
            self.mark("update_max_ack_delay: refused", true);
            return;
        }
        let limit = call[update_max_ack_delay::MAX_ACK_DELAY];
        self.mark(
            "update_max_ack_delay: done, another limit",
            limit != before[rtt_state::MAX_ACK_DELAY],
        );
        self.mark(
            "update_max_ack_delay: done, before a sample",
            before[rtt_state::HAS_FIRST_RTT_SAMPLE] == 0,
        );
        self.mark(
            "update_max_ack_delay: done, and a word that it doesn't name is out",
            call[2] > LENGTH || call[3] > LENGTH,
        );
    }

    fn refused_update(&mut self, before: &Estimator, call: &Call, faults: &[u64]) {
        for (what, pair) in [
            ("update_rtt: the sample and the delay are at fault", [1, 2]),
            ("update_rtt: the sample and the flag are at fault", [1, 3]),
            ("update_rtt: the delay and the flag are at fault", [2, 3]),
        ] {
            self.mark(what, faults == pair);
        }
        self.mark(
            "update_rtt: the delay is at fault, and the sample is another than the latest",
            faults == [2] && call[update_rtt::LATEST_RTT] != before[rtt_state::LATEST_RTT],
        );
        if before[rtt_state::HAS_FIRST_RTT_SAMPLE] == 0 {
            self.mark("first sample: the delay is at fault", faults == [2]);
            self.mark("first sample: the flag is at fault", faults == [3]);
        }
    }

    /// An update that is done.
    fn update(&mut self, before: &Estimator, call: &Call) {
        self.updates.accepted += 1;
        self.since += 1;
        self.longest = self.longest.max(self.since);
        let latest = call[update_rtt::LATEST_RTT];
        let delay = call[update_rtt::ACK_DELAY];
        let confirmed = call[update_rtt::HANDSHAKE_CONFIRMED] == 1;
        let limit = before[rtt_state::MAX_ACK_DELAY];
        let minimum = before[rtt_state::MIN_RTT];
        if before[rtt_state::HAS_FIRST_RTT_SAMPLE] == 0 {
            self.updates.first += 1;
            self.mark(
                "first sample: above the initial round trip",
                latest > minimum,
            );
            self.mark(
                "first sample: below the initial round trip",
                latest < minimum,
            );
            self.mark(
                "first sample: with a delay that could be taken off",
                0 < delay && delay < latest,
            );
            self.mark(
                "first sample: with a delay above the limit, confirmed",
                confirmed && limit < delay,
            );
            return;
        }
        let sample = sample(before, call);
        self.updates.limited += (sample.delay < delay) as u64;
        self.mark("later sample: lower than the minimum", latest < minimum);
        self.mark("later sample: is the minimum", latest == minimum);
        self.limited(delay, limit, confirmed);
        self.adjusted(before, call, &sample);
    }

    /// The delay beside the limit.
    fn limited(&mut self, delay: u64, limit: u64, confirmed: bool) {
        if confirmed {
            self.mark(
                "later sample: the delay is the limit, confirmed",
                delay == limit,
            );
            self.mark(
                "later sample: the delay is one above the limit, confirmed",
                delay == limit + 1,
            );
            self.mark(
                "later sample: the delay is one below the limit, confirmed",
                delay + 1 == limit,
            );
        } else {
            self.mark(
                "later sample: the delay is one above the limit, not confirmed",
                delay == limit + 1,
            );
        }
    }

    /// The sample beside the minimum and the delay, and the adjusted one.
    fn adjusted(&mut self, before: &Estimator, call: &Call, sample: &Sample) {
        let latest = call[update_rtt::LATEST_RTT];
        let smoothed = before[rtt_state::SMOOTHED_RTT];
        let least = sample.minimum + sample.delay;
        let is_adjusted = sample.adjusted < latest;
        self.updates.adjusted += is_adjusted as u64;
        self.by_8.count(smoothed, sample.adjusted);
        let distance = smoothed.abs_diff(sample.adjusted);
        self.by_4.count(before[rtt_state::RTTVAR], distance);
        if sample.delay == 0 {
            return;
        }
        let limit = before[rtt_state::MAX_ACK_DELAY];
        let given = call[update_rtt::ACK_DELAY];
        for (what, holds) in [
            ("is the minimum and the delay", latest == least),
            (
                "is one above the minimum and the delay",
                latest == least + 1,
            ),
            (
                "is one below the minimum and the delay",
                latest + 1 == least,
            ),
            ("not adjusted, though there is a delay", !is_adjusted),
        ] {
            self.later(what, holds);
        }
        if !is_adjusted {
            return;
        }
        for (what, holds) in [
            ("adjusted", true),
            (
                "adjusted by the limit, and not by the delay",
                sample.delay < given,
            ),
            (
                "adjusted by a delay above the limit, not confirmed",
                sample.delay > limit,
            ),
            (
                "adjusted, above the smoothed one",
                sample.adjusted > smoothed,
            ),
            (
                "adjusted, below the smoothed one",
                sample.adjusted < smoothed,
            ),
            ("adjusted, the smoothed one", sample.adjusted == smoothed),
        ] {
            self.later(what, holds);
        }
    }

    fn later(&mut self, what: &str, holds: bool) {
        if holds {
            self.mark(&format!("later sample: {what}"), true);
        }
    }

    fn mark(&mut self, what: &str, holds: bool) {
        if holds {
            self.of_calls.mark(what, true);
        }
    }

    /// Prints the counts, after such a word, if there were runs.
    pub fn tell(&self, of: &str) {
        if self.runs == 0 {
            return;
        }
        self.of_runs.tell(of);
        self.of_calls.tell(of);
        self.tell_bounds(of);
        self.by_8.tell(of);
        self.by_4.tell(of);
        let Updates {
            accepted,
            first,
            adjusted,
            limited,
        } = self.updates;
        let later = accepted - first;
        eprintln!(
            "{of}{} runs, {accepted} updates done: {first} first samples; of the others {adjusted} \
             adjusted and {} not, {limited} with a delay that was limited and {} not; up to {} in \
             a row",
            self.runs,
            later - adjusted,
            later - limited,
            self.longest
        );
    }

    /// Prints how often each argument, and each stored length, was each number at its
    /// bounds.
    fn tell_bounds(&self, of: &str) {
        let mut lines: BTreeMap<&str, Vec<String>> = BTreeMap::new();
        for (what, count) in self.bounds.told() {
            let (name, end) = what.split_once(": ").unwrap();
            let line = lines.entry(name).or_default();
            line.push(format!("{count} x {end}"));
        }
        for (name, line) in lines {
            eprintln!("{of}{name}: {}", line.join(", "));
        }
    }

    /// Stops if something is missing though there were many runs.
    pub fn hold(&self) {
        if self.runs >= MANY {
            self.demand(LEAST);
        }
        if self.updates.accepted >= MANY_UPDATES {
            self.demand_rests();
            let longest = self.longest;
            assert!(longest >= IN_A_ROW, "only {longest} updates in a row");
        }
    }

    /// Stops if something occurs less often than this, or a pair of rests never.
    pub fn demand(&self, least: u64) {
        for wanted in [&self.of_runs, &self.of_calls, &self.bounds] {
            wanted.demand(least);
        }
        self.demand_rests();
    }

    fn demand_rests(&self) {
        self.by_8.demand();
        self.by_4.demand();
    }
}

impl<const N: usize> Rests<N> {
    fn count(&mut self, one: u64, other: u64) {
        let rest = |number: u64| (number % N as u64) as usize;
        self.0[rest(one)][rest(other)] += 1;
    }

    /// Prints how many pairs were met, after such a word, and how often the rarest.
    fn tell(&self, of: &str) {
        let (all, met) = (N * N, N * N - self.missing().len());
        let rarest = self.0.iter().flatten().min().unwrap();
        eprintln!("{of}{met} of {all} pairs of rests by {N}, the rarest {rarest} times");
    }

    /// The pairs that were not met.
    fn missing(&self) -> Vec<(usize, usize)> {
        let all = (0..N).flat_map(|one| (0..N).map(move |other| (one, other)));
        all.filter(|&(one, other)| self.0[one][other] == 0)
            .collect()
    }

    /// Stops if a pair was not met.
    fn demand(&self) {
        let missing = self.missing();
        assert!(missing.is_empty(), "rests by {N} not met: {missing:?}");
    }
}

/// Whether the word of a call of this number is a flag.
pub fn is_flag(number: u64, word: usize) -> bool {
    number == rtt_call::UPDATE_RTT && word == update_rtt::HANDSHAKE_CONFIRMED
}

/// The numbers at which an argument is counted.
fn ends(number: u64, word: usize) -> &'static [u64] {
    match is_flag(number, word) {
        true => &FLAGS,
        false => &LENGTHS,
    }
}

/// An argument that is this number.
fn argument(number: u64, word: usize, end: u64) -> String {
    let number = number as usize;
    let at = ARGUMENTS[number].iter().position(|of| *of == word);
    let name = place::RTT_CALLS[number][at.unwrap()].name;
    format!("{}, {name}: {end}", rtt_call::NAMES[number])
}

/// A stored length that is this.
fn stored(at: usize, end: u64) -> String {
    format!("{}, stored: {end}", rtt_state::NAMES[at])
}

/// A later sample by the words of the request; only for the counts.
fn sample(before: &Estimator, call: &Call) -> Sample {
    let latest = call[update_rtt::LATEST_RTT];
    let mut delay = call[update_rtt::ACK_DELAY];
    if call[update_rtt::HANDSHAKE_CONFIRMED] == 1 {
        delay = delay.min(before[rtt_state::MAX_ACK_DELAY]);
    }
    let minimum = latest.min(before[rtt_state::MIN_RTT]);
    let adjusted = match latest >= minimum + delay {
        true => latest - delay,
        false => latest,
    };
    Sample {
        minimum,
        delay,
        adjusted,
    }
}
