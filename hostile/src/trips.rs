//! The swept cases of the round-trip estimator: every word at every number where something
//! turns, every length, each flaw at its ends, each two causes of a refusal, in one call and one after
//! the other, stored lengths at their bound, and samples where a rule turns.

use guovssalu_sys::table::rtt_argument::new;
use guovssalu_sys::table::rtt_argument::update_rtt as sample;
use guovssalu_sys::table::rtt_call as calls;
use guovssalu_sys::table::rtt_state as s;
use guovssalu_sys::table::RTT_ARGUMENTS_IN_CALL as ARGUMENTS;
use guovssalu_sys::table::RTT_CALL_WORDS;
use guovssalu_sys::table::RTT_NUMBER_IN_CALL as NUMBER;
use guovssalu_sys::table::RTT_STATE_WORDS;

use crate::bounds::LENGTH;
use crate::choose;
use crate::dice::Dice;
use crate::edges;
use crate::estimator::Step;
use crate::meets::Cause;
use crate::places;
use crate::places::Callee;
use crate::rtt::good_call;
use crate::rtt::good_state;
use crate::rtt::Lent;
use crate::rtt::Rtt;
use crate::rtt::LONG;
use crate::rtt::NO_CALLS;
use crate::trial::Trial;
use crate::values;
use crate::words::RttCall;
use crate::words::RttState;
use crate::words::RTT_ANSWER_BYTES;
use crate::words::RTT_CALLS_END;
use crate::words::RTT_CALL_BYTES;
use crate::words::RTT_STATE_BYTES;

/// Some swept cases.
pub type Sweep = fn(&mut Rtt, &mut Trial);

/// All of these, in their order.
pub const SWEEPS: [Sweep; 13] = [
    each_word,
    each_no_call,
    each_length,
    each_run,
    each_end,
    each_two,
    each_two_in_turn,
    each_stored,
    each_first,
    each_later,
    each_eighth,
    each_end_of_lengths,
    long_runs,
];

/// The numbers of all calls, and the first that is none.
fn numbers() -> impl Iterator<Item = u64> {
    0..=RTT_CALLS_END
}

/// Each of these with each of those.
fn both<A: Copy, B: Copy>(these: &[A], those: &[B]) -> Vec<(A, B)> {
    let each = these.iter();
    each.flat_map(|&this| those.iter().map(move |&that| (this, that)))
        .collect()
}

/// A good estimator, and a good call on it.
fn good(dice: &mut Dice, number: u64) -> (RttState, RttCall) {
    let state = good_state(dice);
    let call = good_call(dice, &state, number);
    (state, call)
}

/// A good estimator with a sample or without.
fn with_sample(dice: &mut Dice, has_sample: u64) -> RttState {
    let mut state = good_state(dice);
    state[s::HAS_FIRST_RTT_SAMPLE] = has_sample;
    state
}

/// A sample.
fn update(latest: u64, delay: u64, confirmed: u64) -> RttCall {
    let mut call = [0; RTT_CALL_WORDS];
    call[NUMBER] = calls::UPDATE_RTT;
    call[sample::LATEST_RTT] = latest;
    call[sample::ACK_DELAY] = delay;
    call[sample::HANDSHAKE_CONFIRMED] = confirmed;
    call
}

/// For each call, and a number that is none, each word of the state and each of the call at each number
/// where something turns.
pub fn each_word(rtt: &mut Rtt, trial: &mut Trial) {
    for number in numbers() {
        for value in values::turns() {
            for at in 0..RTT_STATE_WORDS {
                let (mut state, call) = good(&mut trial.dice, number);
                state[at] = value;
                rtt.one(trial, &state, &call);
            }
            for at in ARGUMENTS..RTT_CALL_WORDS {
                let (state, mut call) = good(&mut trial.dice, number);
                call[at] = value;
                rtt.one(trial, &state, &call);
            }
        }
    }
}

/// Each number that is no call's: alone, beside a stored length out of bounds, beside words that other
/// calls would be refused for, and between two samples of a run.
pub fn each_no_call(rtt: &mut Rtt, trial: &mut Trial) {
    for number in NO_CALLS {
        let (state, call) = good(&mut trial.dice, number);
        rtt.one(trial, &state, &call);
        for at in 0..s::HAS_FIRST_RTT_SAMPLE {
            let mut state = state;
            state[at] = LENGTH + 1;
            rtt.one(trial, &state, &call);
        }
        let mut hostile = [u64::MAX; RTT_CALL_WORDS];
        hostile[NUMBER] = number;
        rtt.one(trial, &state, &hostile);
        let before = good_call(&mut trial.dice, &state, calls::UPDATE_RTT);
        let after = good_call(&mut trial.dice, &state, calls::UPDATE_RTT);
        rtt.several(trial, &state, &[before, call, after]);
    }
}

/// A run of so many calls with ranges of these lengths, or of the right ones.
fn lengths(trial: &mut Trial, count: usize, [state, calls, answers]: [Option<usize>; 3]) -> Lent {
    let dice = &mut trial.dice;
    let estimator = good_state(dice);
    let run: Vec<RttCall> = (0..count)
        .map(|_| good_call(dice, &estimator, calls::UPDATE_RTT))
        .collect();
    let mut lent = Lent::new(dice, &estimator, &run);
    for (range, length) in [
        (&mut lent.state, state),
        (&mut lent.calls, calls),
        (&mut lent.answers, answers),
    ] {
        let length = length.unwrap_or(range.len());
        choose::resize(dice, range, length);
    }
    lent
}

/// Each range in turn at each length, the others being right for 0 to 3 calls; and calls of each length
/// with answers for as many as are whole.
pub fn each_length(rtt: &mut Rtt, trial: &mut Trial) {
    for count in 0..=3 {
        for length in 0..=2 * RTT_STATE_BYTES + 8 {
            let lent = lengths(trial, count, [Some(length), None, None]);
            rtt.run(trial, &lent);
        }
        for length in 0..=4 * RTT_ANSWER_BYTES + 1 {
            let lent = lengths(trial, count, [None, None, Some(length)]);
            rtt.run(trial, &lent);
        }
        for length in 0..=4 * RTT_CALL_BYTES + 1 {
            let answers = length / RTT_CALL_BYTES * RTT_ANSWER_BYTES + count;
            let lent = lengths(trial, count, [None, Some(length), Some(answers)]);
            rtt.run(trial, &lent);
        }
    }
}

/// Each two and three refusals of a run: a state of several lengths, whose flag is none or is one, calls
/// with a part or without, and answers that are too short or not.
pub fn each_run(rtt: &mut Rtt, trial: &mut Trial) {
    const STATES: [usize; 7] = [48, 47, 49, 40, 56, 0, 96];
    const CALLS: [usize; 6] = [64, 63, 65, 32, 1, 0];
    const SHORT: [usize; 4] = [0, 1, RTT_ANSWER_BYTES, 2 * RTT_ANSWER_BYTES];
    const FLAGS: [u64; 6] = [0, 1, 2, 256, 1 << 32, u64::MAX];
    for (state, calls) in both(&STATES, &CALLS) {
        for (short, flag) in both(&SHORT, &FLAGS) {
            let answers = calls / RTT_CALL_BYTES * RTT_ANSWER_BYTES;
            let answers = Some(answers.saturating_sub(short));
            let mut lent = lengths(trial, 2, [None, Some(calls), answers]);
            lent.state[RTT_STATE_BYTES - 8..].copy_from_slice(&flag.to_le_bytes());
            choose::resize(&mut trial.dice, &mut lent.state, state);
            rtt.run(trial, &lent);
        }
    }
}

/// Each flaw of each call at its ends, on both sides, before the first sample and after it.
pub fn each_end(rtt: &mut Rtt, trial: &mut Trial) {
    for (number, has_sample) in both(&numbers().collect::<Vec<_>>(), &[0, 1]) {
        for flaw in places::flaws(Callee::RttCall(number)) {
            let (inside, outside) = (edges::inside(&flaw, false), edges::outside(&flaw, false));
            for end in inside.into_iter().chain(outside).flatten() {
                let state = with_sample(&mut trial.dice, has_sample);
                let mut call = good_call(&mut trial.dice, &state, number);
                edges::set(&flaw, end, &mut [], &mut call, &[]);
                rtt.one(trial, &state, &call);
            }
        }
    }
}

/// The ways in which a cause can be put: of a flaw its ends and others, of row 1 the lengths.
fn ways(dice: &mut Dice, cause: &Cause) -> Vec<i128> {
    match cause {
        Cause::Flaw(flaw) => {
            let ends = edges::outside(flaw, false).into_iter().flatten();
            let others = [(); 2].map(|_| edges::far(dice, flaw, false));
            ends.chain(others).collect()
        }
        Cause::Row(_) => (0..s::HAS_FIRST_RTT_SAMPLE as i128).collect(),
    }
}

/// Makes a cause of a refusal hold, in a way.
fn put(cause: &Cause, way: i128, state: &mut RttState, call: &mut RttCall) {
    match cause {
        Cause::Flaw(flaw) => edges::set(flaw, way, state, call, &[]),
        Cause::Row(_) => state[way as usize] = LENGTH + 1,
    }
}

/// Each two causes of a refusal of each call at once.
pub fn each_two(rtt: &mut Rtt, trial: &mut Trial) {
    for (number, has_sample) in both(&numbers().collect::<Vec<_>>(), &[0, 1]) {
        let causes = Cause::all(Callee::RttCall(number));
        for (at, first) in causes.iter().enumerate() {
            for second in &causes[at + 1..] {
                let ones = ways(&mut trial.dice, first);
                let others = ways(&mut trial.dice, second);
                for (one, other) in both(&ones, &others) {
                    let mut state = with_sample(&mut trial.dice, has_sample);
                    let mut call = good_call(&mut trial.dice, &state, number);
                    put(first, one, &mut state, &mut call);
                    put(second, other, &mut state, &mut call);
                    rtt.one(trial, &state, &call);
                }
            }
        }
    }
}

/// Each call as it is accepted, and with each of its flaws: the number, and the flaw's place.
fn each_call() -> Vec<(u64, Option<usize>)> {
    let of_number = |number| {
        let flaws = places::flaws(Callee::RttCall(number)).len();
        let accepted = [(number, None)].into_iter();
        accepted.chain((0..flaws).map(move |flaw| (number, Some(flaw))))
    };
    numbers().flat_map(of_number).collect()
}

/// A call on an estimator, with the flaw of this place, if any, at its end.
fn flawed(dice: &mut Dice, state: &RttState, (number, flaw): (u64, Option<usize>)) -> RttCall {
    let mut call = good_call(dice, state, number);
    if let Some(flaw) = flaw {
        let flaw = places::flaws(Callee::RttCall(number))[flaw];
        if let Some(end) = edges::outside(&flaw, false)[0] {
            edges::set(&flaw, end, &mut [], &mut call, &[]);
        }
    }
    call
}

/// Each two calls of a run, accepted or refused, in both orders, and a sample after them: on estimators
/// with a sample and without, all of whose lengths are within their bound, or one is not.
pub fn each_two_in_turn(rtt: &mut Rtt, trial: &mut Trial) {
    let calls = each_call();
    for (one, other) in both(&calls, &calls) {
        for (has_sample, out) in both(
            &[0, 1],
            &[None, Some(s::LATEST_RTT), Some(s::MAX_ACK_DELAY)],
        ) {
            let mut state = with_sample(&mut trial.dice, has_sample);
            if let Some(at) = out {
                state[at] = LENGTH + 1;
            }
            let first = flawed(&mut trial.dice, &state, one);
            let between = Step::new(&state, &first).after;
            let second = flawed(&mut trial.dice, &between, other);
            let after = Step::new(&between, &second).after;
            let last = good_call(&mut trial.dice, &after, calls::UPDATE_RTT);
            rtt.several(trial, &state, &[first, second, last]);
        }
    }
}

/// Each stored length at its bound, on both sides and far from it, for each call and with none.
pub fn each_stored(rtt: &mut Rtt, trial: &mut Trial) {
    const LENGTHS: [u64; 8] = [
        0,
        1,
        LENGTH - 1,
        LENGTH,
        LENGTH + 1,
        2 * LENGTH,
        1 << 63,
        u64::MAX,
    ];
    for (length, has_sample) in both(&LENGTHS, &[0, 1]) {
        for at in 0..s::HAS_FIRST_RTT_SAMPLE {
            let mut state = with_sample(&mut trial.dice, has_sample);
            state[at] = length;
            rtt.several(trial, &state, &[]);
            for number in numbers() {
                let call = good_call(&mut trial.dice, &state, number);
                rtt.one(trial, &state, &call);
            }
        }
    }
}

/// First samples with delays below, at and above them and their limit, confirmed and not.
pub fn each_first(rtt: &mut Rtt, trial: &mut Trial) {
    const SAMPLES: [u64; 7] = [0, 1, 2, 7, 80_000_001, LENGTH - 1, LENGTH];
    for (latest, confirmed) in both(&SAMPLES, &[0, 1]) {
        let (below, above) = (latest.saturating_sub(1), (latest + 1).min(LENGTH));
        for (delay, limit) in both(
            &[0, 1, below, latest, above, LENGTH],
            &[0, 1, latest, LENGTH],
        ) {
            let mut state = with_sample(&mut trial.dice, 0);
            state[s::MAX_ACK_DELAY] = limit;
            rtt.one(trial, &state, &update(latest, delay, confirmed));
        }
    }
}

/// Later samples one below, at and one above the minimum and their delay, which is one below, at and one
/// above its limit, confirmed and not, with minima and delays of several sizes.
pub fn each_later(rtt: &mut Rtt, trial: &mut Trial) {
    const SIZES: [u64; 5] = [1, 2, 60, 25_000_000, LENGTH / 2 - 2];
    for ((minimum, delay), (step, confirmed)) in
        both(&both(&SIZES, &SIZES), &both(&[0, 1, 2], &[0, 1]))
    {
        for (limit, counted) in both(&[delay - 1, delay, delay + 1], &[0, 1]) {
            let mut state = with_sample(&mut trial.dice, 1);
            state[s::MIN_RTT] = minimum;
            state[s::MAX_ACK_DELAY] = limit;
            let least = minimum
                + if counted == 0 {
                    delay
                } else {
                    delay.min(limit)
                };
            rtt.one(trial, &state, &update(least + step - 1, delay, confirmed));
        }
    }
}

/// Each eighth of the smoothed and of the adjusted sample, this being below the other or above it, and
/// each quarter of the variation.
pub fn each_eighth(rtt: &mut Rtt, trial: &mut Trial) {
    for (smoothed, adjusted) in both(&[0, 1, 2, 3, 4, 5, 6, 7], &[0, 1, 2, 3, 4, 5, 6, 7]) {
        for (variation, above) in both(&[0, 1, 2, 3], &[0, 8, 16]) {
            let mut base = || 8 * trial.dice.below(1 << 30);
            let (about, delay, quarters) = (8 + base(), base(), base());
            let adjusted = about - 8 + adjusted + above;
            let mut state = with_sample(&mut trial.dice, 1);
            state[s::MIN_RTT] = about - 8;
            state[s::SMOOTHED_RTT] = about + smoothed;
            state[s::RTTVAR] = quarters + variation;
            rtt.one(trial, &state, &update(adjusted + delay, delay, 0));
        }
    }
}

/// Each later sample of lengths that are 0, 1 or the most, stored and handed in.
pub fn each_end_of_lengths(rtt: &mut Rtt, trial: &mut Trial) {
    const ENDS: [u64; 3] = [0, 1, LENGTH];
    let two = both(&ENDS, &ENDS);
    for ((latest, delay), (minimum, limit)) in both(&two, &two) {
        for ((smoothed, variation), confirmed) in both(&two, &[0, 1]) {
            let mut state = with_sample(&mut trial.dice, 1);
            state[s::MIN_RTT] = minimum;
            state[s::MAX_ACK_DELAY] = limit;
            state[s::SMOOTHED_RTT] = smoothed;
            state[s::RTTVAR] = variation;
            rtt.one(trial, &state, &update(latest, delay, confirmed));
        }
    }
}

/// Long runs of samples, all of them accepted: any, and such as are mostly rounded by as much as can be.
pub fn long_runs(rtt: &mut Rtt, trial: &mut Trial) {
    for initial in [0, 1, 333_000_000, LENGTH] {
        for sample in [any_sample, rounded_sample] {
            let calls = long_run(&mut trial.dice, initial, sample);
            rtt.several(trial, &[0; RTT_STATE_WORDS], &calls);
        }
    }
}

/// A `new`, and samples that a function chooses for what the ones before them leave.
fn long_run(
    dice: &mut Dice,
    initial: u64,
    sample: fn(&mut Dice, &RttState) -> RttCall,
) -> Vec<RttCall> {
    let mut call = [calls::NEW; RTT_CALL_WORDS];
    call[new::INITIAL_RTT] = initial;
    call[new::MAX_ACK_DELAY] = 25_000_000;
    let (mut now, mut calls) = ([0; RTT_STATE_WORDS], Vec::new());
    while calls.len() < LONG {
        calls.push(call);
        now = Step::new(&now, &call).after;
        call = sample(dice, &now);
    }
    calls
}

/// Any good sample.
fn any_sample(dice: &mut Dice, state: &RttState) -> RttCall {
    good_call(dice, state, calls::UPDATE_RTT)
}

/// A sample that is 7 above a multiple of 8 and leaves, if it can be, a smoothed one that is 1 above one:
/// then both parts of the next are rounded by seven eighths.
fn rounded_sample(dice: &mut Dice, state: &RttState) -> RttCall {
    let mut some = [(); 32]
        .map(|_| update(8 * dice.below(1 << 27) + 7, 0, 1))
        .into_iter();
    let leaves_one = |call: &RttCall| Step::new(state, call).after[s::SMOOTHED_RTT] % 8 == 1;
    some.find(leaves_one).unwrap_or(update(7, 0, 1))
}

#[cfg(test)]
mod tests {
    use super::*;
    use crate::estimator;
    use crate::words;

    /// All calls of a long run are accepted, and in such a run most samples are rounded so.
    #[test]
    fn long_runs_are_accepted_and_rounded() {
        let mut dice = Dice::new(7);
        for (sample, least) in [
            (any_sample as fn(&mut Dice, &RttState) -> RttCall, 0),
            (rounded_sample, 900),
        ] {
            let calls = long_run(&mut dice, 1, sample);
            let steps = estimator::steps(&[0; RTT_STATE_BYTES], &words::bytes(&calls.concat()));
            assert_eq!(steps.len(), LONG);
            assert!(steps.iter().all(|step| step.rows.due() == 0));
            let rounded = steps.iter().skip(2).filter(|step| {
                let adjusted = estimator::adjusted(&step.before, &step.call);
                (step.before[s::SMOOTHED_RTT] % 8, adjusted % 8) == (1, 7)
            });
            assert!(rounded.count() >= least);
        }
    }
}
