//! The round-trip estimator: which number is due to its runs and calls, by document 01,
//! "Replies and bounds", and what they leave, by rtt.rs with one change: the minimum is the least of all
//! samples since the first, and none is forgotten.
//!
//! What is wrong with an argument, and what row 2 names, is read in `places`.

use guovssalu_sys::table::rtt_argument::new;
use guovssalu_sys::table::rtt_argument::update_max_ack_delay as limit;
use guovssalu_sys::table::rtt_argument::update_rtt as sample;
use guovssalu_sys::table::rtt_call as calls;
use guovssalu_sys::table::rtt_state as s;
use guovssalu_sys::table::RTT_NUMBER_IN_CALL as NUMBER;

use crate::bounds::LENGTH;
use crate::places::Callee;
use crate::places::Given;
use crate::reckon;
use crate::table::Rows;
use crate::words;
use crate::words::flag;
use crate::words::yes;
use crate::words::RttAnswer;
use crate::words::RttCall;
use crate::words::RttState;
use crate::words::RTT_ANSWER_BYTES;
use crate::words::RTT_CALL_BYTES;
use crate::words::RTT_STATE_BYTES;
use crate::words::UNSET;

/// The rows of a run: 1 where 48 bytes encode no estimator, 2 where they are not 48 or the calls are no
/// whole number of 32, 7 where the answers have under 40 a call.
pub fn run_rows(state: &[u8], calls: &[u8], answers: usize) -> Rows {
    let whole = state.len() == RTT_STATE_BYTES;
    let lengths = [state.len() as u64, calls.len() as u64];
    Rows::default()
        .with(1, whole && !encodes(&words::words(state)))
        .with_flaws(Callee::RttRun, &Given::numbers(&lengths))
        .with(7, answers < calls.len() / RTT_CALL_BYTES * RTT_ANSWER_BYTES)
}

/// Whether words encode an estimator: any numbers, and a flag.
pub fn encodes(state: &RttState) -> bool {
    flag(state[s::HAS_FIRST_RTT_SAMPLE]).is_some()
}

/// The rows of one call. `new` has no earlier estimator that could be out of bounds; every other number,
/// one that is no call's too, is asked for row 1.
pub fn call_rows(state: &RttState, call: &RttCall) -> Rows {
    let given = Given {
        state,
        words: call,
        lists: &[],
    };
    Rows::default()
        .with(1, call[NUMBER] != calls::NEW && !stored_ok(state))
        .with_flaws(Callee::RttCall(call[NUMBER]), &given)
}

/// The stored lengths: "lengths of time 2^36 ns", inclusive.
pub fn stored_ok(state: &RttState) -> bool {
    stored(state).iter().all(|&length| length <= LENGTH)
}

/// All but the flag.
pub fn stored(state: &RttState) -> &[u64] {
    &state[..s::HAS_FIRST_RTT_SAMPLE]
}

/// Whether there was a sample.
pub fn has_sample(state: &RttState) -> bool {
    yes(state[s::HAS_FIRST_RTT_SAMPLE])
}

/// What `new` leaves.
pub fn fresh(initial: u64, max_ack_delay: u64) -> RttState {
    [0, initial, initial, initial / 2, max_ack_delay, 0]
}

/// The estimator after a call with this reply. A refusal changes nothing, but "a refused start has no
/// earlier state": a refused `new` leaves a fresh one of 0 and 0.
pub fn state(before: &RttState, call: &RttCall, reply: u64) -> RttState {
    match (call[NUMBER], reply) {
        (calls::NEW, 0) => fresh(call[new::INITIAL_RTT], call[new::MAX_ACK_DELAY]),
        (calls::NEW, _) => fresh(0, 0),
        (calls::UPDATE_RTT, 0) if has_sample(before) => later(before, call, adjusted(before, call)),
        (calls::UPDATE_RTT, 0) => first(before, call[sample::LATEST_RTT]),
        (calls::UPDATE_MAX_ACK_DELAY, 0) => {
            let mut after = *before;
            after[s::MAX_ACK_DELAY] = call[limit::MAX_ACK_DELAY];
            after
        }
        _ => *before,
    }
}

/// What the first sample leaves: it is taken whole.
pub fn first(before: &RttState, latest: u64) -> RttState {
    let limit = before[s::MAX_ACK_DELAY];
    [latest, latest, latest, latest / 2, limit, 1]
}

/// What a later sample leaves, adjusted to this. The variation goes by the smoothed one before it.
pub fn later(before: &RttState, call: &RttCall, adjusted: u64) -> RttState {
    let (smoothed, latest) = (before[s::SMOOTHED_RTT], call[sample::LATEST_RTT]);
    let mut after = *before;
    after[s::LATEST_RTT] = latest;
    after[s::MIN_RTT] = before[s::MIN_RTT].min(latest);
    after[s::RTTVAR] = reckon::variation(before[s::RTTVAR], smoothed, adjusted);
    after[s::SMOOTHED_RTT] = reckon::smoothed(smoothed, adjusted);
    after
}

/// The delay of a later sample as it counts: limited "after handshake confirmation".
pub fn delay(before: &RttState, call: &RttCall) -> u64 {
    if yes(call[sample::HANDSHAKE_CONFIRMED]) {
        call[sample::ACK_DELAY].min(before[s::MAX_ACK_DELAY])
    } else {
        call[sample::ACK_DELAY]
    }
}

/// A later sample as it counts: without this delay "if plausible", which is if no less is left than the
/// minimum, this sample being in it.
pub fn without(before: &RttState, call: &RttCall, delay: u64) -> u64 {
    let latest = call[sample::LATEST_RTT];
    match latest.checked_sub(delay) {
        Some(left) if left >= before[s::MIN_RTT].min(latest) => left,
        _ => latest,
    }
}

/// A later sample adjusted.
pub fn adjusted(before: &RttState, call: &RttCall) -> u64 {
    without(before, call, delay(before, call))
}

/// The answer to a call with this reply, by what it leaves: "0 for a number" if it is refused. The
/// minimum is unset before the first sample.
pub fn answer(after: &RttState, reply: u64) -> RttAnswer {
    if reply != 0 {
        return [reply, 0, 0, 0, 0];
    }
    let minimum = if has_sample(after) {
        after[s::MIN_RTT]
    } else {
        UNSET
    };
    let (latest, smoothed) = (after[s::LATEST_RTT], after[s::SMOOTHED_RTT]);
    [reply, latest, minimum, smoothed, after[s::RTTVAR]]
}

/// A call of a run: the estimator before it, the rows that hold, the estimator after it, its answer.
pub struct Step {
    pub before: RttState,
    pub call: RttCall,
    pub rows: Rows,
    pub after: RttState,
    pub answer: RttAnswer,
}

impl Step {
    pub fn new(before: &RttState, call: &RttCall) -> Self {
        let rows = call_rows(before, call);
        let after = state(before, call, rows.reply());
        Step {
            before: *before,
            call: *call,
            rows,
            after,
            answer: answer(&after, rows.reply()),
        }
    }
}

/// The calls of a run that is done, in their order.
pub fn steps(state: &[u8], calls: &[u8]) -> Vec<Step> {
    let mut now = words::words(state);
    let calls = calls.chunks_exact(RTT_CALL_BYTES).map(words::words);
    calls
        .map(|call| {
            let step = Step::new(&now, &call);
            now = step.after;
            step
        })
        .collect()
}

#[cfg(test)]
mod tests {
    use super::*;
    use crate::dice::Dice;
    use crate::values;

    const MOST: u64 = 1 << 36;
    const MAX: u64 = u64::MAX;

    /// An estimator, a call, its reply, and the estimator after it.
    type Worked = (RttState, RttCall, u64, RttState);

    /// Worked by hand.
    const WORKED: [Worked; 34] = [
        // A fresh one, of an odd length, of none, and of the most.
        (
            [9, 9, 9, 9, 9, 1],
            [0, 333, 25, 7],
            0,
            [0, 333, 333, 166, 25, 0],
        ),
        ([9, 9, 9, 9, 9, 1], [0, 0, 0, MAX], 0, [0; 6]),
        (
            [MAX; 6],
            [0, MOST, MOST, 2],
            0,
            [0, MOST, MOST, MOST / 2, MOST, 0],
        ),
        // A refused one, whatever was before it.
        ([9, 9, 9, 9, 9, 1], [0, MOST + 1, 25, 0], 0x1_0402, [0; 6]),
        ([9, 9, 9, 9, 9, 1], [0, 333, MOST + 1, 0], 0x2_0402, [0; 6]),
        ([MAX; 6], [0, MAX, MAX, MAX], 0x1_0402, [0; 6]),
        // The first sample is taken whole, whatever its delay; that and the flag are tested.
        (
            [0, 333, 333, 166, 25, 0],
            [1, 101, 40, 1],
            0,
            [101, 101, 101, 50, 25, 1],
        ),
        (
            [0, 10, 10, 5, 25, 0],
            [1, 100, 40, 0],
            0,
            [100, 100, 100, 50, 25, 1],
        ),
        (
            [0, 10, 10, 5, 25, 0],
            [1, 100, MOST + 1, 0],
            0x2_0402,
            [0, 10, 10, 5, 25, 0],
        ),
        (
            [0, 10, 10, 5, 25, 0],
            [1, 100, 0, 2],
            0x3_0802,
            [0, 10, 10, 5, 25, 0],
        ),
        // The variation goes by the smoothed one before: 37 and 25, not 37 and 22.
        (
            [0, 9, 100, 50, 0, 1],
            [1, 200, 0, 0],
            0,
            [200, 9, 112, 62, 0, 1],
        ),
        (
            [0, 9, 200, 50, 0, 1],
            [1, 100, 0, 0],
            0,
            [100, 9, 187, 62, 0, 1],
        ),
        // Seven eighths and one eighth are rounded apart: 0 and 0, of 1 and 7.
        ([0, 1, 1, 0, 0, 1], [1, 7, 0, 0], 0, [7, 1, 0, 1, 0, 1]),
        ([0, 1, 9, 5, 0, 1], [1, 15, 0, 0], 0, [15, 1, 8, 4, 0, 1]),
        // A delay counts where it leaves the minimum.
        (
            [0, 60, 80, 0, 20, 1],
            [1, 80, 20, 0],
            0,
            [80, 60, 77, 5, 20, 1],
        ),
        (
            [0, 60, 80, 0, 20, 1],
            [1, 79, 20, 0],
            0,
            [79, 60, 79, 0, 20, 1],
        ),
        (
            [0, 60, 80, 0, 20, 1],
            [1, 81, 20, 0],
            0,
            [81, 60, 77, 4, 20, 1],
        ),
        // The limit counts where it is confirmed, and only there.
        (
            [0, 60, 80, 0, 0, 1],
            [1, 80, 20, 0],
            0,
            [80, 60, 77, 5, 0, 1],
        ),
        (
            [0, 60, 80, 0, 0, 1],
            [1, 80, 20, 1],
            0,
            [80, 60, 80, 0, 0, 1],
        ),
        (
            [0, 60, 80, 0, 5, 1],
            [1, 80, 20, 1],
            0,
            [80, 60, 79, 1, 5, 1],
        ),
        // A sample below the minimum lowers it, and is not adjusted.
        (
            [0, 60, 80, 0, 20, 1],
            [1, 40, 20, 1],
            0,
            [40, 40, 75, 10, 20, 1],
        ),
        // The example of request a.
        (
            [
                80_000_001, 80_000_001, 80_000_001, 40_000_000, 25_000_000, 1,
            ],
            [1, 90_000_000, 5_000_000, 1],
            0,
            [
                90_000_000, 80_000_001, 80_625_000, 31_249_999, 25_000_000, 1,
            ],
        ),
        // The most of all.
        (
            [MOST, MOST, MOST, MOST, MOST, 1],
            [1, MOST, MOST, 1],
            0,
            [MOST, MOST, MOST, 3 << 34, MOST, 1],
        ),
        // Row 1 before row 2, of each stored length, and not of a fresh one.
        (
            [MOST + 1, 0, 0, 0, 0, 0],
            [1, MAX, 0, 0],
            1,
            [MOST + 1, 0, 0, 0, 0, 0],
        ),
        (
            [0, MOST + 1, 0, 0, 0, 1],
            [1, 0, 0, 0],
            1,
            [0, MOST + 1, 0, 0, 0, 1],
        ),
        (
            [0, 0, MOST + 1, 0, 0, 1],
            [2, 0, 0, 0],
            1,
            [0, 0, MOST + 1, 0, 0, 1],
        ),
        (
            [0, 0, 0, MOST + 1, 0, 1],
            [3, 0, 0, 0],
            1,
            [0, 0, 0, MOST + 1, 0, 1],
        ),
        (
            [0, 0, 0, 0, MOST + 1, 1],
            [MAX, 0, 0, 0],
            1,
            [0, 0, 0, 0, MOST + 1, 1],
        ),
        // Another limit.
        ([1, 2, 3, 4, 5, 1], [2, 7, MAX, MAX], 0, [1, 2, 3, 4, 7, 1]),
        (
            [1, 2, 3, 4, 5, 0],
            [2, MOST, 0, 0],
            0,
            [1, 2, 3, 4, MOST, 0],
        ),
        (
            [1, 2, 3, 4, 5, 1],
            [2, MOST + 1, 0, 0],
            0x1_0402,
            [1, 2, 3, 4, 5, 1],
        ),
        // Numbers that are no call's, whatever else they have.
        (
            [1, 2, 3, 4, 5, 1],
            [3, MAX, MAX, MAX],
            0x0802,
            [1, 2, 3, 4, 5, 1],
        ),
        (
            [1, 2, 3, 4, 5, 1],
            [256, 0, 0, 0],
            0x0802,
            [1, 2, 3, 4, 5, 1],
        ),
        (
            [1, 2, 3, 4, 5, 1],
            [1 << 32, 0, 0, 0],
            0x0802,
            [1, 2, 3, 4, 5, 1],
        ),
    ];

    #[test]
    fn worked_calls_give_their_replies_and_leave_their_estimators() {
        for (before, call, reply, after) in WORKED {
            let step = Step::new(&before, &call);
            assert_eq!(step.rows.reply(), reply, "{:?} on {:?}", call, before);
            assert_eq!(step.after, after, "{:?} on {:?}", call, before);
        }
    }

    /// An estimator, the reply of the call that left it, and the answer.
    const ANSWERS: [(RttState, u64, RttAnswer); 5] = [
        ([0, 333, 333, 166, 25, 0], 0, [0, 0, MAX, 333, 166]),
        ([1, 2, 3, 4, 5, 0], 0, [0, 1, MAX, 3, 4]),
        ([1, 2, 3, 4, 5, 1], 0, [0, 1, 2, 3, 4]),
        ([1, 2, 3, 4, 5, 1], 1, [1, 0, 0, 0, 0]),
        ([0; 6], 0x1_0402, [0x1_0402, 0, 0, 0, 0]),
    ];

    #[test]
    fn worked_answers_are_given() {
        for (after, reply, due) in ANSWERS {
            assert_eq!(answer(&after, reply), due, "{:?} {}", after, reply);
        }
    }

    /// How many bytes of state, of calls and of answers, the state's flag, and the reply of the run.
    const RUNS: [(usize, usize, usize, u64, u64); 20] = [
        (48, 0, 0, 0, 0),
        (48, 0, 0, 1, 0),
        (48, 0, 0, 2, 1),
        (48, 32, 40, 1, 0),
        (48, 32, 41, 1, 0),
        (48, 32, 39, 1, 7),
        (48, 64, 79, 1, 7),
        (48, 64, 64, 1, 7),
        (48, 64, 80, 1, 0),
        (47, 32, 40, 0, 0x1_0802),
        (56, 32, 40, 1, 0x1_0802),
        (56, 32, 40, 2, 0x1_0802),
        (40, 31, 0, 0, 0x1_0802),
        (48, 31, 40, 1, 0x2_0802),
        (48, 33, 0, 1, 0x2_0802),
        (48, 33, 0, 2, 1),
        (48, 32, 0, 256, 1),
        (48, 32, 40, MAX, 1),
        (0, 32, 0, 0, 0x1_0802),
        (0, 0, 0, 0, 0x1_0802),
    ];

    #[test]
    fn worked_runs_give_their_replies() {
        for (state_len, calls_len, answers, flag, due) in RUNS {
            let mut state = words::bytes(&[0, 0, 0, 0, 0, flag]);
            state.resize(state_len, 0);
            let given = run_rows(&state, &vec![0; calls_len], answers).reply();
            let lengths = (state_len, calls_len, answers);
            assert_eq!(given, due, "{:?}, flag {}", lengths, flag);
        }
    }

    /// The lengths of time of the standard library are rounded as whole nanoseconds are.
    #[test]
    fn each_part_is_rounded_down() {
        let mut dice = Dice::new(7);
        for _ in 0..100_000 {
            let [s, a, v] = [(); 3].map(|_| values::within(&mut dice, MOST));
            assert_eq!(reckon::smoothed(s, a), s * 7 / 8 + a / 8, "{} {}", s, a);
            let apart = s.max(a) - s.min(a);
            let due = v * 3 / 4 + apart / 4;
            assert_eq!(reckon::variation(v, s, a), due, "{} {} {}", v, s, a);
        }
    }

    /// A run is made call by call.
    #[test]
    fn a_call_goes_on_from_the_one_before() {
        let run = [[0, 100, 20, 0], [1, 80, 90, 1], [2, 5, 0, 0], [1, 90, 9, 1]];
        let steps = steps(&[0; 48], &words::bytes(&run.concat()));
        let due = [
            [0, 0, MAX, 100, 50],
            [0, 80, 80, 80, 40],
            [0, 80, 80, 80, 40],
            [0, 90, 80, 80, 31],
        ];
        let given: Vec<RttAnswer> = steps.iter().map(|step| step.answer).collect();
        assert_eq!(given, due);
    }
}
