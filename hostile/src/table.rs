//! Which number is due: document 01's section "Replies and bounds", read sentence by sentence, of
//! document 02 "Acks for packets never sent", and for the runs and the form of words docs/LAYOUT.md.
//! Where the documents leave a choice, the reading is that of docs/DECISIONS.md, named at its place.
//! What is wrong with an argument, and what row 2 names, is read in `places`.
//!
//! A malformed word counts as one out of bounds: a flag that is neither 0 nor 1, an f32 with bits
//! above the 32nd, a pair that is neither 1 and a number nor 0 and 0. In an argument or in the event's
//! record that is row 2, in a parameter row 1. A count of acked numbers above 3, with which these are
//! not all inside the run's lists, is a bad argument: row 2. A run without lists has none inside.

use guovssalu_sys::table::argument as arg;
use guovssalu_sys::table::call as calls;
use guovssalu_sys::table::rtt_call as rtt_calls;

use crate::bounds::BANDWIDTH;
use crate::bounds::BYTES;
use crate::bounds::LENGTH;
use crate::bounds::MOMENT;
use crate::bounds::ROUNDS;
use crate::bounds::TOTAL;
use crate::bounds::WAIT;
use crate::places;
use crate::places::is_a_gain;
use crate::places::Callee;
use crate::places::Given;
use crate::places::Named;
use crate::reckon;
use crate::words;
use crate::words::acked;
use crate::words::call as c;
use crate::words::flag;
use crate::words::float;
use crate::words::gain;
use crate::words::optional;
use crate::words::pair;
use crate::words::state as s;
use crate::words::yes;
use crate::words::Call;
use crate::words::State;
use crate::words::UNSET;

/// The numbers of the rows, in the order in which they are asked: rising, but for "10, asked after 4
/// and before 5".
pub const ORDER: [u64; 8] = [1, 2, 3, 4, NEVER_SENT, 5, 6, 7];

/// Document 02's row: a number is acked that was never sent.
pub const NEVER_SENT: u64 = 10;

/// The rows of the table that hold for a case, by their numbers; for row 2 also which flaws of the
/// callee are found, a bit for each in their order, and what the first of them is named.
#[derive(Clone, Copy, Default, Debug, PartialEq)]
pub struct Rows {
    holds: [bool; 11],
    flaws: u64,
    named: Option<Named>,
}

impl Rows {
    /// The same rows, and this one if it holds.
    pub fn with(mut self, row: u64, holds: bool) -> Self {
        self.holds[row as usize] |= holds;
        self
    }

    /// The same rows, and row 2 if there is a flaw in what a callee is given.
    pub fn with_flaws(mut self, callee: Callee, given: &Given) -> Self {
        let mut bit = 1;
        places::each_flaw(callee, |flaw| {
            if flaw.holds(given) {
                self.flaws |= bit;
                self.named = self.named.or(Some(flaw.named));
            }
            bit <<= 1;
        });
        self.with(2, self.flaws != 0)
    }

    /// Whether a row holds.
    pub fn holds(&self, row: u64) -> bool {
        self.holds[row as usize]
    }

    /// The flaws that are found.
    pub fn flaws(&self) -> u64 {
        self.flaws
    }

    /// The numbers of the rows that hold, the one that is asked first before the others.
    pub fn numbers(&self) -> impl Iterator<Item = u64> + '_ {
        ORDER.into_iter().filter(|&row| self.holds(row))
    }

    /// The row of the reply: "If several refusals apply, the lowest number is given", 10 counting as
    /// between 4 and 5; 0 is done.
    pub fn due(&self) -> u64 {
        self.numbers().next().unwrap_or(0)
    }

    /// The reply: the row that is due, and what it names if that is row 2.
    pub fn reply(&self) -> u64 {
        match self.due() {
            2 => self.bad_argument(),
            row => row,
        }
    }

    /// The reply of row 2, whatever else holds.
    pub fn bad_argument(&self) -> u64 {
        self.named.map_or(2, Named::reply)
    }

    /// Whether two or more refusals apply.
    pub fn overlap(&self) -> bool {
        self.numbers().count() > 1
    }
}

/// The rows of one call in a state that its bytes encode. A number that is no call's is itself the
/// bad argument. That such a call gets the model and tests it, and not the cycle, is a choice
/// (decision 64). The lists are those that the run was lent, if any.
pub fn call_rows(state: &State, call: &Call, lists: &[u64]) -> Rows {
    let number = call[c::NUMBER];
    let stored =
        (gets_model(number) && !model_ok(state)) || (gets_cycle(number) && !cycle_ok(state));
    let given = Given {
        state,
        words: call,
        lists,
    };
    Rows::default()
        // "1: a stored number or a parameter is outside the bounds below"
        .with(1, stored || (takes_params(number) && !params_ok(call)))
        // "2: an argument is outside its bounds .. or a postponed moment would exceed 2^62"
        .with_flaws(Callee::Call(number), &given)
        // "3: the moment given is earlier than the last accepted one"
        .with(
            3,
            moment(call).map_or(false, |now| now < state[s::LAST_MOMENT]),
        )
        // "4: the total acked or the total lost is lower than the one stored"
        .with(
            4,
            number == calls::ON_CONGESTION_EVENT_START && totals_fall(state, call),
        )
        // Document 02: "10, asked after 4 and before 5"
        .with(NEVER_SENT, acks_unsent(state, call, lists))
        // "5: the call's rule adds 1 to a counter that is 2^64 - 1"
        .with(5, fills_a_counter(state, call, lists))
}

/// The rows of a run, with lists or without: docs/LAYOUT.md, "What the run itself replies".
pub fn run_rows(state: &[u8], calls: &[u8], answers: usize) -> Rows {
    let whole = state.len() == words::STATE_BYTES;
    let count = calls.len() / words::CALL_BYTES;
    Rows::default()
        // "1: the state's 408 bytes encode no state"
        .with(1, whole && !encodes(&words::words(state)))
        // "2: the state has another length, or the calls are no whole number of 392 bytes"
        .with_flaws(
            Callee::Run,
            &Given::numbers(&[state.len() as u64, calls.len() as u64]),
        )
        // "7: the answers have under 144 bytes a call"
        .with(7, answers < count * words::ANSWER_BYTES)
}

/// The rows but 2 that can hold of a callee.
pub fn rows_of(callee: Callee) -> Vec<u64> {
    let number = match callee {
        Callee::Call(number) => number,
        Callee::RttCall(rtt_calls::NEW) => return vec![],
        Callee::RttCall(_) => return vec![1],
        Callee::Run | Callee::RttRun | Callee::Slope => return vec![1, 7],
        Callee::FilterRun => return vec![3, 7],
    };
    let is_event = number == calls::ON_CONGESTION_EVENT_START;
    let counts = matches!(
        number,
        calls::ON_CONGESTION_EVENT_START
            | calls::HAS_BANDWIDTH_GROWTH
            | calls::CHECK_PERSISTENT_QUEUE
    );
    let can_hold = |&row: &u64| match row {
        1 => true,
        3 => moment_word(number).is_some(),
        4 | NEVER_SENT => is_event,
        5 => counts,
        _ => false,
    };
    ORDER.into_iter().filter(can_hold).collect()
}

/// "The numbers 2, 39 and those above 45 are no call's." By hand: the table of calls is held to it below.
pub fn is_a_call(number: u64) -> bool {
    number <= 45 && number != 2 && number != 39
}

/// Every call on the model tests all of it (decision 19); a start has no earlier state, and the
/// slope gets the cycle alone.
pub fn gets_model(number: u64) -> bool {
    number != calls::START && number != calls::RAISE_INFLIGHT_HIGH_SLOPE
}

/// The phase entries, the exit from Down and the slope get the cycle, and test it (decision 19).
pub fn gets_cycle(number: u64) -> bool {
    matches!(
        number,
        calls::ENTER_PROBE_DOWN
            | calls::ENTER_PROBE_CRUISE
            | calls::ENTER_PROBE_REFILL
            | calls::ENTER_PROBE_UP
            | calls::EXIT_PROBE_DOWN
            | calls::RAISE_INFLIGHT_HIGH_SLOPE
    )
}

/// The calls whose Rust has `params: &Params` (decision 18): start, event start, expiry, inflight
/// too high, growth, queue, headroom, entry into Down.
pub fn takes_params(number: u64) -> bool {
    matches!(
        number,
        calls::START
            | calls::ON_CONGESTION_EVENT_START
            | calls::MAYBE_EXPIRE_MIN_RTT
            | calls::IS_INFLIGHT_TOO_HIGH
            | calls::HAS_BANDWIDTH_GROWTH
            | calls::CHECK_PERSISTENT_QUEUE
            | calls::INFLIGHT_HI_WITH_HEADROOM
            | calls::ENTER_PROBE_DOWN
    )
}

/// "the event's record; only calls 3 to 7 read it"
pub fn gets_record(number: u64) -> bool {
    matches!(
        number,
        calls::ON_CONGESTION_EVENT_START
            | calls::ON_CONGESTION_EVENT_FINISH
            | calls::MAYBE_EXPIRE_MIN_RTT
            | calls::IS_INFLIGHT_TOO_HIGH
            | calls::HAS_BANDWIDTH_GROWTH
    )
}

/// The word of a call that has the moment it tests against the last: "sends, events and phase entries
/// share it". "A later call that gets an event's record doesn't test its moment for 3."
pub fn moment_word(number: u64) -> Option<usize> {
    match number {
        calls::ON_PACKET_SENT => Some(arg::on_packet_sent::SENT_TIME),
        calls::ON_CONGESTION_EVENT_START => Some(c::EVENT_TIME),
        calls::ENTER_PROBE_DOWN => Some(arg::enter_probe_down::NOW),
        calls::ENTER_PROBE_CRUISE => Some(arg::enter_probe_cruise::NOW),
        calls::ENTER_PROBE_REFILL => Some(arg::enter_probe_refill::NOW),
        calls::ENTER_PROBE_UP => Some(arg::enter_probe_up::NOW),
        _ => None,
    }
}

/// That moment.
pub fn moment(call: &Call) -> Option<u64> {
    moment_word(call[c::NUMBER]).map(|at| call[at])
}

/// Whether words encode a state: a flag is 0 or 1, what is unset is 0, an f32 has 32 bits and
/// one NaN, a phase is one of five.
pub fn encodes(state: &State) -> bool {
    let flag = |index: usize| flag(state[index]).is_some();
    let optional = |index: usize| pair(state, index).is_some();
    let pattern = |index: usize| {
        let one_nan = state[index] == 0x7fc0_0000;
        float(state[index]).map_or(false, |gain| !gain.is_nan() || one_nan)
    };
    let flags = [
        s::INFLIGHT_HI_LIMITED_IN_ROUND,
        s::CWND_LIMITED,
        s::FULL_BANDWIDTH_REACHED,
        s::IGNORE_APP_LIMITED,
        s::ANYTHING_SENT,
    ];
    let optionals = [
        s::END_OF_ROUND_TRIP,
        s::BANDWIDTH_LO,
        s::SEND_RATE,
        s::ACK_RATE,
        s::PROBE_WAIT,
        s::PROBE_UP_BYTES,
    ];
    flags
        .into_iter()
        .chain(s::PROBE_UP_APP_LIMITED..state.len())
        .all(flag)
        && optionals.into_iter().all(optional)
        && pattern(s::CWND_GAIN)
        && pattern(s::PACING_GAIN)
        && state[s::PHASE] <= 4
}

/// "(inflight_hi, a cap and the round's minimum inflight may also be 2^64 - 1, meaning unset;
/// inflight_lo likewise)"
fn bytes_or_unset(number: u64) -> bool {
    number <= BYTES || number == UNSET
}

/// A number that may be unset: there is only something to test where it is set.
fn optional_ok(words: &[u64], index: usize, bound: u64) -> bool {
    match pair(words, index) {
        Some(Some(number)) => number <= bound,
        Some(None) => true,
        None => false,
    }
}

/// "NaN is refused": no comparison with it holds. "Negative zero counts as zero": it is not below
/// zero.
fn between(word: u64, low: f32, high: f32) -> bool {
    float(word).map_or(false, |number| low <= number && number <= high)
}

/// "gains 1/1024 to 8"
fn gain_ok(word: u64) -> bool {
    float(word).map_or(false, is_a_gain)
}

/// The stored model. "Counters and packet numbers are free."
pub fn model_ok(state: &State) -> bool {
    let bandwidths = [
        s::MAX_BANDWIDTH_0,
        s::MAX_BANDWIDTH_1,
        s::BANDWIDTH_LATEST,
        s::FULL_BANDWIDTH_BASELINE,
    ];
    bandwidths.iter().all(|&index| state[index] <= BANDWIDTH)
        && optional_ok(state, s::BANDWIDTH_LO, BANDWIDTH)
        && optional_ok(state, s::SEND_RATE, BANDWIDTH)
        && optional_ok(state, s::ACK_RATE, BANDWIDTH)
        && state[s::MIN_RTT] <= LENGTH
        && state[s::MIN_RTT_TIMESTAMP] <= MOMENT
        && state[s::LAST_MOMENT] <= MOMENT
        && state[s::INFLIGHT_LATEST] <= BYTES
        && bytes_or_unset(state[s::MIN_BYTES_IN_FLIGHT_IN_ROUND])
        && bytes_or_unset(state[s::INFLIGHT_LO])
        && bytes_or_unset(state[s::INFLIGHT_HI])
        && gain_ok(state[s::CWND_GAIN])
        && gain_ok(state[s::PACING_GAIN])
        && sums_ok(state)
}

/// "totals .. bytes lost and delivered in the round .. 2^62", and "Bytes lost in the round must not
/// exceed the stored total lost, nor bytes delivered in the round the stored total acked (else 1)".
fn sums_ok(state: &State) -> bool {
    state[s::TOTAL_ACKED] <= TOTAL
        && state[s::TOTAL_LOST] <= TOTAL
        && state[s::BYTES_LOST_IN_ROUND] <= TOTAL
        && state[s::MAX_BYTES_DELIVERED_IN_ROUND] <= TOTAL
        && state[s::BYTES_LOST_IN_ROUND] <= state[s::TOTAL_LOST]
        && state[s::MAX_BYTES_DELIVERED_IN_ROUND] <= state[s::TOTAL_ACKED]
}

/// The stored cycle; probe_up_acked is a byte count (decision 24).
pub fn cycle_ok(state: &State) -> bool {
    state[s::CYCLE_START] <= MOMENT
        && state[s::PHASE_START] <= MOMENT
        && optional_ok(state, s::PROBE_WAIT, WAIT)
        && state[s::PROBE_UP_ROUNDS] <= ROUNDS
        && optional_ok(state, s::PROBE_UP_BYTES, BYTES)
        && state[s::PROBE_UP_ACKED] <= BYTES
}

/// "beta from 1/1024 to 1023/1024; loss_threshold and headroom 0 to 1; full_bw_threshold 1 to 8;
/// gains 1/1024 to 8"; the two limits of rounds are counts, and free.
fn params_ok(call: &Call) -> bool {
    between(call[c::BETA], 1.0 / 1024.0, 1023.0 / 1024.0)
        && between(call[c::LOSS_THRESHOLD], 0.0, 1.0)
        && between(call[c::HEADROOM], 0.0, 1.0)
        && between(call[c::FULL_BW_THRESHOLD], 1.0, 8.0)
        && gain_ok(call[c::STARTUP_CWND_GAIN])
        && gain_ok(call[c::STARTUP_PACING_GAIN])
        && call[c::PROBE_RTT_PERIOD] <= LENGTH
        && call[c::PROBE_BASE_DURATION] <= LENGTH
        && flag(call[c::IGNORE_APP_LIMITED]).is_some()
}

/// "the total acked or the total lost is lower than the one stored"
fn totals_fall(state: &State, call: &Call) -> bool {
    call[c::TOTAL_ACKED] < state[s::TOTAL_ACKED] || call[c::TOTAL_LOST] < state[s::TOTAL_LOST]
}

/// The last sent number, if anything was sent. It is the last, also where numbers went down; a note of
/// no counts whatever the number is.
pub fn last_sent(state: &State) -> Option<u64> {
    yes(state[s::ANYTHING_SENT]).then_some(state[s::LAST_SENT_PACKET])
}

/// Document 02: "An event whose acked list holds a number above the last sent one, or any number before
/// the first send, is to be turned away as a whole." An empty list holds none, nor does one that is not
/// inside the lists.
pub fn acks_unsent(state: &State, call: &Call, lists: &[u64]) -> bool {
    let sent = last_sent(state);
    let unsent = |&number: &u64| sent.map_or(true, |sent| number > sent);
    call[c::NUMBER] == calls::ON_CONGESTION_EVENT_START
        && acked(call, lists).map_or(false, |acked| acked.iter().any(unsent))
}

/// Row 5, given only where this very call would add 1 (decision 23).
fn fills_a_counter(state: &State, call: &Call, lists: &[u64]) -> bool {
    let full = |index: usize| state[index] == u64::MAX;
    match call[c::NUMBER] {
        calls::ON_CONGESTION_EVENT_START => {
            (full(s::ROUND_TRIP_COUNT) && ends_a_round(state, call, lists))
                // "event count +1 if bytes lost > 0"
                || (full(s::LOSS_EVENTS_IN_ROUND) && call[c::TOTAL_LOST] > state[s::TOTAL_LOST])
        }
        calls::HAS_BANDWIDTH_GROWTH => {
            full(s::ROUNDS_WITHOUT_GROWTH) && counts_no_growth(state, call)
        }
        calls::CHECK_PERSISTENT_QUEUE => {
            full(s::ROUNDS_WITH_QUEUEING) && counts_a_queue(state, call)
        }
        _ => false,
    }
}

/// "A round ends if no end is set yet or that number is greater than the end .. An empty slice ends
/// no round." By document 02 that number is "the greatest number in the slice".
pub fn ends_a_round(state: &State, call: &Call, lists: &[u64]) -> bool {
    let end = optional(state, s::END_OF_ROUND_TRIP);
    let greatest = acked(call, lists).and_then(|acked| acked.iter().max());
    greatest.map_or(false, |&greatest| end.map_or(true, |end| greatest > end))
}

/// The larger of the two slots of the max filter.
pub fn max_bandwidth(state: &State) -> u64 {
    state[s::MAX_BANDWIDTH_0].max(state[s::MAX_BANDWIDTH_1])
}

/// `bdp` of network_model.rs.
pub fn bdp(state: &State, bandwidth: u64, gain: f32) -> u64 {
    reckon::bytes_per_period(reckon::bandwidth_mul(bandwidth, gain), state[s::MIN_RTT])
}

/// Whether has_bandwidth_growth sees growth.
pub fn grows(state: &State, call: &Call) -> bool {
    let threshold = gain(call[c::FULL_BW_THRESHOLD]);
    max_bandwidth(state) >= reckon::bandwidth_mul(state[s::FULL_BANDWIDTH_BASELINE], threshold)
}

/// has_bandwidth_growth adds 1 without growth, with a valid state, unless the round is ignored.
pub fn counts_no_growth(state: &State, call: &Call) -> bool {
    let valid = yes(call[c::LAST_IS_VALID]);
    let ignored = yes(state[s::IGNORE_APP_LIMITED]) && yes(call[c::LAST_IS_APP_LIMITED]);
    !grows(state, call) && valid && !ignored
}

/// check_persistent_queue adds 1 where the round's minimum inflight is not below the target.
pub fn counts_a_queue(state: &State, call: &Call) -> bool {
    let most = max_bandwidth(state);
    let beside = bdp(state, most, 1.0).saturating_add(2 * 1300);
    let target = bdp(
        state,
        most,
        gain(call[arg::check_persistent_queue::TARGET_GAIN]),
    )
    .max(beside);
    state[s::MIN_BYTES_IN_FLIGHT_IN_ROUND] >= target
}
