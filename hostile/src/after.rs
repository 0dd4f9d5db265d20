//! What a call leaves: the state and the answer, of a refused call by document 01, of an accepted
//! one by the original's Rust.

use guovssalu_sys::table::argument as arg;
use guovssalu_sys::table::call as calls;
use guovssalu_sys::table::ANSWER_WORDS;
use guovssalu_sys::table::STATE_WORDS;

use crate::next;
use crate::places;
use crate::reckon;
use crate::table;
use crate::words;
use crate::words::answer as a;
use crate::words::call as c;
use crate::words::gain;
use crate::words::optional;
use crate::words::state as s;
use crate::words::yes;
use crate::words::Answer;
use crate::words::Call;
use crate::words::State;
use crate::words::UNSET;

/// The word of a gain of 1.
pub const ONE: u64 = 0x3f80_0000;

/// A fresh model and cycle: network_model.rs `new`, and "A fresh cycle: NotStarted, both moments
/// the start's, counts 0, flags off, wait and probe_up_bytes unset". Gains and option are words.
pub fn fresh(now: u64, rtt: u64, cwnd_gain: u64, pacing_gain: u64, option: u64) -> State {
    let mut state = [0; STATE_WORDS];
    state[s::MIN_RTT] = rtt;
    for index in [
        s::MIN_RTT_TIMESTAMP,
        s::LAST_MOMENT,
        s::CYCLE_START,
        s::PHASE_START,
    ] {
        state[index] = now;
    }
    for index in [
        s::MIN_BYTES_IN_FLIGHT_IN_ROUND,
        s::INFLIGHT_LO,
        s::INFLIGHT_HI,
    ] {
        state[index] = UNSET;
    }
    state[s::CWND_GAIN] = cwnd_gain;
    state[s::PACING_GAIN] = pacing_gain;
    state[s::IGNORE_APP_LIMITED] = option;
    state
}

/// "A refused start .. returns a fresh one at moment 0 with round trip 0, both gains 1 and the
/// app-limited option off."
fn refused_start() -> State {
    fresh(0, 0, ONE, ONE, 0)
}

/// What an accepted start leaves.
fn started(call: &Call) -> State {
    let (cwnd_gain, pacing_gain) = (call[c::STARTUP_CWND_GAIN], call[c::STARTUP_PACING_GAIN]);
    let option = call[c::IGNORE_APP_LIMITED];
    let (now, rtt) = (call[arg::start::NOW], call[arg::start::INITIAL_RTT]);
    fresh(now, rtt, cwnd_gain, pacing_gain, option)
}

/// The state after a call with this reply in a run with these lists: a refusal changes nothing but at a
/// start.
pub fn state(before: &State, call: &Call, lists: &[u64], reply: u64) -> State {
    match (call[c::NUMBER], reply) {
        (calls::START, 0) => started(call),
        (calls::START, _) => refused_start(),
        (_, 0) => next::state(before, call, lists),
        _ => *before,
    }
}

/// The answer to a call with this reply in a run with these lists.
pub fn answer(before: &State, call: &Call, lists: &[u64], reply: u64) -> Answer {
    if reply != 0 {
        return refused(call, reply);
    }
    let mut answer = [0; ANSWER_WORDS];
    answer[a::VALUE] = number(before, call);
    if call[c::NUMBER] == calls::ON_CONGESTION_EVENT_START {
        answer[a::RECORD..].copy_from_slice(&next::record(before, call, lists));
    }
    answer
}

/// The answer to a refused call: "0 for a number, no for a yes or no, and an event's record as
/// handed in".
fn refused(call: &Call, reply: u64) -> Answer {
    let mut answer = [0; ANSWER_WORDS];
    answer[a::REPLY] = reply;
    if call[c::NUMBER] == calls::ON_CONGESTION_EVENT_START {
        answer[a::RECORD..].copy_from_slice(&words::record(call));
    }
    answer
}

/// The number that an accepted call answers, as network_model.rs has it.
fn number(state: &State, call: &Call) -> u64 {
    match call[c::NUMBER] {
        calls::MAYBE_EXPIRE_MIN_RTT => next::expires(state, call) as u64,
        calls::IS_INFLIGHT_TOO_HIGH => is_inflight_too_high(state, call) as u64,
        calls::HAS_BANDWIDTH_GROWTH => table::grows(state, call) as u64,
        calls::BDP => table::bdp(state, call[arg::bdp::BANDWIDTH], gain(call[arg::bdp::GAIN])),
        calls::BDP1 => table::bdp(state, call[arg::bdp1::BANDWIDTH], 1.0),
        calls::BDP0 => table::bdp(state, table::max_bandwidth(state), 1.0),
        calls::INFLIGHT_HI_WITH_HEADROOM => {
            with_headroom(state[s::INFLIGHT_HI], gain(call[c::HEADROOM]))
        }
        calls::BANDWIDTH_ESTIMATE => optional(state, s::BANDWIDTH_LO)
            .unwrap_or(u64::MAX)
            .min(table::max_bandwidth(state)),
        calls::MAX_BANDWIDTH => table::max_bandwidth(state),
        calls::INFLIGHT_HI_DEFAULT => UNSET,
        calls::QUEUEING_THRESHOLD_EXTRA_BYTES => 2 * 1300,
        number => stored(number).map_or(0, |index| state[index]),
    }
}

/// The word of the state that a call answers as it stands.
fn stored(number: u64) -> Option<usize> {
    Some(match number {
        calls::MIN_RTT => s::MIN_RTT,
        calls::MIN_RTT_TIMESTAMP => s::MIN_RTT_TIMESTAMP,
        calls::MAX_BYTES_DELIVERED_IN_ROUND => s::MAX_BYTES_DELIVERED_IN_ROUND,
        calls::TOTAL_BYTES_ACKED => s::TOTAL_ACKED,
        calls::TOTAL_BYTES_LOST => s::TOTAL_LOST,
        calls::FULL_BANDWIDTH_REACHED => s::FULL_BANDWIDTH_REACHED,
        calls::PACING_GAIN => s::PACING_GAIN,
        calls::CWND_GAIN => s::CWND_GAIN,
        calls::INFLIGHT_HI => s::INFLIGHT_HI,
        calls::INFLIGHT_LO => s::INFLIGHT_LO,
        calls::LOSS_EVENTS_IN_ROUND => s::LOSS_EVENTS_IN_ROUND,
        calls::ROUNDS_WITH_QUEUEING => s::ROUNDS_WITH_QUEUEING,
        _ => return None,
    })
}

/// `is_inflight_too_high` of network_model.rs.
fn is_inflight_too_high(state: &State, call: &Call) -> bool {
    let (lost, inflight) = (state[s::BYTES_LOST_IN_ROUND], call[c::LAST_IN_FLIGHT]);
    yes(call[c::LAST_IS_VALID])
        && state[s::LOSS_EVENTS_IN_ROUND] >= call[arg::is_inflight_too_high::MAX_LOSS_EVENTS]
        && inflight > 0
        && lost > 0
        && lost > reckon::scale(inflight, gain(call[c::LOSS_THRESHOLD]))
}

/// `inflight_hi_with_headroom` of network_model.rs.
fn with_headroom(inflight_hi: u64, headroom: f32) -> u64 {
    inflight_hi.saturating_sub(reckon::scale(inflight_hi, headroom))
}

/// "an accepted call on an in-bounds state leaves an in-bounds state", and one that its bytes
/// encode; an event's record stays within its bounds, too.
pub fn within(call: &Call, after: &State, answer: &Answer) -> bool {
    table::encodes(after)
        && (!table::gets_model(call[c::NUMBER]) || table::model_ok(after))
        && (!table::gets_cycle(call[c::NUMBER]) || table::cycle_ok(after))
        && (call[c::NUMBER] != calls::ON_CONGESTION_EVENT_START
            || places::record_ok(&answer[a::RECORD..]))
}
