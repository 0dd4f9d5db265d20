//! The state and the record after an accepted call, written from network_model.rs and probe_bw.rs
//! of the original, in their order; which event ends a round is read in `table`.

use guovssalu_sys::table::argument as arg;
use guovssalu_sys::table::call as calls;
use guovssalu_sys::table::phase::CRUISE;
use guovssalu_sys::table::phase::DOWN;
use guovssalu_sys::table::phase::REFILL;
use guovssalu_sys::table::phase::UP;

use crate::reckon;
use crate::table;
use crate::words;
use crate::words::call as c;
use crate::words::gain;
use crate::words::optional;
use crate::words::state as s;
use crate::words::yes;
use crate::words::Call;
use crate::words::Record;
use crate::words::State;
use crate::words::UNSET;

/// The state after an accepted call, which is no start, in a run with these lists.
pub fn state(before: &State, call: &Call, lists: &[u64]) -> State {
    let mut state = *before;
    match call[c::NUMBER] {
        calls::ON_PACKET_SENT => on_packet_sent(&mut state, call),
        calls::ON_CONGESTION_EVENT_START => drop(event(&mut state, call, lists)),
        calls::ON_CONGESTION_EVENT_FINISH if yes(call[c::END_OF_ROUND_TRIP]) => {
            on_new_round(&mut state)
        }
        calls::MAYBE_EXPIRE_MIN_RTT if expires(before, call) => {
            state[s::MIN_RTT] = call[c::RECORD_RTT + 1];
            state[s::MIN_RTT_TIMESTAMP] = call[c::EVENT_TIME];
        }
        calls::HAS_BANDWIDTH_GROWTH => has_bandwidth_growth(&mut state, call),
        calls::RESTART_ROUND_EARLY => restart_round_early(&mut state),
        calls::CHECK_PERSISTENT_QUEUE => check_persistent_queue(&mut state, call),
        calls::SET_FULL_BANDWIDTH_REACHED => state[s::FULL_BANDWIDTH_REACHED] = 1,
        calls::SET_PACING_GAIN => state[s::PACING_GAIN] = call[arg::set_pacing_gain::PACING_GAIN],
        calls::SET_CWND_GAIN => state[s::CWND_GAIN] = call[arg::set_cwnd_gain::CWND_GAIN],
        calls::SET_INFLIGHT_HI => {
            state[s::INFLIGHT_HI] = call[arg::set_inflight_hi::NEW_INFLIGHT_HI]
        }
        calls::CAP_INFLIGHT_LO => cap_inflight_lo(&mut state, call[arg::cap_inflight_lo::CAP]),
        calls::CLEAR_INFLIGHT_LO => state[s::INFLIGHT_LO] = UNSET,
        calls::CLEAR_BANDWIDTH_LO => set(&mut state, s::BANDWIDTH_LO, None),
        calls::ADVANCE_MAX_BANDWIDTH_FILTER => advance(&mut state),
        calls::POSTPONE_MIN_RTT_TIMESTAMP => {
            state[s::MIN_RTT_TIMESTAMP] += call[arg::postpone_min_rtt_timestamp::DURATION]
        }
        number if table::gets_cycle(number) => on_cycle(&mut state, call),
        _ => {}
    }
    if let Some(now) = table::moment(call) {
        state[s::LAST_MOMENT] = now;
    }
    state
}

/// The record after an accepted event.
pub fn record(before: &State, call: &Call, lists: &[u64]) -> Record {
    event(&mut before.clone(), call, lists)
}

/// Sets a pair of words to a number or to unset.
fn set(words: &mut [u64], index: usize, number: Option<u64>) {
    words[index] = number.is_some() as u64;
    words[index + 1] = number.unwrap_or(0);
}

fn on_packet_sent(state: &mut State, call: &Call) {
    let in_flight = call[arg::on_packet_sent::BYTES_IN_FLIGHT];
    let bytes = call[arg::on_packet_sent::BYTES];
    let least = &mut state[s::MIN_BYTES_IN_FLIGHT_IN_ROUND];
    *least = in_flight.min(*least);
    if in_flight + bytes >= state[s::INFLIGHT_HI] {
        state[s::INFLIGHT_HI_LIMITED_IN_ROUND] = 1;
    }
    state[s::LAST_SENT_PACKET] = call[arg::on_packet_sent::PACKET_NUMBER];
    // Document 02: "The state gains a note of whether anything was sent."
    state[s::ANYTHING_SENT] = 1;
}

/// on_congestion_event_start: changes the state and answers the record.
fn event(state: &mut State, call: &Call, lists: &[u64]) -> Record {
    let mut record = words::record(call);
    let ends = table::ends_a_round(state, call, lists);
    if ends {
        state[s::ROUND_TRIP_COUNT] += 1;
        let sent = state[s::LAST_SENT_PACKET];
        set(state, s::END_OF_ROUND_TRIP, Some(sent));
    }
    record[c::END_OF_ROUND_TRIP - c::RECORD] = ends as u64;
    if call[c::EXTRA_ACKED] == 0 {
        let limited = call[c::PRIOR_IN_FLIGHT] >= call[c::PRIOR_CWND];
        state[s::CWND_LIMITED] = limited as u64;
    }
    if yes(call[c::SENT_IS_VALID]) {
        let last = c::LAST_IS_VALID - c::RECORD;
        record[last..].copy_from_slice(&call[c::SENT_IS_VALID..=c::SENT_IN_FLIGHT]);
    }
    take_samples(state, &mut record, call);
    add_totals(state, &mut record, call);
    raise_latest(state, call);
    if ends && !yes(call[c::IS_PROBING]) && state[s::BYTES_LOST_IN_ROUND] > 0 {
        adapt_lower_bounds(state, call);
    }
    if ends {
        let sample = optional(call, c::SAMPLE_BANDWIDTH);
        state[s::BANDWIDTH_LATEST] = sample.unwrap_or(state[s::BANDWIDTH_LATEST]);
        if call[c::SAMPLE_MAX_INFLIGHT] > 0 {
            state[s::INFLIGHT_LATEST] = call[c::SAMPLE_MAX_INFLIGHT];
        }
    }
    record
}

/// The max filter, the minimum RTT and the latest rates.
fn take_samples(state: &mut State, record: &mut Record, call: &Call) {
    let bandwidth = optional(call, c::SAMPLE_BANDWIDTH);
    if let (Some(sample), true) = (bandwidth, call[c::TOTAL_ACKED] != state[s::TOTAL_ACKED]) {
        set(record, c::RECORD_BANDWIDTH - c::RECORD, Some(sample));
        if !yes(call[c::SAMPLE_IS_APP_LIMITED]) || sample > table::max_bandwidth(state) {
            state[s::MAX_BANDWIDTH_1] = state[s::MAX_BANDWIDTH_1].max(sample);
        }
    }
    if let Some(rtt) = optional(call, c::SAMPLE_RTT) {
        set(record, c::RECORD_RTT - c::RECORD, Some(rtt));
        if rtt < state[s::MIN_RTT] {
            state[s::MIN_RTT] = rtt;
            state[s::MIN_RTT_TIMESTAMP] = call[c::EVENT_TIME];
        }
    }
    set(state, s::SEND_RATE, optional(call, c::SAMPLE_SEND_RATE));
    set(state, s::ACK_RATE, optional(call, c::SAMPLE_ACK_RATE));
}

/// Bytes acked and lost, inflight after, loss sums, the delivered maximum, the minimum inflight.
fn add_totals(state: &mut State, record: &mut Record, call: &Call) {
    let total = call[c::TOTAL_ACKED];
    let acked = total - state[s::TOTAL_ACKED];
    let lost = call[c::TOTAL_LOST] - state[s::TOTAL_LOST];
    state[s::TOTAL_ACKED] = total;
    state[s::TOTAL_LOST] = call[c::TOTAL_LOST];
    let prior = call[c::PRIOR_IN_FLIGHT];
    let in_flight = prior.saturating_sub(acked).saturating_sub(lost);
    record[c::BYTES_ACKED - c::RECORD] = acked;
    record[c::BYTES_LOST - c::RECORD] = lost;
    record[c::IN_FLIGHT - c::RECORD] = in_flight;
    if lost > 0 {
        state[s::BYTES_LOST_IN_ROUND] += lost;
        state[s::LOSS_EVENTS_IN_ROUND] += 1;
    }
    let valid = yes(record[c::LAST_IS_VALID - c::RECORD]);
    let sent = record[c::LAST_TOTAL_ACKED - c::RECORD];
    if acked > 0 && valid && total > sent {
        let most = &mut state[s::MAX_BYTES_DELIVERED_IN_ROUND];
        *most = (total - sent).max(*most);
    }
    let least = &mut state[s::MIN_BYTES_IN_FLIGHT_IN_ROUND];
    *least = in_flight.min(*least);
}

/// The latest bandwidth and inflight only rise within a round.
fn raise_latest(state: &mut State, call: &Call) {
    let sample = optional(call, c::SAMPLE_BANDWIDTH).unwrap_or(0);
    state[s::BANDWIDTH_LATEST] = state[s::BANDWIDTH_LATEST].max(sample);
    state[s::INFLIGHT_LATEST] = state[s::INFLIGHT_LATEST].max(call[c::SAMPLE_MAX_INFLIGHT]);
}

/// adapt_lower_bounds in its default mode, past its tests.
fn adapt_lower_bounds(state: &mut State, call: &Call) {
    let b = 1.0 - gain(call[c::BETA]);
    let seed = table::max_bandwidth(state);
    let lo = optional(state, s::BANDWIDTH_LO).unwrap_or(seed);
    let lo = reckon::bandwidth_mul(lo, b).max(state[s::BANDWIDTH_LATEST]);
    set(state, s::BANDWIDTH_LO, Some(lo));
    if state[s::INFLIGHT_LO] == UNSET {
        state[s::INFLIGHT_LO] = call[c::PRIOR_CWND];
    }
    let inflight = reckon::scale(state[s::INFLIGHT_LO], b);
    state[s::INFLIGHT_LO] = inflight.max(state[s::INFLIGHT_LATEST]);
}

/// "Expiry needs a sample and a moment not earlier than the stored one plus the period".
pub fn expires(state: &State, call: &Call) -> bool {
    let due = state[s::MIN_RTT_TIMESTAMP].saturating_add(call[c::PROBE_RTT_PERIOD]);
    optional(call, c::RECORD_RTT).is_some() && call[c::EVENT_TIME] >= due
}

fn on_new_round(state: &mut State) {
    state[s::BYTES_LOST_IN_ROUND] = 0;
    state[s::LOSS_EVENTS_IN_ROUND] = 0;
    state[s::MAX_BYTES_DELIVERED_IN_ROUND] = 0;
    state[s::MIN_BYTES_IN_FLIGHT_IN_ROUND] = UNSET;
    state[s::INFLIGHT_HI_LIMITED_IN_ROUND] = 0;
}

fn restart_round_early(state: &mut State) {
    on_new_round(state);
    let sent = state[s::LAST_SENT_PACKET];
    set(state, s::END_OF_ROUND_TRIP, Some(sent));
    state[s::ROUNDS_WITH_QUEUEING] = 0;
}

fn has_bandwidth_growth(state: &mut State, call: &Call) {
    if table::grows(state, call) {
        state[s::FULL_BANDWIDTH_BASELINE] = table::max_bandwidth(state);
        state[s::ROUNDS_WITHOUT_GROWTH] = 0;
    } else if yes(call[c::LAST_IS_VALID]) {
        state[s::ROUNDS_WITHOUT_GROWTH] += table::counts_no_growth(state, call) as u64;
        let enough = state[s::ROUNDS_WITHOUT_GROWTH] >= call[c::STARTUP_FULL_BW_ROUNDS];
        if enough && !yes(call[c::LAST_IS_APP_LIMITED]) {
            state[s::FULL_BANDWIDTH_REACHED] = 1;
        }
    }
}

fn check_persistent_queue(state: &mut State, call: &Call) {
    if !table::counts_a_queue(state, call) {
        state[s::ROUNDS_WITH_QUEUEING] = 0;
        return;
    }
    state[s::ROUNDS_WITH_QUEUEING] += 1;
    if state[s::ROUNDS_WITH_QUEUEING] >= call[c::MAX_STARTUP_QUEUE_ROUNDS] {
        state[s::FULL_BANDWIDTH_REACHED] = 1;
    }
}

fn cap_inflight_lo(state: &mut State, cap: u64) {
    if state[s::INFLIGHT_LO] != UNSET {
        state[s::INFLIGHT_LO] = cap.min(state[s::INFLIGHT_LO]);
    }
}

/// "advance does nothing if slot 1 is zero, else moves it to slot 0 and zeroes it"
fn advance(state: &mut State) {
    if state[s::MAX_BANDWIDTH_1] != 0 {
        state[s::MAX_BANDWIDTH_0] = state[s::MAX_BANDWIDTH_1];
        state[s::MAX_BANDWIDTH_1] = 0;
    }
}

/// The phase entries, the exit from Down and the slope.
fn on_cycle(state: &mut State, call: &Call) {
    let given = |at: usize| call[at];
    match call[c::NUMBER] {
        calls::ENTER_PROBE_DOWN => enter_probe_down(state, call),
        calls::ENTER_PROBE_CRUISE => enter_probe_cruise(state, given(arg::enter_probe_cruise::NOW)),
        calls::ENTER_PROBE_REFILL => {
            let rounds = given(arg::enter_probe_refill::PROBE_UP_ROUNDS);
            enter_probe_refill(state, rounds, given(arg::enter_probe_refill::NOW))
        }
        calls::ENTER_PROBE_UP => {
            let cwnd = given(arg::enter_probe_up::CWND);
            enter_probe_up(state, given(arg::enter_probe_up::NOW), cwnd)
        }
        calls::EXIT_PROBE_DOWN => exit_probe_down(state),
        _ => raise_inflight_high_slope(state, given(arg::raise_inflight_high_slope::CWND)),
    }
}

/// What all four entries do.
fn enter(state: &mut State, phase: u64, now: u64) {
    state[s::PHASE] = phase;
    state[s::PHASE_START] = now;
    state[s::ROUNDS_IN_PHASE] = 0;
}

fn enter_probe_down(state: &mut State, call: &Call) {
    let now = call[arg::enter_probe_down::NOW];
    state[s::LAST_PROBED_TOO_HIGH] = call[arg::enter_probe_down::PROBED_TOO_HIGH];
    state[s::LAST_STOPPED_RISKY_PROBE] = call[arg::enter_probe_down::STOPPED_RISKY_PROBE];
    enter(state, DOWN, now);
    state[s::CYCLE_START] = now;
    state[s::ROUNDS_SINCE_PROBE] = 0;
    let wait = call[c::PROBE_BASE_DURATION] + 500_000;
    set(state, s::PROBE_WAIT, Some(wait));
    set(state, s::PROBE_UP_BYTES, None);
    state[s::PROBE_UP_APP_LIMITED] = 0;
    state[s::HAS_ADVANCED_MAX_BW] = 0;
    restart_round_early(state);
}

fn enter_probe_cruise(state: &mut State, now: u64) {
    if state[s::PHASE] == DOWN {
        exit_probe_down(state);
    }
    let cap = state[s::INFLIGHT_HI];
    cap_inflight_lo(state, cap);
    enter(state, CRUISE, now);
    state[s::IS_SAMPLE_FROM_PROBING] = 0;
}

fn enter_probe_refill(state: &mut State, probe_up_rounds: u64, now: u64) {
    if state[s::PHASE] == DOWN {
        exit_probe_down(state);
    }
    enter(state, REFILL, now);
    state[s::IS_SAMPLE_FROM_PROBING] = 0;
    state[s::LAST_STOPPED_RISKY_PROBE] = 0;
    set(state, s::BANDWIDTH_LO, None);
    state[s::INFLIGHT_LO] = UNSET;
    state[s::PROBE_UP_ROUNDS] = probe_up_rounds;
    state[s::PROBE_UP_ACKED] = 0;
    restart_round_early(state);
}

fn enter_probe_up(state: &mut State, now: u64, cwnd: u64) {
    enter(state, UP, now);
    state[s::IS_SAMPLE_FROM_PROBING] = 1;
    raise_inflight_high_slope(state, cwnd);
    restart_round_early(state);
}

fn exit_probe_down(state: &mut State) {
    if state[s::HAS_ADVANCED_MAX_BW] == 0 {
        advance(state);
        state[s::HAS_ADVANCED_MAX_BW] = 1;
    }
}

/// "growth is 2^rounds; rounds become min(rounds + 1, 30); probe_up_bytes is max(window / growth,
/// 1300)"
fn raise_inflight_high_slope(state: &mut State, cwnd: u64) {
    let rounds = state[s::PROBE_UP_ROUNDS];
    state[s::PROBE_UP_ROUNDS] = (rounds + 1).min(30);
    set(state, s::PROBE_UP_BYTES, Some((cwnd >> rounds).max(1300)));
}
