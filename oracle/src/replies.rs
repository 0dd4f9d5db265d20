//! The replies of the port, by document 01, "Replies and bounds", and by
//! document 02 where it changes that: read from their words, apart from the
//! port's code. `places` says which argument a refusal with 2 names.

use std::collections::BTreeMap;

use guovssalu_sys::table::params;
use guovssalu_sys::table::reply::BAD_ARGUMENT;
use guovssalu_sys::table::reply::OUT_OF_BOUNDS;
use guovssalu_sys::table::ARGUMENTS_IN_CALL;
use guovssalu_sys::table::NUMBER_IN_CALL;
use guovssalu_sys::table::PARAMS_IN_CALL;
use guovssalu_sys::table::UNSET;

use crate::bounds::gain;
use crate::bounds::BANDWIDTH;
use crate::bounds::BYTES;
use crate::bounds::LEAST_GAIN;
use crate::bounds::LENGTH;
use crate::bounds::MOMENT;
use crate::bounds::MOST_BETA;
use crate::bounds::TOTAL;
use crate::bounds::UP_ROUNDS;
use crate::model::field::*;
use crate::model::Call;
use crate::model::Start;
use crate::model::State;
use crate::places;
use crate::places::NO_CALL;

/// The state that a refused start leaves is that of this one: "a fresh one at
/// moment 0 with round trip 0, both gains 1 and the app-limited option off".
/// The other numbers are not stored.
pub const REFUSED_START: Start = Start {
    moment: 0,
    initial_rtt: 0,
    beta: 0.5,
    loss_threshold: 0.0,
    headroom: 0.0,
    full_bw_threshold: 1.0,
    cwnd_gain: 1.0,
    pacing_gain: 1.0,
    full_bw_rounds: 0,
    queue_rounds: 0,
    probe_rtt_period: 0,
    probe_base_duration: 0,
    ignore_app_limited: false,
};

/// The row of a reply in the table: what is left without the kind and the place.
pub fn row(reply: u64) -> u64 {
    reply & 0xff
}

/// The kind of bound that a reply names, and the place of the argument; 0 where
/// the row isn't 2.
pub fn named(reply: u64) -> (u64, u64) {
    (reply >> 8 & 0xff, reply >> 16)
}

/// A reply as it is read: `5`, or `2.9 at 1`.
pub fn shown(reply: u64) -> String {
    match (row(reply), named(reply)) {
        (row, (0, 0)) => row.to_string(),
        (row, (kind, place)) => format!("{row}.{kind} at {place}"),
    }
}

/// How many calls were given each reply: by the row, and in row 2 by the kind.
#[derive(Default)]
pub struct Given(BTreeMap<(u64, u64), u64>);

impl Given {
    pub fn add(&mut self, reply: u64) {
        let (kind, _) = named(reply);
        *self.0.entry((row(reply), kind)).or_default() += 1;
    }

    /// How many calls there were.
    pub fn calls(&self) -> u64 {
        self.0.values().sum()
    }

    pub fn told(&self) -> String {
        let count = |row: u64| -> u64 {
            let of_row = self.0.range((row, 0)..(row + 1, 0));
            of_row.map(|(_, count)| count).sum()
        };
        let kinds = self.0.range((BAD_ARGUMENT, 1)..(BAD_ARGUMENT + 1, 0));
        let kinds = kinds.map(|((row, kind), count)| format!("{row}.{kind}: {count}"));
        let kinds: Vec<String> = kinds.collect();
        let refused = [1, 2, 3, 4, 5, 7, 10].map(|row| match row {
            BAD_ARGUMENT if !kinds.is_empty() => {
                format!("{row}: {} ({})", count(row), kinds.join(", "))
            }
            _ => format!("{row}: {}", count(row)),
        });
        format!("{} accepted; refused with {}", count(0), refused.join(", "))
    }
}

/// The reply to a call in a state, after a start with these parameters or with
/// the start's own: the first row of the table that holds, or 0. Row 10 is asked
/// after 4 and before 5.
pub fn reply(call: &Call, state: &State, start: &Start) -> u64 {
    match call {
        Call::Event(sample) => reply_with(call, sample.acked(), state, start),
        _ => reply_with(call, &[], state, start),
    }
}

/// The same; an event has these acked numbers in place of its own.
pub fn reply_with(call: &Call, acked: &[u64], state: &State, start: &Start) -> u64 {
    if !stored(call, state) || takes_parameters(call) && !parameters(start) {
        return OUT_OF_BOUNDS;
    }
    if let Some(fault) = places::of_call(&places::words_of(call, state, start), state) {
        return fault.reply();
    }
    if moment(call, state).is_some_and(|moment| moment < state[LAST_MOMENT]) {
        3
    } else if total_falls(call, state) {
        4
    } else if never_sent(acked, state) {
        10
    } else if overflows(call, acked, state, start) {
        5
    } else {
        0
    }
}

/// The reply to a call that is refused for its words, whatever the state is, in a
/// run that is lent lists of so many words; none where it isn't. By docs/LAYOUT.md
/// a malformed argument is a bad one, and so is a number that is no call's: 2. A
/// malformed parameter is one out of bounds: 1, as where another number of row 1
/// is out of its bounds.
pub fn to_words(words: &[u64], lists: usize, state: &State) -> Option<u64> {
    let start = REFUSED_START.with_parameters(&words[PARAMS_IN_CALL..]);
    let (number, arguments) = (words[NUMBER_IN_CALL], &words[ARGUMENTS_IN_CALL..]);
    let Some(call) = Call::of(number, arguments, &start) else {
        let reply = NO_CALL.reply();
        return Some(if model(state) { reply } else { OUT_OF_BOUNDS });
    };
    let formed = parameters_formed(&words[PARAMS_IN_CALL..]);
    let parameter = takes_parameters(&call) && !(formed && parameters(&start));
    let fault = places::of_words(words, lists);
    if parameter || fault.is_some() && !stored(&call, state) {
        return Some(OUT_OF_BOUNDS);
    }
    fault.map(|fault| fault.reply())
}

/// Whether the words of the parameters are such as are written.
fn parameters_formed(words: &[u64]) -> bool {
    let floats = [
        params::BETA,
        params::LOSS_THRESHOLD,
        params::INFLIGHT_HI_HEADROOM,
        params::FULL_BW_THRESHOLD,
        params::STARTUP_CWND_GAIN,
        params::STARTUP_PACING_GAIN,
    ];
    let option = params::IGNORE_APP_LIMITED_FOR_NO_BANDWIDTH_GROWTH;
    floats.iter().all(|&at| words[at] >> 32 == 0) && words[option] <= 1
}

/// Whether the stored numbers that the call is given are within their bounds:
/// the model's for every call but the slope's, the cycle's for those that are
/// given the cycle. A start is given neither, and setting the record is no call.
fn stored(call: &Call, state: &State) -> bool {
    match call {
        Call::Start(_) | Call::Record(_) => true,
        Call::RaiseSlope { .. } => cycle(state),
        Call::ProbeDown { .. }
        | Call::ProbeCruise { .. }
        | Call::ProbeRefill { .. }
        | Call::ProbeUp { .. }
        | Call::ExitProbeDown => model(state) && cycle(state),
        _ => model(state),
    }
}

fn model(state: &State) -> bool {
    let bytes_or_unset = |bytes: u64| bytes <= BYTES || bytes == UNSET;
    let most = |limit: u64, fields: &[usize]| fields.iter().all(|&field| state[field] <= limit);
    most(
        BANDWIDTH,
        &[
            SLOT_0,
            SLOT_1,
            BANDWIDTH_LATEST,
            BANDWIDTH_LO,
            BASELINE,
            SEND_RATE,
            ACK_RATE,
        ],
    ) && most(LENGTH, &[MIN_RTT])
        && most(MOMENT, &[MIN_RTT_TIMESTAMP, LAST_MOMENT])
        && most(
            TOTAL,
            &[BYTES_LOST_IN_ROUND, MAX_DELIVERED, TOTAL_ACKED, TOTAL_LOST],
        )
        && most(BYTES, &[INFLIGHT_LATEST])
        && bytes_or_unset(state[MIN_IN_FLIGHT])
        && bytes_or_unset(state[INFLIGHT_LO])
        && bytes_or_unset(state[INFLIGHT_HI])
        && gain(f32::from_bits(state[CWND_GAIN] as u32))
        && gain(f32::from_bits(state[PACING_GAIN] as u32))
        && state[BYTES_LOST_IN_ROUND] <= state[TOTAL_LOST]
        && state[MAX_DELIVERED] <= state[TOTAL_ACKED]
}

/// The stored wait may be 500,000 ns longer than a length of time.
fn cycle(state: &State) -> bool {
    state[CYCLE_START] <= MOMENT
        && state[PHASE_START] <= MOMENT
        && state[PROBE_WAIT] <= LENGTH + 500_000
        && state[PROBE_UP_ROUNDS] <= UP_ROUNDS
        && state[PROBE_UP_BYTES] <= BYTES
        && state[PROBE_UP_ACKED] <= BYTES
}

/// Whether the call is given the parameters, as in the original.
fn takes_parameters(call: &Call) -> bool {
    matches!(
        call,
        Call::Start(_)
            | Call::Event(_)
            | Call::ExpireMinRtt
            | Call::InflightTooHigh { .. }
            | Call::BandwidthGrowth
            | Call::PersistentQueue { .. }
            | Call::WithHeadroom
            | Call::ProbeDown { .. }
    )
}

fn parameters(start: &Start) -> bool {
    let unit = |number: f32| (0.0..=1.0).contains(&number);
    (LEAST_GAIN..=MOST_BETA).contains(&start.beta)
        && unit(start.loss_threshold)
        && unit(start.headroom)
        && (1.0..=8.0).contains(&start.full_bw_threshold)
        && gain(start.cwnd_gain)
        && gain(start.pacing_gain)
        && start.probe_rtt_period <= LENGTH
        && start.probe_base_duration <= LENGTH
}

/// The moment that the call is given, if its order counts: sends, events and
/// phase entries share the last accepted one.
fn moment(call: &Call, state: &State) -> Option<u64> {
    match *call {
        Call::Sent { moment, .. }
        | Call::ProbeDown { moment, .. }
        | Call::ProbeCruise { moment }
        | Call::ProbeRefill { moment, .. }
        | Call::ProbeUp { moment, .. } => Some(moment),
        Call::Event(_) => Some(state[EVENT_TIME]),
        _ => None,
    }
}

fn total_falls(call: &Call, state: &State) -> bool {
    match call {
        Call::Event(sample) => {
            sample.total_acked < state[TOTAL_ACKED] || sample.total_lost < state[TOTAL_LOST]
        }
        _ => false,
    }
}

/// Whether one of an event's acked numbers is above the last sent one, or there
/// is any before the first send.
pub fn never_sent(acked: &[u64], state: &State) -> bool {
    let unsent = |&number: &u64| state[ANYTHING_SENT] == 0 || number > state[LAST_SENT];
    acked.iter().any(unsent)
}

/// Whether the call's rule adds 1 to a counter that is full. It is the greatest
/// acked number that ends a round.
pub fn overflows(call: &Call, acked: &[u64], state: &State, start: &Start) -> bool {
    let full = |field: usize| state[field] == u64::MAX;
    match call {
        Call::Event(sample) => {
            let greatest = acked.iter().max();
            let ends = greatest.is_some_and(|&it| state[END_SET] == 0 || it > state[END]);
            ends && full(ROUND_TRIP_COUNT)
                || sample.total_lost > state[TOTAL_LOST] && full(LOSS_EVENTS_IN_ROUND)
        }
        Call::BandwidthGrowth => full(ROUNDS_WITHOUT_GROWTH) && counts_no_growth(state, start),
        Call::PersistentQueue { gain } => full(ROUNDS_WITH_QUEUEING) && queues(state, *gain),
        _ => false,
    }
}

/// Whether a round without growth is counted: the maximum is below the
/// threshold, and the last packet's state is valid and not ignored.
fn counts_no_growth(state: &State, start: &Start) -> bool {
    let ignored = state[IGNORE_APP_LIMITED] == 1 && state[STATE_APP_LIMITED] == 1;
    maximum(state) < scaled(state[BASELINE], start.full_bw_threshold)
        && state[STATE_VALID] == 1
        && !ignored
}

/// Whether a round with a queue is counted: the least inflight is not below
/// the target.
fn queues(state: &State, gain: f32) -> bool {
    let bytes =
        |bandwidth: u64| (bandwidth as u128 * state[MIN_RTT] as u128 / 8_000_000_000) as u64;
    let target = bytes(scaled(maximum(state), gain)).max(bytes(maximum(state)) + 2600);
    state[MIN_IN_FLIGHT] >= target
}

fn maximum(state: &State) -> u64 {
    state[SLOT_0].max(state[SLOT_1])
}

fn scaled(bandwidth: u64, gain: f32) -> u64 {
    (bandwidth as f64 * gain as f64).round() as u64
}
