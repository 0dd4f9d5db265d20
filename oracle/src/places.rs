//! Which argument of a call is at fault, and by which kind of bound: what a
//! refusal with 2 says by document 02, request b. Read from its words and its
//! table, apart from the port's code.

use std::fmt;

use guovssalu_sys::table::argument;
use guovssalu_sys::table::call;
use guovssalu_sys::table::event;
use guovssalu_sys::table::reply;
use guovssalu_sys::table::sample;
use guovssalu_sys::table::EVENT_IN_CALL;
use guovssalu_sys::table::MOST_ACKED;
use guovssalu_sys::table::NUMBER_IN_CALL;
use guovssalu_sys::table::UNSET;

use crate::bounds;
use crate::bounds::BANDWIDTH;
use crate::bounds::BYTES;
use crate::bounds::LENGTH;
use crate::bounds::MOMENT;
use crate::bounds::TOTAL;
use crate::bounds::UP_ROUNDS;
use crate::frame;
use crate::frame::CallWords;
use crate::frame::CARRIED;
use crate::model::field::MIN_RTT_TIMESTAMP;
use crate::model::Call;
use crate::model::Start;
use crate::model::State;

/// The kinds of bounds, in the order of document 02.
#[derive(Clone, Copy, Debug, PartialEq, Eq, PartialOrd, Ord)]
pub enum Kind {
    /// A congestion window.
    Window = 1,
    /// Any other number of bytes.
    Bytes,
    Bandwidth,
    /// A length of time.
    Length,
    Total,
    UpRounds,
    Gain,
    /// A length of bytes or of a list, a word that nobody writes, or a number
    /// that is no call's.
    Form,
    Moment,
}

/// What a refusal with 2 says: the kind of bound, and the place of the argument,
/// counted from 1.
#[derive(Clone, Copy, Debug, PartialEq)]
pub struct Fault {
    pub kind: Kind,
    pub place: u64,
}

/// A number that is no call's.
pub const NO_CALL: Fault = Fault::new(Kind::Form, 0);

/// Of a run: the length of the state, its first argument, and that of the calls.
pub const STATE_LENGTH: Fault = Fault::new(Kind::Form, 1);
pub const CALLS_LENGTH: Fault = Fault::new(Kind::Form, 2);

/// Of the exported filter run: the length of the pairs, after the window.
pub const PAIRS_LENGTH: Fault = Fault::new(Kind::Form, 2);

/// Of the exported slope: the window, after the rounds.
pub const SLOPE_WINDOW: Fault = Fault::new(Kind::Window, 2);

impl Fault {
    pub const fn new(kind: Kind, place: u64) -> Self {
        Fault { kind, place }
    }

    /// The reply that says it.
    pub const fn reply(self) -> u64 {
        reply::BAD_ARGUMENT + (1 << 8) * self.kind as u64 + (1 << 16) * self.place
    }
}

/// As support reads it, `2.9 at 1`.
impl fmt::Display for Fault {
    fn fmt(&self, to: &mut fmt::Formatter) -> fmt::Result {
        let Fault { kind, place } = self;
        write!(to, "{}.{} at {place}", reply::BAD_ARGUMENT, *kind as u64)
    }
}

/// What an argument, or a field of one, may hold.
#[derive(Clone, Copy, Debug)]
pub enum Held {
    /// A number up to this.
    UpTo(u64, Kind),
    /// Bytes, or unset.
    Bound,
    Flag,
    Gain,
    /// A flag, and a number up to this; 0 where the flag is.
    Pair(u64, Kind),
    /// A count of acked numbers, and the numbers, or where they begin in the lists.
    Acked,
}

use Held::*;

/// A field: its first word in a call, and what it may hold.
pub type Field = (usize, Held);

const A_WINDOW: Held = UpTo(BYTES, Kind::Window);
const A_COUNT: Held = UpTo(BYTES, Kind::Bytes);
const A_BANDWIDTH: Held = UpTo(BANDWIDTH, Kind::Bandwidth);
pub const A_LENGTH: Held = UpTo(LENGTH, Kind::Length);
const A_TOTAL: Held = UpTo(TOTAL, Kind::Total);
const A_MOMENT: Held = UpTo(MOMENT, Kind::Moment);
const BANDWIDTH_OR_NONE: Held = Pair(BANDWIDTH, Kind::Bandwidth);
const LENGTH_OR_NONE: Held = Pair(LENGTH, Kind::Length);

/// An argument that may be anything.
const FREE: &[Field] = &[];

const ACKED: &[Field] = &[(sample::ACKED_COUNT, Acked)];

/// An event's bytes are bounded like totals.
const EVENT: &[Field] = &[
    (EVENT_IN_CALL + event::EVENT_TIME, A_MOMENT),
    (EVENT_IN_CALL + event::PRIOR_CWND, A_WINDOW),
    (EVENT_IN_CALL + event::PRIOR_BYTES_IN_FLIGHT, A_COUNT),
    (EVENT_IN_CALL + event::BYTES_IN_FLIGHT, A_COUNT),
    (EVENT_IN_CALL + event::BYTES_ACKED, A_TOTAL),
    (EVENT_IN_CALL + event::BYTES_LOST, A_TOTAL),
    (EVENT_IN_CALL + event::END_OF_ROUND_TRIP, Flag),
    (EVENT_IN_CALL + event::IS_PROBING_FOR_BANDWIDTH, Flag),
    (
        EVENT_IN_CALL + event::SAMPLE_MAX_BANDWIDTH_SET,
        BANDWIDTH_OR_NONE,
    ),
    (EVENT_IN_CALL + event::SAMPLE_MIN_RTT_SET, LENGTH_OR_NONE),
    (EVENT_IN_CALL + event::LAST_PACKET_SEND_STATE_IS_VALID, Flag),
    (
        EVENT_IN_CALL + event::LAST_PACKET_SEND_STATE_IS_APP_LIMITED,
        Flag,
    ),
    (
        EVENT_IN_CALL + event::LAST_PACKET_SEND_STATE_TOTAL_BYTES_ACKED,
        A_TOTAL,
    ),
    (
        EVENT_IN_CALL + event::LAST_PACKET_SEND_STATE_BYTES_IN_FLIGHT,
        A_COUNT,
    ),
];

const SAMPLE: &[Field] = &[
    (sample::SAMPLE_MAX_BANDWIDTH_SET, BANDWIDTH_OR_NONE),
    (sample::SAMPLE_MAX_SEND_RATE_SET, BANDWIDTH_OR_NONE),
    (sample::SAMPLE_MAX_ACK_RATE_SET, BANDWIDTH_OR_NONE),
    (sample::SAMPLE_IS_APP_LIMITED, Flag),
    (sample::SAMPLE_RTT_SET, LENGTH_OR_NONE),
    (sample::SAMPLE_MAX_INFLIGHT, A_COUNT),
    (sample::EXTRA_ACKED, A_COUNT),
    (sample::LAST_PACKET_SEND_STATE_IS_VALID, Flag),
    (sample::LAST_PACKET_SEND_STATE_IS_APP_LIMITED, Flag),
    (sample::LAST_PACKET_SEND_STATE_TOTAL_BYTES_ACKED, A_TOTAL),
    (sample::LAST_PACKET_SEND_STATE_BYTES_IN_FLIGHT, A_COUNT),
    (sample::TOTAL_BYTES_ACKED, A_TOTAL),
    (sample::TOTAL_BYTES_LOST, A_TOTAL),
];

/// The arguments of the call of this number in the order of their places, which
/// is the original's, each with its fields in the order of their words. The model,
/// the cycle and the parameters aren't counted.
fn arguments(number: u64) -> &'static [&'static [Field]] {
    use argument::*;
    match number {
        call::START => &[&[(start::INITIAL_RTT, A_LENGTH)], &[(start::NOW, A_MOMENT)]],
        call::ON_PACKET_SENT => &[
            &[(on_packet_sent::SENT_TIME, A_MOMENT)],
            &[(on_packet_sent::BYTES_IN_FLIGHT, A_COUNT)],
            FREE,
            &[(on_packet_sent::BYTES, A_COUNT)],
        ],
        call::ON_CONGESTION_EVENT_START => &[ACKED, EVENT, SAMPLE],
        call::ON_CONGESTION_EVENT_FINISH
        | call::MAYBE_EXPIRE_MIN_RTT
        | call::HAS_BANDWIDTH_GROWTH => &[EVENT],
        call::IS_INFLIGHT_TOO_HIGH => &[EVENT, FREE],
        call::CHECK_PERSISTENT_QUEUE => &[&[(check_persistent_queue::TARGET_GAIN, Gain)]],
        call::BDP => &[&[(bdp::BANDWIDTH, A_BANDWIDTH)], &[(bdp::GAIN, Gain)]],
        call::BDP1 => &[&[(bdp1::BANDWIDTH, A_BANDWIDTH)]],
        call::SET_PACING_GAIN => &[&[(set_pacing_gain::PACING_GAIN, Gain)]],
        call::SET_CWND_GAIN => &[&[(set_cwnd_gain::CWND_GAIN, Gain)]],
        call::SET_INFLIGHT_HI => &[&[(set_inflight_hi::NEW_INFLIGHT_HI, Bound)]],
        call::CAP_INFLIGHT_LO => &[&[(cap_inflight_lo::CAP, Bound)]],
        call::POSTPONE_MIN_RTT_TIMESTAMP => &[&[(postpone_min_rtt_timestamp::DURATION, A_LENGTH)]],
        call::ENTER_PROBE_DOWN => &[
            &[(enter_probe_down::PROBED_TOO_HIGH, Flag)],
            &[(enter_probe_down::STOPPED_RISKY_PROBE, Flag)],
            &[(enter_probe_down::NOW, A_MOMENT)],
        ],
        call::ENTER_PROBE_CRUISE => &[&[(enter_probe_cruise::NOW, A_MOMENT)]],
        call::ENTER_PROBE_REFILL => &[
            &[(
                enter_probe_refill::PROBE_UP_ROUNDS,
                UpTo(UP_ROUNDS, Kind::UpRounds),
            )],
            &[(enter_probe_refill::NOW, A_MOMENT)],
        ],
        call::ENTER_PROBE_UP => &[
            &[(enter_probe_up::NOW, A_MOMENT)],
            &[(enter_probe_up::CWND, A_WINDOW)],
        ],
        call::RAISE_INFLIGHT_HIGH_SLOPE => &[&[(raise_inflight_high_slope::CWND, A_WINDOW)]],
        _ => &[],
    }
}

impl Held {
    /// The kinds of bounds that it has.
    pub fn kinds(self) -> Vec<Kind> {
        match self {
            UpTo(_, kind) => vec![kind],
            Bound => vec![Kind::Bytes],
            Gain => vec![Kind::Form, Kind::Gain],
            Pair(_, kind) => vec![Kind::Form, kind],
            Flag | Acked => vec![Kind::Form],
        }
    }

    /// The kind of bound that it passes, if any, where these are the words from its
    /// first on and lists of so many words are lent.
    pub fn passed(self, words: &[u64], lists: usize) -> Option<Kind> {
        match self {
            UpTo(most, kind) => (words[0] > most).then_some(kind),
            Bound => (words[0] > BYTES && words[0] != UNSET).then_some(Kind::Bytes),
            Flag => (words[0] > 1).then_some(Kind::Form),
            Gain if words[0] >> 32 != 0 => Some(Kind::Form),
            Gain => (!bounds::gain(f32::from_bits(words[0] as u32))).then_some(Kind::Gain),
            Pair(most, kind) => match words[..2] {
                [0, 0] => None,
                [1, number] => (number > most).then_some(kind),
                _ => Some(Kind::Form),
            },
            Acked => {
                let after = words[1] as u128 + words[0] as u128;
                let outside = words[0] > MOST_ACKED as u64 && after > lists as u128;
                outside.then_some(Kind::Form)
            }
        }
    }
}

/// The fields that a call of this number can be refused for, each after the place
/// of its argument: in the order of the places, and of the fields in each.
pub fn fields(number: u64) -> impl Iterator<Item = (u64, Field)> {
    let arguments = (1..).zip(arguments(number));
    arguments.flat_map(|(place, fields)| fields.iter().map(move |&field| (place, field)))
}

/// All faults of a call's words in that order, with the word of each, where lists
/// of so many words are lent. The numbers of a send state that isn't valid count,
/// too.
pub fn all(words: &[u64], lists: usize) -> impl Iterator<Item = (usize, Fault)> + '_ {
    fields(words[NUMBER_IN_CALL]).filter_map(move |(place, (word, held))| {
        let kind = held.passed(&words[word..], lists)?;
        Some((word, Fault { kind, place }))
    })
}

/// The fault that is named for a call's words, if there is one, whatever the state
/// is: the first.
pub fn of_words(words: &[u64], lists: usize) -> Option<Fault> {
    all(words, lists).map(|(_, fault)| fault).next()
}

/// The same in this state. Only where the length is within its bounds can it be
/// the postponed moment, which has the length's place.
pub fn of_call(words: &[u64], state: &State) -> Option<Fault> {
    of_words(words, 0).or_else(|| {
        let out = passes_moment(words, state);
        out.then_some(Fault::new(Kind::Moment, 1))
    })
}

/// Whether the call postpones the stored moment past its bound.
pub fn passes_moment(words: &[u64], state: &State) -> bool {
    let length = words[argument::postpone_min_rtt_timestamp::DURATION];
    words[NUMBER_IN_CALL] == call::POSTPONE_MIN_RTT_TIMESTAMP
        && state[MIN_RTT_TIMESTAMP].saturating_add(length) > MOMENT
}

/// The words of a call in this state, with the parameters of a start.
pub fn words_of(call: &Call, state: &State, start: &Start) -> CallWords {
    let numbers = call.numbers();
    let arguments = &numbers[NUMBER_IN_CALL + 1..];
    let record = &state[CARRIED..];
    frame::call(
        numbers[NUMBER_IN_CALL],
        arguments,
        record,
        &start.parameters(),
    )
}
