//! Which argument refusal 2 names, and by which kind: document 02, "Which number was out of range", call
//! by call, argument by argument, field by field. "If several are out of range the first in argument
//! order, then field order, is named": not the one of the lowest kind.
//!
//! Places are counted from 1, in the order of the original's methods, which is not always that of the
//! words. The model, the cycle and the parameters are not counted: they are row 1's. A malformed word is
//! found at its own field. It is asked for its form before the number in it is asked for its bound.

use guovssalu_sys::table::argument as arg;
use guovssalu_sys::table::call as calls;
use guovssalu_sys::table::rtt_argument as rtt;
use guovssalu_sys::table::rtt_call as rtt_calls;
use guovssalu_sys::table::CALL_WORDS;

use crate::bounds::Bound;
use crate::bounds::BYTES;
use crate::bounds::LEAST_GAIN;
use crate::bounds::MOMENT;
use crate::bounds::MOST_GAIN;
use crate::words;
use crate::words::call as c;
use crate::words::state as s;
use crate::words::UNSET;

use Bound::Bandwidth;
use Bound::Bytes;
use Bound::Form;
use Bound::Length;
use Bound::Moment;
use Bound::Rounds;
use Bound::Total;
use Bound::Window;
use Field::Acked;
use Field::Exactly;
use Field::Flag;
use Field::Gain;
use Field::OrUnset;
use Field::Pair;
use Field::Postponing;
use Field::Upto;
use Field::Whole;

/// Who refuses: a call of a run, by its number, or an exported function.
#[derive(Clone, Copy, PartialEq, Debug)]
pub enum Callee {
    Call(u64),
    Run,
    RttCall(u64),
    RttRun,
    FilterRun,
    Slope,
}

/// What it is given: the words of the state, its own words, and lists. Of an exported function its own
/// words are the lengths in bytes that it tests, and the slope's window.
#[derive(Clone, Copy)]
pub struct Given<'a> {
    pub state: &'a [u64],
    pub words: &'a [u64],
    pub lists: &'a [u64],
}

impl<'a> Given<'a> {
    /// The numbers of an exported function.
    pub fn numbers(words: &'a [u64]) -> Self {
        Given {
            state: &[],
            words,
            lists: &[],
        }
    }
}

/// What refusal 2 names: the kind of bound, and the place of the argument.
#[derive(Clone, Copy, PartialEq, Debug)]
pub struct Named {
    pub bound: Bound,
    pub place: u64,
}

impl Named {
    /// The reply: the row in the lowest byte, then the kind, then the place.
    pub fn reply(self) -> u64 {
        2 + 256 * self.bound as u64 + 65_536 * self.place
    }
}

/// What a field of an argument is.
#[derive(Clone, Copy)]
enum Field {
    /// A number up to the most of its kind.
    Upto(Bound),
    /// A byte count, or unset.
    OrUnset,
    Flag,
    /// Two words: unset, or a number up to the most of its kind.
    Pair(Bound),
    /// The f32 of a gain.
    Gain,
    /// How many numbers are acked, and where they are.
    Acked,
    /// A length of time that is added to a stored moment.
    Postponing,
    /// A length in bytes.
    Exactly(u64),
    /// A length in bytes that is a multiple of this one.
    Whole(u64),
}

/// What is wrong with a word, or with the two from it on.
#[derive(Clone, Copy, PartialEq, Debug)]
pub enum Wrong {
    Above,
    AboveAndSet,
    NoFlag,
    NoPair,
    /// The second of the two is above the most of its kind.
    HeldAbove,
    /// An f32 has bits above the 32nd.
    HighBits,
    NoGain,
    NotInLists,
    Postponed,
    NotExactly(u64),
    NotWhole(u64),
    NoCall,
}

/// One thing that can be wrong with what is given, and what it is named.
#[derive(Clone, Copy, PartialEq, Debug)]
pub struct Flaw {
    pub named: Named,
    pub word: usize,
    pub wrong: Wrong,
}

/// An argument: its place, and the fields of it that are not free, each with its word, in their order.
type Argument = (u64, &'static [(usize, Field)]);

const ACKED: [(usize, Field); 1] = [(c::ACKED_COUNT, Acked)];

/// An event's record.
const EVENT: [(usize, Field); 14] = [
    (c::EVENT_TIME, Upto(Moment)),
    (c::PRIOR_CWND, Upto(Window)),
    (c::PRIOR_IN_FLIGHT, Upto(Bytes)),
    (c::IN_FLIGHT, Upto(Bytes)),
    (c::BYTES_ACKED, Upto(Total)),
    (c::BYTES_LOST, Upto(Total)),
    (c::END_OF_ROUND_TRIP, Flag),
    (c::IS_PROBING, Flag),
    (c::RECORD_BANDWIDTH, Pair(Bandwidth)),
    (c::RECORD_RTT, Pair(Length)),
    (c::LAST_IS_VALID, Flag),
    (c::LAST_IS_APP_LIMITED, Flag),
    (c::LAST_TOTAL_ACKED, Upto(Total)),
    (c::LAST_IN_FLIGHT, Upto(Bytes)),
];

/// What the sampler says; its largest inflight and extra acked are byte counts (decision 24).
const SAMPLE: [(usize, Field); 13] = [
    (c::SAMPLE_BANDWIDTH, Pair(Bandwidth)),
    (c::SAMPLE_SEND_RATE, Pair(Bandwidth)),
    (c::SAMPLE_ACK_RATE, Pair(Bandwidth)),
    (c::SAMPLE_IS_APP_LIMITED, Flag),
    (c::SAMPLE_RTT, Pair(Length)),
    (c::SAMPLE_MAX_INFLIGHT, Upto(Bytes)),
    (c::EXTRA_ACKED, Upto(Bytes)),
    (c::SENT_IS_VALID, Flag),
    (c::SENT_IS_APP_LIMITED, Flag),
    (c::SENT_TOTAL_ACKED, Upto(Total)),
    (c::SENT_IN_FLIGHT, Upto(Bytes)),
    (c::TOTAL_ACKED, Upto(Total)),
    (c::TOTAL_LOST, Upto(Total)),
];

/// The arguments of a call, in the order of their places; none for a number that is no call's. Every
/// number is tested, whether the call reads it or not (decision 17).
fn arguments(number: u64) -> Option<&'static [Argument]> {
    Some(match number {
        calls::START => &[
            (1, &[(arg::start::INITIAL_RTT, Upto(Length))]),
            (2, &[(arg::start::NOW, Upto(Moment))]),
        ],
        calls::ON_PACKET_SENT => &[
            (1, &[(arg::on_packet_sent::SENT_TIME, Upto(Moment))]),
            (2, &[(arg::on_packet_sent::BYTES_IN_FLIGHT, Upto(Bytes))]),
            (3, &[]),
            (4, &[(arg::on_packet_sent::BYTES, Upto(Bytes))]),
        ],
        calls::ON_CONGESTION_EVENT_START => &[(1, &ACKED), (2, &EVENT), (3, &SAMPLE)],
        calls::ON_CONGESTION_EVENT_FINISH
        | calls::MAYBE_EXPIRE_MIN_RTT
        | calls::HAS_BANDWIDTH_GROWTH => &[(1, &EVENT)],
        calls::IS_INFLIGHT_TOO_HIGH => &[(1, &EVENT), (2, &[])],
        calls::CHECK_PERSISTENT_QUEUE => {
            &[(1, &[(arg::check_persistent_queue::TARGET_GAIN, Gain)])]
        }
        calls::BDP => &[
            (1, &[(arg::bdp::BANDWIDTH, Upto(Bandwidth))]),
            (2, &[(arg::bdp::GAIN, Gain)]),
        ],
        calls::BDP1 => &[(1, &[(arg::bdp1::BANDWIDTH, Upto(Bandwidth))])],
        calls::SET_PACING_GAIN => &[(1, &[(arg::set_pacing_gain::PACING_GAIN, Gain)])],
        calls::SET_CWND_GAIN => &[(1, &[(arg::set_cwnd_gain::CWND_GAIN, Gain)])],
        calls::SET_INFLIGHT_HI => &[(1, &[(arg::set_inflight_hi::NEW_INFLIGHT_HI, OrUnset)])],
        calls::CAP_INFLIGHT_LO => &[(1, &[(arg::cap_inflight_lo::CAP, OrUnset)])],
        calls::POSTPONE_MIN_RTT_TIMESTAMP => &[(
            1,
            &[(arg::postpone_min_rtt_timestamp::DURATION, Postponing)],
        )],
        calls::ENTER_PROBE_DOWN => &[
            (1, &[(arg::enter_probe_down::PROBED_TOO_HIGH, Flag)]),
            (2, &[(arg::enter_probe_down::STOPPED_RISKY_PROBE, Flag)]),
            (3, &[(arg::enter_probe_down::NOW, Upto(Moment))]),
        ],
        calls::ENTER_PROBE_CRUISE => &[(1, &[(arg::enter_probe_cruise::NOW, Upto(Moment))])],
        calls::ENTER_PROBE_REFILL => &[
            (
                1,
                &[(arg::enter_probe_refill::PROBE_UP_ROUNDS, Upto(Rounds))],
            ),
            (2, &[(arg::enter_probe_refill::NOW, Upto(Moment))]),
        ],
        calls::ENTER_PROBE_UP => &[
            (1, &[(arg::enter_probe_up::NOW, Upto(Moment))]),
            (2, &[(arg::enter_probe_up::CWND, Upto(Window))]),
        ],
        calls::RAISE_INFLIGHT_HIGH_SLOPE => {
            &[(1, &[(arg::raise_inflight_high_slope::CWND, Upto(Window))])]
        }
        8 | 12..=14 | 19..=21 | 23..=38 | 44 => &[],
        _ => return None,
    })
}

/// The same of a call on the round-trip estimator, in the order of rtt.rs, whose moment is not
/// handed in. They are tested at the first sample, too.
fn rtt_arguments(number: u64) -> Option<&'static [Argument]> {
    Some(match number {
        rtt_calls::NEW => &[
            (1, &[(rtt::new::INITIAL_RTT, Upto(Length))]),
            (2, &[(rtt::new::MAX_ACK_DELAY, Upto(Length))]),
        ],
        rtt_calls::UPDATE_RTT => &[
            (1, &[(rtt::update_rtt::LATEST_RTT, Upto(Length))]),
            (2, &[(rtt::update_rtt::ACK_DELAY, Upto(Length))]),
            (3, &[(rtt::update_rtt::HANDSHAKE_CONFIRMED, Flag)]),
        ],
        rtt_calls::UPDATE_MAX_ACK_DELAY => &[(
            1,
            &[(rtt::update_max_ack_delay::MAX_ACK_DELAY, Upto(Length))],
        )],
        _ => return None,
    })
}

/// The arguments of the exported functions, up to the last that is not free: the state and the calls of
/// a run, with lists after them or not, and of a run of the estimator; a filter's window, and pairs; the
/// slope's rounds, which are row 1's, and a window.
const RUN: &[Argument] = &[(1, &[(0, Exactly(408))]), (2, &[(1, Whole(392))])];
const RTT_RUN: &[Argument] = &[(1, &[(0, Exactly(48))]), (2, &[(1, Whole(32))])];
const FILTER_RUN: &[Argument] = &[(1, &[]), (2, &[(0, Whole(16))])];
const SLOPE: &[Argument] = &[(1, &[]), (2, &[(0, Upto(Window))])];

/// "an unknown call number": it is no argument, and has the place 0.
const NO_CALL: Flaw = Flaw {
    named: Named {
        bound: Form,
        place: 0,
    },
    word: c::NUMBER,
    wrong: Wrong::NoCall,
};

impl Field {
    /// What can be wrong with it and the kind that names it, in the order in which it is asked: one thing
    /// or two. "A postponed moment has the length's place, and a length itself out of bounds is named as
    /// a length."
    fn asked(self) -> ((Bound, Wrong), Option<(Bound, Wrong)>) {
        match self {
            Upto(bound) => ((bound, Wrong::Above), None),
            OrUnset => ((Bytes, Wrong::AboveAndSet), None),
            Flag => ((Form, Wrong::NoFlag), None),
            Pair(bound) => ((Form, Wrong::NoPair), Some((bound, Wrong::HeldAbove))),
            Gain => ((Form, Wrong::HighBits), Some((Bound::Gain, Wrong::NoGain))),
            Acked => ((Form, Wrong::NotInLists), None),
            Postponing => ((Length, Wrong::Above), Some((Moment, Wrong::Postponed))),
            Exactly(bytes) => ((Form, Wrong::NotExactly(bytes)), None),
            Whole(bytes) => ((Form, Wrong::NotWhole(bytes)), None),
        }
    }
}

/// Looks at all that can be wrong with what a callee is given, in the order in which it is named.
pub fn each_flaw(callee: Callee, mut look: impl FnMut(Flaw)) {
    let arguments = match callee {
        Callee::Call(number) => arguments(number),
        Callee::Run => Some(RUN),
        Callee::RttCall(number) => rtt_arguments(number),
        Callee::RttRun => Some(RTT_RUN),
        Callee::FilterRun => Some(FILTER_RUN),
        Callee::Slope => Some(SLOPE),
    };
    for &(place, fields) in arguments.unwrap_or(&[]) {
        for &(word, field) in fields {
            let mut look = |(bound, wrong)| {
                let named = Named { bound, place };
                look(Flaw { named, word, wrong });
            };
            let (first, second) = field.asked();
            look(first);
            second.map(look);
        }
    }
    if arguments.is_none() {
        look(NO_CALL);
    }
}

/// All of them.
pub fn flaws(callee: Callee) -> Vec<Flaw> {
    let mut flaws = Vec::new();
    each_flaw(callee, |flaw| flaws.push(flaw));
    flaws
}

impl Flaw {
    /// Whether it is found in what is given.
    pub fn holds(&self, given: &Given) -> bool {
        let word = given.words[self.word];
        let most = self.named.bound.most();
        match self.wrong {
            Wrong::Above => word > most,
            Wrong::AboveAndSet => word > BYTES && word != UNSET,
            Wrong::NoFlag => words::flag(word).is_none(),
            Wrong::NoPair => words::pair(given.words, self.word).is_none(),
            Wrong::HeldAbove => given.words[self.word + 1] > most,
            Wrong::HighBits => words::float(word).is_none(),
            Wrong::NoGain => !is_a_gain(f32::from_bits(word as u32)),
            Wrong::NotInLists => words::acked(given.words, given.lists).is_none(),
            Wrong::Postponed => given.state[s::MIN_RTT_TIMESTAMP].saturating_add(word) > MOMENT,
            Wrong::NotExactly(bytes) => word != bytes,
            Wrong::NotWhole(bytes) => word % bytes != 0,
            Wrong::NoCall => true,
        }
    }
}

/// "gains 1/1024 to 8"; "NaN is refused": no comparison with it holds.
pub fn is_a_gain(gain: f32) -> bool {
    f32::from_bits(LEAST_GAIN) <= gain && gain <= f32::from_bits(MOST_GAIN)
}

/// Whether the words of an event's record, from its first, are all within their bounds.
pub fn record_ok(record: &[u64]) -> bool {
    let mut call = [0; CALL_WORDS];
    call[c::NUMBER] = calls::ON_CONGESTION_EVENT_FINISH;
    call[c::RECORD..c::PARAMS].copy_from_slice(record);
    let mut ok = true;
    let look = |flaw: Flaw| ok &= !flaw.holds(&Given::numbers(&call));
    each_flaw(Callee::Call(call[c::NUMBER]), look);
    ok
}

#[cfg(test)]
mod tests {
    use super::*;

    /// Places are counted from 1, and none is left out.
    #[test]
    fn places_are_counted_from_one() {
        let all = (0..46).filter_map(arguments);
        for number in all.chain((0..3).filter_map(rtt_arguments)) {
            let places = number.iter().map(|&(place, _)| place);
            assert!(places.eq(1..=number.len() as u64));
        }
        for number in [2, 39, 46, 47, 1 << 32, u64::MAX] {
            assert!(arguments(number).is_none(), "{}", number);
        }
        for number in [3, 46, 256, 257, 1 << 32, u64::MAX] {
            assert!(rtt_arguments(number).is_none(), "{}", number);
        }
    }
}
