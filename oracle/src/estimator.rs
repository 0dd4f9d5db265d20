//! The original's round-trip estimator, `RttStats`, in the words of the
//! exported run, and what the run and its calls are refused for: read from the
//! table of document 01 and from document 02, request a, apart from the port's
//! code. What is refused isn't asked of the original.

use std::time::Duration;
use std::time::Instant;

use guovssalu_sys::table::reply::OUT_OF_BOUNDS;
use guovssalu_sys::table::reply::SHORT_OUTPUT;
use guovssalu_sys::table::rtt_answer;
use guovssalu_sys::table::rtt_argument;
use guovssalu_sys::table::rtt_call;
use guovssalu_sys::table::rtt_state;
use guovssalu_sys::table::RTT_ANSWER_BYTES;
use guovssalu_sys::table::RTT_ANSWER_WORDS;
use guovssalu_sys::table::RTT_CALL_BYTES;
use guovssalu_sys::table::RTT_CALL_WORDS;
use guovssalu_sys::table::RTT_NUMBER_IN_CALL;
use guovssalu_sys::table::RTT_STATE_BYTES;
use guovssalu_sys::table::RTT_STATE_WORDS;
use guovssalu_sys::table::UNSET;

use crate::bounds::LENGTH;
use crate::places::Fault;
use crate::places::Field;
use crate::places::Held::Flag;
use crate::places::A_LENGTH;
use crate::places::CALLS_LENGTH;
use crate::places::NO_CALL;
use crate::places::STATE_LENGTH;
use crate::recovery::rtt::RttStats;

/// The words of an estimator, of a call and of its answer.
pub type Estimator = [u64; RTT_STATE_WORDS];
pub type Call = [u64; RTT_CALL_WORDS];
pub type Answer = [u64; RTT_ANSWER_WORDS];

/// The words of an estimator that are lengths.
const LENGTHS: [usize; 5] = [
    rtt_state::LATEST_RTT,
    rtt_state::MIN_RTT,
    rtt_state::SMOOTHED_RTT,
    rtt_state::RTTVAR,
    rtt_state::MAX_ACK_DELAY,
];

/// The memory of a run, and how many bytes of state, of calls and of answers are
/// lent to it, from the first on.
#[derive(Clone, Debug)]
pub struct Lent {
    pub state: Vec<u64>,
    pub calls: Vec<u64>,
    pub bytes: [usize; 3],
}

/// A call that was made: the estimator before it, its words and its answer.
pub struct Made {
    pub before: Estimator,
    pub call: Call,
    pub answer: Answer,
}

/// What a run replies, the memory of the state after it, and its calls: none if it
/// is refused.
pub struct Ran {
    pub reply: u64,
    pub state: Vec<u64>,
    pub made: Vec<Made>,
}

impl Lent {
    /// Runs the calls on the estimator.
    pub fn run(&self) -> Ran {
        let reply = self.reply();
        let mut ran = Ran {
            reply,
            state: self.state.clone(),
            made: Vec::new(),
        };
        if reply != 0 {
            return ran;
        }
        let mut estimator = self.estimator();
        for words in self.calls.chunks_exact(RTT_CALL_WORDS).take(self.whole()) {
            let before = estimator;
            let call: Call = words.try_into().unwrap();
            let answer = make(&mut estimator, &call);
            ran.made.push(Made {
                before,
                call,
                answer,
            });
        }
        ran.state[..RTT_STATE_WORDS].copy_from_slice(&estimator);
        ran
    }

    /// The reply to the run itself: the lowest row that holds, and in row 2 the
    /// first argument; or 0.
    pub fn reply(&self) -> u64 {
        let [state, _, answers] = self.bytes;
        if state != RTT_STATE_BYTES {
            STATE_LENGTH.reply()
        } else if self.estimator()[rtt_state::HAS_FIRST_RTT_SAMPLE] > 1 {
            OUT_OF_BOUNDS
        } else if self.part() != 0 {
            CALLS_LENGTH.reply()
        } else if answers < self.whole() * RTT_ANSWER_BYTES {
            SHORT_OUTPUT
        } else {
            0
        }
    }

    /// Drops one of the whole calls.
    pub fn drop(&mut self, call: usize) {
        self.calls
            .drain(call * RTT_CALL_WORDS..(call + 1) * RTT_CALL_WORDS);
        self.bytes[1] -= RTT_CALL_BYTES;
    }

    /// The first words of the state's memory.
    pub fn estimator(&self) -> Estimator {
        self.state[..RTT_STATE_WORDS].try_into().unwrap()
    }

    /// How many whole calls there are, and the bytes that are left.
    pub fn whole(&self) -> usize {
        self.bytes[1] / RTT_CALL_BYTES
    }

    pub fn part(&self) -> usize {
        self.bytes[1] % RTT_CALL_BYTES
    }
}

impl Ran {
    /// The words of the answers.
    pub fn answers(&self) -> Vec<u64> {
        self.made.iter().flat_map(|made| made.answer).collect()
    }
}

/// Makes a call; its answer. A refused one shows no number and leaves the estimator
/// as it is, but for a refused `new`: a fresh one of 0 and 0.
pub fn make(estimator: &mut Estimator, call: &Call) -> Answer {
    let reply = reply(estimator, call);
    let mut answer = [0; RTT_ANSWER_WORDS];
    answer[rtt_answer::REPLY] = reply;
    if reply == 0 {
        let original = original(estimator, call);
        *estimator = original.held();
        let nanos = |length: Duration| length.as_nanos() as u64;
        answer[rtt_answer::LATEST_RTT] = nanos(original.latest_rtt());
        answer[rtt_answer::MIN_RTT] = original.min_rtt().map_or(UNSET, nanos);
        answer[rtt_answer::SMOOTHED_RTT] = nanos(original.rtt());
        answer[rtt_answer::RTTVAR] = nanos(original.rttvar());
    } else if call[RTT_NUMBER_IN_CALL] == rtt_call::NEW {
        *estimator = RttStats::new(Duration::ZERO, Duration::ZERO).held();
    }
    answer
}

/// The original after a call that isn't refused.
fn original(estimator: &Estimator, call: &Call) -> RttStats {
    use rtt_argument::*;
    let length = |at: usize| Duration::from_nanos(call[at]);
    let mut original = RttStats::holding(estimator);
    match call[RTT_NUMBER_IN_CALL] {
        rtt_call::NEW => {
            original = RttStats::new(length(new::INITIAL_RTT), length(new::MAX_ACK_DELAY))
        }
        rtt_call::UPDATE_RTT => original.update_rtt(
            length(update_rtt::LATEST_RTT),
            length(update_rtt::ACK_DELAY),
            Instant::now(),
            call[update_rtt::HANDSHAKE_CONFIRMED] == 1,
        ),
        _ => original.update_max_ack_delay(length(update_max_ack_delay::MAX_ACK_DELAY)),
    }
    original
}

/// The reply to a call on this estimator: the first row of the table that holds, or
/// 0. `new` isn't given the estimator.
fn reply(estimator: &Estimator, call: &Call) -> u64 {
    let number = call[RTT_NUMBER_IN_CALL];
    if number != rtt_call::NEW && !is_within(estimator) {
        return OUT_OF_BOUNDS;
    }
    if arguments(number).is_none() {
        return NO_CALL.reply();
    }
    faults(call).next().map_or(0, Fault::reply)
}

/// Whether the stored lengths are within their bounds.
pub fn is_within(estimator: &Estimator) -> bool {
    LENGTHS.iter().all(|&at| estimator[at] <= LENGTH)
}

/// All faults of a call's arguments, in the order of their places.
pub fn faults(call: &Call) -> impl Iterator<Item = Fault> + '_ {
    let arguments = arguments(call[RTT_NUMBER_IN_CALL]).unwrap_or(&[]);
    let placed = (1..).zip(arguments);
    placed.filter_map(move |(place, (word, held))| {
        let kind = held.passed(&call[*word..], 0)?;
        Some(Fault { kind, place })
    })
}

/// The arguments of the call of this number in the order of their places, each by
/// its word; none where the number is no call's. All of them are tested, also where
/// the call looks at fewer, as at the first sample.
fn arguments(number: u64) -> Option<&'static [Field]> {
    use rtt_argument::*;
    Some(match number {
        rtt_call::NEW => &[(new::INITIAL_RTT, A_LENGTH), (new::MAX_ACK_DELAY, A_LENGTH)],
        rtt_call::UPDATE_RTT => &[
            (update_rtt::LATEST_RTT, A_LENGTH),
            (update_rtt::ACK_DELAY, A_LENGTH),
            (update_rtt::HANDSHAKE_CONFIRMED, Flag),
        ],
        rtt_call::UPDATE_MAX_ACK_DELAY => &[(update_max_ack_delay::MAX_ACK_DELAY, A_LENGTH)],
        _ => return None,
    })
}
