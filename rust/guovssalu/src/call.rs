use std::ops::Range;

use crate::fault::Asked;
use crate::foreign;
use crate::table;
use crate::table::call;
use crate::table::sample;
use crate::table::STATE_BYTES;
use crate::words;
use crate::CongestionEvent;
use crate::Params;
use crate::Refusal;
use crate::Sample;

/// One call as bytes, for [`run`] and [`run_lists`]: its number, its arguments, the event's record and
/// the parameters, as docs/LAYOUT.md numbers and orders them, and [`table`] names them.
///
/// The methods of [`NetworkModel`](crate::NetworkModel) and [`Cycle`](crate::Cycle) make one call at
/// a time. Whoever has many at hand writes their bytes one after the other and makes them all by one
/// [`run`].
#[derive(Clone, Copy, Debug, PartialEq, Eq)]
pub struct Call {
    bytes: [u8; Call::BYTES],
}

impl Call {
    /// Bytes of a call.
    pub const BYTES: usize = table::CALL_BYTES;

    /// The most arguments of a call.
    pub const ARGUMENTS: usize = table::ARGUMENTS_WORDS;

    /// The call of a number, with its arguments in order; the others are 0. They are words, written as
    /// docs/LAYOUT.md says: a flag is 0 or 1, a gain is its 32 bits. A number that is no call's, and
    /// words that are malformed, are refused by the run, in the call's answer.
    ///
    /// # Panics
    ///
    /// If there are more than [`Call::ARGUMENTS`].
    pub fn new(number: u64, arguments: &[u64]) -> Self {
        assert!(arguments.len() <= Call::ARGUMENTS, "too many arguments");
        let mut bytes = [0; Call::BYTES];
        words::put(&mut bytes, table::NUMBER_IN_CALL, number);
        for (at, argument) in arguments.iter().enumerate() {
            words::put(&mut bytes, table::ARGUMENTS_IN_CALL + at, *argument);
        }
        Call { bytes }
    }

    /// An event, with the numbers of the packets acked, in any order and as many as there are. Only the
    /// greatest is handed on: by it, and by whether there is one at all, the event's reply, the state
    /// after it and its record are settled (proved: `only-greatest` in
    /// crates/theorems/specs/Theorems.antt).
    pub fn on_congestion_event_start(
        acked_packets: &[u64],
        event: &CongestionEvent,
        sample: &Sample,
        params: &Params,
    ) -> Self {
        let mut call = Call::new(call::ON_CONGESTION_EVENT_START, &[])
            .with_event(event)
            .with_params(params);
        let bytes = &mut call.bytes;
        for (at, rate) in [
            (
                sample::SAMPLE_MAX_BANDWIDTH_SET,
                sample.sample_max_bandwidth,
            ),
            (
                sample::SAMPLE_MAX_SEND_RATE_SET,
                sample.sample_max_send_rate,
            ),
            (sample::SAMPLE_MAX_ACK_RATE_SET, sample.sample_max_ack_rate),
        ] {
            words::put_bandwidth(bytes, at, rate);
        }
        let app_limited = sample.sample_is_app_limited;
        words::put_flag(bytes, sample::SAMPLE_IS_APP_LIMITED, app_limited);
        words::put_length(bytes, sample::SAMPLE_RTT_SET, sample.sample_rtt);
        let send_state = sample::LAST_PACKET_SEND_STATE_IS_VALID;
        words::put_send_state(bytes, send_state, &sample.last_packet_send_state);
        for (at, number) in [
            (sample::SAMPLE_MAX_INFLIGHT, sample.sample_max_inflight),
            (sample::EXTRA_ACKED, sample.extra_acked),
            (sample::TOTAL_BYTES_ACKED, sample.total_bytes_acked),
            (sample::TOTAL_BYTES_LOST, sample.total_bytes_lost),
        ] {
            words::put(bytes, at, number);
        }

        match acked_packets.iter().max() {
            Some(greatest) => call.with_numbers(1, &[*greatest]),
            None => call.with_numbers(0, &[]),
        }
    }

    /// The event with other acked numbers, all of them as they are: `lists[numbers]`. Up to
    /// [`table::MOST_ACKED`] are written into the event itself. More are named by their place and stay
    /// in the lists, so [`run_lists`] has to be lent these; another run refuses the event, or takes
    /// what stands there. A call that is no event does not look at the words that this writes.
    ///
    /// # Panics
    ///
    /// If the lists have no such numbers.
    pub fn with_list(self, lists: &[u64], numbers: Range<usize>) -> Self {
        let (place, acked) = (numbers.start as u64, &lists[numbers]);
        let count = acked.len() as u64;
        if acked.len() <= table::MOST_ACKED {
            self.with_numbers(count, acked)
        } else {
            self.with_numbers(count, &[place])
        }
    }

    /// The event with this count, and after it these words, the others 0.
    fn with_numbers(mut self, count: u64, three: &[u64]) -> Self {
        words::put(&mut self.bytes, sample::ACKED_COUNT, count);
        for at in 0..table::MOST_ACKED {
            let word = three.get(at).copied().unwrap_or(0);
            words::put(&mut self.bytes, sample::ACKED_PACKETS + at, word);
        }
        self
    }

    /// The call with an event's record.
    pub fn with_event(mut self, event: &CongestionEvent) -> Self {
        words::put_event(&mut self.bytes, table::EVENT_IN_CALL, event);
        self
    }

    /// The call with parameters.
    pub fn with_params(mut self, params: &Params) -> Self {
        words::put_params(&mut self.bytes, table::PARAMS_IN_CALL, params);
        self
    }

    /// Its bytes.
    pub fn as_bytes(&self) -> &[u8; Call::BYTES] {
        &self.bytes
    }

    /// Makes the call alone. Where it is refused the state is no more to be used.
    pub(crate) fn make(&self, state: &mut [u8; STATE_BYTES]) -> Result<Answer, Refusal> {
        let mut answer = Answer {
            bytes: [0; Answer::BYTES],
        };
        run(state, &self.bytes, &mut answer.bytes)?;
        let number = words::get(&self.bytes, table::NUMBER_IN_CALL);
        match answer.number() {
            Ok(_) => Ok(answer),
            Err(refusal) => Err(refusal.of_call(number)),
        }
    }
}

/// A call's answer as bytes, from [`run`] or [`run_lists`]. It has no word that says of which call it is:
/// [`Refusal::of_call`] gives a refusal's text the names of the call's arguments.
#[derive(Clone, Copy, Debug, PartialEq, Eq)]
pub struct Answer {
    bytes: [u8; Answer::BYTES],
}

impl Answer {
    /// Bytes of an answer.
    pub const BYTES: usize = table::ANSWER_BYTES;

    /// The answer of these bytes.
    pub fn from_bytes(bytes: &[u8; Answer::BYTES]) -> Self {
        Answer { bytes: *bytes }
    }

    /// What the call answered: a number, a flag (0 or 1) or the bits of a gain, 0 where it answers
    /// nothing; or why it was refused.
    ///
    /// # Panics
    ///
    /// If the bytes are none of a run's.
    pub fn number(&self) -> Result<u64, Refusal> {
        Refusal::of_reply(words::get(&self.bytes, table::REPLY_IN_ANSWER))?;
        Ok(words::get(&self.bytes, table::VALUE_IN_ANSWER))
    }

    /// The event's record after `call::ON_CONGESTION_EVENT_START`, all zeros after the others; or why
    /// the call was refused.
    ///
    /// The record of a refused event is the one that was handed in, and its words can be malformed,
    /// which no [`CongestionEvent`] is. Whoever wants it has it in the words of the call from
    /// [`table::EVENT_IN_CALL`] on, and again in those of the answer from [`table::EVENT_IN_ANSWER`] on.
    ///
    /// # Panics
    ///
    /// If the bytes are none of a run's.
    pub fn event(&self) -> Result<CongestionEvent, Refusal> {
        Refusal::of_reply(words::get(&self.bytes, table::REPLY_IN_ANSWER))?;
        Ok(words::get_event(&self.bytes, table::EVENT_IN_ANSWER))
    }
}

/// Makes many calls, one after the other, on the state in lent bytes.
///
/// `state` is [`STATE_BYTES`] long, `calls` has [`Call::BYTES`] for each call, and `answers` room for
/// [`Answer::BYTES`] each; what it has beyond them keeps its bytes. A call that is refused says so
/// in its answer, and the run goes on. It changes nothing, but for a start (call 0), which then
/// replaces the state by a fresh one at moment 0: look at its answer before going on.
///
/// # Errors
///
/// `OutOfBounds` for bytes that encode no state; `BadArgument` for a state of another length, 2.8 at 1,
/// or calls not in whole records, 2.8 at 2; `ShortOutput` for answers without room. Then no byte is
/// changed. A state that a version before 0.5.0 kept has another length, 400: docs/LAYOUT.md says how it
/// is carried over.
///
/// `Ok` says nothing of the calls: whether one was refused, and why, is in its [`Answer`].
///
/// ```
/// use guovssalu::table::call;
/// use guovssalu::{run, Answer, Call, Params, STATE_BYTES};
///
/// let mut calls = Vec::new();
/// // A start at moment 0 with a round trip of 100 ms, a send, and the question for inflight_lo.
/// let start = Call::new(call::START, &[0, 100_000_000]).with_params(&Params::default());
/// calls.extend(start.as_bytes());
/// calls.extend(Call::new(call::ON_PACKET_SENT, &[1_000, 0, 1, 1_200]).as_bytes());
/// calls.extend(Call::new(call::INFLIGHT_LO, &[]).as_bytes());
///
/// let mut state = [0; STATE_BYTES];
/// let mut answers = [0; 3 * Answer::BYTES];
/// run(&mut state, &calls, &mut answers)?;
/// // It is not set yet.
/// let last = answers[2 * Answer::BYTES..].try_into().unwrap();
/// assert_eq!(Answer::from_bytes(last).number(), Ok(u64::MAX));
/// # Ok::<(), guovssalu::Refusal>(())
/// ```
pub fn run(state: &mut [u8], calls: &[u8], answers: &mut [u8]) -> Result<(), Refusal> {
    Refusal::of(foreign::run(state, calls, answers), Asked::Run)
}

/// Makes many calls as [`run`] does, with lists beside them, from which an event can take as many
/// acked numbers as there are: [`Call::with_list`] names them. Events may name the same numbers.
///
/// An event that names numbers which these lists don't hold is refused with `BadArgument` in its
/// answer, 2.8 at 1, or with `OutOfBounds` where that applies too, and the run goes on. Of the lists
/// nothing is changed. With none it is [`run`].
///
/// # Errors
///
/// Those of [`run`], whatever the lists are.
///
/// ```
/// use guovssalu::table::call;
/// use guovssalu::{run, run_lists, Answer, Call, CongestionEvent, Params, Refusal, Sample};
///
/// // Six packets are sent; an ack past the third ends the round.
/// let (mut calls, params) = (Vec::new(), Params::default());
/// calls.extend(Call::new(call::START, &[0, 100_000_000]).with_params(&params).as_bytes());
/// for packet in 1..=6 {
///     calls.extend(Call::new(call::ON_PACKET_SENT, &[0, 0, packet, 1_200]).as_bytes());
///     if packet == 3 {
///         calls.extend(Call::new(call::RESTART_ROUND_EARLY, &[]).as_bytes());
///     }
/// }
///
/// // An event acks them all, from the last to the first.
/// let lists = [6, 5, 4, 3, 2, 1];
/// let (event, sample) = (CongestionEvent::default(), Sample::default());
/// let event = Call::on_congestion_event_start(&[], &event, &sample, &params);
/// calls.extend(event.with_list(&lists, 0..6).as_bytes());
///
/// let mut state = [0; guovssalu::STATE_BYTES];
/// let mut answers = [0; 9 * Answer::BYTES];
/// run_lists(&mut state, &calls, &lists, &mut answers)?;
/// let last = answers[8 * Answer::BYTES..].try_into().unwrap();
/// assert!(Answer::from_bytes(last).event()?.end_of_round_trip);
///
/// // A run that isn't lent the lists refuses the event.
/// run(&mut [0; guovssalu::STATE_BYTES], &calls, &mut answers)?;
/// let last = answers[8 * Answer::BYTES..].try_into().unwrap();
/// let refusal = Answer::from_bytes(last).event().unwrap_err();
/// assert_eq!(refusal.to_string(), "2.8 at 1: an argument is malformed");
/// let refusal = refusal.of_call(call::ON_CONGESTION_EVENT_START);
/// assert_eq!(refusal.to_string(), "2.8 at 1: acked names numbers that the lists don't hold");
/// # Ok::<(), Refusal>(())
/// ```
pub fn run_lists(
    state: &mut [u8],
    calls: &[u8],
    lists: &[u64],
    answers: &mut [u8],
) -> Result<(), Refusal> {
    let reply = foreign::run_lists(state, calls, lists, answers);
    Refusal::of(reply, Asked::RunLists)
}
