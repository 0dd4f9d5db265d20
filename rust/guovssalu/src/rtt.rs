use crate::fault::Asked;
use crate::foreign;
use crate::table;
use crate::table::rtt_answer;
use crate::table::rtt_call;
use crate::table::rtt_state;
use crate::words;
use crate::Duration;
use crate::Refusal;

/// The round-trip estimator, the original's `RttStats`, with the original's names: the latest, the smallest
/// and the smoothed round trip and its variation, in whole nanoseconds, by the rules of RFC 9002, section 5.
/// Each call but those that only look at a stored word is one call of the archive: it is done, or it is
/// refused and nothing changes.
///
/// Lengths may be up to 2^36 ns, which is 68.7 seconds: [`Duration::LONGEST`]. `max_rtt` and `loss_delay`
/// are left out.
///
/// # The smallest round trip
///
/// It is the least of all samples, by RFC 9002's rule for a sample. The original keeps it over a window of 300 seconds, so
/// its `update_rtt` is given a moment, `now`; here it isn't. Only a `new` forgets it, and the averages with it.
/// Where a path's round trip has grown for good, a delay can be taken off a sample that the original takes
/// whole.
#[derive(Clone, Debug, PartialEq, Eq)]
pub struct RttStats {
    bytes: [u8; RttStats::BYTES],
}

impl RttStats {
    /// Bytes of an estimator's state.
    pub const BYTES: usize = table::RTT_STATE_BYTES;

    /// A fresh estimator. Until the first sample the smoothed round trip is `initial_rtt`, its variation
    /// half of that, the latest 0 and the smallest none. `max_ack_delay` is the largest delay that the
    /// peer announces, 0 as long as it isn't known.
    pub fn new(initial_rtt: Duration, max_ack_delay: Duration) -> Result<Self, Refusal> {
        let mut stats = RttStats {
            bytes: [0; RttStats::BYTES],
        };
        stats.make(&RttCall::new(initial_rtt, max_ack_delay))?;
        Ok(stats)
    }

    /// The bytes of its state, to be kept: the estimator's words of docs/LAYOUT.md.
    pub fn as_bytes(&self) -> &[u8; RttStats::BYTES] {
        &self.bytes
    }

    /// The estimator of bytes that were kept.
    ///
    /// # Errors
    ///
    /// `BadArgument` for another length, 2.8 at 1; `OutOfBounds` for bytes that encode no estimator: the last
    /// word, `has_first_rtt_sample`, is neither 0 nor 1. Bytes with a stored length outside its bounds are
    /// taken, and refused by the calls. So are 48 zero bytes: an estimator of 0 and 0.
    pub fn from_bytes(bytes: &[u8]) -> Result<Self, Refusal> {
        let mut bytes: [u8; RttStats::BYTES] =
            bytes.try_into().map_err(|_| Refusal::WRONG_LENGTH)?;
        rtt_run(&mut bytes, &[], &mut [])?;
        Ok(RttStats { bytes })
    }

    /// A sample, and the delay that the peer reports with it.
    ///
    /// The first sample is taken whole: `rtt` becomes the sample, and `rttvar` half of it. Off a later one the
    /// delay is taken, unless it would then be below the smallest; a delay above `max_ack_delay` counts as
    /// that, if the handshake is confirmed. Then `rttvar` becomes 3/4 of itself and 1/4 of the distance
    /// between `rtt` and the sample, and after that `rtt` 7/8 of itself and 1/8 of the sample; each of the
    /// two parts is rounded down.
    ///
    /// The original is given `now`, too: see [the smallest round trip](#the-smallest-round-trip).
    ///
    /// The delay is what the peer wrote, and can be any number: above 2^36 ns the call is refused and the
    /// sample not taken, the first one neither. Cut it first.
    ///
    /// # Errors
    ///
    /// `BadArgument`, 2.4, for a sample (at 1) or a delay (at 2) above [`Duration::LONGEST`]; `OutOfBounds`
    /// where a stored length is above it, which only a restored estimator can have. Then nothing has changed.
    ///
    /// ```
    /// use guovssalu::{Duration, RttStats};
    ///
    /// let mut stats = RttStats::new(Duration::from_millis(333), Duration::from_millis(25))?;
    /// // The peer says that it waited for 70 seconds.
    /// let (latest_rtt, ack_delay) = (Duration::from_millis(80), Duration::from_secs(70));
    /// assert!(stats.update_rtt(latest_rtt, ack_delay, true).is_err());
    /// assert!(!stats.has_first_rtt_sample());
    ///
    /// stats.update_rtt(latest_rtt, ack_delay.min(Duration::LONGEST), true)?;
    /// assert_eq!(stats.rtt(), Ok(latest_rtt));
    /// # Ok::<(), guovssalu::Refusal>(())
    /// ```
    pub fn update_rtt(
        &mut self,
        latest_rtt: Duration,
        ack_delay: Duration,
        handshake_confirmed: bool,
    ) -> Result<(), Refusal> {
        self.make(&RttCall::update_rtt(
            latest_rtt,
            ack_delay,
            handshake_confirmed,
        ))
    }

    /// The largest delay that the peer announces. In the original it is a method of the recovery, which has
    /// the estimator.
    pub fn update_max_ack_delay(&mut self, max_ack_delay: Duration) -> Result<(), Refusal> {
        self.make(&RttCall::update_max_ack_delay(max_ack_delay))
    }

    /// Makes many calls, one after the other, as [`rtt_run`] does. A call that is refused says so in its
    /// answer; a refused `new` leaves a fresh estimator of 0 and 0.
    ///
    /// # Errors
    ///
    /// Those of [`rtt_run`] for the calls and the answers, by its places.
    ///
    /// ```
    /// use guovssalu::{Duration, RttAnswer, RttCall, RttStats};
    ///
    /// let mut calls = Vec::new();
    /// for millis in [80, 88, 72] {
    ///     let latest_rtt = Duration::from_millis(millis);
    ///     calls.extend(RttCall::update_rtt(latest_rtt, Duration::ZERO, true).as_bytes());
    /// }
    ///
    /// let mut stats = RttStats::new(Duration::from_millis(333), Duration::from_millis(25))?;
    /// let mut answers = [0; 3 * RttAnswer::BYTES];
    /// stats.run(&calls, &mut answers)?;
    /// let mut smoothed = Vec::new();
    /// for bytes in answers.chunks_exact(RttAnswer::BYTES) {
    ///     let answer = RttAnswer::from_bytes(bytes.try_into().unwrap());
    ///     smoothed.push(answer.rtt()?.as_nanos());
    /// }
    /// assert_eq!(smoothed, [80_000_000, 81_000_000, 79_875_000]);
    /// assert_eq!(stats.min_rtt(), Ok(Some(Duration::from_millis(72))));
    /// # Ok::<(), guovssalu::Refusal>(())
    /// ```
    pub fn run(&mut self, calls: &[u8], answers: &mut [u8]) -> Result<(), Refusal> {
        rtt_run(&mut self.bytes, calls, answers)
    }

    /// Makes a call alone.
    fn make(&mut self, call: &RttCall) -> Result<(), Refusal> {
        let number = words::get(&call.bytes, table::RTT_NUMBER_IN_CALL);
        let reply = self.answer(call)?.done();
        reply.map_err(|refusal| refusal.of_rtt_call(number))
    }

    /// The answer to a call.
    fn answer(&mut self, call: &RttCall) -> Result<RttAnswer, Refusal> {
        let mut answer = RttAnswer {
            bytes: [0; RttAnswer::BYTES],
        };
        self.run(&call.bytes, &mut answer.bytes)?;
        Ok(answer)
    }

    /// What the estimator is, by a call that changes nothing: `max_ack_delay` becomes what it is.
    fn ask(&self) -> Result<RttAnswer, Refusal> {
        let same = RttCall::update_max_ack_delay(self.max_ack_delay());
        self.clone().answer(&same)
    }
}

/// What the original's methods answer. They are calls, too: a restored state with a length outside its
/// bounds is refused. One that was made by `new` never is.
impl RttStats {
    /// The smoothed round trip.
    pub fn rtt(&self) -> Result<Duration, Refusal> {
        self.ask()?.rtt()
    }

    /// The latest sample; 0 before the first.
    pub fn latest_rtt(&self) -> Result<Duration, Refusal> {
        self.ask()?.latest_rtt()
    }

    /// The variation.
    pub fn rttvar(&self) -> Result<Duration, Refusal> {
        self.ask()?.rttvar()
    }

    /// The smallest sample, if there is any.
    pub fn min_rtt(&self) -> Result<Option<Duration>, Refusal> {
        self.ask()?.min_rtt()
    }
}

/// The stored words that no call answers, by the original's names of its fields: looked up, within their
/// bounds or not.
impl RttStats {
    /// The largest delay that the peer announces.
    pub fn max_ack_delay(&self) -> Duration {
        Duration::from_nanos(words::get(&self.bytes, rtt_state::MAX_ACK_DELAY))
    }

    /// Whether there was a sample.
    pub fn has_first_rtt_sample(&self) -> bool {
        words::get_flag(&self.bytes, rtt_state::HAS_FIRST_RTT_SAMPLE)
    }
}

/// One call on an estimator as bytes, for [`rtt_run`] and [`RttStats::run`]: the call of its name, as
/// docs/LAYOUT.md has its words, and [`table`] names them.
#[derive(Clone, Copy, Debug, PartialEq, Eq)]
pub struct RttCall {
    bytes: [u8; RttCall::BYTES],
}

impl RttCall {
    /// Bytes of a call.
    pub const BYTES: usize = table::RTT_CALL_BYTES;

    /// A fresh estimator: [`RttStats::new`].
    pub fn new(initial_rtt: Duration, max_ack_delay: Duration) -> Self {
        let arguments = [initial_rtt.as_nanos(), max_ack_delay.as_nanos()];
        RttCall::of(rtt_call::NEW, &arguments)
    }

    /// A sample: [`RttStats::update_rtt`].
    pub fn update_rtt(
        latest_rtt: Duration,
        ack_delay: Duration,
        handshake_confirmed: bool,
    ) -> Self {
        let (latest_rtt, ack_delay) = (latest_rtt.as_nanos(), ack_delay.as_nanos());
        let arguments = [latest_rtt, ack_delay, handshake_confirmed as u64];
        RttCall::of(rtt_call::UPDATE_RTT, &arguments)
    }

    /// The largest delay: [`RttStats::update_max_ack_delay`].
    pub fn update_max_ack_delay(max_ack_delay: Duration) -> Self {
        let number = rtt_call::UPDATE_MAX_ACK_DELAY;
        RttCall::of(number, &[max_ack_delay.as_nanos()])
    }

    /// The call of a number, with its arguments in order; the other words are 0.
    fn of(number: u64, arguments: &[u64]) -> Self {
        let mut bytes = [0; RttCall::BYTES];
        words::put(&mut bytes, table::RTT_NUMBER_IN_CALL, number);
        for (at, argument) in arguments.iter().enumerate() {
            words::put(&mut bytes, table::RTT_ARGUMENTS_IN_CALL + at, *argument);
        }
        RttCall { bytes }
    }

    /// Its bytes.
    pub fn as_bytes(&self) -> &[u8; RttCall::BYTES] {
        &self.bytes
    }
}

/// A call's answer as bytes, from [`rtt_run`] or [`RttStats::run`]: what the estimator is after it. It has
/// no word that says of which call it is: [`Refusal::of_rtt_call`] gives a refusal's text the names of the
/// call's arguments.
///
/// Each method says why the call was refused, if it was.
#[derive(Clone, Copy, Debug, PartialEq, Eq)]
pub struct RttAnswer {
    bytes: [u8; RttAnswer::BYTES],
}

impl RttAnswer {
    /// Bytes of an answer.
    pub const BYTES: usize = table::RTT_ANSWER_BYTES;

    /// The answer of these bytes.
    pub fn from_bytes(bytes: &[u8; RttAnswer::BYTES]) -> Self {
        RttAnswer { bytes: *bytes }
    }

    /// Nothing, where the call was done.
    ///
    /// # Panics
    ///
    /// If the bytes are none of a run's.
    pub fn done(&self) -> Result<(), Refusal> {
        Refusal::of_reply(words::get(&self.bytes, rtt_answer::REPLY))
    }

    /// The smoothed round trip.
    ///
    /// # Panics
    ///
    /// If the bytes are none of a run's.
    pub fn rtt(&self) -> Result<Duration, Refusal> {
        self.length(rtt_answer::SMOOTHED_RTT)
    }

    /// The latest sample; 0 before the first.
    ///
    /// # Panics
    ///
    /// If the bytes are none of a run's.
    pub fn latest_rtt(&self) -> Result<Duration, Refusal> {
        self.length(rtt_answer::LATEST_RTT)
    }

    /// The variation.
    ///
    /// # Panics
    ///
    /// If the bytes are none of a run's.
    pub fn rttvar(&self) -> Result<Duration, Refusal> {
        self.length(rtt_answer::RTTVAR)
    }

    /// The smallest sample, if there is any.
    ///
    /// # Panics
    ///
    /// If the bytes are none of a run's.
    pub fn min_rtt(&self) -> Result<Option<Duration>, Refusal> {
        let length = self.length(rtt_answer::MIN_RTT)?;
        Ok(Some(length).filter(|length| length.as_nanos() != table::UNSET))
    }

    /// The length at a place, where the call was done.
    fn length(&self, at: usize) -> Result<Duration, Refusal> {
        self.done()?;
        Ok(Duration::from_nanos(words::get(&self.bytes, at)))
    }
}

/// Makes many calls, one after the other, on an estimator in lent bytes.
///
/// `state` is [`RttStats::BYTES`] long, `calls` has [`RttCall::BYTES`] for each call, and `answers` room for
/// [`RttAnswer::BYTES`] each; what it has beyond them keeps its bytes. A call that is refused says so in its
/// answer, and the run goes on. It changes nothing, but for a `new` (call 0), which then leaves a fresh
/// estimator of 0 and 0: look at its answer before going on.
///
/// Zeros are taken for what they say: a call of zero bytes is a `new` of 0 and 0, and is done, and so is an
/// update on a state of zeros, with a `max_ack_delay` of 0.
///
/// # Errors
///
/// `OutOfBounds` for bytes that encode no estimator, the last word being neither 0 nor 1, also where the
/// first call is a `new`; `BadArgument` for a state of another length, 2.8 at 1, or calls not in whole
/// records, 2.8 at 2; `ShortOutput` for answers without room. Then no byte is changed.
///
/// `Ok` says nothing of the calls: whether one was refused, and why, is in its [`RttAnswer`].
///
/// ```
/// use guovssalu::table::rtt_call;
/// use guovssalu::{rtt_run, Duration, RttAnswer, RttCall, RttStats};
///
/// let (initial_rtt, max_ack_delay) = (Duration::from_millis(333), Duration::from_millis(25));
/// let mut calls = Vec::new();
/// calls.extend(RttCall::new(initial_rtt, max_ack_delay).as_bytes());
/// calls.extend(RttCall::update_rtt(Duration::from_millis(80), Duration::ZERO, true).as_bytes());
/// // The peer says that it waited for 70 seconds.
/// let (latest_rtt, ack_delay) = (Duration::from_millis(90), Duration::from_secs(70));
/// calls.extend(RttCall::update_rtt(latest_rtt, ack_delay, true).as_bytes());
///
/// let mut state = [0; RttStats::BYTES];
/// let mut answers = [0; 3 * RttAnswer::BYTES];
/// rtt_run(&mut state, &calls, &mut answers)?;
/// let last = RttAnswer::from_bytes(answers[2 * RttAnswer::BYTES..].try_into().unwrap());
/// let refusal = last.done().unwrap_err().of_rtt_call(rtt_call::UPDATE_RTT);
/// assert_eq!(refusal.to_string(), "2.4 at 2: ack_delay is longer than 2^36 ns");
///
/// // The sample was not taken.
/// let stats = RttStats::from_bytes(&state)?;
/// assert_eq!(stats.latest_rtt(), Ok(Duration::from_millis(80)));
/// # Ok::<(), guovssalu::Refusal>(())
/// ```
pub fn rtt_run(state: &mut [u8], calls: &[u8], answers: &mut [u8]) -> Result<(), Refusal> {
    Refusal::of(foreign::rtt_run(state, calls, answers), Asked::RttRun)
}
