use std::convert::TryInto;

use crate::run;
use crate::table;
use crate::table::call;
use crate::table::state;
use crate::table::CYCLE_BYTES;
use crate::table::MODEL_BYTES;
use crate::table::STATE_BYTES;
use crate::words;
use crate::Answer;
use crate::Bandwidth;
use crate::Call;
use crate::CongestionEvent;
use crate::Duration;
use crate::Moment;
use crate::Params;
use crate::Refusal;
use crate::Sample;

/// The bytes of a cycle where a call is not given one.
const NO_CYCLE: [u8; CYCLE_BYTES] = [0; CYCLE_BYTES];

/// The BBRv2 network model, the original's `BBRv2NetworkModel` in its default loss mode, with the
/// original's names. Each call but those that only look at a stored number is one call of the
/// archive: it is done, or it is refused and nothing changes.
///
/// Byte counts may be up to 2^40, totals up to 2^62, bandwidths up to 2^40 bits per second. What is
/// unset among `inflight_lo`, `inflight_hi` and the round's smallest inflight is [`NetworkModel::UNSET`],
/// as in the original.
#[derive(Clone, Debug, PartialEq, Eq)]
pub struct NetworkModel {
    bytes: [u8; NetworkModel::BYTES],
}

impl NetworkModel {
    /// Bytes of a model's state.
    pub const BYTES: usize = MODEL_BYTES;

    /// The number that stands for an unset number of bytes, 2^64 - 1.
    pub const UNSET: u64 = table::UNSET;

    /// A fresh model at the moment `now`.
    pub fn new(params: &Params, initial_rtt: Duration, now: Moment) -> Result<Self, Refusal> {
        let arguments = [now.as_nanos(), initial_rtt.as_nanos()];
        let mut model = NetworkModel {
            bytes: [0; NetworkModel::BYTES],
        };
        model.make(&Call::new(call::START, &arguments).with_params(params))?;
        Ok(model)
    }

    /// The bytes of its state, to be kept: the model's words of docs/LAYOUT.md.
    pub fn as_bytes(&self) -> &[u8; NetworkModel::BYTES] {
        &self.bytes
    }

    /// The model of bytes that were kept.
    ///
    /// # Errors
    ///
    /// `BadArgument` for another length, 2.8 at 1; `OutOfBounds` for bytes that encode no state. Bytes
    /// that encode a state with a number outside its bounds are taken, and refused by the calls.
    ///
    /// # Bytes of layout 1
    ///
    /// Versions before 0.5.0 kept a model in 272 bytes, without its last word, which says whether
    /// anything was sent. They are refused with `BadArgument`, and are carried over with that word put in
    /// at their end (docs/LAYOUT.md, "Carrying a kept state over"). A kept cycle is as it was.
    ///
    /// ```
    /// # use guovssalu::{Duration, Moment, NetworkModel, Params, Refusal};
    /// # let params = Params::default();
    /// # let mut kept = NetworkModel::new(&params, Duration::from_millis(100), Moment::from_nanos(0))?;
    /// # kept.on_packet_sent(Moment::from_nanos(1), 0, 7, 1300)?;
    /// # let old = &kept.as_bytes()[..272];
    /// let refused = NetworkModel::from_bytes(old);
    /// assert!(matches!(refused, Err(Refusal::BadArgument(_))));
    ///
    /// let sent = true;
    /// let bytes = [old, &u64::from(sent).to_le_bytes()].concat();
    /// let model = NetworkModel::from_bytes(&bytes)?;
    /// assert!(model.anything_sent());
    /// # assert_eq!(model, kept);
    /// # Ok::<(), Refusal>(())
    /// ```
    pub fn from_bytes(bytes: &[u8]) -> Result<Self, Refusal> {
        let bytes = bytes.try_into().map_err(|_| Refusal::WRONG_LENGTH)?;
        let model = NetworkModel { bytes };
        let mut state = model.with(&NO_CYCLE);
        run(&mut state, &[], &mut [])?;
        Ok(model)
    }

    /// The bytes of a state with this model and a cycle.
    fn with(&self, cycle: &[u8; CYCLE_BYTES]) -> [u8; STATE_BYTES] {
        let mut state = [0; STATE_BYTES];
        state[..NetworkModel::BYTES].copy_from_slice(&self.bytes);
        state[NetworkModel::BYTES..].copy_from_slice(cycle);
        state
    }

    /// Makes a call on the model alone.
    fn make(&mut self, call: &Call) -> Result<Answer, Refusal> {
        let mut state = self.with(&NO_CYCLE);
        let answer = call.make(&mut state)?;
        self.bytes.copy_from_slice(&state[..NetworkModel::BYTES]);
        Ok(answer)
    }

    /// Makes a call on the model and the bytes of a cycle.
    pub(crate) fn make_with(
        &mut self,
        cycle: &mut [u8; CYCLE_BYTES],
        call: &Call,
    ) -> Result<(), Refusal> {
        let mut state = self.with(cycle);
        call.make(&mut state)?;
        self.bytes.copy_from_slice(&state[..NetworkModel::BYTES]);
        cycle.copy_from_slice(&state[NetworkModel::BYTES..]);
        Ok(())
    }

    /// The answer to a call that changes nothing.
    fn ask(&self, call: &Call) -> Result<u64, Refusal> {
        call.make(&mut self.with(&NO_CYCLE))?.number()
    }

    fn word(&self, at: usize) -> u64 {
        words::get(&self.bytes, at)
    }
}

/// Sends and events.
impl NetworkModel {
    /// A packet of so many bytes is sent while `bytes_in_flight` were in flight. Its number is to be above
    /// the one sent before: an event that acks a number above the last sent one is refused with
    /// `NeverSent` ([Packet numbers](crate#packet-numbers)).
    pub fn on_packet_sent(
        &mut self,
        sent_time: Moment,
        bytes_in_flight: u64,
        packet_number: u64,
        bytes: u64,
    ) -> Result<(), Refusal> {
        let sent_time = sent_time.as_nanos();
        let call = Call::new(
            call::ON_PACKET_SENT,
            &[sent_time, bytes_in_flight, packet_number, bytes],
        );
        self.make(&call).map(drop)
    }

    /// An event: the numbers of the packets acked, what is known of the event, and what the sampler
    /// says to it. Fills in the event. The numbers may come in any order, and be as many as there are:
    /// the greatest counts, where in the original the last does. It ends the round where it is past the
    /// round's end; with no numbers no round ends. Where it is above the number of the last send, and
    /// where there is one and nothing was sent yet, the event is refused with `NeverSent`. Only the
    /// greatest is handed on (proved to be enough: `only-greatest` in
    /// crates/theorems/specs/Theorems.antt).
    pub fn on_congestion_event_start(
        &mut self,
        acked_packets: &[u64],
        congestion_event: &mut CongestionEvent,
        sample: &Sample,
        params: &Params,
    ) -> Result<(), Refusal> {
        let event = &*congestion_event;
        let call = Call::on_congestion_event_start(acked_packets, event, sample, params);
        *congestion_event = self.make(&call)?.event()?;
        Ok(())
    }

    /// The event is over: the round's sums begin anew if it ended the round.
    pub fn on_congestion_event_finish(
        &mut self,
        congestion_event: &CongestionEvent,
    ) -> Result<(), Refusal> {
        let call = Call::new(call::ON_CONGESTION_EVENT_FINISH, &[]).with_event(congestion_event);
        self.make(&call).map(drop)
    }

    /// Whether the smallest round trip has expired; the event's sample then takes its place.
    pub fn maybe_expire_min_rtt(
        &mut self,
        congestion_event: &CongestionEvent,
        params: &Params,
    ) -> Result<bool, Refusal> {
        let call = Call::new(call::MAYBE_EXPIRE_MIN_RTT, &[]).with_event(congestion_event);
        let answer = self.make(&call.with_params(params))?;
        Ok(answer.number()? == 1)
    }

    /// Whether the round has lost more than the threshold bears.
    pub fn is_inflight_too_high(
        &self,
        congestion_event: &CongestionEvent,
        max_loss_events: u64,
        params: &Params,
    ) -> Result<bool, Refusal> {
        let call =
            Call::new(call::IS_INFLIGHT_TOO_HIGH, &[max_loss_events]).with_event(congestion_event);
        Ok(self.ask(&call.with_params(params))? == 1)
    }

    /// Whether the bandwidth has grown by the threshold since the baseline; counts a round without
    /// growth otherwise.
    pub fn has_bandwidth_growth(
        &mut self,
        congestion_event: &CongestionEvent,
        params: &Params,
    ) -> Result<bool, Refusal> {
        let call = Call::new(call::HAS_BANDWIDTH_GROWTH, &[]).with_event(congestion_event);
        let answer = self.make(&call.with_params(params))?;
        Ok(answer.number()? == 1)
    }

    /// The round begins anew before its end, uncounted.
    pub fn restart_round_early(&mut self) -> Result<(), Refusal> {
        self.make(&Call::new(call::RESTART_ROUND_EARLY, &[]))
            .map(drop)
    }

    /// Counts a round with a queue, or begins to count anew.
    pub fn check_persistent_queue(
        &mut self,
        target_gain: f32,
        params: &Params,
    ) -> Result<(), Refusal> {
        let call = Call::new(
            call::CHECK_PERSISTENT_QUEUE,
            &[target_gain.to_bits() as u64],
        )
        .with_params(params);
        self.make(&call).map(drop)
    }
}

/// Products of bandwidth and delay, and what is left of inflight_hi.
impl NetworkModel {
    /// The bytes that the bandwidth times the gain carries in the smallest round trip.
    pub fn bdp(&self, bandwidth: Bandwidth, gain: f32) -> Result<u64, Refusal> {
        let arguments = [bandwidth.to_bits_per_second(), gain.to_bits() as u64];
        self.ask(&Call::new(call::BDP, &arguments))
    }

    /// The bytes that the bandwidth carries in the smallest round trip.
    pub fn bdp1(&self, bandwidth: Bandwidth) -> Result<u64, Refusal> {
        self.ask(&Call::new(call::BDP1, &[bandwidth.to_bits_per_second()]))
    }

    /// The bytes that the largest bandwidth carries in the smallest round trip.
    pub fn bdp0(&self) -> Result<u64, Refusal> {
        self.ask(&Call::new(call::BDP0, &[]))
    }

    /// inflight_hi without the headroom.
    pub fn inflight_hi_with_headroom(&self, params: &Params) -> Result<u64, Refusal> {
        self.ask(&Call::new(call::INFLIGHT_HI_WITH_HEADROOM, &[]).with_params(params))
    }
}

/// What the modes set.
impl NetworkModel {
    /// The full bandwidth counts as reached.
    pub fn set_full_bandwidth_reached(&mut self) -> Result<(), Refusal> {
        self.make(&Call::new(call::SET_FULL_BANDWIDTH_REACHED, &[]))
            .map(drop)
    }

    /// Sets the pacing gain, 1/1024 to 8.
    pub fn set_pacing_gain(&mut self, pacing_gain: f32) -> Result<(), Refusal> {
        let call = Call::new(call::SET_PACING_GAIN, &[pacing_gain.to_bits() as u64]);
        self.make(&call).map(drop)
    }

    /// Sets the window's gain, 1/1024 to 8.
    pub fn set_cwnd_gain(&mut self, cwnd_gain: f32) -> Result<(), Refusal> {
        let call = Call::new(call::SET_CWND_GAIN, &[cwnd_gain.to_bits() as u64]);
        self.make(&call).map(drop)
    }

    /// Sets inflight_hi, or unsets it.
    pub fn set_inflight_hi(&mut self, new_inflight_hi: u64) -> Result<(), Refusal> {
        self.make(&Call::new(call::SET_INFLIGHT_HI, &[new_inflight_hi]))
            .map(drop)
    }

    /// inflight_lo becomes at most the cap; an unset one stays so.
    pub fn cap_inflight_lo(&mut self, cap: u64) -> Result<(), Refusal> {
        self.make(&Call::new(call::CAP_INFLIGHT_LO, &[cap]))
            .map(drop)
    }

    /// Unsets inflight_lo.
    pub fn clear_inflight_lo(&mut self) -> Result<(), Refusal> {
        self.make(&Call::new(call::CLEAR_INFLIGHT_LO, &[]))
            .map(drop)
    }

    /// Unsets bandwidth_lo.
    pub fn clear_bandwidth_lo(&mut self) -> Result<(), Refusal> {
        self.make(&Call::new(call::CLEAR_BANDWIDTH_LO, &[]))
            .map(drop)
    }

    /// The newer of the two largest bandwidths becomes the older, unless it is zero.
    pub fn advance_max_bandwidth_filter(&mut self) -> Result<(), Refusal> {
        self.make(&Call::new(call::ADVANCE_MAX_BANDWIDTH_FILTER, &[]))
            .map(drop)
    }

    /// The smallest round trip counts as so much younger.
    pub fn postpone_min_rtt_timestamp(&mut self, duration: Duration) -> Result<(), Refusal> {
        self.make(&Call::new(
            call::POSTPONE_MIN_RTT_TIMESTAMP,
            &[duration.as_nanos()],
        ))
        .map(drop)
    }
}

/// What the original's methods answer. They are calls, too: a state with a number outside its bounds
/// is refused.
impl NetworkModel {
    /// The largest bandwidth, or bandwidth_lo where it is lower.
    pub fn bandwidth_estimate(&self) -> Result<Bandwidth, Refusal> {
        self.ask(&Call::new(call::BANDWIDTH_ESTIMATE, &[]))
            .map(Bandwidth::from_bits_per_second)
    }

    /// The smallest round trip.
    pub fn min_rtt(&self) -> Result<Duration, Refusal> {
        self.ask(&Call::new(call::MIN_RTT, &[]))
            .map(Duration::from_nanos)
    }

    /// The moment of the smallest round trip.
    pub fn min_rtt_timestamp(&self) -> Result<Moment, Refusal> {
        self.ask(&Call::new(call::MIN_RTT_TIMESTAMP, &[]))
            .map(Moment::from_nanos)
    }

    /// The largest bandwidth.
    pub fn max_bandwidth(&self) -> Result<Bandwidth, Refusal> {
        self.ask(&Call::new(call::MAX_BANDWIDTH, &[]))
            .map(Bandwidth::from_bits_per_second)
    }

    /// The most bytes delivered by an event of the round.
    pub fn max_bytes_delivered_in_round(&self) -> Result<u64, Refusal> {
        self.ask(&Call::new(call::MAX_BYTES_DELIVERED_IN_ROUND, &[]))
    }

    /// The total of bytes acked.
    pub fn total_bytes_acked(&self) -> Result<u64, Refusal> {
        self.ask(&Call::new(call::TOTAL_BYTES_ACKED, &[]))
    }

    /// The total of bytes lost.
    pub fn total_bytes_lost(&self) -> Result<u64, Refusal> {
        self.ask(&Call::new(call::TOTAL_BYTES_LOST, &[]))
    }

    /// Whether the full bandwidth counts as reached.
    pub fn full_bandwidth_reached(&self) -> Result<bool, Refusal> {
        self.ask(&Call::new(call::FULL_BANDWIDTH_REACHED, &[]))
            .map(|answer| answer == 1)
    }

    /// The pacing gain.
    pub fn pacing_gain(&self) -> Result<f32, Refusal> {
        self.ask(&Call::new(call::PACING_GAIN, &[])).map(gain)
    }

    /// The window's gain.
    pub fn cwnd_gain(&self) -> Result<f32, Refusal> {
        self.ask(&Call::new(call::CWND_GAIN, &[])).map(gain)
    }

    /// The upper bound of the inflight, or unset.
    pub fn inflight_hi(&self) -> Result<u64, Refusal> {
        self.ask(&Call::new(call::INFLIGHT_HI, &[]))
    }

    /// What inflight_hi is before it is set: unset.
    pub fn inflight_hi_default(&self) -> Result<u64, Refusal> {
        self.ask(&Call::new(call::INFLIGHT_HI_DEFAULT, &[]))
    }

    /// The lower bound of the inflight, or unset.
    pub fn inflight_lo(&self) -> Result<u64, Refusal> {
        self.ask(&Call::new(call::INFLIGHT_LO, &[]))
    }

    /// The events with losses in the round.
    pub fn loss_events_in_round(&self) -> Result<u64, Refusal> {
        self.ask(&Call::new(call::LOSS_EVENTS_IN_ROUND, &[]))
    }

    /// The rounds with a queue, one after the other.
    pub fn rounds_with_queueing(&self) -> Result<u64, Refusal> {
        self.ask(&Call::new(call::ROUNDS_WITH_QUEUEING, &[]))
    }

    /// The bytes by which the inflight may pass the product of bandwidth and delay before it counts
    /// as a queue.
    pub fn queueing_threshold_extra_bytes(&self) -> Result<u64, Refusal> {
        self.ask(&Call::new(call::QUEUEING_THRESHOLD_EXTRA_BYTES, &[]))
    }
}

/// The stored numbers that no call answers, by the original's names of its fields: looked up, within
/// their bounds or not.
impl NetworkModel {
    /// How many rounds have ended.
    pub fn round_trip_count(&self) -> u64 {
        self.word(state::ROUND_TRIP_COUNT)
    }

    /// The number of the packet sent last; 0 before the first.
    pub fn last_sent_packet(&self) -> u64 {
        self.word(state::LAST_SENT_PACKET)
    }

    /// The number of the packet whose ack does not yet end the round, if it is set.
    pub fn end_of_round_trip(&self) -> Option<u64> {
        words::get_option(&self.bytes, state::END_OF_ROUND_TRIP_SET)
    }

    /// The bytes lost in the round.
    pub fn bytes_lost_in_round(&self) -> u64 {
        self.word(state::BYTES_LOST_IN_ROUND)
    }

    /// The fewest bytes in flight in the round, or unset.
    pub fn min_bytes_in_flight_in_round(&self) -> u64 {
        self.word(state::MIN_BYTES_IN_FLIGHT_IN_ROUND)
    }

    /// Whether a send of the round reached inflight_hi.
    pub fn inflight_hi_limited_in_round(&self) -> bool {
        words::get_flag(&self.bytes, state::INFLIGHT_HI_LIMITED_IN_ROUND)
    }

    /// The largest bandwidth sample of the round.
    pub fn bandwidth_latest(&self) -> Bandwidth {
        Bandwidth::from_bits_per_second(self.word(state::BANDWIDTH_LATEST))
    }

    /// The largest inflight sample of the round.
    pub fn inflight_latest(&self) -> u64 {
        self.word(state::INFLIGHT_LATEST)
    }

    /// The lower bound of the bandwidth, if it is set.
    pub fn bandwidth_lo(&self) -> Option<Bandwidth> {
        words::get_bandwidth(&self.bytes, state::BANDWIDTH_LO_SET)
    }

    /// Whether the window was full before the last event that acked no more than expected.
    pub fn cwnd_limited_before_aggregation_epoch(&self) -> bool {
        words::get_flag(&self.bytes, state::CWND_LIMITED_BEFORE_AGGREGATION_EPOCH)
    }

    /// The bandwidth that growth is measured from.
    pub fn full_bandwidth_baseline(&self) -> Bandwidth {
        Bandwidth::from_bits_per_second(self.word(state::FULL_BANDWIDTH_BASELINE))
    }

    /// The rounds without growth, one after the other.
    pub fn rounds_without_bandwidth_growth(&self) -> u64 {
        self.word(state::ROUNDS_WITHOUT_BANDWIDTH_GROWTH)
    }

    /// Whether rounds limited by the application don't count as rounds without growth.
    pub fn ignore_app_limited_for_no_bandwidth_growth(&self) -> bool {
        words::get_flag(
            &self.bytes,
            state::IGNORE_APP_LIMITED_FOR_NO_BANDWIDTH_GROWTH,
        )
    }

    /// The latest send rate, if there is one.
    pub fn latest_send_rate(&self) -> Option<Bandwidth> {
        words::get_bandwidth(&self.bytes, state::LATEST_SEND_RATE_SET)
    }

    /// The latest ack rate, if there is one.
    pub fn latest_ack_rate(&self) -> Option<Bandwidth> {
        words::get_bandwidth(&self.bytes, state::LATEST_ACK_RATE_SET)
    }

    /// The last accepted moment, which the original doesn't keep.
    pub fn last_accepted_moment(&self) -> Moment {
        Moment::from_nanos(self.word(state::LAST_ACCEPTED_MOMENT))
    }

    /// Whether a packet was sent since the model was made, which the original doesn't keep.
    pub fn anything_sent(&self) -> bool {
        words::get_flag(&self.bytes, state::ANYTHING_SENT)
    }
}

fn gain(bits: u64) -> f32 {
    f32::from_bits(bits as u32)
}
