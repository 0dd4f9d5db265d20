use crate::Bandwidth;
use crate::Duration;
use crate::Moment;

/// What was known when a packet was sent.
#[derive(Clone, Copy, Debug, Default, PartialEq, Eq)]
pub struct SendTimeState {
    /// Whether the other fields are known.
    pub is_valid: bool,
    /// Whether the sender was limited by its application.
    pub is_app_limited: bool,
    /// The total of bytes acked by then.
    pub total_bytes_acked: u64,
    /// The bytes in flight, with the packet.
    pub bytes_in_flight: u64,
}

/// One congestion event, the original's `BBRv2CongestionEvent`.
///
/// [`CongestionEvent::new`] makes it of what is known before the event;
/// [`NetworkModel::on_congestion_event_start`](crate::NetworkModel::on_congestion_event_start) fills
/// in the rest.
#[derive(Clone, Copy, Debug, Default, PartialEq, Eq)]
pub struct CongestionEvent {
    /// When the event happened.
    pub event_time: Moment,
    /// The congestion window before the event.
    pub prior_cwnd: u64,
    /// The bytes in flight before the event.
    pub prior_bytes_in_flight: u64,
    /// The bytes in flight after the event.
    pub bytes_in_flight: u64,
    /// The bytes that the event acked.
    pub bytes_acked: u64,
    /// The bytes that the event lost.
    pub bytes_lost: u64,
    /// Whether the event ended a round.
    pub end_of_round_trip: bool,
    /// Whether the sender was probing for bandwidth.
    pub is_probing_for_bandwidth: bool,
    /// The largest bandwidth sample, if there is one.
    pub sample_max_bandwidth: Option<Bandwidth>,
    /// The smallest round trip, if there is one.
    pub sample_min_rtt: Option<Duration>,
    /// The send state of the largest packet acked, or lost where none was acked.
    pub last_packet_send_state: SendTimeState,
}

impl CongestionEvent {
    /// An event before it is handed to the model.
    pub fn new(
        event_time: Moment,
        prior_cwnd: u64,
        prior_bytes_in_flight: u64,
        is_probing_for_bandwidth: bool,
    ) -> Self {
        CongestionEvent {
            event_time,
            prior_cwnd,
            prior_bytes_in_flight,
            is_probing_for_bandwidth,
            ..CongestionEvent::default()
        }
    }
}

/// What the bandwidth sampler says to one event, and the totals after it. The sampler itself is the
/// caller's.
#[derive(Clone, Copy, Debug, Default, PartialEq, Eq)]
pub struct Sample {
    /// The largest bandwidth sample, if there is one.
    pub sample_max_bandwidth: Option<Bandwidth>,
    /// The largest send rate, if there is one.
    pub sample_max_send_rate: Option<Bandwidth>,
    /// The largest ack rate, if there is one.
    pub sample_max_ack_rate: Option<Bandwidth>,
    /// Whether the largest bandwidth sample was limited by the application.
    pub sample_is_app_limited: bool,
    /// The smallest round trip, if there is one.
    pub sample_rtt: Option<Duration>,
    /// The largest inflight of the packets acked.
    pub sample_max_inflight: u64,
    /// The bytes acked beyond what the bandwidth explains.
    pub extra_acked: u64,
    /// The send state of the largest packet acked, or lost where none was acked.
    pub last_packet_send_state: SendTimeState,
    /// The total of bytes acked after the event; it may not fall.
    pub total_bytes_acked: u64,
    /// The total of bytes lost after the event; it may not fall.
    pub total_bytes_lost: u64,
}
