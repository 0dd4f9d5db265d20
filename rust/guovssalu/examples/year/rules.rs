//! The rules as far as inflight_lo needs them, kept beside the port and from the same inputs:
//! rounds, losses, the latest inflight and the exact value. Nothing here is taken from the port.

use guovssalu::CongestionEvent;
use guovssalu::NetworkModel;
use guovssalu::Sample;

use crate::exact::Exact;

/// The theorem's premise: no window and no inflight sample is larger.
pub const MOST_BYTES: u64 = 16_777_216;

/// What an event does to inflight_lo.
#[derive(Clone, Copy, Debug, PartialEq, Eq)]
pub enum Turn {
    Stays,
    /// A reduction, where the cut number counts.
    Cut,
    /// A reduction, where the latest inflight is larger than the cut number.
    Held,
}

pub struct Rules {
    pub last_sent_packet: u64,
    pub end_of_round_trip: Option<u64>,
    pub round_trip_count: u64,
    pub bytes_lost_in_round: u64,
    pub inflight_latest: u64,
    pub inflight_hi: u64,
    pub total_bytes_acked: u64,
    pub total_bytes_lost: u64,
    pub exact: Exact,
}

impl Rules {
    /// A fresh connection.
    pub fn new() -> Self {
        Rules {
            last_sent_packet: 0,
            end_of_round_trip: None,
            round_trip_count: 0,
            bytes_lost_in_round: 0,
            inflight_latest: 0,
            inflight_hi: NetworkModel::UNSET,
            total_bytes_acked: 0,
            total_bytes_lost: 0,
            exact: Exact::Unset,
        }
    }

    /// An event: fills in its record, and answers what it does to inflight_lo.
    pub fn start(&mut self, acked: &[u64], event: &mut CongestionEvent, sample: &Sample) -> Turn {
        self.fill(acked, event, sample);
        self.bytes_lost_in_round += event.bytes_lost;
        self.total_bytes_acked = sample.total_bytes_acked;
        self.total_bytes_lost = sample.total_bytes_lost;
        self.inflight_latest = self.inflight_latest.max(sample.sample_max_inflight);
        if !event.end_of_round_trip {
            return Turn::Stays;
        }
        self.round_trip_count += 1;
        self.end_of_round_trip = Some(self.last_sent_packet);
        let turn = self.lower(event);
        if sample.sample_max_inflight > 0 {
            self.inflight_latest = sample.sample_max_inflight;
        }
        turn
    }

    /// Reduces the exact value at the end of a round with losses, unless the sender is probing.
    fn lower(&mut self, event: &CongestionEvent) -> Turn {
        if event.is_probing_for_bandwidth || self.bytes_lost_in_round == 0 {
            return Turn::Stays;
        }
        match self.exact.reduce(event.prior_cwnd, self.inflight_latest) {
            false => Turn::Cut,
            true => Turn::Held,
        }
    }

    /// The record as the model has to leave it.
    fn fill(&self, acked: &[u64], event: &mut CongestionEvent, sample: &Sample) {
        event.bytes_acked = sample.total_bytes_acked - self.total_bytes_acked;
        event.bytes_lost = sample.total_bytes_lost - self.total_bytes_lost;
        event.bytes_in_flight = event
            .prior_bytes_in_flight
            .saturating_sub(event.bytes_acked)
            .saturating_sub(event.bytes_lost);
        event.end_of_round_trip = match (acked.iter().max(), self.end_of_round_trip) {
            (Some(greatest), Some(end)) => *greatest > end,
            (greatest, None) => greatest.is_some(),
            (None, _) => false,
        };
        if event.bytes_acked > 0 {
            event.sample_max_bandwidth = sample.sample_max_bandwidth;
        }
        event.sample_min_rtt = sample.sample_rtt;
        if sample.last_packet_send_state.is_valid {
            event.last_packet_send_state = sample.last_packet_send_state;
        }
    }

    /// An event is over.
    pub fn finish(&mut self, event: &CongestionEvent) {
        if event.end_of_round_trip {
            self.bytes_lost_in_round = 0;
        }
    }

    /// The round begins anew before its end.
    pub fn restart_round_early(&mut self) {
        self.bytes_lost_in_round = 0;
        self.end_of_round_trip = Some(self.last_sent_packet);
    }
}
