// Stands for src/recovery/gcongestion/bbr/bandwidth_sampler.rs, which is
// missing. It measures nothing: the answer to the next event is handed in
// before it. Written from the calls and fields that network_model.rs,
// probe_bw.rs and bbr2.rs use.

use std::time::Duration;
use std::time::Instant;

use crate::recovery::bandwidth::Bandwidth;
use crate::recovery::gcongestion::Acked;
use crate::recovery::gcongestion::Lost;

#[derive(Clone, Copy, Debug, Default)]
pub struct SendTimeState {
    pub is_valid: bool,
    pub is_app_limited: bool,
    pub total_bytes_acked: usize,
    pub bytes_in_flight: usize,
}

/// What the sampler says to one event.
#[derive(Clone, Copy, Debug, Default)]
pub struct Answer {
    pub sample_max_bandwidth: Option<Bandwidth>,
    pub sample_max_send_rate: Option<Bandwidth>,
    pub sample_max_ack_rate: Option<Bandwidth>,
    pub sample_is_app_limited: bool,
    pub sample_rtt: Option<Duration>,
    pub sample_max_inflight: usize,
    pub extra_acked: usize,
    pub last_packet_send_state: SendTimeState,
    /// The totals after the event.
    pub totals: Totals,
}

#[derive(Clone, Copy, Debug, Default)]
pub struct Totals {
    pub acked: usize,
    pub lost: usize,
}

#[derive(Debug)]
pub struct BandwidthSampler {
    totals: Totals,
    next: Option<Answer>,
}

impl BandwidthSampler {
    pub fn new(_: usize, _: bool, _: bool) -> Self {
        BandwidthSampler {
            totals: Totals::default(),
            next: None,
        }
    }

    /// Sets the answer to the next event. Without one the next event gets an
    /// empty answer and leaves the totals.
    pub fn hand_in(&mut self, answer: Answer) {
        self.next = Some(answer);
    }

    /// Sets the totals.
    pub fn put(&mut self, totals: Totals) {
        self.totals = totals;
    }

    pub fn on_congestion_event(
        &mut self,
        _: Instant,
        _: &[Acked],
        _: &[Lost],
        _: Option<Bandwidth>,
        _: Bandwidth,
        _: usize,
    ) -> Answer {
        let answer = self.next.take().unwrap_or(Answer {
            totals: self.totals,
            ..Answer::default()
        });
        self.totals = answer.totals;
        answer
    }

    pub fn total_bytes_acked(&self) -> usize {
        self.totals.acked
    }

    pub fn total_bytes_lost(&self) -> usize {
        self.totals.lost
    }

    pub fn max_ack_height(&self) -> Option<usize> {
        None
    }

    pub fn on_packet_sent(&mut self, _: Instant, _: u64, _: usize, _: usize, _: bool) {}

    pub fn on_packet_neutered(&mut self, _: u64) {}

    pub fn on_app_limited(&mut self) {}

    pub fn remove_obsolete_packets(&mut self, _: u64) {}
}
