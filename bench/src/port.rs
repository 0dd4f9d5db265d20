//! The port's side, one call at a time through the wrapper.

use guovssalu::Bandwidth;
use guovssalu::CongestionEvent;
use guovssalu::Duration;
use guovssalu::Moment;
use guovssalu::NetworkModel;
use guovssalu::Params;
use guovssalu::RttStats;
use guovssalu::Sample;
use guovssalu::SendTimeState;

use crate::inputs;
use crate::inputs::Updates;
use crate::model;

/// A fresh estimator.
pub fn estimator() -> RttStats {
    let [initial, limit] = Updates::FRESH.map(Duration::from_nanos);
    RttStats::new(initial, limit).unwrap()
}

/// A step of a connection, in the wrapper's types.
pub enum Step {
    Send([u64; 4]),
    Event(CongestionEvent, Sample, [u64; 2]),
}

impl Step {
    pub fn of(step: &inputs::Step) -> Self {
        match step {
            inputs::Step::Send(numbers) => Step::Send(*numbers),
            inputs::Step::Event(record, sample) => {
                let event = CongestionEvent::new(
                    Moment::from_nanos(record.event_time),
                    record.prior_cwnd,
                    record.prior_in_flight,
                    record.probing,
                );
                Step::Event(event, sample_of(sample), [sample.acked[0], sample.acked[1]])
            }
        }
    }
}

fn sample_of(sample: &model::Sample) -> Sample {
    let bandwidth = |bits: Option<u64>| bits.map(Bandwidth::from_bits_per_second);
    Sample {
        sample_max_bandwidth: bandwidth(sample.bandwidth),
        sample_max_send_rate: bandwidth(sample.send_rate),
        sample_max_ack_rate: bandwidth(sample.ack_rate),
        sample_is_app_limited: sample.app_limited,
        sample_rtt: sample.rtt.map(Duration::from_nanos),
        sample_max_inflight: sample.max_inflight,
        extra_acked: sample.extra_acked,
        last_packet_send_state: SendTimeState {
            is_valid: sample.send_state.valid,
            is_app_limited: sample.send_state.app_limited,
            total_bytes_acked: sample.send_state.total_acked,
            bytes_in_flight: sample.send_state.bytes_in_flight,
        },
        total_bytes_acked: sample.total_acked,
        total_bytes_lost: sample.total_lost,
    }
}

/// A fresh model at moment 0.
pub fn fresh(params: &Params) -> NetworkModel {
    let round_trip = Duration::from_millis(100);
    NetworkModel::new(params, round_trip, Moment::from_nanos(0)).unwrap()
}

/// Makes the steps, an event with its finish.
pub fn make(model: &mut NetworkModel, params: &Params, steps: &[Step]) {
    for step in steps {
        match step {
            Step::Send([moment, in_flight, number, bytes]) => {
                let moment = Moment::from_nanos(*moment);
                let sent = model.on_packet_sent(moment, *in_flight, *number, *bytes);
                sent.unwrap();
            }
            Step::Event(event, sample, acked) => {
                let mut event = *event;
                let begun = model.on_congestion_event_start(acked, &mut event, sample, params);
                begun.unwrap();
                model.on_congestion_event_finish(&event).unwrap();
            }
        }
    }
}
