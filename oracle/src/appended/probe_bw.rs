// Appended to probe_bw.rs: the host of calls on a model and a cycle side by
// side, with the record of the current event, on plain numbers.

use guovssalu_sys::table::phase;
use guovssalu_sys::table::state;
use guovssalu_sys::table::CYCLE_IN_STATE;
use guovssalu_sys::table::EVENT_WORDS;
use guovssalu_sys::table::STATE_WORDS;

use crate::model::option;
use crate::model::Call;
use crate::model::Getter;
use crate::model::Record;
use crate::model::Sample;
use crate::model::SendState;
use crate::model::Start;
use crate::model::State;
use crate::model::FIELDS;
use crate::recovery::gcongestion::Bandwidth;

pub struct Host {
    /// Moments are nanoseconds after it.
    base: Instant,
    params: Params,
    probe: ProbeBW,
    event: BBRv2CongestionEvent,
    /// The last accepted moment, and whether anything was sent since the start:
    /// the original keeps neither.
    last: u64,
    anything_sent: bool,
}

impl Host {
    pub fn new(start: &Start) -> Self {
        Host::at(Instant::now(), start)
    }

    /// A start at moment 0 with the original's own parameters.
    pub fn usual_start() -> Start {
        let params = super::DEFAULT_PARAMS;
        Start {
            moment: 0,
            initial_rtt: 100_000_000,
            beta: params.beta,
            loss_threshold: params.loss_threshold,
            headroom: params.inflight_hi_headroom,
            full_bw_threshold: params.full_bw_threshold,
            cwnd_gain: params.startup_cwnd_gain,
            pacing_gain: params.startup_pacing_gain,
            full_bw_rounds: params.startup_full_bw_rounds as u64,
            queue_rounds: params.max_startup_queue_rounds as u64,
            probe_rtt_period: whole_nanos(params.probe_rtt_period),
            probe_base_duration: whole_nanos(params.probe_bw_probe_base_duration),
            ignore_app_limited: params.ignore_app_limited_for_no_bandwidth_growth,
        }
    }

    fn at(base: Instant, start: &Start) -> Self {
        let params = params_of(start);
        let moment = base + Duration::from_nanos(start.moment);
        let initial_rtt = Duration::from_nanos(start.initial_rtt);
        let cycle = Cycle {
            start_time: moment,
            phase_start_time: moment,
            ..Cycle::default()
        };

        Host {
            base,
            probe: ProbeBW {
                model: BBRv2NetworkModel::started(&params, initial_rtt, moment),
                cycle,
            },
            params,
            event: BBRv2CongestionEvent::new(base, 0, 0, false),
            last: start.moment,
            anything_sent: false,
        }
    }

    /// Puts these numbers into the state, and the parameters of the start.
    pub fn put(&mut self, state: &State, start: &Start) {
        let moment = |nanos: u64| self.base + Duration::from_nanos(nanos);
        let set = |field: usize| (state[field] == 1).then_some(state[field + 1]);
        self.params = params_of(start);
        self.probe.model.put(state, self.base);
        self.probe.cycle = Cycle {
            phase: match state[state::PHASE] {
                phase::NOT_STARTED => CyclePhase::NotStarted,
                phase::UP => CyclePhase::Up,
                phase::DOWN => CyclePhase::Down,
                phase::CRUISE => CyclePhase::Cruise,
                _ => CyclePhase::Refill,
            },
            start_time: moment(state[state::START_TIME]),
            phase_start_time: moment(state[state::PHASE_START_TIME]),
            rounds_in_phase: state[state::ROUNDS_IN_PHASE] as usize,
            rounds_since_probe: state[state::ROUNDS_SINCE_PROBE] as usize,
            probe_wait_time: set(state::PROBE_WAIT_TIME_SET).map(Duration::from_nanos),
            probe_up_rounds: state[state::PROBE_UP_ROUNDS] as usize,
            probe_up_bytes: set(state::PROBE_UP_BYTES_SET).map(|bytes| bytes as usize),
            probe_up_acked: state[state::PROBE_UP_ACKED] as usize,
            probe_up_app_limited_since_inflight_hi_limited: state[state::PROBE_UP_APP_LIMITED_SINCE_INFLIGHT_HI_LIMITED] == 1,
            has_advanced_max_bw: state[state::HAS_ADVANCED_MAX_BW] == 1,
            is_sample_from_probing: state[state::IS_SAMPLE_FROM_PROBING] == 1,
            last_cycle_probed_too_high: state[state::LAST_CYCLE_PROBED_TOO_HIGH] == 1,
            last_cycle_stopped_risky_probe: state[state::LAST_CYCLE_STOPPED_RISKY_PROBE] == 1,
        };
        self.event = event_of(&Record::of(&state[STATE_WORDS..]), self.base);
        self.last = state[state::LAST_ACCEPTED_MOMENT];
        self.anything_sent = state[state::ANYTHING_SENT] == 1;
    }

    /// A packet is sent.
    pub fn sent(&mut self, moment: u64, in_flight: u64, number: u64, bytes: u64) {
        self.last = moment.max(self.last);
        self.anything_sent = true;
        let now = self.base + Duration::from_nanos(moment);
        let model = &mut self.probe.model;
        model.on_packet_sent(now, in_flight as usize, number, bytes as usize, true)
    }

    /// Sets the current record; the original isn't called.
    pub fn record(&mut self, record: &Record) {
        self.event = event_of(record, self.base);
    }

    /// The numbers of the current record.
    pub fn recorded(&self) -> [u64; EVENT_WORDS] {
        self.recorded_at(whole_nanos(self.event.event_time - self.base))
    }

    /// The same, where its moment is known.
    pub fn recorded_at(&self, moment: u64) -> [u64; EVENT_WORDS] {
        let event = &self.event;
        let bandwidth = event.sample_max_bandwidth;
        let [bandwidth_set, bandwidth] = option(bandwidth.map(Bandwidth::to_bits_per_second));
        let [rtt_set, rtt] = option(event.sample_min_rtt.map(whole_nanos));
        let send_state = &event.last_packet_send_state;
        [
            moment,
            event.prior_cwnd as u64,
            event.prior_bytes_in_flight as u64,
            event.bytes_in_flight as u64,
            event.bytes_acked as u64,
            event.bytes_lost as u64,
            event.end_of_round_trip as u64,
            event.is_probing_for_bandwidth as u64,
            bandwidth_set,
            bandwidth,
            rtt_set,
            rtt,
            send_state.is_valid as u64,
            send_state.is_app_limited as u64,
            send_state.total_bytes_acked as u64,
            send_state.bytes_in_flight as u64,
        ]
    }

    /// An event with these acked numbers, whose record is the current one. The
    /// original takes the last number for the largest, and the port the
    /// greatest: so the original is asked the list sorted.
    pub fn event_of(&mut self, sample: &Sample, numbers: &[u64]) {
        let moment = whole_nanos(self.event.event_time - self.base);
        let time_sent = self.base;
        let mut numbers = numbers.to_vec();
        numbers.sort();
        let acked = numbers.into_iter();
        let acked: Vec<Acked> = acked.map(|pkt_num| Acked { pkt_num, time_sent }).collect();
        self.begin(moment, sample, &acked)
    }

    /// The same with the sample's own acked numbers, which ascend, where the
    /// record's moment is known.
    pub fn event(&mut self, moment: u64, sample: &Sample) {
        debug_assert!(sample.acked().is_sorted());
        let time_sent = self.base;
        let acked = sample.acked.map(|pkt_num| Acked { pkt_num, time_sent });
        self.begin(moment, sample, &acked[..sample.acked_length])
    }

    fn begin(&mut self, moment: u64, sample: &Sample, acked: &[Acked]) {
        self.last = moment.max(self.last);
        let model = &mut self.probe.model;
        model.hand_in(answer_of(sample));
        model.on_congestion_event_start(acked, &[], &mut self.event, &self.params)
    }

    /// The current event is over.
    pub fn finish(&mut self) {
        self.probe.model.on_congestion_event_finish(0, &self.event)
    }

    /// Makes one call; the answer, 0 where the call answers nothing.
    pub fn call(&mut self, call: &Call) -> u64 {
        let Host {
            base,
            params,
            probe,
            event,
            last,
            ..
        } = self;
        let base = *base;
        let model = &mut probe.model;
        let mut accept = |moment: u64| {
            *last = moment.max(*last);
            base + Duration::from_nanos(moment)
        };

        match *call {
            Call::Start(start) => *self = Host::at(base, &start),
            Call::Sent {
                moment,
                in_flight,
                number,
                bytes,
            } => self.sent(moment, in_flight, number, bytes),
            Call::Record(record) => self.record(&record),
            Call::Event(sample) => self.event_of(&sample, sample.acked()),
            Call::Finish => self.finish(),
            Call::ExpireMinRtt => return model.maybe_expire_min_rtt(event, params) as u64,
            Call::InflightTooHigh { max_loss_events } => {
                let most = max_loss_events as usize;
                return model.is_inflight_too_high(event, most, params) as u64;
            }
            Call::BandwidthGrowth => return model.has_bandwidth_growth(event, params) as u64,
            Call::RestartRound => model.restart_round_early(),
            Call::PersistentQueue { gain } => model.check_persistent_queue(gain, params),
            Call::Bdp { bandwidth, gain } => {
                return model.bdp(Bandwidth::from_bits_per_second(bandwidth), gain) as u64
            }
            Call::Bdp1 { bandwidth } => {
                return model.bdp1(Bandwidth::from_bits_per_second(bandwidth)) as u64
            }
            Call::Bdp0 => return model.bdp0() as u64,
            Call::WithHeadroom => return model.inflight_hi_with_headroom(params) as u64,
            Call::SetFullReached => model.set_full_bandwidth_reached(),
            Call::SetPacingGain(gain) => model.set_pacing_gain(gain),
            Call::SetCwndGain(gain) => model.set_cwnd_gain(gain),
            Call::SetInflightHi(bytes) => model.set_inflight_hi(bytes as usize),
            Call::CapInflightLo(cap) => model.cap_inflight_lo(cap as usize),
            Call::ClearInflightLo => model.clear_inflight_lo(),
            Call::ClearBandwidthLo => model.clear_bandwidth_lo(),
            Call::AdvanceMaxBandwidth => model.advance_max_bandwidth_filter(),
            Call::PostponeMinRtt(length) => {
                model.postpone_min_rtt_timestamp(Duration::from_nanos(length))
            }
            Call::Get(getter) => return answer_to(getter, model, base),
            Call::ProbeDown {
                too_high,
                risky,
                moment,
            } => probe.enter_probe_down(too_high, risky, accept(moment), params),
            Call::ProbeCruise { moment } => probe.enter_probe_cruise(accept(moment)),
            Call::ProbeRefill { rounds, moment } => {
                probe.enter_probe_refill(rounds as usize, accept(moment))
            }
            Call::ProbeUp { moment, cwnd } => probe.enter_probe_up(accept(moment), cwnd as usize),
            Call::ExitProbeDown => probe.exit_probe_down(),
            Call::RaiseSlope { cwnd } => probe.raise_inflight_high_slope(cwnd as usize),
        }
        0
    }

    pub fn state(&self) -> State {
        let Host { base, probe, .. } = self;
        let moment = |moment: Instant| whole_nanos(moment - *base);
        let cycle = &probe.cycle;
        let mut state = [0; FIELDS];

        state[..state::LAST_ACCEPTED_MOMENT].copy_from_slice(&probe.model.fields(*base));
        state[state::LAST_ACCEPTED_MOMENT] = self.last;
        state[state::ANYTHING_SENT] = self.anything_sent as u64;

        let [wait_set, wait] = option(cycle.probe_wait_time.map(whole_nanos));
        let [up_bytes_set, up_bytes] = option(cycle.probe_up_bytes.map(|bytes| bytes as u64));
        state[CYCLE_IN_STATE..STATE_WORDS].copy_from_slice(&[
            match cycle.phase {
                CyclePhase::NotStarted => phase::NOT_STARTED,
                CyclePhase::Up => phase::UP,
                CyclePhase::Down => phase::DOWN,
                CyclePhase::Cruise => phase::CRUISE,
                CyclePhase::Refill => phase::REFILL,
            },
            moment(cycle.start_time),
            moment(cycle.phase_start_time),
            cycle.rounds_in_phase as u64,
            cycle.rounds_since_probe as u64,
            wait_set,
            wait,
            cycle.probe_up_rounds as u64,
            up_bytes_set,
            up_bytes,
            cycle.probe_up_acked as u64,
            cycle.probe_up_app_limited_since_inflight_hi_limited as u64,
            cycle.has_advanced_max_bw as u64,
            cycle.is_sample_from_probing as u64,
            cycle.last_cycle_probed_too_high as u64,
            cycle.last_cycle_stopped_risky_probe as u64,
        ]);

        state[STATE_WORDS..].copy_from_slice(&self.recorded());
        state
    }
}

/// Mode Default, no jump detector.
fn params_of(start: &Start) -> Params {
    Params {
        beta: start.beta,
        loss_threshold: start.loss_threshold,
        inflight_hi_headroom: start.headroom,
        full_bw_threshold: start.full_bw_threshold,
        startup_cwnd_gain: start.cwnd_gain,
        startup_pacing_gain: start.pacing_gain,
        startup_full_bw_rounds: start.full_bw_rounds as usize,
        max_startup_queue_rounds: start.queue_rounds as usize,
        probe_rtt_period: Duration::from_nanos(start.probe_rtt_period),
        probe_bw_probe_base_duration: Duration::from_nanos(start.probe_base_duration),
        ignore_app_limited_for_no_bandwidth_growth: start.ignore_app_limited,
        ..super::DEFAULT_PARAMS
    }
}

fn event_of(record: &Record, base: Instant) -> BBRv2CongestionEvent {
    BBRv2CongestionEvent {
        event_time: base + Duration::from_nanos(record.event_time),
        prior_cwnd: record.prior_cwnd as usize,
        prior_bytes_in_flight: record.prior_in_flight as usize,
        bytes_in_flight: record.bytes_in_flight as usize,
        bytes_acked: record.bytes_acked as usize,
        bytes_lost: record.bytes_lost as usize,
        end_of_round_trip: record.round_ended,
        is_probing_for_bandwidth: record.probing,
        sample_max_bandwidth: record.bandwidth.map(Bandwidth::from_bits_per_second),
        sample_min_rtt: record.rtt.map(Duration::from_nanos),
        last_packet_send_state: send_state_of(&record.send_state),
    }
}

fn answer_of(sample: &Sample) -> super::super::bbr::Answer {
    super::super::bbr::Answer {
        sample_max_bandwidth: sample.bandwidth.map(Bandwidth::from_bits_per_second),
        sample_max_send_rate: sample.send_rate.map(Bandwidth::from_bits_per_second),
        sample_max_ack_rate: sample.ack_rate.map(Bandwidth::from_bits_per_second),
        sample_is_app_limited: sample.app_limited,
        sample_rtt: sample.rtt.map(Duration::from_nanos),
        sample_max_inflight: sample.max_inflight as usize,
        extra_acked: sample.extra_acked as usize,
        last_packet_send_state: send_state_of(&sample.send_state),
        totals: super::super::bbr::Totals {
            acked: sample.total_acked as usize,
            lost: sample.total_lost as usize,
        },
    }
}

fn send_state_of(state: &SendState) -> super::SendTimeState {
    super::SendTimeState {
        is_valid: state.valid,
        is_app_limited: state.app_limited,
        total_bytes_acked: state.total_acked as usize,
        bytes_in_flight: state.bytes_in_flight as usize,
    }
}

fn answer_to(getter: Getter, model: &BBRv2NetworkModel, base: Instant) -> u64 {
    match getter {
        Getter::BandwidthEstimate => model.bandwidth_estimate().to_bits_per_second(),
        Getter::MinRtt => whole_nanos(model.min_rtt()),
        Getter::MinRttTimestamp => whole_nanos(model.min_rtt_timestamp() - base),
        Getter::MaxBandwidth => model.max_bandwidth().to_bits_per_second(),
        Getter::MaxBytesDelivered => model.max_bytes_delivered_in_round() as u64,
        Getter::TotalAcked => model.total_bytes_acked() as u64,
        Getter::TotalLost => model.total_bytes_lost() as u64,
        Getter::FullBandwidthReached => model.full_bandwidth_reached() as u64,
        Getter::PacingGain => model.pacing_gain().to_bits() as u64,
        Getter::CwndGain => model.cwnd_gain().to_bits() as u64,
        Getter::InflightHi => model.inflight_hi() as u64,
        Getter::InflightHiDefault => model.inflight_hi_default() as u64,
        Getter::InflightLo => model.inflight_lo() as u64,
        Getter::LossEvents => model.loss_events_in_round() as u64,
        Getter::RoundsWithQueueing => model.rounds_with_queueing() as u64,
        Getter::QueueingThreshold => model.queueing_threshold_extra_bytes() as u64,
    }
}

fn whole_nanos(length: Duration) -> u64 {
    u64::try_from(length.as_nanos()).unwrap()
}
