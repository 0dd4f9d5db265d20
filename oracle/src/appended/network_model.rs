// Appended to network_model.rs: hosts for its three private filters, on plain
// numbers, two calls in which the model scales a number of bytes, and what the
// host of whole sequences (appended to probe_bw.rs) needs of a model.

use guovssalu_sys::table::state;

/// The max filter.
pub struct MaxBandwidth(MaxBandwidthFilter);

impl MaxBandwidth {
    /// The filter of a fresh model.
    pub fn fresh() -> Self {
        MaxBandwidth(fresh_model(&super::DEFAULT_PARAMS).max_bandwidth_filter)
    }

    pub fn update(&mut self, bits: u64) {
        self.0.update(Bandwidth::from_bits_per_second(bits));
    }

    pub fn advance(&mut self) {
        self.0.advance();
    }

    /// Both slots.
    pub fn slots(&self) -> [u64; 2] {
        self.0.max_bandwidth.map(|slot| slot.to_bits_per_second())
    }

    pub fn get(&self) -> u64 {
        self.0.get().to_bits_per_second()
    }
}

/// The filter of the minimum round trip; moments are nanoseconds after `base`.
pub struct MinRtt {
    base: Instant,
    filter: MinRttFilter,
}

impl MinRtt {
    pub fn new(rtt: u64, time: u64) -> Self {
        let base = Instant::now();
        MinRtt {
            base,
            filter: MinRttFilter {
                min_rtt: Duration::from_nanos(rtt),
                min_rtt_timestamp: base + Duration::from_nanos(time),
            },
        }
    }

    pub fn update(&mut self, rtt: u64, time: u64) {
        let now = self.base + Duration::from_nanos(time);
        self.filter.update(Duration::from_nanos(rtt), now);
    }

    pub fn force_update(&mut self, rtt: u64, time: u64) {
        let now = self.base + Duration::from_nanos(time);
        self.filter.force_update(Duration::from_nanos(rtt), now);
    }

    pub fn get(&self) -> u64 {
        nanos(self.filter.get())
    }

    pub fn timestamp(&self) -> u64 {
        nanos(self.filter.get_timestamps() - self.base)
    }
}

/// The rounds of a model, whose sends and events reach the counter.
pub struct Rounds {
    base: Instant,
    params: Params,
    model: BBRv2NetworkModel,
}

impl Rounds {
    pub fn fresh() -> Self {
        let params = super::DEFAULT_PARAMS;
        Rounds {
            base: Instant::now(),
            model: fresh_model(&params),
            params,
        }
    }

    pub fn on_packet_sent(&mut self, number: u64) {
        self.model
            .on_packet_sent(self.base, 0, number, DEFAULT_MSS, true);
    }

    /// An event with this slice of acked numbers, which the original is asked
    /// sorted, and an empty answer of the sampler: whether it ended a round.
    pub fn acked(&mut self, numbers: &[u64]) -> bool {
        let acked = numbers.iter().map(|&number| Acked {
            pkt_num: number,
            time_sent: self.base,
        });
        let mut acked: Vec<Acked> = acked.collect();
        acked.sort_by_key(|acked| acked.pkt_num);

        let mut event = BBRv2CongestionEvent::new(self.base, 0, 0, false);
        self.model
            .on_congestion_event_start(&acked, &[], &mut event, &self.params);
        event.end_of_round_trip
    }

    pub fn restart_round(&mut self) {
        self.model.round_trip_counter.restart_round();
    }

    pub fn count(&self) -> u64 {
        self.model.round_trip_count() as u64
    }

    pub fn last_sent(&self) -> u64 {
        self.model.round_trip_counter.last_sent_packet
    }

    pub fn end(&self) -> Option<u64> {
        self.model.round_trip_counter.end_of_round_trip
    }
}

/// What `inflight_lo` of a fresh model becomes, in a window of `window` bytes,
/// by an event that ends the first round, of packet 0, with one byte lost.
pub fn first_reduction(window: usize, beta: f32) -> usize {
    let params = Params {
        beta,
        ..super::DEFAULT_PARAMS
    };
    let now = Instant::now();
    let mut model = fresh_model(&params);
    let mut event = BBRv2CongestionEvent::new(now, window, 0, false);
    let acked = Acked {
        pkt_num: 0,
        time_sent: now,
    };

    model.on_packet_sent(now, 0, acked.pkt_num, DEFAULT_MSS, true);
    let mut answer = super::super::bbr::Answer::default();
    answer.totals.lost = 1;
    model.bandwidth_sampler.hand_in(answer);
    model.on_congestion_event_start(&[acked], &[], &mut event, &params);
    model.inflight_lo()
}

/// What is left of an `inflight_hi` of `bytes` with this headroom.
pub fn without_headroom(bytes: usize, headroom: f32) -> usize {
    let params = Params {
        inflight_hi_headroom: headroom,
        ..super::DEFAULT_PARAMS
    };
    let mut model = fresh_model(&params);
    model.set_inflight_hi(bytes);
    model.inflight_hi_with_headroom(&params)
}

impl BBRv2NetworkModel {
    /// A fresh model whose minimum round trip is of `moment`.
    pub(super) fn started(params: &Params, initial_rtt: Duration, moment: Instant) -> Self {
        let mut model = BBRv2NetworkModel::new(params, initial_rtt);
        model.min_rtt_filter.min_rtt_timestamp = moment;
        model
    }

    /// Sets the sampler's answer to the next event.
    pub(super) fn hand_in(&mut self, answer: super::super::bbr::Answer) {
        self.bandwidth_sampler.hand_in(answer);
    }

    /// Puts these numbers into the model, in the order of `fields`.
    pub(super) fn put(&mut self, state: &[u64], base: Instant) {
        let set = |field: usize| (state[field] == 1).then_some(state[field + 1]);
        let bandwidth = Bandwidth::from_bits_per_second;
        let gain = |field: usize| f32::from_bits(state[field] as u32);
        self.round_trip_counter = RoundTripCounter {
            round_trip_count: state[state::ROUND_TRIP_COUNT] as usize,
            last_sent_packet: state[state::LAST_SENT_PACKET],
            end_of_round_trip: set(state::END_OF_ROUND_TRIP_SET),
        };
        self.max_bandwidth_filter.max_bandwidth = [bandwidth(state[state::MAX_BANDWIDTH_0]), bandwidth(state[state::MAX_BANDWIDTH_1])];
        self.min_rtt_filter = MinRttFilter {
            min_rtt: Duration::from_nanos(state[state::MIN_RTT]),
            min_rtt_timestamp: base + Duration::from_nanos(state[state::MIN_RTT_TIMESTAMP]),
        };
        self.bytes_lost_in_round = state[state::BYTES_LOST_IN_ROUND] as usize;
        self.loss_events_in_round = state[state::LOSS_EVENTS_IN_ROUND] as usize;
        self.max_bytes_delivered_in_round = state[state::MAX_BYTES_DELIVERED_IN_ROUND] as usize;
        self.min_bytes_in_flight_in_round = state[state::MIN_BYTES_IN_FLIGHT_IN_ROUND] as usize;
        self.inflight_hi_limited_in_round = state[state::INFLIGHT_HI_LIMITED_IN_ROUND] == 1;
        self.bandwidth_latest = bandwidth(state[state::BANDWIDTH_LATEST]);
        self.inflight_latest = state[state::INFLIGHT_LATEST] as usize;
        self.bandwidth_lo = set(state::BANDWIDTH_LO_SET).map(bandwidth);
        self.inflight_lo = state[state::INFLIGHT_LO] as usize;
        self.inflight_hi = state[state::INFLIGHT_HI] as usize;
        self.cwnd_gain = gain(state::CWND_GAIN);
        self.pacing_gain = gain(state::PACING_GAIN);
        self.cwnd_limited_before_aggregation_epoch = state[state::CWND_LIMITED_BEFORE_AGGREGATION_EPOCH] == 1;
        self.full_bandwidth_reached = state[state::FULL_BANDWIDTH_REACHED] == 1;
        self.full_bandwidth_baseline = bandwidth(state[state::FULL_BANDWIDTH_BASELINE]);
        self.rounds_without_bandwidth_growth = state[state::ROUNDS_WITHOUT_BANDWIDTH_GROWTH] as usize;
        self.rounds_with_queueing = state[state::ROUNDS_WITH_QUEUEING] as usize;
        self.ignore_app_limited_for_no_bandwidth_growth = state[state::IGNORE_APP_LIMITED_FOR_NO_BANDWIDTH_GROWTH] == 1;
        self.latest_send_rate = set(state::LATEST_SEND_RATE_SET).map(bandwidth);
        self.latest_ack_rate = set(state::LATEST_ACK_RATE_SET).map(bandwidth);
        self.bandwidth_sampler.put(super::super::bbr::Totals {
            acked: state[state::TOTAL_BYTES_ACKED] as usize,
            lost: state[state::TOTAL_BYTES_LOST] as usize,
        });
    }

    /// The model's part of the state, in its order, as far as the original keeps
    /// it: the last accepted moment stands after it.
    pub(super) fn fields(&self, base: Instant) -> [u64; state::LAST_ACCEPTED_MOMENT] {
        // Used by the other modes only.
        assert!(self.prior_bandwidth_lo.is_none());

        let rounds = &self.round_trip_counter;
        let [end_set, end] = crate::model::option(rounds.end_of_round_trip);
        let slots = self.max_bandwidth_filter.max_bandwidth;
        let [slot_0, slot_1] = slots.map(Bandwidth::to_bits_per_second);
        let bandwidth =
            |set: Option<Bandwidth>| crate::model::option(set.map(Bandwidth::to_bits_per_second));
        let [lo_set, lo] = bandwidth(self.bandwidth_lo);
        let [send_rate_set, send_rate] = bandwidth(self.latest_send_rate);
        let [ack_rate_set, ack_rate] = bandwidth(self.latest_ack_rate);
        [
            rounds.round_trip_count as u64,
            rounds.last_sent_packet,
            end_set,
            end,
            slot_0,
            slot_1,
            nanos(self.min_rtt_filter.min_rtt),
            nanos(self.min_rtt_filter.min_rtt_timestamp - base),
            self.bytes_lost_in_round as u64,
            self.loss_events_in_round as u64,
            self.max_bytes_delivered_in_round as u64,
            self.min_bytes_in_flight_in_round as u64,
            self.inflight_hi_limited_in_round as u64,
            self.bandwidth_latest.to_bits_per_second(),
            self.inflight_latest as u64,
            lo_set,
            lo,
            self.inflight_lo as u64,
            self.inflight_hi as u64,
            self.cwnd_gain.to_bits() as u64,
            self.pacing_gain.to_bits() as u64,
            self.cwnd_limited_before_aggregation_epoch as u64,
            self.full_bandwidth_reached as u64,
            self.full_bandwidth_baseline.to_bits_per_second(),
            self.rounds_without_bandwidth_growth as u64,
            self.rounds_with_queueing as u64,
            self.ignore_app_limited_for_no_bandwidth_growth as u64,
            send_rate_set,
            send_rate,
            ack_rate_set,
            ack_rate,
            self.total_bytes_acked() as u64,
            self.total_bytes_lost() as u64,
        ]
    }
}

fn fresh_model(params: &Params) -> BBRv2NetworkModel {
    BBRv2NetworkModel::new(params, Duration::ZERO)
}

fn nanos(length: Duration) -> u64 {
    u64::try_from(length.as_nanos()).unwrap()
}
