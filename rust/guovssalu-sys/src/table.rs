//! The calls, their words and their sizes: written from docs/calls.txt by tests/table.py, and not edited.

/// An unset number of bytes, or an unset length, 2^64 - 1.
pub const UNSET: u64 = 18_446_744_073_709_551_615;

/// The longest length of time that is taken, in nanoseconds: 2^36, 68.7 s.
pub const LONGEST: u64 = 68_719_476_736;

/// Bytes of a word.
pub const WORD_BYTES: usize = 8;

/// Words of a state: the model, then the cycle.
pub const STATE_WORDS: usize = 51;
/// Bytes of a state: the model, then the cycle.
pub const STATE_BYTES: usize = 408;
/// Words of a state's model.
pub const MODEL_WORDS: usize = 35;
/// Bytes of a state's model.
pub const MODEL_BYTES: usize = 280;
/// Words of a state's cycle.
pub const CYCLE_WORDS: usize = 16;
/// Bytes of a state's cycle.
pub const CYCLE_BYTES: usize = 128;
/// Words of a call.
pub const CALL_WORDS: usize = 49;
/// Bytes of a call.
pub const CALL_BYTES: usize = 392;
/// Words of the room for a call's arguments.
pub const ARGUMENTS_WORDS: usize = 21;
/// Bytes of the room for a call's arguments.
pub const ARGUMENTS_BYTES: usize = 168;
/// Words of an event's record.
pub const EVENT_WORDS: usize = 16;
/// Bytes of an event's record.
pub const EVENT_BYTES: usize = 128;
/// Words of the parameters.
pub const PARAMS_WORDS: usize = 11;
/// Bytes of the parameters.
pub const PARAMS_BYTES: usize = 88;
/// Words of an answer.
pub const ANSWER_WORDS: usize = 18;
/// Bytes of an answer.
pub const ANSWER_BYTES: usize = 144;
/// Words of a pair of the filter run.
pub const PAIR_WORDS: usize = 2;
/// Bytes of a pair of the filter run.
pub const PAIR_BYTES: usize = 16;
/// Words of the filter run's answer to a pair.
pub const SAMPLES_WORDS: usize = 4;
/// Bytes of the filter run's answer to a pair.
pub const SAMPLES_BYTES: usize = 32;
/// Words of the slope's output.
pub const SLOPE_WORDS: usize = 2;
/// Bytes of the slope's output.
pub const SLOPE_BYTES: usize = 16;
/// Words of a round-trip estimator.
pub const RTT_STATE_WORDS: usize = 6;
/// Bytes of a round-trip estimator.
pub const RTT_STATE_BYTES: usize = 48;
/// Words of a call of the estimator's.
pub const RTT_CALL_WORDS: usize = 4;
/// Bytes of a call of the estimator's.
pub const RTT_CALL_BYTES: usize = 32;
/// Words of an answer of the estimator's.
pub const RTT_ANSWER_WORDS: usize = 5;
/// Bytes of an answer of the estimator's.
pub const RTT_ANSWER_BYTES: usize = 40;
/// The most acked numbers in a call itself; more stand in the lists.
pub const MOST_ACKED: usize = 3;
/// The first word of its number in a call.
pub const NUMBER_IN_CALL: usize = 0;
/// The first word of its arguments in a call.
pub const ARGUMENTS_IN_CALL: usize = 1;
/// The first word of the event's record in a call.
pub const EVENT_IN_CALL: usize = 22;
/// The first word of the parameters in a call.
pub const PARAMS_IN_CALL: usize = 38;
/// The first word of its reply in an answer.
pub const REPLY_IN_ANSWER: usize = 0;
/// The first word of its value in an answer.
pub const VALUE_IN_ANSWER: usize = 1;
/// The first word of the event's record in an answer.
pub const EVENT_IN_ANSWER: usize = 2;
/// The first word of the cycle in a state.
pub const CYCLE_IN_STATE: usize = 35;
/// The first word of its number in a call of the estimator's.
pub const RTT_NUMBER_IN_CALL: usize = 0;
/// The first word of its arguments in a call of the estimator's.
pub const RTT_ARGUMENTS_IN_CALL: usize = 1;

/// The numbers of the calls: a call's first word.
pub mod call {
    /// Call 0: now, initial_rtt; params.
    pub const START: u64 = 0;

    /// Call 1: sent_time, bytes_in_flight, packet_number, bytes.
    pub const ON_PACKET_SENT: u64 = 1;

    /// Call 3: the words of `sample`; event, params.
    pub const ON_CONGESTION_EVENT_START: u64 = 3;

    /// Call 4: event.
    pub const ON_CONGESTION_EVENT_FINISH: u64 = 4;

    /// Call 5: event, params; answers flag.
    pub const MAYBE_EXPIRE_MIN_RTT: u64 = 5;

    /// Call 6: max_loss_events; event, params; answers flag.
    pub const IS_INFLIGHT_TOO_HIGH: u64 = 6;

    /// Call 7: event, params; answers flag.
    pub const HAS_BANDWIDTH_GROWTH: u64 = 7;

    /// Call 8.
    pub const RESTART_ROUND_EARLY: u64 = 8;

    /// Call 9: target_gain; params.
    pub const CHECK_PERSISTENT_QUEUE: u64 = 9;

    /// Call 10: bandwidth, gain; answers bytes.
    pub const BDP: u64 = 10;

    /// Call 11: bandwidth; answers bytes.
    pub const BDP1: u64 = 11;

    /// Call 12: answers bytes.
    pub const BDP0: u64 = 12;

    /// Call 13: params; answers bytes.
    pub const INFLIGHT_HI_WITH_HEADROOM: u64 = 13;

    /// Call 14.
    pub const SET_FULL_BANDWIDTH_REACHED: u64 = 14;

    /// Call 15: pacing_gain.
    pub const SET_PACING_GAIN: u64 = 15;

    /// Call 16: cwnd_gain.
    pub const SET_CWND_GAIN: u64 = 16;

    /// Call 17: new_inflight_hi.
    pub const SET_INFLIGHT_HI: u64 = 17;

    /// Call 18: cap.
    pub const CAP_INFLIGHT_LO: u64 = 18;

    /// Call 19.
    pub const CLEAR_INFLIGHT_LO: u64 = 19;

    /// Call 20.
    pub const CLEAR_BANDWIDTH_LO: u64 = 20;

    /// Call 21.
    pub const ADVANCE_MAX_BANDWIDTH_FILTER: u64 = 21;

    /// Call 22: duration.
    pub const POSTPONE_MIN_RTT_TIMESTAMP: u64 = 22;

    /// Call 23: answers bandwidth.
    pub const BANDWIDTH_ESTIMATE: u64 = 23;

    /// Call 24: answers length.
    pub const MIN_RTT: u64 = 24;

    /// Call 25: answers moment.
    pub const MIN_RTT_TIMESTAMP: u64 = 25;

    /// Call 26: answers bandwidth.
    pub const MAX_BANDWIDTH: u64 = 26;

    /// Call 27: answers bytes.
    pub const MAX_BYTES_DELIVERED_IN_ROUND: u64 = 27;

    /// Call 28: answers bytes.
    pub const TOTAL_BYTES_ACKED: u64 = 28;

    /// Call 29: answers bytes.
    pub const TOTAL_BYTES_LOST: u64 = 29;

    /// Call 30: answers flag.
    pub const FULL_BANDWIDTH_REACHED: u64 = 30;

    /// Call 31: answers f32.
    pub const PACING_GAIN: u64 = 31;

    /// Call 32: answers f32.
    pub const CWND_GAIN: u64 = 32;

    /// Call 33: answers bytes or unset.
    pub const INFLIGHT_HI: u64 = 33;

    /// Call 34: answers bytes or unset.
    pub const INFLIGHT_HI_DEFAULT: u64 = 34;

    /// Call 35: answers bytes or unset.
    pub const INFLIGHT_LO: u64 = 35;

    /// Call 36: answers number.
    pub const LOSS_EVENTS_IN_ROUND: u64 = 36;

    /// Call 37: answers number.
    pub const ROUNDS_WITH_QUEUEING: u64 = 37;

    /// Call 38: answers bytes.
    pub const QUEUEING_THRESHOLD_EXTRA_BYTES: u64 = 38;

    /// Call 40: probed_too_high, stopped_risky_probe, now; params.
    pub const ENTER_PROBE_DOWN: u64 = 40;

    /// Call 41: now.
    pub const ENTER_PROBE_CRUISE: u64 = 41;

    /// Call 42: probe_up_rounds, now.
    pub const ENTER_PROBE_REFILL: u64 = 42;

    /// Call 43: now, cwnd.
    pub const ENTER_PROBE_UP: u64 = 43;

    /// Call 44.
    pub const EXIT_PROBE_DOWN: u64 = 44;

    /// Call 45: cwnd.
    pub const RAISE_INFLIGHT_HIGH_SLOPE: u64 = 45;

    /// All of them, in order.
    pub const ALL: [u64; 44] = [
        START,
        ON_PACKET_SENT,
        ON_CONGESTION_EVENT_START,
        ON_CONGESTION_EVENT_FINISH,
        MAYBE_EXPIRE_MIN_RTT,
        IS_INFLIGHT_TOO_HIGH,
        HAS_BANDWIDTH_GROWTH,
        RESTART_ROUND_EARLY,
        CHECK_PERSISTENT_QUEUE,
        BDP,
        BDP1,
        BDP0,
        INFLIGHT_HI_WITH_HEADROOM,
        SET_FULL_BANDWIDTH_REACHED,
        SET_PACING_GAIN,
        SET_CWND_GAIN,
        SET_INFLIGHT_HI,
        CAP_INFLIGHT_LO,
        CLEAR_INFLIGHT_LO,
        CLEAR_BANDWIDTH_LO,
        ADVANCE_MAX_BANDWIDTH_FILTER,
        POSTPONE_MIN_RTT_TIMESTAMP,
        BANDWIDTH_ESTIMATE,
        MIN_RTT,
        MIN_RTT_TIMESTAMP,
        MAX_BANDWIDTH,
        MAX_BYTES_DELIVERED_IN_ROUND,
        TOTAL_BYTES_ACKED,
        TOTAL_BYTES_LOST,
        FULL_BANDWIDTH_REACHED,
        PACING_GAIN,
        CWND_GAIN,
        INFLIGHT_HI,
        INFLIGHT_HI_DEFAULT,
        INFLIGHT_LO,
        LOSS_EVENTS_IN_ROUND,
        ROUNDS_WITH_QUEUEING,
        QUEUEING_THRESHOLD_EXTRA_BYTES,
        ENTER_PROBE_DOWN,
        ENTER_PROBE_CRUISE,
        ENTER_PROBE_REFILL,
        ENTER_PROBE_UP,
        EXIT_PROBE_DOWN,
        RAISE_INFLIGHT_HIGH_SLOPE,
    ];

    /// Their names, in the same order.
    pub const NAMES: [&str; 44] = [
        "start",
        "on_packet_sent",
        "on_congestion_event_start",
        "on_congestion_event_finish",
        "maybe_expire_min_rtt",
        "is_inflight_too_high",
        "has_bandwidth_growth",
        "restart_round_early",
        "check_persistent_queue",
        "bdp",
        "bdp1",
        "bdp0",
        "inflight_hi_with_headroom",
        "set_full_bandwidth_reached",
        "set_pacing_gain",
        "set_cwnd_gain",
        "set_inflight_hi",
        "cap_inflight_lo",
        "clear_inflight_lo",
        "clear_bandwidth_lo",
        "advance_max_bandwidth_filter",
        "postpone_min_rtt_timestamp",
        "bandwidth_estimate",
        "min_rtt",
        "min_rtt_timestamp",
        "max_bandwidth",
        "max_bytes_delivered_in_round",
        "total_bytes_acked",
        "total_bytes_lost",
        "full_bandwidth_reached",
        "pacing_gain",
        "cwnd_gain",
        "inflight_hi",
        "inflight_hi_default",
        "inflight_lo",
        "loss_events_in_round",
        "rounds_with_queueing",
        "queueing_threshold_extra_bytes",
        "enter_probe_down",
        "enter_probe_cruise",
        "enter_probe_refill",
        "enter_probe_up",
        "exit_probe_down",
        "raise_inflight_high_slope",
    ];

    /// How many words their arguments have, in the same order.
    pub const GIVEN: [usize; 44] = [
        2, 4, 21, 0, 0, 1, 0, 0, 1, 2, 1, 0, 0, 0, 1, 1, 1, 1, 0, 0, 0, 1, 0, 0, 0, 0, 0, 0, 0, 0,
        0, 0, 0, 0, 0, 0, 0, 0, 3, 1, 2, 2, 0, 1,
    ];

    /// Those that read the event's record.
    pub const READ_EVENT: [u64; 5] = [
        ON_CONGESTION_EVENT_START,
        ON_CONGESTION_EVENT_FINISH,
        MAYBE_EXPIRE_MIN_RTT,
        IS_INFLIGHT_TOO_HIGH,
        HAS_BANDWIDTH_GROWTH,
    ];

    /// Those that take the parameters.
    pub const TAKE_PARAMS: [u64; 8] = [
        START,
        ON_CONGESTION_EVENT_START,
        MAYBE_EXPIRE_MIN_RTT,
        IS_INFLIGHT_TOO_HIGH,
        HAS_BANDWIDTH_GROWTH,
        CHECK_PERSISTENT_QUEUE,
        INFLIGHT_HI_WITH_HEADROOM,
        ENTER_PROBE_DOWN,
    ];
}

/// The calls' arguments: words of a call.
pub mod argument {
    /// Of `start`.
    pub mod start {
        /// Word 1: moment.
        pub const NOW: usize = 1;

        /// Word 2: length.
        pub const INITIAL_RTT: usize = 2;
    }

    /// Of `on_packet_sent`.
    pub mod on_packet_sent {
        /// Word 1: moment.
        pub const SENT_TIME: usize = 1;

        /// Word 2: bytes.
        pub const BYTES_IN_FLIGHT: usize = 2;

        /// Word 3: number.
        pub const PACKET_NUMBER: usize = 3;

        /// Word 4: bytes.
        pub const BYTES: usize = 4;
    }

    /// Of `is_inflight_too_high`.
    pub mod is_inflight_too_high {
        /// Word 1: number.
        pub const MAX_LOSS_EVENTS: usize = 1;
    }

    /// Of `check_persistent_queue`.
    pub mod check_persistent_queue {
        /// Word 1: f32.
        pub const TARGET_GAIN: usize = 1;
    }

    /// Of `bdp`.
    pub mod bdp {
        /// Word 1: bandwidth.
        pub const BANDWIDTH: usize = 1;

        /// Word 2: f32.
        pub const GAIN: usize = 2;
    }

    /// Of `bdp1`.
    pub mod bdp1 {
        /// Word 1: bandwidth.
        pub const BANDWIDTH: usize = 1;
    }

    /// Of `set_pacing_gain`.
    pub mod set_pacing_gain {
        /// Word 1: f32.
        pub const PACING_GAIN: usize = 1;
    }

    /// Of `set_cwnd_gain`.
    pub mod set_cwnd_gain {
        /// Word 1: f32.
        pub const CWND_GAIN: usize = 1;
    }

    /// Of `set_inflight_hi`.
    pub mod set_inflight_hi {
        /// Word 1: bytes or unset.
        pub const NEW_INFLIGHT_HI: usize = 1;
    }

    /// Of `cap_inflight_lo`.
    pub mod cap_inflight_lo {
        /// Word 1: bytes or unset.
        pub const CAP: usize = 1;
    }

    /// Of `postpone_min_rtt_timestamp`.
    pub mod postpone_min_rtt_timestamp {
        /// Word 1: length.
        pub const DURATION: usize = 1;
    }

    /// Of `enter_probe_down`.
    pub mod enter_probe_down {
        /// Word 1: flag.
        pub const PROBED_TOO_HIGH: usize = 1;

        /// Word 2: flag.
        pub const STOPPED_RISKY_PROBE: usize = 2;

        /// Word 3: moment.
        pub const NOW: usize = 3;
    }

    /// Of `enter_probe_cruise`.
    pub mod enter_probe_cruise {
        /// Word 1: moment.
        pub const NOW: usize = 1;
    }

    /// Of `enter_probe_refill`.
    pub mod enter_probe_refill {
        /// Word 1: number.
        pub const PROBE_UP_ROUNDS: usize = 1;

        /// Word 2: moment.
        pub const NOW: usize = 2;
    }

    /// Of `enter_probe_up`.
    pub mod enter_probe_up {
        /// Word 1: moment.
        pub const NOW: usize = 1;

        /// Word 2: bytes.
        pub const CWND: usize = 2;
    }

    /// Of `raise_inflight_high_slope`.
    pub mod raise_inflight_high_slope {
        /// Word 1: bytes.
        pub const CWND: usize = 1;
    }
}

/// An event's arguments, of `call::ON_CONGESTION_EVENT_START`: words of a call.
pub mod sample {
    /// Word 1: flag.
    pub const SAMPLE_MAX_BANDWIDTH_SET: usize = 1;

    /// Word 2: bandwidth.
    pub const SAMPLE_MAX_BANDWIDTH: usize = 2;

    /// Word 3: flag.
    pub const SAMPLE_MAX_SEND_RATE_SET: usize = 3;

    /// Word 4: bandwidth.
    pub const SAMPLE_MAX_SEND_RATE: usize = 4;

    /// Word 5: flag.
    pub const SAMPLE_MAX_ACK_RATE_SET: usize = 5;

    /// Word 6: bandwidth.
    pub const SAMPLE_MAX_ACK_RATE: usize = 6;

    /// Word 7: flag.
    pub const SAMPLE_IS_APP_LIMITED: usize = 7;

    /// Word 8: flag.
    pub const SAMPLE_RTT_SET: usize = 8;

    /// Word 9: length.
    pub const SAMPLE_RTT: usize = 9;

    /// Word 10: bytes.
    pub const SAMPLE_MAX_INFLIGHT: usize = 10;

    /// Word 11: bytes.
    pub const EXTRA_ACKED: usize = 11;

    /// Word 12: flag.
    pub const LAST_PACKET_SEND_STATE_IS_VALID: usize = 12;

    /// Word 13: flag.
    pub const LAST_PACKET_SEND_STATE_IS_APP_LIMITED: usize = 13;

    /// Word 14: bytes.
    pub const LAST_PACKET_SEND_STATE_TOTAL_BYTES_ACKED: usize = 14;

    /// Word 15: bytes.
    pub const LAST_PACKET_SEND_STATE_BYTES_IN_FLIGHT: usize = 15;

    /// Word 16: bytes.
    pub const TOTAL_BYTES_ACKED: usize = 16;

    /// Word 17: bytes.
    pub const TOTAL_BYTES_LOST: usize = 17;

    /// Word 18: count.
    pub const ACKED_COUNT: usize = 18;

    /// Word 19: three numbers.
    pub const ACKED_PACKETS: usize = 19;
}

/// An event's record: words from `EVENT_IN_CALL` or `EVENT_IN_ANSWER` on.
pub mod event {
    /// Word 0: moment.
    pub const EVENT_TIME: usize = 0;

    /// Word 1: bytes.
    pub const PRIOR_CWND: usize = 1;

    /// Word 2: bytes.
    pub const PRIOR_BYTES_IN_FLIGHT: usize = 2;

    /// Word 3: bytes.
    pub const BYTES_IN_FLIGHT: usize = 3;

    /// Word 4: bytes.
    pub const BYTES_ACKED: usize = 4;

    /// Word 5: bytes.
    pub const BYTES_LOST: usize = 5;

    /// Word 6: flag.
    pub const END_OF_ROUND_TRIP: usize = 6;

    /// Word 7: flag.
    pub const IS_PROBING_FOR_BANDWIDTH: usize = 7;

    /// Word 8: flag.
    pub const SAMPLE_MAX_BANDWIDTH_SET: usize = 8;

    /// Word 9: bandwidth.
    pub const SAMPLE_MAX_BANDWIDTH: usize = 9;

    /// Word 10: flag.
    pub const SAMPLE_MIN_RTT_SET: usize = 10;

    /// Word 11: length.
    pub const SAMPLE_MIN_RTT: usize = 11;

    /// Word 12: flag.
    pub const LAST_PACKET_SEND_STATE_IS_VALID: usize = 12;

    /// Word 13: flag.
    pub const LAST_PACKET_SEND_STATE_IS_APP_LIMITED: usize = 13;

    /// Word 14: bytes.
    pub const LAST_PACKET_SEND_STATE_TOTAL_BYTES_ACKED: usize = 14;

    /// Word 15: bytes.
    pub const LAST_PACKET_SEND_STATE_BYTES_IN_FLIGHT: usize = 15;

    /// The names of its words, in order.
    pub const NAMES: [&str; 16] = [
        "event_time",
        "prior_cwnd",
        "prior_bytes_in_flight",
        "bytes_in_flight",
        "bytes_acked",
        "bytes_lost",
        "end_of_round_trip",
        "is_probing_for_bandwidth",
        "sample_max_bandwidth set",
        "sample_max_bandwidth",
        "sample_min_rtt set",
        "sample_min_rtt",
        "last_packet_send_state.is_valid",
        "last_packet_send_state.is_app_limited",
        "last_packet_send_state.total_bytes_acked",
        "last_packet_send_state.bytes_in_flight",
    ];
}

/// The parameters: words of a call from `PARAMS_IN_CALL` on.
pub mod params {
    /// Word 0: f32.
    pub const BETA: usize = 0;

    /// Word 1: f32.
    pub const LOSS_THRESHOLD: usize = 1;

    /// Word 2: f32.
    pub const INFLIGHT_HI_HEADROOM: usize = 2;

    /// Word 3: f32.
    pub const FULL_BW_THRESHOLD: usize = 3;

    /// Word 4: f32.
    pub const STARTUP_CWND_GAIN: usize = 4;

    /// Word 5: f32.
    pub const STARTUP_PACING_GAIN: usize = 5;

    /// Word 6: number.
    pub const STARTUP_FULL_BW_ROUNDS: usize = 6;

    /// Word 7: number.
    pub const MAX_STARTUP_QUEUE_ROUNDS: usize = 7;

    /// Word 8: length.
    pub const PROBE_RTT_PERIOD: usize = 8;

    /// Word 9: length.
    pub const PROBE_BW_PROBE_BASE_DURATION: usize = 9;

    /// Word 10: flag.
    pub const IGNORE_APP_LIMITED_FOR_NO_BANDWIDTH_GROWTH: usize = 10;
}

/// Words of the state. Of what may be unset there are two, `.._SET` and the number.
pub mod state {
    /// Word 0: number.
    pub const ROUND_TRIP_COUNT: usize = 0;

    /// Word 1: number.
    pub const LAST_SENT_PACKET: usize = 1;

    /// Word 2: flag.
    pub const END_OF_ROUND_TRIP_SET: usize = 2;

    /// Word 3: number.
    pub const END_OF_ROUND_TRIP: usize = 3;

    /// Word 4: bandwidth.
    pub const MAX_BANDWIDTH_0: usize = 4;

    /// Word 5: bandwidth.
    pub const MAX_BANDWIDTH_1: usize = 5;

    /// Word 6: length.
    pub const MIN_RTT: usize = 6;

    /// Word 7: moment.
    pub const MIN_RTT_TIMESTAMP: usize = 7;

    /// Word 8: bytes.
    pub const BYTES_LOST_IN_ROUND: usize = 8;

    /// Word 9: number.
    pub const LOSS_EVENTS_IN_ROUND: usize = 9;

    /// Word 10: bytes.
    pub const MAX_BYTES_DELIVERED_IN_ROUND: usize = 10;

    /// Word 11: bytes or unset.
    pub const MIN_BYTES_IN_FLIGHT_IN_ROUND: usize = 11;

    /// Word 12: flag.
    pub const INFLIGHT_HI_LIMITED_IN_ROUND: usize = 12;

    /// Word 13: bandwidth.
    pub const BANDWIDTH_LATEST: usize = 13;

    /// Word 14: bytes.
    pub const INFLIGHT_LATEST: usize = 14;

    /// Word 15: flag.
    pub const BANDWIDTH_LO_SET: usize = 15;

    /// Word 16: bandwidth.
    pub const BANDWIDTH_LO: usize = 16;

    /// Word 17: bytes or unset.
    pub const INFLIGHT_LO: usize = 17;

    /// Word 18: bytes or unset.
    pub const INFLIGHT_HI: usize = 18;

    /// Word 19: f32.
    pub const CWND_GAIN: usize = 19;

    /// Word 20: f32.
    pub const PACING_GAIN: usize = 20;

    /// Word 21: flag.
    pub const CWND_LIMITED_BEFORE_AGGREGATION_EPOCH: usize = 21;

    /// Word 22: flag.
    pub const FULL_BANDWIDTH_REACHED: usize = 22;

    /// Word 23: bandwidth.
    pub const FULL_BANDWIDTH_BASELINE: usize = 23;

    /// Word 24: number.
    pub const ROUNDS_WITHOUT_BANDWIDTH_GROWTH: usize = 24;

    /// Word 25: number.
    pub const ROUNDS_WITH_QUEUEING: usize = 25;

    /// Word 26: flag.
    pub const IGNORE_APP_LIMITED_FOR_NO_BANDWIDTH_GROWTH: usize = 26;

    /// Word 27: flag.
    pub const LATEST_SEND_RATE_SET: usize = 27;

    /// Word 28: bandwidth.
    pub const LATEST_SEND_RATE: usize = 28;

    /// Word 29: flag.
    pub const LATEST_ACK_RATE_SET: usize = 29;

    /// Word 30: bandwidth.
    pub const LATEST_ACK_RATE: usize = 30;

    /// Word 31: bytes.
    pub const TOTAL_BYTES_ACKED: usize = 31;

    /// Word 32: bytes.
    pub const TOTAL_BYTES_LOST: usize = 32;

    /// Word 33: moment.
    pub const LAST_ACCEPTED_MOMENT: usize = 33;

    /// Word 34: flag.
    pub const ANYTHING_SENT: usize = 34;

    /// Word 35: phase.
    pub const PHASE: usize = 35;

    /// Word 36: moment.
    pub const START_TIME: usize = 36;

    /// Word 37: moment.
    pub const PHASE_START_TIME: usize = 37;

    /// Word 38: number.
    pub const ROUNDS_IN_PHASE: usize = 38;

    /// Word 39: number.
    pub const ROUNDS_SINCE_PROBE: usize = 39;

    /// Word 40: flag.
    pub const PROBE_WAIT_TIME_SET: usize = 40;

    /// Word 41: length.
    pub const PROBE_WAIT_TIME: usize = 41;

    /// Word 42: number.
    pub const PROBE_UP_ROUNDS: usize = 42;

    /// Word 43: flag.
    pub const PROBE_UP_BYTES_SET: usize = 43;

    /// Word 44: bytes.
    pub const PROBE_UP_BYTES: usize = 44;

    /// Word 45: bytes.
    pub const PROBE_UP_ACKED: usize = 45;

    /// Word 46: flag.
    pub const PROBE_UP_APP_LIMITED_SINCE_INFLIGHT_HI_LIMITED: usize = 46;

    /// Word 47: flag.
    pub const HAS_ADVANCED_MAX_BW: usize = 47;

    /// Word 48: flag.
    pub const IS_SAMPLE_FROM_PROBING: usize = 48;

    /// Word 49: flag.
    pub const LAST_CYCLE_PROBED_TOO_HIGH: usize = 49;

    /// Word 50: flag.
    pub const LAST_CYCLE_STOPPED_RISKY_PROBE: usize = 50;

    /// The names of its words, in order.
    pub const NAMES: [&str; 51] = [
        "round_trip_count",
        "last_sent_packet",
        "end_of_round_trip set",
        "end_of_round_trip",
        "max_bandwidth[0]",
        "max_bandwidth[1]",
        "min_rtt",
        "min_rtt_timestamp",
        "bytes_lost_in_round",
        "loss_events_in_round",
        "max_bytes_delivered_in_round",
        "min_bytes_in_flight_in_round",
        "inflight_hi_limited_in_round",
        "bandwidth_latest",
        "inflight_latest",
        "bandwidth_lo set",
        "bandwidth_lo",
        "inflight_lo",
        "inflight_hi",
        "cwnd_gain",
        "pacing_gain",
        "cwnd_limited_before_aggregation_epoch",
        "full_bandwidth_reached",
        "full_bandwidth_baseline",
        "rounds_without_bandwidth_growth",
        "rounds_with_queueing",
        "ignore_app_limited_for_no_bandwidth_growth",
        "latest_send_rate set",
        "latest_send_rate",
        "latest_ack_rate set",
        "latest_ack_rate",
        "total_bytes_acked",
        "total_bytes_lost",
        "last_accepted_moment",
        "anything_sent",
        "phase",
        "start_time",
        "phase_start_time",
        "rounds_in_phase",
        "rounds_since_probe",
        "probe_wait_time set",
        "probe_wait_time",
        "probe_up_rounds",
        "probe_up_bytes set",
        "probe_up_bytes",
        "probe_up_acked",
        "probe_up_app_limited_since_inflight_hi_limited",
        "has_advanced_max_bw",
        "is_sample_from_probing",
        "last_cycle_probed_too_high",
        "last_cycle_stopped_risky_probe",
    ];
}

/// A pair of the filter run.
pub mod pair {
    /// Word 0: number.
    pub const TIME: usize = 0;

    /// Word 1: number.
    pub const SAMPLE: usize = 1;
}

/// The filter run's answer to a pair.
pub mod samples {
    /// Word 0: number.
    pub const BEST: usize = 0;

    /// Word 1: number.
    pub const SECOND: usize = 1;

    /// Word 2: number.
    pub const THIRD: usize = 2;

    /// Word 3: reason.
    pub const REASON: usize = 3;
}

/// The slope's output.
pub mod slope {
    /// Word 0: number.
    pub const PROBE_UP_ROUNDS: usize = 0;

    /// Word 1: bytes.
    pub const PROBE_UP_BYTES: usize = 1;
}

/// The numbers of the round-trip estimator's calls: a call's first word.
pub mod rtt_call {
    /// Call 0: a fresh estimator, with no sample yet.
    pub const NEW: u64 = 0;

    /// Call 1: a sample, and the delay that the peer reports with it.
    pub const UPDATE_RTT: u64 = 1;

    /// Call 2: the largest delay that the peer announces.
    pub const UPDATE_MAX_ACK_DELAY: u64 = 2;

    /// All of them, in order.
    pub const ALL: [u64; 3] = [NEW, UPDATE_RTT, UPDATE_MAX_ACK_DELAY];

    /// Their names, in the same order.
    pub const NAMES: [&str; 3] = ["new", "update_rtt", "update_max_ack_delay"];
}

/// The arguments of the estimator's calls: words of a call.
pub mod rtt_argument {
    /// Of `new`.
    pub mod new {
        /// Word 1: length.
        pub const INITIAL_RTT: usize = 1;

        /// Word 2: length.
        pub const MAX_ACK_DELAY: usize = 2;
    }

    /// Of `update_rtt`.
    pub mod update_rtt {
        /// Word 1: length.
        pub const LATEST_RTT: usize = 1;

        /// Word 2: length.
        pub const ACK_DELAY: usize = 2;

        /// Word 3: flag.
        pub const HANDSHAKE_CONFIRMED: usize = 3;
    }

    /// Of `update_max_ack_delay`.
    pub mod update_max_ack_delay {
        /// Word 1: length.
        pub const MAX_ACK_DELAY: usize = 1;
    }
}

/// Words of a round-trip estimator.
pub mod rtt_state {
    /// Word 0: length.
    pub const LATEST_RTT: usize = 0;

    /// Word 1: length.
    pub const MIN_RTT: usize = 1;

    /// Word 2: length.
    pub const SMOOTHED_RTT: usize = 2;

    /// Word 3: length.
    pub const RTTVAR: usize = 3;

    /// Word 4: length.
    pub const MAX_ACK_DELAY: usize = 4;

    /// Word 5: flag.
    pub const HAS_FIRST_RTT_SAMPLE: usize = 5;

    /// The names of its words, in order.
    pub const NAMES: [&str; 6] = [
        "latest_rtt",
        "min_rtt",
        "smoothed_rtt",
        "rttvar",
        "max_ack_delay",
        "has_first_rtt_sample",
    ];
}

/// Words of an answer of the estimator's.
pub mod rtt_answer {
    /// Word 0: reply.
    pub const REPLY: usize = 0;

    /// Word 1: length.
    pub const LATEST_RTT: usize = 1;

    /// Word 2: length or unset.
    pub const MIN_RTT: usize = 2;

    /// Word 3: length.
    pub const SMOOTHED_RTT: usize = 3;

    /// Word 4: length.
    pub const RTTVAR: usize = 4;

    /// The names of its words, in order.
    pub const NAMES: [&str; 5] = ["reply", "latest_rtt", "min_rtt", "smoothed_rtt", "rttvar"];
}

/// The replies: an answer's first word, and what an exported call replies.
pub mod reply {
    /// Reply 0.
    pub const DONE: u64 = 0;

    /// Reply 1.
    pub const OUT_OF_BOUNDS: u64 = 1;

    /// Reply 2.
    pub const BAD_ARGUMENT: u64 = 2;

    /// Reply 3.
    pub const EARLIER_MOMENT: u64 = 3;

    /// Reply 4.
    pub const LOWER_TOTAL: u64 = 4;

    /// Reply 5.
    pub const FULL_COUNTER: u64 = 5;

    /// Reply 6.
    pub const BAD_TEXT: u64 = 6;

    /// Reply 7.
    pub const SHORT_OUTPUT: u64 = 7;

    /// Reply 10.
    pub const NEVER_SENT: u64 = 10;

    /// The row of a reply: 0 is done, 1 to 7 and 10 are refusals.
    pub const fn row(reply: u64) -> u64 {
        reply & 0xff
    }

    /// The kind of a reply: in row 2 what is wrong, 1 to 9; otherwise 0.
    pub const fn kind(reply: u64) -> u64 {
        (reply >> 8) & 0xff
    }

    /// The place of a reply: in row 2 which argument, from 1 on, or 0 where a number is no call's; otherwise 0.
    pub const fn place(reply: u64) -> u64 {
        (reply >> 16) & 0xff
    }
}

/// The kinds of reply 2, `reply::BAD_ARGUMENT`: what `reply::kind` is.
pub mod fault {
    /// 2.1: a congestion window, at most 2^40 bytes (1.1 TB).
    pub const WINDOW: u64 = 1;

    /// 2.2: another count of bytes, at most 2^40 bytes (1.1 TB).
    pub const BYTE_COUNT: u64 = 2;

    /// 2.3: a bandwidth, at most 2^40 bits per second (1.1 Tbit/s).
    pub const BANDWIDTH: u64 = 3;

    /// 2.4: a length of time, at most 2^36 ns (68.7 s).
    pub const LENGTH: u64 = 4;

    /// 2.5: a total, or an event's bytes acked or lost, at most 2^62 bytes (4.6 million TB).
    pub const TOTAL: u64 = 5;

    /// 2.6: the rounds of probing up, at most 30.
    pub const PROBE_ROUNDS: u64 = 6;

    /// 2.7: a gain, 1/1024 to 8.
    pub const GAIN: u64 = 7;

    /// 2.8: a list or bytes of a wrong length, a malformed word, a number of no call.
    pub const LIST_LENGTH: u64 = 8;

    /// 2.9: a moment, or a postponed one, at most 2^62 ns (146 years).
    pub const MOMENT: u64 = 9;

    /// Their names in words, in order: 2.1 first.
    pub const NAMES: [&str; 9] = [
        "window",
        "byte count",
        "bandwidth",
        "length",
        "total",
        "probe rounds",
        "gain",
        "list length",
        "moment",
    ];

    /// What is said of an argument, in the same order.
    pub const SAID: [&str; 9] = [
        "is larger than 2^40 bytes",
        "is more than 2^40 bytes",
        "is more than 2^40 bits per second",
        "is longer than 2^36 ns",
        "is more than 2^62 bytes",
        "is more than 30",
        "is below 1/1024, above 8 or a NaN",
        "is malformed",
        "is later than 2^62 ns",
    ];

    /// The limits in plain units, in the same order; empty where there is none.
    pub const PLAIN: [&str; 9] = [
        "1.1 TB",
        "1.1 TB",
        "1.1 Tbit/s",
        "68.7 s",
        "4.6 million TB",
        "",
        "",
        "",
        "146 years",
    ];
}

/// The arguments that a reply of 2 can name, by `reply::place`: place 1 is the first of an array.
#[rustfmt::skip]
pub mod place {
    /// An argument, and what can be said of it.
    #[derive(Clone, Copy, Debug, PartialEq, Eq)]
    pub struct Argument {
        /// Its name.
        pub name: &'static str,
        /// The faults that it can have, numbers of `fault`, and what is then said.
        pub faults: &'static [(u64, &'static str)],
    }

    /// The argument `acked` of an event.
    pub const ACKED: Argument = Argument { name: "acked", faults: &[(8, "acked names numbers that the lists don't hold")] };

    /// The argument `event` of an event.
    pub const EVENT: Argument = Argument { name: "event", faults: &[
        (9, "event.event_time is later than 2^62 ns"),
        (1, "event.prior_cwnd is larger than 2^40 bytes"),
        (2, "event.prior_bytes_in_flight, event.bytes_in_flight or event.last_packet_send_state.bytes_in_flight is more than 2^40 bytes"),
        (5, "event.bytes_acked, event.bytes_lost or event.last_packet_send_state.total_bytes_acked is more than 2^62 bytes"),
        (8, "event.end_of_round_trip, event.is_probing_for_bandwidth, event.sample_max_bandwidth, event.sample_min_rtt, event.last_packet_send_state.is_valid or event.last_packet_send_state.is_app_limited is malformed"),
        (3, "event.sample_max_bandwidth is more than 2^40 bits per second"),
        (4, "event.sample_min_rtt is longer than 2^36 ns"),
    ] };

    /// The argument `sample` of an event.
    pub const SAMPLE: Argument = Argument { name: "sample", faults: &[
        (8, "sample.sample_max_bandwidth, sample.sample_max_send_rate, sample.sample_max_ack_rate, sample.sample_is_app_limited, sample.sample_rtt, sample.last_packet_send_state.is_valid or sample.last_packet_send_state.is_app_limited is malformed"),
        (3, "sample.sample_max_bandwidth, sample.sample_max_send_rate or sample.sample_max_ack_rate is more than 2^40 bits per second"),
        (4, "sample.sample_rtt is longer than 2^36 ns"),
        (2, "sample.sample_max_inflight, sample.extra_acked or sample.last_packet_send_state.bytes_in_flight is more than 2^40 bytes"),
        (5, "sample.last_packet_send_state.total_bytes_acked, sample.total_bytes_acked or sample.total_bytes_lost is more than 2^62 bytes"),
    ] };

    /// Of each call of `call::ALL`, in the same order.
    pub const CALLS: [&[Argument]; 44] = [
        // start
        &[
            Argument { name: "initial_rtt", faults: &[(4, "initial_rtt is longer than 2^36 ns")] },
            Argument { name: "now", faults: &[(9, "now is later than 2^62 ns")] },
        ],
        // on_packet_sent
        &[
            Argument { name: "sent_time", faults: &[(9, "sent_time is later than 2^62 ns")] },
            Argument { name: "bytes_in_flight", faults: &[(2, "bytes_in_flight is more than 2^40 bytes")] },
            Argument { name: "packet_number", faults: &[] },
            Argument { name: "bytes", faults: &[(2, "bytes is more than 2^40 bytes")] },
        ],
        // on_congestion_event_start
        &[
            ACKED,
            EVENT,
            SAMPLE,
        ],
        // on_congestion_event_finish
        &[
            EVENT,
        ],
        // maybe_expire_min_rtt
        &[
            EVENT,
        ],
        // is_inflight_too_high
        &[
            EVENT,
            Argument { name: "max_loss_events", faults: &[] },
        ],
        // has_bandwidth_growth
        &[
            EVENT,
        ],
        // restart_round_early
        &[],
        // check_persistent_queue
        &[
            Argument { name: "target_gain", faults: &[
                (8, "target_gain has bits above the 32nd"),
                (7, "target_gain is below 1/1024, above 8 or a NaN"),
            ] },
        ],
        // bdp
        &[
            Argument { name: "bandwidth", faults: &[(3, "bandwidth is more than 2^40 bits per second")] },
            Argument { name: "gain", faults: &[
                (8, "gain has bits above the 32nd"),
                (7, "gain is below 1/1024, above 8 or a NaN"),
            ] },
        ],
        // bdp1
        &[
            Argument { name: "bandwidth", faults: &[(3, "bandwidth is more than 2^40 bits per second")] },
        ],
        // bdp0
        &[],
        // inflight_hi_with_headroom
        &[],
        // set_full_bandwidth_reached
        &[],
        // set_pacing_gain
        &[
            Argument { name: "pacing_gain", faults: &[
                (8, "pacing_gain has bits above the 32nd"),
                (7, "pacing_gain is below 1/1024, above 8 or a NaN"),
            ] },
        ],
        // set_cwnd_gain
        &[
            Argument { name: "cwnd_gain", faults: &[
                (8, "cwnd_gain has bits above the 32nd"),
                (7, "cwnd_gain is below 1/1024, above 8 or a NaN"),
            ] },
        ],
        // set_inflight_hi
        &[
            Argument { name: "new_inflight_hi", faults: &[(2, "new_inflight_hi is more than 2^40 bytes")] },
        ],
        // cap_inflight_lo
        &[
            Argument { name: "cap", faults: &[(2, "cap is more than 2^40 bytes")] },
        ],
        // clear_inflight_lo
        &[],
        // clear_bandwidth_lo
        &[],
        // advance_max_bandwidth_filter
        &[],
        // postpone_min_rtt_timestamp
        &[
            Argument { name: "duration", faults: &[
                (4, "duration is longer than 2^36 ns"),
                (9, "duration postpones min_rtt_timestamp past 2^62 ns"),
            ] },
        ],
        // bandwidth_estimate
        &[],
        // min_rtt
        &[],
        // min_rtt_timestamp
        &[],
        // max_bandwidth
        &[],
        // max_bytes_delivered_in_round
        &[],
        // total_bytes_acked
        &[],
        // total_bytes_lost
        &[],
        // full_bandwidth_reached
        &[],
        // pacing_gain
        &[],
        // cwnd_gain
        &[],
        // inflight_hi
        &[],
        // inflight_hi_default
        &[],
        // inflight_lo
        &[],
        // loss_events_in_round
        &[],
        // rounds_with_queueing
        &[],
        // queueing_threshold_extra_bytes
        &[],
        // enter_probe_down
        &[
            Argument { name: "probed_too_high", faults: &[(8, "probed_too_high is neither 0 nor 1")] },
            Argument { name: "stopped_risky_probe", faults: &[(8, "stopped_risky_probe is neither 0 nor 1")] },
            Argument { name: "now", faults: &[(9, "now is later than 2^62 ns")] },
        ],
        // enter_probe_cruise
        &[
            Argument { name: "now", faults: &[(9, "now is later than 2^62 ns")] },
        ],
        // enter_probe_refill
        &[
            Argument { name: "probe_up_rounds", faults: &[(6, "probe_up_rounds is more than 30")] },
            Argument { name: "now", faults: &[(9, "now is later than 2^62 ns")] },
        ],
        // enter_probe_up
        &[
            Argument { name: "now", faults: &[(9, "now is later than 2^62 ns")] },
            Argument { name: "cwnd", faults: &[(1, "cwnd is larger than 2^40 bytes")] },
        ],
        // exit_probe_down
        &[],
        // raise_inflight_high_slope
        &[
            Argument { name: "cwnd", faults: &[(1, "cwnd is larger than 2^40 bytes")] },
        ],
    ];

    /// Of each call of `rtt_call::ALL`, in the same order.
    pub const RTT_CALLS: [&[Argument]; 3] = [
        // new
        &[
            Argument { name: "initial_rtt", faults: &[(4, "initial_rtt is longer than 2^36 ns")] },
            Argument { name: "max_ack_delay", faults: &[(4, "max_ack_delay is longer than 2^36 ns")] },
        ],
        // update_rtt
        &[
            Argument { name: "latest_rtt", faults: &[(4, "latest_rtt is longer than 2^36 ns")] },
            Argument { name: "ack_delay", faults: &[(4, "ack_delay is longer than 2^36 ns")] },
            Argument { name: "handshake_confirmed", faults: &[(8, "handshake_confirmed is neither 0 nor 1")] },
        ],
        // update_max_ack_delay
        &[
            Argument { name: "max_ack_delay", faults: &[(4, "max_ack_delay is longer than 2^36 ns")] },
        ],
    ];

    /// Of `guovssalu_run`.
    pub const RUN: [Argument; 3] = [
        Argument { name: "state", faults: &[(8, "state is not 408 bytes long")] },
        Argument { name: "calls", faults: &[(8, "calls is no whole number of 392 bytes")] },
        Argument { name: "answers", faults: &[] },
    ];

    /// Of `guovssalu_run_lists`.
    pub const RUN_LISTS: [Argument; 4] = [
        Argument { name: "state", faults: &[(8, "state is not 408 bytes long")] },
        Argument { name: "calls", faults: &[(8, "calls is no whole number of 392 bytes")] },
        Argument { name: "lists", faults: &[] },
        Argument { name: "answers", faults: &[] },
    ];

    /// Of `guovssalu_filter_run`.
    pub const FILTER_RUN: [Argument; 3] = [
        Argument { name: "window", faults: &[] },
        Argument { name: "src", faults: &[(8, "src is no whole number of 16 bytes")] },
        Argument { name: "out", faults: &[] },
    ];

    /// Of `guovssalu_raise_inflight_high_slope`.
    pub const RAISE_INFLIGHT_HIGH_SLOPE: [Argument; 3] = [
        Argument { name: "rounds", faults: &[] },
        Argument { name: "window", faults: &[(1, "window is larger than 2^40 bytes")] },
        Argument { name: "out", faults: &[] },
    ];

    /// Of `guovssalu_rtt_run`.
    pub const RTT_RUN: [Argument; 3] = [
        Argument { name: "state", faults: &[(8, "state is not 48 bytes long")] },
        Argument { name: "calls", faults: &[(8, "calls is no whole number of 32 bytes")] },
        Argument { name: "answers", faults: &[] },
    ];

    /// What is said at place 0.
    pub const NO_CALL: &str = "the number is no call's";
}

/// What the state's word `state::PHASE` is.
pub mod phase {
    /// Phase 0.
    pub const NOT_STARTED: u64 = 0;

    /// Phase 1.
    pub const UP: u64 = 1;

    /// Phase 2.
    pub const DOWN: u64 = 2;

    /// Phase 3.
    pub const CRUISE: u64 = 3;

    /// Phase 4.
    pub const REFILL: u64 = 4;
}

/// Why the filter's estimates moved: what `samples::REASON` is.
pub mod reason {
    /// Reason 0.
    pub const ALL_REPLACED: u64 = 0;

    /// Reason 1.
    pub const SECOND_RAISED: u64 = 1;

    /// Reason 2.
    pub const THIRD_RAISED: u64 = 2;

    /// Reason 3.
    pub const PROMOTED_ONCE: u64 = 3;

    /// Reason 4.
    pub const PROMOTED_TWICE: u64 = 4;

    /// Reason 5.
    pub const QUARTER_REFRESH: u64 = 5;

    /// Reason 6.
    pub const HALF_REFRESH: u64 = 6;

    /// Reason 7.
    pub const UNCHANGED: u64 = 7;

    /// Their names in words, in order.
    pub const NAMES: [&str; 8] = [
        "all replaced",
        "second raised",
        "third raised",
        "promoted once",
        "promoted twice",
        "quarter refresh",
        "half refresh",
        "unchanged",
    ];
}
