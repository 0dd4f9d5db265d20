//! Words in bytes, as docs/LAYOUT.md has them. What is read here was written by a run, or taken by
//! one: a malformed word is in none of it, and none is read as something else.

use crate::table::event;
use crate::table::params;
use crate::table::WORD_BYTES;
use crate::Bandwidth;
use crate::CongestionEvent;
use crate::Duration;
use crate::Moment;
use crate::Params;
use crate::SendTimeState;

/// The word at a place.
pub fn get(bytes: &[u8], at: usize) -> u64 {
    let mut word = [0; WORD_BYTES];
    word.copy_from_slice(&bytes[WORD_BYTES * at..][..WORD_BYTES]);
    u64::from_le_bytes(word)
}

pub fn put(bytes: &mut [u8], at: usize, word: u64) {
    bytes[WORD_BYTES * at..][..WORD_BYTES].copy_from_slice(&word.to_le_bytes());
}

/// The flag at a place.
///
/// # Panics
///
/// If the word is malformed.
pub fn get_flag(bytes: &[u8], at: usize) -> bool {
    match get(bytes, at) {
        0 => false,
        1 => true,
        word => panic!("{} is no flag", word),
    }
}

pub fn put_flag(bytes: &mut [u8], at: usize, yes: bool) {
    put(bytes, at, yes as u64);
}

pub fn put_gain(bytes: &mut [u8], at: usize, gain: f32) {
    put(bytes, at, gain.to_bits() as u64);
}

/// The number at a place and the next one, if it is set.
///
/// # Panics
///
/// If the two words are malformed.
pub fn get_option(bytes: &[u8], at: usize) -> Option<u64> {
    match (get(bytes, at), get(bytes, at + 1)) {
        (0, 0) => None,
        (1, number) => Some(number),
        (set, number) => panic!("{} and {} are no number and not unset", set, number),
    }
}

pub fn get_bandwidth(bytes: &[u8], at: usize) -> Option<Bandwidth> {
    get_option(bytes, at).map(Bandwidth::from_bits_per_second)
}

pub fn put_bandwidth(bytes: &mut [u8], at: usize, bandwidth: Option<Bandwidth>) {
    put_option(bytes, at, bandwidth.map(Bandwidth::to_bits_per_second));
}

pub fn put_length(bytes: &mut [u8], at: usize, length: Option<Duration>) {
    put_option(bytes, at, length.map(Duration::as_nanos));
}

fn put_option(bytes: &mut [u8], at: usize, number: Option<u64>) {
    put_flag(bytes, at, number.is_some());
    put(bytes, at + 1, number.unwrap_or(0));
}

/// The four words of a send state, from the first on.
pub fn put_send_state(bytes: &mut [u8], at: usize, state: &SendTimeState) {
    put_flag(bytes, at, state.is_valid);
    put_flag(bytes, at + 1, state.is_app_limited);
    put(bytes, at + 2, state.total_bytes_acked);
    put(bytes, at + 3, state.bytes_in_flight);
}

/// The words of an event's record, from the first on.
pub fn put_event(bytes: &mut [u8], first: usize, event: &CongestionEvent) {
    for (at, number) in [
        (event::EVENT_TIME, event.event_time.as_nanos()),
        (event::PRIOR_CWND, event.prior_cwnd),
        (event::PRIOR_BYTES_IN_FLIGHT, event.prior_bytes_in_flight),
        (event::BYTES_IN_FLIGHT, event.bytes_in_flight),
        (event::BYTES_ACKED, event.bytes_acked),
        (event::BYTES_LOST, event.bytes_lost),
    ] {
        put(bytes, first + at, number);
    }
    let (ended, probing) = (event.end_of_round_trip, event.is_probing_for_bandwidth);
    put_flag(bytes, first + event::END_OF_ROUND_TRIP, ended);
    put_flag(bytes, first + event::IS_PROBING_FOR_BANDWIDTH, probing);
    let (bandwidth, rtt) = (event.sample_max_bandwidth, event.sample_min_rtt);
    put_bandwidth(bytes, first + event::SAMPLE_MAX_BANDWIDTH_SET, bandwidth);
    put_length(bytes, first + event::SAMPLE_MIN_RTT_SET, rtt);
    let send_state = first + event::LAST_PACKET_SEND_STATE_IS_VALID;
    put_send_state(bytes, send_state, &event.last_packet_send_state);
}

pub fn get_event(bytes: &[u8], first: usize) -> CongestionEvent {
    let number = |at: usize| get(bytes, first + at);
    let flag = |at: usize| get_flag(bytes, first + at);
    let option = |at: usize| get_option(bytes, first + at);
    CongestionEvent {
        event_time: Moment::from_nanos(number(event::EVENT_TIME)),
        prior_cwnd: number(event::PRIOR_CWND),
        prior_bytes_in_flight: number(event::PRIOR_BYTES_IN_FLIGHT),
        bytes_in_flight: number(event::BYTES_IN_FLIGHT),
        bytes_acked: number(event::BYTES_ACKED),
        bytes_lost: number(event::BYTES_LOST),
        end_of_round_trip: flag(event::END_OF_ROUND_TRIP),
        is_probing_for_bandwidth: flag(event::IS_PROBING_FOR_BANDWIDTH),
        sample_max_bandwidth: option(event::SAMPLE_MAX_BANDWIDTH_SET)
            .map(Bandwidth::from_bits_per_second),
        sample_min_rtt: option(event::SAMPLE_MIN_RTT_SET).map(Duration::from_nanos),
        last_packet_send_state: SendTimeState {
            is_valid: flag(event::LAST_PACKET_SEND_STATE_IS_VALID),
            is_app_limited: flag(event::LAST_PACKET_SEND_STATE_IS_APP_LIMITED),
            total_bytes_acked: number(event::LAST_PACKET_SEND_STATE_TOTAL_BYTES_ACKED),
            bytes_in_flight: number(event::LAST_PACKET_SEND_STATE_BYTES_IN_FLIGHT),
        },
    }
}

/// The words of the parameters, from the first on.
pub fn put_params(bytes: &mut [u8], first: usize, params: &Params) {
    for (at, gain) in [
        (params::BETA, params.beta),
        (params::LOSS_THRESHOLD, params.loss_threshold),
        (params::INFLIGHT_HI_HEADROOM, params.inflight_hi_headroom),
        (params::FULL_BW_THRESHOLD, params.full_bw_threshold),
        (params::STARTUP_CWND_GAIN, params.startup_cwnd_gain),
        (params::STARTUP_PACING_GAIN, params.startup_pacing_gain),
    ] {
        put_gain(bytes, first + at, gain);
    }
    let base_duration = params.probe_bw_probe_base_duration;
    for (at, number) in [
        (
            params::STARTUP_FULL_BW_ROUNDS,
            params.startup_full_bw_rounds,
        ),
        (
            params::MAX_STARTUP_QUEUE_ROUNDS,
            params.max_startup_queue_rounds,
        ),
        (params::PROBE_RTT_PERIOD, params.probe_rtt_period.as_nanos()),
        (
            params::PROBE_BW_PROBE_BASE_DURATION,
            base_duration.as_nanos(),
        ),
    ] {
        put(bytes, first + at, number);
    }
    let option = first + params::IGNORE_APP_LIMITED_FOR_NO_BANDWIDTH_GROWTH;
    put_flag(
        bytes,
        option,
        params.ignore_app_limited_for_no_bandwidth_growth,
    );
}
