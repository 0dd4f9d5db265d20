//! The words of states, calls and answers, as docs/LAYOUT.md numbers them. Those of the estimator of
//! round-trip times have its prefix; their places are used as docs/calls.txt names them.

use guovssalu_sys::table;

pub use guovssalu_sys::table::ANSWER_BYTES;
pub use guovssalu_sys::table::CALL_BYTES;
pub use guovssalu_sys::table::RTT_ANSWER_BYTES;
pub use guovssalu_sys::table::RTT_CALL_BYTES;
pub use guovssalu_sys::table::RTT_STATE_BYTES;
pub use guovssalu_sys::table::STATE_BYTES;
pub use guovssalu_sys::table::UNSET;

pub type State = [u64; table::STATE_WORDS];
pub type Call = [u64; table::CALL_WORDS];
pub type Answer = [u64; table::ANSWER_WORDS];
pub type Record = [u64; table::EVENT_WORDS];

pub type RttState = [u64; table::RTT_STATE_WORDS];
pub type RttCall = [u64; table::RTT_CALL_WORDS];
pub type RttAnswer = [u64; table::RTT_ANSWER_WORDS];

/// The first number after the last call's.
pub const CALLS_END: u64 = table::call::ALL[table::call::ALL.len() - 1] + 1;
pub const RTT_CALLS_END: u64 = table::rtt_call::ALL[table::rtt_call::ALL.len() - 1] + 1;

/// The words of a state; of a pair the first.
pub mod state {
    use guovssalu_sys::table::state;

    pub const ROUND_TRIP_COUNT: usize = state::ROUND_TRIP_COUNT;
    pub const LAST_SENT_PACKET: usize = state::LAST_SENT_PACKET;
    pub const END_OF_ROUND_TRIP: usize = state::END_OF_ROUND_TRIP_SET;
    pub const MAX_BANDWIDTH_0: usize = state::MAX_BANDWIDTH_0;
    pub const MAX_BANDWIDTH_1: usize = state::MAX_BANDWIDTH_1;
    pub const MIN_RTT: usize = state::MIN_RTT;
    pub const MIN_RTT_TIMESTAMP: usize = state::MIN_RTT_TIMESTAMP;
    pub const BYTES_LOST_IN_ROUND: usize = state::BYTES_LOST_IN_ROUND;
    pub const LOSS_EVENTS_IN_ROUND: usize = state::LOSS_EVENTS_IN_ROUND;
    pub const MAX_BYTES_DELIVERED_IN_ROUND: usize = state::MAX_BYTES_DELIVERED_IN_ROUND;
    pub const MIN_BYTES_IN_FLIGHT_IN_ROUND: usize = state::MIN_BYTES_IN_FLIGHT_IN_ROUND;
    pub const INFLIGHT_HI_LIMITED_IN_ROUND: usize = state::INFLIGHT_HI_LIMITED_IN_ROUND;
    pub const BANDWIDTH_LATEST: usize = state::BANDWIDTH_LATEST;
    pub const INFLIGHT_LATEST: usize = state::INFLIGHT_LATEST;
    pub const BANDWIDTH_LO: usize = state::BANDWIDTH_LO_SET;
    pub const INFLIGHT_LO: usize = state::INFLIGHT_LO;
    pub const INFLIGHT_HI: usize = state::INFLIGHT_HI;
    pub const CWND_GAIN: usize = state::CWND_GAIN;
    pub const PACING_GAIN: usize = state::PACING_GAIN;
    pub const CWND_LIMITED: usize = state::CWND_LIMITED_BEFORE_AGGREGATION_EPOCH;
    pub const FULL_BANDWIDTH_REACHED: usize = state::FULL_BANDWIDTH_REACHED;
    pub const FULL_BANDWIDTH_BASELINE: usize = state::FULL_BANDWIDTH_BASELINE;
    pub const ROUNDS_WITHOUT_GROWTH: usize = state::ROUNDS_WITHOUT_BANDWIDTH_GROWTH;
    pub const ROUNDS_WITH_QUEUEING: usize = state::ROUNDS_WITH_QUEUEING;
    pub const IGNORE_APP_LIMITED: usize = state::IGNORE_APP_LIMITED_FOR_NO_BANDWIDTH_GROWTH;
    pub const SEND_RATE: usize = state::LATEST_SEND_RATE_SET;
    pub const ACK_RATE: usize = state::LATEST_ACK_RATE_SET;
    pub const TOTAL_ACKED: usize = state::TOTAL_BYTES_ACKED;
    pub const TOTAL_LOST: usize = state::TOTAL_BYTES_LOST;
    pub const LAST_MOMENT: usize = state::LAST_ACCEPTED_MOMENT;
    pub const ANYTHING_SENT: usize = state::ANYTHING_SENT;
    pub const PHASE: usize = state::PHASE;
    pub const CYCLE_START: usize = state::START_TIME;
    pub const PHASE_START: usize = state::PHASE_START_TIME;
    pub const ROUNDS_IN_PHASE: usize = state::ROUNDS_IN_PHASE;
    pub const ROUNDS_SINCE_PROBE: usize = state::ROUNDS_SINCE_PROBE;
    pub const PROBE_WAIT: usize = state::PROBE_WAIT_TIME_SET;
    pub const PROBE_UP_ROUNDS: usize = state::PROBE_UP_ROUNDS;
    pub const PROBE_UP_BYTES: usize = state::PROBE_UP_BYTES_SET;
    pub const PROBE_UP_ACKED: usize = state::PROBE_UP_ACKED;
    pub const PROBE_UP_APP_LIMITED: usize = state::PROBE_UP_APP_LIMITED_SINCE_INFLIGHT_HI_LIMITED;
    pub const HAS_ADVANCED_MAX_BW: usize = state::HAS_ADVANCED_MAX_BW;
    pub const IS_SAMPLE_FROM_PROBING: usize = state::IS_SAMPLE_FROM_PROBING;
    pub const LAST_PROBED_TOO_HIGH: usize = state::LAST_CYCLE_PROBED_TOO_HIGH;
    pub const LAST_STOPPED_RISKY_PROBE: usize = state::LAST_CYCLE_STOPPED_RISKY_PROBE;
}

/// The words of a call: its number, its arguments, an event's, the record, the parameters; of a pair the
/// first.
pub mod call {
    use guovssalu_sys::table;
    use guovssalu_sys::table::event;
    use guovssalu_sys::table::params;
    use guovssalu_sys::table::sample;

    pub const NUMBER: usize = table::NUMBER_IN_CALL;
    pub const ARGUMENTS: usize = table::ARGUMENTS_IN_CALL;

    pub const SAMPLE_BANDWIDTH: usize = sample::SAMPLE_MAX_BANDWIDTH_SET;
    pub const SAMPLE_SEND_RATE: usize = sample::SAMPLE_MAX_SEND_RATE_SET;
    pub const SAMPLE_ACK_RATE: usize = sample::SAMPLE_MAX_ACK_RATE_SET;
    pub const SAMPLE_IS_APP_LIMITED: usize = sample::SAMPLE_IS_APP_LIMITED;
    pub const SAMPLE_RTT: usize = sample::SAMPLE_RTT_SET;
    pub const SAMPLE_MAX_INFLIGHT: usize = sample::SAMPLE_MAX_INFLIGHT;
    pub const EXTRA_ACKED: usize = sample::EXTRA_ACKED;
    pub const SENT_IS_VALID: usize = sample::LAST_PACKET_SEND_STATE_IS_VALID;
    pub const SENT_IS_APP_LIMITED: usize = sample::LAST_PACKET_SEND_STATE_IS_APP_LIMITED;
    pub const SENT_TOTAL_ACKED: usize = sample::LAST_PACKET_SEND_STATE_TOTAL_BYTES_ACKED;
    pub const SENT_IN_FLIGHT: usize = sample::LAST_PACKET_SEND_STATE_BYTES_IN_FLIGHT;
    pub const TOTAL_ACKED: usize = sample::TOTAL_BYTES_ACKED;
    pub const TOTAL_LOST: usize = sample::TOTAL_BYTES_LOST;
    pub const ACKED_COUNT: usize = sample::ACKED_COUNT;
    pub const ACKED: usize = sample::ACKED_PACKETS;

    pub const RECORD: usize = table::EVENT_IN_CALL;
    pub const EVENT_TIME: usize = RECORD + event::EVENT_TIME;
    pub const PRIOR_CWND: usize = RECORD + event::PRIOR_CWND;
    pub const PRIOR_IN_FLIGHT: usize = RECORD + event::PRIOR_BYTES_IN_FLIGHT;
    pub const IN_FLIGHT: usize = RECORD + event::BYTES_IN_FLIGHT;
    pub const BYTES_ACKED: usize = RECORD + event::BYTES_ACKED;
    pub const BYTES_LOST: usize = RECORD + event::BYTES_LOST;
    pub const END_OF_ROUND_TRIP: usize = RECORD + event::END_OF_ROUND_TRIP;
    pub const IS_PROBING: usize = RECORD + event::IS_PROBING_FOR_BANDWIDTH;
    pub const RECORD_BANDWIDTH: usize = RECORD + event::SAMPLE_MAX_BANDWIDTH_SET;
    pub const RECORD_RTT: usize = RECORD + event::SAMPLE_MIN_RTT_SET;
    pub const LAST_IS_VALID: usize = RECORD + event::LAST_PACKET_SEND_STATE_IS_VALID;
    pub const LAST_IS_APP_LIMITED: usize = RECORD + event::LAST_PACKET_SEND_STATE_IS_APP_LIMITED;
    pub const LAST_TOTAL_ACKED: usize = RECORD + event::LAST_PACKET_SEND_STATE_TOTAL_BYTES_ACKED;
    pub const LAST_IN_FLIGHT: usize = RECORD + event::LAST_PACKET_SEND_STATE_BYTES_IN_FLIGHT;

    pub const PARAMS: usize = table::PARAMS_IN_CALL;
    pub const BETA: usize = PARAMS + params::BETA;
    pub const LOSS_THRESHOLD: usize = PARAMS + params::LOSS_THRESHOLD;
    pub const HEADROOM: usize = PARAMS + params::INFLIGHT_HI_HEADROOM;
    pub const FULL_BW_THRESHOLD: usize = PARAMS + params::FULL_BW_THRESHOLD;
    pub const STARTUP_CWND_GAIN: usize = PARAMS + params::STARTUP_CWND_GAIN;
    pub const STARTUP_PACING_GAIN: usize = PARAMS + params::STARTUP_PACING_GAIN;
    pub const STARTUP_FULL_BW_ROUNDS: usize = PARAMS + params::STARTUP_FULL_BW_ROUNDS;
    pub const MAX_STARTUP_QUEUE_ROUNDS: usize = PARAMS + params::MAX_STARTUP_QUEUE_ROUNDS;
    pub const PROBE_RTT_PERIOD: usize = PARAMS + params::PROBE_RTT_PERIOD;
    pub const PROBE_BASE_DURATION: usize = PARAMS + params::PROBE_BW_PROBE_BASE_DURATION;
    pub const IGNORE_APP_LIMITED: usize =
        PARAMS + params::IGNORE_APP_LIMITED_FOR_NO_BANDWIDTH_GROWTH;
}

/// The words of an answer.
pub mod answer {
    use guovssalu_sys::table;

    pub const REPLY: usize = table::REPLY_IN_ANSWER;
    pub const VALUE: usize = table::VALUE_IN_ANSWER;
    pub const RECORD: usize = table::EVENT_IN_ANSWER;
}

/// The name of a call.
pub fn name(number: u64) -> &'static str {
    named(number, &table::call::ALL, &table::call::NAMES)
}

/// The name of a call on the estimator.
pub fn rtt_name(number: u64) -> &'static str {
    named(number, &table::rtt_call::ALL, &table::rtt_call::NAMES)
}

/// The name that stands where a number does.
fn named(number: u64, numbers: &[u64], names: &[&'static str]) -> &'static str {
    let place = numbers.iter().position(|&call| call == number);
    place.map_or("no call", |place| names[place])
}

/// Words as bytes, the lowest byte first.
pub fn bytes(words: &[u64]) -> Vec<u8> {
    words.iter().flat_map(|word| word.to_le_bytes()).collect()
}

/// So many words from bytes, which are as long.
pub fn words<const N: usize>(bytes: &[u8]) -> [u64; N] {
    let mut words = [0; N];
    for (word, bytes) in words.iter_mut().zip(bytes.chunks_exact(table::WORD_BYTES)) {
        let mut eight = [0; table::WORD_BYTES];
        eight.copy_from_slice(bytes);
        *word = u64::from_le_bytes(eight);
    }
    words
}

/// What the word of a flag says: 1 is yes, 0 is no, and any other is malformed.
pub fn flag(word: u64) -> Option<bool> {
    match word {
        0 => Some(false),
        1 => Some(true),
        _ => None,
    }
}

/// The f32 whose bits a word is; a word with bits above the 32nd is malformed.
pub fn float(word: u64) -> Option<f32> {
    if word <= u32::MAX as u64 {
        Some(f32::from_bits(word as u32))
    } else {
        None
    }
}

/// What a pair of words says: 1 and a number, or 0 and 0 for unset; any other is malformed.
pub fn pair(words: &[u64], index: usize) -> Option<Option<u64>> {
    match (words[index], words[index + 1]) {
        (1, number) => Some(Some(number)),
        (0, 0) => Some(None),
        _ => None,
    }
}

/// The numbers acked. Up to three stand in the call; more are words of the lists, from the one on that
/// the call's first word for a number says. Where they are not all inside the lists there are none: a
/// bad argument, as any count above three is without lists.
pub fn acked<'a>(call: &'a [u64], lists: &'a [u64]) -> Option<&'a [u64]> {
    let (count, start) = (call[call::ACKED_COUNT], call[call::ACKED]);
    if count <= 3 {
        return Some(&call[call::ACKED..call::RECORD][..count as usize]);
    }
    let end = start as u128 + count as u128;
    if end > lists.len() as u128 {
        return None;
    }
    Some(&lists[start as usize..end as usize])
}

/// The record as it is handed in, whatever its words are.
pub fn record(call: &Call) -> Record {
    let mut record = [0; table::EVENT_WORDS];
    record.copy_from_slice(&call[call::RECORD..call::PARAMS]);
    record
}

/// Whether a flag says yes.
pub fn yes(word: u64) -> bool {
    flag(word) == Some(true)
}

/// The number that a pair of words says, if it says one.
pub fn optional(words: &[u64], index: usize) -> Option<u64> {
    pair(words, index).flatten()
}

/// The gain or share that a word says; a NaN, which is within no bounds, where it is malformed.
pub fn gain(word: u64) -> f32 {
    float(word).unwrap_or(f32::NAN)
}
