//! The original's side. It reads the bytes that the port reads and writes the bytes that the port
//! writes, but for the filter's reason, of which it says nothing; its parameters it has from the
//! start.

use std::time::Duration;
use std::time::Instant;

use guovssalu_sys::table::argument::on_packet_sent;
use guovssalu_sys::table::call;
use guovssalu_sys::table::event;
use guovssalu_sys::table::rtt_argument::new;
use guovssalu_sys::table::rtt_argument::update_max_ack_delay;
use guovssalu_sys::table::rtt_argument::update_rtt;
use guovssalu_sys::table::rtt_call;
use guovssalu_sys::table::ANSWER_BYTES;
use guovssalu_sys::table::ARGUMENTS_IN_CALL;
use guovssalu_sys::table::ARGUMENTS_WORDS;
use guovssalu_sys::table::CALL_BYTES;
use guovssalu_sys::table::EVENT_IN_ANSWER;
use guovssalu_sys::table::EVENT_IN_CALL;
use guovssalu_sys::table::EVENT_WORDS;
use guovssalu_sys::table::NUMBER_IN_CALL;
use guovssalu_sys::table::PAIR_BYTES;
use guovssalu_sys::table::RTT_ANSWER_BYTES;
use guovssalu_sys::table::RTT_CALL_BYTES;
use guovssalu_sys::table::RTT_NUMBER_IN_CALL;
use guovssalu_sys::table::STATE_WORDS;
use guovssalu_sys::table::UNSET;
use guovssalu_sys::table::WORD_BYTES;

use crate::inputs::bytes;
use crate::inputs::Updates;
use crate::model::Record;
use crate::model::Sample;
use crate::model::Start;
use crate::recovery::bandwidth::Bandwidth;
use crate::recovery::gcongestion::Host;
use crate::recovery::gcongestion::WindowedFilter;
use crate::recovery::rtt::RttStats;

/// The functions on single numbers. The port's are behind a call that can't be folded into the
/// loop around it, so neither are these.
pub mod numbers {
    use super::*;

    #[inline(never)]
    pub fn u64_to_f32(n: u64) -> f32 {
        n as f32
    }

    #[inline(never)]
    pub fn u64_to_f64(n: u64) -> f64 {
        n as f64
    }

    #[inline(never)]
    pub fn f32_to_u64(x: f32) -> u64 {
        x as u64
    }

    #[inline(never)]
    pub fn f64_round_to_u64(x: f64) -> u64 {
        x.round() as u64
    }

    #[inline(never)]
    pub fn scale(n: u64, gain: f32) -> u64 {
        (n as f32 * gain) as u64
    }

    #[inline(never)]
    pub fn bandwidth_mul_f32(bandwidth: Bandwidth, gain: f32) -> Bandwidth {
        bandwidth * gain
    }

    #[inline(never)]
    pub fn to_bytes_per_period(bandwidth: Bandwidth, nanos: u64) -> u64 {
        bandwidth.to_bytes_per_period(Duration::from_nanos(nanos))
    }
}

/// Bytes of the three samples that it writes for a pair, one after the other.
pub const SAMPLES_BYTES: usize = 3 * WORD_BYTES;

#[inline(never)]
pub fn filter_run(window: u64, pairs: &[u8], out: &mut [u8]) {
    let mut filter: WindowedFilter<u64, usize, usize> = WindowedFilter::new(window as usize);
    for (pair, out) in pairs
        .chunks_exact(PAIR_BYTES)
        .zip(out.chunks_exact_mut(SAMPLES_BYTES))
    {
        let [time, sample] = words(pair, 0);
        filter.update(sample, time as usize);
        let samples = [
            filter.get_best().unwrap_or(0),
            filter.get_second_best().unwrap_or(0),
            filter.get_third_best().unwrap_or(0),
        ];
        put(out, samples);
    }
}

/// What carries out calls as bytes.
pub trait Original {
    fn run(&mut self, calls: &[u8], answers: &mut [u8]);
    fn state(&self) -> Vec<u8>;
}

/// A round-trip estimator, and the moment of its updates, which the stand-in for the file of its
/// minimum doesn't look at.
pub struct Estimator(RttStats, Instant);

impl Estimator {
    pub fn new(now: Instant) -> Self {
        let [initial, limit] = Updates::FRESH.map(Duration::from_nanos);
        Estimator(RttStats::new(initial, limit), now)
    }

    /// An update alone.
    #[inline(never)]
    pub fn update(&mut self, latest: Duration, delay: Duration, confirmed: bool) {
        self.0.update_rtt(latest, delay, self.1, confirmed)
    }
}

impl Original for Estimator {
    #[inline(never)]
    fn run(&mut self, calls: &[u8], answers: &mut [u8]) {
        let Estimator(stats, now) = self;
        let nanos = |length: Duration| length.as_nanos() as u64;
        let answers = answers.chunks_exact_mut(RTT_ANSWER_BYTES);
        for (call, answer) in calls.chunks_exact(RTT_CALL_BYTES).zip(answers) {
            let length = |at: usize| Duration::from_nanos(word(call, at));
            match word(call, RTT_NUMBER_IN_CALL) {
                rtt_call::NEW => {
                    *stats = RttStats::new(length(new::INITIAL_RTT), length(new::MAX_ACK_DELAY))
                }
                rtt_call::UPDATE_RTT => stats.update_rtt(
                    length(update_rtt::LATEST_RTT),
                    length(update_rtt::ACK_DELAY),
                    *now,
                    word(call, update_rtt::HANDSHAKE_CONFIRMED) == 1,
                ),
                _ => stats.update_max_ack_delay(length(update_max_ack_delay::MAX_ACK_DELAY)),
            }
            let least = stats.min_rtt().map_or(UNSET, nanos);
            let [latest, smoothed, variation] =
                [stats.latest_rtt(), stats.rtt(), stats.rttvar()].map(nanos);
            put(answer, [0, latest, least, smoothed, variation]);
        }
    }

    fn state(&self) -> Vec<u8> {
        bytes(&self.0.held())
    }
}

/// A model, its cycle and the event at hand.
pub struct Model(Host);

impl Original for Model {
    fn state(&self) -> Vec<u8> {
        bytes(&self.0.state()[..STATE_WORDS])
    }

    /// Sends, events and their finish, as bytes.
    #[inline(never)]
    fn run(&mut self, calls: &[u8], answers: &mut [u8]) {
        let host = &mut self.0;
        let answers = answers.chunks_exact_mut(ANSWER_BYTES);
        for (call, answer) in calls.chunks_exact(CALL_BYTES).zip(answers) {
            answer.fill(0);
            match word(call, NUMBER_IN_CALL) {
                call::ON_PACKET_SENT => host.sent(
                    word(call, on_packet_sent::SENT_TIME),
                    word(call, on_packet_sent::BYTES_IN_FLIGHT),
                    word(call, on_packet_sent::PACKET_NUMBER),
                    word(call, on_packet_sent::BYTES),
                ),
                call::ON_CONGESTION_EVENT_START => {
                    let moment = word(call, EVENT_IN_CALL + event::EVENT_TIME);
                    host.record(&Record::of(&words::<EVENT_WORDS>(call, EVENT_IN_CALL)));
                    let sample = words::<ARGUMENTS_WORDS>(call, ARGUMENTS_IN_CALL);
                    host.event(moment, &Sample::of(&sample));
                    let record = host.recorded_at(moment);
                    put(&mut answer[WORD_BYTES * EVENT_IN_ANSWER..], record);
                }
                _ => {
                    host.record(&Record::of(&words::<EVENT_WORDS>(call, EVENT_IN_CALL)));
                    host.finish();
                }
            }
        }
    }
}

impl Model {
    pub fn new(start: &Start) -> Self {
        Model(Host::new(start))
    }

    /// The same, one by one.
    #[inline(never)]
    pub fn send(&mut self, [moment, in_flight, number, bytes]: [u64; 4]) {
        self.0.sent(moment, in_flight, number, bytes)
    }

    #[inline(never)]
    pub fn event(&mut self, record: &Record, sample: &Sample) -> [u64; EVENT_WORDS] {
        self.0.record(record);
        self.0.event(record.event_time, sample);
        self.0.recorded_at(record.event_time)
    }

    #[inline(never)]
    pub fn finish(&mut self) {
        self.0.finish()
    }
}

/// Writes words one after the other.
fn put<const N: usize>(bytes: &mut [u8], words: [u64; N]) {
    for (bytes, word) in bytes.chunks_exact_mut(WORD_BYTES).zip(words) {
        bytes.copy_from_slice(&word.to_le_bytes());
    }
}

fn word(bytes: &[u8], at: usize) -> u64 {
    u64::from_le_bytes(bytes[WORD_BYTES * at..][..WORD_BYTES].try_into().unwrap())
}

fn words<const N: usize>(bytes: &[u8], at: usize) -> [u64; N] {
    let mut words = [0; N];
    for (word, bytes) in words
        .iter_mut()
        .zip(bytes[WORD_BYTES * at..].chunks_exact(WORD_BYTES))
    {
        *word = u64::from_le_bytes(bytes.try_into().unwrap());
    }
    words
}
