// Appended to rtt.rs: an estimator that has the words of a state, a look at them,
// and what recovery.rs does to it.

use guovssalu_sys::table::rtt_state;
use guovssalu_sys::table::RTT_STATE_WORDS;

impl RttStats {
    /// The estimator of these words. Its largest sample, which nothing here asks
    /// for, isn't among them.
    pub fn holding(words: &[u64; RTT_STATE_WORDS]) -> Self {
        let length = |at: usize| Duration::from_nanos(words[at]);
        RttStats {
            latest_rtt: length(rtt_state::LATEST_RTT),
            max_rtt: Duration::ZERO,
            smoothed_rtt: length(rtt_state::SMOOTHED_RTT),
            rttvar: length(rtt_state::RTTVAR),
            min_rtt: Minmax::new(length(rtt_state::MIN_RTT)),
            max_ack_delay: length(rtt_state::MAX_ACK_DELAY),
            has_first_rtt_sample: words[rtt_state::HAS_FIRST_RTT_SAMPLE] == 1,
        }
    }

    /// Its words.
    pub fn held(&self) -> [u64; RTT_STATE_WORDS] {
        let mut words = [0; RTT_STATE_WORDS];
        for (at, length) in [
            (rtt_state::LATEST_RTT, self.latest_rtt),
            (rtt_state::MIN_RTT, *self.min_rtt),
            (rtt_state::SMOOTHED_RTT, self.smoothed_rtt),
            (rtt_state::RTTVAR, self.rttvar),
            (rtt_state::MAX_ACK_DELAY, self.max_ack_delay),
        ] {
            words[at] = length.as_nanos() as u64;
        }
        words[rtt_state::HAS_FIRST_RTT_SAMPLE] = self.has_first_rtt_sample as u64;
        words
    }

    /// What `update_max_ack_delay` of gcongestion/recovery.rs does.
    pub fn update_max_ack_delay(&mut self, max_ack_delay: Duration) {
        self.max_ack_delay = max_ack_delay;
    }
}
