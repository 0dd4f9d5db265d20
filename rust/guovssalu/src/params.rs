use crate::Duration;

/// The parameters that the model reads, with the original's names. A call that is given one outside
/// its bounds refuses with `OutOfBounds`.
///
/// ```
/// use guovssalu::Params;
///
/// let params = Params {
///     beta: 0.2,
///     ..Params::default()
/// };
/// ```
#[derive(Clone, Copy, Debug, PartialEq)]
pub struct Params {
    /// By how much of itself a lower bound falls at the end of a round with losses: 1/1024 to
    /// 1023/1024.
    pub beta: f32,
    /// The part of the inflight that may be lost in a round: 0 to 1.
    pub loss_threshold: f32,
    /// The part of inflight_hi that is left free: 0 to 1.
    pub inflight_hi_headroom: f32,
    /// By what the bandwidth must have grown to count as growth: 1 to 8.
    pub full_bw_threshold: f32,
    /// The window's gain at the start: 1/1024 to 8.
    pub startup_cwnd_gain: f32,
    /// The pacing gain at the start: 1/1024 to 8.
    pub startup_pacing_gain: f32,
    /// After how many rounds without growth the full bandwidth counts as reached.
    pub startup_full_bw_rounds: u64,
    /// After how many rounds with a queue the full bandwidth counts as reached. 0 disables nothing:
    /// it is reached in the first such round, as in the original.
    pub max_startup_queue_rounds: u64,
    /// How old the smallest round trip may become: up to 2^36 ns.
    pub probe_rtt_period: Duration,
    /// How long the cycle waits between two probes, less 500 µs: up to 2^36 ns.
    pub probe_bw_probe_base_duration: Duration,
    /// Whether rounds limited by the application don't count as rounds without growth.
    pub ignore_app_limited_for_no_bandwidth_growth: bool,
}

impl Default for Params {
    /// The original's own.
    fn default() -> Self {
        Params {
            beta: 0.3,
            loss_threshold: 0.015,
            inflight_hi_headroom: 0.15,
            full_bw_threshold: 1.25,
            startup_cwnd_gain: 2.0,
            startup_pacing_gain: 2.773,
            startup_full_bw_rounds: 3,
            max_startup_queue_rounds: 0,
            probe_rtt_period: Duration::from_secs(10),
            probe_bw_probe_base_duration: Duration::from_secs(2),
            ignore_app_limited_for_no_bandwidth_growth: true,
        }
    }
}
