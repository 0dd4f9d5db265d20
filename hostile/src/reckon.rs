//! What the original's arithmetic gives, written with Rust's own casts and lengths of time
//! (bandwidth.rs, and the expressions of network_model.rs and rtt.rs).

use std::time::Duration;

/// The f32 product of a number of bytes and a gain, cut to whole bytes.
pub fn scale(n: u64, gain: f32) -> u64 {
    (n as f32 * gain) as u64
}

/// `Bandwidth * f32`.
pub fn bandwidth_mul(bandwidth: u64, gain: f32) -> u64 {
    (bandwidth as f64 * gain as f64).round() as u64
}

/// `Bandwidth::to_bytes_per_period`.
pub fn bytes_per_period(bandwidth: u64, nanos: u64) -> u64 {
    if bandwidth == u64::MAX {
        return if nanos == 0 { 0 } else { u64::MAX };
    }
    let bytes = bandwidth as u128 * nanos as u128 / 8_000_000_000;
    bytes.min(u64::MAX as u128) as u64
}

/// `smoothed_rtt` after an adjusted sample: seven eighths of it, and an eighth of the sample, each a
/// `Duration` and so in whole nanoseconds.
pub fn smoothed(smoothed: u64, adjusted: u64) -> u64 {
    nanos(Duration::from_nanos(smoothed) * 7 / 8 + Duration::from_nanos(adjusted) / 8)
}

/// `rttvar` after an adjusted sample, with the smoothed one before it: three quarters, and a quarter of
/// how far the two are apart.
pub fn variation(variation: u64, smoothed: u64, adjusted: u64) -> u64 {
    let apart = Duration::from_nanos(smoothed.abs_diff(adjusted));
    nanos(Duration::from_nanos(variation) * 3 / 4 + apart / 4)
}

/// The nanoseconds of a length that has fewer than 2^64.
fn nanos(length: Duration) -> u64 {
    length.as_nanos() as u64
}
