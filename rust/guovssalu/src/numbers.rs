use crate::fault::Asked;
use crate::foreign;
use crate::table;
use crate::table::slope;
use crate::words;
use crate::Refusal;

/// The `f32` nearest to n, a tie to the one whose last digit is even: `n as f32`.
pub fn u64_to_f32(n: u64) -> f32 {
    f32::from_bits(foreign::u64_to_f32(n))
}

/// The `f64` nearest to n, a tie to the one whose last digit is even: `n as f64`.
pub fn u64_to_f64(n: u64) -> f64 {
    f64::from_bits(foreign::u64_to_f64(n))
}

/// x without its fraction; 0 for a NaN or a negative, 2^64 - 1 for what is too large: `x as u64`.
pub fn f32_to_u64(x: f32) -> u64 {
    foreign::f32_to_u64(x.to_bits())
}

/// x to the nearest whole number, a half away from zero; 0 for a NaN or a negative, 2^64 - 1 for what
/// is too large: `x.round() as u64`.
pub fn f64_round_to_u64(x: f64) -> u64 {
    foreign::f64_round_to_u64(x.to_bits())
}

/// n as an `f32`, times the gain, without its fraction: `(n as f32 * gain) as u64`.
pub fn scale(n: u64, gain: f32) -> u64 {
    foreign::scale(n, gain.to_bits())
}

/// The slope of the probing cycle: the next probe_up_rounds and probe_up_bytes, of the present rounds
/// and a window.
///
/// # Errors
///
/// `OutOfBounds` for rounds over 30; `BadArgument` for a window above 2^40, 2.1 at 2.
pub fn raise_inflight_high_slope(rounds: u64, window: u64) -> Result<(u64, u64), Refusal> {
    let mut out = [0; table::SLOPE_BYTES];
    let reply = foreign::raise_inflight_high_slope(rounds, window, &mut out);
    Refusal::of(reply, Asked::Slope)?;
    let word = |at: usize| words::get(&out, at);
    Ok((word(slope::PROBE_UP_ROUNDS), word(slope::PROBE_UP_BYTES)))
}
