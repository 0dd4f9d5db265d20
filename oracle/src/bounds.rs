//! The bounds of document 01, inclusive.

pub const BYTES: u64 = 1 << 40;
pub const BANDWIDTH: u64 = 1 << 40;
pub const TOTAL: u64 = 1 << 62;
pub const MOMENT: u64 = 1 << 62;
pub const LENGTH: u64 = 1 << 36;
pub const UP_ROUNDS: u64 = 30;
pub const LEAST_GAIN: f32 = 1.0 / 1024.0;
pub const MOST_GAIN: f32 = 8.0;
pub const MOST_BETA: f32 = 1023.0 / 1024.0;

/// Whether it is a gain within its bounds; a NaN isn't.
pub fn gain(gain: f32) -> bool {
    (LEAST_GAIN..=MOST_GAIN).contains(&gain)
}
