//! The bounds of document 01, "Replies and bounds", and their kinds, which document 02 tells apart:
//! "Which number was out of range".

// "Bounds, inclusive: byte counts 2^40"
pub const BYTES: u64 = 1 << 40;
// "totals, an event's bytes acked and lost, bytes lost and delivered in the round, and moments
// 2^62"
pub const TOTAL: u64 = 1 << 62;
pub const MOMENT: u64 = 1 << 62;
// "lengths of time 2^36 ns (the stored probe wait 500,000 ns more)"
pub const LENGTH: u64 = 1 << 36;
pub const WAIT: u64 = LENGTH + 500_000;
// "bandwidth 2^40 bits per second; probe_up_rounds 30"
pub const BANDWIDTH: u64 = 1 << 40;
pub const ROUNDS: u64 = 30;
// "gains 1/1024 to 8": their patterns.
pub const LEAST_GAIN: u32 = 0x3a80_0000;
pub const MOST_GAIN: u32 = 0x4100_0000;

/// The kinds in document 02's order, each by its number: "window, any other byte count, bandwidth,
/// length of time, total, probe rounds, gain, list length, or moment". A kind goes by the bound that was
/// passed: an event's bytes acked and lost are bounded as totals are.
#[derive(Clone, Copy, PartialEq, Debug)]
pub enum Bound {
    Window = 1,
    Bytes,
    Bandwidth,
    Length,
    Total,
    Rounds,
    Gain,
    /// The length of a list or of bytes, and the form of a word.
    Form,
    Moment,
}

impl Bound {
    /// The first kind and the last.
    pub const NUMBERS: std::ops::RangeInclusive<u64> = 1..=9;

    /// The most that a number of this kind may be; a gain and a form are bounded otherwise.
    pub fn most(self) -> u64 {
        match self {
            Bound::Window | Bound::Bytes => BYTES,
            Bound::Bandwidth => BANDWIDTH,
            Bound::Length => LENGTH,
            Bound::Total => TOTAL,
            Bound::Rounds => ROUNDS,
            Bound::Moment => MOMENT,
            Bound::Gain | Bound::Form => u64::MAX,
        }
    }
}
