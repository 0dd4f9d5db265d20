//! Numbers and patterns to hand in: within a bound, and hostile to it.

use crate::dice::Dice;

const MAX: u64 = u64::MAX;

/// Numbers at which something turns somewhere.
const TURNS: [u64; 29] = [
    0,
    1,
    2,
    3,
    4,
    5,
    30,
    31,
    32,
    64,
    255,
    1_299,
    1_300,
    500_000,
    (1 << 24) + 1,
    (1 << 31) - 1,
    1 << 32,
    1 << 36,
    (1 << 36) + 1,
    (1 << 36) + 500_000,
    (1 << 36) + 500_001,
    1 << 40,
    (1 << 40) + 1,
    1 << 62,
    (1 << 62) + 1,
    1 << 63,
    MAX - 3,
    MAX - 1,
    MAX,
];

/// Patterns of an f32 at which something turns: zeros, subnormals, ones around 1/1024, 1023/1024, 1
/// and 8, infinities, and NaNs that are quiet, signalling and negative.
const PATTERNS: [u32; 34] = [
    0,
    0x8000_0000,
    1,
    0x007f_ffff,
    0x8000_0001,
    0x807f_ffff,
    0x0080_0000,
    0x3a7f_ffff,
    0x3a80_0000,
    0x3a80_0001,
    0xba80_0000,
    0x3f7f_bfff,
    0x3f7f_c000,
    0x3f7f_c001,
    0x3f7f_ffff,
    0x3f80_0000,
    0x3f80_0001,
    0xbf80_0000,
    0x40ff_ffff,
    0x4100_0000,
    0x4100_0001,
    0xc100_0000,
    0x7f7f_ffff,
    0xff7f_ffff,
    0x7f80_0000,
    0xff80_0000,
    0x7fc0_0000,
    0xffc0_0000,
    0x7f80_0001,
    0xff80_0001,
    0x7fff_ffff,
    0xffff_ffff,
    0x7fbf_ffff,
    0x3e99_999a,
];

/// Words that no flag has.
pub const NO_FLAGS: [u64; 9] = [2, 3, 255, 256, 257, 1 << 32, (1 << 32) + 1, 1 << 63, MAX];

/// All numbers and patterns at which something turns.
pub fn turns() -> impl Iterator<Item = u64> {
    let patterns = PATTERNS.iter().map(|&pattern| pattern as u64);
    TURNS.iter().copied().chain(patterns)
}

/// Any number, of any length in bits.
pub fn any(dice: &mut Dice) -> u64 {
    let cut = dice.below(64);
    dice.next() >> cut
}

/// A number up to the bound, often at an end.
pub fn within(dice: &mut Dice, bound: u64) -> u64 {
    match dice.below(8) {
        0 => 0,
        1 => bound,
        2 => bound.saturating_sub(1),
        3 => bound.min(1),
        4 | 5 => dice.below(10_000).min(bound),
        _ if bound == MAX => any(dice),
        _ => any(dice) % (bound + 1),
    }
}

/// A number that is hostile to the bound, or just at it.
pub fn hostile(dice: &mut Dice, bound: u64) -> u64 {
    match dice.below(8) {
        0 => bound,
        1 | 2 => bound.saturating_add(1),
        3 => MAX,
        4 => any(dice),
        _ => dice.pick(&TURNS),
    }
}

/// A pattern from the lowest to the highest, both positive, often at an end.
pub fn pattern_within(dice: &mut Dice, low: u32, high: u32) -> u32 {
    match dice.below(6) {
        0 => low,
        1 => high,
        2 if low == 0 => 0x8000_0000,
        3 => 0x3f80_0000_u32.clamp(low, high),
        _ => low + dice.below((high - low) as u64 + 1) as u32,
    }
}

/// Any pattern of an f32, often one at which something turns.
pub fn pattern(dice: &mut Dice) -> u32 {
    if dice.one_in(4) {
        dice.next() as u32
    } else {
        dice.pick(&PATTERNS)
    }
}

/// What a flag's word is when it is hostile.
pub fn flag(dice: &mut Dice) -> u64 {
    let odd = any(dice);
    dice.pick(&[
        0,
        1,
        2,
        3,
        255,
        256,
        257,
        1 << 32,
        (1 << 32) + 1,
        1 << 63,
        MAX,
        odd,
    ])
}

/// A number near one at which a conversion turns: a power of two, a tie, the ends.
pub fn turning(dice: &mut Dice) -> u64 {
    let power = 1_u64 << dice.below(64);
    let tie = power >> dice.pick(&[23, 24, 25, 52, 53, 54]);
    let near = dice.below(5).wrapping_sub(2);
    match dice.below(4) {
        0 => any(dice),
        1 => power.wrapping_add(near),
        2 => power
            .wrapping_add(tie.wrapping_mul(dice.below(8)))
            .wrapping_add(near),
        _ => hostile(dice, power),
    }
}

/// Any pattern of an f64, often one at which something turns.
pub fn double(dice: &mut Dice) -> u64 {
    let near = dice.below(5).wrapping_sub(2);
    match dice.below(4) {
        0 => dice.next(),
        1 => f64::from(f32::from_bits(pattern(dice)))
            .to_bits()
            .wrapping_add(near),
        2 => (turning(dice) as f64 + 0.5).to_bits().wrapping_add(near),
        _ => (dice.below(64) as f64 + dice.pick(&[0.0, 0.5, 0.25, -0.5]))
            .to_bits()
            .wrapping_add(near),
    }
}
