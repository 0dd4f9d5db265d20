//! The generator and the values that cases are made of.

use std::collections::HashSet;
use std::hash::Hash;

const SEED: u64 = 0x6775_6f76_7373_616c;

/// splitmix64. Every list has its own stream, so that a change to one list
/// leaves the others as they are.
pub struct Random(u64);

impl Random {
    pub fn new(stream: u64) -> Self {
        let mut seeds = Random(SEED ^ stream);
        Random(seeds.next())
    }

    pub fn next(&mut self) -> u64 {
        self.0 = self.0.wrapping_add(0x9e37_79b9_7f4a_7c15);
        let mut z = self.0;
        z = (z ^ (z >> 30)).wrapping_mul(0xbf58_476d_1ce4_e5b9);
        z = (z ^ (z >> 27)).wrapping_mul(0x94d0_49bb_1331_11eb);
        z ^ (z >> 31)
    }

    /// Below `end`, which is not 0.
    pub fn below(&mut self, end: u64) -> u64 {
        ((self.next() as u128 * end as u128) >> 64) as u64
    }

    /// A number of 1 to `most` bits, each length alike.
    pub fn of_length(&mut self, most: u64) -> u64 {
        let length = 1 + self.below(most);
        (self.next() >> (64 - length)) | (1 << (length - 1))
    }

    pub fn pick<T: Copy>(&mut self, from: &[T]) -> T {
        from[self.below(from.len() as u64) as usize]
    }

    pub fn one_in(&mut self, end: u64) -> bool {
        self.below(end) == 0
    }

    /// The bits of an f32 in the gains' domain, 1/1024 to 8.
    pub fn gain(&mut self) -> u32 {
        let least = bits(1.0 / 1024.0) as u64;
        let most = bits(8.0) as u64;
        (least + self.below(most - least + 1)) as u32
    }
}

/// Values in the order of their first coming, each once.
pub struct Set<T> {
    pub all: Vec<T>,
    seen: HashSet<T>,
}

impl<T: Copy + Eq + Hash> Set<T> {
    pub fn new() -> Self {
        Set {
            all: Vec::new(),
            seen: HashSet::new(),
        }
    }

    /// Whether the value is new.
    pub fn add(&mut self, value: T) -> bool {
        let new = self.seen.insert(value);
        if new {
            self.all.push(value);
        }
        new
    }
}

/// Whole numbers for a conversion that keeps `width` significant bits: around
/// each power of two, and the ties past it, in the middle and before the next.
pub fn whole(width: u32) -> Set<u64> {
    let mut set = Set::new();
    for n in [0, 1, 2, 3] {
        set.add(n);
    }
    for at in [1 << 24, 1 << 53] {
        for n in at - 2..=at + 3 {
            set.add(n);
        }
    }
    for below in 0..4 {
        set.add(u64::MAX - below);
    }
    for power in 0..64 {
        let at = 1u64 << power;
        for n in [at - 1, at, at + 1] {
            set.add(n);
        }
        if power < width {
            continue;
        }
        // Half of the last kept place.
        let half = 1u64 << (power - width);
        let middle = at + (at >> 1);
        let ties = [
            at + half,
            at + 3 * half,
            middle - half,
            middle + half,
            at + (at - half),
        ];
        for tie in ties {
            for n in [tie - 1, tie, tie + 1] {
                set.add(n);
            }
        }
    }
    set
}

pub fn bits(number: f32) -> u32 {
    number.to_bits()
}

/// Gains, as bits: limits, the model's own values, and what isn't one.
pub const GAINS: [u32; 36] = [
    0x0000_0000, // 0
    0x8000_0000, // -0
    0x0000_0001, // the smallest above 0
    0x007f_ffff, // the largest subnormal
    0x0080_0000, // the smallest normal
    0x3a7f_ffff, // just below 1/1024
    0x3a80_0000, // 1/1024
    0x3a80_0001, // just above
    0x3c75_c28f, // 0.015
    0x3e19_999a, // 0.15
    0x3e99_999a, // 0.3
    0x3eaa_aaab, // 1/3
    0x3f00_0000, // 0.5
    0x3f2a_aaab, // 2/3
    0x3f33_3333, // 1 - 0.3
    0x3f66_6666, // 0.9
    0x3f7f_c000, // 1023/1024
    0x3f7f_ffff, // just below 1
    0x3f80_0000, // 1
    0x3f80_0001, // just above
    0x3fa0_0000, // 1.25
    0x3fc0_0000, // 1.5
    0x4031_78d5, // 2.773
    0x4038_a3d7, // 2.885
    0x40ff_ffff, // just below 8
    0x4100_0000, // 8
    0x4100_0001, // just above
    0x7f7f_ffff, // the largest finite
    0x7f80_0000, // infinity
    0xff80_0000, // -infinity
    0x7fc0_0000, // NaN
    0xffc0_0000, // NaN, negative
    0x7f80_0001, // NaN, signalling
    0xffbf_ffff, // NaN, signalling, negative
    0xbf80_0000, // -1
    0xbf33_3333, // -0.7
];
