//! Lists of conversions, of scaling and of bandwidth: no line depends on
//! another.

use std::time::Duration;

use crate::list::List;
use crate::recovery::bandwidth::Bandwidth;
use crate::recovery::gcongestion::first_reduction;
use crate::recovery::gcongestion::without_headroom;
use crate::values::bits;
use crate::values::whole;
use crate::values::Random;
use crate::values::Set;
use crate::values::GAINS;

pub fn to_f32() -> List {
    let mut random = Random::new(1);
    let mut set = whole(24);
    for _ in 0..120 {
        set.add(random.of_length(64));
    }

    let mut list = List::new("to_f32.txt");
    for &n in &set.all {
        list.add(&[n, (n as f32).to_bits() as u64]);
    }
    list
}

pub fn to_f64() -> List {
    let mut random = Random::new(2);
    let mut set = whole(53);
    for _ in 0..40 {
        set.add(random.of_length(64));
    }
    // Numbers of 54 to 64 bits: random ones and random ties.
    for _ in 0..60 {
        let cut = 1 + random.below(11);
        let kept = random.next() >> 11 | 1 << 52;
        set.add(random.next() | 1 << 63);
        set.add(kept << cut | 1 << (cut - 1));
    }

    let mut list = List::new("to_f64.txt");
    for &n in &set.all {
        list.add(&[n, (n as f64).to_bits()]);
    }
    list
}

pub fn to_u64() -> List {
    let mut random = Random::new(3);
    let mut set = Set::new();
    for pattern in GAINS {
        set.add(pattern);
    }
    for pattern in [
        2,
        0x0040_0000,
        0x0080_0001,
        0x8000_0001,
        0x807f_ffff,
        0x8080_0000,
        0x7fff_ffff,
        0x7fbf_ffff,
        0xffc0_0001,
        0xff80_0001,
        0xffff_ffff,
        0xff7f_ffff,
    ] {
        set.add(pattern);
    }
    // Powers of two and their neighbours.
    for power in -2..=66 {
        let at = bits(2f32.powi(power));
        for pattern in [at - 1, at, at + 1] {
            set.add(pattern);
        }
    }
    for power in [-1, 0, 1, 23, 24, 62, 63, 64] {
        let at = bits(-(2f32.powi(power)));
        for pattern in [at - 1, at, at + 1] {
            set.add(pattern);
        }
    }
    // Halves, while there are any, and their neighbours.
    for power in 0..=22 {
        for half in [2f32.powi(power) + 0.5, 2f32.powi(power + 1) - 0.5] {
            for pattern in [bits(half) - 1, bits(half), bits(half) + 1] {
                set.add(pattern);
            }
        }
    }
    for _ in 0..60 {
        set.add(random.next() as u32);
    }
    // Random ones from 1/2 to past 2^64.
    for _ in 0..120 {
        let least = bits(0.5) as u64;
        let most = bits(2f32.powi(66)) as u64;
        set.add((least + random.below(most - least)) as u32);
    }

    let mut list = List::new("to_u64.txt");
    for &pattern in &set.all {
        list.add(&[pattern as u64, f32::from_bits(pattern) as u64]);
    }
    list
}

pub fn round_to_u64() -> List {
    let mut random = Random::new(4);
    let mut set = Set::new();
    for pattern in GAINS {
        let number = f32::from_bits(pattern);
        if !number.is_nan() {
            set.add((number as f64).to_bits());
        }
    }
    for pattern in [
        0x0000_0000_0000_0001, // the smallest above 0
        0x000f_ffff_ffff_ffff, // the largest subnormal
        0x0010_0000_0000_0000, // the smallest normal
        0x8000_0000_0000_0001,
        0x7fef_ffff_ffff_ffff, // the largest finite
        0xffef_ffff_ffff_ffff,
        0x7ff8_0000_0000_0000, // NaN, then its other kinds
        0xfff8_0000_0000_0000,
        0x7ff0_0000_0000_0001,
        0xfff0_0000_0000_0001,
        0x7ff7_ffff_ffff_ffff,
        0x7fff_ffff_ffff_ffff,
        0xffff_ffff_ffff_ffff,
    ] {
        set.add(pattern);
    }
    for number in [
        0.49999999999999994,
        4503599627370495.5,
        4503599627370496.0,
        4503599627370494.5,
        4503599627370497.0,
        9007199254740991.0,
        9007199254740992.0,
        9007199254740994.0,
        -0.25,
        -0.49999999999999994,
        -0.5,
        -0.5000000000000001,
        -0.75,
        -1.5,
        -2.5,
        -1e300,
        1e300,
    ] {
        set.add(f64::to_bits(number));
    }
    // Powers of two and their neighbours.
    for power in -2..=66 {
        let at = 2f64.powi(power).to_bits();
        for pattern in [at - 1, at, at + 1] {
            set.add(pattern);
        }
    }
    // Halves, while there are any, and their neighbours.
    for n in 0..=8 {
        let half = (n as f64 + 0.5).to_bits();
        for pattern in [half - 1, half, half + 1] {
            set.add(pattern);
        }
    }
    for power in 3..=51 {
        for half in [2f64.powi(power) + 0.5, 2f64.powi(power + 1) - 0.5] {
            let half = half.to_bits();
            for pattern in [half - 1, half, half + 1] {
                set.add(pattern);
            }
        }
    }
    for _ in 0..30 {
        set.add(random.next());
    }
    // Random ones from 1/4 to past 2^64, and random halves.
    for _ in 0..60 {
        let least = 0.25f64.to_bits();
        let most = 2f64.powi(66).to_bits();
        set.add(least + random.below(most - least));
        set.add((random.of_length(51) as f64 + 0.5).to_bits());
    }

    let mut list = List::new("round_to_u64.txt");
    for &pattern in &set.all {
        list.add(&[pattern, f64::from_bits(pattern).round() as u64]);
    }
    list
}

pub fn scale() -> List {
    let mut random = Random::new(5);
    let mut set = Set::new();
    for n in [0, 1, 10, 1300, 1301, 910, 637, 445, 26_000, 14_744_309] {
        set.add((n, bits(0.7)));
    }
    for n in [
        0,
        1,
        1300,
        1301,
        (1 << 24) - 1,
        1 << 24,
        16_777_217,
        16_777_219,
        16_777_223,
        1 << 40,
        u64::MAX,
    ] {
        for gain in GAINS {
            set.add((n, gain));
        }
    }
    // 1 - beta, as the model has it.
    for beta in [
        0x3a80_0000,
        0x3dcc_cccd,
        0x3e4c_cccd,
        0x3e99_999a,
        0x3f00_0000,
        0x3f2a_aaab,
        0x3f33_3333,
        0x3f4c_cccd,
        0x3f66_6666,
        0x3f7f_c000,
    ] {
        let gain = bits(1.0 - f32::from_bits(beta));
        for n in [1300, 14_744_309, 16_777_215, 16_777_221] {
            set.add((n, gain));
        }
    }
    // Within the premise of the promise on scale: at most 2^24, from 0 to 1.
    for _ in 0..100 {
        let n = random.below((1 << 24) + 1);
        set.add((n, random.below(bits(1.0) as u64 + 1) as u32));
        set.add((
            random.of_length(24),
            bits(1.0) - random.below(1 << 24) as u32,
        ));
    }
    // Products beside a whole number: the nearest gain to a quotient.
    for _ in 0..60 {
        let n = 1 + random.of_length(24);
        let whole = random.below(n + 1);
        let gain = bits(whole as f32 / n as f32);
        set.add((n, gain));
        set.add((n, gain.saturating_sub(1)));
    }
    for _ in 0..60 {
        set.add((random.of_length(64), random.gain()));
    }
    for _ in 0..20 {
        set.add((random.next(), random.next() as u32));
    }

    let mut list = List::new("scale.txt");
    let mut reached = 0;
    for &(n, pattern) in &set.all {
        let gain = f32::from_bits(pattern);
        let scaled = (n as usize as f32 * gain) as usize as u64;

        // The model is asked too: for what is left of n without the scaled
        // number and, where some beta gives this gain, for a reduction.
        let left = without_headroom(n as usize, gain) as u64;
        assert_eq!(left, n.saturating_sub(scaled));
        let beta = 1.0 - gain;
        if gain.is_nan() || bits(1.0 - beta) == pattern {
            assert_eq!(scaled, first_reduction(n as usize, beta) as u64);
            reached += 1;
        }
        list.add(&[n, pattern as u64, scaled]);
    }
    eprintln!("scale: {reached} lines asked of the model as a reduction too");
    list
}

/// The exact product, as its floor and its nearest whole number (a half away
/// from zero): nothing for a gain that isn't finite, positive and below 2^24.
fn exact(n: u64, pattern: u32) -> Option<(u128, u128)> {
    let exponent = pattern >> 23;
    if pattern >> 31 == 1 || exponent == 0 || exponent >= 127 + 24 {
        return None;
    }
    let product = n as u128 * (pattern & 0x7f_ffff | 0x80_0000) as u128;
    let places = 150 - exponent;
    if places >= 100 {
        return Some((0, 0));
    }
    let half = if places == 0 { 0 } else { 1 << (places - 1) };
    Some((product >> places, (product + half) >> places))
}

fn times(n: u64, pattern: u32) -> u64 {
    let product = Bandwidth::from_bits_per_second(n) * f32::from_bits(pattern);
    product.to_bits_per_second()
}

pub fn bandwidth_mul() -> List {
    let mut random = Random::new(6);
    let mut set = Set::new();
    set.add((771_751_941, 0x3f33_3333));
    set.add((778_567_555, 0x4031_78d5));
    for n in [
        0,
        1,
        3,
        8_000_000,
        (1 << 40) - 1,
        1 << 40,
        (1 << 53) + 1,
        u64::MAX - 1,
        u64::MAX,
    ] {
        for gain in GAINS {
            set.add((n, gain));
        }
    }
    // Halves, which go away from zero.
    for n in [1, 3, 5, 7, 9, 999_999, (1 << 40) - 1, (1 << 40) - 3] {
        for gain in [0.5, 1.5, 2.5, 0.25, 0.75, 0.125, 3.0 / 1024.0] {
            set.add((n, bits(gain)));
        }
    }
    // One rounding too many: the nearest of the exact product is another.
    let mut found = 0;
    while found < 60 {
        // A third each: any length, long numbers, the gain of beta 0.3.
        let (n, gain) = match found % 3 {
            0 => (random.of_length(40), random.gain()),
            1 => (random.next() >> 24, random.gain()),
            _ => (random.of_length(40), bits(0.7)),
        };
        let (_, nearest) = exact(n, gain).unwrap();
        if nearest != times(n, gain) as u128 && set.add((n, gain)) {
            found += 1;
        }
    }
    for _ in 0..130 {
        set.add((random.below((1 << 40) + 1), random.gain()));
    }
    for _ in 0..40 {
        set.add((random.of_length(64), random.gain()));
    }
    for _ in 0..20 {
        set.add((random.next(), random.next() as u32));
    }

    let mut list = List::new("bandwidth_mul.txt");
    let (mut floor_differs, mut nearest_differs, mut inside) = (0, 0, 0);
    for &(n, pattern) in &set.all {
        let product = times(n, pattern);
        if let Some((floor, nearest)) = exact(n, pattern) {
            let domain = bits(1.0 / 1024.0)..=bits(8.0);
            floor_differs += (floor != product as u128) as u32;
            if nearest != product as u128 {
                nearest_differs += 1;
                inside += (n <= 1 << 40 && domain.contains(&pattern)) as u32;
            }
        }
        list.add(&[n, pattern as u64, product]);
    }
    eprintln!(
        "bandwidth_mul: the exact floor differs on {floor_differs} lines, \
         the exact nearest on {nearest_differs}, {inside} of these within \
         the domain"
    );
    list
}

pub fn bandwidth_period() -> List {
    const STEP: u128 = 8_000_000_000;
    let mut random = Random::new(7);
    let mut set = Set::new();
    for nanos in [0, 1, 1 << 36, u64::MAX] {
        for n in [0, 1, 8, 1 << 40, 1 << 43, 1 << 63, u64::MAX - 1, u64::MAX] {
            set.add((n, nanos));
        }
    }
    // Products at a multiple of 8,000,000,000, and as near to it as can be.
    for n in [
        1,
        2,
        5,
        8,
        1000,
        1_000_000_007,
        8_000_000_000,
        1 << 40,
        1 << 43,
    ] {
        for steps in [1u128, 2, 3, 1000, 1 << 30, 1 << 36] {
            let nanos = (steps * STEP).div_ceil(n);
            for nanos in [nanos - 1, nanos, nanos + 1] {
                if nanos <= 1 << 36 {
                    set.add((n as u64, nanos as u64));
                }
            }
        }
    }
    for _ in 0..40 {
        let n = 1 + random.of_length(43);
        let most = (n as u128) << 36;
        let steps = 1 + random.below((most / STEP) as u64 + 1);
        let nanos = (steps as u128 * STEP).div_ceil(n as u128) as u64;
        set.add((n, nanos - 1));
        set.add((n, nanos));
    }
    // The domain's corner, and beyond.
    for n in [(1 << 43) - 1, 1 << 43, (1 << 43) + 1] {
        for nanos in [(1 << 36) - 1, 1 << 36, (1 << 36) + 1] {
            set.add((n, nanos));
        }
    }
    // Products at 2^64, where 64 bits end, and answers at 2^64, where they
    // saturate.
    for limit in [1 << 64, STEP << 64] {
        for n in [
            1 << 28,
            1_000_000_007,
            (1 << 40) - 1,
            1 << 40,
            1 << 43,
            0x1234_5678_9abc_def0,
            u64::MAX - 1,
        ] {
            let nanos = u128::div_ceil(limit, n as u128);
            for nanos in [nanos - 2, nanos - 1, nanos, nanos + 1] {
                if let Ok(nanos) = u64::try_from(nanos) {
                    set.add((n, nanos));
                }
            }
        }
    }
    for _ in 0..100 {
        set.add((random.of_length(43), random.of_length(36)));
    }
    for _ in 0..60 {
        set.add((random.of_length(64), random.of_length(64)));
        set.add((random.next(), random.next()));
    }

    let mut list = List::new("bandwidth_period.txt");
    let (mut long, mut saturated) = (0, 0);
    for &(n, nanos) in &set.all {
        let bytes =
            Bandwidth::from_bits_per_second(n).to_bytes_per_period(Duration::from_nanos(nanos));
        long += n.checked_mul(nanos).is_none() as u32;
        saturated += (n < u64::MAX && bytes == u64::MAX) as u32;
        list.add(&[n, nanos, bytes]);
    }
    eprintln!(
        "bandwidth_period: {long} products past 64 bits, {saturated} answers \
         saturated"
    );
    list
}

pub fn bandwidth_order() -> List {
    let mut random = Random::new(8);
    let mut set = Set::new();
    let ends = [
        0,
        1,
        8,
        (1 << 40) - 1,
        1 << 40,
        1 << 63,
        u64::MAX - 1,
        u64::MAX,
    ];
    for a in ends {
        for b in ends {
            set.add((a, b));
        }
    }
    for power in [7, 8, 16, 24, 31, 32, 33, 53, 62, 63] {
        let at = 1u64 << power;
        for (a, b) in [(at, at), (at - 1, at), (at, at - 1), (at + 1, at)] {
            set.add((a, b));
        }
    }
    for _ in 0..60 {
        let (a, b) = (random.of_length(40), random.of_length(40));
        let near = a + random.below(3);
        set.add((a, b));
        set.add((a, near));
        set.add((near, a));
    }
    // The halves of the number compared the other way.
    for _ in 0..25 {
        let (a, b) = (random.next(), random.next());
        set.add((a, b));
        set.add((a, a.rotate_left(32)));
    }

    let mut list = List::new("bandwidth_order.txt");
    for &(a, b) in &set.all {
        let [first, second] = [a, b].map(Bandwidth::from_bits_per_second);
        list.add(&[
            a,
            b,
            (first < second) as u64,
            first.max(second).to_bits_per_second(),
            first.min(second).to_bits_per_second(),
        ]);
    }
    list
}
