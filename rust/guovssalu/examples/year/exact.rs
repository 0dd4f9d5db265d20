//! The exact value of inflight_lo: the rules of crates/drift/specs/Exact.antt on fractions, each
//! kept as an interval that surely holds it.

use crate::interval::decimal;
use crate::interval::fixed;
use crate::interval::Interval;

/// b, the f32 1 - beta at beta 0.3, in parts of 2^24.
pub const PARTS: u128 = 11_744_051;

/// How many of these parts are 1.
pub const WHOLE: u128 = 1 << 24;

/// No number of bytes that the rules reach is as large; a larger one is taken for it, so that no
/// product leaves 128 bits.
const LARGEST: u64 = 1 << 32;

/// The exact value, and how many reductions were made since it was last unset.
#[derive(Clone, Copy, Debug, PartialEq, Eq)]
pub enum Exact {
    Unset,
    Set(Interval, u64),
}

impl Exact {
    /// Unset, it takes the prior window; then it is cut, but not below the latest inflight. Answers
    /// whether that held it.
    pub fn reduce(&mut self, prior_cwnd: u64, inflight_latest: u64) -> bool {
        let (start, reductions) = match *self {
            Exact::Unset => (Interval::of(prior_cwnd.min(LARGEST)), 0),
            Exact::Set(interval, reductions) => (interval, reductions),
        };
        let (cut, latest) = (start.times(PARTS, WHOLE), inflight_latest.min(LARGEST));
        *self = Exact::Set(cut.at_least(latest), reductions + 1);
        cut.high < fixed(latest)
    }

    /// Holds it by a cap; unset, it stays so.
    pub fn cap(&mut self, bytes: u64) {
        if let Exact::Set(interval, _) = self {
            *interval = interval.at_most(bytes.min(LARGEST));
        }
    }

    /// Unsets it.
    pub fn clear(&mut self) {
        *self = Exact::Unset;
    }

    /// How far a stored inflight_lo is from it at most: nothing where both are unset, and an error
    /// where one is.
    pub fn difference(&self, stored: u64) -> Result<Option<Difference>, String> {
        match *self {
            Exact::Unset if stored == u64::MAX => Ok(None),
            Exact::Unset => Err(format!("inflight_lo is {}, the exact one unset", stored)),
            Exact::Set(..) if stored == u64::MAX => {
                Err("inflight_lo is unset, the exact one set".to_string())
            }
            Exact::Set(interval, reductions) => Ok(Some(Difference {
                parts: interval.distance(stored.min(LARGEST)).high,
                width: interval.width(),
                reductions,
            })),
        }
    }
}

/// An upper bound of how far the stored number is from the exact one.
#[derive(Clone, Copy, Debug, Default, PartialEq, Eq)]
pub struct Difference {
    /// In parts of 2^-72 bytes.
    pub parts: u128,
    /// How wide the interval is, in the same parts.
    pub width: u128,
    /// The reductions since the number was last unset.
    pub reductions: u64,
}

impl Difference {
    /// Whether it is less than k bytes and less than 1 / (1 - b) bytes, as the theorem says.
    pub fn is_inside(&self) -> bool {
        let by_count = self.parts < fixed(self.reductions);
        let by_rate = self.parts * (WHOLE - PARTS) < WHOLE * fixed(1);
        by_count && by_rate
    }

    /// It in bytes with six digits after the point, rounded up.
    pub fn bytes(&self) -> String {
        decimal(self.parts, 6)
    }
}

#[cfg(test)]
mod tests {
    use super::*;

    /// The original's cut: one f32 product, the fraction cut off.
    fn cut(bytes: u64) -> u64 {
        (bytes as f32 * (1.0 - 0.3f32)) as u64
    }

    /// The ends of its interval.
    fn ends(exact: &Exact) -> (u128, u128) {
        match exact {
            Exact::Unset => panic!("unset"),
            Exact::Set(interval, _) => (interval.low, interval.high),
        }
    }

    /// After how many reductions a cut is noticed to leave the bounds, if it is in `most`.
    fn noticed(window: u64, most: u64, cut: impl Fn(u64) -> u64) -> Option<u64> {
        let mut exact = Exact::Unset;
        let mut stored = window;
        (1..=most).find(|_| {
            exact.reduce(window, 0);
            stored = cut(stored);
            !exact.difference(stored).unwrap().unwrap().is_inside()
        })
    }

    #[test]
    fn b_is_the_float() {
        assert_eq!(0.3f32.to_bits(), 0x3e99_999a);
        assert_eq!((1.0 - 0.3f32) as f64 * WHOLE as f64, PARTS as f64);
    }

    /// 1300 cut five times: 1300 parts^k / 2^(24 k) is known in whole numbers, and lies between.
    #[test]
    fn the_interval_holds_the_fraction() {
        let mut exact = Exact::Unset;
        let mut stored = 1300;
        let mut numerator: u128 = 1300;
        for (k, expected) in (1..).zip([910, 637, 445, 311, 217]) {
            exact.reduce(1300, 0);
            stored = cut(stored);
            numerator *= PARTS;
            assert_eq!(stored, expected);

            let (low, high) = ends(&exact);
            if k <= 3 {
                assert_eq!((low, low), (numerator << (72 - 24 * k), high));
            } else {
                let rest = 24 * k - 72;
                assert!(low <= numerator >> rest, "{}", k);
                assert!(high > numerator >> rest, "{}", k);
                assert!(high - low <= k as u128);
            }
            assert!(exact.difference(stored).unwrap().unwrap().is_inside());
        }
    }

    /// However many reductions, the interval stays narrower than 4 parts of 2^-72.
    #[test]
    fn the_interval_stays_narrow() {
        let mut exact = Exact::Unset;
        for k in 0..10_000 {
            exact.reduce(16_777_216, 0);
            if k % 31 == 30 {
                exact.reduce(0, 9_000_001 + 2 * k);
            }
            let (low, high) = ends(&exact);
            assert!(low <= high && high - low <= 4);
        }
    }

    #[test]
    fn caps_samples_and_clears_are_exact() {
        let mut exact = Exact::Unset;
        exact.cap(7);
        assert_eq!(exact, Exact::Unset);
        exact.reduce(16_777_216, 13_000_001);
        assert_eq!(exact, Exact::Set(Interval::of(13_000_001), 1));
        exact.cap(u64::MAX);
        assert_eq!(exact, Exact::Set(Interval::of(13_000_001), 1));
        exact.cap(999);
        assert_eq!(exact, Exact::Set(Interval::of(999), 1));
        assert!(exact.difference(u64::MAX).is_err());
        exact.clear();
        assert_eq!(exact.difference(u64::MAX), Ok(None));
        assert!(exact.difference(0).is_err());
    }

    #[test]
    fn the_right_cut_stays_inside() {
        for window in [0, 1, 1300, 65_536, 5_000_011, 14_744_309, 16_777_216] {
            assert_eq!(noticed(window, 200, cut), None, "{}", window);
        }
    }

    /// A byte too few at each cut, two too many (one is the ceiling, which the bound allows), no cut
    /// at all, a cut to whole packets.
    #[test]
    fn a_wrong_cut_is_noticed() {
        assert!(noticed(14_744_309, 9, |n| cut(n) - 1).is_some());
        assert!(noticed(14_744_309, 9, |n| cut(n) + 2).is_some());
        assert!(noticed(1300, 9, |n| n).is_some());
        assert!(noticed(1_000_000, 9, |n| cut(n) / 1300 * 1300).is_some());
    }

    /// Above the premise the bound does not hold, and this is noticed (docs/DRIFT.md).
    #[test]
    fn a_window_above_the_premise_is_noticed() {
        assert_eq!(cut(16_777_223), 11_744_057);
        assert_eq!(noticed(16_777_223, 1, cut), Some(1));
    }
}
