//! A fraction that doesn't fit into a number, as an interval that surely holds it.

/// An interval's ends are whole numbers of 2^-72.
pub const POINT: u32 = 72;

/// A whole number below 2^56 in parts of 2^-72.
pub fn fixed(number: u64) -> u128 {
    u128::from(number) << POINT
}

/// So many parts in decimal, rounded up, with so many digits after the point, at most 16.
pub fn decimal(parts: u128, digits: u32) -> String {
    let (unit, one) = (10_u128.pow(digits), fixed(1));
    let units = (parts % one * unit + one - 1) / one;
    let (whole, width) = (parts / one + units / unit, digits as usize);
    format!("{}.{:0width$}", whole, units % unit)
}

/// Two ends with the exact value between them, or on them.
#[derive(Clone, Copy, Debug, PartialEq, Eq)]
pub struct Interval {
    pub low: u128,
    pub high: u128,
}

impl Interval {
    /// A whole number.
    pub fn of(number: u64) -> Self {
        let end = fixed(number);
        Interval {
            low: end,
            high: end,
        }
    }

    /// The product by a fraction; the low end is rounded down and the high end up.
    pub fn times(self, over: u128, under: u128) -> Self {
        Interval {
            low: self.low * over / under,
            high: (self.high * over + under - 1) / under,
        }
    }

    /// The sum.
    pub fn plus(self, other: Interval) -> Self {
        Interval {
            low: self.low + other.low,
            high: self.high + other.high,
        }
    }

    /// The larger of it and a whole number.
    pub fn at_least(self, number: u64) -> Self {
        Interval {
            low: self.low.max(fixed(number)),
            high: self.high.max(fixed(number)),
        }
    }

    /// The smaller of it and a whole number.
    pub fn at_most(self, number: u64) -> Self {
        Interval {
            low: self.low.min(fixed(number)),
            high: self.high.min(fixed(number)),
        }
    }

    /// Its distance from a whole number.
    pub fn distance(self, number: u64) -> Self {
        let at = fixed(number);
        let (low, high) = (self.low.abs_diff(at), self.high.abs_diff(at));
        let is_inside = self.low < at && at < self.high;
        Interval {
            low: if is_inside { 0 } else { low.min(high) },
            high: low.max(high),
        }
    }

    /// How wide it is.
    pub fn width(self) -> u128 {
        self.high - self.low
    }
}

#[cfg(test)]
mod tests {
    use super::*;

    fn interval(low: u128, high: u128) -> Interval {
        Interval { low, high }
    }

    #[test]
    fn ends_are_rounded_outward() {
        assert_eq!(interval(5, 5).times(7, 8), interval(4, 5));
        assert_eq!(interval(8, 16).times(7, 8), interval(7, 14));
        assert_eq!(interval(1, 9).times(1, 4), interval(0, 3));
        assert_eq!(Interval::of(3).times(1, 2), interval(3 << 71, 3 << 71));
    }

    /// A number below, on, between and above the ends.
    #[test]
    fn distances() {
        let (one, two) = (fixed(1), fixed(2));
        assert_eq!(interval(one + 3, two).distance(1), interval(3, one));
        assert_eq!(interval(one, one + 3).distance(1), interval(0, 3));
        assert_eq!(interval(one - 2, one + 3).distance(1), interval(0, 3));
        assert_eq!(interval(one - 4, one + 3).distance(1), interval(0, 4));
        assert_eq!(interval(one - 4, one).distance(1), interval(0, 4));
        assert_eq!(interval(0, one - 4).distance(1), interval(4, one));
    }

    #[test]
    fn decimals_are_rounded_up() {
        assert_eq!(decimal(0, 6), "0.000000");
        assert_eq!(decimal(1, 6), "0.000001");
        assert_eq!(decimal(5 << (POINT - 1), 6), "2.500000");
        assert_eq!(decimal(fixed(14) - 1, 9), "14.000000000");
        assert_eq!(decimal(fixed(1 << 36) + 1, 9), "68719476736.000000001");
        assert_eq!(decimal(fixed(13) + fixed(1) / 4, 3), "13.250");
    }
}
