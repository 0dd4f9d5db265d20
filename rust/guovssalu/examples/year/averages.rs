//! The exact averages of round trips: the rules of crates/rtt/specs/Exact.antt on fractions, each kept as
//! an interval that surely holds it. Nothing here is taken from the port.

use crate::interval::decimal;
use crate::interval::fixed;
use crate::interval::Interval;

/// The longest length that a call takes.
pub const MOST_LENGTH: u64 = 1 << 36;

/// What the theorem says, in nanoseconds: the stored average is never above the exact one, and less than
/// this below it.
const SMOOTHED_BELOW: u64 = 14;

/// The stored variation is less than this below the exact one, and less than this above it.
const VARIATION_BELOW: u64 = 20;
const VARIATION_ABOVE: u64 = 14;

/// A sample, the delay that the peer reports with it, and whether the handshake is confirmed.
#[derive(Clone, Copy, Debug, PartialEq, Eq)]
pub struct Trip {
    pub latest_rtt: u64,
    pub ack_delay: u64,
    pub handshake_confirmed: bool,
}

/// The exact averages after some samples, and the least of them.
#[derive(Clone, Copy, Debug, PartialEq, Eq)]
pub struct Averages {
    pub latest: u64,
    pub minimum: u64,
    /// How many samples came after the first.
    pub later: u64,
    smoothed: Interval,
    variation: Interval,
}

impl Averages {
    /// The first sample, which is taken whole.
    pub fn first(latest: u64) -> Self {
        let smoothed = Interval::of(latest);
        Averages {
            latest,
            minimum: latest,
            later: 0,
            smoothed,
            variation: smoothed.times(1, 2),
        }
    }

    /// Another sample, where the peer's largest delay is the limit. Answers whether its delay was taken off.
    pub fn next(&mut self, trip: &Trip, limit: u64) -> bool {
        self.latest = trip.latest_rtt;
        self.minimum = self.minimum.min(trip.latest_rtt);
        let delay = match trip.handshake_confirmed {
            true => trip.ack_delay.min(limit),
            false => trip.ack_delay,
        };
        let adjusted = match trip.latest_rtt >= self.minimum + delay {
            true => trip.latest_rtt - delay,
            false => trip.latest_rtt,
        };
        self.add(adjusted);
        adjusted < trip.latest_rtt
    }

    /// Another sample, adjusted: the variation moves by the average before it, then the average.
    fn add(&mut self, adjusted: u64) {
        let deviation = self.smoothed.distance(adjusted).times(1, 4);
        self.variation = self.variation.times(3, 4).plus(deviation);
        let part = Interval::of(adjusted).times(1, 8);
        self.smoothed = self.smoothed.times(7, 8).plus(part);
        self.later += 1;
    }

    /// The average, rounded down.
    pub fn whole(&self) -> u64 {
        (self.smoothed.low / fixed(1)) as u64
    }

    /// Average and variation in decimal, rounded up.
    pub fn decimals(&self) -> [String; 2] {
        [self.smoothed, self.variation].map(|exact| decimal(exact.high, 6))
    }

    /// How far stored averages are from these; an error where they are outside the bounds.
    pub fn gaps(&self, smoothed: u64, variation: u64) -> Result<Gaps, String> {
        let (exact, exact_variation) = (self.smoothed, self.variation);
        let is_inside = smoothed.max(variation) <= MOST_LENGTH
            && fixed(smoothed) <= exact.low
            && exact.high < fixed(smoothed + SMOOTHED_BELOW)
            && exact_variation.high < fixed(variation + VARIATION_BELOW)
            && fixed(variation) < exact_variation.low + fixed(VARIATION_ABOVE);
        if !is_inside {
            return Err(format!(
                "rtt is {}, exactly {} ns, and rttvar {}, exactly {} ns, n = {}",
                smoothed,
                decimal(exact.high, 9),
                variation,
                decimal(exact_variation.high, 9),
                self.later
            ));
        }
        let stored = fixed(variation);
        Ok(Gaps {
            smoothed_below: exact.high - fixed(smoothed),
            variation_below: exact_variation.high.saturating_sub(stored),
            variation_above: stored.saturating_sub(exact_variation.low),
            smoothed_width: exact.width(),
            variation_width: exact_variation.width(),
        })
    }
}

/// Upper bounds of how far stored averages are from the exact ones, and how wide the intervals are, in parts
/// of 2^-72 ns.
#[derive(Clone, Copy, Debug, PartialEq, Eq)]
pub struct Gaps {
    pub smoothed_below: u128,
    pub variation_below: u128,
    pub variation_above: u128,
    pub smoothed_width: u128,
    pub variation_width: u128,
}

#[cfg(test)]
mod tests {
    use super::*;

    use crate::random::Random;

    const LIMIT: u64 = 25;

    fn trip(latest_rtt: u64, ack_delay: u64, handshake_confirmed: bool) -> Trip {
        Trip {
            latest_rtt,
            ack_delay,
            handshake_confirmed,
        }
    }

    /// An estimator in whole numbers, by the rules.
    #[derive(Clone, Copy)]
    struct Whole {
        minimum: u64,
        smoothed: u64,
        variation: u64,
    }

    impl Whole {
        fn first(latest: u64) -> Self {
            Whole {
                minimum: latest,
                smoothed: latest,
                variation: latest / 2,
            }
        }

        fn next(&mut self, trip: &Trip) {
            let adjusted = self.adjusted(trip);
            self.add(adjusted);
        }

        fn adjusted(&mut self, trip: &Trip) -> u64 {
            self.minimum = self.minimum.min(trip.latest_rtt);
            let limited = trip.ack_delay.min(LIMIT);
            let delay = [trip.ack_delay, limited][trip.handshake_confirmed as usize];
            let is_plausible = trip.latest_rtt >= self.minimum + delay;
            trip.latest_rtt - delay * is_plausible as u64
        }

        fn add(&mut self, adjusted: u64) {
            let deviation = self.smoothed.abs_diff(adjusted);
            self.variation = 3 * self.variation / 4 + deviation / 4;
            self.smoothed = 7 * self.smoothed / 8 + adjusted / 8;
        }
    }

    /// After how many of the trips a way to update is noticed to leave the bounds, if it is.
    fn noticed(trips: &[Trip], update: impl Fn(&mut Whole, &Trip)) -> Option<usize> {
        let (first, later) = trips.split_first().unwrap();
        let mut averages = Averages::first(first.latest_rtt);
        let mut whole = Whole::first(first.latest_rtt);
        later.iter().position(|trip| {
            averages.next(trip, LIMIT);
            update(&mut whole, trip);
            averages.gaps(whole.smoothed, whole.variation).is_err()
        })
    }

    /// Samples of all sizes, with delays at the limit and where the sample is the minimum and the delay.
    fn trips(seed: u64) -> Vec<Trip> {
        let mut random = Random::new(seed);
        let bits = 5 + random.below(32);
        let mut minimum = u64::MAX;
        let mut trips = Vec::new();
        for _ in 0..2_000 {
            let latest = random.sized(bits).min(MOST_LENGTH);
            minimum = minimum.min(latest);
            let delay = match random.below(4) {
                0 => 0,
                1 => LIMIT - 1 + random.below(3),
                2 => random.sized(bits).min(MOST_LENGTH),
                _ => latest - minimum,
            };
            trips.push(trip(latest, delay, random.one_in(2)));
        }
        trips
    }

    #[test]
    fn the_rules_stay_inside() {
        for seed in 0..200 {
            assert_eq!(noticed(&trips(seed), Whole::next), None, "{}", seed);
        }
    }

    /// 80,000,001 ns, then 90 ms with a delay of 5 ms: exactly 80,625,000.875 and 31,250,000.125 ns.
    #[test]
    fn a_worked_example() {
        let mut averages = Averages::first(80_000_001);
        assert!(averages.next(&trip(90_000_000, 5_000_000, true), 25_000_000));
        let eighths = |number: u64| Interval::of(number).times(1, 8);
        assert_eq!(averages.smoothed, eighths(645_000_007));
        // 3/8 of the first sample and 1/4 of 4,999,999.
        assert_eq!(averages.variation, eighths(250_000_001));
        let gaps = averages.gaps(80_625_000, 31_249_999).unwrap();
        assert_eq!(decimal(gaps.smoothed_below, 9), "0.875000000");
        assert_eq!(decimal(gaps.variation_below, 9), "1.125000000");
        assert_eq!((gaps.variation_above, gaps.smoothed_width), (0, 0));
        assert_eq!(averages.decimals(), ["80625000.875000", "31250000.125000"]);
        assert_eq!(averages.whole(), 80_625_000);
    }

    /// S is num / 8^n and V is var / (2 * 8^n): known in whole numbers for so many samples, and between the
    /// ends.
    #[test]
    fn the_intervals_hold_the_fractions() {
        for seed in 0..50 {
            let mut random = Random::new(seed);
            let first = random.below(MOST_LENGTH + 1);
            let mut averages = Averages::first(first);
            let (mut num, mut var) = (u128::from(first), u128::from(first));
            for n in 0..28 {
                let adjusted = random.below(MOST_LENGTH + 1);
                let sample = u128::from(adjusted) << (3 * n);
                var = 6 * var + 4 * num.abs_diff(sample);
                num = 7 * num + sample;
                averages.add(adjusted);
                holds(averages.smoothed, num, 3 * (n + 1));
                holds(averages.variation, var, 3 * (n + 1) + 1);
            }
        }
    }

    /// Whether the interval holds number / 2^digits; up to 72 digits it is the fraction itself.
    fn holds(interval: Interval, number: u128, digits: u32) {
        if digits <= 72 {
            let end = number << (72 - digits);
            assert_eq!((interval.low, interval.high), (end, end));
        } else {
            let end = number >> (digits - 72);
            assert!(interval.low <= end && end <= interval.high);
            assert!(interval.high > end || number == end << (digits - 72));
        }
    }

    /// However many samples, the intervals stay narrower than 16 and 24 parts of 2^-72.
    #[test]
    fn the_intervals_stay_narrow() {
        for seed in 0..20 {
            let trips = trips(seed);
            let mut averages = Averages::first(trips[0].latest_rtt);
            for trip in &trips {
                averages.next(trip, LIMIT);
                let (smoothed, variation) = (averages.smoothed, averages.variation);
                assert!(smoothed.low <= smoothed.high && smoothed.width() <= 16);
                assert!(variation.low <= variation.high && variation.width() <= 24);
            }
        }
    }

    /// A steady sample of 7 past a multiple of 8, from below: nearly 14 ns, and never 14.
    #[test]
    fn a_steady_sample_comes_near_the_bound() {
        let mut averages = Averages::first(1);
        let mut whole = Whole::first(1);
        for n in 1..=80 {
            averages.add(15);
            whole.add(15);
            assert_eq!(whole.smoothed, 1);
            let gaps = averages.gaps(whole.smoothed, whole.variation).unwrap();
            assert!(gaps.smoothed_below < fixed(14));
            assert_eq!(averages.later, n);
        }
        let gaps = averages.gaps(whole.smoothed, whole.variation).unwrap();
        assert_eq!(decimal(gaps.smoothed_below, 5), "13.99968");
    }

    /// The bounds themselves, one nanosecond inside and outside of each.
    #[test]
    fn the_bounds_are_those_of_the_theorem() {
        let mut averages = Averages::first(1_000);
        for _ in 0..5 {
            averages.add(1_001);
        }
        // The average is between 1,000 and 1,001, and the variation between 119 and 120.
        let (smoothed, variation) = (averages.smoothed, averages.variation);
        assert!(fixed(1_000) < smoothed.low && smoothed.high < fixed(1_001));
        assert!(fixed(119) < variation.low && variation.high < fixed(120));
        let is_inside = |smoothed, variation| averages.gaps(smoothed, variation).is_ok();
        for (smoothed, due) in [(986, false), (987, true), (1_000, true), (1_001, false)] {
            assert_eq!(is_inside(smoothed, 119), due, "{}", smoothed);
        }
        for (variation, due) in [(99, false), (100, true), (133, true), (134, false)] {
            assert_eq!(is_inside(1_000, variation), due, "{}", variation);
        }
        for far in [0, MOST_LENGTH + 1, u64::MAX] {
            assert!(!is_inside(far, 119) && !is_inside(1_000, far));
        }
    }

    /// A way to update.
    type Update = fn(&mut Whole, &Trip);

    /// Smoothed before variation, TCP's way to take an eighth off, a sample that is not adjusted, above for at
    /// least, the limit without the flag, no limit, a minimum that forgets: each is noticed.
    #[test]
    fn a_wrong_update_is_noticed() {
        let wrong: [(&str, Update); 7] = [
            ("order", |whole, trip| {
                let (adjusted, variation) = (whole.adjusted(trip), whole.variation);
                whole.add(adjusted);
                let deviation = whole.smoothed.abs_diff(adjusted);
                whole.variation = 3 * variation / 4 + deviation / 4;
            }),
            ("an eighth off", |whole, trip| {
                let (adjusted, smoothed) = (whole.adjusted(trip), whole.smoothed);
                whole.add(adjusted);
                whole.smoothed = smoothed - smoothed / 8 + adjusted / 8;
            }),
            ("not adjusted", |whole, trip| {
                whole.adjusted(trip);
                whole.add(trip.latest_rtt);
            }),
            ("above", |whole, trip| match whole.adjusted(trip) {
                adjusted if adjusted == whole.minimum => whole.add(trip.latest_rtt),
                adjusted => whole.add(adjusted),
            }),
            ("flag", |whole, trip| {
                whole.next(&Trip {
                    handshake_confirmed: true,
                    ..*trip
                })
            }),
            ("limit", |whole, trip| {
                whole.next(&Trip {
                    handshake_confirmed: false,
                    ..*trip
                })
            }),
            ("minimum", |whole, trip| {
                whole.minimum = trip.latest_rtt;
                whole.next(trip);
            }),
        ];
        for (name, update) in wrong {
            let seeds = (0..20).filter(|seed| noticed(&trips(*seed), update).is_some());
            assert!(seeds.count() > 10, "{}", name);
        }
        // And the first sample adjusted.
        let mut averages = Averages::first(100);
        let mut whole = Whole::first(60);
        averages.next(&trip(100, 0, true), LIMIT);
        whole.next(&trip(100, 0, true));
        assert!(averages.gaps(whole.smoothed, whole.variation).is_err());
    }
}
