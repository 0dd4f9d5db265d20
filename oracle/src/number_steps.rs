//! Chooses runs of neighbours for the functions on single numbers, around the
//! numbers where they turn.

use std::vec::IntoIter;

use crate::scalars::NAMES;
use crate::scalars::RUN;
use crate::values::whole;
use crate::values::Random;
use crate::values::GAINS;
use crate::world::Step;

/// Every run of f32 patterns, one after the other.
pub fn patterns(function: u64, other: u64) -> impl FnMut() -> Step {
    let mut next = 0;
    move || {
        let first = next;
        next += RUN;
        Step::Numbers {
            function,
            first,
            other,
        }
    }
}

/// An endless choice of runs around the numbers where a function turns: first
/// around each of them once.
pub struct NumberSteps {
    random: Random,
    /// Whole numbers, at the ties of f32 and of f64.
    turns: [Vec<u64>; 2],
    /// Functions and numbers that are still to come.
    each: IntoIter<(u64, u64)>,
}

impl NumberSteps {
    pub fn new(seed: u64) -> Self {
        let runs = NumberSteps::at_random(seed);
        let each = each(&runs.turns.concat()).into_iter();
        NumberSteps { each, ..runs }
    }

    /// The same without those that come once.
    pub fn at_random(seed: u64) -> Self {
        NumberSteps {
            random: Random::new(seed ^ (3 << 62)),
            turns: [whole(24).all, whole(53).all],
            each: Vec::new().into_iter(),
        }
    }

    pub fn next(&mut self) -> Step {
        let (function, number, before) = match self.each.next() {
            Some((function, number)) => (function, number, RUN / 2),
            None => self.any(),
        };
        let first = match function {
            2 | 4 | 5 => number.saturating_sub(before).min((1 << 32) - RUN),
            _ => number.saturating_sub(before).min(u64::MAX - (RUN - 1)),
        };
        let other = match function {
            4..=6 => self.whole(),
            _ => 0,
        };
        Step::Numbers {
            function,
            first,
            other,
        }
    }

    /// A function, a number, and how many of its run are before it.
    fn any(&mut self) -> (u64, u64, u64) {
        let function = self.random.below(NAMES.len() as u64);
        let number = match function {
            0 | 1 | 6 => self.whole(),
            2 | 4 | 5 => self.pattern(),
            _ => self.double(),
        };
        (function, number, self.random.below(RUN))
    }

    fn whole(&mut self) -> u64 {
        let turns = self.random.below(3) as usize;
        match self.turns.get(turns) {
            Some(turns) => self.random.pick(turns),
            None => self.random.of_length(64),
        }
    }

    /// The bits of an f32.
    fn pattern(&mut self) -> u64 {
        match self.random.below(3) {
            0 => self.random.pick(&GAINS) as u64,
            1 => self.random.gain() as u64,
            _ => self.random.below(1 << 32),
        }
    }

    /// The bits of an f64: beside a half or a whole number, or any.
    fn double(&mut self) -> u64 {
        let at = self.random.of_length(54) as f64 / 2.0;
        match self.random.below(4) {
            0 => self.random.next(),
            1 => (self.whole() as f64).to_bits(),
            _ => at.to_bits(),
        }
    }
}

/// Each function with each number where it turns: these whole numbers; every
/// power of two as an f32, of both signs; powers of two and halves as an f64.
fn each(whole: &[u64]) -> Vec<(u64, u64)> {
    let mut all = Vec::new();
    for function in [0, 1, 6] {
        all.extend(whole.iter().map(|&n| (function, n)));
    }
    for function in [2, 4, 5] {
        all.extend((0..1 << 9).map(|power| (function, power << 23)));
    }
    let powers = (1023 - 2)..(1023 + 66);
    all.extend(powers.map(|power| (3, power << 52)));
    let halves = (0..53).map(|power| (1u64 << power) as f64 + 0.5);
    all.extend(halves.map(|half| (3, half.to_bits())));
    all
}
