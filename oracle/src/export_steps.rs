//! Chooses runs of the exported filter and of the exported slope, with lengths
//! at which they are refused.

use guovssalu_sys::table::PAIR_BYTES;
use guovssalu_sys::table::SAMPLES_BYTES;
use guovssalu_sys::table::SLOPE_BYTES;
use guovssalu_sys::table::WORD_BYTES;

use crate::bounds::BYTES;
use crate::bounds::UP_ROUNDS;
use crate::filter_steps;
use crate::filter_steps::Plan;
use crate::frame::MEMORY;
use crate::frame::MOST_PAIRS;
use crate::values::Random;
use crate::windowed;
use crate::world::Step;

/// Bytes of a pair, and of the slope's output.
const PAIR: u64 = PAIR_BYTES as u64;
const SLOPE: u64 = SLOPE_BYTES as u64;

/// An endless choice of calls, each for itself.
pub struct ExportSteps {
    random: Random,
}

impl ExportSteps {
    pub fn new(seed: u64) -> Self {
        ExportSteps {
            random: Random::new(seed ^ (5 << 61)),
        }
    }

    pub fn next(&mut self) -> Step {
        match self.random.one_in(3) {
            true => self.slope(),
            false => self.filter_run(),
        }
    }

    fn slope(&mut self) -> Step {
        let random = &mut self.random;
        let rounds = match random.below(8) {
            0 => UP_ROUNDS + 1,
            1 => random.of_length(64),
            _ => random.below(UP_ROUNDS + 1),
        };
        // Where the quotient reaches 1300.
        let turn = 1300 << rounds.min(UP_ROUNDS);
        let window = match random.below(8) {
            0 => BYTES,
            1 => BYTES + 1,
            2 => u64::MAX,
            3 => random.below(1 << 12),
            4 => random.of_length(40),
            _ => turn - 1 + random.below(3),
        };
        Step::Slope {
            rounds,
            window,
            lent: random.pick(&[
                SLOPE - 1,
                SLOPE,
                SLOPE,
                SLOPE,
                SLOPE + 1,
                0,
                8,
                MEMORY as u64,
            ]),
        }
    }

    fn filter_run(&mut self) -> Step {
        let plan = Plan::new(&mut self.random);
        let window = plan.window;
        let mut words = self.pairs(plan);
        let random = &mut self.random;
        let mut length = (WORD_BYTES * words.len()) as u64;
        if random.one_in(6) {
            length = (length + 1 + random.below(PAIR - 1)).min(MOST_PAIRS);
            words.resize(length.div_ceil(WORD_BYTES as u64) as usize, 7);
        }
        let whole = SAMPLES_BYTES as u64 * (length / PAIR);
        let lent = match random.below(8) {
            0 => whole.saturating_sub(1),
            1 => whole + 1,
            2 => random.below(MEMORY as u64 + 1),
            _ => whole,
        };
        Step::FilterRun {
            window,
            length,
            lent: lent.min(MEMORY as u64),
            words,
        }
    }

    /// Pairs of a time and a sample, at the ages and samples where the filter
    /// turns; in most runs as many as the memory has room for, in some a time
    /// falls.
    fn pairs(&mut self, mut plan: Plan) -> Vec<u64> {
        let random = &mut self.random;
        let falls = random.one_in(5);
        let most = MOST_PAIRS / PAIR;
        let count = match random.one_in(4) {
            true => random.below(most + 1),
            false => most - 1,
        };
        let mut filter = [0; 8];
        windowed::operate(&mut filter, 0, plan.window, 0);
        let mut words = Vec::new();
        for _ in 0..count {
            let (sample, mut time) = plan.update(random, &filter);
            if falls && random.one_in(6) {
                time = filter_steps::earlier(random, &filter);
            }
            windowed::update(&mut filter, sample, time);
            words.extend([time, sample]);
        }
        words
    }
}
