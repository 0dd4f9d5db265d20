//! Hostile calls of the exported slope.

use guovssalu_sys::table::SLOPE_BYTES;

use crate::bounds;
use crate::checks;
use crate::choose;
use crate::lent::Ground;
use crate::places::Callee;
use crate::places::Given;
use crate::table::Rows;
use crate::tally::Export;
use crate::tally::Tally;
use crate::trial::Trial;
use crate::values;
use crate::words;

const LONGEST: usize = 256;

/// The rows of a call: "In the exported slope, rounds over 30 give 1"; a window above 2^40 is an
/// argument outside its bounds; "the lent output is shorter than the answer".
pub fn rows(rounds: u64, window: u64, out_len: usize) -> Rows {
    Rows::default()
        .with(1, rounds > bounds::ROUNDS)
        .with_flaws(Callee::Slope, &Given::numbers(&[window]))
        .with(7, out_len < SLOPE_BYTES)
}

/// What an accepted call writes: "growth is 2^rounds; rounds become min(rounds + 1, 30);
/// probe_up_bytes is max(window / growth, 1300)".
pub fn written(rounds: u64, window: u64) -> Vec<u8> {
    words::bytes(&[(rounds + 1).min(30), (window >> rounds).max(1300)])
}

/// The ground of the output.
pub struct Slope {
    out: Ground,
}

impl Slope {
    pub fn new() -> Self {
        Slope {
            out: Ground::new(LONGEST),
        }
    }

    /// One case: chosen, made, checked.
    pub fn case(&mut self, trial: &mut Trial) {
        let rounds = if trial.dice.one_in(2) {
            trial.dice.below(33)
        } else {
            values::hostile(&mut trial.dice, 30)
        };
        let window = if trial.dice.one_in(2) {
            values::within(&mut trial.dice, bounds::BYTES)
        } else {
            values::hostile(&mut trial.dice, bounds::BYTES)
        };
        let length = choose::length(&mut trial.dice, SLOPE_BYTES, LONGEST);
        self.call(trial, rounds, window, length);
    }

    /// Each number where something turns, as rounds and as window, and each length of the output.
    pub fn each(&mut self, trial: &mut Trial) {
        for rounds in values::turns() {
            for window in values::turns() {
                self.call(trial, rounds, window, SLOPE_BYTES);
            }
        }
        for rounds in 0..=40 {
            for length in 0..=40 {
                let window = values::within(&mut trial.dice, bounds::BYTES);
                self.call(trial, rounds, window, length);
                self.call(trial, rounds, bounds::BYTES + 1, length);
            }
        }
    }

    /// Makes a call with an output of this length and checks it.
    fn call(&mut self, trial: &mut Trial, rounds: u64, window: u64, length: usize) {
        let out = trial.dice.bytes(length);
        self.out.lend(&out, &mut trial.dice);
        let given = trial.port.slope(rounds, window, &mut self.out);
        self.check(&mut trial.tally, rounds, window, &out, given);
    }

    /// Checks the reply, the output and the guards.
    fn check(&mut self, tally: &mut Tally, rounds: u64, window: u64, out: &[u8], given: u64) {
        let tell = || {
            let length = out.len();
            format!(
                "  slope, rounds {}, window {}, bytes {}",
                rounds, window, length
            )
        };
        let rows = rows(rounds, window, out.len());
        tally.replied(Export::Slope, &rows, given, tell);
        tally.asked(Callee::Slope, false, &Given::numbers(&[window]), &rows);
        let written = (rows.due() == 0).then(|| written(rounds, window));
        checks::output(tally, &self.out, out, written, tell);
        checks::guards(tally, &mut self.out, "output", tell);
    }
}
