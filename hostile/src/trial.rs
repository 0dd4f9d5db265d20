//! What every case needs.

use crate::dice::Dice;
use crate::foreign::Port;
use crate::tally::Tally;

/// The port on trial, the numbers to choose by, and what has been counted.
pub struct Trial<'a> {
    pub port: &'a Port,
    pub dice: Dice,
    pub tally: Tally,
}

impl<'a> Trial<'a> {
    /// A trial at its begin.
    pub fn new(port: &'a Port, seed: u64) -> Self {
        Trial {
            port,
            dice: Dice::new(seed),
            tally: Tally::default(),
        }
    }
}
