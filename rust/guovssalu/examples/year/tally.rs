//! What was counted on the way, the progress and the report.

use std::fmt;
use std::fs;

use crate::averages::Gaps;
use crate::exact::Exact;
use crate::interval::decimal;

/// Nanoseconds of a day.
pub const DAY: u64 = 86_400_000_000_000;

/// A chain of reductions without a clear is long from here on.
const LONG: u64 = 1000;

/// The largest difference, in parts of 2^-72, with the count of steps to it, and the moment at which it was
/// seen first.
#[derive(Default)]
pub struct Largest {
    parts: u128,
    steps: u64,
    moment: u64,
}

impl Largest {
    /// Takes a difference if it is larger.
    fn raise(&mut self, parts: u128, steps: u64, moment: u64) {
        if parts > self.parts {
            *self = Largest {
                parts,
                steps,
                moment,
            };
        }
    }

    /// It in a unit, and after how many steps: k reductions, or n samples after the first.
    fn said(&self, unit: &str, letter: char) -> String {
        let (most, day) = (decimal(self.parts, 6), 1 + self.moment / DAY);
        let steps = self.steps;
        format!("at most {most} {unit} (day {day}, {letter} = {steps})")
    }
}

#[derive(Default)]
pub struct Tally {
    pub calls: u64,
    pub sends: u64,
    pub events: u64,
    pub rounds: u64,
    pub reductions: u64,
    pub held: u64,
    pub caps: u64,
    pub clears: u64,
    pub entries: u64,
    pub expiries: u64,
    pub refused: u64,
    pub looks: u64,
    pub set: u64,
    pub inside: u64,
    pub smallest_window: u64,
    pub largest_window: u64,
    pub largest_sample: u64,
    pub longest_chain: u64,
    pub largest: Largest,
    /// The same of chains that are long.
    pub largest_of_long: Largest,
    pub widest: u128,
}

impl Tally {
    /// Nothing counted yet.
    pub fn new() -> Self {
        Tally {
            smallest_window: u64::MAX,
            ..Tally::default()
        }
    }

    /// Counts an event with its window and its inflight sample.
    pub fn event(&mut self, window: u64, sample: u64) {
        self.events += 1;
        self.smallest_window = self.smallest_window.min(window);
        self.largest_window = self.largest_window.max(window);
        self.largest_sample = self.largest_sample.max(sample);
    }

    /// Counts a reduction, held by the latest inflight or not.
    pub fn reduction(&mut self, held: bool) {
        self.reductions += 1;
        self.held += held as u64;
    }

    /// Compares a stored inflight_lo with the exact value; an error where it is outside the bounds.
    pub fn look(&mut self, exact: &Exact, stored: u64, moment: u64) -> Result<(), String> {
        self.looks += 1;
        let difference = match exact.difference(stored)? {
            None => return Ok(()),
            Some(difference) => difference,
        };
        self.set += 1;
        if !difference.is_inside() {
            return Err(format!(
                "inflight_lo is {}, and up to {} bytes from the exact value, k = {}",
                stored,
                difference.bytes(),
                difference.reductions
            ));
        }
        self.inside += 1;
        self.widest = self.widest.max(difference.width);
        self.longest_chain = self.longest_chain.max(difference.reductions);
        let (parts, reductions) = (difference.parts, difference.reductions);
        self.largest.raise(parts, reductions, moment);
        if reductions >= LONG {
            self.largest_of_long.raise(parts, reductions, moment);
        }
        Ok(())
    }

    /// One line on the way.
    pub fn progress(&self, moment: u64) -> String {
        format!(
            "day {:3}  events {:11}  reductions {:10}  largest difference {} bytes",
            1 + moment / DAY,
            self.events,
            self.reductions,
            decimal(self.largest.parts, 6)
        )
    }
}

/// The report's lines that count.
impl fmt::Display for Tally {
    fn fmt(&self, f: &mut fmt::Formatter) -> fmt::Result {
        line(f, "calls", self.calls)?;
        line(f, "sends", self.sends)?;
        line(f, "events", self.events)?;
        line(f, "rounds", self.rounds)?;
        line(f, "reductions", self.reductions)?;
        line(f, "held by the latest inflight", self.held)?;
        line(f, "longest chain without a clear", self.longest_chain)?;
        line(f, "caps", self.caps)?;
        line(f, "clears", self.clears)?;
        line(f, "phase entries", self.entries)?;
        line(f, "expiries of the smallest RTT", self.expiries)?;
        line(f, "refused on purpose", self.refused)?;
        let windows = format!("{} to {} bytes", self.smallest_window, self.largest_window);
        line(f, "windows", windows)?;
        let samples = format!("up to {} bytes", self.largest_sample);
        line(f, "inflight samples", samples)?;
        let looks = format!("{} times, {} of them set", self.looks, self.set);
        line(f, "inflight_lo compared", looks)?;
        line(f, "largest difference", self.largest.said("bytes", 'k'))?;
        let of_long = self.largest_of_long.said("bytes", 'k');
        line(f, "  from k = 1000 on", of_long)?;
        let bound = "k bytes, and 2^24 / (2^24 - 11744051) = 3.3333332 bytes";
        line(f, "bound", bound)?;
        line(f, "outside the bound", self.set - self.inside)?;
        let widest = format!("{} / 2^72 bytes", self.widest);
        line(f, "widest interval", widest)
    }
}

/// What was counted of round trips.
#[derive(Default)]
pub struct TripTally {
    pub samples: u64,
    pub adjusted: u64,
    pub refused: u64,
    pub inside: u64,
    pub smoothed_below: Largest,
    pub variation_below: Largest,
    pub variation_above: Largest,
    pub widest_smoothed: u128,
    pub widest_variation: u128,
}

impl TripTally {
    /// Takes what lies between the averages after so many samples and the exact ones.
    pub fn look(&mut self, gaps: &Gaps, later: u64, moment: u64) {
        self.inside += 1;
        self.smoothed_below
            .raise(gaps.smoothed_below, later, moment);
        self.variation_below
            .raise(gaps.variation_below, later, moment);
        self.variation_above
            .raise(gaps.variation_above, later, moment);
        self.widest_smoothed = self.widest_smoothed.max(gaps.smoothed_width);
        self.widest_variation = self.widest_variation.max(gaps.variation_width);
    }

    /// The end of a line on the way: how far the averages were from the exact ones, on either side.
    pub fn progress(&self) -> String {
        let variation = self.variation_below.parts.max(self.variation_above.parts);
        format!(
            "rtt {} ns, rttvar {} ns",
            decimal(self.smoothed_below.parts, 6),
            decimal(variation, 6)
        )
    }
}

/// The report's lines of round trips.
impl fmt::Display for TripTally {
    fn fmt(&self, f: &mut fmt::Formatter) -> fmt::Result {
        let samples = format!("{}, {} less a delay", self.samples, self.adjusted);
        line(f, "round trips", samples)?;
        line(f, "  refused on purpose", self.refused)?;
        for (name, largest) in [
            ("rtt below the exact one", &self.smoothed_below),
            ("rttvar below the exact one", &self.variation_below),
            ("rttvar above the exact one", &self.variation_above),
        ] {
            line(f, name, largest.said("ns", 'n'))?;
        }
        let bounds =
            "rtt not above, under 14 ns below; rttvar under 20 ns below, under 14 ns above";
        line(f, "bounds", bounds)?;
        line(f, "outside the bounds", self.samples - self.inside)?;
        let widest = [self.widest_smoothed, self.widest_variation];
        let widest = format!("{} and {} / 2^72 ns", widest[0], widest[1]);
        line(f, "widest intervals", widest)
    }
}

/// A name and what there is to say, in columns.
pub fn line(f: &mut dyn fmt::Write, name: &str, what: impl fmt::Display) -> fmt::Result {
    writeln!(f, "{:31}{}", name, what)
}

/// The largest resident memory so far in KiB, where the system says it.
pub fn peak_resident() -> Option<u64> {
    let status = fs::read_to_string("/proc/self/status").ok()?;
    let line = status.lines().find(|line| line.starts_with("VmHWM:"))?;
    line.split_whitespace().nth(1)?.parse().ok()
}
