//! The reasons of updates by name, and how often each occurs.

use std::collections::BTreeMap;

use guovssalu_sys::table::reason;

use crate::windowed::Foreseen;
use crate::windowed::Updated;

/// What step 2 and a later step do where both act.
const PAIRS: [(u64, u64); 4] = [
    (reason::SECOND_RAISED, reason::PROMOTED_ONCE),
    (reason::THIRD_RAISED, reason::PROMOTED_ONCE),
    (reason::THIRD_RAISED, reason::PROMOTED_TWICE),
    (reason::THIRD_RAISED, reason::QUARTER_REFRESH),
];

/// Counts updates.
#[derive(Default)]
pub struct Tally {
    /// By what step 2 did, and the reason.
    counts: BTreeMap<(u64, u64), u64>,
    /// Those in which the original didn't do what was foreseen.
    unforeseen: u64,
}

impl Tally {
    pub fn add<'a>(&mut self, updates: impl IntoIterator<Item = &'a Updated>) {
        for update in updates {
            let acted = (update.raised, update.reason);
            *self.counts.entry(acted).or_default() += 1;
            self.unforeseen += !update.as_foreseen as u64;
        }
    }

    pub fn is_empty(&self) -> bool {
        self.counts.is_empty()
    }

    /// In how many updates the same steps acted as in this one.
    pub fn acted(&self, update: &Foreseen) -> u64 {
        self.count(update.raised, update.reason)
    }

    fn count(&self, raised: u64, reason: u64) -> u64 {
        self.counts.get(&(raised, reason)).copied().unwrap_or(0)
    }

    /// How many updates have this reason.
    fn with_reason(&self, reason: u64) -> u64 {
        let counts = self.counts.iter();
        let counts = counts.filter(|((_, last), _)| *last == reason);
        counts.map(|(_, count)| count).sum()
    }

    /// Every reason, then every pair of steps that both act, with their counts.
    pub fn told(&self) -> Vec<(String, u64)> {
        let name = |number: u64| reason::NAMES[number as usize];
        let reasons = (0..8).map(|it| (name(it).to_string(), self.with_reason(it)));
        let pairs = PAIRS.iter().map(|&(raised, last)| {
            let what = format!("{}, then {}", name(raised), name(last));
            (what, self.count(raised, last))
        });
        reasons.chain(pairs).collect()
    }

    /// Stops if an update wasn't foreseen.
    pub fn hold(&self) {
        assert_eq!(self.unforeseen, 0, "updates not as document 01 has it");
    }

    /// Stops if a reason or a pair occurs less often than this.
    pub fn demand(&self, reasons: u64, pairs: u64) {
        let names = reason::NAMES.len();
        for (at, (what, count)) in self.told().into_iter().enumerate() {
            let least = if at < names { reasons } else { pairs };
            assert!(count >= least, "{what}: {count} times, fewer than {least}");
        }
    }
}
