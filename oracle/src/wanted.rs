//! How often each thing occurs that has to.

use std::collections::BTreeMap;

pub struct Wanted(BTreeMap<String, u64>);

impl Wanted {
    pub fn new<T: ToString>(all: &[T]) -> Self {
        Wanted(all.iter().map(|what| (what.to_string(), 0)).collect())
    }

    /// Counts `what`, wanted or not.
    pub fn count(&mut self, what: String) {
        *self.0.entry(what).or_default() += 1;
    }

    /// Counts `what` if it holds; stops if it is none of them.
    pub fn mark(&mut self, what: &str, holds: bool) {
        *self.0.get_mut(what).expect(what) += u64::from(holds);
    }

    /// Each thing, and how often it occurs.
    pub fn told(&self) -> impl Iterator<Item = (&str, u64)> {
        self.0.iter().map(|(what, &count)| (what.as_str(), count))
    }

    /// Prints the counts, after such a word.
    pub fn tell(&self, of: &str) {
        for (what, count) in self.told() {
            eprintln!("{of}{count:4} x {what}");
        }
    }

    /// How many things there are, and the one that occurs least often, with how
    /// often it does.
    pub fn rarest(&self) -> (usize, &str, u64) {
        let rarest = self.0.iter().min_by_key(|(_, &count)| count);
        let (what, &count) = rarest.expect("nothing is wanted");
        (self.0.len(), what, count)
    }

    /// Stops if one occurs less often than this.
    pub fn demand(&self, least: u64) {
        for (what, &count) in &self.0 {
            assert!(count >= least, "{what}: {count} times, fewer than {least}");
        }
    }
}
