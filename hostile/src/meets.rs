//! What was met, of all that refusal 2 can name: each flaw at the ends of what is allowed, and each two
//! causes of a refusal at once. What was not met is told.

use guovssalu_sys::table::call as calls;

use crate::bounds::Bound;
use crate::edges;
use crate::places;
use crate::places::Callee;
use crate::places::Flaw;
use crate::places::Given;
use crate::places::Wrong;
use crate::table;
use crate::table::Rows;
use crate::table::NEVER_SENT;
use crate::words;
use crate::words::call as c;

/// How often each end of a flaw was met.
type Counts = [u64; edges::MOST];

/// A cause of a refusal: a flaw, or another row.
#[derive(Clone, Copy, PartialEq)]
pub enum Cause {
    Flaw(Flaw),
    Row(u64),
}

impl Cause {
    /// All causes of a callee: its flaws in their order, then the other rows.
    pub fn all(callee: Callee) -> Vec<Cause> {
        let flaws = places::flaws(callee).into_iter().map(Cause::Flaw);
        let rows = table::rows_of(callee).into_iter().map(Cause::Row);
        flaws.chain(rows).collect()
    }

    /// Whether two causes of a callee can't hold at once. Numbers that are not in the lists are none
    /// that were never sent; bytes of another length are none that could encode a state; and growth
    /// counts a round only where a flag says yes, so that it is not malformed.
    pub fn exclude(callee: Callee, one: &Cause, other: &Cause) -> bool {
        let pair = match (one, other) {
            (Cause::Flaw(flaw), &Cause::Row(row)) => (flaw, row),
            _ => return false,
        };
        match pair {
            (flaw, NEVER_SENT) => flaw.wrong == Wrong::NotInLists,
            (flaw, 1) => matches!(flaw.wrong, Wrong::NotExactly(_)),
            (flaw, 5) => {
                callee == Callee::Call(calls::HAS_BANDWIDTH_GROWTH) && flaw.word == c::LAST_IS_VALID
            }
            _ => false,
        }
    }

    /// In readable form.
    fn tell(&self) -> String {
        match self {
            Cause::Row(row) => format!("row {}", row),
            Cause::Flaw(flaw) => format!(
                "2.{} at {}, word {}",
                flaw.named.bound as u64, flaw.named.place, flaw.word
            ),
        }
    }
}

/// What was met of a callee.
struct Met {
    callee: Callee,
    with_lists: bool,
    causes: Vec<Cause>,
    /// Of each flaw, accepted calls at its ends, and refused ones just past them that it names.
    inside: Vec<Counts>,
    outside: Vec<Counts>,
    /// Of each two causes, by the first and the second, how often both held.
    both: Vec<Vec<u64>>,
}

impl Met {
    fn new(callee: Callee, with_lists: bool) -> Self {
        let causes = Cause::all(callee);
        let flaws = places::flaws(callee).len();
        Met {
            callee,
            with_lists,
            inside: vec![[0; edges::MOST]; flaws],
            outside: vec![[0; edges::MOST]; flaws],
            both: vec![vec![0; causes.len()]; causes.len()],
            causes,
        }
    }

    /// Counts what was given, by the rows that hold.
    fn count(&mut self, given: &Given, rows: &Rows) {
        let flaws = self.inside.len();
        let others = self.causes[flaws..].iter().enumerate();
        let held = others.fold(rows.flaws(), |held, (at, cause)| match cause {
            Cause::Row(row) if rows.holds(*row) => held | 1 << (flaws + at),
            _ => held,
        });
        let (mut first, mut rest) = bit(held);
        while rest != 0 {
            let mut others = rest;
            while others != 0 {
                let (second, more) = bit(others);
                self.both[first][second] += 1;
                others = more;
            }
            (first, rest) = bit(rest);
        }
        match rows.due() {
            0 => {
                for (counts, cause) in self.inside.iter_mut().zip(&self.causes) {
                    if let Cause::Flaw(flaw) = cause {
                        let ends = edges::inside(flaw, self.with_lists);
                        at_end(counts, ends, edges::measure(flaw, given));
                    }
                }
            }
            2 => {
                let (at, _) = bit(rows.flaws());
                if let Cause::Flaw(flaw) = self.causes[at] {
                    let ends = edges::outside(&flaw, self.with_lists);
                    at_end(&mut self.outside[at], ends, edges::measure(&flaw, given));
                }
            }
            _ => {}
        }
    }

    /// Who it is, in readable form.
    fn name(&self) -> String {
        let lists = if self.with_lists { ", with lists" } else { "" };
        match self.callee {
            Callee::Call(number) => format!("call {} {}{}", number, words::name(number), lists),
            Callee::RttCall(number) => {
                format!("rtt call {} {}", number, words::rtt_name(number))
            }
            other => format!("{:?}{}", other, lists),
        }
    }

    /// Each end of a flaw, with its name and count.
    fn ends(&self) -> impl Iterator<Item = (String, u64)> + '_ {
        let flaws = places::flaws(self.callee).into_iter().enumerate();
        flaws.flat_map(move |(at, flaw)| {
            let told = format!("{}, {}", self.name(), Cause::Flaw(flaw).tell());
            let inside = edges::inside(&flaw, self.with_lists);
            let outside = edges::outside(&flaw, self.with_lists);
            let named = |ends: edges::Ends, counts: Counts, what: &str| -> Vec<(String, u64)> {
                let ends = ends.into_iter().zip(counts);
                let some = ends.filter_map(|(end, count)| Some((end?, count)));
                some.map(|(end, count)| (format!("{}, {} {:#x}", told, what, end), count))
                    .collect()
            };
            [
                named(inside, self.inside[at], "accepted at"),
                named(outside, self.outside[at], "named at"),
            ]
            .concat()
        })
    }

    /// Each two causes that can hold at once, with their names and their count.
    fn pairs(&self) -> impl Iterator<Item = (String, u64)> + '_ {
        self.each_two(false)
    }

    /// The same of those that can't.
    fn excluded(&self) -> impl Iterator<Item = (String, u64)> + '_ {
        self.each_two(true)
    }

    fn each_two(&self, excluded: bool) -> impl Iterator<Item = (String, u64)> + '_ {
        let places = (0..self.causes.len())
            .flat_map(move |one| (one + 1..self.causes.len()).map(move |other| (one, other)));
        places.filter_map(move |(one, other)| {
            let (first, second) = (&self.causes[one], &self.causes[other]);
            let told = || format!("{}, {} beside {}", self.name(), first.tell(), second.tell());
            (Cause::exclude(self.callee, first, second) == excluded)
                .then(|| (told(), self.both[one][other]))
        })
    }
}

/// The place of the lowest bit, and the bits without it.
fn bit(bits: u64) -> (usize, u64) {
    (bits.trailing_zeros() as usize, bits & bits.wrapping_sub(1))
}

/// Counts a measure at an end.
fn at_end(counts: &mut Counts, ends: edges::Ends, measure: i128) {
    for (count, end) in counts.iter_mut().zip(ends) {
        *count += (end == Some(measure)) as u64;
    }
}

/// What was met of each callee, and how often each kind, 1 to 9, and each place, 0 to 4, was named.
pub struct Meets {
    met: Vec<Met>,
    kinds: [u64; 10],
    places: [u64; 5],
}

/// How many calls are told apart: each number up to the last call's and, as one, all above it. The same
/// of the estimator's.
const CALLS: usize = words::CALLS_END as usize + 1;
const RTT_CALLS: usize = words::RTT_CALLS_END as usize + 1;

impl Default for Meets {
    fn default() -> Self {
        let calls = |with_lists| {
            (0..CALLS as u64).map(move |number| Met::new(Callee::Call(number), with_lists))
        };
        let rtt_calls =
            (0..RTT_CALLS as u64).map(|number| Met::new(Callee::RttCall(number), false));
        let exports = [
            (Callee::Run, false),
            (Callee::Run, true),
            (Callee::RttRun, false),
            (Callee::FilterRun, false),
            (Callee::Slope, false),
        ];
        let exports = exports.map(|(callee, with_lists)| Met::new(callee, with_lists));
        let calls = calls(false).chain(calls(true)).chain(rtt_calls);
        Meets {
            met: calls.chain(exports).collect(),
            kinds: [0; 10],
            places: [0; 5],
        }
    }
}

impl Meets {
    /// Counts what a callee was given, by the rows that hold.
    pub fn count(&mut self, callee: Callee, with_lists: bool, given: &Given, rows: &Rows) {
        const EXPORTS: usize = 2 * CALLS + RTT_CALLS;
        let at = match callee {
            Callee::Call(number) => {
                with_lists as usize * CALLS + number.min(words::CALLS_END) as usize
            }
            Callee::RttCall(number) => 2 * CALLS + number.min(words::RTT_CALLS_END) as usize,
            Callee::Run => EXPORTS + with_lists as usize,
            Callee::RttRun => EXPORTS + 2,
            Callee::FilterRun => EXPORTS + 3,
            Callee::Slope => EXPORTS + 4,
        };
        self.met[at].count(given, rows);
        if rows.due() == 2 {
            let reply = rows.reply();
            self.kinds[(reply >> 8 & 255) as usize] += 1;
            self.places[(reply >> 16) as usize] += 1;
        }
    }

    /// What is named, and how often: the kinds, then the places.
    pub fn named(&self) -> impl Iterator<Item = (String, u64)> + '_ {
        let kinds = Bound::NUMBERS.map(|kind| (format!("2.{}", kind), self.kinds[kind as usize]));
        let places = self.places.iter().enumerate();
        kinds.chain(places.map(|(place, &count)| (format!("at {}", place), count)))
    }

    /// Each end and each two causes that were not met, and each two that were and can't be.
    pub fn missing(&self) -> Vec<String> {
        let all = self
            .met
            .iter()
            .flat_map(|met| met.ends().chain(met.pairs()));
        let missing = all.filter(|&(_, count)| count == 0).map(|(name, _)| name);
        let excluded = self.met.iter().flat_map(Met::excluded);
        let met = excluded.filter(|&(_, count)| count > 0);
        missing
            .chain(met.map(|(name, _)| format!("{}: it was, and can't be", name)))
            .collect()
    }

    /// How many ends there are, and how many pairs of causes.
    pub fn sizes(&self) -> (usize, usize) {
        let ends = self.met.iter().map(|met| met.ends().count()).sum();
        let pairs = self.met.iter().map(|met| met.pairs().count()).sum();
        (ends, pairs)
    }
}

#[cfg(test)]
mod tests {
    use super::*;

    /// How many ends and pairs of refusals have to be met: of a run of the estimator and of each of its
    /// calls, by hand, and in all.
    #[test]
    fn so_much_has_to_be_met() {
        for (callee, ends, pairs) in [
            (Callee::RttRun, 6, 5),
            (Callee::RttCall(0), 4, 1),
            (Callee::RttCall(1), 7, 6),
            (Callee::RttCall(2), 2, 1),
            (Callee::RttCall(3), 1, 1),
        ] {
            let met = Met::new(callee, false);
            let sizes = (met.ends().count(), met.pairs().count());
            assert_eq!(sizes, (ends, pairs), "{}", met.name());
        }
        assert_eq!(Meets::default().sizes(), (694, 2_762));
    }
}
