//! What runs of the estimator have to meet: how samples stand to the minimum, to their delay and to its
//! limit, by which eighths and quarters the averages are rounded, each stored length at its bound, which
//! reply follows which, and which refusals of a run hold at once. It is counted by what is due, whoever
//! chose it.

use guovssalu_sys::table::rtt_argument::update_rtt as sample;
use guovssalu_sys::table::rtt_call as calls;
use guovssalu_sys::table::rtt_state as s;
use guovssalu_sys::table::RTT_NUMBER_IN_CALL as NUMBER;

use crate::bounds::LENGTH;
use crate::estimator;
use crate::estimator::Step;
use crate::table::Rows;
use crate::words::yes;

/// How a number stands to another, and the names of that.
const SIDES: [&str; 5] = [
    "below by more",
    "one below",
    "at it",
    "one above",
    "above by more",
];

/// The place of it among them.
fn side(number: u64, other: u64) -> usize {
    let apart = number as i128 - other as i128;
    (apart.clamp(-2, 2) + 2) as usize
}

/// First samples: their delay counts for nothing.
const FIRSTS: [&str; 3] = ["without a delay", "with one", "with one, confirmed"];

/// How many lengths are stored.
const STORED: usize = s::HAS_FIRST_RTT_SAMPLE;

/// The replies of a call: done, a stored length, each argument, and a number of no call.
const REPLIES: [u64; 6] = [0, 1, 0x1_0402, 0x2_0402, 0x3_0802, 0x0802];

/// Whether a reply can follow another in a run. No call leaves a length out of bounds, so that only 1 is
/// followed by 1; and where that ends, there is a `new`.
fn can_follow(one: u64, other: u64) -> bool {
    match (one, other) {
        (1, _) => other & 0xff != 2 || other & 0xff00 == 0x400,
        _ => other != 1,
    }
}

/// The refusals of a run, each a bit of the set of those that hold.
const REFUSALS: [&str; 4] = ["1", "2.8 at 1", "2.8 at 2", "7"];

/// The set of refusals that hold for a run.
fn set(rows: &Rows) -> usize {
    rows.holds(1) as usize | (rows.flaws() as usize) << 1 | (rows.holds(7) as usize) << 3
}

/// Whether these refusals can hold at once: bytes of another length are none that could encode a state.
fn can_hold(set: usize) -> bool {
    set & 3 != 3
}

/// Their names.
fn tell(set: usize) -> String {
    let each = REFUSALS.iter().enumerate();
    let held = each.filter(|(at, _)| set >> at & 1 == 1);
    let held: Vec<&str> = held.map(|(_, &name)| name).collect();
    if held.is_empty() {
        "none".to_string()
    } else {
        held.join(" and ")
    }
}

/// Some counts of one sort, each with its name.
pub type Counts = (String, Vec<(String, u64)>);

#[derive(Default)]
pub struct Aims {
    firsts: [u64; FIRSTS.len()],
    minimum: [u64; SIDES.len()],
    plausible: [u64; SIDES.len()],
    limited: [[u64; SIDES.len()]; 2],
    smoothed: [u64; SIDES.len()],
    eighths: [[u64; 8]; 8],
    quarters: [[u64; 4]; 4],
    stored: [[u64; STORED]; 2],
    followed: [[u64; REPLIES.len()]; REPLIES.len()],
    refused: [u64; 1 << REFUSALS.len()],
}

impl Aims {
    /// Counts a run by the rows that hold for it, and its calls, if it is done.
    pub fn count(&mut self, rows: &Rows, steps: &[Step]) {
        self.refused[set(rows)] += 1;
        for step in steps {
            self.count_stored(step);
            match (step.call[NUMBER], step.rows.due()) {
                (calls::UPDATE_RTT, 0) if estimator::has_sample(&step.before) => {
                    self.count_later(step);
                }
                (calls::UPDATE_RTT, 0) => self.count_first(step),
                _ => {}
            }
        }
        for two in steps.windows(2) {
            let at = |step: &Step| {
                let reply = step.rows.reply();
                REPLIES.iter().position(|&known| known == reply)
            };
            if let (Some(one), Some(other)) = (at(&two[0]), at(&two[1])) {
                self.followed[one][other] += 1;
            }
        }
    }

    /// Counts each stored length at its bound where the call is done, and the only one above it, by 1,
    /// where it is refused.
    fn count_stored(&mut self, step: &Step) {
        if step.call[NUMBER] == calls::NEW {
            return;
        }
        let stored = estimator::stored(&step.before).iter().enumerate();
        if step.rows.due() == 0 {
            for (at, _) in stored.filter(|&(_, &length)| length == LENGTH) {
                self.stored[0][at] += 1;
            }
            return;
        }
        let mut above = stored.filter(|&(_, &length)| length > LENGTH);
        if let (Some((at, &length)), None) = (above.next(), above.next()) {
            self.stored[1][at] += (length == LENGTH + 1) as u64;
        }
    }

    fn count_first(&mut self, step: &Step) {
        let confirmed = yes(step.call[sample::HANDSHAKE_CONFIRMED]) as usize;
        let way = if step.call[sample::ACK_DELAY] == 0 {
            0
        } else {
            1 + confirmed
        };
        self.firsts[way] += 1;
    }

    fn count_later(&mut self, step: &Step) {
        let (before, call) = (&step.before, &step.call);
        let (latest, minimum) = (call[sample::LATEST_RTT], before[s::MIN_RTT]);
        self.minimum[side(latest, minimum)] += 1;
        let confirmed = yes(call[sample::HANDSHAKE_CONFIRMED]) as usize;
        let limit = before[s::MAX_ACK_DELAY];
        self.limited[confirmed][side(call[sample::ACK_DELAY], limit)] += 1;
        let delay = estimator::delay(before, call);
        if delay > 0 {
            self.plausible[side(latest, minimum.min(latest) + delay)] += 1;
        }
        let (smoothed, adjusted) = (before[s::SMOOTHED_RTT], estimator::adjusted(before, call));
        self.smoothed[side(adjusted, smoothed)] += 1;
        self.eighths[(smoothed % 8) as usize][(adjusted % 8) as usize] += 1;
        let apart = smoothed.abs_diff(adjusted);
        self.quarters[(before[s::RTTVAR] % 4) as usize][(apart % 4) as usize] += 1;
    }

    /// All counts, none of which may be 0.
    pub fn all(&self) -> Vec<Counts> {
        let [unconfirmed, confirmed] = &self.limited;
        let [at_bound, past_it] = &self.stored;
        let lengths = &s::NAMES[..STORED];
        let mut all = vec![
            counts("rtt, first samples", &FIRSTS, &self.firsts),
            counts("rtt, later ones to the minimum", &SIDES, &self.minimum),
            counts("rtt, to it and their delay", &SIDES, &self.plausible),
            counts("rtt, delays to the limit", &SIDES, unconfirmed),
            counts("rtt, the same confirmed", &SIDES, confirmed),
            counts("rtt, adjusted to smoothed", &SIDES, &self.smoothed),
            counts("rtt, stored at 2^36 and taken", lengths, at_bound),
            counts("rtt, one past it and refused", lengths, past_it),
            table("rtt, eighths of smoothed and adjusted", &self.eighths),
            table("rtt, quarters of rttvar and deviation", &self.quarters),
        ];
        for (title, each) in [
            ("rtt, replies one after the other", self.each_two()),
            ("rtt, refusals of a run at once", self.each_set()),
        ] {
            let can_be = each.into_iter().filter(|met| met.can_be);
            let named = can_be.map(|met| (met.name, met.count));
            all.push((title.to_string(), named.collect()));
        }
        all
    }

    /// What was met and can't be.
    pub fn excluded(&self) -> Vec<String> {
        let each = self.each_two().into_iter().chain(self.each_set());
        let met = each.filter(|met| !met.can_be && met.count > 0);
        met.map(|met| format!("rtt, {}", met.name)).collect()
    }

    /// Each two replies, one after the other.
    fn each_two(&self) -> Vec<Met> {
        let rows = REPLIES.into_iter().zip(&self.followed);
        let each = rows.flat_map(|(one, counts)| {
            let others = REPLIES.into_iter().zip(counts);
            others.map(move |(other, &count)| Met {
                name: format!("{:#x} after {:#x}", other, one),
                can_be: can_follow(one, other),
                count,
            })
        });
        each.collect()
    }

    /// Each set of refusals of a run.
    fn each_set(&self) -> Vec<Met> {
        let each = self.refused.iter().enumerate();
        each.map(|(set, &count)| Met {
            name: tell(set),
            can_be: can_hold(set),
            count,
        })
        .collect()
    }
}

/// Something that can be met or can't, and how often it was.
struct Met {
    name: String,
    can_be: bool,
    count: u64,
}

/// Counts with as many names.
fn counts(title: &str, names: &[&str], counts: &[u64]) -> Counts {
    let names = names.iter().map(|name| name.to_string());
    (
        title.to_string(),
        names.zip(counts.iter().copied()).collect(),
    )
}

/// Counts by two residues.
fn table<const N: usize>(title: &str, counts: &[[u64; N]; N]) -> Counts {
    let each = counts.iter().enumerate().flat_map(|(one, row)| {
        let row = row.iter().enumerate();
        row.map(move |(other, &count)| (format!("{} and {}", one, other), count))
    });
    (title.to_string(), each.collect())
}

#[cfg(test)]
mod tests {
    use super::*;

    #[test]
    fn each_side_is_told() {
        for (number, other, due) in [
            (0, u64::MAX, "below by more"),
            (3, 5, "below by more"),
            (4, 5, "one below"),
            (5, 5, "at it"),
            (6, 5, "one above"),
            (7, 5, "above by more"),
            (u64::MAX, 0, "above by more"),
        ] {
            assert_eq!(SIDES[side(number, other)], due, "{} {}", number, other);
        }
    }

    /// Of 36 pairs of replies 7 can't be: 1 after another than 1, and after 1 what no `new` is given.
    #[test]
    fn some_replies_follow_no_other() {
        let two = REPLIES.map(|one| REPLIES.map(|other| can_follow(one, other)));
        let due = [
            [true, false, true, true, true, true],
            [true, true, true, true, false, false],
            [true, false, true, true, true, true],
            [true, false, true, true, true, true],
            [true, false, true, true, true, true],
            [true, false, true, true, true, true],
        ];
        assert_eq!(two, due);
    }

    /// Of 16 sets 12 can hold: with a wrong length of the state there is no row 1.
    #[test]
    fn refusals_of_a_run_are_told() {
        let can_hold: Vec<usize> = (0..16).filter(|&set| can_hold(set)).collect();
        assert_eq!(can_hold, [0, 1, 2, 4, 5, 6, 8, 9, 10, 12, 13, 14]);
        let told = [0, 1, 6, 13].map(tell);
        let due = ["none", "1", "2.8 at 1 and 2.8 at 2", "1 and 2.8 at 2 and 7"];
        assert_eq!(told, due);
    }
}
