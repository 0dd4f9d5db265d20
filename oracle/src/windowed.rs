//! The windowed filter of the original, on plain numbers, and the reason of an
//! update, which the original doesn't say. What the table of document 01
//! refuses isn't asked of it.

use guovssalu_sys::table::pair;
use guovssalu_sys::table::reason;
use guovssalu_sys::table::reply;
use guovssalu_sys::table::PAIR_BYTES;
use guovssalu_sys::table::PAIR_WORDS;
use guovssalu_sys::table::WORD_BYTES;

use crate::frame;
use crate::places;
use crate::recovery::gcongestion::WindowedFilter;

/// A windowed filter: its window, whether it is full, and sample and time of
/// the three estimates.
pub type Filter = [u64; 8];

/// Sample and time of an estimate.
type Estimate = (u64, u64);

/// What an accepted update did.
pub struct Updated {
    /// What step 2 did: a reason, unchanged if it didn't act.
    pub raised: u64,
    pub reason: u64,
    /// Whether the original did what was foreseen.
    pub as_foreseen: bool,
}

/// An update as the documents have it.
pub struct Foreseen {
    /// The steps of document 01 that it goes through, and the ages that stand
    /// at a limit or one past it.
    pub marks: Vec<&'static str>,
    /// What step 2 does: a reason, unchanged if it doesn't act.
    pub raised: u64,
    /// The reason by document 02: the step that acts last.
    pub reason: u64,
    /// The estimates after it.
    held: [Estimate; 3],
}

/// Foresees an update that isn't refused.
pub fn foresee(filter: &Filter, sample: u64, time: u64) -> Foreseen {
    let window = filter[0];
    let new = (sample, time);
    let mut update = Foreseen {
        marks: Vec::new(),
        raised: reason::UNCHANGED,
        reason: reason::ALL_REPLACED,
        held: [new; 3],
    };
    let Some([mut best, mut second, mut third]) = held(filter) else {
        update.marks.push("1: empty");
        return update;
    };
    let age = |estimate: Estimate| time - estimate.1;
    let at = |age: u64, limit: u64, [at, past]: [&'static str; 2]| {
        if age == limit {
            Some(at)
        } else if limit.checked_add(1) == Some(age) {
            Some(past)
        } else {
            None
        }
    };

    if sample > best.0 {
        update.marks.push("1: above the best");
        return update;
    }
    update.marks.extend(at(
        age(third),
        window,
        ["third's age = window", "third's age = window + 1"],
    ));
    if age(third) > window {
        update.marks.push("1: third too old");
        return update;
    }

    if sample == best.0 {
        update.marks.push("sample = best");
    }
    if sample == second.0 {
        update.marks.push("sample = second");
    }
    if sample == third.0 {
        update.marks.push("sample = third");
    }
    if sample > second.0 {
        update.marks.push("2: above the second");
        update.raised = reason::SECOND_RAISED;
        (second, third) = (new, new);
    } else if sample > third.0 {
        update.marks.push("2: above the third");
        update.raised = reason::THIRD_RAISED;
        third = new;
    } else {
        update.marks.push("2: above none");
    }

    update.marks.extend(at(
        age(best),
        window,
        ["best's age = window", "best's age = window + 1"],
    ));
    if age(best) > window {
        (best, second, third) = (second, third, new);
        update.marks.extend(at(
            age(best),
            window,
            ["next best's age = window", "next best's age = window + 1"],
        ));
        if age(best) > window {
            update.marks.push("3: shifted twice");
            update.reason = reason::PROMOTED_TWICE;
            (best, second) = (second, third);
        } else {
            update.marks.push("3: shifted once");
            update.reason = reason::PROMOTED_ONCE;
        }
        update.held = [best, second, third];
        return update;
    }

    if second.0 == best.0 {
        update.marks.extend(at(
            age(second),
            window / 4,
            ["second's age = window/4", "second's age = window/4 + 1"],
        ));
        if age(second) > window / 4 {
            update.marks.push("4: second and third");
            update.reason = reason::QUARTER_REFRESH;
            update.held = [best, new, new];
            return update;
        }
    }
    if third.0 == second.0 {
        update.marks.extend(at(
            age(third),
            window / 2,
            ["third's age = window/2", "third's age = window/2 + 1"],
        ));
        if age(third) > window / 2 {
            update.marks.push("5: third");
            update.reason = reason::HALF_REFRESH;
            update.held = [best, second, new];
            return update;
        }
    }
    update.marks.push("none of 3 to 5");
    update.reason = update.raised;
    update.held = [best, second, third];
    update
}

/// Updates the filter; nothing if that is refused, and the filter stays.
pub fn update(filter: &mut Filter, sample: u64, time: u64) -> Option<Updated> {
    let before = held(filter);
    if before.iter().flatten().any(|estimate| time < estimate.1) {
        return None;
    }
    let foreseen = foresee(filter, sample, time);
    let mut original = original(filter);
    original.update(sample, time as usize);
    keep(filter, &original);

    let after = held(filter);
    let unchanged = foreseen.reason == reason::UNCHANGED;
    Some(Updated {
        raised: foreseen.raised,
        reason: foreseen.reason,
        as_foreseen: after == Some(foreseen.held) && unchanged == (after == before),
    })
}

/// Makes an operation of the filter's list that is no update.
pub fn operate(filter: &mut Filter, op: u64, x: u64, y: u64) {
    let mut original = original(filter);
    match op {
        0 => {
            original = WindowedFilter::new(x as usize);
            filter[0] = x;
        }
        1 => original.reset(x, y as usize),
        _ => original.clear(),
    }
    keep(filter, &original);
}

/// The reply to a run of a new filter over the pairs of a time and a sample in
/// these bytes, with so many bytes lent to it, and what it writes: the three
/// samples after each pair, and the reason. The updates, if it is done.
pub fn run(window: u64, pairs: &[u8], lent: usize) -> (u64, Vec<u64>, Vec<Updated>) {
    let none = |reply| (reply, Vec::new(), Vec::new());
    if pairs.len() % PAIR_BYTES != 0 {
        return none(places::PAIRS_LENGTH.reply());
    }
    let mut filter = [0; 8];
    operate(&mut filter, 0, window, 0);
    let (mut words, mut updates) = (Vec::new(), Vec::new());
    for pair in frame::words(pairs).chunks_exact(PAIR_WORDS) {
        let Some(updated) = update(&mut filter, pair[pair::SAMPLE], pair[pair::TIME]) else {
            return none(reply::EARLIER_MOMENT);
        };
        words.extend([filter[2], filter[4], filter[6], updated.reason]);
        updates.push(updated);
    }
    if lent < WORD_BYTES * words.len() {
        return none(reply::SHORT_OUTPUT);
    }
    (0, words, updates)
}

/// The estimates, if the filter isn't empty.
fn held(filter: &Filter) -> Option<[Estimate; 3]> {
    let [_, full, s0, t0, s1, t1, s2, t2] = *filter;
    (full == 1).then_some([(s0, t0), (s1, t1), (s2, t2)])
}

/// The filter as the original has it.
fn original(filter: &Filter) -> WindowedFilter<u64, usize, usize> {
    let held = held(filter).map(|held| held.map(|(sample, time)| (sample, time as usize)));
    WindowedFilter::holding(filter[0] as usize, held)
}

/// Takes the original's estimates, zeros if it has none.
fn keep(filter: &mut Filter, original: &WindowedFilter<u64, usize, usize>) {
    let held = original.held();
    filter[1] = held.is_some() as u64;
    let held = held.unwrap_or_default();
    for (place, (sample, time)) in filter[2..].chunks_mut(2).zip(held) {
        place.copy_from_slice(&[sample, time as u64]);
    }
}
