//! Chooses operations on a windowed filter, at the ages and samples where it
//! turns.

use crate::values::Random;
use crate::windowed::Filter;
use crate::world::Step;
use crate::world::World;

const WINDOWS: [u64; 12] = [0, 1, 2, 3, 4, 7, 8, 100, 1000, 1 << 20, 1 << 62, u64::MAX];

/// The place of the first window in which every reason occurs.
const ALL_REASONS: usize = 3;

/// An endless run of operations.
pub struct FilterSteps {
    random: Random,
    /// Operations left on this filter.
    left: u64,
    /// How its updates are chosen.
    plan: Plan,
}

impl FilterSteps {
    pub fn new(seed: u64) -> Self {
        FilterSteps {
            random: Random::new(seed ^ (1 << 62)),
            left: 0,
            plan: Plan::default(),
        }
    }

    /// Whether what comes before the step has no bearing on it.
    pub fn begins(step: &Step) -> bool {
        matches!(step, Step::Filter { op: 0, .. })
    }

    /// The step to be taken in this world.
    pub fn next(&mut self, world: &World) -> Step {
        let random = &mut self.random;
        if self.left == 0 {
            self.left = 5 + random.below(40);
            self.plan = Plan::new(random);
            let x = self.plan.window;
            return Step::Filter { op: 0, x, y: 0 };
        }
        if let Some((x, y)) = self.plan.fixed.pop() {
            return Step::Filter { op: 2, x, y };
        }
        self.left -= 1;
        let filter = &world.filter;
        let (op, (x, y)) = match random.below(24) {
            0 => return Step::Filter { op: 3, x: 0, y: 0 },
            1 => (1, by_chance(random, filter)),
            _ => (2, self.plan.update(random, filter)),
        };
        let y = match random.below(30) {
            0 | 1 => earlier(random, filter),
            2 => random.of_length(64),
            _ => y,
        };
        Step::Filter { op, x, y }
    }
}

/// How the updates of a new filter are chosen.
#[derive(Default)]
pub struct Plan {
    pub window: u64,
    /// Whether they are aimed at what chance seldom finds.
    aimed: bool,
    /// Sample and time of the first ones, the very first last.
    fixed: Vec<(u64, u64)>,
}

impl Plan {
    pub fn new(random: &mut Random) -> Self {
        let aimed = !random.one_in(4);
        let from = if aimed { ALL_REASONS } else { 0 };
        let window = random.pick(&WINDOWS[from..]);
        let fixed = match aimed && random.one_in(5) {
            true => old_third(random, window),
            false => None,
        };
        Plan {
            window,
            aimed,
            fixed: fixed.unwrap_or_default(),
        }
    }

    /// Sample and time of an update: a fixed one; or by chance or, in an aimed run,
    /// mostly one that chance seldom finds; where there is none, one above the best.
    pub fn update(&mut self, random: &mut Random, filter: &Filter) -> (u64, u64) {
        if let Some(fixed) = self.fixed.pop() {
            return fixed;
        }
        if !self.aimed || random.one_in(8) {
            return by_chance(random, filter);
        }
        rare(random, filter).unwrap_or_else(|| {
            let more = 1 + random.below(99);
            (filter[2].saturating_add(more), latest(filter))
        })
    }
}

/// Updates of a new filter, the first one last, after which the third is older than
/// half the window and the best not too old, by two promotions in a row: chance
/// doesn't find them. At the last one the third has the second's sample, or
/// another. Nothing if the window is too narrow, or too wide for 64 bits.
fn old_third(random: &mut Random, window: u64) -> Option<Vec<(u64, u64)>> {
    let quarter = window / 4 + 1;
    let again = quarter.checked_add(window)?.checked_add(1)?;
    let old = again.checked_add(window / 2 + 1)?;
    let third = random.pick(&[1, 2]);
    let updates = [
        (0, old),
        (third, again),
        (1, again),
        (2, window + 1),
        (3, window),
        (4, quarter),
        (5, 0),
    ];
    (window >= 9).then(|| updates.to_vec())
}

/// Sample and time of an update that chance seldom finds: above the third or the
/// second, for step 2, also with ages at which step 3 acts; or as low as the third
/// or lower, just when step 4 or 5 acts.
pub fn rare(random: &mut Random, filter: &Filter) -> Option<(u64, u64)> {
    let [window, _, best, first, second, next, third, newest] = *filter;
    let past = |time: u64, limit: u64| {
        let time = time.saturating_add(limit).saturating_add(1);
        time.max(latest(filter))
    };
    if third < second || second < best && random.one_in(3) {
        let (low, high, older) = match third < second {
            true => (third, second, next),
            false => (second, best, first),
        };
        let time = match random.below(8) {
            0..=3 => latest(filter),
            4 => past(first, window),
            _ => past(older, window),
        };
        return Some((low + 1 + random.below(high - low), time));
    }
    let time = match second < best {
        true => past(newest, window / 2),
        false => past(next, window / 4),
    };
    // By then the best may be too old, and step 3 acts.
    if third == 0 || time - first > window && random.one_in(2) {
        return None;
    }
    let sample = match second < best && random.one_in(3) {
        true => third,
        false => random.below(third),
    };
    Some((sample, time))
}

/// Sample and time, each for itself.
fn by_chance(random: &mut Random, filter: &Filter) -> (u64, u64) {
    (sample(random, filter), time(random, filter))
}

/// A stored sample or one beside it, a small one, or any.
fn sample(random: &mut Random, filter: &Filter) -> u64 {
    let [_, _, best, _, second, _, third, _] = *filter;
    let stored = random.pick(&[best, second, third]);
    match random.below(8) {
        0..=2 => stored,
        3 => stored.saturating_add(1),
        4 => stored.saturating_sub(1),
        5 => random.of_length(64),
        _ => random.below(8),
    }
}

/// A time at which an estimate's age is a part of the window or one more, not
/// earlier than the stored ones.
fn time(random: &mut Random, filter: &Filter) -> u64 {
    let [window, _, _, first, _, second, _, third] = *filter;
    let latest = latest(filter);
    let part = random.pick(&[window / 4, window / 2, window]);
    let time = match random.below(8) {
        0 => latest,
        1 => latest.saturating_add(1),
        2 => latest.saturating_add(random.below(window.saturating_add(1)) / 4),
        _ => {
            let stored = random.pick(&[first, second, third]);
            let age = part.saturating_add(random.below(2));
            stored.saturating_add(age)
        }
    };
    time.max(latest)
}

fn latest(filter: &Filter) -> u64 {
    let [_, _, _, first, _, second, _, third] = *filter;
    first.max(second).max(third)
}

/// A time just before a stored one.
pub fn earlier(random: &mut Random, filter: &Filter) -> u64 {
    let [_, _, _, first, _, second, _, third] = *filter;
    random.pick(&[first, second, third]).saturating_sub(1)
}
