//! Hostile runs of the windowed filter.

use guovssalu_sys::table::reason;
use guovssalu_sys::table::samples;
use guovssalu_sys::table::PAIR_BYTES;
use guovssalu_sys::table::SAMPLES_BYTES;
use guovssalu_sys::table::SAMPLES_WORDS;

use crate::checks;
use crate::choose;
use crate::dice::Dice;
use crate::lent::Ground;
use crate::places::Callee;
use crate::places::Given;
use crate::table::Rows;
use crate::tally::Export;
use crate::tally::Tally;
use crate::trial::Trial;
use crate::values;
use crate::words;

/// A run has fewer pairs than this, and the ranges lent are no longer.
const MOST: usize = 24;
const LONGEST: usize = 1_024;

/// What a run writes for a pair.
pub type Samples = [u64; SAMPLES_WORDS];

/// A sample and its time.
type Estimate = (u64, u64);

/// The three estimates after an update, and its reason: document 02, "Let the filter say what
/// happened".
type Updated = ([Estimate; 3], u64);

/// The three estimates of a filter, or none: document 01, "Windowed filter".
#[derive(Default)]
pub struct Windowed(Option<[Estimate; 3]>);

impl Windowed {
    /// Row 3: "for the windowed filter, earlier than any of its three stored times".
    fn refuses(&self, time: u64) -> bool {
        self.0
            .map_or(false, |stored| stored.iter().any(|&(_, at)| time < at))
    }

    /// An update that isn't refused, by steps 1 to 5. The reason is the step that acted last. "All
    /// age tests are strictly greater."
    fn update(&mut self, window: u64, time: u64, sample: u64) -> Updated {
        let new = (sample, time);
        let updated = match self.0 {
            // "1. Empty, new sample > best, or age of third > window: all three become the new
            // sample."
            None => replaced(new),
            Some([best, ..]) if sample > best.0 => replaced(new),
            Some([_, _, third]) if time - third.1 > window => replaced(new),
            Some(stored) => aged(raised(stored, new), window, new),
        };
        self.0 = Some(updated.0);
        updated
    }
}

/// What step 1 leaves.
fn replaced(new: Estimate) -> Updated {
    ([new; 3], reason::ALL_REPLACED)
}

/// "2. Else sample > second: second and third become it. Else sample > third: third becomes it."
fn raised([best, second, third]: [Estimate; 3], new: Estimate) -> Updated {
    if new.0 > second.0 {
        ([best, new, new], reason::SECOND_RAISED)
    } else if new.0 > third.0 {
        ([best, second, new], reason::THIRD_RAISED)
    } else {
        ([best, second, third], reason::UNCHANGED)
    }
}

/// Steps 3 to 5, after step 2. "If step 2 of document 01 and a later step both act, the later one is
/// named."
fn aged(([best, second, third], earlier): Updated, window: u64, new: Estimate) -> Updated {
    let age = |estimate: Estimate| new.1 - estimate.1;
    // "3. If age of best > window: shift up, third becomes the new sample; if the new best is still
    // too old, best takes second and second takes third, third staying. Stop."
    if age(best) > window {
        if age(second) > window {
            ([third, new, new], reason::PROMOTED_TWICE)
        } else {
            ([second, third, new], reason::PROMOTED_ONCE)
        }
    // "4. Else if second's sample equals best's and second's age > window / 4 (whole division):
    // second and third become new. Stop."
    } else if second.0 == best.0 && age(second) > window / 4 {
        ([best, new, new], reason::QUARTER_REFRESH)
    // "5. Else if third's sample equals second's and third's age > window / 2: third becomes new."
    } else if third.0 == second.0 && age(third) > window / 2 {
        ([best, second, new], reason::HALF_REFRESH)
    } else {
        ([best, second, third], earlier)
    }
}

/// The rows of a run, and what it writes for each pair where none holds. "It starts empty. Bytes not
/// in whole sixteens give 2; a pair that the update would refuse, 3 for the whole run". By document
/// 02 it writes the reason "as a fourth u64 after the three samples, numbered 0 to 7 in this order,
/// and gives 7 under 32 bytes a pair".
pub fn due(window: u64, src: &[u8], out_len: usize) -> (Rows, Vec<Samples>) {
    let mut filter = Windowed::default();
    let mut written = Vec::new();
    let mut refused = false;
    for pair in src.chunks_exact(PAIR_BYTES) {
        let [time, sample] = words::words(pair);
        refused = filter.refuses(time);
        if refused {
            break;
        }
        let ([best, second, third], reason) = filter.update(window, time, sample);
        written.push([best.0, second.0, third.0, reason]);
    }
    let rows = Rows::default()
        .with_flaws(Callee::FilterRun, &Given::numbers(&[src.len() as u64]))
        .with(3, refused)
        .with(7, out_len < src.len() / PAIR_BYTES * SAMPLES_BYTES);
    (rows, written)
}

/// The grounds of a run's two ranges.
pub struct Filter {
    src: Ground,
    out: Ground,
}

impl Filter {
    pub fn new() -> Self {
        Filter {
            src: Ground::new(LONGEST),
            out: Ground::new(LONGEST),
        }
    }

    /// One case: chosen, made, checked.
    pub fn case(&mut self, trial: &mut Trial) {
        let window = window(&mut trial.dice);
        let mut src = pairs(&mut trial.dice, window);
        let mut length = src.len() / PAIR_BYTES * SAMPLES_BYTES;
        if trial.dice.one_in(4) {
            length = choose::length(&mut trial.dice, length, LONGEST);
        }
        if trial.dice.one_in(6) {
            let length = choose::length(&mut trial.dice, src.len(), LONGEST);
            choose::resize(&mut trial.dice, &mut src, length);
        }
        let out = trial.dice.bytes(length);
        self.run(trial, window, &src, &out);
    }

    /// Inputs of each length with outputs of each length, about three pairs of them.
    pub fn each_length(&mut self, trial: &mut Trial) {
        for src_len in 0..=3 * PAIR_BYTES + 1 {
            for out_len in 0..=3 * SAMPLES_BYTES + 1 {
                let window = window(&mut trial.dice);
                let mut src = pairs(&mut trial.dice, window);
                choose::resize(&mut trial.dice, &mut src, src_len);
                let out = trial.dice.bytes(out_len);
                self.run(trial, window, &src, &out);
            }
        }
    }

    /// Pairs whose times stay or fall, with a part of a pair after them or without, and with an output
    /// that is too short or not.
    pub fn each_refusal(&mut self, trial: &mut Trial) {
        for (times, part) in [[5, 5, 5], [5, 4, 5]]
            .into_iter()
            .flat_map(|times| [0, 1, PAIR_BYTES - 1].map(|part| (times, part)))
        {
            for short in [0, 1, SAMPLES_BYTES] {
                let mut src = words::bytes(&times.map(|time| [time, 1]).concat());
                src.extend(trial.dice.bytes(part));
                let out = trial.dice.bytes(times.len() * SAMPLES_BYTES - short);
                self.run(trial, 8, &src, &out);
            }
        }
    }

    /// Makes a run over these bytes and checks it.
    fn run(&mut self, trial: &mut Trial, window: u64, src: &[u8], out: &[u8]) {
        self.src.lend(src, &mut trial.dice);
        self.out.lend(out, &mut trial.dice);
        let given = trial.port.filter_run(window, &mut self.src, &mut self.out);
        self.check(&mut trial.tally, window, src, out, given);
    }

    /// Checks the reply, the output, the input and the guards.
    fn check(&mut self, tally: &mut Tally, window: u64, src: &[u8], out: &[u8], given: u64) {
        let tell = || {
            let pairs: Vec<[u64; 2]> = src.chunks_exact(PAIR_BYTES).map(words::words).collect();
            let lengths = (src.len(), out.len());
            format!(
                "  guovssalu_filter_run, window {}, bytes {:?}, pairs {:?}",
                window, lengths, pairs
            )
        };
        let (rows, written) = due(window, src, out.len());
        tally.replied(Export::FilterRun, &rows, given, tell);
        let numbers = [src.len() as u64];
        tally.asked(Callee::FilterRun, false, &Given::numbers(&numbers), &rows);
        let written = (rows.due() == 0).then_some(written);
        for pair in written.iter().flatten() {
            tally.reasoned(pair[samples::REASON]);
        }
        let written = written.map(|written| words::bytes(&written.concat()));
        checks::output(tally, &self.out, out, written, tell);
        checks::input(tally, &self.src, src, "pairs", tell);
        checks::guards(tally, &mut self.src, "pairs", tell);
        checks::guards(tally, &mut self.out, "output", tell);
    }
}

/// A window: a small one, or any.
fn window(dice: &mut Dice) -> u64 {
    if dice.one_in(2) {
        dice.pick(&[0, 1, 2, 3, 4, 7, 8, 9, 100])
    } else {
        values::hostile(dice, 1 << 36)
    }
}

/// Pairs of time and sample, from any time on: here and there such as set the estimates apart, and
/// then small samples and hostile ones; or bytes without any plan.
fn pairs(dice: &mut Dice, window: u64) -> Vec<u8> {
    let count = dice.length(MOST);
    if dice.one_in(16) {
        return dice.bytes(count * PAIR_BYTES);
    }
    let falls = dice.pick(&[0, 0, 8, 30]);
    let mut time = values::hostile(dice, 1 << 62) >> dice.pick(&[0, 1, 32]);
    let mut pairs = Vec::new();
    while pairs.len() < count {
        match dice.below(if pairs.is_empty() { 6 } else { 24 }) {
            0..=2 => pairs.extend(apart(window, time)),
            3 => pairs.extend(old_third(dice, window, time)),
            _ => pairs.push([next_time(dice, window, falls, time), sample(dice)]),
        }
        [time, _] = pairs[pairs.len() - 1];
    }
    pairs.truncate(count);
    words::bytes(&pairs.concat())
}

/// Pairs that set the estimates apart: a quarter and a half refresh, each as early as it may be.
fn apart(window: u64, time: u64) -> [[u64; 2]; 3] {
    let quarter = time.saturating_add(window / 4 + 1);
    let half = quarter.saturating_add(window / 2 + 1);
    [[time, 5], [quarter, 3], [half, 1]]
}

/// Pairs that end where the third is older than half the window and the best not too old, in windows
/// of 9 or more. The third then has the second's sample, or another.
fn old_third(dice: &mut Dice, window: u64, time: u64) -> [[u64; 2]; 7] {
    let quarter = time.saturating_add(window / 4 + 1);
    let half = time.saturating_add(window);
    let once = half.saturating_add(1);
    let again = quarter.saturating_add(window).saturating_add(1);
    let old = again.saturating_add(window / 2 + 1);
    let third = dice.pick(&[1, 2]);
    [
        [time, 5],
        [quarter, 4],
        [half, 3],
        [once, 2],
        [again, 1],
        [again, third],
        [old, 0],
    ]
}

/// A time that is later by about a part of the window; if times fall, once in so many a bit earlier.
fn next_time(dice: &mut Dice, window: u64, falls: u64, time: u64) -> u64 {
    if falls > 0 && dice.one_in(falls) {
        return time.saturating_sub(dice.below(4));
    }
    let near = dice.below(3).wrapping_sub(1);
    let step = dice
        .pick(&[0, 1, 2, window / 4, window / 2, window])
        .wrapping_add(near);
    time.saturating_add(step.min(window.saturating_add(1)))
}

/// A small sample, or a hostile one.
fn sample(dice: &mut Dice) -> u64 {
    if dice.one_in(6) {
        values::hostile(dice, 8)
    } else {
        dice.below(6)
    }
}

#[cfg(test)]
mod tests {
    use super::*;

    /// A window, pairs of time and sample, the reasons that they give, and the last three samples.
    type Worked = (u64, &'static [[u64; 2]], &'static [u64], [u64; 3]);

    /// Worked by hand, the steps and the numbers.
    const RUNS: [Worked; 13] = [
        (
            8,
            &[[0, 5], [2, 5], [3, 5], [5, 3], [8, 4], [9, 2], [12, 6]],
            &[0, 7, 5, 7, 5, 3, 0],
            [6, 6, 6],
        ),
        // Second raised, then promoted once: all three are new, and not by step 1.
        (
            4,
            &[[0, 0], [0, 1], [2, 0], [5, 1]],
            &[0, 0, 5, 3],
            [1, 1, 1],
        ),
        // Third raised, then promoted twice: so they are here.
        (
            4,
            &[[0, 1], [2, 1], [5, 0], [7, 1]],
            &[0, 5, 3, 4],
            [1, 1, 1],
        ),
        // Third raised, then promoted once.
        (
            8,
            &[[0, 3], [3, 2], [8, 0], [9, 1]],
            &[0, 5, 6, 3],
            [2, 1, 1],
        ),
        // Third raised, then quarter refresh.
        (
            4,
            &[[0, 1], [2, 1], [5, 0], [5, 1]],
            &[0, 5, 3, 5],
            [1, 1, 1],
        ),
        // Third raised alone, then second raised alone.
        (
            8,
            &[[0, 5], [3, 3], [8, 1], [8, 2], [8, 4]],
            &[0, 5, 6, 2, 1],
            [5, 4, 4],
        ),
        // The third's age is the window, and one more.
        (8, &[[0, 5], [8, 4]], &[0, 5], [5, 4, 4]),
        (8, &[[0, 5], [9, 4]], &[0, 0], [4, 4, 4]),
        // The third's age is half the window, and one more.
        (
            8,
            &[[0, 5], [3, 3], [7, 2], [8, 2]],
            &[0, 5, 7, 6],
            [5, 3, 2],
        ),
        // The age of the best after a shift is the window, and one more.
        (
            8,
            &[[0, 5], [3, 3], [8, 1], [11, 0]],
            &[0, 5, 6, 3],
            [3, 1, 0],
        ),
        (
            8,
            &[[0, 5], [3, 3], [8, 1], [12, 0]],
            &[0, 5, 6, 4],
            [1, 0, 0],
        ),
        // The third's age is above half the window, with another sample than the second's.
        (
            12,
            &[[0, 9], [4, 8], [12, 7], [13, 6], [17, 5], [24, 4]],
            &[0, 5, 6, 3, 3, 7],
            [7, 6, 5],
        ),
        // It has the second's sample, of another time.
        (
            12,
            &[[0, 9], [4, 8], [12, 7], [13, 6], [17, 5], [17, 6], [24, 4]],
            &[0, 5, 6, 3, 3, 2, 6],
            [7, 6, 4],
        ),
    ];

    #[test]
    fn worked_runs_give_their_reasons() {
        for (window, pairs, reasons, last) in RUNS {
            let told = format!("window {}, pairs {:?}", window, pairs);
            let (_, written) = due(window, &words::bytes(&pairs.concat()), LONGEST);
            let given: Vec<u64> = written.iter().map(|pair| pair[samples::REASON]).collect();
            assert_eq!(given, reasons, "{}", told);
            assert_eq!(
                written[pairs.len() - 1][..samples::REASON],
                last,
                "{}",
                told
            );
        }
    }

    #[test]
    fn unchanged_is_where_nothing_moved() {
        let mut dice = Dice::new(7);
        for _ in 0..1_000 {
            let window = window(&mut dice);
            let mut filter = Windowed::default();
            for pair in pairs(&mut dice, window).chunks_exact(PAIR_BYTES) {
                let [time, sample] = words::words(pair);
                if filter.refuses(time) {
                    break;
                }
                let before = filter.0;
                let (after, reason) = filter.update(window, time, sample);
                assert_eq!(reason == reason::UNCHANGED, before == Some(after));
            }
        }
    }

    #[test]
    fn an_output_is_too_short_under_32_bytes_a_pair() {
        for (pairs, out_len, reply) in [
            (0, 0, 0),
            (1, 31, 7),
            (1, 32, 0),
            (1, 33, 0),
            (2, 63, 7),
            (2, 64, 0),
            (3, 72, 7),
            (3, 95, 7),
            (3, 96, 0),
        ] {
            let (rows, _) = due(8, &vec![0; pairs * 16], out_len);
            assert_eq!(rows.due(), reply, "{} pairs, {} bytes", pairs, out_len);
        }
    }
}
