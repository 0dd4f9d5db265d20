//! The ends of what each flaw allows: numbers that are just allowed, and numbers that are just not.

use crate::bounds::BYTES;
use crate::bounds::LEAST_GAIN;
use crate::bounds::MOST_GAIN;
use crate::dice::Dice;
use crate::places::Flaw;
use crate::places::Given;
use crate::places::Wrong;
use crate::values::NO_FLAGS;
use crate::words::call as c;
use crate::words::state as s;
use crate::words::UNSET;

/// The most ends that a flaw has on one side.
pub const MOST: usize = 3;

/// Ends on one side: what `measure` gives there.
pub type Ends = [Option<i128>; MOST];

/// Above all that one word can measure: from here on two words are measured.
const TWO: i128 = 1 << 64;

/// The one pattern of a NaN that is written.
const NAN: u32 = 0x7fc0_0000;

/// So many ends.
fn ends<const N: usize>(some: [u64; N]) -> Ends {
    let mut ends = [None; MOST];
    for (end, some) in ends.iter_mut().zip(some) {
        *end = Some(some as i128);
    }
    ends
}

/// The number by which a flaw is judged. A pair is measured by its first word, or by its second if it is
/// unset; acked numbers by their count, or if they lie in lists by how far they pass the lists' end.
pub fn measure(flaw: &Flaw, given: &Given) -> i128 {
    let word = given.words[flaw.word];
    match flaw.wrong {
        Wrong::Above | Wrong::AboveAndSet | Wrong::NoFlag | Wrong::NotExactly(_) => word as i128,
        Wrong::NoPair if word == 0 => TWO + given.words[flaw.word + 1] as i128,
        Wrong::NoPair => word as i128,
        Wrong::HeldAbove => given.words[flaw.word + 1] as i128,
        Wrong::HighBits => (word >> 32) as i128,
        Wrong::NoGain => word as u32 as i128,
        Wrong::NotInLists if word > 3 && !given.lists.is_empty() => {
            let end = given.words[c::ACKED] as i128 + word as i128;
            TWO + end - given.lists.len() as i128
        }
        Wrong::NotInLists => word as i128,
        Wrong::Postponed => given.state[s::MIN_RTT_TIMESTAMP] as i128 + word as i128,
        Wrong::NotWhole(bytes) => (word % bytes) as i128,
        Wrong::NoCall => 0,
    }
}

/// The ends that are allowed.
pub fn inside(flaw: &Flaw, with_lists: bool) -> Ends {
    let most = flaw.named.bound.most();
    match flaw.wrong {
        Wrong::Above | Wrong::HeldAbove | Wrong::Postponed => ends([most]),
        Wrong::AboveAndSet => ends([BYTES, UNSET]),
        Wrong::NoFlag => ends([0, 1]),
        Wrong::NoPair => [Some(1), Some(TWO), None],
        Wrong::HighBits | Wrong::NotWhole(_) => ends([0]),
        Wrong::NoGain => ends([LEAST_GAIN as u64, MOST_GAIN as u64]),
        Wrong::NotInLists if with_lists => [Some(3), Some(TWO), None],
        Wrong::NotInLists => ends([3]),
        Wrong::NotExactly(bytes) => ends([bytes]),
        Wrong::NoCall => ends([]),
    }
}

/// The ends that are not.
pub fn outside(flaw: &Flaw, with_lists: bool) -> Ends {
    let most = flaw.named.bound.most();
    match flaw.wrong {
        Wrong::Above | Wrong::HeldAbove | Wrong::Postponed => ends([most + 1]),
        Wrong::AboveAndSet => ends([BYTES + 1, UNSET - 1]),
        Wrong::NoFlag => ends([2]),
        Wrong::NoPair => [Some(2), Some(TWO + 1), None],
        Wrong::HighBits => ends([1, 1 << 31]),
        Wrong::NoGain => ends([LEAST_GAIN as u64 - 1, MOST_GAIN as u64 + 1, NAN as u64]),
        Wrong::NotInLists if with_lists => [Some(TWO + 1), None, None],
        Wrong::NotInLists => ends([4]),
        Wrong::NotExactly(bytes) => ends([bytes - 1, bytes + 1]),
        Wrong::NotWhole(bytes) => ends([1, bytes - 1]),
        Wrong::NoCall => ends([0]),
    }
}

/// Gains that are none, by their patterns: zeros, negative ones, below, above, infinite and no number.
const NO_GAINS: [u32; 12] = [
    0,
    0x8000_0000,
    1,
    0xba80_0000,
    0xbf80_0000,
    LEAST_GAIN - 1,
    MOST_GAIN + 1,
    0x7f80_0000,
    0xff80_0000,
    NAN,
    0xffc0_0000,
    0x7f80_0001,
];

/// Any measure that is not allowed.
pub fn far(dice: &mut Dice, flaw: &Flaw, with_lists: bool) -> i128 {
    let most = flaw.named.bound.most();
    match flaw.wrong {
        Wrong::Above | Wrong::HeldAbove => {
            let near = most + 1 + dice.below(1_000);
            dice.pick(&[most + 1, near, 2 * most, 1 << 63, UNSET - 1]) as i128
        }
        Wrong::AboveAndSet => dice.pick(&[BYTES + 1, 2 * BYTES, 1 << 63, UNSET - 1]) as i128,
        Wrong::NoFlag => dice.pick(&NO_FLAGS) as i128,
        Wrong::NoPair if dice.one_in(3) => {
            TWO + dice.pick(&[1, 5, 1 << 36, 1 << 40, UNSET]) as i128
        }
        Wrong::NoPair => dice.pick(&NO_FLAGS) as i128,
        Wrong::HighBits => dice.pick(&[1, 2, 1 << 31, u32::MAX]) as i128,
        Wrong::NoGain => dice.pick(&NO_GAINS) as i128,
        Wrong::NotInLists if with_lists => TWO + dice.pick(&[1_u64, 2, 1 << 32, 1 << 63]) as i128,
        Wrong::NotInLists => dice.pick(&[4, 5, 8, 1 << 32, UNSET]) as i128,
        Wrong::Postponed | Wrong::NotExactly(_) | Wrong::NotWhole(_) | Wrong::NoCall => {
            outside(flaw, with_lists)[0].unwrap_or(0)
        }
    }
}

/// A measure at an end, mostly one that is not allowed, or any other that is not.
pub fn about(dice: &mut Dice, flaw: &Flaw, with_lists: bool) -> i128 {
    let ends = match dice.below(3) {
        0 => inside(flaw, with_lists),
        _ => outside(flaw, with_lists),
    };
    let far = far(dice, flaw, with_lists);
    dice.pick(&ends).unwrap_or(far)
}

/// Lets a flaw of a call measure this. Of the words that it goes by only those are changed that have to
/// be. Acked numbers are in the lists where that is measured: these then have four words or more.
pub fn set(flaw: &Flaw, to: i128, state: &mut [u64], call: &mut [u64], lists: &[u64]) {
    let at = flaw.word;
    match flaw.wrong {
        Wrong::NoPair if to < TWO => call[at] = to as u64,
        Wrong::NoPair => {
            call[at] = 0;
            call[at + 1] = (to - TWO) as u64;
        }
        Wrong::HeldAbove => {
            call[at] = 1;
            call[at + 1] = to as u64;
        }
        Wrong::HighBits => call[at] = call[at] as u32 as u64 | (to as u64) << 32,
        Wrong::NotInLists if to >= TWO => {
            let end = lists.len() as i128 + to - TWO;
            call[at] = call[at].clamp(4, lists.len() as u64);
            call[c::ACKED] = (end - call[at] as i128) as u64;
        }
        Wrong::Postponed => {
            call[at] = call[at].max(1);
            state[s::MIN_RTT_TIMESTAMP] = (to - call[at] as i128) as u64;
        }
        Wrong::NoCall | Wrong::NotExactly(_) | Wrong::NotWhole(_) => {}
        _ => call[at] = to as u64,
    }
}
