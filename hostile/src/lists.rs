//! The numbers that an event acks and, where they lie in lists, their place: good ones, and hostile
//! ones.

use crate::dice::Dice;
use crate::values;
use crate::words::call as c;
use crate::words::state as s;
use crate::words::Call;
use crate::words::State;

const MAX: u64 = u64::MAX;

/// The most words that are lent as lists.
pub const LONGEST: usize = 1_000;

/// How many words the swept lists have.
pub const LENGTHS: [usize; 6] = [0, 1, 3, 4, 5, LONGEST];

/// The fewest numbers that lie in a list.
pub const FEWEST: usize = 4;

/// Counts for lists of so many words: what the call itself has room for, what the lists hold, and
/// such as grow small when their upper bits are lost, or as bytes.
pub fn counts(len: u64) -> [u64; 19] {
    [
        0,
        1,
        2,
        3,
        4,
        5,
        len.wrapping_sub(4),
        len.wrapping_sub(3),
        len.wrapping_sub(1),
        len,
        len + 1,
        (1 << 32) + 3,
        (1 << 32) + 4,
        1 << 61,
        (1 << 61) + 4,
        1 << 63,
        MAX - 3,
        MAX - 1,
        MAX,
    ]
}

/// Starts beside a count: inside lists of so many words, at their end, one past it, and such as grow
/// small in a sum, when their upper bits are lost, or as bytes.
pub fn starts(len: u64, count: u64) -> [u64; 16] {
    let last = len.wrapping_sub(count);
    [
        0,
        1,
        3,
        4,
        len.wrapping_sub(1),
        len,
        len + 1,
        last,
        last.wrapping_add(1),
        last.wrapping_sub(1),
        0_u64.wrapping_sub(count),
        1 << 32,
        1 << 61,
        1 << 63,
        MAX - 1,
        MAX,
    ]
}

/// Fills a list for an event in a state: one in four about the last sent number, with some above it, and
/// the others about it or about the end of the round, with none above it.
fn fill_in(dice: &mut Dice, state: &State, numbers: &mut [u64]) {
    let (end, sent) = (state[s::END_OF_ROUND_TRIP + 1], state[s::LAST_SENT_PACKET]);
    if dice.one_in(4) {
        return fill(dice, numbers, sent);
    }
    let limit = dice.pick(&[end, end, sent]);
    fill(dice, numbers, limit);
    for number in numbers {
        *number = sent.min(*number);
    }
}

/// Fills a list with numbers about a limit: in any order, falling, rising, all the same, or not above
/// the limit but for one.
pub fn fill(dice: &mut Dice, numbers: &mut [u64], limit: u64) {
    let (above, below) = (limit.saturating_add(1), limit.saturating_sub(1));
    let count = numbers.len() as u64;
    let highest = limit.saturating_add(dice.below(count + 2));
    let same = dice.pick(&[0, below, limit, above, MAX]);
    let way = dice.below(12);
    for (at, number) in (0..count).zip(numbers.iter_mut()) {
        *number = match way {
            0 => values::any(dice),
            1 => highest.saturating_sub(at),
            2 => highest.saturating_sub(count - 1 - at),
            3 => same,
            4 => dice.pick(&[below, limit, above]),
            _ => limit.saturating_sub(dice.below(3)),
        };
    }
    if way > 4 && count > 0 {
        let (any, half) = (dice.length(numbers.len()), numbers.len() / 2);
        let place = dice.pick(&[0, any, half, half, numbers.len() - 1]);
        numbers[place] = dice.pick(&[below, limit, above, above, MAX]);
    }
}

/// Fills the call's own room for acked numbers. Those past the count must not be looked at, and often
/// they would end the round and were never sent.
pub fn fill_call(dice: &mut Dice, state: &State, call: &mut Call) {
    let count = call[c::ACKED_COUNT].min(3) as usize;
    let (counted, rest) = call[c::ACKED..c::RECORD].split_at_mut(count);
    fill_in(dice, state, counted);
    if dice.one_in(2) {
        rest.fill(MAX);
    }
}

/// Lists for a run in a state, of any length up to the longest.
pub fn chosen(dice: &mut Dice, state: &State) -> Vec<u64> {
    let length = match dice.below(8) {
        0 => dice.pick(&LENGTHS),
        1 => dice.length(LONGEST + 1),
        _ => dice.length(24),
    };
    let mut lists = vec![0; length];
    fill_in(dice, state, &mut lists);
    lists
}

/// Lets an event take its numbers from the lists, which are written anew at its place or not; lists
/// that are too short for it stay as they are.
pub fn place(dice: &mut Dice, state: &State, call: &mut Call, lists: &mut [u64]) {
    let most = lists.len().max(FEWEST);
    let count = match dice.below(4) {
        0 => FEWEST,
        1 => most,
        _ => FEWEST + dice.length(most - FEWEST + 1),
    };
    let last = most - count;
    let any = dice.length(last + 1);
    let start = dice.pick(&[0, any, last]);
    call[c::ACKED_COUNT] = count as u64;
    call[c::ACKED] = start as u64;
    if let (Some(numbers), true) = (lists.get_mut(start..start + count), dice.one_in(2)) {
        fill_in(dice, state, numbers);
    }
}

/// Moves an event's place to where something turns for lists of so many words.
pub fn misplace(dice: &mut Dice, call: &mut Call, len: usize) {
    if dice.one_in(2) {
        call[c::ACKED_COUNT] = dice.pick(&counts(len as u64));
    }
    if dice.one_in(2) {
        call[c::ACKED] = dice.pick(&starts(len as u64, call[c::ACKED_COUNT]));
    }
}
