//! The swept cases of the model's words and lengths: every word at every number where something turns,
//! every malformed word, numbers that are no call's, every length.

use guovssalu_sys::table::call as calls;
use guovssalu_sys::table::CALL_WORDS;
use guovssalu_sys::table::STATE_WORDS;

use crate::choose;
use crate::choose::Beside;
use crate::dice::Dice;
use crate::events::Sweep;
use crate::kinds;
use crate::lists;
use crate::model::is_event;
use crate::model::Lent;
use crate::model::Model;
use crate::model::Range;
use crate::model::LONGEST_STATE;
use crate::trial::Trial;
use crate::values;
use crate::words;
use crate::words::call as c;
use crate::words::Call;
use crate::words::State;

/// All of these, in their order.
pub const SWEEPS: [Sweep; 4] = [each_word, each_malformed, each_no_call, each_length];

/// Of the calls but events, every word is swept in a run with lists at one number of so many: they
/// don't look at lists. 63 numbers are swept, so that each word gets others than the one before it.
const SPARSE: usize = 13;

/// A good state, a good call in it, and lists if they are asked for; an event takes its numbers from
/// these.
fn good(dice: &mut Dice, number: u64, with_lists: bool) -> (State, Call, Option<Vec<u64>>) {
    let state = choose::good_state(dice);
    let mut call = choose::good_call(dice, &state, number);
    if !with_lists {
        return (state, call, None);
    }
    let mut lists = lists::chosen(dice, &state);
    if is_event(number) {
        lists.resize(lists.len().max(lists::FEWEST), 0);
        lists::place(dice, &state, &mut call, &mut lists);
    }
    (state, call, Some(lists))
}

/// Each of so many words, with each number where something turns.
fn turns(count: usize) -> impl Iterator<Item = (usize, u64)> {
    (0..count).flat_map(|index| values::turns().map(move |value| (index, value)))
}

/// For every call, and for the first numbers that are none, each word of the state and each word of the
/// call in turn at each number where something turns, all else being good. With lists an event takes its
/// numbers from them, and of the other calls there are fewer.
fn each_word(model: &mut Model, trial: &mut Trial) {
    for number in 0..=words::CALLS_END {
        each_word_of(model, trial, number, false, 1);
        let every = if is_event(number) { 1 } else { SPARSE };
        each_word_of(model, trial, number, true, every);
    }
}

/// The same for one call, at one number of so many.
fn each_word_of(model: &mut Model, trial: &mut Trial, number: u64, with_lists: bool, every: usize) {
    for (index, value) in turns(STATE_WORDS).step_by(every) {
        let (mut state, call, lists) = good(&mut trial.dice, number, with_lists);
        state[index] = value;
        model.one(trial, &state, &call, lists);
    }
    let words = turns(CALL_WORDS).filter(|&(index, _)| index != c::NUMBER);
    for (index, value) in words.step_by(every) {
        let (state, mut call, lists) = good(&mut trial.dice, number, with_lists);
        call[index] = value;
        model.one(trial, &state, &call, lists);
    }
}

/// For every call, each word that it uses and that can be malformed, in each way in turn: alone, and with
/// something else that is refused. Events are made with lists, too.
fn each_malformed(model: &mut Model, trial: &mut Trial) {
    for number in 0..words::CALLS_END {
        for with_lists in [false, true] {
            if with_lists && !is_event(number) {
                continue;
            }
            for (place, kind) in kinds::used(number) {
                for (way, beside) in Beside::with_each(0..kinds::ways(kind)) {
                    let (mut state, mut call, lists) = good(&mut trial.dice, number, with_lists);
                    beside.put(&mut state, &mut call);
                    kinds::malform(&mut call, place, kind, way);
                    model.one(trial, &state, &call, lists);
                }
            }
        }
    }
}

/// Each number that is no call's: alone, with something else that is refused, and between two calls of a
/// run.
fn each_no_call(model: &mut Model, trial: &mut Trial) {
    for with_lists in [false, true] {
        for (number, beside) in Beside::with_each(choose::NO_CALLS.into_iter()) {
            let (mut state, mut call, lists) = good(&mut trial.dice, number, with_lists);
            let before = choose::good_call(&mut trial.dice, &state, calls::ON_PACKET_SENT);
            let number = choose::number(&mut trial.dice);
            let after = choose::good_call(&mut trial.dice, &state, number);
            beside.put(&mut state, &mut call);
            model.one(trial, &state, &call, lists.clone());
            let run = [before, call, after];
            let lent = Lent::new(&mut trial.dice, &state, &run, lists);
            model.run(trial, &lent);
        }
    }
}

/// Each of the three ranges of bytes in turn at each length, the others being right for one call, with
/// lists and without.
fn each_length(model: &mut Model, trial: &mut Trial) {
    let ranges = Range::ALL.map(|range| [(range, false), (range, true)]);
    for length in 0..=LONGEST_STATE {
        for (range, with_lists) in ranges.concat() {
            let number = choose::number(&mut trial.dice);
            let (state, call, lists) = good(&mut trial.dice, number, with_lists);
            let mut lent = Lent::new(&mut trial.dice, &state, &[call], lists);
            choose::resize(&mut trial.dice, lent.range(range), length);
            model.run(trial, &lent);
        }
    }
}
