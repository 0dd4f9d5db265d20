//! Ports that are wrong about an event's acked numbers, in one way each: about their order, about their
//! place in lists, or about the refusal of a place outside them. The checks must notice all.

use std::ptr;

use guovssalu_sys::table::call as calls;

use crate::events::SWEEPS;
use crate::fakes::assert_lists_noticed;
use crate::fakes::assert_noticed;
use crate::fakes::assert_noticed_swept;
use crate::fakes::exported_lists;
use crate::fakes::exported_run;
use crate::fakes::lent;
use crate::fakes::lent_words;
use crate::fakes::run_by;
use crate::fakes::step;
use crate::fakes::step_with;
use crate::foreign::Run;
use crate::foreign::RunLists;
use crate::table;
use crate::tally::Fault;
use crate::words;
use crate::words::answer as a;
use crate::words::call as c;
use crate::words::state as s;
use crate::words::Answer;
use crate::words::Call;
use crate::words::State;

const MAX: u64 = u64::MAX;

/// 2.8 at place 1: what numbers outside the lists are named.
const OUTSIDE: u64 = 2 + 256 * 8 + 65_536;

/// Whether it is an event.
pub fn is_event(call: &Call) -> bool {
    call[c::NUMBER] == calls::ON_CONGESTION_EVENT_START
}

/// The event with one number acked, in the call itself, or with none.
pub fn with_one(call: &Call, number: Option<u64>) -> Call {
    let mut other = *call;
    other[c::ACKED_COUNT] = number.is_some() as u64;
    other[c::ACKED] = number.unwrap_or(0);
    other
}

/// What a wrong port takes for the greatest number; it gets the end of the round, if one is set.
type Taken = fn(Option<u64>, &[u64]) -> Option<u64>;

const TAKEN: [Taken; 8] = [
    |_, acked| acked.last().copied(),
    |_, acked| acked.first().copied(),
    |_, acked| acked.iter().min().copied(),
    |end, acked| match acked.iter().max() {
        Some(&most) if Some(most) == end => Some(most.saturating_add(1)),
        most => most.copied(),
    },
    |_, acked| acked[..acked.len().min(2)].iter().max().copied(),
    |_, acked| acked[acked.len().saturating_sub(2)..].iter().max().copied(),
    |end, acked| match acked.iter().max() {
        Some(0) if end.is_none() => None,
        most => most.copied(),
    },
    |_, acked| Some(acked.iter().copied().fold(0, u64::max)),
];

/// A call; where it is an event with so many numbers, another than the greatest is taken.
fn takes(
    taken: Taken,
    counts: impl Fn(usize) -> bool,
    state: &mut State,
    call: &Call,
    lists: &[u64],
) -> Answer {
    match words::acked(call, lists) {
        // Which numbers were sent is asked of all of them, as it should be.
        Some(acked)
            if counts(acked.len()) && is_event(call) && !table::acks_unsent(state, call, lists) =>
        {
            let end = words::optional(state, s::END_OF_ROUND_TRIP);
            step(state, &with_one(call, taken(end, acked)))
        }
        _ => step_with(state, call, lists),
    }
}

/// A run with lists that makes each call by a function.
macro_rules! makes {
    ($name:ident $(<$kind:ident>)?, |$now:ident, $call:ident, $lists:ident| $answer:expr) => {
        exported_lists!($name $(<$kind>)?, |state, calls, lists, answers| {
            let $lists = lent_words(lists);
            let one = |$now: &mut State, $call: &Call| -> Answer { $answer };
            run_by(one, lent(state), lent(calls), lent(answers))
        });
    };
}

exported_run!(takes_in_calls<WAY>, |state, calls, answers| {
    let one = |state: &mut State, call: &Call| takes(TAKEN[WAY], |_| true, state, call, &[]);
    run_by(one, lent(state), lent(calls), lent(answers))
});
makes!(takes_beside_lists<WAY>, |state, call, lists| {
    takes(TAKEN[WAY], |count| count <= 3, state, call, lists)
});
makes!(takes_in_lists<WAY>, |state, call, lists| {
    takes(TAKEN[WAY], |count| count > 3, state, call, lists)
});

#[test]
fn another_number_than_the_greatest_is_noticed() {
    let in_calls = [
        ("the last", takes_in_calls::<0> as Run),
        ("the first", takes_in_calls::<1>),
        ("the least", takes_in_calls::<2>),
        ("at least for above", takes_in_calls::<3>),
        ("of the first two", takes_in_calls::<4>),
        ("of the last two", takes_in_calls::<5>),
        ("0 ends no round", takes_in_calls::<6>),
        ("0 of no numbers", takes_in_calls::<7>),
    ];
    assert_noticed(Fault::Content, &in_calls);
    assert_noticed_swept(Fault::Content, &SWEEPS, &in_calls);
    assert_lists_noticed(
        Fault::Content,
        &SWEEPS,
        &[
            ("beside, the last", takes_beside_lists::<0> as RunLists),
            ("beside, the first", takes_beside_lists::<1>),
            ("beside, the least", takes_beside_lists::<2>),
            ("beside, at least for above", takes_beside_lists::<3>),
            ("beside, of the first two", takes_beside_lists::<4>),
            ("beside, of the last two", takes_beside_lists::<5>),
            ("beside, 0 ends no round", takes_beside_lists::<6>),
            ("beside, 0 of no numbers", takes_beside_lists::<7>),
            ("the last", takes_in_lists::<0>),
            ("the first", takes_in_lists::<1>),
            ("the least", takes_in_lists::<2>),
            ("at least for above", takes_in_lists::<3>),
            ("of the first two", takes_in_lists::<4>),
            ("of the last two", takes_in_lists::<5>),
            ("0 ends no round", takes_in_lists::<6>),
        ],
    );
}

/// The numbers that a wrong port takes by a count and the word after it, or that it refuses them.
type Placed = fn(u64, u64, &[u64]) -> Option<Vec<u64>>;

/// The numbers from a place on, as far as the lists go.
fn cut(count: u64, start: u64, lists: &[u64]) -> Vec<u64> {
    let words = lists.iter().skip(start.min(MAX >> 1) as usize);
    words.take(count.min(MAX >> 1) as usize).copied().collect()
}

/// The numbers at a place inside the lists.
fn inside(count: u64, start: u64, lists: &[u64]) -> Option<Vec<u64>> {
    let end = start.checked_add(count)?;
    (end <= lists.len() as u64).then(|| cut(count, start, lists))
}

/// Other numbers than those of the place, where that is inside.
const ELSEWHERE: [Placed; 7] = [
    |count, start, lists| inside(count, start, lists).map(|_| cut(count, 0, lists)),
    |count, start, lists| inside(count, start, lists).map(|_| cut(count, start / 8, lists)),
    |count, start, lists| inside(count, start, lists).map(|_| cut(1, start, lists)),
    |count, start, lists| inside(count, start, lists).map(|_| cut(3, start, lists)),
    |count, start, lists| inside(count, start, lists).map(|_| cut(count - 1, start, lists)),
    |count, start, lists| inside(count, start, lists).map(|_| cut(count + 1, start, lists)),
    |count, start, lists| inside(count, start, lists).map(|_| cut(count, start + 1, lists)),
];

/// Places taken that are outside, or refused that are inside.
const MISJUDGED: [Placed; 12] = [
    // The sum wraps, of words and of bytes.
    |count, start, lists| {
        let end = start.wrapping_add(count);
        (end <= lists.len() as u64).then(|| cut(count, start, lists))
    },
    |count, start, lists| {
        let end = start.wrapping_add(count).wrapping_mul(8);
        (end <= 8 * lists.len() as u64).then(|| cut(count, start, lists))
    },
    // The upper bits are lost, of the start and of the count.
    |count, start, lists| inside(count, start & u32::MAX as u64, lists),
    |count, start, lists| inside(count & u32::MAX as u64, start, lists),
    // Only the start is looked at, or only the count.
    |count, start, lists| (start <= lists.len() as u64).then(|| cut(count, start, lists)),
    |count, start, lists| (count <= lists.len() as u64).then(|| cut(count, start, lists)),
    // One word too far, or too near.
    |count, start, lists| {
        let end = start.checked_add(count)?;
        (end <= lists.len() as u64 + 1).then(|| cut(count, start, lists))
    },
    |count, start, lists| {
        let end = start.checked_add(count)?;
        (end < lists.len() as u64).then(|| cut(count, start, lists))
    },
    // Any place is taken, as far as the lists go.
    |count, start, lists| Some(cut(count, start, lists)),
    // None is.
    |_, _, _| None,
    // Four numbers are too few.
    |count, start, lists| inside(count, start, lists).filter(|_| count > 4),
    // A place before the last of all is too near: the lists have to be used up to their end.
    |count, start, lists| {
        let end = start.checked_add(count)?;
        (end == lists.len() as u64).then(|| cut(count, start, lists))
    },
];

/// A call; where it is an event with such a count, its numbers are others, or it is refused.
fn places(
    placed: Placed,
    counts: impl Fn(u64) -> bool,
    state: &mut State,
    call: &Call,
    lists: &[u64],
) -> Answer {
    let (count, start) = (call[c::ACKED_COUNT], call[c::ACKED]);
    if !is_event(call) || !counts(count) {
        return step_with(state, call, lists);
    }
    let numbers = placed(count, start, lists);
    let mut other = with_one(call, numbers.iter().flatten().max().copied());
    if numbers.is_none() {
        other[c::ACKED_COUNT] = MAX;
    }
    step(state, &other)
}

makes!(takes_elsewhere<WAY>, |state, call, lists| {
    places(ELSEWHERE[WAY], |count| count > 3, state, call, lists)
});
makes!(misjudges<WAY>, |state, call, lists| {
    places(MISJUDGED[WAY], |count| count > 3, state, call, lists)
});
makes!(looks_with_three, |state, call, lists| {
    places(inside, |count| count == 3, state, call, lists)
});
makes!(looks_with_few, |state, call, lists| {
    places(inside, |count| count <= 3, state, call, lists)
});
makes!(looks_with_few_inside, |state, call, lists| {
    let is_inside = inside(call[c::ACKED_COUNT], call[c::ACKED], lists).is_some();
    places(inside, |count| count <= 3 && is_inside, state, call, lists)
});

#[test]
fn numbers_from_elsewhere_are_noticed() {
    assert_lists_noticed(
        Fault::Content,
        &SWEEPS,
        &[
            ("from the first word on", takes_elsewhere::<0> as RunLists),
            ("the start in bytes", takes_elsewhere::<1>),
            ("cut to its first", takes_elsewhere::<2>),
            ("cut to its first three", takes_elsewhere::<3>),
            ("one fewer", takes_elsewhere::<4>),
            ("one more", takes_elsewhere::<5>),
            ("one later", takes_elsewhere::<6>),
            ("from lists, with three", looks_with_three),
            ("from lists, with three or fewer", looks_with_few),
            ("from lists, where they are inside", looks_with_few_inside),
        ],
    );
}

#[test]
fn misjudged_places_are_noticed() {
    assert_lists_noticed(
        Fault::Reply,
        &SWEEPS,
        &[
            ("the sum wraps", misjudges::<0> as RunLists),
            ("the sum in bytes wraps", misjudges::<1>),
            ("32 bits of the start", misjudges::<2>),
            ("32 bits of the count", misjudges::<3>),
            ("the start alone", misjudges::<4>),
            ("the count alone", misjudges::<5>),
            ("one word too far", misjudges::<6>),
            ("one word too near", misjudges::<7>),
            ("any place", misjudges::<8>),
            ("no place", misjudges::<9>),
            ("four are too few", misjudges::<10>),
            ("up to their end alone", misjudges::<11>),
            ("refused outside, with three", looks_with_three),
            ("refused outside, with three or fewer", looks_with_few),
        ],
    );
}

/// Whether it is an event whose numbers are not all inside the lists.
fn is_outside(call: &Call, lists: &[u64]) -> bool {
    is_event(call) && words::acked(call, lists).is_none()
}

/// The reply to an event without its numbers.
fn otherwise(state: &State, call: &Call) -> u64 {
    table::call_rows(state, &with_one(call, None), &[]).due()
}

/// A run with lists that is right, but for its answer to an event whose place is outside them.
macro_rules! answers_outside {
    ($name:ident $(<$kind:ident>)?, |$before:ident, $call:ident, $answer:ident| $other:expr) => {
        makes!($name $(<$kind>)?, |state, call, lists| {
            let ($before, $call) = (*state, call);
            let mut $answer = step_with(state, call, lists);
            if is_outside(call, lists) {
                $other;
            }
            $answer
        });
    };
}

answers_outside!(outside_is_out_of_bounds, |_before, _call, answer| {
    answer[a::REPLY] = 1;
});
answers_outside!(outside_is_asked_first, |_before, _call, answer| {
    answer[a::REPLY] = OUTSIDE;
});
answers_outside!(outside_is_asked_after<ROW>, |before, call, answer| {
    if otherwise(&before, call) == ROW as u64 {
        answer[a::REPLY] = ROW as u64;
    }
});
answers_outside!(outside_is_done, |_before, _call, answer| {
    if answer[a::REPLY] == OUTSIDE {
        answer[a::REPLY] = 0;
    }
});
answers_outside!(outside_has_no_record, |_before, _call, answer| {
    answer[a::RECORD..].fill(0);
});
answers_outside!(outside_has_a_record_without_end, |_before, call, answer| {
    let end = c::END_OF_ROUND_TRIP - c::RECORD;
    if call[c::END_OF_ROUND_TRIP] == 1 {
        answer[a::RECORD + end] = 0;
    }
});
makes!(outside_moves_on, |state, call, lists| {
    let answer = step_with(state, call, lists);
    if is_outside(call, lists) && answer[a::REPLY] == OUTSIDE {
        state[s::LAST_MOMENT] = call[c::EVENT_TIME];
    }
    answer
});

/// A run with lists that is right, but where an event of it, at a place that is told, is outside them.
macro_rules! runs_outside {
    ($name:ident, |$reply:ident, $place:ident, $answers:ident, $kept:ident| $other:expr) => {
        exported_lists!($name, |state, calls, lists, answers| {
            let (state, calls) = (lent(state), lent(calls));
            let (lists, $answers) = (lent_words(lists), lent(answers));
            let due = table::run_rows(state, calls, $answers.len()).due();
            let one = |state: &mut State, call: &Call| step_with(state, call, lists);
            let (before, $kept) = (state.to_vec(), $answers.to_vec());
            let $reply = run_by(one, state, calls, $answers);
            let mut each = calls.chunks_exact(words::CALL_BYTES);
            match each.position(|call| is_outside(&words::words(call), lists)) {
                Some($place) if due == 0 => {
                    let reply = $other;
                    if reply != 0 {
                        state.copy_from_slice(&before);
                    }
                    reply
                }
                _ => $reply,
            }
        });
    };
}

runs_outside!(outside_refuses_the_run, |_reply, _place, answers, kept| {
    answers.copy_from_slice(&kept);
    OUTSIDE
});
runs_outside!(outside_ends_the_run, |reply, place, answers, kept| {
    let made = (place + 1) * words::ANSWER_BYTES;
    answers[made..].copy_from_slice(&kept[made..]);
    reply
});

/// A run with lists that is right, but refused where something holds of where calls and lists are.
macro_rules! refused_where {
    ($name:ident, |$calls:ident, $lists:ident| $refused:expr) => {
        exported_lists!($name, |state, $calls, $lists, answers| {
            if $refused {
                return OUTSIDE;
            }
            let lists = lent_words($lists);
            let one = |state: &mut State, call: &Call| step_with(state, call, lists);
            run_by(one, lent(state), lent($calls), lent(answers))
        });
    };
}

refused_where!(no_words_refuse_the_run, |calls, lists| lists.1 == 0);
refused_where!(no_pointer_refuses_the_run, |calls, lists| lists.0.is_null());
refused_where!(odd_pointers_refuse_the_run, |calls, lists| {
    lists.0 as usize % 8 != 0
});
refused_where!(calls_as_lists_refuse_the_run, |calls, lists| {
    lists.1 > 0 && ptr::eq(lists.0 as *const u8, calls.0)
});

#[test]
fn other_replies_to_a_place_outside_are_noticed() {
    assert_lists_noticed(
        Fault::Reply,
        &SWEEPS,
        &[
            ("out of bounds", outside_is_out_of_bounds as RunLists),
            ("asked before row 1", outside_is_asked_first),
            ("asked after row 3", outside_is_asked_after::<3>),
            ("asked after row 4", outside_is_asked_after::<4>),
            ("asked after row 5", outside_is_asked_after::<5>),
            ("done", outside_is_done),
            ("refuses the run", outside_refuses_the_run),
            ("no words", no_words_refuse_the_run),
            ("no pointer", no_pointer_refuses_the_run),
            ("a pointer at no word", odd_pointers_refuse_the_run),
            ("lists in the calls", calls_as_lists_refuse_the_run),
        ],
    );
}

#[test]
fn other_answers_after_a_place_outside_are_noticed() {
    assert_lists_noticed(
        Fault::Content,
        &SWEEPS,
        &[
            ("no record", outside_has_no_record as RunLists),
            ("another record", outside_has_a_record_without_end),
            ("the run ends", outside_ends_the_run),
        ],
    );
    assert_lists_noticed(
        Fault::Touched,
        &SWEEPS,
        &[("the moment", outside_moves_on as RunLists)],
    );
}
