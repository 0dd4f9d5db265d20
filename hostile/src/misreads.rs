//! Ports that are wrong about malformed words and numbers of no call, in one way each: they read them
//! as something, refuse them with another number, or refuse too much. The checks must notice all.

use std::ops::Range;

use guovssalu_sys::table::call as calls;
use guovssalu_sys::table::ANSWER_WORDS;
use guovssalu_sys::table::CALL_WORDS;

use crate::fakes::assert_noticed;
use crate::fakes::exported_run;
use crate::fakes::lent;
use crate::fakes::run_by;
use crate::fakes::step;
use crate::foreign::Run;
use crate::kinds;
use crate::kinds::Kind;
use crate::table;
use crate::tally::Fault;
use crate::words;
use crate::words::answer as a;
use crate::words::call as c;
use crate::words::Answer;
use crate::words::Call;
use crate::words::State;

/// The words of a call, in three parts.
const ARGUMENTS: Range<usize> = c::ARGUMENTS..c::RECORD;
const RECORD: Range<usize> = c::RECORD..c::PARAMS;
const PARAMS: Range<usize> = c::PARAMS..CALL_WORDS;
const PARTS: [Range<usize>; 3] = [ARGUMENTS, RECORD, PARAMS];

/// 2.8 at no place: what a number that is no call's is named.
const NO_CALL: u64 = 2 + 256 * 8;

/// The exported run that a function on slices makes.
macro_rules! exported {
    ($name:ident $(<$kind:ident>)?, |$state:ident, $calls:ident, $answers:ident| $run:expr) => {
        exported_run!($name $(<$kind>)?, |state, calls, answers| {
            let ($state, $calls, $answers) = (lent(state), lent(calls), lent(answers));
            $run
        });
    };
}

/// A run that makes each call by a function, which changes the state and answers.
macro_rules! makes {
    ($name:ident, |$now:ident, $call:ident| $answer:expr) => {
        exported!($name, |state, calls, answers| {
            let one = |$now: &mut State, $call: &Call| -> Answer { $answer };
            run_by(one, state, calls, answers)
        });
    };
}

/// A run that, in one part of a call, reads each word that the call uses as another one. A refused
/// event's record is still the one handed in.
macro_rules! reads {
    ($name:ident, |$words:ident, $place:ident, $kind:ident| $read:expr) => {
        exported!($name<PART>, |state, calls, answers| {
            let one = |state: &mut State, call: &Call| {
                let read = |$words: &mut Call, $place: usize, $kind: Kind| $read;
                let mut answer = step(state, &read_as(call, &PARTS[PART], read));
                if call[c::NUMBER] == calls::ON_CONGESTION_EVENT_START && answer[a::REPLY] != 0 {
                    answer[a::RECORD..].copy_from_slice(&words::record(call));
                }
                answer
            };
            run_by(one, state, calls, answers)
        });
    };
}

/// The call in which the words of a part that it uses are read as others.
fn read_as(call: &Call, part: &Range<usize>, read: impl Fn(&mut Call, usize, Kind)) -> Call {
    let mut other = *call;
    for (place, kind) in kinds::used(call[c::NUMBER]).filter(|(place, _)| part.contains(place)) {
        read(&mut other, place, kind);
    }
    other
}

/// Reads a malformed word as one that is not.
fn mend(words: &mut Call, place: usize, kind: Kind) {
    match kind {
        Kind::Flag => words[place] = (words[place] == 1) as u64,
        Kind::Count => words[place] %= 4,
        Kind::Float(..) => words[place] &= u32::MAX as u64,
        Kind::Set(_) if words[place] != 1 => words[place..place + 2].fill(0),
        _ => {}
    }
}

/// Whether a part of a call has a malformed word that it uses.
fn is_malformed(call: &Call, part: &Range<usize>) -> bool {
    read_as(call, part, mend) != *call
}

/// An answer without a record.
fn plain(reply: u64) -> Answer {
    let mut answer = [0; ANSWER_WORDS];
    answer[a::REPLY] = reply;
    answer
}

reads!(flag_where_one, |words, place, kind| if kind == Kind::Flag {
    words[place] = (words[place] == 1) as u64;
});
reads!(flag_where_not_zero, |words, place, kind| {
    if kind == Kind::Flag {
        words[place] = (words[place] != 0) as u64;
    }
});
reads!(flag_by_its_low_byte, |words, place, kind| {
    if kind == Kind::Flag {
        words[place] &= 255;
    }
});
reads!(count_by_its_remainder, |words, place, kind| {
    if kind == Kind::Count {
        words[place] %= 4;
    }
});
reads!(count_at_most_three, |words, place, kind| {
    if kind == Kind::Count {
        words[place] = words[place].min(3);
    }
});
reads!(high_bits_dropped, |words, place, kind| {
    if let Kind::Float(..) = kind {
        words[place] &= u32::MAX as u64;
    }
});
reads!(unset_whatever_follows, |words, place, kind| match kind {
    Kind::Set(_) if words[place] == 0 => words[place + 1] = 0,
    _ => {}
});
reads!(set_where_one, |words, place, kind| match kind {
    Kind::Set(_) if words[place] > 1 => words[place..place + 2].fill(0),
    _ => {}
});
reads!(set_where_not_zero, |words, place, kind| match kind {
    Kind::Set(_) if words[place] > 1 => words[place] = 1,
    _ => {}
});

#[test]
fn malformed_words_read_as_something_are_noticed() {
    assert_noticed(
        Fault::Reply,
        &[
            ("flag where 1, argument", flag_where_one::<0> as Run),
            ("flag where 1, record", flag_where_one::<1>),
            ("flag where 1, parameter", flag_where_one::<2>),
            ("flag where not 0, argument", flag_where_not_zero::<0>),
            ("flag where not 0, record", flag_where_not_zero::<1>),
            ("flag where not 0, parameter", flag_where_not_zero::<2>),
            ("flag by its low byte, argument", flag_by_its_low_byte::<0>),
            ("flag by its low byte, record", flag_by_its_low_byte::<1>),
            ("flag by its low byte, parameter", flag_by_its_low_byte::<2>),
            ("count by its remainder", count_by_its_remainder::<0>),
            ("count at most three", count_at_most_three::<0>),
            ("high bits dropped, argument", high_bits_dropped::<0>),
            ("high bits dropped, parameter", high_bits_dropped::<2>),
            ("unset, argument", unset_whatever_follows::<0>),
            ("unset, record", unset_whatever_follows::<1>),
            ("set where 1, argument", set_where_one::<0>),
            ("set where 1, record", set_where_one::<1>),
            ("set where not 0, argument", set_where_not_zero::<0>),
            ("set where not 0, record", set_where_not_zero::<1>),
        ],
    );
}

makes!(parameters_are_arguments, |state, call| {
    let mended = read_as(call, &PARAMS, mend);
    let otherwise = table::call_rows(state, &mended, &[]).due();
    let mut answer = step(state, call);
    if answer[a::REPLY] == 1 && otherwise != 1 {
        answer[a::REPLY] = NO_CALL;
    }
    answer
});
makes!(arguments_before_what_is_stored, |state, call| {
    let rows = table::call_rows(state, call, &[]);
    let mut answer = step(state, call);
    if answer[a::REPLY] == 1 && (is_malformed(call, &ARGUMENTS) || is_malformed(call, &RECORD)) {
        answer[a::REPLY] = rows.bad_argument();
    }
    answer
});
makes!(looks_at_words_not_used, |state, call| {
    let unused = !table::takes_params(call[c::NUMBER]) && call[c::IGNORE_APP_LIMITED] > 1;
    if unused && table::is_a_call(call[c::NUMBER]) && !table::gets_record(call[c::NUMBER]) {
        return plain(1);
    }
    step(state, call)
});
makes!(no_call_whatever_is_stored, |state, call| {
    if table::is_a_call(call[c::NUMBER]) {
        step(state, call)
    } else {
        plain(NO_CALL)
    }
});
makes!(no_call_looks_at_the_cycle, |state, call| {
    if table::is_a_call(call[c::NUMBER]) || table::cycle_ok(state) {
        step(state, call)
    } else {
        plain(1)
    }
});
makes!(no_call_is_done, |state, call| {
    if table::is_a_call(call[c::NUMBER]) {
        step(state, call)
    } else {
        plain(0)
    }
});
exported!(no_call_refuses_the_run, |state, calls, answers| {
    let mut numbers = calls
        .chunks_exact(words::CALL_BYTES)
        .map(|call| words::words::<1>(call)[0]);
    let due = table::run_rows(state, calls, answers.len()).due();
    if matches!(due, 0 | 7) && numbers.any(|number| !table::is_a_call(number)) {
        return NO_CALL;
    }
    run_by(step, state, calls, answers)
});
exported!(no_call_has_no_answer, |state, calls, answers| {
    let kept = answers.to_vec();
    let reply = run_by(step, state, calls, answers);
    let each = answers.chunks_exact_mut(words::ANSWER_BYTES);
    let kept = kept.chunks_exact(words::ANSWER_BYTES);
    for ((call, answer), kept) in calls.chunks_exact(words::CALL_BYTES).zip(each).zip(kept) {
        if !table::is_a_call(words::words::<1>(call)[0]) {
            answer.copy_from_slice(kept);
        }
    }
    reply
});

#[test]
fn other_replies_to_malformed_words_are_noticed() {
    assert_noticed(
        Fault::Reply,
        &[
            ("parameters are arguments", parameters_are_arguments as Run),
            ("before what is stored", arguments_before_what_is_stored),
            ("words not used", looks_at_words_not_used),
            ("no call whatever is stored", no_call_whatever_is_stored),
            ("no call looks at the cycle", no_call_looks_at_the_cycle),
            ("no call is done", no_call_is_done),
            ("no call refuses the run", no_call_refuses_the_run),
            ("no call has no answer", no_call_has_no_answer),
        ],
    );
}

exported!(stops_at_no_call, |state, calls, answers| {
    let mut each = calls.chunks_exact(words::CALL_BYTES);
    let end = each.position(|call| !table::is_a_call(words::words::<1>(call)[0]));
    let made = end.map_or(calls.len(), |end| (end + 1) * words::CALL_BYTES);
    match table::run_rows(state, calls, answers.len()).reply() {
        0 => run_by(step, state, &calls[..made], answers),
        reply => reply,
    }
});
makes!(refused_record_written_again, |state, call| {
    let mut answer = step(state, call);
    if call[c::NUMBER] == calls::ON_CONGESTION_EVENT_START && answer[a::REPLY] != 0 {
        answer[a::RECORD..].copy_from_slice(&words::record(&read_as(call, &RECORD, mend)));
    }
    answer
});
makes!(refused_record_is_zeros, |state, call| {
    let answer = step(state, call);
    if call[c::NUMBER] == calls::ON_CONGESTION_EVENT_START && is_malformed(call, &RECORD) {
        return plain(answer[a::REPLY]);
    }
    answer
});
makes!(malformed_start_keeps_the_state, |state, call| {
    let before = *state;
    let answer = step(state, call);
    if call[c::NUMBER] == calls::START && is_malformed(call, &PARAMS) {
        *state = before;
    }
    answer
});
makes!(malformed_start_starts, |state, call| {
    let answer = step(state, call);
    if call[c::NUMBER] == calls::START && is_malformed(call, &PARAMS) {
        step(state, &read_as(call, &PARAMS, mend));
    }
    answer
});

#[test]
fn other_answers_after_malformed_words_are_noticed() {
    assert_noticed(
        Fault::Content,
        &[
            ("a run stops at no call", stops_at_no_call as Run),
            ("a record written again", refused_record_written_again),
            ("a record of zeros", refused_record_is_zeros),
            ("a start keeps the state", malformed_start_keeps_the_state),
            ("a start starts", malformed_start_starts),
        ],
    );
}
