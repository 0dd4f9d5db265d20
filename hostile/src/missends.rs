//! Ports that are wrong about acks for packets never sent, in one way each: about which numbers these
//! are, or about the order of the refusals. The checks must notice all, by chance and when they sweep
//! events.

use crate::events::Sweep;
use crate::fakes::assert_lists_noticed;
use crate::fakes::assert_noticed;
use crate::fakes::assert_noticed_swept;
use crate::fakes::exported_lists;
use crate::fakes::exported_run;
use crate::fakes::lent;
use crate::fakes::lent_words;
use crate::fakes::run_by;
use crate::fakes::step_by;
use crate::fakes::step_with;
use crate::foreign::Run;
use crate::foreign::RunLists;
use crate::misplaces::is_event;
use crate::sends::SWEEPS;
use crate::table;
use crate::table::last_sent;
use crate::table::NEVER_SENT;
use crate::tally::Fault;
use crate::words;
use crate::words::answer as a;
use crate::words::optional;
use crate::words::state as s;
use crate::words::Answer;
use crate::words::Call;
use crate::words::State;

/// A run and one with lists that make each call by a function, which changes the state and answers.
macro_rules! makes {
    ($run:ident, $run_lists:ident $(<$kind:ident>)?, |$now:ident, $call:ident, $lists:ident|
        $answer:expr) => {
        exported_run!($run $(<$kind>)?, |state, calls, answers| {
            let $lists: &[u64] = &[];
            let one = |$now: &mut State, $call: &Call| -> Answer { $answer };
            run_by(one, lent(state), lent(calls), lent(answers))
        });
        exported_lists!($run_lists $(<$kind>)?, |state, calls, lists, answers| {
            let $lists = lent_words(lists);
            let one = |$now: &mut State, $call: &Call| -> Answer { $answer };
            run_by(one, lent(state), lent(calls), lent(answers))
        });
    };
}
pub(crate) use makes;

/// Two runs that are wrong in the same way, without lists and with them, and the name of that.
pub type Both = (&'static str, Run, RunLists);

/// Fails for two runs if a fault of one is not noticed by chance, or when these cases are swept.
pub fn assert_both_noticed_in(fault: Fault, sweeps: &[Sweep], runs: &[Both]) {
    for &(name, run, run_lists) in runs {
        assert_noticed(fault, &[(name, run)]);
        assert_noticed_swept(fault, sweeps, &[(name, run)]);
        assert_lists_noticed(fault, sweeps, &[(name, run_lists)]);
    }
}

/// The same with the cases of acked numbers beside the last sent one.
pub fn assert_both_noticed(fault: Fault, runs: &[Both]) {
    assert_both_noticed_in(fault, &SWEEPS, runs);
}

/// What a wrong port takes for an event that acks what was never sent.
type Judge = fn(&State, &[u64]) -> bool;

/// Whether one of these numbers is above a limit, or there is no limit.
fn above(limit: Option<u64>, acked: &[u64]) -> bool {
    let above = |&number: &u64| limit.map_or(true, |limit| number > limit);
    acked.iter().any(above)
}

/// The right judge.
fn unsent(state: &State, acked: &[u64]) -> bool {
    above(last_sent(state), acked)
}

const JUDGES: [Judge; 18] = [
    // Anything is taken.
    |_, _| false,
    // At least for above, and above by more than one.
    |state, acked| {
        let at_least = |&number: &u64| last_sent(state).map_or(true, |last| number >= last);
        acked.iter().any(at_least)
    },
    |state, acked| above(last_sent(state).map(|last| last.saturating_add(1)), acked),
    // Not all of the numbers are looked at.
    |state, acked| unsent(state, &acked[acked.len().saturating_sub(1)..]),
    |state, acked| unsent(state, &acked[..acked.len().min(1)]),
    |state, acked| unsent(state, acked.iter().min().map_or(&[], std::slice::from_ref)),
    |state, acked| unsent(state, &acked[..acked.len().min(2)]),
    |state, acked| unsent(state, &acked[acked.len().saturating_sub(2)..]),
    // An empty list is refused: before a send, or always.
    |state, acked| unsent(state, acked) || (acked.is_empty() && last_sent(state).is_none()),
    |state, acked| unsent(state, acked) || acked.is_empty(),
    // 0 is taken before a send.
    |state, acked| unsent(state, acked) && acked.iter().any(|&number| number > 0),
    // The note is not looked at, or a last number is one.
    |state, acked| above(Some(state[s::LAST_SENT_PACKET]), acked),
    |state, acked| {
        let last = state[s::LAST_SENT_PACKET];
        above(last_sent(state).or((last > 0).then_some(last)), acked)
    },
    // A last number of 0 is none.
    |state, acked| above(last_sent(state).filter(|&last| last > 0), acked),
    // Numbers with a sign, and 32 bits of them.
    |state, acked| {
        let signed =
            |&number: &u64| last_sent(state).map_or(true, |last| number as i64 > last as i64);
        acked.iter().any(signed)
    },
    |state, acked| {
        let low = |&number: &u64| last_sent(state).map_or(true, |last| number as u32 > last as u32);
        acked.iter().any(low)
    },
    // It is asked only where the round ends, or the round's end is taken for the last sent.
    |state, acked| unsent(state, acked) && above(optional(state, s::END_OF_ROUND_TRIP), acked),
    |state, acked| {
        let end = optional(state, s::END_OF_ROUND_TRIP);
        above(last_sent(state).map(|last| end.unwrap_or(last)), acked)
    },
];

/// A call; where it is an event, another judge says whether its numbers were sent.
fn judged(judge: Judge, state: &mut State, call: &Call, lists: &[u64]) -> Answer {
    match words::acked(call, lists) {
        Some(acked) if is_event(call) => {
            let mut passing = *state;
            passing[s::ANYTHING_SENT] = 1;
            passing[s::LAST_SENT_PACKET] = u64::MAX;
            let others = table::call_rows(&passing, call, lists);
            let rows = others.with(NEVER_SENT, judge(state, acked));
            step_by(&rows, state, call, lists)
        }
        _ => step_with(state, call, lists),
    }
}

makes!(judges, judges_lists<WAY>, |state, call, lists| {
    judged(JUDGES[WAY], state, call, lists)
});
exported_lists!(judges_own, |state, calls, lists, answers| {
    let own = |state: &State, acked: &[u64]| acked.len() <= 3 && unsent(state, acked);
    let lists = lent_words(lists);
    let one = |state: &mut State, call: &Call| judged(own, state, call, lists);
    run_by(one, lent(state), lent(calls), lent(answers))
});
makes!(
    judges_listed,
    judges_listed_of_lists,
    |state, call, lists| {
        let listed = |state: &State, acked: &[u64]| acked.len() > 3 && unsent(state, acked);
        judged(listed, state, call, lists)
    }
);

#[test]
fn other_numbers_never_sent_are_noticed() {
    assert_both_noticed(
        Fault::Reply,
        &[
            (
                "any are taken",
                judges::<0> as Run,
                judges_lists::<0> as RunLists,
            ),
            ("at least for above", judges::<1>, judges_lists::<1>),
            ("above by two", judges::<2>, judges_lists::<2>),
            ("the last alone", judges::<3>, judges_lists::<3>),
            ("the first alone", judges::<4>, judges_lists::<4>),
            ("the least alone", judges::<5>, judges_lists::<5>),
            ("the first two", judges::<6>, judges_lists::<6>),
            ("the last two", judges::<7>, judges_lists::<7>),
            ("no numbers before a send", judges::<8>, judges_lists::<8>),
            ("no numbers", judges::<9>, judges_lists::<9>),
            ("0 before a send", judges::<10>, judges_lists::<10>),
            ("no note", judges::<11>, judges_lists::<11>),
            ("a last number is a note", judges::<12>, judges_lists::<12>),
            (
                "a last number of 0 is none",
                judges::<13>,
                judges_lists::<13>,
            ),
            ("signed", judges::<14>, judges_lists::<14>),
            ("32 bits", judges::<15>, judges_lists::<15>),
            ("only at a round's end", judges::<16>, judges_lists::<16>),
            ("above the round's end", judges::<17>, judges_lists::<17>),
            ("only in lists", judges_listed, judges_listed_of_lists),
        ],
    );
    assert_lists_noticed(Fault::Reply, &SWEEPS, &[("only in calls", judges_own)]);
}

/// The right call with another number for its reply.
macro_rules! replies {
    ($run:ident, $run_lists:ident $(<$kind:ident>)?, |$rows:ident| $reply:expr) => {
        makes!($run, $run_lists $(<$kind>)?, |state, call, lists| {
            let $rows = table::call_rows(state, call, lists);
            let mut answer = step_with(state, call, lists);
            answer[a::REPLY] = $reply;
            answer
        });
    };
}

replies!(asked_before, asked_before_lists<ROW>, |rows| {
    if rows.holds(NEVER_SENT) && rows.due() == ROW as u64 {
        NEVER_SENT
    } else {
        rows.reply()
    }
});
replies!(asked_after_five, asked_after_five_lists, |rows| {
    if rows.due() == NEVER_SENT && rows.holds(5) {
        5
    } else {
        rows.reply()
    }
});
replies!(given_as, given_as_lists<NUMBER>, |rows| {
    if rows.due() == NEVER_SENT {
        NUMBER as u64
    } else {
        rows.reply()
    }
});

#[test]
fn another_order_or_number_is_noticed() {
    assert_both_noticed(
        Fault::Reply,
        &[
            (
                "before 1",
                asked_before::<1> as Run,
                asked_before_lists::<1> as RunLists,
            ),
            ("before 2", asked_before::<2>, asked_before_lists::<2>),
            ("before 3", asked_before::<3>, asked_before_lists::<3>),
            ("before 4", asked_before::<4>, asked_before_lists::<4>),
            ("after 5", asked_after_five, asked_after_five_lists),
            ("as 2", given_as::<2>, given_as_lists::<2>),
            ("as 4", given_as::<4>, given_as_lists::<4>),
            ("as 5", given_as::<5>, given_as_lists::<5>),
            ("as 8", given_as::<8>, given_as_lists::<8>),
            ("as 11", given_as::<11>, given_as_lists::<11>),
        ],
    );
}
