//! Ports that are wrong about the note of whether anything was sent, about what a refusal with 10 leaves,
//! or about a run with one, in one way each.

use guovssalu_sys::table::argument::on_packet_sent as sent;
use guovssalu_sys::table::call as calls;
use guovssalu_sys::table::WORD_BYTES;

use crate::after;
use crate::choose;
use crate::dice::Dice;
use crate::events::own;
use crate::fakes::exported_lists;
use crate::fakes::exported_run;
use crate::fakes::lent;
use crate::fakes::lent_words;
use crate::fakes::run_by;
use crate::fakes::step;
use crate::fakes::step_with;
use crate::foreign::Run;
use crate::foreign::RunLists;
use crate::misplaces::is_event;
use crate::misplaces::with_one;
use crate::missends::assert_both_noticed;
use crate::missends::makes;
use crate::table::last_sent;
use crate::table::NEVER_SENT;
use crate::tally::Fault;
use crate::words;
use crate::words::answer as a;
use crate::words::call as c;
use crate::words::state as s;
use crate::words::Answer;
use crate::words::Call;
use crate::words::State;

/// Whether it is a send.
fn is_send(call: &Call) -> bool {
    call[c::NUMBER] == calls::ON_PACKET_SENT
}

/// Whether it is a start.
fn is_start(call: &Call) -> bool {
    call[c::NUMBER] == calls::START
}

/// What a wrong port does to the state after a call. It gets the state before, the call and its reply.
type Change = fn(&State, &Call, u64, &mut State);

const CHANGES: [Change; 9] = [
    // A send that sets no note, and one after which the greatest is the last.
    |before, call, reply, after| {
        if is_send(call) && reply == 0 {
            after[s::ANYTHING_SENT] = before[s::ANYTHING_SENT];
        }
    },
    |before, call, reply, after| {
        if is_send(call) && reply == 0 {
            let last = call[sent::PACKET_NUMBER];
            after[s::LAST_SENT_PACKET] = last.max(before[s::LAST_SENT_PACKET]);
        }
    },
    // A start that keeps the note, refused or not, one that sets it, and one that keeps the number.
    |before, call, reply, after| {
        if is_start(call) && reply == 0 {
            after[s::ANYTHING_SENT] = before[s::ANYTHING_SENT];
        }
    },
    |before, call, reply, after| {
        if is_start(call) && reply != 0 {
            after[s::ANYTHING_SENT] = before[s::ANYTHING_SENT];
        }
    },
    |_, call, reply, after| {
        if is_start(call) && reply == 0 {
            after[s::ANYTHING_SENT] = 1;
        }
    },
    |before, call, _, after| {
        if is_start(call) {
            after[s::LAST_SENT_PACKET] = before[s::LAST_SENT_PACKET];
        }
    },
    // Other calls that set the note or clear it.
    |_, call, reply, after| {
        if is_event(call) && reply == 0 {
            after[s::ANYTHING_SENT] = 1;
        }
    },
    |_, call, reply, after| {
        if call[c::NUMBER] == calls::RESTART_ROUND_EARLY && reply == 0 {
            after[s::ANYTHING_SENT] = 1;
        }
    },
    |_, call, reply, after| {
        if call[c::NUMBER] == calls::RESTART_ROUND_EARLY && reply == 0 {
            after[s::ANYTHING_SENT] = 0;
        }
    },
];

const TOUCHES: [Change; 6] = [
    // A refused send that sets the note, and one that is remembered.
    |_, call, reply, after| {
        if is_send(call) && reply != 0 {
            after[s::ANYTHING_SENT] = 1;
        }
    },
    |_, call, reply, after| {
        if is_send(call) && reply != 0 {
            after[s::LAST_SENT_PACKET] = call[sent::PACKET_NUMBER];
        }
    },
    // What 10 changes.
    |_, _, reply, after| {
        if reply == NEVER_SENT {
            after[s::ANYTHING_SENT] = 1;
        }
    },
    |_, call, reply, after| {
        if reply == NEVER_SENT {
            after[s::LAST_MOMENT] = call[c::EVENT_TIME];
        }
    },
    |_, call, reply, after| {
        if reply == NEVER_SENT {
            after[s::TOTAL_LOST] = call[c::TOTAL_LOST];
        }
    },
    |_, _, reply, after| {
        if reply == NEVER_SENT {
            after[s::ROUND_TRIP_COUNT] = after[s::ROUND_TRIP_COUNT].wrapping_add(1);
        }
    },
];

/// The right call with something done to the state after it.
fn changed(change: Change, state: &mut State, call: &Call, lists: &[u64]) -> Answer {
    let before = *state;
    let answer = step_with(state, call, lists);
    change(&before, call, answer[a::REPLY], state);
    answer
}

makes!(changes, changes_lists<WAY>, |state, call, lists| {
    changed(CHANGES[WAY], state, call, lists)
});
makes!(touches, touches_lists<WAY>, |state, call, lists| {
    changed(TOUCHES[WAY], state, call, lists)
});
// It is refused, and those of its numbers that were sent are acked.
makes!(acks_the_rest, acks_the_rest_lists, |state, call, lists| {
    let before = *state;
    let answer = step_with(state, call, lists);
    let acked = words::acked(call, lists).unwrap_or(&[]);
    let mut rest = acked
        .iter()
        .filter(|&&number| Some(number) <= last_sent(&before));
    if let (NEVER_SENT, Some(&number)) = (answer[a::REPLY], rest.next()) {
        step(state, &with_one(call, Some(number)));
    }
    answer
});
makes!(has_no_record, has_no_record_lists, |state, call, lists| {
    let mut answer = step_with(state, call, lists);
    if answer[a::REPLY] == NEVER_SENT {
        answer[a::RECORD..].fill(0);
    }
    answer
});

#[test]
fn another_note_is_noticed() {
    assert_both_noticed(
        Fault::Content,
        &[
            (
                "not by a send",
                changes::<0> as Run,
                changes_lists::<0> as RunLists,
            ),
            ("the greatest is the last", changes::<1>, changes_lists::<1>),
            ("kept by a start", changes::<2>, changes_lists::<2>),
            ("kept by a refused start", changes::<3>, changes_lists::<3>),
            ("set by a start", changes::<4>, changes_lists::<4>),
            (
                "the number kept by a start",
                changes::<5>,
                changes_lists::<5>,
            ),
            ("set by an event", changes::<6>, changes_lists::<6>),
            ("set by a restart", changes::<7>, changes_lists::<7>),
            ("cleared by a restart", changes::<8>, changes_lists::<8>),
            ("10 without a record", has_no_record, has_no_record_lists),
        ],
    );
    assert_both_noticed(
        Fault::Touched,
        &[
            (
                "by a refused send",
                touches::<0> as Run,
                touches_lists::<0> as RunLists,
            ),
            (
                "the number of a refused send",
                touches::<1>,
                touches_lists::<1>,
            ),
            ("by 10", touches::<2>, touches_lists::<2>),
            ("the moment by 10", touches::<3>, touches_lists::<3>),
            ("a total by 10", touches::<4>, touches_lists::<4>),
            ("the rounds by 10", touches::<5>, touches_lists::<5>),
            ("the rest is acked", acks_the_rest, acks_the_rest_lists),
        ],
    );
}

/// A run and one with lists whose three ranges a function is given, with what makes one call.
macro_rules! runs {
    ($run:ident, $run_lists:ident $(<$kind:ident>)?,
        |$state:ident, $calls:ident, $answers:ident, $one:ident| $reply:expr) => {
        exported_run!($run $(<$kind>)?, |state, calls, answers| {
            let ($state, $calls, $answers) = (lent(state), lent(calls), lent(answers));
            let $one = step;
            $reply
        });
        exported_lists!($run_lists $(<$kind>)?, |state, calls, lists, answers| {
            let lists = lent_words(lists);
            let ($state, $calls, $answers) = (lent(state), lent(calls), lent(answers));
            let $one = |state: &mut State, call: &Call| step_with(state, call, lists);
            $reply
        });
    };
}

/// Where the first answer of a run with this reply is.
fn first(reply: u64, answers: &[u8], calls: &[u8]) -> Option<usize> {
    let count = calls.len() / words::CALL_BYTES;
    let mut each = answers.chunks_exact(words::ANSWER_BYTES).take(count);
    each.position(|answer| words::words::<1>(answer)[a::REPLY] == reply)
}

runs!(
    refuses_the_run,
    refuses_the_run_lists,
    |state, calls, answers, one| {
        let kept = (state.to_vec(), answers.to_vec());
        let reply = run_by(one, state, calls, answers);
        if reply == 0 && first(NEVER_SENT, answers, calls).is_some() {
            state.copy_from_slice(&kept.0);
            answers.copy_from_slice(&kept.1);
            return NEVER_SENT;
        }
        reply
    }
);
runs!(
    ends_the_run,
    ends_the_run_lists,
    |state, calls, answers, one| {
        let kept = answers.to_vec();
        let reply = run_by(one, state, calls, answers);
        if let (0, Some(place)) = (reply, first(NEVER_SENT, answers, calls)) {
            let made = (place + 1) * words::ANSWER_BYTES;
            answers[made..].copy_from_slice(&kept[made..]);
        }
        reply
    }
);
// A note of 2 or more is read as yes, or as no.
runs!(
    reads_a_note,
    reads_a_note_lists<AS>,
    |state, calls, answers, one| {
        if state.len() == words::STATE_BYTES {
            let mut read: State = words::words(state);
            if read[s::ANYTHING_SENT] > 1 {
                read[s::ANYTHING_SENT] = AS as u64;
                state.copy_from_slice(&words::bytes(&read));
            }
        }
        run_by(one, state, calls, answers)
    }
);
// A state without the note is taken, as one in which something was sent.
runs!(
    takes_no_note,
    takes_no_note_lists,
    |state, calls, answers, one| {
        let (model, cycle) = state.split_at(state.len().min(WORD_BYTES * s::ANYTHING_SENT));
        if state.len() + WORD_BYTES != words::STATE_BYTES {
            return run_by(one, state, calls, answers);
        }
        let mut whole = [model, &1_u64.to_le_bytes(), cycle].concat();
        run_by(one, &mut whole, calls, answers)
    }
);
// A longer state is taken.
runs!(
    takes_more,
    takes_more_lists,
    |state, calls, answers, one| {
        let whole = state.len().min(words::STATE_BYTES);
        run_by(one, &mut state[..whole], calls, answers)
    }
);

#[test]
fn other_runs_are_noticed() {
    assert_both_noticed(
        Fault::Reply,
        &[
            (
                "10 refuses the run",
                refuses_the_run as Run,
                refuses_the_run_lists as RunLists,
            ),
            (
                "a note of 2 is yes",
                reads_a_note::<1>,
                reads_a_note_lists::<1>,
            ),
            (
                "a note of 2 is no",
                reads_a_note::<0>,
                reads_a_note_lists::<0>,
            ),
            ("400 bytes are a state", takes_no_note, takes_no_note_lists),
            ("409 bytes are a state", takes_more, takes_more_lists),
        ],
    );
    assert_both_noticed(
        Fault::Content,
        &[(
            "10 ends the run",
            ends_the_run as Run,
            ends_the_run_lists as RunLists,
        )],
    );
}

/// A call, the number of a send, and an event's numbers; then the reply, the note and the last sent
/// number after it.
type Worked = (u64, u64, &'static [u64], u64, u64, u64);

/// A run worked by hand, from a state of zeros. A start of the number 99 is refused for its round trip,
/// with 2.4 at 1, and a send for its bytes in flight, with 2.2 at 2.
const WORKED: [Worked; 27] = {
    const START: u64 = calls::START;
    const SEND: u64 = calls::ON_PACKET_SENT;
    const EVENT: u64 = calls::ON_CONGESTION_EVENT_START;
    const RESTART: u64 = calls::RESTART_ROUND_EARLY;
    [
        (START, 0, &[], 0, 0, 0),
        (EVENT, 0, &[0], 10, 0, 0),
        (EVENT, 0, &[], 0, 0, 0),
        (RESTART, 0, &[], 0, 0, 0),
        (SEND, 99, &[], 0x2_0202, 0, 0),
        (EVENT, 0, &[0], 10, 0, 0),
        (SEND, 0, &[], 0, 1, 0),
        (EVENT, 0, &[1], 10, 1, 0),
        (EVENT, 0, &[0], 0, 1, 0),
        (SEND, 5, &[], 0, 1, 5),
        (EVENT, 0, &[5, 6], 10, 1, 5),
        (EVENT, 0, &[6, 5], 10, 1, 5),
        (EVENT, 0, &[5, 4], 0, 1, 5),
        (SEND, 3, &[], 0, 1, 3),
        (EVENT, 0, &[5], 10, 1, 3),
        (EVENT, 0, &[3], 0, 1, 3),
        (SEND, 99, &[], 0x2_0202, 1, 3),
        (EVENT, 0, &[4], 10, 1, 3),
        (START, 99, &[], 0x1_0402, 0, 0),
        (EVENT, 0, &[0], 10, 0, 0),
        (SEND, u64::MAX, &[], 0, 1, u64::MAX),
        (EVENT, 0, &[u64::MAX, 7], 0, 1, u64::MAX),
        (START, 0, &[], 0, 0, 0),
        (START, 0, &[], 0, 0, 0),
        (EVENT, 0, &[u64::MAX], 10, 0, 0),
        (SEND, 1, &[], 0, 1, 1),
        (EVENT, 0, &[1, 0, 1], 0, 1, 1),
    ]
};

#[test]
fn a_worked_run_gives_its_replies() {
    let mut dice = Dice::new(7);
    let mut state: State = words::words(&[]);
    for (at, (number, packet, acked, reply, note, last)) in WORKED.into_iter().enumerate() {
        let fresh = after::fresh(0, 0, after::ONE, after::ONE, 0);
        let mut call = choose::good_call(&mut dice, &fresh, number);
        if is_send(&call) {
            call = choose::send_now(&mut dice, &fresh, packet);
        }
        if is_event(&call) {
            choose::stand_still(&fresh, &mut call);
            own(&mut call, acked);
        }
        if is_start(&call) {
            call[c::ARGUMENTS] = 0;
        }
        if packet == 99 {
            call[c::ARGUMENTS + 1] = u64::MAX;
        }
        let answer = step(&mut state, &call);
        let left = (
            answer[a::REPLY],
            state[s::ANYTHING_SENT],
            state[s::LAST_SENT_PACKET],
        );
        assert_eq!(left, (reply, note, last), "call {} of the run", at);
    }
}
