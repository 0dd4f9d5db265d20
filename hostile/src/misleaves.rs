//! Ports that are wrong about what other calls on the estimator leave than samples, or about what a call
//! answers, in one way each.

use guovssalu_sys::table::rtt_answer as a;
use guovssalu_sys::table::rtt_argument::new;
use guovssalu_sys::table::rtt_argument::update_max_ack_delay as limit;
use guovssalu_sys::table::rtt_argument::update_rtt as sample;
use guovssalu_sys::table::rtt_call as calls;
use guovssalu_sys::table::rtt_state as s;
use guovssalu_sys::table::RTT_NUMBER_IN_CALL as NUMBER;

use crate::bounds::LENGTH;
use crate::estimator;
use crate::estimator::Step;
use crate::fakes::exported_run;
use crate::fakes::lent;
use crate::fakes::rtt_by;
use crate::fakes::rtt_step;
use crate::foreign::Run;
use crate::mistimes::assert_noticed;
use crate::mistimes::changed;
use crate::mistimes::each;
use crate::mistimes::is_later;
use crate::mistimes::makes;
use crate::mistimes::Change;
use crate::tally::Fault;
use crate::words::RttAnswer;
use crate::words::RttCall;
use crate::words::RttState;
use crate::words::RTT_CALLS_END;
use crate::words::UNSET;

/// Whether it is a `new`, and this was its reply.
fn is_new(call: &RttCall, done: bool, reply: u64) -> bool {
    call[NUMBER] == calls::NEW && (reply == 0) == done
}

/// Whether it is another limit that is taken.
fn is_limit(call: &RttCall, reply: u64) -> bool {
    call[NUMBER] == calls::UPDATE_MAX_ACK_DELAY && reply == 0
}

/// What `new` leaves, done or refused, and another limit.
const STARTS: [(&str, Change); 21] = [
    ("new keeps the sample", |before, call, reply, after| {
        if is_new(call, true, reply) {
            after[s::HAS_FIRST_RTT_SAMPLE] = before[s::HAS_FIRST_RTT_SAMPLE];
        }
    }),
    ("new has a sample", |_, call, reply, after| {
        if is_new(call, true, reply) {
            after[s::HAS_FIRST_RTT_SAMPLE] = 1;
        }
    }),
    ("new keeps the latest", |before, call, reply, after| {
        if is_new(call, true, reply) {
            after[s::LATEST_RTT] = before[s::LATEST_RTT];
        }
    }),
    ("new has a latest", |_, call, reply, after| {
        if is_new(call, true, reply) {
            after[s::LATEST_RTT] = call[new::INITIAL_RTT];
        }
    }),
    ("new has no minimum", |_, call, reply, after| {
        if is_new(call, true, reply) {
            after[s::MIN_RTT] = 0;
        }
    }),
    ("new has an unset minimum", |_, call, reply, after| {
        if is_new(call, true, reply) {
            after[s::MIN_RTT] = UNSET;
        }
    }),
    ("new keeps the minimum", |before, call, reply, after| {
        if is_new(call, true, reply) {
            after[s::MIN_RTT] = before[s::MIN_RTT];
        }
    }),
    ("new keeps smoothed", |before, call, reply, after| {
        if is_new(call, true, reply) {
            after[s::SMOOTHED_RTT] = before[s::SMOOTHED_RTT];
        }
    }),
    ("all of the initial is rttvar", |_, call, reply, after| {
        if is_new(call, true, reply) {
            after[s::RTTVAR] = call[new::INITIAL_RTT];
        }
    }),
    ("half the initial up", |_, call, reply, after| {
        if is_new(call, true, reply) {
            after[s::RTTVAR] = (call[new::INITIAL_RTT] + 1) / 2;
        }
    }),
    ("new keeps the limit", |before, call, reply, after| {
        if is_new(call, true, reply) {
            after[s::MAX_ACK_DELAY] = before[s::MAX_ACK_DELAY];
        }
    }),
    ("the limit for the initial", |_, call, reply, after| {
        if is_new(call, true, reply) {
            *after = estimator::fresh(call[new::MAX_ACK_DELAY], call[new::INITIAL_RTT]);
        }
    }),
    ("a refused new keeps all", |before, call, reply, after| {
        if is_new(call, false, reply) {
            *after = *before;
        }
    }),
    (
        "a refused new keeps the limit",
        |before, call, reply, after| {
            if is_new(call, false, reply) {
                after[s::MAX_ACK_DELAY] = before[s::MAX_ACK_DELAY];
            }
        },
    ),
    (
        "a refused new keeps the sample",
        |before, call, reply, after| {
            if is_new(call, false, reply) {
                after[s::HAS_FIRST_RTT_SAMPLE] = before[s::HAS_FIRST_RTT_SAMPLE];
            }
        },
    ),
    (
        "a refused new takes what is good",
        |_, call, reply, after| {
            if is_new(call, false, reply) {
                let good = |at: usize| if call[at] > LENGTH { 0 } else { call[at] };
                *after = estimator::fresh(good(new::INITIAL_RTT), good(new::MAX_ACK_DELAY));
            }
        },
    ),
    ("a refused new takes all", |_, call, reply, after| {
        if is_new(call, false, reply) {
            *after = estimator::fresh(call[new::INITIAL_RTT], call[new::MAX_ACK_DELAY]);
        }
    }),
    ("the limit only rises", |before, call, reply, after| {
        if is_limit(call, reply) {
            after[s::MAX_ACK_DELAY] = before[s::MAX_ACK_DELAY].max(call[limit::MAX_ACK_DELAY]);
        }
    }),
    ("the limit is kept", |before, call, reply, after| {
        if is_limit(call, reply) {
            after[s::MAX_ACK_DELAY] = before[s::MAX_ACK_DELAY];
        }
    }),
    ("a limit forgets the sample", |_, call, reply, after| {
        if is_limit(call, reply) {
            after[s::HAS_FIRST_RTT_SAMPLE] = 0;
        }
    }),
    ("a limit starts anew", |before, call, reply, after| {
        if is_limit(call, reply) {
            *after = estimator::fresh(before[s::SMOOTHED_RTT], call[limit::MAX_ACK_DELAY]);
        }
    }),
];

/// What refused calls but `new` leave.
const TOUCHES: [(&str, Change); 7] = [
    ("a refused sample is the latest", |_, call, reply, after| {
        if reply != 0 && call[NUMBER] == calls::UPDATE_RTT {
            after[s::LATEST_RTT] = call[sample::LATEST_RTT];
        }
    }),
    ("a refused sample is the first", |_, call, reply, after| {
        if reply != 0 && call[NUMBER] == calls::UPDATE_RTT {
            after[s::HAS_FIRST_RTT_SAMPLE] = 1;
        }
    }),
    (
        "a sample is taken without its bad delay",
        |before, call, reply, after| {
            if reply == 0x2_0402 && call[NUMBER] == calls::UPDATE_RTT {
                let mut other = *call;
                other[sample::ACK_DELAY] = 0;
                *after = estimator::state(before, &other, 0);
            }
        },
    ),
    ("a refused limit is stored", |_, call, reply, after| {
        if reply != 0 && call[NUMBER] == calls::UPDATE_MAX_ACK_DELAY {
            after[s::MAX_ACK_DELAY] = call[limit::MAX_ACK_DELAY];
        }
    }),
    ("stored lengths are cut", |_, _, reply, after| {
        if reply == 1 {
            for length in &mut after[..s::HAS_FIRST_RTT_SAMPLE] {
                *length = LENGTH.min(*length);
            }
        }
    }),
    ("1 clears all", |_, _, reply, after| {
        if reply == 1 {
            *after = estimator::fresh(0, 0);
        }
    }),
    ("no call clears all", |_, call, reply, after| {
        if reply != 0 && call[NUMBER] >= RTT_CALLS_END {
            *after = estimator::fresh(0, 0);
        }
    }),
];

makes!(starts<WAY>, |now, call| changed(STARTS[WAY].1, now, call));
makes!(touches<WAY>, |now, call| changed(TOUCHES[WAY].1, now, call));

#[test]
fn other_estimators_are_noticed() {
    let runs = each!(STARTS, starts, 0 1 2 3 4 5 6 7 8 9 10 11 12 13 14 15 16 17 18 19 20);
    assert_noticed(Fault::Content, &runs);
    let runs = each!(TOUCHES, touches, 0 1 2 3 4 5 6);
    assert_noticed(Fault::Touched, &runs);
}

/// What a wrong port makes of an answer. It gets the call as it is right.
type Answered = fn(&Step, &mut RttAnswer);

const ANSWERS: [(&str, Answered); 10] = [
    ("a refused call shows the estimator", |step, answer| {
        let shown = estimator::answer(&step.after, 0);
        answer[a::LATEST_RTT..].copy_from_slice(&shown[a::LATEST_RTT..]);
    }),
    ("a refused call has an unset minimum", |step, answer| {
        if step.rows.due() != 0 {
            answer[a::MIN_RTT] = UNSET;
        }
    }),
    ("an unset minimum is shown", |step, answer| {
        if step.rows.due() == 0 {
            answer[a::MIN_RTT] = step.after[s::MIN_RTT];
        }
    }),
    ("an unset minimum is 0", |_, answer| {
        if answer[a::MIN_RTT] == UNSET {
            answer[a::MIN_RTT] = 0;
        }
    }),
    ("the minimum is unset at the first", |step, answer| {
        if step.rows.due() == 0 && !estimator::has_sample(&step.before) {
            answer[a::MIN_RTT] = UNSET;
        }
    }),
    ("as it was before the call", |step, answer| {
        *answer = estimator::answer(&step.before, step.rows.reply());
    }),
    ("the minimum after smoothed", |_, answer| {
        answer.swap(a::MIN_RTT, a::SMOOTHED_RTT);
    }),
    ("rttvar before smoothed", |_, answer| {
        answer.swap(a::RTTVAR, a::SMOOTHED_RTT);
    }),
    ("the limit for rttvar", |step, answer| {
        if step.rows.due() == 0 {
            answer[a::RTTVAR] = step.after[s::MAX_ACK_DELAY];
        }
    }),
    ("the latest adjusted", |step, answer| {
        let reply = step.rows.reply();
        if is_later(&step.before, &step.call, reply) {
            answer[a::LATEST_RTT] = estimator::adjusted(&step.before, &step.call);
        }
    }),
];

makes!(answers<WAY>, |now, call| {
    let step = Step::new(now, call);
    let mut answer = rtt_step(now, call);
    ANSWERS[WAY].1(&step, &mut answer);
    answer
});

#[test]
fn other_answers_are_noticed() {
    let runs = each!(ANSWERS, answers, 0 1 2 3 4 5 6 7 8 9);
    assert_noticed(Fault::Content, &runs);
}
