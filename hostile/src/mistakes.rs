//! Ports that reply, answer, read or write something else than the right one, in one way each: runs of
//! the model, with lists and without, the slope and the conversions.

use std::ptr;

use guovssalu_sys::table::call as calls;
use guovssalu_sys::table::WORD_BYTES;

use crate::events;
use crate::fakes::assert_ends_the_process;
use crate::fakes::assert_lists_noticed;
use crate::fakes::assert_noticed;
use crate::fakes::exported_lists;
use crate::fakes::exported_run;
use crate::fakes::flip;
use crate::fakes::flip_after;
use crate::fakes::flip_before;
use crate::fakes::found;
use crate::fakes::lent;
use crate::fakes::notices;
use crate::fakes::raise_inflight_high_slope;
use crate::fakes::run_by;
use crate::fakes::step;
use crate::fakes::u64_to_f32;
use crate::fakes::Range;
use crate::fakes::Words;
use crate::fakes::RIGHT;
use crate::foreign::Port;
use crate::foreign::Run;
use crate::foreign::RunLists;
use crate::pages::page;
use crate::tally::Fault;
use crate::words;
use crate::words::answer as a;
use crate::words::state as s;

/// The right run with something added after it, which gets the reply and the three ranges.
macro_rules! run_with {
    ($name:ident, |$reply:ident, $state:ident, $calls:ident, $answers:ident| $more:expr) => {
        exported_run!($name, |$state, $calls, $answers| {
            let $reply = run_by(step, lent($state), lent($calls), lent($answers));
            $more
        });
    };
}

run_with!(other_run_reply, |reply, _s, _c, _a| if reply == 7 {
    2
} else {
    reply
});
run_with!(never_refuses_calls, |reply, _s, _c, answers| {
    if reply == 0 && answers.1 >= words::ANSWER_BYTES && *answers.0 == 5 {
        *answers.0 = 0;
    }
    reply
});
run_with!(touches_refused_run, |reply, state, _c, _a| {
    if reply != 0 && state.1 > 0 {
        flip(state.0, state.1 - 1);
    }
    reply
});
run_with!(touches_refused_answers, |reply, _s, _c, answers| {
    if reply == 7 && answers.1 > 0 {
        flip(answers.0, 0);
    }
    reply
});
run_with!(touches_refused_state, |reply, state, _c, answers| {
    if reply == 0 && answers.1 == words::ANSWER_BYTES && matches!(*answers.0, 1..=5) {
        flip(state.0, 0);
    }
    reply
});
run_with!(touches_calls, |reply, _s, calls, _a| {
    if calls.1 > 0 {
        flip(calls.0, calls.1 - 1);
    }
    reply
});
run_with!(writes_past_answers, |reply, _s, calls, answers| {
    let whole = calls.1 / words::CALL_BYTES * words::ANSWER_BYTES;
    if reply == 0 && answers.1 > whole {
        flip(answers.0, answers.1 - 1);
    }
    reply
});
run_with!(answers_wrong_bit, |reply, _s, calls, answers| {
    if reply == 0 && calls.1 == words::CALL_BYTES {
        flip(answers.0, WORD_BYTES * a::VALUE);
    }
    reply
});
run_with!(answers_a_record, |reply, _s, calls, answers| {
    if reply == 0
        && calls.1 == words::CALL_BYTES
        && *calls.0 != calls::ON_CONGESTION_EVENT_START as u8
    {
        flip(answers.0, words::ANSWER_BYTES - 1);
    }
    reply
});
run_with!(leaves_bad_state, |reply, state, calls, answers| {
    if reply == 0
        && calls.1 == words::CALL_BYTES
        && *calls.0 == calls::RESTART_ROUND_EARLY as u8
        && *answers.0 == 0
    {
        *state.0.add(WORD_BYTES * s::MIN_RTT + 7) = 0xff;
    }
    reply
});
run_with!(changes_more_at_events, |reply, state, calls, answers| {
    if reply == 0
        && calls.1 == words::CALL_BYTES
        && *calls.0 == calls::ON_CONGESTION_EVENT_START as u8
        && *answers.0 == 0
    {
        flip(state.0, WORD_BYTES * s::MIN_RTT_TIMESTAMP);
    }
    reply
});
run_with!(long_runs_differ, |reply, state, calls, _a| {
    if reply == 0 && calls.1 > words::CALL_BYTES {
        flip(state.0, 0);
    }
    reply
});
run_with!(writes_after_state, |reply, state, _c, _a| {
    flip_after(state);
    reply
});
run_with!(writes_before_state, |reply, state, _c, _a| {
    flip_before(state);
    reply
});
run_with!(writes_after_calls, |reply, _s, calls, _a| {
    flip_after(calls);
    reply
});
run_with!(writes_before_answers, |reply, _s, _c, answers| {
    flip_before(answers);
    reply
});
run_with!(writes_after_answers, |reply, _s, _c, answers| {
    flip_after(answers);
    reply
});

run_with!(reads_after_state, |reply, state, _c, _a| {
    if state.1 > 0 {
        ptr::read_volatile(state.0.add(state.1));
    }
    reply
});

/// The right run with lists with something added after it, which gets the reply, the lists and the
/// answers.
macro_rules! lists_with {
    ($name:ident, |$reply:ident, $lists:ident, $answers:ident| $more:expr) => {
        exported_lists!($name, |state, calls, $lists, $answers| {
            let $reply = (RIGHT.run_lists)(
                state.0, state.1, calls.0, calls.1, $lists.0, $lists.1, $answers.0, $answers.1,
            );
            $more
        });
    };
}

/// The bytes of lists where they may be written: they then touch no page's end.
unsafe fn open((start, len): Words) -> Option<Range> {
    let (start, len) = (start as *mut u8, len * WORD_BYTES);
    let ends = [start as usize, start as usize + len];
    (len > 0 && ends.iter().all(|end| end % page() != 0)).then_some((start, len))
}

lists_with!(touches_lists, |reply, lists, _a| {
    if let Some((start, len)) = open(lists) {
        flip(start, len - 1);
    }
    reply
});
lists_with!(writes_after_lists, |reply, lists, _a| {
    if let Some(range) = open(lists) {
        flip_after(range);
    }
    reply
});
lists_with!(writes_before_lists, |reply, lists, _a| {
    if let Some(range) = open(lists) {
        flip_before(range);
    }
    reply
});
lists_with!(lists_write_after_answers, |reply, _l, answers| {
    flip_after(answers);
    reply
});
lists_with!(reads_after_lists, |reply, lists, _a| {
    if lists.1 > 0 {
        ptr::read_volatile(lists.0.add(lists.1));
    }
    reply
});
lists_with!(reads_before_lists, |reply, lists, _a| {
    if lists.1 > 0 {
        ptr::read_volatile(lists.0.sub(1));
    }
    reply
});
lists_with!(reads_lists_of_no_words, |reply, lists, _a| {
    if lists.1 == 0 {
        ptr::read_volatile(lists.0 as *const u8);
    }
    reply
});
lists_with!(writes_lists_back, |reply, lists, _a| {
    if lists.1 > 0 {
        ptr::write_volatile(lists.0 as *mut u64, *lists.0);
    }
    reply
});

unsafe extern "C" fn slope_off(rounds: u64, window: u64, out: *mut u8, out_len: usize) -> u64 {
    raise_inflight_high_slope(rounds.min(29), window, out, out_len)
}

unsafe extern "C" fn slope_before(rounds: u64, window: u64, out: *mut u8, out_len: usize) -> u64 {
    flip_before((out, out_len));
    raise_inflight_high_slope(rounds, window, out, out_len)
}

unsafe extern "C" fn cut_to_f32(n: u64) -> u32 {
    let low = n.leading_zeros() + 24;
    u64_to_f32(if low < 64 {
        n >> (64 - low) << (64 - low)
    } else {
        n
    })
}

unsafe extern "C" fn scale_in_whole_numbers(n: u64, gain: u32) -> u64 {
    (n as f64 * f32::from_bits(gain) as f64) as u64
}

unsafe extern "C" fn cut_f64(bits: u64) -> u64 {
    f64::from_bits(bits) as u64
}

unsafe extern "C" fn period_without_infinite(bandwidth: u64, nanos: u64) -> u64 {
    (bandwidth as u128 * nanos as u128 / 8_000_000_000).min(u64::MAX as u128) as u64
}

#[test]
fn wrong_replies_are_noticed() {
    assert_noticed(
        Fault::Reply,
        &[
            ("of a run", other_run_reply as Run),
            ("of a call", never_refuses_calls),
        ],
    );
    let port = Port {
        raise_inflight_high_slope: slope_off,
        ..RIGHT
    };
    assert!(notices(port, Fault::Reply));
}

#[test]
fn touched_bytes_are_noticed() {
    assert_noticed(
        Fault::Touched,
        &[
            ("refused run", touches_refused_run as Run),
            ("refused run's answers", touches_refused_answers),
            ("refused call", touches_refused_state),
            ("calls", touches_calls),
            ("past the answers", writes_past_answers),
            ("after the state", writes_after_state),
            ("before the state", writes_before_state),
            ("after the calls", writes_after_calls),
            ("before the answers", writes_before_answers),
            ("after the answers", writes_after_answers),
        ],
    );
    assert_lists_noticed(
        Fault::Touched,
        &events::SWEEPS,
        &[
            ("lists", touches_lists as RunLists),
            ("after the lists", writes_after_lists),
            ("before the lists", writes_before_lists),
            ("after the answers", lists_write_after_answers),
        ],
    );
    let port = Port {
        raise_inflight_high_slope: slope_before,
        ..RIGHT
    };
    assert!(notices(port, Fault::Touched));
}

#[test]
fn wrong_answers_and_states_are_noticed() {
    assert_noticed(
        Fault::Content,
        &[
            ("number", answers_wrong_bit as Run),
            ("record", answers_a_record),
            ("out of bounds", leaves_bad_state),
            ("within bounds", changes_more_at_events),
            ("run and single calls", long_runs_differ),
        ],
    );
}

#[test]
fn wrong_numbers_are_noticed() {
    for port in [
        Port {
            u64_to_f32: cut_to_f32,
            ..RIGHT
        },
        Port {
            scale: scale_in_whole_numbers,
            ..RIGHT
        },
        Port {
            f64_round_to_u64: cut_f64,
            ..RIGHT
        },
        Port {
            to_bytes_per_period: period_without_infinite,
            ..RIGHT
        },
    ] {
        assert!(notices(port, Fault::Content));
    }
}

/// A test that ends the process, by a run with lists that reads or writes where it must not.
macro_rules! ends_the_process {
    ($name:ident, $run_lists:ident) => {
        #[test]
        #[ignore = "it ends the process, and another test starts it"]
        fn $name() {
            let run_lists = $run_lists;
            found(Port { run_lists, ..RIGHT });
        }
    };
}

ends_the_process!(reads_past_lists, reads_after_lists);
ends_the_process!(reads_ahead_of_lists, reads_before_lists);
ends_the_process!(reads_no_words, reads_lists_of_no_words);
ends_the_process!(writes_into_lists, writes_lists_back);

#[test]
#[ignore = "it ends the process, and another test starts it"]
fn reads_past_a_range() {
    found(Port {
        run: reads_after_state,
        ..RIGHT
    });
}

#[test]
fn a_read_or_write_where_none_may_be_ends_the_process() {
    assert_ends_the_process(&[
        "mistakes::reads_past_a_range",
        "mistakes::reads_past_lists",
        "mistakes::reads_ahead_of_lists",
        "mistakes::reads_no_words",
        "mistakes::writes_into_lists",
    ]);
}
