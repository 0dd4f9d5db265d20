//! Ports that write what a run of the estimator was not lent or may not write, or read what it was not
//! lent.

use std::ptr;

use crate::fakes::assert_ends_the_process;
use crate::fakes::exported_run;
use crate::fakes::flip;
use crate::fakes::flip_after;
use crate::fakes::flip_before;
use crate::fakes::found;
use crate::fakes::lent;
use crate::fakes::Range;
use crate::fakes::RIGHT;
use crate::foreign::Port;
use crate::foreign::Run;
use crate::misruns::run_right;
use crate::mistimes::assert_noticed;
use crate::tally::Fault;
use crate::words::RTT_CALL_BYTES;
use crate::words::RTT_STATE_BYTES;

/// The right run with something done to a byte of its ranges or beside them.
macro_rules! run_with {
    ($name:ident, |$state:ident, $calls:ident, $answers:ident| $more:expr) => {
        exported_run!($name, |$state, $calls, $answers| {
            let reply = run_right(lent($state), lent($calls), lent($answers));
            $more;
            reply
        });
    };
}

run_with!(writes_after_state, |state, _c, _a| flip_after(state));
run_with!(writes_before_state, |state, _c, _a| flip_before(state));
run_with!(writes_after_calls, |_s, calls, _a| flip_after(calls));
run_with!(writes_before_calls, |_s, calls, _a| flip_before(calls));
run_with!(writes_after_answers, |_s, _c, answers| flip_after(answers));
run_with!(writes_before_answers, |_s, _c, answers| flip_before(
    answers
));
run_with!(writes_calls, |_s, calls, _a| {
    if calls.1 > 0 {
        flip(calls.0, calls.1 - 1);
    }
});

#[test]
fn touched_bytes_are_noticed() {
    assert_noticed(
        Fault::Touched,
        &[
            ("after the state", writes_after_state as Run),
            ("before the state", writes_before_state),
            ("after the calls", writes_after_calls),
            ("before the calls", writes_before_calls),
            ("after the answers", writes_after_answers),
            ("before the answers", writes_before_answers),
            ("the calls", writes_calls),
        ],
    );
}

/// Reads the byte at a place, seen from a range's begin.
unsafe fn read((start, _): Range, place: isize) {
    ptr::read_volatile(start.offset(place));
}

/// Reads the byte just after a range.
unsafe fn read_after(range: Range) {
    if range.1 > 0 {
        read(range, range.1 as isize);
    }
}

/// Reads the byte just before a range.
unsafe fn read_before(range: Range) {
    if range.1 > 0 {
        read(range, -1);
    }
}

/// Reads where a range without bytes is.
unsafe fn read_none(range: Range) {
    if range.1 == 0 {
        read(range, 0);
    }
}

/// Reads the last byte of a range as if it had so many, before its length is known.
unsafe fn read_as_if(range: Range, bytes: usize) {
    if range.1 > 0 {
        read(range, bytes as isize - 1);
    }
}

/// Tests that end the process, each by the right run that then reads where it must not, and their names.
macro_rules! ending_the_process {
    ($($name:ident, |$state:ident, $calls:ident, $answers:ident| $read:expr;)*) => {
        $(#[test]
        #[ignore = "it ends the process, and another test starts it"]
        fn $name() {
            run_with!(rtt_run, |$state, $calls, $answers| $read);
            found(Port { rtt_run, ..RIGHT });
        })*
        const ENDING: &[&str] = &[$(concat!("mistouches::", stringify!($name))),*];
    };
}

ending_the_process! {
    reads_after_the_state, |state, _c, _a| read_after(state);
    reads_before_the_state, |state, _c, _a| read_before(state);
    reads_a_state_of_no_bytes, |state, _c, _a| read_none(state);
    reads_after_the_calls, |_s, calls, _a| read_after(calls);
    reads_before_the_calls, |_s, calls, _a| read_before(calls);
    reads_calls_of_no_bytes, |_s, calls, _a| read_none(calls);
    reads_after_the_answers, |_s, _c, answers| read_after(answers);
    reads_before_the_answers, |_s, _c, answers| read_before(answers);
    reads_answers_of_no_bytes, |_s, _c, answers| read_none(answers);
    reads_the_flag_of_any_state, |state, _c, _a| read_as_if(state, RTT_STATE_BYTES);
    reads_a_part_as_a_call, |_s, calls, _a| read_as_if(calls, RTT_CALL_BYTES);
}

#[test]
fn a_read_where_none_may_be_ends_the_process() {
    assert_ends_the_process(ENDING);
}
