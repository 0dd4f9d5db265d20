//! Ports whose exported functions are wrong about what their own refusals name, in one way each: a run of
//! the model or of the estimator, a filter run, the slope.

use crate::estimator;
use crate::fakes::assert_filter_noticed;
use crate::fakes::exported_filter;
use crate::fakes::exported_lists;
use crate::fakes::exported_run;
use crate::fakes::lent;
use crate::fakes::lent_words;
use crate::fakes::notices;
use crate::fakes::rtt_by;
use crate::fakes::rtt_step;
use crate::fakes::run_by;
use crate::fakes::step;
use crate::fakes::step_with;
use crate::fakes::RIGHT;
use crate::flaws::SWEEPS;
use crate::foreign::FilterRun;
use crate::foreign::Port;
use crate::foreign::Run;
use crate::foreign::RunLists;
use crate::foreign::Slope;
use crate::misnames::each;
use crate::missends::assert_both_noticed_in;
use crate::mistimes;
use crate::table;
use crate::table::Rows;
use crate::tally::Fault;
use crate::words::Call;
use crate::words::State;

/// What a wrong exported function replies instead of the right reply; a run is told its rows.
type Resaid = fn(&Rows, u64) -> u64;

/// The two lengths of a run, by the bits of their flaws.
const BOTH: u64 = 3;

/// The reply at another place.
fn moved(reply: u64, place: u64) -> u64 {
    reply & 0xffff | place << 16
}

const RUNS: [(&str, Resaid); 9] = [
    ("both lengths at 2", |rows, reply| match rows.flaws() {
        BOTH if rows.due() == 2 => moved(reply, 2),
        _ => reply,
    }),
    ("the state at 2", |_, reply| {
        if reply == 0x1_0802 {
            0x2_0802
        } else {
            reply
        }
    }),
    ("the calls at 1", |_, reply| {
        if reply == 0x2_0802 {
            0x1_0802
        } else {
            reply
        }
    }),
    ("the calls at 3", |_, reply| {
        if reply == 0x2_0802 {
            0x3_0802
        } else {
            reply
        }
    }),
    ("no kind", |_, reply| reply & !0xff00),
    ("no place", |_, reply| reply & 0xffff),
    ("a length of time", |_, reply| match reply & 0xff {
        2 => reply & !0xff00 | 0x400,
        _ => reply,
    }),
    ("1 has a kind and a place", |_, reply| {
        if reply == 1 {
            0x1_0801
        } else {
            reply
        }
    }),
    ("7 has a kind and a place", |_, reply| {
        if reply == 7 {
            0x3_0807
        } else {
            reply
        }
    }),
];

exported_run!(resays<WAY>, |state, calls, answers| {
    let (state, calls, answers) = (lent(state), lent(calls), lent(answers));
    let rows = table::run_rows(state, calls, answers.len());
    RUNS[WAY].1(&rows, run_by(step, state, calls, answers))
});
exported_run!(rtt_resays<WAY>, |state, calls, answers| {
    let (state, calls, answers) = (lent(state), lent(calls), lent(answers));
    let rows = estimator::run_rows(state, calls, answers.len());
    RUNS[WAY].1(&rows, rtt_by(rtt_step, state, calls, answers))
});
exported_lists!(resays_lists<WAY>, |state, calls, lists, answers| {
    let (state, calls, answers) = (lent(state), lent(calls), lent(answers));
    let lists = lent_words(lists);
    let rows = table::run_rows(state, calls, answers.len());
    let one = |state: &mut State, call: &Call| step_with(state, call, lists);
    RUNS[WAY].1(&rows, run_by(one, state, calls, answers))
});

#[test]
fn other_names_of_a_run_are_noticed() {
    let runs = each!(RUNS, resays, resays_lists, 0 1 2 3 4 5 6 7 8);
    assert_both_noticed_in(Fault::Reply, &SWEEPS, &runs);
    let runs = mistimes::each!(RUNS, rtt_resays, 0 1 2 3 4 5 6 7 8);
    mistimes::assert_noticed(Fault::Reply, &runs);
}

/// The same of a filter run and of the slope, by the right reply alone.
type Said = fn(u64) -> u64;

const OTHERS: [(&str, Said); 8] = [
    ("at 1", |reply| {
        if reply & 0xff == 2 {
            moved(reply, 1)
        } else {
            reply
        }
    }),
    ("at 3", |reply| {
        if reply & 0xff == 2 {
            moved(reply, 3)
        } else {
            reply
        }
    }),
    ("at no place", |reply| reply & 0xffff),
    ("of no kind", |reply| reply & !0xff00),
    ("neither", |reply| reply & 0xff),
    ("a byte count", |reply| match reply & 0xff {
        2 => reply & !0xff00 | 0x200,
        _ => reply,
    }),
    ("1 and 3 are named", |reply| match reply {
        1 => 0x1_0602,
        3 => 0x2_0903,
        _ => reply,
    }),
    (
        "7 is named",
        |reply| if reply == 7 { 0x3_0807 } else { reply },
    ),
];

exported_filter!(filter_resays<WAY>, |window, src, out| {
    OTHERS[WAY].1((RIGHT.filter_run)(window, src.0, src.1, out.0, out.1))
});

unsafe extern "C" fn slope_resays<const WAY: usize>(
    rounds: u64,
    window: u64,
    out: *mut u8,
    out_len: usize,
) -> u64 {
    OTHERS[WAY].1((RIGHT.raise_inflight_high_slope)(
        rounds, window, out, out_len,
    ))
}

#[test]
fn other_names_of_filter_runs_and_slopes_are_noticed() {
    macro_rules! each {
        ($($way:literal)*) => {
            [$((OTHERS[$way].0, filter_resays::<$way> as FilterRun, slope_resays::<$way> as Slope)),*]
        };
    }
    let each = each!(0 1 2 3 4 5 6 7);
    assert_eq!(each.len(), OTHERS.len());
    for (name, filter_run, raise_inflight_high_slope) in each {
        assert_filter_noticed(Fault::Reply, &[(name, filter_run)]);
        let slope = Port {
            raise_inflight_high_slope,
            ..RIGHT
        };
        assert!(notices(slope, Fault::Reply), "{}", name);
    }
}
