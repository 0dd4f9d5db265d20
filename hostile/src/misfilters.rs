//! Filter runs that are wrong in one way each: about their samples, or about the reason that they tell.

use guovssalu_sys::table::reason;
use guovssalu_sys::table::samples;
use guovssalu_sys::table::PAIR_BYTES;

use crate::fakes::assert_filter_noticed;
use crate::fakes::exported_filter;
use crate::fakes::filter_by;
use crate::fakes::flip;
use crate::fakes::flip_after;
use crate::fakes::found;
use crate::fakes::lent;
use crate::fakes::write_if_done;
use crate::fakes::Update;
use crate::fakes::RIGHT;
use crate::filter;
use crate::foreign::FilterRun;
use crate::foreign::Port;
use crate::tally::Fault;

/// The right filter run with something added after it, which gets the reply, the length of the
/// pairs and the output.
macro_rules! filter_with {
    ($name:ident, |$reply:ident, $length:ident, $out:ident| $more:expr) => {
        exported_filter!($name, |window, src, $out| {
            let $reply = (RIGHT.filter_run)(window, src.0, src.1, $out.0, $out.1);
            let $length = src.1;
            $more
        });
    };
}

filter_with!(filter_off, |reply, length, out| {
    if reply == 0 && length > 0 {
        flip(out.0, 8);
    }
    reply
});
filter_with!(filter_takes_all, |reply, _l, _o| if reply == 3 {
    0
} else {
    reply
});
filter_with!(filter_writes_after, |reply, _l, out| {
    flip_after(out);
    reply
});

/// The name of step 2 where it acts, whatever acts after it.
fn raised(update: &Update) -> Option<u64> {
    let before = update.before?;
    if update.reason() == reason::ALL_REPLACED {
        None
    } else if update.sample > before[samples::SECOND] {
        Some(reason::SECOND_RAISED)
    } else if update.sample > before[samples::THIRD] {
        Some(reason::THIRD_RAISED)
    } else {
        None
    }
}

/// The right filter run, but for the reason that is written with each update's samples.
macro_rules! filter_says {
    ($name:ident $(<$kind:ident>)?, |$update:ident| $reason:expr) => {
        exported_filter!($name $(<$kind>)?, |window, src, out| {
            let one = |$update: &Update| {
                let mut written = $update.due;
                written[samples::REASON] = $reason;
                written
            };
            filter_by(one, window, lent(src), lent(out))
        });
    };
}

filter_says!(reason_off, |update| update.reason() ^ 1);
filter_says!(replaced_where_samples_are_new, |update| {
    if update.due[..samples::REASON] == [update.sample; 3] {
        reason::ALL_REPLACED
    } else {
        update.reason()
    }
});
// All three are the new sample at its time after step 1, and where these steps act, too.
filter_says!(replaced_where_all_are_new, |update| {
    match (raised(update), update.reason()) {
        (Some(reason::SECOND_RAISED), reason::PROMOTED_ONCE) => reason::ALL_REPLACED,
        (Some(reason::THIRD_RAISED), reason::PROMOTED_TWICE) => reason::ALL_REPLACED,
        (_, due) => due,
    }
});
filter_says!(unchanged_where_samples_are, |update| match update.before {
    Some(before) if before[..samples::REASON] == update.due[..samples::REASON] => reason::UNCHANGED,
    _ => update.reason(),
});
filter_says!(once_for_twice, |update| match update.reason() {
    reason::PROMOTED_TWICE => reason::PROMOTED_ONCE,
    due => due,
});
filter_says!(quarter_and_half_swapped, |update| match update.reason() {
    reason::QUARTER_REFRESH => reason::HALF_REFRESH,
    reason::HALF_REFRESH => reason::QUARTER_REFRESH,
    due => due,
});

/// The steps that can both act: step 2, and a later one.
const BOTH: [(u64, u64); 4] = [
    (reason::SECOND_RAISED, reason::PROMOTED_ONCE),
    (reason::THIRD_RAISED, reason::PROMOTED_ONCE),
    (reason::THIRD_RAISED, reason::PROMOTED_TWICE),
    (reason::THIRD_RAISED, reason::QUARTER_REFRESH),
];

filter_says!(earlier_step_named<STEPS>, |update| {
    let (earlier, later) = BOTH[STEPS];
    if (raised(update), update.reason()) == (Some(earlier), later) {
        earlier
    } else {
        update.reason()
    }
});

exported_filter!(reason_before_samples, |window, src, out| {
    let one = |update: &Update| {
        let mut written = update.due;
        written.rotate_right(1);
        written
    };
    filter_by(one, window, lent(src), lent(out))
});
exported_filter!(three_words_a_pair, |window, src, out| {
    let (rows, due) = filter::due(window, lent(src), usize::MAX);
    let written: Vec<u64> = due
        .iter()
        .flat_map(|samples| samples[..samples::REASON].to_vec())
        .collect();
    let rows = rows.with(7, out.1 < src.1 / PAIR_BYTES * 24);
    write_if_done(&rows, &written, lent(out))
});

#[test]
fn wrong_filter_runs_are_noticed() {
    assert_filter_noticed(
        Fault::Reply,
        &[
            ("of a filter run", filter_takes_all as FilterRun),
            ("with 24 bytes a pair", three_words_a_pair),
        ],
    );
    assert_filter_noticed(
        Fault::Touched,
        &[("after the samples", filter_writes_after as FilterRun)],
    );
    assert_filter_noticed(Fault::Content, &[("samples", filter_off as FilterRun)]);
}

#[test]
fn wrong_reasons_are_noticed() {
    assert_filter_noticed(
        Fault::Content,
        &[
            ("off by a bit", reason_off as FilterRun),
            ("replaced, by samples", replaced_where_samples_are_new),
            ("replaced, by estimates", replaced_where_all_are_new),
            ("unchanged, by samples", unchanged_where_samples_are),
            ("once for twice", once_for_twice),
            ("quarter and half swapped", quarter_and_half_swapped),
            ("before the samples", reason_before_samples),
            ("24 bytes a pair", three_words_a_pair),
        ],
    );
}

#[test]
fn an_earlier_step_named_is_noticed() {
    for (name, filter_run) in [
        (
            "second raised, then once",
            earlier_step_named::<0> as FilterRun,
        ),
        ("third raised, then once", earlier_step_named::<1>),
        ("third raised, then twice", earlier_step_named::<2>),
        ("third raised, then quarter", earlier_step_named::<3>),
    ] {
        let port = Port {
            filter_run,
            ..RIGHT
        };
        assert!(found(port).count(Fault::Content) > 20, "{}", name);
    }
}
