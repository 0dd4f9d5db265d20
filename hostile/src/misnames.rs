//! Ports that are wrong about what refusal 2 names, in one way each: about which flaw is the first, about
//! its kind, about its place, or about how the reply says them. The checks must notice all, by chance and
//! when they sweep flaws.

use guovssalu_sys::table::argument as arg;
use guovssalu_sys::table::call as calls;

use crate::bounds::Bound;
use crate::fakes::exported_lists;
use crate::fakes::exported_run;
use crate::fakes::lent;
use crate::fakes::lent_words;
use crate::fakes::run_by;
use crate::fakes::step_with;
use crate::flaws::SWEEPS;
use crate::foreign::Run;
use crate::foreign::RunLists;
use crate::missends::assert_both_noticed_in;
use crate::missends::makes;
use crate::places;
use crate::places::Callee;
use crate::places::Flaw;
use crate::places::Given;
use crate::places::Named;
use crate::places::Wrong;
use crate::table;
use crate::tally::Fault;
use crate::words;
use crate::words::answer as a;
use crate::words::call as c;
use crate::words::Answer;
use crate::words::Call;
use crate::words::State;

/// What a wrong port makes of a call that is refused with 2: it gets the call and its flaws, of which
/// there is one or more, in their order, and replies.
type Namer = fn(&Call, &[Flaw]) -> u64;

/// The reply that names the flaw which is the first by a key.
fn first_by<K: Ord>(flaws: &[Flaw], key: impl Fn(&Flaw) -> K) -> u64 {
    let first = flaws.iter().min_by_key(|flaw| key(flaw));
    first.map_or(0, |flaw| flaw.named.reply())
}

/// The reply that names the right flaw by another kind, or the same where there is no other.
fn as_kind(flaws: &[Flaw], other: impl Fn(&Flaw) -> Option<Bound>) -> u64 {
    let Named { bound, place } = flaws[0].named;
    let bound = other(&flaws[0]).unwrap_or(bound);
    Named { bound, place }.reply()
}

/// The reply that names the right flaw at another place, or the same where there is no other.
fn at_place(flaws: &[Flaw], other: impl Fn(&Flaw) -> Option<u64>) -> u64 {
    let Named { bound, place } = flaws[0].named;
    let place = other(&flaws[0]).unwrap_or(place);
    Named { bound, place }.reply()
}

/// The kind of the number in a pair.
fn kind_in_pair(call: &Call, pair: &Flaw) -> Option<Bound> {
    let flaws = places::flaws(Callee::Call(call[c::NUMBER]));
    let number = |flaw: &&Flaw| flaw.word == pair.word && flaw.wrong == Wrong::HeldAbove;
    flaws.iter().find(number).map(|flaw| flaw.named.bound)
}

/// Whether a flaw is one of the form of a word.
fn is_form(flaw: &Flaw) -> bool {
    flaw.named.bound == Bound::Form
}

/// Whether it is a number of a send state that is not valid.
fn is_invalid(call: &Call, word: usize) -> bool {
    match word {
        c::LAST_TOTAL_ACKED | c::LAST_IN_FLIGHT => call[c::LAST_IS_VALID] == 0,
        c::SENT_TOTAL_ACKED | c::SENT_IN_FLIGHT => call[c::SENT_IS_VALID] == 0,
        _ => false,
    }
}

/// Other orders of the flaws.
const ORDERS: [(&str, Namer); 13] = [
    ("the lowest kind", |_, flaws| {
        first_by(flaws, |flaw| flaw.named.bound as u64)
    }),
    ("the highest kind", |_, flaws| {
        first_by(flaws, |flaw| 9 - flaw.named.bound as u64)
    }),
    ("the lowest kind of an argument", |_, flaws| {
        first_by(flaws, |flaw| (flaw.named.place, flaw.named.bound as u64))
    }),
    ("the last", |_, flaws| flaws[flaws.len() - 1].named.reply()),
    ("the last place", |_, flaws| {
        first_by(flaws, |flaw| 9 - flaw.named.place)
    }),
    ("by the words", |_, flaws| first_by(flaws, |flaw| flaw.word)),
    ("the sample before the event", |call, flaws| {
        first_by(flaws, |flaw| match flaw.named.place {
            3 if is_event(call) => 2,
            2 if is_event(call) => 3,
            place => place,
        })
    }),
    ("acked last", |call, flaws| {
        first_by(flaws, |flaw| is_event(call) && flaw.named.place == 1)
    }),
    ("forms first", |_, flaws| {
        first_by(flaws, |flaw| !is_form(flaw))
    }),
    ("forms last", |_, flaws| first_by(flaws, is_form)),
    ("an argument's forms first", |_, flaws| {
        first_by(flaws, |flaw| (flaw.named.place, !is_form(flaw)))
    }),
    ("the postponed moment before its length", |_, flaws| {
        first_by(flaws, |flaw| flaw.wrong != Wrong::Postponed)
    }),
    ("no numbers of an invalid send state", |call, flaws| {
        first_by(flaws, |flaw| is_invalid(call, flaw.word))
    }),
];

/// Other kinds.
const KINDS: [(&str, Namer); 18] = [
    ("totals are byte counts", |_, flaws| {
        as_kind(flaws, |flaw| {
            (flaw.named.bound == Bound::Total).then_some(Bound::Bytes)
        })
    }),
    ("bytes acked and lost are byte counts", |_, flaws| {
        as_kind(flaws, |flaw| {
            matches!(flaw.word, c::BYTES_ACKED | c::BYTES_LOST).then_some(Bound::Bytes)
        })
    }),
    ("a send state's total is a byte count", |_, flaws| {
        as_kind(flaws, |flaw| {
            matches!(flaw.word, c::LAST_TOTAL_ACKED | c::SENT_TOTAL_ACKED).then_some(Bound::Bytes)
        })
    }),
    ("windows are byte counts", |_, flaws| {
        as_kind(flaws, |flaw| {
            (flaw.named.bound == Bound::Window).then_some(Bound::Bytes)
        })
    }),
    ("the window of an event is a byte count", |_, flaws| {
        as_kind(flaws, |flaw| {
            (flaw.word == c::PRIOR_CWND).then_some(Bound::Bytes)
        })
    }),
    ("the window of an entry is a byte count", |call, flaws| {
        as_kind(flaws, |flaw| {
            let is_up = call[c::NUMBER] == calls::ENTER_PROBE_UP;
            (is_up && flaw.word == arg::enter_probe_up::CWND).then_some(Bound::Bytes)
        })
    }),
    ("the window of the slope is a byte count", |call, flaws| {
        as_kind(flaws, |_| {
            (call[c::NUMBER] == calls::RAISE_INFLIGHT_HIGH_SLOPE).then_some(Bound::Bytes)
        })
    }),
    ("byte counts of an event are windows", |_, flaws| {
        as_kind(flaws, |flaw| {
            matches!(flaw.word, c::PRIOR_IN_FLIGHT | c::IN_FLIGHT).then_some(Bound::Window)
        })
    }),
    ("a new inflight_hi is a window", |call, flaws| {
        as_kind(flaws, |_| {
            (call[c::NUMBER] == calls::SET_INFLIGHT_HI).then_some(Bound::Window)
        })
    }),
    ("lengths are moments", |_, flaws| {
        as_kind(flaws, |flaw| {
            (flaw.named.bound == Bound::Length).then_some(Bound::Moment)
        })
    }),
    ("a postponed moment is a length", |_, flaws| {
        as_kind(flaws, |flaw| {
            (flaw.wrong == Wrong::Postponed).then_some(Bound::Length)
        })
    }),
    ("bandwidths are byte counts", |_, flaws| {
        as_kind(flaws, |flaw| {
            (flaw.named.bound == Bound::Bandwidth).then_some(Bound::Bytes)
        })
    }),
    ("probe rounds are byte counts", |_, flaws| {
        as_kind(flaws, |flaw| {
            (flaw.named.bound == Bound::Rounds).then_some(Bound::Bytes)
        })
    }),
    ("a pair by its number's kind", |call, flaws| {
        as_kind(flaws, |flaw| match flaw.wrong {
            Wrong::NoPair => kind_in_pair(call, flaw),
            _ => None,
        })
    }),
    (
        "a pair by its number's kind, if that is out",
        |call, flaws| {
            as_kind(flaws, |flaw| match flaws.get(1) {
                Some(next) if next.word == flaw.word => kind_in_pair(call, flaw),
                _ => None,
            })
        },
    ),
    ("high bits are a gain", |_, flaws| {
        as_kind(flaws, |flaw| {
            (flaw.wrong == Wrong::HighBits).then_some(Bound::Gain)
        })
    }),
    ("a NaN has no form", |call, flaws| {
        as_kind(flaws, |flaw| {
            let nan = f32::from_bits(call[flaw.word] as u32).is_nan();
            (flaw.wrong == Wrong::NoGain && nan).then_some(Bound::Form)
        })
    }),
    ("flags are gains", |_, flaws| {
        as_kind(flaws, |flaw| {
            (flaw.wrong == Wrong::NoFlag).then_some(Bound::Gain)
        })
    }),
];

/// Other places.
const PLACES: [(&str, Namer); 15] = [
    ("one up", |_, flaws| {
        at_place(flaws, |flaw| Some(flaw.named.place + 1))
    }),
    ("counted from 0", |_, flaws| {
        at_place(flaws, |flaw| Some(flaw.named.place.saturating_sub(1)))
    }),
    ("always 1", |_, flaws| at_place(flaws, |_| Some(1))),
    ("none", |_, flaws| at_place(flaws, |_| Some(0))),
    ("a start's by its words", |call, flaws| {
        by_words(call, flaws, |call| call[c::NUMBER] == calls::START)
    }),
    ("an event's by its words", |call, flaws| {
        by_words(call, flaws, is_event)
    }),
    ("by the words", |call, flaws| {
        by_words(call, flaws, |_| true)
    }),
    ("no call at 1", |call, flaws| {
        at_place(flaws, |_| (!table::is_a_call(call[c::NUMBER])).then_some(1))
    }),
    ("a packet number is not counted", |call, flaws| {
        at_place(flaws, |flaw| {
            let is_send = call[c::NUMBER] == calls::ON_PACKET_SENT;
            (is_send && flaw.named.place == 4).then_some(3)
        })
    }),
    ("an event always at 2", |_, flaws| {
        at_place(flaws, |flaw| {
            (c::RECORD..c::PARAMS).contains(&flaw.word).then_some(2)
        })
    }),
    ("an event always at 1", |_, flaws| {
        at_place(flaws, |flaw| {
            (c::RECORD..c::PARAMS).contains(&flaw.word).then_some(1)
        })
    }),
    ("parameters are counted", |call, flaws| {
        at_place(flaws, |flaw| {
            let is_down = call[c::NUMBER] == calls::ENTER_PROBE_DOWN;
            (is_down && flaw.named.place == 3).then_some(4)
        })
    }),
    ("two flags are one", |call, flaws| {
        at_place(flaws, |_| {
            (call[c::NUMBER] == calls::ENTER_PROBE_DOWN).then_some(1)
        })
    }),
    ("the moment first", |call, flaws| {
        at_place(flaws, |flaw| {
            let is_refill = call[c::NUMBER] == calls::ENTER_PROBE_REFILL;
            is_refill.then(|| 3 - flaw.named.place)
        })
    }),
    ("the window first", |call, flaws| {
        at_place(flaws, |flaw| {
            let is_up = call[c::NUMBER] == calls::ENTER_PROBE_UP;
            is_up.then(|| 3 - flaw.named.place)
        })
    }),
];

/// Other ways of saying it.
const SAYINGS: [(&str, Namer); 6] = [
    ("neither kind nor place", |_, _| 2),
    ("the kind alone", |_, flaws| flaws[0].named.reply() & 0xffff),
    ("the place alone", |_, flaws| {
        flaws[0].named.reply() & !0xff00
    }),
    ("the place before the kind", |_, flaws| {
        let Named { bound, place } = flaws[0].named;
        2 + 256 * place + 65_536 * bound as u64
    }),
    ("the kind as the row", |_, flaws| {
        flaws[0].named.bound as u64 + 65_536 * flaws[0].named.place
    }),
    ("something above it", |_, flaws| {
        flaws[0].named.reply() | 1 << 24
    }),
];

/// Whether it is an event.
fn is_event(call: &Call) -> bool {
    call[c::NUMBER] == calls::ON_CONGESTION_EVENT_START
}

/// The first flaw by the words, at the place that its argument has among them, for some calls.
fn by_words(call: &Call, flaws: &[Flaw], some: impl Fn(&Call) -> bool) -> u64 {
    let first = match flaws.iter().min_by_key(|flaw| flaw.word) {
        Some(first) if some(call) => first.named,
        _ => return flaws[0].named.reply(),
    };
    let place = match (call[c::NUMBER], first.place) {
        (calls::START, place) => 3 - place,
        (calls::ON_CONGESTION_EVENT_START, place) => 1 + place % 3,
        (calls::IS_INFLIGHT_TOO_HIGH, _) => 2,
        (_, place) => place,
    };
    Named { place, ..first }.reply()
}

/// The flaws of a call.
fn held(state: &State, call: &Call, lists: &[u64]) -> Vec<Flaw> {
    let given = Given {
        state,
        words: call,
        lists,
    };
    let mut flaws = places::flaws(Callee::Call(call[c::NUMBER]));
    flaws.retain(|flaw| flaw.holds(&given));
    flaws
}

/// The right call; where it is refused with 2, something else is named.
fn misnamed(namer: Namer, state: &mut State, call: &Call, lists: &[u64]) -> Answer {
    let rows = table::call_rows(state, call, lists);
    let flaws = held(state, call, lists);
    let mut answer = step_with(state, call, lists);
    if rows.due() == 2 {
        answer[a::REPLY] = namer(call, &flaws);
    }
    answer
}

/// Two runs for each namer of a table, made by two functions that are for several.
macro_rules! each {
    ($table:ident, $run:ident, $run_lists:ident, $($way:literal)*) => {{
        let runs = [$(($table[$way].0, $run::<$way> as Run, $run_lists::<$way> as RunLists)),*];
        assert_eq!(runs.len(), $table.len());
        runs
    }};
}
pub(crate) use each;

makes!(orders, orders_lists<WAY>, |state, call, lists| {
    misnamed(ORDERS[WAY].1, state, call, lists)
});
makes!(kinds, kinds_lists<WAY>, |state, call, lists| {
    misnamed(KINDS[WAY].1, state, call, lists)
});
makes!(places_of, places_of_lists<WAY>, |state, call, lists| {
    misnamed(PLACES[WAY].1, state, call, lists)
});
makes!(says, says_lists<WAY>, |state, call, lists| {
    misnamed(SAYINGS[WAY].1, state, call, lists)
});

#[test]
fn another_order_is_noticed() {
    let runs = each!(ORDERS, orders, orders_lists, 0 1 2 3 4 5 6 7 8 9 10 11 12);
    assert_both_noticed_in(Fault::Reply, &SWEEPS, &runs);
}

#[test]
fn another_kind_is_noticed() {
    let runs = each!(KINDS, kinds, kinds_lists, 0 1 2 3 4 5 6 7 8 9 10 11 12 13 14 15 16 17);
    assert_both_noticed_in(Fault::Reply, &SWEEPS, &runs);
}

#[test]
fn another_place_is_noticed() {
    let runs = each!(PLACES, places_of, places_of_lists, 0 1 2 3 4 5 6 7 8 9 10 11 12 13 14);
    assert_both_noticed_in(Fault::Reply, &SWEEPS, &runs);
}

#[test]
fn another_saying_is_noticed() {
    let runs = each!(SAYINGS, says, says_lists, 0 1 2 3 4 5);
    assert_both_noticed_in(Fault::Reply, &SWEEPS, &runs);
}

// The numbers of a send state that is not valid are not tested at all.
makes!(passes_over, passes_over_lists, |state, call, lists| {
    let mut other = *call;
    for (at, word) in other.iter_mut().enumerate() {
        if is_invalid(call, at) {
            *word = 0;
        }
    }
    let mut answer = step_with(state, &other, lists);
    if is_event(call) && answer[a::REPLY] != 0 {
        answer[a::RECORD..].copy_from_slice(&words::record(call));
    }
    answer
});
// Another row than 2, or none, has a kind, or a place; row 1 has what row 2 names beside it.
makes!(
    row_has_kind,
    row_has_kind_lists<ROW>,
    |state, call, lists| {
        let mut answer = step_with(state, call, lists);
        if answer[a::REPLY] == ROW as u64 {
            answer[a::REPLY] += 256 * Bound::Moment as u64;
        }
        answer
    }
);
makes!(
    row_has_place,
    row_has_place_lists<ROW>,
    |state, call, lists| {
        let mut answer = step_with(state, call, lists);
        if answer[a::REPLY] == ROW as u64 {
            answer[a::REPLY] += 65_536;
        }
        answer
    }
);
makes!(row_one_names, row_one_names_lists, |state, call, lists| {
    let rows = table::call_rows(state, call, lists);
    let mut answer = step_with(state, call, lists);
    if rows.due() == 1 && rows.holds(2) {
        answer[a::REPLY] = rows.bad_argument() - 1;
    }
    answer
});

#[test]
fn names_of_other_rows_are_noticed() {
    assert_both_noticed_in(
        Fault::Reply,
        &SWEEPS,
        &[
            (
                "passed over",
                passes_over as Run,
                passes_over_lists as RunLists,
            ),
            ("0 has a kind", row_has_kind::<0>, row_has_kind_lists::<0>),
            ("1 has a kind", row_has_kind::<1>, row_has_kind_lists::<1>),
            ("3 has a kind", row_has_kind::<3>, row_has_kind_lists::<3>),
            ("4 has a kind", row_has_kind::<4>, row_has_kind_lists::<4>),
            (
                "10 has a kind",
                row_has_kind::<10>,
                row_has_kind_lists::<10>,
            ),
            ("5 has a kind", row_has_kind::<5>, row_has_kind_lists::<5>),
            (
                "0 has a place",
                row_has_place::<0>,
                row_has_place_lists::<0>,
            ),
            (
                "1 has a place",
                row_has_place::<1>,
                row_has_place_lists::<1>,
            ),
            (
                "3 has a place",
                row_has_place::<3>,
                row_has_place_lists::<3>,
            ),
            (
                "4 has a place",
                row_has_place::<4>,
                row_has_place_lists::<4>,
            ),
            (
                "10 has a place",
                row_has_place::<10>,
                row_has_place_lists::<10>,
            ),
            (
                "5 has a place",
                row_has_place::<5>,
                row_has_place_lists::<5>,
            ),
            ("1 names what 2 does", row_one_names, row_one_names_lists),
        ],
    );
}
