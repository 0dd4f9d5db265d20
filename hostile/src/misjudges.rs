//! Ports that are wrong about what a call on the estimator is refused for, about what the refusal names,
//! or about what the words of a call say, in one way each.

use guovssalu_sys::table::rtt_argument::update_rtt as sample;
use guovssalu_sys::table::rtt_call as calls;
use guovssalu_sys::table::RTT_NUMBER_IN_CALL as NUMBER;

use crate::bounds::Bound;
use crate::bounds::LENGTH;
use crate::estimator;
use crate::fakes::exported_run;
use crate::fakes::lent;
use crate::fakes::rtt_by;
use crate::fakes::rtt_step;
use crate::foreign::Run;
use crate::mistimes::assert_noticed;
use crate::mistimes::assert_notices;
use crate::mistimes::each;
use crate::mistimes::makes;
use crate::places;
use crate::places::Callee;
use crate::places::Flaw;
use crate::places::Given;
use crate::places::Named;
use crate::places::Wrong;
use crate::table::Rows;
use crate::tally::Fault;
use crate::trips;
use crate::trips::Sweep;
use crate::words;
use crate::words::yes;
use crate::words::RttAnswer;
use crate::words::RttCall;
use crate::words::RttState;
use crate::words::RTT_CALLS_END;

/// A call with this reply: what it leaves, and its answer.
fn replied(reply: u64, now: &mut RttState, call: &RttCall) -> RttAnswer {
    *now = estimator::state(now, call, reply);
    estimator::answer(now, reply)
}

/// What a wrong port replies to a call. It gets the rows that hold.
type Judge = fn(&RttState, &RttCall, &Rows) -> u64;

/// The flaws of a call that a function finds; it gets what is given, and whether it is right to.
fn flaws(call: &RttCall, finds: impl Fn(&Flaw, u64, bool) -> bool) -> Vec<Flaw> {
    let mut flaws = places::flaws(Callee::RttCall(call[NUMBER]));
    flaws.retain(|flaw| finds(flaw, call[flaw.word], flaw.holds(&Given::numbers(call))));
    flaws
}

/// The reply where row 1 is right, and these are the flaws.
fn reply_by(rows: &Rows, flaws: &[Flaw]) -> u64 {
    match flaws.first() {
        _ if rows.holds(1) => 1,
        Some(flaw) => flaw.named.reply(),
        None => 0,
    }
}

/// The reply where row 1 holds or not, and row 2 is right.
fn reply_with_1(holds: bool, rows: &Rows) -> u64 {
    match rows.holds(2) {
        _ if holds => 1,
        true => rows.bad_argument(),
        false => 0,
    }
}

const JUDGES: [(&str, Judge); 25] = [
    ("2^36 refused", |_, call, rows| {
        let found = flaws(call, |flaw, word, holds| {
            holds || (flaw.wrong == Wrong::Above && word == LENGTH)
        });
        reply_by(rows, &found)
    }),
    ("2^36 + 1 taken", |_, call, rows| {
        let found = flaws(call, |flaw, word, holds| {
            holds && !(flaw.wrong == Wrong::Above && word == LENGTH + 1)
        });
        reply_by(rows, &found)
    }),
    ("lengths with a sign", |_, call, rows| {
        let found = flaws(call, |flaw, word, holds| {
            holds && !(flaw.wrong == Wrong::Above && (word as i64) < 0)
        });
        reply_by(rows, &found)
    }),
    ("a bad delay at the first taken", |state, call, rows| {
        let found = flaws(call, |flaw, _, holds| {
            holds && (estimator::has_sample(state) || flaw.named.place != 2)
        });
        reply_by(rows, &found)
    }),
    ("a bad flag at the first taken", |state, call, rows| {
        let found = flaws(call, |flaw, _, holds| {
            holds && (estimator::has_sample(state) || flaw.wrong != Wrong::NoFlag)
        });
        reply_by(rows, &found)
    }),
    ("a bad delay taken if confirmed", |_, call, rows| {
        let limited = call[NUMBER] == calls::UPDATE_RTT && yes(call[sample::HANDSHAKE_CONFIRMED]);
        let found = flaws(call, |flaw, _, holds| {
            holds && !(limited && flaw.named.place == 2)
        });
        reply_by(rows, &found)
    }),
    ("a bad delay taken", |_, call, rows| {
        let is_sample = call[NUMBER] == calls::UPDATE_RTT;
        let found = flaws(call, |flaw, _, holds| {
            holds && !(is_sample && flaw.named.place == 2)
        });
        reply_by(rows, &found)
    }),
    ("a bad limit taken by new", |_, call, rows| {
        let is_new = call[NUMBER] == calls::NEW;
        let found = flaws(call, |flaw, _, holds| {
            holds && !(is_new && flaw.named.place == 2)
        });
        reply_by(rows, &found)
    }),
    ("a flag of 2 is refused, not more", |_, call, rows| {
        let found = flaws(call, |flaw, word, holds| {
            holds && (flaw.wrong != Wrong::NoFlag || word == 2)
        });
        reply_by(rows, &found)
    }),
    ("stored 2^36 refused", |state, call, rows| {
        let out = estimator::stored(state)
            .iter()
            .any(|&length| length >= LENGTH);
        reply_with_1(out && call[NUMBER] != calls::NEW, rows)
    }),
    ("stored 2^36 + 1 taken", |state, call, rows| {
        let out = estimator::stored(state)
            .iter()
            .any(|&length| length > LENGTH + 1);
        reply_with_1(out && call[NUMBER] != calls::NEW, rows)
    }),
    ("stored only after a sample", |state, _, rows| {
        reply_with_1(rows.holds(1) && estimator::has_sample(state), rows)
    }),
    ("1 after 2", |_, _, rows| match rows.holds(2) {
        true => rows.bad_argument(),
        false => rows.reply(),
    }),
    ("new asked for 1", |state, _, rows| {
        reply_with_1(!estimator::stored_ok(state), rows)
    }),
    ("a sample not asked for 1", |_, call, rows| {
        reply_with_1(rows.holds(1) && call[NUMBER] != calls::UPDATE_RTT, rows)
    }),
    ("a limit not asked for 1", |_, call, rows| {
        let is_limit = call[NUMBER] == calls::UPDATE_MAX_ACK_DELAY;
        reply_with_1(rows.holds(1) && !is_limit, rows)
    }),
    ("no call not asked for 1", |_, call, rows| {
        reply_with_1(rows.holds(1) && call[NUMBER] < RTT_CALLS_END, rows)
    }),
    ("no call is done", |_, call, rows| {
        if call[NUMBER] >= RTT_CALLS_END {
            0
        } else {
            rows.reply()
        }
    }),
    ("no call at 1", |_, _, rows| match rows.reply() {
        0x0802 => 0x1_0802,
        reply => reply,
    }),
    ("no call is 1", |_, call, rows| {
        if call[NUMBER] >= RTT_CALLS_END {
            1
        } else {
            rows.reply()
        }
    }),
    ("1 is a bad argument", |_, _, rows| match rows.due() {
        1 => 0x0802,
        _ => rows.reply(),
    }),
    ("1 has a kind", |_, _, rows| match rows.due() {
        1 => 0x0401,
        _ => rows.reply(),
    }),
    ("new has a flag", |_, call, rows| match rows.reply() {
        0 if call[NUMBER] == calls::NEW && words::flag(call[3]).is_none() => 0x3_0802,
        reply => reply,
    }),
    ("a limit has a second length", |_, call, rows| {
        let is_limit = call[NUMBER] == calls::UPDATE_MAX_ACK_DELAY;
        match rows.reply() {
            0 if is_limit && call[2] > LENGTH => 0x2_0402,
            reply => reply,
        }
    }),
    ("no call has a length", |_, call, rows| match rows.reply() {
        0x0802 if call[1] > LENGTH => 0x1_0402,
        reply => reply,
    }),
];

/// What a wrong port names, where a call is refused with 2 and has these flaws.
type Namer = fn(&[Flaw]) -> u64;

const NAMERS: [(&str, Namer); 14] = [
    ("the last", |flaws| flaws[flaws.len() - 1].named.reply()),
    ("the flag before lengths", |flaws| {
        let flag = flaws.iter().find(|flaw| flaw.wrong == Wrong::NoFlag);
        flag.unwrap_or(&flaws[0]).named.reply()
    }),
    ("the delay before the sample", |flaws| {
        let second = flaws.iter().find(|flaw| flaw.named.place == 2);
        second.unwrap_or(&flaws[0]).named.reply()
    }),
    ("the second's place for the first", |flaws| {
        let Named { bound, place } = flaws[0].named;
        let place = if place == 1 { 2 } else { place };
        Named { bound, place }.reply()
    }),
    ("the first's place for the second", |flaws| {
        let Named { bound, place } = flaws[0].named;
        let place = if place == 2 { 1 } else { place };
        Named { bound, place }.reply()
    }),
    ("the flag at 2", |flaws| {
        let Named { bound, place } = flaws[0].named;
        let place = if place == 3 { 2 } else { place };
        Named { bound, place }.reply()
    }),
    ("counted from 0", |flaws| {
        let Named { bound, place } = flaws[0].named;
        let place = place.saturating_sub(1);
        Named { bound, place }.reply()
    }),
    ("a moment before it", |flaws| {
        let Named { bound, place } = flaws[0].named;
        let place = if place == 3 { 4 } else { place };
        Named { bound, place }.reply()
    }),
    ("a flag is a length", |flaws| {
        let Named { place, .. } = flaws[0].named;
        let bound = Bound::Length;
        Named { bound, place }.reply()
    }),
    ("a length is malformed", |flaws| {
        let Named { place, .. } = flaws[0].named;
        let bound = Bound::Form;
        Named { bound, place }.reply()
    }),
    ("a length is a moment", |flaws| match flaws[0].named {
        Named {
            bound: Bound::Length,
            place,
        } => 0x0902 | place << 16,
        named => named.reply(),
    }),
    ("neither kind nor place", |_| 2),
    ("the kind alone", |flaws| flaws[0].named.reply() & 0xffff),
    ("the place alone", |flaws| flaws[0].named.reply() & !0xff00),
];

makes!(judges<WAY>, |now, call| {
    let rows = estimator::call_rows(now, call);
    let reply = JUDGES[WAY].1(now, call, &rows);
    replied(reply, now, call)
});
makes!(namers<WAY>, |now, call| {
    let rows = estimator::call_rows(now, call);
    let found = flaws(call, |_, _, holds| holds);
    let reply = match rows.due() {
        2 => NAMERS[WAY].1(&found),
        _ => rows.reply(),
    };
    replied(reply, now, call)
});
// One of the stored lengths is not tested.
makes!(passes_over<WORD>, |now, call| {
    let mut other = *now;
    other[WORD] = 0;
    let reply = estimator::call_rows(&other, call).reply();
    replied(reply, now, call)
});

#[test]
fn other_replies_of_calls_are_noticed() {
    let runs =
        each!(JUDGES, judges, 0 1 2 3 4 5 6 7 8 9 10 11 12 13 14 15 16 17 18 19 20 21 22 23 24);
    assert_noticed(Fault::Reply, &runs);
    let runs = each!(NAMERS, namers, 0 1 2 3 4 5 6 7 8 9 10 11 12 13);
    assert_noticed(Fault::Reply, &runs);
    assert_noticed(
        Fault::Reply,
        &[
            ("latest_rtt passed over", passes_over::<0> as Run),
            ("min_rtt passed over", passes_over::<1>),
            ("smoothed_rtt passed over", passes_over::<2>),
            ("rttvar passed over", passes_over::<3>),
            ("max_ack_delay passed over", passes_over::<4>),
        ],
    );
}

/// What a wrong port reads for a call.
type Read = fn(&RttCall) -> RttCall;

/// A sample's flag read otherwise.
fn flag_as(call: &RttCall, read: impl Fn(u64) -> u64) -> RttCall {
    let mut other = *call;
    if call[NUMBER] == calls::UPDATE_RTT {
        other[sample::HANDSHAKE_CONFIRMED] = read(call[sample::HANDSHAKE_CONFIRMED]);
    }
    other
}

/// The number of a call read otherwise.
fn number_as(call: &RttCall, read: impl Fn(u64) -> u64) -> RttCall {
    let mut other = *call;
    other[NUMBER] = read(call[NUMBER]);
    other
}

/// The first two arguments read otherwise.
fn lengths_as(call: &RttCall, read: impl Fn(u64) -> u64) -> RttCall {
    let [number, first, second, third] = *call;
    [number, read(first), read(second), third]
}

const READS: [(&str, Read); 12] = [
    ("a flag of 2 is yes", |call| {
        flag_as(call, |word| (word != 0) as u64)
    }),
    ("a flag of 2 is no", |call| {
        flag_as(call, |word| (word == 1) as u64)
    }),
    ("a flag's lowest bit", |call| flag_as(call, |word| word & 1)),
    ("a flag's lowest byte", |call| {
        flag_as(call, |word| word & 0xff)
    }),
    ("a flag's lower half", |call| {
        flag_as(call, |word| word as u32 as u64)
    }),
    ("a number's lowest bits", |call| {
        number_as(call, |word| word & 3)
    }),
    ("a number's lowest byte", |call| {
        number_as(call, |word| word & 0xff)
    }),
    ("a number's lower half", |call| {
        number_as(call, |word| word as u32 as u64)
    }),
    ("lengths' lower halves", |call| {
        lengths_as(call, |word| word as u32 as u64)
    }),
    ("lengths of 37 bits", |call| {
        lengths_as(call, |word| word & ((1 << 37) - 1))
    }),
    ("lengths cut to the most", |call| {
        lengths_as(call, |word| word.min(LENGTH))
    }),
    ("arguments in another order", |call| {
        let [number, first, second, third] = *call;
        [number, second, first, third]
    }),
];

makes!(reads<WAY>, |now, call| rtt_step(now, &READS[WAY].1(call)));

#[test]
fn words_read_otherwise_are_noticed() {
    let runs = each!(READS, reads, 0 1 2 3 4 5 6 7 8 9 10 11);
    assert_noticed(Fault::Reply, &runs);
}

#[test]
fn sweeps_of_calls_notice_by_themselves() {
    let sweeps: [(&str, Sweep, Run); 5] = [
        ("each word", trips::each_word, reads::<0>),
        ("each no call", trips::each_no_call, reads::<7>),
        ("each end", trips::each_end, judges::<1>),
        ("each two", trips::each_two, namers::<0>),
        ("each stored", trips::each_stored, judges::<10>),
    ];
    assert_notices(Fault::Reply, &sweeps);
}
