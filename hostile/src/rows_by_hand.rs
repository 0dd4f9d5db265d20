//! Rows of the table, worked by hand, which the reading in `table` is held to.

use guovssalu_sys::table::call as calls;
use guovssalu_sys::table::reply;
use guovssalu_sys::table::rtt_call as rtt_calls;
use guovssalu_sys::table::CALL_WORDS;
use guovssalu_sys::table::STATE_WORDS;

use crate::table::acks_unsent;
use crate::table::call_rows;
use crate::table::encodes;
use crate::table::ends_a_round;
use crate::table::gets_record;
use crate::table::is_a_call;
use crate::table::takes_params;
use crate::table::Rows;
use crate::table::NEVER_SENT;
use crate::words;
use crate::words::call as c;
use crate::words::state as s;
use crate::words::Call;

/// What is read by hand, beside the table that the words and numbers are named by.
#[test]
fn the_calls_are_those_of_the_table() {
    for number in (0..1_000).chain([1 << 32, u64::MAX]) {
        assert_eq!(is_a_call(number), calls::ALL.contains(&number));
        assert_eq!(gets_record(number), calls::READ_EVENT.contains(&number));
        assert_eq!(takes_params(number), calls::TAKE_PARAMS.contains(&number));
    }
    let sizes = [words::STATE_BYTES, words::CALL_BYTES, words::ANSWER_BYTES];
    assert_eq!(sizes, [408, 392, 144]);
    assert_eq!(rtt_calls::ALL, [0, 1, 2]);
    let sizes = [
        words::RTT_STATE_BYTES,
        words::RTT_CALL_BYTES,
        words::RTT_ANSWER_BYTES,
    ];
    assert_eq!(sizes, [48, 32, 40]);
    assert_eq!(NEVER_SENT, reply::NEVER_SENT);
}

/// Rows that hold, and the number that is due: by hand.
#[test]
fn ten_is_asked_after_four_and_before_five() {
    for (rows, due) in [
        (&[][..], 0),
        (&[10], 10),
        (&[1, 10], 1),
        (&[2, 10], 2),
        (&[3, 10], 3),
        (&[4, 10], 4),
        (&[5, 10], 10),
        (&[7, 10], 10),
        (&[5, 7], 5),
        (&[4, 5, 10], 4),
        (&[1, 2, 3, 4, 5, 10], 1),
    ] {
        let with = |held: Rows, &row: &u64| held.with(row, true);
        let held = rows.iter().fold(Rows::default(), with);
        assert_eq!(held.due(), due, "{:?}", rows);
        assert_eq!(held.overlap(), rows.len() > 1, "{:?}", rows);
    }
}

/// The end of a round, if one is set, numbers acked, and whether they end it: worked by hand.
const ROUNDS_BY_HAND: [(Option<u64>, &[u64], bool); 18] = [
    (None, &[], false),
    (None, &[0], true),
    (None, &[0, 0], true),
    (Some(0), &[], false),
    (Some(0), &[0], false),
    (Some(0), &[1], true),
    (Some(5), &[5], false),
    (Some(5), &[6], true),
    (Some(5), &[6, 5], true),
    (Some(5), &[5, 6], true),
    (Some(5), &[1, 6, 2], true),
    (Some(5), &[5, 5, 5], false),
    (Some(5), &[9, 8, 7], true),
    (Some(5), &[u64::MAX, 0], true),
    (Some(5), &[5, 4, 3, 2, 1], false),
    (Some(5), &[1, 2, 3, 6, 4], true),
    (Some(u64::MAX), &[u64::MAX, u64::MAX], false),
    (Some(u64::MAX - 1), &[0, u64::MAX, 0, 0], true),
];

/// An event with these numbers, and the lists that have them where they are too many for the call.
fn event(acked: &[u64]) -> (Call, Vec<u64>) {
    let mut call = [0; CALL_WORDS];
    call[c::NUMBER] = calls::ON_CONGESTION_EVENT_START;
    call[c::ACKED_COUNT] = acked.len() as u64;
    if acked.len() <= 3 {
        call[c::ACKED..][..acked.len()].copy_from_slice(acked);
        (call, Vec::new())
    } else {
        call[c::ACKED] = 2;
        (call, [&[7, 7][..], acked, &[7]].concat())
    }
}

#[test]
fn the_greatest_number_ends_a_round() {
    for (end, acked, due) in ROUNDS_BY_HAND {
        let mut state = [0; STATE_WORDS];
        state[s::END_OF_ROUND_TRIP] = end.is_some() as u64;
        state[s::END_OF_ROUND_TRIP + 1] = end.unwrap_or(0);
        let (call, lists) = event(acked);
        let ends = ends_a_round(&state, &call, &lists);
        assert_eq!(ends, due, "{:?} {:?}", end, acked);
    }
}

/// The note, the last sent number, numbers acked, and whether one of them was never sent: worked by
/// hand.
const SENDS_BY_HAND: [(u64, u64, &[u64], bool); 22] = [
    (0, 0, &[], false),
    (0, 0, &[0], true),
    (0, 5, &[], false),
    (0, 5, &[0], true),
    (0, 5, &[3, 4], true),
    (0, u64::MAX, &[0, 0, 0, 0], true),
    (1, 0, &[], false),
    (1, 0, &[0], false),
    (1, 0, &[1], true),
    (1, 0, &[0, 0, 0, 0], false),
    (1, 5, &[5], false),
    (1, 5, &[6], true),
    (1, 5, &[6, 5], true),
    (1, 5, &[5, 6], true),
    (1, 5, &[0, 6, 1], true),
    (1, 5, &[5, 4, 3], false),
    (1, 5, &[5, 4, 3, 2, 1], false),
    (1, 5, &[1, 2, 6, 4, 3], true),
    (1, 5, &[1 << 63], true),
    (1, u64::MAX - 1, &[0, 0, 0, 0, u64::MAX], true),
    (1, u64::MAX, &[u64::MAX], false),
    (1, u64::MAX, &[u64::MAX, 0, u64::MAX, 1], false),
];

#[test]
fn a_number_above_the_last_sent_was_never_sent() {
    for (note, sent, acked, due) in SENDS_BY_HAND {
        let mut state = [0; STATE_WORDS];
        state[s::ANYTHING_SENT] = note;
        state[s::LAST_SENT_PACKET] = sent;
        let (mut call, lists) = event(acked);
        let told = (note, sent, acked);
        assert_eq!(acks_unsent(&state, &call, &lists), due, "{:?}", told);
        call[c::NUMBER] = calls::ON_CONGESTION_EVENT_FINISH;
        assert!(!acks_unsent(&state, &call, &lists), "{:?}", told);
    }
}

/// A flag of 2 is malformed; any last sent number may stand beside a note of no.
#[test]
fn the_note_is_a_flag() {
    for (note, sent, is_a_state) in [(0, 0, true), (0, 5, true), (1, 0, true), (2, 5, false)] {
        let mut state = [0; STATE_WORDS];
        state[s::ANYTHING_SENT] = note;
        state[s::LAST_SENT_PACKET] = sent;
        assert_eq!(encodes(&state), is_a_state, "{} {}", note, sent);
    }
}

#[test]
fn a_place_is_inside_the_lists_or_refused() {
    const MAX: u64 = u64::MAX;
    for (length, start, count, inside) in [
        (0, 0, 3, true),
        (0, MAX, 3, true),
        (0, 0, 4, false),
        (3, 0, 4, false),
        (4, 0, 4, true),
        (4, 1, 4, false),
        (5, 1, 4, true),
        (5, 2, 4, false),
        (5, 0, 5, true),
        (5, 0, 6, false),
        (5, 6, 0, true),
        (5, MAX, 4, false),
        (5, MAX - 3, 4, false),
        (5, MAX - 2, 8, false),
        (5, 0, MAX, false),
        (5, 1, MAX, false),
        (5, MAX, MAX, false),
        (5, 1 << 63, 1 << 63, false),
    ] {
        let mut call = [0; CALL_WORDS];
        call[c::NUMBER] = calls::ON_CONGESTION_EVENT_START;
        call[c::ACKED_COUNT] = count;
        call[c::ACKED] = start;
        let lists = vec![0; length];
        let refused = call_rows(&[0; STATE_WORDS], &call, &lists).holds(2);
        assert_eq!(refused, !inside, "{:?}", (length, start, count));
    }
}
