//! What refusal 2 names, worked by hand, which the reading in `places` is held to.

use guovssalu_sys::table::CALL_WORDS;
use guovssalu_sys::table::STATE_WORDS;

use crate::places::flaws;
use crate::places::Callee;
use crate::places::Given;
use crate::places::Named;
use crate::places::Wrong;

const ONE: u64 = 0x3f80_0000;
const EIGHT: u64 = 0x4100_0000;

/// A word, the last number that is allowed there, and the kind that names the next.
type ByHand = (usize, u64, u64);

/// The record and the sample, from the documents: of a pair both words.
const EVENT_BY_HAND: [ByHand; 16] = [
    (22, 1 << 62, 9),
    (23, 1 << 40, 1),
    (24, 1 << 40, 2),
    (25, 1 << 40, 2),
    (26, 1 << 62, 5),
    (27, 1 << 62, 5),
    (28, 1, 8),
    (29, 1, 8),
    (30, 1, 8),
    (31, 1 << 40, 3),
    (32, 1, 8),
    (33, 1 << 36, 4),
    (34, 1, 8),
    (35, 1, 8),
    (36, 1 << 62, 5),
    (37, 1 << 40, 2),
];
const SAMPLE_BY_HAND: [ByHand; 17] = [
    (1, 1, 8),
    (2, 1 << 40, 3),
    (3, 1, 8),
    (4, 1 << 40, 3),
    (5, 1, 8),
    (6, 1 << 40, 3),
    (7, 1, 8),
    (8, 1, 8),
    (9, 1 << 36, 4),
    (10, 1 << 40, 2),
    (11, 1 << 40, 2),
    (12, 1, 8),
    (13, 1, 8),
    (14, 1 << 62, 5),
    (15, 1 << 40, 2),
    (16, 1 << 62, 5),
    (17, 1 << 62, 5),
];

/// A call, a place, and what can be wrong there: from the documents, in the order of the places.
const BY_HAND: [(u64, u64, &[ByHand]); 31] = [
    (0, 1, &[(2, 1 << 36, 4)]),
    (0, 2, &[(1, 1 << 62, 9)]),
    (1, 1, &[(1, 1 << 62, 9)]),
    (1, 2, &[(2, 1 << 40, 2)]),
    (1, 4, &[(4, 1 << 40, 2)]),
    (3, 1, &[(18, 3, 8)]),
    (3, 2, &EVENT_BY_HAND),
    (3, 3, &SAMPLE_BY_HAND),
    (4, 1, &EVENT_BY_HAND),
    (5, 1, &EVENT_BY_HAND),
    (6, 1, &EVENT_BY_HAND),
    (7, 1, &EVENT_BY_HAND),
    (9, 1, &[(1, EIGHT, 7)]),
    (10, 1, &[(1, 1 << 40, 3)]),
    (10, 2, &[(2, EIGHT, 7)]),
    (11, 1, &[(1, 1 << 40, 3)]),
    (15, 1, &[(1, EIGHT, 7)]),
    (16, 1, &[(1, EIGHT, 7)]),
    (17, 1, &[(1, 1 << 40, 2)]),
    (18, 1, &[(1, 1 << 40, 2)]),
    (22, 1, &[(1, 1 << 36, 4)]),
    (40, 1, &[(1, 1, 8)]),
    (40, 2, &[(2, 1, 8)]),
    (40, 3, &[(3, 1 << 62, 9)]),
    (41, 1, &[(1, 1 << 62, 9)]),
    (42, 1, &[(1, 30, 6)]),
    (42, 2, &[(2, 1 << 62, 9)]),
    (43, 1, &[(1, 1 << 62, 9)]),
    (43, 2, &[(2, 1 << 40, 1)]),
    (45, 1, &[(1, 1 << 40, 1)]),
    (8, 0, &[]),
];

/// The words that say whether the next is set.
fn is_set(number: u64, word: usize) -> bool {
    matches!(word, 30 | 32) || (number == 3 && matches!(word, 1 | 3 | 5 | 8))
}

/// A call without flaws: zeros, but for gains of 1.
fn plain(number: u64) -> [u64; CALL_WORDS] {
    let mut call = [0; CALL_WORDS];
    call[0] = number;
    match number {
        9 | 15 | 16 => call[1] = ONE,
        10 => call[2] = ONE,
        _ => {}
    }
    call
}

/// The reply of row 2 to a call with these words, in a state whose minimum round trip is of this
/// moment; 0 where there is no flaw.
fn reply(call: &[u64], moment: u64) -> u64 {
    let mut state = [0; STATE_WORDS];
    state[7] = moment;
    let given = Given {
        state: &state,
        words: call,
        lists: &[],
    };
    let flaws = flaws(Callee::Call(call[0]));
    let first = flaws.iter().find(|flaw| flaw.holds(&given));
    first.map_or(0, |flaw| flaw.named.reply())
}

#[test]
fn each_word_is_named_as_by_hand() {
    for (number, place, words) in BY_HAND {
        for &(word, last, kind) in words {
            let mut call = plain(number);
            if word > 0 && is_set(number, word - 1) {
                call[word - 1] = 1;
            }
            call[word] = last;
            assert_eq!(reply(&call, 0), 0, "call {}, word {}", number, word);
            call[word] += 1;
            let due = 2 + (kind << 8) + (place << 16);
            assert_eq!(reply(&call, 0), due, "call {}, word {}", number, word);
        }
    }
}

/// By hand there are as many flaws, and in the same order, but for the high bits of a gain and for
/// the postponed moment.
#[test]
fn no_word_is_left_out() {
    for number in (0..46).filter(|number| ![2, 39].contains(number)) {
        let of_call = BY_HAND.iter().filter(|(call, ..)| *call == number);
        let by_hand = of_call.flat_map(|&(_, place, words)| {
            let words = words.iter();
            words.map(move |&(word, _, kind)| (place, kind, word))
        });
        let mut flaws = flaws(Callee::Call(number));
        flaws.retain(|flaw| !matches!(flaw.wrong, Wrong::HighBits | Wrong::Postponed));
        let flaws = flaws.iter().map(|flaw| {
            let held = (flaw.wrong == Wrong::HeldAbove) as usize;
            let Named { bound, place } = flaw.named;
            (place, bound as u64, flaw.word + held)
        });
        assert!(by_hand.eq(flaws), "call {}", number);
    }
}

/// The flaws of the estimator's calls: place, kind and word, from the documents.
#[test]
fn the_estimators_words_are_named_as_by_hand() {
    let by_hand: [&[(u64, u64, usize)]; 4] = [
        &[(1, 4, 1), (2, 4, 2)],
        &[(1, 4, 1), (2, 4, 2), (3, 8, 3)],
        &[(1, 4, 1)],
        &[(0, 8, 0)],
    ];
    for (number, due) in by_hand.into_iter().enumerate() {
        let flaws = flaws(Callee::RttCall(number as u64));
        let told = flaws.iter().map(|flaw| {
            let Named { bound, place } = flaw.named;
            (place, bound as u64, flaw.word)
        });
        assert!(told.eq(due.iter().copied()), "call {}", number);
    }
}

/// A call, words of it, the stored moment of the minimum round trip, and the reply.
type Worked = (u64, &'static [(usize, u64)], u64, u64);

const PAST: u64 = (1 << 62) + 1;
const LARGE: u64 = 1 << 41;
const LONG: u64 = (1 << 36) + 1;
const NAN: u64 = 0x7fc0_0000;

const WORKED: [Worked; 42] = [
    (2, &[], 0, 2050),
    (39, &[], 0, 2050),
    (46, &[(1, PAST)], 0, 2050),
    (u64::MAX, &[], 0, 2050),
    (8, &[(1, PAST), (2, PAST), (23, PAST)], 1 << 62, 0),
    (1, &[(1, PAST), (2, LARGE)], 0, 67_842),
    (1, &[(1, PAST)], 0, 0x1_0902),
    (1, &[(2, LARGE), (4, LARGE)], 0, 0x2_0202),
    (1, &[(3, u64::MAX), (4, LARGE)], 0, 0x4_0202),
    (0, &[(1, PAST), (2, LONG)], 0, 66_562),
    (0, &[(1, PAST), (2, 1 << 36)], 0, 0x2_0902),
    (3, &[(23, LARGE), (1, 1), (2, LARGE)], 0, 131_330),
    (3, &[(22, PAST), (23, LARGE)], 0, 0x2_0902),
    (3, &[(18, 4), (22, PAST), (1, 2)], 0, 67_586),
    (3, &[(1, 1), (2, LARGE), (17, PAST)], 0, 0x3_0302),
    (3, &[(1, 2), (2, LARGE)], 0, 0x3_0802),
    (3, &[(1, 0), (2, 1)], 0, 0x3_0802),
    (3, &[(8, 1), (9, LONG), (10, LARGE)], 0, 0x3_0402),
    (3, &[(12, 0), (14, PAST), (16, PAST)], 0, 0x3_0502),
    (3, &[(12, 0), (15, LARGE)], 0, 0x3_0202),
    (3, &[(13, 2), (12, 2)], 0, 0x3_0802),
    (3, &[(11, LARGE), (7, 2)], 0, 0x3_0802),
    (3, &[(11, LARGE), (12, 2)], 0, 0x3_0202),
    (4, &[(27, PAST), (28, 2)], 0, 0x1_0502),
    (4, &[(28, 2), (30, 1), (31, LARGE)], 0, 0x1_0802),
    (4, &[(30, 1), (31, LARGE), (32, 2)], 0, 0x1_0302),
    (5, &[(32, 1), (33, LONG), (34, 2)], 0, 0x1_0402),
    (6, &[(1, u64::MAX), (37, LARGE)], 0, 0x1_0202),
    (7, &[(34, 0), (36, PAST)], 0, 0x1_0502),
    (9, &[(1, NAN)], 0, 0x1_0702),
    (9, &[(1, NAN | 1 << 32)], 0, 0x1_0802),
    (10, &[(1, LARGE), (2, NAN)], 0, 0x1_0302),
    (10, &[(2, 0x8000_0000)], 0, 0x2_0702),
    (10, &[(2, ONE | 1 << 63)], 0, 0x2_0802),
    (17, &[(1, u64::MAX)], 0, 0),
    (18, &[(1, u64::MAX - 1)], 0, 0x1_0202),
    (22, &[(1, LONG)], 1 << 62, 66_562),
    (22, &[(1, 1)], 1 << 62, 67_842),
    (22, &[(1, 0)], 1 << 62, 0),
    (40, &[(1, 2), (2, 2), (3, PAST)], 0, 0x1_0802),
    (42, &[(1, 31), (2, PAST)], 0, 0x1_0602),
    (43, &[(1, PAST), (2, LARGE)], 0, 0x1_0902),
];

#[test]
fn worked_calls_give_their_replies() {
    for (number, words, moment, due) in WORKED {
        let mut call = plain(number);
        for &(at, word) in words {
            call[at] = word;
        }
        assert_eq!(reply(&call, moment), due, "call {}, {:?}", number, words);
    }
}

#[test]
fn worked_exports_give_their_replies() {
    const RUN: Callee = Callee::Run;
    for (callee, numbers, due) in [
        (RUN, &[408, 392][..], 0),
        (RUN, &[408, 0], 0),
        (RUN, &[400, 392], 67_586),
        (RUN, &[409, 393], 67_586),
        (RUN, &[408, 391], 0x2_0802),
        (Callee::RttRun, &[48, 64], 0),
        (Callee::RttRun, &[48, 0], 0),
        (Callee::RttRun, &[56, 32], 67_586),
        (Callee::RttRun, &[40, 33], 67_586),
        (Callee::RttRun, &[48, 31], 0x2_0802),
        (Callee::FilterRun, &[48], 0),
        (Callee::FilterRun, &[47], 133_122),
        (Callee::Slope, &[1 << 40], 0),
        (Callee::Slope, &[(1 << 40) + 1], 131_330),
    ] {
        let given = Given::numbers(numbers);
        let flaws = flaws(callee);
        let first = flaws.iter().find(|flaw| flaw.holds(&given));
        let reply = first.map_or(0, |flaw| flaw.named.reply());
        assert_eq!(reply, due, "{:?}, {:?}", callee, numbers);
    }
}
