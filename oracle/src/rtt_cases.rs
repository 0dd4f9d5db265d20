//! Runs of the estimator that are worked out: the examples of document 02, request
//! a, each length at its bounds and past them, calls with several faults, and
//! lengths of memory that are refused. The words stand here by their places.

use guovssalu_sys::table::EVENT_IN_ANSWER;
use guovssalu_sys::table::REPLY_IN_ANSWER;
use guovssalu_sys::table::UNSET;

use crate::bounds::LENGTH;
use crate::estimator::Answer;
use crate::estimator::Call;
use crate::estimator::Estimator;
use crate::estimator::Lent;
use crate::files::Files;
use crate::frame::RTT_STATE;
use crate::run::bad;
use crate::world::Step;

/// The word after a state, which is kept.
const AFTER: u64 = 0x0123_4567_89ab_cdef;

/// An estimator with a sample: latest 90, minimum 60, smoothed 100, variation 50,
/// limit 19.
const SAMPLED: Estimator = [90, 60, 100, 50, 19, 1];

const ENDS: [u64; 6] = [0, 1, LENGTH - 1, LENGTH, LENGTH + 1, u64::MAX];

/// Adds the cases.
pub fn add(files: &mut Files) {
    examples(files);
    adjusted(files);
    refused(files);
    arguments(files);
    stored(files);
    faults(files);
    lengths(files);
}

/// An answer that is refused.
const fn no(reply: u64) -> Answer {
    [reply, 0, 0, 0, 0]
}

/// Makes the calls in one run, each of which is answered so, on an estimator that is
/// then the other.
fn expect(files: &mut Files, before: Estimator, calls: &[(Call, Answer)], after: Estimator) {
    let words: Vec<u64> = calls.iter().flat_map(|(call, _)| *call).collect();
    let lent = [48, 32 * calls.len(), 40 * calls.len()];
    let (reply, state, answers) = run(files, before, words, lent);
    assert_eq!(reply, 0, "the run's reply to {calls:?}");
    for ((call, expected), got) in calls.iter().zip(answers.chunks(5)) {
        assert_eq!(expected[..], *got, "the answer to {call:?}");
    }
    assert_eq!(state[..6], after, "the state after {calls:?}");
    assert_eq!(state[6], AFTER, "the word after the state");
}

/// Makes the calls in one run on this estimator, to which these are the replies.
fn expect_replies(files: &mut Files, before: Estimator, calls: &[(Call, u64)]) {
    let words: Vec<u64> = calls.iter().flat_map(|(call, _)| *call).collect();
    let lent = [48, 32 * calls.len(), 40 * calls.len()];
    let (reply, _, answers) = run(files, before, words, lent);
    assert_eq!(reply, 0, "the run's reply to {calls:?}");
    for ((call, expected), got) in calls.iter().zip(answers.chunks(5)) {
        assert_eq!(*expected, got[0], "the reply to {call:?}");
    }
}

/// Makes the run; its reply, the state's memory and that of the answers.
fn run(
    files: &mut Files,
    before: Estimator,
    calls: Vec<u64>,
    bytes: [usize; 3],
) -> (u64, Vec<u64>, Vec<u64>) {
    let state = [&before[..], &[AFTER]].concat();
    let step = Step::RttRun(Lent {
        state,
        calls,
        bytes,
    });
    let answer = files.step(&step).expect("the port is asked");
    let (state, answers) = answer[EVENT_IN_ANSWER..].split_at(RTT_STATE);
    (answer[REPLY_IN_ANSWER], state.to_vec(), answers.to_vec())
}

/// The request's example; the first sample, which is taken whole; and a limit that is
/// changed.
fn examples(files: &mut Files) {
    let initial = 333_000_000;
    let calls = [
        (
            [0, initial, 25_000_000, 2],
            [0, 0, UNSET, initial, 166_500_000],
        ),
        (
            [1, 80_000_001, 5_000_000, 1],
            [0, 80_000_001, 80_000_001, 80_000_001, 40_000_000],
        ),
        (
            [1, 90_000_000, 5_000_000, 1],
            [0, 90_000_000, 80_000_001, 80_625_000, 31_249_999],
        ),
    ];
    let after = [
        90_000_000, 80_000_001, 80_625_000, 31_249_999, 25_000_000, 1,
    ];
    expect(files, [0; 6], &calls, after);

    // Below the initial round trip, and above it.
    for (sample, half) in [(100, 50), (401, 200)] {
        let calls = [
            ([0, 301, 25, UNSET], [0, 0, UNSET, 301, 150]),
            ([2, 30, UNSET, UNSET], [0, 0, UNSET, 301, 150]),
            ([1, sample, 40, 1], [0, sample, sample, sample, half]),
        ];
        expect(
            files,
            SAMPLED,
            &calls,
            [sample, sample, sample, half, 30, 1],
        );
    }

    // The delay of 20 is limited to 19 at first, then to 3, and then not.
    let calls = [
        ([1, 80, 20, 1], [0, 80, 60, 94, 46]),
        ([2, 3, 0, 0], [0, 80, 60, 94, 46]),
        ([1, 80, 20, 1], [0, 80, 60, 91, 38]),
        ([2, 20, 0, 0], [0, 80, 60, 91, 38]),
        ([1, 80, 20, 1], [0, 80, 60, 86, 35]),
    ];
    expect(files, SAMPLED, &calls, [80, 60, 86, 35, 20, 1]);
}

/// One update of an estimator: the variation from the smoothed round trip before it,
/// two roundings each, and the sample with and without its delay.
fn adjusted(files: &mut Files) {
    let cases: [(Estimator, [u64; 3], [u64; 4]); 10] = [
        // Variation first: 62, and not 59.
        ([0, 100, 100, 50, 0, 1], [200, 0, 0], [200, 100, 112, 62]),
        // Each part is rounded down: 0, and not 1.
        ([0, 7, 1, 0, 0, 1], [7, 0, 0], [7, 7, 0, 1]),
        // The minimum and the delay, and one beside them.
        ([0, 60, 100, 0, 0, 1], [80, 20, 0], [80, 60, 94, 10]),
        ([0, 60, 100, 0, 0, 1], [79, 20, 0], [79, 60, 96, 5]),
        ([0, 60, 100, 0, 0, 1], [81, 20, 0], [81, 60, 94, 9]),
        // Confirmed, and the limit is none, or one less than the delay.
        ([0, 60, 100, 0, 0, 1], [80, 20, 1], [80, 60, 97, 5]),
        ([0, 60, 100, 0, 19, 1], [80, 20, 1], [80, 60, 94, 9]),
        // A lower minimum, which no delay is taken off.
        ([0, 60, 100, 8, 20, 1], [50, 10, 1], [50, 50, 93, 18]),
        // Nothing of a sample is left.
        ([9, 0, 8, 3, 20, 1], [20, 20, 1], [20, 0, 7, 4]),
        // At the bounds of all.
        (
            [LENGTH, LENGTH, LENGTH, LENGTH, LENGTH, 1],
            [LENGTH, LENGTH, 1],
            [LENGTH, LENGTH, LENGTH, 3 * (LENGTH / 4)],
        ),
    ];
    for (before, [latest, delay, confirmed], [l, m, s, v]) in cases {
        let call = ([1, latest, delay, confirmed], [0, l, m, s, v]);
        expect(files, before, &[call], [l, m, s, v, before[4], 1]);
    }
}

/// What is refused leaves the estimator, and shows nothing; a `new` leaves zeros. The
/// calls after it are made.
fn refused(files: &mut Files) {
    let calls = [
        ([1, LENGTH + 1, 0, 0], no(bad(4, 1))),
        ([1, 70, LENGTH + 1, 0], no(bad(4, 2))),
        ([1, 70, 0, 2], no(bad(8, 3))),
        ([2, LENGTH + 1, 0, 0], no(bad(4, 1))),
        ([3, 0, 0, 0], no(bad(8, 0))),
    ];
    expect(files, SAMPLED, &calls, SAMPLED);
    let calls = [
        ([0, 5, LENGTH + 1, 0], no(bad(4, 2))),
        // The first sample's delay and flag are tested, too.
        ([1, 70, LENGTH + 1, 1], no(bad(4, 2))),
        ([1, 70, 0, 2], no(bad(8, 3))),
        ([2, 4, 0, 0], [0, 0, UNSET, 0, 0]),
        ([1, 70, LENGTH, 1], [0, 70, 70, 70, 35]),
    ];
    expect(files, SAMPLED, &calls, [70, 70, 70, 35, 4, 1]);
    expect(files, SAMPLED, &calls[..1], [0; 6]);

    // The same sample after each, whose delay is limited to 19; the last is a first one.
    let sample = [1, 80, 20, 1];
    let calls = [
        (sample, [0, 80, 60, 94, 46]),
        ([1, 70, LENGTH + 1, 1], no(bad(4, 2))),
        (sample, [0, 80, 60, 89, 42]),
        ([2, LENGTH + 1, 0, 0], no(bad(4, 1))),
        (sample, [0, 80, 60, 84, 38]),
        ([3, 0, 0, 0], no(bad(8, 0))),
        (sample, [0, 80, 60, 80, 33]),
        ([0, LENGTH + 1, 5, 0], no(bad(4, 1))),
        (sample, [0, 80, 80, 80, 40]),
    ];
    expect(files, SAMPLED, &calls, [80, 80, 80, 40, 0, 1]);
}

/// Each argument at the ends of its bounds and past them.
fn arguments(files: &mut Files) {
    let lengths: [(fn(u64) -> Call, u64); 5] = [
        (|length| [0, length, 1, 0], bad(4, 1)),
        (|length| [0, 1, length, 0], bad(4, 2)),
        (|length| [1, length, 1, 0], bad(4, 1)),
        (|length| [1, 1, length, 0], bad(4, 2)),
        (|length| [2, length, 0, 0], bad(4, 1)),
    ];
    for (call, named) in lengths {
        let calls = ENDS.map(|end| (call(end), if end > LENGTH { named } else { 0 }));
        expect_replies(files, SAMPLED, &calls);
    }
    let flags = [
        (0, 0),
        (1, 0),
        (2, bad(8, 3)),
        (256, bad(8, 3)),
        (u64::MAX, bad(8, 3)),
    ];
    let calls = flags.map(|(flag, reply)| ([1, 70, 1, flag], reply));
    expect_replies(files, SAMPLED, &calls);
    let others = [3, 4, 50, 256, (1 << 32) + 1, u64::MAX];
    let calls = others.map(|number| ([number, 1, 1, 1], bad(8, 0)));
    expect_replies(files, SAMPLED, &calls);
}

/// Each stored length at its bound, and one above it: then all is refused but `new`,
/// which doesn't look at it.
fn stored(files: &mut Files) {
    for at in 0..5 {
        let mut before = SAMPLED;
        before[at] = LENGTH;
        expect_replies(files, before, &[([1, 70, 1, 0], 0), ([2, 7, 0, 0], 0)]);
        before[at] = LENGTH + 1;
        let calls = [
            ([1, 70, 1, 0], no(1)),
            ([1, LENGTH + 1, 1, 2], no(1)),
            ([2, 7, 0, 0], no(1)),
            ([3, 0, 0, 0], no(1)),
        ];
        expect(files, before, &calls, before);
        let calls = [([0, 9, 7, 0], [0, 0, UNSET, 9, 4])];
        expect(files, before, &calls, [0, 9, 9, 4, 7, 0]);
        let calls = [([0, 9, LENGTH + 1, 0], no(bad(4, 2)))];
        expect(files, before, &calls, [0; 6]);
    }
}

/// Several faults in one call: the first is named.
fn faults(files: &mut Files) {
    let past = LENGTH + 1;
    let calls = [
        ([0, past, past, 0], bad(4, 1)),
        ([1, past, past, 0], bad(4, 1)),
        ([1, past, 0, 2], bad(4, 1)),
        ([1, 0, past, 2], bad(4, 2)),
        ([1, past, past, 2], bad(4, 1)),
    ];
    expect_replies(files, SAMPLED, &calls);
}

/// Lengths of a run, alone and with others that are wrong. Nothing is written then.
fn lengths(files: &mut Files) {
    let mut no_flag = SAMPLED;
    no_flag[5] = 2;
    let (state, calls) = (bad(8, 1), bad(8, 2));
    for (reply, before, bytes) in [
        (0, SAMPLED, [48, 0, 0]),
        (0, SAMPLED, [48, 64, 80]),
        (0, SAMPLED, [48, 64, 81]),
        (0, SAMPLED, [48, 64, 480]),
        (0, SAMPLED, [48, 288, 360]),
        (7, SAMPLED, [48, 64, 79]),
        (7, SAMPLED, [48, 64, 0]),
        (7, SAMPLED, [48, 288, 359]),
        (calls, SAMPLED, [48, 63, 80]),
        (calls, SAMPLED, [48, 65, 80]),
        (calls, SAMPLED, [48, 304, 480]),
        (calls, SAMPLED, [48, 65, 79]),
        (state, SAMPLED, [0, 64, 80]),
        (state, SAMPLED, [47, 64, 80]),
        (state, SAMPLED, [49, 64, 80]),
        (state, SAMPLED, [56, 0, 0]),
        (state, SAMPLED, [49, 65, 80]),
        (state, SAMPLED, [47, 64, 79]),
        (state, no_flag, [47, 64, 80]),
        (state, no_flag, [49, 64, 80]),
        (1, no_flag, [48, 64, 80]),
        (1, no_flag, [48, 0, 0]),
        (1, no_flag, [48, 65, 80]),
        (1, no_flag, [48, 64, 79]),
    ] {
        let calls: usize = bytes[1];
        let words = [1, 70, 1, 0].into_iter().cycle();
        let words = words.take(calls.div_ceil(8)).collect();
        let (got, after, answers) = run(files, before, words, bytes);
        assert_eq!(got, reply, "the reply to a run with {bytes:?} bytes");
        if reply != 0 {
            assert_eq!(after[..6], before, "the state after a run that is refused");
            let marks = u64::from_le_bytes([165; 8]);
            assert!(answers.iter().all(|word| *word == marks), "{bytes:?}");
        }
    }
}
