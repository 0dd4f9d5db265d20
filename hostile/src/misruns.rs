//! Ports that are wrong about a run of the estimator, in one way each: about what it is refused for,
//! about its calls and their answers, or about what it may write.

use guovssalu_sys::table::rtt_state as s;
use guovssalu_sys::table::WORD_BYTES;

use crate::estimator;
use crate::estimator::Step;
use crate::fakes::exported_run;
use crate::fakes::lent;
use crate::fakes::rtt_by;
use crate::fakes::rtt_step;
use crate::foreign::Run;
use crate::mistimes::assert_noticed;
use crate::mistimes::assert_notices;
use crate::mistimes::each;
use crate::table::Rows;
use crate::tally::Fault;
use crate::trips;
use crate::trips::Sweep;
use crate::words;
use crate::words::RttState;
use crate::words::RTT_ANSWER_BYTES;
use crate::words::RTT_CALL_BYTES;
use crate::words::RTT_STATE_BYTES;

/// A wrong run: what it does with the state, the calls and the answers, and its reply.
type Ranges = fn(&mut [u8], &[u8], &mut [u8]) -> u64;

/// The right run.
pub fn run_right(state: &mut [u8], calls: &[u8], answers: &mut [u8]) -> u64 {
    rtt_by(rtt_step, state, calls, answers)
}

/// The rows of the right run.
fn due_rows(state: &[u8], calls: &[u8], answers: &[u8]) -> Rows {
    estimator::run_rows(state, calls, answers.len())
}

/// How many whole calls there are.
fn whole_calls(calls: &[u8]) -> usize {
    calls.len() / RTT_CALL_BYTES
}

/// The right run, its rows being asked in another order.
fn run_asking(order: &[u64], state: &mut [u8], calls: &[u8], answers: &mut [u8]) -> u64 {
    let rows = due_rows(state, calls, answers);
    match order.iter().find(|&&row| rows.holds(row)) {
        Some(2) => rows.bad_argument(),
        Some(&row) => row,
        None => run_right(state, calls, answers),
    }
}

/// Writes as much of the answers as there is room for, and the state.
fn write_steps(steps: &[Step], state: &mut [u8], answers: &mut [u8]) {
    let written: Vec<u8> = steps
        .iter()
        .flat_map(|step| words::bytes(&step.answer))
        .collect();
    let room = written.len().min(answers.len());
    answers[..room].copy_from_slice(&written[..room]);
    if let Some(last) = steps.last() {
        state.copy_from_slice(&words::bytes(&last.after));
    }
}

/// The right run, but that answers are too short by another rule: it gets how many calls there are.
fn run_with_room(
    short: impl Fn(usize, usize) -> bool,
    state: &mut [u8],
    calls: &[u8],
    answers: &mut [u8],
) -> u64 {
    let others = estimator::run_rows(state, calls, usize::MAX);
    let rows = others.with(7, short(whole_calls(calls), answers.len()));
    if rows.due() == 0 {
        write_steps(&estimator::steps(state, calls), state, answers);
    }
    rows.reply()
}

/// The right run on a state whose flag is read otherwise.
fn run_with_flag(
    read: impl Fn(u64) -> u64,
    state: &mut [u8],
    calls: &[u8],
    answers: &mut [u8],
) -> u64 {
    if state.len() == RTT_STATE_BYTES {
        let mut other: RttState = words::words(state);
        other[s::HAS_FIRST_RTT_SAMPLE] = read(other[s::HAS_FIRST_RTT_SAMPLE]);
        let mut bytes = words::bytes(&other);
        let reply = run_right(&mut bytes, calls, answers);
        if reply == 0 {
            state.copy_from_slice(&bytes);
        }
        return reply;
    }
    run_right(state, calls, answers)
}

/// Runs that are refused otherwise.
const REFUSALS: [(&str, Ranges); 27] = [
    ("1 after 2", |state, calls, answers| {
        run_asking(&[2, 1, 7], state, calls, answers)
    }),
    ("1 after 7", |state, calls, answers| {
        run_asking(&[2, 7, 1], state, calls, answers)
    }),
    ("7 before 2", |state, calls, answers| {
        run_asking(&[1, 7, 2], state, calls, answers)
    }),
    ("7 first", |state, calls, answers| {
        run_asking(&[7, 1, 2], state, calls, answers)
    }),
    ("room without the reply", |state, calls, answers| {
        run_with_room(|count, room| room < count * 32, state, calls, answers)
    }),
    ("room for one call more", |state, calls, answers| {
        let short = |count, room| room < (count + 1) * RTT_ANSWER_BYTES;
        run_with_room(short, state, calls, answers)
    }),
    ("room for one call", |state, calls, answers| {
        let short = |count, room| count > 0 && room < RTT_ANSWER_BYTES;
        run_with_room(short, state, calls, answers)
    }),
    ("room for just the calls", |state, calls, answers| {
        let short = |count, room| room != count * RTT_ANSWER_BYTES;
        run_with_room(short, state, calls, answers)
    }),
    ("room by one byte less", |state, calls, answers| {
        let short = |count, room| room + 1 < count * RTT_ANSWER_BYTES;
        run_with_room(short, state, calls, answers)
    }),
    ("room by one byte more", |state, calls, answers| {
        let short = |count, room| room <= count * RTT_ANSWER_BYTES;
        run_with_room(short, state, calls, answers)
    }),
    ("56 bytes are a state", |state, calls, answers| {
        let length = if state.len() == 56 { 48 } else { state.len() };
        run_right(&mut state[..length], calls, answers)
    }),
    ("more bytes are a state", |state, calls, answers| {
        let length = state.len().min(RTT_STATE_BYTES);
        run_right(&mut state[..length], calls, answers)
    }),
    ("40 bytes are a state", |state, calls, answers| {
        if state.len() == 40 {
            let mut whole = [state, &1_u64.to_le_bytes()[..]].concat();
            return run_right(&mut whole, calls, answers);
        }
        run_right(state, calls, answers)
    }),
    ("no bytes are a state", |state, calls, answers| {
        if state.is_empty() {
            return run_right(&mut [0; RTT_STATE_BYTES], calls, answers);
        }
        run_right(state, calls, answers)
    }),
    (
        "a part of a call is passed over",
        |state, calls, answers| {
            let whole = whole_calls(calls) * RTT_CALL_BYTES;
            run_right(state, &calls[..whole], answers)
        },
    ),
    ("calls in whole words", |state, calls, answers| {
        let whole = whole_calls(calls) * RTT_CALL_BYTES;
        let calls = if calls.len() % 8 == 0 {
            &calls[..whole]
        } else {
            calls
        };
        run_right(state, calls, answers)
    }),
    (
        "no calls are refused",
        |state, calls, answers| match run_right(state, calls, answers) {
            0 if calls.is_empty() => 0x2_0802,
            reply => reply,
        },
    ),
    (
        "without calls nothing is tested",
        |state, calls, answers| {
            if calls.is_empty() {
                return 0;
            }
            run_right(state, calls, answers)
        },
    ),
    ("a flag of 2 is a sample", |state, calls, answers| {
        run_with_flag(|flag| flag.min(1), state, calls, answers)
    }),
    ("a flag of 2 is none", |state, calls, answers| {
        let read = |flag| (flag == 1) as u64;
        run_with_flag(read, state, calls, answers)
    }),
    ("the lowest byte of a flag", |state, calls, answers| {
        run_with_flag(|flag| flag & 0xff, state, calls, answers)
    }),
    ("the lower half of a flag", |state, calls, answers| {
        run_with_flag(|flag| flag as u32 as u64, state, calls, answers)
    }),
    (
        "a flag of 2 is taken where no calls are",
        |state, calls, answers| match run_right(state, calls, answers) {
            1 if calls.is_empty() => 0,
            reply => reply,
        },
    ),
    (
        "a flag of 2 is a bad argument",
        |state, calls, answers| match run_right(state, calls, answers) {
            1 => 0x1_0802,
            reply => reply,
        },
    ),
    ("stored lengths refuse the run", |state, calls, answers| {
        let out = state.len() == RTT_STATE_BYTES && !estimator::stored_ok(&words::words(state));
        if out {
            return 1;
        }
        run_right(state, calls, answers)
    }),
    ("a refused call refuses the run", |state, calls, answers| {
        if due_rows(state, calls, answers).due() != 0 {
            return run_right(state, calls, answers);
        }
        let steps = estimator::steps(state, calls);
        match steps.iter().map(|step| step.rows.reply()).max() {
            Some(reply) if reply != 0 => reply,
            _ => run_right(state, calls, answers),
        }
    }),
    ("neither kind nor place", |state, calls, answers| {
        run_right(state, calls, answers) & 0xff
    }),
];

/// The right run, where it is done, but that its answers begin so many bytes apart.
fn run_answering_every(stride: usize, state: &mut [u8], calls: &[u8], answers: &mut [u8]) -> u64 {
    let reply = due_rows(state, calls, answers).reply();
    if reply == 0 {
        let steps = estimator::steps(state, calls);
        for (at, step) in steps.iter().enumerate() {
            let room = answers.iter_mut().skip(at * stride);
            for (byte, written) in room.zip(words::bytes(&step.answer)) {
                *byte = written;
            }
        }
        write_steps(&steps, state, &mut []);
    }
    reply
}

/// The right run, where it is done, of some of its calls alone.
fn run_some_of(
    some: impl Fn(&[Step]) -> usize,
    state: &mut [u8],
    calls: &[u8],
    answers: &mut [u8],
) -> u64 {
    let reply = due_rows(state, calls, answers).reply();
    if reply == 0 {
        let steps = estimator::steps(state, calls);
        write_steps(&steps[..some(&steps)], state, answers);
    }
    reply
}

/// The right run, where it is done, but that of a refused call's answer only so many words are written.
fn run_cutting(refused: usize, state: &mut [u8], calls: &[u8], answers: &mut [u8]) -> u64 {
    let lent = answers.to_vec();
    let reply = due_rows(state, calls, answers).reply();
    if reply == 0 {
        let steps = estimator::steps(state, calls);
        write_steps(&steps, state, answers);
        let each = steps.iter().enumerate();
        for (at, _) in each.filter(|(_, step)| step.rows.due() != 0) {
            let left = at * RTT_ANSWER_BYTES + refused * WORD_BYTES..(at + 1) * RTT_ANSWER_BYTES;
            answers[left.clone()].copy_from_slice(&lent[left]);
        }
    }
    reply
}

/// Runs that are done otherwise.
const DONE: [(&str, Ranges); 13] = [
    ("32 bytes an answer", |state, calls, answers| {
        run_answering_every(32, state, calls, answers)
    }),
    ("48 bytes an answer", |state, calls, answers| {
        run_answering_every(48, state, calls, answers)
    }),
    ("all answers in one place", |state, calls, answers| {
        run_answering_every(0, state, calls, answers)
    }),
    ("without the last call", |state, calls, answers| {
        run_some_of(|steps| steps.len().saturating_sub(1), state, calls, answers)
    }),
    ("the first call alone", |state, calls, answers| {
        run_some_of(|steps| steps.len().min(1), state, calls, answers)
    }),
    ("32 calls at most", |state, calls, answers| {
        run_some_of(|steps| steps.len().min(32), state, calls, answers)
    }),
    ("255 calls at most", |state, calls, answers| {
        run_some_of(|steps| steps.len().min(255), state, calls, answers)
    }),
    ("ends after a refused call", |state, calls, answers| {
        let end = |steps: &[Step]| {
            let refused = steps.iter().position(|step| step.rows.due() != 0);
            refused.map_or(steps.len(), |at| at + 1)
        };
        run_some_of(end, state, calls, answers)
    }),
    (
        "a refused call's answer is left",
        |state, calls, answers| run_cutting(0, state, calls, answers),
    ),
    (
        "a refused call's numbers are left",
        |state, calls, answers| run_cutting(1, state, calls, answers),
    ),
    ("the state is not written", |state, calls, answers| {
        run_right(&mut state.to_vec(), calls, answers)
    }),
    ("five words of it are written", |state, calls, answers| {
        let mut whole = state.to_vec();
        let reply = run_right(&mut whole, calls, answers);
        let five = state.len().min(40);
        state[..five].copy_from_slice(&whole[..five]);
        reply
    }),
    ("each call on the first state", |state, calls, answers| {
        if due_rows(state, calls, answers).due() != 0 {
            return run_right(state, calls, answers);
        }
        let first = state.to_vec();
        for (at, call) in calls.chunks_exact(RTT_CALL_BYTES).enumerate() {
            state.copy_from_slice(&first);
            run_right(state, call, &mut answers[at * RTT_ANSWER_BYTES..]);
        }
        0
    }),
];

/// Runs that write what has to stay.
const WRITES: [(&str, Ranges); 9] = [
    ("a byte past the answers", |state, calls, answers| {
        let reply = run_right(state, calls, answers);
        match answers.get_mut(whole_calls(calls) * RTT_ANSWER_BYTES) {
            Some(past) if reply == 0 => *past ^= 1,
            _ => {}
        }
        reply
    }),
    (
        "the last byte of longer answers",
        |state, calls, answers| {
            let reply = run_right(state, calls, answers);
            let past = &mut answers[..];
            if reply == 0 && past.len() > whole_calls(calls) * RTT_ANSWER_BYTES {
                past[past.len() - 1] ^= 1;
            }
            reply
        },
    ),
    (
        "the state of a run refused with 7",
        |state, calls, answers| {
            if due_rows(state, calls, answers).due() == 7 {
                let steps = estimator::steps(state, calls);
                write_steps(&steps, state, &mut []);
                return 7;
            }
            run_right(state, calls, answers)
        },
    ),
    (
        "the answers that there is room for",
        |state, calls, answers| {
            if due_rows(state, calls, answers).due() == 7 {
                let steps = estimator::steps(state, calls);
                write_steps(&steps, &mut state.to_vec(), answers);
                return 7;
            }
            run_right(state, calls, answers)
        },
    ),
    ("the calls before a part of one", |state, calls, answers| {
        let whole = whole_calls(calls) * RTT_CALL_BYTES;
        let reply = run_right(state, calls, answers);
        if reply == 0x2_0802 {
            run_right(state, &calls[..whole], answers);
        }
        reply
    }),
    ("a state of another length", |state, calls, answers| {
        let reply = run_right(state, calls, answers);
        match state.first_mut() {
            Some(first) if reply == 0x1_0802 => *first ^= 1,
            _ => {}
        }
        reply
    }),
    ("a state that is none", |state, calls, answers| {
        let reply = run_right(state, calls, answers);
        if reply == 1 {
            state[RTT_STATE_BYTES - 8..].fill(0);
        }
        reply
    }),
    ("the reply into the answers", |state, calls, answers| {
        let reply = run_right(state, calls, answers);
        if reply != 0 && answers.len() >= 8 {
            answers[..8].copy_from_slice(&reply.to_le_bytes());
        }
        reply
    }),
    ("the state without calls", |state, calls, answers| {
        let reply = run_right(state, calls, answers);
        if reply == 0 && calls.is_empty() {
            state[0] ^= 1;
        }
        reply
    }),
];

exported_run!(refusals<WAY>, |state, calls, answers| {
    REFUSALS[WAY].1(lent(state), lent(calls), lent(answers))
});
exported_run!(done<WAY>, |state, calls, answers| {
    DONE[WAY].1(lent(state), lent(calls), lent(answers))
});
exported_run!(writes<WAY>, |state, calls, answers| {
    WRITES[WAY].1(lent(state), lent(calls), lent(answers))
});

#[test]
fn other_runs_are_noticed() {
    let runs = each!(REFUSALS, refusals,
        0 1 2 3 4 5 6 7 8 9 10 11 12 13 14 15 16 17 18 19 20 21 22 23 24 25 26);
    assert_noticed(Fault::Reply, &runs);
    let runs = each!(DONE, done, 0 1 2 3 4 5 6 7 8 9 10 11 12);
    assert_noticed(Fault::Content, &runs);
    let runs = each!(WRITES, writes, 0 1 2 3 4 5 6 7 8);
    assert_noticed(Fault::Touched, &runs);
}

#[test]
fn sweeps_of_runs_notice_by_themselves() {
    let sweeps: [(&str, Sweep, Run); 2] = [
        ("each length", trips::each_length, refusals::<8>),
        ("each run", trips::each_run, refusals::<0>),
    ];
    assert_notices(Fault::Reply, &sweeps);
    let sweeps: [(&str, Sweep, Run); 2] = [
        ("each two in turn", trips::each_two_in_turn, done::<12>),
        ("long runs", trips::long_runs, done::<6>),
    ];
    assert_notices(Fault::Content, &sweeps);
}
