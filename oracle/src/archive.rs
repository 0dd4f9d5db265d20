//! The archive's runs of calls, which are linked, on words and on bytes.

use guovssalu_sys::table::ANSWER_WORDS;
use guovssalu_sys::table::CALL_WORDS;

use crate::frame;

/// What the bytes of the answers are before a run.
pub const UNTOUCHED: u64 = 0xa5a5_a5a5_a5a5_a5a5;

/// Carries out the calls of these words in this state, with lists or by the run
/// that takes none; the words of the answers and of the state after them. The
/// run's own reply is the error.
pub fn run(
    state: &[u64],
    calls: &[u64],
    lists: Option<&[u64]>,
) -> Result<(Vec<u64>, Vec<u64>), u64> {
    let answers = vec![UNTOUCHED; calls.len() / CALL_WORDS * ANSWER_WORDS];
    let mut state = frame::bytes(state);
    let mut answers = frame::bytes(&answers);
    match run_bytes(&mut state, &frame::bytes(calls), lists, &mut answers) {
        0 => Ok((frame::words(&answers), frame::words(&state))),
        reply => Err(reply),
    }
}

/// A run over these bytes, with lists or by the run that takes none; its reply.
pub fn run_bytes(state: &mut [u8], calls: &[u8], lists: Option<&[u64]>, answers: &mut [u8]) -> u64 {
    let (state_at, answers_at) = (state.as_mut_ptr(), answers.as_mut_ptr());
    // SAFETY: slices, none in another, each with its length.
    unsafe {
        match lists {
            Some(lists) => guovssalu_sys::guovssalu_run_lists(
                state_at,
                state.len(),
                calls.as_ptr(),
                calls.len(),
                lists.as_ptr(),
                lists.len(),
                answers_at,
                answers.len(),
            ),
            None => guovssalu_sys::guovssalu_run(
                state_at,
                state.len(),
                calls.as_ptr(),
                calls.len(),
                answers_at,
                answers.len(),
            ),
        }
    }
}

/// A run of an estimator over these bytes; its reply.
pub fn rtt_run(state: &mut [u8], calls: &[u8], answers: &mut [u8]) -> u64 {
    // SAFETY: slices, none in another, each with its length.
    unsafe {
        guovssalu_sys::guovssalu_rtt_run(
            state.as_mut_ptr(),
            state.len(),
            calls.as_ptr(),
            calls.len(),
            answers.as_mut_ptr(),
            answers.len(),
        )
    }
}
