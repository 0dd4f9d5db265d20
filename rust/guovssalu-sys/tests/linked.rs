//! The archive is linked, and a number and lent bytes cross as declared.

#![cfg(feature = "link")]

use std::ptr;

use guovssalu_sys::table::fault;
use guovssalu_sys::table::reply;
use guovssalu_sys::table::CALL_BYTES;
use guovssalu_sys::table::STATE_BYTES;

#[test]
fn a_number_crosses() {
    let seven_tenths = (1.0_f32 - 0.3).to_bits();
    assert_eq!(
        unsafe { guovssalu_sys::guovssalu_scale(1300, seven_tenths) },
        910
    );
}

#[test]
fn lent_bytes_cross() {
    let mut out = [0xff; 24];
    let reply = unsafe {
        guovssalu_sys::guovssalu_raise_inflight_high_slope(2, 1 << 20, out.as_mut_ptr(), out.len())
    };
    let mut expected = [0xff; 24];
    expected[..8].copy_from_slice(&3_u64.to_le_bytes());
    expected[8..16].copy_from_slice(&(1_u64 << 18).to_le_bytes());
    assert_eq!((reply, out), (0, expected));
}

#[test]
fn with_the_length_0_a_pointer_is_not_used() {
    let mut state = [0; STATE_BYTES];
    let (from, lists, to) = (ptr::null(), ptr::null(), ptr::null_mut());
    for (length, due) in [(STATE_BYTES, 0), (STATE_BYTES - 1, 67_586)] {
        let state = state.as_mut_ptr();
        let reply = unsafe { guovssalu_sys::guovssalu_run(state, length, from, 0, to, 0) };
        assert_eq!(reply, due);
        let reply =
            unsafe { guovssalu_sys::guovssalu_run_lists(state, length, from, 0, lists, 0, to, 0) };
        assert_eq!(reply, due);
    }
    assert_eq!(state, [0; STATE_BYTES]);
}

/// The reply of a run on bytes of these lengths, with lists and without; every lent byte has to stay.
fn run_of(state_len: usize, calls_len: usize, answers_len: usize) -> u64 {
    let (mut state, calls, lists) = (vec![0; state_len], vec![0; calls_len], [1]);
    let mut answers = vec![0x77; answers_len];
    let (from, to) = (calls.as_ptr(), answers.as_mut_ptr());
    let number = unsafe {
        guovssalu_sys::guovssalu_run(
            state.as_mut_ptr(),
            state_len,
            from,
            calls_len,
            to,
            answers_len,
        )
    };
    let with_lists = unsafe {
        guovssalu_sys::guovssalu_run_lists(
            state.as_mut_ptr(),
            state_len,
            from,
            calls_len,
            lists.as_ptr(),
            lists.len(),
            to,
            answers_len,
        )
    };
    assert_eq!(number, with_lists);
    assert!(state.iter().all(|&byte| byte == 0));
    assert!(answers.iter().all(|&byte| byte == 0x77));
    number
}

/// A run names the argument whose length is wrong, the first where two are; an output that is too short
/// comes after them and has no kind and no place.
#[test]
fn a_run_names_what_has_a_wrong_length() {
    for answers in [0, 144, 1_000] {
        for calls in [0, 1, CALL_BYTES, 10 * CALL_BYTES + 1] {
            for state in [0, 1, 400, STATE_BYTES - 1, STATE_BYTES + 1, 1_000] {
                assert_eq!(run_of(state, calls, answers), 67_586);
            }
        }
        for calls in [1, 391, CALL_BYTES + 1, 10 * CALL_BYTES - 1] {
            assert_eq!(run_of(STATE_BYTES, calls, answers), 133_122);
        }
    }
    assert_eq!(run_of(STATE_BYTES, CALL_BYTES, 143), 7);
}

#[test]
fn the_filter_and_the_slope_name_their_arguments() {
    let src = [0; 64];
    let to = ptr::null_mut();
    for length in 0..64 {
        let number = unsafe { guovssalu_sys::guovssalu_filter_run(8, src.as_ptr(), length, to, 0) };
        let due = match length {
            0 => 0,
            16 | 32 | 48 => 7,
            _ => 133_122,
        };
        assert_eq!(number, due, "{} bytes", length);
    }
    for (rounds, window, due) in [
        (30, 1 << 40, 7),
        (30, (1 << 40) + 1, 131_330),
        (0, u64::MAX, 131_330),
        (31, u64::MAX, 1),
    ] {
        let number =
            unsafe { guovssalu_sys::guovssalu_raise_inflight_high_slope(rounds, window, to, 0) };
        assert_eq!(number, due, "{} rounds of {}", rounds, window);
    }
}

/// The parts of a reply.
#[test]
fn a_reply_has_three_parts() {
    let parts = |number: u64| {
        (
            reply::row(number),
            reply::kind(number),
            reply::place(number),
        )
    };
    assert_eq!(parts(0x1_0902), (reply::BAD_ARGUMENT, fault::MOMENT, 1));
    assert_eq!(parts(133_122), (2, fault::LIST_LENGTH, 2));
    assert_eq!(parts(2050), (2, 8, 0));
    assert_eq!(parts(reply::NEVER_SENT), (10, 0, 0));
}
