//! The exported calls on slices: a safe function over each of the declared ones.

#![allow(unsafe_code)]

use guovssalu_sys as sys;

// SAFETY, for all of them: a call on numbers takes any. A call on lent ranges takes any range that may
// be read, and written where it is `mut`, if one that is written overlaps no other and one of numbers
// is aligned: slices are such ranges, and the borrows keep a `mut` one apart. No call keeps a pointer.

pub fn u64_to_f32(n: u64) -> u32 {
    unsafe { sys::guovssalu_u64_to_f32(n) }
}

pub fn u64_to_f64(n: u64) -> u64 {
    unsafe { sys::guovssalu_u64_to_f64(n) }
}

pub fn f32_to_u64(bits: u32) -> u64 {
    unsafe { sys::guovssalu_f32_to_u64(bits) }
}

pub fn f64_round_to_u64(bits: u64) -> u64 {
    unsafe { sys::guovssalu_f64_round_to_u64(bits) }
}

pub fn scale(n: u64, gain: u32) -> u64 {
    unsafe { sys::guovssalu_scale(n, gain) }
}

pub fn bandwidth_mul_f32(bandwidth: u64, gain: u32) -> u64 {
    unsafe { sys::guovssalu_bandwidth_mul_f32(bandwidth, gain) }
}

pub fn to_bytes_per_period(bandwidth: u64, nanos: u64) -> u64 {
    unsafe { sys::guovssalu_to_bytes_per_period(bandwidth, nanos) }
}

pub fn raise_inflight_high_slope(rounds: u64, window: u64, out: &mut [u8]) -> u64 {
    unsafe { sys::guovssalu_raise_inflight_high_slope(rounds, window, out.as_mut_ptr(), out.len()) }
}

pub fn filter_run(window: u64, src: &[u8], out: &mut [u8]) -> u64 {
    let (from, length) = (src.as_ptr(), src.len());
    unsafe { sys::guovssalu_filter_run(window, from, length, out.as_mut_ptr(), out.len()) }
}

pub fn run(state: &mut [u8], calls: &[u8], answers: &mut [u8]) -> u64 {
    unsafe {
        sys::guovssalu_run(
            state.as_mut_ptr(),
            state.len(),
            calls.as_ptr(),
            calls.len(),
            answers.as_mut_ptr(),
            answers.len(),
        )
    }
}

pub fn run_lists(state: &mut [u8], calls: &[u8], lists: &[u64], answers: &mut [u8]) -> u64 {
    unsafe {
        sys::guovssalu_run_lists(
            state.as_mut_ptr(),
            state.len(),
            calls.as_ptr(),
            calls.len(),
            lists.as_ptr(),
            lists.len(),
            answers.as_mut_ptr(),
            answers.len(),
        )
    }
}

pub fn rtt_run(state: &mut [u8], calls: &[u8], answers: &mut [u8]) -> u64 {
    unsafe {
        sys::guovssalu_rtt_run(
            state.as_mut_ptr(),
            state.len(),
            calls.as_ptr(),
            calls.len(),
            answers.as_mut_ptr(),
            answers.len(),
        )
    }
}
