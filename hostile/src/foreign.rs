//! The calls of a port. Outside the tests only they and pages.rs are unsafe.

use guovssalu_sys::table::WORD_BYTES;

use crate::lent::Ground;

pub type Run = unsafe extern "C" fn(*mut u8, usize, *const u8, usize, *mut u8, usize) -> u64;
pub type RunLists = unsafe extern "C" fn(
    *mut u8,
    usize,
    *const u8,
    usize,
    *const u64,
    usize,
    *mut u8,
    usize,
) -> u64;
pub type FilterRun = unsafe extern "C" fn(u64, *const u8, usize, *mut u8, usize) -> u64;
pub type Slope = unsafe extern "C" fn(u64, u64, *mut u8, usize) -> u64;

/// The exported calls of include/guovssalu.h, in its order: the archive's, or another's in a test.
#[derive(Clone, Copy)]
pub struct Port {
    pub u64_to_f32: unsafe extern "C" fn(u64) -> u32,
    pub u64_to_f64: unsafe extern "C" fn(u64) -> u64,
    pub f32_to_u64: unsafe extern "C" fn(u32) -> u64,
    pub f64_round_to_u64: unsafe extern "C" fn(u64) -> u64,
    pub scale: unsafe extern "C" fn(u64, u32) -> u64,
    pub bandwidth_mul_f32: unsafe extern "C" fn(u64, u32) -> u64,
    pub to_bytes_per_period: unsafe extern "C" fn(u64, u64) -> u64,
    pub raise_inflight_high_slope: Slope,
    pub filter_run: FilterRun,
    pub run: Run,
    pub run_lists: RunLists,
    pub rtt_run: Run,
}

// SAFETY, for all calls: on numbers they take any. On bytes they take ranges that may be read and
// written and don't overlap: each is of a ground of its own, borrowed until the call returns. Calls
// and lists are only read, and may be one; the ground of lists lends words.
impl Port {
    pub fn u64_to_f32(&self, n: u64) -> u32 {
        unsafe { (self.u64_to_f32)(n) }
    }

    pub fn u64_to_f64(&self, n: u64) -> u64 {
        unsafe { (self.u64_to_f64)(n) }
    }

    pub fn f32_to_u64(&self, bits: u32) -> u64 {
        unsafe { (self.f32_to_u64)(bits) }
    }

    pub fn f64_round_to_u64(&self, bits: u64) -> u64 {
        unsafe { (self.f64_round_to_u64)(bits) }
    }

    pub fn scale(&self, n: u64, gain: u32) -> u64 {
        unsafe { (self.scale)(n, gain) }
    }

    pub fn bandwidth_mul_f32(&self, bandwidth: u64, gain: u32) -> u64 {
        unsafe { (self.bandwidth_mul_f32)(bandwidth, gain) }
    }

    pub fn bytes_per_period(&self, bandwidth: u64, nanos: u64) -> u64 {
        unsafe { (self.to_bytes_per_period)(bandwidth, nanos) }
    }

    pub fn slope(&self, rounds: u64, window: u64, out: &mut Ground) -> u64 {
        unsafe { (self.raise_inflight_high_slope)(rounds, window, out.pointer(), out.len()) }
    }

    pub fn filter_run(&self, window: u64, src: &mut Ground, out: &mut Ground) -> u64 {
        unsafe { (self.filter_run)(window, src.pointer(), src.len(), out.pointer(), out.len()) }
    }

    pub fn run(&self, state: &mut Ground, calls: &mut Ground, answers: &mut Ground) -> u64 {
        let (s, c, a) = (state.pointer(), calls.pointer(), answers.pointer());
        unsafe { (self.run)(s, state.len(), c, calls.len(), a, answers.len()) }
    }

    pub fn run_lists(
        &self,
        state: &mut Ground,
        calls: &mut Ground,
        lists: &mut Ground,
        answers: &mut Ground,
    ) -> u64 {
        let (start, words) = (lists.pointer(), lists.len() / WORD_BYTES);
        let (s, c, a) = (state.pointer(), calls.pointer(), answers.pointer());
        let (state, calls, answers) = (state.len(), calls.len(), answers.len());
        unsafe { (self.run_lists)(s, state, c, calls, start as *const u64, words, a, answers) }
    }

    /// The same where the calls' range is that of the lists, too.
    pub fn run_lists_in_calls(
        &self,
        state: &mut Ground,
        both: &mut Ground,
        answers: &mut Ground,
    ) -> u64 {
        let (start, words) = (both.pointer(), both.len() / WORD_BYTES);
        let (s, a) = (state.pointer(), answers.pointer());
        let (state, calls, answers) = (state.len(), both.len(), answers.len());
        let lists = start as *const u64;
        unsafe { (self.run_lists)(s, state, start, calls, lists, words, a, answers) }
    }

    pub fn rtt_run(&self, state: &mut Ground, calls: &mut Ground, answers: &mut Ground) -> u64 {
        let (s, c, a) = (state.pointer(), calls.pointer(), answers.pointer());
        unsafe { (self.rtt_run)(s, state.len(), c, calls.len(), a, answers.len()) }
    }
}
