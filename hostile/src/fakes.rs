//! A port that is not the archive's and replies as the table says, of which the wrong ones are made that
//! the checks must notice. They must find it right.

use std::env;
use std::os::unix::process::ExitStatusExt;
use std::process::Command;
use std::slice;

use guovssalu_sys::table::reason;
use guovssalu_sys::table::samples;
use guovssalu_sys::table::PAIR_BYTES;
use guovssalu_sys::table::SLOPE_BYTES;

use crate::after;
use crate::cases::random;
use crate::cases::sweep;
use crate::estimator;
use crate::estimator::Step;
use crate::events::Sweep;
use crate::filter;
use crate::filter::Samples;
use crate::foreign::FilterRun;
use crate::foreign::Port;
use crate::foreign::Run;
use crate::foreign::RunLists;
use crate::model::Model;
use crate::pages::page;
use crate::reckon;
use crate::slope;
use crate::table;
use crate::table::Rows;
use crate::tally::Fault;
use crate::tally::Tally;
use crate::trial::Trial;
use crate::words;
use crate::words::Answer;
use crate::words::Call;
use crate::words::RttAnswer;
use crate::words::RttCall;
use crate::words::RttState;
use crate::words::State;

/// A port that is right by what is known beforehand.
pub const RIGHT: Port = Port {
    u64_to_f32,
    u64_to_f64,
    f32_to_u64,
    f64_round_to_u64,
    scale,
    bandwidth_mul_f32,
    to_bytes_per_period,
    raise_inflight_high_slope,
    filter_run,
    run,
    run_lists,
    rtt_run,
};

/// The tests' seed and how many calls each makes.
pub const SEED: u64 = 11;
const CALLS: u64 = 40_000;

pub unsafe extern "C" fn u64_to_f32(n: u64) -> u32 {
    (n as f32).to_bits()
}

unsafe extern "C" fn u64_to_f64(n: u64) -> u64 {
    (n as f64).to_bits()
}

unsafe extern "C" fn f32_to_u64(bits: u32) -> u64 {
    f32::from_bits(bits) as u64
}

unsafe extern "C" fn f64_round_to_u64(bits: u64) -> u64 {
    f64::from_bits(bits).round() as u64
}

unsafe extern "C" fn scale(n: u64, gain: u32) -> u64 {
    reckon::scale(n, f32::from_bits(gain))
}

unsafe extern "C" fn bandwidth_mul_f32(bandwidth: u64, gain: u32) -> u64 {
    reckon::bandwidth_mul(bandwidth, f32::from_bits(gain))
}

unsafe extern "C" fn to_bytes_per_period(bandwidth: u64, nanos: u64) -> u64 {
    reckon::bytes_per_period(bandwidth, nanos)
}

/// Where a range begins, and how many bytes it has.
pub type Range = (*mut u8, usize);

/// A lent range as a slice; without bytes the pointer is not used.
pub unsafe fn lent<'a>((start, len): Range) -> &'a mut [u8] {
    if len == 0 {
        &mut []
    } else {
        slice::from_raw_parts_mut(start, len)
    }
}

/// Where lists begin, and how many words they have.
pub type Words = (*const u64, usize);

/// Lent lists as a slice; without words the pointer is not used.
pub unsafe fn lent_words<'a>((start, len): Words) -> &'a [u64] {
    if len == 0 {
        &[]
    } else {
        slice::from_raw_parts(start, len)
    }
}

pub unsafe extern "C" fn raise_inflight_high_slope(
    rounds: u64,
    window: u64,
    out: *mut u8,
    out_len: usize,
) -> u64 {
    let reply = slope::rows(rounds, window, out_len).reply();
    if reply == 0 {
        lent((out, out_len))[..SLOPE_BYTES].copy_from_slice(&slope::written(rounds, window));
    }
    reply
}

/// An exported filter run, for each number of a kind if it is for several: what is done with the
/// window and the two ranges, and the reply.
macro_rules! exported_filter {
    ($name:ident $(<$kind:ident>)?, |$window:ident, $src:ident, $out:ident| $reply:expr) => {
        unsafe extern "C" fn $name $(<const $kind: usize>)? (
            window: u64,
            src: *const u8,
            src_len: usize,
            out: *mut u8,
            out_len: usize,
        ) -> u64 {
            let ($window, $src, $out) = (window, (src as *mut u8, src_len), (out, out_len));
            $reply
        }
    };
}
pub(crate) use exported_filter;

exported_filter!(filter_run, |window, src, out| {
    filter_by(|update| update.due, window, lent(src), lent(out))
});

/// An update of a filter run: what was written before it, the new sample, and what is due.
pub struct Update {
    pub before: Option<Samples>,
    pub sample: u64,
    pub due: Samples,
}

impl Update {
    /// The reason that is due.
    pub fn reason(&self) -> u64 {
        self.due[samples::REASON]
    }
}

/// A filter run that writes for each update what a function makes of it.
pub fn filter_by(one: impl Fn(&Update) -> Samples, window: u64, src: &[u8], out: &mut [u8]) -> u64 {
    let (rows, due) = filter::due(window, src, out.len());
    let mut before = None;
    let mut written = Vec::new();
    for (pair, due) in src.chunks_exact(PAIR_BYTES).zip(due) {
        let [_, sample] = words::words(pair);
        written.extend(one(&Update {
            before,
            sample,
            due,
        }));
        before = Some(due);
    }
    write_if_done(&rows, &written, out)
}

/// Writes the words of a filter run that no row refuses, and replies.
pub fn write_if_done(rows: &Rows, written: &[u64], out: &mut [u8]) -> u64 {
    if rows.due() == 0 {
        let written = words::bytes(written);
        out[..written.len()].copy_from_slice(&written);
    }
    rows.reply()
}

/// An exported run, for each number of a kind if it is for several: what is done with the three
/// ranges, and the reply.
macro_rules! exported_run {
    ($name:ident $(<$kind:ident>)?, |$state:ident, $calls:ident, $answers:ident| $reply:expr) => {
        unsafe extern "C" fn $name $(<const $kind: usize>)? (
            state: *mut u8,
            state_len: usize,
            calls: *const u8,
            calls_len: usize,
            answers: *mut u8,
            answers_len: usize,
        ) -> u64 {
            let $state = (state, state_len);
            let $calls = (calls as *mut u8, calls_len);
            let $answers = (answers, answers_len);
            $reply
        }
    };
}
pub(crate) use exported_run;

exported_run!(run, |state, calls, answers| {
    run_by(step, lent(state), lent(calls), lent(answers))
});

/// An exported run with lists, in the same way.
macro_rules! exported_lists {
    ($name:ident $(<$kind:ident>)?, |$state:ident, $calls:ident, $lists:ident, $answers:ident|
        $reply:expr) => {
        unsafe extern "C" fn $name $(<const $kind: usize>)? (
            state: *mut u8,
            state_len: usize,
            calls: *const u8,
            calls_len: usize,
            lists: *const u64,
            lists_len: usize,
            answers: *mut u8,
            answers_len: usize,
        ) -> u64 {
            let $state = (state, state_len);
            let $calls = (calls as *mut u8, calls_len);
            let $lists = (lists, lists_len);
            let $answers = (answers, answers_len);
            $reply
        }
    };
}
pub(crate) use exported_lists;

exported_lists!(run_lists, |state, calls, lists, answers| {
    let lists = lent_words(lists);
    let one = |state: &mut State, call: &Call| step_with(state, call, lists);
    run_by(one, lent(state), lent(calls), lent(answers))
});

/// A run that makes each of its calls by a function.
pub fn run_by(
    one: impl Fn(&mut State, &Call) -> Answer,
    state: &mut [u8],
    calls: &[u8],
    answers: &mut [u8],
) -> u64 {
    let reply = table::run_rows(state, calls, answers.len()).reply();
    if reply != 0 {
        return reply;
    }
    let mut now: State = words::words(state);
    let answers = answers.chunks_exact_mut(words::ANSWER_BYTES);
    for (call, answer) in calls.chunks_exact(words::CALL_BYTES).zip(answers) {
        answer.copy_from_slice(&words::bytes(&one(&mut now, &words::words(call))));
    }
    state.copy_from_slice(&words::bytes(&now));
    0
}

/// One call: its answer, and the state after it.
pub fn step(state: &mut State, call: &Call) -> Answer {
    step_with(state, call, &[])
}

/// One call of a run with lists.
pub fn step_with(state: &mut State, call: &Call, lists: &[u64]) -> Answer {
    let rows = table::call_rows(state, call, lists);
    step_by(&rows, state, call, lists)
}

/// One call, by the rows that are said to hold.
pub fn step_by(rows: &Rows, state: &mut State, call: &Call, lists: &[u64]) -> Answer {
    let reply = rows.reply();
    let answer = after::answer(state, call, lists, reply);
    *state = after::state(state, call, lists, reply);
    answer
}

exported_run!(rtt_run, |state, calls, answers| {
    rtt_by(rtt_step, lent(state), lent(calls), lent(answers))
});

/// A run of the estimator that makes each of its calls by a function.
pub fn rtt_by(
    one: impl Fn(&mut RttState, &RttCall) -> RttAnswer,
    state: &mut [u8],
    calls: &[u8],
    answers: &mut [u8],
) -> u64 {
    let reply = estimator::run_rows(state, calls, answers.len()).reply();
    if reply != 0 {
        return reply;
    }
    let mut now: RttState = words::words(state);
    let answers = answers.chunks_exact_mut(words::RTT_ANSWER_BYTES);
    for (call, answer) in calls.chunks_exact(words::RTT_CALL_BYTES).zip(answers) {
        answer.copy_from_slice(&words::bytes(&one(&mut now, &words::words(call))));
    }
    state.copy_from_slice(&words::bytes(&now));
    0
}

/// One call on the estimator.
pub fn rtt_step(state: &mut RttState, call: &RttCall) -> RttAnswer {
    let step = Step::new(state, call);
    *state = step.after;
    step.answer
}

/// Flips a bit of the byte at a place.
pub unsafe fn flip(start: *mut u8, place: usize) {
    *start.add(place) ^= 0x10;
}

/// Flips a bit of the byte just after a range, where it may be written.
pub unsafe fn flip_after((start, len): Range) {
    if len > 0 && (start as usize + len) % page() != 0 {
        flip(start, len);
    }
}

/// Flips a bit of the byte just before a range, where it may be written.
pub unsafe fn flip_before((start, len): Range) {
    if len > 0 && start as usize % page() != 0 {
        flip(start.sub(1), 0);
    }
}

/// What the checks find of a port.
pub fn found(port: Port) -> Tally {
    let mut trial = Trial::new(&port, SEED);
    random(&mut trial, CALLS);
    trial.tally
}

/// Whether the checks notice this fault of a port by chance.
pub fn notices(port: Port, fault: Fault) -> bool {
    let mut trial = Trial::new(&port, SEED);
    (1..=10).any(|tenth| {
        random(&mut trial, CALLS / 10 * tenth);
        trial.tally.count(fault) > 0
    })
}

/// Whether they notice it when they sweep these cases of events.
fn notices_swept(port: Port, fault: Fault, sweeps: &[Sweep]) -> bool {
    let (mut trial, mut model) = (Trial::new(&port, SEED), Model::new());
    sweeps.iter().any(|sweep| {
        sweep(&mut model, &mut trial);
        trial.tally.count(fault) > 0
    })
}

/// Fails for a run whose fault the checks don't notice.
pub fn assert_noticed(fault: Fault, runs: &[(&str, Run)]) {
    for &(name, run) in runs {
        assert!(notices(Port { run, ..RIGHT }, fault), "{}", name);
    }
}

/// Fails for a run with lists whose fault the checks don't notice by chance, or when they sweep these
/// cases of events.
pub fn assert_lists_noticed(fault: Fault, sweeps: &[Sweep], runs: &[(&str, RunLists)]) {
    for &(name, run_lists) in runs {
        let port = Port { run_lists, ..RIGHT };
        assert!(notices(port, fault), "{}", name);
        assert!(notices_swept(port, fault, sweeps), "{}, swept", name);
    }
}

/// Fails for a run whose fault the checks don't notice when they sweep these cases of events.
pub fn assert_noticed_swept(fault: Fault, sweeps: &[Sweep], runs: &[(&str, Run)]) {
    for &(name, run) in runs {
        let port = Port { run, ..RIGHT };
        assert!(notices_swept(port, fault, sweeps), "{}, swept", name);
    }
}

/// Fails for a filter run whose fault the checks don't notice.
pub fn assert_filter_noticed(fault: Fault, runs: &[(&str, FilterRun)]) {
    for &(name, filter_run) in runs {
        let port = Port {
            filter_run,
            ..RIGHT
        };
        assert!(notices(port, fault), "{}", name);
    }
}

#[test]
fn the_right_port_is_found_right() {
    let mut trial = Trial::new(&RIGHT, SEED);
    sweep(&mut trial);
    let swept = trial.tally.made();
    random(&mut trial, swept + CALLS);
    assert_eq!(trial.tally.wrongs(), 0, "{}", trial.tally.report());
}

#[test]
fn everything_is_swept() {
    let mut trial = Trial::new(&RIGHT, SEED);
    sweep(&mut trial);
    assert_eq!(trial.tally.missing(), [""; 0], "{}", trial.tally.report());
}

#[test]
fn everything_is_asked_for_by_chance() {
    let mut trial = Trial::new(&RIGHT, SEED);
    random(&mut trial, 2 * CALLS);
    let tally = trial.tally;
    assert_eq!(tally.fewer_than(20), [""; 0], "{}", tally.report());
    assert!(tally.outside() > 50);
}

#[test]
fn every_reason_is_asked_for() {
    let tally = found(RIGHT);
    for reason in reason::ALL_REPLACED..=reason::UNCHANGED {
        assert!(tally.due(reason) > 50, "{}", reason);
    }
}

#[test]
fn what_was_not_asked_for_is_told() {
    let tally = Tally::default();
    assert!(tally.report().contains("not reached: guovssalu_run, 7\n"));
    assert!(tally.report().ends_with(" not reached\n"));
}

/// Fails for a test that doesn't end its process by a signal.
pub fn assert_ends_the_process(names: &[&str]) {
    for name in names {
        let tests = env::current_exe().expect("the tests have a path");
        let ended = Command::new(tests)
            .args(["--ignored", "--exact", name])
            .output()
            .expect("the tests can be started");
        let signal = ended.status.signal();
        assert!(signal.is_some(), "{} {:?}", name, ended.status);
    }
}
