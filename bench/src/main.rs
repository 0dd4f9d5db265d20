//! Times the port beside the original, in one process and on the same inputs: both sides by turns,
//! the best of many. docs/BENCHMARKS.md has what was seen.
//!
//! With `--once` it runs each side of each case once and prints the names and items alone, for a tool
//! that counts instructions (tests/instructions.py).

mod empty;
mod inputs;
#[path = "../../oracle/src/model.rs"]
#[allow(dead_code)]
mod model;
mod original;
mod port;
mod runs;
#[path = "../../oracle/src/values.rs"]
#[allow(dead_code)]
mod values;

include!(concat!(env!("OUT_DIR"), "/original.rs"));

use std::env;
use std::hint::black_box;
use std::time::Instant;

use guovssalu::Duration;
use guovssalu::Params;
use guovssalu::Samples;
use inputs::Numbers;
use inputs::Step;
use inputs::Trace;
use inputs::Updates;
use original::Original;
use recovery::bandwidth::Bandwidth;
use runs::Calls;

/// Named by gcongestion/mod.rs of the original.
#[derive(Debug)]
pub enum Error {
    CongestionControl,
}

/// How often each side of a case is run.
const TIMES: usize = 300;

/// Calls in a trace or to an estimator, and pairs in a filter's run.
const CALLS: usize = 1_024;
const PAIRS: usize = 65_536;

fn main() {
    if !is_once() {
        println!("{:52} {:>10} {:>10} {:>6}", "", "port", "original", "ratio");
    }
    each(
        "an empty call",
        |n| empty::exported(n as u64),
        |n| empty::rust(n as u64),
    );
    for bits in [24, 40, 64] {
        numbers(bits);
    }
    filter();
    let (name, updates) = ("an rtt update", Updates::new(CALLS));
    one_run(name, &updates);
    runs_of_one(name, &updates);
    updates_one_by_one(name, &updates);
    for (name, trace) in [
        ("a send", Trace::sends(CALLS)),
        ("an event or its finish", Trace::events(CALLS)),
        ("two sends, an event, its finish", Trace::connection(CALLS)),
    ] {
        one_run(name, &trace);
        runs_of_one(name, &trace);
        one_by_one(name, &trace);
    }
}

/// Whether each side is to be run once, to be counted.
fn is_once() -> bool {
    env::args().any(|word| word == "--once")
}

/// Runs both sides by turns and prints the best time of each, for one item in nanoseconds. Words given
/// to the program leave out the cases that don't have them in their name.
fn compare(name: &str, items: usize, mut port: impl FnMut(), mut original: impl FnMut()) {
    let mut words = env::args().skip(1).filter(|word| word != "--once");
    if words.any(|word| !name.contains(&word)) {
        port();
        original();
        return;
    }
    if is_once() {
        counted(&mut port);
        counted(&mut original);
        println!("{items}\t{name}");
        return;
    }
    let mut best = [f64::MAX; 2];
    for _ in 0..TIMES {
        best[0] = best[0].min(time(&mut port));
        best[1] = best[1].min(time(&mut original));
    }
    let [port, original] = best.map(|nanos| nanos / items as f64);
    let ratio = port / original;
    println!("{name:52} {port:7.2} ns {original:7.2} ns {ratio:6.2}");
}

fn time(run: &mut impl FnMut()) -> f64 {
    let began = Instant::now();
    run();
    began.elapsed().as_nanos() as f64
}

/// What is counted is what happens in here; its name is what the counting tool looks for.
#[no_mangle]
#[inline(never)]
fn counted(run: &mut dyn FnMut()) {
    run();
}

/// The functions on single numbers, for numbers of so many bits at most.
fn numbers(bits: u32) {
    let Numbers {
        whole,
        gains,
        nanos,
    } = Numbers::new(bits);
    let singles: Vec<f32> = whole.iter().map(|&n| n as f32 * 0.7).collect();
    let doubles: Vec<f64> = whole.iter().map(|&n| n as f64 * 0.7).collect();
    let speed = |n: usize| Bandwidth::from_bits_per_second(whole[n]);
    let port_speed = |n: usize| guovssalu::Bandwidth::from_bits_per_second(whole[n]);

    each(
        &format!("u64_to_f32, {bits} bits"),
        |n| guovssalu::u64_to_f32(whole[n]),
        |n| original::numbers::u64_to_f32(whole[n]),
    );
    each(
        &format!("u64_to_f64, {bits} bits"),
        |n| guovssalu::u64_to_f64(whole[n]),
        |n| original::numbers::u64_to_f64(whole[n]),
    );
    each(
        &format!("f32_to_u64, {bits} bits"),
        |n| guovssalu::f32_to_u64(singles[n]),
        |n| original::numbers::f32_to_u64(singles[n]),
    );
    each(
        &format!("f64_round_to_u64, {bits} bits"),
        |n| guovssalu::f64_round_to_u64(doubles[n]),
        |n| original::numbers::f64_round_to_u64(doubles[n]),
    );
    each(
        &format!("scale, {bits} bits"),
        |n| guovssalu::scale(whole[n], gains[n]),
        |n| original::numbers::scale(whole[n], gains[n]),
    );
    each(
        &format!("bandwidth product, {bits} bits"),
        |n| (port_speed(n) * gains[n]).to_bits_per_second(),
        |n| original::numbers::bandwidth_mul_f32(speed(n), gains[n]).to_bits_per_second(),
    );
    each(
        &format!("to_bytes_per_period, {bits} bits"),
        |n| port_speed(n).to_bytes_per_period(Duration::from_nanos(nanos[n])),
        |n| original::numbers::to_bytes_per_period(speed(n), nanos[n]),
    );
}

/// A function of both sides on each of the numbers, one call for each.
fn each<T: PartialEq>(name: &str, port: impl Fn(usize) -> T, original: impl Fn(usize) -> T) {
    let all = 0..Numbers::COUNT;
    assert!(
        all.clone().all(|n| port(n) == original(n)),
        "{name} differs."
    );
    compare(
        name,
        Numbers::COUNT,
        || {
            for n in all.clone() {
                black_box(port(n));
            }
        },
        || {
            for n in all.clone() {
                black_box(original(n));
            }
        },
    );
}

/// A long run of the windowed filter, in one call. The port writes four words for a pair, the original,
/// which says no reason, the three samples.
fn filter() {
    const WINDOW: u64 = 30;
    let pairs = inputs::pairs(PAIRS);
    let mut port = vec![0; Samples::BYTES * PAIRS];
    let mut original = vec![0; original::SAMPLES_BYTES * PAIRS];
    compare(
        "filter update, one run",
        PAIRS,
        || guovssalu::filter_run(WINDOW, &pairs, &mut port).unwrap(),
        || original::filter_run(WINDOW, &pairs, &mut original),
    );
    let of_original = original.chunks_exact(original::SAMPLES_BYTES);
    for (port, original) in port.chunks_exact(Samples::BYTES).zip(of_original) {
        assert!(port[..original.len()] == *original, "The filters differ.");
        assert!(Samples::from_bytes(port).is_ok(), "This is no reason.");
    }
}

/// Calls in one run over bytes.
fn one_run<C: Calls>(name: &str, given: &C) {
    let mut state = given.state().to_vec();
    let mut port = vec![1; C::ANSWER_BYTES * given.count()];
    let mut original = port.clone();
    let mut model = given.original();
    compare(
        &format!("{name}: one run over bytes"),
        given.count(),
        || {
            state.copy_from_slice(given.state());
            C::port(&mut state, given.calls(), &mut port).unwrap();
        },
        || {
            model = given.original();
            model.run(given.calls(), &mut original);
        },
    );
    assert!(port == original, "The answers differ.");
    assert!(state == model.state(), "The states differ.");
}

/// Calls over bytes, in a run for each.
fn runs_of_one<C: Calls>(name: &str, given: &C) {
    let mut state = given.state().to_vec();
    let mut port = vec![1; C::ANSWER_BYTES * given.count()];
    let mut original = port.clone();
    let mut model = given.original();
    let calls = || given.calls().chunks_exact(C::CALL_BYTES);
    compare(
        &format!("{name}: runs of one call"),
        given.count(),
        || {
            state.copy_from_slice(given.state());
            for (call, answer) in calls().zip(port.chunks_exact_mut(C::ANSWER_BYTES)) {
                C::port(&mut state, call, answer).unwrap();
            }
        },
        || {
            model = given.original();
            for (call, answer) in calls().zip(original.chunks_exact_mut(C::ANSWER_BYTES)) {
                model.run(call, answer);
            }
        },
    );
    assert!(port == original, "The answers differ.");
    assert!(state == model.state(), "The states differ.");
}

/// Updates one at a time, each side with its own types.
fn updates_one_by_one(name: &str, updates: &Updates) {
    let port_updates = updates.typed(Duration::from_nanos);
    let original_updates = updates.typed(std::time::Duration::from_nanos);
    let mut port = port::estimator();
    let mut original = updates.original();
    compare(
        &format!("{name}: one by one"),
        updates.count(),
        || {
            port = port::estimator();
            for &(latest, delay, confirmed) in &port_updates {
                port.update_rtt(latest, delay, confirmed).unwrap();
            }
        },
        || {
            original = updates.original();
            for &(latest, delay, confirmed) in &original_updates {
                original.update(latest, delay, confirmed);
            }
        },
    );
    assert!(
        port.as_bytes()[..] == original.state(),
        "The estimators differ."
    );
}

/// A trace one call at a time, each side with its own types.
fn one_by_one(name: &str, trace: &Trace) {
    let params = Params::default();
    let steps: Vec<port::Step> = trace.steps.iter().map(port::Step::of).collect();
    let mut port = port::fresh(&params);
    let mut original = original::Model::new(&trace.start);
    compare(
        &format!("{name}: one by one"),
        trace.count(),
        || {
            port = port::fresh(&params);
            port::make(&mut port, &params, &steps);
        },
        || {
            original = original::Model::new(&trace.start);
            for step in &trace.steps {
                match step {
                    Step::Send(numbers) => original.send(*numbers),
                    Step::Event(record, sample) => {
                        black_box(original.event(record, sample));
                        original.finish();
                    }
                }
            }
        },
    );
    let state = original.state();
    assert!(
        port.as_bytes()[..] == state[..port.as_bytes().len()],
        "The models differ."
    );
}
