//! Ports that are wrong about the round-trip estimator, in one way each: here about its
//! averages, about how a sample is adjusted, or about what else a sample leaves. The checks must notice
//! all, by chance and when they sweep.

use guovssalu_sys::table::rtt_answer as a;
use guovssalu_sys::table::rtt_argument::update_rtt as sample;
use guovssalu_sys::table::rtt_call as calls;
use guovssalu_sys::table::rtt_state as s;
use guovssalu_sys::table::RTT_NUMBER_IN_CALL as NUMBER;

use crate::estimator;
use crate::fakes::exported_run;
use crate::fakes::lent;
use crate::fakes::rtt_by;
use crate::fakes::rtt_step;
use crate::fakes::RIGHT;
use crate::fakes::SEED;
use crate::foreign::Port;
use crate::foreign::Run;
use crate::reckon;
use crate::rtt::Rtt;
use crate::tally::Fault;
use crate::trial::Trial;
use crate::trips;
use crate::trips::Sweep;
use crate::trips::SWEEPS;
use crate::words::yes;
use crate::words::RttAnswer;
use crate::words::RttCall;
use crate::words::RttState;

/// So many runs of the estimator chance makes for a port: no more than other ports get in their calls.
const RUNS: u32 = 3_200;

/// Whether the checks notice this fault of a port by chance.
fn notices(port: Port, fault: Fault) -> bool {
    let (mut trial, mut rtt) = (Trial::new(&port, SEED), Rtt::new());
    (0..RUNS).any(|_| {
        rtt.case(&mut trial);
        trial.tally.count(fault) > 0
    })
}

/// Whether they notice it when they sweep these runs of the estimator.
fn notices_swept(port: Port, fault: Fault, sweeps: &[Sweep]) -> bool {
    let (mut trial, mut rtt) = (Trial::new(&port, SEED), Rtt::new());
    sweeps.iter().any(|sweep| {
        sweep(&mut rtt, &mut trial);
        trial.tally.count(fault) > 0
    })
}

/// Fails for a run whose fault the checks don't notice by chance, or when they sweep.
pub fn assert_noticed(fault: Fault, runs: &[(&str, Run)]) {
    for &(name, rtt_run) in runs {
        let port = Port { rtt_run, ..RIGHT };
        assert!(notices(port, fault), "{}", name);
        assert!(notices_swept(port, fault, &SWEEPS), "{}, swept", name);
    }
}

/// Fails for a sweep that doesn't notice by itself the fault of a run that it is made for.
pub fn assert_notices(fault: Fault, sweeps: &[(&str, Sweep, Run)]) {
    for &(name, sweep, rtt_run) in sweeps {
        let port = Port { rtt_run, ..RIGHT };
        assert!(notices_swept(port, fault, &[sweep]), "{}", name);
    }
}

/// A run for each line of a table, made by a function that is for several.
macro_rules! each {
    ($table:ident, $run:ident, $($way:literal)*) => {{
        let runs = [$(($table[$way].0, $run::<$way> as Run)),*];
        assert_eq!(runs.len(), $table.len());
        runs
    }};
}
pub(crate) use each;

/// A run that makes each call by a function, which changes the estimator and answers.
macro_rules! makes {
    ($name:ident <$kind:ident>, |$now:ident, $call:ident| $answer:expr) => {
        exported_run!($name<$kind>, |state, calls, answers| {
            let one = |$now: &mut RttState, $call: &RttCall| -> RttAnswer { $answer };
            rtt_by(one, lent(state), lent(calls), lent(answers))
        });
    };
}
pub(crate) use makes;

/// Whether a call is a sample that is taken, and not the first.
pub fn is_later(before: &RttState, call: &RttCall, reply: u64) -> bool {
    is_sample(call, reply) && estimator::has_sample(before)
}

/// Whether it is the first.
fn is_first(before: &RttState, call: &RttCall, reply: u64) -> bool {
    is_sample(call, reply) && !estimator::has_sample(before)
}

fn is_sample(call: &RttCall, reply: u64) -> bool {
    call[NUMBER] == calls::UPDATE_RTT && reply == 0
}

/// What a wrong port changes after a call. It gets the estimator before it, the call and its reply.
pub type Change = fn(&RttState, &RttCall, u64, &mut RttState);

/// The right call with something changed after it, and the answer to that.
pub fn changed(change: Change, now: &mut RttState, call: &RttCall) -> RttAnswer {
    let before = *now;
    let reply = rtt_step(now, call)[a::REPLY];
    change(&before, call, reply, now);
    estimator::answer(now, reply)
}

/// What a wrong port makes of the averages. It gets the estimator before a later sample, that, what it is
/// adjusted to, and what the right port leaves.
type Average = fn(&RttState, &RttCall, u64, &mut RttState);

const AVERAGES: [(&str, Average); 17] = [
    ("smoothed first", |before, _, adjusted, after| {
        let smoothed = after[s::SMOOTHED_RTT];
        after[s::RTTVAR] = reckon::variation(before[s::RTTVAR], smoothed, adjusted);
    }),
    ("one rounding", |before, _, adjusted, after| {
        after[s::SMOOTHED_RTT] = (7 * before[s::SMOOTHED_RTT] + adjusted) / 8;
    }),
    ("less an eighth", |before, _, adjusted, after| {
        let smoothed = before[s::SMOOTHED_RTT];
        after[s::SMOOTHED_RTT] = smoothed - smoothed / 8 + adjusted / 8;
    }),
    ("to the nearest", |before, _, adjusted, after| {
        after[s::SMOOTHED_RTT] = (7 * before[s::SMOOTHED_RTT] + adjusted + 4) / 8;
    }),
    ("the sample's eighth up", |before, _, adjusted, after| {
        after[s::SMOOTHED_RTT] = 7 * before[s::SMOOTHED_RTT] / 8 + (adjusted + 7) / 8;
    }),
    ("the other's eighth up", |before, _, adjusted, after| {
        after[s::SMOOTHED_RTT] = (7 * before[s::SMOOTHED_RTT] + 7) / 8 + adjusted / 8;
    }),
    ("an eighth for seven", |before, _, adjusted, after| {
        after[s::SMOOTHED_RTT] = before[s::SMOOTHED_RTT] / 8 * 7 + adjusted / 8;
    }),
    ("smoothed by the whole sample", |before, call, _, after| {
        let latest = call[sample::LATEST_RTT];
        after[s::SMOOTHED_RTT] = reckon::smoothed(before[s::SMOOTHED_RTT], latest);
    }),
    ("smoothed kept", |before, _, _, after| {
        after[s::SMOOTHED_RTT] = before[s::SMOOTHED_RTT];
    }),
    ("smoothed of 32 bits", |before, _, adjusted, after| {
        let part = (7 * before[s::SMOOTHED_RTT]) as u32 / 8;
        after[s::SMOOTHED_RTT] = part as u64 + adjusted / 8;
    }),
    ("one rounding of rttvar", |before, _, adjusted, after| {
        let apart = before[s::SMOOTHED_RTT].abs_diff(adjusted);
        after[s::RTTVAR] = (3 * before[s::RTTVAR] + apart) / 4;
    }),
    ("rttvar less a quarter", |before, _, adjusted, after| {
        let (rttvar, apart) = (
            before[s::RTTVAR],
            before[s::SMOOTHED_RTT].abs_diff(adjusted),
        );
        after[s::RTTVAR] = rttvar - rttvar / 4 + apart / 4;
    }),
    (
        "the deviation's quarter up",
        |before, _, adjusted, after| {
            let apart = before[s::SMOOTHED_RTT].abs_diff(adjusted);
            after[s::RTTVAR] = 3 * before[s::RTTVAR] / 4 + (apart + 3) / 4;
        },
    ),
    ("no deviation upwards", |before, _, adjusted, after| {
        let apart = before[s::SMOOTHED_RTT].saturating_sub(adjusted);
        after[s::RTTVAR] = 3 * before[s::RTTVAR] / 4 + apart / 4;
    }),
    ("no deviation downwards", |before, _, adjusted, after| {
        let apart = adjusted.saturating_sub(before[s::SMOOTHED_RTT]);
        after[s::RTTVAR] = 3 * before[s::RTTVAR] / 4 + apart / 4;
    }),
    ("deviation of the whole sample", |before, call, _, after| {
        let (smoothed, latest) = (before[s::SMOOTHED_RTT], call[sample::LATEST_RTT]);
        after[s::RTTVAR] = reckon::variation(before[s::RTTVAR], smoothed, latest);
    }),
    ("rttvar kept", |before, _, _, after| {
        after[s::RTTVAR] = before[s::RTTVAR];
    }),
];

makes!(averages<WAY>, |now, call| {
    let before = *now;
    let reply = rtt_step(now, call)[a::REPLY];
    if is_later(&before, call, reply) {
        let adjusted = estimator::adjusted(&before, call);
        AVERAGES[WAY].1(&before, call, adjusted, now);
    }
    estimator::answer(now, reply)
});

#[test]
fn other_averages_are_noticed() {
    let runs = each!(AVERAGES, averages, 0 1 2 3 4 5 6 7 8 9 10 11 12 13 14 15 16);
    assert_noticed(Fault::Content, &runs);
}

/// What a wrong port adjusts a later sample to.
type Adjust = fn(&RttState, &RttCall) -> u64;

/// The sample, its delay, the limit of that, and the minimum with the sample in it.
fn parts(before: &RttState, call: &RttCall) -> [u64; 4] {
    let latest = call[sample::LATEST_RTT];
    let minimum = before[s::MIN_RTT].min(latest);
    [
        latest,
        call[sample::ACK_DELAY],
        before[s::MAX_ACK_DELAY],
        minimum,
    ]
}

const ADJUSTS: [(&str, Adjust); 15] = [
    ("above for at least", |before, call| {
        let [latest, .., minimum] = parts(before, call);
        let delay = estimator::delay(before, call);
        if latest > minimum + delay {
            latest - delay
        } else {
            latest
        }
    }),
    ("from one below", |before, call| {
        let [latest, .., minimum] = parts(before, call);
        let delay = estimator::delay(before, call);
        if latest + 1 >= minimum + delay {
            latest.saturating_sub(delay)
        } else {
            latest
        }
    }),
    ("the limit without the flag", |before, call| {
        let [_, delay, limit, _] = parts(before, call);
        estimator::without(before, call, delay.min(limit))
    }),
    ("no limit", |before, call| {
        estimator::without(before, call, call[sample::ACK_DELAY])
    }),
    ("the limit where not confirmed", |before, call| {
        let [_, delay, limit, _] = parts(before, call);
        let limited = !yes(call[sample::HANDSHAKE_CONFIRMED]);
        estimator::without(before, call, if limited { delay.min(limit) } else { delay })
    }),
    ("the limit for the delay", |before, call| {
        let [_, delay, limit, _] = parts(before, call);
        let limited = yes(call[sample::HANDSHAKE_CONFIRMED]);
        estimator::without(before, call, if limited { limit } else { delay })
    }),
    ("the limit from two above", |before, call| {
        let [_, delay, limit, _] = parts(before, call);
        let limited = yes(call[sample::HANDSHAKE_CONFIRMED]) && delay > limit + 1;
        estimator::without(before, call, if limited { limit } else { delay })
    }),
    ("no delay above the limit", |before, call| {
        let [_, delay, limit, _] = parts(before, call);
        let above = yes(call[sample::HANDSHAKE_CONFIRMED]) && delay > limit;
        estimator::without(before, call, if above { 0 } else { delay })
    }),
    ("never", |_, call| call[sample::LATEST_RTT]),
    ("always", |before, call| {
        call[sample::LATEST_RTT].saturating_sub(estimator::delay(before, call))
    }),
    ("where it is as long", |before, call| {
        let (latest, delay) = (call[sample::LATEST_RTT], estimator::delay(before, call));
        latest.checked_sub(delay).unwrap_or(latest)
    }),
    ("down to the minimum", |before, call| {
        let [latest, .., minimum] = parts(before, call);
        let left = latest.saturating_sub(estimator::delay(before, call));
        left.max(minimum)
    }),
    ("by the smoothed one", |before, call| {
        let (latest, delay) = (call[sample::LATEST_RTT], estimator::delay(before, call));
        if latest >= before[s::SMOOTHED_RTT] + delay {
            latest - delay
        } else {
            latest
        }
    }),
    ("tested with the whole delay", |before, call| {
        let [latest, delay, _, minimum] = parts(before, call);
        if latest >= minimum + delay {
            latest - estimator::delay(before, call)
        } else {
            latest
        }
    }),
    ("less the whole delay", |before, call| {
        let [latest, delay, _, minimum] = parts(before, call);
        if latest >= minimum + estimator::delay(before, call) {
            latest.saturating_sub(delay)
        } else {
            latest
        }
    }),
];

makes!(adjusts<WAY>, |now, call| {
    let before = *now;
    let reply = rtt_step(now, call)[a::REPLY];
    if is_later(&before, call, reply) {
        *now = estimator::later(&before, call, ADJUSTS[WAY].1(&before, call));
    }
    estimator::answer(now, reply)
});

#[test]
fn other_adjustments_are_noticed() {
    let runs = each!(ADJUSTS, adjusts, 0 1 2 3 4 5 6 7 8 9 10 11 12 13 14);
    assert_noticed(Fault::Content, &runs);
}

/// What the first sample leaves, and later ones beside the averages.
const SAMPLES: [(&str, Change); 14] = [
    ("the first adjusted", |before, call, reply, after| {
        if is_first(before, call, reply) {
            let left = call[sample::LATEST_RTT].saturating_sub(call[sample::ACK_DELAY]);
            after[s::SMOOTHED_RTT] = left;
            after[s::RTTVAR] = left / 2;
        }
    }),
    (
        "the first adjusted by the initial",
        |before, call, reply, after| {
            if is_first(before, call, reply) {
                let (latest, delay) = (call[sample::LATEST_RTT], estimator::delay(before, call));
                if latest >= before[s::MIN_RTT] + delay {
                    after[s::SMOOTHED_RTT] = latest - delay;
                }
            }
        },
    ),
    ("the first as a later one", |before, call, reply, after| {
        if is_first(before, call, reply) {
            *after = estimator::later(before, call, estimator::adjusted(before, call));
            after[s::HAS_FIRST_RTT_SAMPLE] = 1;
        }
    }),
    (
        "the initial in the minimum",
        |before, call, reply, after| {
            if is_first(before, call, reply) {
                after[s::MIN_RTT] = before[s::MIN_RTT].min(after[s::MIN_RTT]);
            }
        },
    ),
    ("half the first up", |before, call, reply, after| {
        if is_first(before, call, reply) {
            after[s::RTTVAR] = (call[sample::LATEST_RTT] + 1) / 2;
        }
    }),
    ("the first's rttvar kept", |before, call, reply, after| {
        if is_first(before, call, reply) {
            after[s::RTTVAR] = before[s::RTTVAR];
        }
    }),
    ("the first is none", |before, call, reply, after| {
        if is_first(before, call, reply) {
            after[s::HAS_FIRST_RTT_SAMPLE] = 0;
        }
    }),
    (
        "the first clears the limit",
        |before, call, reply, after| {
            if is_first(before, call, reply) {
                after[s::MAX_ACK_DELAY] = 0;
            }
        },
    ),
    (
        "the first is not the latest",
        |before, call, reply, after| {
            if is_first(before, call, reply) {
                after[s::LATEST_RTT] = before[s::LATEST_RTT];
            }
        },
    ),
    ("the latest kept", |before, call, reply, after| {
        if is_later(before, call, reply) {
            after[s::LATEST_RTT] = before[s::LATEST_RTT];
        }
    }),
    ("the latest adjusted", |before, call, reply, after| {
        if is_later(before, call, reply) {
            after[s::LATEST_RTT] = estimator::adjusted(before, call);
        }
    }),
    ("the minimum kept", |before, call, reply, after| {
        if is_later(before, call, reply) {
            after[s::MIN_RTT] = before[s::MIN_RTT];
        }
    }),
    ("the minimum is the latest", |before, call, reply, after| {
        if is_later(before, call, reply) {
            after[s::MIN_RTT] = call[sample::LATEST_RTT];
        }
    }),
    ("a delay raises the limit", |before, call, reply, after| {
        if is_sample(call, reply) {
            after[s::MAX_ACK_DELAY] = before[s::MAX_ACK_DELAY].max(call[sample::ACK_DELAY]);
        }
    }),
];

makes!(samples<WAY>, |now, call| changed(SAMPLES[WAY].1, now, call));

#[test]
fn other_samples_are_noticed() {
    let runs = each!(SAMPLES, samples, 0 1 2 3 4 5 6 7 8 9 10 11 12 13);
    assert_noticed(Fault::Content, &runs);
}

#[test]
fn sweeps_of_samples_notice_by_themselves() {
    let sweeps: [(&str, Sweep, Run); 4] = [
        ("each first", trips::each_first, samples::<0>),
        ("each later", trips::each_later, adjusts::<0>),
        ("each eighth", trips::each_eighth, averages::<1>),
        ("each end", trips::each_end_of_lengths, averages::<9>),
    ];
    assert_notices(Fault::Content, &sweeps);
}
