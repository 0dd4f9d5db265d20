//! Sequences of calls on a model and its cycle, all accepted.

use guovssalu_sys::table::UNSET;

use crate::bounds::BANDWIDTH;
use crate::bounds::BYTES;
use crate::bounds::LENGTH;
use crate::bounds::MOMENT;
use crate::bounds::TOTAL;
use crate::calls::Calls;
use crate::files::Files;
use crate::model::field::*;
use crate::model::Call;
use crate::model::Getter;
use crate::model::Record;
use crate::model::Sample;
use crate::model::SendState;
use crate::model::Start;
use crate::recovery::gcongestion::Host;
use crate::run::Run;
use crate::run::ACKED;
use crate::run::LOST;
use crate::run::NONE;

/// The least number of steps chosen at random.
const CHOSEN: usize = 1000;

/// Adds the sequences, and stops if something that has to occur is missing.
pub fn add(files: &mut Files) {
    let usual = Host::usual_start();
    let mut run = Run::new(files);

    marked(&mut run, usual);
    events(&mut run, usual);
    reductions(&mut run, usual);
    other_calls(&mut run, usual);
    phases(&mut run, usual);
    bounds(&mut run, usual);

    let mut calls = Calls::new(13);
    let mut chosen = 0;
    while chosen < CHOSEN || !calls.at_end() {
        let call = calls.next(&run.state);
        run.call(call);
        chosen += 1;
    }

    run.marks.demand();
}

/// The marked examples of document 01 that a sequence can show.
fn marked(run: &mut Run, usual: Start) {
    // 8: 1300 cut three times, with finish and new losses, then without.
    for finish in [true, false] {
        run.start(usual);
        for (turn, cut) in [910, 637, 445].into_iter().enumerate() {
            run.record(Record {
                prior_cwnd: 1300,
                ..Record::default()
            });
            run.round(if finish || turn == 0 { LOST } else { NONE });
            assert_eq!(run.get(Getter::InflightLo), cut);
            if finish {
                run.call(Call::Finish);
            }
        }
    }
    // 11: the slope.
    run.start(usual);
    for (rounds, cwnd, bytes) in [
        (0, 26_000, 26_000),
        (1, 26_000, 13_000),
        (1, 26_001, 13_000),
        (2, 5_203, 1300),
        (2, 5_204, 1301),
        (30, 26_000, 1300),
    ] {
        run.call(Call::ProbeRefill { rounds, moment: 0 });
        run.call(Call::RaiseSlope { cwnd });
        assert_eq!(run.state[PROBE_UP_BYTES], bytes);
    }
    assert_eq!(run.state[PROBE_UP_ROUNDS], 30);
    run.call(Call::RaiseSlope { cwnd: BYTES });
    run.call(Call::RaiseSlope { cwnd: 0 });
    // Request d: the greatest acked number ends the round, an empty list none.
    for (acked, ends) in [
        (&[6, 5][..], true),
        (&[5, 6], true),
        (&[4, 6, 5], true),
        (&[5, 5, 4], false),
    ] {
        run.start(usual);
        run.sent(0, 5, 1300);
        assert!(!run.acked(&[]) && run.acked(&[0]));
        run.sent(0, 7, 1300);
        assert_eq!(run.acked(acked), ends, "{acked:?} at the end 5");
    }
    // 12: a fresh model reports growth.
    run.start(usual);
    assert_eq!(run.call(Call::BandwidthGrowth), 1);
    for getter in Getter::ALL {
        run.get(getter);
    }
}

/// Facts 4 to 9.
fn events(run: &mut Run, usual: Start) {
    // 4.
    run.start(usual);
    for rates in [(5, 0), (6, 7), (0, 0), (0, 8), (9, 0), (1, 1), (0, 0)] {
        let rate = |rate: u64| (rate > 0).then_some(rate * 1000);
        run.event(
            None,
            Sample {
                send_rate: rate(rates.0),
                ack_rate: rate(rates.1),
                ..NONE
            },
        );
    }

    // 5: bandwidth_lo 1000, maximum and estimate 0.
    for window in [1000, 26_000, BYTES] {
        run.start(usual);
        run.record(Record {
            prior_cwnd: window,
            ..Record::default()
        });
        run.round(Sample {
            bandwidth: Some(window),
            ..LOST
        });
        assert_eq!(run.state[BANDWIDTH_LO], window);
        assert_eq!(run.get(Getter::MaxBandwidth), 0);
        assert_eq!(run.get(Getter::BandwidthEstimate), 0);
    }

    // 6 and 7: the record's own send state, sample and RTT.
    let state = |total_acked: u64| SendState {
        valid: true,
        total_acked,
        ..SendState::default()
    };
    for total in [100, 0, 999, 1000, 1001, TOTAL] {
        run.start(usual);
        run.record(Record {
            event_time: usual.probe_rtt_period,
            bandwidth: Some(77),
            rtt: Some(5_000_000),
            send_state: state(total),
            ..Record::default()
        });
        run.event(None, NONE);
        run.event(
            None,
            Sample {
                total_acked: 1000,
                ..NONE
            },
        );
        assert_eq!(run.state[MAX_DELIVERED], 1000u64.saturating_sub(total));
        assert_eq!(run.call(Call::ExpireMinRtt), 1);
        // The event's state takes its place; then one that isn't valid.
        run.event(
            None,
            Sample {
                send_state: state(run.state[TOTAL_ACKED]),
                ..ACKED
            },
        );
        run.event(
            None,
            Sample {
                send_state: SendState {
                    valid: false,
                    ..state(3)
                },
                ..ACKED
            },
        );
        run.get(Getter::MaxBytesDelivered);
    }
    for _ in 0..2 {
        // No valid state at all.
        run.start(usual);
        run.event(None, ACKED);
    }

    // 8: a bandwidth_lo of 0 is set, and stays when the maximum rises.
    for bandwidth in [1, 1000, BANDWIDTH] {
        run.start(usual);
        run.round(LOST);
        run.get(Getter::BandwidthEstimate);
        run.sampled(bandwidth);
        run.round(NONE);
        run.get(Getter::BandwidthEstimate);
        run.call(Call::Finish);
        // The latest bandwidth of the round's end is the sample's.
        run.round(Sample {
            bandwidth: Some(0),
            ..ACKED
        });
        run.round(LOST);
    }
    // A 0 that is kept though the maximum is above it.
    run.start(usual);
    run.round(LOST);
    run.call(Call::Finish);
    run.round(Sample {
        bandwidth: Some(9000),
        ..ACKED
    });
    run.round(Sample {
        bandwidth: Some(0),
        ..NONE
    });
    for _ in 0..3 {
        run.round(LOST);
        assert_eq!(run.state[BANDWIDTH_LO_SET], 1);
        assert_eq!(run.state[BANDWIDTH_LO], 0);
        run.get(Getter::BandwidthEstimate);
    }
    run.call(Call::ClearBandwidthLo);
    run.round(LOST);
    assert_eq!(run.state[BANDWIDTH_LO], 6300);

    // 9: an app-limited sample below, at and above the maximum.
    run.start(usual);
    for base in [5000, 70_000] {
        run.sampled(base);
        run.call(Call::AdvanceMaxBandwidth);
        for bandwidth in [base - 1, base, base + 1, base, base + 2] {
            run.event(
                None,
                Sample {
                    bandwidth: Some(bandwidth),
                    app_limited: true,
                    ..ACKED
                },
            );
        }
        run.get(Getter::MaxBandwidth);
        for _ in 0..3 {
            run.call(Call::AdvanceMaxBandwidth);
            run.get(Getter::MaxBandwidth);
        }
    }
}

/// A bandwidth was seen, the end of a round without loss has taken the latest
/// one down, and the next events have this window.
fn before_loss(run: &mut Run, bandwidth: u64, window: u64) {
    run.sampled(bandwidth);
    run.round(Sample {
        bandwidth: Some(0),
        ..ACKED
    });
    run.record(Record {
        prior_cwnd: window,
        ..Record::default()
    });
}

/// Facts 10 and 11, and reductions in a row.
fn reductions(run: &mut Run, usual: Start) {
    // 10: a loss while probing is counted at the next round's end.
    for lost in [1, 1300, BYTES] {
        run.start(usual);
        let window = Record {
            prior_cwnd: 26_000,
            ..Record::default()
        };
        run.record(Record {
            probing: true,
            ..window
        });
        run.round(Sample {
            total_lost: lost,
            ..NONE
        });
        run.record(window);
        run.event(None, NONE);
        run.round(NONE);
        assert_eq!(run.state[INFLIGHT_LO], 18_200);
        run.round(NONE);
        run.call(Call::Finish);
        run.round(NONE);
        run.round(LOST);
    }

    // 11: betas whose 1 - beta is rounded or not, over numbers of every size.
    // In the first the bandwidth becomes 540,226,350: not the nearest of the
    // exact product.
    for (beta, bandwidth, window) in [
        (0x3e99_999a, 771_751_941, 14_744_309), // 0.3
        (0x3e99_999a, BANDWIDTH, BYTES),
        (0x3a80_0000, BANDWIDTH - 1, 16_777_223), // 1/1024
        (0x3a80_0001, BANDWIDTH, BYTES),
        (0x3f7f_c000, BANDWIDTH, BYTES), // 1023/1024
        (0x3f7f_bfff, BANDWIDTH - 1, (1 << 24) - 1),
        (0x3f00_0000, 10_000_001, 16_777_219),     // 0.5
        (0x3f2a_aaab, BANDWIDTH - 1, 14_744_309),  // 2/3
        (0x3eaa_aaab, BANDWIDTH, BYTES - 1),       // 1/3
        (0x3dcc_cccd, BANDWIDTH, BYTES),           // 0.1
        (0x3c23_d70b, 771_751_941, (1 << 24) - 1), // 0.01, and a bit
        (0x3b03_126f, BANDWIDTH, BYTES),           // 0.002
        (0x3e12_3457, BANDWIDTH - 1, 14_744_309),
    ] {
        run.start(Start {
            beta: f32::from_bits(beta),
            ..usual
        });
        before_loss(run, bandwidth, window);
        for _ in 0..4 {
            run.round(LOST);
        }
    }
    // Both held up by what was seen last.
    for (bandwidth, window) in [(1000, 1300), (BANDWIDTH, BYTES)] {
        run.start(usual);
        before_loss(run, bandwidth, window);
        run.round(Sample {
            bandwidth: Some(bandwidth - 1),
            max_inflight: window - 1,
            ..LOST
        });
        assert_eq!(run.state[BANDWIDTH_LO], bandwidth - 1);
        assert_eq!(run.state[INFLIGHT_LO], window - 1);
    }
    // Window 16,777,223, which errs past the bound, a cap on the way, a clear.
    run.start(usual);
    run.record(Record {
        prior_cwnd: 16_777_223,
        ..Record::default()
    });
    run.call(Call::CapInflightLo(5));
    run.round(LOST);
    run.call(Call::CapInflightLo(UNSET));
    run.call(Call::CapInflightLo(1300));
    run.round(NONE);
    run.call(Call::ClearInflightLo);
    run.call(Call::CapInflightLo(0));
    run.round(NONE);
    run.call(Call::CapInflightLo(0));
    run.round(NONE);
    run.get(Getter::InflightLo);
}

/// Fact 2 and facts 12 to 17.
fn other_calls(run: &mut Run, usual: Start) {
    // 2: fresh, then at the target and one below it.
    for queue_rounds in [0, 0, 0, 1, 2, u64::MAX] {
        run.start(Start {
            queue_rounds,
            ..usual
        });
        run.call(Call::PersistentQueue { gain: 1.25 });
        run.sent(2600, 1, 1300);
        run.call(Call::PersistentQueue { gain: 8.0 });
        run.sent(2599, 2, 1300);
        run.call(Call::PersistentQueue { gain: 1.0 / 1024.0 });
        run.get(Getter::RoundsWithQueueing);
        run.get(Getter::FullBandwidthReached);
    }
    // The target by the gain: 8,000,000 bits at 100 ms are 100,000 bytes. A
    // lower bandwidth_lo doesn't touch it.
    run.start(usual);
    run.sampled(8_000_000);
    for lost in [0, 1300] {
        run.round(Sample {
            bandwidth: Some(0),
            total_lost: lost,
            ..NONE
        });
        for (in_flight, gain) in [
            (125_000, 1.25),
            (124_999, 1.25),
            (102_600, 1.0),
            (102_599, 0.5),
            (799_999, 8.0),
            (800_000, 8.0),
        ] {
            run.call(Call::RestartRound);
            run.sent(in_flight, 1, 0);
            run.call(Call::PersistentQueue { gain });
        }
    }

    // 12.
    for headroom in [usual.headroom, 0.0, -0.0, 1.0, 0.5, 1e-40] {
        run.start(Start { headroom, ..usual });
        run.call(Call::WithHeadroom);
        for hi in [
            1300,
            16_777_217,
            16_777_219,
            16_777_223,
            BYTES - 1,
            UNSET,
            BYTES,
        ] {
            run.call(Call::SetInflightHi(hi));
            run.call(Call::WithHeadroom);
        }
        run.call(Call::SetInflightHi(UNSET));
        run.call(Call::WithHeadroom);
    }

    // 13.
    for ignore_app_limited in [false, true] {
        for full_bw_rounds in [0, 1, 2, 3] {
            run.start(Start {
                ignore_app_limited,
                full_bw_rounds,
                ..usual
            });
            run.sampled(1000);
            run.call(Call::BandwidthGrowth);
            run.call(Call::BandwidthGrowth);
            for (valid, app_limited) in [
                (true, true),
                (true, true),
                (true, false),
                (false, true),
                (true, false),
                (true, false),
            ] {
                run.record(Record {
                    send_state: SendState {
                        valid,
                        app_limited,
                        ..SendState::default()
                    },
                    ..Record::default()
                });
                run.call(Call::BandwidthGrowth);
            }
            for bandwidth in [1249, 1250] {
                run.sampled(bandwidth);
                run.call(Call::BandwidthGrowth);
            }
        }
    }
    // App-limited rounds never set "reached", even if 0 rounds are enough.
    for ignore_app_limited in [true, false] {
        run.start(Start {
            ignore_app_limited,
            full_bw_rounds: 0,
            ..usual
        });
        run.sampled(1000);
        run.call(Call::BandwidthGrowth);
        for app_limited in [true, true, false] {
            run.record(Record {
                send_state: SendState {
                    valid: true,
                    app_limited,
                    ..SendState::default()
                },
                ..Record::default()
            });
            run.call(Call::BandwidthGrowth);
        }
    }

    // 14 and 17.
    for last in [0, 1, u64::MAX] {
        run.start(usual);
        run.call(Call::RestartRound);
        run.sent(0, last, 1300);
        run.call(Call::RestartRound);
        run.call(Call::RestartRound);
    }
    run.start(usual);
    for (in_flight, bytes) in [(1300, 1299), (0, 2599), (1299, 1300), (2600, 0)] {
        run.call(Call::SetInflightHi(2600));
        run.sent(in_flight, 7 + in_flight, bytes);
        run.sent(in_flight, 8 + in_flight, bytes + 1);
        run.record(Record {
            prior_cwnd: 2600,
            prior_in_flight: 2600,
            ..Record::default()
        });
        run.event(
            None,
            Sample {
                bandwidth: Some(4000),
                max_inflight: 1300,
                ..LOST
            },
        );
        run.call(Call::Finish);
        run.round(Sample {
            extra_acked: 1,
            ..ACKED
        });
        run.call(Call::Finish);
        run.call(Call::PersistentQueue { gain: 1.0 });
        run.call(Call::RestartRound);
    }

    // 15.
    for (moment, probe_rtt_period) in [
        (0, 0),
        (5, 0),
        (7, 1),
        (5, 1000),
        (0, LENGTH),
        (MOMENT - 1000, 1000),
        (MOMENT - 1000, 1001),
        (MOMENT, LENGTH),
        (MOMENT, 0),
    ] {
        run.start(Start {
            moment,
            probe_rtt_period,
            ..usual
        });
        let due = (moment + probe_rtt_period).min(MOMENT);
        run.record(Record {
            event_time: due,
            ..Record::default()
        });
        run.call(Call::ExpireMinRtt);
        for event_time in [due.saturating_sub(1), due] {
            run.call(Call::Record(Record {
                event_time,
                rtt: Some(1000 + event_time % 7),
                ..Record::default()
            }));
            run.call(Call::ExpireMinRtt);
        }
        run.call(Call::PostponeMinRtt(
            LENGTH.min(MOMENT - run.state[MIN_RTT_TIMESTAMP]),
        ));
        run.call(Call::ExpireMinRtt);
    }

    // 16: of an inflight of 2600 a loss of 39 bytes is borne at 0.015, of
    // 1300 at 0.5, and so on; one byte more is too much.
    for (loss_threshold, borne) in [
        (usual.loss_threshold, 39),
        (0.5, 1300),
        (1.0, 2600),
        (-0.0, 0),
    ] {
        run.start(Start {
            loss_threshold,
            ..usual
        });
        for lost in [0, borne, 1] {
            run.event(
                None,
                Sample {
                    total_lost: lost,
                    ..NONE
                },
            );
            let events = run.state[LOSS_EVENTS_IN_ROUND];
            for (valid, bytes_in_flight) in [(true, 0), (false, 2600), (true, 2600)] {
                run.record(Record {
                    send_state: SendState {
                        valid,
                        bytes_in_flight,
                        ..SendState::default()
                    },
                    ..Record::default()
                });
                run.call(Call::InflightTooHigh {
                    max_loss_events: events,
                });
            }
            run.call(Call::InflightTooHigh {
                max_loss_events: events + 1,
            });
        }
    }
}

/// Fact 18.
fn phases(run: &mut Run, usual: Start) {
    for (turn, probe_base_duration) in [usual.probe_base_duration, 0, LENGTH]
        .into_iter()
        .enumerate()
    {
        let too_high = turn != 1;
        run.start(Start {
            probe_base_duration,
            ..usual
        });
        let mut moment = 0;
        let mut next = || {
            moment += 1_000_000;
            moment
        };
        let full = Sample {
            bandwidth: Some(5_000_000),
            max_inflight: 2600,
            total_lost: 1300,
            ..ACKED
        };
        run.call(Call::ExitProbeDown);
        run.call(Call::ProbeDown {
            too_high,
            risky: true,
            moment: next(),
        });
        run.sent(1300, 4, 1300);
        run.event_at(next(), full);
        run.call(Call::ProbeCruise { moment: next() });
        run.event_at(next(), full);
        run.call(Call::ExitProbeDown);
        run.call(Call::SetInflightHi(2000));
        run.call(Call::ProbeCruise { moment: next() });
        run.call(Call::ProbeDown {
            too_high: true,
            risky: true,
            moment: next(),
        });
        run.event_at(next(), full);
        run.call(Call::ProbeRefill {
            rounds: 2,
            moment: next(),
        });
        run.event_at(next(), full);
        run.call(Call::ProbeUp {
            moment: next(),
            cwnd: 26_000,
        });
        run.sent(2600, 9, 1300);
        run.event_at(next(), full);
        run.call(Call::RaiseSlope { cwnd: 26_000 });
        run.call(Call::ProbeDown {
            too_high: false,
            risky: false,
            moment: next(),
        });
        run.event_at(next(), full);
        run.call(Call::ProbeUp {
            moment: next(),
            cwnd: 1300,
        });
        run.call(Call::ExitProbeDown);
        run.event_at(next(), full);
        run.call(Call::ExitProbeDown);
        run.call(Call::ProbeRefill {
            rounds: 30,
            moment: next(),
        });
        run.call(Call::ProbeUp {
            moment: next(),
            cwnd: BYTES,
        });
    }

    // Cruise caps a set inflight_lo, and that only, at inflight_hi.
    run.start(usual);
    run.record(Record {
        prior_cwnd: 26_000,
        ..Record::default()
    });
    for hi in [0, UNSET, 18_201, 18_200, 18_199, 1300, 0] {
        run.call(Call::SetInflightHi(hi));
        run.call(Call::ProbeCruise { moment: 0 });
        if run.state[INFLIGHT_LO] == UNSET {
            run.round(LOST);
        }
    }
}

/// The bounds themselves.
fn bounds(run: &mut Run, usual: Start) {
    run.start(Start {
        moment: MOMENT,
        initial_rtt: LENGTH,
        probe_rtt_period: LENGTH,
        probe_base_duration: LENGTH,
        full_bw_threshold: 8.0,
        cwnd_gain: 8.0,
        pacing_gain: 1.0 / 1024.0,
        ..usual
    });
    run.sent(BYTES, u64::MAX, BYTES);
    run.call(Call::SetInflightHi(BYTES));
    run.sent(BYTES, u64::MAX, 0);
    let most = Sample {
        bandwidth: Some(BANDWIDTH),
        send_rate: Some(BANDWIDTH),
        ack_rate: Some(BANDWIDTH),
        rtt: Some(LENGTH),
        max_inflight: BYTES,
        extra_acked: BYTES,
        send_state: SendState {
            valid: true,
            app_limited: true,
            total_acked: TOTAL,
            bytes_in_flight: BYTES,
        },
        total_acked: TOTAL,
        total_lost: TOTAL,
        ..NONE
    };
    run.record(Record {
        prior_cwnd: BYTES,
        prior_in_flight: BYTES,
        bytes_in_flight: BYTES,
        bytes_acked: TOTAL,
        bytes_lost: TOTAL,
        round_ended: true,
        bandwidth: Some(BANDWIDTH),
        rtt: Some(LENGTH),
        send_state: most.send_state,
        ..Record::default()
    });
    run.event(Some(u64::MAX), most);
    run.call(Call::InflightTooHigh { max_loss_events: 1 });
    run.call(Call::BandwidthGrowth);
    run.call(Call::BandwidthGrowth);
    run.call(Call::ExpireMinRtt);
    run.call(Call::Bdp {
        bandwidth: BANDWIDTH,
        gain: 8.0,
    });
    run.call(Call::Bdp {
        bandwidth: 771_751_941,
        gain: 0.7,
    });
    run.call(Call::Bdp {
        bandwidth: 778_567_555,
        gain: f32::from_bits(0x4031_78d5),
    });
    run.call(Call::Bdp1 {
        bandwidth: BANDWIDTH,
    });
    run.call(Call::Bdp0);
    run.call(Call::PersistentQueue { gain: 8.0 });
    run.call(Call::PostponeMinRtt(0));
    // Nothing is past the end: no round ends any more.
    run.event(Some(u64::MAX), NONE);
    run.call(Call::ProbeDown {
        too_high: true,
        risky: false,
        moment: MOMENT,
    });
    run.call(Call::ProbeUp {
        moment: MOMENT,
        cwnd: BYTES,
    });
    for getter in Getter::ALL {
        run.get(getter);
    }
}
