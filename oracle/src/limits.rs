//! The limits: calls with a number at each limit of document 01, which
//! are accepted, and outside it, which are refused; what is refused with 2 names
//! the number by document 02.

use guovssalu_sys::table::UNSET;

use crate::bounds::BANDWIDTH;
use crate::bounds::BYTES;
use crate::bounds::LEAST_GAIN;
use crate::bounds::LENGTH;
use crate::bounds::MOMENT;
use crate::bounds::MOST_BETA;
use crate::bounds::MOST_GAIN;
use crate::bounds::TOTAL;
use crate::bounds::UP_ROUNDS;
use crate::files::Files;
use crate::model::field::*;
use crate::model::Call;
use crate::model::Getter;
use crate::model::Record;
use crate::model::Sample;
use crate::model::SendState;
use crate::model::Start;
use crate::recovery::gcongestion::Host;
use crate::run::bad;
use crate::run::Run;
use crate::run::ACKED;
use crate::run::LOST;
use crate::run::NONE;

/// A call on a number, after the place of the number.
type Placed<T> = (u64, fn(T) -> Call);

/// What sets a field of a record, after the limit and the kind of the field.
type Bounded<T> = (u64, u64, fn(&mut T, u64));

/// Adds the calls at the limits.
pub fn add(files: &mut Files) {
    let usual = Host::usual_start();
    let mut run = Run::new(files);
    starts(&mut run, usual);
    bad_parameters(&mut run, usual);
    sends(&mut run);
    gains_and_bandwidths(&mut run);
    bytes_and_lengths(&mut run, usual);
    entries(&mut run);
    records(&mut run);
    samples(&mut run);
    orders(&mut run);
    never_sent(&mut run, usual);
    never_sent_and_more(&mut run);
    stored(&mut run);
    full(&mut run);
    raised(&mut run);
}

/// A state with something in every part of it, at moment 1000.
pub fn begin(run: &mut Run) {
    let usual = Host::usual_start();
    run.start(Start {
        moment: 500,
        ..usual
    });
    run.call(Call::Sent {
        moment: 700,
        in_flight: 2600,
        number: 7,
        bytes: 1300,
    });
    run.record(Record {
        event_time: 900,
        prior_cwnd: 26_000,
        prior_in_flight: 3900,
        ..Record::default()
    });
    run.event(
        Some(7),
        Sample {
            bandwidth: Some(4_000_000),
            send_rate: Some(5_000_000),
            ack_rate: Some(4_000_000),
            rtt: Some(30_000_000),
            max_inflight: 3900,
            send_state: SendState {
                valid: true,
                app_limited: false,
                total_acked: 0,
                bytes_in_flight: 3900,
            },
            total_lost: 1300,
            ..ACKED
        },
    );
    run.call(Call::SetInflightHi(20_000));
    run.call(Call::ProbeRefill {
        rounds: 3,
        moment: 950,
    });
    run.call(Call::ProbeUp {
        moment: 1000,
        cwnd: 26_000,
    });
}

/// One number at its limit and two above it.
fn most(run: &mut Run, limit: u64, refusal: u64, call: impl Fn(u64) -> Call) {
    run.expect(0, call(limit));
    run.expect(refusal, call(limit + 1));
    run.expect(refusal, call(u64::MAX));
}

/// A float at both its limits, and what is outside.
fn between(run: &mut Run, least: f32, most: f32, refusal: u64, call: impl Fn(f32) -> Call) {
    for inside in [least, most] {
        run.expect(0, call(inside));
    }
    let below = match least {
        0.0 => -f32::from_bits(1),
        _ => f32::from_bits(least.to_bits() - 1),
    };
    let above = f32::from_bits(most.to_bits() + 1);
    let signalling = f32::from_bits(0x7f80_0001);
    for outside in [
        below,
        above,
        -most,
        f32::INFINITY,
        f32::NEG_INFINITY,
        f32::NAN,
        -f32::NAN,
        signalling,
    ] {
        run.expect(refusal, call(outside));
    }
}

fn starts(run: &mut Run, usual: Start) {
    type Setting = fn(&mut Start) -> &mut f32;
    let settings: [(f32, f32, Setting); 6] = [
        (LEAST_GAIN, MOST_BETA, |start| &mut start.beta),
        (0.0, 1.0, |start| &mut start.loss_threshold),
        (0.0, 1.0, |start| &mut start.headroom),
        (1.0, 8.0, |start| &mut start.full_bw_threshold),
        (LEAST_GAIN, MOST_GAIN, |start| &mut start.cwnd_gain),
        (LEAST_GAIN, MOST_GAIN, |start| &mut start.pacing_gain),
    ];
    for (least, most, setting) in settings {
        between(run, least, most, 1, |value| {
            let mut start = usual;
            *setting(&mut start) = value;
            Call::Start(start)
        });
    }
    // Negative zero counts as zero.
    run.start(Start {
        loss_threshold: -0.0,
        headroom: -0.0,
        ..usual
    });

    let with = |change: fn(&mut Start) -> &mut u64| {
        move |value| {
            let mut start = usual;
            *change(&mut start) = value;
            Call::Start(start)
        }
    };
    most(run, LENGTH, 1, with(|start| &mut start.probe_rtt_period));
    most(run, LENGTH, 1, with(|start| &mut start.probe_base_duration));
    most(run, LENGTH, bad(4, 1), with(|start| &mut start.initial_rtt));
    most(run, MOMENT, bad(9, 2), with(|start| &mut start.moment));
    run.start(Start {
        full_bw_rounds: u64::MAX,
        queue_rounds: u64::MAX,
        ..usual
    });
    // The lowest number of those that apply.
    run.expect(
        1,
        Call::Start(Start {
            moment: MOMENT + 1,
            beta: 1.0,
            ..usual
        }),
    );
}

/// Each parameter outside its bounds: the calls that take the parameters reply
/// 1, whatever else would be refused, the others don't mind.
fn bad_parameters(run: &mut Run, usual: Start) {
    for start in [
        Start { beta: 1.0, ..usual },
        Start {
            loss_threshold: 1.5,
            ..usual
        },
        Start {
            headroom: -1.0,
            ..usual
        },
        Start {
            full_bw_threshold: 0.5,
            ..usual
        },
        Start {
            cwnd_gain: 0.0,
            ..usual
        },
        Start {
            pacing_gain: f32::NAN,
            ..usual
        },
        Start {
            probe_rtt_period: LENGTH + 1,
            ..usual
        },
        Start {
            probe_base_duration: LENGTH + 1,
            ..usual
        },
    ] {
        run.expect(1, Call::Start(start));
        for call in [
            Call::Event(ACKED),
            Call::ExpireMinRtt,
            Call::InflightTooHigh { max_loss_events: 0 },
            Call::BandwidthGrowth,
            Call::PersistentQueue { gain: 1.0 },
            Call::PersistentQueue { gain: f32::NAN },
            Call::WithHeadroom,
            Call::ProbeDown {
                too_high: true,
                risky: true,
                moment: 5,
            },
            Call::ProbeDown {
                too_high: true,
                risky: true,
                moment: MOMENT + 1,
            },
        ] {
            run.expect(1, call);
        }
        run.call(Call::Finish);
        run.sent(1300, 1, 1300);
        run.call(Call::ProbeCruise { moment: 5 });
        run.call(Call::ExitProbeDown);
        run.get(Getter::CwndGain);
    }
}

fn sends(run: &mut Run) {
    begin(run);
    let sent = |in_flight, bytes, moment| Call::Sent {
        moment,
        in_flight,
        number: u64::MAX,
        bytes,
    };
    most(run, BYTES, bad(2, 2), |in_flight| sent(in_flight, 0, 1000));
    most(run, BYTES, bad(2, 4), |bytes| sent(0, bytes, 1000));
    run.expect(3, sent(0, 0, 999));
    run.expect(bad(2, 2), sent(BYTES + 1, 0, 999));
    run.call(sent(0, 0, 1000));
    most(run, MOMENT, bad(9, 1), |moment| sent(0, 0, moment));
    run.expect(3, sent(0, 0, MOMENT - 1));
}

fn gains_and_bandwidths(run: &mut Run) {
    begin(run);
    let calls: [Placed<f32>; 4] = [
        (1, |gain| Call::PersistentQueue { gain }),
        (1, Call::SetPacingGain),
        (1, Call::SetCwndGain),
        (2, |gain| Call::Bdp {
            bandwidth: 4_000_000,
            gain,
        }),
    ];
    for (place, call) in calls {
        between(run, LEAST_GAIN, MOST_GAIN, bad(7, place), call);
    }
    most(run, BANDWIDTH, bad(3, 1), |bandwidth| Call::Bdp {
        bandwidth,
        gain: 1.0,
    });
    most(run, BANDWIDTH, bad(3, 1), |bandwidth| Call::Bdp1 {
        bandwidth,
    });
}

fn bytes_and_lengths(run: &mut Run, usual: Start) {
    begin(run);
    let calls: [fn(u64) -> Call; 2] = [Call::SetInflightHi, Call::CapInflightLo];
    for call in calls {
        run.expect(0, call(BYTES));
        run.expect(bad(2, 1), call(BYTES + 1));
        run.expect(bad(2, 1), call(UNSET - 1));
        run.expect(0, call(UNSET));
    }
    most(run, BYTES, bad(1, 1), |cwnd| Call::RaiseSlope { cwnd });
    run.call(Call::InflightTooHigh {
        max_loss_events: u64::MAX,
    });
    most(run, LENGTH, bad(4, 1), Call::PostponeMinRtt);

    // A postponed moment at the limit, and past it; a length that is itself out.
    run.start(Start {
        moment: MOMENT - 10,
        ..usual
    });
    run.expect(bad(9, 1), Call::PostponeMinRtt(11));
    run.call(Call::PostponeMinRtt(10));
    run.expect(bad(9, 1), Call::PostponeMinRtt(1));
    run.expect(bad(9, 1), Call::PostponeMinRtt(LENGTH));
    run.expect(bad(4, 1), Call::PostponeMinRtt(LENGTH + 1));
    run.expect(bad(4, 1), Call::PostponeMinRtt(u64::MAX));
    run.call(Call::PostponeMinRtt(0));
}

/// Each phase entry at a moment that is the last accepted one, earlier, later
/// at the limit, and past it.
fn entries(run: &mut Run) {
    let calls: [Placed<u64>; 4] = [
        (3, |moment| Call::ProbeDown {
            too_high: false,
            risky: true,
            moment,
        }),
        (1, |moment| Call::ProbeCruise { moment }),
        (2, |moment| Call::ProbeRefill { rounds: 2, moment }),
        (1, |moment| Call::ProbeUp {
            moment,
            cwnd: 26_000,
        }),
    ];
    for (place, call) in calls {
        begin(run);
        run.expect(3, call(0));
        run.expect(3, call(999));
        run.expect(0, call(1000));
        most(run, MOMENT, bad(9, place), call);
        run.expect(3, call(MOMENT - 1));
    }

    begin(run);
    most(run, UP_ROUNDS, bad(6, 1), |rounds| Call::ProbeRefill {
        rounds,
        moment: 1000,
    });
    most(run, BYTES, bad(1, 2), |cwnd| Call::ProbeUp {
        moment: 1000,
        cwnd,
    });
    // The lower row of two.
    run.expect(
        bad(6, 1),
        Call::ProbeRefill {
            rounds: UP_ROUNDS + 1,
            moment: 999,
        },
    );
    run.expect(
        bad(1, 2),
        Call::ProbeUp {
            moment: 999,
            cwnd: BYTES + 1,
        },
    );
}

/// Each number of the record at its limit and past it, for every call that is
/// given the record.
fn records(run: &mut Run) {
    let records: [Bounded<Record>; 10] = [
        (MOMENT, 9, |record, value| record.event_time = value),
        (BYTES, 1, |record, value| record.prior_cwnd = value),
        (BYTES, 2, |record, value| record.prior_in_flight = value),
        (BYTES, 2, |record, value| record.bytes_in_flight = value),
        (TOTAL, 5, |record, value| record.bytes_acked = value),
        (TOTAL, 5, |record, value| record.bytes_lost = value),
        (BANDWIDTH, 3, |record, value| record.bandwidth = Some(value)),
        (LENGTH, 4, |record, value| record.rtt = Some(value)),
        (TOTAL, 5, |record, value| {
            record.send_state.total_acked = value
        }),
        (BYTES, 2, |record, value| {
            record.send_state.bytes_in_flight = value
        }),
    ];
    for (limit, kind, set) in records {
        begin(run);
        let event = Call::Event(run.acking(&[]));
        for value in [limit + 1, limit] {
            let mut record = Record {
                event_time: 1000,
                ..Record::default()
            };
            set(&mut record, value);
            run.call(Call::Record(record));
            for (place, call) in with_record(event) {
                let reply = if value > limit { bad(kind, place) } else { 0 };
                run.expect(reply, call);
            }
        }
    }
}

/// The calls that are given the record, each with the record's place.
pub fn with_record(event: Call) -> [(u64, Call); 5] {
    [
        (2, event),
        (1, Call::Finish),
        (1, Call::ExpireMinRtt),
        (1, Call::InflightTooHigh { max_loss_events: 0 }),
        (1, Call::BandwidthGrowth),
    ]
}

/// Each number of the sampler's answer at its limit and past it.
fn samples(run: &mut Run) {
    let samples: [Bounded<Sample>; 10] = [
        (BANDWIDTH, 3, |sample, value| sample.bandwidth = Some(value)),
        (BANDWIDTH, 3, |sample, value| sample.send_rate = Some(value)),
        (BANDWIDTH, 3, |sample, value| sample.ack_rate = Some(value)),
        (LENGTH, 4, |sample, value| sample.rtt = Some(value)),
        (BYTES, 2, |sample, value| sample.max_inflight = value),
        (BYTES, 2, |sample, value| sample.extra_acked = value),
        (TOTAL, 5, |sample, value| {
            sample.send_state.total_acked = value
        }),
        (BYTES, 2, |sample, value| {
            sample.send_state.bytes_in_flight = value
        }),
        (TOTAL, 5, |sample, value| sample.total_acked = value),
        (TOTAL, 5, |sample, value| sample.total_lost = value),
    ];
    for (limit, kind, set) in samples {
        begin(run);
        run.record(Record::default());
        let same = run.acking(&[]);
        most(run, limit, bad(kind, 3), |value| {
            let mut sample = same;
            set(&mut sample, value);
            Call::Event(sample)
        });
    }
}

/// Moments and totals that fall.
fn orders(run: &mut Run) {
    begin(run);
    let (acked, lost) = (run.state[TOTAL_ACKED], run.state[TOTAL_LOST]);
    let totals = |total_acked, total_lost| {
        Call::Event(Sample {
            total_acked,
            total_lost,
            ..NONE
        })
    };
    run.record(Record::default());
    run.expect(4, totals(acked - 1, lost));
    run.expect(4, totals(acked, lost - 1));
    run.expect(4, totals(0, 0));
    run.expect(bad(5, 3), totals(acked - 1, TOTAL + 1));

    // An event earlier than the last moment; later calls on its record don't
    // test that.
    run.call(Call::Record(Record {
        event_time: 999,
        ..Record::default()
    }));
    run.expect(3, totals(acked, lost));
    run.expect(3, totals(acked - 1, lost));
    run.expect(bad(5, 3), totals(TOTAL + 1, lost));
    run.call(Call::Finish);
    run.call(Call::ExpireMinRtt);
    run.call(Call::InflightTooHigh { max_loss_events: 0 });
    run.call(Call::BandwidthGrowth);

    run.record(Record::default());
    run.call(totals(acked, lost));
    run.call(totals(acked + 1, lost));
    run.expect(4, totals(acked, lost));
    run.call(totals(acked + 1, lost + 1));
    run.expect(4, totals(acked + 1, lost));
    for getter in Getter::ALL {
        run.get(getter);
    }
}

/// Numbers that were never sent: an event that acks one is refused.
fn never_sent(run: &mut Run, usual: Start) {
    // Before the first send any number, 0 too, also where the round's end is 0.
    run.start(usual);
    run.acked(&[]);
    for acked in [&[0][..], &[1], &[u64::MAX], &[0, 0, 0]] {
        run.unsent(acked);
    }
    run.call(Call::RestartRound);
    run.unsent(&[0]);
    // Packet 0 alone is sent, then 5 is the last.
    run.sent(0, 0, 1300);
    run.unsent(&[1]);
    run.acked(&[0]);
    run.sent(0, 5, 1300);
    for acked in [&[6][..], &[u64::MAX], &[6, 5], &[5, 6], &[1, 6, 0]] {
        run.unsent(acked);
    }
    run.acked(&[5, 0, 5]);
    // The last sent one counts, also where the numbers went down.
    run.sent(0, 3, 1300);
    for acked in [&[5][..], &[4], &[3, 4]] {
        run.unsent(acked);
    }
    run.acked(&[3, 2]);
    run.sent(0, u64::MAX, 1300);
    run.acked(&[u64::MAX, 6]);
    // A start forgets what was sent, a refused one too.
    run.start(usual);
    run.unsent(&[0]);
    run.sent(0, 9, 1300);
    run.expect(
        bad(9, 2),
        Call::Start(Start {
            moment: MOMENT + 1,
            ..usual
        }),
    );
    run.unsent(&[0]);
}

/// Packet 8, which was never sent, and what else is refused: rows 1 to 4 come
/// before row 10, and row 5 after it.
fn never_sent_and_more(run: &mut Run) {
    begin(run);
    run.record(Record::default());
    let sample = run.acking(&[8]);
    let unsent = Call::Event(sample);
    run.expect_with(1, SLOT_1, BANDWIDTH + 1, unsent);
    run.expect(
        bad(2, 3),
        Call::Event(Sample {
            max_inflight: BYTES + 1,
            ..sample
        }),
    );
    run.call(Call::Record(Record {
        event_time: 999,
        ..Record::default()
    }));
    run.expect(3, unsent);
    run.record(Record::default());
    run.expect(
        4,
        Call::Event(Sample {
            total_acked: sample.total_acked - 1,
            ..sample
        }),
    );
    run.expect(10, unsent);
    run.expect_with(10, ROUND_TRIP_COUNT, u64::MAX, unsent);
    let loses = Call::Event(Sample {
        total_lost: sample.total_lost + 1,
        ..sample
    });
    run.expect_with(10, LOSS_EVENTS_IN_ROUND, u64::MAX, loses);
    // Where nothing was sent it doesn't count that 7 is stored as the last.
    let last = Call::Event(run.acking(&[7]));
    run.expect_with(10, ANYTHING_SENT, 0, last);
    run.expect_with(0, ANYTHING_SENT, 0, Call::Event(run.acking(&[])));
    run.expect(0, last);
}

/// Each stored number one past its limit: every call on it replies 1, whatever
/// else would be refused.
fn stored(run: &mut Run) {
    begin(run);
    run.call(Call::ProbeDown {
        too_high: false,
        risky: false,
        moment: 1100,
    });
    run.call(Call::RaiseSlope { cwnd: 26_000 });
    run.record(Record {
        prior_cwnd: 26_000,
        ..Record::default()
    });
    run.round(Sample {
        send_rate: Some(5_000_000),
        ack_rate: Some(4_000_000),
        ..LOST
    });
    let state = run.state;
    for set in [
        END_SET,
        BANDWIDTH_LO_SET,
        SEND_RATE_SET,
        ACK_RATE_SET,
        PROBE_WAIT_SET,
        PROBE_UP_BYTES_SET,
    ] {
        assert_eq!(state[set], 1, "field {set}");
    }
    let model = [
        (SLOT_0, BANDWIDTH),
        (SLOT_1, BANDWIDTH),
        (MIN_RTT, LENGTH),
        (MIN_RTT_TIMESTAMP, MOMENT),
        (BYTES_LOST_IN_ROUND, TOTAL),
        (BYTES_LOST_IN_ROUND, state[TOTAL_LOST]),
        (MAX_DELIVERED, TOTAL),
        (MAX_DELIVERED, state[TOTAL_ACKED]),
        (MIN_IN_FLIGHT, BYTES),
        (MIN_IN_FLIGHT, UNSET - 2),
        (BANDWIDTH_LATEST, BANDWIDTH),
        (INFLIGHT_LATEST, BYTES),
        (BANDWIDTH_LO, BANDWIDTH),
        (INFLIGHT_LO, BYTES),
        (INFLIGHT_LO, UNSET - 2),
        (INFLIGHT_HI, BYTES),
        (INFLIGHT_HI, UNSET - 2),
        (CWND_GAIN, MOST_GAIN.to_bits() as u64),
        (CWND_GAIN, LEAST_GAIN.to_bits() as u64 - 2),
        (PACING_GAIN, MOST_GAIN.to_bits() as u64),
        (PACING_GAIN, LEAST_GAIN.to_bits() as u64 - 2),
        (BASELINE, BANDWIDTH),
        (SEND_RATE, BANDWIDTH),
        (ACK_RATE, BANDWIDTH),
        (TOTAL_ACKED, TOTAL),
        (TOTAL_LOST, TOTAL),
        (LAST_MOMENT, MOMENT),
    ];
    let cycle = [
        (CYCLE_START, MOMENT),
        (PHASE_START, MOMENT),
        (PROBE_WAIT, LENGTH + 500_000),
        (PROBE_UP_ROUNDS, UP_ROUNDS),
        (PROBE_UP_BYTES, BYTES),
        (PROBE_UP_ACKED, BYTES),
    ];
    let entries = [
        Call::ProbeDown {
            too_high: true,
            risky: false,
            moment: 2000,
        },
        Call::ProbeCruise { moment: 2000 },
        Call::ProbeRefill {
            rounds: UP_ROUNDS + 1,
            moment: 2000,
        },
        Call::ProbeUp {
            moment: 0,
            cwnd: 1300,
        },
        Call::ExitProbeDown,
    ];
    let others = [
        Call::Event(NONE),
        Call::Finish,
        Call::ExpireMinRtt,
        Call::InflightTooHigh { max_loss_events: 0 },
        Call::BandwidthGrowth,
        Call::PersistentQueue { gain: 1.0 },
    ];
    let mut on_model = vec![
        Call::Sent {
            moment: 0,
            in_flight: 0,
            number: 0,
            bytes: 0,
        },
        Call::RestartRound,
        Call::Bdp {
            bandwidth: 1000,
            gain: 1.0,
        },
        Call::Bdp1 { bandwidth: 1000 },
        Call::Bdp0,
        Call::WithHeadroom,
        Call::SetFullReached,
        Call::SetPacingGain(1.0),
        Call::SetCwndGain(1.0),
        Call::SetInflightHi(1300),
        Call::CapInflightLo(BYTES + 1),
        Call::ClearInflightLo,
        Call::ClearBandwidthLo,
        Call::AdvanceMaxBandwidth,
        Call::PostponeMinRtt(1),
    ];
    on_model.extend(Getter::ALL.map(Call::Get));
    // Every call once for one number, and one or two calls of each part for
    // every number.
    let all = on_model.iter().chain(&others).chain(&entries);
    for &call in all {
        run.expect_with(1, SLOT_1, BANDWIDTH + 1, call);
    }
    for (turn, (field, limit)) in model.into_iter().enumerate() {
        let calls = [
            on_model[turn % on_model.len()],
            Call::Get(Getter::InflightHiDefault),
            others[turn % others.len()],
            entries[turn % entries.len()],
        ];
        for call in calls {
            run.expect_with(1, field, limit + 1, call);
        }
    }
    for (field, limit) in cycle {
        for &call in entries.iter().chain(&[Call::RaiseSlope { cwnd: 1300 }]) {
            run.expect_with(1, field, limit + 1, call);
        }
    }

    // At its limit each is accepted: by a call that answers a constant, and by
    // one that touches none of the cycle's.
    let constant = Call::Get(Getter::InflightHiDefault);
    let at_limit = |(field, limit): &(usize, u64)| match *field {
        BYTES_LOST_IN_ROUND | MAX_DELIVERED => *limit != TOTAL,
        MIN_IN_FLIGHT | INFLIGHT_LO | INFLIGHT_HI => *limit == BYTES,
        CWND_GAIN | PACING_GAIN => *limit == MOST_GAIN.to_bits() as u64,
        _ => true,
    };
    for (field, limit) in model.into_iter().filter(at_limit) {
        run.expect_with(0, field, limit, constant);
    }
    for (field, other) in [
        (MIN_IN_FLIGHT, UNSET),
        (INFLIGHT_LO, UNSET),
        (INFLIGHT_HI, UNSET),
        (CWND_GAIN, LEAST_GAIN.to_bits() as u64),
        (PACING_GAIN, LEAST_GAIN.to_bits() as u64),
    ] {
        run.expect_with(0, field, other, constant);
    }
    for (field, limit) in cycle {
        run.expect_with(0, field, limit, Call::ExitProbeDown);
    }
}

/// Counters that are full: refused if the call would add 1, else not.
fn full(run: &mut Run) {
    let full = u64::MAX;
    begin(run);
    let end = run.state[END];
    run.sent(1300, end + 1, 1300);
    run.record(Record::default());
    let ends = Call::Event(run.acking(&[end + 1]));
    let same = run.acking(&[]);
    let loses = Call::Event(Sample {
        total_lost: same.total_lost + 1,
        ..same
    });
    run.expect_with(5, ROUND_TRIP_COUNT, full, ends);
    // The greatest acked number counts, wherever it stands.
    for ending in [[end + 1, end, 0], [end, end + 1, 0], [0, end, end + 1]] {
        let ends = Call::Event(run.acking(&ending));
        run.expect_with(5, ROUND_TRIP_COUNT, full, ends);
    }
    let ends_none = Call::Event(run.acking(&[end, 0, end]));
    run.expect_with(0, ROUND_TRIP_COUNT, full, ends_none);
    run.expect_with(5, LOSS_EVENTS_IN_ROUND, full, loses);
    run.expect_with(0, LOSS_EVENTS_IN_ROUND, full, ends);
    run.expect_with(0, ROUND_TRIP_COUNT, full, loses);

    // No growth since a baseline that isn't reached.
    run.start(Host::usual_start());
    run.sampled(1000);
    run.call(Call::BandwidthGrowth);
    run.expect_with(0, ROUNDS_WITHOUT_GROWTH, full, Call::BandwidthGrowth);
    run.record(Record {
        send_state: SendState {
            valid: true,
            ..SendState::default()
        },
        ..Record::default()
    });
    run.expect_with(5, ROUNDS_WITHOUT_GROWTH, full, Call::BandwidthGrowth);
    run.call(Call::BandwidthGrowth);

    // A fresh model's unset inflight counts as a queue.
    run.start(Host::usual_start());
    let queue = Call::PersistentQueue { gain: 1.25 };
    run.expect_with(0, ROUNDS_WITH_QUEUEING, full, Call::BandwidthGrowth);
    run.expect_with(5, ROUNDS_WITH_QUEUEING, full, queue);
    run.call(queue);
}

/// The calls on a cycle in which the update steps have raised what the others
/// leave at 0.
fn raised(run: &mut Run) {
    for call in [
        Call::ProbeDown {
            too_high: true,
            risky: false,
            moment: 2000,
        },
        Call::ProbeCruise { moment: 2000 },
        Call::ProbeRefill {
            rounds: 2,
            moment: 2000,
        },
        Call::ProbeUp {
            moment: 2000,
            cwnd: 26_000,
        },
        Call::ExitProbeDown,
        Call::RaiseSlope { cwnd: 26_000 },
    ] {
        begin(run);
        run.put(vec![
            (ROUNDS_IN_PHASE, 5),
            (ROUNDS_SINCE_PROBE, 7),
            (PROBE_UP_ACKED, 900),
            (UP_APP_LIMITED, 1),
        ]);
        run.call(call);
    }
}
