//! Faults, beside those of the limits: malformed words at each argument and at
//! each field, several faults in one call, and what the exported calls name. What
//! is refused with 2 says the kind and the place by document 02, request b.

use guovssalu_sys::table::argument;
use guovssalu_sys::table::event;
use guovssalu_sys::table::params;
use guovssalu_sys::table::sample;
use guovssalu_sys::table::EVENT_IN_CALL;
use guovssalu_sys::table::NUMBER_IN_CALL;
use guovssalu_sys::table::PARAMS_IN_CALL;
use guovssalu_sys::table::SLOPE_BYTES;
use guovssalu_sys::table::UNSET;

use crate::bounds::BANDWIDTH;
use crate::bounds::BYTES;
use crate::bounds::LENGTH;
use crate::bounds::MOMENT;
use crate::bounds::TOTAL;
use crate::bounds::UP_ROUNDS;
use crate::files::Files;
use crate::frame::MEMORY;
use crate::limits::begin;
use crate::limits::with_record;
use crate::model::field::*;
use crate::model::Call;
use crate::model::Record;
use crate::recovery::gcongestion::Host;
use crate::run::bad;
use crate::run::Run;
use crate::world::Step;

/// A bit above the 32nd, and the bits of one and of a NaN.
const HIGH: u64 = 1 << 32;
const ONE: u64 = 0x3f80_0000;
const NAN: u64 = 0x7fc0_0000;

/// A word of the record.
const fn of_event(at: usize) -> usize {
    EVENT_IN_CALL + at
}

/// Adds the faults.
pub fn add(files: &mut Files) {
    let mut run = Run::new(files);
    begin(&mut run);
    run.record(Record::default());
    malformed_records(&mut run);
    malformed_samples(&mut run);
    malformed_arguments(&mut run);
    malformed_parameters(&mut run);
    no_calls(&mut run);
    two_arguments(&mut run);
    two_fields(&mut run);
    events_with_two(&mut run);
    with_row_1(&mut run);
    starts(&mut run);
    exported(&mut run);
}

/// An event that acks nothing, at the state's totals.
fn event(run: &Run) -> Call {
    Call::Event(run.acking(&[]))
}

/// Each flag and each pair of the record, for every call that is given it.
fn malformed_records(run: &mut Run) {
    let flags = [
        event::END_OF_ROUND_TRIP,
        event::IS_PROBING_FOR_BANDWIDTH,
        event::LAST_PACKET_SEND_STATE_IS_VALID,
        event::LAST_PACKET_SEND_STATE_IS_APP_LIMITED,
    ];
    let pairs = [
        (event::SAMPLE_MAX_BANDWIDTH_SET, BANDWIDTH),
        (event::SAMPLE_MIN_RTT_SET, LENGTH),
    ];
    for (place, call) in with_record(event(run)) {
        for at in flags {
            run.expect_words(bad(8, place), call, &[(of_event(at), 2)]);
        }
        for (at, limit) in pairs {
            malformed_pair(run, of_event(at), limit, bad(8, place), call);
        }
    }
}

/// A pair that is unset and holds something, and for some calls a flag of 2 with a
/// number that is out of bounds, too.
fn malformed_pair(run: &mut Run, at: usize, limit: u64, reply: u64, call: Call) {
    run.expect_words(reply, call, &[(at, 0), (at + 1, 1)]);
    if let Call::Event(_) | Call::Finish = call {
        run.expect_words(reply, call, &[(at, 2), (at + 1, limit + 1)]);
    }
}

/// Each flag and each pair of the sampler's answer, and the count of acked numbers.
fn malformed_samples(run: &mut Run) {
    let event = event(run);
    for (at, limit) in [
        (sample::SAMPLE_MAX_BANDWIDTH_SET, BANDWIDTH),
        (sample::SAMPLE_MAX_SEND_RATE_SET, BANDWIDTH),
        (sample::SAMPLE_MAX_ACK_RATE_SET, BANDWIDTH),
        (sample::SAMPLE_RTT_SET, LENGTH),
    ] {
        malformed_pair(run, at, limit, bad(8, 3), event);
    }
    for at in [
        sample::SAMPLE_IS_APP_LIMITED,
        sample::LAST_PACKET_SEND_STATE_IS_VALID,
        sample::LAST_PACKET_SEND_STATE_IS_APP_LIMITED,
    ] {
        run.expect_words(bad(8, 3), event, &[(at, 2)]);
    }
    for count in [4, u64::MAX] {
        run.expect_words(bad(8, 1), event, &[(sample::ACKED_COUNT, count)]);
    }
}

/// Each gain with a bit above the 32nd, whose others are a gain or none, and the
/// flags.
fn malformed_arguments(run: &mut Run) {
    use argument::*;
    let bdp = Call::Bdp {
        bandwidth: 1000,
        gain: 1.0,
    };
    for (call, at, place) in [
        (
            Call::PersistentQueue { gain: 1.0 },
            check_persistent_queue::TARGET_GAIN,
            1,
        ),
        (bdp, bdp::GAIN, 2),
        (Call::SetPacingGain(1.0), set_pacing_gain::PACING_GAIN, 1),
        (Call::SetCwndGain(1.0), set_cwnd_gain::CWND_GAIN, 1),
    ] {
        for bits in [ONE, NAN] {
            run.expect_words(bad(8, place), call, &[(at, HIGH + bits)]);
        }
    }
    let too_high = (enter_probe_down::PROBED_TOO_HIGH, 2);
    let risky = (enter_probe_down::STOPPED_RISKY_PROBE, u64::MAX);
    run.expect_words(bad(8, 1), DOWN, &[too_high]);
    run.expect_words(bad(8, 2), DOWN, &[risky]);
}

/// Phase entries at the last moment.
const DOWN: Call = Call::ProbeDown {
    too_high: false,
    risky: false,
    moment: 1000,
};
const REFILL: Call = Call::ProbeRefill {
    rounds: 2,
    moment: 1000,
};
const UP: Call = Call::ProbeUp {
    moment: 1000,
    cwnd: 26_000,
};

/// Malformed parameters have no name: 1, also where an argument is at fault.
fn malformed_parameters(run: &mut Run) {
    let option = params::IGNORE_APP_LIMITED_FOR_NO_BANDWIDTH_GROWTH;
    for (at, word) in [
        (params::BETA, HIGH + ONE / 2),
        (params::LOSS_THRESHOLD, HIGH),
        (params::INFLIGHT_HI_HEADROOM, HIGH),
        (params::FULL_BW_THRESHOLD, HIGH + ONE),
        (params::STARTUP_CWND_GAIN, HIGH + ONE),
        (params::STARTUP_PACING_GAIN, HIGH + ONE),
        (option, 2),
    ] {
        run.expect_words(1, Call::WithHeadroom, &[(PARAMS_IN_CALL + at, word)]);
    }
    let malformed = (PARAMS_IN_CALL + option, 2);
    let window = (of_event(event::PRIOR_CWND), BYTES + 1);
    for (_, call) in with_record(event(run)) {
        match call {
            // It takes no parameters.
            Call::Finish => run.expect_words(bad(1, 1), call, &[window, malformed]),
            _ => run.expect_words(1, call, &[window, malformed]),
        }
    }
    let queue = argument::check_persistent_queue::TARGET_GAIN;
    let too_high = argument::enter_probe_down::PROBED_TOO_HIGH;
    let gain = Call::PersistentQueue { gain: 1.0 };
    run.expect_words(1, gain, &[(queue, NAN), malformed]);
    run.expect_words(1, DOWN, &[(too_high, 2), malformed]);
}

/// Numbers that are no call's.
fn no_calls(run: &mut Run) {
    for number in [2, 39, 51, 100, HIGH + 1, u64::MAX] {
        run.expect_words(bad(8, 0), Call::Bdp0, &[(NUMBER_IN_CALL, number)]);
    }
}

/// Several arguments at fault: the first is named, and not the lowest kind.
fn two_arguments(run: &mut Run) {
    use argument::*;
    let sent = Call::Sent {
        moment: 1000,
        in_flight: 0,
        number: UNSET,
        bytes: 0,
    };
    let moment = (on_packet_sent::SENT_TIME, MOMENT + 1);
    let in_flight = (on_packet_sent::BYTES_IN_FLIGHT, BYTES + 1);
    let bytes = (on_packet_sent::BYTES, BYTES + 1);
    run.expect_words(bad(9, 1), sent, &[moment, in_flight]);
    run.expect_words(bad(9, 1), sent, &[moment, bytes]);
    run.expect_words(bad(2, 2), sent, &[in_flight, bytes]);
    run.expect_words(bad(9, 1), sent, &[moment, in_flight, bytes]);

    let bdp = Call::Bdp {
        bandwidth: 1000,
        gain: 1.0,
    };
    let bandwidth = (bdp::BANDWIDTH, BANDWIDTH + 1);
    run.expect_words(bad(3, 1), bdp, &[bandwidth, (bdp::GAIN, NAN)]);
    run.expect_words(bad(3, 1), bdp, &[bandwidth, (bdp::GAIN, HIGH + ONE)]);

    let too_high = (enter_probe_down::PROBED_TOO_HIGH, 2);
    let risky = (enter_probe_down::STOPPED_RISKY_PROBE, 2);
    let down = (enter_probe_down::NOW, MOMENT + 1);
    run.expect_words(bad(8, 1), DOWN, &[too_high, risky]);
    run.expect_words(bad(8, 1), DOWN, &[too_high, down]);
    run.expect_words(bad(8, 2), DOWN, &[risky, down]);

    let rounds = (enter_probe_refill::PROBE_UP_ROUNDS, UP_ROUNDS + 1);
    let refill = (enter_probe_refill::NOW, MOMENT + 1);
    run.expect_words(bad(6, 1), REFILL, &[rounds, refill]);
    let up = (enter_probe_up::NOW, MOMENT + 1);
    let cwnd = (enter_probe_up::CWND, BYTES + 1);
    run.expect_words(bad(9, 1), UP, &[up, cwnd]);
}

/// Words of the record that are at fault.
const TIME: (usize, u64) = (of_event(event::EVENT_TIME), MOMENT + 1);
const WINDOW: (usize, u64) = (of_event(event::PRIOR_CWND), BYTES + 1);
const LOST: (usize, u64) = (of_event(event::BYTES_LOST), TOTAL + 1);
const ENDED: (usize, u64) = (of_event(event::END_OF_ROUND_TRIP), 2);
const VALID: (usize, u64) = (of_event(event::LAST_PACKET_SEND_STATE_IS_VALID), 2);
const SENT_TOTAL: (usize, u64) = (
    of_event(event::LAST_PACKET_SEND_STATE_TOTAL_BYTES_ACKED),
    TOTAL + 1,
);
const SENT_BYTES: (usize, u64) = (
    of_event(event::LAST_PACKET_SEND_STATE_BYTES_IN_FLIGHT),
    BYTES + 1,
);

/// Several fields of the record at fault: the first is named, malformed or out of
/// bounds.
fn two_fields(run: &mut Run) {
    let set = of_event(event::SAMPLE_MAX_BANDWIDTH_SET);
    let bandwidth = [(set, 1), (set + 1, BANDWIDTH + 1)];
    let set = of_event(event::SAMPLE_MIN_RTT_SET);
    let rtt = [(set, 0), (set + 1, LENGTH + 1)];
    for (place, call) in with_record(event(run)) {
        run.expect_words(bad(9, place), call, &[TIME, WINDOW]);
        run.expect_words(bad(1, place), call, &[WINDOW, ENDED]);
        run.expect_words(bad(8, place), call, &[ENDED, SENT_TOTAL]);
    }
    let call = Call::Finish;
    run.expect_words(bad(5, 1), call, &[LOST, SENT_BYTES]);
    run.expect_words(bad(5, 1), call, &[SENT_TOTAL, SENT_BYTES]);
    run.expect_words(bad(3, 1), call, &[bandwidth[0], bandwidth[1], VALID]);
    run.expect_words(bad(8, 1), call, &[rtt[0], rtt[1], SENT_BYTES]);
    run.expect_words(bad(8, 1), call, &[VALID, SENT_BYTES]);
    // Of a send state that is valid.
    let valid = (of_event(event::LAST_PACKET_SEND_STATE_IS_VALID), 1);
    run.expect_words(bad(5, 1), call, &[valid, SENT_TOTAL]);
}

/// An event of which acked numbers, record and sample, or several fields of the
/// sample, are at fault.
fn events_with_two(run: &mut Run) {
    let call = event(run);
    let acked = (sample::ACKED_COUNT, 4);
    let bandwidth = [
        (sample::SAMPLE_MAX_BANDWIDTH_SET, 1),
        (sample::SAMPLE_MAX_BANDWIDTH, BANDWIDTH + 1),
    ];
    let rtt = [
        (sample::SAMPLE_RTT_SET, 1),
        (sample::SAMPLE_RTT, LENGTH + 1),
    ];
    let limited = (sample::SAMPLE_IS_APP_LIMITED, 2);
    let extra = (sample::EXTRA_ACKED, BYTES + 1);
    let valid = (sample::LAST_PACKET_SEND_STATE_IS_VALID, 2);
    let total = (sample::TOTAL_BYTES_ACKED, TOTAL + 1);
    run.expect_words(bad(8, 1), call, &[acked, WINDOW]);
    run.expect_words(bad(8, 1), call, &[acked, bandwidth[0], bandwidth[1]]);
    run.expect_words(bad(1, 2), call, &[WINDOW, bandwidth[0], bandwidth[1]]);
    run.expect_words(bad(9, 2), call, &[TIME, extra]);
    run.expect_words(bad(5, 2), call, &[SENT_TOTAL, bandwidth[0], bandwidth[1]]);
    run.expect_words(bad(8, 2), call, &[VALID, extra]);
    run.expect_words(bad(2, 2), call, &[SENT_BYTES, limited]);

    run.expect_words(bad(4, 3), call, &[rtt[0], rtt[1], extra]);
    run.expect_words(bad(3, 3), call, &[bandwidth[0], bandwidth[1], limited]);
    run.expect_words(bad(8, 3), call, &[limited, extra]);
    run.expect_words(bad(2, 3), call, &[extra, valid]);
    run.expect_words(bad(8, 3), call, &[valid, total]);
}

/// Where a stored number is out of bounds nothing is named.
fn with_row_1(run: &mut Run) {
    let slot = run.state[SLOT_1];
    let call = event(run);
    run.put(vec![(SLOT_1, BANDWIDTH + 1)]);
    run.expect_words(1, Call::Bdp0, &[(NUMBER_IN_CALL, 39)]);
    run.expect_words(1, call, &[WINDOW]);
    run.expect_words(1, call, &[ENDED]);
    // The slope of the cycle isn't given the model.
    run.expect(bad(1, 1), Call::RaiseSlope { cwnd: BYTES + 1 });
    run.put(vec![(SLOT_1, slot)]);
}

/// The round trip of a start is its first argument, and its second word.
fn starts(run: &mut Run) {
    let start = Call::Start(Host::usual_start());
    let now = (argument::start::NOW, MOMENT + 1);
    let rtt = (argument::start::INITIAL_RTT, LENGTH + 1);
    let option = PARAMS_IN_CALL + params::IGNORE_APP_LIMITED_FOR_NO_BANDWIDTH_GROWTH;
    run.expect_words(bad(4, 1), start, &[now, rtt]);
    run.expect_words(1, start, &[now, rtt, (option, 2)]);
}

/// Pairs that are no whole number of sixteen bytes, and a window of the slope, alone
/// and beside other rows.
fn exported(run: &mut Run) {
    let words = [7, 5, 3, 5, 9, 9];
    for (length, lent) in [(47, MEMORY), (17, 0)] {
        let step = Step::FilterRun {
            window: 8,
            length,
            lent: lent as u64,
            words: words[..length.div_ceil(8) as usize].to_vec(),
        };
        run.expect_step(bad(8, 2), step);
    }
    let most = UP_ROUNDS;
    for (reply, rounds, window, lent) in [
        (0, most, BYTES, SLOPE_BYTES),
        (bad(1, 2), most, BYTES + 1, SLOPE_BYTES),
        (bad(1, 2), 0, u64::MAX, SLOPE_BYTES),
        (bad(1, 2), most, BYTES + 1, 0),
        (1, most + 1, BYTES + 1, SLOPE_BYTES),
    ] {
        let lent = lent as u64;
        let step = Step::Slope {
            rounds,
            window,
            lent,
        };
        run.expect_step(reply, step);
    }
}
