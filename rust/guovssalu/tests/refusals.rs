//! Refusals: each row at its limit and just past it, by the methods, and malformed words, which no
//! method writes, by a run. A refused call changes nothing, but for a start in a run, which leaves a
//! fresh state at moment 0.

use guovssalu::raise_inflight_high_slope;
use guovssalu::run;
use guovssalu::run_lists;
use guovssalu::table;
use guovssalu::table::argument;
use guovssalu::table::argument::bdp;
use guovssalu::table::argument::check_persistent_queue;
use guovssalu::table::argument::enter_probe_down;
use guovssalu::table::argument::set_cwnd_gain;
use guovssalu::table::argument::set_pacing_gain;
use guovssalu::table::call;
use guovssalu::table::event;
use guovssalu::table::params;
use guovssalu::table::phase;
use guovssalu::table::sample;
use guovssalu::table::state;
use guovssalu::table::EVENT_IN_CALL as EVENT;
use guovssalu::table::PARAMS_IN_CALL as PARAMS;
use guovssalu::table::WORD_BYTES as WORD;
use guovssalu::Answer;
use guovssalu::Bandwidth;
use guovssalu::Call;
use guovssalu::CongestionEvent;
use guovssalu::Cycle;
use guovssalu::Duration;
use guovssalu::Fault;
use guovssalu::FaultKind;
use guovssalu::Moment;
use guovssalu::NetworkModel;
use guovssalu::Params;
use guovssalu::Refusal;
use guovssalu::Sample;
use guovssalu::STATE_BYTES;

const MOST_BYTES: u64 = 1 << 40;
const MOST_BANDWIDTH: u64 = 1 << 40;
const MOST_MOMENT: u64 = 1 << 62;
const MOST_LENGTH: u64 = 1 << 36;

/// The refusal of an argument: the kind of its bound, and its place.
fn bad(kind: FaultKind, place: u8) -> Refusal {
    Refusal::BadArgument(Fault::new(kind, place))
}

/// The reply of a malformed argument at a place.
fn malformed(place: u64) -> u64 {
    2 + 256 * 8 + 65_536 * place
}

/// The reply of an event with too large a window.
const WIDE: u64 = 2 + 256 + 65_536 * 2;

fn moment(nanos: u64) -> Moment {
    Moment::from_nanos(nanos)
}

fn fresh() -> NetworkModel {
    let round_trip = Duration::from_millis(100);
    NetworkModel::new(&Params::default(), round_trip, moment(10)).unwrap()
}

/// A fresh model that has sent these packets, one after the other.
fn having_sent(packets: &[u64]) -> NetworkModel {
    let mut model = fresh();
    for packet in packets {
        model.on_packet_sent(moment(11), 0, *packet, 1300).unwrap();
    }
    model
}

/// The model with one word of its state changed.
fn with(model: NetworkModel, at: usize, word: u64) -> NetworkModel {
    NetworkModel::from_bytes(&changed(model.as_bytes(), at, word)).unwrap()
}

fn changed(bytes: &[u8], at: usize, word: u64) -> Vec<u8> {
    let mut bytes = bytes.to_vec();
    bytes[WORD * at..][..WORD].copy_from_slice(&word.to_le_bytes());
    bytes
}

/// Makes the call, which has to be refused with this row and leave the model.
fn refused<T: std::fmt::Debug>(
    mut model: NetworkModel,
    refusal: Refusal,
    call: impl FnOnce(&mut NetworkModel) -> Result<T, Refusal>,
) {
    let before = model.clone();
    assert_eq!(call(&mut model).err(), Some(refusal));
    assert!(model == before, "a refused call changed the model");
}

/// Makes the call, which has to be done and change the model.
fn done(mut model: NetworkModel, call: impl FnOnce(&mut NetworkModel) -> Result<(), Refusal>) {
    let before = model.clone();
    assert_eq!(call(&mut model), Ok(()));
    assert!(model != before, "a call that was done left the model");
}

#[test]
fn parameters_at_their_bounds() {
    let start = |params: &Params| NetworkModel::new(params, Duration::ZERO, moment(0)).err();
    let beta = |beta: f32| Params {
        beta,
        ..Params::default()
    };
    assert_eq!(start(&beta(1.0 / 1024.0)), None);
    assert_eq!(start(&beta(1023.0 / 1024.0)), None);
    let least = (1.0f32 / 1024.0).to_bits();
    let most = (1023.0f32 / 1024.0).to_bits();
    for bad in [
        f32::from_bits(least - 1),
        f32::from_bits(most + 1),
        0.0,
        -0.3,
        f32::NAN,
        f32::INFINITY,
    ] {
        assert_eq!(start(&beta(bad)), Some(Refusal::OutOfBounds));
    }
    let period = |nanos: u64| Params {
        probe_rtt_period: Duration::from_nanos(nanos),
        ..Params::default()
    };
    assert_eq!(start(&period(MOST_LENGTH)), None);
    assert_eq!(start(&period(MOST_LENGTH + 1)), Some(Refusal::OutOfBounds));
}

#[test]
fn starts_at_their_bounds() {
    let params = Params::default();
    let start = |rtt: u64, now: u64| {
        let rtt = Duration::from_nanos(rtt);
        NetworkModel::new(&params, rtt, moment(now)).err()
    };
    assert_eq!(start(MOST_LENGTH, MOST_MOMENT), None);
    let (long, late) = (bad(FaultKind::Length, 1), bad(FaultKind::Moment, 2));
    assert_eq!(start(MOST_LENGTH + 1, 0), Some(long));
    assert_eq!(start(0, MOST_MOMENT + 1), Some(late));
    assert!(Cycle::new(moment(MOST_MOMENT)).is_ok());
    let cycle = Cycle::new(moment(MOST_MOMENT + 1));
    assert_eq!(cycle.err(), Some(bad(FaultKind::Moment, 1)));
}

#[test]
fn arguments_at_their_bounds() {
    let sent = |now: u64, in_flight: u64, bytes: u64| {
        move |model: &mut NetworkModel| model.on_packet_sent(moment(now), in_flight, 5, bytes)
    };
    done(fresh(), sent(MOST_MOMENT, MOST_BYTES, MOST_BYTES));
    let bytes = |place: u8| bad(FaultKind::ByteCount, place);
    let late = bad(FaultKind::Moment, 1);
    refused(fresh(), late, sent(MOST_MOMENT + 1, 0, 0));
    refused(fresh(), bytes(2), sent(10, MOST_BYTES + 1, 0));
    refused(fresh(), bytes(4), sent(10, 0, MOST_BYTES + 1));
    refused(fresh(), bytes(4), sent(10, 0, u64::MAX));

    let gain = |gain: f32| move |model: &mut NetworkModel| model.set_pacing_gain(gain);
    done(fresh(), gain(8.0));
    done(fresh(), gain(1.0 / 1024.0));
    for no_gain in [8.000001, -1.0, f32::NAN] {
        refused(fresh(), bad(FaultKind::Gain, 1), gain(no_gain));
    }

    let high = |bytes: u64| move |model: &mut NetworkModel| model.set_inflight_hi(bytes);
    done(fresh(), high(MOST_BYTES));
    let limited = with(fresh(), state::INFLIGHT_HI, 7);
    done(limited, high(NetworkModel::UNSET));
    refused(fresh(), bytes(1), high(MOST_BYTES + 1));
    refused(fresh(), bytes(1), high(NetworkModel::UNSET - 1));

    let bdp1 = |bits: u64| fresh().bdp1(Bandwidth::from_bits_per_second(bits));
    assert!(bdp1(MOST_BANDWIDTH).is_ok());
    let fast = bad(FaultKind::Bandwidth, 1);
    assert_eq!(bdp1(MOST_BANDWIDTH + 1), Err(fast));

    let later = |nanos: u64| {
        let length = Duration::from_nanos(nanos);
        move |model: &mut NetworkModel| model.postpone_min_rtt_timestamp(length)
    };
    done(fresh(), later(MOST_LENGTH));
    refused(fresh(), bad(FaultKind::Length, 1), later(MOST_LENGTH + 1));
    let old = || with(fresh(), state::MIN_RTT_TIMESTAMP, MOST_MOMENT - 1);
    done(old(), later(1));
    refused(old(), late, later(2));
}

#[test]
fn a_stored_number_out_of_bounds_is_refused_by_every_call() {
    let slot = |bits: u64| with(fresh(), state::MAX_BANDWIDTH_0, bits);
    let model = || slot(MOST_BANDWIDTH + 1);
    let row = Refusal::OutOfBounds;
    refused(model(), row, |model| {
        model.on_packet_sent(moment(0), 0, 1, 1)
    });
    refused(model(), row, |model| model.restart_round_early());
    assert_eq!(model().inflight_lo(), Err(row));
    assert_eq!(model().queueing_threshold_extra_bytes(), Err(row));
    // The lowest row is given: the argument is bad, too.
    refused(model(), row, |model| model.set_pacing_gain(f32::NAN));
    done(slot(MOST_BANDWIDTH), |model| {
        model.on_packet_sent(moment(10), 0, 1, 1)
    });
}

#[test]
fn moments_may_not_fall() {
    let sent =
        |now: u64| move |model: &mut NetworkModel| model.on_packet_sent(moment(now), 0, 1, 1);
    done(fresh(), sent(10));
    refused(fresh(), Refusal::EarlierMoment, sent(9));

    // The entries share the last accepted moment; model and cycle stay as they were.
    let mut model = fresh();
    let mut cycle = Cycle::new(moment(10)).unwrap();
    let (model_before, cycle_before) = (model.clone(), cycle.clone());
    let early = cycle.enter_probe_up(&mut model, moment(9), 26_000);
    assert_eq!(early, Err(Refusal::EarlierMoment));
    assert!(model == model_before && cycle == cycle_before);
    assert_eq!(cycle.enter_probe_up(&mut model, moment(11), 26_000), Ok(()));
    assert_eq!(model.last_accepted_moment(), moment(11));
    assert_eq!(cycle.phase_start_time(), moment(11));
}

/// An event of these totals at moment 20.
fn event(model: &mut NetworkModel, acked: &[u64], totals: (u64, u64)) -> Result<(), Refusal> {
    let mut event = CongestionEvent::new(moment(20), 1300, 1300, false);
    let before = event;
    let sample = Sample {
        total_bytes_acked: totals.0,
        total_bytes_lost: totals.1,
        ..Sample::default()
    };
    let reply = model.on_congestion_event_start(acked, &mut event, &sample, &Params::default());
    assert_eq!(reply.is_err(), event == before);
    reply
}

#[test]
fn totals_may_not_fall() {
    let model = || {
        let mut model = having_sent(&[1, 2]);
        event(&mut model, &[1], (1000, 500)).unwrap();
        model
    };
    refused(model(), Refusal::LowerTotal, |model| {
        event(model, &[2], (999, 500))
    });
    refused(model(), Refusal::LowerTotal, |model| {
        event(model, &[2], (1000, 499))
    });
    done(model(), |model| event(model, &[2], (1001, 500)));
}

#[test]
fn counters_may_be_full() {
    // An event that ends a round is refused, one that ends none is not.
    let rounds = |count: u64| with(having_sent(&[9]), state::ROUND_TRIP_COUNT, count);
    refused(rounds(u64::MAX), Refusal::FullCounter, |model| {
        event(model, &[1], (1000, 0))
    });
    done(rounds(u64::MAX), |model| event(model, &[], (1000, 0)));
    done(rounds(u64::MAX - 1), |model| event(model, &[1], (1000, 0)));

    // Where the end is 7, by the greatest number.
    let full = || {
        let set = with(rounds(u64::MAX), state::END_OF_ROUND_TRIP_SET, 1);
        with(set, state::END_OF_ROUND_TRIP, 7)
    };
    for acked in [&[8][..], &[8, 1], &[1, 8, 2, 3, 4]] {
        refused(full(), Refusal::FullCounter, |model| {
            event(model, acked, (1000, 0))
        });
    }
    for acked in [&[][..], &[7], &[7, 1], &[1, 7, 2, 3, 4]] {
        done(full(), |model| event(model, acked, (1000, 0)));
    }
}

/// An event that acks these packets and raises the total acked.
fn acks(acked: &[u64]) -> impl Fn(&mut NetworkModel) -> Result<(), Refusal> + '_ {
    move |model| event(model, acked, (1000, 0))
}

/// Numbers acked go up to the last one sent, and there is none before the first send.
#[test]
fn acked_numbers_were_sent() {
    let never = Refusal::NeverSent;
    let most = u64::MAX;
    for acked in [&[0][..], &[1], &[most], &[0, 0, 0, 0]] {
        refused(fresh(), never, acks(acked));
    }
    done(fresh(), acks(&[]));
    for last in [0, 1, 9, most - 1] {
        for acked in [&[][..], &[0], &[last], &[last, 0], &[0, 0, last, 0, 0]] {
            done(having_sent(&[last]), acks(acked));
        }
        let next = last + 1;
        for acked in [&[next][..], &[most], &[next, last], &[0, 0, next, 0, 0]] {
            refused(having_sent(&[last]), never, acks(acked));
        }
    }
    done(having_sent(&[most]), acks(&[most]));
}

/// The number of the last send counts, also where a greater one was sent before it.
#[test]
fn the_last_sent_number_counts_and_not_the_greatest() {
    let fallen = || having_sent(&[5, 3]);
    assert_eq!(fallen().last_sent_packet(), 3);
    done(fallen(), acks(&[3]));
    refused(fallen(), Refusal::NeverSent, acks(&[4]));
    refused(fallen(), Refusal::NeverSent, acks(&[5]));
    done(having_sent(&[5, 3, 6]), acks(&[5]));
}

/// In restored words the note can be missing where a packet was sent: then no number is acked until a
/// send is done. Or it stands with a last number of 0, as after a send of packet 0.
#[test]
fn the_note_counts_and_not_the_last_number_alone() {
    let noted = |model: NetworkModel, note: u64| with(model, state::ANYTHING_SENT, note);
    let never = Refusal::NeverSent;
    let missing = || noted(having_sent(&[5]), 0);
    for acked in [&[0][..], &[5], &[6]] {
        refused(missing(), never, acks(acked));
    }
    done(missing(), acks(&[]));
    let mut model = missing();
    let early = model.on_packet_sent(moment(9), 0, 5, 1300);
    assert_eq!(early, Err(Refusal::EarlierMoment));
    assert!(!model.anything_sent());
    model.on_packet_sent(moment(11), 0, 5, 1300).unwrap();
    assert!(model.anything_sent() && model == having_sent(&[5]));

    done(noted(fresh(), 1), acks(&[0]));
    refused(noted(fresh(), 1), never, acks(&[1]));
}

/// A restart of the round before the first send sets its end to 0, and is no send.
#[test]
fn a_restart_before_a_send() {
    let mut model = fresh();
    assert_eq!(model.end_of_round_trip(), None);
    model.restart_round_early().unwrap();
    assert_eq!(model.end_of_round_trip(), Some(0));
    assert!(!model.anything_sent());
    refused(model.clone(), Refusal::NeverSent, acks(&[0]));
    done(model, acks(&[]));
}

#[test]
fn the_slope() {
    assert_eq!(raise_inflight_high_slope(0, 26_000), Ok((1, 26_000)));
    assert_eq!(raise_inflight_high_slope(1, 26_000), Ok((2, 13_000)));
    assert_eq!(raise_inflight_high_slope(30, 26_000), Ok((30, 1_300)));
    let over = raise_inflight_high_slope(31, 26_000);
    assert_eq!(over, Err(Refusal::OutOfBounds));
    assert_eq!(
        raise_inflight_high_slope(0, MOST_BYTES),
        Ok((1, MOST_BYTES))
    );
    let wide = raise_inflight_high_slope(0, MOST_BYTES + 1);
    assert_eq!(wide, Err(bad(FaultKind::Window, 2)));

    // The cycle's own, which is given no model.
    let mut cycle = Cycle::new(moment(0)).unwrap();
    assert_eq!(cycle.probe_up_bytes(), None);
    assert_eq!(cycle.raise_inflight_high_slope(26_000), Ok(()));
    assert_eq!(cycle.probe_up_bytes(), Some(26_000));
    assert_eq!(cycle.raise_inflight_high_slope(26_000), Ok(()));
    assert_eq!(
        (cycle.probe_up_rounds(), cycle.probe_up_bytes()),
        (2, Some(13_000))
    );
    let before = cycle.clone();
    let wide = cycle.raise_inflight_high_slope(MOST_BYTES + 1);
    assert_eq!(wide, Err(bad(FaultKind::Window, 1)));
    assert!(cycle == before);
}

#[test]
fn only_bytes_of_a_state_are_taken() {
    let model = fresh();
    let taken = |at: usize, word: u64| {
        NetworkModel::from_bytes(&changed(model.as_bytes(), at, word)).map(|_| ())
    };
    let none = Err(Refusal::OutOfBounds);
    // A flag that is neither 0 nor 1.
    assert_eq!(taken(state::INFLIGHT_HI_LIMITED_IN_ROUND, 1), Ok(()));
    assert_eq!(taken(state::INFLIGHT_HI_LIMITED_IN_ROUND, 2), none);
    assert_eq!(taken(state::ANYTHING_SENT, 1), Ok(()));
    assert_eq!(taken(state::ANYTHING_SENT, 2), none);
    // A number that was sent last, and a note that nothing was: a flag has no bounds.
    assert_eq!(taken(state::LAST_SENT_PACKET, 5), Ok(()));
    // An unset thing with a number.
    assert_eq!(taken(state::END_OF_ROUND_TRIP, 1), none);
    assert_eq!(taken(state::BANDWIDTH_LO, 1), none);
    // A gain: its high bits, and the patterns of a NaN but one.
    assert_eq!(taken(state::CWND_GAIN, 0x3f80_0000), Ok(()));
    assert_eq!(taken(state::CWND_GAIN, 0x1_3f80_0000), none);
    assert_eq!(taken(state::CWND_GAIN, 0x7fc0_0000), Ok(()));
    assert_eq!(taken(state::CWND_GAIN, 0x7fc0_0001), none);
    assert_eq!(taken(state::CWND_GAIN, 0xffc0_0000), none);

    let cycle = Cycle::new(moment(3)).unwrap();
    let taken = |at: usize, word: u64| {
        let bytes = changed(cycle.as_bytes(), at - table::CYCLE_IN_STATE, word);
        Cycle::from_bytes(&bytes).map(|_| ())
    };
    assert_eq!(taken(state::PHASE, 4), Ok(()));
    assert_eq!(taken(state::PHASE, 5), none);
    assert_eq!(taken(state::PROBE_WAIT_TIME, 1), none);
    assert_eq!(taken(state::LAST_CYCLE_STOPPED_RISKY_PROBE, 2), none);

    // Lengths.
    let length = Some(bad(FaultKind::ListLength, 1));
    let bytes = model.as_bytes();
    assert_eq!(NetworkModel::from_bytes(&bytes[1..]).err(), length);
    assert_eq!(NetworkModel::from_bytes(&[]).err(), length);
    assert_eq!(Cycle::from_bytes(bytes).err(), length);
    // What is taken is what was kept.
    assert!(NetworkModel::from_bytes(bytes).as_ref() == Ok(&model));
    assert!(Cycle::from_bytes(cycle.as_bytes()).as_ref() == Ok(&cycle));
}

#[test]
fn of_many_packets_acked_the_greatest_counts() {
    let after = |acked: &[u64]| {
        let mut model = having_sent(&[7]);
        event(&mut model, &[1], (1, 0)).unwrap();
        model.on_packet_sent(moment(20), 0, 8, 1300).unwrap();
        event(&mut model, acked, (2, 0)).unwrap();
        model.round_trip_count()
    };
    assert_eq!(after(&[]), 1);
    assert_eq!(after(&[7]), 1);
    assert_eq!(after(&[8]), 2);
    assert_eq!(after(&[1, 2, 3, 4, 8]), 2);
    assert_eq!(after(&[8, 1, 2, 3, 4]), 2);
    assert_eq!(after(&[1, 8, 2]), 2);
    assert_eq!(after(&[7, 6, 5, 4, 3]), 1);
}

/// A state with a model and a cycle at moment 10, in which nothing was sent.
fn started() -> [u8; STATE_BYTES] {
    let mut state = [0; STATE_BYTES];
    let start = Call::new(call::START, &[10, 100_000_000]).with_params(&Params::default());
    assert_eq!(reply(&mut state, start.as_bytes()), 0);
    state
}

/// The same after packet 5 was sent.
fn sent() -> [u8; STATE_BYTES] {
    let mut state = started();
    let send = Call::new(call::ON_PACKET_SENT, &[10, 0, 5, 1200]);
    assert_eq!(reply(&mut state, send.as_bytes()), 0);
    state
}

/// A state with one word changed.
fn stored(state: [u8; STATE_BYTES], at: usize, word: u64) -> [u8; STATE_BYTES] {
    changed(&state, at, word).try_into().unwrap()
}

/// The reply to one call in a state. By a run with no lists it is the same, and so is the state.
fn reply(state: &mut [u8; STATE_BYTES], call: &[u8]) -> u64 {
    let mut other = *state;
    let number = reply_in(&mut other, call, &[]);
    let mut answer = [0x77; Answer::BYTES];
    assert_eq!(run(state, call, &mut answer), Ok(()));
    assert_eq!(word(&answer, table::REPLY_IN_ANSWER), number);
    assert!(*state == other);
    number
}

/// The reply to one call in a state, with these lists; where it is refused, and no start, the state has
/// to stay.
fn reply_in(state: &mut [u8; STATE_BYTES], call: &[u8], lists: &[u64]) -> u64 {
    let before = *state;
    let mut answer = [0x77; Answer::BYTES];
    assert_eq!(run_lists(state, call, lists, &mut answer), Ok(()));
    let number = word(&answer, table::REPLY_IN_ANSWER);
    let starts = word(call, table::NUMBER_IN_CALL) == call::START;
    assert!(number == 0 || starts || *state == before);
    number
}

/// A good call of a number at moment 20, with all that it takes.
fn good(number: u64) -> Call {
    let params = Params::default();
    let event = CongestionEvent::new(moment(20), 1300, 1300, false);
    if number == call::ON_CONGESTION_EVENT_START {
        return Call::on_congestion_event_start(&[1], &event, &Sample::default(), &params);
    }
    let one = 1.0f32.to_bits() as u64;
    let arguments: &[u64] = match number {
        call::START => &[20, 100_000_000],
        call::ON_PACKET_SENT => &[20, 0, 5, 1200],
        call::CHECK_PERSISTENT_QUEUE | call::SET_PACING_GAIN | call::SET_CWND_GAIN => &[one],
        call::BDP => &[1_000_000, one],
        call::ENTER_PROBE_DOWN => &[0, 1, 20],
        call::ENTER_PROBE_CRUISE => &[20],
        call::ENTER_PROBE_REFILL => &[2, 20],
        call::ENTER_PROBE_UP => &[20, 26_000],
        _ => &[],
    };
    let call = Call::new(number, arguments);
    call.with_event(&event).with_params(&params)
}

/// The reply to a good call in which some words are others.
fn reply_with(number: u64, words: &[(usize, u64)]) -> u64 {
    let mut call = good(number).as_bytes().to_vec();
    for &(at, word) in words {
        call = changed(&call, at, word);
    }
    reply(&mut sent(), &call)
}

const NOT_FLAGS: [u64; 5] = [2, 3, 255, 1 << 32, u64::MAX];
const NOT_PAIRS: [(u64, u64); 5] = [(0, 1), (0, u64::MAX), (2, 0), (2, 5), (u64::MAX, 1)];

/// The flags and the pairs of the event's record.
const RECORD_FLAGS: [usize; 4] = [
    EVENT + event::END_OF_ROUND_TRIP,
    EVENT + event::IS_PROBING_FOR_BANDWIDTH,
    EVENT + event::LAST_PACKET_SEND_STATE_IS_VALID,
    EVENT + event::LAST_PACKET_SEND_STATE_IS_APP_LIMITED,
];
const RECORD_PAIRS: [usize; 2] = [
    EVENT + event::SAMPLE_MAX_BANDWIDTH_SET,
    EVENT + event::SAMPLE_MIN_RTT_SET,
];

/// The flags and the pairs of what the sampler says, and an event's start.
const SAMPLE_FLAGS: [usize; 3] = [
    sample::SAMPLE_IS_APP_LIMITED,
    sample::LAST_PACKET_SEND_STATE_IS_VALID,
    sample::LAST_PACKET_SEND_STATE_IS_APP_LIMITED,
];
const SAMPLE_PAIRS: [usize; 4] = [
    sample::SAMPLE_MAX_BANDWIDTH_SET,
    sample::SAMPLE_MAX_SEND_RATE_SET,
    sample::SAMPLE_MAX_ACK_RATE_SET,
    sample::SAMPLE_RTT_SET,
];
const EVENT_START: u64 = call::ON_CONGESTION_EVENT_START;

/// The place of the event's record among a call's arguments: before it an event's start has the acked
/// numbers. After it the start has what the sampler says, at place 3.
fn record_place(call: u64) -> u64 {
    if call == EVENT_START {
        2
    } else {
        1
    }
}

#[test]
fn flags_are_0_or_1() {
    let down = call::ENTER_PROBE_DOWN;
    let mut places: Vec<(u64, usize, u64)> = vec![
        (down, enter_probe_down::PROBED_TOO_HIGH, 1),
        (down, enter_probe_down::STOPPED_RISKY_PROBE, 2),
    ];
    places.extend(SAMPLE_FLAGS.map(|at| (EVENT_START, at, 3)));
    let reading = call::READ_EVENT.iter();
    places.extend(reading.flat_map(|&call| RECORD_FLAGS.map(|at| (call, at, record_place(call)))));
    for (call, at, place) in places {
        let reply = |word: u64| reply_with(call, &[(at, word)]);
        assert_eq!(reply(0), 0, "call {}, word {}", call, at);
        assert_eq!(reply(1), 0, "call {}, word {}", call, at);
        for word in NOT_FLAGS {
            assert_eq!(reply(word), malformed(place), "call {}, word {}", call, at);
        }
    }
}

/// Where no lists are lent.
#[test]
fn counts_are_0_to_3() {
    for count in 0..4 {
        assert_eq!(reply_with(EVENT_START, &[(sample::ACKED_COUNT, count)]), 0);
    }
    for count in [4, 5, 7, 1 << 32, u64::MAX - 3, u64::MAX] {
        let reply = reply_with(EVENT_START, &[(sample::ACKED_COUNT, count)]);
        assert_eq!(reply, malformed(1));
    }
}

/// An event of so many numbers from a place of the lists on.
fn named(place: u64, count: u64) -> Vec<u8> {
    let call = changed(good(EVENT_START).as_bytes(), sample::ACKED_COUNT, count);
    changed(&call, sample::ACKED_PACKETS, place)
}

/// Where lists are lent they hold all of the numbers, and the sum of place and count does not wrap.
#[test]
fn counts_above_3_are_within_the_lists() {
    let lists = [1; 10];
    let reply = |place: u64, count: u64, length: usize| {
        reply_in(&mut sent(), &named(place, count), &lists[..length])
    };
    for (place, count, length) in [
        (0, 4, 4),
        (0, 4, 10),
        (0, 10, 10),
        (6, 4, 10),
        (1, 9, 10),
        (5, 5, 10),
    ] {
        assert_eq!(reply(place, count, length), 0, "{} from {}", count, place);
    }
    let most = u64::MAX;
    for (place, count, length) in [
        // One too many, and more.
        (0, 4, 0),
        (0, 4, 3),
        (0, 5, 4),
        (1, 4, 4),
        (0, 11, 10),
        (7, 4, 10),
        (6, 5, 10),
        (10, 4, 10),
        (11, 4, 10),
        // The sum wraps to no more than the lists hold.
        (most, 4, 10),
        (most - 3, 4, 10),
        (most - 3, 10, 10),
        (4, most, 10),
        (4, most - 3, 10),
        (10, most - 9, 10),
        (most, most, 10),
        (1 << 63, 1 << 63, 10),
        // The place or the count does in bytes, or in 32 bits.
        (1 << 61, 4, 10),
        (0, (1 << 61) + 4, 10),
        (1 << 32, 4, 10),
        (0, (1 << 32) + 4, 10),
    ] {
        let reply = reply(place, count, length);
        assert_eq!(reply, malformed(1), "{} from {}", count, place);
    }
}

/// A place outside of the lists beside other refusals: 1 comes before it, the others after it.
#[test]
fn a_place_beside_other_refusals() {
    let lists = [1; 10];
    let (inside, outside) = (named(6, 4), named(7, 4));
    for (numbers, row) in [(lists, 0), ([6; 10], 10)] {
        assert_eq!(reply_in(&mut sent(), &inside, &numbers), row);
        assert_eq!(reply_in(&mut sent(), &outside, &numbers), malformed(1));
    }
    let of_outside = |of_inside: u64| if of_inside == 1 { 1 } else { malformed(1) };
    let time = EVENT + event::EVENT_TIME;
    for (at, bad, due) in [
        (PARAMS + params::BETA, 0, 1),
        (
            PARAMS + params::IGNORE_APP_LIMITED_FOR_NO_BANDWIDTH_GROWTH,
            2,
            1,
        ),
        (sample::SAMPLE_IS_APP_LIMITED, 2, malformed(3)),
        (EVENT + event::PRIOR_CWND, MOST_BYTES + 1, WIDE),
        (time, 9, 3),
    ] {
        let reply = |call: &[u8]| reply_in(&mut sent(), &changed(call, at, bad), &lists);
        assert_eq!(reply(&inside), due);
        assert_eq!(reply(&outside), of_outside(due));
    }
    // Totals lower than the stored ones, a stored number out of bounds, a full counter.
    for (at, number, row) in [
        (state::TOTAL_BYTES_ACKED, 1, 4),
        (state::MAX_BANDWIDTH_0, MOST_BANDWIDTH + 1, 1),
        (state::ROUND_TRIP_COUNT, u64::MAX, 5),
    ] {
        let reply = |call: &[u8]| reply_in(&mut stored(sent(), at, number), call, &lists);
        assert_eq!(reply(&inside), row);
        assert_eq!(reply(&outside), of_outside(row));
    }
}

/// An event that acks this packet.
fn acking(packet: u64) -> Vec<u8> {
    changed(good(EVENT_START).as_bytes(), sample::ACKED_PACKETS, packet)
}

/// A number that was never sent beside other refusals: 1 to 4 come before it, 5 after it. In the one state
/// it is above the last sent one, in the other nothing was sent.
#[test]
fn a_number_never_sent_beside_other_refusals() {
    for (before, unsent) in [(sent(), acking(6)), (started(), acking(0))] {
        assert_eq!(reply(&mut { before }, &unsent), 10);
        for (at, bad, due) in [
            (PARAMS + params::BETA, 0, 1),
            (sample::SAMPLE_IS_APP_LIMITED, 2, malformed(3)),
            (EVENT + event::PRIOR_CWND, MOST_BYTES + 1, WIDE),
            (EVENT + event::EVENT_TIME, 9, 3),
        ] {
            assert_eq!(reply(&mut { before }, &changed(&unsent, at, bad)), due);
        }
        for (at, number, row) in [
            (state::MAX_BANDWIDTH_0, MOST_BANDWIDTH + 1, 1),
            (state::LAST_ACCEPTED_MOMENT, 21, 3),
            (state::TOTAL_BYTES_ACKED, 1, 4),
            (state::TOTAL_BYTES_LOST, 1, 4),
            (state::ROUND_TRIP_COUNT, u64::MAX, 10),
        ] {
            assert_eq!(reply(&mut stored(before, at, number), &unsent), row);
        }
    }
    // The same count of rounds, and a packet that was sent.
    let mut full = stored(sent(), state::ROUND_TRIP_COUNT, u64::MAX);
    assert_eq!(reply(&mut full, &acking(5)), 5);
    // The count of loss events, with an event that ends no round: it loses bytes, or none.
    let losses = stored(sent(), state::LOSS_EVENTS_IN_ROUND, u64::MAX);
    let losses = stored(losses, state::END_OF_ROUND_TRIP_SET, 1);
    let losses = stored(losses, state::END_OF_ROUND_TRIP, 7);
    for (packet, lost, row) in [(6, 1, 10), (5, 1, 5), (6, 0, 10), (5, 0, 0)] {
        let event = changed(&acking(packet), sample::TOTAL_BYTES_LOST, lost);
        assert_eq!(reply(&mut { losses }, &event), row);
    }
}

/// A start forgets what was sent, also a refused one; a send that is done notes it, a refused one doesn't;
/// every other call leaves the note.
#[test]
fn what_a_call_does_to_the_note() {
    let (start, send) = (good(call::START), good(call::ON_PACKET_SENT));
    let bad_start = changed(start.as_bytes(), PARAMS + params::BETA, 0);
    let bad_send = changed(send.as_bytes(), argument::on_packet_sent::SENT_TIME, 6);
    for before in [started(), sent(), lived()] {
        let stays = word(&before, state::ANYTHING_SENT);
        let after = |call: &[u8], row: u64| {
            let mut state = before;
            assert_eq!(reply(&mut state, call), row);
            word(&state, state::ANYTHING_SENT)
        };
        assert_eq!(after(start.as_bytes(), 0), 0);
        assert_eq!(after(&bad_start, 1), 0);
        assert_eq!(after(send.as_bytes(), 0), 1);
        assert_eq!(after(&bad_send, 3), stays);
        let is_other = |number: &u64| ![call::START, call::ON_PACKET_SENT].contains(number);
        for number in call::ALL.into_iter().filter(is_other) {
            let never = number == EVENT_START && stays == 0;
            let row = if never { 10 } else { 0 };
            assert_eq!(
                after(good(number).as_bytes(), row),
                stays,
                "call {}",
                number
            );
        }
    }
}

/// After another start, done or refused, no number is acked until a send is done; none need be.
#[test]
fn a_start_forgets_what_was_sent() {
    let start = good(call::START);
    let bad = changed(start.as_bytes(), PARAMS + params::BETA, 0);
    for (start, row) in [(&start.as_bytes()[..], 0), (&bad, 1)] {
        let mut state = sent();
        assert_eq!(reply(&mut { state }, &acking(5)), 0);
        assert_eq!(reply(&mut state, start), row);
        let none = changed(&acking(0), sample::ACKED_COUNT, 0);
        assert_eq!(reply(&mut state, &none), 0);
        for packet in [0, 5] {
            assert_eq!(reply(&mut state, &acking(packet)), 10);
        }
        assert_eq!(reply(&mut state, good(call::ON_PACKET_SENT).as_bytes()), 0);
        assert_eq!(reply(&mut state, &acking(5)), 0);
    }
}

#[test]
fn pairs_are_1_and_a_number_or_0_and_0() {
    let mut places: Vec<(u64, usize, u64)> = SAMPLE_PAIRS.map(|at| (EVENT_START, at, 3)).to_vec();
    let reading = call::READ_EVENT.iter();
    places.extend(reading.flat_map(|&call| RECORD_PAIRS.map(|at| (call, at, record_place(call)))));
    for (call, at, place) in places {
        for (set, number) in [(0, 0), (1, 0), (1, 5)] {
            assert_eq!(reply_with(call, &[(at, set), (at + 1, number)]), 0);
        }
        for (set, number) in NOT_PAIRS {
            let reply = reply_with(call, &[(at, set), (at + 1, number)]);
            assert_eq!(reply, malformed(place), "call {}, word {}", call, at);
        }
    }
}

#[test]
fn gains_have_32_bits() {
    let one = 1.0f32.to_bits() as u64;
    let queue = call::CHECK_PERSISTENT_QUEUE;
    for (call, at, place) in [
        (queue, check_persistent_queue::TARGET_GAIN, 1),
        (call::BDP, bdp::GAIN, 2),
        (call::SET_PACING_GAIN, set_pacing_gain::PACING_GAIN, 1),
        (call::SET_CWND_GAIN, set_cwnd_gain::CWND_GAIN, 1),
    ] {
        let reply = |word: u64| reply_with(call, &[(at, word)]);
        assert_eq!(reply(one), 0);
        let nans = [0x7fc0_0000, 0x7f80_0001, 0xffff_ffff];
        for high in [1 << 32, 1 << 63, u64::MAX << 32] {
            assert_eq!(reply(one | high), malformed(place), "call {}", call);
            assert_eq!(reply(nans[0] | high), malformed(place), "call {}", call);
        }
        // A NaN of any pattern is a gain out of bounds.
        for nan in nans {
            let gain = 2 + 256 * 7 + 65_536 * place;
            assert_eq!(reply(nan), gain, "call {}", call);
        }
    }
}

/// The parameters that are an f32.
const GAINS: [usize; 6] = [
    params::BETA,
    params::LOSS_THRESHOLD,
    params::INFLIGHT_HI_HEADROOM,
    params::FULL_BW_THRESHOLD,
    params::STARTUP_CWND_GAIN,
    params::STARTUP_PACING_GAIN,
];

/// The calls that take the parameters refuse malformed ones with 1, the others don't look at them.
#[test]
fn malformed_parameters_are_out_of_bounds() {
    let option = PARAMS + params::IGNORE_APP_LIMITED_FOR_NO_BANDWIDTH_GROWTH;
    let mut malformed: Vec<(usize, u64)> = NOT_FLAGS.iter().map(|&word| (option, word)).collect();
    for gain in GAINS {
        let bits = word(good(call::START).as_bytes(), PARAMS + gain);
        for bad in [bits | 1 << 32, bits | 1 << 63, 0x7f80_0001] {
            malformed.push((PARAMS + gain, bad));
        }
    }
    for words in malformed {
        for call in call::TAKE_PARAMS {
            assert_eq!(reply_with(call, &[words]), 1, "call {}, {:?}", call, words);
        }
        for call in [
            call::ON_PACKET_SENT,
            call::ON_CONGESTION_EVENT_FINISH,
            call::RESTART_ROUND_EARLY,
            call::BDP,
            call::BDP0,
            call::SET_PACING_GAIN,
            call::MIN_RTT,
            call::ENTER_PROBE_CRUISE,
            call::ENTER_PROBE_REFILL,
            call::ENTER_PROBE_UP,
            call::EXIT_PROBE_DOWN,
        ] {
            assert_eq!(reply_with(call, &[words]), 0, "call {}, {:?}", call, words);
        }
    }
    for yes in [0, 1] {
        assert_eq!(reply_with(call::START, &[(option, yes)]), 0);
    }
}

/// A state in use: after a send, an event and its end, an entry into Up, and a send.
fn lived() -> [u8; STATE_BYTES] {
    let mut state = started();
    for number in [
        call::ON_PACKET_SENT,
        call::ON_CONGESTION_EVENT_START,
        call::ON_CONGESTION_EVENT_FINISH,
        call::ENTER_PROBE_UP,
        call::ON_PACKET_SENT,
    ] {
        assert_eq!(reply(&mut state, good(number).as_bytes()), 0);
    }
    state
}

/// A state within its bounds that has no word of a fresh one: its numbers are 7, all that can be is
/// set, the flags are on, the gains 2, the phase Cruise.
fn full() -> [u8; STATE_BYTES] {
    let mut words = [7; table::STATE_WORDS];
    for pair in [
        state::END_OF_ROUND_TRIP_SET,
        state::BANDWIDTH_LO_SET,
        state::LATEST_SEND_RATE_SET,
        state::LATEST_ACK_RATE_SET,
        state::PROBE_WAIT_TIME_SET,
        state::PROBE_UP_BYTES_SET,
    ] {
        words[pair] = 1;
    }
    for flag in [
        state::INFLIGHT_HI_LIMITED_IN_ROUND,
        state::CWND_LIMITED_BEFORE_AGGREGATION_EPOCH,
        state::FULL_BANDWIDTH_REACHED,
        state::IGNORE_APP_LIMITED_FOR_NO_BANDWIDTH_GROWTH,
        state::PROBE_UP_APP_LIMITED_SINCE_INFLIGHT_HI_LIMITED,
        state::HAS_ADVANCED_MAX_BW,
        state::IS_SAMPLE_FROM_PROBING,
        state::LAST_CYCLE_PROBED_TOO_HIGH,
        state::LAST_CYCLE_STOPPED_RISKY_PROBE,
        state::ANYTHING_SENT,
    ] {
        words[flag] = 1;
    }
    words[state::CWND_GAIN] = 2.0f32.to_bits() as u64;
    words[state::PACING_GAIN] = words[state::CWND_GAIN];
    words[state::PHASE] = phase::CRUISE;
    let mut state = [0; STATE_BYTES];
    for (at, word) in words.iter().enumerate() {
        state[WORD * at..][..WORD].copy_from_slice(&word.to_le_bytes());
    }
    state
}

/// A refused start replaces the state by a fresh one: moment 0, round trip 0, both gains 1, the
/// app-limited option off, nothing sent, all else as in every fresh model and cycle.
#[test]
fn a_refused_start_leaves_a_fresh_state() {
    let mut fresh = [0; table::STATE_WORDS];
    for unset in [
        state::MIN_BYTES_IN_FLIGHT_IN_ROUND,
        state::INFLIGHT_LO,
        state::INFLIGHT_HI,
    ] {
        fresh[unset] = table::UNSET;
    }
    fresh[state::CWND_GAIN] = 1.0f32.to_bits() as u64;
    fresh[state::PACING_GAIN] = fresh[state::CWND_GAIN];

    let option = PARAMS + params::IGNORE_APP_LIMITED_FOR_NO_BANDWIDTH_GROWTH;
    for before in [started(), sent(), lived(), full()] {
        // The state is one that calls are done in.
        assert_eq!(
            reply(&mut { before }, good(call::ENTER_PROBE_UP).as_bytes()),
            0
        );
        let late = 2 + 256 * 9 + 65_536 * 2;
        for (due, at, bad) in [
            // Malformed parameters, one out of bounds, and a moment out of bounds.
            (1, option, 255),
            (1, option, 2),
            (1, PARAMS + params::STARTUP_PACING_GAIN, 1 << 32),
            (1, PARAMS + params::BETA, 0),
            (late, argument::start::NOW, MOST_MOMENT + 1),
        ] {
            let mut state = before;
            let start = changed(good(call::START).as_bytes(), at, bad);
            assert_eq!(reply(&mut state, &start), due);
            for (at, expected) in fresh.iter().enumerate() {
                assert_eq!(word(&state, at), *expected, "word {}", at);
            }
        }
    }
    let full = full();
    assert!((0..table::STATE_WORDS).all(|at| word(&full, at) != fresh[at]));
}

/// Of several refusals the lowest is given, but for 10: it is asked after 4.
#[test]
fn malformed_words_beside_other_refusals() {
    let limited = sample::SAMPLE_IS_APP_LIMITED;
    let option = PARAMS + params::IGNORE_APP_LIMITED_FOR_NO_BANDWIDTH_GROWTH;
    let time = EVENT + event::EVENT_TIME;
    let (down, high) = (call::ENTER_PROBE_DOWN, enter_probe_down::PROBED_TOO_HIGH);
    // With a parameter out of bounds, malformed or not, it is 1.
    let beta = PARAMS + params::BETA;
    assert_eq!(reply_with(EVENT_START, &[(limited, 2), (beta, 0)]), 1);
    assert_eq!(reply_with(EVENT_START, &[(limited, 2), (option, 2)]), 1);
    let period = PARAMS + params::PROBE_RTT_PERIOD;
    assert_eq!(reply_with(down, &[(high, 2), (period, u64::MAX)]), 1);
    // With an earlier moment it is 2.
    let ended = EVENT + event::END_OF_ROUND_TRIP;
    assert_eq!(reply_with(EVENT_START, &[(time, 9)]), 3);
    assert_eq!(
        reply_with(EVENT_START, &[(time, 9), (ended, 2)]),
        malformed(2)
    );
    assert_eq!(
        reply_with(down, &[(enter_probe_down::NOW, 9), (high, 2)]),
        malformed(1)
    );
    // In a state out of bounds it is 1, for a number of no call, too; the cycle counts where it is
    // given.
    let in_state = |at: usize, word: u64, call: &[u8]| reply(&mut stored(sent(), at, word), call);
    let (slot, rounds) = (state::MAX_BANDWIDTH_0, state::PROBE_UP_ROUNDS);
    let event = changed(good(EVENT_START).as_bytes(), sample::ACKED_COUNT, 4);
    assert_eq!(in_state(slot, MOST_BANDWIDTH, &event), malformed(1));
    assert_eq!(in_state(slot, MOST_BANDWIDTH + 1, &event), 1);
    let risky = enter_probe_down::STOPPED_RISKY_PROBE;
    let down = changed(good(down).as_bytes(), risky, 2);
    assert_eq!(in_state(rounds, 30, &down), malformed(2));
    assert_eq!(in_state(rounds, 31, &down), 1);
    for number in [2, 39, 46, 256, 1 << 32, u64::MAX] {
        let none = good(number);
        let reply = in_state(slot, MOST_BANDWIDTH, none.as_bytes());
        assert_eq!(reply, malformed(0));
        assert_eq!(in_state(slot, MOST_BANDWIDTH + 1, none.as_bytes()), 1);
        assert_eq!(in_state(rounds, 31, none.as_bytes()), malformed(0));
    }
}

/// What a call does not use may be anything.
#[test]
fn words_that_a_call_does_not_use_are_not_looked_at() {
    let junk = |at: usize| (at, u64::MAX - at as u64);
    let fill = |range: std::ops::Range<usize>| range.map(junk).collect::<Vec<_>>();
    let (first, end) = (table::ARGUMENTS_IN_CALL, table::CALL_WORDS);
    let sent = argument::on_packet_sent::BYTES;
    assert_eq!(reply_with(call::ON_PACKET_SENT, &fill(sent + 1..end)), 0);
    let start = argument::start::INITIAL_RTT;
    assert_eq!(reply_with(call::START, &fill(start + 1..PARAMS)), 0);
    let around = [fill(first..EVENT), fill(PARAMS..end)].concat();
    assert_eq!(reply_with(call::ON_CONGESTION_EVENT_FINISH, &around), 0);
    assert_eq!(
        reply_with(call::MAYBE_EXPIRE_MIN_RTT, &fill(first..EVENT)),
        0
    );
    let gain = check_persistent_queue::TARGET_GAIN;
    assert_eq!(
        reply_with(call::CHECK_PERSISTENT_QUEUE, &fill(gain + 1..PARAMS)),
        0
    );
    let now = argument::enter_probe_cruise::NOW;
    assert_eq!(reply_with(call::ENTER_PROBE_CRUISE, &fill(now + 1..end)), 0);
    assert_eq!(reply_with(call::MIN_RTT, &fill(first..end)), 0);
    // Of an event, the numbers acked beyond the count.
    let (count, acked) = (sample::ACKED_COUNT, sample::ACKED_PACKETS);
    for counted in 0..table::MOST_ACKED {
        let mut words = fill(acked + counted..EVENT);
        words.push((count, counted as u64));
        assert_eq!(reply_with(EVENT_START, &words), 0);
    }
}

/// What the package writes is well formed, whatever it is given.
#[test]
fn only_well_formed_words_are_written() {
    let set = Some(Bandwidth::from_bits_per_second(u64::MAX));
    let length = Some(Duration::from_nanos(u64::MAX));
    for yes in [false, true] {
        let mut event = CongestionEvent::new(moment(u64::MAX), u64::MAX, u64::MAX, yes);
        event.end_of_round_trip = yes;
        event.sample_max_bandwidth = if yes { set } else { None };
        event.sample_min_rtt = if yes { length } else { None };
        event.last_packet_send_state.is_valid = yes;
        event.last_packet_send_state.is_app_limited = yes;
        let sample = Sample {
            sample_max_bandwidth: event.sample_max_bandwidth,
            sample_max_send_rate: event.sample_max_bandwidth,
            sample_max_ack_rate: event.sample_max_bandwidth,
            sample_is_app_limited: yes,
            sample_rtt: event.sample_min_rtt,
            last_packet_send_state: event.last_packet_send_state,
            ..Sample::default()
        };
        let params = Params {
            beta: f32::from_bits(0xffff_ffff),
            startup_pacing_gain: -1.0,
            ignore_app_limited_for_no_bandwidth_growth: yes,
            ..Params::default()
        };
        let acked = [u64::MAX; 9];
        let call = Call::on_congestion_event_start(&acked, &event, &sample, &params);
        let at = |at: usize| word(call.as_bytes(), at);
        let option = PARAMS + params::IGNORE_APP_LIMITED_FOR_NO_BANDWIDTH_GROWTH;
        for flag in [option].iter().chain(&SAMPLE_FLAGS).chain(&RECORD_FLAGS) {
            assert_eq!(at(*flag), yes as u64);
        }
        for pair in SAMPLE_PAIRS.iter().chain(&RECORD_PAIRS) {
            let most = if yes { u64::MAX } else { 0 };
            assert_eq!((at(*pair), at(pair + 1)), (yes as u64, most));
        }
        assert!(GAINS
            .iter()
            .all(|gain| at(PARAMS + gain) <= u32::MAX as u64));
        assert_eq!(at(sample::ACKED_COUNT), 1);
    }
}

fn word(bytes: &[u8], at: usize) -> u64 {
    let mut word = [0; WORD];
    word.copy_from_slice(&bytes[WORD * at..][..WORD]);
    u64::from_le_bytes(word)
}
