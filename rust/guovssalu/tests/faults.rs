//! Which argument a refusal with 2 names, and what kind of bound it passed: by the methods every argument
//! that can be refused, at its bound and past it, with its text; by a run the same of every word, and every
//! two of a call that are at fault at once. Kinds, places, bounds and texts are written by hand, and not taken
//! from the table that the package is written with: a wrong table is noticed here.

use std::collections::BTreeSet;

use guovssalu::filter_run;
use guovssalu::raise_inflight_high_slope;
use guovssalu::rtt_run;
use guovssalu::run;
use guovssalu::run_lists;
use guovssalu::table;
use guovssalu::table::call;
use guovssalu::Answer;
use guovssalu::Bandwidth;
use guovssalu::Call;
use guovssalu::CongestionEvent;
use guovssalu::Cycle;
use guovssalu::Duration;
use guovssalu::Fault;
use guovssalu::FaultKind;
use guovssalu::Moment;
use guovssalu::NetworkModel;
use guovssalu::Params;
use guovssalu::Refusal;
use guovssalu::RttStats;
use guovssalu::Sample;
use guovssalu::STATE_BYTES;

const BYTES: u64 = 1 << 40;
const BANDWIDTH: u64 = 1 << 40;
const LENGTH: u64 = 1 << 36;
const TOTAL: u64 = 1 << 62;
const MOMENT: u64 = 1 << 62;

fn moment(nanos: u64) -> Moment {
    Moment::from_nanos(nanos)
}

fn length(nanos: u64) -> Duration {
    Duration::from_nanos(nanos)
}

fn bits(bits: u64) -> Bandwidth {
    Bandwidth::from_bits_per_second(bits)
}

/// The reply of a kind at a place.
fn reply(kind: u64, place: u64) -> u64 {
    2 + 256 * kind + 65_536 * place
}

// ---- by the methods

/// A model and a cycle at moment 0.
#[derive(Clone, PartialEq)]
struct World {
    model: NetworkModel,
    cycle: Cycle,
}

fn world() -> World {
    let model = NetworkModel::new(&Params::default(), length(100_000_000), moment(0));
    World {
        model: model.unwrap(),
        cycle: Cycle::new(moment(0)).unwrap(),
    }
}

/// What a method replies to a number.
type Method = fn(&mut World, u64) -> Result<(), Refusal>;

/// Makes a call, which has to be refused with this code, place and text, and to leave model and cycle.
fn refused(text: &str, call: impl FnOnce(&mut World) -> Result<(), Refusal>) {
    refused_in(world(), text, call);
}

fn refused_in(mut world: World, text: &str, call: impl FnOnce(&mut World) -> Result<(), Refusal>) {
    let before = world.clone();
    let refusal = call(&mut world).expect_err(text);
    assert_eq!(refusal.to_string(), text);
    let (code, rest) = text.split_once(" at ").unwrap();
    let (place, said) = rest.split_once(": ").unwrap();
    assert_eq!((refusal.number(), refusal.code()), (2, code));
    let kind = code.strip_prefix("2.").unwrap();
    let (kind, place) = (kind.parse().unwrap(), place.parse().unwrap());
    assert_eq!(refusal.reply(), reply(kind, place), "{}", text);
    match refusal {
        Refusal::BadArgument(fault) => {
            assert_eq!(fault.kind().number(), kind);
            assert_eq!(u64::from(fault.place()), place);
            let named = fault.argument().unwrap();
            assert!(said.starts_with(named), "{} is no text of {}", said, named);
        }
        _ => unreachable!(),
    }
    assert!(
        world == before,
        "a refused call changed something: {}",
        text
    );
}

/// The methods with a number that can be refused: the most that it can be, and the text past it.
const NUMBERS: [(u64, &str, Method); 19] = [
    (
        LENGTH,
        "2.4 at 1: initial_rtt is longer than 2^36 ns",
        |world, number| {
            world.model = NetworkModel::new(&Params::default(), length(number), moment(0))?;
            Ok(())
        },
    ),
    (
        MOMENT,
        "2.9 at 2: now is later than 2^62 ns",
        |world, number| {
            world.model = NetworkModel::new(&Params::default(), length(0), moment(number))?;
            Ok(())
        },
    ),
    (
        MOMENT,
        "2.9 at 1: now is later than 2^62 ns",
        |world, number| {
            world.cycle = Cycle::new(moment(number))?;
            Ok(())
        },
    ),
    (
        MOMENT,
        "2.9 at 1: sent_time is later than 2^62 ns",
        |world, number| world.model.on_packet_sent(moment(number), 0, 1, 1),
    ),
    (
        BYTES,
        "2.2 at 2: bytes_in_flight is more than 2^40 bytes",
        |world, number| world.model.on_packet_sent(moment(0), number, 1, 1),
    ),
    (
        BYTES,
        "2.2 at 4: bytes is more than 2^40 bytes",
        |world, number| world.model.on_packet_sent(moment(0), 0, 1, number),
    ),
    (
        BANDWIDTH,
        "2.3 at 1: bandwidth is more than 2^40 bits per second",
        |world, number| world.model.bdp(bits(number), 1.0).map(drop),
    ),
    (
        BANDWIDTH,
        "2.3 at 1: bandwidth is more than 2^40 bits per second",
        |world, number| world.model.bdp1(bits(number)).map(drop),
    ),
    (
        BYTES,
        "2.2 at 1: new_inflight_hi is more than 2^40 bytes",
        |world, number| world.model.set_inflight_hi(number),
    ),
    (
        BYTES,
        "2.2 at 1: cap is more than 2^40 bytes",
        |world, number| world.model.cap_inflight_lo(number),
    ),
    (
        LENGTH,
        "2.4 at 1: duration is longer than 2^36 ns",
        |world, number| world.model.postpone_min_rtt_timestamp(length(number)),
    ),
    (
        MOMENT,
        "2.9 at 3: now is later than 2^62 ns",
        |world, number| {
            let (model, params) = (&mut world.model, Params::default());
            let now = moment(number);
            world
                .cycle
                .enter_probe_down(model, true, false, now, &params)
        },
    ),
    (
        MOMENT,
        "2.9 at 1: now is later than 2^62 ns",
        |world, number| {
            let model = &mut world.model;
            world.cycle.enter_probe_cruise(model, moment(number))
        },
    ),
    (
        30,
        "2.6 at 1: probe_up_rounds is more than 30",
        |world, number| {
            let model = &mut world.model;
            world.cycle.enter_probe_refill(model, number, moment(0))
        },
    ),
    (
        MOMENT,
        "2.9 at 2: now is later than 2^62 ns",
        |world, number| {
            let model = &mut world.model;
            world.cycle.enter_probe_refill(model, 1, moment(number))
        },
    ),
    (
        MOMENT,
        "2.9 at 1: now is later than 2^62 ns",
        |world, number| {
            let model = &mut world.model;
            world.cycle.enter_probe_up(model, moment(number), 26_000)
        },
    ),
    (
        BYTES,
        "2.1 at 2: cwnd is larger than 2^40 bytes",
        |world, number| {
            let model = &mut world.model;
            world.cycle.enter_probe_up(model, moment(0), number)
        },
    ),
    (
        BYTES,
        "2.1 at 1: cwnd is larger than 2^40 bytes",
        |world, number| world.cycle.raise_inflight_high_slope(number),
    ),
    (
        BYTES,
        "2.1 at 2: window is larger than 2^40 bytes",
        |_, number| raise_inflight_high_slope(0, number).map(drop),
    ),
];

#[test]
fn numbers_at_their_bounds() {
    for (most, text, call) in NUMBERS {
        assert_eq!(call(&mut world(), most), Ok(()), "{}", text);
        for more in [most + 1, u64::MAX - 1] {
            refused(text, |world| call(world, more));
        }
    }
    // What may be unset, and numbers that have no bound.
    let (most, unset) = (u64::MAX, NetworkModel::UNSET);
    let mut world = world();
    assert_eq!(world.model.set_inflight_hi(unset), Ok(()));
    assert_eq!(world.model.cap_inflight_lo(unset), Ok(()));
    assert_eq!(world.model.on_packet_sent(moment(0), 0, most, 1), Ok(()));
    let (event, params) = (CongestionEvent::default(), Params::default());
    let judged = world.model.is_inflight_too_high(&event, most, &params);
    assert_eq!(judged, Ok(false));
    assert_eq!(filter_run(most, &[], &mut []), Ok(()));
    // Of an exported slope the rounds are row 1's, beside a bad window too.
    for window in [BYTES, BYTES + 1] {
        let slope = raise_inflight_high_slope(31, window);
        assert_eq!(slope, Err(Refusal::OutOfBounds));
    }
}

/// A gain of the least and the most is taken; the next below and above, and what is no number, is not.
#[test]
fn gains_at_their_bounds() {
    type Scaled = fn(&mut World, f32) -> Result<(), Refusal>;
    let gains: [(&str, Scaled); 4] = [
        (
            "2.7 at 1: target_gain is below 1/1024, above 8 or a NaN",
            |world, gain| world.model.check_persistent_queue(gain, &Params::default()),
        ),
        (
            "2.7 at 2: gain is below 1/1024, above 8 or a NaN",
            |world, gain| world.model.bdp(bits(1), gain).map(drop),
        ),
        (
            "2.7 at 1: pacing_gain is below 1/1024, above 8 or a NaN",
            |world, gain| world.model.set_pacing_gain(gain),
        ),
        (
            "2.7 at 1: cwnd_gain is below 1/1024, above 8 or a NaN",
            |world, gain| world.model.set_cwnd_gain(gain),
        ),
    ];
    let (least, most) = (1.0f32 / 1024.0, 8.0f32);
    let below = f32::from_bits(least.to_bits() - 1);
    let above = f32::from_bits(most.to_bits() + 1);
    for (text, call) in gains {
        for gain in [least, 1.0, most] {
            assert_eq!(call(&mut world(), gain), Ok(()), "{}", text);
        }
        for gain in [below, above, 0.0, -1.0, f32::INFINITY, f32::NAN, -f32::NAN] {
            refused(text, |world| call(world, gain));
        }
    }
}

/// A moment that would be postponed past its bound is at fault where the length is within its own.
#[test]
fn a_postponed_moment() {
    let stored = |timestamp: u64| {
        let mut bytes = *world().model.as_bytes();
        bytes[8 * 7..8 * 8].copy_from_slice(&timestamp.to_le_bytes());
        let model = NetworkModel::from_bytes(&bytes).unwrap();
        assert_eq!(model.min_rtt_timestamp(), Ok(moment(timestamp)));
        World { model, ..world() }
    };
    let (long, late) = (
        "2.4 at 1: duration is longer than 2^36 ns",
        "2.9 at 1: duration postpones min_rtt_timestamp past 2^62 ns",
    );
    let postponed =
        |nanos: u64| move |world: &mut World| world.model.postpone_min_rtt_timestamp(length(nanos));
    for timestamp in [MOMENT, MOMENT - 1, MOMENT - LENGTH + 1] {
        let left = MOMENT - timestamp;
        assert_eq!(postponed(left)(&mut stored(timestamp)), Ok(()));
        for nanos in [left + 1, LENGTH] {
            refused_in(stored(timestamp), late, postponed(nanos));
        }
        refused_in(stored(timestamp), long, postponed(LENGTH + 1));
    }
    let mut far = stored(MOMENT - LENGTH);
    assert_eq!(postponed(LENGTH)(&mut far), Ok(()));
    refused_in(stored(MOMENT - LENGTH), long, postponed(LENGTH + 1));
}

/// A field of a record: the most that it can be, the code and the text past it, and how it is set.
type Field<Record> = (u64, &'static str, fn(&mut Record, u64));

const LATE: &str = "2.9: event.event_time is later than 2^62 ns";
const WIDE: &str = "2.1: event.prior_cwnd is larger than 2^40 bytes";
const EVENT_BYTES: &str = "2.2: event.prior_bytes_in_flight, event.bytes_in_flight or \
    event.last_packet_send_state.bytes_in_flight is more than 2^40 bytes";
const EVENT_TOTAL: &str = "2.5: event.bytes_acked, event.bytes_lost or \
    event.last_packet_send_state.total_bytes_acked is more than 2^62 bytes";
const EVENT_FAST: &str = "2.3: event.sample_max_bandwidth is more than 2^40 bits per second";
const EVENT_LONG: &str = "2.4: event.sample_min_rtt is longer than 2^36 ns";

/// The numbers of an event's record, in the order of its words.
const EVENT: [Field<CongestionEvent>; 10] = [
    (MOMENT, LATE, |event, number| {
        event.event_time = moment(number)
    }),
    (BYTES, WIDE, |event, number| event.prior_cwnd = number),
    (BYTES, EVENT_BYTES, |event, number| {
        event.prior_bytes_in_flight = number
    }),
    (BYTES, EVENT_BYTES, |event, number| {
        event.bytes_in_flight = number
    }),
    (TOTAL, EVENT_TOTAL, |event, number| {
        event.bytes_acked = number
    }),
    (TOTAL, EVENT_TOTAL, |event, number| {
        event.bytes_lost = number
    }),
    (BANDWIDTH, EVENT_FAST, |event, number| {
        event.sample_max_bandwidth = Some(bits(number))
    }),
    (LENGTH, EVENT_LONG, |event, number| {
        event.sample_min_rtt = Some(length(number))
    }),
    (TOTAL, EVENT_TOTAL, |event, number| {
        event.last_packet_send_state.total_bytes_acked = number
    }),
    (BYTES, EVENT_BYTES, |event, number| {
        event.last_packet_send_state.bytes_in_flight = number
    }),
];

const SAMPLE_FAST: &str = "2.3: sample.sample_max_bandwidth, sample.sample_max_send_rate or \
    sample.sample_max_ack_rate is more than 2^40 bits per second";
const SAMPLE_LONG: &str = "2.4: sample.sample_rtt is longer than 2^36 ns";
const SAMPLE_BYTES: &str = "2.2: sample.sample_max_inflight, sample.extra_acked or \
    sample.last_packet_send_state.bytes_in_flight is more than 2^40 bytes";
const SAMPLE_TOTAL: &str = "2.5: sample.last_packet_send_state.total_bytes_acked, \
    sample.total_bytes_acked or sample.total_bytes_lost is more than 2^62 bytes";

/// The numbers of what the sampler says, in the order of the words.
const SAMPLE: [Field<Sample>; 10] = [
    (BANDWIDTH, SAMPLE_FAST, |sample, number| {
        sample.sample_max_bandwidth = Some(bits(number))
    }),
    (BANDWIDTH, SAMPLE_FAST, |sample, number| {
        sample.sample_max_send_rate = Some(bits(number))
    }),
    (BANDWIDTH, SAMPLE_FAST, |sample, number| {
        sample.sample_max_ack_rate = Some(bits(number))
    }),
    (LENGTH, SAMPLE_LONG, |sample, number| {
        sample.sample_rtt = Some(length(number))
    }),
    (BYTES, SAMPLE_BYTES, |sample, number| {
        sample.sample_max_inflight = number
    }),
    (BYTES, SAMPLE_BYTES, |sample, number| {
        sample.extra_acked = number
    }),
    (TOTAL, SAMPLE_TOTAL, |sample, number| {
        sample.last_packet_send_state.total_bytes_acked = number
    }),
    (BYTES, SAMPLE_BYTES, |sample, number| {
        sample.last_packet_send_state.bytes_in_flight = number
    }),
    (TOTAL, SAMPLE_TOTAL, |sample, number| {
        sample.total_bytes_acked = number
    }),
    (TOTAL, SAMPLE_TOTAL, |sample, number| {
        sample.total_bytes_lost = number
    }),
];

/// A field's text, with the place of its record.
fn at(place: u64, text: &str) -> String {
    text.replacen(": ", &format!(" at {}: ", place), 1)
}

fn started(world: &mut World, event: &mut CongestionEvent, sample: &Sample) -> Result<(), Refusal> {
    let before = *event;
    let params = Params::default();
    let reply = world
        .model
        .on_congestion_event_start(&[], event, sample, &params);
    assert!(reply.is_ok() || *event == before);
    reply
}

/// The calls that are given an event, with its place.
type Given = fn(&mut World, &mut CongestionEvent) -> Result<(), Refusal>;
const GIVEN: [(u64, Given); 5] = [
    (2, |world, event| started(world, event, &Sample::default())),
    (1, |world, event| {
        world.model.on_congestion_event_finish(event)
    }),
    (1, |world, event| {
        let params = Params::default();
        world.model.maybe_expire_min_rtt(event, &params).map(drop)
    }),
    (1, |world, event| {
        let (params, most) = (Params::default(), u64::MAX);
        let judged = world.model.is_inflight_too_high(event, most, &params);
        judged.map(drop)
    }),
    (1, |world, event| {
        let params = Params::default();
        world.model.has_bandwidth_growth(event, &params).map(drop)
    }),
];

/// Each field of an event at its bound and past it, and of every two fields past theirs the first.
#[test]
fn fields_of_an_event() {
    for (place, call) in GIVEN {
        for (first, (most, text, set)) in EVENT.into_iter().enumerate() {
            let text = at(place, text);
            let mut event = CongestionEvent::default();
            set(&mut event, most);
            assert_eq!(call(&mut world(), &mut event), Ok(()), "{}", text);
            for (most, _, set_later) in &EVENT[first..] {
                let mut event = CongestionEvent::default();
                set_later(&mut event, most + 1);
                set(&mut event, u64::MAX);
                refused(&text, |world| call(world, &mut event));
            }
        }
    }
}

/// The same of what the sampler says; and where the event has a field past its bound, too, it is that.
#[test]
fn fields_of_a_sample() {
    for (first, (most, text, set)) in SAMPLE.into_iter().enumerate() {
        let text = at(3, text);
        let call = |world: &mut World, sample: &Sample| {
            started(world, &mut CongestionEvent::default(), sample)
        };
        let mut sample = Sample::default();
        set(&mut sample, most);
        assert_eq!(call(&mut world(), &sample), Ok(()), "{}", text);
        for (most, _, set_later) in &SAMPLE[first..] {
            let mut sample = Sample::default();
            set_later(&mut sample, most + 1);
            set(&mut sample, u64::MAX);
            refused(&text, |world| call(world, &sample));
        }
        set(&mut sample, most + 1);
        for (most, of_event, set) in EVENT {
            let mut event = CongestionEvent::default();
            set(&mut event, most + 1);
            refused(&at(2, of_event), |world| {
                started(world, &mut event, &sample)
            });
        }
    }
}

/// Of several arguments at fault the first is named, and not the one of the lowest kind.
#[test]
fn the_first_argument_is_named() {
    let (late, nan) = (moment(MOMENT + 1), f32::NAN);
    refused("2.4 at 1: initial_rtt is longer than 2^36 ns", |_| {
        NetworkModel::new(&Params::default(), length(LENGTH + 1), late).map(drop)
    });
    for (in_flight, bytes) in [(BYTES + 1, 1), (0, BYTES + 1), (BYTES + 1, BYTES + 1)] {
        refused("2.9 at 1: sent_time is later than 2^62 ns", |world| {
            world.model.on_packet_sent(late, in_flight, 1, bytes)
        });
    }
    refused(
        "2.2 at 2: bytes_in_flight is more than 2^40 bytes",
        |world| {
            let bytes = BYTES + 1;
            world.model.on_packet_sent(moment(0), bytes, 1, bytes)
        },
    );
    refused(
        "2.3 at 1: bandwidth is more than 2^40 bits per second",
        |world| world.model.bdp(bits(BANDWIDTH + 1), nan).map(drop),
    );
    refused("2.6 at 1: probe_up_rounds is more than 30", |world| {
        world.cycle.enter_probe_refill(&mut world.model, 31, late)
    });
    refused("2.9 at 1: now is later than 2^62 ns", |world| {
        let model = &mut world.model;
        world.cycle.enter_probe_up(model, late, BYTES + 1)
    });
}

/// Row 1 comes before a bad argument, and names none; rows 3, 4, 10 and 5 come after it.
#[test]
fn beside_other_refusals() {
    let params = Params {
        beta: 0.0,
        ..Params::default()
    };
    let start = NetworkModel::new(&params, length(LENGTH + 1), moment(0));
    assert_eq!(start.err(), Some(Refusal::OutOfBounds));
    let mut world = world();
    let queue = world.model.check_persistent_queue(f32::NAN, &params);
    assert_eq!(queue, Err(Refusal::OutOfBounds));

    world.model.on_packet_sent(moment(10), 0, 1, 1).unwrap();
    let early = |world: &mut World, bytes: u64| world.model.on_packet_sent(moment(9), 0, 2, bytes);
    assert_eq!(early(&mut world, BYTES), Err(Refusal::EarlierMoment));
    refused_in(
        world.clone(),
        "2.2 at 4: bytes is more than 2^40 bytes",
        |world| early(world, BYTES + 1),
    );
    let unsent = |world: &mut World, window: u64| {
        let mut event = CongestionEvent::new(moment(10), window, 0, false);
        let (sample, params) = (Sample::default(), Params::default());
        world
            .model
            .on_congestion_event_start(&[2], &mut event, &sample, &params)
    };
    assert_eq!(unsent(&mut world, BYTES), Err(Refusal::NeverSent));
    refused_in(world, &at(2, WIDE), |world| unsent(world, BYTES + 1));
}

// ---- by a run

/// What is wrong with an argument: its place, the kind, and words of the call that are so.
type Wrong = (u64, u64, Vec<(usize, u64)>);

fn word(place: u64, kind: u64, at: usize, word: u64) -> Wrong {
    (place, kind, vec![(at, word)])
}

/// A gain of more than 32 bits, and a NaN.
fn gain(place: u64, at: usize) -> Vec<Wrong> {
    vec![
        word(place, 8, at, 1 << 32 | 0x3f80_0000),
        word(place, 7, at, 0x7fc0_0000),
    ]
}

fn flag(place: u64, at: usize) -> Wrong {
    word(place, 8, at, 2)
}

/// Two words that are no number and not unset, and a number past its bound.
fn pair(place: u64, at: usize, kind: u64, most: u64) -> Vec<Wrong> {
    vec![
        (place, 8, vec![(at, 0), (at + 1, 5)]),
        (place, kind, vec![(at, 1), (at + 1, most + 1)]),
    ]
}

/// The words of an event's record, from word 22 on, in order.
fn event_words(place: u64) -> Vec<Wrong> {
    let mut wrongs = vec![
        word(place, 9, 22, MOMENT + 1),
        word(place, 1, 23, BYTES + 1),
        word(place, 2, 24, BYTES + 1),
        word(place, 2, 25, BYTES + 1),
        word(place, 5, 26, TOTAL + 1),
        word(place, 5, 27, TOTAL + 1),
        flag(place, 28),
        flag(place, 29),
    ];
    wrongs.extend(pair(place, 30, 3, BANDWIDTH));
    wrongs.extend(pair(place, 32, 4, LENGTH));
    wrongs.extend([
        flag(place, 34),
        flag(place, 35),
        word(place, 5, 36, TOTAL + 1),
        word(place, 2, 37, BYTES + 1),
    ]);
    wrongs
}

/// The words of what the sampler says, in order.
fn sample_words() -> Vec<Wrong> {
    let mut wrongs = Vec::new();
    for at in [1, 3, 5] {
        wrongs.extend(pair(3, at, 3, BANDWIDTH));
    }
    wrongs.push(flag(3, 7));
    wrongs.extend(pair(3, 8, 4, LENGTH));
    wrongs.extend([
        word(3, 2, 10, BYTES + 1),
        word(3, 2, 11, BYTES + 1),
        flag(3, 12),
        flag(3, 13),
        word(3, 5, 14, TOTAL + 1),
        word(3, 2, 15, BYTES + 1),
        word(3, 5, 16, TOTAL + 1),
        word(3, 5, 17, TOTAL + 1),
    ]);
    wrongs
}

/// What can be wrong with a call's arguments, in the order in which it is named.
fn wrongs(number: u64) -> Vec<Wrong> {
    match number {
        0 => vec![word(1, 4, 2, LENGTH + 1), word(2, 9, 1, MOMENT + 1)],
        1 => vec![
            word(1, 9, 1, MOMENT + 1),
            word(2, 2, 2, BYTES + 1),
            word(4, 2, 4, BYTES + 1),
        ],
        3 => [vec![word(1, 8, 18, 4)], event_words(2), sample_words()].concat(),
        4..=7 => event_words(1),
        9 | 15 | 16 => gain(1, 1),
        10 => [vec![word(1, 3, 1, BANDWIDTH + 1)], gain(2, 2)].concat(),
        11 => vec![word(1, 3, 1, BANDWIDTH + 1)],
        17 | 18 => vec![word(1, 2, 1, BYTES + 1)],
        22 => vec![word(1, 4, 1, LENGTH + 1)],
        40 => vec![flag(1, 1), flag(2, 2), word(3, 9, 3, MOMENT + 1)],
        41 => vec![word(1, 9, 1, MOMENT + 1)],
        42 => vec![word(1, 6, 1, 31), word(2, 9, 2, MOMENT + 1)],
        43 => vec![word(1, 9, 1, MOMENT + 1), word(2, 1, 2, BYTES + 1)],
        45 => vec![word(1, 1, 1, BYTES + 1)],
        _ => vec![],
    }
}

/// A good call of a number, with some words that are others: those named first come last.
fn call_with(number: u64, wrong: &[&[(usize, u64)]]) -> [u8; Call::BYTES] {
    let one = 0x3f80_0000;
    let arguments: &[u64] = match number {
        9 | 15 | 16 => &[one],
        10 => &[0, one],
        _ => &[],
    };
    let call = Call::new(number, arguments).with_params(&Params::default());
    let mut bytes = *call.as_bytes();
    for (at, word) in wrong.iter().rev().flat_map(|words| words.iter()) {
        bytes[8 * at..8 * at + 8].copy_from_slice(&word.to_le_bytes());
    }
    bytes
}

/// A state with a model and a cycle at moment 0, with one word that is another.
fn state_with(at: usize, word: u64) -> [u8; STATE_BYTES] {
    let world = world();
    let mut state = [0; STATE_BYTES];
    let (model, cycle) = state.split_at_mut(NetworkModel::BYTES);
    model.copy_from_slice(world.model.as_bytes());
    cycle.copy_from_slice(world.cycle.as_bytes());
    state[8 * at..8 * at + 8].copy_from_slice(&word.to_le_bytes());
    state
}

/// A stored number that is 0 in a fresh state.
const SAME: (usize, u64) = (0, 0);

/// The reply to a call in a state with one word that is another, by a run and by one with lists that no
/// call names. Refused it answers 0, and unless it is a start it leaves the state.
fn replied(stored: (usize, u64), call: &[u8]) -> u64 {
    let before = state_with(stored.0, stored.1);
    let (mut state, mut other) = (before, before);
    let (mut answer, mut again) = ([0x77; Answer::BYTES], [0x66; Answer::BYTES]);
    assert_eq!(run(&mut state, call, &mut answer), Ok(()));
    assert_eq!(run_lists(&mut other, call, &[7], &mut again), Ok(()));
    assert!(answer == again && state == other);
    let word =
        |bytes: &[u8], at: usize| u64::from_le_bytes(bytes[8 * at..8 * at + 8].try_into().unwrap());
    let reply = word(&answer, 0);
    if reply != 0 {
        assert_eq!(word(&answer, 1), 0);
        assert!(state == before || word(call, 0) == 0);
        let refusal = Answer::from_bytes(&answer).number().unwrap_err();
        assert_eq!(refusal.reply(), reply);
    }
    reply
}

/// Every fault of every argument that the table has, and no other: past the bound it is refused so, and at
/// the bound the call is done.
#[test]
fn every_fault_of_the_table() {
    let mut seen = BTreeSet::new();
    for number in call::ALL {
        assert_eq!(replied(SAME, &call_with(number, &[])), 0, "call {}", number);
        for (place, kind, words) in wrongs(number) {
            seen.insert((number, place, kind));
            let due = reply(kind, place);
            let made = replied(SAME, &call_with(number, &[&words]));
            assert_eq!(made, due, "call {}, {:?}", number, words);
            if kind != 7 && kind != 8 {
                let (at, past) = words[words.len() - 1];
                let call = call_with(number, &[&[(at, past - 1)], &words]);
                assert_eq!(replied(SAME, &call), 0, "call {}, {:?}", number, words);
            }
        }
    }
    // The moment that a postponement makes of a stored one, which is word 7.
    let (postpone, timestamp) = (call::POSTPONE_MIN_RTT_TIMESTAMP, MOMENT - 5);
    for (length, due) in [
        (5, 0),
        (6, reply(9, 1)),
        (LENGTH, reply(9, 1)),
        (LENGTH + 1, reply(4, 1)),
    ] {
        let call = call_with(postpone, &[&[(1, length)]]);
        assert_eq!(replied((7, timestamp), &call), due);
    }
    seen.insert((postpone, 1, 9));

    let mut listed = BTreeSet::new();
    for (number, arguments) in call::ALL.into_iter().zip(table::place::CALLS) {
        for (place, argument) in (1..).zip(arguments) {
            listed.extend(argument.faults.iter().map(|fault| (number, place, fault.0)));
        }
    }
    assert_eq!(seen, listed);
    // All kinds and all places of arguments are among them, but for what is free.
    let kinds: BTreeSet<u64> = seen.iter().map(|fault| fault.2).collect();
    let places: BTreeSet<u64> = seen.iter().map(|fault| fault.1).collect();
    assert!(kinds.into_iter().eq(1..=9) && places.into_iter().eq(1..=4));
}

/// Of two arguments, or two fields of a record, the first; of all of them the first.
#[test]
fn of_several_faults_the_first_is_named() {
    for number in call::ALL {
        let wrongs = wrongs(number);
        for (first, (place, kind, words)) in wrongs.iter().enumerate() {
            let due = reply(*kind, *place);
            for (_, _, later) in &wrongs[first + 1..] {
                let made = replied(SAME, &call_with(number, &[words, later]));
                assert_eq!(made, due, "call {}, {:?} and {:?}", number, words, later);
            }
            let all: Vec<&[(usize, u64)]> = wrongs[first..].iter().map(|it| &it.2[..]).collect();
            assert_eq!(replied(SAME, &call_with(number, &all)), due);
        }
    }
}

/// With a stored number or a parameter out of bounds it is 1, and nothing is named.
#[test]
fn row_1_names_nothing() {
    // A bandwidth of the model; beta.
    let (stored, beta) = ((4, BANDWIDTH + 1), (38, 0));
    for number in call::ALL {
        for (place, kind, words) in wrongs(number) {
            let call = call_with(number, &[&words]);
            let model = ![call::START, call::RAISE_INFLIGHT_HIGH_SLOPE].contains(&number);
            let due = if model { 1 } else { reply(kind, place) };
            assert_eq!(replied(stored, &call), due, "call {}", number);
            let params = call::TAKE_PARAMS.contains(&number);
            let due = if params { 1 } else { reply(kind, place) };
            let call = call_with(number, &[&words, &[beta]]);
            assert_eq!(replied(SAME, &call), due, "call {}", number);
        }
    }
    // The rounds of the cycle's slope, where the cycle is given.
    let slope = call_with(call::RAISE_INFLIGHT_HIGH_SLOPE, &[&[(1, BYTES + 1)]]);
    assert_eq!(replied((42, 30), &slope), reply(1, 1));
    assert_eq!(replied((42, 31), &slope), 1);
}

#[test]
fn a_number_of_no_call_is_at_place_0() {
    for number in [2, 39, 46, 47, 255, 256, 1 << 32, u64::MAX] {
        assert_eq!(replied(SAME, &call_with(number, &[])), 2050);
        assert_eq!(replied((4, BANDWIDTH + 1), &call_with(number, &[])), 1);
    }
    let refusal = Refusal::of_reply(2050).unwrap_err();
    for named in [refusal, refusal.of_call(2), refusal.of_call(0)] {
        assert_eq!(named, refusal);
        assert_eq!(named.to_string(), "2.8 at 0: the number is no call's");
    }
}

// ---- texts

/// An answer doesn't know its call; with it, the text names the argument.
#[test]
fn texts_of_malformed_words() {
    for (number, words, text) in [
        (
            3,
            &[(18, 4)][..],
            "2.8 at 1: acked names numbers that the lists don't hold",
        ),
        (
            3,
            &[(28, 2)],
            "2.8 at 2: event.end_of_round_trip, event.is_probing_for_bandwidth, \
             event.sample_max_bandwidth, event.sample_min_rtt, \
             event.last_packet_send_state.is_valid or \
             event.last_packet_send_state.is_app_limited is malformed",
        ),
        (
            3,
            &[(7, 2)],
            "2.8 at 3: sample.sample_max_bandwidth, sample.sample_max_send_rate, \
             sample.sample_max_ack_rate, sample.sample_is_app_limited, sample.sample_rtt, \
             sample.last_packet_send_state.is_valid or \
             sample.last_packet_send_state.is_app_limited is malformed",
        ),
        (
            9,
            &[(1, 1 << 32)],
            "2.8 at 1: target_gain has bits above the 32nd",
        ),
        (
            10,
            &[(2, 1 << 32)],
            "2.8 at 2: gain has bits above the 32nd",
        ),
        (
            15,
            &[(1, 1 << 32)],
            "2.8 at 1: pacing_gain has bits above the 32nd",
        ),
        (
            16,
            &[(1, 1 << 32)],
            "2.8 at 1: cwnd_gain has bits above the 32nd",
        ),
        (
            40,
            &[(1, 2)],
            "2.8 at 1: probed_too_high is neither 0 nor 1",
        ),
        (
            40,
            &[(2, 2)],
            "2.8 at 2: stopped_risky_probe is neither 0 nor 1",
        ),
    ] {
        let mut answer = [0; Answer::BYTES];
        let call = call_with(number, &[words]);
        run(&mut state_with(0, 0), &call, &mut answer).unwrap();
        let refusal = Answer::from_bytes(&answer).number().unwrap_err();
        let place = &text[..8];
        let unnamed = format!("{}: an argument is malformed", place);
        assert_eq!(refusal.to_string(), unnamed);
        assert_eq!(refusal.of_call(number).to_string(), text);
        assert_eq!(refusal.of_call(number), refusal);
        assert_eq!(refusal.of_call(2).to_string(), unnamed);
    }
}

/// What is refused for its length: a run's bytes, the filter's, and bytes that something is made of.
#[test]
fn texts_of_wrong_lengths() {
    let text = |made: Result<(), Refusal>| made.unwrap_err().to_string();
    let state = "2.8 at 1: state is not 408 bytes long";
    let calls = "2.8 at 2: calls is no whole number of 392 bytes";
    for (lent, asked, due) in [
        (400, 0, state),
        (0, 392, state),
        (409, 391, state),
        (408, 391, calls),
        (408, 785, calls),
    ] {
        let (mut lent, asked) = (vec![0; lent], vec![0; asked]);
        assert_eq!(text(run(&mut lent, &asked, &mut [])), due);
        assert_eq!(text(run_lists(&mut lent, &asked, &[1], &mut [])), due);
    }
    let state = "2.8 at 1: state is not 48 bytes long";
    let calls = "2.8 at 2: calls is no whole number of 32 bytes";
    for (lent, asked, due) in [
        (47, 0, state),
        (0, 32, state),
        (49, 31, state),
        (48, 31, calls),
        (48, 65, calls),
    ] {
        let (mut lent, asked) = (vec![0; lent], vec![0; asked]);
        assert_eq!(text(rtt_run(&mut lent, &asked, &mut [])), due);
    }
    let mut stats = RttStats::from_bytes(&[0; 48]).unwrap();
    assert_eq!(text(stats.run(&[0; 33], &mut [])), calls);
    for length in [1, 15, 17, 47] {
        let made = filter_run(8, &vec![0; length], &mut []);
        assert_eq!(text(made), "2.8 at 2: src is no whole number of 16 bytes");
        assert_eq!(made.unwrap_err().reply(), 133_122);
    }
    let bytes = "2.8 at 1: bytes has a wrong length";
    assert_eq!(text(NetworkModel::from_bytes(&[0; 279]).map(drop)), bytes);
    assert_eq!(text(Cycle::from_bytes(&[0; 129]).map(drop)), bytes);
    assert_eq!(text(RttStats::from_bytes(&[0; 49]).map(drop)), bytes);
}

/// Whether its call is known or not.
#[test]
fn a_fault_is_its_kind_and_its_place() {
    let refusal = world().cycle.raise_inflight_high_slope(BYTES + 1);
    let window = Refusal::BadArgument(Fault::new(FaultKind::Window, 1));
    assert_eq!(refusal, Err(window));
    assert_eq!(
        window.to_string(),
        "2.1 at 1: an argument is larger than 2^40 bytes"
    );
    assert_eq!(refusal.unwrap_err().reply(), window.reply());
    for (kind, place) in [(FaultKind::ByteCount, 1), (FaultKind::Window, 2)] {
        assert_ne!(refusal, Err(Refusal::BadArgument(Fault::new(kind, place))));
    }
}

/// Some replies as plain numbers.
#[test]
fn examples_of_replies() {
    let number = |made: Result<(), Refusal>| made.unwrap_err().reply();
    let World { mut model, .. } = world();
    let late = moment(MOMENT + 1);
    assert_eq!(number(model.on_packet_sent(late, BYTES + 1, 1, 1)), 67_842);

    let mut event = CongestionEvent::new(moment(0), 2 * BYTES, 0, false);
    let sample = Sample {
        sample_max_bandwidth: Some(bits(2 * BANDWIDTH)),
        ..Sample::default()
    };
    let params = Params::default();
    let made = model.on_congestion_event_start(&[], &mut event, &sample, &params);
    assert_eq!(number(made), 131_330);

    let made = NetworkModel::new(&params, length(LENGTH + 1), late);
    assert_eq!(number(made.map(drop)), 66_562);
    assert_eq!(number(Cycle::new(late).map(drop)), 67_842);
    assert_eq!(number(run(&mut [0; 400], &[], &mut [])), 67_586);
    assert_eq!(number(filter_run(8, &[0; 47], &mut [])), 133_122);
    let slope = raise_inflight_high_slope(0, BYTES + 1);
    assert_eq!(number(slope.map(drop)), 131_330);
}
