//! A state that version 0.4.0 kept, of layout 1: as it is it is refused, and carried over as docs/LAYOUT.md
//! says it goes on as it did. Its words, and those that were left of it, are that version's own.

use guovssalu::run;
use guovssalu::run_lists;
use guovssalu::table::call;
use guovssalu::Answer;
use guovssalu::Bandwidth;
use guovssalu::Call;
use guovssalu::CongestionEvent;
use guovssalu::Cycle;
use guovssalu::Duration;
use guovssalu::Fault;
use guovssalu::FaultKind;
use guovssalu::Moment;
use guovssalu::NetworkModel;
use guovssalu::Params;
use guovssalu::Refusal;
use guovssalu::Sample;

/// The 50 words of a state in use: packet 8 was sent last, the phase is Up.
const KEPT: &str = "\
    2 8 1 8 10400 20800 90000000 100000000 50 1 0 5150 1 20800 2600 1 20800 18200 20000 1073741824 \
    1076984021 0 0 10400 0 0 1 1 20800 0 0 2600 2000 320000000 1 120000000 150000000 0 0 1 \
    2000500000 5 1 1625 0 0 1 1 0 0";

/// What version 0.4.0 made of it by `go_on`.
const LEFT: &str = "\
    3 9 1 9 10400 31200 90000000 100000000 0 0 0 18446744073709551615 0 31200 3900 1 31200 12740 \
    20000 1073741824 1076984021 0 0 10400 0 0 1 1 31200 0 0 3900 2600 400000000 3 120000000 \
    400000000 0 0 1 2000500000 6 1 3250 0 0 1 0 0 0";

/// Goes on from the kept state: a send, an event with losses that ends the round, its end, a steeper slope,
/// an entry into Cruise.
fn go_on(model: &mut NetworkModel, cycle: &mut Cycle) -> Result<(), Refusal> {
    let (params, now) = (Params::default(), Moment::from_nanos(400_000_000));
    model.on_packet_sent(now, 3_900, 9, 1_300)?;
    let mut event = CongestionEvent::new(now, 26_000, 5_200, false);
    model.on_congestion_event_start(&[9, 8, 7], &mut event, &sample(3_900, 2_600), &params)?;
    assert!(event.end_of_round_trip);
    model.on_congestion_event_finish(&event)?;
    cycle.raise_inflight_high_slope(104_000)?;
    cycle.enter_probe_cruise(model, now)
}

/// What the sampler says, with these totals of bytes acked and lost.
fn sample(total_bytes_acked: u64, total_bytes_lost: u64) -> Sample {
    let bandwidth = Bandwidth::from_bits_per_second(8 * total_bytes_acked);
    Sample {
        sample_max_bandwidth: Some(bandwidth),
        sample_max_send_rate: Some(bandwidth),
        sample_rtt: Some(Duration::from_millis(90)),
        sample_max_inflight: total_bytes_acked,
        total_bytes_acked,
        total_bytes_lost,
        ..Sample::default()
    }
}

/// The bytes of words.
fn bytes(words: &str) -> Vec<u8> {
    let word = |word: &str| word.parse::<u64>().unwrap().to_le_bytes();
    words.split(' ').flat_map(word).collect()
}

/// The state of layout 1 in this one: docs/LAYOUT.md, "Carrying a kept state over".
fn carried_over(old: &[u8], sent: bool) -> Vec<u8> {
    let note = u64::from(sent).to_le_bytes();
    [&old[..272], &note, &old[272..]].concat()
}

/// The kept state, carried over: its model and its cycle.
fn restored(sent: bool) -> (NetworkModel, Cycle) {
    let state = carried_over(&bytes(KEPT), sent);
    let (model, cycle) = state.split_at(NetworkModel::BYTES);
    let model = NetworkModel::from_bytes(model).unwrap();
    (model, Cycle::from_bytes(cycle).unwrap())
}

#[test]
fn as_it_is_it_is_refused() {
    let asked = Call::new(call::INFLIGHT_LO, &[]);
    let length = Refusal::BadArgument(Fault::new(FaultKind::ListLength, 1));
    for old in [bytes(KEPT), bytes(LEFT), vec![0; 400]] {
        let (mut state, mut answer) = (old.clone(), [0x77; Answer::BYTES]);
        let made = run(&mut state, asked.as_bytes(), &mut answer);
        assert_eq!(made, Err(length));
        let made = run_lists(&mut state, asked.as_bytes(), &[1], &mut answer);
        assert_eq!(made, Err(length));
        assert!(state == old && answer == [0x77; Answer::BYTES]);

        let (model, cycle) = old.split_at(272);
        let model = NetworkModel::from_bytes(model);
        assert_eq!(model.err(), Some(length));
        assert!(Cycle::from_bytes(cycle).is_ok());
    }
}

/// Whatever the note is, since a send comes first.
#[test]
fn carried_over_it_goes_on_as_it_did() {
    for sent in [true, false] {
        let (mut model, mut cycle) = restored(sent);
        assert_eq!(model.anything_sent(), sent);
        assert_eq!(go_on(&mut model, &mut cycle), Ok(()));
        let after = [&model.as_bytes()[..], cycle.as_bytes()].concat();
        assert!(after == carried_over(&bytes(LEFT), true));
    }
}

/// An event before the next send, with the note that something was sent and without it.
#[test]
fn the_note_says_what_can_be_acked_at_once() {
    let never = Err(Refusal::NeverSent);
    for (acked, noted, not_noted) in [
        (&[][..], Ok(()), Ok(())),
        (&[0], Ok(()), never),
        (&[8, 7], Ok(()), never),
        (&[8, 9], never, never),
    ] {
        for (sent, due) in [(true, noted), (false, not_noted)] {
            let (mut model, _) = restored(sent);
            let mut event =
                CongestionEvent::new(Moment::from_nanos(400_000_000), 26_000, 5_200, false);
            let (sample, params) = (sample(3_900, 2_600), Params::default());
            let made = model.on_congestion_event_start(acked, &mut event, &sample, &params);
            assert_eq!(made, due, "{:?} where the note is {}", acked, sent);
        }
    }
}
