//! Lists of acked numbers: the greatest ends the round, wherever it stands, or refuses the event where it
//! was never sent, by the model's method, in an event itself and in the lists of a run; and what an event
//! takes from the lists.

use std::ops::RangeInclusive;

use guovssalu::run;
use guovssalu::run_lists;
use guovssalu::table;
use guovssalu::table::call;
use guovssalu::table::sample;
use guovssalu::table::state;
use guovssalu::table::MODEL_BYTES;
use guovssalu::table::REPLY_IN_ANSWER as REPLY;
use guovssalu::table::WORD_BYTES as WORD;
use guovssalu::Answer;
use guovssalu::Call;
use guovssalu::CongestionEvent;
use guovssalu::Duration;
use guovssalu::Fault;
use guovssalu::FaultKind;
use guovssalu::Moment;
use guovssalu::NetworkModel;
use guovssalu::Params;
use guovssalu::Refusal;
use guovssalu::Sample;
use guovssalu::STATE_BYTES;

/// The greatest numbers there are: they stand around a list, where no event may take them.
const JUNK: [u64; 7] = [u64::MAX; 7];

fn word(bytes: &[u8], at: usize) -> u64 {
    let mut word = [0; WORD];
    word.copy_from_slice(&bytes[WORD * at..][..WORD]);
    u64::from_le_bytes(word)
}

/// The state that a start and these calls leave; each has to be done.
fn started(calls: &[Call]) -> [u8; STATE_BYTES] {
    let start = Call::new(call::START, &[10, 100_000_000]).with_params(&Params::default());
    let calls = [&[start][..], calls].concat();
    let bytes: Vec<u8> = calls.iter().flat_map(|call| *call.as_bytes()).collect();
    let mut state = [0; STATE_BYTES];
    let mut answers = vec![0; calls.len() * Answer::BYTES];
    assert_eq!(run(&mut state, &bytes, &mut answers), Ok(()));
    let done = |answer: &[u8]| word(answer, REPLY) == 0;
    assert!(answers.chunks(Answer::BYTES).all(done));
    state
}

/// A state in which acks past `end` end the round, or any where there is none, and `sent` is the packet
/// sent last.
fn begun(end: Option<u64>, sent: u64) -> [u8; STATE_BYTES] {
    let send = |packet: u64| Call::new(call::ON_PACKET_SENT, &[10, 0, packet, 1200]);
    let restart = Call::new(call::RESTART_ROUND_EARLY, &[]);
    let state = match end {
        Some(end) => started(&[send(end), restart, send(sent)]),
        None => started(&[send(sent)]),
    };
    let set = (end.is_some() as u64, end.unwrap_or(0));
    assert_eq!(word(&state, state::END_OF_ROUND_TRIP_SET), set.0);
    assert_eq!(word(&state, state::END_OF_ROUND_TRIP), set.1);
    state
}

/// What is known of an event at moment 20.
fn record() -> CongestionEvent {
    CongestionEvent::new(Moment::from_nanos(20), 1300, 1300, false)
}

/// The event that acks these packets, with losses, so that a round's end leaves its marks.
fn event(acked: &[u64]) -> Call {
    Call::on_congestion_event_start(acked, &record(), &losses(), &Params::default())
}

fn losses() -> Sample {
    Sample {
        total_bytes_lost: 500,
        sample_max_inflight: 700,
        ..Sample::default()
    }
}

/// What an event left: its record, and the model.
#[derive(Debug, PartialEq)]
struct Left {
    event: CongestionEvent,
    model: Vec<u8>,
}

/// The event by the method; where it is refused model and record have to stay.
fn by_method(state: &[u8; STATE_BYTES], acked: &[u64]) -> Result<Left, Refusal> {
    let mut model = NetworkModel::from_bytes(&state[..MODEL_BYTES]).unwrap();
    let mut event = record();
    let made = model.on_congestion_event_start(acked, &mut event, &losses(), &Params::default());
    let stays = model.as_bytes()[..] == state[..MODEL_BYTES] && event == record();
    assert_eq!(made.is_err(), stays, "{:?}", acked);
    made.map(|()| Left {
        event,
        model: model.as_bytes().to_vec(),
    })
}

/// The event by a run; the lists have to stay, and where it is refused the state.
fn by_run(state: &[u8; STATE_BYTES], call: &Call, lists: &[u64]) -> Result<Left, Refusal> {
    let (mut after, before) = (*state, lists.to_vec());
    let mut answer = [0x77; Answer::BYTES];
    let made = run_lists(&mut after, call.as_bytes(), lists, &mut answer);
    assert_eq!(made, Ok(()));
    assert!(lists == before, "a run changed the lists");
    let event = Answer::from_bytes(&answer).event();
    assert_eq!(event.is_err(), after == *state);
    event.map(|event| Left {
        event,
        model: after[..MODEL_BYTES].to_vec(),
    })
}

/// The numbers as they are, in lists with greater ones around them.
fn by_lists(state: &[u8; STATE_BYTES], acked: &[u64]) -> Result<Left, Refusal> {
    let lists = [&JUNK[..], acked, &JUNK].concat();
    let numbers = JUNK.len()..JUNK.len() + acked.len();
    by_run(state, &event(&[]).with_list(&lists, numbers), &lists)
}

/// What an event with these numbers left, or why it was refused, the same in every way: by the model's
/// method, in an event of a run, and in lists; a short list there so often that it is not in the event
/// itself.
fn left(state: &[u8; STATE_BYTES], acked: &[u64]) -> Result<Left, Refusal> {
    let left = by_method(state, acked);
    assert_eq!(by_run(state, &event(acked), &[]), left, "{:?}", acked);
    assert_eq!(by_lists(state, acked), left, "{:?}", acked);
    if !acked.is_empty() {
        assert_eq!(by_lists(state, &acked.repeat(4)), left, "{:?}", acked);
    }
    left
}

/// Whether an event with these numbers ends the round, where `end` is its end and the greatest of them,
/// or 7, was sent last.
fn ends(end: Option<u64>, acked: &[u64]) -> bool {
    let sent = acked.iter().copied().fold(7, u64::max);
    let before = begun(end, sent);
    let left = left(&before, acked).unwrap();
    let ended = left.event.end_of_round_trip;
    // The count rises and the end is the packet sent last, or both stay.
    let rounds = word(&before, state::ROUND_TRIP_COUNT) + ended as u64;
    assert_eq!(word(&left.model, state::ROUND_TRIP_COUNT), rounds);
    let due = if ended { Some(sent) } else { end };
    let stands = NetworkModel::from_bytes(&left.model).unwrap();
    assert_eq!(stands.end_of_round_trip(), due);
    ended
}

/// Whether an event ended the round, or why it was refused.
fn ended_by(left: &Result<Left, Refusal>) -> Result<bool, Refusal> {
    let ended = left.as_ref().map(|left| left.event.end_of_round_trip);
    ended.map_err(|refusal| *refusal)
}

/// All lists of so many of these numbers.
fn lists_of(length: usize, numbers: &[u64]) -> Vec<Vec<u64>> {
    let mut lists = vec![vec![]];
    for _ in 0..length {
        let longer = |list: &Vec<u64>| -> Vec<Vec<u64>> {
            let with = |number: &u64| [&list[..], &[*number]].concat();
            numbers.iter().map(with).collect()
        };
        lists = lists.iter().flat_map(longer).collect();
    }
    lists
}

#[test]
fn lists_of_up_to_three_in_every_order() {
    let mut seen = (0, 0);
    for length in 0..=3 {
        for acked in lists_of(length, &[0, 4, 5, 6, u64::MAX]) {
            let due = acked.iter().any(|number| *number > 5);
            assert_eq!(ends(Some(5), &acked), due, "{:?}", acked);
            // Where no end is set yet any number ends the round, 0 too, but no empty list.
            assert_eq!(ends(None, &acked), length > 0, "{:?}", acked);
            seen.0 += due as u64;
            seen.1 += 1;
        }
    }
    assert_eq!(seen, (2 + 16 + 98, 1 + 5 + 25 + 125));
}

#[test]
fn the_greatest_counts_and_not_the_last() {
    for acked in [
        &[6, 5][..],
        &[9, 8, 7],
        &[u64::MAX, 0],
        // It stands before the last three, after the first three, between them.
        &[9, 1, 2, 3],
        &[1, 2, 3, 9],
        &[1, 2, 3, 9, 4, 5, 0],
        &[6, 5, 4, 3, 2, 1],
    ] {
        assert!(ends(Some(5), acked), "{:?}", acked);
        let past = *acked.iter().max().unwrap();
        assert!(!ends(Some(past), acked), "{:?}", acked);
        assert!(ends(Some(past - 1), acked), "{:?}", acked);
    }
}

/// 1,000 numbers of which only the one in the middle is past the end.
#[test]
fn a_thousand_numbers_with_the_greatest_in_the_middle() {
    let sorted: Vec<u64> = (1..=1000).collect();
    let mut middle: Vec<u64> = (1..=999).collect();
    middle.insert(500, 1000);
    let mut mixed: Vec<u64> = (1..=999).map(|number| number * 700 % 1009).collect();
    mixed.retain(|number| *number < 1000);
    mixed.insert(mixed.len() / 2, 1000);
    for (end, ended) in [(999, true), (1000, false)] {
        let state = begun(Some(end), 1007);
        let expected = left(&state, &sorted);
        assert_eq!(ended_by(&expected), Ok(ended));
        assert_eq!(left(&state, &middle), expected);
        assert_eq!(left(&state, &mixed), expected);
        assert_eq!(left(&state, &[1000]), expected);
    }
    let state = begun(Some(5), 999);
    for acked in [&sorted, &middle, &mixed] {
        assert_eq!(left(&state, acked), Err(Refusal::NeverSent));
    }
}

#[test]
fn the_greatest_is_found_wherever_it_stands() {
    let state = begun(Some(5), 7);
    let mut acked = vec![5; 1000];
    assert_eq!(ended_by(&left(&state, &acked)), Ok(false));
    for place in 0..acked.len() {
        for (greatest, due) in [
            (6, Ok(true)),
            (7, Ok(true)),
            (8, Err(Refusal::NeverSent)),
            (u64::MAX, Err(Refusal::NeverSent)),
        ] {
            acked[place] = greatest;
            assert_eq!(ended_by(&by_method(&state, &acked)), due);
            assert_eq!(ended_by(&by_lists(&state, &acked)), due);
        }
        acked[place] = 5;
    }
}

/// A short list with a number above the last sent one, wherever it stands, and any before the first send.
#[test]
fn short_lists_with_a_number_that_was_never_sent() {
    let never = Some(Refusal::NeverSent);
    for length in 0..=3 {
        for acked in lists_of(length, &[0, 6, 7, 8, u64::MAX]) {
            let above = acked.iter().any(|number| *number > 7);
            let due = never.filter(|_| above);
            assert_eq!(left(&begun(Some(5), 7), &acked).err(), due, "{:?}", acked);
            let due = never.filter(|_| length > 0);
            assert_eq!(left(&started(&[]), &acked).err(), due, "{:?}", acked);
        }
    }
}

/// An event takes the numbers that it names, and no others: each place and count of three lists, and each
/// end among their numbers.
#[test]
fn an_event_takes_what_it_names() {
    for lists in [
        [12, 11, 10, 9, 8, 3],
        [3, 8, 9, 10, 11, 12],
        [9, 12, 3, 8, 11, 10],
    ] {
        for end in 2..=13 {
            let state = begun(Some(end), 20);
            for (place, count) in [(0, 4), (1, 4), (2, 4), (0, 5), (1, 5), (0, 6)] {
                let named = place..place + count;
                let past = lists[named.clone()].iter().any(|number| *number > end);
                let left = by_run(&state, &event(&[]).with_list(&lists, named), &lists);
                assert_eq!(ended_by(&left), Ok(past));
            }
        }
    }
}

/// The example of docs/LAYOUT.md, "The lists": two events that name some of the same numbers, and one
/// that names more than there are.
#[test]
fn events_may_name_the_same_numbers() {
    let lists = [12, 11, 10, 9, 8, 3];
    let named = |place: u64, count: u64| {
        let mut call = *event(&[]).as_bytes();
        for (at, word) in [(sample::ACKED_COUNT, count), (sample::ACKED_PACKETS, place)] {
            call[WORD * at..][..WORD].copy_from_slice(&word.to_le_bytes());
        }
        call
    };
    // The first ends the round, whose next end is then the packet sent last, 12: the others end none.
    let mut state = begun(Some(11), 12);
    let calls = [named(0, 5), named(2, 4), named(3, 4), named(2, 4)].concat();
    let mut answers = [0x77; 4 * Answer::BYTES];
    let made = run_lists(&mut state, &calls, &lists, &mut answers);
    assert_eq!(made, Ok(()));
    let answer = |at: usize| {
        let bytes = &answers[at * Answer::BYTES..][..Answer::BYTES];
        let event = Answer::from_bytes(bytes.try_into().unwrap()).event();
        event.map(|event| event.end_of_round_trip)
    };
    let outside = Err(Refusal::BadArgument(Fault::new(FaultKind::ListLength, 1)));
    assert_eq!(
        [answer(0), answer(1), answer(2), answer(3)],
        [Ok(true), Ok(false), outside, Ok(false)]
    );
    assert_eq!(word(&state, state::ROUND_TRIP_COUNT), 1);
    // The refused one's record is the one that was handed in.
    let (record, bytes) = (WORD * table::EVENT_IN_CALL, table::EVENT_BYTES);
    let refused = &answers[2 * Answer::BYTES..][WORD * table::EVENT_IN_ANSWER..][..bytes];
    assert!(refused == &calls[2 * Call::BYTES..][record..][..bytes]);
}

/// With up to three numbers the lists are not looked at; with more the two words after the place. Nor
/// does what is not looked at refuse the event, where it was never sent.
#[test]
fn what_an_event_does_not_use_is_not_looked_at() {
    for (sent, most_acked) in [(u64::MAX, Ok(true)), (7, Err(Refusal::NeverSent))] {
        looked_at(&begun(Some(5), sent), most_acked);
    }
}

/// Events in a state whose round ends past 5, of which some ack the greatest number there is: what is due
/// of these.
fn looked_at(state: &[u8; STATE_BYTES], most_acked: Result<bool, Refusal>) {
    let with = |words: [u64; 4], lists: &[u64]| {
        let mut call = *event(&[]).as_bytes();
        for (at, word) in (sample::ACKED_COUNT..).zip(words) {
            call[WORD * at..][..WORD].copy_from_slice(&word.to_le_bytes());
        }
        let (mut state, mut answer) = (*state, [0x77; Answer::BYTES]);
        assert_eq!(run_lists(&mut state, &call, lists, &mut answer), Ok(()));
        let event = Answer::from_bytes(&answer).event();
        event.map(|event| event.end_of_round_trip)
    };
    let (few, most) = ([1, 2, 3, 4], u64::MAX);
    for lists in [&[][..], &JUNK, &few] {
        // The places that these numbers would name are past the end, or outside of the lists.
        assert_eq!(with([0, most, most, most], lists), Ok(false));
        assert_eq!(with([1, 0, most, most], lists), Ok(false));
        assert_eq!(with([2, 4, 5, most], lists), Ok(false));
        assert_eq!(with([3, 3, 2, 1], lists), Ok(false));
        assert_eq!(with([1, most, 0, 0], lists), most_acked);
        assert_eq!(with([3, 0, 0, most], lists), most_acked);
    }
    for after in [0, 1, 7, most] {
        assert_eq!(with([4, 0, after, after], &few), Ok(false));
        assert_eq!(with([4, 0, after, after], &JUNK), most_acked);
    }
}

/// Calls that name no place make the same run whatever lists are lent, and with no lists all do.
#[test]
fn a_run_with_no_lists_is_a_run() {
    let mut calls = Vec::new();
    for packet in 1..=4 {
        calls.extend(Call::new(call::ON_PACKET_SENT, &[10, 0, packet, 1200]).as_bytes());
    }
    for acked in [&[][..], &[1], &[2, 1], &[3, 4, 2], &[1, 2, 3, 4]] {
        calls.extend(event(acked).as_bytes());
        calls.extend(
            event(&[])
                .with_list(acked, 0..acked.len().min(3))
                .as_bytes(),
        );
        calls.extend(Call::new(call::ON_CONGESTION_EVENT_FINISH, &[]).as_bytes());
    }
    calls.extend(Call::new(call::INFLIGHT_LO, &[]).as_bytes());
    let made = |calls: &[u8], lists: Option<&[u64]>| {
        let mut state = begun(None, 7);
        let mut answers = vec![0x77; calls.len() / Call::BYTES * Answer::BYTES];
        let reply = match lists {
            Some(lists) => run_lists(&mut state, calls, lists, &mut answers),
            None => run(&mut state, calls, &mut answers),
        };
        assert_eq!(reply, Ok(()));
        (state, answers)
    };
    let expected = made(&calls, None);
    let replies = expected.1.chunks(Answer::BYTES);
    let done = replies.filter(|answer| word(answer, REPLY) == 0).count();
    assert!(done > 10, "{} calls were done", done);
    for lists in [&[][..], &[0], &JUNK] {
        assert!(made(&calls, Some(lists)) == expected);
    }
    // One that names a place is refused where there are no lists, and done where there are.
    let lists = [1, 2, 3, 4];
    calls.extend(event(&[]).with_list(&lists, 0..4).as_bytes());
    let refused = made(&calls, None);
    assert!(made(&calls, Some(&[])) == refused);
    let last = |answers: &[u8]| word(&answers[answers.len() - Answer::BYTES..], REPLY);
    assert_eq!(last(&refused.1), 2 + 256 * 8 + 65_536);
    assert_eq!(last(&made(&calls, Some(&lists)).1), 0);
}

/// The count of acked numbers, and the three words after it.
fn words_of(call: &Call) -> [u64; 4] {
    [0, 1, 2, 3].map(|at| word(call.as_bytes(), sample::ACKED_COUNT + at))
}

#[test]
fn of_many_packets_acked_the_greatest_is_handed_on() {
    let words = |acked: &[u64]| words_of(&event(acked));
    assert_eq!(words(&[]), [0, 0, 0, 0]);
    assert_eq!(words(&[0]), [1, 0, 0, 0]);
    assert_eq!(words(&[7, 8]), [1, 8, 0, 0]);
    assert_eq!(words(&[8, 7]), [1, 8, 0, 0]);
    assert_eq!(words(&[9, 1, 2, 3]), [1, 9, 0, 0]);
    assert_eq!(words(&[5, 6, u64::MAX, 8, 9]), [1, u64::MAX, 0, 0]);
}

/// Up to three numbers stand in the event as they are, more are named by their place.
#[test]
fn a_list_is_written_or_named() {
    let lists = [9, 8, 7, 6, 5, 4];
    for (numbers, words) in [
        (0..0, [0, 0, 0, 0]),
        (6..6, [0, 0, 0, 0]),
        (5..6, [1, 4, 0, 0]),
        (1..3, [2, 8, 7, 0]),
        (0..3, [3, 9, 8, 7]),
        (0..4, [4, 0, 0, 0]),
        (2..6, [4, 2, 0, 0]),
        (0..6, [6, 0, 0, 0]),
    ] {
        // Nothing of the numbers that the event had is left, and no other word is touched.
        for before in [event(&[3]), event(&[]).with_list(&lists, 3..6)] {
            let call = before.with_list(&lists, numbers.clone());
            assert_eq!(words_of(&call), words);
            let first = WORD * sample::ACKED_COUNT;
            let end = first + 4 * WORD;
            assert_eq!(call.as_bytes()[..first], before.as_bytes()[..first]);
            assert_eq!(call.as_bytes()[end..], before.as_bytes()[end..]);
        }
    }
}

#[test]
#[should_panic(expected = "out of range")]
fn a_list_that_is_not_there_is_not_named() {
    event(&[]).with_list(&[1, 2, 3, 4], 1..5);
}

/// Packets that are sent, and then an event: the numbers that it acks, and whether it has to end the
/// round.
type Step = (RangeInclusive<u64>, Vec<u64>, bool);

/// Goes through a trace by the model's methods and by one run, and through its rounds by the last number
/// of each list: at which steps they would have ended.
fn trace(steps: &[Step]) -> Vec<bool> {
    let params = Params::default();
    let round_trip = Duration::from_millis(100);
    let mut model = NetworkModel::new(&params, round_trip, Moment::from_nanos(0)).unwrap();
    let mut calls = Call::new(call::START, &[0, round_trip.as_nanos()])
        .with_params(&params)
        .as_bytes()
        .to_vec();
    let (mut lists, mut events): (Vec<u64>, Vec<usize>) = Default::default();
    let (mut rounds, mut end, mut by_last) = (0, None, Vec::new());
    for (time, (sent, acked, ends)) in (1..).zip(steps) {
        let now = Moment::from_nanos(time);
        for packet in sent.clone() {
            model.on_packet_sent(now, 0, packet, 1200).unwrap();
            calls.extend(Call::new(call::ON_PACKET_SENT, &[time, 0, packet, 1200]).as_bytes());
        }
        let mut event = CongestionEvent::new(now, 1300, 1300, false);
        let sample = Sample::default();
        let start = lists.len();
        lists.extend(acked);
        let call = Call::on_congestion_event_start(&[], &event, &sample, &params);
        events.push(calls.len() / Call::BYTES);
        calls.extend(call.with_list(&lists, start..lists.len()).as_bytes());

        let made = model.on_congestion_event_start(acked, &mut event, &sample, &params);
        assert_eq!(made, Ok(()));
        assert_eq!(event.end_of_round_trip, *ends, "acked {:?}", acked);
        rounds += *ends as u64;
        assert_eq!(model.round_trip_count(), rounds);
        model.on_congestion_event_finish(&event).unwrap();

        let past = acked
            .last()
            .map_or(false, |last| end.map_or(true, |end| last > end));
        end = if past { Some(sent.end()) } else { end };
        by_last.push(past);
    }

    let mut state = [0; STATE_BYTES];
    let mut answers = vec![0; calls.len() / Call::BYTES * Answer::BYTES];
    run_lists(&mut state, &calls, &lists, &mut answers).unwrap();
    for (at, (_, acked, ends)) in events.iter().zip(steps) {
        let answer = answers[at * Answer::BYTES..][..Answer::BYTES].try_into();
        let event = Answer::from_bytes(answer.unwrap()).event().unwrap();
        assert_eq!(event.end_of_round_trip, *ends, "acked {:?}", acked);
    }
    assert_eq!(word(&state, state::ROUND_TRIP_COUNT), rounds);
    by_last
}

/// A trace as from the field, with short lists in descending order: each round ends with the event that
/// acks past its end. By the last number the three that end with events 3, 5 and 7 (counted from 0)
/// would have ended with 4, 6 and none of these.
#[test]
fn a_trace_with_short_descending_lists() {
    let by_last = trace(&[
        (1..=3, vec![3, 2, 1], true),
        (4..=6, vec![], false),
        (7..=7, vec![4], true),
        (8..=10, vec![8, 7, 6], true),
        (11..=12, vec![10, 9], false),
        (13..=14, vec![12, 11], true),
        (15..=16, vec![14, 13], false),
        (17..=18, vec![18, 17, 16], true),
        (19..=20, vec![], false),
    ]);
    let late = [true, false, true, false, true, false, true, false, false];
    assert_eq!(by_last, late);
}

/// One with long lists: every event but the first acks ten packets around the round's end, and each
/// ends the round. By the last number every second round would have ended one event later.
#[test]
fn a_trace_with_long_descending_lists() {
    let step = |round: u64| -> Step {
        let first = 10 * round + 1;
        let acked = first.saturating_sub(5).max(1)..first + 5;
        (first..=first + 9, acked.rev().collect(), true)
    };
    let steps: Vec<Step> = (0..40).map(step).collect();
    let by_last = trace(&steps);
    let late: Vec<bool> = (0..40).map(|round| round % 2 == 0).collect();
    assert_eq!(by_last, late);
}
