//! Lent bytes: what is around them and beyond the answer stays, wrong lengths are refused, and a
//! refused call writes nothing.

use guovssalu::filter_run;
use guovssalu::rtt_run;
use guovssalu::run;
use guovssalu::run_lists;
use guovssalu::table;
use guovssalu::table::call;
use guovssalu::table::event;
use guovssalu::table::params;
use guovssalu::table::sample;
use guovssalu::table::state;
use guovssalu::table::EVENT_IN_CALL as EVENT;
use guovssalu::table::PAIR_BYTES;
use guovssalu::table::PARAMS_IN_CALL as PARAMS;
use guovssalu::table::REPLY_IN_ANSWER as REPLY;
use guovssalu::table::SAMPLES_BYTES;
use guovssalu::table::WORD_BYTES as WORD;
use guovssalu::Answer;
use guovssalu::Call;
use guovssalu::CongestionEvent;
use guovssalu::Duration;
use guovssalu::Fault;
use guovssalu::FaultKind;
use guovssalu::Moment;
use guovssalu::Params;
use guovssalu::Refusal;
use guovssalu::RttAnswer;
use guovssalu::RttCall;
use guovssalu::RttStats;
use guovssalu::Sample;
use guovssalu::STATE_BYTES;

const GUARD: u8 = 0xa5;

/// The refusal of a wrong length, or of a malformed word, in the argument at a place.
fn malformed(place: u8) -> Refusal {
    Refusal::BadArgument(Fault::new(FaultKind::ListLength, place))
}

/// Bytes with guards on both sides, at an odd place.
struct Guarded {
    bytes: Vec<u8>,
    length: usize,
}

impl Guarded {
    const EACH: usize = 33;

    fn new(content: &[u8]) -> Self {
        let mut bytes = vec![GUARD; Guarded::EACH];
        bytes.extend(content);
        bytes.extend([GUARD; Guarded::EACH]);
        Guarded {
            bytes,
            length: content.len(),
        }
    }

    fn content(&mut self) -> &mut [u8] {
        &mut self.bytes[Guarded::EACH..Guarded::EACH + self.length]
    }

    /// The content, after a look at the guards.
    fn checked(&mut self) -> &[u8] {
        let end = Guarded::EACH + self.length;
        assert!(self.bytes[..Guarded::EACH]
            .iter()
            .all(|&byte| byte == GUARD));
        assert!(self.bytes[end..].iter().all(|&byte| byte == GUARD));
        assert_eq!(self.bytes.len(), end + Guarded::EACH);
        self.content()
    }
}

/// A start, a send and a question.
fn calls() -> Vec<u8> {
    let mut calls = Vec::new();
    let start = Call::new(call::START, &[5, 100_000_000]).with_params(&Params::default());
    calls.extend(start.as_bytes());
    calls.extend(Call::new(call::ON_PACKET_SENT, &[6, 0, 9, 1200]).as_bytes());
    calls.extend(Call::new(call::MIN_RTT, &[]).as_bytes());
    calls
}

fn word(bytes: &[u8], at: usize) -> u64 {
    let mut word = [0; WORD];
    word.copy_from_slice(&bytes[WORD * at..][..WORD]);
    u64::from_le_bytes(word)
}

#[test]
fn a_run_stays_within_its_bytes() {
    let calls = calls();
    for spare in [0, 1, 7, Answer::BYTES] {
        let mut state = Guarded::new(&[0; STATE_BYTES]);
        let mut answers = Guarded::new(&vec![0x77; 3 * Answer::BYTES + spare]);
        let mut lent = Guarded::new(&calls);
        assert_eq!(
            run(state.content(), lent.content(), answers.content()),
            Ok(())
        );
        assert!(lent.checked() == calls);
        // The number of the packet sent, and the last accepted moment.
        assert_eq!(word(state.checked(), state::LAST_SENT_PACKET), 9);
        assert_eq!(word(state.checked(), state::LAST_ACCEPTED_MOMENT), 6);
        let answers = answers.checked();
        assert!(answers[..2 * Answer::BYTES].iter().all(|&byte| byte == 0));
        let last = &answers[2 * Answer::BYTES..];
        assert_eq!(word(last, table::VALUE_IN_ANSWER), 100_000_000);
        let beyond = &answers[3 * Answer::BYTES..];
        assert!(beyond.len() == spare && beyond.iter().all(|&byte| byte == 0x77));
    }
}

/// The lists of a run stand between numbers that are past every end and were never sent: an event that
/// reads around them is refused.
#[test]
fn a_run_with_lists_stays_within_its_bytes() {
    // Packet 9 is the round's end, and no number of the lists is past it.
    let mut state = begun();
    let restart = Call::new(call::RESTART_ROUND_EARLY, &[]);
    let mut answer = [0; Answer::BYTES];
    assert_eq!(run(&mut state, restart.as_bytes(), &mut answer), Ok(()));
    for length in 4..=9 {
        let mut memory = vec![u64::MAX; length + 16];
        memory[8..8 + length].fill(9);
        let before = memory.clone();
        let lists = &memory[8..8 + length];
        // All of the lists, the first four numbers and the last four.
        let named = [(length, 0), (4, 0), (4, length - 4)];
        let words = named.map(|(count, place)| {
            event_with(&[
                (sample::ACKED_COUNT, count as u64),
                (sample::ACKED_PACKETS, place as u64),
            ])
        });
        let calls = words.concat();
        for spare in [0, 1, 7, Answer::BYTES] {
            let mut lent = Guarded::new(&state);
            let mut asked = Guarded::new(&calls);
            let mut answers = Guarded::new(&vec![0x77; 3 * Answer::BYTES + spare]);
            let reply = run_lists(lent.content(), asked.content(), lists, answers.content());
            assert_eq!(reply, Ok(()));
            assert!(asked.checked() == calls);
            assert_eq!(word(lent.checked(), state::ROUND_TRIP_COUNT), 0);
            assert_eq!(word(lent.checked(), state::LAST_ACCEPTED_MOMENT), 8);
            let (given, beyond) = answers.checked().split_at(3 * Answer::BYTES);
            for answer in given.chunks(Answer::BYTES) {
                let event = Answer::from_bytes(answer.try_into().unwrap()).event();
                assert_eq!(event.map(|event| event.end_of_round_trip), Ok(false));
            }
            assert!(beyond.len() == spare && beyond.iter().all(|&byte| byte == 0x77));
        }
        assert!(memory == before);
    }
}

/// A run on bytes of these lengths has to be refused with this row and write nothing, whatever lists it
/// is lent.
fn refused(state: &[u8], calls: &[u8], room: usize, refusal: Refusal) {
    for lists in [None, Some(&[][..]), Some(&[0, 1, 2, 3, 4][..])] {
        let mut lent = Guarded::new(state);
        let mut answers = Guarded::new(&vec![0x77; room]);
        let reply = match lists {
            None => run(lent.content(), calls, answers.content()),
            Some(lists) => run_lists(lent.content(), calls, lists, answers.content()),
        };
        assert_eq!(reply, Err(refusal));
        assert!(lent.checked() == state);
        assert!(answers.checked().iter().all(|&byte| byte == 0x77));
    }
}

#[test]
fn a_run_refuses_wrong_lengths() {
    let calls = calls();
    let state = [0; STATE_BYTES + 1];
    let room = 3 * Answer::BYTES;
    for length in [0, 1, STATE_BYTES - WORD, STATE_BYTES - 1, STATE_BYTES + 1] {
        refused(&state[..length], &calls, room, malformed(1));
    }
    for length in [1, Call::BYTES - 1, Call::BYTES + 1, 3 * Call::BYTES - 1] {
        let (state, calls) = (&state[..STATE_BYTES], &calls[..length]);
        refused(state, calls, room, malformed(2));
        // The first argument is named.
        refused(&state[1..], calls, room, malformed(1));
    }
    for short in [0, 1, Answer::BYTES - 1, room - 1] {
        refused(&state[..STATE_BYTES], &calls, short, Refusal::ShortOutput);
    }
    // Row 2 comes before row 7.
    refused(&state[..1], &calls, 0, malformed(1));
    refused(&state[..STATE_BYTES], &calls[1..], 0, malformed(2));
}

#[test]
fn a_number_of_no_call_is_answered_and_the_run_goes_on() {
    let mut known = calls();
    known.extend(Call::new(call::ON_PACKET_SENT, &[7, 0, 11, 1200]).as_bytes());
    known.extend(Call::new(call::MIN_RTT_TIMESTAMP, &[]).as_bytes());
    let mut state = [0; STATE_BYTES];
    let mut answers = [0; 5 * Answer::BYTES];
    assert_eq!(run(&mut state, &known, &mut answers), Ok(()));
    // By hand, so that a table with other numbers is noticed.
    for number in [2, 39, 46, 47, 99, 256, 1 << 32, (1 << 32) + 1, u64::MAX] {
        assert!(!call::ALL.contains(&number));
        // In the middle: the calls before and after it do as they do without it.
        let (before, after) = known.split_at(3 * Call::BYTES);
        let unknown = Call::new(number, &[]);
        let calls = [before, unknown.as_bytes(), after].concat();
        let mut left = [0; STATE_BYTES];
        let mut given = Guarded::new(&[0x77; 6 * Answer::BYTES]);
        assert_eq!(run(&mut left, &calls, given.content()), Ok(()));
        let given = given.checked();
        let (first, rest) = given.split_at(3 * Answer::BYTES);
        let (refused, last) = rest.split_at(Answer::BYTES);
        assert!([first, last].concat() == answers && left == state);
        assert_eq!(word(refused, REPLY), 2 + 256 * 8);
        assert!(refused[WORD..].iter().all(|&byte| byte == 0));

        // In a state out of bounds, as zeros are, row 1 comes before row 2.
        let mut zeros = [0; STATE_BYTES];
        let mut answer = [0x77; Answer::BYTES];
        assert_eq!(run(&mut zeros, unknown.as_bytes(), &mut answer), Ok(()));
        assert_eq!(word(&answer, REPLY), Refusal::OutOfBounds.number());
        assert!(zeros == [0; STATE_BYTES] && answer[WORD..].iter().all(|&byte| byte == 0));
    }
}

#[test]
fn a_run_refuses_what_is_no_state() {
    // A flag, and the phase.
    let flag = WORD * state::INFLIGHT_HI_LIMITED_IN_ROUND;
    for (at, byte) in [(flag, 2), (flag + 7, 1), (WORD * state::PHASE, 5)] {
        let mut state = [0; STATE_BYTES];
        state[at] = byte;
        refused(&state, &calls(), 3 * Answer::BYTES, Refusal::OutOfBounds);
        // Row 1 comes before row 7.
        refused(&state, &calls(), 0, Refusal::OutOfBounds);
    }
}

#[test]
fn a_run_of_no_calls_leaves_the_state() {
    let mut state = Guarded::new(&[0; STATE_BYTES]);
    assert_eq!(run(state.content(), &[], &mut []), Ok(()));
    assert!(state.checked() == [0; STATE_BYTES]);
    let lists = [u64::MAX; 4];
    assert_eq!(run_lists(state.content(), &[], &lists, &mut []), Ok(()));
    assert!(state.checked() == [0; STATE_BYTES]);
}

#[test]
fn a_refused_call_is_answered_and_the_run_goes_on() {
    let mut calls = calls();
    // A send before the last accepted moment, then one after it.
    calls.extend(Call::new(call::ON_PACKET_SENT, &[5, 0, 10, 1200]).as_bytes());
    calls.extend(Call::new(call::ON_PACKET_SENT, &[7, 0, 11, 1200]).as_bytes());
    let mut state = [0; STATE_BYTES];
    let mut answers = [0x77; 5 * Answer::BYTES];
    assert_eq!(run(&mut state, &calls, &mut answers), Ok(()));
    let replies: Vec<u64> = answers
        .chunks(Answer::BYTES)
        .map(|answer| word(answer, REPLY))
        .collect();
    assert_eq!(replies, [0, 0, 0, 3, 0]);
    assert_eq!(word(&state, state::LAST_SENT_PACKET), 11);
}

/// The state after the calls above.
fn begun() -> [u8; STATE_BYTES] {
    let mut state = [0; STATE_BYTES];
    let mut answers = [0; 3 * Answer::BYTES];
    assert_eq!(run(&mut state, &calls(), &mut answers), Ok(()));
    state
}

/// An event at moment 8, with some words that are others.
fn event_with(words: &[(usize, u64)]) -> [u8; Call::BYTES] {
    let event = CongestionEvent::new(Moment::from_nanos(8), 1300, 1300, false);
    let (sample, params) = (Sample::default(), Params::default());
    let good = Call::on_congestion_event_start(&[9], &event, &sample, &params);
    let mut call = *good.as_bytes();
    for (at, word) in words {
        call[WORD * at..][..WORD].copy_from_slice(&word.to_le_bytes());
    }
    call
}

/// The bytes of the record that begins with this word.
fn record(bytes: &[u8], first: usize) -> &[u8] {
    &bytes[WORD * first..][..table::EVENT_BYTES]
}

/// A refused event's record comes back byte for byte, whatever its words are.
#[test]
fn a_refused_event_gives_its_record_back() {
    let mut state = begun();
    let with = event_with;
    let most = u64::MAX;
    let all: Vec<(usize, u64)> = (EVENT..EVENT + table::EVENT_WORDS)
        .map(|at| (at, most - at as u64))
        .collect();
    let (words, wide, late) = (malformed(2).reply(), 131_330, 133_378);
    for (due, call) in [
        // A parameter: a bad one, a malformed one, both beside a malformed record.
        (1, with(&[(PARAMS + params::BETA, 0)])),
        (
            1,
            with(&[(
                PARAMS + params::IGNORE_APP_LIMITED_FOR_NO_BANDWIDTH_GROWTH,
                2,
            )]),
        ),
        (
            1,
            with(&[
                (
                    PARAMS + params::IGNORE_APP_LIMITED_FOR_NO_BANDWIDTH_GROWTH,
                    2,
                ),
                (EVENT + event::END_OF_ROUND_TRIP, 3),
                (EVENT + event::SAMPLE_MAX_BANDWIDTH_SET, 0),
                (EVENT + event::SAMPLE_MAX_BANDWIDTH, 7),
            ]),
        ),
        // The record's own words: flags, pairs, numbers, all of them.
        (words, with(&[(EVENT + event::END_OF_ROUND_TRIP, 2)])),
        (
            words,
            with(&[(EVENT + event::IS_PROBING_FOR_BANDWIDTH, most)]),
        ),
        (
            words,
            with(&[
                (EVENT + event::SAMPLE_MAX_BANDWIDTH_SET, 0),
                (EVENT + event::SAMPLE_MAX_BANDWIDTH, 5),
            ]),
        ),
        (
            words,
            with(&[
                (EVENT + event::SAMPLE_MIN_RTT_SET, 2),
                (EVENT + event::SAMPLE_MIN_RTT, 5),
            ]),
        ),
        (
            words,
            with(&[
                (EVENT + event::LAST_PACKET_SEND_STATE_IS_VALID, 255),
                (
                    EVENT + event::LAST_PACKET_SEND_STATE_IS_APP_LIMITED,
                    1 << 32,
                ),
            ]),
        ),
        (
            words,
            with(&[
                (EVENT + event::END_OF_ROUND_TRIP, 2),
                (EVENT + event::IS_PROBING_FOR_BANDWIDTH, 255),
                (EVENT + event::SAMPLE_MIN_RTT_SET, 0),
                (EVENT + event::SAMPLE_MIN_RTT, 5),
            ]),
        ),
        (wide, with(&[(EVENT + event::PRIOR_CWND, most)])),
        (late, with(&all)),
        // A malformed argument beside a good record, numbers in lists that there are none of, an
        // earlier moment, and a number that was never sent.
        (
            malformed(3).reply(),
            with(&[(sample::SAMPLE_IS_APP_LIMITED, 2)]),
        ),
        (malformed(1).reply(), with(&[(sample::ACKED_COUNT, 4)])),
        (
            3,
            with(&[
                (EVENT + event::EVENT_TIME, 5),
                (EVENT + event::LAST_PACKET_SEND_STATE_IS_VALID, 1),
                (EVENT + event::LAST_PACKET_SEND_STATE_IS_APP_LIMITED, 1),
            ]),
        ),
        (
            10,
            with(&[
                (sample::ACKED_PACKETS, 10),
                (EVENT + event::BYTES_ACKED, 7),
                (EVENT + event::END_OF_ROUND_TRIP, 1),
                (EVENT + event::SAMPLE_MIN_RTT_SET, 1),
                (EVENT + event::SAMPLE_MIN_RTT, 5),
            ]),
        ),
    ] {
        let before = state;
        let mut answer = [0x77; Answer::BYTES];
        assert_eq!(run(&mut state, &call, &mut answer), Ok(()));
        assert_eq!(
            (word(&answer, REPLY), word(&answer, table::VALUE_IN_ANSWER)),
            (due, 0)
        );
        assert!(record(&answer, table::EVENT_IN_ANSWER) == record(&call, EVENT));
        assert!(state == before);
        // It is not read: it could have words that no record of the package has.
        let refusal = Answer::from_bytes(&answer).event().unwrap_err();
        assert_eq!(refusal.reply(), due);
    }
    let mut answer = [0x77; Answer::BYTES];
    assert_eq!(run(&mut state, &with(&[]), &mut answer), Ok(()));
    assert_eq!(word(&answer, REPLY), 0);
    let event = Answer::from_bytes(&answer).event().unwrap();
    assert!(event.event_time == Moment::from_nanos(8) && event.end_of_round_trip);
}

/// An event's record goes from its answer into the end of the event: a done one's is taken, by its
/// bytes and as it is read; a refused one's is still malformed.
#[test]
fn a_record_is_handed_on_as_it_is() {
    let bad = [
        (EVENT + event::END_OF_ROUND_TRIP, 2),
        (EVENT + event::IS_PROBING_FOR_BANDWIDTH, 255),
        (EVENT + event::SAMPLE_MIN_RTT_SET, 0),
        (EVENT + event::SAMPLE_MIN_RTT, 5),
    ];
    for (words, due) in [(&[][..], Ok(())), (&bad[..], Err(malformed(1)))] {
        let mut state = begun();
        let mut answer = [0x77; Answer::BYTES];
        assert_eq!(run(&mut state, &event_with(words), &mut answer), Ok(()));
        let event = Answer::from_bytes(&answer).event();
        let mut end = *Call::new(call::ON_CONGESTION_EVENT_FINISH, &[]).as_bytes();
        end[WORD * EVENT..][..table::EVENT_BYTES]
            .copy_from_slice(record(&answer, table::EVENT_IN_ANSWER));
        match event {
            Ok(event) => assert!(
                end == *Call::new(call::ON_CONGESTION_EVENT_FINISH, &[])
                    .with_event(&event)
                    .as_bytes()
            ),
            Err(refusal) => assert_eq!(refusal, malformed(2)),
        }
        assert_eq!(event.is_ok(), due.is_ok());
        assert_eq!(run(&mut state, &end, &mut answer), Ok(()));
        assert_eq!(Refusal::of_reply(word(&answer, REPLY)), due);
    }
}

/// The event of an answer of zeros but for one word.
fn event_of(at: usize, word: u64) -> CongestionEvent {
    let mut answer = [0; Answer::BYTES];
    answer[WORD * at..][..WORD].copy_from_slice(&word.to_le_bytes());
    Answer::from_bytes(&answer).event().unwrap()
}

#[test]
#[should_panic(expected = "2 is no flag")]
fn a_flag_that_no_run_writes_is_not_read() {
    event_of(table::EVENT_IN_ANSWER + event::END_OF_ROUND_TRIP, 2);
}

#[test]
#[should_panic(expected = "0 and 5 are no number and not unset")]
fn a_pair_that_no_run_writes_is_not_read() {
    event_of(table::EVENT_IN_ANSWER + event::SAMPLE_MAX_BANDWIDTH, 5);
}

fn pairs(pairs: &[(u64, u64)]) -> Vec<u8> {
    let mut bytes = Vec::new();
    for (time, sample) in pairs {
        bytes.extend(time.to_le_bytes());
        bytes.extend(sample.to_le_bytes());
    }
    bytes
}

#[test]
fn a_filter_run_stays_within_its_bytes() {
    let src = pairs(&[(0, 5), (2, 5), (3, 4)]);
    for spare in [0, 1, SAMPLES_BYTES] {
        let mut out = Guarded::new(&vec![0x77; 3 * SAMPLES_BYTES + spare]);
        let mut lent = Guarded::new(&src);
        assert_eq!(filter_run(8, lent.content(), out.content()), Ok(()));
        assert!(lent.checked() == src);
        let out = out.checked();
        let words: Vec<u64> = (0..12).map(|at| word(out, at)).collect();
        // All replaced, unchanged, quarter refresh.
        assert_eq!(words, [5, 5, 5, 0, 5, 5, 5, 7, 5, 4, 4, 5]);
        let beyond = &out[3 * SAMPLES_BYTES..];
        assert!(beyond.len() == spare && beyond.iter().all(|&byte| byte == 0x77));
    }
}

#[test]
fn a_filter_run_refuses_and_writes_nothing() {
    let refused = |src: &[u8], room: usize, refusal: Refusal| {
        let mut out = Guarded::new(&vec![0x77; room]);
        assert_eq!(filter_run(8, src, out.content()), Err(refusal));
        assert!(out.checked().iter().all(|&byte| byte == 0x77));
    };
    let src = pairs(&[(5, 1), (4, 1)]);
    refused(&src[..PAIR_BYTES - 1], SAMPLES_BYTES, malformed(2));
    refused(&src[..PAIR_BYTES + 1], 2 * SAMPLES_BYTES, malformed(2));
    // The second pair is too early, though the first could be written.
    refused(&src, 2 * SAMPLES_BYTES, Refusal::EarlierMoment);
    refused(&src[..PAIR_BYTES], SAMPLES_BYTES - 1, Refusal::ShortOutput);
    refused(&src[..PAIR_BYTES], 0, Refusal::ShortOutput);
    // The lowest row is given.
    refused(&src[..2 * PAIR_BYTES - 1], 0, malformed(2));
    refused(&src, 0, Refusal::EarlierMoment);
    assert_eq!(filter_run(8, &[], &mut []), Ok(()));
}

/// Every length under 32 bytes a pair, as the 24 that three samples take, is too short.
#[test]
fn a_filter_run_needs_room_for_the_reasons() {
    let src = pairs(&[(0, 5), (2, 5), (3, 4)]);
    for count in 1..=3 {
        let src = &src[..PAIR_BYTES * count];
        for room in 0..=32 * count + 1 {
            let mut out = Guarded::new(&vec![0x77; room]);
            let reply = filter_run(8, src, out.content());
            let out = out.checked();
            if room < 32 * count {
                assert_eq!(reply, Err(Refusal::ShortOutput), "{} bytes", room);
                assert!(out.iter().all(|&byte| byte == 0x77));
            } else {
                assert_eq!(reply, Ok(()), "{} bytes", room);
                assert_eq!(word(out, 4 * count - 1), [0, 7, 5][count - 1]);
            }
        }
    }
}

/// A fresh estimator, a sample, and a larger delay.
fn rtt_calls() -> Vec<u8> {
    let length = Duration::from_nanos;
    let mut calls = Vec::new();
    calls.extend(RttCall::new(length(9), length(5)).as_bytes());
    calls.extend(RttCall::update_rtt(length(101), length(7), true).as_bytes());
    calls.extend(RttCall::update_max_ack_delay(length(6)).as_bytes());
    calls
}

fn words(bytes: &[u8]) -> Vec<u64> {
    (0..bytes.len() / WORD).map(|at| word(bytes, at)).collect()
}

#[test]
fn a_run_of_round_trips_stays_within_its_bytes() {
    let calls = rtt_calls();
    for spare in [0, 1, 7, RttAnswer::BYTES] {
        let mut state = Guarded::new(&[0; RttStats::BYTES]);
        let mut answers = Guarded::new(&vec![0x77; 3 * RttAnswer::BYTES + spare]);
        let mut lent = Guarded::new(&calls);
        assert_eq!(
            rtt_run(state.content(), lent.content(), answers.content()),
            Ok(())
        );
        assert!(lent.checked() == calls);
        assert_eq!(words(state.checked()), [101, 101, 101, 50, 6, 1]);
        let (given, beyond) = answers.checked().split_at(3 * RttAnswer::BYTES);
        let (fresh, sampled) = ([0, 0, u64::MAX, 9, 4], [0, 101, 101, 101, 50]);
        assert_eq!(words(given), [fresh, sampled, sampled].concat());
        assert!(beyond.len() == spare && beyond.iter().all(|&byte| byte == 0x77));
    }
    // No calls: every state stays, out of its bounds or not.
    for byte in [0, 0x77] {
        let mut kept = vec![byte; RttStats::BYTES];
        kept[WORD * 5..].copy_from_slice(&1_u64.to_le_bytes());
        let mut state = Guarded::new(&kept);
        assert_eq!(rtt_run(state.content(), &[], &mut []), Ok(()));
        assert!(state.checked() == kept);
    }
}

/// A wrong length of the state, of the calls and of the answers, and what is no state: row 1 comes before
/// row 2, and that before row 7. No byte is written.
#[test]
fn a_run_of_round_trips_refuses_and_writes_nothing() {
    let refused = |state: &[u8], calls: &[u8], room: usize, refusal: Refusal| {
        let mut lent = Guarded::new(state);
        let mut answers = Guarded::new(&vec![0x77; room]);
        let reply = rtt_run(lent.content(), calls, answers.content());
        assert_eq!(reply, Err(refusal));
        assert!(lent.checked() == state);
        assert!(answers.checked().iter().all(|&byte| byte == 0x77));
    };
    let (state, calls, room) = ([0; 49], rtt_calls(), 3 * RttAnswer::BYTES);
    for length in [0, 1, 40, 47, 49] {
        refused(&state[..length], &calls, room, malformed(1));
        refused(&state[..length], &calls[1..], 0, malformed(1));
    }
    let state = &state[..48];
    for length in [1, 31, 33, 95] {
        refused(state, &calls[..length], room, malformed(2));
        refused(state, &calls[..length], 0, malformed(2));
    }
    for short in [0, 1, 39, 40, 119] {
        refused(state, &calls, short, Refusal::ShortOutput);
    }
    for (at, byte) in [(40, 2), (40, 255), (41, 1), (47, 128)] {
        let mut state = [0; 48];
        state[at] = byte;
        refused(&state, &calls, room, Refusal::OutOfBounds);
        refused(&state, &calls[1..], 0, Refusal::OutOfBounds);
        refused(&state, &[], 0, Refusal::OutOfBounds);
    }
}
