//! The crate's own types: times, bandwidths, refusals and their replies, reasons, the filter's samples.

use std::collections::HashSet;
use std::convert::TryFrom;
use std::panic;
use std::time;

use guovssalu::Bandwidth;
use guovssalu::Duration;
use guovssalu::Fault;
use guovssalu::FaultKind;
use guovssalu::Moment;
use guovssalu::Reason;
use guovssalu::Refusal;
use guovssalu::Samples;

#[test]
fn lengths_of_time() {
    assert_eq!(Duration::from_micros(3).as_nanos(), 3_000);
    assert_eq!(Duration::from_millis(3).as_nanos(), 3_000_000);
    assert_eq!(Duration::from_secs(3).as_nanos(), 3_000_000_000);
    assert_eq!(Duration::from_secs(u64::MAX).as_nanos(), u64::MAX);

    let length = time::Duration::new(2, 5);
    assert_eq!(
        Duration::try_from(length).unwrap().as_nanos(),
        2_000_000_005
    );
    assert_eq!(
        time::Duration::from(Duration::from_nanos(2_000_000_005)),
        length
    );
    let longest = time::Duration::from_nanos(u64::MAX);
    assert_eq!(Duration::try_from(longest).unwrap().as_nanos(), u64::MAX);
    assert!(Duration::try_from(longest + time::Duration::from_nanos(1)).is_err());
}

#[test]
fn moments() {
    let moment = Moment::from_nanos(10);
    assert_eq!((moment + Duration::from_nanos(5)).as_nanos(), 15);
    let last = Moment::from_nanos(u64::MAX);
    assert_eq!(last + Duration::from_nanos(1), last);
    assert_eq!(last - moment, Duration::from_nanos(u64::MAX - 10));
    assert_eq!(moment - last, Duration::ZERO);

    let base = time::Instant::now();
    let later = base + time::Duration::from_millis(7);
    assert_eq!(Moment::since(base, later).as_nanos(), 7_000_000);
    assert_eq!(Moment::since(later, base).as_nanos(), 0);
}

#[test]
fn bandwidths() {
    let bits = Bandwidth::to_bits_per_second;
    assert_eq!(bits(Bandwidth::zero()), 0);
    assert_eq!(bits(Bandwidth::infinite()), u64::MAX);
    assert_eq!(bits(Bandwidth::from_bytes_per_second(5)), 40);
    assert_eq!(bits(Bandwidth::from_kbits_per_second(5)), 5_000);
    assert_eq!(bits(Bandwidth::from_mbits_per_second(5)), 5_000_000);
    assert_eq!(bits(Bandwidth::from_mbits_per_second(u64::MAX)), u64::MAX);
    assert_eq!(Bandwidth::from_bits_per_second(47).to_bytes_per_second(), 5);
    let second = Duration::from_secs(1);
    assert_eq!(Bandwidth::infinite() * second, u64::MAX);
    assert_eq!(Bandwidth::infinite() * Duration::ZERO, 0);
}

#[test]
fn refusals_have_the_numbers_of_the_table() {
    let all = [
        (Refusal::OutOfBounds, 1, "1"),
        (Refusal::EarlierMoment, 3, "3"),
        (Refusal::LowerTotal, 4, "4"),
        (Refusal::FullCounter, 5, "5"),
        (Refusal::BadText, 6, "6"),
        (Refusal::ShortOutput, 7, "7"),
        (Refusal::NeverSent, 10, "10"),
    ];
    for (refusal, number, code) in all {
        assert_eq!((refusal.number(), refusal.reply()), (number, number));
        assert_eq!(refusal.code(), code);
        assert_eq!(Refusal::of_reply(number), Err(refusal));
        assert_eq!(refusal.of_call(1), refusal);
        assert!(!refusal.to_string().is_empty());
    }
    assert_eq!(Refusal::of_reply(0), Ok(()));
}

/// The kinds in the order of their numbers, by hand, with their codes and with what is said of an argument
/// where its call isn't known.
const KINDS: [(FaultKind, &str, &str); 9] = [
    (FaultKind::Window, "2.1", "is larger than 2^40 bytes"),
    (FaultKind::ByteCount, "2.2", "is more than 2^40 bytes"),
    (
        FaultKind::Bandwidth,
        "2.3",
        "is more than 2^40 bits per second",
    ),
    (FaultKind::Length, "2.4", "is longer than 2^36 ns"),
    (FaultKind::Total, "2.5", "is more than 2^62 bytes"),
    (FaultKind::ProbeRounds, "2.6", "is more than 30"),
    (FaultKind::Gain, "2.7", "is below 1/1024, above 8 or a NaN"),
    (FaultKind::ListLength, "2.8", "is malformed"),
    (FaultKind::Moment, "2.9", "is later than 2^62 ns"),
];

/// Each kind at each place: its numbers, its reply and what the reply says.
#[test]
fn faults_have_the_numbers_of_the_table() {
    assert_eq!(FaultKind::ALL, KINDS.map(|(kind, _, _)| kind));
    let mut seen = HashSet::new();
    for (number, (kind, code, said)) in (1..).zip(KINDS) {
        assert_eq!((kind.number(), kind.code()), (number, code));
        for place in 1..=4 {
            let fault = Fault::new(kind, place);
            assert_eq!((fault.kind(), fault.place()), (kind, place));
            assert_eq!(fault.argument(), None);
            assert_eq!(
                fault.to_string(),
                format!("{} at {}: an argument {}", code, place, said)
            );
            let refusal = Refusal::BadArgument(fault);
            assert_eq!((refusal.number(), refusal.code()), (2, code));
            assert_eq!(refusal.to_string(), fault.to_string());
            assert_eq!(
                refusal.reply(),
                2 + 256 * number + 65_536 * u64::from(place)
            );
            assert_eq!(Refusal::of_reply(refusal.reply()), Err(refusal));
            assert!(seen.insert(refusal));
            // The call is known for the text alone.
            assert!(!seen.insert(refusal.of_call(1)));
        }
    }
    let none = Refusal::BadArgument(Fault::new(FaultKind::ListLength, 0));
    assert_eq!(Refusal::of_reply(2050), Err(none));
    assert_eq!((none.reply(), none.code()), (2050, "2.8"));
    assert_eq!(none.to_string(), "2.8 at 0: the number is no call's");
    assert!(seen.insert(none));
}

/// A row, a kind or a place that there isn't, a kind or a place beside another row than 2, place 0 beside
/// another kind than 8, and bits above the place's.
#[test]
fn what_is_no_reply_is_not_read() {
    let fault = |kind: u64, place: u64| 2 + 256 * kind + 65_536 * place;
    let mut words = vec![8, 9, 11, 12, 255, 1 << 24, 1 << 32, u64::MAX];
    words.extend((0..5).map(|place| fault(0, place)));
    for kind in [10, 11, 128, 255] {
        words.extend((0..5).map(|place| fault(kind, place)));
    }
    for kind in 1..10 {
        words.extend([5, 6, 128, 255].map(|place| fault(kind, place)));
        words.extend([24, 25, 32, 63].map(|bit| fault(kind, 1) | 1 << bit));
        if kind != 8 {
            words.push(fault(kind, 0));
        }
    }
    for row in [0, 1, 3, 4, 5, 6, 7, 10] {
        words.extend([256, 65_536, 256 * 8, 256 * 9 + 65_536].map(|more| row + more));
    }
    for word in words {
        let read = panic::catch_unwind(|| Refusal::of_reply(word));
        let why = *read.expect_err("it is read").downcast::<String>().unwrap();
        assert_eq!(why, format!("{} is no reply", word));
    }
}

/// The numbers are written by hand, so that a table with others is noticed.
#[test]
fn reasons_have_their_numbers_and_words() {
    let all = [
        (Reason::AllReplaced, "all replaced"),
        (Reason::SecondRaised, "second raised"),
        (Reason::ThirdRaised, "third raised"),
        (Reason::PromotedOnce, "promoted once"),
        (Reason::PromotedTwice, "promoted twice"),
        (Reason::QuarterRefresh, "quarter refresh"),
        (Reason::HalfRefresh, "half refresh"),
        (Reason::Unchanged, "unchanged"),
    ];
    for (number, (reason, words)) in (0..8).zip(all) {
        assert_eq!(reason.number(), number);
        assert_eq!(Reason::try_from(number), Ok(reason));
        assert_eq!(reason.to_string(), words);
    }
    for number in [8, 9, 255, 256, 1 << 32, (1 << 32) + 7, u64::MAX] {
        assert_eq!(Reason::try_from(number), Err(Refusal::OutOfBounds));
    }
}

fn bytes(words: &[u64]) -> Vec<u8> {
    words.iter().flat_map(|word| word.to_le_bytes()).collect()
}

#[test]
fn samples_of_bytes() {
    let given = bytes(&[u64::MAX, 1 << 40, 3, 6]);
    let samples = Samples {
        best: u64::MAX,
        second: 1 << 40,
        third: 3,
        reason: Reason::HalfRefresh,
    };
    assert_eq!(Samples::from_bytes(&given), Ok(samples));
    for reason in 0..8 {
        let read = Samples::from_bytes(&bytes(&[0, 0, 0, reason]));
        assert_eq!(read.map(|samples| samples.reason.number()), Ok(reason));
    }
}

#[test]
fn foreign_bytes_are_no_samples() {
    let long = bytes(&[9; 8]);
    for length in [0, 1, 8, 24, 31, 33, 40, 64] {
        let refusal = Samples::from_bytes(&long[..length]).unwrap_err();
        assert_eq!(
            refusal.to_string(),
            "2.8 at 1: bytes has a wrong length",
            "{} bytes",
            length
        );
    }
    for reason in [8, 9, 256, 1 << 32, 7 << 56, u64::MAX] {
        let read = Samples::from_bytes(&bytes(&[5, 5, 5, reason]));
        assert_eq!(read, Err(Refusal::OutOfBounds), "reason {}", reason);
    }
}
