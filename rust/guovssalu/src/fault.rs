use std::fmt;
use std::hash::Hash;
use std::hash::Hasher;

use crate::table::call;
use crate::table::fault;
use crate::table::place;
use crate::table::place::Argument;
use crate::table::reply;
use crate::table::rtt_call;

/// What kind of bound an argument passed: the number after the dot of a refusal with 2.
#[derive(Clone, Copy, Debug, PartialEq, Eq, Hash)]
pub enum FaultKind {
    /// 1: a congestion window above 2^40 bytes.
    Window = fault::WINDOW as isize,
    /// 2: another number of bytes above 2^40. Where it may be unset, 2^64 - 1 is within its bounds.
    ByteCount = fault::BYTE_COUNT as isize,
    /// 3: a bandwidth above 2^40 bits per second.
    Bandwidth = fault::BANDWIDTH as isize,
    /// 4: a length of time above 2^36 ns, which is 68.7 seconds.
    Length = fault::LENGTH as isize,
    /// 5: a total above 2^62. An event's `bytes_acked` and `bytes_lost` and a send state's
    /// `total_bytes_acked` are totals, too.
    Total = fault::TOTAL as isize,
    /// 6: more than 30 rounds of probing.
    ProbeRounds = fault::PROBE_ROUNDS as isize,
    /// 7: a gain outside 1/1024 to 8, or a NaN.
    Gain = fault::GAIN as isize,
    /// 8: a list or bytes of a wrong length, or a malformed word (docs/LAYOUT.md). At place 0, a number
    /// that is no call's.
    ListLength = fault::LIST_LENGTH as isize,
    /// 9: a moment above 2^62 ns, which is 146 years, or one that would be postponed past it.
    Moment = fault::MOMENT as isize,
}

/// The codes of the kinds, in the order of their numbers.
const CODES: [&str; 9] = [
    "2.1", "2.2", "2.3", "2.4", "2.5", "2.6", "2.7", "2.8", "2.9",
];

impl FaultKind {
    /// All of them, in the order of their numbers.
    pub const ALL: [FaultKind; 9] = [
        FaultKind::Window,
        FaultKind::ByteCount,
        FaultKind::Bandwidth,
        FaultKind::Length,
        FaultKind::Total,
        FaultKind::ProbeRounds,
        FaultKind::Gain,
        FaultKind::ListLength,
        FaultKind::Moment,
    ];

    /// The kind's number, 1 to 9.
    pub const fn number(self) -> u64 {
        self as u64
    }

    /// The code of a refusal of this kind, as "2.4".
    pub const fn code(self) -> &'static str {
        CODES[self as usize - 1]
    }

    /// The kind of a number, if it is one's.
    fn of(number: u64) -> Option<Self> {
        FaultKind::ALL
            .into_iter()
            .find(|kind| kind.number() == number)
    }
}

/// Which argument a call was refused for with 2, and what kind of bound it passed. Where several arguments
/// are at fault the first is named, and of a record its first field: not the lowest kind.
///
/// Places are counted from 1, in the order of the method's arguments, without model, cycle and parameters.
/// A call has the same places in a [`run`](crate::run) and in C, and they are not those of its words: `now`
/// of a start is its first word, and at place 2 as in [`NetworkModel::new`](crate::NetworkModel::new).
/// [`Cycle::new`](crate::Cycle::new), which goes by a start, has one argument, at place 1.
///
/// The text names the argument, and of a record each field that can be meant. An
/// [`Answer`](crate::Answer) doesn't know its call: see [`Fault::of_call`], and for an
/// [`RttAnswer`](crate::RttAnswer) [`Fault::of_rtt_call`]. Two faults are equal where kind and place are:
/// the call is known for the text alone.
#[derive(Clone, Copy, Debug)]
pub struct Fault {
    kind: FaultKind,
    place: u8,
    asked: Asked,
}

impl Fault {
    /// The greatest place of an argument.
    const MOST_PLACE: u64 = 4;

    /// A fault of a kind at a place. It does not know its call.
    pub const fn new(kind: FaultKind, place: u8) -> Self {
        let asked = Asked::Unknown;
        Fault { kind, place, asked }
    }

    /// What kind of bound was passed.
    pub const fn kind(self) -> FaultKind {
        self.kind
    }

    /// The argument's place, from 1 on; 0 where a number is no call's.
    pub const fn place(self) -> u8 {
        self.place
    }

    /// The argument's name, if the call is known.
    pub fn argument(self) -> Option<&'static str> {
        self.found().map(|argument| argument.name)
    }

    /// The same fault of the call of a number, [`table::call`](crate::table::call): the text then names
    /// the argument. Of a number that is no call's no argument is known.
    pub fn of_call(self, number: u64) -> Self {
        self.of_number(number, Asked::Call)
    }

    /// The same of the round-trip estimator's call of a number,
    /// [`table::rtt_call`](crate::table::rtt_call).
    pub fn of_rtt_call(self, number: u64) -> Self {
        self.of_number(number, Asked::RttCall)
    }

    /// The same fault of one of these calls, by its number.
    fn of_number(self, number: u64, call: fn(u8) -> Asked) -> Self {
        self.of(u8::try_from(number).map_or(Asked::Unknown, call))
    }

    /// The same fault of what was asked.
    pub(crate) const fn of(self, asked: Asked) -> Self {
        Fault { asked, ..self }
    }

    /// The reply that says it.
    pub(crate) const fn reply(self) -> u64 {
        reply::BAD_ARGUMENT + 256 * self.kind.number() + 65536 * self.place as u64
    }

    /// What a reply says, if it is one of a fault.
    pub(crate) fn of_reply(reply: u64) -> Option<Self> {
        let kind = FaultKind::of(reply::kind(reply))?;
        let place = reply::place(reply);
        let fault = Fault::new(kind, place as u8);
        let is_placed = place > 0 || kind == FaultKind::ListLength;
        (is_placed && place <= Fault::MOST_PLACE && fault.reply() == reply).then_some(fault)
    }

    /// The argument in the table, if the call is known.
    fn found(self) -> Option<&'static Argument> {
        let at = usize::from(self.place).checked_sub(1)?;
        self.asked.arguments().get(at)
    }

    /// What is wrong, in the words of the table, if the call is known or needn't be.
    fn sentence(self) -> Option<&'static str> {
        if (self.kind, self.place) == (FaultKind::ListLength, 0) {
            return Some(place::NO_CALL);
        }
        let mut faults = self.found()?.faults.iter();
        let (_, sentence) = faults.find(|(kind, _)| *kind == self.kind.number())?;
        Some(sentence)
    }
}

impl PartialEq for Fault {
    fn eq(&self, other: &Self) -> bool {
        (self.kind, self.place) == (other.kind, other.place)
    }
}

impl Eq for Fault {}

impl Hash for Fault {
    fn hash<H: Hasher>(&self, state: &mut H) {
        (self.kind, self.place).hash(state);
    }
}

impl fmt::Display for Fault {
    fn fmt(&self, f: &mut fmt::Formatter) -> fmt::Result {
        write!(f, "{} at {}: ", self.kind.code(), self.place)?;
        match self.sentence() {
            Some(sentence) => f.write_str(sentence),
            None => write!(f, "an argument {}", fault::SAID[self.kind as usize - 1]),
        }
    }
}

/// What was asked: whose arguments the places count.
#[derive(Clone, Copy, Debug)]
pub(crate) enum Asked {
    Unknown,
    /// The call of this number.
    Call(u8),
    /// The round-trip estimator's call of this number.
    RttCall(u8),
    NewCycle,
    FromBytes,
    Run,
    RunLists,
    FilterRun,
    Slope,
    RttRun,
}

/// What `from_bytes` is given.
const BYTES: [Argument; 1] = [Argument {
    name: "bytes",
    faults: &[(fault::LIST_LENGTH, "bytes has a wrong length")],
}];

impl Asked {
    fn arguments(self) -> &'static [Argument] {
        match self {
            Asked::Unknown => &[],
            Asked::Call(number) => arguments_of(u64::from(number)),
            Asked::RttCall(number) => found(u64::from(number), &rtt_call::ALL, &place::RTT_CALLS),
            // A start's, but for its first, initial_rtt.
            Asked::NewCycle => arguments_of(call::START).get(1..).unwrap_or(&[]),
            Asked::FromBytes => &BYTES,
            Asked::Run => &place::RUN,
            Asked::RunLists => &place::RUN_LISTS,
            Asked::FilterRun => &place::FILTER_RUN,
            Asked::Slope => &place::RAISE_INFLIGHT_HIGH_SLOPE,
            Asked::RttRun => &place::RTT_RUN,
        }
    }
}

/// The arguments of the model's call of a number.
fn arguments_of(number: u64) -> &'static [Argument] {
    found(number, &call::ALL, &place::CALLS)
}

/// The arguments of the call of a number, in the order of the numbers; none where it is no call's.
fn found(number: u64, calls: &[u64], arguments: &[&'static [Argument]]) -> &'static [Argument] {
    let mut calls = calls.iter().zip(arguments);
    let found = calls.find(|(call, _)| **call == number);
    found.map_or(&[], |(_, arguments)| arguments)
}
