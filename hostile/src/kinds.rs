//! What the words of states and calls are, for choosing numbers that fit them or don't.

use guovssalu_sys::table::call as calls;
use guovssalu_sys::table::ARGUMENTS_WORDS;
use guovssalu_sys::table::EVENT_WORDS;
use guovssalu_sys::table::PARAMS_WORDS;
use guovssalu_sys::table::STATE_WORDS;

use crate::bounds::BANDWIDTH;
use crate::bounds::BYTES;
use crate::bounds::LEAST_GAIN;
use crate::bounds::LENGTH;
use crate::bounds::MOMENT;
use crate::bounds::MOST_GAIN;
use crate::bounds::ROUNDS;
use crate::bounds::TOTAL;
use crate::bounds::WAIT;
use crate::dice::Dice;
use crate::table;
use crate::values;
use crate::values::NO_FLAGS;
use crate::words;
use crate::words::call as c;
use crate::words::Call;
use crate::words::UNSET;

/// The kind of a word.
#[derive(Clone, Copy, PartialEq)]
pub enum Kind {
    /// Any number.
    Free,
    /// A number up to a bound.
    Upto(u64),
    /// A number of bytes, or unset.
    OrUnset,
    Flag,
    /// How many numbers count: up to three of the next words, or more of a list.
    Count,
    /// An f32 from one pattern to another.
    Float(u32, u32),
    Phase,
    /// Whether the next word is set, and its bound.
    Set(u64),
    /// The word after that.
    Held,
}

use Kind::Count;
use Kind::Flag;
use Kind::Float;
use Kind::Free;
use Kind::Held;
use Kind::OrUnset;
use Kind::Phase;
use Kind::Set;
use Kind::Upto;

const ANY: u64 = u64::MAX;
const GAIN: Kind = Float(LEAST_GAIN, MOST_GAIN);
const SHARE: Kind = Float(0, 0x3f80_0000);

/// The words of a state, in order.
pub const STATE: [Kind; STATE_WORDS] = [
    Free,
    Free,
    Set(ANY),
    Held,
    Upto(BANDWIDTH),
    Upto(BANDWIDTH),
    Upto(LENGTH),
    Upto(MOMENT),
    Upto(TOTAL),
    Free,
    Upto(TOTAL),
    OrUnset,
    Flag,
    Upto(BANDWIDTH),
    Upto(BYTES),
    Set(BANDWIDTH),
    Held,
    OrUnset,
    OrUnset,
    GAIN,
    GAIN,
    Flag,
    Flag,
    Upto(BANDWIDTH),
    Free,
    Free,
    Flag,
    Set(BANDWIDTH),
    Held,
    Set(BANDWIDTH),
    Held,
    Upto(TOTAL),
    Upto(TOTAL),
    Upto(MOMENT),
    Flag,
    Phase,
    Upto(MOMENT),
    Upto(MOMENT),
    Free,
    Free,
    Set(WAIT),
    Held,
    Upto(ROUNDS),
    Set(BYTES),
    Held,
    Upto(BYTES),
    Flag,
    Flag,
    Flag,
    Flag,
    Flag,
];

/// The words of the record and of the parameters, in order.
pub const REST: [Kind; EVENT_WORDS + PARAMS_WORDS] = [
    Upto(MOMENT),
    Upto(BYTES),
    Upto(BYTES),
    Upto(BYTES),
    Upto(TOTAL),
    Upto(TOTAL),
    Flag,
    Flag,
    Set(BANDWIDTH),
    Held,
    Set(LENGTH),
    Held,
    Flag,
    Flag,
    Upto(TOTAL),
    Upto(BYTES),
    Float(0x3a80_0000, 0x3f7f_c000),
    SHARE,
    SHARE,
    Float(0x3f80_0000, 0x4100_0000),
    GAIN,
    GAIN,
    Free,
    Free,
    Upto(LENGTH),
    Upto(LENGTH),
    Flag,
];

const EVENT: [Kind; ARGUMENTS_WORDS] = [
    Set(BANDWIDTH),
    Held,
    Set(BANDWIDTH),
    Held,
    Set(BANDWIDTH),
    Held,
    Flag,
    Set(LENGTH),
    Held,
    Upto(BYTES),
    Upto(BYTES),
    Flag,
    Flag,
    Upto(TOTAL),
    Upto(BYTES),
    Upto(TOTAL),
    Upto(TOTAL),
    Count,
    Free,
    Free,
    Free,
];

/// The arguments of a call, in order.
pub fn arguments(number: u64) -> &'static [Kind] {
    match number {
        calls::START => &[Upto(MOMENT), Upto(LENGTH)],
        calls::ON_PACKET_SENT => &[Upto(MOMENT), Upto(BYTES), Free, Upto(BYTES)],
        calls::ON_CONGESTION_EVENT_START => &EVENT,
        calls::IS_INFLIGHT_TOO_HIGH => &[Free],
        calls::CHECK_PERSISTENT_QUEUE | calls::SET_PACING_GAIN | calls::SET_CWND_GAIN => &[GAIN],
        calls::BDP => &[Upto(BANDWIDTH), GAIN],
        calls::BDP1 => &[Upto(BANDWIDTH)],
        calls::SET_INFLIGHT_HI | calls::CAP_INFLIGHT_LO => &[OrUnset],
        calls::POSTPONE_MIN_RTT_TIMESTAMP => &[Upto(LENGTH)],
        calls::ENTER_PROBE_DOWN => &[Flag, Flag, Upto(MOMENT)],
        calls::ENTER_PROBE_CRUISE => &[Upto(MOMENT)],
        calls::ENTER_PROBE_REFILL => &[Upto(ROUNDS), Upto(MOMENT)],
        calls::ENTER_PROBE_UP => &[Upto(MOMENT), Upto(BYTES)],
        calls::RAISE_INFLIGHT_HIGH_SLOPE => &[Upto(BYTES)],
        _ => &[],
    }
}

/// The words of the record and of the parameters, each with its place and its kind.
pub fn rest() -> impl Iterator<Item = (usize, Kind)> {
    let kinds = REST.iter().enumerate();
    kinds.map(|(at, &kind)| (c::RECORD + at, kind))
}

/// The words that a call uses, each with its place and its kind.
pub fn used(number: u64) -> impl Iterator<Item = (usize, Kind)> {
    let (record, params) = (table::gets_record(number), table::takes_params(number));
    let arguments = arguments(number).iter().enumerate();
    arguments
        .map(|(at, &kind)| (c::ARGUMENTS + at, kind))
        .chain(rest().filter(move |&(at, _)| if at < c::PARAMS { record } else { params }))
}

/// Words that no count or pair has, and bits that no f32 has.
const NO_COUNTS: [u64; 9] = [4, 5, 6, 7, 8, 1 << 32, (1 << 32) + 1, ANY - 3, ANY];
const NO_PAIRS: [(u64, u64); 9] = [
    (0, 1),
    (0, ANY),
    (2, 0),
    (2, 5),
    (3, 1),
    (257, 5),
    (1 << 32, 0),
    ((1 << 32) + 1, 5),
    (ANY, ANY),
];
const NO_FLOATS: [u64; 4] = [1 << 32, 1 << 33, 1 << 63, ANY << 32];

/// In how many ways `malform` can make a word of this kind malformed; 0 where no word is.
pub fn ways(kind: Kind) -> usize {
    match kind {
        Flag => NO_FLAGS.len(),
        Count => NO_COUNTS.len(),
        Set(_) => NO_PAIRS.len(),
        Float(..) => NO_FLOATS.len(),
        _ => 0,
    }
}

/// Makes the word at a place malformed, of a pair the two from there on.
pub fn malform(words: &mut [u64], place: usize, kind: Kind, way: usize) {
    match kind {
        Flag => words[place] = NO_FLAGS[way],
        Count => words[place] = NO_COUNTS[way],
        Set(_) => {
            let (set, number) = NO_PAIRS[way];
            words[place] = set;
            words[place + 1] = number;
        }
        Float(..) => words[place] |= NO_FLOATS[way],
        _ => {}
    }
}

/// Whether a word that the call uses is malformed, in a run with these lists.
pub fn is_malformed(call: &Call, lists: &[u64]) -> bool {
    used(call[c::NUMBER]).any(|(place, kind)| match kind {
        Flag => words::flag(call[place]).is_none(),
        Count => words::acked(call, lists).is_none(),
        Set(_) => words::pair(call, place).is_none(),
        Float(..) => words::float(call[place]).is_none(),
        _ => false,
    })
}

/// Puts a fitting number into each word.
pub fn fill(dice: &mut Dice, words: &mut [u64], kinds: &[Kind]) {
    for (index, kind) in kinds.iter().enumerate() {
        words[index] = match *kind {
            Free => values::within(dice, ANY),
            Upto(bound) => values::within(dice, bound),
            OrUnset if dice.one_in(3) => UNSET,
            OrUnset => values::within(dice, BYTES),
            Flag | Set(_) => dice.below(2),
            Count => dice.below(4),
            Float(low, high) => values::pattern_within(dice, low, high) as u64,
            Phase => dice.below(5),
            Held => held(dice, words[index - 1], kinds[index - 1]),
        };
    }
}

/// The number of a pair whose first word is given: 0 where it is unset.
fn held(dice: &mut Dice, set: u64, kind: Kind) -> u64 {
    match kind {
        Set(bound) if set == 1 => values::within(dice, bound),
        _ => 0,
    }
}

/// Puts a hostile number into one word. With `encoding` the words stay such as encode something: a
/// flag stays one, a number is made hostile only where it is set, and a NaN is the one pattern.
pub fn spoil(dice: &mut Dice, words: &mut [u64], kinds: &[Kind], index: usize, encoding: bool) {
    match kinds[index] {
        Flag | Set(_) | Phase if encoding => {}
        Flag | Set(_) | Phase => words[index] = values::flag(dice),
        Free => words[index] = values::hostile(dice, ANY),
        Count => words[index] = values::hostile(dice, 3),
        Upto(bound) => words[index] = values::hostile(dice, bound),
        OrUnset => words[index] = values::hostile(dice, BYTES),
        Float(..) => words[index] = float(dice, encoding),
        Held => {
            if encoding {
                words[index - 1] = 1;
            }
            if let Set(bound) = kinds[index - 1] {
                words[index] = values::hostile(dice, bound);
            }
        }
    }
}

/// A hostile f32: any pattern, and bits above it where they may stand.
fn float(dice: &mut Dice, encoding: bool) -> u64 {
    let pattern = values::pattern(dice);
    if encoding && f32::from_bits(pattern).is_nan() {
        0x7fc0_0000
    } else if !encoding && dice.one_in(2) {
        pattern as u64 | dice.next() << 32
    } else {
        pattern as u64
    }
}
