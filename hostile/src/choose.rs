//! States, calls and lengths to hand in: good ones, and hostile ones made of them.

use guovssalu_sys::table::argument::on_packet_sent as sent;
use guovssalu_sys::table::call as calls;
use guovssalu_sys::table::CALL_WORDS;
use guovssalu_sys::table::STATE_WORDS;

use crate::bounds;
use crate::dice::Dice;
use crate::edges;
use crate::kinds;
use crate::kinds::Kind;
use crate::lists;
use crate::places;
use crate::places::Callee;
use crate::table;
use crate::values;
use crate::words;
use crate::words::call as c;
use crate::words::state as s;
use crate::words::Call;
use crate::words::State;

/// The counters that some call adds 1 to.
pub const COUNTERS: [usize; 4] = [
    s::ROUND_TRIP_COUNT,
    s::LOSS_EVENTS_IN_ROUND,
    s::ROUNDS_WITHOUT_GROWTH,
    s::ROUNDS_WITH_QUEUEING,
];

/// The calls that add 1 to a counter, sends, and those with many arguments: they are made more often.
const OFTEN: [u64; 13] = [
    calls::START,
    calls::ON_PACKET_SENT,
    calls::ON_PACKET_SENT,
    calls::ON_CONGESTION_EVENT_START,
    calls::ON_CONGESTION_EVENT_START,
    calls::ON_CONGESTION_EVENT_START,
    calls::ON_CONGESTION_EVENT_START,
    calls::ON_CONGESTION_EVENT_FINISH,
    calls::HAS_BANDWIDTH_GROWTH,
    calls::CHECK_PERSISTENT_QUEUE,
    calls::POSTPONE_MIN_RTT_TIMESTAMP,
    calls::ENTER_PROBE_DOWN,
    calls::ENTER_PROBE_UP,
];

/// The words that were made hostile, for a report.
#[derive(Clone, Default)]
pub struct Spoilt {
    pub state: Vec<usize>,
    pub call: Vec<usize>,
}

/// A state within all bounds, field by field.
pub fn good_state(dice: &mut Dice) -> State {
    let mut state = [0; STATE_WORDS];
    kinds::fill(dice, &mut state, &kinds::STATE);
    state[s::BYTES_LOST_IN_ROUND] = values::within(dice, state[s::TOTAL_LOST]);
    state[s::MAX_BYTES_DELIVERED_IN_ROUND] = values::within(dice, state[s::TOTAL_ACKED]);
    state[s::ANYTHING_SENT] = !dice.one_in(8) as u64;
    if !dice.one_in(4) {
        // An end that a number sent after it can pass.
        let step = dice.pick(&[1, 2, 3, 24, 1_000, u64::MAX]);
        state[s::END_OF_ROUND_TRIP] = 1;
        state[s::END_OF_ROUND_TRIP + 1] = state[s::LAST_SENT_PACKET].saturating_sub(step);
    }
    if dice.one_in(4) {
        state[dice.pick(&COUNTERS)] = u64::MAX;
    }
    if dice.one_in(4) {
        // Where a queue begins to count as one, for gains up to 1.
        let target = table::bdp(&state, table::max_bandwidth(&state), 1.0) + 2 * 1300;
        let near = target + dice.below(3) - 1;
        state[s::MIN_BYTES_IN_FLIGHT_IN_ROUND] = near.min(bounds::BYTES);
    }
    state
}

/// Makes some words of a state hostile; `encoding` keeps it one that its bytes encode.
pub fn spoil_state(dice: &mut Dice, state: &mut State, spoilt: &mut Spoilt, encoding: bool) {
    for _ in 0..=dice.below(3) {
        let index = dice.length(state.len());
        kinds::spoil(dice, state, &kinds::STATE, index, encoding);
        spoilt.state.push(index);
    }
    if dice.one_in(4) {
        let index = dice.pick(&COUNTERS);
        state[index] = u64::MAX;
        spoilt.state.push(index);
    }
    if dice.one_in(8) {
        // One past each of the two bounds that a state sets for itself.
        state[s::BYTES_LOST_IN_ROUND] = state[s::TOTAL_LOST].saturating_add(dice.below(2));
        state[s::MAX_BYTES_DELIVERED_IN_ROUND] =
            state[s::TOTAL_ACKED].saturating_add(dice.below(2));
        spoilt
            .state
            .extend([s::BYTES_LOST_IN_ROUND, s::MAX_BYTES_DELIVERED_IN_ROUND]);
    }
}

/// Random words that still encode a state.
pub fn random_state(dice: &mut Dice) -> State {
    let mut state = [0; STATE_WORDS];
    for (index, kind) in kinds::STATE.iter().enumerate() {
        state[index] = match kind {
            Kind::Flag | Kind::Set(_) => dice.below(2),
            Kind::Phase => dice.below(5),
            Kind::Float(..) => dice.below(0x7f80_0001),
            Kind::Held => state[index - 1] * dice.next(),
            _ => dice.next(),
        };
    }
    state
}

/// Bytes of the length of a state, or nearly any other.
pub fn random_bytes(dice: &mut Dice) -> Vec<u8> {
    match dice.below(4) {
        0 => vec![0; words::STATE_BYTES],
        1 => vec![0xff; words::STATE_BYTES],
        _ => dice.bytes(words::STATE_BYTES),
    }
}

/// The number of a call.
pub fn number(dice: &mut Dice) -> u64 {
    loop {
        let number = if dice.one_in(2) {
            dice.pick(&OFTEN)
        } else {
            dice.below(words::CALLS_END)
        };
        if table::is_a_call(number) {
            return number;
        }
    }
}

/// A call that is accepted in the state, if that is good and its counters are not full; of the events
/// some ack a number that was never sent.
pub fn good_call(dice: &mut Dice, state: &State, number: u64) -> Call {
    let mut call = [0; CALL_WORDS];
    call[c::NUMBER] = number;
    let arguments = kinds::arguments(number);
    kinds::fill(dice, &mut call[c::ARGUMENTS..], arguments);
    kinds::fill(dice, &mut call[c::RECORD..], &kinds::REST);
    go_on(dice, state, &mut call);
    call
}

/// Sets a call's moment and totals to the stored ones or a little above, the number of most sends above
/// the last, and the acked packets near the round's end or the last sent one, in any order.
fn go_on(dice: &mut Dice, state: &State, call: &mut Call) {
    let mut above = |stored: u64, bound: u64| {
        let step = dice.pick(&[0, 0, 1, 1_000, 1 << 20, 1 << 41]);
        stored.saturating_add(step).min(bound.max(stored))
    };
    if let Some(index) = table::moment_word(call[c::NUMBER]) {
        call[index] = above(state[s::LAST_MOMENT], bounds::MOMENT);
    }
    if call[c::NUMBER] == calls::ON_CONGESTION_EVENT_START {
        call[c::TOTAL_ACKED] = above(state[s::TOTAL_ACKED], bounds::TOTAL);
        call[c::TOTAL_LOST] = above(state[s::TOTAL_LOST], bounds::TOTAL);
        call[c::ACKED_COUNT] = dice.pick(&[0, 1, 2, 3, 3, 3]);
        lists::fill_call(dice, state, call);
    }
    if call[c::NUMBER] == calls::ON_PACKET_SENT && !dice.one_in(4) {
        let step = dice.pick(&[1, 1, 2, 1_000]);
        call[sent::PACKET_NUMBER] = state[s::LAST_SENT_PACKET].saturating_add(step);
    }
}

/// Sets an event's moment and totals to the stored ones.
pub fn stand_still(state: &State, call: &mut Call) {
    call[c::EVENT_TIME] = state[s::LAST_MOMENT];
    call[c::TOTAL_ACKED] = state[s::TOTAL_ACKED];
    call[c::TOTAL_LOST] = state[s::TOTAL_LOST];
}

/// A good send of a number, at the stored moment.
pub fn send_now(dice: &mut Dice, state: &State, number: u64) -> Call {
    let mut call = good_call(dice, state, calls::ON_PACKET_SENT);
    call[sent::SENT_TIME] = state[s::LAST_MOMENT];
    call[sent::PACKET_NUMBER] = number;
    call
}

/// Makes some words of a call hostile, most of them such as it reads.
pub fn spoil_call(dice: &mut Dice, call: &mut Call, spoilt: &mut Spoilt) {
    let arguments = kinds::arguments(call[c::NUMBER]);
    for _ in 0..=dice.below(3) {
        let index = match dice.below(4) {
            0 | 1 if !arguments.is_empty() => c::ARGUMENTS + dice.length(arguments.len()),
            2 => c::RECORD + dice.length(kinds::REST.len()),
            _ => c::ARGUMENTS + dice.length(call.len() - c::ARGUMENTS),
        };
        spoilt.call.push(index);
        if index <= arguments.len() {
            let at = index - c::ARGUMENTS;
            kinds::spoil(dice, &mut call[c::ARGUMENTS..], arguments, at, false);
        } else if index >= c::RECORD {
            kinds::spoil(
                dice,
                &mut call[c::RECORD..],
                &kinds::REST,
                index - c::RECORD,
                false,
            );
        } else {
            call[index] = dice.next();
        }
    }
}

/// Makes a word that a call uses malformed. Where it uses none that can be, it is another one, at
/// which the call must not look.
pub fn malform_call(dice: &mut Dice, call: &mut Call, spoilt: &mut Spoilt) {
    let can = |&(_, kind): &(usize, Kind)| kinds::ways(kind) > 0;
    let mut places: Vec<_> = kinds::used(call[c::NUMBER]).filter(can).collect();
    if places.is_empty() {
        places.extend(kinds::rest().filter(can));
    }
    let (place, kind) = dice.pick(&places);
    kinds::malform(call, place, kind, dice.length(kinds::ways(kind)));
    spoilt.call.push(place);
}

/// Gives a call one flaw or two, far past the ends of what is allowed, just past them, or just not past
/// them. In lists that are too short for four numbers they are no others.
pub fn flaw_call(
    dice: &mut Dice,
    state: &State,
    call: &mut Call,
    lists: &Option<Vec<u64>>,
    spoilt: &mut Spoilt,
) {
    let lists = lists.as_deref().unwrap_or(&[]);
    let in_lists = lists.len() >= lists::FEWEST;
    let flaws = places::flaws(Callee::Call(call[c::NUMBER]));
    for _ in 0..flaws.len().min(2) {
        let flaw = dice.pick(&flaws);
        let to = edges::about(dice, &flaw, in_lists);
        edges::set(&flaw, to, &mut state.clone(), call, lists);
        spoilt.call.push(flaw.word);
    }
}

/// What else can be wrong beside a malformed word, a place outside the lists or an ack never sent.
#[derive(Clone, Copy, PartialEq, Debug)]
pub enum Beside {
    Nothing,
    StoredModel,
    StoredCycle,
    Parameter,
    MalformedParameter,
    MalformedFlag,
    Record,
    Moment,
    Total,
    NothingSent,
    Counters,
}

impl Beside {
    pub const ALL: [Beside; 11] = [
        Beside::Nothing,
        Beside::StoredModel,
        Beside::StoredCycle,
        Beside::Parameter,
        Beside::MalformedParameter,
        Beside::MalformedFlag,
        Beside::Record,
        Beside::Moment,
        Beside::Total,
        Beside::NothingSent,
        Beside::Counters,
    ];

    /// Each of these things, with each that can be wrong beside it.
    pub fn with_each<T: Copy>(
        things: impl Iterator<Item = T>,
    ) -> impl Iterator<Item = (T, Beside)> {
        things.flat_map(|thing| Beside::ALL.into_iter().map(move |beside| (thing, beside)))
    }

    /// Makes it so of a good call in a good state.
    pub fn put(self, state: &mut State, call: &mut Call) {
        match self {
            Beside::Nothing => {}
            Beside::StoredModel => state[s::MIN_RTT] = bounds::LENGTH + 1,
            Beside::StoredCycle => state[s::PROBE_UP_ROUNDS] = bounds::ROUNDS + 1,
            Beside::Parameter => call[c::PROBE_RTT_PERIOD] = bounds::LENGTH + 1,
            Beside::MalformedParameter => call[c::IGNORE_APP_LIMITED] = 2,
            Beside::MalformedFlag if call[c::NUMBER] == calls::ON_CONGESTION_EVENT_START => {
                call[c::SENT_IS_APP_LIMITED] = 2;
            }
            Beside::MalformedFlag => {}
            Beside::Record => call[c::PRIOR_CWND] = bounds::BYTES + 1,
            Beside::Moment => {
                if let Some(index) = table::moment_word(call[c::NUMBER]) {
                    call[index] = state[s::LAST_MOMENT].saturating_sub(1);
                }
            }
            Beside::Total if call[c::NUMBER] == calls::ON_CONGESTION_EVENT_START => {
                call[c::TOTAL_ACKED] = state[s::TOTAL_ACKED].saturating_sub(1);
            }
            Beside::Total => {}
            Beside::NothingSent => state[s::ANYTHING_SENT] = 0,
            Beside::Counters => {
                for counter in COUNTERS {
                    state[counter] = u64::MAX;
                }
            }
        }
    }
}

/// Lets the moment or a total be lower than the stored one.
pub fn fall(dice: &mut Dice, state: &State, call: &mut Call, spoilt: &mut Spoilt) {
    let (index, stored) = match (table::moment_word(call[c::NUMBER]), dice.below(3)) {
        (Some(_), 0) if call[c::NUMBER] == calls::ON_CONGESTION_EVENT_START => {
            (c::TOTAL_ACKED, state[s::TOTAL_ACKED])
        }
        (Some(_), 1) if call[c::NUMBER] == calls::ON_CONGESTION_EVENT_START => {
            (c::TOTAL_LOST, state[s::TOTAL_LOST])
        }
        (Some(index), _) => (index, state[s::LAST_MOMENT]),
        (None, _) => return,
    };
    let step = dice.pick(&[1, 1, 2, 1_000, 1 << 40]);
    call[index] = stored.saturating_sub(step);
    spoilt.call.push(index);
}

/// Numbers that are no call's: by hand, as `table::is_a_call`.
pub const NO_CALLS: [u64; 16] = [
    2,
    39,
    46,
    47,
    63,
    64,
    98,
    99,
    255,
    256,
    (1 << 8) + 1,
    1 << 32,
    (1 << 32) + 1,
    (1 << 32) + 3,
    1 << 63,
    u64::MAX,
];

/// A number that is no call's, or random bytes instead of the call.
pub fn no_call(dice: &mut Dice, call: &mut Call) {
    if dice.one_in(3) {
        *call = words::words(&dice.bytes(words::CALL_BYTES));
    }
    call[c::NUMBER] = match dice.below(4) {
        0 => dice.pick(&[2, 39]),
        1 => dice.pick(&NO_CALLS),
        2 => values::hostile(dice, words::CALLS_END - 1),
        _ => call[c::NUMBER].wrapping_add(dice.pick(&[1 << 8, 1 << 16, 1 << 32, 1 << 63])),
    };
}

/// A length near the one that is due: mostly that one, else one short, one long, none or others.
pub fn length(dice: &mut Dice, due: usize, longest: usize) -> usize {
    match dice.below(6) {
        0 | 1 => due,
        2 => due.saturating_sub(1),
        3 => due + 1,
        4 => dice.pick(&[0, 1, 8, due / 2, due.saturating_sub(8), due + 8, 2 * due]),
        _ => dice.length(longest),
    }
    .min(longest)
}

/// Cuts the bytes to a length, or makes them longer by random ones.
pub fn resize(dice: &mut Dice, bytes: &mut Vec<u8>, length: usize) {
    let more = dice.bytes(length.saturating_sub(bytes.len()));
    bytes.extend_from_slice(&more);
    bytes.truncate(length);
}
