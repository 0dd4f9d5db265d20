//! The swept cases of an event's acked numbers, all sent, beside the end of a round: in each order, in
//! each list, at each place, at two places of lists that a run's events share, and in the calls
//! themselves.

use guovssalu_sys::table::call as calls;
use guovssalu_sys::table::CALL_WORDS;

use crate::bounds;
use crate::choose;
use crate::choose::Beside;
use crate::dice::Dice;
use crate::lists;
use crate::lists::FEWEST;
use crate::lists::LENGTHS;
use crate::lists::LONGEST;
use crate::model::Lent;
use crate::model::Model;
use crate::trial::Trial;
use crate::words::call as c;
use crate::words::state as s;
use crate::words::Call;
use crate::words::State;

const MAX: u64 = u64::MAX;

/// The numbers that are swept as the end of a round and as the last sent one.
pub const LIMITS: [u64; 6] = [0, 1, 5, 1 << 63, MAX - 1, MAX];

/// Some swept cases.
pub type Sweep = fn(&mut Model, &mut Trial);

/// All of these, in their order.
pub const SWEEPS: [Sweep; 6] = [
    each_order,
    each_four,
    each_greatest,
    each_place,
    each_two_places,
    each_place_in_calls,
];

/// Up to three numbers in the call: each list of those at which something turns. The words after them
/// and the lists, which the run then does not look at, would end any round.
fn each_order(model: &mut Model, trial: &mut Trial) {
    for round in rounds(&LIMITS) {
        for numbers in (0..=3).flat_map(|count| every(about(round.end), count)) {
            let sent = Sent::all(&mut trial.dice, &numbers);
            round.with_own(model, trial, sent, &numbers);
        }
    }
}

/// Four numbers of a list: each of those just below the end, at it and just above it.
fn each_four(model: &mut Model, trial: &mut Trial) {
    for round in rounds(&LIMITS) {
        let [_, below, end, above, _] = about(round.end);
        for numbers in every([below, end, above], FEWEST) {
            let sent = Sent::all(&mut trial.dice, &numbers);
            round.with_list(model, trial, sent, &numbers);
        }
    }
}

/// Longer lists, the greatest number at each place or at some.
fn each_greatest(model: &mut Model, trial: &mut Trial) {
    for round in rounds(&[5, 1 << 63, MAX - 1]) {
        for numbers in longer(round.end) {
            let sent = Sent::all(&mut trial.dice, &numbers);
            round.with_list(model, trial, sent, &numbers);
        }
    }
}

/// Each count with each start, in lists of each length and in a run without lists: alone, and with
/// something else that is refused. The lists are zeros, or would end any round.
fn each_place(model: &mut Model, trial: &mut Trial) {
    let lengths = LENGTHS.iter().map(|&length| Some(length));
    for length in lengths.chain([None]) {
        let words = length.unwrap_or(0) as u64;
        for count in lists::counts(words) {
            let starts = lists::starts(words, count).into_iter();
            for (start, beside) in Beside::with_each(starts) {
                let round = Round::any(&mut trial.dice);
                let (mut state, mut call) = round.event(&mut trial.dice, Sent::ANY);
                beside.put(&mut state, &mut call);
                call[c::ACKED_COUNT] = count;
                call[c::ACKED] = start;
                let number = trial.dice.pick(&[0, MAX]);
                let lists = length.map(|length| vec![number; length]);
                model.one(trial, &state, &call, lists);
            }
        }
    }
}

/// A send, an event by one place, one by its own three numbers, one by another place of the same
/// lists, and a finish: each two places of eight words, the last of each count being one too far. Mostly
/// the greatest of the lists is sent.
fn each_two_places(model: &mut Model, trial: &mut Trial) {
    const WORDS: usize = 8;
    let places: Vec<(usize, usize)> = (FEWEST..=WORDS)
        .flat_map(|count| (0..=WORDS - count + 1).map(move |start| (start, count)))
        .collect();
    for &first in &places {
        for &second in &places {
            let round = Round::any(&mut trial.dice);
            let mut lists = vec![0; WORDS];
            lists::fill(&mut trial.dice, &mut lists, round.end);
            let all = Sent::all(&mut trial.dice, &lists);
            let (state, between) = round.event(&mut trial.dice, all);
            let one = trial.dice.pick(&lists);
            let number = trial.dice.pick(&[all.last, all.last, one]);
            let send = choose::send_now(&mut trial.dice, &state, number);
            let finish =
                choose::good_call(&mut trial.dice, &state, calls::ON_CONGESTION_EVENT_FINISH);
            let at = |(start, count): (usize, usize)| {
                let mut call = between;
                call[c::ACKED_COUNT] = count as u64;
                call[c::ACKED] = start as u64;
                call
            };
            let run = [send, at(first), between, at(second), finish];
            let lent = Lent::new(&mut trial.dice, &state, &run, Some(lists));
            model.run(trial, &lent);
        }
    }
}

/// Two events in a run whose lists are its own calls, in the same place: the first takes each four words
/// of them in turn, the last time one too far.
fn each_place_in_calls(model: &mut Model, trial: &mut Trial) {
    for start in 0..=2 * CALL_WORDS - FEWEST + 1 {
        for last in [MAX, 1 << 36] {
            let sent = Sent { last, ..Sent::ANY };
            let (state, second) = Round::any(&mut trial.dice).event(&mut trial.dice, sent);
            let mut first = second;
            first[c::ACKED_COUNT] = FEWEST as u64;
            first[c::ACKED] = start as u64;
            let mut lent = Lent::new(&mut trial.dice, &state, &[first, second], None);
            lent.take_calls();
            model.run(trial, &lent);
        }
    }
}

/// What was sent before an event: whether anything was, and the last number.
#[derive(Clone, Copy)]
pub struct Sent {
    pub anything: bool,
    pub last: u64,
}

impl Sent {
    /// Such that any number was sent.
    pub const ANY: Sent = Sent {
        anything: true,
        last: MAX,
    };

    /// Such that all of these numbers were: the last is the greatest of them, or above it.
    pub fn all(dice: &mut Dice, numbers: &[u64]) -> Self {
        let greatest = numbers.iter().max().copied().unwrap_or(0);
        let above = greatest.saturating_add(dice.below(3));
        Sent {
            last: dice.pick(&[greatest, above, MAX]),
            ..Sent::ANY
        }
    }
}

/// A round to be ended or not: its end, whether that is set, and whether the counter of rounds is full.
#[derive(Clone, Copy)]
pub struct Round {
    pub end: u64,
    pub is_set: bool,
    pub full: bool,
}

/// Each round with one of these ends.
fn rounds(ends: &[u64]) -> impl Iterator<Item = Round> + '_ {
    ends.iter().flat_map(|&end| {
        [(false, false), (false, true), (true, false), (true, true)]
            .into_iter()
            .map(move |(is_set, full)| Round { end, is_set, full })
    })
}

impl Round {
    /// Any of the rounds, mostly one whose counter is not full.
    pub fn any(dice: &mut Dice) -> Self {
        Round {
            end: dice.pick(&LIMITS),
            is_set: !dice.one_in(4),
            full: dice.one_in(4),
        }
    }

    /// A state in such a round after such sends, and an event in it that only its numbers can let be
    /// refused. What is stored leaves room for an earlier moment and a lower total.
    pub fn event(&self, dice: &mut Dice, sent: Sent) -> (State, Call) {
        let mut state = choose::good_state(dice);
        state[s::ANYTHING_SENT] = sent.anything as u64;
        state[s::LAST_SENT_PACKET] = sent.last;
        for index in [s::LAST_MOMENT, s::TOTAL_ACKED] {
            state[index] = state[index].max(1);
        }
        state[s::ROUND_TRIP_COUNT] = if self.full { MAX } else { 7 };
        state[s::LOSS_EVENTS_IN_ROUND] = 7;
        state[s::END_OF_ROUND_TRIP] = self.is_set as u64;
        state[s::END_OF_ROUND_TRIP + 1] = if self.is_set { self.end } else { 0 };
        let mut call = choose::good_call(dice, &state, calls::ON_CONGESTION_EVENT_START);
        choose::stand_still(&state, &mut call);
        call[c::TOTAL_LOST] = (state[s::TOTAL_LOST] + dice.below(2)).min(bounds::TOTAL);
        (state, call)
    }

    /// Makes events with these numbers in the call, up to three, without lists and with some. The words
    /// after them and the lists would end any round.
    pub fn with_own(&self, model: &mut Model, trial: &mut Trial, sent: Sent, numbers: &[u64]) {
        for lists in [None, Some(vec![MAX; 8])] {
            let (state, mut call) = self.event(&mut trial.dice, sent);
            own(&mut call, numbers);
            model.one(trial, &state, &call, lists);
        }
    }

    /// Makes an event whose numbers are this list, four or more, between words that would end any round
    /// if there is room for them.
    pub fn with_list(&self, model: &mut Model, trial: &mut Trial, sent: Sent, numbers: &[u64]) {
        let (state, mut call) = self.event(&mut trial.dice, sent);
        let lists = listed(&mut call, numbers);
        model.one(trial, &state, &call, Some(lists));
    }
}

/// Lets an event ack these numbers, up to three, by its own words; those after them hold 2^64 - 1.
pub fn own(call: &mut Call, numbers: &[u64]) {
    call[c::ACKED_COUNT] = numbers.len() as u64;
    call[c::ACKED..c::RECORD].fill(MAX);
    call[c::ACKED..][..numbers.len()].copy_from_slice(numbers);
}

/// Lets an event ack these numbers, four or more, by lists: those, with 2^64 - 1 before and after them
/// if there is room.
pub fn listed(call: &mut Call, numbers: &[u64]) -> Vec<u64> {
    let around = vec![MAX; (numbers.len() + 2 <= LONGEST) as usize];
    call[c::ACKED_COUNT] = numbers.len() as u64;
    call[c::ACKED] = around.len() as u64;
    [&around[..], numbers, &around[..]].concat()
}

/// The numbers at which something turns about a limit.
pub fn about(limit: u64) -> [u64; 5] {
    let (below, above) = (limit.saturating_sub(1), limit.saturating_add(1));
    [0, below, limit, above, MAX]
}

/// Longer lists, the greatest number at each place or at some: below a limit, at it, above it. The
/// others are zeros, fall or rise.
pub fn longer(limit: u64) -> impl Iterator<Item = Vec<u64>> {
    let [_, below, _, above, _] = about(limit);
    let list = move |count: usize, place: usize, greatest: u64, way: u32| {
        let other = |at: u64| match way {
            0 => 0,
            1 => below.saturating_sub(at),
            _ => below.saturating_sub(count as u64 - at),
        };
        let mut numbers: Vec<u64> = (0..count as u64).map(other).collect();
        numbers[place] = greatest;
        numbers
    };
    let some = |count: usize| move |&at: &usize| at < 7 || at == count / 2 || at + 3 > count;
    [5, 7, LONGEST - 2, LONGEST]
        .into_iter()
        .flat_map(move |count| (0..count).filter(some(count)).map(move |at| (count, at)))
        .flat_map(move |at| [below, limit, above, MAX].map(|greatest| (at, greatest)))
        .flat_map(move |((count, place), greatest)| {
            (0..3).map(move |way| list(count, place, greatest, way))
        })
}

/// Every list of so many of these things.
pub fn every<T: Copy, const N: usize>(
    things: [T; N],
    count: usize,
) -> impl Iterator<Item = Vec<T>> {
    (0..N.pow(count as u32)).map(move |list| {
        let place = |at: usize| list / N.pow(at as u32) % N;
        (0..count).map(|at| things[place(at)]).collect()
    })
}
