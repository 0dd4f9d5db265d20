//! The swept cases of acked numbers beside the last sent one: in each list, at each place, beside what
//! else is refused, after starts and sends, and in runs that are refused.

use guovssalu_sys::table::argument::on_packet_sent as sent;
use guovssalu_sys::table::argument::start;
use guovssalu_sys::table::call as calls;
use guovssalu_sys::table::WORD_BYTES;

use crate::bounds;
use crate::choose;
use crate::choose::Beside;
use crate::dice::Dice;
use crate::events::about;
use crate::events::every;
use crate::events::listed;
use crate::events::longer;
use crate::events::own;
use crate::events::Round;
use crate::events::Sent;
use crate::events::Sweep;
use crate::events::LIMITS;
use crate::kinds;
use crate::kinds::Kind;
use crate::lists::FEWEST;
use crate::model::Lent;
use crate::model::Model;
use crate::model::Range;
use crate::trial::Trial;
use crate::words::state as s;
use crate::words::Call;
use crate::words::State;
use crate::words::ANSWER_BYTES;
use crate::words::CALL_BYTES;

const MAX: u64 = u64::MAX;

/// All of them, in their order.
pub const SWEEPS: [Sweep; 5] = [
    each_order,
    each_greatest,
    each_beside,
    each_history,
    each_refused_run,
];

/// A round that any number ends.
const OPEN: Round = Round {
    end: 0,
    is_set: false,
    full: false,
};

/// Each last number, with something sent and with nothing.
fn each_sent() -> impl Iterator<Item = Sent> {
    LIMITS.into_iter().flat_map(|last| {
        [false, true]
            .into_iter()
            .map(move |anything| Sent { anything, last })
    })
}

/// Up to three numbers in the call, and four of a list: each of those at which something turns.
fn each_order(model: &mut Model, trial: &mut Trial) {
    for sent in each_sent() {
        for numbers in (0..=3).flat_map(|count| every(about(sent.last), count)) {
            let round = Round::any(&mut trial.dice);
            round.with_own(model, trial, sent, &numbers);
        }
        for numbers in every(about(sent.last), FEWEST) {
            let round = Round::any(&mut trial.dice);
            round.with_list(model, trial, sent, &numbers);
        }
    }
}

/// Longer lists, the greatest number at each place or at some.
fn each_greatest(model: &mut Model, trial: &mut Trial) {
    for last in [5, 1 << 63, MAX - 1] {
        let sent = Sent { last, ..Sent::ANY };
        for numbers in longer(last) {
            let round = Round::any(&mut trial.dice);
            round.with_list(model, trial, sent, &numbers);
        }
    }
}

/// A number that was never sent, if there is one, in the call and in a list, at each place: alone, and
/// with something else that is refused.
fn each_beside(model: &mut Model, trial: &mut Trial) {
    for (sent, beside) in Beside::with_each(each_sent()) {
        for (count, place) in (1..=FEWEST).flat_map(|count| (0..count).map(move |at| (count, at))) {
            let mut numbers = vec![0; count];
            numbers[place] = sent.last.saturating_add(sent.anything as u64);
            let (mut state, mut call) = OPEN.event(&mut trial.dice, sent);
            beside.put(&mut state, &mut call);
            let lists = ack(&mut call, &numbers);
            model.one(trial, &state, &call, lists);
        }
    }
}

/// Lets an event ack these numbers, in the call or, where they are too many, in lists.
fn ack(call: &mut Call, numbers: &[u64]) -> Option<Vec<u64>> {
    if numbers.len() < FEWEST {
        own(call, numbers);
        None
    } else {
        Some(listed(call, numbers))
    }
}

/// What can come before an event.
#[derive(Clone, Copy)]
enum Step {
    Start,
    /// A start with a round trip out of bounds.
    RefusedStart,
    Send(u64),
    /// A send of too many bytes, and one at an earlier moment.
    LargeSend(u64),
    EarlierSend(u64),
    /// An event that acks these numbers.
    Event(&'static [u64]),
    RestartRound,
}

impl Step {
    const ALL: [Step; 9] = [
        Step::Start,
        Step::RefusedStart,
        Step::Send(5),
        Step::Send(3),
        Step::LargeSend(9),
        Step::EarlierSend(9),
        Step::Event(&[]),
        Step::Event(&[6]),
        Step::RestartRound,
    ];

    /// The call, at the stored moment of the state before the run; `event` is one in it.
    fn call(self, dice: &mut Dice, state: &State, event: &Call) -> Call {
        match self {
            Step::Start => start_now(dice, state),
            Step::RefusedStart => {
                let mut call = start_now(dice, state);
                call[start::INITIAL_RTT] = bounds::LENGTH + 1;
                call
            }
            Step::Send(number) => choose::send_now(dice, state, number),
            Step::LargeSend(number) => {
                let mut call = choose::send_now(dice, state, number);
                call[sent::BYTES] = bounds::BYTES + 1;
                call
            }
            Step::EarlierSend(number) => {
                let mut call = choose::send_now(dice, state, number);
                call[sent::SENT_TIME] -= 1;
                call
            }
            Step::Event(acked) => {
                let mut call = *event;
                own(&mut call, acked);
                call
            }
            Step::RestartRound => choose::good_call(dice, state, calls::RESTART_ROUND_EARLY),
        }
    }
}

/// A good start at the stored moment.
fn start_now(dice: &mut Dice, state: &State) -> Call {
    let mut call = choose::good_call(dice, state, calls::START);
    call[start::NOW] = state[s::LAST_MOMENT];
    call
}

/// Runs of up to two steps and an event after them, in states in which nothing was sent, or 4 was: each
/// two steps, with each number about those that are sent, without lists and with some.
fn each_history(model: &mut Model, trial: &mut Trial) {
    const ACKED: [&[u64]; 8] = [&[], &[0], &[3], &[4], &[5], &[6], &[9], &[3, 5, 0]];
    for steps in (0..=2).flat_map(|count| every(Step::ALL, count)) {
        for (anything, last) in [(false, 0), (false, 4), (true, 4)] {
            for (acked, with_lists) in ACKED.map(|acked| [(acked, false), (acked, true)]).concat() {
                let sent = Sent { anything, last };
                let (state, mut event) = OPEN.event(&mut trial.dice, sent);
                let mut run: Vec<Call> = steps
                    .iter()
                    .map(|step| step.call(&mut trial.dice, &state, &event))
                    .collect();
                own(&mut event, acked);
                run.push(event);
                let lists = with_lists.then(|| vec![MAX; FEWEST]);
                let lent = Lent::new(&mut trial.dice, &state, &run, lists);
                model.run(trial, &lent);
            }
        }
    }
}

/// An event with a number that was never sent, and one whose numbers were, in runs that are refused: by
/// a note that is no flag, by a state of another length, as that without the note, by calls and answers
/// of another length.
fn each_refused_run(model: &mut Model, trial: &mut Trial) {
    const NOTE: usize = WORD_BYTES * s::ANYTHING_SENT;
    let notes = (0..kinds::ways(Kind::Flag)).map(Refused::Note);
    let states = [400, 407, 409, 416].map(|length| Refused::Length(Range::State, length));
    let others = [
        Refused::WithoutNote,
        Refused::Length(Range::Calls, CALL_BYTES - 1),
        Refused::Length(Range::Calls, CALL_BYTES + 1),
        Refused::Length(Range::Answers, ANSWER_BYTES - 1),
    ];
    for refused in notes.chain(states).chain(others) {
        for (sent, count) in each_sent().flat_map(|sent| [(sent, 1), (sent, FEWEST)]) {
            for number in about(sent.last) {
                let (mut state, mut call) = OPEN.event(&mut trial.dice, sent);
                let lists = ack(&mut call, &vec![number; count]);
                if let Refused::Note(way) = refused {
                    kinds::malform(&mut state, s::ANYTHING_SENT, Kind::Flag, way);
                }
                let mut lent = Lent::new(&mut trial.dice, &state, &[call], lists);
                match refused {
                    Refused::Note(_) => {}
                    Refused::WithoutNote => {
                        lent.range(Range::State).drain(NOTE..NOTE + WORD_BYTES);
                    }
                    Refused::Length(range, length) => {
                        choose::resize(&mut trial.dice, lent.range(range), length);
                    }
                }
                model.run(trial, &lent);
            }
        }
    }
}

/// Why a run is refused.
#[derive(Clone, Copy)]
enum Refused {
    /// The note is malformed in a way.
    Note(usize),
    /// The state has no word for the note.
    WithoutNote,
    /// A range has another length.
    Length(Range, usize),
}
