//! The swept cases of what refusal 2 names: each flaw of each call at its ends, each two causes of a
//! refusal in one call, and the lengths of a run's ranges.

use guovssalu_sys::table::call as calls;

use crate::bounds;
use crate::choose;
use crate::choose::Beside;
use crate::dice::Dice;
use crate::edges;
use crate::edges::Ends;
use crate::events::listed;
use crate::events::own;
use crate::events::Sweep;
use crate::meets::Cause;
use crate::model::Lent;
use crate::model::Model;
use crate::model::Range;
use crate::places;
use crate::places::Callee;
use crate::places::Flaw;
use crate::table;
use crate::table::NEVER_SENT;
use crate::trial::Trial;
use crate::words;
use crate::words::call as c;
use crate::words::state as s;
use crate::words::Call;
use crate::words::State;
use crate::words::ANSWER_BYTES;
use crate::words::CALL_BYTES;
use crate::words::STATE_BYTES;
use crate::words::UNSET;

/// All of them, in their order.
pub const SWEEPS: [Sweep; 4] = [each_end, each_two, each_two_far, each_run];

/// The numbers of all calls, and the first that are none, without lists and with some.
fn each_call() -> impl Iterator<Item = (u64, bool)> {
    (0..=words::CALLS_END).flat_map(|number| [(number, false), (number, true)])
}

/// A call with all that it is given, to be made wrong.
struct Case {
    state: State,
    call: Call,
    lists: Option<Vec<u64>>,
}

impl Case {
    /// A call that is accepted. The state leaves room for an earlier moment and lower totals; the call
    /// would add 1 to each counter that it can add to, once these are full, and acks numbers that were
    /// sent.
    fn new(dice: &mut Dice, number: u64, with_lists: bool) -> Self {
        let mut state = choose::good_state(dice);
        for index in [
            s::LAST_MOMENT,
            s::MIN_RTT_TIMESTAMP,
            s::TOTAL_ACKED,
            s::TOTAL_LOST,
        ] {
            state[index] = state[index].clamp(1, bounds::TOTAL / 2);
        }
        for (part, total) in [
            (s::BYTES_LOST_IN_ROUND, s::TOTAL_LOST),
            (s::MAX_BYTES_DELIVERED_IN_ROUND, s::TOTAL_ACKED),
        ] {
            state[part] = state[part].min(state[total]);
        }
        for counter in choose::COUNTERS {
            state[counter] = 7;
        }
        state[s::ANYTHING_SENT] = 1;
        state[s::LAST_SENT_PACKET] = u64::MAX;
        state[s::END_OF_ROUND_TRIP..][..2].fill(0);
        // There is a queue, and no growth.
        state[s::MIN_BYTES_IN_FLIGHT_IN_ROUND] = UNSET;
        state[s::MAX_BANDWIDTH_0] = 0;
        state[s::MAX_BANDWIDTH_1] = 0;
        state[s::FULL_BANDWIDTH_BASELINE] = bounds::BANDWIDTH;
        state[s::IGNORE_APP_LIMITED] = 0;
        let mut call = choose::good_call(dice, &state, number);
        let mut lists = with_lists.then(|| vec![5; 8]);
        if number == calls::ON_CONGESTION_EVENT_START {
            choose::stand_still(&state, &mut call);
            call[c::TOTAL_LOST] += 1;
            match lists {
                None => own(&mut call, &[1, 2, 3]),
                Some(_) => lists = Some(listed(&mut call, &[4, 3, 2, 1])),
            }
        }
        Case { state, call, lists }
    }

    /// Lets a flaw measure this.
    fn set(&mut self, flaw: &Flaw, to: i128) {
        let lists = self.lists.as_deref().unwrap_or(&[]);
        edges::set(flaw, to, &mut self.state, &mut self.call, lists);
    }

    /// Makes two causes hold, each in a way. Of two flaws the second is put first: it may be in the same
    /// words, and their form is put last. Then come the rows.
    fn put(&mut self, causes: [(&Cause, i128); 2]) {
        for (cause, way) in causes.into_iter().rev() {
            if let Cause::Flaw(flaw) = cause {
                self.set(flaw, way);
            }
        }
        for (cause, way) in causes {
            if let Cause::Row(row) = cause {
                self.put_row(*row, way as usize);
            }
        }
    }

    /// Makes a row but 2 hold, in a way if there are several.
    fn put_row(&mut self, row: u64, way: usize) {
        let beside = match row {
            1 => ROW_ONE[way],
            3 => return self.put_earlier(),
            4 if self.call[c::TOTAL_ACKED] > bounds::TOTAL => {
                self.call[c::TOTAL_LOST] = self.state[s::TOTAL_LOST] - 1;
                return;
            }
            4 => Beside::Total,
            NEVER_SENT => Beside::NothingSent,
            _ => {
                if self.call[c::NUMBER] == calls::HAS_BANDWIDTH_GROWTH {
                    self.call[c::LAST_IS_VALID] = 1;
                }
                Beside::Counters
            }
        };
        beside.put(&mut self.state, &mut self.call);
    }

    /// Lets the moment be earlier than the last accepted one; one out of bounds stays so, and then the
    /// last accepted one is too.
    fn put_earlier(&mut self) {
        match table::moment(&self.call) {
            Some(now) if now > bounds::MOMENT => self.state[s::LAST_MOMENT] = now + 1,
            _ => Beside::Moment.put(&mut self.state, &mut self.call),
        }
    }

    /// Makes the call.
    fn make(self, model: &mut Model, trial: &mut Trial) {
        model.one(trial, &self.state, &self.call, self.lists);
    }
}

/// How row 1 can come to hold, each for some calls.
const ROW_ONE: [Beside; 4] = [
    Beside::StoredModel,
    Beside::StoredCycle,
    Beside::Parameter,
    Beside::MalformedParameter,
];

/// Each flaw of each call at its ends, on both sides.
fn each_end(model: &mut Model, trial: &mut Trial) {
    for (number, with_lists) in each_call() {
        for flaw in places::flaws(Callee::Call(number)) {
            let inside = edges::inside(&flaw, with_lists);
            let outside = edges::outside(&flaw, with_lists);
            for end in inside.into_iter().chain(outside).flatten() {
                let mut case = Case::new(&mut trial.dice, number, with_lists);
                case.set(&flaw, end);
                case.make(model, trial);
            }
        }
    }
}

/// The ways in which a cause can be put: of a flaw these measures.
fn ways(cause: &Cause, measures: impl FnOnce(&Flaw) -> Ends) -> Vec<i128> {
    match cause {
        Cause::Flaw(flaw) => measures(flaw).into_iter().flatten().collect(),
        Cause::Row(1) => (0..ROW_ONE.len() as i128).collect(),
        Cause::Row(_) => vec![0],
    }
}

/// Makes each two causes of each call hold at once, flaws by these measures.
fn two(model: &mut Model, trial: &mut Trial, measures: impl Fn(&mut Dice, &Flaw, bool) -> Ends) {
    for (number, with_lists) in each_call() {
        let callee = Callee::Call(number);
        let causes = Cause::all(callee);
        for (at, first) in causes.iter().enumerate() {
            for second in &causes[at + 1..] {
                if Cause::exclude(callee, first, second) {
                    continue;
                }
                let mut ways =
                    |cause| ways(cause, |flaw| measures(&mut trial.dice, flaw, with_lists));
                let (ones, others) = (ways(first), ways(second));
                for (&one, &other) in ones
                    .iter()
                    .flat_map(|one| others.iter().map(move |other| (one, other)))
                {
                    let mut case = Case::new(&mut trial.dice, number, with_lists);
                    case.put([(first, one), (second, other)]);
                    case.make(model, trial);
                }
            }
        }
    }
}

/// Each two causes, flaws being just past their ends.
fn each_two(model: &mut Model, trial: &mut Trial) {
    two(model, trial, |_, flaw, with_lists| {
        edges::outside(flaw, with_lists)
    });
}

/// Each two causes, flaws being anywhere past their ends.
fn each_two_far(model: &mut Model, trial: &mut Trial) {
    two(model, trial, |dice, flaw, with_lists| {
        let mut far = || Some(edges::far(dice, flaw, with_lists));
        [far(), far(), None]
    });
}

/// A state, calls and answers of each length about the right one, the state's bytes encoding one or not.
fn each_run(model: &mut Model, trial: &mut Trial) {
    const STATES: [usize; 5] = [STATE_BYTES, STATE_BYTES - 1, STATE_BYTES + 1, 400, 0];
    const CALLS: [usize; 5] = [
        CALL_BYTES,
        CALL_BYTES - 1,
        CALL_BYTES + 1,
        2 * CALL_BYTES,
        1,
    ];
    const SHORT: [usize; 3] = [0, 1, ANSWER_BYTES];
    for (state, calls) in STATES
        .into_iter()
        .flat_map(|state| CALLS.map(|calls| (state, calls)))
    {
        for (short, with_lists) in SHORT.map(|short| [(short, false), (short, true)]).concat() {
            for phase in [0, 5] {
                let number = choose::number(&mut trial.dice);
                let mut case = Case::new(&mut trial.dice, number, with_lists);
                case.state[s::PHASE] = phase;
                let run = [case.call, case.call];
                let mut lent = Lent::new(&mut trial.dice, &case.state, &run, case.lists);
                let answers = (calls / CALL_BYTES * ANSWER_BYTES).saturating_sub(short);
                for (range, length) in [
                    (Range::State, state),
                    (Range::Calls, calls),
                    (Range::Answers, answers),
                ] {
                    choose::resize(&mut trial.dice, lent.range(range), length);
                }
                model.run(trial, &lent);
            }
        }
    }
}
