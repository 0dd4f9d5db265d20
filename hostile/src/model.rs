//! Hostile runs of the model, with lists and without.

use guovssalu_sys::table::call as calls;
use guovssalu_sys::table::STATE_WORDS;
use guovssalu_sys::table::WORD_BYTES;

use crate::after;
use crate::checks;
use crate::choose;
use crate::choose::Spoilt;
use crate::dice::Dice;
use crate::kinds;
use crate::lent::Ground;
use crate::limits;
use crate::lists;
use crate::places::Callee;
use crate::places::Given;
use crate::table;
use crate::table::Rows;
use crate::table::NEVER_SENT;
use crate::tally::Export;
use crate::tally::Fault;
use crate::tally::Tally;
use crate::trial::Trial;
use crate::words;
use crate::words::answer as a;
use crate::words::call as c;
use crate::words::state as s;
use crate::words::Call;
use crate::words::State;
use crate::words::ANSWER_BYTES;
use crate::words::CALL_BYTES;
use crate::words::STATE_BYTES;

/// The longest ranges that are lent: more than a run of the most calls has.
pub const LONGEST_STATE: usize = 1_200;
const LONGEST_CALLS: usize = 4_800;
const LONGEST_ANSWERS: usize = 2_200;

/// A run has fewer calls than this.
const MOST: u64 = 10;

/// After so many cases the state that is carried on is left for a fresh one.
const CARRIED: u32 = 64;

/// The ranges of bytes that a run is lent.
#[derive(Clone, Copy)]
pub enum Range {
    State,
    Calls,
    Answers,
}

impl Range {
    pub const ALL: [Range; 3] = [Range::State, Range::Calls, Range::Answers];
}

/// What a run is lent; with lists it is the run that takes them. They can be the words of the calls
/// themselves, in the same place: both are only read.
#[derive(Clone)]
pub struct Lent {
    state: Vec<u8>,
    calls: Vec<u8>,
    lists: Option<Vec<u64>>,
    in_calls: bool,
    answers: Vec<u8>,
    spoilt: Spoilt,
}

impl Lent {
    /// Calls in a state, with ranges of the right lengths.
    pub fn new(dice: &mut Dice, state: &State, calls: &[Call], lists: Option<Vec<u64>>) -> Self {
        Lent {
            state: words::bytes(state),
            calls: words::bytes(&calls.concat()),
            lists,
            in_calls: false,
            answers: dice.bytes(calls.len() * ANSWER_BYTES),
            spoilt: Spoilt::default(),
        }
    }

    /// Makes the words of the calls the lists.
    pub fn take_calls(&mut self) {
        let words = self.calls.chunks_exact(WORD_BYTES);
        self.lists = Some(words.map(|word| words::words::<1>(word)[0]).collect());
        self.in_calls = true;
    }

    /// One of the ranges of bytes.
    pub fn range(&mut self, range: Range) -> &mut Vec<u8> {
        match range {
            Range::State => &mut self.state,
            Range::Calls => &mut self.calls,
            Range::Answers => &mut self.answers,
        }
    }

    /// The words of the lists; a run without lists has none.
    fn words(&self) -> &[u64] {
        self.lists.as_deref().unwrap_or(&[])
    }

    /// The rows of the run itself.
    fn rows(&self) -> Rows {
        table::run_rows(&self.state, &self.calls, self.answers.len())
    }

    /// Whether it has an event that acks what was never sent, by the words of the state handed in.
    fn acks_unsent(&self) -> bool {
        let state = words::words(&self.state);
        let mut calls = self.calls.chunks_exact(CALL_BYTES).map(words::words);
        calls.any(|call| table::acks_unsent(&state, &call, self.words()))
    }

    /// What the run is counted as, and a call of it that is made alone.
    fn exports(&self) -> [Export; 2] {
        match self.lists {
            None => [Export::Run, Export::OneCall],
            Some(_) => [Export::RunLists, Export::OneCallOfLists],
        }
    }
}

/// The grounds of a run's ranges, and a state that is carried on from case to case.
pub struct Model {
    state: Ground,
    calls: Ground,
    lists: Ground,
    answers: Ground,
    carried: State,
    left: u32,
}

impl Model {
    pub fn new() -> Self {
        Model {
            state: Ground::new(LONGEST_STATE),
            calls: Ground::new(LONGEST_CALLS),
            lists: Ground::of_words(lists::LONGEST),
            answers: Ground::new(LONGEST_ANSWERS),
            carried: [0; STATE_WORDS],
            left: 0,
        }
    }

    /// One case: a run of one call, or of several that are then made one by one, too.
    pub fn case(&mut self, trial: &mut Trial) {
        let mut lent = self.lent(&mut trial.dice);
        if trial.dice.one_in(8) {
            let length = choose::length(&mut trial.dice, STATE_BYTES, LONGEST_STATE);
            choose::resize(&mut trial.dice, &mut lent.state, length);
        }
        if trial.dice.one_in(8) {
            let length = choose::length(&mut trial.dice, lent.calls.len(), LONGEST_CALLS);
            choose::resize(&mut trial.dice, &mut lent.calls, length);
        }
        let answers = lent.calls.len() / CALL_BYTES * ANSWER_BYTES;
        let answers = if trial.dice.one_in(3) {
            choose::length(&mut trial.dice, answers, LONGEST_ANSWERS)
        } else {
            answers
        };
        lent.answers = trial.dice.bytes(answers);
        if lent.lists.is_some() && trial.dice.one_in(16) {
            lent.take_calls();
        }
        self.run(trial, &lent);
    }

    /// One call in a state, with ranges of the right lengths.
    pub fn one(&mut self, trial: &mut Trial, state: &State, call: &Call, lists: Option<Vec<u64>>) {
        let lent = Lent::new(&mut trial.dice, state, &[*call], lists);
        self.run(trial, &lent);
    }

    /// A state and calls to lend, the state of the right length.
    fn lent(&mut self, dice: &mut Dice) -> Lent {
        let mut spoilt = Spoilt::default();
        let state = self.chosen_state(dice, &mut spoilt);
        let bytes = if dice.one_in(24) {
            choose::random_bytes(dice)
        } else {
            words::bytes(&state)
        };
        let mut lists = if dice.one_in(3) {
            Some(lists::chosen(dice, &state))
        } else {
            None
        };
        let count = if dice.one_in(8) { dice.below(MOST) } else { 1 };
        let mut calls = Vec::new();
        for _ in 0..count {
            let call = chosen_call(dice, &state, &mut lists, &mut spoilt);
            calls.extend(words::bytes(&call));
        }
        Lent {
            state: bytes,
            calls,
            lists,
            in_calls: false,
            answers: Vec::new(),
            spoilt,
        }
    }

    /// The state carried on, a good one, or one with hostile words.
    fn chosen_state(&mut self, dice: &mut Dice, spoilt: &mut Spoilt) -> State {
        if self.left == 0 {
            self.left = CARRIED;
            let (now, rtt) = (dice.below(1 << 40), dice.below(1 << 30));
            self.carried = after::fresh(now, rtt, after::ONE, after::ONE, 0);
        }
        self.left -= 1;
        let kind = dice.below(16);
        let mut state = match kind {
            0..=5 => self.carried,
            6 => choose::random_state(dice),
            _ => choose::good_state(dice),
        };
        match kind {
            5 | 11..=14 => choose::spoil_state(dice, &mut state, spoilt, true),
            15 => choose::spoil_state(dice, &mut state, spoilt, false),
            _ => {}
        }
        state
    }

    /// Makes a run and checks it; of an accepted run of several calls, also each of them alone.
    pub fn run(&mut self, trial: &mut Trial, lent: &Lent) {
        let rows = lent.rows();
        let due = rows.due();
        let alone = lent.calls.len() == CALL_BYTES;
        let parts = if due == 0 && !alone {
            Some(self.one_by_one(trial, lent))
        } else {
            None
        };
        let given = self.make(trial, lent, &rows);
        if let Some(what) = self.touched(lent, due) {
            trial.tally.wrong(Fault::Touched, || {
                format!("{} after run reply {}\n{}", what, given, tell(lent))
            });
        }
        if due != 0 || given != 0 {
            return;
        }
        match parts {
            None => self.check(&mut trial.tally, lent),
            Some((state, answers)) => {
                let whole = lent.calls.len() / CALL_BYTES * ANSWER_BYTES;
                if self.state.bytes() != state || self.answers.bytes()[..whole] != answers {
                    trial.tally.wrong(Fault::Content, || {
                        format!("a run differs from its calls one by one\n{}", tell(lent))
                    });
                }
            }
        }
    }

    /// Lends, makes the run, and checks its reply by these rows, the guards and the input. Answers the
    /// reply.
    fn make(&mut self, trial: &mut Trial, lent: &Lent, rows: &Rows) -> u64 {
        self.state.lend(&lent.state, &mut trial.dice);
        self.calls.lend(&lent.calls, &mut trial.dice);
        self.answers.lend(&lent.answers, &mut trial.dice);
        let (state, calls, answers) = (&mut self.state, &mut self.calls, &mut self.answers);
        let lists = if lent.in_calls {
            lent.calls.clone()
        } else {
            words::bytes(lent.words())
        };
        if lent.lists.is_some() {
            self.lists.lend(&lists, &mut trial.dice);
        }
        let given = match lent.lists {
            None => trial.port.run(state, calls, answers),
            Some(_) if lent.in_calls => {
                let both = &mut self.lists;
                trial.port.run_lists_in_calls(state, both, answers)
            }
            Some(_) => {
                let lists = &mut self.lists;
                trial.port.run_lists(state, calls, lists, answers)
            }
        };
        let [export, _] = lent.exports();
        let (tally, tell) = (&mut trial.tally, || tell(lent));
        tally.replied(export, rows, given, tell);
        let lengths = [lent.state.len() as u64, lent.calls.len() as u64];
        let numbers = Given::numbers(&lengths);
        tally.asked(Callee::Run, lent.lists.is_some(), &numbers, rows);
        if rows.due() != 0 && lent.acks_unsent() {
            tally.never_asked(rows);
        }
        checks::guards(tally, &mut self.state, "state", tell);
        checks::guards(tally, &mut self.calls, "calls", tell);
        checks::guards(tally, &mut self.answers, "answers", tell);
        checks::input(tally, &self.calls, &lent.calls, "calls", tell);
        if lent.lists.is_some() {
            checks::guards(tally, &mut self.lists, "lists", tell);
            checks::input(tally, &self.lists, &lists, "lists", tell);
        }
        given
    }

    /// What a run touched that had to keep its bytes: all, or what is past the answers.
    fn touched(&self, lent: &Lent, due: u64) -> Option<&'static str> {
        let kept = if due == 0 {
            lent.calls.len() / CALL_BYTES * ANSWER_BYTES
        } else {
            0
        };
        if due != 0 && self.state.bytes() != lent.state {
            Some("the state of a refused run")
        } else if self.answers.bytes()[kept..] != lent.answers[kept..] {
            Some("the answers' bytes that had to stay")
        } else {
            None
        }
    }

    /// Makes the calls of a run one at a time and checks each. Answers the last state's bytes and
    /// the answers'.
    fn one_by_one(&mut self, trial: &mut Trial, lent: &Lent) -> (Vec<u8>, Vec<u8>) {
        let (mut state, mut answers) = (lent.state.clone(), Vec::new());
        for call in lent.calls.chunks_exact(CALL_BYTES) {
            let one = Lent {
                state,
                calls: call.to_vec(),
                lists: lent.lists.clone(),
                in_calls: false,
                answers: trial.dice.bytes(ANSWER_BYTES),
                spoilt: Spoilt::default(),
            };
            if self.make(trial, &one, &one.rows()) == 0 {
                self.check(&mut trial.tally, &one);
            }
            state = self.state.bytes().to_vec();
            answers.extend_from_slice(self.answers.bytes());
        }
        (state, answers)
    }

    /// Checks the state and the answer that an accepted run of one call has left.
    fn check(&mut self, tally: &mut Tally, lent: &Lent) {
        let (before, call): (State, Call) = (words::words(&lent.state), words::words(&lent.calls));
        let lists = lent.words();
        let rows = table::call_rows(&before, &call, lists);
        let (left, answer): (State, _) = (
            words::words(self.state.bytes()),
            words::words(&self.answers.bytes()[..ANSWER_BYTES]),
        );
        let [_, export] = lent.exports();
        tally.replied(export, &rows, answer[a::REPLY], || tell(lent));
        let given = Given {
            state: &before,
            words: &call,
            lists,
        };
        let callee = Callee::Call(call[c::NUMBER]);
        tally.asked(callee, lent.lists.is_some(), &given, &rows);
        let unknown = !table::is_a_call(call[c::NUMBER]);
        tally.worded(kinds::is_malformed(&call, lists), unknown);
        let due = rows.reply();
        if is_event(call[c::NUMBER]) {
            count_acked(tally, &before, &call, lent, &rows);
        }
        if left != after::state(&before, &call, lists, due) {
            let fault = if due == 0 || call[c::NUMBER] == calls::START {
                Fault::Content
            } else {
                Fault::Touched
            };
            tally.wrong(fault, || {
                format!("the state {:?} after reply {}\n{}", left, due, tell(lent))
            });
        }
        if answer != after::answer(&before, &call, lists, due) {
            tally.wrong(Fault::Content, || {
                format!("the answer {:?}, due {}\n{}", answer, due, tell(lent))
            });
        }
        if due == 0 && !after::within(&call, &left, &answer) {
            tally.wrong(Fault::Content, || {
                format!("an accepted call leaves {:?}\n{}", left, tell(lent))
            });
        }
        if due == 0 && table::model_ok(&left) && table::cycle_ok(&left) {
            self.carried = left;
        }
    }
}

/// Whether it is the number of an event, which has acked numbers.
pub fn is_event(number: u64) -> bool {
    number == calls::ON_CONGESTION_EVENT_START
}

/// A call for a run, good or hostile. Where no number that was sent can end the round there are more
/// sends. In a run with lists there are more events, and half of those take nothing hostile but their
/// place.
fn chosen_call(
    dice: &mut Dice,
    state: &State,
    lists: &mut Option<Vec<u64>>,
    spoilt: &mut Spoilt,
) -> Call {
    let end = words::optional(state, s::END_OF_ROUND_TRIP);
    let number = match lists {
        _ if table::last_sent(state) <= end && dice.one_in(4) => calls::ON_PACKET_SENT,
        Some(_) if dice.one_in(2) => calls::ON_CONGESTION_EVENT_START,
        _ => choose::number(dice),
    };
    let mut call = choose::good_call(dice, state, number);
    if let (Some(lists), true) = (&mut *lists, is_event(number)) {
        choose_place(dice, state, &mut call, lists);
        if dice.one_in(2) {
            return call;
        }
    }
    if dice.one_in(2) {
        choose::spoil_call(dice, &mut call, spoilt);
    }
    if dice.one_in(5) {
        choose::fall(dice, state, &mut call, spoilt);
    }
    if dice.one_in(4) {
        choose::malform_call(dice, &mut call, spoilt);
    }
    if dice.one_in(8) {
        choose::flaw_call(dice, state, &mut call, lists, spoilt);
    }
    if dice.one_in(16) {
        choose::no_call(dice, &mut call);
    }
    call
}

/// Lets most events take their numbers from the lists, some at a hostile place, and some stand still,
/// so that others of the run are accepted after them.
fn choose_place(dice: &mut Dice, state: &State, call: &mut Call, lists: &mut [u64]) {
    if !dice.one_in(4) {
        lists::place(dice, state, call, lists);
    }
    if dice.one_in(4) {
        lists::misplace(dice, call, lists.len());
    }
    if dice.one_in(2) {
        choose::stand_still(state, call);
    }
}

/// Counts how the greatest number of an event stands to the end of the round and to the last sent one,
/// what holds beside a number never sent, or that the place is outside the lists.
fn count_acked(tally: &mut Tally, before: &State, call: &Call, lent: &Lent, rows: &Rows) {
    let (due, acked) = (rows.due(), words::acked(call, lent.words()));
    if acked.is_none() && lent.lists.is_some() {
        tally.misplaced();
    }
    if let Some(acked) = acked {
        let in_a_list = acked.len() > 3;
        if due == 0 {
            let end = words::optional(before, s::END_OF_ROUND_TRIP);
            tally.rounded(in_a_list, limits::greatest(end, acked));
        }
        if due == 0 || due == NEVER_SENT {
            let sent = table::last_sent(before);
            tally.sent(in_a_list, limits::greatest(sent, acked));
        }
        if rows.holds(NEVER_SENT) {
            tally.never_sent(in_a_list, rows);
        }
    }
}

/// A case in readable form: lengths, the words made hostile, and the words that aren't 0.
fn tell(lent: &Lent) -> String {
    let lengths = [lent.state.len(), lent.calls.len(), lent.answers.len()];
    let numbers: Vec<u64> = lent
        .calls
        .chunks_exact(CALL_BYTES)
        .map(|call| words::words::<1>(call)[0])
        .collect();
    let names: Vec<&str> = numbers.iter().map(|&number| words::name(number)).collect();
    let not_zero = |bytes: &[u8]| -> Vec<(usize, u64)> {
        let words = bytes
            .chunks_exact(WORD_BYTES)
            .map(|eight| words::words::<1>(eight)[0]);
        words.enumerate().filter(|(_, word)| *word != 0).collect()
    };
    let (name, lists) = match &lent.lists {
        None => ("guovssalu_run", String::new()),
        Some(lists) => {
            let place = if lent.in_calls { " in the calls" } else { "" };
            let lists = format!("\n  lists{}, {} words {:?}", place, lists.len(), lists);
            ("guovssalu_run_lists", lists)
        }
    };
    format!(
        "  {}, bytes of state, calls, answers {:?}, calls {:?} {:?}\n  hostile words of the state \
         {:?}, of the calls {:?}\n  state {:?}\n  calls {:?}{}",
        name,
        lengths,
        numbers,
        names,
        lent.spoilt.state,
        lent.spoilt.call,
        not_zero(&lent.state),
        not_zero(&lent.calls),
        lists
    )
}
