//! Hostile runs of the round-trip estimator.

use guovssalu_sys::table::rtt_answer as a;
use guovssalu_sys::table::rtt_argument::new;
use guovssalu_sys::table::rtt_argument::update_max_ack_delay as limit;
use guovssalu_sys::table::rtt_argument::update_rtt as sample;
use guovssalu_sys::table::rtt_call as calls;
use guovssalu_sys::table::rtt_state as s;
use guovssalu_sys::table::RTT_ARGUMENTS_IN_CALL as ARGUMENTS;
use guovssalu_sys::table::RTT_NUMBER_IN_CALL as NUMBER;
use guovssalu_sys::table::RTT_STATE_WORDS;
use guovssalu_sys::table::WORD_BYTES;

use crate::bounds::LENGTH;
use crate::checks;
use crate::choose;
use crate::dice::Dice;
use crate::edges;
use crate::estimator;
use crate::estimator::Step;
use crate::lent::Ground;
use crate::places;
use crate::places::Callee;
use crate::places::Given;
use crate::table::Rows;
use crate::tally::Export;
use crate::tally::Fault;
use crate::tally::Tally;
use crate::trial::Trial;
use crate::values;
use crate::words;
use crate::words::RttAnswer;
use crate::words::RttCall;
use crate::words::RttState;
use crate::words::RTT_ANSWER_BYTES;
use crate::words::RTT_CALL_BYTES;
use crate::words::RTT_STATE_BYTES;

/// Most runs have at most so many calls, and long ones so many.
const SHORT: usize = 40;
pub const LONG: usize = 1_000;

/// The longest state that is lent, and for how many calls more than a run has its ranges can be.
const LONGEST_STATE: usize = 256;
const SPARE: usize = 4;

/// After so many cases the estimator that is carried on is left for another one.
const CARRIED: u32 = 64;

/// So many calls of a run are told.
const TOLD: usize = 12;

/// Numbers that are no call's: by hand, those that a call of the model has, and those that some of their
/// bits would make a call's.
pub const NO_CALLS: [u64; 15] = [
    3,
    4,
    5,
    45,
    46,
    50,
    255,
    256,
    257,
    258,
    1 << 32,
    (1 << 32) + 1,
    (1 << 32) + 2,
    1 << 63,
    u64::MAX,
];

/// What a run is lent.
pub struct Lent {
    pub state: Vec<u8>,
    pub calls: Vec<u8>,
    pub answers: Vec<u8>,
}

impl Lent {
    /// Calls on an estimator, with ranges of the right lengths.
    pub fn new(dice: &mut Dice, state: &RttState, calls: &[RttCall]) -> Self {
        Lent {
            state: words::bytes(state),
            calls: words::bytes(&calls.concat()),
            answers: dice.bytes(calls.len() * RTT_ANSWER_BYTES),
        }
    }

    /// Lets the flag be none and lengths be off, each of them often, so that several refusals of the run
    /// hold at once. The answers have the length that is due to the calls, or are off, too.
    fn misfit(&mut self, dice: &mut Dice, [longest_calls, longest_answers]: [usize; 2]) {
        if dice.one_in(2) {
            let flag = values::flag(dice).to_le_bytes();
            self.state[RTT_STATE_BYTES - WORD_BYTES..].copy_from_slice(&flag);
        }
        if dice.one_in(2) {
            let length = choose::length(dice, RTT_STATE_BYTES, LONGEST_STATE);
            choose::resize(dice, &mut self.state, length);
        }
        if !dice.one_in(3) {
            let length = choose::length(dice, self.calls.len(), longest_calls);
            choose::resize(dice, &mut self.calls, length);
        }
        let mut answers = self.calls.len() / RTT_CALL_BYTES * RTT_ANSWER_BYTES;
        if !dice.one_in(3) {
            answers = choose::length(dice, answers, longest_answers);
        }
        choose::resize(dice, &mut self.answers, answers);
    }

    /// The rows of the run itself.
    fn rows(&self) -> Rows {
        estimator::run_rows(&self.state, &self.calls, self.answers.len())
    }

    /// A case in readable form: lengths, the words of the state, and the first calls.
    fn tell(&self) -> String {
        let lengths = [self.state.len(), self.calls.len(), self.answers.len()];
        let calls = self.calls.chunks_exact(RTT_CALL_BYTES).take(TOLD);
        let calls: Vec<RttCall> = calls.map(words::words).collect();
        let state: RttState = words::words(&self.state);
        format!(
            "  guovssalu_rtt_run, bytes of state, calls, answers {:?}\n  state {:?}\n  first calls {:?}",
            lengths, state, calls
        )
    }
}

/// The grounds of a run's ranges.
struct Grounds {
    state: Ground,
    calls: Ground,
    answers: Ground,
}

/// The longest calls and answers of runs of so many calls.
fn longest(calls: usize) -> [usize; 2] {
    [RTT_CALL_BYTES, RTT_ANSWER_BYTES].map(|bytes| (calls + SPARE) * bytes)
}

impl Grounds {
    /// Grounds for runs of so many calls.
    fn new(most: usize) -> Self {
        let [calls, answers] = longest(most);
        Grounds {
            state: Ground::new(LONGEST_STATE),
            calls: Ground::new(calls),
            answers: Ground::new(answers),
        }
    }

    /// Lends the ranges, and makes the run. Answers its reply.
    fn run(&mut self, trial: &mut Trial, lent: &Lent) -> u64 {
        self.state.lend(&lent.state, &mut trial.dice);
        self.calls.lend(&lent.calls, &mut trial.dice);
        self.answers.lend(&lent.answers, &mut trial.dice);
        let (state, calls, answers) = (&mut self.state, &mut self.calls, &mut self.answers);
        trial.port.rtt_run(state, calls, answers)
    }

    /// Checks what no run may touch: guards, the calls, the answers' bytes from this one on, and the
    /// state where it has to stay.
    fn check_kept(&mut self, tally: &mut Tally, lent: &Lent, written: usize, stays: bool) {
        let tell = || lent.tell();
        checks::guards(tally, &mut self.state, "state", tell);
        checks::guards(tally, &mut self.calls, "calls", tell);
        checks::guards(tally, &mut self.answers, "answers", tell);
        checks::input(tally, &self.calls, &lent.calls, "calls", tell);
        if stays && self.state.bytes() != lent.state {
            tally.wrong(Fault::Touched, || format!("the state\n{}", lent.tell()));
        }
        if self.answers.bytes()[written..] != lent.answers[written..] {
            tally.wrong(Fault::Touched, || {
                format!("the answers' bytes from {} on\n{}", written, lent.tell())
            });
        }
    }

    /// Checks the reply and the answer of each call of a run that is done, and the state that it leaves.
    fn check_steps(&self, tally: &mut Tally, lent: &Lent, steps: &[Step]) {
        let answers = self.answers.bytes().chunks_exact(RTT_ANSWER_BYTES);
        for (at, (step, answer)) in steps.iter().zip(answers).enumerate() {
            let given: RttAnswer = words::words(answer);
            check_answer(tally, step, &given, || {
                format!("{}\n  its call {}", lent.tell(), at)
            });
        }
        let left: RttState = words::words(self.state.bytes());
        let due = steps.last().map_or(left, |last| last.after);
        if left != due {
            tally.wrong(Fault::Content, || {
                format!("the state {:?}, due {:?}\n{}", left, due, lent.tell())
            });
        }
    }
}

/// Checks the answer that a call was given.
fn check_answer(tally: &mut Tally, step: &Step, given: &RttAnswer, tell: impl Fn() -> String) {
    let Step { before, call, .. } = step;
    let tell = || format!("  {:?} on {:?}\n{}", call, before, tell());
    tally.replied(Export::OneRttCall, &step.rows, given[a::REPLY], tell);
    let what = Given {
        state: before,
        words: call,
        lists: &[],
    };
    let number = call[NUMBER];
    tally.asked(Callee::RttCall(number), false, &what, &step.rows);
    let malformed =
        number == calls::UPDATE_RTT && words::flag(call[sample::HANDSHAKE_CONFIRMED]).is_none();
    tally.worded(malformed, number >= words::RTT_CALLS_END);
    if given[a::LATEST_RTT..] != step.answer[a::LATEST_RTT..] {
        tally.wrong(Fault::Content, || {
            format!("the answer {:?}, due {:?}\n{}", given, step.answer, tell())
        });
    }
}

/// The grounds of short and of long runs, and an estimator that is carried on from case to case.
pub struct Rtt {
    short: Grounds,
    long: Grounds,
    carried: RttState,
    left: u32,
}

impl Rtt {
    pub fn new() -> Self {
        Rtt {
            short: Grounds::new(SHORT),
            long: Grounds::new(LONG),
            carried: [0; RTT_STATE_WORDS],
            left: 0,
        }
    }

    /// One case: a run of one call, of several, or of many.
    pub fn case(&mut self, trial: &mut Trial) {
        let dice = &mut trial.dice;
        let (most, count) = match dice.below(64) {
            0 => (LONG, 1 + dice.length(LONG)),
            1..=31 => (SHORT, dice.length(SHORT + 1)),
            _ => (SHORT, 1),
        };
        let state = self.chosen_state(dice);
        let calls = chosen_calls(dice, &state, count);
        let mut lent = Lent::new(dice, &state, &calls);
        if dice.one_in(if count > 1 { 2 } else { 8 }) {
            lent.misfit(dice, longest(most));
        }
        self.run(trial, &lent);
    }

    /// One call on an estimator, with ranges of the right lengths.
    pub fn one(&mut self, trial: &mut Trial, state: &RttState, call: &RttCall) {
        self.several(trial, state, &[*call]);
    }

    /// Several calls on it.
    pub fn several(&mut self, trial: &mut Trial, state: &RttState, calls: &[RttCall]) {
        let lent = Lent::new(&mut trial.dice, state, calls);
        self.run(trial, &lent);
    }

    /// Makes a run and checks it.
    pub fn run(&mut self, trial: &mut Trial, lent: &Lent) {
        let [longest_calls, longest_answers] = longest(SHORT);
        let is_short = lent.calls.len() <= longest_calls && lent.answers.len() <= longest_answers;
        let grounds = if is_short {
            &mut self.short
        } else {
            &mut self.long
        };
        let given = grounds.run(trial, lent);
        let (tally, rows) = (&mut trial.tally, lent.rows());
        tally.replied(Export::RttRun, &rows, given, || lent.tell());
        let lengths = [lent.state.len() as u64, lent.calls.len() as u64];
        tally.asked(Callee::RttRun, false, &Given::numbers(&lengths), &rows);
        if rows.due() != 0 {
            tally.estimated(&rows, &[]);
            return grounds.check_kept(tally, lent, 0, true);
        }
        let steps = estimator::steps(&lent.state, &lent.calls);
        tally.estimated(&rows, &steps);
        let stays = steps
            .iter()
            .all(|step| step.rows.due() != 0 && step.call[NUMBER] != calls::NEW);
        grounds.check_kept(tally, lent, steps.len() * RTT_ANSWER_BYTES, stays);
        if given == 0 {
            grounds.check_steps(tally, lent, &steps);
        }
        if let Some(last) = steps.last() {
            if estimator::stored_ok(&last.after) {
                self.carried = last.after;
            }
        }
    }

    /// The estimator carried on, a good one, or one with hostile words.
    fn chosen_state(&mut self, dice: &mut Dice) -> RttState {
        if self.left == 0 {
            self.left = CARRIED;
            self.carried = good_state(dice);
        }
        self.left -= 1;
        let kind = dice.below(16);
        let mut state = match kind {
            0..=6 => self.carried,
            7 => words::words(&dice.bytes(RTT_STATE_BYTES)),
            8 => [dice.pick(&[0, u64::MAX]); RTT_STATE_WORDS],
            _ => good_state(dice),
        };
        match kind {
            9..=12 => {
                for _ in 0..=dice.below(2) {
                    let at = dice.length(s::HAS_FIRST_RTT_SAMPLE);
                    state[at] = values::hostile(dice, LENGTH);
                }
            }
            13 => state[s::HAS_FIRST_RTT_SAMPLE] = values::flag(dice),
            7 if dice.one_in(2) => state[s::HAS_FIRST_RTT_SAMPLE] %= 2,
            _ => {}
        }
        state
    }
}

/// An estimator within all bounds: of any lengths, or of such as are near each other.
pub fn good_state(dice: &mut Dice) -> RttState {
    let about = values::within(dice, LENGTH);
    let near = dice.one_in(2);
    let mut state = [0; RTT_STATE_WORDS];
    for length in &mut state[..s::HAS_FIRST_RTT_SAMPLE] {
        *length = if near {
            about.saturating_add(dice.below(1_000)).min(LENGTH)
        } else {
            values::within(dice, LENGTH)
        };
    }
    state[s::HAS_FIRST_RTT_SAMPLE] = !dice.one_in(4) as u64;
    state
}

/// A call that is accepted if the estimator is good, with a sample where something turns. The words that
/// it does not name are any.
pub fn good_call(dice: &mut Dice, state: &RttState, number: u64) -> RttCall {
    let mut call = [0; 4].map(|_| dice.next());
    call[NUMBER] = number;
    match number {
        calls::NEW => {
            call[new::INITIAL_RTT] = values::within(dice, LENGTH);
            call[new::MAX_ACK_DELAY] = values::within(dice, LENGTH);
        }
        calls::UPDATE_RTT => {
            call[sample::ACK_DELAY] = good_delay(dice, state);
            call[sample::HANDSHAKE_CONFIRMED] = dice.below(2);
            call[sample::LATEST_RTT] = good_sample(dice, state, &call);
        }
        calls::UPDATE_MAX_ACK_DELAY => {
            call[limit::MAX_ACK_DELAY] = values::within(dice, LENGTH);
        }
        _ => {}
    }
    call
}

/// A length of time at most one away from a number.
fn near(dice: &mut Dice, number: u64) -> u64 {
    let above = number.saturating_add(dice.below(3));
    above.saturating_sub(1).min(LENGTH)
}

/// A delay: none, near its limit, or any.
fn good_delay(dice: &mut Dice, state: &RttState) -> u64 {
    match dice.below(8) {
        0 => 0,
        1..=3 => near(dice, state[s::MAX_ACK_DELAY]),
        4 => dice.below(64),
        _ => values::within(dice, LENGTH),
    }
}

/// A sample for this delay: near the least that is adjusted, the minimum or the smoothed one, or any.
fn good_sample(dice: &mut Dice, state: &RttState, call: &RttCall) -> u64 {
    let (minimum, delay) = (state[s::MIN_RTT], estimator::delay(state, call));
    match dice.below(16) {
        0..=4 => near(dice, minimum.saturating_add(delay)),
        5 => near(dice, minimum.saturating_add(call[sample::ACK_DELAY])),
        6 => near(dice, minimum),
        7 => near(dice, state[s::SMOOTHED_RTT]),
        8 => near(dice, state[s::SMOOTHED_RTT].saturating_add(delay)),
        9 => dice.below(64),
        10..=12 => minimum.saturating_add(dice.below(1 << 30)).min(LENGTH),
        _ => values::within(dice, LENGTH),
    }
}

/// Calls for a run, each for the estimator that the ones before it leave.
fn chosen_calls(dice: &mut Dice, state: &RttState, count: usize) -> Vec<RttCall> {
    let mut now = *state;
    let calls = (0..count).map(|_| {
        let call = chosen_call(dice, &now);
        now = Step::new(&now, &call).after;
        call
    });
    calls.collect()
}

/// A call, good or hostile. Where only a `new` can be done, there are more of them.
fn chosen_call(dice: &mut Dice, state: &RttState) -> RttCall {
    let number = match dice.below(16) {
        0 => calls::NEW,
        2..=5 if !estimator::stored_ok(state) => calls::NEW,
        1 => calls::UPDATE_MAX_ACK_DELAY,
        _ => calls::UPDATE_RTT,
    };
    let mut call = good_call(dice, state, number);
    if dice.one_in(if number == calls::NEW { 2 } else { 8 }) {
        flaw_call(dice, &mut call);
    }
    if dice.one_in(16) {
        spoil_call(dice, &mut call);
    }
    if dice.one_in(32) {
        call[NUMBER] = dice.pick(&NO_CALLS);
    }
    call
}

/// Gives a call one flaw or two, far past the ends of what is allowed, just past them, or just not past
/// them.
fn flaw_call(dice: &mut Dice, call: &mut RttCall) {
    let flaws = places::flaws(Callee::RttCall(call[NUMBER]));
    for _ in 0..=dice.below(2) {
        let flaw = dice.pick(&flaws);
        let to = edges::about(dice, &flaw, false);
        edges::set(&flaw, to, &mut [], call, &[]);
    }
}

/// Makes a word of a call hostile, whatever it is, or any number of them random.
fn spoil_call(dice: &mut Dice, call: &mut RttCall) {
    if dice.one_in(4) {
        let number = call[NUMBER];
        *call = words::words(&dice.bytes(RTT_CALL_BYTES));
        if dice.one_in(2) {
            call[NUMBER] = number;
        }
        return;
    }
    let at = dice.length(call.len());
    call[at] = if at < ARGUMENTS || at == sample::HANDSHAKE_CONFIRMED {
        values::flag(dice)
    } else {
        values::hostile(dice, LENGTH)
    };
}

#[cfg(test)]
mod tests {
    use super::*;

    /// What is chosen as good is accepted, and leaves an estimator that is.
    #[test]
    fn good_calls_on_good_estimators_are_accepted() {
        let mut dice = Dice::new(7);
        for _ in 0..10_000 {
            let mut now = good_state(&mut dice);
            assert!(estimator::encodes(&now) && estimator::stored_ok(&now));
            for number in calls::ALL {
                let step = Step::new(&now, &good_call(&mut dice, &now, number));
                assert_eq!(step.rows.reply(), 0, "{:?} on {:?}", step.call, now);
                assert!(estimator::stored_ok(&step.after), "{:?}", step.after);
                now = step.after;
            }
        }
    }
}
