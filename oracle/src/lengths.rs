//! Runs that the archive refuses as a whole: for the length of what it is lent, or
//! for a state that is none.

use guovssalu_sys::table::reply::OUT_OF_BOUNDS;
use guovssalu_sys::table::reply::SHORT_OUTPUT;
use guovssalu_sys::table::ANSWER_BYTES;
use guovssalu_sys::table::CALL_BYTES;
use guovssalu_sys::table::STATE_BYTES;

use crate::archive;
use crate::frame;
use crate::frame::CallWords;
use crate::frame::CARRIED;
use crate::model::field::LIMITED_IN_ROUND;
use crate::places::CALLS_LENGTH;
use crate::places::STATE_LENGTH;
use crate::replies;
use crate::values::Random;
use crate::wanted::Wanted;

/// What has to occur, each at least `LEAST` times in `MANY` runs.
const WANTED: [&str; 7] = [
    "a run: 1, and the calls' length is wrong, too",
    "a run: the state's length",
    "a run: the state's length, and the calls' is wrong, too",
    "a run: the state's length, and the answers are too short, too",
    "a run: the calls' length",
    "a run: the calls' length, and the answers are too short, too",
    "a run: 7",
];
const LEAST: u64 = 3;
const MANY: u64 = 300;

/// The bytes of a run.
struct Lent {
    state: Vec<u8>,
    calls: Vec<u8>,
    answers: Vec<u8>,
}

pub struct Lengths {
    random: Random,
    wanted: Wanted,
    /// How many runs there were.
    runs: u64,
}

impl Lengths {
    pub fn new(stream: u64) -> Self {
        Lengths {
            random: Random::new(stream),
            wanted: Wanted::new(&WANTED),
            runs: 0,
        }
    }

    /// Asks the archive a run that is refused as a whole, of this state and of calls
    /// of these words, with these lists and by the run that takes none; what
    /// differs, told.
    pub fn ask(
        &mut self,
        state: &[u64; CARRIED],
        call: &CallWords,
        lists: &[u64],
    ) -> Result<(), String> {
        let (lent, expected) = self.choose(state, call);
        self.look(&lent, expected);
        for lists in [None, Some(lists)] {
            let Lent {
                mut state,
                calls,
                mut answers,
            } = lent.copied();
            let got = archive::run_bytes(&mut state, &calls, lists, &mut answers);
            let kept = state == lent.state && answers == lent.answers;
            if got != expected || !kept {
                return Err(format!(
                    "a run with {} bytes of state, {} of calls and {} of answers, {}: \
                     expected {}, got {}, and the bytes are {}",
                    state.len(),
                    calls.len(),
                    answers.len(),
                    lists.map_or("without lists", |_| "with lists"),
                    replies::shown(expected),
                    replies::shown(got),
                    if kept { "kept" } else { "written to" },
                ));
            }
        }
        Ok(())
    }

    /// The bytes of such a run, and its reply.
    fn choose(&mut self, state: &[u64; CARRIED], call: &CallWords) -> (Lent, u64) {
        loop {
            let random = &mut self.random;
            let mut state = *state;
            let is_state = !random.one_in(3);
            if !is_state {
                state[LIMITED_IN_ROUND] = 2;
            }
            let mut state = frame::bytes(&state);
            if random.one_in(2) {
                let length = random.pick(&[0, 1, 400, 407, 409, 416, 2 * STATE_BYTES]);
                state.resize(length, 0);
            }
            let count = random.below(4) as usize;
            let mut calls = frame::bytes(call).repeat(count);
            if random.one_in(2) {
                let more = random.pick(&[1, 8, CALL_BYTES / 2, CALL_BYTES - 1]);
                calls.resize(calls.len() + more, 0);
            }
            let answers = match random.below(3) {
                0 => (count * ANSWER_BYTES).saturating_sub(1),
                1 => count * ANSWER_BYTES,
                _ => count * ANSWER_BYTES + 1,
            };
            let lent = Lent {
                state,
                calls,
                answers: vec![archive::UNTOUCHED as u8; answers],
            };
            let reply = lent.reply(is_state);
            if reply != 0 {
                return (lent, reply);
            }
        }
    }

    fn look(&mut self, lent: &Lent, reply: u64) {
        self.runs += 1;
        let state = reply == STATE_LENGTH.reply();
        let calls = reply == CALLS_LENGTH.reply();
        let (part, short) = (lent.has_part(), lent.is_short());
        for (what, holds) in [
            (
                "a run: 1, and the calls' length is wrong, too",
                reply == OUT_OF_BOUNDS && part,
            ),
            ("a run: the state's length", state && !part && !short),
            (
                "a run: the state's length, and the calls' is wrong, too",
                state && part,
            ),
            (
                "a run: the state's length, and the answers are too short, too",
                state && short,
            ),
            ("a run: the calls' length", calls && !short),
            (
                "a run: the calls' length, and the answers are too short, too",
                calls && short,
            ),
            ("a run: 7", reply == SHORT_OUTPUT),
        ] {
            self.wanted.mark(what, holds);
        }
    }

    pub fn tell(&self) {
        self.wanted.tell("");
    }

    /// Stops if something is missing though there were many runs.
    pub fn hold(&self) {
        if self.runs >= MANY {
            self.wanted.demand(LEAST);
        }
    }
}

impl Lent {
    fn copied(&self) -> Lent {
        Lent {
            state: self.state.clone(),
            calls: self.calls.clone(),
            answers: self.answers.clone(),
        }
    }

    /// Whether the calls have a part of one.
    fn has_part(&self) -> bool {
        let calls = self.calls.chunks_exact(CALL_BYTES);
        !calls.remainder().is_empty()
    }

    /// Whether the answers have too few bytes for the whole calls.
    fn is_short(&self) -> bool {
        self.answers.len() < self.calls.len() / CALL_BYTES * ANSWER_BYTES
    }

    /// The reply to the run, where its first words are those of a state or not: the
    /// lowest row that holds, and in row 2 the first argument; or 0.
    fn reply(&self, is_state: bool) -> u64 {
        if self.state.len() != STATE_BYTES {
            STATE_LENGTH.reply()
        } else if !is_state {
            OUT_OF_BOUNDS
        } else if self.has_part() {
            CALLS_LENGTH.reply()
        } else if self.is_short() {
            SHORT_OUTPUT
        } else {
            0
        }
    }
}
