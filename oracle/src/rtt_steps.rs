//! Chooses runs of the estimator: samples, delays and limits where an update turns,
//! lengths at their bounds and past them, states as nobody leaves them, and lengths
//! of memory at which a run is refused.

use guovssalu_sys::table::rtt_argument::new;
use guovssalu_sys::table::rtt_argument::update_max_ack_delay;
use guovssalu_sys::table::rtt_argument::update_rtt;
use guovssalu_sys::table::rtt_call;
use guovssalu_sys::table::rtt_state;
use guovssalu_sys::table::RTT_ANSWER_BYTES;
use guovssalu_sys::table::RTT_CALL_BYTES;
use guovssalu_sys::table::RTT_CALL_WORDS;
use guovssalu_sys::table::RTT_NUMBER_IN_CALL;
use guovssalu_sys::table::RTT_STATE_BYTES;
use guovssalu_sys::table::RTT_STATE_WORDS;
use guovssalu_sys::table::WORD_BYTES;

use crate::bounds::LENGTH;
use crate::estimator;
use crate::estimator::Call;
use crate::estimator::Estimator;
use crate::estimator::Lent;
use crate::frame::MOST_RTT;
use crate::frame::RTT_STATE;
use crate::rtt_counts::is_flag;
use crate::rtt_counts::ARGUMENTS;
use crate::rtt_counts::STORED;
use crate::steps;
use crate::values::Random;
use crate::world::Step;

/// The most calls of a run in a frame, and the bytes of answers that a run may be
/// lent beside those that are due.
const MOST_CALLS: u64 = (MOST_RTT[1] / RTT_CALL_BYTES) as u64;
const LEFT: usize = MOST_RTT[2] - MOST_RTT[1] / RTT_CALL_BYTES * RTT_ANSWER_BYTES;

/// The calls of a long connection, and among how many connections there is one.
const LONG: u64 = 12_000;
const AMONG: u64 = 400;

const BOUNDS: [u64; 4] = [0, 1, LENGTH - 1, LENGTH];

/// Words that are no flag, and numbers that are no call's.
const NO_FLAGS: [u64; 8] = [2, 2, 2, 3, 256, 257, 1 << 32, u64::MAX];
const NO_CALLS: [u64; 8] = [3, 4, 50, 255, 256, (1 << 32) + 1, 1 << 63, u64::MAX];

/// How the lengths of a connection are chosen.
#[derive(Clone, Copy)]
enum Manner {
    /// Any, often at their bounds.
    Any,
    /// A few nanoseconds, of which roundings take much.
    Few,
    /// As a connection has them, whose round trip is this.
    Near(u64),
}

/// An endless choice of runs, each on the estimator that the one before it left, or
/// on a new one.
pub struct RttSteps {
    random: Random,
    estimator: Estimator,
    manner: Manner,
    /// How many connections there were.
    connections: u64,
    /// Calls left on this one, whether it is a long one, and whether the next call
    /// begins it.
    left: u64,
    is_long: bool,
    begins: bool,
}

impl RttSteps {
    pub fn new(seed: u64) -> Self {
        RttSteps {
            random: Random::new(seed ^ (1 << 61)),
            estimator: [0; RTT_STATE_WORDS],
            manner: Manner::Any,
            connections: 0,
            left: 0,
            is_long: false,
            begins: false,
        }
    }

    /// A run that a frame has room for.
    pub fn next(&mut self) -> Step {
        let count = match self.random.one_in(6) {
            true => self.random.below(MOST_CALLS + 1),
            false => MOST_CALLS,
        };
        Step::RttRun(self.run(count))
    }

    /// A run of so many calls, or with a part of one more or less.
    pub fn run(&mut self, count: u64) -> Lent {
        if self.left == 0 {
            self.begin();
        }
        let (before, begins) = (self.estimator, self.begins);
        let mut calls = Vec::new();
        for _ in 0..count {
            let call = self.call();
            estimator::make(&mut self.estimator, &call);
            calls.extend(call);
        }
        let mut state = before.to_vec();
        state.resize(RTT_STATE, self.random.next());
        if self.random.one_in(12) {
            state[rtt_state::HAS_FIRST_RTT_SAMPLE] = self.random.pick(&NO_FLAGS);
        }
        let bytes = self.bytes(count as usize);
        calls.resize(bytes[1].div_ceil(WORD_BYTES), 0);
        let lent = Lent {
            state,
            calls,
            bytes,
        };
        match lent.reply() {
            0 => self.left = self.left.saturating_sub(count.max(1)),
            _ => (self.estimator, self.begins) = (before, begins),
        }
        lent
    }

    /// The bytes that are lent, mostly as many as it takes.
    fn bytes(&mut self, count: usize) -> [usize; 3] {
        let random = &mut self.random;
        let mut bytes = [
            RTT_STATE_BYTES,
            count * RTT_CALL_BYTES,
            count * RTT_ANSWER_BYTES,
        ];
        if !random.one_in(6) {
            return bytes;
        }
        let [state, calls, answers] = &mut bytes;
        if random.one_in(3) {
            *state = random.pick(&[0, 8, *state - 1, *state - 1, *state + 1, MOST_RTT[0]]);
        }
        if random.one_in(3) {
            let less = calls.saturating_sub(1);
            *calls = random.pick(&[less, less, *calls + 1, *calls + 1, *calls + 16]);
        }
        let less = answers.saturating_sub(1);
        *answers = random.pick(&[less, less, *answers, *answers + 1, *answers + LEFT, 0]);
        bytes
    }

    /// Begins a connection: by a call, or by a state that is restored.
    fn begin(&mut self) {
        let random = &mut self.random;
        self.connections += 1;
        self.is_long = self.connections % AMONG == AMONG / 4;
        self.begins = self.is_long || !random.one_in(3);
        let round_trip = random.of_length(28);
        self.manner = match random.below(3) {
            _ if self.is_long => Manner::Near((1 << 20) + round_trip),
            0 => Manner::Any,
            1 => Manner::Few,
            _ => Manner::Near(round_trip),
        };
        self.left = match self.is_long {
            true => LONG,
            false => 5 + random.below(60),
        };
        if !self.begins {
            self.restore();
        }
    }

    /// Takes a state that no call leaves, mostly; some are outside of their bounds,
    /// and the connection is short then.
    fn restore(&mut self) {
        for at in STORED {
            self.estimator[at] = self.length();
        }
        self.estimator[rtt_state::HAS_FIRST_RTT_SAMPLE] = self.random.below(2);
        let random = &mut self.random;
        let at = random.pick(&STORED);
        match random.below(6) {
            0 => self.estimator[at] = LENGTH,
            1 | 2 => {
                self.estimator[at] = steps::past(random, LENGTH);
                self.left = 1 + random.below(12);
            }
            _ => {}
        }
    }

    /// The next call: mostly an update. Where a stored length is out, only a `new` is
    /// done.
    fn call(&mut self) -> Call {
        let out = !estimator::is_within(&self.estimator);
        let number = match self.random.below(48) {
            _ if self.begins => rtt_call::NEW,
            0 | 1 => rtt_call::UPDATE_MAX_ACK_DELAY,
            2 => self.random.pick(&NO_CALLS),
            3 | 4 if !self.is_long => rtt_call::NEW,
            5..=9 if out => rtt_call::NEW,
            _ => rtt_call::UPDATE_RTT,
        };
        self.begins = false;
        let call = self.words(number);
        self.spoiled(call)
    }

    /// The words of a call of this number. What it doesn't name is anything.
    fn words(&mut self, number: u64) -> Call {
        let mut call = [0; RTT_CALL_WORDS];
        for word in &mut call {
            *word = self.random.pick(&[0, 2, LENGTH, LENGTH + 1, u64::MAX]);
        }
        call[RTT_NUMBER_IN_CALL] = number;
        match number {
            rtt_call::NEW => {
                call[new::INITIAL_RTT] = self.length();
                call[new::MAX_ACK_DELAY] = self.limit();
            }
            rtt_call::UPDATE_RTT => self.update(&mut call),
            rtt_call::UPDATE_MAX_ACK_DELAY => {
                call[update_max_ack_delay::MAX_ACK_DELAY] = self.limit()
            }
            _ => {}
        }
        call
    }

    /// Puts something out of bounds into some calls, up to all arguments, and
    /// something at its bounds into others.
    fn spoiled(&mut self, mut call: Call) -> Call {
        let number = call[RTT_NUMBER_IN_CALL];
        let arguments = ARGUMENTS.get(number as usize).copied().unwrap_or(&[]);
        let random = &mut self.random;
        match random.below(24) {
            0 | 1 => {
                let others = random.one_in(2);
                let first = random.below(arguments.len().max(1) as u64) as usize;
                for (at, &word) in arguments.iter().enumerate() {
                    if at == first || others && random.one_in(2) {
                        call[word] = match is_flag(number, word) {
                            true => random.pick(&NO_FLAGS),
                            false => steps::past(random, LENGTH),
                        };
                    }
                }
            }
            2 if !self.is_long && !arguments.is_empty() => {
                let word = random.pick(arguments);
                if !is_flag(number, word) {
                    call[word] = random.pick(&BOUNDS);
                }
            }
            _ => {}
        }
        call
    }

    /// The arguments of an update: the delay often at the limit, and the sample at
    /// the minimum and the delay, or beside them.
    fn update(&mut self, call: &mut Call) {
        let minimum = self.estimator[rtt_state::MIN_RTT];
        let limit = self.estimator[rtt_state::MAX_ACK_DELAY];
        let confirmed = self.random.below(2);
        let delay = match self.random.below(8) {
            0 => limit,
            1 => limit.saturating_add(1),
            2 => limit.saturating_sub(1),
            3 => 0,
            _ => self.delay(),
        };
        let counted = match confirmed {
            1 => delay.min(limit),
            _ => delay,
        };
        let least = minimum.saturating_add(counted);
        let latest = match self.random.below(32) {
            0..=4 => least,
            5..=8 => least.saturating_add(1),
            9..=12 => least.saturating_sub(1),
            13 | 14 => minimum.saturating_add(delay),
            15 => minimum,
            16 if !self.is_long => minimum.saturating_sub(1),
            // The adjusted sample is the smoothed one.
            17 | 18 => self.estimator[rtt_state::SMOOTHED_RTT].saturating_add(counted),
            _ => self.sample(),
        };
        call[update_rtt::LATEST_RTT] = match latest > LENGTH {
            true => self.sample(),
            false => latest,
        };
        call[update_rtt::ACK_DELAY] = delay;
        call[update_rtt::HANDSHAKE_CONFIRMED] = confirmed;
    }

    /// A sample of this connection; one in a while is lower than the others.
    fn sample(&mut self) -> u64 {
        let random = &mut self.random;
        match self.manner {
            Manner::Near(round_trip) if random.one_in(1000) => {
                round_trip - random.below(1 + round_trip / 8)
            }
            Manner::Near(round_trip) => {
                let longer = random.pick(&[8, 4, 4, 1]);
                round_trip + random.below(1 + round_trip / longer)
            }
            _ => self.length(),
        }
    }

    /// A delay that the peer reports.
    fn delay(&mut self) -> u64 {
        match self.manner {
            Manner::Near(round_trip) => self.random.below(1 + round_trip / 2),
            _ => self.length(),
        }
    }

    /// The largest delay that the peer announces.
    fn limit(&mut self) -> u64 {
        match self.manner {
            Manner::Near(_) if self.random.one_in(4) => 25_000_000,
            Manner::Near(round_trip) => self.random.below(1 + round_trip / 4),
            _ => self.length(),
        }
    }

    /// A length of time.
    fn length(&mut self) -> u64 {
        let random = &mut self.random;
        match self.manner {
            Manner::Any if random.one_in(8) => random.pick(&BOUNDS),
            Manner::Any => random.of_length(36),
            Manner::Few => random.below(64),
            Manner::Near(round_trip) => random.below(1 + 2 * round_trip),
        }
    }
}
