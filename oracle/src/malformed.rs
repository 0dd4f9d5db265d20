//! Steps as `Steps` chooses them, and between them calls that are refused for
//! their words: arguments at fault, one or several at once, malformed parameters,
//! and numbers that are no call's.

use guovssalu_sys::table::call;
use guovssalu_sys::table::params;
use guovssalu_sys::table::ARGUMENTS_IN_CALL;
use guovssalu_sys::table::NUMBER_IN_CALL;
use guovssalu_sys::table::PARAMS_IN_CALL;
use guovssalu_sys::table::UNSET;

use crate::bounds::BYTES;
use crate::bounds::LENGTH;
use crate::bounds::MOMENT;
use crate::calls::Calls;
use crate::frame;
use crate::frame::CallWords;
use crate::frame::CARRIED;
use crate::frame::START;
use crate::model::field::MIN_RTT_TIMESTAMP;
use crate::model::Call;
use crate::places;
use crate::places::Field;
use crate::places::Held;
use crate::replies;
use crate::steps;
use crate::steps::Steps;
use crate::values::Random;
use crate::world::Step;
use crate::world::World;

/// The words of the parameters that can be malformed.
const PARAMETERS: [Field; 7] = [
    (PARAMS_IN_CALL + params::BETA, Held::Gain),
    (PARAMS_IN_CALL + params::LOSS_THRESHOLD, Held::Gain),
    (PARAMS_IN_CALL + params::INFLIGHT_HI_HEADROOM, Held::Gain),
    (PARAMS_IN_CALL + params::FULL_BW_THRESHOLD, Held::Gain),
    (PARAMS_IN_CALL + params::STARTUP_CWND_GAIN, Held::Gain),
    (PARAMS_IN_CALL + params::STARTUP_PACING_GAIN, Held::Gain),
    (
        PARAMS_IN_CALL + params::IGNORE_APP_LIMITED_FOR_NO_BANDWIDTH_GROWTH,
        Held::Flag,
    ),
];

/// Numbers that are no call's, and not one of the frames' own: by hand.
const NO_CALLS: [u64; 10] = [
    2,
    39,
    51,
    97,
    255,
    (1 << 8) + 1,
    (1 << 32) + 1,
    (1 << 32) + 3,
    1 << 63,
    u64::MAX,
];

/// An endless run of steps on a model and its cycle. Those of `Steps` are the
/// same as without the others: these leave the state, or come before a start.
pub struct Mixed {
    steps: Steps,
    random: Random,
    calls: Calls,
    /// The calls but for a start, each as often as it has fields to be named, and
    /// once more where it takes the parameters.
    numbers: Vec<u64>,
}

impl Mixed {
    pub fn new(seed: u64) -> Self {
        // Streams apart from those of the other steps.
        let mut seeds = Random::new(seed ^ (3 << 61));
        let calls = call::ALL.into_iter().filter(|number| *number != START);
        let numbers = calls.flat_map(|number| {
            let parameters = call::TAKE_PARAMS.contains(&number) as usize;
            vec![number; fields(number).len() + parameters]
        });
        Mixed {
            steps: Steps::new(seed),
            random: Random::new(seeds.next()),
            calls: Calls::new(seeds.next()),
            numbers: numbers.collect(),
        }
    }

    /// The step to be taken in this world.
    pub fn next(&mut self, world: &World) -> Step {
        if self.random.one_in(12) {
            if let Some(step) = self.refused(world) {
                return step;
            }
        }
        self.steps.next(world)
    }

    /// A call that is refused, mostly.
    fn refused(&mut self, world: &World) -> Option<Step> {
        // Where a moment can be postponed past its bound, sometimes that, also by
        // a length that is itself out.
        let left = MOMENT.checked_sub(world.state[MIN_RTT_TIMESTAMP]);
        let left = left.filter(|left| *left < LENGTH && self.random.one_in(3));
        if let Some(left) = left {
            let length = match self.random.one_in(2) {
                true => steps::past(&mut self.random, LENGTH),
                false => left + 1 + self.random.below(LENGTH - left),
            };
            return Some(Step::Call(Call::PostponeMinRtt(length)));
        }
        let words = self.words(world);
        let reply = replies::to_words(&words, 0, &world.state);
        reply.map(|_| Step::Words(words.to_vec()))
    }

    /// The words of a call, mostly such as are refused.
    fn words(&mut self, world: &World) -> CallWords {
        let number = match self.steps.at_end() {
            true => START,
            false => self.random.pick(&self.numbers),
        };
        let state = steps::within(&world.state);
        let numbers = match number {
            START => vec![START, self.random.below(1000), self.random.of_length(36)],
            _ => self.calls.make(number, &state).numbers(),
        };
        let record = &world.state[CARRIED..];
        let parameters = world.start.parameters();
        let arguments = &numbers[ARGUMENTS_IN_CALL..];
        let mut words = frame::call(number, arguments, record, &parameters);
        let fields = fields(number);
        match self.random.below(6) {
            0 => words[NUMBER_IN_CALL] = self.random.pick(&NO_CALLS),
            1 if call::TAKE_PARAMS.contains(&number) => {
                let parameter = self.random.pick(&PARAMETERS);
                self.malform(&mut words, parameter);
            }
            _ if fields.is_empty() => {}
            _ => {
                for _ in 0..self.random.pick(&[1, 1, 1, 2, 2, 2, 3, 4]) {
                    let field = self.random.pick(&fields);
                    self.spoil(&mut words, field);
                }
            }
        }
        // Something else that is refused, or something that the call doesn't use.
        if self.random.one_in(8) {
            let after = words.len() - ARGUMENTS_IN_CALL;
            let at = ARGUMENTS_IN_CALL + self.random.below(after as u64) as usize;
            words[at] = self.random.pick(&[0, 2, 1 << 32, (1 << 62) + 1, u64::MAX]);
        }
        words
    }

    /// Puts something out of bounds into a field, or something malformed.
    fn spoil(&mut self, words: &mut CallWords, field: Field) {
        let random = &mut self.random;
        let (at, held) = field;
        match held {
            Held::UpTo(most, _) => words[at] = steps::past(random, most),
            Held::Bound => words[at] = steps::past(random, BYTES).min(UNSET - 1),
            Held::Gain if random.one_in(2) => words[at] = steps::no_float(random) as u64,
            Held::Pair(most, _) if random.one_in(2) => {
                (words[at], words[at + 1]) = (1, steps::past(random, most));
            }
            _ => self.malform(words, field),
        }
    }

    /// Puts words into a field that nobody writes.
    fn malform(&mut self, words: &mut CallWords, (at, held): Field) {
        let random = &mut self.random;
        match held {
            Held::UpTo(..) | Held::Bound => {}
            Held::Flag => words[at] = random.pick(&[2, 3, 255, 256, 257, 1 << 32, u64::MAX]),
            Held::Acked => {
                words[at] = random.pick(&[4, 5, 6, 7, 8, 1 << 32, u64::MAX - 3, u64::MAX])
            }
            Held::Gain => {
                if random.one_in(3) {
                    words[at] = steps::no_float(random) as u64;
                }
                words[at] |= 1 << (32 + random.below(32));
            }
            Held::Pair(most, _) => {
                let pairs = [
                    (0, 1),
                    (0, u64::MAX),
                    (2, 0),
                    (2, 5),
                    (2, most + 1),
                    (257, 5),
                    (1 << 32, 0),
                ];
                (words[at], words[at + 1]) = random.pick(&pairs);
            }
        }
    }
}

/// The fields of a call that can be named.
fn fields(number: u64) -> Vec<Field> {
    places::fields(number).map(|(_, field)| field).collect()
}
