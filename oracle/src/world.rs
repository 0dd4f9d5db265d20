//! The original with its state, and its answers in the words of a frame. What
//! the table of refusals turns away isn't asked of it.

use guovssalu_sys::table::reason;
use guovssalu_sys::table::reply;
use guovssalu_sys::table::ANSWER_WORDS;
use guovssalu_sys::table::EVENT_IN_ANSWER;
use guovssalu_sys::table::EVENT_IN_CALL;
use guovssalu_sys::table::NUMBER_IN_CALL;
use guovssalu_sys::table::PARAMS_IN_CALL;
use guovssalu_sys::table::REPLY_IN_ANSWER;
use guovssalu_sys::table::SLOPE_BYTES;
use guovssalu_sys::table::VALUE_IN_ANSWER;

use crate::bounds::BYTES;
use crate::bounds::UP_ROUNDS;
use crate::estimator::Lent;
use crate::frame;
use crate::frame::Answer;
use crate::frame::Asked;
use crate::frame::CallWords;
use crate::frame::CARRIED;
use crate::frame::EVENT;
use crate::frame::FILTER_RUN;
use crate::frame::MEMORY;
use crate::frame::MOST_PUT;
use crate::frame::NUMBERS;
use crate::frame::PUT;
use crate::frame::RTT_RUN;
use crate::frame::SLOPE;
use crate::frame::START;
use crate::frame::WINDOWED_FILTER;
use crate::model::field::CWND_GAIN;
use crate::model::field::PACING_GAIN;
use crate::model::field::PROBE_UP_BYTES;
use crate::model::field::PROBE_UP_ROUNDS;
use crate::model::Call;
use crate::model::Record;
use crate::model::Sample;
use crate::model::Start;
use crate::model::State;
use crate::model::FIELDS;
use crate::named::Named;
use crate::places;
use crate::reasons::Tally;
use crate::recovery::gcongestion::Host;
use crate::replies;
use crate::rtt_counts::RttCounts;
use crate::scalars;
use crate::unsent::Unsent;
use crate::windowed;
use crate::windowed::Filter;

/// What each byte of the memory of an exported call is before the call.
const UNTOUCHED: u8 = 165;

/// What is done to the original and to the port.
#[derive(Clone, Debug)]
pub enum Step {
    /// A call, or what sets the record.
    Call(Call),
    /// A call that is refused for its words, which are these: in every state.
    Words(Vec<u64>),
    /// Puts numbers into the state and, from its length on, the parameters.
    Put(Vec<(usize, u64)>),
    /// An operation on the windowed filter, as in its list.
    Filter { op: u64, x: u64, y: u64 },
    /// A function on neighbours, from the first on.
    Numbers {
        function: u64,
        first: u64,
        other: u64,
    },
    /// The exported run of a filter over the first `length` bytes of these
    /// words, with `lent` bytes of output.
    FilterRun {
        window: u64,
        length: u64,
        lent: u64,
        words: Vec<u64>,
    },
    /// The exported slope, with `lent` bytes of output.
    Slope { rounds: u64, window: u64, lent: u64 },
    /// The exported run of an estimator.
    RttRun(Lent),
}

/// Fills up a frame.
pub const FILLER: Step = Step::Call(Call::Bdp0);

pub struct World {
    host: Host,
    pub state: State,
    /// The last start, refused or not: it holds the parameters.
    pub start: Start,
    pub filter: Filter,
    /// The accepted updates of filters so far; of runs, those that were done.
    pub tally: Tally,
    /// What the events so far show of numbers that were never sent.
    pub unsent: Unsent,
    /// What the refusals with 2 so far have named.
    pub named: Named,
    /// What the runs of the estimator so far show.
    pub rtt: RttCounts,
}

impl World {
    /// A state of zeros, the original's own parameters, an empty filter.
    pub fn new() -> Self {
        let usual = Host::usual_start();
        let mut world = World {
            host: Host::new(&usual),
            state: [0; FIELDS],
            start: usual,
            filter: [0; 8],
            tally: Tally::default(),
            unsent: Unsent::new(),
            named: Named::new(),
            rtt: RttCounts::new(),
        };
        world.host.put(&world.state, &usual);
        world
    }

    /// Takes the step; the calls in which the port is asked it.
    pub fn step(&mut self, step: &Step) -> Vec<Asked> {
        if let Step::Put(numbers) = step {
            return self.put(numbers);
        }
        let before = self.carried();
        let words = self.words(step);
        let answer = self.answer_to(step);
        let asked = |words| Asked {
            before,
            words,
            answer,
        };
        words.map(asked).into_iter().collect()
    }

    /// The words in which the port is asked the step, if it is.
    fn words(&self, step: &Step) -> Option<CallWords> {
        let words = |number: u64, arguments: &[u64]| {
            let parameters = self.start.parameters();
            frame::call(number, arguments, &self.state[CARRIED..], &parameters)
        };
        match step {
            Step::Put(_) | Step::Call(Call::Record(_)) => None,
            Step::Call(call @ Call::Start(start)) => {
                Some(places::words_of(call, &self.state, start))
            }
            Step::Call(call) => Some(places::words_of(call, &self.state, &self.start)),
            Step::Words(words) => words[..].try_into().ok(),
            Step::Filter { op, x, y } => {
                let arguments = [&[*op, *x, *y], &self.filter[..]].concat();
                Some(words(WINDOWED_FILTER, &arguments))
            }
            Step::Numbers {
                function,
                first,
                other,
            } => Some(words(NUMBERS, &[*function, *first, *other])),
            Step::FilterRun {
                window,
                length,
                lent,
                words,
            } => {
                let arguments = [&[*window, *length, *lent], &words[..]].concat();
                Some(frame::bare_call(FILTER_RUN, &arguments))
            }
            Step::Slope {
                rounds,
                window,
                lent,
            } => Some(frame::bare_call(SLOPE, &[*rounds, *window, *lent])),
            Step::RttRun(lent) => {
                let bytes = lent.bytes.map(|bytes| bytes as u64);
                let arguments = [&bytes[..], &lent.state, &lent.calls].concat();
                Some(frame::bare_call(RTT_RUN, &arguments))
            }
        }
    }

    /// Takes the step, which puts no numbers; the words of the answer.
    pub fn answer_to(&mut self, step: &Step) -> Answer {
        match step {
            Step::Call(call) => self.call(call),
            Step::Words(words) => self.refused(words, 0),
            Step::Put(_) => unreachable!("numbers are put apart"),
            Step::Filter { op: 2, x, y } => {
                let updated = windowed::update(&mut self.filter, *x, *y);
                self.tally.add(&updated);
                let (reply, reason) = match updated {
                    Some(updated) => (0, updated.reason),
                    None => (reply::EARLIER_MOMENT, reason::UNCHANGED),
                };
                self.answer(reply, reason, &self.filter)
            }
            Step::Filter { op, x, y } => {
                windowed::operate(&mut self.filter, *op, *x, *y);
                self.answer(0, 0, &self.filter)
            }
            Step::Numbers {
                function,
                first,
                other,
            } => {
                let mut words = [0; frame::ANSWER];
                for (place, word) in (0..scalars::RUN).zip(&mut words[EVENT_IN_ANSWER..]) {
                    *word = scalars::answer(*function, first + place, *other);
                }
                words
            }
            Step::FilterRun {
                window,
                length,
                lent,
                words,
            } => {
                let pairs = &frame::bytes(words)[..*length as usize];
                let (reply, words, updates) = windowed::run(*window, pairs, *lent as usize);
                self.tally.add(&updates);
                self.named.look_at_filter_run(reply);
                memory(reply, &words)
            }
            Step::Slope {
                rounds,
                window,
                lent,
            } => {
                let (reply, numbers) = slope(*rounds, *window, *lent);
                self.named.look_at_slope(*window, reply);
                memory(reply, &numbers)
            }
            Step::RttRun(lent) => {
                let ran = lent.run();
                self.rtt.look(lent, &ran);
                memory(ran.reply, &[ran.state.clone(), ran.answers()].concat())
            }
        }
    }

    fn call(&mut self, call: &Call) -> Answer {
        if let Call::Event(sample) = call {
            return self.event(sample, sample.acked());
        }
        if let Call::Start(start) = call {
            self.start = *start;
        }
        let reply = replies::reply(call, &self.state, &self.start);
        self.look(call, &[], reply);
        let mut answer = 0;
        if reply == 0 {
            answer = self.host.call(call);
            self.state = self.host.state();
        } else if let Call::Start(_) = call {
            self.start_refused();
        }
        self.answer(reply, answer, &[])
    }

    /// Takes an event with these acked numbers, of which there may be more than
    /// a call has room for; the words of the answer.
    pub fn event(&mut self, sample: &Sample, acked: &[u64]) -> Answer {
        let call = Call::Event(*sample);
        let reply = replies::reply_with(&call, acked, &self.state, &self.start);
        self.look(&call, acked, reply);
        if reply == 0 {
            self.host.event_of(sample, acked);
            self.state = self.host.state();
        }
        self.answer(reply, 0, &self.state[CARRIED..])
    }

    /// Takes a call that is refused for its words, in a run that is lent lists of
    /// so many words. The record comes back as it is, and the parameters of the
    /// next calls are still those of the start.
    pub fn refused(&mut self, words: &[u64], lists: usize) -> Answer {
        let reply = replies::to_words(words, lists, &self.state);
        let reply = reply.expect("the call isn't refused for its words");
        self.named.look(words, lists, &self.state, reply);
        match words[NUMBER_IN_CALL] {
            START => {
                let World {
                    state,
                    start,
                    unsent,
                    ..
                } = self;
                let refused = Call::Start(replies::REFUSED_START);
                unsent.look(&refused, &[], state, start, reply);
                self.start_refused();
                self.answer(reply, 0, &[])
            }
            EVENT => self.answer(reply, 0, &words[EVENT_IN_CALL..PARAMS_IN_CALL]),
            _ => self.answer(reply, 0, &[]),
        }
    }

    /// Counts a call that is given this reply, before it is made.
    fn look(&mut self, call: &Call, acked: &[u64], reply: u64) {
        let World {
            state,
            start,
            unsent,
            named,
            ..
        } = self;
        unsent.look(call, acked, state, start, reply);
        named.look(&places::words_of(call, state, start), 0, state, reply);
    }

    /// Leaves what a refused start does.
    fn start_refused(&mut self) {
        self.host.call(&Call::Start(replies::REFUSED_START));
        self.state = self.host.state();
        self.host.put(&self.state, &self.start);
    }

    /// Puts the numbers into the state and the parameters; the calls in which
    /// the port is told those of its state that change.
    fn put(&mut self, numbers: &[(usize, u64)]) -> Vec<Asked> {
        let before = self.carried();
        let mut parameters = self.start.parameters();
        for &(index, number) in numbers {
            match index {
                0..FIELDS => self.state[index] = written(index, number),
                _ => parameters[index - FIELDS] = number,
            }
        }
        self.start = self.start.with_parameters(&parameters);
        self.host.put(&self.state, &self.start);
        self.state = self.host.state();
        self.unsent.forget();

        let after = self.carried();
        let changed = (0..CARRIED).filter(|&index| before[index] != after[index]);
        let changed: Vec<u64> = changed.flat_map(|it| [it as u64, after[it]]).collect();
        self.carry(&before);
        let parts = changed.chunks(2 * MOST_PUT);
        parts.map(|part| self.put_part(part)).collect()
    }

    /// Puts words into the state, as one call.
    fn put_part(&mut self, pairs: &[u64]) -> Asked {
        let arguments = [&[pairs.len() as u64 / 2], pairs].concat();
        Asked {
            before: self.carried(),
            words: frame::bare_call(PUT, &arguments),
            answer: self.overwrite(pairs),
        }
    }

    /// Puts words into the state as they are, index and word by turns; the
    /// words of the answer.
    pub fn overwrite(&mut self, pairs: &[u64]) -> Answer {
        for pair in pairs.chunks_exact(2) {
            if let Some(place) = self.state[..CARRIED].get_mut(pair[0] as usize) {
                *place = pair[1];
            }
        }
        self.host.put(&self.state, &self.start);
        self.answer(0, 0, &[])
    }

    /// The words of the state that the port carries.
    fn carried(&self) -> [u64; CARRIED] {
        self.state[..CARRIED].try_into().unwrap()
    }

    /// Takes the words of a frame's state.
    pub fn carry(&mut self, state: &[u64]) {
        self.state[..CARRIED].copy_from_slice(state);
        self.host.put(&self.state, &self.start);
    }

    /// Takes the record and the parameters that are handed in with a call.
    pub fn hand_in(&mut self, record: &[u64], parameters: &[u64]) {
        if self.start.parameters() != parameters {
            self.start = self.start.with_parameters(parameters);
            self.host.put(&self.state, &self.start);
        }
        if self.state[CARRIED..] != *record {
            self.host.call(&Call::Record(Record::of(record)));
            self.state[CARRIED..].copy_from_slice(record);
        }
    }

    fn answer(&self, reply: u64, answer: u64, record: &[u64]) -> Answer {
        let mut words = [0; frame::ANSWER];
        words[REPLY_IN_ANSWER] = reply;
        words[VALUE_IN_ANSWER] = answer;
        words[EVENT_IN_ANSWER..][..record.len()].copy_from_slice(record);
        words[ANSWER_WORDS..].copy_from_slice(&self.state[..CARRIED]);
        words
    }
}

/// An answer that shows the memory, of which a part was lent: these numbers
/// were written, and all else is untouched.
fn memory(reply: u64, written: &[u64]) -> Answer {
    let mut memory = frame::bytes(written);
    memory.resize(MEMORY, UNTOUCHED);
    let mut words = [0; frame::ANSWER];
    words[REPLY_IN_ANSWER] = reply;
    words[EVENT_IN_ANSWER..].copy_from_slice(&frame::words(&memory));
    words
}

/// The reply to the exported slope, and what it writes: the rounds and the
/// bytes that the original's cycle has after it.
fn slope(rounds: u64, window: u64, lent: u64) -> (u64, Vec<u64>) {
    let none = |reply| (reply, Vec::new());
    if rounds > UP_ROUNDS {
        return none(reply::OUT_OF_BOUNDS);
    }
    if window > BYTES {
        return none(places::SLOPE_WINDOW.reply());
    }
    if lent < SLOPE_BYTES as u64 {
        return none(reply::SHORT_OUTPUT);
    }
    let mut host = Host::new(&Host::usual_start());
    host.call(&Call::ProbeRefill { rounds, moment: 0 });
    host.call(&Call::RaiseSlope { cwnd: window });
    let state = host.state();
    (0, vec![state[PROBE_UP_ROUNDS], state[PROBE_UP_BYTES]])
}

/// What stands in the state where this number is put: a NaN has one pattern
/// there.
fn written(index: usize, number: u64) -> u64 {
    let is_gain = [CWND_GAIN, PACING_GAIN].contains(&index);
    match is_gain && f32::from_bits(number as u32).is_nan() {
        true => 0x7fc0_0000,
        false => number,
    }
}
