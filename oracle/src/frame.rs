//! The frames in which a port is asked: little-endian words of 64 bits, see
//! README.md.

use std::io;
use std::io::ErrorKind;
use std::io::Read;
use std::io::Write;

use guovssalu_sys::table;

/// Calls in a frame.
pub const CALLS: usize = 100;

/// Numbers of the state that the port carries, and those of the record, which
/// is handed in with each call.
pub const CARRIED: usize = table::STATE_WORDS;
pub const RECORD: usize = table::EVENT_WORDS;

/// Words of a call and of its answer, with the state after it.
pub const CALL: usize = table::CALL_WORDS;
pub const ANSWER: usize = table::ANSWER_WORDS + CARRIED;

/// Words of a frame.
pub const REQUEST: usize = CARRIED + CALLS * CALL;
pub const ANSWERS: usize = CALLS * ANSWER;

/// The numbers of a start and of an event.
pub const START: u64 = table::call::START;
pub const EVENT: u64 = table::call::ON_CONGESTION_EVENT_START;

/// The numbers of calls that are not the model's: on a windowed filter, of
/// functions on numbers, of the exported run of a filter, of the exported
/// slope, of the exported run of an estimator, and of what puts numbers into the
/// state; that of the last but one, in a frame's first call, also has the answers
/// summed up.
pub const WINDOWED_FILTER: u64 = 46;
pub const NUMBERS: u64 = 47;
pub const FILTER_RUN: u64 = 48;
pub const SLOPE: u64 = 49;
pub const RTT_RUN: u64 = 50;
pub const SUMMED: u64 = 98;
pub const PUT: u64 = 99;

/// The most numbers that one call puts, after its number and their count.
pub const MOST_PUT: usize = (CALL - 2) / 2;

/// The bytes of the memory of which a part is lent to an exported call, all of
/// an answer but the reply and the number beside it, and the most bytes of pairs
/// that a run of a filter is given: one pair more than it has room for.
pub const MEMORY: usize = table::WORD_BYTES * (ANSWER - table::EVENT_IN_ANSWER);
pub const MOST_PAIRS: u64 = (table::PAIR_BYTES * (MEMORY / table::SAMPLES_BYTES + 1)) as u64;

/// The words of the state's memory of an estimator, one more than a state has, and
/// where they and the calls after them stand in a call. In an answer the state's
/// memory is followed by that of the answers.
pub const RTT_STATE: usize = table::RTT_STATE_WORDS + 1;
pub const RTT_STATE_IN_CALL: usize = 4;
pub const RTT_CALLS_IN_CALL: usize = RTT_STATE_IN_CALL + RTT_STATE;

/// The most bytes of state, of calls and of answers that a run of an estimator is
/// lent.
pub const MOST_RTT: [usize; 3] = [
    table::WORD_BYTES * RTT_STATE,
    table::WORD_BYTES * (CALL - RTT_CALLS_IN_CALL),
    MEMORY - table::WORD_BYTES * RTT_STATE,
];

/// A call: its number, its arguments, the record and the parameters.
pub type CallWords = [u64; CALL];

/// An answer: the reply, the answer itself, the record, the state.
pub type Answer = [u64; ANSWER];

/// A call that the port is asked: the state before it, its words, and the
/// answer that is expected.
pub struct Asked {
    pub before: [u64; CARRIED],
    pub words: CallWords,
    pub answer: Answer,
}

impl Asked {
    /// The call before this one that has the answers of the frame summed up:
    /// it puts nothing into the state.
    pub fn summed(&self) -> Asked {
        let mut answer = [0; ANSWER];
        answer[table::ANSWER_WORDS..].copy_from_slice(&self.before);
        Asked {
            before: self.before,
            words: bare_call(SUMMED, &[]),
            answer,
        }
    }
}

/// The sum of the words, and the sum of the sums so far; both wrap.
pub fn sums(words: &[u64]) -> [u64; 2] {
    words.iter().fold([0; 2], |[sum, total], &word| {
        let sum = sum.wrapping_add(word);
        [sum, total.wrapping_add(sum)]
    })
}

/// A frame that is being filled.
#[derive(Default)]
pub struct Frame {
    pub request: Vec<u64>,
    pub expected: Vec<Answer>,
}

impl Frame {
    pub fn add(&mut self, asked: &Asked) {
        if self.is_empty() {
            self.request = asked.before.to_vec();
        }
        self.request.extend(asked.words);
        self.expected.push(asked.answer);
    }

    pub fn is_empty(&self) -> bool {
        self.expected.is_empty()
    }

    pub fn is_full(&self) -> bool {
        self.expected.len() == CALLS
    }
}

/// The words of a call that has no record and no parameters.
pub fn bare_call(number: u64, arguments: &[u64]) -> CallWords {
    let mut words = [0; CALL];
    words[table::NUMBER_IN_CALL] = number;
    words[table::ARGUMENTS_IN_CALL..][..arguments.len()].copy_from_slice(arguments);
    words
}

/// The words of a call with these arguments.
pub fn call(number: u64, arguments: &[u64], record: &[u64], parameters: &[u64]) -> CallWords {
    let mut words = bare_call(number, arguments);
    words[table::EVENT_IN_CALL..][..RECORD].copy_from_slice(record);
    words[table::PARAMS_IN_CALL..].copy_from_slice(parameters);
    words
}

/// The bytes of these words.
pub fn bytes(words: &[u64]) -> Vec<u8> {
    words.iter().flat_map(|word| word.to_le_bytes()).collect()
}

/// The words in these bytes.
pub fn words(bytes: &[u8]) -> Vec<u64> {
    let words = bytes.chunks_exact(table::WORD_BYTES);
    words
        .map(|word| u64::from_le_bytes(word.try_into().unwrap()))
        .collect()
}

pub fn write(to: &mut impl Write, words: &[u64]) -> io::Result<()> {
    to.write_all(&bytes(words))?;
    to.flush()
}

/// The next `count` words, or none where the stream ends before them.
pub fn read(from: &mut impl Read, count: usize) -> io::Result<Option<Vec<u64>>> {
    let mut bytes = vec![0; count * table::WORD_BYTES];
    let first = loop {
        match from.read(&mut bytes) {
            Err(error) if error.kind() == ErrorKind::Interrupted => {}
            other => break other?,
        }
    };
    if first == 0 {
        return Ok(None);
    }
    from.read_exact(&mut bytes[first..])?;
    Ok(Some(words(&bytes)))
}
