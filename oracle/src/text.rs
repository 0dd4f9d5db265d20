//! Steps as text, one a line, and the names of calls and fields.

use guovssalu_sys::table::argument;
use guovssalu_sys::table::call;
use guovssalu_sys::table::event;
use guovssalu_sys::table::rtt_answer;
use guovssalu_sys::table::rtt_state;
use guovssalu_sys::table::state;
use guovssalu_sys::table::ANSWER_WORDS;
use guovssalu_sys::table::CALL_WORDS;
use guovssalu_sys::table::EVENT_IN_ANSWER;
use guovssalu_sys::table::EVENT_WORDS;
use guovssalu_sys::table::PARAMS_WORDS;
use guovssalu_sys::table::REPLY_IN_ANSWER;
use guovssalu_sys::table::RTT_ANSWER_WORDS;
use guovssalu_sys::table::STATE_WORDS;
use guovssalu_sys::table::VALUE_IN_ANSWER;
use guovssalu_sys::table::WORD_BYTES;

use crate::estimator::Lent;
use crate::frame::FILTER_RUN;
use crate::frame::MEMORY;
use crate::frame::MOST_PAIRS;
use crate::frame::MOST_RTT;
use crate::frame::NUMBERS;
use crate::frame::PUT;
use crate::frame::RTT_RUN;
use crate::frame::RTT_STATE;
use crate::frame::SLOPE;
use crate::frame::START;
use crate::frame::WINDOWED_FILTER;
use crate::model::Call;
use crate::model::Record;
use crate::model::FIELDS;
use crate::model::SET_RECORD;
use crate::recovery::gcongestion::Host;
use crate::replies;
use crate::scalars;
use crate::world::Step;

/// The word after those that answer functions on numbers.
const NUMBERS_END: usize = EVENT_IN_ANSWER + scalars::RUN as usize;

/// The number, no call's, of the step that makes a call of any words.
const WORDS: u64 = 97;

/// The word of an answer after the memory of an estimator's state.
const RTT_ANSWERS: usize = EVENT_IN_ANSWER + RTT_STATE;

/// The steps that are no call of the model: number, name, and how many
/// arguments. What puts numbers has any even number; a run of a filter also has
/// the words of its pairs, and one of an estimator those of its calls.
const OTHERS: [(u64, &str, usize); 8] = [
    (SET_RECORD, "record", EVENT_WORDS),
    (WINDOWED_FILTER, "windowed_filter", 3),
    (NUMBERS, "numbers", 3),
    (FILTER_RUN, "filter_run", 3),
    (SLOPE, "slope", 3),
    (RTT_RUN, "rtt_run", 3 + RTT_STATE),
    (WORDS, "words", CALL_WORDS),
    (PUT, "put", 0),
];

/// The number of each call, its name, and how many arguments it has. A start
/// also has the parameters; it may have its two alone.
fn calls() -> impl Iterator<Item = (u64, &'static str, usize)> {
    let calls = call::ALL.into_iter().zip(call::NAMES).zip(call::GIVEN);
    let calls = calls.map(|((number, name), given)| match number {
        START => (number, name, given + PARAMS_WORDS),
        _ => (number, name, given),
    });
    calls.chain(OTHERS)
}

/// The name of a field of the state.
fn field(at: usize) -> String {
    match at.checked_sub(STATE_WORDS) {
        None => format!("field {at}, {}", state::NAMES[at]),
        Some(of_event) => format!("field {at}, {} of the event", event::NAMES[of_event]),
    }
}

const FILTER: [&str; 8] = [
    "window",
    "full",
    "best",
    "time of best",
    "second",
    "time of second",
    "third",
    "time of third",
];

/// The numbers of all calls that the port is asked.
pub fn asked() -> impl Iterator<Item = u64> {
    let numbers = calls().map(|call| call.0);
    numbers.filter(|number| ![SET_RECORD, WORDS].contains(number))
}

/// What the word of an answer to this step is.
pub fn word(step: &Step, word: usize) -> String {
    match (step, word) {
        (_, REPLY_IN_ANSWER) => "reply".to_string(),
        (Step::Filter { .. }, VALUE_IN_ANSWER) => "reason".to_string(),
        (_, VALUE_IN_ANSWER) => "answer".to_string(),
        (Step::Filter { .. }, EVENT_IN_ANSWER..10) => FILTER[word - EVENT_IN_ANSWER].to_string(),
        (
            Step::Numbers {
                function, first, ..
            },
            EVENT_IN_ANSWER..NUMBERS_END,
        ) => {
            let number = first + (word - EVENT_IN_ANSWER) as u64;
            format!("{} of {number}", scalars::NAMES[*function as usize])
        }
        (Step::FilterRun { .. } | Step::Slope { .. }, _) => {
            format!(
                "output from byte {} on",
                WORD_BYTES * (word - EVENT_IN_ANSWER)
            )
        }
        (Step::RttRun(_), EVENT_IN_ANSWER..RTT_ANSWERS) => {
            let name = rtt_state::NAMES.get(word - EVENT_IN_ANSWER);
            format!("state, {}", name.unwrap_or(&"after its words"))
        }
        (Step::RttRun(_), _) => {
            let word = word - RTT_ANSWERS;
            let name = rtt_answer::NAMES[word % RTT_ANSWER_WORDS];
            format!("answer to its call {}, {name}", 1 + word / RTT_ANSWER_WORDS)
        }
        (_, EVENT_IN_ANSWER..ANSWER_WORDS) => field(STATE_WORDS + word - EVENT_IN_ANSWER),
        _ => field(word - ANSWER_WORDS),
    }
}

/// A number in the word of an answer, as it is read.
pub fn shown(word: usize, number: u64) -> String {
    match word {
        REPLY_IN_ANSWER => replies::shown(number),
        _ => number.to_string(),
    }
}

/// The name of the step's call.
pub fn name(step: &Step) -> &'static str {
    let number = numbers(step)[0];
    let named = calls().find(|call| call.0 == number);
    named.unwrap().1
}

/// The line of a step.
pub fn line(step: &Step) -> String {
    let mut line = name(step).to_string();
    for number in &numbers(step)[1..] {
        line.push_str(&format!(" {number}"));
    }
    line
}

/// The number of the step's call, then all its arguments.
fn numbers(step: &Step) -> Vec<u64> {
    match step {
        Step::Call(call @ Call::Start(start)) => {
            [&call.numbers()[..], &start.parameters()].concat()
        }
        Step::Call(Call::Record(record)) => [&[SET_RECORD], &record.numbers()[..]].concat(),
        Step::Call(call) => call.numbers(),
        Step::Words(words) => [&[WORDS], &words[..]].concat(),
        Step::Put(pairs) => {
            let pairs = pairs
                .iter()
                .flat_map(|&(index, number)| [index as u64, number]);
            [PUT].into_iter().chain(pairs).collect()
        }
        Step::Filter { op, x, y } => vec![WINDOWED_FILTER, *op, *x, *y],
        Step::Numbers {
            function,
            first,
            other,
        } => vec![NUMBERS, *function, *first, *other],
        Step::FilterRun {
            window,
            length,
            lent,
            words,
        } => [&[FILTER_RUN, *window, *length, *lent], &words[..]].concat(),
        Step::Slope {
            rounds,
            window,
            lent,
        } => vec![SLOPE, *rounds, *window, *lent],
        Step::RttRun(lent) => {
            let bytes = lent.bytes.map(|bytes| bytes as u64);
            [&[RTT_RUN], &bytes[..], &lent.state, &lent.calls].concat()
        }
    }
}

/// The steps of a text, one for each line that isn't empty.
pub fn steps(text: &str) -> Result<Vec<Step>, String> {
    let mut steps = Vec::new();
    for (at, line) in text.lines().enumerate() {
        let line = line.split('#').next().unwrap();
        let words: Vec<&str> = line.split_whitespace().collect();
        if let [call, arguments @ ..] = &words[..] {
            let step = parse(call, arguments);
            steps.push(step.map_err(|why| format!("Line {}: {why}", at + 1))?);
        }
    }
    Ok(steps)
}

fn parse(call: &str, arguments: &[&str]) -> Result<Step, String> {
    let named =
        |(number, name, _): &(u64, &str, usize)| *name == call || number.to_string() == call;
    let (number, _, count) = calls()
        .find(named)
        .ok_or_else(|| format!("there is no call {call}."))?;
    let parsed: Result<Vec<u64>, _> = arguments.iter().map(|word| word.parse()).collect();
    let parsed = parsed.map_err(|_| "an argument is no decimal number of 64 bits.".to_string())?;

    let fits = match number {
        START => [count - PARAMS_WORDS, count].contains(&parsed.len()),
        PUT => {
            parsed.len() % 2 == 0
                && parsed
                    .chunks(2)
                    .all(|pair| pair[0] < (FIELDS + PARAMS_WORDS) as u64)
        }
        WINDOWED_FILTER => parsed.len() == count && parsed[0] <= 3,
        NUMBERS => {
            parsed.len() == count && parsed[0] <= 6 && parsed[1] <= u64::MAX - (scalars::RUN - 1)
        }
        FILTER_RUN => {
            parsed.len() >= count
                && parsed[1] <= MOST_PAIRS
                && parsed[2] <= MEMORY as u64
                && parsed.len() == count + parsed[1].div_ceil(WORD_BYTES as u64) as usize
        }
        SLOPE => parsed.len() == count && parsed[2] <= MEMORY as u64,
        RTT_RUN => {
            let mut lent = parsed.iter().zip(MOST_RTT);
            parsed.len() >= count
                && lent.all(|(lent, most)| *lent <= most as u64)
                && parsed.len() == count + parsed[1].div_ceil(WORD_BYTES as u64) as usize
        }
        _ => parsed.len() == count,
    };
    if !fits {
        return Err("the number of arguments, or an index, doesn't fit.".to_string());
    }
    if number == WORDS && replies::to_words(&parsed, 0, &[0; FIELDS]).is_none() {
        return Err("the words are those of a call that isn't refused for them.".to_string());
    }
    let step = step(number, &parsed);
    if numbers(&step)[1..][..parsed.len()] != parsed {
        return Err(
            "a float is more than 32 bits, a flag isn't 0 or 1, or what is unset isn't 0."
                .to_string(),
        );
    }
    Ok(step)
}

/// The step of this number with these arguments, as far as they make one.
fn step(number: u64, arguments: &[u64]) -> Step {
    match number {
        START => {
            let mut start = Host::usual_start();
            let parameters = argument::start::INITIAL_RTT;
            if arguments.len() > parameters {
                start = start.with_parameters(&arguments[parameters..]);
            }
            Step::Call(Call::of(START, arguments, &start).unwrap())
        }
        SET_RECORD => Step::Call(Call::Record(Record::of(arguments))),
        WORDS => Step::Words(arguments.to_vec()),
        PUT => {
            let pairs = arguments.chunks(2);
            Step::Put(pairs.map(|pair| (pair[0] as usize, pair[1])).collect())
        }
        WINDOWED_FILTER => Step::Filter {
            op: arguments[0],
            x: arguments[1],
            y: arguments[2],
        },
        NUMBERS => Step::Numbers {
            function: arguments[0],
            first: arguments[1],
            other: arguments[2],
        },
        FILTER_RUN => Step::FilterRun {
            window: arguments[0],
            length: arguments[1],
            lent: arguments[2],
            words: arguments[3..].to_vec(),
        },
        SLOPE => Step::Slope {
            rounds: arguments[0],
            window: arguments[1],
            lent: arguments[2],
        },
        RTT_RUN => Step::RttRun(Lent {
            state: arguments[3..][..RTT_STATE].to_vec(),
            calls: arguments[3 + RTT_STATE..].to_vec(),
            bytes: [0, 1, 2].map(|at| arguments[at] as usize),
        }),
        _ => Step::Call(Call::of(number, arguments, &Host::usual_start()).unwrap()),
    }
}
