//! The original as a port: answers frames until its input ends.

use std::io;
use std::io::ErrorKind;

use guovssalu_sys::table::ARGUMENTS_IN_CALL;
use guovssalu_sys::table::EVENT_IN_CALL;
use guovssalu_sys::table::NUMBER_IN_CALL;

use crate::estimator::Lent;
use crate::frame;
use crate::frame::Answer;
use crate::frame::CARRIED;
use crate::frame::FILTER_RUN;
use crate::frame::MEMORY;
use crate::frame::MOST_PAIRS;
use crate::frame::MOST_PUT;
use crate::frame::MOST_RTT;
use crate::frame::NUMBERS;
use crate::frame::PUT;
use crate::frame::RECORD;
use crate::frame::RTT_CALLS_IN_CALL;
use crate::frame::RTT_RUN;
use crate::frame::RTT_STATE_IN_CALL;
use crate::frame::SLOPE;
use crate::frame::SUMMED;
use crate::frame::WINDOWED_FILTER;
use crate::model::Call;
use crate::replies;
use crate::world::Step;
use crate::world::World;

pub fn serve() -> io::Result<()> {
    let mut input = io::stdin().lock();
    let mut output = io::stdout().lock();
    let mut world = World::new();
    while let Some(words) = frame::read(&mut input, frame::REQUEST)? {
        let (state, calls) = words.split_at(CARRIED);
        world.carry(state);
        let mut answers = Vec::with_capacity(frame::ANSWERS);
        for words in calls.chunks_exact(frame::CALL) {
            let answer = answer(&mut world, words).ok_or(ErrorKind::InvalidData)?;
            answers.extend(answer);
        }
        frame::write(&mut output, &answers)?;
    }
    Ok(())
}

/// The answer to a call of these words, if it is one.
fn answer(world: &mut World, words: &[u64]) -> Option<Answer> {
    let step = match words[NUMBER_IN_CALL] {
        PUT => {
            let count = words[1].min(MOST_PUT as u64) as usize;
            return Some(world.overwrite(&words[2..][..2 * count]));
        }
        FILTER_RUN => Step::FilterRun {
            window: words[1],
            length: words[2].min(MOST_PAIRS),
            lent: words[3].min(MEMORY as u64),
            words: words[4..].to_vec(),
        },
        SLOPE => Step::Slope {
            rounds: words[1],
            window: words[2],
            lent: words[3].min(MEMORY as u64),
        },
        RTT_RUN => Step::RttRun(Lent {
            state: words[RTT_STATE_IN_CALL..RTT_CALLS_IN_CALL].to_vec(),
            calls: words[RTT_CALLS_IN_CALL..].to_vec(),
            bytes: [1, 2, 3].map(|at| words[at].min(MOST_RTT[at - 1] as u64) as usize),
        }),
        _ if is_refused(world, words) => Step::Words(words.to_vec()),
        _ => step(world, words)?,
    };
    Some(world.answer_to(&step))
}

/// Whether the words are of the model, and the call is refused for them.
fn is_refused(world: &World, words: &[u64]) -> bool {
    let others = [WINDOWED_FILTER, NUMBERS, SUMMED];
    !others.contains(&words[NUMBER_IN_CALL]) && replies::to_words(words, 0, &world.state).is_some()
}

/// The step of a call's words, if it is one; takes what is handed in with it.
fn step(world: &mut World, words: &[u64]) -> Option<Step> {
    let (call, handed_in) = words.split_at(EVENT_IN_CALL);
    let (record, parameters) = handed_in.split_at(RECORD);
    let (number, arguments) = (call[NUMBER_IN_CALL], &call[ARGUMENTS_IN_CALL..]);
    world.hand_in(record, parameters);
    match number {
        WINDOWED_FILTER => {
            world.filter.copy_from_slice(&arguments[3..11]);
            Some(Step::Filter {
                op: arguments[0],
                x: arguments[1],
                y: arguments[2],
            })
        }
        NUMBERS => Some(Step::Numbers {
            function: arguments[0],
            first: arguments[1],
            other: arguments[2],
        }),
        _ => Call::of(number, arguments, &world.start).map(Step::Call),
    }
}
