//! Asks the original and the archive, which is linked, the same calls, among
//! them events with lists of up to 10,000 acked numbers, and compares what they
//! answer, word by word. The archive is asked each list as it came, the original
//! sorted.

use std::time::Duration;
use std::time::Instant;

use guovssalu_sys::table::call;
use guovssalu_sys::table::reply::BAD_ARGUMENT;
use guovssalu_sys::table::sample;
use guovssalu_sys::table::ANSWER_WORDS;
use guovssalu_sys::table::ARGUMENTS_IN_CALL;
use guovssalu_sys::table::MOST_ACKED;
use guovssalu_sys::table::NUMBER_IN_CALL;
use guovssalu_sys::table::REPLY_IN_ANSWER;

use crate::archive;
use crate::calls::Calls;
use crate::frame;
use crate::frame::Answer;
use crate::frame::CallWords;
use crate::frame::CARRIED;
use crate::frame::EVENT;
use crate::lengths::Lengths;
use crate::list_steps::Acked;
use crate::list_steps::Lists;
use crate::list_steps::Said;
use crate::malformed::Mixed;
use crate::model::field::*;
use crate::model::Call;
use crate::model::Sample;
use crate::model::State;
use crate::model::SET_RECORD;
use crate::places;
use crate::replies;
use crate::replies::Given;
use crate::steps;
use crate::text;
use crate::values::Random;
use crate::wanted::Wanted;
use crate::world::Step;
use crate::world::World;
use crate::world::FILLER;

/// How often the progress is told.
const PROGRESS: Duration = Duration::from_secs(10);

/// The most calls that are made again in one run.
const TOGETHER: u64 = 60;

/// What has to occur, each at least `LEAST` times in `MANY` calls: without it an
/// error in the order of a list or in its bounds could stay unseen.
const WANTED: [&str; 16] = [
    "a round ends, and not by the last number",
    "a round ends, and not by the first number",
    "a round ends, and by none of the first three of a long list",
    "a round ends, and by none of the last three of a long list",
    "no round ends, and a number is the end",
    "no round ends, and a word beside a long list is past the end",
    "no round ends, and a word of the call that doesn't count is past the end",
    "no end is set, and no number is acked",
    "refused with 5 for a long list, and not for its last number",
    "refused with 10 for a long list, and for none of its first three",
    "refused with 10 for a long list, and for none of its last three",
    "taken, and a word beside a long list was never sent",
    "taken, and a word of the call that doesn't count was never sent",
    "refused with 2 or 1, and the list is outside",
    "refused with 2 for the list, and another argument is at fault, too",
    "refused with 2 for another argument, and the list is inside",
];
const LEAST: u64 = 3;
const MANY: u64 = 20_000;

/// The most acked numbers of a list, and what such lists are counted as.
const LENGTHS: [(usize, &str); 5] = [
    (0, "no number"),
    (MOST_ACKED, "1 to 3 numbers"),
    (20, "4 to 20 numbers"),
    (999, "21 to 999 numbers"),
    (usize::MAX, "1,000 to 10,000 numbers"),
];

/// What differs.
enum Difference {
    /// In a call or in a run of calls.
    Calls(Box<Differing>),
    /// In a run that is refused as a whole; told.
    Run(String),
}

/// Calls of which an answer or the state after them differs.
struct Differing {
    /// What was asked.
    how: String,
    before: [u64; CARRIED],
    calls: Vec<u64>,
    /// What is told of the words lent.
    lists: String,
    /// The answers and the state after them, as expected and as they came, or
    /// the reply of a run that is refused.
    expected: Vec<u64>,
    got: Result<Vec<u64>, u64>,
}

/// Calls that were made one by one, to be made again in one run.
#[derive(Default)]
struct Together {
    before: Option<[u64; CARRIED]>,
    calls: Vec<u64>,
    answers: Vec<u64>,
    /// How many there are, and how many there will be.
    made: u64,
    most: u64,
}

struct Comparison {
    world: World,
    steps: Mixed,
    events: Calls,
    lists: Lists,
    lengths: Lengths,
    random: Random,
    together: Together,
    given: Given,
    /// How many lists there were of each of `LENGTHS`.
    counts: [u64; LENGTHS.len()],
    wanted: Wanted,
}

impl Comparison {
    fn new(seed: u64) -> Self {
        // Streams apart from those of the other steps.
        let mut seeds = Random::new(seed ^ (7 << 61));
        Comparison {
            world: World::new(),
            steps: Mixed::new(seed),
            events: Calls::new(seeds.next()),
            lists: Lists::new(seeds.next()),
            random: Random::new(seeds.next()),
            lengths: Lengths::new(seeds.next()),
            together: Together::default(),
            given: Given::default(),
            counts: [0; LENGTHS.len()],
            wanted: Wanted::new(&WANTED),
        }
    }

    /// How many calls were made, each once.
    fn calls(&self) -> u64 {
        self.given.calls()
    }

    /// One of the steps of `diff`, or an event, for which a record is set where
    /// the current one is too early, and mostly a packet sent where none past the
    /// round's end was. Now and then the count of rounds is full, or it is forgotten
    /// that something was sent.
    fn next(&mut self) -> Step {
        if self.random.one_in(400) {
            let full = (ROUND_TRIP_COUNT, u64::MAX);
            return Step::Put(vec![self.random.pick(&[full, full, (ANYTHING_SENT, 0)])]);
        }
        if self.random.one_in(2) {
            return self.steps.next(&self.world);
        }
        let state = steps::within(&self.world.state);
        let over = state[LAST_SENT] <= state[END];
        let number = match state[EVENT_TIME] < state[LAST_MOMENT] {
            _ if over && !self.random.one_in(3) => call::ON_PACKET_SENT,
            true => SET_RECORD,
            false => EVENT,
        };
        Step::Call(self.events.make(number, &state))
    }

    /// Takes the next step.
    fn step(&mut self) -> Result<(), Difference> {
        let step = self.next();
        match step {
            Step::Call(Call::Event(sample)) => self.event(&sample),
            Step::Words(words) => self.words(&words),
            // Not made by a run.
            Step::Put(_) => {
                self.again()?;
                self.world.step(&step);
                Ok(())
            }
            step => {
                for asked in self.world.step(&step) {
                    self.make(&asked.before, &asked.words, &asked.answer)?;
                }
                Ok(())
            }
        }
    }

    /// Makes an event with chosen acked numbers.
    fn event(&mut self, sample: &Sample) -> Result<(), Difference> {
        let numbers = Call::Event(*sample).numbers();
        let mut words = frame::call(
            EVENT,
            &numbers[ARGUMENTS_IN_CALL..],
            &self.world.state[CARRIED..],
            &self.world.start.parameters(),
        );
        match self.lists.choose(sample, &self.world.state) {
            Acked::Outside(said) => {
                say(&mut words, &said);
                self.refused(&words)
            }
            Acked::Listed(acked, said) => {
                say(&mut words, &said);
                let before = self.world.state;
                if acked.len() > MOST_ACKED {
                    self.without(&words)?;
                }
                let answer = self.world.event(sample, &acked);
                self.tally(&acked, &said, &before, answer[REPLY_IN_ANSWER]);
                self.make(carried(&before), &words, &answer)
            }
        }
    }

    /// Makes an event that names a long list where this isn't lent, or not all
    /// of it: it is refused.
    fn without(&mut self, words: &CallWords) -> Result<(), Difference> {
        let answer = self.world.refused(words, 0);
        let before = carried(&self.world.state);
        self.ask("guovssalu_run", before, words, None, &answer)?;
        let after = words[sample::ACKED_PACKETS] + words[sample::ACKED_COUNT];
        let short = &self.lists.lent[..after as usize - 1];
        let how = "guovssalu_run_lists without the list's last word";
        self.ask(how, before, words, Some(short), &answer)
    }

    /// Makes a call that is refused for its words. An event among them may name
    /// a list, too.
    fn words(&mut self, words: &[u64]) -> Result<(), Difference> {
        let mut words: CallWords = words.try_into().unwrap();
        if words[NUMBER_IN_CALL] == EVENT {
            let lists = self.lists.lent.len();
            let mut inside = words;
            if let Some(said) = self.lists.inside() {
                say(&mut inside, &said);
            }
            let refused =
                |words: &CallWords| replies::to_words(words, lists, &self.world.state).is_some();
            if self.random.one_in(2) && refused(&inside) {
                words = inside;
            } else if !refused(&words) {
                say(&mut words, &self.lists.outside());
            }
        }
        self.refused(&words)
    }

    /// Makes a call of these words, which is refused for them.
    fn refused(&mut self, words: &CallWords) -> Result<(), Difference> {
        let lists = self.lists.lent.len();
        let before = self.world.state;
        let outside = self.is_outside(words);
        let inside = names_list(words) && !outside;
        if inside {
            self.without(words)?;
        }
        let answer = self.world.refused(words, lists);
        self.mark("refused with 2 or 1, and the list is outside", outside);
        let is_bad = replies::row(answer[REPLY_IN_ANSWER]) == BAD_ARGUMENT;
        self.mark(
            "refused with 2 for the list, and another argument is at fault, too",
            is_bad && outside && places::all(words, lists).count() > 1,
        );
        self.mark(
            "refused with 2 for another argument, and the list is inside",
            is_bad && inside,
        );
        self.make(carried(&before), words, &answer)
    }

    /// Whether the call names a list that isn't in the lent words.
    fn is_outside(&self, words: &CallWords) -> bool {
        let after = words[sample::ACKED_PACKETS].checked_add(words[sample::ACKED_COUNT]);
        let lists = self.lists.lent.len() as u64;
        names_list(words) && after.is_none_or(|after| after > lists)
    }

    /// Asks the archive a call in this state that has this answer, and keeps it
    /// for the run of several.
    fn make(
        &mut self,
        before: &[u64; CARRIED],
        words: &CallWords,
        answer: &Answer,
    ) -> Result<(), Difference> {
        let lent = Some(&self.lists.lent[..]);
        self.ask("guovssalu_run_lists", before, words, lent, answer)?;
        // A call that names no list, or one that is outside, is answered the same
        // where no lists are lent.
        if !names_list(words) || self.is_outside(words) {
            self.ask("guovssalu_run", before, words, None, answer)?;
        }
        self.given.add(answer[REPLY_IN_ANSWER]);
        if self.random.one_in(40) {
            let Comparison { lengths, lists, .. } = self;
            let asked = lengths.ask(before, words, &lists.lent);
            asked.map_err(Difference::Run)?;
        }

        let together = &mut self.together;
        if together.before.is_none() {
            together.before = Some(*before);
            together.most = 1 + self.random.below(TOGETHER);
        }
        together.calls.extend(words);
        together.answers.extend(&answer[..ANSWER_WORDS]);
        together.made += 1;
        if together.made == together.most {
            self.again()?;
        }
        Ok(())
    }

    /// Makes one call, and compares.
    fn ask(
        &self,
        how: &str,
        before: &[u64; CARRIED],
        words: &CallWords,
        lists: Option<&[u64]>,
        answer: &Answer,
    ) -> Result<(), Difference> {
        let got = archive::run(before, words, lists);
        let got = got.map(|(answers, state)| [answers, state].concat());
        if got.as_deref() == Ok(&answer[..]) {
            return Ok(());
        }
        Err(Difference::Calls(Box::new(Differing {
            how: how.to_string(),
            before: *before,
            calls: words.to_vec(),
            lists: shortened(words, lists.unwrap_or(&[])),
            expected: answer.to_vec(),
            got,
        })))
    }

    /// Makes the calls since the last time in one run, and compares; lends other
    /// words then.
    fn again(&mut self) -> Result<(), Difference> {
        let together = std::mem::take(&mut self.together);
        let Some(before) = together.before else {
            return Ok(());
        };
        let expected = [&together.answers, &self.world.state[..CARRIED]].concat();
        let got = archive::run(&before, &together.calls, Some(&self.lists.lent));
        let got = got.map(|(answers, state)| [answers, state].concat());
        if got.as_ref() != Ok(&expected) {
            return Err(Difference::Calls(Box::new(Differing {
                how: format!("guovssalu_run_lists, {} calls in one run", together.made),
                before,
                calls: together.calls,
                lists: format!("{} words are lent", self.lists.lent.len()),
                expected,
                got,
            })));
        }
        self.lists.renew();
        Ok(())
    }

    /// Marks what is wanted, if it holds.
    fn mark(&mut self, wanted: &'static str, holds: bool) {
        self.wanted.mark(wanted, holds);
    }

    /// Counts an event with these acked numbers, and marks what it shows.
    fn tally(&mut self, acked: &[u64], said: &Said, before: &State, reply: u64) {
        let length = LENGTHS.iter().position(|(most, _)| acked.len() <= *most);
        self.counts[length.unwrap()] += 1;

        let is_set = before[END_SET] == 1;
        let upto = |number: &u64| is_set && *number <= before[END];
        let past = |number: &u64| !upto(number);
        let (first, last) = (acked.first(), acked.last());
        let long = acked.len() > MOST_ACKED;
        let full = reply == 5 && before[ROUND_TRIP_COUNT] == u64::MAX;
        self.mark(
            "refused with 5 for a long list, and not for its last number",
            full && long && acked.iter().any(past) && last.is_some_and(upto),
        );
        let few = acked.len().min(MOST_ACKED);
        let (firsts, lasts) = (&acked[..few], &acked[acked.len() - few..]);
        let sent = |numbers: &[u64]| !replies::never_sent(numbers, before);
        self.mark(
            "refused with 10 for a long list, and for none of its first three",
            reply == 10 && long && sent(firsts),
        );
        self.mark(
            "refused with 10 for a long list, and for none of its last three",
            reply == 10 && long && sent(lasts),
        );
        if reply != 0 {
            return;
        }
        let ended = self.world.state[ROUND_ENDED] == 1;
        self.mark(
            "a round ends, and not by the last number",
            ended && last.is_some_and(upto),
        );
        self.mark(
            "a round ends, and not by the first number",
            ended && first.is_some_and(upto),
        );
        self.mark(
            "a round ends, and by none of the first three of a long list",
            ended && long && firsts.iter().all(upto),
        );
        self.mark(
            "a round ends, and by none of the last three of a long list",
            ended && long && lasts.iter().all(upto),
        );
        self.mark(
            "no round ends, and a number is the end",
            !ended && is_set && acked.contains(&before[END]),
        );
        let lent = |at: Option<usize>| at.and_then(|at| self.lists.lent.get(at));
        let start = said[1] as usize;
        let beside = [start.checked_sub(1), start.checked_add(acked.len())];
        let beside: Vec<u64> = beside.into_iter().filter_map(lent).copied().collect();
        self.mark(
            "no round ends, and a word beside a long list is past the end",
            !ended && long && beside.iter().any(past),
        );
        self.mark(
            "taken, and a word beside a long list was never sent",
            long && !sent(&beside),
        );
        let others = said.get(1 + acked.len()..).unwrap_or(&[]);
        self.mark(
            "no round ends, and a word of the call that doesn't count is past the end",
            !ended && others.iter().any(past),
        );
        self.mark(
            "taken, and a word of the call that doesn't count was never sent",
            !sent(others),
        );
        self.mark(
            "no end is set, and no number is acked",
            !is_set && acked.is_empty(),
        );
    }
}

/// Makes this many calls and tells how it went; whether nothing differed.
pub fn run(seed: u64, calls: u64) -> bool {
    let mut comparison = Comparison::new(seed);
    let mut told = Instant::now();
    let mut compare = || {
        while comparison.calls() < calls {
            comparison.step()?;
            if told.elapsed() > PROGRESS {
                told = Instant::now();
                eprintln!("{} calls", comparison.calls());
            }
        }
        comparison.again()
    };
    let compared = compare();
    let calls = comparison.calls();
    eprintln!("{}", comparison.given.told());
    for ((_, length), count) in LENGTHS.iter().zip(comparison.counts) {
        eprintln!("{count} x {length}");
    }
    comparison.wanted.tell("");
    comparison.lengths.tell();
    comparison.world.unsent.tell("");
    if let Err(difference) = compared {
        match &difference {
            Difference::Calls(differing) => tell(differing),
            Difference::Run(told) => println!("{told}"),
        }
        println!("{calls} calls, a difference");
        return false;
    }
    if calls >= MANY {
        comparison.wanted.demand(LEAST);
    }
    comparison.lengths.hold();
    comparison.world.unsent.hold();
    println!("{calls} calls, 0 differences");
    true
}

fn tell(differing: &Differing) {
    let Differing {
        how,
        before,
        calls,
        lists,
        expected,
        got,
    } = differing;
    let none = Vec::new();
    let got = match got {
        Ok(got) => got,
        Err(reply) => {
            let reply = replies::shown(*reply);
            println!("{how}: the run's reply: expected 0, got {reply}");
            &none
        }
    };
    let answers = expected.len() - CARRIED;
    for at in (0..got.len()).filter(|&at| expected[at] != got[at]) {
        // The state stands after the last answer.
        let (call, word) = match at.checked_sub(answers) {
            None => (1 + at / ANSWER_WORDS, at % ANSWER_WORDS),
            Some(field) => (answers / ANSWER_WORDS, ANSWER_WORDS + field),
        };
        let [expected, got] = [expected[at], got[at]].map(|number| text::shown(word, number));
        let word = text::word(&FILLER, word);
        println!("{how}, call {call}: {word}: expected {expected}, got {got}");
    }
    println!("The state before: {before:?}");
    for (at, words) in calls.chunks_exact(frame::CALL).enumerate() {
        println!("Call {}: {words:?}", at + 1);
    }
    println!("The lists: {lists}");
    println!("Expected, the answers and the state: {expected:?}");
    println!("Got: {got:?}");
}

/// Whether the call is an event whose acked numbers stand in the lists.
fn names_list(words: &CallWords) -> bool {
    words[NUMBER_IN_CALL] == EVENT && words[sample::ACKED_COUNT] > MOST_ACKED as u64
}

/// Puts the words that say a call's acked numbers into it.
fn say(words: &mut CallWords, said: &Said) {
    words[sample::ACKED_COUNT..][..said.len()].copy_from_slice(said);
}

/// The words of the state that the port carries.
fn carried(state: &State) -> &[u64; CARRIED] {
    state[..CARRIED].try_into().unwrap()
}

/// The list that a call names, with the middle left out where it is long.
fn shortened(words: &CallWords, lists: &[u64]) -> String {
    const SHOWN: usize = 12;
    let lent = format!("{} words are lent", lists.len());
    let count = words[sample::ACKED_COUNT] as usize;
    let list = lists.get(words[sample::ACKED_PACKETS] as usize..);
    let list = list.and_then(|from| from.get(..count));
    match list {
        _ if !names_list(words) => lent,
        None => format!("{lent}; the list is outside"),
        Some(list) if count <= 2 * SHOWN => format!("{lent}; {list:?}"),
        Some(list) => {
            let (first, last) = (&list[..SHOWN], &list[count - SHOWN..]);
            let greatest = list.iter().max().unwrap();
            format!("{lent}; {first:?} to {last:?}, and the greatest is {greatest}")
        }
    }
}
