//! Feeds the original and the port the same steps and compares what they
//! answer, word by word.

use std::io;
use std::mem;
use std::time::Duration;
use std::time::Instant;

use guovssalu_sys::table::REPLY_IN_ANSWER;

use crate::frame;
use crate::frame::Frame;
use crate::port::Port;
use crate::replies::Given;
use crate::text;
use crate::world::Step;
use crate::world::World;
use crate::world::FILLER;

/// How often the progress is told.
const PROGRESS: Duration = Duration::from_secs(10);

/// Steps of which the last one differs. Where the port is silent it is one of
/// the last hundred.
struct Difference {
    run: Vec<Step>,
    what: What,
}

enum What {
    /// A word of an answer.
    Word {
        word: usize,
        expected: u64,
        got: u64,
    },
    /// The port gave no answer.
    Silence(io::Error),
}

impl Difference {
    /// Whether the other one is in the same word of the same call. Of an estimator's
    /// run it may be in any word, since they move when one of its calls is dropped.
    fn is_like(&self, other: &Difference) -> bool {
        let call = |difference: &Difference| difference.run.last().map(text::name);
        let moves = matches!(self.run.last(), Some(Step::RttRun(_)));
        match (&self.what, &other.what) {
            (What::Word { word, .. }, What::Word { word: same, .. }) => {
                call(self) == call(other) && (moves || word == same)
            }
            (What::Silence(_), What::Silence(_)) => true,
            _ => false,
        }
    }
}

/// Whether what comes before the step has no bearing on it.
pub type Begins = fn(&Step) -> bool;

/// A comparison that goes on.
struct Comparison<'a> {
    port: &'a mut Port,
    world: World,
    begins: Begins,
    /// The steps since the last that begins, before the frame.
    steps: Vec<Step>,
    /// The frame that is being filled, and for each call how many steps were
    /// taken with it.
    frame: Frame,
    taken: Vec<usize>,
    given: Given,
}

impl<'a> Comparison<'a> {
    fn new(port: &'a mut Port, begins: Begins) -> Self {
        Comparison {
            port,
            world: World::new(),
            begins,
            steps: Vec::new(),
            frame: Frame::default(),
            taken: Vec::new(),
            given: Given::default(),
        }
    }

    /// How many calls were made, without those that only put numbers into the
    /// state or fill up a frame.
    fn calls(&self) -> u64 {
        self.given.calls()
    }

    /// Takes a step, and asks the port when the frame is full.
    fn step(&mut self, step: Step) -> Result<(), Difference> {
        let asked = self.world.step(&step);
        let puts = matches!(step, Step::Put(_));
        self.steps.push(step);
        for asked in asked {
            if !puts {
                self.given.add(asked.answer[REPLY_IN_ANSWER]);
            }
            self.frame.add(&asked);
            self.taken.push(self.steps.len());
            if self.frame.is_full() {
                self.ask()?;
            }
        }
        Ok(())
    }

    /// Fills up the frame, if one has begun, and asks the port.
    fn finish(&mut self) -> Result<(), Difference> {
        if self.frame.is_empty() {
            return Ok(());
        }
        while !self.frame.is_full() {
            for asked in self.world.step(&FILLER) {
                self.frame.add(&asked);
                self.taken.push(self.steps.len() + 1);
            }
        }
        self.ask()
    }

    /// Asks the port the frame, and forgets the steps that have no bearing on
    /// the next.
    fn ask(&mut self) -> Result<(), Difference> {
        let Frame { request, expected } = mem::take(&mut self.frame);
        let answers = self.port.ask(&request);
        let answers = answers.map_err(|error| Difference {
            run: self.steps.clone(),
            what: What::Silence(error),
        })?;
        let got = answers.chunks_exact(frame::ANSWER);
        for ((expected, got), &taken) in expected.iter().zip(got).zip(&self.taken) {
            let differs = |&word: &usize| expected[word] != got[word];
            if let Some(word) = (0..frame::ANSWER).find(differs) {
                let mut run = self.steps.clone();
                run.push(FILLER);
                run.truncate(taken);
                let (expected, got) = (expected[word], got[word]);
                let what = What::Word {
                    word,
                    expected,
                    got,
                };
                return Err(Difference { run, what });
            }
        }
        self.taken.clear();
        if let Some(first) = self.steps.iter().rposition(self.begins) {
            self.steps.drain(..first);
        }
        Ok(())
    }
}

/// Makes this many calls, each step chosen by what was before it, and tells
/// how it went; whether nothing differed.
pub fn run(
    port: &mut Port,
    calls: u64,
    begins: Begins,
    mut choose: impl FnMut(&World) -> Step,
) -> bool {
    let mut comparison = Comparison::new(port, begins);
    let mut told = Instant::now();
    let difference = loop {
        if comparison.calls() == calls {
            break comparison.finish().err();
        }
        let step = choose(&comparison.world);
        if let Err(difference) = comparison.step(step) {
            break Some(difference);
        }
        if comparison.calls() % 1000 == 0 && told.elapsed() > PROGRESS {
            told = Instant::now();
            eprintln!("{} calls", comparison.calls());
        }
    };
    conclude(comparison, difference)
}

/// Takes these steps, and tells how it went; whether nothing differed.
pub fn follow(port: &mut Port, steps: Vec<Step>) -> bool {
    let mut comparison = Comparison::new(port, |_| false);
    let difference = compare(&mut comparison, steps);
    conclude(comparison, difference)
}

fn compare(comparison: &mut Comparison, steps: Vec<Step>) -> Option<Difference> {
    for step in steps {
        if let Err(difference) = comparison.step(step) {
            return Some(difference);
        }
    }
    comparison.finish().err()
}

fn conclude(comparison: Comparison, difference: Option<Difference>) -> bool {
    let calls = comparison.calls();
    eprintln!("{}", comparison.given.told());
    let World {
        tally,
        unsent,
        named,
        rtt,
        ..
    } = &comparison.world;
    if !tally.is_empty() {
        for (what, count) in tally.told() {
            eprintln!("{count} x {what}");
        }
    }
    unsent.tell("");
    named.tell("");
    rtt.tell("");
    let Some(difference) = difference else {
        tally.hold();
        unsent.hold();
        named.hold();
        rtt.hold();
        println!("{calls} calls, 0 differences");
        return true;
    };
    tell(&difference);
    if let (Some(call), What::Word { .. }) = (difference.run.last(), &difference.what) {
        println!("In the call: {}", text::line(call));
    }
    let shortest = shortest(comparison.port, difference, comparison.begins);
    println!("The shortest run of calls found that shows a difference:");
    for step in &shortest.run {
        println!("{}", text::line(step));
    }
    tell(&shortest);
    println!("{calls} calls, a difference");
    false
}

fn tell(difference: &Difference) {
    match &difference.what {
        What::Word {
            word,
            expected,
            got,
        } => {
            let step = difference.run.last().unwrap();
            let (expected, got) = (text::shown(*word, *expected), text::shown(*word, *got));
            let (name, word) = (text::name(step), text::word(step, *word));
            println!("{name}: {word}: expected {expected}, got {got}");
        }
        What::Silence(error) => println!("No answer from the port: {error}."),
    }
}

/// A difference that is left when calls are dropped, many at once and then one
/// by one, and then parts of them. The first step stays.
fn shortest(port: &mut Port, mut found: Difference, begins: Begins) -> Difference {
    // Another difference of the kind, in a run that isn't longer.
    let mut differs = |steps: Vec<Step>, found: &Difference| {
        let mut comparison = Comparison::new(port, |_| false);
        let difference = compare(&mut comparison, steps)?;
        let fits = difference.is_like(found) && difference.run.len() <= found.run.len();
        fits.then_some(difference)
    };
    if let Some(first) = found.run.iter().rposition(begins) {
        found = differs(found.run[first..].to_vec(), &found).unwrap_or(found);
    }
    let mut size = found.run.len() / 2;
    while size > 0 {
        let before = found.run.len();
        let mut at = before.saturating_sub(size);
        while at > 0 {
            let mut run = found.run.clone();
            run.drain(at..(at + size).min(run.len()));
            found = differs(run, &found).unwrap_or(found);
            at = at.min(found.run.len()).saturating_sub(size);
        }
        if found.run.len() == before {
            size /= 2;
        }
    }
    simplest(found, differs)
}

/// A difference that is left when numbers that are put, and the calls of an
/// estimator's run, are dropped one by one.
fn simplest(
    mut found: Difference,
    mut differs: impl FnMut(Vec<Step>, &Difference) -> Option<Difference>,
) -> Difference {
    let (mut at, mut part) = (0, 0);
    while at < found.run.len() {
        let mut run = found.run.clone();
        match &mut run[at] {
            Step::Put(pairs) if part < pairs.len() => {
                pairs.remove(part);
            }
            Step::RttRun(lent) if part < lent.whole() => lent.drop(part),
            _ => {
                (at, part) = (at + 1, 0);
                continue;
            }
        };
        match differs(run, &found) {
            Some(simpler) => found = simpler,
            None => part += 1,
        }
    }
    found
}
