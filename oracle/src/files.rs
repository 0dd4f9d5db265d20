//! Frames with the original's answers, as two files: what the port is asked,
//! and what it has to answer.

use std::collections::BTreeMap;
use std::fs;
use std::io;
use std::mem;
use std::path::Path;

use guovssalu_sys::table::NUMBER_IN_CALL;
use guovssalu_sys::table::REPLY_IN_ANSWER;

use crate::export_steps::ExportSteps;
use crate::filter_steps::FilterSteps;
use crate::frame;
use crate::frame::Answer;
use crate::frame::Asked;
use crate::frame::Frame;
use crate::number_steps::NumberSteps;
use crate::replies;
use crate::rtt_steps::RttSteps;
use crate::world::Step;
use crate::world::World;
use crate::world::FILLER;

pub struct Files {
    pub world: World,
    /// Whether two sums stand for the answers of a frame.
    summed: bool,
    frame: Frame,
    requests: Vec<u8>,
    answers: Vec<u8>,
    /// How many calls of each number there are, and how many were given each
    /// reply, with the kind and the place that it names.
    pub calls: BTreeMap<u64, u64>,
    pub replies: BTreeMap<u64, u64>,
}

impl Files {
    pub fn new(summed: bool) -> Self {
        Files {
            world: World::new(),
            summed,
            frame: Frame::default(),
            requests: Vec::new(),
            answers: Vec::new(),
            calls: BTreeMap::new(),
            replies: BTreeMap::new(),
        }
    }

    /// Takes a step; the answer, if the port is asked.
    pub fn step(&mut self, step: &Step) -> Option<Answer> {
        let asked = self.world.step(step);
        for asked in &asked {
            self.add(asked);
        }
        asked.last().map(|asked| asked.answer)
    }

    /// Makes this many calls on windowed filters, as many on numbers, as many of
    /// the exported filter and slope, and as many runs of the estimator.
    pub fn choose_others(&mut self, seed: u64, mut numbers: NumberSteps, each: u64) {
        let mut filters = FilterSteps::new(seed);
        self.take(each, |world| filters.next(world));
        self.take(each, |_| numbers.next());
        let mut exports = ExportSteps::new(seed);
        self.take(each, |_| exports.next());
        let mut rtt = RttSteps::new(seed);
        self.take(each, |_| rtt.next());
    }

    /// Takes steps until this many calls are made.
    pub fn take(&mut self, calls: u64, mut next: impl FnMut(&World) -> Step) {
        let end = self.made() + calls;
        while self.made() < end {
            let step = next(&self.world);
            self.step(&step);
        }
    }

    fn made(&self) -> u64 {
        self.replies.values().sum()
    }

    fn add(&mut self, asked: &Asked) {
        if self.summed && self.frame.is_empty() {
            self.frame.add(&asked.summed());
        }
        *self.calls.entry(asked.words[NUMBER_IN_CALL]).or_default() += 1;
        *self
            .replies
            .entry(asked.answer[REPLY_IN_ANSWER])
            .or_default() += 1;
        self.frame.add(asked);
        if self.frame.is_full() {
            let Frame { request, expected } = mem::take(&mut self.frame);
            let answers = expected.concat();
            self.requests.extend(frame::bytes(&request));
            self.answers.extend(match self.summed {
                true => frame::bytes(&frame::sums(&answers)),
                false => frame::bytes(&answers),
            });
        }
    }

    /// Fills up the last frame, writes the two files into a folder, and tells
    /// what is in them.
    pub fn write(mut self, folder: &Path) -> io::Result<()> {
        while !self.frame.is_empty() {
            self.step(&FILLER);
        }
        for (call, count) in &self.calls {
            eprintln!("frames: {count:4} x call {call}");
        }
        for (reply, count) in &self.replies {
            eprintln!("frames: {count:4} x reply {}", replies::shown(*reply));
        }
        for (what, count) in self.world.tally.told() {
            eprintln!("frames: {count:4} x {what}");
        }
        self.world.unsent.tell("frames: ");
        self.world.named.tell("frames: ");
        self.world.rtt.tell("frames: ");
        self.world.tally.hold();
        self.world.unsent.hold();
        self.world.named.hold();
        self.world.rtt.hold();
        let (asked, answered) = (self.requests.len(), self.answers.len());
        eprintln!(
            "frames: {} calls, {asked} and {answered} bytes",
            self.made()
        );
        fs::create_dir_all(folder)?;
        fs::write(folder.join("stdin"), &self.requests)?;
        fs::write(folder.join("stdout"), &self.answers)
    }
}
