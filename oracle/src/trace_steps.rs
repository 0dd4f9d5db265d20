//! Traces chosen from a seed: connections with sends, acks, losses and probing, one
//! after the other; in a damaged trace, lines that are refused, or nearly so, too.

use crate::bounds::BANDWIDTH;
use crate::bounds::BYTES;
use crate::bounds::LENGTH;
use crate::bounds::MOMENT;
use crate::bounds::TOTAL;
use crate::trace;
use crate::trace::Event;
use crate::trace::Line;
use crate::trace::Model;
use crate::trace::HEADER;
use crate::trace_damage;
use crate::trace_damage::Draft;
use crate::trace_replay::Accepted;
use crate::trace_replay::Replay;
use crate::values::Random;
use crate::wanted::Wanted;

/// One line in this many is damaged, in a trace that is.
const DAMAGED: u64 = 3;

/// Of those, one in this many twice.
const TWICE: u64 = 5;

/// Bytes of a packet.
const PACKET: u64 = 1300;

/// Chooses traces.
pub struct Steps {
    random: Random,
    /// How often each damage was done.
    pub damages: Wanted,
}

impl Steps {
    pub fn new(seed: u64) -> Self {
        Steps {
            random: Random::new(seed),
            damages: Wanted::new(&trace_damage::names()),
        }
    }

    /// A number below this one.
    pub fn below(&mut self, end: u64) -> u64 {
        self.random.below(end)
    }

    /// A trace of so many lines, or a few more or less where they are damaged.
    pub fn trace(&mut self, lines: u64, damaged: bool) -> Vec<u8> {
        let mut run = Run {
            random: &mut self.random,
            replay: Replay::new(),
            bytes: HEADER.to_vec(),
            replayed: HEADER.len(),
            like: Like::default(),
        };
        for _ in 0..lines {
            let mut draft = Draft::of(&run.line());
            let mut left = match damaged && run.random.one_in(DAMAGED) {
                true => 1 + run.random.one_in(TWICE) as u64,
                false => 0,
            };
            while left > 0 {
                let accepted = run.replay.accepted;
                let name = trace_damage::damage(&mut draft, run.random, &accepted);
                self.damages.mark(name, true);
                left -= 1;
            }
            run.write(&draft);
        }
        if damaged && run.random.one_in(2) {
            let cut = run.random.below(60) as usize;
            run.bytes.truncate(HEADER.len().max(run.bytes.len() - cut));
        }
        run.bytes
    }
}

/// What a connection is like.
#[derive(Default)]
struct Like {
    /// How many lines it still has.
    left: u64,
    window: u64,
    /// The most nanoseconds between two lines.
    pace: u64,
    /// One event in this many loses bytes.
    losses: u64,
    bw: u64,
    rtt: u64,
    probing: bool,
}

/// A trace that is being chosen, by what was accepted so far.
struct Run<'a> {
    random: &'a mut Random,
    replay: Replay,
    bytes: Vec<u8>,
    replayed: usize,
    like: Like,
}

impl Run<'_> {
    /// Writes a line, and replays the lines that are whole by now.
    fn write(&mut self, draft: &Draft) {
        self.bytes.extend(draft.bytes());
        let is_end = |&byte: &u8| byte == b'\n';
        while let Some(end) = self.bytes[self.replayed..].iter().position(is_end) {
            let line = trace::line(&self.bytes[self.replayed..][..=end]);
            self.replayed += end + 1;
            if let Some(line) = line.filter(|line| trace::takes(&self.replay, line)) {
                self.replay.take(&line);
            }
        }
    }

    /// A sound line.
    fn line(&mut self) -> Line {
        if self.like.left == 0 {
            self.like = like(self.random);
            return self.start();
        }
        self.like.left -= 1;
        let Accepted { moment, sent, .. } = self.replay.accepted;
        let time = (moment + self.random.below(self.like.pace)).min(MOMENT);
        match self.random.below(9) {
            0 if !self.replay.is_started() || self.random.one_in(8) => self.start(),
            0..=3 => Line::Sent {
                time,
                in_flight: self.in_flight(),
                number: next_number(self.random, sent),
                bytes: self.random.pick(&[PACKET, PACKET, PACKET, 1, 0, 65_535]),
            },
            _ => Line::Event(self.event(time)),
        }
    }

    fn start(&mut self) -> Line {
        let moment = self.replay.accepted.moment;
        let random = &mut *self.random;
        Line::Start {
            time: random.pick(&[0, 1, moment, moment / 2, 1 << 40]),
            rtt: random.pick(&[100_000_000, 100_000_000, 0, 1, LENGTH]),
        }
    }

    fn event(&mut self, time: u64) -> Event {
        let in_flight = self.in_flight();
        let Accepted {
            acked, lost, sent, ..
        } = self.replay.accepted;
        let (random, like) = (&mut *self.random, &mut self.like);
        like.probing = match like.probing {
            true => !random.one_in(8),
            false => random.one_in(40),
        };
        if random.one_in(20) {
            like.window = window(random);
        }
        let loses = random.one_in(like.losses);
        let packets = PACKET * random.below(4) + random.below(2);
        let more = |total: u64, grows: bool| match grows {
            true => (total + packets).min(TOTAL),
            false => total,
        };
        let near = |random: &mut Random, number: u64, most: u64| match random.below(3) {
            0 => None,
            1 => Some(number),
            _ => Some((number - number / 4 + random.below(number / 2 + 2)).min(most)),
        };
        Event {
            time,
            cwnd: like.window,
            in_flight,
            number: sent.and_then(|last| acked_number(random, last)),
            acked: more(acked, !loses || random.one_in(2)),
            lost: more(lost, loses),
            bw: near(random, like.bw, BANDWIDTH),
            rtt: near(random, like.rtt, LENGTH),
            probing: like.probing,
        }
    }

    fn in_flight(&mut self) -> u64 {
        let window = self.like.window;
        let less = window - window / 8;
        self.random.pick(&[window, less, window / 2, PACKET, 0])
    }
}

/// Mostly some hundred lines, and seldom some thousand.
fn like(random: &mut Random) -> Like {
    Like {
        left: match random.below(12) {
            0 => random.below(4000),
            1..=3 => random.below(30),
            _ => random.below(300),
        },
        window: window(random),
        pace: random.pick(&[1, 2, 1000, 1_000_000, 1 << 30]),
        losses: random.pick(&[1, 2, 3, 10]),
        bw: random.of_length(40),
        rtt: random.of_length(36),
        probing: random.one_in(5),
    }
}

fn window(random: &mut Random) -> u64 {
    match random.below(6) {
        0 => random.of_length(24),
        1 => random.of_length(40),
        2 => random.pick(&[
            0,
            1,
            2,
            (1 << 24) - 1,
            1 << 24,
            (1 << 24) + 3,
            BYTES - 1,
            BYTES,
        ]),
        _ => PACKET * (1 + random.below(60)),
    }
}

/// The number of a send after this one: mostly the next.
fn next_number(random: &mut Random, last: Option<u64>) -> u64 {
    let Some(last) = last else {
        return random.pick(&[0, 1, 1, 1 << 32, u64::MAX - 2]);
    };
    match random.below(20) {
        0 => last.saturating_sub(random.below(9)),
        1 => last.saturating_add(random.below(9)),
        _ => last.saturating_add(1),
    }
}

/// The number that an event acks, of those up to the last sent one.
fn acked_number(random: &mut Random, last: u64) -> Option<u64> {
    match random.below(8) {
        0 => None,
        1..=4 => Some(last),
        5 => Some(last.saturating_sub(1)),
        6 => Some(last.saturating_sub(random.below(20))),
        _ => Some(random.below(last.saturating_add(1))),
    }
}
