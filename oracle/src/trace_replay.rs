//! The replay of a trace that asks the original directly, for the command `replay`.
//! It refuses by the tests that a trace can fail; a comparison of traces holds them
//! to the whole table (trace_world.rs).

use std::io;
use std::io::BufReader;
use std::io::BufWriter;

use guovssalu_sys::table::event::END_OF_ROUND_TRIP;
use guovssalu_sys::table::reply::DONE;
use guovssalu_sys::table::reply::EARLIER_MOMENT;
use guovssalu_sys::table::reply::LOWER_TOTAL;
use guovssalu_sys::table::reply::NEVER_SENT;

use crate::bounds::BANDWIDTH;
use crate::bounds::BYTES;
use crate::bounds::LENGTH;
use crate::bounds::MOMENT;
use crate::bounds::TOTAL;
use crate::model::field::ROUND_TRIP_COUNT;
use crate::model::Call;
use crate::model::Getter;
use crate::model::Start;
use crate::places::Fault;
use crate::places::Kind;
use crate::recovery::gcongestion::Host;
use crate::trace;
use crate::trace::Event;
use crate::trace::Line;
use crate::trace::Model;
use crate::trace::Shown;

/// How much is read or written at a time.
pub const BUFFER: usize = 1 << 16;

/// Replays the trace on the standard input.
pub fn run() -> io::Result<()> {
    let from = BufReader::with_capacity(BUFFER, io::stdin().lock());
    let to = BufWriter::with_capacity(BUFFER, io::stdout().lock());
    trace::replay(from, to, &mut Replay::new())
}

/// The original, and what is known of it.
pub struct Replay {
    host: Host,
    usual: Start,
    started: bool,
    pub accepted: Accepted,
    shown: Shown,
}

/// What was accepted since the start, as far as refusals look at it.
#[derive(Clone, Copy, Debug, Default)]
pub struct Accepted {
    pub moment: u64,
    pub acked: u64,
    pub lost: u64,
    /// The last sent number, if anything was sent.
    pub sent: Option<u64>,
}

impl Replay {
    pub fn new() -> Self {
        let usual = Host::usual_start();
        Replay {
            host: Host::new(&usual),
            usual,
            started: false,
            accepted: Accepted::default(),
            shown: Shown::default(),
        }
    }

    fn start(&mut self, time: u64, rtt: u64) {
        self.host.call(&Call::Start(Start {
            moment: time,
            initial_rtt: rtt,
            ..self.usual
        }));
        self.started = true;
        self.accepted = Accepted {
            moment: time,
            ..Accepted::default()
        };
        self.shown.round = self.host.state()[ROUND_TRIP_COUNT];
        self.look();
    }

    /// An event that is accepted, and its finish.
    fn event(&mut self, event: &Event) {
        self.host.record(&event.record());
        self.host.event(event.time, &event.sample());
        let ended = self.host.recorded_at(event.time)[END_OF_ROUND_TRIP] == 1;
        self.host.finish();
        if ended {
            self.shown.round = self.host.state()[ROUND_TRIP_COUNT];
        }
        self.accepted = Accepted {
            moment: event.time,
            acked: event.acked,
            lost: event.lost,
            ..self.accepted
        };
        self.look();
    }

    /// Asks the original for what is shown, but for the round: it has no getter, so
    /// it is looked up where one has ended.
    fn look(&mut self) {
        let mut get = |getter| self.host.call(&Call::Get(getter));
        self.shown.max_bw = get(Getter::MaxBandwidth);
        self.shown.lo = get(Getter::InflightLo);
        self.shown.hi = get(Getter::InflightHi);
    }

    /// The first of the tests after the bounds that the line fails.
    fn refusal(&self, line: &Line) -> u64 {
        let before = &self.accepted;
        match line {
            Line::Start { .. } => DONE,
            Line::Sent { time, .. } if *time < before.moment => EARLIER_MOMENT,
            Line::Sent { .. } => DONE,
            Line::Event(event) if event.time < before.moment => EARLIER_MOMENT,
            Line::Event(event) if event.acked < before.acked || event.lost < before.lost => {
                LOWER_TOTAL
            }
            Line::Event(event) if event.number.is_some() && event.number > before.sent => {
                NEVER_SENT
            }
            Line::Event(_) => DONE,
        }
    }
}

impl Model for Replay {
    fn is_started(&self) -> bool {
        self.started
    }

    fn take(&mut self, line: &Line) -> u64 {
        let reply = match fault(line) {
            Some(fault) => fault.reply(),
            None => self.refusal(line),
        };
        if reply == DONE {
            match *line {
                Line::Start { time, rtt } => self.start(time, rtt),
                Line::Sent {
                    time,
                    in_flight,
                    number,
                    bytes,
                } => {
                    self.host.sent(time, in_flight, number, bytes);
                    self.accepted.moment = time;
                    self.accepted.sent = Some(number);
                }
                Line::Event(ref event) => self.event(event),
            }
        }
        reply
    }

    fn shown(&self) -> Shown {
        self.shown
    }
}

/// The first number of the line that is out of its bounds, in the order of the
/// call's arguments.
fn fault(line: &Line) -> Option<Fault> {
    let moment = |time: u64, place: u64| (time, MOMENT, Kind::Moment, place);
    let bytes = |bytes: u64, place: u64| (bytes, BYTES, Kind::Bytes, place);
    let length = |rtt: u64, place: u64| (rtt, LENGTH, Kind::Length, place);
    let total = |total: u64| (total, TOTAL, Kind::Total, 3);
    match *line {
        Line::Start { time, rtt } => first(&[length(rtt, 1), moment(time, 2)]),
        Line::Sent {
            time,
            in_flight,
            bytes: size,
            ..
        } => first(&[moment(time, 1), bytes(in_flight, 2), bytes(size, 4)]),
        Line::Event(event) => first(&[
            moment(event.time, 2),
            (event.cwnd, BYTES, Kind::Window, 2),
            bytes(event.in_flight, 2),
            (event.bw.unwrap_or(0), BANDWIDTH, Kind::Bandwidth, 3),
            length(event.rtt.unwrap_or(0), 3),
            total(event.acked),
            total(event.lost),
        ]),
    }
}

/// The first number that is above its bound, by its kind and its place.
fn first(numbers: &[(u64, u64, Kind, u64)]) -> Option<Fault> {
    let out = numbers.iter().find(|(number, most, _, _)| number > most);
    out.map(|&(_, _, kind, place)| Fault::new(kind, place))
}
