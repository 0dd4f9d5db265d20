//! The text of a trace and of the rows that answer it, by document 02, request j:
//! read from its words, apart from the port's code. What a line asks is handed to a
//! `Model`, of which there are two: trace_replay.rs, trace_world.rs.

use std::io;
use std::io::BufRead;
use std::io::Read;
use std::io::Write;

use guovssalu_sys::table::reply::kind;
use guovssalu_sys::table::reply::row;
use guovssalu_sys::table::reply::BAD_TEXT;
use guovssalu_sys::table::MOST_ACKED;
use guovssalu_sys::table::UNSET;

use crate::model::Record;
use crate::model::Sample;

pub const HEADER: &[u8] = b"kind,time,cwnd,inflight,number,bytes,acked,lost,bw,rtt,probing\r\n";
pub const ROWS_HEADER: &[u8] = b"line,refusal,round,max_bw,lo,hi\r\n";

/// The most bytes of a line, with its end.
pub const MOST_BYTES: usize = 4096;

/// How many fields a line has.
pub const FIELDS: usize = 11;

/// What a line asks.
#[derive(Clone, Copy, Debug)]
pub enum Line {
    Start {
        time: u64,
        rtt: u64,
    },
    Sent {
        time: u64,
        in_flight: u64,
        number: u64,
        bytes: u64,
    },
    Event(Event),
}

#[derive(Clone, Copy, Debug)]
pub struct Event {
    pub time: u64,
    pub cwnd: u64,
    pub in_flight: u64,
    /// The one number acked.
    pub number: Option<u64>,
    pub acked: u64,
    pub lost: u64,
    pub bw: Option<u64>,
    pub rtt: Option<u64>,
    pub probing: bool,
}

impl Event {
    /// The record that is handed in: all else is 0, no or unset.
    pub fn record(&self) -> Record {
        Record {
            event_time: self.time,
            prior_cwnd: self.cwnd,
            prior_in_flight: self.in_flight,
            probing: self.probing,
            ..Record::default()
        }
    }

    /// The sampler's answer that is handed in, with the number acked: all else is 0,
    /// no or none.
    pub fn sample(&self) -> Sample {
        let mut acked = [0; MOST_ACKED];
        acked[0] = self.number.unwrap_or(0);
        Sample {
            bandwidth: self.bw,
            rtt: self.rtt,
            total_acked: self.acked,
            total_lost: self.lost,
            acked_length: self.number.is_some() as usize,
            acked,
            ..Sample::default()
        }
    }
}

/// What a row shows of the state; a bound may be unset.
#[derive(Clone, Copy, Debug, Default, PartialEq)]
pub struct Shown {
    pub round: u64,
    pub max_bw: u64,
    pub lo: u64,
    pub hi: u64,
}

/// What takes the lines.
pub trait Model {
    /// Whether a start was accepted.
    fn is_started(&self) -> bool;

    /// Does what the line asks, or refuses it; the reply. Before an accepted start
    /// it is asked only starts.
    fn take(&mut self, line: &Line) -> u64;

    /// The state now, after an accepted start.
    fn shown(&self) -> Shown;
}

/// Answers a trace with its rows.
pub fn replay(from: impl BufRead, to: impl Write, model: &mut impl Model) -> io::Result<()> {
    let mut lines = Lines::new(from);
    let mut rows = Rows::new(to)?;
    if lines.next()? != Some(HEADER) {
        rows.add(0, BAD_TEXT, None)?;
        return rows.to.flush();
    }
    let mut number = 0;
    while let Some(bytes) = lines.next()? {
        number += 1;
        let reply = match line(bytes) {
            Some(line) if takes(model, &line) => model.take(&line),
            _ => BAD_TEXT,
        };
        let shown = model.is_started().then(|| model.shown());
        rows.add(number, reply, shown)?;
    }
    rows.to.flush()
}

/// Whether the line may stand where it does: a send or an event only after an
/// accepted start.
pub fn takes(model: &impl Model, line: &Line) -> bool {
    matches!(line, Line::Start { .. }) || model.is_started()
}

/// The lines of an input, one at a time.
pub struct Lines<R> {
    from: R,
    line: Vec<u8>,
}

impl<R: BufRead> Lines<R> {
    pub fn new(from: R) -> Self {
        Lines {
            from,
            line: Vec::with_capacity(MOST_BYTES + 1),
        }
    }

    /// The next line with its end, which the last may lack; of one that is too long
    /// the first bytes, one more than a line has. None where the input ends.
    pub fn next(&mut self) -> io::Result<Option<&[u8]>> {
        self.line.clear();
        let mut bounded = self.from.by_ref().take(MOST_BYTES as u64 + 1);
        bounded.read_until(b'\n', &mut self.line)?;
        if self.line.len() > MOST_BYTES && !self.line.ends_with(b"\n") {
            self.from.skip_until(b'\n')?;
        }
        Ok((!self.line.is_empty()).then_some(&self.line[..]))
    }
}

/// What the line of these bytes, with its end, asks; none where it is no line of a
/// trace.
pub fn line(bytes: &[u8]) -> Option<Line> {
    if bytes.len() > MOST_BYTES {
        return None;
    }
    let [kind, time, cwnd, in_flight, number, size, acked, lost, bw, rtt, probing] =
        fields(bytes.strip_suffix(b"\r\n")?)?;
    match kind {
        b"start" => {
            empty(&[cwnd, in_flight, number, size, acked, lost, bw, probing])?;
            Some(Line::Start {
                time: whole(time)?,
                rtt: whole(rtt)?,
            })
        }
        b"sent" => {
            empty(&[cwnd, acked, lost, bw, rtt, probing])?;
            Some(Line::Sent {
                time: whole(time)?,
                in_flight: whole(in_flight)?,
                number: whole(number)?,
                bytes: whole(size)?,
            })
        }
        b"event" => {
            empty(&[size])?;
            Some(Line::Event(Event {
                time: whole(time)?,
                cwnd: whole(cwnd)?,
                in_flight: whole(in_flight)?,
                number: whole_or_none(number)?,
                acked: whole(acked)?,
                lost: whole(lost)?,
                bw: whole_or_none(bw)?,
                rtt: whole_or_none(rtt)?,
                probing: flag(probing)?,
            }))
        }
        _ => None,
    }
}

/// The fields of a line without its end, if there are as many as there must be.
pub fn fields(bytes: &[u8]) -> Option<[&[u8]; FIELDS]> {
    let mut parts = bytes.split(|&byte| byte == b',');
    let mut fields: [&[u8]; FIELDS] = [&[]; FIELDS];
    for field in &mut fields {
        *field = parts.next()?;
    }
    parts.next().is_none().then_some(fields)
}

/// Fields that have to be empty.
fn empty(fields: &[&[u8]]) -> Option<()> {
    fields.iter().all(|field| field.is_empty()).then_some(())
}

/// A number in plain digits, up to 2^64 - 1.
pub fn whole(field: &[u8]) -> Option<u64> {
    match field {
        b"0" => Some(0),
        [b'1'..=b'9', ..] => field.iter().try_fold(0u64, |number, &byte| match byte {
            b'0'..=b'9' => number.checked_mul(10)?.checked_add((byte - b'0') as u64),
            _ => None,
        }),
        _ => None,
    }
}

/// The same, or an empty field.
pub fn whole_or_none(field: &[u8]) -> Option<Option<u64>> {
    match field {
        b"" => Some(None),
        _ => whole(field).map(Some),
    }
}

pub fn flag(field: &[u8]) -> Option<bool> {
    match field {
        b"0" => Some(false),
        b"1" => Some(true),
        _ => None,
    }
}

/// Rows, written one at a time.
struct Rows<W> {
    to: W,
    row: Vec<u8>,
}

impl<W: Write> Rows<W> {
    /// Writes the header.
    fn new(mut to: W) -> io::Result<Self> {
        to.write_all(ROWS_HEADER)?;
        Ok(Rows {
            to,
            row: Vec::new(),
        })
    }

    /// The row of a line: its number, the reply, and the state if there is one.
    fn add(&mut self, line: u64, reply: u64, shown: Option<Shown>) -> io::Result<()> {
        let to = &mut self.row;
        to.clear();
        digits(to, line);
        to.push(b',');
        digits(to, row(reply));
        if kind(reply) != 0 {
            to.push(b'.');
            digits(to, kind(reply));
        }
        match shown {
            Some(Shown {
                round,
                max_bw,
                lo,
                hi,
            }) => {
                for number in [round, max_bw] {
                    to.push(b',');
                    digits(to, number);
                }
                for bound in [lo, hi] {
                    to.push(b',');
                    if bound != UNSET {
                        digits(to, bound);
                    }
                }
            }
            None => to.extend_from_slice(b",,,,"),
        }
        to.extend_from_slice(b"\r\n");
        self.to.write_all(to)
    }
}

/// Appends a number in plain digits.
fn digits(to: &mut Vec<u8>, mut number: u64) {
    let mut digits = [0; 20];
    let mut at = digits.len();
    loop {
        at -= 1;
        digits[at] = b'0' + (number % 10) as u8;
        number /= 10;
        if number == 0 {
            break;
        }
    }
    to.extend_from_slice(&digits[at..]);
}
