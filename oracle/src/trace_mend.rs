//! The mending of a trace, by document 02, request k: a copy without the lines that
//! its replay answers with 6, and a list of those, each with its first field at fault.
//! Read from the words of the request, apart from the port's code.

use std::fs::File;
use std::hint;
use std::io;
use std::io::BufRead;
use std::io::BufReader;
use std::io::BufWriter;
use std::io::Write;
use std::path::Path;

use crate::trace;
use crate::trace::Lines;
use crate::trace::Model;
use crate::trace::FIELDS;
use crate::trace::HEADER;
use crate::trace::MOST_BYTES;
use crate::trace_replay::Replay;
use crate::trace_replay::BUFFER;

pub const LIST_HEADER: &[u8] = b"line,field\r\n";

/// Mends the trace on the standard input, and makes the list in this file. Where the
/// header is wrong it says 6 and makes neither.
pub fn run(list: &Path) -> io::Result<()> {
    let from = BufReader::with_capacity(BUFFER, io::stdin().lock());
    let to = BufWriter::with_capacity(BUFFER, io::stdout().lock());
    let list = || Ok(BufWriter::with_capacity(BUFFER, File::create_new(list)?));
    match mend(from, to, list, &mut Replay::new())? {
        Some(read) => eprint!("{}", read.summary()),
        None => eprintln!("6"),
    }
    Ok(())
}

/// Reads the lines on the standard input, and says how many are sound by themselves.
pub fn parse() -> io::Result<()> {
    let mut lines = Lines::new(BufReader::with_capacity(BUFFER, io::stdin().lock()));
    let mut sound = 0;
    while let Some(bytes) = lines.next()? {
        sound += hint::black_box(trace::line(bytes)).is_some() as u64;
    }
    println!("{sound}");
    Ok(())
}

/// How many lines were read after the header, and how many of them are listed.
#[derive(Default)]
pub struct Read {
    pub lines: u64,
    pub listed: u64,
}

impl Read {
    pub fn summary(&self) -> String {
        let Read { lines, listed } = self;
        let kept = lines - listed;
        format!("lines: {lines}\nkept: {kept}\nlisted: {listed}\n")
    }
}

/// Mends a trace; none where the header is wrong, and then no list is made. The model
/// is asked only until it has accepted a start, since no line takes that back.
pub fn mend<L: Write>(
    from: impl BufRead,
    mut to: impl Write,
    make_list: impl FnOnce() -> io::Result<L>,
    model: &mut impl Model,
) -> io::Result<Option<Read>> {
    let mut lines = Lines::new(from);
    if lines.next()? != Some(HEADER) {
        return Ok(None);
    }
    let mut list = make_list()?;
    list.write_all(LIST_HEADER)?;
    to.write_all(HEADER)?;
    let mut read = Read::default();
    while let Some(bytes) = lines.next()? {
        read.lines += 1;
        match trace::line(bytes) {
            Some(line) if trace::takes(model, &line) => {
                if !model.is_started() {
                    model.take(&line);
                }
                to.write_all(bytes)?;
            }
            _ => {
                read.listed += 1;
                write!(list, "{},{}\r\n", read.lines, field(bytes))?;
            }
        }
    }
    to.flush()?;
    list.flush()?;
    Ok(Some(read))
}

/// The field that the list names for a line: 0 where none is at fault.
fn field(bytes: &[u8]) -> usize {
    match fault(bytes) {
        Some(Fault::Field(field)) => field,
        _ => 0,
    }
}

/// What is wrong with a line by itself.
#[derive(Clone, Copy, Debug, PartialEq)]
pub enum Fault {
    TooLong,
    NoEnd,
    FieldCount,
    /// The first field at fault, from 1 on.
    Field(usize),
}

/// The first fault of a line, with its end.
pub fn fault(bytes: &[u8]) -> Option<Fault> {
    if bytes.len() > MOST_BYTES {
        return Some(Fault::TooLong);
    }
    match bytes.strip_suffix(b"\r\n") {
        Some(bare) => fault_in_fields(bare),
        None => Some(Fault::NoEnd),
    }
}

/// The first fault of a line without its end.
pub fn fault_in_fields(bare: &[u8]) -> Option<Fault> {
    let Some(fields) = trace::fields(bare) else {
        return Some(Fault::FieldCount);
    };
    let Some(layout) = layout(fields[0]) else {
        return Some(Fault::Field(1));
    };
    let first = at_fault(&fields, layout).next();
    first.map(|(place, _)| Fault::Field(place))
}

/// What a field has to hold.
#[derive(Clone, Copy, Debug, PartialEq)]
pub enum Holds {
    Number,
    /// A number or nothing.
    Either,
    Empty,
    Flag,
}

use Holds::*;

/// What the fields after the kind have to hold.
type Layout = [Holds; FIELDS - 1];

const START: Layout = [
    Number, Empty, Empty, Empty, Empty, Empty, Empty, Empty, Number, Empty,
];
const SENT: Layout = [
    Number, Empty, Number, Number, Number, Empty, Empty, Empty, Empty, Empty,
];
const EVENT: Layout = [
    Number, Number, Number, Either, Empty, Number, Number, Either, Either, Flag,
];

/// None of an unknown kind.
pub fn layout(kind: &[u8]) -> Option<&'static Layout> {
    match kind {
        b"start" => Some(&START),
        b"sent" => Some(&SENT),
        b"event" => Some(&EVENT),
        _ => None,
    }
}

/// The fields at fault after the kind, from the left, each with what it has to hold;
/// the first after the kind is field 2.
pub fn at_fault<'a>(
    fields: &'a [&[u8]; FIELDS],
    layout: &'a Layout,
) -> impl Iterator<Item = (usize, Holds)> + 'a {
    let held = fields[1..].iter().zip(layout);
    (2..)
        .zip(held)
        .filter(|(_, (field, holds))| !takes(**holds, field))
        .map(|(place, (_, &holds))| (place, holds))
}

fn takes(holds: Holds, field: &[u8]) -> bool {
    match holds {
        Number => trace::whole(field).is_some(),
        Either => trace::whole_or_none(field).is_some(),
        Empty => field.is_empty(),
        Flag => trace::flag(field).is_some(),
    }
}
