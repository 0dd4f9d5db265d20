//! The comparison of whole traces with a port, a program that reads a trace from its
//! standard input and writes the rows: what it writes is held to what the original
//! and the reading of the text here answer, byte for byte.

use std::fs;
use std::io;
use std::path::Path;
use std::time::Duration;
use std::time::Instant;

use crate::trace;
use crate::trace::Model;
use crate::trace_cases;
use crate::trace_cases::Pieces;
use crate::trace_cases::Trace;
use crate::trace_counts::Counts;
use crate::trace_port::first_difference;
use crate::trace_port::line_before;
use crate::trace_port::line_of;
use crate::trace_port::shown;
use crate::trace_port::side_by_side;
use crate::trace_port::Port;
use crate::trace_replay::Replay;
use crate::trace_steps::Steps;
use crate::trace_world::ByTable;

/// A trace that is chosen has at most so many lines.
const MOST_LINES: u64 = 50_000;

pub const PROGRESS: Duration = Duration::from_secs(10);

/// Compares the port with the original on the cases and on so many chosen lines;
/// whether nothing differed. None where PORT names no port.
pub fn run(seed: u64, lines: u64) -> Option<bool> {
    let port = Port::from_environment("PORT")?;
    let mut counts = Counts::new();
    let mut told = Instant::now();
    let mut chosen = Chosen::new(seed, lines);
    let cases = trace_cases::all().into_iter();
    for trace in cases.chain(chosen.by_ref()) {
        let rows = rows(&trace.bytes);
        counts.look(&trace.bytes, &rows);
        if let Err(why) = compare(&port, &trace, &rows) {
            println!("In the trace {}, from seed {seed}:", trace.name);
            println!("{why}");
            println!("{}, a difference", counts.told());
            return Some(false);
        }
        if told.elapsed() > PROGRESS {
            told = Instant::now();
            eprintln!("{}", counts.told());
        }
    }
    counts.tell();
    chosen.steps.damages.tell("");
    counts.hold(lines, &chosen.steps.damages);
    println!("{}, 0 differences", counts.told());
    Some(true)
}

/// Writes the traces and their rows into a folder.
pub fn write(seed: u64, lines: u64, folder: &Path) -> io::Result<()> {
    fs::create_dir_all(folder)?;
    for Trace { name, bytes, .. } in trace_cases::all()
        .into_iter()
        .chain(Chosen::new(seed, lines))
    {
        fs::write(folder.join(format!("{name}.csv")), &bytes)?;
        fs::write(folder.join(format!("{name}.rows.csv")), rows(&bytes))?;
    }
    Ok(())
}

/// The rows that answer a trace, by the whole table. The command `replay`, which
/// asks only what a trace can fail, has to write the same.
pub fn rows(trace: &[u8]) -> Vec<u8> {
    let by_table = rows_by(trace, &mut ByTable::new());
    let direct = rows_by(trace, &mut Replay::new());
    if let Some(first) = first_difference(&by_table, &direct) {
        let [table, direct] = [&by_table, &direct].map(|rows| shown(line_of(rows, first)));
        panic!("line {first}: by the table {table}, by the command `replay` {direct}");
    }
    by_table
}

fn rows_by(trace: &[u8], model: &mut impl Model) -> Vec<u8> {
    let mut rows = Vec::new();
    trace::replay(trace, &mut rows, model).expect("memory can be read and written");
    rows
}

/// Chosen traces, as long as lines are left.
struct Chosen {
    steps: Steps,
    left: u64,
    most: u64,
    count: usize,
}

impl Chosen {
    fn new(seed: u64, lines: u64) -> Self {
        Chosen {
            steps: Steps::new(seed),
            left: lines,
            most: MOST_LINES.min(lines / 8 + 1),
            count: 0,
        }
    }
}

impl Iterator for Chosen {
    type Item = Trace;

    /// One in three is sound. Most are whole, and some in pieces.
    fn next(&mut self) -> Option<Trace> {
        if self.left == 0 {
            return None;
        }
        let most = match self.count % 4 {
            0 => self.most / 20 + 1,
            _ => self.most,
        };
        let lines = 1 + self.steps.below(most.min(self.left));
        let sound = self.count % 3 == 0;
        let bytes = self.steps.trace(lines, !sound);
        let pieces = Pieces::chosen(self.count % 8, &bytes);
        let manner = if sound { "sound" } else { "damaged" };
        self.left = self.left.saturating_sub(rows_of(&bytes));
        self.count += 1;
        Some(Trace {
            name: format!("{manner}-{}", self.count),
            bytes,
            pieces,
        })
    }
}

/// How many rows a trace with a sound header is answered with.
fn rows_of(trace: &[u8]) -> u64 {
    let ends = trace.iter().filter(|&&byte| byte == b'\n').count();
    (ends + !trace.ends_with(b"\n") as usize - 1) as u64
}

/// Hands the trace to the port; what differs from these rows, if anything does.
fn compare(port: &Port, trace: &Trace, expected: &[u8]) -> Result<(), String> {
    let answer = port
        .ask(&trace.bytes, trace.pieces, None)
        .map_err(|error| format!("No answer from the port: {error}."))?;
    let (rows, ended) = (answer.stdout, answer.status);
    if let Some(line) = first_difference(expected, &rows) {
        return Err(difference(trace, line, expected, &rows));
    }
    match ended.success() {
        true => Ok(()),
        false => Err(format!(
            "The rows are right, and the port's end is {ended}."
        )),
    }
}

/// The line at which the rows differ, and both rows.
fn difference(trace: &Trace, line: usize, expected: &[u8], given: &[u8]) -> String {
    let Trace { bytes, pieces, .. } = trace;
    // Where the header is wrong, row 1 is the row of line 0.
    let wrong_header = line_of(expected, 1).is_some_and(|row| row.starts_with(b"0,"));
    let asked = if wrong_header { 0 } else { line };
    let lines = side_by_side(&[
        ("before", line_before(bytes, asked)),
        ("line", line_of(bytes, asked)),
        ("row before", line_before(expected, line)),
        ("expected", line_of(expected, line)),
        ("given", line_of(given, line)),
    ]);
    format!(
        "{} bytes, handed in {pieces:?}\n{lines}\nfirst in line {asked} (0 is the header)",
        bytes.len()
    )
}
