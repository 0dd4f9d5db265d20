//! The comparison of mended traces with a port of two programs, `mend` and `replay`.
//! What `mend` leaves is held to the mending here, byte for byte, and by the port's
//! own replay to what request k promises.

use std::cell::Cell;
use std::env;
use std::fs;
use std::io;
use std::path::PathBuf;
use std::process;
use std::process::Output;
use std::time::Instant;

use crate::mend_counts::Counts;
use crate::mend_promises::complete;
use crate::mend_promises::count;
use crate::mend_promises::differ;
use crate::mend_promises::listed;
use crate::mend_promises::number;
use crate::mend_promises::refused;
use crate::mend_promises::same_rows;
use crate::trace::HEADER;
use crate::trace_cases;
use crate::trace_cases::Pieces;
use crate::trace_cases::Trace;
use crate::trace_diff;
use crate::trace_diff::PROGRESS;
use crate::trace_mend;
use crate::trace_mend::Read;
use crate::trace_mend::LIST_HEADER;
use crate::trace_port::first_difference;
use crate::trace_port::line_of;
use crate::trace_port::side_by_side;
use crate::trace_port::Port;
use crate::trace_steps::Steps;
use crate::trace_world::ByTable;

/// A trace that is chosen has at most so many lines,
const FEW_LINES: u64 = 40;

/// and one of `LONG` at most so many.
const MANY_LINES: u64 = 4000;
const LONG: usize = 199;

/// One of so many is sound.
const SOUND: usize = 7;

/// Of so many, one each comes in pieces of each size.
const IN_PIECES: usize = 48;

/// Compares the port with the mending here on the cases and on so many chosen traces;
/// whether nothing was wrong. None where PORT_MEND or PORT_REPLAY names no program.
pub fn run(seed: u64, traces: u64) -> Option<bool> {
    let port = Programs::from_environment()?;
    let mut counts = Counts::new();
    let mut steps = Steps::new(seed);
    let mut told = Instant::now();
    let cases = [trace_cases::all(), trace_cases::for_mending()].into_iter();
    let chosen = (1..=traces as usize).map(|count| chosen(&mut steps, count));
    for trace in cases.flatten().chain(chosen) {
        let rows = trace_diff::rows(&trace.bytes);
        let expected = Left::by_reading(&trace.bytes, &rows);
        counts.look(&trace, &rows);
        if let Err(why) = port.compare(&trace, &expected) {
            println!("In the trace {}, from seed {seed}:", trace.name);
            println!("{why}");
            println!("{}, something wrong", counts.told());
            return Some(false);
        }
        if told.elapsed() > PROGRESS {
            told = Instant::now();
            eprintln!("{}", counts.told());
        }
    }
    counts.tell();
    steps.damages.tell("");
    counts.hold(traces, &steps.damages);
    println!("{}, 0 wrong", counts.told());
    Some(true)
}

/// A trace from the seed; short and damaged, but for some.
fn chosen(steps: &mut Steps, count: usize) -> Trace {
    let most = match count % LONG {
        0 => MANY_LINES,
        _ => FEW_LINES,
    };
    let lines = steps.below(most + 1);
    let sound = count % SOUND == 0;
    let bytes = steps.trace(lines, !sound);
    let pieces = Pieces::chosen(count % IN_PIECES, &bytes);
    let manner = if sound { "sound" } else { "damaged" };
    Trace {
        name: format!("{manner}-{count}"),
        bytes,
        pieces,
    }
}

/// What a mending leaves: what it wrote to standard output, the list if it made one,
/// and what it said on standard error.
struct Left {
    mended: Vec<u8>,
    list: Option<Vec<u8>>,
    said: Vec<u8>,
}

impl Left {
    /// By the mending here. It has to list what has these rows with 6.
    fn by_reading(trace: &[u8], rows: &[u8]) -> Self {
        let (mut mended, mut list) = (Vec::new(), Vec::new());
        let mut model = ByTable::new();
        let read = trace_mend::mend(trace, &mut mended, || Ok(&mut list), &mut model)
            .expect("memory can be read and written");
        let Some(read) = read else {
            return Left::of_wrong_header();
        };
        let numbers = listed(&list).expect("a list is made");
        assert_eq!(numbers, refused(rows), "the replay has 6 elsewhere");
        Left {
            mended,
            list: Some(list),
            said: read.summary().into_bytes(),
        }
    }

    fn of_wrong_header() -> Self {
        Left {
            mended: Vec::new(),
            list: None,
            said: b"6\n".to_vec(),
        }
    }

    /// Of a trace of which every line is kept.
    fn of_sound(trace: &[u8]) -> Self {
        let read = Read {
            lines: count(trace),
            listed: 0,
        };
        Left {
            mended: trace.to_vec(),
            list: Some(LIST_HEADER.to_vec()),
            said: read.summary().into_bytes(),
        }
    }
}

/// The two programs of a port, and the folder in which lists are made.
struct Programs {
    mend: Port,
    replay: Port,
    folder: Folder,
}

impl Programs {
    fn from_environment() -> Option<Self> {
        Some(Programs {
            mend: Port::from_environment("PORT_MEND")?,
            replay: Port::from_environment("PORT_REPLAY")?,
            folder: Folder::new().expect("a folder can be made"),
        })
    }

    /// Has the trace mended: how that differs from what is expected, and which promise
    /// it breaks.
    fn compare(&self, trace: &Trace, expected: &Left) -> Result<(), String> {
        let Trace { bytes, pieces, .. } = trace;
        let given = self.mended(bytes, *pieces)?;
        let promised = match bytes.starts_with(HEADER) {
            true => self.promises(trace, &given),
            false => Ok(()),
        };
        let wrong: Vec<String> = [same(bytes, expected, &given), promised]
            .into_iter()
            .filter_map(Result::err)
            .collect();
        match wrong.is_empty() {
            true => Ok(()),
            false => Err(format!(
                "{} bytes, handed in {pieces:?}\n{}",
                bytes.len(),
                wrong.join("\n")
            )),
        }
    }

    /// What holds of every trace with a right header, of what the programs wrote alone.
    fn promises(&self, trace: &Trace, given: &Left) -> Result<(), String> {
        let Trace { bytes, pieces, .. } = trace;
        let list = given.list.as_ref().ok_or("No list was made.")?;
        let numbers = listed(list)?;
        complete(bytes, &given.mended, &numbers)?;
        let rows = self.replayed(bytes, *pieces)?;
        let rows_of_mended = self.replayed(&given.mended, *pieces)?;
        same_rows(&rows, &rows_of_mended, &numbers)?;
        let again = self.mended(&given.mended, *pieces)?;
        same(&given.mended, &Left::of_sound(&given.mended), &again)
            .map_err(|why| format!("Mended again. {why}"))?;
        match refused(&rows).is_empty() {
            true => same(bytes, &Left::of_sound(bytes), given)
                .map_err(|why| format!("The trace is sound. {why}")),
            false => Ok(()),
        }
    }

    fn mended(&self, trace: &[u8], pieces: Pieces) -> Result<Left, String> {
        let path = self.folder.fresh();
        let answer = self.mend.ask(trace, pieces, Some(path.as_os_str()));
        let Output { stdout, stderr, .. } = ended("mend", answer)?;
        let list = fs::read(&path).ok();
        if list.is_some() {
            fs::remove_file(&path).map_err(|error| format!("The list stays: {error}."))?;
        }
        Ok(Left {
            mended: stdout,
            list,
            said: stderr,
        })
    }

    /// The rows that the port's replay has, as many as there are lines.
    fn replayed(&self, trace: &[u8], pieces: Pieces) -> Result<Vec<u8>, String> {
        let answer = self.replay.ask(trace, pieces, None);
        let rows = ended("replay", answer)?.stdout;
        match (count(trace), count(&rows)) {
            (lines, rows) if lines != rows => Err(format!("{rows} rows of {lines} lines.")),
            _ => Ok(rows),
        }
    }
}

/// The answer of a program that ended with 0.
fn ended(program: &str, answer: io::Result<Output>) -> Result<Output, String> {
    let answer = answer.map_err(|error| format!("No answer from `{program}`: {error}."))?;
    match answer.status.success() {
        true => Ok(answer),
        false => Err(format!("The end of `{program}` is {}.", answer.status)),
    }
}

/// A folder that is removed at the end.
struct Folder {
    path: PathBuf,
    named: Cell<u64>,
}

impl Folder {
    fn new() -> io::Result<Self> {
        let path = env::temp_dir().join(format!("mended-{}", process::id()));
        fs::create_dir(&path)?;
        Ok(Folder {
            path,
            named: Cell::new(0),
        })
    }

    /// The path of a file that never was.
    fn fresh(&self) -> PathBuf {
        self.named.set(self.named.get() + 1);
        self.path.join(format!("list-{}.csv", self.named.get()))
    }
}

impl Drop for Folder {
    fn drop(&mut self) {
        if let Err(error) = fs::remove_dir_all(&self.path) {
            eprintln!("{} stays: {error}.", self.path.display());
        }
    }
}

/// What is left of a trace that is not as expected, if anything is.
fn same(trace: &[u8], expected: &Left, given: &Left) -> Result<(), String> {
    differ("the mended trace", &expected.mended, &given.mended)?;
    match (&expected.list, &given.list) {
        (Some(expected), Some(given)) => differ("the list", expected, given)
            .map_err(|why| why + "\n" + &line_listed(trace, expected, given))?,
        (None, Some(_)) => return Err("A list was made though the header is wrong.".into()),
        (Some(_), None) => return Err("No list was made.".into()),
        (None, None) => {}
    }
    differ("standard error", &expected.said, &given.said)
}

/// The line of the trace at which two lists part.
fn line_listed(trace: &[u8], one: &[u8], other: &[u8]) -> String {
    let first = first_difference(one, other).unwrap_or(0);
    let numbers = [one, other].map(|list| line_of(list, first).and_then(number));
    let line = numbers.into_iter().flatten().min();
    let line = line.and_then(|number| line_of(trace, number as usize));
    side_by_side(&[("line", line)])
}
