//! A program that is handed whole traces, each in a process of its own, and how a
//! difference in what it writes is shown.

use std::env;
use std::ffi::OsStr;
use std::io;
use std::io::Write;
use std::process::ChildStdin;
use std::process::Command;
use std::process::Output;
use std::process::Stdio;
use std::thread;
use std::time::Duration;

use crate::trace_cases::Pieces;

/// A pipe takes so many bytes at once, whether they are read or not.
const AT_ONCE: usize = 4096;

/// Of a longer line only both ends are shown.
const MOST_SHOWN: usize = 200;

const PAUSE: Duration = Duration::from_micros(200);

/// The program that an environment variable names, with its arguments.
pub struct Port(Vec<String>);

impl Port {
    pub fn from_environment(variable: &str) -> Option<Self> {
        let command = env::var(variable).ok()?;
        let command: Vec<String> = command.split_whitespace().map(String::from).collect();
        (!command.is_empty()).then_some(Port(command))
    }

    /// Starts it, with this argument after its own if there is one, and hands it the
    /// trace: what it writes, and how it ends.
    pub fn ask(&self, trace: &[u8], pieces: Pieces, last: Option<&OsStr>) -> io::Result<Output> {
        let mut running = Command::new(&self.0[0])
            .args(&self.0[1..])
            .args(last)
            .stdin(Stdio::piped())
            .stdout(Stdio::piped())
            .stderr(Stdio::piped())
            .spawn()?;
        let to = running.stdin.take().expect("it is piped");
        if trace.len() <= AT_ONCE {
            hand_in(to, trace, pieces);
            return running.wait_with_output();
        }
        thread::scope(|scope| {
            scope.spawn(|| hand_in(to, trace, pieces));
            running.wait_with_output()
        })
    }
}

/// Writes a trace to the port, and ends its input. A port that reads no further is
/// told by what it writes.
fn hand_in(mut to: ChildStdin, trace: &[u8], pieces: Pieces) {
    let (size, pause) = match pieces {
        Pieces::Whole => (trace.len().max(1), None),
        Pieces::Of(size) => (size, None),
        Pieces::Slowly(size) => (size, Some(PAUSE)),
    };
    for piece in trace.chunks(size) {
        if to.write_all(piece).is_err() {
            return;
        }
        if let Some(pause) = pause {
            thread::sleep(pause);
        }
    }
}

/// The lines of a text, each with its end.
pub fn lines(text: &[u8]) -> impl Iterator<Item = &[u8]> {
    text.split_inclusive(|&byte| byte == b'\n')
}

/// A line of it; 0 is the first.
pub fn line_of(text: &[u8], line: usize) -> Option<&[u8]> {
    lines(text).nth(line)
}

/// The line before that one.
pub fn line_before(text: &[u8], line: usize) -> Option<&[u8]> {
    line_of(text, line.checked_sub(1)?)
}

/// The first line in which two texts differ.
pub fn first_difference(one: &[u8], other: &[u8]) -> Option<usize> {
    if one == other {
        return None;
    }
    let same = lines(one)
        .zip(lines(other))
        .take_while(|(one, other)| one == other);
    Some(same.count())
}

/// Each line after what it is.
pub fn side_by_side(named: &[(&str, Option<&[u8]>)]) -> String {
    let line = |&(what, line): &(&str, _)| format!("{what:>10}: {}", shown(line));
    named.iter().map(line).collect::<Vec<_>>().join("\n")
}

/// A line as it is shown: escaped, and not the whole of a long one.
pub fn shown(line: Option<&[u8]>) -> String {
    let Some(line) = line else {
        return "nothing".into();
    };
    match line.len() > MOST_SHOWN {
        false => line.escape_ascii().to_string(),
        true => {
            let [first, last] = [
                &line[..MOST_SHOWN / 2],
                &line[line.len() - MOST_SHOWN / 2..],
            ];
            let (first, last) = (first.escape_ascii(), last.escape_ascii());
            format!("{first} .. {last} ({} bytes)", line.len())
        }
    }
}
