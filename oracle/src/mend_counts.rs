//! Counts what mended traces show, so that none is without what it has to have.

use crate::trace;
use crate::trace::HEADER;
use crate::trace::MOST_BYTES;
use crate::trace_cases::Pieces;
use crate::trace_cases::Trace;
use crate::trace_mend;
use crate::trace_mend::Fault;
use crate::trace_mend::Holds;
use crate::trace_port::lines;
use crate::wanted::Wanted;

/// What has to occur beside the fields of `KINDS`, each at least `LEAST` times where
/// `MANY` traces are chosen: without it an error could stay unseen.
const WANTED: [&str; 33] = [
    "listed with 0: over 4,096 bytes",
    "listed with 0: over 4,096 bytes, and a field is at fault",
    "listed with 0: no CR LF",
    "listed with 0: no CR LF, and a field is at fault",
    "listed with 0: no CR LF, and nothing else at fault",
    "listed with 0: not 11 fields",
    "listed with 0: not 11 fields, and an unknown kind",
    "listed with 0: a send before an accepted start",
    "listed with 0: an event before an accepted start",
    "listed with 0: before an accepted start, after a start that is kept",
    "listed with 0: before an accepted start, after a start that is listed",
    "listed with 1",
    "listed with its first field of several",
    "listed with a number at fault, and a later field is filled",
    "listed with a filled field, and a later number is at fault",
    "listed with its field, before an accepted start",
    "listed with its field, of 4,096 bytes",
    "listed with 0, of 4,097 bytes",
    "listed: an empty line",
    "listed: the last line, which has no end",
    "listed: a line from 1,000 on",
    "kept: refused with 2",
    "kept: refused with 3",
    "kept: refused with 4",
    "kept: refused with 10",
    "kept: accepted, after a line that is listed",
    "a trace with a wrong header",
    "a trace that is a header alone",
    "a trace that is sound",
    "a trace that is sound, with refused lines",
    "a trace of which nothing is kept",
    "a trace of which some is kept",
    "a trace that is handed in in pieces",
];
const LEAST: u64 = 3;
const MANY: u64 = 200;

/// Of each of these each field after the first has to be listed.
const KINDS: [&str; 3] = ["start", "sent", "event"];

pub struct Counts {
    wanted: Wanted,
    lines: u64,
    traces: u64,
}

/// A line and what its row says of it, with what came before it.
struct Seen<'a> {
    line: &'a [u8],
    refusal: &'a str,
    /// A start was accepted, by this line or one before it.
    started: bool,
    before: Before,
}

/// What came before a line, or before the end.
#[derive(Clone, Copy, Default)]
struct Before {
    lines: u64,
    kept: u64,
    /// A line was refused.
    refused: bool,
    /// Whether the last start was kept, if there was one.
    start_kept: Option<bool>,
}

impl<'a> Seen<'a> {
    fn new(line: &'a [u8], row: &'a [u8], before: Before) -> Self {
        let row = std::str::from_utf8(row).expect("rows are plain text");
        let columns: Vec<&str> = row.split(',').collect();
        Seen {
            line,
            refusal: columns[1],
            started: !columns[2].is_empty(),
            before,
        }
    }

    fn is_listed(&self) -> bool {
        self.refusal == "6"
    }

    /// What is before the next line.
    fn after(&self) -> Before {
        let kept = !self.is_listed();
        Before {
            lines: self.before.lines + 1,
            kept: self.before.kept + kept as u64,
            refused: self.before.refused || self.refusal != "0",
            start_kept: match self.line.starts_with(b"start,") {
                true => Some(kept),
                false => self.before.start_kept,
            },
        }
    }
}

impl Counts {
    pub fn new() -> Self {
        let places = KINDS.map(|kind| (2..=trace::FIELDS).map(move |field| listed(kind, field)));
        let wanted = WANTED.iter().map(|what| what.to_string());
        let all: Vec<String> = wanted.chain(places.into_iter().flatten()).collect();
        Counts {
            wanted: Wanted::new(&all),
            lines: 0,
            traces: 0,
        }
    }

    /// Looks at a trace and the rows of its replay.
    pub fn look(&mut self, trace: &Trace, rows: &[u8]) {
        let Trace { bytes, pieces, .. } = trace;
        self.traces += 1;
        let in_pieces = !matches!(pieces, Pieces::Whole);
        self.mark("a trace that is handed in in pieces", in_pieces);
        let wrong_header = !bytes.starts_with(HEADER);
        self.mark("a trace with a wrong header", wrong_header);
        if wrong_header {
            return;
        }
        let mut before = Before::default();
        for (line, row) in lines(bytes).zip(lines(rows)).skip(1) {
            let seen = Seen::new(line, row, before);
            match seen.is_listed() {
                true => self.look_at_listed(&seen),
                false => self.look_at_kept(&seen),
            }
            before = seen.after();
        }
        self.look_at_end(before);
    }

    fn look_at_end(&mut self, before: Before) {
        let Before { lines, kept, .. } = before;
        self.lines += lines;
        let sound = lines > 0 && kept == lines;
        self.mark("a trace that is a header alone", lines == 0);
        self.mark("a trace that is sound", sound);
        let what = "a trace that is sound, with refused lines";
        self.mark(what, sound && before.refused);
        let what = "a trace of which nothing is kept";
        self.mark(what, lines > 0 && kept == 0);
        let what = "a trace of which some is kept";
        self.mark(what, 0 < kept && kept < lines);
    }

    fn look_at_kept(&mut self, seen: &Seen) {
        let Before { lines, kept, .. } = seen.before;
        match seen.refusal.split('.').next() {
            Some("0") => self.mark("kept: accepted, after a line that is listed", kept < lines),
            Some(row) => self.mark(&format!("kept: refused with {row}"), true),
            None => unreachable!("a row has a refusal"),
        }
    }

    fn look_at_listed(&mut self, seen: &Seen) {
        let line = seen.line;
        let fault = trace_mend::fault(line);
        self.mark("listed: an empty line", line == b"\r\n");
        let what = "listed: the last line, which has no end";
        self.mark(what, !line.ends_with(b"\n"));
        self.mark("listed: a line from 1,000 on", seen.before.lines >= 999);
        let what = "listed with 0, of 4,097 bytes";
        self.mark(what, line.len() == MOST_BYTES + 1);
        match fault {
            Some(Fault::Field(1)) => self.mark("listed with 1", true),
            Some(Fault::Field(field)) => self.look_at_fields(seen, field),
            Some(fault) => self.look_at_shape(line, fault),
            None => self.look_at_unstarted(seen),
        }
    }

    /// Looks at a line that is listed for a field after the first.
    fn look_at_fields(&mut self, seen: &Seen, first: usize) {
        let fields = trace::fields(bare(seen.line)).expect("it has as many as it must");
        let layout = trace_mend::layout(fields[0]).expect("the kind is known");
        let at_fault: Vec<Holds> = trace_mend::at_fault(&fields, layout)
            .map(|(_, holds)| holds)
            .collect();
        let kind = fields[0].escape_ascii().to_string();
        self.mark(&listed(&kind, first), true);
        let (first, later) = (at_fault[0], &at_fault[1..]);
        let what = "listed with its first field of several";
        self.mark(what, !later.is_empty());
        let what = "listed with a number at fault, and a later field is filled";
        self.mark(what, first != Holds::Empty && later.contains(&Holds::Empty));
        let what = "listed with a filled field, and a later number is at fault";
        let later_number = later.iter().any(|&holds| holds != Holds::Empty);
        self.mark(what, first == Holds::Empty && later_number);
        let what = "listed with its field, before an accepted start";
        self.mark(what, !seen.started && kind != "start");
        let what = "listed with its field, of 4,096 bytes";
        self.mark(what, seen.line.len() == MOST_BYTES);
    }

    /// Looks at a line whose length, end or number of fields is wrong.
    fn look_at_shape(&mut self, line: &[u8], fault: Fault) {
        let within = trace_mend::fault_in_fields(bare(line));
        let a_field = matches!(within, Some(Fault::Field(_)));
        match fault {
            Fault::TooLong => {
                self.mark("listed with 0: over 4,096 bytes", true);
                let what = "listed with 0: over 4,096 bytes, and a field is at fault";
                self.mark(what, a_field);
            }
            Fault::NoEnd => {
                self.mark("listed with 0: no CR LF", true);
                let what = "listed with 0: no CR LF, and a field is at fault";
                self.mark(what, a_field);
                let what = "listed with 0: no CR LF, and nothing else at fault";
                self.mark(what, within.is_none());
            }
            _ => {
                self.mark("listed with 0: not 11 fields", true);
                let kind = line.split(|&byte| byte == b',').next().unwrap_or(line);
                let what = "listed with 0: not 11 fields, and an unknown kind";
                self.mark(what, trace_mend::layout(kind).is_none());
            }
        }
    }

    /// Looks at a line that is listed for a missing start alone.
    fn look_at_unstarted(&mut self, seen: &Seen) {
        let is_send = seen.line.starts_with(b"sent,");
        let what = "listed with 0: a send before an accepted start";
        self.mark(what, is_send);
        let what = "listed with 0: an event before an accepted start";
        self.mark(what, !is_send);
        for (how, was_kept) in [("kept", true), ("listed", false)] {
            let what = "listed with 0: before an accepted start, after a start that is";
            let holds = seen.before.start_kept == Some(was_kept);
            self.mark(&format!("{what} {how}"), holds);
        }
    }

    fn mark(&mut self, what: &str, holds: bool) {
        self.wanted.mark(what, holds);
    }

    /// How much was mended.
    pub fn told(&self) -> String {
        format!("{} lines of {} traces", self.lines, self.traces)
    }

    pub fn tell(&self) {
        self.wanted.tell("");
    }

    /// Stops if something is missing though many traces were chosen: here, or among
    /// the damages that were done.
    pub fn hold(&self, chosen: u64, damages: &Wanted) {
        if chosen >= MANY {
            self.wanted.demand(LEAST);
            damages.demand(LEAST);
        }
    }
}

/// The name of a field that is listed.
fn listed(kind: &str, field: usize) -> String {
    format!("listed with {field:2}: {kind}")
}

/// A line without its end, whichever it is.
fn bare(line: &[u8]) -> &[u8] {
    let line = line.strip_suffix(b"\n").unwrap_or(line);
    line.strip_suffix(b"\r").unwrap_or(line)
}
