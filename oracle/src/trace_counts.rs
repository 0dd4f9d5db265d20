//! Counts what compared traces show, so that none is without what it has to have.

use crate::trace::HEADER;
use crate::wanted::Wanted;

/// What has to occur, each at least `LEAST` times where `MANY` lines are chosen:
/// without it an error could stay unseen.
const WANTED: [&str; 31] = [
    "accepted: start",
    "accepted: sent",
    "accepted: event",
    "refused with 2.1",
    "refused with 2.2",
    "refused with 2.3",
    "refused with 2.4",
    "refused with 2.5",
    "refused with 2.9",
    "refused with 3",
    "refused with 4",
    "refused with 6",
    "refused with 10",
    "before an accepted start: a send",
    "before an accepted start: an event",
    "before an accepted start: a start that is refused",
    "a later start is accepted, after a round",
    "a later start is accepted, and lo was set",
    "a later start is refused with 2, and lo is set",
    "a later start is refused with 6, and lo is set",
    "a line after a refused later start is accepted",
    "a round ends",
    "a round ends, and lo is set first",
    "a round ends, and lo is cut",
    "a round ends, and lo stays, above 0",
    "lo is cut to 0",
    "max_bw rises",
    "max_bw is at its bound",
    "a header is wrong",
    "a line is over 4,096 bytes",
    "the last line has no end",
];
const LEAST: u64 = 3;
const MANY: u64 = 20_000;

pub struct Counts {
    wanted: Wanted,
    lines: u64,
    traces: u64,
}

/// The columns of a row.
#[derive(Clone, Copy, Default)]
struct Row<'a> {
    refusal: &'a str,
    round: &'a str,
    max_bw: &'a str,
    lo: &'a str,
}

impl<'a> Row<'a> {
    fn of(row: &'a [u8]) -> Self {
        let row = std::str::from_utf8(row).expect("rows are plain text");
        let mut columns = row.trim_end().split(',').skip(1);
        let mut next = || columns.next().expect("a row has six columns");
        Row {
            refusal: next(),
            round: next(),
            max_bw: next(),
            lo: next(),
        }
    }
}

/// The number in a column that isn't empty.
fn number(column: &str) -> Option<u64> {
    column.parse().ok()
}

impl Counts {
    pub fn new() -> Self {
        Counts {
            wanted: Wanted::new(&WANTED),
            lines: 0,
            traces: 0,
        }
    }

    /// Looks at a trace and its rows.
    pub fn look(&mut self, trace: &[u8], rows: &[u8]) {
        self.traces += 1;
        self.wanted
            .mark("a header is wrong", !trace.starts_with(HEADER));
        self.wanted
            .mark("the last line has no end", !trace.ends_with(b"\n"));
        if !trace.starts_with(HEADER) {
            return;
        }
        let [lines, rows] =
            [trace, rows].map(|text| text.split_inclusive(|&byte| byte == b'\n').skip(1));
        let mut before = Row::default();
        let mut refused_start = false;
        for (line, row) in lines.zip(rows) {
            let row = Row::of(row);
            self.lines += 1;
            self.look_at(line, before, row);
            let is_start = line.starts_with(b"start,");
            let what = "a line after a refused later start is accepted";
            self.wanted
                .mark(what, refused_start && row.refusal == "0" && !is_start);
            refused_start = is_start && row.refusal != "0" && !row.round.is_empty();
            before = row;
        }
    }

    /// Looks at a line, the row before it and its own.
    fn look_at(&mut self, line: &[u8], before: Row, row: Row) {
        let end = line
            .iter()
            .position(|&byte| byte == b',')
            .unwrap_or(line.len());
        let kind = &line[..end];
        let (started, starts) = (!before.round.is_empty(), kind == b"start");
        let (accepted, refused) = (row.refusal == "0", row.refusal != "0");
        let lo = (number(before.lo), number(row.lo));
        match accepted {
            true => self.mark(&format!("accepted: {}", kind.escape_ascii()), true),
            false => self.mark(&format!("refused with {}", row.refusal), true),
        }
        let first = !started && refused;
        self.mark("before an accepted start: a send", first && kind == b"sent");
        self.mark(
            "before an accepted start: an event",
            first && kind == b"event",
        );
        self.mark(
            "before an accepted start: a start that is refused",
            first && starts,
        );
        let later = started && starts;
        let done = later && accepted;
        let rounds = before.round != "0";
        self.mark("a later start is accepted, after a round", done && rounds);
        self.mark(
            "a later start is accepted, and lo was set",
            done && lo.0.is_some(),
        );
        for refusal in ["2", "6"] {
            let what = format!("a later start is refused with {refusal}, and lo is set");
            let holds = row.refusal.starts_with(refusal);
            self.mark(&what, later && holds && lo.0.is_some());
        }
        let ended = started && !starts && before.round != row.round;
        self.mark("a round ends", ended);
        self.mark(
            "a round ends, and lo is set first",
            ended && lo.0 < lo.1 && lo.0.is_none(),
        );
        self.mark(
            "a round ends, and lo is cut",
            ended && lo.0.is_some() && lo.1 < lo.0,
        );
        let stays = lo.0 == lo.1 && lo.0 > Some(0);
        self.mark("a round ends, and lo stays, above 0", ended && stays);
        self.mark("lo is cut to 0", ended && lo.0 > Some(0) && lo.1 == Some(0));
        let bw = (number(before.max_bw), number(row.max_bw));
        self.mark("max_bw rises", started && bw.0 < bw.1);
        self.mark("max_bw is at its bound", bw.1 == Some(1 << 40));
        self.mark("a line is over 4,096 bytes", line.len() > 4096);
    }

    fn mark(&mut self, what: &str, holds: bool) {
        self.wanted.mark(what, holds);
    }

    /// How much was compared.
    pub fn told(&self) -> String {
        format!("{} lines of {} traces", self.lines, self.traces)
    }

    pub fn tell(&self) {
        self.wanted.tell("");
    }

    /// Stops if something is missing though many lines were chosen: here, or among
    /// the damages that were done.
    pub fn hold(&self, chosen: u64, damages: &Wanted) {
        if chosen >= MANY {
            self.wanted.demand(LEAST);
            damages.demand(LEAST);
        }
    }
}
