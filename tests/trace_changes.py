#!/usr/bin/env python3
"""Wrong programs, each of which the comparison of traces (tests/trace.sh) must notice: small changes to how the oracle
reads a trace, refuses its lines and writes its rows.

    tests/trace_changes.py [SEED [LINES]]

Copies the oracle to a temporary folder, makes one change at a time, and builds the oracle with it. The unchanged oracle
then compares what the changed one's `replay` writes, in the port's place, with what it expects, on the cases and on LINES
lines from SEED: 1 and 20,000 where they are not given, as in the gate. First the port itself, the command in the variable
PORT, seen from the root of the repository, has to write what is expected for all of these traces: so a change is noticed
where it writes other rows than the port. Without PORT the unchanged oracle answers in the port's place, which tries the
comparison alone. A change that isn't noticed is listed, and the script ends with 1. ORIGINAL says where the original is,
as for the oracle.

Some changes are in no list, since no row could tell them: a line of 4,097 bytes taken, since no sound line is over 178; an
event without bandwidth or round trip taken with 0, since neither 0 moves what a row shows; a refused event finished with
its own record, in which no round has ended, or with the last one's, whose sums are cleared already; another bound shown
as hi that is never set either."""

import os
import shutil
import subprocess
import sys
import tempfile

from changes import ROOT, build, changed, copies

COMPARISON = "compare-traces"
TEXT = "trace.rs"
MODEL = "trace_replay.rs"
READ = "bounded.read_until(b'\\n', &mut self.line)?;"
WHOLE = "fn whole(field"
FAULT = "fn fault(line"
TESTS = "fn refusal(&self"
STEP = "fn take(&mut self, line: &Line) -> u64 {\n        let reply"
ANSWER = "pub fn replay(from"
ROW = "fn add(&mut self"
EVENT = "fn event(&mut self"
START = "fn start(&mut self"

# What the wrong program does; then each edit: in which file; after which words, that occur once; what is found first
# after them; what is put in its place.
CHANGES = [
    # Numbers.
    ("leading zeros are taken", (TEXT, WHOLE, "[b'1'..=b'9', ..]", "[b'0'..=b'9', ..]")),
    ("2^64 wraps to 0", (TEXT, WHOLE, "number.checked_mul(10)?.checked_add((byte - b'0') as u64)", "Some(number.wrapping_mul(10).wrapping_add((byte - b'0') as u64))")),
    ("numbers above 2^64 - 1 are taken for it", (TEXT, WHOLE, "number.checked_mul(10)?.checked_add((byte - b'0') as u64)", "Some(number.saturating_mul(10).saturating_add((byte - b'0') as u64))")),
    ("2^64 - 1 is refused", (TEXT, WHOLE, "match field {", "match field {\n        b\"18446744073709551615\" => None,")),
    ("numbers of 20 digits are refused", (TEXT, WHOLE, "match field {", "match field {\n        _ if field.len() > 19 => None,")),
    ("the first 20 digits are taken", (TEXT, WHOLE, "field.iter().try_fold", "field[..field.len().min(20)].iter().try_fold")),
    ("what follows the digits is passed over", (TEXT, WHOLE, "field.iter().try_fold", "field.iter().take_while(|byte| byte.is_ascii_digit()).try_fold")),
    ("blanks around a number are passed over", (TEXT, WHOLE, "match field {", "let field = field.trim_ascii();\n    match field {")),
    ("a plus sign is taken", (TEXT, WHOLE, "match field {", "let field = field.strip_prefix(b\"+\").unwrap_or(field);\n    match field {")),
    ("quotes around a number are taken", (TEXT, WHOLE, "match field {", "let field = field.strip_prefix(b\"\\\"\").and_then(|it| it.strip_suffix(b\"\\\"\")).unwrap_or(field);\n    match field {")),
    ("the eighth bit is passed over", (TEXT, WHOLE, "|number, &byte| match byte {", "|number, &byte| match byte & 0x7f {"), (TEXT, WHOLE, "(byte - b'0')", "((byte & 0x7f) - b'0')")),
    ("a NUL ends a number", (TEXT, WHOLE, "match field {", "let field = field.split(|&byte| byte == 0).next().unwrap_or(field);\n    match field {")),
    ("a colon is a digit", (TEXT, WHOLE, "b'0'..=b'9' => number", "b'0'..=b':' => number")),
    ("a slash is a digit", (TEXT, WHOLE, "b'0'..=b'9' => number", "b'0'..=b'9' | b'/' if byte == b'/' => Some(number),\n            b'0'..=b'9' => number")),
    ("an empty number is 0", (TEXT, WHOLE, "b\"0\" => Some(0),", "b\"0\" | b\"\" => Some(0),")),
    ("an event without a number acks 0", (TEXT, "fn whole_or_none", "b\"\" => Some(None)", "b\"\" => Some(Some(0))")),
    ("an event's number must be filled", (TEXT, "pub fn line(bytes", "whole_or_none(number)?", "Some(whole(number)?)")),
    ("an event's bandwidth must be filled", (TEXT, "pub fn line(bytes", "whole_or_none(bw)?", "Some(whole(bw)?)")),
    ("an event's round trip must be filled", (TEXT, "pub fn line(bytes", "whole_or_none(rtt)?", "Some(whole(rtt)?)")),
    ("probing 2 is taken", (TEXT, "fn flag(", "b\"1\" =>", "b\"1\" | b\"2\" =>")),
    ("an empty probing is no", (TEXT, "fn flag(", "b\"0\" =>", "b\"0\" | b\"\" =>")),
    ("any number is a flag", (TEXT, "fn flag(", "_ => None", "_ => whole(field).map(|number| number != 0)")),
    # Fields and kinds.
    ("a start may have other fields filled", (TEXT, "b\"start\" => {", "empty(&[cwnd, in_flight, number, size, acked, lost, bw, probing])?;", "")),
    ("a start may have probing filled", (TEXT, "b\"start\" => {", "bw, probing]", "bw]")),
    ("a send may have other fields filled", (TEXT, "b\"sent\" => {", "empty(&[cwnd, acked, lost, bw, rtt, probing])?;", "")),
    ("a send may have cwnd filled", (TEXT, "b\"sent\" => {", "[cwnd, acked", "[acked")),
    ("an event may have bytes filled", (TEXT, "b\"event\" => {", "empty(&[size])?;", "let _ = size;")),
    ("a kind may have capitals", (TEXT, "pub fn line(bytes", "match kind {", "match &kind.to_ascii_lowercase()[..] {")),
    ("a kind may have blanks around it", (TEXT, "pub fn line(bytes", "match kind {", "match kind.trim_ascii() {")),
    ("a kind may have quotes", (TEXT, "pub fn line(bytes", "match kind {", "match kind.strip_prefix(b\"\\\"\").and_then(|it| it.strip_suffix(b\"\\\"\")).unwrap_or(kind) {")),
    ("a kind is told by its first two letters", (TEXT, "pub fn line(bytes", "match kind {", "let kind: &[u8] = match kind {\n        [b's', b't', ..] => b\"start\",\n        [b's', b'e', ..] => b\"sent\",\n        [b'e', b'v', ..] => b\"event\",\n        _ => kind,\n    };\n    match kind {")),
    ("more than 11 fields are taken", (TEXT, "fn fields(", "parts.next().is_none().then_some(fields)", "Some(fields)")),
    ("missing fields are empty", (TEXT, "fn fields(", "parts.next()?", "parts.next().unwrap_or(b\"\")")),
    # Lines.
    ("a line may end in LF alone", (TEXT, "pub fn line(bytes", "bytes.strip_suffix(b\"\\r\\n\")?", "bytes.strip_suffix(b\"\\r\\n\").or(bytes.strip_suffix(b\"\\n\"))?")),
    ("the last line needs no end", (TEXT, "pub fn line(bytes", "bytes.strip_suffix(b\"\\r\\n\")?", "bytes.strip_suffix(b\"\\r\\n\").or((!bytes.ends_with(b\"\\n\")).then_some(bytes))?")),
    ("a line may end in CR CR LF", (TEXT, "pub fn line(bytes", "bytes.strip_suffix(b\"\\r\\n\")?", "bytes.strip_suffix(b\"\\r\\n\").map(|it| it.strip_suffix(b\"\\r\").unwrap_or(it))?")),
    ("a CR ends a line", (TEXT, "impl<R: BufRead> Lines", READ, "bounded.read_until(b'\\r', &mut self.line)?;\n        let mut rest = self.from.by_ref().take(1);\n        rest.read_until(b'\\n', &mut self.line)?;")),
    ("an empty line has no row", (TEXT, ANSWER, "number += 1;", "if bytes == b\"\\r\\n\" {\n            continue;\n        }\n        number += 1;")),
    ("the cut last line has no row", (TEXT, ANSWER, "number += 1;", "if !bytes.ends_with(b\"\\n\") {\n            continue;\n        }\n        number += 1;")),
    ("an empty line ends the trace", (TEXT, ANSWER, "number += 1;", "if bytes == b\"\\r\\n\" {\n            break;\n        }\n        number += 1;")),
    ("a line that is too long ends the trace", (TEXT, ANSWER, "number += 1;", "if bytes.len() > MOST_BYTES {\n            break;\n        }\n        number += 1;")),
    ("the rest of a line that is too long is a line", (TEXT, "impl<R: BufRead> Lines", "self.from.skip_until(b'\\n')?;", "")),
    ("the line after one that is too long is passed over", (TEXT, "impl<R: BufRead> Lines", "if self.line.len() > MOST_BYTES && !self.line.ends_with(b\"\\n\")", "if self.line.len() > MOST_BYTES")),
    ("a line that is too long loses its first bytes", (TEXT, "impl<R: BufRead> Lines", "self.from.skip_until(b'\\n')?;", "self.line.clear();\n            self.from.read_until(b'\\n', &mut self.line)?;")),
    ("a line is cut where a read ends", (TEXT, "impl<R: BufRead> Lines", READ, "let part = bounded.fill_buf()?;\n        let end = part.iter().position(|&byte| byte == b'\\n').map_or(part.len(), |at| at + 1);\n        self.line.extend_from_slice(&part[..end]);\n        bounded.consume(end);")),
    ("an input ends where a read ends in CR", (TEXT, "impl<R: BufRead> Lines", READ, "let part = bounded.fill_buf()?;\n        if part == b\"\\r\" {\n            return Ok(None);\n        }\n        " + READ)),
    # The header.
    ("a wrong header is passed over", (TEXT, ANSWER, "if lines.next()? != Some(HEADER)", "if lines.next()?.is_none()")),
    ("the lines after a wrong header are replayed", (TEXT, ANSWER, "return rows.to.flush();", "")),
    ("a header may end in LF alone", (TEXT, ANSWER, "if lines.next()? != Some(HEADER)", "if !lines.next()?.is_some_and(|it| it == HEADER || it.strip_suffix(b\"\\n\") == HEADER.strip_suffix(b\"\\r\\n\"))")),
    ("a header needs no end", (TEXT, ANSWER, "if lines.next()? != Some(HEADER)", "if !lines.next()?.is_some_and(|it| it == HEADER || Some(it) == HEADER.strip_suffix(b\"\\r\\n\"))")),
    ("a header may have capitals", (TEXT, ANSWER, "if lines.next()? != Some(HEADER)", "if !lines.next()?.is_some_and(|it| it.eq_ignore_ascii_case(HEADER))")),
    ("a header may have a byte order mark", (TEXT, ANSWER, "if lines.next()? != Some(HEADER)", "if !lines.next()?.is_some_and(|it| it.strip_prefix(b\"\\xef\\xbb\\xbf\").unwrap_or(it) == HEADER)")),
    ("a header may have blanks after it", (TEXT, ANSWER, "if lines.next()? != Some(HEADER)", "if !lines.next()?.is_some_and(|it| it.trim_ascii_end() == HEADER.trim_ascii_end() && it.ends_with(b\"\\r\\n\"))")),
    ("a header may have more after it", (TEXT, ANSWER, "if lines.next()? != Some(HEADER)", "if !lines.next()?.is_some_and(|it| it.starts_with(&HEADER[..HEADER.len() - 2]) && it.ends_with(b\"\\r\\n\"))")),
    ("an empty input has no row", (TEXT, ANSWER, "if lines.next()? != Some(HEADER)", "if lines.next()?.is_some_and(|it| it != HEADER)")),
    ("a wrong header is line 1", (TEXT, ANSWER, "rows.add(0, BAD_TEXT, None)?;", "rows.add(1, BAD_TEXT, None)?;")),
    ("the header counts as a line", (TEXT, ANSWER, "let mut number = 0;", "let mut number = 1;")),
    # Rows.
    ("refused lines are not counted", (TEXT, ANSWER, "rows.add(number, reply, shown)?;", "rows.add(number, reply, shown)?;\n        number -= u64::from(reply != 0);")),
    ("lines that are none are not counted", (TEXT, ANSWER, "rows.add(number, reply, shown)?;", "rows.add(number, reply, shown)?;\n        number -= u64::from(reply == BAD_TEXT);")),
    ("the state is shown before a start", (TEXT, ANSWER, "model.is_started().then(|| model.shown())", "Some(model.shown())")),
    ("a refused line shows no state", (TEXT, ANSWER, "model.is_started().then(|| model.shown())", "(reply == 0).then(|| model.shown())")),
    ("a line that is none shows no state", (TEXT, ANSWER, "model.is_started().then(|| model.shown())", "(model.is_started() && reply != BAD_TEXT).then(|| model.shown())")),
    ("an unset bound is printed", (TEXT, ROW, "if bound != UNSET", "if true")),
    ("an unset bound is 0", (TEXT, ROW, "digits(to, bound);\n                    }", "digits(to, bound);\n                    } else {\n                        to.push(b'0');\n                    }")),
    ("a bound of 0 is left out", (TEXT, ROW, "if bound != UNSET", "if bound != UNSET && bound != 0")),
    ("2 has no kind", (TEXT, ROW, "if kind(reply) != 0", "if false")),
    ("2 has its place", (TEXT, ROW, "digits(to, kind(reply));", "digits(to, kind(reply));\n            to.push(b'.');\n            digits(to, reply >> 16);")),
    ("the bounds change places", (TEXT, ROW, "for bound in [lo, hi]", "for bound in [hi, lo]")),
    ("round and max_bw change places", (TEXT, ROW, "for number in [round, max_bw]", "for number in [max_bw, round]")),
    ("rows end in LF alone", (TEXT, ROW, "to.extend_from_slice(b\"\\r\\n\");", "to.push(b'\\n');")),
    ("a row without state has a column less", (TEXT, ROW, "b\",,,,\"", "b\",,,\"")),
    ("what is left at the end is not written", (TEXT, "rows.add(number, reply, shown)?;", "rows.to.flush()", "{\n        std::mem::forget(rows);\n        Ok(())\n    }")),
    ("a number of 20 digits is printed without its first", (TEXT, "fn digits(", "if number == 0 {", "if number == 0 || at == 8 {")),
    # Before an accepted start.
    ("a send before a start is taken", (TEXT, "pub fn takes(", "matches!(line, Line::Start { .. })", "matches!(line, Line::Start { .. } | Line::Sent { .. })")),
    ("an event before a start is taken", (TEXT, "pub fn takes(", "matches!(line, Line::Start { .. })", "matches!(line, Line::Start { .. } | Line::Event(_))")),
    ("a refused first start counts", (MODEL, STEP, "if reply == DONE {", "self.started |= matches!(line, Line::Start { .. });\n        if reply == DONE {")),
    ("only the first start is taken", (TEXT, "pub fn takes(", "matches!(line, Line::Start { .. }) || model.is_started()", "matches!(line, Line::Start { .. }) != model.is_started()")),
    # Starts.
    ("a refused second start resets", (MODEL, STEP, "if reply == DONE {", "if let (Line::Start { .. }, true) = (line, reply != DONE && self.started) {\n            self.start(0, 0);\n        }\n        if reply == DONE {")),
    ("after a refused second start there is no state", (MODEL, STEP, "if reply == DONE {", "if let (Line::Start { .. }, true) = (line, reply != DONE) {\n            self.started = false;\n        }\n        if reply == DONE {")),
    ("after a refused second start nothing was sent", (MODEL, STEP, "if reply == DONE {", "if let (Line::Start { .. }, true) = (line, reply != DONE) {\n            self.accepted.sent = None;\n        }\n        if reply == DONE {")),
    ("a second start keeps the totals", (MODEL, START, "..Accepted::default()", "acked: self.accepted.acked,\n            lost: self.accepted.lost,\n            ..Accepted::default()")),
    ("a second start keeps what was sent", (MODEL, START, "..Accepted::default()", "sent: self.accepted.sent,\n            ..Accepted::default()")),
    ("a second start keeps the moment", (MODEL, START, "moment: time,\n            ..Accepted", "moment: self.accepted.moment.max(time),\n            ..Accepted")),
    ("a second start may not be earlier", (MODEL, TESTS, "Line::Start { .. } => DONE", "Line::Start { time, .. } if *time < before.moment => EARLIER_MOMENT,\n            Line::Start { .. } => DONE")),
    ("a start's moment is not the first one", (MODEL, START, "moment: time,\n            ..Accepted", "moment: time / 2,\n            ..Accepted")),
    ("a second start keeps lo", (MODEL, START, "self.look();", "let lo = self.shown.lo;\n        self.look();\n        self.shown.lo = self.shown.lo.min(if lo == 0 { u64::MAX } else { lo });")),
    ("a second start keeps the round", (MODEL, START, "self.shown.round = self.host.state()[ROUND_TRIP_COUNT];", "")),
    # What is asked of the model.
    ("no finish", (MODEL, EVENT, "self.host.finish();", "")),
    ("a finish before the event", (MODEL, EVENT, "self.host.event(event.time, &event.sample());", "self.host.finish();\n        self.host.event(event.time, &event.sample());"), (MODEL, "let ended =", "self.host.finish();", "")),
    ("a refused event ends the round's sums", (MODEL, STEP, "if reply == DONE {", "if let (Line::Event(event), true) = (line, reply != DONE) {\n            let mut record = event.record();\n            record.event_time = 0;\n            record.round_ended = true;\n            self.host.record(&record);\n            self.host.finish();\n        }\n        if reply == DONE {")),
    ("probing is passed over", (TEXT, "pub fn record(&self)", "probing: self.probing", "probing: false")),
    ("the window is the inflight", (TEXT, "pub fn record(&self)", "prior_cwnd: self.cwnd", "prior_cwnd: self.in_flight")),
    ("the number acked is passed over", (TEXT, "pub fn sample(&self)", "acked_length: self.number.is_some() as usize", "acked_length: 0")),
    ("the number acked is one less", (TEXT, "pub fn sample(&self)", "self.number.unwrap_or(0)", "self.number.unwrap_or(0).saturating_sub(1)")),
    ("an event without a number acks one", (TEXT, "pub fn sample(&self)", "acked_length: self.number.is_some() as usize", "acked_length: 1")),
    ("the totals change places", (TEXT, "pub fn sample(&self)", "total_acked: self.acked,\n            total_lost: self.lost", "total_acked: self.lost,\n            total_lost: self.acked")),
    ("the total lost is the event's bytes", (TEXT, "pub fn sample(&self)", "total_lost: self.lost", "total_lost: self.lost / 2")),
    ("the bandwidth is passed over", (TEXT, "pub fn sample(&self)", "bandwidth: self.bw", "bandwidth: None")),
    ("every sample is app-limited", (TEXT, "pub fn sample(&self)", "rtt: self.rtt,", "rtt: self.rtt,\n            app_limited: true,\n            total_acked: self.acked + 1,"), (TEXT, "app_limited: true", "            total_acked: self.acked,\n", "")),
    ("the largest inflight is the event's", (TEXT, "pub fn sample(&self)", "rtt: self.rtt,", "rtt: self.rtt,\n            max_inflight: self.in_flight,")),
    ("a send's number is passed over", (MODEL, STEP, "self.host.sent(time, in_flight, number, bytes)", "self.host.sent(time, in_flight, 0, bytes)")),
    ("beta is 0.25", (MODEL, START, "..self.usual", "beta: 0.25,\n            ..self.usual")),
    ("beta is one step of f32 above 0.3", (MODEL, START, "..self.usual", "beta: f32::from_bits(0x3e99_999b),\n            ..self.usual")),
    ("hi is the window's gain", (MODEL, "fn look(&mut self)", "Getter::InflightHi)", "Getter::CwndGain)")),
    ("max_bw is the estimate", (MODEL, "fn look(&mut self)", "Getter::MaxBandwidth", "Getter::BandwidthEstimate")),
    # Refusals, and their order.
    ("6 is asked after 3", (TEXT, ANSWER, "_ => BAD_TEXT,", "_ if model.is_earlier(bytes) => 3,\n            _ => BAD_TEXT,"), (TEXT, "pub trait Model {", "    /// Whether a start", "    fn is_earlier(&self, _: &[u8]) -> bool {\n        false\n    }\n\n    /// Whether a start"), (MODEL, "impl Model for Replay {", "    fn is_started", "    fn is_earlier(&self, bytes: &[u8]) -> bool {\n        let text = String::from_utf8_lossy(bytes).into_owned();\n        let time = text.split(',').nth(1).and_then(|it| it.parse::<u64>().ok());\n        self.started && !text.starts_with(\"start\") && time.is_some_and(|it| it < self.accepted.moment)\n    }\n\n    fn is_started")),
    ("6 is asked after 2.9", (TEXT, ANSWER, "_ => BAD_TEXT,", "_ if bytes.split(|&byte| byte == b',').nth(1).and_then(whole) > Some(1 << 62) => 2 + 256 * 9,\n            _ => BAD_TEXT,")),
    ("the totals are asked before the bandwidth", (MODEL, FAULT, "(event.bw.unwrap_or(0), BANDWIDTH, Kind::Bandwidth, 3),", "total(event.acked),\n            total(event.lost),\n            (event.bw.unwrap_or(0), BANDWIDTH, Kind::Bandwidth, 3),")),
    ("the round trip is asked before the bandwidth", (MODEL, FAULT, "(event.bw.unwrap_or(0), BANDWIDTH, Kind::Bandwidth, 3),", "length(event.rtt.unwrap_or(0), 3),\n            (event.bw.unwrap_or(0), BANDWIDTH, Kind::Bandwidth, 3),")),
    ("the totals are asked before the round trip", (MODEL, FAULT, "length(event.rtt.unwrap_or(0), 3),", "total(event.acked),\n            total(event.lost),\n            length(event.rtt.unwrap_or(0), 3),")),
    ("the inflight is asked before the window", (MODEL, FAULT, "(event.cwnd, BYTES, Kind::Window, 2),", "bytes(event.in_flight, 2),\n            (event.cwnd, BYTES, Kind::Window, 2),")),
    ("the window is asked before the moment", (MODEL, FAULT, "moment(event.time, 2),", "(event.cwnd, BYTES, Kind::Window, 2),\n            moment(event.time, 2),")),
    ("a start's moment is asked before its round trip", (MODEL, FAULT, "[length(rtt, 1), moment(time, 2)]", "[moment(time, 2), length(rtt, 1)]")),
    ("a send's inflight is asked before its moment", (MODEL, FAULT, "[moment(time, 1), bytes(in_flight, 2)", "[bytes(in_flight, 2), moment(time, 1)")),
    ("a window is any other byte count", (MODEL, FAULT, "Kind::Window", "Kind::Bytes")),
    ("a moment is a length", (MODEL, FAULT, "Kind::Moment", "Kind::Length")),
    ("a send's bytes are not bounded", (MODEL, FAULT, ", bytes(size, 4)]", "]"), (MODEL, FAULT, "bytes: size,\n            ..", "..")),
    ("a total has a byte count's bound", (MODEL, FAULT, "(total, TOTAL,", "(total, BYTES,")),
    ("a length's bound is one less", (MODEL, FAULT, "(rtt, LENGTH,", "(rtt, LENGTH - 1,")),
    ("a length's bound is one more", (MODEL, FAULT, "(rtt, LENGTH,", "(rtt, LENGTH + 1,")),
    ("a byte count's bound is one less", (MODEL, FAULT, "(bytes, BYTES,", "(bytes, BYTES - 1,")),
    ("a byte count's bound is one more", (MODEL, FAULT, "(bytes, BYTES,", "(bytes, BYTES + 1,")),
    ("a window's bound is one less", (MODEL, FAULT, "(event.cwnd, BYTES,", "(event.cwnd, BYTES - 1,")),
    ("a window's bound is one more", (MODEL, FAULT, "(event.cwnd, BYTES,", "(event.cwnd, BYTES + 1,")),
    ("a bandwidth's bound is one less", (MODEL, FAULT, "BANDWIDTH, Kind", "BANDWIDTH - 1, Kind")),
    ("a bandwidth's bound is one more", (MODEL, FAULT, "BANDWIDTH, Kind", "BANDWIDTH + 1, Kind")),
    ("a total's bound is one less", (MODEL, FAULT, "(total, TOTAL,", "(total, TOTAL - 1,")),
    ("a total's bound is one more", (MODEL, FAULT, "(total, TOTAL,", "(total, TOTAL + 1,")),
    ("a moment's bound is one less", (MODEL, FAULT, "(time, MOMENT,", "(time, MOMENT - 1,")),
    ("a moment's bound is one more", (MODEL, FAULT, "(time, MOMENT,", "(time, MOMENT + 1,")),
    ("an equal moment of a send is earlier", (MODEL, TESTS, "*time < before.moment", "*time <= before.moment")),
    ("an equal moment of an event is earlier", (MODEL, TESTS, "event.time < before.moment", "event.time <= before.moment")),
    ("an equal total is lower", (MODEL, TESTS, "event.acked < before.acked", "event.acked <= before.acked && event.acked > 0")),
    ("a lower total lost is taken", (MODEL, TESTS, " || event.lost < before.lost", "")),
    ("the last sent number was never sent", (MODEL, TESTS, "event.number > before.sent", "event.number >= before.sent")),
    ("a number never sent is taken", (MODEL, TESTS, "event.number.is_some() && event.number > before.sent", "event.number.is_some() && before.sent.is_none()")),
    ("a number before the first send is taken", (MODEL, TESTS, "event.number.is_some()", "before.sent.is_some()")),
    ("the greatest sent number counts", (MODEL, STEP, "self.accepted.sent = Some(number);", "self.accepted.sent = self.accepted.sent.max(Some(number));")),
    ("4 is asked before 3", (MODEL, TESTS, "Line::Event(event) if event.time", "Line::Event(event) if event.acked < before.acked || event.lost < before.lost => LOWER_TOTAL,\n            Line::Event(event) if event.time")),
    ("10 is asked before 4", (MODEL, TESTS, "Line::Event(event) if event.acked", "Line::Event(event) if event.number.is_some() && event.number > before.sent => NEVER_SENT,\n            Line::Event(event) if event.acked")),
    ("3 is asked before 2", (MODEL, STEP, "Some(fault) => fault.reply(),", "_ if self.started && self.refusal(line) == EARLIER_MOMENT => EARLIER_MOMENT,\n            Some(fault) => fault.reply(),")),
    ("10 is asked before 2", (MODEL, STEP, "Some(fault) => fault.reply(),", "_ if self.started && self.refusal(line) == NEVER_SENT => NEVER_SENT,\n            Some(fault) => fault.reply(),")),
    ("a send's moment is not kept", (MODEL, STEP, "self.accepted.moment = time;", "")),
    ("an event's moment is not kept", (MODEL, EVENT, "moment: event.time,\n", "")),
    ("an event's total acked is not kept", (MODEL, EVENT, "acked: event.acked,\n", "")),
    ("a refused moment is kept", (MODEL, STEP, "if reply == DONE {", "if let (Line::Sent { time, .. }, true) = (line, reply != DONE) {\n            self.accepted.moment = self.accepted.moment.max(*time);\n        }\n        if reply == DONE {")),
    ("a refused total is kept", (MODEL, STEP, "if reply == DONE {", "if let (Line::Event(event), true) = (line, reply != DONE) {\n            self.accepted.lost = self.accepted.lost.max(event.lost);\n        }\n        if reply == DONE {")),
    ("a refused send counts as sent", (MODEL, STEP, "if reply == DONE {", "if let (Line::Sent { number, .. }, true) = (line, reply != DONE) {\n            self.accepted.sent = Some(*number);\n        }\n        if reply == DONE {")),
]


def edited(texts, edits):
    """The texts of the files after a change."""
    texts = dict(texts)
    for file, after, find, put in edits:
        texts[file] = changed(texts[file], after, find, put)
    return texts


def read(source):
    """The texts of the files that are changed."""
    texts = {}
    for file in (TEXT, MODEL):
        with open(os.path.join(source, file)) as opened:
            texts[file] = opened.read()
    return texts


def write(source, texts):
    for file, text in texts.items():
        with open(os.path.join(source, file), "w") as opened:
            opened.write(text)


def compare(oracle, port, seed, lines):
    """The end of the comparison, and what it said: the trace, and the last line."""
    environment = dict(os.environ, PORT=port)
    ran = subprocess.run([oracle, COMPARISON, seed, lines], cwd=ROOT, env=environment, capture_output=True, text=True)
    said = ran.stdout.splitlines() or [ran.stderr.strip() or "nothing"]
    return ran.returncode, said


def main():
    seed, lines = (sys.argv[1:] + ["1", "20000"][len(sys.argv) - 1:])[:2]
    if len(sys.argv) > 3 or not (seed + lines).isdecimal():
        sys.exit("name a seed and how many lines, as 1 20000, or neither")
    unnoticed = []
    with tempfile.TemporaryDirectory() as folder:
        _, source, parts = copies(folder)
        texts = read(source)
        every = [(what, edited(texts, edits)) for what, *edits in CHANGES]
        unchanged = shutil.copy(build(*parts, COMPARISON), os.path.join(folder, "unchanged"))
        status, said = compare(unchanged, os.environ.get("PORT") or unchanged + " replay", seed, lines)
        if status != 0:
            sys.exit("The unchanged oracle and the port %s: %s" % ("differ" if status == 1 else "can't be compared", "\n".join(said)))
        print("unchanged: %s" % said[-1], flush=True)
        for what, with_change in every:
            write(source, with_change)
            status, said = compare(unchanged, build(*parts, COMPARISON) + " replay", seed, lines)
            if status not in (0, 1):
                sys.exit("%s: the comparison fails: %s" % (what, said[-1]))
            print("%s: %s" % (what, "%s: %s" % (said[-1], said[0]) if status else "NOT NOTICED"), flush=True)
            unnoticed += [what] * (status == 0)
    print("%d of %d changes noticed" % (len(CHANGES) - len(unnoticed), len(CHANGES)))
    for what in unnoticed:
        print("not noticed: %s" % what)
    return 1 if unnoticed else 0


if __name__ == "__main__":
    sys.exit(main())
