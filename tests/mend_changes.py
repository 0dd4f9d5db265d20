#!/usr/bin/env python3
"""Wrong programs, each of which the comparison of mended traces (tests/mend_diff.sh) must notice: small changes to how the
oracle mends a trace.

    tests/mend_changes.py [SEED [TRACES]]

Copies the oracle to a temporary folder, makes one change at a time, and builds the oracle with it. The unchanged oracle
then has the changed one's `mend` in the place of the port's, on the cases and on TRACES traces from SEED: 1 and 300 where
they are not given, as in the gate. First the port itself, the commands in the variables PORT_MEND and PORT_REPLAY, seen
from the root of the repository, has to pass on all of these traces: so a change is noticed where it leaves something else
than the port does. Without them the unchanged oracle stands in the port's place, which tries the comparison alone. A
change that isn't noticed is listed, and the script ends with 1. ORIGINAL says where the original is, as for the oracle.

Changes to how a line is read, so that other lines are dropped, are those of tests/trace_changes.py; here are only some."""

import os
import shutil
import subprocess
import sys
import tempfile

from changes import ROOT, build, copies
from trace_changes import TEXT, edited, read, write

COMPARISON = "compare-mends"
MEND = "trace_mend.rs"
RUN = "pub fn run(list"
COPY = "pub fn mend<L"
NAMED = "fn field(bytes"
LINE = "pub fn fault(bytes"
FIELDS = "pub fn fault_in_fields("
FIRST = "let first = at_fault(&fields, layout).next();"
ENTRY = "write!(list, \"{},{}\\r\\n\", read.lines, field(bytes))?;"
KEPT = "to.write_all(bytes)?;"
NEXT = "while let Some(bytes) = lines.next()? {\n        read.lines += 1;"
SOUND = "Some(line) if trace::takes(model, &line) => {"
ACCEPTED = "model.take(&trace::Line::Start { time: 0, rtt: 0 });"


def entry(number, field="field(bytes)", text="{},{}\\r\\n"):
    """The entry of the list with another number, field or text."""
    return (MEND, COPY, ENTRY, "write!(list, \"%s\", %s, %s)?;" % (text, number, field))


def first(order):
    """The field that comes first by another order than that of the fields."""
    return (MEND, FIELDS, FIRST, "let first = at_fault(&fields, layout).min_by_key(|&(place, holds)| (%s, place));" % order)


def held(kind, fields, instead):
    """What the fields of a kind have to hold, otherwise."""
    return (MEND, "const %s: Layout = [" % kind, fields, instead)


# What the wrong program does; then each edit: in which file; after which words, that occur once; what is found first
# after them; what is put in its place.
CHANGES = [
    # The field that is named.
    ("the last field at fault is named", (MEND, FIELDS, ".next();", ".last();")),
    ("the second field at fault is named, if there is one", (MEND, FIELDS, FIRST, "let mut all = at_fault(&fields, layout);\n    let first = all.next();\n    let first = all.next().or(first);")),
    ("fields are counted from 0", (MEND, "pub fn at_fault<", "(2..)", "(1..)"), (MEND, FIELDS, "Fault::Field(1)", "Fault::Field(0)")),
    ("fields after the kind are counted from 0", (MEND, "pub fn at_fault<", "(2..)", "(1..)")),
    ("an unknown kind is named 0", (MEND, FIELDS, "Fault::Field(1)", "Fault::FieldCount")),
    ("an unknown kind is read as a send", (MEND, "pub fn layout(", "_ => None", "_ => Some(&SENT)")),
    ("fields that are wrongly filled are named first", first("holds != Empty")),
    ("numbers at fault are named first", first("holds == Empty")),
    ("a flag at fault is named first", first("holds != Flag")),
    ("fields that may be empty are named last", first("holds == Either")),
    ("the kind is asked before the field count", (MEND, FIELDS, "return Some(Fault::FieldCount);", "return match layout(bare.split(|&byte| byte == b',').next()?) {\n            None => Some(Fault::Field(1)),\n            _ => Some(Fault::FieldCount),\n        };")),
    ("of a wrong field count the last field is named", (MEND, FIELDS, "return Some(Fault::FieldCount);", "return Some(Fault::Field(bare.split(|&byte| byte == b',').count().min(FIELDS)));")),
    ("of twelve fields the first eleven are looked at", (MEND, FIELDS, "trace::fields(bare)", "trace::fields(bare).or_else(|| trace::fields(&bare[..bare.iter().rposition(|&byte| byte == b',')?]))")),
    ("without CR LF the fields are looked at", (MEND, LINE, "None => Some(Fault::NoEnd)", "None => fault_in_fields(bytes)")),
    ("without CR the fields are looked at", (MEND, LINE, "None => Some(Fault::NoEnd)", "None => fault_in_fields(bytes.strip_suffix(b\"\\n\").unwrap_or(b\"\"))")),
    ("without CR LF the last field is named", (MEND, LINE, "None => Some(Fault::NoEnd)", "None => Some(Fault::Field(FIELDS))")),
    ("a line of 4,097 bytes is looked into", (MEND, LINE, "bytes.len() > MOST_BYTES", "bytes.len() > MOST_BYTES + 1")),
    ("a line of 4,096 bytes is too long", (MEND, LINE, "bytes.len() > MOST_BYTES", "bytes.len() >= MOST_BYTES")),
    ("the 4,096 are without CR LF", (MEND, LINE, "bytes.len() > MOST_BYTES", "bytes.len() > MOST_BYTES + 2"), (TEXT, "pub fn next(&mut self)", "MOST_BYTES as u64 + 1", "MOST_BYTES as u64 + 3"), (TEXT, "pub fn next(&mut self)", "self.line.len() > MOST_BYTES", "self.line.len() > MOST_BYTES + 2")),
    ("a missing start is named 1", (MEND, NAMED, "_ => 0", "None => 1,\n        _ => 0")),
    ("a missing start is asked before the fields", entry("read.lines", "if model.is_started() || bytes.starts_with(b\"start\") { field(bytes) } else { 0 }")),
    ("before a start no field is named", entry("read.lines", "if model.is_started() { field(bytes) } else { 0 }")),
    ("no field is named", entry("read.lines", "0")),
    ("an event's number may not be empty", held("EVENT", "Number, Number, Number, Either", "Number, Number, Number, Number")),
    ("an event's bandwidth may not be empty", held("EVENT", "Either, Either, Flag", "Number, Either, Flag")),
    ("an event's round trip may not be empty", held("EVENT", "Either, Either, Flag", "Either, Number, Flag")),
    ("an event's bytes may be filled", held("EVENT", "Either, Empty", "Either, Either")),
    ("an event's total may be empty", held("EVENT", "Empty, Number", "Empty, Either")),
    ("a send's number may be empty", held("SENT", "Number, Number, Number", "Number, Either, Number")),
    ("a send's window may be filled", held("SENT", "Number, Empty", "Number, Either")),
    ("a start's probing may be filled", held("START", "Number, Empty,\n", "Number, Either,\n")),
    ("a flag is a number", (MEND, "fn takes(holds", "trace::flag(field).is_some()", "trace::whole(field).is_some()")),
    ("a leading zero is no fault", (MEND, "fn takes(holds", "trace::whole(field).is_some()", "!field.is_empty() && field.iter().all(u8::is_ascii_digit)")),
    ("2^64 is no fault", (MEND, "fn takes(holds", "trace::whole(field).is_some()", "trace::whole(field).is_some() || field == b\"18446744073709551616\"")),
    # Which lines are dropped.
    ("a start with 6 counts as a start", (MEND, COPY, "_ => {", "_ => {\n                if bytes.starts_with(b\"start,\") {\n                    %s\n                }" % ACCEPTED)),
    ("a refused start counts as a start", (MEND, COPY, "model.take(&line);", "model.take(&line);\n                    %s" % ACCEPTED)),
    ("a start is needed by sends alone", (MEND, COPY, SOUND, "Some(trace::Line::Event(_)) => %s\n            %s" % (KEPT.replace(";", ","), SOUND))),
    ("a start is needed by events alone", (MEND, COPY, SOUND, "Some(trace::Line::Sent { .. }) => %s\n            %s" % (KEPT.replace(";", ","), SOUND))),
    ("lines with other refusals are dropped", (MEND, COPY, "trace::takes(model, &line)", "trace::takes(model, &line) && model.take(&line) == 0")),
    ("refused starts are dropped", (MEND, COPY, "trace::takes(model, &line)", "trace::takes(model, &line)\n                && (!matches!(line, trace::Line::Start { .. }) || model.take(&line) == 0)")),
    ("refused starts are dropped, but later ones not", (MEND, COPY, "trace::takes(model, &line)", "trace::takes(model, &line) && (model.is_started() || model.take(&line) == 0)")),
    ("a second start is dropped", (MEND, COPY, "trace::takes(model, &line)", "trace::takes(model, &line) && !(model.is_started() && matches!(line, trace::Line::Start { .. }))")),
    ("a cut last line is ended and kept", (MEND, COPY, NEXT, NEXT + "\n        let ended = [bytes, b\"\\r\\n\"].concat();\n        let bytes = if bytes.ends_with(b\"\\n\") { bytes } else { &ended[..] };")),
    ("a line without CR is ended and kept", (MEND, COPY, NEXT, NEXT + "\n        let ended = [bytes.trim_ascii_end(), b\"\\r\\n\"].concat();\n        let bytes = if bytes.ends_with(b\"\\n\") { &ended[..] } else { bytes };")),
    ("the rest of a line that is too long is another line", (TEXT, "pub fn next(&mut self)", "self.from.skip_until(b'\\n')?;", "")),
    # How lines are counted.
    ("lines are counted in the mended trace", entry("read.lines - read.listed + 1")),
    ("lines are counted from 0", entry("read.lines - 1")),
    ("the header is line 1", entry("read.lines + 1")),
    ("entries are counted", entry("read.listed")),
    ("numbers wrap at 4,096", entry("read.lines % 4096")),
    ("an empty line is passed over", (MEND, COPY, NEXT, "while let Some(bytes) = lines.next()? {\n        if bytes == b\"\\r\\n\" {\n            continue;\n        }\n        read.lines += 1;")),
    ("a last line without end is passed over", (MEND, COPY, NEXT, "while let Some(bytes) = lines.next()? {\n        if !bytes.ends_with(b\"\\n\") {\n            break;\n        }\n        read.lines += 1;")),
    ("after the last line there is an empty one", (MEND, COPY, "to.flush()?;", "read.lines += 1;\n    read.listed += 1;\n    write!(list, \"{},0\\r\\n\", read.lines)?;\n    to.flush()?;")),
    ("after a cut line there is an empty one", (MEND, COPY, "match trace::line(bytes) {", "if !bytes.ends_with(b\"\\n\") {\n            write!(list, \"{},0\\r\\n\", read.lines + 1)?;\n        }\n        match trace::line(bytes) {")),
    # What is written.
    ("entries end with LF", entry("read.lines", text="{},{}\\n")),
    ("the list's header ends with LF", (MEND, "pub const LIST_HEADER", "b\"line,field\\r\\n\"", "b\"line,field\\n\"")),
    ("the list has no header", (MEND, COPY, "list.write_all(LIST_HEADER)?;", "")),
    ("the header is listed", (MEND, COPY, "list.write_all(LIST_HEADER)?;", "list.write_all(LIST_HEADER)?;\n    list.write_all(b\"0,0\\r\\n\")?;")),
    ("the list has its header only where something is listed", (MEND, COPY, "list.write_all(LIST_HEADER)?;", ""), (MEND, COPY, "read.listed += 1;", "if read.listed == 0 {\n                    list.write_all(LIST_HEADER)?;\n                }\n                read.listed += 1;")),
    ("a blank follows the comma of an entry", entry("read.lines", text="{}, {}\\r\\n")),
    ("the last entry has no end", (MEND, COPY, "list.write_all(LIST_HEADER)?;", "list.write_all(b\"line,field\")?;"), entry("read.lines", text="\\r\\n{},{}")),
    ("the mended trace has no header", (MEND, COPY, "to.write_all(HEADER)?;", "")),
    ("the ends of kept lines are LF", (MEND, COPY, KEPT, "to.write_all(&bytes[..bytes.len() - 2])?;\n                to.write_all(b\"\\n\")?;")),
    ("kept lines are listed, too", (MEND, COPY, KEPT, KEPT + "\n                write!(list, \"{},0\\r\\n\", read.lines)?;")),
    ("the list has the lines that are kept", (MEND, COPY, KEPT, KEPT + "\n                list.write_all(bytes)?;")),
    ("only the first 1,000 lines are copied", (MEND, COPY, KEPT, "if read.lines <= 1000 {\n                    %s\n                }" % KEPT)),
    # The header, and what is said.
    ("any header is taken", (MEND, COPY, "lines.next()? != Some(HEADER)", "lines.next()?.is_none()")),
    ("a header that ends with LF is taken", (MEND, COPY, "lines.next()? != Some(HEADER)", "!lines.next()?.is_some_and(|it| it == HEADER || it == [&HEADER[..HEADER.len() - 2], b\"\\n\"].concat())")),
    ("a list is made where the header is wrong", (MEND, COPY, "if lines.next()?", "let mut list = make_list()?;\n    if lines.next()?"), (MEND, "return Ok(None);\n    }", "let mut list = make_list()?;", "")),
    ("a wrong header is copied", (MEND, COPY, "return Ok(None);", "to.write_all(HEADER)?;\n        return Ok(None);")),
    ("6 is said on standard output", (MEND, RUN, "eprintln!(\"6\")", "println!(\"6\")")),
    ("6 is said in more words", (MEND, RUN, "eprintln!(\"6\")", "eprintln!(\"6: the header is wrong\")")),
    ("a wrong header ends with 1", (MEND, RUN, "eprintln!(\"6\")", "{\n            eprintln!(\"6\");\n            std::process::exit(1)\n        }")),
    ("where something is listed the end is 1", (MEND, RUN, "eprint!(\"{}\", read.summary()),", "{\n            eprint!(\"{}\", read.summary());\n            std::process::exit((read.listed > 0) as i32)\n        }")),
    ("the summary counts the header", (MEND, "pub fn summary(", "let kept = lines - listed;", "let kept = lines + 1 - listed;")),
    ("the summary has kept and listed the wrong way round", (MEND, "pub fn summary(", "kept: {kept}\\nlisted: {listed}", "kept: {listed}\\nlisted: {kept}")),
    ("nothing is said where nothing is listed", (MEND, RUN, "Some(read) =>", "Some(read) if read.listed == 0 => {}\n        Some(read) =>")),
]


def compare(oracle, mend, replay, seed, traces):
    """The end of the comparison, and what it said."""
    environment = dict(os.environ, PORT_MEND=mend, PORT_REPLAY=replay)
    ran = subprocess.run([oracle, COMPARISON, seed, traces], cwd=ROOT, env=environment, capture_output=True, text=True)
    return ran.returncode, ran.stdout.splitlines() or [ran.stderr.strip() or "nothing"]


def main():
    seed, traces = (sys.argv[1:] + ["1", "300"][len(sys.argv) - 1:])[:2]
    if len(sys.argv) > 3 or not (seed + traces).isdecimal():
        sys.exit("name a seed and how many traces, as 1 300, or neither")
    unnoticed = []
    with tempfile.TemporaryDirectory() as folder:
        _, source, parts = copies(folder)
        texts = read(source)
        with open(os.path.join(source, MEND)) as opened:
            texts[MEND] = opened.read()
        every = [(what, edited(texts, edits)) for what, *edits in CHANGES]
        unchanged = shutil.copy(build(*parts, COMPARISON), os.path.join(folder, "unchanged"))
        mend, replay = (os.environ.get("PORT_" + name.upper()) or "%s %s" % (unchanged, name) for name in ("mend", "replay"))
        status, said = compare(unchanged, mend, replay, seed, traces)
        if status != 0:
            sys.exit("The unchanged oracle and the port %s: %s" % ("differ" if status == 1 else "can't be compared", "\n".join(said)))
        print("unchanged: %s" % said[-1], flush=True)
        for what, with_change in every:
            write(source, with_change)
            status, said = compare(unchanged, build(*parts, COMPARISON) + " mend", replay, seed, traces)
            if status not in (0, 1):
                sys.exit("%s: the comparison fails: %s" % (what, said[-1]))
            print("%s: %s" % (what, "%s: %s" % (said[-1], said[0]) if status else "NOT NOTICED"), flush=True)
            unnoticed += [what] * (status == 0)
    print("%d of %d changes noticed" % (len(CHANGES) - len(unnoticed), len(CHANGES)))
    for what in unnoticed:
        print("not noticed: %s" % what)
    return 1 if unnoticed else 0


if __name__ == "__main__":
    sys.exit(main())
