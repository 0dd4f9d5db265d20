#!/usr/bin/env python3
"""Writes what docs/calls.txt says into the places that are written from it, or holds them to it.

    tests/table.py            a line for each difference: the file, what stands there, what should; then 1
    tests/table.py --write    writes them

Written are the parts of docs/LAYOUT.md, docs/REFUSALS.md and include/guovssalu.h between the marks, and the whole of
rust/guovssalu-sys/src/table.rs. What a refusal says of an argument is tests/refusal.py's. tests/held.py holds the Rattle
source and its definitions to the same table, and VALUES, below, says where they have its values: that is compared, and
never written."""

import difflib
import os
import re
import sys

import held
import refusal
from words import PATH, ROOT, TABLE, WORD_BYTES, Fault, constant

PAGE = "docs/LAYOUT.md"
DESK = "docs/REFUSALS.md"
HEADER = "include/guovssalu.h"
RUST = "rust/guovssalu-sys/src/table.rs"
# Has numbers of calls that are not the model's.
FRAMES = "oracle/src/frame.rs"
# Around a part that is written: its first line with the part's name, and its last.
MARKS = {
    PAGE: ("<!-- {} of docs/calls.txt -->", "<!-- end -->"),
    DESK: ("<!-- {} of docs/calls.txt -->", "<!-- end -->"),
    HEADER: ("/* -- {} of docs/calls.txt -- */", "/* -- end -- */"),
}
WIDTH = 100
# Where the Rattle source and its definitions have the values: the one number that such a line has.
BOUNDS = {".rt": "crates/state/src/bounds.rt", ".antt": "crates/state/specs/Bounds.antt"}
VALUES = [
    ("UNSET", BOUNDS[".rt"], r"^pub const UNSET: u64 = (.*);$"),
    ("UNSET", BOUNDS[".antt"], r"^bytes_or_unset_ok n = .* eqb n \((.*)\)$"),
    ("LONGEST", BOUNDS[".rt"], r"^pub const MOST_LENGTH: u64 = (.*);$"),
    ("LONGEST", BOUNDS[".antt"], r"^length_ok d = leb d\.0 \((.*)\)$"),
    ("LONGEST", PATH, r"^4 +Length .*?  (\S+) ns  "),
]

# What there is to say of a size that is no thing's words or bytes.
SAID = {"MOST_ACKED": "the most acked numbers in a call itself; more stand in the lists"}

SIZE = {name: number for names in (TABLE.size, TABLE.place) for name, number, _ in names.items()}
PARTS = {
    "state": "a state: the model, then the cycle",
    "model": "a state's model",
    "cycle": "a state's cycle",
    "call": "a call",
    "arguments": "the room for a call's arguments",
    "event": "an event's record",
    "params": "the parameters",
    "answer": "an answer",
    "pair": "a pair of the filter run",
    "samples": "the filter run's answer to a pair",
    "slope": "the slope's output",
    "rtt_state": "a round-trip estimator",
    "rtt_call": "a call of the estimator's",
    "rtt_answer": "an answer of the estimator's",
}
# How names begin that are the round-trip estimator's.
RTT = refusal.RTT.upper()
# What a run of calls replies with 0.
GONE = "the calls were gone through. That says nothing of any of them: each has its own reply, in word 0 of its answer"


# ---- docs/LAYOUT.md


def grid(columns, rows):
    line = lambda cells: "| " + " | ".join(str(cell) for cell in cells) + " |"
    return [line(columns), "|" + "---|" * len(columns), *map(line, rows)]


def span(first, words):
    """Words by their places: 17, or 2, 3, or 19 to 21."""
    last = first + words - 1
    return str(first) if words == 1 else f"{first}, {last}" if words == 2 else f"{first} to {last}"


def listed(numbers):
    """Numbers in a sentence: 0, 3 and 5; three or more in a row are 3 to 7."""
    runs = []
    for number in numbers:
        if runs and runs[-1][-1] == number - 1:
            runs[-1].append(number)
        else:
            runs.append([number])
    parts = []
    for run in runs:
        parts += [f"{run[0]} to {run[-1]}"] if len(run) > 2 else [str(number) for number in run]
    return parts


def joined(parts):
    return parts[0] if len(parts) == 1 else ", ".join(parts[:-1]) + " and " + parts[-1]


def shown(field):
    return field.replace("last_packet_send_state.", "last_packet_send_state: ")


def refused(faults):
    """What a word or an argument can be refused with: 2.8 or 2.7; three or more in a row are 2.1 to 2.5."""
    return refusal.joined(["2." + part.replace(" to ", " to 2.") for part in listed(faults)]) or "never"


def marked(said):
    """What is said of an argument, with names as a page has them."""
    return f"{refusal.joined([f'`{name}`' for name in said.names])} {said.phrase}".strip()


def fault_name(row):
    """A fault's name in words: ListLength is list length."""
    return constant(row["name"]).lower().replace("_", " ")


def fault_of(row):
    """What a fault is about, and the limit."""
    if not row["limit"]:
        return row["what"]
    most = row["limit"] if " to " in row["limit"] else "at most " + row["limit"]
    return f"{row['what']}, {most}" + (f" ({row['plain']})" if row["plain"] else "")


def part_of(reply, row):
    """A part of a reply, as C and Rust say it."""
    shift = int(row["times"]).bit_length() - 1
    return f"({reply} >> {shift}) & {hex(refusal.PART - 1)}" if shift else f"{reply} & {hex(refusal.PART - 1)}"


def fields(section, part=None):
    """A row for each field: its words, its name, its kind."""
    rows = [row for row in TABLE.rows(section) if part in (None, row.get("part"))]
    return [(span(int(row["word"]), TABLE.words(row)), shown(row["field"]), row["kind"]) for row in rows]


def parts_of(whole, prefix=""):
    """The parts of a call or an answer: their words, and what they are."""
    rows = TABLE.rows(prefix.lower() + whole)
    starts = [SIZE[f"{prefix}{row['part'].upper()}_IN_{whole.upper()}"] for row in rows] + [SIZE[f"{prefix}{whole.upper()}_WORDS"]]
    for row, first, end in zip(rows, starts, starts[1:]):
        yield row, str(first) if end == first + 1 else f"{first} to {end - 1}"


def calls_with(column, value=None):
    return [int(row["number"]) for row in TABLE.rows("calls") if (row[column] if value is None else row[column] == value)]


def page_sizes():
    cycle, state = SIZE["CYCLE_IN_STATE"], SIZE["STATE_WORDS"]
    what = {
        "state": f"the model, words 0 to {cycle - 1}, and the cycle, {cycle} to {state - 1}",
        "call": "the call's number, its arguments, the event's record, the parameters",
        "answer": "the reply's number, the answer, the event's record",
    }
    rows = [(name, SIZE[name.upper() + "_WORDS"], SIZE[name.upper() + "_BYTES"], said) for name, said in what.items()]
    return grid(["array", "words", "bytes", "what"], rows)


def function_replies(function, done, other):
    """What an exported function replies, in order: done, what its arguments can be refused with, and the other rows."""
    rows = [(TABLE.reply.DONE, done), *other.items()]
    for argument in refusal.EXPORTED[function]:
        rows += [(f"2.{fault} at {argument.place}", marked(said)) for fault, said in argument.said.items()]
        rows += [(row, marked(said)) for row, said in argument.other.items() if row not in other]
    return grid(["reply", "where"], sorted(rows, key=lambda row: str(row[0])))


def page_run():
    malformed = f"the state's {SIZE['STATE_BYTES']} bytes encode no state: a word of them is malformed (below), as a flag of 2 or an unset number that is not 0"
    return function_replies("guovssalu_run", GONE, {TABLE.reply.OUT_OF_BOUNDS: malformed})


def page_kinds():
    named = lambda section: ", ".join(f"{row['number']} {row['name']}" for row in TABLE.rows(section))
    rows = []
    for row in TABLE.rows("kinds"):
        written = row["written"].replace("UNSET", f"{TABLE.value.UNSET} (2^64 - 1)")
        for section in ("phases", "reasons"):
            written = written.replace(section.upper(), named(section))
        rows.append((row["kind"], row["words"], written, row["malformed"]))
    return grid(["kind", "words", "written", "malformed"], rows)


def page_state():
    heading = ["word", "field", "kind"]
    model, cycle = grid(heading, fields("state", "model")), grid(heading, fields("state", "cycle"))
    return ["The model.", "", *model, "", "The cycle.", "", *cycle]


def page_call():
    only = {
        "event": f"; only calls {joined(listed(calls_with('event')))} read it",
        "params": f"; only calls {joined(listed(calls_with('params')))} take them",
    }
    return grid(["words", "what"], [(words, row["what"] + only.get(row["part"], "")) for row, words in parts_of("call")])


def words_of(call, argument):
    """The words of an argument, and how they are written."""
    if argument.name == "event":
        return span(SIZE["EVENT_IN_CALL"], SIZE["EVENT_WORDS"]), "the event's record, below"
    rows = [row for row in TABLE.given(call) if row["argument"] == argument.name]
    if rows:
        return span(int(rows[0]["word"]), TABLE.words(rows[0])), rows[0]["kind"]
    rows = refusal.fields(argument.name)
    return span(int(rows[0]["word"]), TABLE.width(rows)), "the table below"


def page_arguments():
    rows, bare = [], []
    for row in TABLE.rows("calls"):
        found = refusal.ARGUMENTS[row["name"]]
        name = f"{row['number']} {row['name']}" + (f": {row['what']}" if row["what"] else "")
        for argument in found:
            words, kind = words_of(row["name"], argument)
            rows.append((name, argument.place, argument.name, words, kind, refused(sorted(argument.said))))
            name = f"{row['number']} {row['name']}"
        bare += [] if found else [row]
    named = lambda rows: ", ".join(f"{row['number']} {row['name']}" for row in rows)
    answers = [row for row in bare if row["answer"]]
    others = [row for row in bare if row not in answers]
    line = f"With no arguments, and so never refused with 2: {named(others)}; and those that only answer: {named(answers)}."
    return grid(["call", "place", "argument", "word", "kind", "refused with"], rows) + ["", line]


def page_sample():
    rows = []
    for row in TABLE.rows("sample"):
        place = next(one.place for one in refusal.ARGUMENTS[refusal.EVENT] if one.name == row["argument"])
        words = span(int(row["word"]), TABLE.words(row))
        rows.append((words, shown(row["field"]), row["kind"], f"{place} {row['argument']}", refused(refusal.faults_of(row))))
    return grid(["word", "what", "kind", "place, argument", "refused with"], rows)


def page_unknown():
    known = calls_with("number")
    holes = [str(number) for number in range(known[-1]) if number not in known]
    reply = refusal.reply_of(refusal.LIST_LENGTH, 0)
    return [
        f"The numbers {', '.join(holes)} and those above {known[-1]} are no call's. Such a number is a bad argument that has no place: it is refused with 2.{refusal.LIST_LENGTH} at 0, the reply {reply}, or with 1 where the stored model is out of bounds, and the run goes on."
    ]


def page_event():
    call, answer, words = SIZE["EVENT_IN_CALL"], SIZE["EVENT_IN_ANSWER"], SIZE["EVENT_WORDS"]
    start = TABLE.call.ON_CONGESTION_EVENT_START
    rows = []
    for row in TABLE.rows("event"):
        at, width = int(row["word"]), TABLE.words(row)
        rows.append((span(call + at, width), span(answer + at, width), shown(row["field"]), row["kind"], refused(refusal.faults_of(row))))
    said = f"The event's record. The same {words} words, in the same order, are the last of call {start}'s answer: to go on with an event, copy words {answer} to {answer + words - 1} of that answer into words {call} to {call + words - 1} of the calls that follow."
    return [said, "", *grid(["word of a call", "of an answer", "field", "kind", "refused with"], rows)]


def page_params():
    first = SIZE["PARAMS_IN_CALL"]
    rows = [(span(first + int(row["word"]), TABLE.words(row)), row["field"], row["kind"]) for row in TABLE.rows("params")]
    return ["The parameters.", "", *grid(["word", "field", "kind"], rows)]


def page_answer():
    event, words = SIZE["EVENT_IN_CALL"], SIZE["EVENT_WORDS"]
    start = TABLE.call.ON_CONGESTION_EVENT_START
    more = {
        "reply": ": 0 where the call was done, and otherwise a refusal, whose row is 1 to 5 or 10 (\"The replies\", below)",
        "event": f" after call {start}; where that is refused, the record handed in, words {event} to {event + words - 1} of the call as they are, byte for byte. 0 for the other calls, which leave it",
    }
    table = grid(["word", "what"], [(at, row["what"] + more.get(row["part"], "")) for row, at in parts_of("answer")])
    kinds = []
    for kind in TABLE.kinds:
        numbers = calls_with("answer", kind)
        if numbers:
            kinds.append((", ".join(listed(numbers)), kind))
    value = SIZE["VALUE_IN_ANSWER"]
    return table + ["", *grid(["calls", f"word {value} of the answer"], kinds + [("the others", "0")])]


def page_filter():
    pair, samples, kind = SIZE["PAIR_BYTES"], SIZE["SAMPLES_BYTES"], ["word", "what", "kind"]
    return [
        f"A pair, {pair} bytes:",
        "",
        *grid(kind, fields("pair")),
        "",
        f"What is written for it, {samples} bytes: the samples that the filter then holds, and why they moved.",
        "",
        *grid(kind, fields("samples")),
        "",
        "The replies:",
        "",
        *function_replies("guovssalu_filter_run", "the pairs were gone through", {}),
    ]


def page_reasons():
    return grid(["reason", "name", "what acted last"], [(row["number"], row["name"], row["what"]) for row in TABLE.rows("reasons")])


def page_rtt_sizes():
    what = {
        "state": "the estimator",
        "call": "the call's number, its arguments",
        "answer": "the reply's number, and four of the estimator's numbers",
    }
    rows = [(name, SIZE[f"{RTT}{name.upper()}_WORDS"], SIZE[f"{RTT}{name.upper()}_BYTES"], said) for name, said in what.items()]
    return grid(["array", "words", "bytes", "what"], rows)


def page_rtt_run():
    malformed = f"the state's {SIZE['RTT_STATE_BYTES']} bytes encode no state: word {TABLE.rtt_state.HAS_FIRST_RTT_SAMPLE}, a flag, is neither 0 nor 1"
    return function_replies(refusal.RTT_RUN, GONE, {TABLE.reply.OUT_OF_BOUNDS: malformed})


def page_rtt_state():
    return grid(["word", "field", "kind"], fields("rtt_state"))


def page_rtt_call():
    parts = grid(["words", "what"], [(words, row["what"]) for row, words in parts_of("call", RTT)])
    rows = []
    for row in TABLE.rows("rtt_calls"):
        name = f"{row['number']} {row['name']}: {row['what']}"
        for one in TABLE.given(row["name"], "rtt_arguments"):
            rows.append((name, one["place"], one["argument"], one["word"], one["kind"], refused(refusal.faults_of(one))))
            name = f"{row['number']} {row['name']}"
    return parts + ["", *grid(["call", "place", "argument", "word", "kind", "refused with"], rows)]


def page_rtt_answer():
    return grid(["word", "what", "kind"], fields("rtt_answer"))


def page_replies():
    return grid(["reply", "name", "where"], [(row["number"], row["name"], row["what"]) for row in TABLE.rows("replies")])


def page_parts():
    return grid(["part", "of a reply", "what"], [(row["part"], part_of("reply", row), row["what"]) for row in TABLE.rows("reply")])


def page_faults():
    rows = [(f"2.{row['number']}", fault_name(row), row["what"], row["limit"] or "-", row["plain"] or "-") for row in TABLE.rows("faults")]
    return grid(["reply", "kind", "what is bad", "limit", "in plain units"], rows)


PAGES = {
    "sizes": page_sizes,
    "the run's replies": page_run,
    "kinds": page_kinds,
    "state": page_state,
    "call": page_call,
    "arguments": page_arguments,
    "sample": page_sample,
    "no calls": page_unknown,
    "event": page_event,
    "params": page_params,
    "answer": page_answer,
    "filter run": page_filter,
    "reasons": page_reasons,
    "the estimator's sizes": page_rtt_sizes,
    "the estimator's run's replies": page_rtt_run,
    "the estimator's state": page_rtt_state,
    "the estimator's calls": page_rtt_call,
    "the estimator's answer": page_rtt_answer,
    "replies": page_replies,
    "reply": page_parts,
    "faults": page_faults,
}


# ---- docs/REFUSALS.md


SAYS = ["reply", "in a log", "hexadecimal", "what it says", "the limit in plain units"]


def desk_replies():
    numbers = {row["name"]: row["number"] for row in TABLE.rows("calls")}
    unread = [f"{refusal.RTT}{number} {name}" for number, name in refusal.RTT_NUMBERS.items() if name in refusal.UNREAD]
    reading = f"every call but {joined(unread)}" if unread else "every call"
    calls = {0: "every call", 1: reading, 2: "every call that has an argument"}
    for row in TABLE.rows("asked"):
        calls[int(row["row"])] = "; ".join(f"{numbers[name]} {name}" for name in row["calls"].split(", "))
    other = {row for found in refusal.EXPORTED.values() for argument in found for row in argument.other}
    none = lambda number: "none, only exported functions" if number in other else "none"
    said = lambda number: calls.get(number) or none(number)
    rows = [(row["number"], row["name"], row["what"], said(int(row["number"]))) for row in TABLE.rows("replies")]
    return grid(["reply", "name", "where", "calls in a run that can get it"], rows)


def desk_says(fault, place, said):
    """A reply of 2 as it is written, as it stands in a log, and what it says."""
    reply = refusal.reply_of(fault, place)
    return f"2.{fault} at {place}", reply, hex(reply), said, refusal.FAULTS[fault]["plain"] or "-"


def desk_argument(named, argument):
    return [(named, *desk_says(fault, argument.place, marked(said))) for fault, said in sorted(argument.said.items())]


def desk_calls():
    """A row for each reply of 2 to a call. Calls that have the same record at the same place share theirs."""
    records = {row["argument"] for row in TABLE.rows("records")}
    named = {}
    for number, call in refusal.NUMBERS.items():
        for argument in refusal.ARGUMENTS[call]:
            shared = (argument.place, argument.name) if argument.name in records else (number, argument.place)
            named.setdefault(shared, (argument, []))[1].append(f"{number} {call}")
    rows = []
    for argument, calls in named.values():
        rows += desk_argument("; ".join(calls), argument)
    return grid(["call", *SAYS], rows + [("any other number", *desk_says(refusal.LIST_LENGTH, 0, refusal.NO_CALL))])


def desk_rtt():
    """The same of the round-trip estimator's calls, each named as tests/refusal.py takes it."""
    rows = []
    for number, call in refusal.RTT_NUMBERS.items():
        for argument in refusal.RTT_ARGUMENTS[call]:
            rows += desk_argument(f"{refusal.RTT}{number} {call}", argument)
    return grid(["call", *SAYS], rows + [(f"any other number after {refusal.RTT}", *desk_says(refusal.LIST_LENGTH, 0, refusal.NO_CALL))])


def desk_functions():
    rows = []
    for function, found in refusal.EXPORTED.items():
        for argument in found:
            rows += desk_argument(function, argument)
    other = []
    for function, found in refusal.EXPORTED.items():
        other += [(function, row, marked(said)) for argument in found for row, said in argument.other.items()]
    return [*grid(["function", *SAYS], rows), "", "Their other refusals:", "", *grid(["function", "reply", "what it says"], other)]


def desk_free():
    """The arguments that any number is right for, and the calls that have none."""
    named = [*refusal.ARGUMENTS.items(), *refusal.RTT_ARGUMENTS.items(), *refusal.EXPORTED.items()]
    free = [f"{argument.name} of {call}" for call, found in named for argument in found if not argument.said]
    bare = [row["number"] for row in TABLE.rows("calls") if not refusal.ARGUMENTS[row["name"]]]
    return [
        f"Never refused with 2: {joined(free)}.",
        "",
        f"Calls without an argument are never refused with 2 either: {joined(listed([int(number) for number in bare]))}.",
    ]


DESKS = {
    "replies": desk_replies,
    "faults": page_faults,
    "calls": desk_calls,
    "the estimator's calls": desk_rtt,
    "exported": desk_functions,
    "free": desk_free,
}


# ---- include/guovssalu.h


def enum(comment, rows):
    """An enumeration of names with numbers, and of each a word of what it is."""
    rows = list(rows)
    lines = []
    for place, (name, number, what) in enumerate(rows):
        line = f"    GUOVSSALU_{name} = {number}" + ("," if place + 1 < len(rows) else "")
        lines.append((line, what))
    width = max((len(line) for line, what in lines if what), default=0)
    body = [f"{line:{width}} /* {what} */" if what else line for line, what in lines]
    return [*comment, "enum {", *body, "};"]


def with_prefix(section, names):
    """Names of a section for C. One that begins with the section's own name is not given it twice."""
    prefix = section.upper() + "_"
    for name, number, kind in names.items():
        yield (name if name.startswith(prefix) else prefix + name), number, kind


def said_of(row):
    """What a call is given, and what it answers."""
    if row["name"] == "on_congestion_event_start":
        given = "the words GUOVSSALU_SAMPLE_.."
    else:
        given = ", ".join(one["argument"] for one in TABLE.given(row["name"]))
    read = ", ".join(part for part in (row["event"], row["params"]) if part)
    answer = f"answers {row['answer']}" if row["answer"] else ""
    return "; ".join(part for part in (given, read, answer) if part)


def header_replies():
    rows = ((constant(row["name"]), row["number"], None) for row in TABLE.rows("replies"))
    faults = (("FAULT_" + constant(row["name"]), row["number"], fault_of(row)) for row in TABLE.rows("faults"))
    parts = []
    for row in TABLE.rows("reply"):
        of = part_of("(uint64_t)(reply)", row)
        parts += [f"/* The {row['part']} of a reply: {row['what']}. */", f"#define GUOVSSALU_{row['part'].upper()}(reply) ({of})"]
    return [
        *enum(["/* The rows of replies. */"], rows),
        "",
        *parts,
        "",
        *enum(["/* The kinds of row 2, a bad argument: what it is, and the limit that it is beyond. */"], faults),
    ]


def with_fault(kind, faults, place=None):
    """What stands beside a word: its kind, and what it is refused with."""
    if not faults:
        return f"{kind}; never refused, at {place}" if place else kind
    return f"{kind}; {refused(faults)}" + (f" at {place}" if place else "")


def header_words(section, names):
    """The names of a section's words, with what each is refused with. Of a pair the first is only malformed."""
    faults = {}
    for row in TABLE.rows(section):
        first, found = int(row["word"]), refusal.faults_of(row)
        faults.update({first: found} if TABLE.words(row) == 1 else {first: found[:1], first + 1: found})
    return [(name, number, with_fault(kind, faults.get(number, []))) for name, number, kind in with_prefix(section, names)]


def header_sizes():
    sizes = ((name, number, SAID.get(name)) for name, number, _ in TABLE.size.items())
    places = ((name, number, None) for name, number, _ in TABLE.place.items())
    values = []
    for row in TABLE.rows("values"):
        values += [f"/* {row['what'].capitalize()}. */", f"#define GUOVSSALU_{row['name']} UINT64_C({row['value']})"]
    return [
        *values,
        "",
        *enum(["/* Sizes, in words and in bytes; a word has 8 bytes. */"], sizes),
        "",
        *enum(["/* The word with which a part of a call, an answer or a state begins. */"], places),
    ]


def argument_words(arguments, section, prefix=""):
    """The words of calls' arguments, with what each is refused with."""
    for call, names, _ in arguments.items():
        given = {int(row["word"]): row for row in TABLE.given(call, section)}
        for name, number, kind in names.items():
            said = with_fault(kind, refusal.faults_of(given[number]), given[number]["place"])
            yield f"{prefix}ARG_{call.upper()}_{name}", number, said


def header_arguments():
    """The words of arguments, an event's and its record's, with what each is refused with."""
    arguments = argument_words(TABLE.argument, "arguments")
    places = {one.name: one.place for one in refusal.ARGUMENTS[refusal.EVENT]}
    of_sample = [
        "/* An event's arguments, of GUOVSSALU_CALL_ON_CONGESTION_EVENT_START: words of a call. The last two are the",
        f" * argument acked, at place {places['acked']}, and those before them the argument sample, at place {places['sample']}. */",
    ]
    of_event = [
        "/* An event's record: words from GUOVSSALU_EVENT_IN_CALL of a call on, from GUOVSSALU_EVENT_IN_ANSWER of an",
        f" * answer on. It is the argument event: at place {places['event']} of GUOVSSALU_CALL_ON_CONGESTION_EVENT_START, at",
        " * place 1 of the other calls that read it. */",
    ]
    return [
        *enum(["/* The calls' arguments: words of a call. Beside each its kind, what a bad one is refused with, and its", " * place. */"], arguments),
        "",
        *enum(of_sample, header_words("sample", TABLE.sample)),
        "",
        *enum(of_event, header_words("event", TABLE.event)),
    ]


def header_calls():
    rows = (("CALL_" + constant(row["name"]), row["number"], said_of(row)) for row in TABLE.rows("calls"))
    phases = (("PHASE_" + constant(row["name"]), row["number"], None) for row in TABLE.rows("phases"))
    reasons = (("REASON_" + constant(row["name"]), row["number"], None) for row in TABLE.rows("reasons"))
    why = [f" *   {row['number']}  {row['what']}" for row in TABLE.rows("reasons")]
    why = ["/* Why the filter's estimates moved, its word GUOVSSALU_SAMPLES_REASON: the step that acted last. Too old is", " * older than the window.", *why[:-1], why[-1] + " */"]
    apart = [row for name in ("pair", "samples", "slope") for row in with_prefix(name, getattr(TABLE, name))]
    about = [
        "/* The numbers of the calls: the word GUOVSSALU_NUMBER_IN_CALL of a call. Beside each its arguments in the",
        " * order of their words, whether it reads the event's record and takes the parameters, and what its answer",
        " * is. */",
    ]
    return [
        *enum(about, rows),
        "",
        *header_arguments(),
        "",
        *enum(["/* The parameters: words from GUOVSSALU_PARAMS_IN_CALL of a call on. */"], with_prefix("params", TABLE.params)),
        "",
        *enum(["/* Words of the state. Of what may be unset there are two, .._SET and the number. */"], with_prefix("state", TABLE.state)),
        "",
        *enum(["/* What the state's word GUOVSSALU_STATE_PHASE is. */"], phases),
        "",
        *enum(["/* Words of a pair of the filter run, of its answer to a pair, and of the slope's output. */"], apart),
        "",
        *enum(why, reasons),
    ]


def header_rtt():
    """The round-trip estimator's calls, their arguments, and the words of a state and of an answer."""
    given = lambda row: ", ".join(one["argument"] for one in TABLE.given(row["name"], "rtt_arguments"))
    calls = ((f"{RTT}CALL_{constant(row['name'])}", row["number"], given(row)) for row in TABLE.rows("rtt_calls"))
    of_calls = [
        "/* The numbers of the estimator's calls: the word GUOVSSALU_RTT_NUMBER_IN_CALL of a call. Beside each its",
        " * arguments in the order of their words. */",
    ]
    of_arguments = ["/* Their arguments: words of a call. Beside each its kind, what a bad one is refused with, and its place. */"]
    of_answer = ["/* Words of an answer: the reply, and the estimator's numbers after the call. */"]
    return [
        *enum(of_calls, calls),
        "",
        *enum(of_arguments, argument_words(TABLE.rtt_argument, "rtt_arguments", RTT)),
        "",
        *enum(["/* Words of the estimator. */"], with_prefix("rtt_state", TABLE.rtt_state)),
        "",
        *enum(of_answer, with_prefix("rtt_answer", TABLE.rtt_answer)),
    ]


HEADERS = {
    "replies": header_replies,
    "sizes": header_sizes,
    "calls and words": header_calls,
    "the round-trip estimator": header_rtt,
}


# ---- rust/guovssalu-sys/src/table.rs


def of_kind(at, kind):
    return f"Word {at}: {kind}."


def rust_const(indent, name, kind, value, what):
    return [f"{indent}/// {what}", f"{indent}pub const {name}: {kind} = {value};"]


def rust_list(indent, name, kind, cells, what):
    """An array as rustfmt lays it out: in one line, or one cell to a line, or filled where the cells are short."""
    head = f"{indent}pub const {name}: [{kind}; {len(cells)}] = ["
    one = head + ", ".join(cells) + "];"
    lines = [f"{indent}/// {what}"]
    if len(one) <= WIDTH:
        return lines + [one]
    lines.append(head)
    if all(len(cell) <= 10 for cell in cells):
        line = indent + "    "
        for cell in cells:
            if len(line + cell + ",") > WIDTH:
                lines.append(line.rstrip())
                line = indent + "    "
            line += cell + ", "
        lines.append(line.rstrip())
    else:
        lines += [f"{indent}    {cell}," for cell in cells]
    return lines + [f"{indent}];"]


def rust_module(name, what, items, indent=""):
    lines = [f"{indent}/// {what}", f"{indent}pub mod {name} {{"]
    for place, item in enumerate(items):
        lines += ([""] if place else []) + item
    return lines + [indent + "}"]


def rust_words(name, what, names, listed=None):
    """A module of places; if it is a listed section, with the names of its words."""
    items = [rust_const("    ", one, "usize", at, of_kind(at, kind)) for one, at, kind in names.items()]
    if listed:
        cells = [f'"{word}"' for row in TABLE.rows(listed) for word in word_names(row)]
        items.append(rust_list("    ", "NAMES", "&str", cells, "The names of its words, in order."))
    return rust_module(name, what, items)


def word_names(row):
    """A field's words by name."""
    return [row["field"] + " set", row["field"]] if row["kind"].startswith("set, and ") else [row["field"]]


def rust_numbers(name, what, names, of):
    items = [rust_const("    ", one, "u64", number, f"{of} {number}.") for one, number, _ in names.items()]
    return rust_module(name, what, items)


def rust_reasons():
    items = [rust_const("    ", one, "u64", number, f"Reason {number}.") for one, number, _ in TABLE.reason.items()]
    cells = [f'"{one.lower().replace("_", " ")}"' for one, _, _ in TABLE.reason.items()]
    items.append(rust_list("    ", "NAMES", "&str", cells, "Their names in words, in order."))
    return rust_module("reason", "Why the filter's estimates moved: what `samples::REASON` is.", items)


def rust_reply():
    """The rows, and the parts of a reply."""
    items = [rust_const("    ", one, "u64", number, f"Reply {number}.") for one, number, _ in TABLE.reply.items()]
    for row in TABLE.rows("reply"):
        body = [f"    pub const fn {row['part']}(reply: u64) -> u64 {{", f"        {part_of('reply', row)}", "    }"]
        items.append([f"    /// The {row['part']} of a reply: {row['what']}.", *body])
    return rust_module("reply", "The replies: an answer's first word, and what an exported call replies.", items)


def rust_faults():
    """The kinds of reply 2: their numbers, names, limits and sentences."""
    rows = TABLE.rows("faults")
    items = [rust_const("    ", constant(row["name"]), "u64", row["number"], f"2.{row['number']}: {fault_of(row)}.") for row in rows]
    quoted = lambda column: [f'"{row[column] or ""}"' for row in rows]
    names = [f'"{fault_name(row)}"' for row in rows]
    items.append(rust_list("    ", "NAMES", "&str", names, "Their names in words, in order: 2.1 first."))
    items.append(rust_list("    ", "SAID", "&str", quoted("said"), "What is said of an argument, in the same order."))
    items.append(rust_list("    ", "PLAIN", "&str", quoted("plain"), "The limits in plain units, in the same order; empty where there is none."))
    return rust_module("fault", "The kinds of reply 2, `reply::BAD_ARGUMENT`: what `reply::kind` is.", items)


def rust_argument(argument, indent):
    """An argument with what is said of it, a fault to a line where there are several."""
    said = [f'({fault}, "{refusal.sentence(said)}")' for fault, said in argument.said.items()]
    if len(said) < 2:
        return f'Argument {{ name: "{argument.name}", faults: &[{"".join(said)}] }}'
    lines = [f'Argument {{ name: "{argument.name}", faults: &[', *(f"    {one}," for one in said), "] }"]
    return f"\n{indent}".join(lines)


def rust_called(name, module, arguments, records):
    """The arguments of each call of a module."""
    calls = [f"    /// Of each call of `{module}::ALL`, in the same order.", f"    pub const {name}: [&[Argument]; {len(arguments)}] = ["]
    for call, found in arguments.items():
        cells = [one.name.upper() if one.name in records else rust_argument(one, " " * 12) for one in found]
        calls.append(f"        // {call}")
        calls += ["        &[", *(f"            {cell}," for cell in cells), "        ],"] if cells else ["        &[],"]
    return calls + ["    ];"]


def rust_places():
    """The arguments by call and place, with what is said of each. A record is written once."""
    argument = [
        "    /// An argument, and what can be said of it.",
        "    #[derive(Clone, Copy, Debug, PartialEq, Eq)]",
        "    pub struct Argument {",
        "        /// Its name.",
        "        pub name: &'static str,",
        "        /// The faults that it can have, numbers of `fault`, and what is then said.",
        "        pub faults: &'static [(u64, &'static str)],",
        "    }",
    ]
    records = {row["argument"]: refusal.of_record(row) for row in TABLE.rows("records")}
    items = [argument]
    for name, found in records.items():
        items.append([f"    /// The argument `{name}` of an event.", f"    pub const {name.upper()}: Argument = {rust_argument(found, '    ')};"])
    items.append(rust_called("CALLS", "call", refusal.ARGUMENTS, records))
    items.append(rust_called(f"{RTT}CALLS", "rtt_call", refusal.RTT_ARGUMENTS, {}))
    for function, found in refusal.EXPORTED.items():
        name = function.replace("guovssalu_", "").upper()
        lines = [f"    /// Of `{function}`.", f"    pub const {name}: [Argument; {len(found)}] = ["]
        items.append([*lines, *(f"        {rust_argument(one, ' ' * 8)}," for one in found), "    ];"])
    items.append(rust_const("    ", "NO_CALL", "&str", f'"{refusal.NO_CALL}"', "What is said at place 0."))
    said = "The arguments that a reply of 2 can name, by `reply::place`: place 1 is the first of an array."
    lines = rust_module("place", said, items)
    # its sentences are longer than a line
    return [lines[0], "#[rustfmt::skip]", *lines[1:]]


def rust_calls():
    rows = TABLE.rows("calls")
    items = []
    for row in rows:
        said = said_of(row).replace("GUOVSSALU_SAMPLE_..", "of `sample`")
        what = f"Call {row['number']}" + (f": {said}." if said else ".")
        items.append(rust_const("    ", constant(row["name"]), "u64", row["number"], what))
    named = lambda chosen: [constant(row["name"]) for row in rows if chosen(row)]
    items.append(rust_list("    ", "ALL", "u64", named(lambda row: True), "All of them, in order."))
    items.append(rust_list("    ", "NAMES", "&str", [f'"{row["name"]}"' for row in rows], "Their names, in the same order."))
    given = lambda row: TABLE.width(TABLE.rows("sample") if row["name"] == "on_congestion_event_start" else TABLE.given(row["name"]))
    items.append(rust_list("    ", "GIVEN", "usize", [str(given(row)) for row in rows], "How many words their arguments have, in the same order."))
    items.append(rust_list("    ", "READ_EVENT", "u64", named(lambda row: row["event"]), "Those that read the event's record."))
    items.append(rust_list("    ", "TAKE_PARAMS", "u64", named(lambda row: row["params"]), "Those that take the parameters."))
    return rust_module("call", "The numbers of the calls: a call's first word.", items)


def rust_rtt_calls():
    rows = TABLE.rows("rtt_calls")
    items = [rust_const("    ", constant(row["name"]), "u64", row["number"], f"Call {row['number']}: {row['what']}.") for row in rows]
    items.append(rust_list("    ", "ALL", "u64", [constant(row["name"]) for row in rows], "All of them, in order."))
    items.append(rust_list("    ", "NAMES", "&str", [f'"{row["name"]}"' for row in rows], "Their names, in the same order."))
    return rust_module("rtt_call", "The numbers of the round-trip estimator's calls: a call's first word.", items)


def rust_arguments(name, what, arguments):
    modules = []
    for call, names, _ in arguments.items():
        items = [rust_const("        ", one, "usize", at, of_kind(at, kind)) for one, at, kind in names.items()]
        modules.append(rust_module(call, f"Of `{call}`.", items, "    "))
    return rust_module(name, what, modules)


def rust_sizes():
    lines = []
    for name, number, _ in TABLE.size.items():
        part, _, unit = name.rpartition("_")
        said = SAID.get(name) or f"{unit} of {PARTS[part.lower()]}"
        lines += rust_const("", name, "usize", number, said.capitalize() + ".")
    for name, number, _ in TABLE.place.items():
        part, whole = re.sub("^" + RTT, "", name).lower().split("_in_")
        said = {"event": "the event's record", "params": "the parameters", "cycle": "the cycle"}.get(part, f"its {part}")
        within = PARTS[refusal.RTT + whole] if name.startswith(RTT) else f"{'an' if whole == 'answer' else 'a'} {whole}"
        lines += rust_const("", name, "usize", number, f"The first word of {said} in {within}.")
    return lines


def rust_text():
    values = [rust_const("", row["name"], "u64", f"{int(row['value']):_}", row["what"].capitalize() + ".") for row in TABLE.rows("values")]
    parts = [
        ["//! The calls, their words and their sizes: written from docs/calls.txt by tests/table.py, and not edited."],
        *values,
        rust_const("", "WORD_BYTES", "usize", WORD_BYTES, "Bytes of a word."),
        rust_sizes(),
        rust_calls(),
        rust_arguments("argument", "The calls' arguments: words of a call.", TABLE.argument),
        rust_words("sample", "An event's arguments, of `call::ON_CONGESTION_EVENT_START`: words of a call.", TABLE.sample),
        rust_words("event", "An event's record: words from `EVENT_IN_CALL` or `EVENT_IN_ANSWER` on.", TABLE.event, "event"),
        rust_words("params", "The parameters: words of a call from `PARAMS_IN_CALL` on.", TABLE.params),
        rust_words("state", "Words of the state. Of what may be unset there are two, `.._SET` and the number.", TABLE.state, "state"),
        rust_words("pair", "A pair of the filter run.", TABLE.pair),
        rust_words("samples", "The filter run's answer to a pair.", TABLE.samples),
        rust_words("slope", "The slope's output.", TABLE.slope),
        rust_rtt_calls(),
        rust_arguments("rtt_argument", "The arguments of the estimator's calls: words of a call.", TABLE.rtt_argument),
        rust_words("rtt_state", "Words of a round-trip estimator.", TABLE.rtt_state, "rtt_state"),
        rust_words("rtt_answer", "Words of an answer of the estimator's.", TABLE.rtt_answer, "rtt_answer"),
        rust_reply(),
        rust_faults(),
        rust_places(),
        rust_numbers("phase", "What the state's word `state::PHASE` is.", TABLE.phase, "Phase"),
        rust_reasons(),
    ]
    return "\n\n".join("\n".join(part) for part in parts) + "\n"


# ---- what stands, and what should


def filled(path, text, blocks):
    """The text with each part written anew."""
    first, last = MARKS[path]
    for name, block in blocks.items():
        mark = first.format(name)
        if text.count(mark) != 1:
            raise Fault(f"{path}: the mark {mark} stands {text.count(mark)} times, and should stand once")
        start = text.index(mark) + len(mark)
        end = text.find(last, start)
        if end < 0:
            raise Fault(f"{path}: no {last} after {mark}")
        apart = "\n" if path == HEADER else "\n\n"
        text = text[:start] + apart + "\n".join(block()) + apart + text[end:]
    return text


def differences(path, stands, should):
    """A line for each line that differs."""
    old, new = stands.splitlines(), should.splitlines()
    matched = difflib.SequenceMatcher(None, old, new, autojunk=False)
    for what, a, b, c, d in matched.get_opcodes():
        if what == "equal":
            continue
        for place in range(max(b - a, d - c)):
            has = repr(old[a + place].strip()) if a + place < b else "nothing"
            due = repr(new[c + place].strip()) if c + place < d else "nothing"
            yield f"{path}:{min(a + place, b) + 1}: {has} stands there, and should be {due}"


def in_file(path):
    full = os.path.join(ROOT, path)
    if not os.path.exists(full):
        return ""
    with open(full, encoding="utf-8") as file:
        return file.read()


def due():
    """Each written file: what stands there, and what should."""
    yield PAGE, in_file(PAGE), filled(PAGE, in_file(PAGE), PAGES)
    yield DESK, in_file(DESK), filled(DESK, in_file(DESK), DESKS)
    yield HEADER, in_file(HEADER), filled(HEADER, in_file(HEADER), HEADERS)
    yield RUST, in_file(RUST), rust_text()


def doubled():
    """Two things of the header that have one name."""
    names = re.findall(r"GUOVSSALU_\w+(?= =| UINT64_C)", "\n".join("\n".join(block()) for block in HEADERS.values()))
    return [f"{HEADER}: two things are called {name}" for name in sorted(set(names)) if names.count(name) > 1]


def taken():
    """Calls that have a number which the frames of the comparison have for something else."""
    own = {int(number): name for name, number in re.findall(r"^pub const (\w+): u64 = (\d+);", in_file(FRAMES), re.M)}
    for row in TABLE.rows("calls"):
        name = own.get(int(row["number"]))
        if name:
            yield f"{FRAMES}: {name} is {row['number']} there, which is {row['name']}'s, and should be a number of no call"


def number_of(text):
    """A number as source and definitions write it, 0x10_0000_0000, u64::MAX or 2 ^ 64 - 1; nothing where it is written
    otherwise."""
    if text == "u64::MAX":
        return 2**64 - 1
    power = re.fullmatch(r"2 ?\^ ?(\d+)(?: - (\d+))?", text)
    if power:
        return 2 ** int(power[1]) - int(power[2] or 0)
    return int(text, 16) if re.fullmatch(r"0x[0-9a-f_]+", text) else None


def bounds():
    """Values that are others in the source or in its definitions."""
    for name, path, line in VALUES:
        stands, due = re.findall(line, in_file(path), re.M), getattr(TABLE.value, name)
        if [number_of(text) for text in stands] != [due]:
            yield f"{path}: {', '.join(stands) or 'nothing'} stands there for {name}, and should be {due}"


def main():
    writes = sys.argv[1:] == ["--write"]
    if sys.argv[1:] and not writes:
        sys.exit(__doc__)
    faults = [*doubled(), *taken(), *bounds()]
    for path, stands, should in due():
        if writes and stands != should:
            os.makedirs(os.path.dirname(os.path.join(ROOT, path)), exist_ok=True)
            with open(os.path.join(ROOT, path), "w", encoding="utf-8") as file:
                file.write(should)
            print(f"{path}: written")
        elif stands != should:
            faults += differences(path, stands, should)
    faults += held.faults(TABLE)
    print("".join(line + "\n" for line in faults), end="")
    if faults:
        print(f"table: differences: {len(faults)}")
        return 1
    for calls, prefix, of in (("calls", "", ""), ("rtt_calls", RTT, " of the round-trip estimator")):
        state, call, answer = (SIZE[f"{prefix}{name}_WORDS"] for name in ("STATE", "CALL", "ANSWER"))
        print(f"table: {len(TABLE.rows(calls))} calls{of}, {state} words of a state, {call} of a call, {answer} of an answer: as in {PATH}")
    return 0


if __name__ == "__main__":
    try:
        sys.exit(main())
    except Fault as fault:
        sys.exit(str(fault))
