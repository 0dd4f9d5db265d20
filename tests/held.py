"""Holds the Rattle source and its definitions to docs/calls.txt: the numbers of calls, the places and forms of words,
the sizes, the replies, the reasons, the kinds and places of a refusal 2. tests/table.py calls `faults`; the lists below
say where to look.

Each check takes paths and gives lines: file, what stands there, what should. Of the words it is reading that is held:
that what was written is read back as it was is proved (crates/dispatch/specs/RoundTrip.antt). Of the calls' arguments it is
the source: that the definitions take them from the same words is proved too."""

import glob
import os
import re

from words import PATH, ROOT, WORD_BYTES, constant

# ---- where to look

# Source that chooses a call by its number, `match call { 12 => Ok(reads::bdp0(model)?), .. }`, the same of the call's word
# in bytes, or `if call == 0 { return started(..`; what it calls has the call's name, or one of these instead. Together the
# files have every call.
CHOICES = {
    "crates/calls/src/ask.rt": {},
    "crates/calls/src/change.rt": {},
    "crates/calls/src/enter.rt": {},
    "crates/calls/src/question.rt": {},
    "crates/dispatch/src/outcome.rt": {"started": "start"},
    "crates/guovssalu/src/model_run.rt": {
        "send": "on_packet_sent",
        "event_start": "on_congestion_event_start",
        "event_finish": "on_congestion_event_finish",
    },
}
# Definitions in which `cond (eqb call 12) (..)` does, and the column of [definitions] by which a row is known. A file may
# have a part of the calls; together those of one column have all of them.
ROWS = {
    "row": ["crates/calls/specs/Ask.antt", "crates/calls/specs/Change.antt", "crates/calls/specs/Enter.antt", "crates/calls/specs/Question.antt", "crates/dispatch/specs/Outcome.antt"],
    "step": ["crates/theorems/specs/Steps.antt"],
}
# Functions that read a section's words, and the word at which the section begins for them.
READERS = [
    ("crates/layout/src/network_model.rt", "model_from", "state", 0),
    ("crates/layout/src/cycle.rt", "cycle_from", "state", 0),
    ("crates/arguments/src/congestion_event.rt", "event_from", "event", "EVENT_IN_CALL"),
    ("crates/arguments/src/params.rt", "params_from", "params", "PARAMS_IN_CALL"),
    ("crates/arguments/src/sample.rt", "sample_from", "sample", 0),
    ("crates/layout/specs/NetworkModel.antt", "model_from", "state", 0),
    ("crates/layout/specs/Cycle.antt", "cycle_from", "state", 0),
    ("crates/arguments/specs/CongestionEvent.antt", "event_from_word", "event", 0),
    ("crates/arguments/specs/Params.antt", "params_from", "params", "PARAMS_IN_CALL"),
    ("crates/arguments/specs/Sample.antt", "sample_from", "sample", 0),
    ("crates/trips/src/trips.rt", "stats_in", "rtt_state", 0),
    ("crates/trips/specs/Trips.antt", "stats_from", "rtt_state", 0),
]
# Functions that test the form of all the words of a section that have one.
FORMS = [
    ("crates/layout/src/form.rt", None, "state", 0),
    ("crates/layout/specs/Form.antt", None, "state", 0),
    ("crates/arguments/src/congestion_event.rt", "event_fits", "event", "EVENT_IN_CALL"),
    ("crates/arguments/specs/CongestionEvent.antt", "event_fits", "event", 0),
    ("crates/arguments/src/sample.rt", "sample_fits", "sample", 0),
    ("crates/arguments/specs/Sample.antt", "sample_fits", "sample", 0),
]
# Functions that take an event's acked numbers, and what they read of the call, in order: the count, the words that have
# the numbers themselves, the one of them that has a place in the lists.
ACKED = [
    ("crates/arguments/src/sample.rt", "acked_fits", ["count", "place"]),
    ("crates/arguments/src/sample.rt", "greatest_acked", ["count", "numbers", "place"]),
    ("crates/arguments/specs/Sample.antt", "acked_count", ["count"]),
    ("crates/arguments/specs/Sample.antt", "list_place", ["place"]),
    ("crates/arguments/specs/Sample.antt", "acked_of", ["numbers"]),
]
# Where a run writes the word of a call that is done.
DONE = "crates/dispatch/src/one_call.rt"
# Where a call's words become its arguments: for most calls in the first file, by a function that has the call's number and
# chooses it in a file of its own; for a start, and for a send, in a function that knows the call. The arguments are handed
# on in the order of their rows, or in the one that stands here.
HANDED = "crates/dispatch/src/outcome.rt"
CHOOSERS = {
    "judge": "crates/calls/src/question.rt",
    "ask": "crates/calls/src/ask.rt",
    "enter": "crates/calls/src/enter.rt",
    "change": "crates/calls/src/change.rt",
}
KNOWING = [
    (HANDED, "started", "model.begin", "start", ["initial_rtt", "now"]),
    ("crates/dispatch/src/one_call.rt", "send", "sent_tested", "on_packet_sent", None),
]
# Phrases of the source and of definitions that have a size, and which.
WORDS = ("STATE_WORDS", "CALL_WORDS", "ANSWER_WORDS", "EVENT_WORDS", "SAMPLES_WORDS", "SLOPE_WORDS")
PHRASES = [
    (r"\[0?(?:u64)?; (\d+)\]", WORDS),
    (r"\bcount <= (\d+)|\bleb \(acked_count l\) (\d+)", ("MOST_ACKED",)),
    (r"\blist_place l = (\d+) \+", ("CALL_WORDS",)),
    (r"\bn: &?\[u64; (\d+)\]", ("STATE_WORDS", "CALL_WORDS")),
    (r"\bstate\.len\(\) != (\d+)|state\.(?:now|old|new) ≡ (\d+)|eqb \(length (?:s|state|r\.state)\) (\d+)", ("STATE_BYTES",)),
    (r"words_at s 0 (\d+)|\(cycle_from w\)\) w 0 (\d+)|cycle_words c\) ≡ (\d+)", ("STATE_WORDS",)),
    (r"\bcalls\.len\(\) [%/] (\d+)|r\.calls % (\d+)|calls_in src = length src / (\d+)", ("CALL_BYTES",)),
    (r"\bat = (\d+) \* i\b|\bcalls\[at\.\.at \+ (\d+)\]|(\d+) ≤ length call\.now|src \(at \+ ([2-9]\d\d)\) n|calls \(at \+ (\d+)\)", ("CALL_BYTES",)),
    (r"words_at src at (\d+)", ("CALL_WORDS",)),
    (r"\bto = (\d+) \* i\b|\banswers\[to\.\.to \+ (\d+)\]|(\d+) ≤ length answer\.old|\b(\d+) \* \(?(?:calls_in|count r|calls\.len)", ("ANSWER_BYTES",)),
    (r"\(event_words e\) ≡ (\d+)|words_from l 22 (\d+)", ("EVENT_WORDS",)),
    (r"event_from_word l (\d+)|words_from l (\d+) 16", ("EVENT_IN_CALL",)),
    (r"words_from l (\d+) 11", ("PARAMS_IN_CALL",)),
    (r"\bsrc\.len\(\) [%/] (\d+)|\bpairs src = length src / (\d+)", ("PAIR_BYTES",)),
    (r"room < (\d+) \* \(src|ltb room \((\d+) \* pairs|put_words\(out, (\d+) \* i|r\.output\) \((\d+) \* pairs", ("SAMPLES_BYTES",)),
    (r"or_short\(reply, room < (\d+)\)|\(ltb room (\d+)\)", ("SLOPE_BYTES",)),
]
SIZED = [f"crates/{crate}/{folder}/*" for crate in ("words", "layout", "arguments", "places", "pairs", "calls", "dispatch", "guovssalu", "theorems") for folder in ("src", "specs")]
# Where a number above every word and every call, and below 1000, is a size, or one of these: bits of a word, values of a
# byte, and what is the program `serve`'s own (oracle/README.md, "The frames").
COUNTED = SIZED + ["crates/serve/src/*"]
OTHERS = {64, 256} | {56, 66, 72, 98, 99, 100, 165, 272, 304, 480, 536}
# Worked examples, and a count of lines.
NOT_COUNTED = ["crates/guovssalu/specs/Examples.antt", "crates/theorems/specs/Examples.antt", "crates/theorems/specs/Theorems.antt"]
# Where the numbers of a section's names stand: `Refusal::NeverSent => 10`, or `NeverSent = 10` in the enum itself, in the
# source, `row_of NeverSent = 10` in definitions. A call that is done is the `Ok` of a result.
NUMBERED = [
    ("replies", "Refusal", "row_of", "number", ["crates/units/src/refusal.rt", "crates/units/specs/Reply.antt"]),
    ("reasons", "Reason", "reason_number", None, ["crates/filters/src/windowed_filter.rt", "crates/filters/specs/Reason.antt"]),
]
# The rows of a run's calls, by names of their own: `Cause::Unsent => Refusal::NeverSent` says of which reply each is. The
# enum has no row for a call that is done, the definition has.
CAUSES = ("Cause", "cause_row", "caused", "crates/state/src/refusals.rt", "crates/state/specs/Refusals.antt")

# The kinds of a refusal 2: an enum of the source, and their names in definitions, `a_window` for Window, but for these.
# Both files have a list of faults for each call, each fault with its place and its kind, in their order.
FAULTS = {".rt": "crates/state/src/faults.rt", ".antt": "crates/state/specs/Faults.antt"}
KINDS = {"ProbeRounds": "probe_rounds", "ListLength": "list_length"}
# Which list a call of a run has: by its number, of the numbers in its words.
PLACES = {".rt": "crates/places/src/places.rt", ".antt": "crates/places/specs/Places.antt"}
# Which words of a record these test, each by its kind; and the words that these take as they stand.
FITS = [
    ("crates/places/src/fits.rt", "record_fits", "event", "EVENT_IN_CALL"),
    ("crates/places/src/fits.rt", "sample_fits", "sample", 0),
    ("crates/places/specs/Places.antt", "record_fits", "event", "EVENT_IN_CALL"),
    ("crates/places/specs/Places.antt", "sample_fits_in", "sample", 0),
]
STANDING = [
    ("crates/places/src/fits.rt", "record_in", "event", "EVENT_IN_CALL", "event_time"),
    ("crates/places/src/fits.rt", "sample_in", "sample", 0, "extra_acked"),
    ("crates/places/specs/Places.antt", "record_in", "event", "EVENT_IN_CALL", "event_time"),
    ("crates/places/specs/Places.antt", "sample_in", "sample", 0, "extra_acked"),
]
# The lists of the exported functions. The two runs have the same one.
EXPORTED = [
    ("guovssalu_run", "crates/guovssalu/src/model_run.rt", "model_reply"),
    ("guovssalu_run", "crates/guovssalu/specs/ModelRun.antt", "length_faults"),
    ("guovssalu_run_lists", "crates/guovssalu/specs/ModelRun.antt", "length_faults"),
    ("guovssalu_filter_run", "crates/pairs/src/pairs.rt", "run_reply"),
    ("guovssalu_filter_run", "crates/pairs/specs/Pairs.antt", "pairs_faults"),
    ("guovssalu_raise_inflight_high_slope", "crates/guovssalu/src/slope.rt", "slope_reply"),
    ("guovssalu_raise_inflight_high_slope", "crates/guovssalu/specs/Slope.antt", "window_faults"),
    ("guovssalu_rtt_run", "crates/trips/src/trips.rt", "run_reply"),
    ("guovssalu_rtt_run", "crates/trips/specs/Trips.antt", "rtt_faults"),
]
# Where a reply is put together, and by which part's step: a fault is a kind and so many times a place, a reply a row and
# so many times a fault.
STEPS = [
    ("crates/state/src/faults.rt", r"\bu32::from\(kind\) \+ (\d+) \* u32::from\(place\)", "place"),
    ("crates/state/specs/Faults.antt", r"\(kind \+ (\d+) \* place\)", "place"),
    ("crates/units/src/refusal.rt", r" \+ (\d+) \* u64::from\(fault\)", "kind"),
    ("crates/units/specs/Reply.antt", r"= row \+ (\d+) \* fault\b", "kind"),
]

# The round-trip estimator: where its calls' faults stand, as `update_faults` or `update_fault`; and where a call is chosen by
# its number and read from its words, which are there called a, b and c.
RTT = {".rt": "crates/rtt/src/rtt.rt", ".antt": "crates/rtt/specs/Rtt.antt"}
TRIPS = {".rt": "crates/trips/src/trips.rt", ".antt": "crates/trips/specs/Trips.antt"}
# Functions that choose by the number, and what they choose: with what the names end, or the names. In the source each call
# finds its own fault, in the function that has its name there.
RTT_MADE = {"new": "begin", "update": "update_taken", "delay": "update_max_ack_delay"}
RTT_NAMING = {"new": "new", "update": "update_taken", "delay": "update_max_ack_delay"}
RTT_CHOICES = {
    ".rt": [(["call_made"], RTT_MADE)],
    ".antt": [(["call_faults"], "_faults"), (["call_row"], "_number"), (["call_left"], "_left")],
}
# Functions that read a call's words, write a state's and an answer's, and test a state's form.
RTT_READ = {".rt": ["carry_out"], ".antt": ["answer_at", "left_at"]}
RTT_WRITTEN = {".rt": ("stats_words", "answer_words"), ".antt": ("stats_words", "shown")}
RTT_ANSWER = "answer_words"
RTT_FORM = {".rt": "encodes_none", ".antt": "encodes_none"}
# As PHRASES, and the files that have the estimator's sizes instead of the model's.
RTT_SIZED = [*TRIPS.values(), "crates/guovssalu/src/rtt_run.rt", "crates/guovssalu/specs/RttRun.antt", "crates/theorems/specs/Rtt.antt"]
RTT_PHRASES = [
    (r"\[u64; (\d+)\]", ("RTT_STATE_WORDS", "RTT_ANSWER_WORDS")),
    (r"words_at s 0 (\d+)", ("RTT_STATE_WORDS",)),
    (r"\bstate\.len\(\) [!=]= (\d+)|state\.(?:now|old|new) ≡ (\d+)|eqb \(length (?:s|state|r\.state)\) (\d+)", ("RTT_STATE_BYTES",)),
    (r"\bcalls\.len\(\) [%/] (\d+)|\blength (?:src|r\.calls) [%/] (\d+)|src \(at \+ (\d+)\) n\b", ("RTT_CALL_BYTES",)),
    (r"\bat = (\d+) \* i\b|\bcalls\[at\.\.at \+ (\d+)\]|length call\.now ≡ (\d+)", ("RTT_CALL_BYTES",)),
    (r"\bto = (\d+) \* i\b|\banswers\[to\.\.to \+ (\d+)\]|length answer\.old ≡ (\d+)|\b(\d+) \* \(?(?:calls_in|calls\.len|rtt_count)", ("RTT_ANSWER_BYTES",)),
    (r"\btake (\d+) \(|\bdrop \((\d+) \* i\)|r\.written \((\d+) \* i\b", ("RTT_ANSWER_BYTES",)),
]


# ---- reading


def read(path):
    with open(os.path.join(ROOT, path), encoding="utf-8") as file:
        return file.read()


def code(path):
    """The text without comments, and of a source without its contracts."""
    text = re.sub(r"//.*" if path.endswith(".rt") else r"--.*", "", read(path))
    clause = re.compile(r"^ *(?:ensures|requires)\b[^{\n]*\{", re.M)
    while path.endswith(".rt") and (found := clause.search(text)):
        text = text[: found.start()] + text[found.end() + len(closed(text, found.end() - 1)) + 1 :]
    return text


def line_of(path, part):
    """Where a part of the code stands, by its first line that is like none other."""
    lines = read(path).splitlines()
    for wanted in part.strip().splitlines():
        places = [number for number, line in enumerate(lines, 1) if wanted.strip() and wanted.strip() in line]
        if places:
            return f"{path}:{places[0]}"
    return path


def closed(text, start):
    """The text between the bracket at the start and the one that closes it."""
    depth = 0
    for place in range(start, len(text)):
        depth += text[place] in "({["
        depth -= text[place] in ")}]"
        if depth == 0:
            return text[start + 1 : place]
    return text[start + 1 :]


def split(text, mark):
    """The parts between marks that stand in no bracket."""
    parts, depth, last = [], 0, 0
    for place, letter in enumerate(text):
        depth += letter in "({["
        depth -= letter in ")}]"
        if letter == mark and depth == 0:
            parts.append(text[last:place])
            last = place + 1
    return [part.strip() for part in parts + [text[last:]] if part.strip()]


def arms(text):
    """The arms of a match: the pattern and what it gives, which is a block or goes up to a comma."""
    while text.strip():
        pattern, _, text = text.partition("=>")
        text = text.lstrip()
        if text.startswith("{"):
            given = closed(text, 0)
            text = text[len(given) + 2 :].lstrip().removeprefix(",")
        else:
            given = next(iter(split(text, ",")), "")
            text = text[len(given) :].lstrip().removeprefix(",")
        yield pattern.strip(), given.strip()


def calls_in(pattern):
    """The numbers of a pattern: 9 | 15 | 16, or 12..=14, or none."""
    if not re.fullmatch(r"[\d\s|.=]+", pattern):
        return []
    ends = re.findall(r"(\d+)(?:\.\.=(\d+))?", pattern)
    return [number for low, high in ends for number in range(int(low), int(high or low) + 1)]


def functions(path):
    """The body of each function, by name."""
    text, bodies = code(path), {}
    if path.endswith(".rt"):
        for found in re.finditer(r"\bfn (\w+)\(", text):
            start = text.index("{", found.end() + len(closed(text, found.end() - 1)))
            bodies[found.group(1)] = closed(text, start)
        return bodies
    for found in re.finditer(r"^(\w+)((?: (?:\w+|\([^()]*\)))*) =(?= |\n)(.*(?:\n[ ].*)*)", text, re.M):
        bodies.setdefault(found.group(1), found.group(3))
    return bodies


# ---- calls by number


def choices(path):
    """The choices by a call's number: number, and what is called."""
    text = code(path)
    for found in re.finditer(r"\bmatch (?:call|get_word\(call, 0\)) \{", text):
        for pattern, called in arms(closed(text, found.end() - 1)):
            yield from ((number, called) for number in calls_in(pattern))
    for found in re.finditer(r"\bif call == (\d+) \{", text):
        yield int(found.group(1)), closed(text, found.end() - 1).strip()


def check_choices(table, paths):
    """Each choice calls the function of its call."""
    numbers = {row["name"]: int(row["number"]) for row in table.rows("calls")}
    seen = set()
    for path, instead in paths.items():
        known = {**numbers, **{name: numbers[call] for name, call in instead.items()}}
        for number, called in choices(path):
            names = [name for name in re.findall(r"\b(\w+)\(", called) if name in known]
            if [known[name] for name in names] != [number]:
                due = ", ".join(f"{known[name]} {instead.get(name, name)}" for name in names) or "a call's function"
                stands = " ".join(called.split())[:50]
                yield f"{line_of(path, called)}: {number} for {stands!r} stands there, and should be {due}"
            seen.add(number)
    beside = f"{list(paths)[0]}, or a file beside it"
    for name, number in numbers.items():
        if number not in seen:
            yield f"{beside}: nothing stands there for {number}, and {name} should"
    for number in sorted(seen - set(numbers.values())):
        yield f"{beside}: {number} stands there, and is no call's"


def number_rows(path):
    """The rows of a definition that chooses by a call's number: number and what is chosen."""
    text = code(path)
    text = re.sub(r"^  pub .*$", "", text, flags=re.M)
    for found in re.finditer(r"\bcond \(eqb (?:call|\(word w 0\)) (\d+)\)\s*", text):
        yield int(found.group(1)), closed(text, found.end()) if text[found.end()] == "(" else text[found.end() :].split()[0]
    for name, number in re.findall(r"^\w+ \(?(?:C\.)?(\w+)[^=\n]*\)? = (\d+)$", text, re.M):
        yield int(number), f"C.{name} "


def check_rows(table, column, paths):
    """Each row has the words by which its call is known, and each call a row."""
    numbers = {row["name"]: int(row["number"]) for row in table.rows("calls")}
    known = {numbers[row["call"]]: row[column] for row in table.rows("definitions")}
    names = {number: name for name, number in numbers.items()}
    seen = set()
    for name in (name for name, number in numbers.items() if number not in known):
        yield f"{PATH}: [definitions]: no row of {name} stands there, and each call should have one"
    for path in paths:
        for number, chosen in number_rows(path):
            due = known.get(number)
            if number not in known:
                yield f"{line_of(path, f' {number}) ')}: {number} stands there, and is no call's"
            elif due and not re.search(r"(?<![\w.])(?:C\.)?" + re.escape(due) + r"(?!\w)", chosen):
                stands = " ".join(chosen.split())[:60]
                yield f"{line_of(path, f'{number}) ')}: call {number} is {stands!r} there, and should have {due!r}: {names[number]}"
            seen.add(number)
    for number in sorted(number for number, due in known.items() if due and number not in seen):
        yield f"{paths[0]}: no row for {number} {names[number]} stands there or in the files beside it"


# ---- words by place


def read_fields(path, name, bodies, prefix=""):
    """The fields that a function reads, by path, and the places of their words in order."""
    source = path.endswith(".rt")
    body = bodies[name]
    yield from read_record(path, body, bodies, prefix) if source or "record {" in body else ()


def read_record(path, text, bodies, prefix):
    source = path.endswith(".rt")
    found = re.search(r"\b[A-Z]\w* \{" if source else r"\brecord \{", text)
    if not found:
        return
    for part in split(closed(text, found.end() - 1), "," if source else ";"):
        field, _, value = part.partition(":" if source else "=")
        field, value = field.strip(), value.strip()
        within = prefix if field == "0" else f"{prefix}.{field}".strip(".")
        called = re.fullmatch(r"(\w+)\(n\)" if source else r"(\w+) l(?: i)?", value)
        if re.match(r"[A-Z]\w* \{" if source else r"record \{", value):
            yield from read_record(path, value, bodies, within)
        elif called and called.group(1) in bodies:
            yield from read_record(path, bodies[called.group(1)], bodies, within)
        else:
            yield within, places(path, without_tests(path, value))


def without_tests(path, value):
    """Without the words that are only tested."""
    if path.endswith(".rt"):
        return re.sub(r"\bflag_fits\(n\[\d+\]\)", "", value)
    return re.sub(r"\bflag_fits \(word l (?:\d+|\(i \+ \d+\)|i)\)", "", value)


def places(path, value):
    """The words that an expression reads. In the bytes of a state one stands at 8 times its place."""
    if path.endswith(".rt"):
        found = re.findall(r"\bn\[(\d+)\]|\bget_word\(state, (\d+)\)", value)
        return [int(place) if place else int(at) / WORD_BYTES for place, at in found]
    return [int(plain or sum or 0) for plain, sum in re.findall(r"\bword [lw] (?:(\d+)|\(i \+ (\d+)\)|i\b)", value)]


def check_reader(table, path, name, section, first):
    """Each field is read from its words."""
    start = table.place.__dict__[first] if first else 0
    bodies = functions(path)
    if name not in bodies:
        return [f"{path}: no {name} stands there, and it should read [{section}]"]
    seen, out = set(), []
    for within, read in read_fields(path, name, bodies):
        rows = [row for row in table.rows(section) if row["here"] and (row["here"] + ".").startswith(within + ".")]
        due = [start + int(row["word"]) + more for row in rows for more in range(table.words(row))]
        if read != due:
            out.append(f"{path}: {name}: {within} is read from {read or 'no word'}, and should be from {due or 'none'}")
        seen |= {row["here"] for row in rows}
    part = {row["part"] for row in table.rows(section) if "part" in row and row["here"] in seen}
    for row in table.rows(section):
        if row["here"] and row["here"] not in seen and (not part or row["part"] in part):
            out.append(f"{path}: {name}: {row['here']} is not read, and should be from {start + int(row['word'])}")
    return out


def check_forms(table, path, name, section, first):
    """The words that are tested are those whose kind has a form, each as its kind."""
    start = table.place.__dict__[first] if first else 0
    bodies = functions(path)
    text = "\n".join(bodies.values()) if name is None else bodies.get(name, "")
    word = r"n\[(\d+)\]" if path.endswith(".rt") else r"\(word l (?:\(i \+ )?(\d+)\)?\)"
    apart = ", " if path.endswith(".rt") else " "
    tests = {"flag": r"\bflag_fits[( ]", "f32": r"\bfloat_fits[( ]", "phase": r"\bphase_fits[( ]"}
    single = {kind: re.findall(test + word, text) for kind, test in tests.items()}
    pairs = re.findall(r"\bmaybe_fits[( ]" + word + apart + word, text)
    stands = {kind: sorted(map(int, found)) for kind, found in single.items()}
    stands["pair"] = sorted(int(one) for pair in pairs for one in pair)
    due = {kind: [] for kind in stands}
    for row in table.rows(section):
        kind = "pair" if row["kind"].startswith("set, and ") else row["kind"]
        if kind in due:
            due[kind] += [start + int(row["word"]) + more for more in range(table.words(row))]
    if name is not None:
        # a pair that is no writer's is out of bounds by its number
        due["pair"] = []
    for kind in due:
        if stands[kind] != due[kind]:
            yield f"{path}: {name or 'the forms'}: words {stands[kind]} are tested as {kind}, and should be {due[kind]}"


def check_acked(table, path, name, parts):
    """The acked numbers are taken by the count's word and from the words of the numbers, of which the first has a place."""
    first = table.sample.ACKED_PACKETS
    words = {"count": [table.sample.ACKED_COUNT], "numbers": [first + more for more in range(table.size.MOST_ACKED)], "place": [first]}
    stands = places(path, functions(path).get(name, ""))
    due = [word for part in parts for word in words[part]]
    if stands != due:
        yield f"{path}: {name}: the acked numbers are taken by words {stands}, and should be by {due}"


# ---- arguments by place


def word_in(text):
    """The word that an expression reads, and whether as an f32. In bytes it stands at so many after the call's first."""
    found = re.search(r"(\bfloat_of\()?\bn\[(\d+)\]", text)
    if found:
        return int(found.group(2)), bool(found.group(1))
    found = re.search(r"\bget_word\(call, (\d+)\)", text)
    return (int(found.group(1)) / WORD_BYTES, False) if found else None


def words_read(body):
    """The words that a function reads before it hands them on, by the names that it gives them."""
    return {found: word_in(value) for found, value in re.findall(r"\blet (\w+) = (.*);", body) if word_in(value)}


def used(text, words):
    """The words that an expression uses, by the names of what was read and as they are."""
    mentioned = re.findall(r"\bfloat_of\(n\[\d+\]\)|\bn\[\d+\]|\b[a-z]\w*\b(?!\(|::)", text)
    return [word for word in (words.get(name) or word_in(name) for name in mentioned) if word]


def handed_on(text, call, words):
    """The word of each argument with which a call is made, an argument that uses several by the last: those before it are
    only tested."""
    at = re.search(rf"\b{call}\(", text)
    given = [used(part, words) for part in split(closed(text, at.end() - 1), ",")] if at else []
    return [found[-1] for found in given if found]


def check_given(table, where, name, stands, order=None):
    """A call's arguments, in the order in which they are handed on, are the words of its rows, an f32 as one."""
    rows = {row["argument"]: row for row in table.given(name)}
    due = [(int(rows[one]["word"]), rows[one]["kind"] == "f32") for one in order or rows]
    if stands != due:
        said = lambda words: ", ".join(f"{at:g}{' as an f32' if is_float else ''}" for at, is_float in words) or "none"
        yield f"{where}: {name}: words {said(stands)} are handed on there, and should be {said(due)}"


def parameters(path, function):
    """The names of a function's parameters, or nothing where there is no such function."""
    text = code(path)
    found = re.search(rf"\bfn {function}\(", text)
    return [part.split(":")[0] for part in split(closed(text, found.end() - 1), ",")] if found else None


def check_passed(path):
    """What a choice passes on to a further choice of its file keeps its name."""
    for found in re.finditer(r"\b_ (?:if .*? )?=> (\w+)\(([^()]*)\)", code(path)):
        due, stands = parameters(path, found.group(1)), split(found.group(2), ",")
        if due is not None and stands != due:
            yield f"{line_of(path, found.group(0))}: {', '.join(stands)} is handed on to {found.group(1)}, and should be {', '.join(due)}"


def check_arguments(table, handed, choosers, knowing):
    """Every call is given its arguments from their words."""
    seen = set()
    names = {int(row["number"]): row["name"] for row in table.rows("calls")}
    bodies = functions(handed).values()
    for chooser, path in choosers.items():
        text = next((body for body in bodies if re.search(rf"\b{chooser}\(", body)), "")
        at, takes = re.search(rf"\b{chooser}\(", text), parameters(path, chooser)
        if not at or takes is None:
            yield f"{handed}: {chooser} of {path} stands in one of the two and not in both"
            continue
        read = words_read(text)
        given = [read.get(part) or word_in(part) for part in split(closed(text, at.end() - 1), ",")]
        words = {name: word for name, word in zip(takes, given) if word and word[0]}
        for number, called in choices(path):
            # a number of no call is said by check_choices
            if number in names:
                yield from check_given(table, line_of(path, called), names[number], handed_on(called, names[number], words))
                seen.add(names[number])
        yield from check_passed(path)
    for path, function, call, name, order in knowing:
        body = functions(path).get(function, "")
        yield from check_given(table, f"{path}: {function}", name, handed_on(body, call, words_read(body)), order)
        seen.add(name)
    for name in sorted({row["call"] for row in table.rows("arguments")} - seen):
        yield f"{handed}: nothing stands there or in the files beside it that hands on the arguments of {name}"


# ---- sizes and replies


def sizes(table):
    return {name: number for names in (table.size, table.place) for name, number, _ in names.items()}


def check_phrases(table, phrases, paths):
    """A phrase that has a size has the table's; each phrase stands somewhere."""
    known, found = sizes(table), set()
    for path in paths:
        for number, line in enumerate(read(path).splitlines(), 1):
            for phrase, names in phrases:
                for match in re.finditer(phrase, line):
                    found.add(phrase)
                    stands = int(next(group for group in match.groups() if group))
                    if stands not in [known[name] for name in names]:
                        due = " or ".join(sorted({str(known[name]) for name in names}))
                        yield f"{path}:{number}: {stands} stands there ({match.group(0)!r}), and should be {due}"
    for phrase, names in phrases:
        if phrase not in found:
            yield f"tests/held.py: no phrase like {phrase} stands in the source, and one should with {' or '.join(names)}"


def check_numbers(table, paths, others):
    """A number that is no word's place and no call's is a size."""
    known = sizes(table)
    last = max(known["STATE_WORDS"], known["CALL_WORDS"], int(table.rows("calls")[-1]["number"]))
    # an answer of `serve` has the state after it
    frame = known["ANSWER_WORDS"] + known["STATE_WORDS"]
    allowed = {*known.values(), frame, WORD_BYTES * frame} | others
    for path in paths:
        mark = r"//.*" if path.endswith(".rt") else r"--.*"
        for number, line in enumerate(read(path).splitlines(), 1):
            for literal in re.findall(r"(?:(?<![\w.])|(?<=\.\.))\d[\d_]*(?!\w|\.(?!\.))", re.sub(mark, "", line)):
                value = int(literal.replace("_", ""))
                if last < value < 1000 and value not in allowed:
                    yield f"{path}:{number}: {value} stands there, and is no size, word or call of {PATH}"


def enum_numbers(path, kind):
    """The numbers that an enum of the source gives its names."""
    text = code(path)
    found = re.search(rf"\benum {kind} \{{", text)
    return re.findall(r"^ *(\w+) = (\d+),", closed(text, found.end() - 1), re.M) if found else []


def numbered(path, kind, function, done):
    """Names and numbers: of the source's enum and of what is made of it, or of a definition's function; and of an `Ok`, where
    it has one, in what has that name in definitions."""
    text = code(path)
    if path.endswith(".rt"):
        pairs = enum_numbers(path, kind) + re.findall(rf"\b{kind}::(\w+)(?:\(_\))? => (\d+)", text)
        # a call that is done is answered by this word where a run writes it
        text = code(DONE)
        of_ok = r"\bOk\((?:\(\)|_)\) => (\d+)"
    else:
        pairs = re.findall(rf"^{function} \(?(\w+)(?: \w+\))? = (\d+)$", text, re.M)
        of_ok = rf"^{done} \(Ok \w+\) = (\d+)$"
    pairs += [("Done", number) for number in sorted(set(re.findall(of_ok, text, re.M)))] if done else []
    return [(name, int(number)) for name, number in pairs]


def check_numbered(table, section, kind, function, done, paths):
    due = {row["name"]: int(row["number"]) for row in table.rows(section)}
    for path in paths:
        yield from check_names(path, numbered(path, kind, function, done), due)


def check_names(path, stands, due):
    """Each name stands once, with its number."""
    for name in sorted(set(due) | {name for name, _ in stands}):
        here = [number for one, number in stands if one == name]
        if here != ([due[name]] if name in due else []):
            yield f"{path}: {name} is {' and '.join(map(str, here)) or None} there, and should be {due.get(name)}"


def check_causes(table, kind, function, done, source, definition):
    """A run's names of the rows have the rows' numbers: each is the reply that the source makes of it, and back."""
    due = {row["name"]: int(row["number"]) for row in table.rows("replies")}
    text = code(source)
    made = dict(re.findall(rf"\b{kind}::(\w+) => Refusal::(\w+)", text))
    back = {cause: reply for reply, cause in re.findall(rf"\bRefusal::(\w+)(?:\(_\))? => {kind}::(\w+)", text)}
    if made != back:
        yield f"{source}: the replies of {kind} are {made} there, and those that it is made of {back}"
    if sorted(made.values()) != sorted(set(due) - {"Done"}):
        yield f"{source}: {kind} is of {sorted(made.values())} there, and should be of {sorted(set(due) - {'Done'})}"
    named = {name: due.get(reply) for name, reply in made.items()}
    yield from check_names(source, numbered(source, kind, function, None), named)
    named["Done"] = due["Done"]
    yield from check_names(definition, numbered(definition, kind, function, done), named)


# ---- kinds and places of a refusal 2


def ending(path):
    return os.path.splitext(path)[1]


def kind_names(table, path):
    """The names of the kinds in a file, and their numbers."""
    return {kind_name(path, row["name"]): int(row["number"]) for row in table.rows("faults")}


def kind_name(path, name):
    return name if ending(path) == ".rt" else KINDS.get(name, "a_" + constant(name).lower())


def check_kinds(table, path):
    """The kinds have the table's numbers."""
    source = ending(path) == ".rt"
    pairs = enum_numbers(path, "Kind") if source else re.findall(r"^(\w+) = (\d+)$", code(path), re.M)
    due, stands = kind_names(table, path), {name: int(number) for name, number in pairs}
    for name in sorted(set(due) | set(stands)):
        if due.get(name) != stands.get(name):
            yield f"{line_of(path, name)}: kind {name} is {stands.get(name)} there, and should be {due.get(name)}"
    if not source:
        # what the enum's names are there
        due = {row["name"]: kind_name(path, row["name"]) for row in table.rows("faults")}
        yield from check_names(path, re.findall(r"^kind_number (?:Kind\.)?(\w+) = (\w+)$", code(path), re.M), due)


def check_steps(table, steps):
    """A reply is put together as the table says."""
    times = {row["part"]: int(row["times"]) for row in table.rows("reply")}
    due = {"kind": times["kind"], "place": times["place"] // times["kind"]}
    for path, phrase, part in steps:
        stands = [int(found) for found in re.findall(phrase, code(path))]
        if stands != [due[part]]:
            yield f"{path}: a {part} is taken times {stands} there, and should be times {due[part]}"


def faults_in(row):
    return [int(number) for number in (row["fault"] or "").split(", ") if number]


def record_due(table, name, place):
    """The faults of an argument that is a record, each with its place, kind and field."""
    rows = table.rows("event") if name == "event" else [row for row in table.rows("sample") if row["argument"] == name]
    return [(place, fault, row["here"]) for row in rows for fault in faults_in(row)]


def faults_due(table, call, section="arguments"):
    """The faults of a call in order."""
    given = [(int(row["place"]), fault, row["word"]) for row in table.given(call, section) for fault in faults_in(row)]
    for row in table.rows("records"):
        if row["call"] == call:
            given += record_due(table, row["argument"], int(row["place"]))
    return sorted(given, key=lambda one: one[0])


def atoms(text):
    """What a definition's function is applied to: words and brackets, up to the end of the application."""
    while text := text.lstrip():
        if text[0] in ")∷;":
            return
        atom = closed(text, 0) if text[0] == "(" else re.match(r"[^\s()]+", text).group(0)
        yield atom
        text = text[len(atom) + 2 * (text[0] == "(") :]


def methods(path):
    """The bodies of a source's functions, those named `fault` by their record, with the types of what each is given."""
    text, bodies = code(path), dict(functions(path))
    for found in re.finditer(r"^impl (\w+) \{", text, re.M):
        within = closed(text, found.end() - 1)
        at = within.find("fn fault(")
        if at >= 0:
            bodies[found.group(1)] = closed(within, within.index("{", at))
    types = {name: dict(re.findall(r"(\w+): (\w+)", given)) for name, given in re.findall(r"\bfn (\w+)\(([^()]*)\)", text)}
    return bodies, types


def entries(path, name):
    """What a function lists: a test, a place and a kind, or the name of a record's list and what that is given."""
    if ending(path) == ".rt":
        bodies, types = methods(path)
        body = bodies.get(name, "")
        for found in re.finditer(r"\bKind::(\w+)\.unless\(|\b(\w+)\.fault\(", body):
            record = types[name].get(found.group(2), "") if found.group(2) else None
            given = split(closed(body, found.end() - 1), ",")
            yield record, given + [found.group(1)] if found.group(1) else given
        return
    body = functions(path).get(name, "")
    for found in re.finditer(r"\bunless |\b(\w+_faults) ", body):
        yield found.group(1), list(atoms(body[found.end() :]))


def listed(path, name, kinds, place=None):
    """The faults that a function lists: place, kind and test of each. A record stands at the place that it is given."""
    for record, given in entries(path, name):
        if record is not None:
            yield from listed(path, record, kinds, given[0])
        else:
            test, at, kind = given[:3]
            yield place if at == "place" else at, kinds.get(kind, kind), test


def check_list(where, stands, due, of):
    """A list of faults is the due one, place by place and kind by kind."""
    said = lambda one: f"2.{one[1]} at {one[0]}" if one else "nothing"
    stands, due = [(str(one[0]), str(one[1])) for one in stands], [(str(one[0]), str(one[1])) for one in due]
    for turn in range(max(len(stands), len(due))):
        one, other = (part[turn] if turn < len(part) else None for part in (stands, due))
        if one != other:
            yield f"{where}: fault {turn + 1} is {said(one)} there, and should be {said(other)}: {of}"
            return


def numbers_in(text):
    """The calls that a test by number lets through."""
    text = " ".join(text.split())
    found = {int(one) for one in re.findall(r"\beqb call (\d+)", text)}
    for low, high in re.findall(r"\bleb (\d+) call && leb call (\d+)", text):
        found |= set(range(int(low), int(high) + 1))
    for pattern in re.findall(r"\bmatches!\(call, ([^()]*)\)", text):
        found |= set(calls_in(pattern))
    return found


def letters(text):
    """The numbers of a call that an expression uses, one after the other."""
    found = re.findall(r"\b[abcd]\b", text)
    return [one for turn, one in enumerate(found) if turn == 0 or found[turn - 1] != one]


def chosen_lists(path):
    """The list of each call in words: the call's number, the list's name, and the words that it is made of, or nothing
    for a record."""
    text, bodies = code(path), functions(path)
    if ending(path) == ".rt":
        for chooser in ("entry_fault", "number_fault"):
            given = re.search(rf"return {chooser}\((.*)\);|^    {chooser}\((.*)\)$", text, re.M)
            words = dict(zip(parameters(path, chooser), split(given.group(1) or given.group(2), ",")))
            for number, called in choices_in(bodies[chooser]):
                name = re.match(r"\w*", called).group(0)
                name = name if name not in bodies else re.search(r"\b(\w+_fault)\(", bodies[name]).group(1)
                yield number, name, [int(words[one][2:-1]) for one in letters(called)]
        started = re.search(r"\bif n\[0\] == (\d+) \{\s*return started\(", text)
        yield int(started.group(1)), re.search(r"\b(\w+_fault)\(", bodies["started"]).group(1), None
        return
    for chooser in ("entry_faults", "number_faults"):
        takes = re.search(rf"^{chooser} call ([\w ]+) =", text, re.M).group(1).split()
        words = dict(zip(takes, re.findall(r"word w (\d+)", re.search(rf"\({chooser} call (.*)$", text, re.M).group(1))))
        for found in re.finditer(r"\bcond \((eqb call [^()]*)\) (\(|\[\])", bodies[chooser]):
            chosen = closed(bodies[chooser], found.end() - 1) if found.group(2) == "(" else ""
            for number in sorted(numbers_in(found.group(1))):
                yield number, chosen.split(" ")[0], [int(words[one]) for one in letters(chosen)]
    started = re.search(r"\bcond \(eqb \(word w 0\) (\d+)\)\s*\((\w+)", bodies["faults_of"])
    yield int(started.group(1)), started.group(2), None


def choices_in(body):
    """The arms of a match by a call's number."""
    for pattern, called in arms(closed(body, body.index("match call {") + len("match call "))):
        yield from ((number, called) for number in calls_in(pattern))


def check_places(table, path, beside):
    """Each call of a run has its list, of its words, and each list is the table's."""
    try:
        yield from differing_places(table, path, beside)
    except (AttributeError, KeyError, IndexError, ValueError) as fault:
        yield f"{path}: the list of each call's faults is written in another way there than tests/held.py reads: {fault!r}"


def differing_places(table, path, beside):
    source = ending(path) == ".rt"
    kinds, numbers = kind_names(table, beside), {int(row["number"]): row["name"] for row in table.rows("calls")}
    bodies, seen = functions(path), set()
    for number, name, words in chosen_lists(path):
        call = numbers.get(number, f"{number}, no call's number")
        due = faults_due(table, call)
        yield from check_list(f"{beside}: {name or 'no list'}", listed(beside, name, kinds), due, f"{number} {call}")
        if words is not None:
            asked = [int(word) for turn, (_, _, word) in enumerate(due) if turn == 0 or due[turn - 1][2] != word]
            if words != asked:
                yield f"{path}: {name}: words {words} of call {number} are handed on there, and should be {asked}: {call}"
        seen.add(number)
    record = numbers_in(bodies["is_about_event" if source else "is_about_event"])
    place = re.search(r"\bevent\.fault\((\d+)", bodies["other_fault"]).group(1) if source else None
    name = "CongestionEvent" if source else "event_faults"
    for number in sorted(record):
        call = numbers.get(number, f"{number}, no call's number")
        yield from check_list(f"{beside}: {name}", listed(beside, name, kinds, place), faults_due(table, call), f"{number} {call}")
    free = numbers_in(bodies["is_given_nothing" if source else "is_given_nothing"])
    for number in sorted(set(numbers) - seen - record - free):
        yield f"{path}: no list for {number} {numbers[number]} stands there"
    for number in sorted((seen | record | free) - set(numbers)):
        yield f"{path}: a list for {number} stands there, and that is no call's"
    for number in sorted(number for number in free if faults_due(table, numbers.get(number, ""))):
        yield f"{path}: call {number} is given nothing there, and should be given what {numbers[number]} is"
    if source:
        where, stands = beside, [(0, kinds.get(found, found)) for found in re.findall(r"\bNO_CALL: u32 = Kind::(\w+) as u32;", code(beside))]
    else:
        where, stands = path, listed(path, "no_call", kinds)
    due = [(0, kinds[kind_name(path, "ListLength")])]
    yield from check_list(f"{where}: a number that is no call's", stands, due, "no call")


def check_fields(table, path):
    """The numbers of a record's definition are its fields, each once, in order."""
    kinds = kind_names(table, path)
    for name, argument in (("record_faults", "event"), ("sample_faults", "sample")):
        form = kinds["list_length"]
        stands = [".".join(re.findall(r"\.(\w+)", test)) for _, kind, test in listed(path, name, kinds) if kind != form]
        due = [here for _, kind, here in record_due(table, argument, 0) if kind != form]
        if stands != due:
            yield f"{path}: {name}: the fields {', '.join(stands)} are tested there, and should be {', '.join(due)}"


def check_fits(table, path, name, section, first):
    """The words that are tested are those of the fields that can be malformed, a pair as one."""
    start = table.place.__dict__[first] if first else 0
    word = r"n\[(\d+)\]" if ending(path) == ".rt" else r"\(word w (\d+)\)"
    tests = re.findall(rf"\b(flag|maybe)_fits[( ]{word}(?:,? {word})?", functions(path).get(name, ""))
    stands = [(kind, *(int(one) for one in words if one)) for kind, *words in tests]
    due = []
    for row in table.rows(section):
        if row.get("argument", "sample") == "sample" and table.numbered("faults").LIST_LENGTH in faults_in(row):
            kind = "flag" if row["kind"] == "flag" else "maybe"
            due.append((kind, *(start + int(row["word"]) + more for more in range(table.words(row)))))
    if stands != due:
        yield f"{path}: {name}: {stands} are tested there, and should be {due}"


def check_standing(table, path, name, section, first, field):
    """The one word that is taken as it stands is the field's."""
    start = table.place.__dict__[first] if first else 0
    found = re.findall(r"\bn\[\d+\]|\bword w \d+", functions(path).get(name, ""))
    stands = [int(re.search(r"\d+", word).group(0)) for word in found]
    due = [start + int(row["word"]) for row in table.rows(section) if row["field"] == field]
    if stands != due:
        yield f"{path}: {name}: words {stands} are taken as they stand there, and should be {due}"


def check_exported(table, lists):
    """The lists of the exported functions are the table's."""
    for function, path, name in lists:
        rows = [row for row in table.rows("exported") if row["function"] == function]
        due = [(int(row["place"]), fault) for row in rows for fault in faults_in(row)]
        yield from check_list(f"{path}: {name}", listed(path, name, kind_names(table, path)), due, function)


# ---- the round-trip estimator


def check_rtt_faults(table, path):
    """Each call's list of faults is the table's, and tests what is given at each place."""
    source = ending(path) == ".rt"
    for row in table.rows("rtt_calls"):
        name, due = row["here"] + ("_fault" if source else "_faults"), faults_due(table, row["name"], "rtt_arguments")
        found = list(listed(path, name, kind_names(table, path)))
        yield from check_list(f"{path}: {name}", found, due, row["name"])
        given = (parameters(path, name) if source else takes(path, name)) or []
        tested = [given.index(test) + 1 for _, _, text in found for test in re.findall(r"\w+", text) if test in given]
        places_due = [place for place, *_ in due]
        if tested != places_due:
            yield f"{path}: {name}: what is given at {tested} is tested there, and should be what is given at {places_due}"


def check_rtt_naming(table, path, naming):
    """Each call finds the first fault of its own list, in what it is given."""
    for row in table.rows("rtt_calls"):
        here, name = row["here"], naming[row["here"]]
        stands = re.findall(r"\b(\w+_fault)\(([^()]*)\)", functions(path).get(name, ""))
        due = [(f"{here}_fault", ", ".join(parameters(path, f"{here}_fault") or []))]
        if stands != due:
            yield f"{path}: {name}: {stands} are its faults there, and should be {due}"


def takes(path, name):
    """The names of what a definition takes."""
    found = re.search(rf"^{name} ([\w ]+) =", code(path), re.M)
    return found.group(1).split() if found else []


def check_rtt_rows(table, path):
    """The number of a call's reply is made of the estimator where the call reads the stored numbers, and only there."""
    for row in table.rows("rtt_calls"):
        name = row["here"] + "_number"
        stands = takes(path, name)[:1] == ["s"]
        if stands != bool(row["state"]):
            yield f"{path}: {name}: it is made of {'' if stands else 'no '}stored numbers there: {row['name']} should {'' if row['state'] else 'not '}read them"


def rtt_choices(path, names):
    """The choices by the number of a call: number, name of what is chosen, and the words that it is given."""
    bodies = functions(path)
    test = r"\b(\d+) => (?:stats\.)?(\w+)\(" if ending(path) == ".rt" else r"\bcond \(eqb n (\d+)\)\s*\((\w*)"
    for body in (bodies.get(name, "") for name in names):
        for found in re.finditer(test, body):
            chosen = closed(body, body.rindex("(", 0, found.end()))
            yield int(found.group(1)), found.group(2), "".join(re.findall(r"\b[abc]\b", chosen))


def check_rtt_choices(table, path, choices):
    """Each number chooses what its call does, with the words that are its arguments, where a flag may stand twice, as what
    it is and by its form; a number of no call has its fault."""
    for names, end in choices:
        due, flags = [], set()
        for row in table.rows("rtt_calls"):
            rows = [("_abc"[int(one["word"])], one["kind"]) for one in table.given(row["name"], "rtt_arguments")]
            flags |= {letter for letter, kind in rows if kind == "flag"}
            name = end[row["here"]] if isinstance(end, dict) else row["here"] + end
            due.append((int(row["number"]), name, "".join(letter for letter, _ in rows)))
        once = lambda given: "".join(one for at, one in enumerate(given) if one not in flags or given[at - 1 : at] != one)
        stands = sorted((number, name, once(given)) for number, name, given in rtt_choices(path, names))
        if stands != due:
            yield f"{path}: {', '.join(names)}: {stands} are chosen there, and should be {due}"
    unknown = r"\n +_ => stats\.given\(false, NO_CALL\)," if ending(path) == ".rt" else r"unless false 0 list_length"
    if not re.search(unknown, functions(path).get(choices[0][0][0], "")):
        yield f"{path}: {choices[0][0][0]}: a number that is no call's has another fault there, and should have 2.8 at 0"


def check_rtt_words(table, path, readers):
    """The number and the arguments of a call are read from their words, at so many bytes after its first."""
    due = [WORD_BYTES * word for word in range(table.size.RTT_CALL_WORDS)]
    word = r"get_word\(call, (\d+)\)" if ending(path) == ".rt" else r"word_at src (?:at\b|\(at \+ (\d+)\))"
    for name in readers:
        stands = [int(at or 0) for at in re.findall(word, functions(path).get(name, ""))]
        if stands != due:
            yield f"{path}: {name}: the words at {stands} are read there, and should be those at {due}"


def check_rtt_written(table, path, state, answer):
    """A state and an answer are written in the order of their words."""
    here = {row["field"]: row["here"] for row in table.rows("rtt_state")}
    answered = [here.get(row["field"], row["field"]) for row in table.rows("rtt_answer")]
    for name, due in ((state, list(here.values())), (answer, answered[1:])):
        body = functions(path).get(name, "")
        # of a source the last list: one of an answer's before it has zeros
        text = closed(body, body.rindex("[")) if ending(path) == ".rt" and "[" in body else body
        cells = split(text, "," if ending(path) == ".rt" else "∷")
        stands = [found for cell in cells for found in re.findall("|".join(due), cell)[-1:]]
        if stands != due:
            yield f"{path}: {name}: {stands} are written there, and should be {due}"


def check_rtt_answer(table, path, name):
    """The reply is the first word of an answer, and a refused call has zeros for the others."""
    found = re.search(r"\breplied .* ∷ settled row \(shown .*\) \(((?:0 ∷ )*)\[\]\)", functions(path).get(name, ""))
    stands = ["reply"] + found.group(1).split(" ∷ ")[:-1] if found else []
    due = ["reply" if row["kind"] == "reply" else "0" for row in table.rows("rtt_answer")]
    if stands != due:
        yield f"{path}: {name}: a refused call is answered {stands} there, and should be {due}"


def check_rtt_form(table, path, name):
    """The words of a state that are tested are its flags."""
    found = re.findall(r"\bflag_fits(?:\(get_word\(state, | \(word_at s )(\d+)\)", functions(path).get(name, ""))
    due = [WORD_BYTES * int(row["word"]) for row in table.rows("rtt_state") if row["kind"] == "flag"]
    if [int(at) for at in found] != due:
        yield f"{path}: {name}: the words at {found} are tested there, and should be those at {due}"


def check_rtt(table):
    for path in RTT.values():
        yield from check_rtt_faults(table, path)
    yield from check_rtt_naming(table, RTT[".rt"], RTT_NAMING)
    yield from check_rtt_rows(table, RTT[".antt"])
    for kind, path in TRIPS.items():
        yield from check_rtt_choices(table, path, RTT_CHOICES[kind])
        yield from check_rtt_words(table, path, RTT_READ[kind])
        yield from check_rtt_written(table, path, *RTT_WRITTEN[kind])
        yield from check_rtt_form(table, path, RTT_FORM[kind])
    yield from check_rtt_answer(table, TRIPS[".antt"], RTT_ANSWER)
    yield from check_phrases(table, RTT_PHRASES, RTT_SIZED)


# ---- all of it


def files(patterns):
    found = [path for pattern in patterns for path in glob.glob(os.path.join(ROOT, pattern))]
    return sorted(os.path.relpath(path, ROOT) for path in found if path.endswith((".rt", ".antt")))


def named():
    """Every path of the lists above."""
    yield from CHOICES
    yield from (path for paths in ROWS.values() for path in paths)
    yield from (path for path, *_ in READERS + FORMS + ACKED + KNOWING)
    yield from [HANDED, *CHOOSERS.values()]
    yield from NOT_COUNTED
    yield from (path for *_, paths in NUMBERED for path in paths)
    yield from CAUSES[-2:]
    yield from [*FAULTS.values(), *PLACES.values()]
    yield from (path for _, path, _ in EXPORTED)
    yield from (path for path, *_ in FITS + STANDING + STEPS)
    yield from [*RTT.values(), *RTT_SIZED]


def faults(table):
    """A line for each difference."""
    missing = sorted({path for path in named() if not os.path.exists(os.path.join(ROOT, path))})
    if missing:
        return [f"{path}: no such file stands there, and tests/held.py names it" for path in missing]
    out = list(check_choices(table, CHOICES))
    for column, paths in ROWS.items():
        out += check_rows(table, column, paths)
    for reader in READERS:
        out += check_reader(table, *reader)
    for form in FORMS:
        out += check_forms(table, *form)
    for acked in ACKED:
        out += check_acked(table, *acked)
    out += check_arguments(table, HANDED, CHOOSERS, KNOWING)
    out += check_phrases(table, PHRASES, [path for path in files(SIZED) if path not in RTT_SIZED])
    out += check_numbers(table, [path for path in files(COUNTED) if path not in NOT_COUNTED], OTHERS)
    for section in NUMBERED:
        out += check_numbered(table, *section)
    out += check_causes(table, *CAUSES)
    for kind, path in FAULTS.items():
        out += check_kinds(table, path)
        out += check_places(table, PLACES[kind], path)
    out += check_fields(table, FAULTS[".antt"])
    for fits in FITS:
        out += check_fits(table, *fits)
    for standing in STANDING:
        out += check_standing(table, *standing)
    out += check_exported(table, EXPORTED)
    out += check_steps(table, STEPS)
    out += check_rtt(table)
    return out
