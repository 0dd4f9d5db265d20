#!/usr/bin/env python3
"""Says a reply in words: why a call was refused, and of a bad argument which one it was.

    tests/refusal.py REPLY CALL

REPLY is the number that a log has: word 0 of a call's answer, or what an exported function replied. CALL is the call that
got it, by its number or its name, or the function's name. A number is decimal, or hexadecimal after 0x. A number alone is
that of a call of the model's: a call of the round-trip estimator's goes by its name, or by rtt_ and its number or name.

    tests/refusal.py 66562 0                2.4 at 1: initial_rtt is longer than 2^36 ns (68.7 s)
    tests/refusal.py 0x10402 start          the same
    tests/refusal.py 132098 update_rtt      2.4 at 2: ack_delay is longer than 2^36 ns (68.7 s)
    tests/refusal.py 132098 rtt_1           the same
    tests/refusal.py 1 rtt_update_rtt       1: a stored length is longer than 2^36 ns (68.7 s)
    tests/refusal.py 67586 guovssalu_run    2.8 at 1: state is not 408 bytes long

A number that can be no reply to that call is said to be none, and why, and it ends with 1. Where the call's number stood
alone, and the estimator's call of that number can get the reply, what it then says is added. docs/REFUSALS.md says what
to ask next. The table is docs/calls.txt."""

import collections
import re
import sys

from words import PATH, TABLE, Fault

ROWS = {int(row["number"]): row["what"] for row in TABLE.rows("replies")}
FAULTS = {int(row["number"]): row for row in TABLE.rows("faults")}
FORMS = {row["kind"]: row for row in TABLE.rows("forms")}
ASKED = {int(row["row"]): row["calls"].split(", ") for row in TABLE.rows("asked")}
SAYINGS = {(row["call"], int(row["place"]), int(row["fault"])): row["said"] for row in TABLE.rows("sayings")}
# A reply's parts, a byte each.
TIMES = {row["part"]: int(row["times"]) for row in TABLE.rows("reply")}
PART = 256
LAST = PART * max(TIMES.values()) - 1
BAD = TABLE.reply.BAD_ARGUMENT
LENGTH, LIST_LENGTH = TABLE.numbered("faults").LENGTH, TABLE.numbered("faults").LIST_LENGTH
EVENT = "on_congestion_event_start"
NO_CALL = "the number is no call's"
# Before the number of a call of the round-trip estimator's, or its name, and what carries them out.
RTT = "rtt_"
RTT_RUN = "guovssalu_rtt_run"
# What 1 says of a call of the estimator's: it has no parameters, and what it stores is lengths and a flag, and the run
# looks at the flag.
RTT_STORED = f"a stored length {FAULTS[LENGTH]['said']} ({FAULTS[LENGTH]['plain']})"

# An argument by its place: its name, what is said of it by each fault that it can have, and by each other row.
Argument = collections.namedtuple("Argument", ["place", "name", "said", "other"])
# What is said, and of what: of an argument, of the fields of a record that can have the fault, or, where that is a whole
# sentence, of nothing.
Said = collections.namedtuple("Said", ["names", "phrase"])


def joined(parts):
    """One of them: a, b or c."""
    return " or ".join(", ".join(parts).rsplit(", ", 1))


def sentence(said):
    return f"{joined(said.names)} {said.phrase}".strip().replace("`", "")


def reply_of(fault, place):
    return BAD + TIMES["kind"] * fault + TIMES["place"] * place


# ---- what the table says of arguments


def faults_of(row):
    """The faults of an argument or a field; those of a word fit its kind."""
    found = [int(number) for number in (row["fault"] or "").split(", ") if number]
    fit = FORMS.get(row["kind"], {"fault": ""})["fault"].split(", ") if "kind" in row else map(str, FAULTS)
    if not {str(fault) for fault in found} <= set(fit):
        raise Fault(f"{PATH}: {row.get('field') or row['argument']}: {row['fault']} are no faults of {row.get('kind')}")
    return found


def phrase(kind, fault):
    """What is said of a word of a kind."""
    return FORMS[kind]["said"] if fault == LIST_LENGTH else FAULTS[fault]["said"]


def of_word(row):
    place, name = int(row["place"]), row["argument"]
    special = lambda fault: SAYINGS.get((row["call"], place, fault))
    return Argument(place, name, {fault: Said([name], special(fault) or phrase(row["kind"], fault)) for fault in faults_of(row)}, {})


def fields(record):
    """The words of an argument that is more than one."""
    return TABLE.rows("event") if record == "event" else [row for row in TABLE.rows("sample") if row["argument"] == record]


def of_record(row):
    """A fault is said of all the fields that can have it: a reply doesn't tell them apart. A list is at fault as a whole."""
    name, found = row["argument"], {}
    for field in fields(name):
        for fault in faults_of(field):
            found.setdefault(fault, []).append(field)
    said = {}
    for fault, rows in found.items():
        names = [name if one["kind"] == "count" else f"{name}.{one['field']}" for one in rows]
        phrases = {phrase(one["kind"], fault) for one in rows}
        said[fault] = Said(names, phrases.pop() if len(phrases) == 1 else FAULTS[fault]["said"])
    return Argument(int(row["place"]), name, said, {})


def of_exported(row):
    name = row["argument"]
    sized = lambda text: re.sub(r"\b[A-Z_]+_BYTES\b", lambda size: str(getattr(TABLE.size, size.group(0))), text)
    said = lambda text: Said([] if "`" in text else [name], sized(text))
    other = dict([row["else"].split(": ")] if row["else"] else [])
    return Argument(
        int(row["place"]),
        name,
        {fault: said(row["said"] or FAULTS[fault]["said"]) for fault in faults_of(row)},
        {int(number): said(text) for number, text in other.items()},
    )


def in_order(call, arguments):
    """By place, from 1 on."""
    found = sorted(arguments)
    if [one.place for one in found] != list(range(1, len(found) + 1)):
        raise Fault(f"{PATH}: {call}: the places are {[one.place for one in found]}, and should be 1, 2 and so on")
    return found


def arguments_of(row):
    """The arguments of a call in a run. It has the event's record where it reads it."""
    call = row["name"]
    records = [of_record(one) for one in TABLE.rows("records") if one["call"] == call]
    if ("event" in [one.name for one in records]) != bool(row["event"]):
        raise Fault(f"{PATH}: {call} stands with the event in one of [calls] and [records], and not in both")
    return in_order(call, [of_word(one) for one in TABLE.given(call)] + records)


def rtt_arguments():
    """The arguments of the round-trip estimator's calls. No name is the model's too."""
    calls = {}
    for row in TABLE.rows("rtt_calls"):
        call = row["name"]
        if call in ARGUMENTS:
            raise Fault(f"{PATH}: {call} stands in [calls] and in [rtt_calls]")
        calls[call] = in_order(call, [of_word(one) for one in TABLE.given(call, "rtt_arguments")])
    return calls


def exported():
    """The arguments of the exported functions that refuse."""
    functions = {}
    for row in TABLE.rows("exported"):
        functions.setdefault(row["function"], []).append(of_exported(row))
    return {name: in_order(name, arguments) for name, arguments in functions.items()}


NUMBERS, RTT_NUMBERS = ({int(row["number"]): row["name"] for row in TABLE.rows(calls)} for calls in ("calls", "rtt_calls"))
# The calls that read no stored number, and so are never refused with 1.
UNREAD = [row["name"] for row in TABLE.rows("rtt_calls") if not row["state"]]
try:
    ARGUMENTS = {row["name"]: arguments_of(row) for row in TABLE.rows("calls")}
    RTT_ARGUMENTS = rtt_arguments()
    EXPORTED = exported()
except Fault as wrong:
    sys.exit(str(wrong))


# ---- a reply in words


def parted(reply):
    """The row, the kind and the place of what can be a reply."""
    row, kind, place = (reply // TIMES[part] % PART for part in ("row", "kind", "place"))
    if reply > LAST:
        raise Fault(f"{reply} is no reply: it has more than three bytes")
    if row not in ROWS:
        raise Fault(f"{reply} is no reply: there is no row {row}")
    if row != BAD and (kind or place):
        raise Fault(f"{reply} is no reply: row {row} has no kind and no place, and here they are {kind} and {place}")
    if reply == BAD:
        raise Fault("2 alone is a reply of a version before 0.6.0: it doesn't say which argument was bad, nor why")
    if row == BAD and kind not in FAULTS:
        raise Fault(f"{reply} is no reply: there is no 2.{kind}, only 2.1 to 2.{max(FAULTS)}")
    return row, kind, place


def bad_argument(call, arguments, kind, place):
    """What 2 says of one of the arguments."""
    heading = f"{BAD}.{kind} at {place}"
    if not arguments:
        raise Fault(f"{heading} is no reply of {call}: it has no arguments")
    if not 1 <= place <= len(arguments):
        last = f" to {len(arguments)}" if len(arguments) > 1 else ""
        raise Fault(f"{heading} is no reply of {call}: its arguments are at 1{last}")
    argument = arguments[place - 1]
    if kind not in argument.said:
        due = joined([f"{BAD}.{fault}" for fault in sorted(argument.said)])
        due = f"can only be refused with {due}" if due else f"is never refused with {BAD}"
        raise Fault(f"{heading} is no reply of {call}: {argument.name}, at {place}, {due}")
    plain = FAULTS[kind]["plain"]
    return f"{heading}: {sentence(argument.said[kind])}" + (f" ({plain})" if plain else "")


def of_call(call, row, kind, place):
    """A reply to a call in a run."""
    if row == BAD:
        return bad_argument(call, {**ARGUMENTS, **RTT_ARGUMENTS}[call], kind, place)
    if row == 1 and call in UNREAD:
        raise Fault(f"{row} is no reply of {call}: it reads no stored number")
    if row > BAD and row not in ASKED:
        run = RTT_RUN if call in RTT_ARGUMENTS else "guovssalu_run"
        raise Fault(f"{row} is no reply of a call in a run: where the run itself replied it, name the run, as {run}")
    if row > BAD and call not in ASKED[row]:
        raise Fault(f"{row} is no reply of {call}, only of {joined(ASKED[row])}")
    return f"{row}: {RTT_STORED if row == 1 and call in RTT_ARGUMENTS else ROWS[row]}"


def of_function(name, row, kind, place):
    """A reply of an exported function."""
    if row == BAD:
        return bad_argument(name, EXPORTED[name], kind, place)
    said = [argument.other[row] for argument in EXPORTED[name] if row in argument.other]
    if row and not said:
        raise Fault(f"{row} is no reply of {name}: where a call in a run was refused with it, name that call")
    return f"{row}: {sentence(said[0]) if row else ROWS[0]}"


def of_no_call(prefix, number, row, kind, place):
    """A reply to a number that is no call's."""
    if (row, kind, place) == (BAD, LIST_LENGTH, 0):
        return f"{BAD}.{LIST_LENGTH} at 0: {NO_CALL}: {prefix}{number}"
    if row == 1:
        return f"1: {RTT_STORED if prefix else ROWS[1]}"
    raise Fault(f"{prefix}{number} is no call's number: it is refused with {BAD}.{LIST_LENGTH} at 0, or with 1")


def number_in(text):
    """A number of 64 bits, decimal or hexadecimal; nothing where the text is none."""
    if not re.fullmatch(r"[0-9]+|0[xX][0-9a-fA-F]+", text):
        return None
    number = int(text, 16 if text[:2] in ("0x", "0X") else 10)
    if number >= 2**64:
        raise Fault(f"{text} has more than 64 bits: no reply has, and no call's number")
    return number


def name_in(text):
    """A call's name, as it is or as the header has it, or a function's; nothing where the text is none."""
    for prefix, calls in (("guovssalu_call_", ARGUMENTS), ("guovssalu_rtt_call_", RTT_ARGUMENTS), (RTT, RTT_ARGUMENTS)):
        name = re.sub("^" + prefix, "", text)
        if name in calls:
            return name
    return text if text in EXPORTED else None


def told(reply, call):
    """A reply to a call in words, both as they were given."""
    number, text = number_in(reply), call.lower()
    if number is None:
        raise Fault(f"{reply!r} is no number: a reply is decimal, or hexadecimal after 0x")
    prefix, numbers = (RTT, RTT_NUMBERS) if text.startswith(RTT) else ("", NUMBERS)
    asked = number_in(text[len(prefix) :])
    name = name_in(text) if asked is None else numbers.get(asked)
    if asked is None and name is None:
        taken = f"nor {RTT} and a number, as {RTT}1, for a call of the round-trip estimator's"
        raise Fault(f"{call!r} is no call's number or name, {taken}, and no function that refuses: {', '.join(EXPORTED)}")
    if number == BAD and (prefix or name in RTT_ARGUMENTS or name == RTT_RUN):
        raise Fault(f"{BAD} alone is no reply of the round-trip estimator's: it has a kind and a place")
    parts = parted(number)
    if name in EXPORTED:
        return of_function(name, *parts)
    return of_call(name, *parts) if name else of_no_call(prefix, asked, *parts)


def hint(reply, number):
    """What a reply says of the round-trip estimator's call of a number that stood alone; nothing where it says nothing."""
    try:
        said = told(reply, f"{RTT}{number}") if number in RTT_NUMBERS else None
    except Fault:
        said = None
    return f"; of the round-trip estimator's call ({RTT}{number}) it says: {said}" if said else ""


def explained(reply, call):
    """A reply to a call in words, with a hint where a number alone may be meant for the estimator's."""
    alone = number_in(call)
    try:
        said = told(reply, call)
    except Fault as fault:
        raise Fault(f"{fault}{hint(reply, alone)}") from None
    return said if alone is None or alone in NUMBERS else said + hint(reply, alone)


def main():
    if sys.argv[1:] in (["-h"], ["--help"]):
        print(__doc__)
        return 0
    if len(sys.argv) != 3:
        sys.exit(__doc__)
    print(explained(*(text.strip() for text in sys.argv[1:])))
    return 0


if __name__ == "__main__":
    try:
        sys.exit(main())
    except Fault as fault:
        sys.exit(str(fault))
