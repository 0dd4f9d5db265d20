#!/usr/bin/env python3
"""Holds tests/refusal.py, and the numbers of docs/REFUSALS.md, to what is written here by hand, and not taken from the
table that they are made from.

    tests/refusal_test.py

The command is run on replies whose words stand below, and on what is no reply. Then every call, place and kind is gone
through: a sentence is said exactly where the lists below have one, of the arguments and fields that they have, and a hint
at the round-trip estimator is given exactly where its call of that number can get the reply and the model's can't. Last,
what the page and the command's own usage show. A line for each fault, and then 1."""

import os
import re
import subprocess
import sys

import refusal
from words import ROOT, Fault

SCRIPT = os.path.join(ROOT, "tests", "refusal.py")
PAGE = "docs/REFUSALS.md"
HINT = "; of the round-trip estimator's call ({}) it says: "
STORED = "1: a stored number or a parameter is outside its bounds, a parameter's word is malformed, or bytes encode no state"
RTT_STORED = "1: a stored length is longer than 2^36 ns (68.7 s)"

# Reply, call, and what is said.
SAID = [
    ("66562", "0", "2.4 at 1: initial_rtt is longer than 2^36 ns (68.7 s)"),
    ("0x10402", "start", "2.4 at 1: initial_rtt is longer than 2^36 ns (68.7 s)"),
    ("0X10402", "GUOVSSALU_CALL_START", "2.4 at 1: initial_rtt is longer than 2^36 ns (68.7 s)"),
    ("133378", "0x0", "2.9 at 2: now is later than 2^62 ns (146 years)"),
    ("67842", "on_packet_sent", "2.9 at 1: sent_time is later than 2^62 ns (146 years)"),
    ("131586", "1", "2.2 at 2: bytes_in_flight is more than 2^40 bytes (1.1 TB)"),
    ("262658", "1", "2.2 at 4: bytes is more than 2^40 bytes (1.1 TB)"),
    ("67586", "3", "2.8 at 1: acked names numbers that the lists don't hold"),
    ("131330", "3", "2.1 at 2: event.prior_cwnd is larger than 2^40 bytes (1.1 TB)"),
    ("133378", "3", "2.9 at 2: event.event_time is later than 2^62 ns (146 years)"),
    ("131842", "3", "2.3 at 2: event.sample_max_bandwidth is more than 2^40 bits per second (1.1 Tbit/s)"),
    (
        "132354",
        "3",
        "2.5 at 2: event.bytes_acked, event.bytes_lost or event.last_packet_send_state.total_bytes_acked is more than 2^62 bytes (4.6 million TB)",
    ),
    ("197634", "3", "2.4 at 3: sample.sample_rtt is longer than 2^36 ns (68.7 s)"),
    (
        "197890",
        "on_congestion_event_start",
        "2.5 at 3: sample.last_packet_send_state.total_bytes_acked, sample.total_bytes_acked or sample.total_bytes_lost is more than 2^62 bytes (4.6 million TB)",
    ),
    ("66562", "4", "2.4 at 1: event.sample_min_rtt is longer than 2^36 ns (68.7 s)"),
    ("65794", "6", "2.1 at 1: event.prior_cwnd is larger than 2^40 bytes (1.1 TB)"),
    (
        "67586",
        "has_bandwidth_growth",
        "2.8 at 1: event.end_of_round_trip, event.is_probing_for_bandwidth, event.sample_max_bandwidth, event.sample_min_rtt, event.last_packet_send_state.is_valid or event.last_packet_send_state.is_app_limited is malformed",
    ),
    ("67330", "9", "2.7 at 1: target_gain is below 1/1024, above 8 or a NaN"),
    ("66306", "10", "2.3 at 1: bandwidth is more than 2^40 bits per second (1.1 Tbit/s)"),
    ("133122", "bdp", "2.8 at 2: gain has bits above the 32nd"),
    ("66306", "0xb", "2.3 at 1: bandwidth is more than 2^40 bits per second (1.1 Tbit/s)"),
    ("67586", "15", "2.8 at 1: pacing_gain has bits above the 32nd"),
    ("67330", "16", "2.7 at 1: cwnd_gain is below 1/1024, above 8 or a NaN"),
    ("66050", "17", "2.2 at 1: new_inflight_hi is more than 2^40 bytes (1.1 TB)"),
    ("66050", "18", "2.2 at 1: cap is more than 2^40 bytes (1.1 TB)"),
    ("66562", "22", "2.4 at 1: duration is longer than 2^36 ns (68.7 s)"),
    ("67842", "22", "2.9 at 1: duration postpones min_rtt_timestamp past 2^62 ns (146 years)"),
    ("133122", "40", "2.8 at 2: stopped_risky_probe is neither 0 nor 1"),
    ("198914", "40", "2.9 at 3: now is later than 2^62 ns (146 years)"),
    ("67842", "41", "2.9 at 1: now is later than 2^62 ns (146 years)"),
    ("67074", "42", "2.6 at 1: probe_up_rounds is more than 30"),
    ("131330", "43", "2.1 at 2: cwnd is larger than 2^40 bytes (1.1 TB)"),
    ("65794", "raise_inflight_high_slope", "2.1 at 1: cwnd is larger than 2^40 bytes (1.1 TB)"),
    ("2050", "39", "2.8 at 0: the number is no call's: 39"),
    ("0x802", "46", "2.8 at 0: the number is no call's: 46"),
    ("67586", "guovssalu_run", "2.8 at 1: state is not 408 bytes long"),
    ("133122", "guovssalu_run_lists", "2.8 at 2: calls is no whole number of 392 bytes"),
    ("133122", "guovssalu_filter_run", "2.8 at 2: src is no whole number of 16 bytes"),
    ("131330", "guovssalu_raise_inflight_high_slope", "2.1 at 2: window is larger than 2^40 bytes (1.1 TB)"),
    ("0", "8", "0: the call was done"),
    ("1", "guovssalu_raise_inflight_high_slope", "1: rounds is more than 30"),
    ("66562", "new", "2.4 at 1: initial_rtt is longer than 2^36 ns (68.7 s)"),
    ("132098", "rtt_0", "2.4 at 2: max_ack_delay is longer than 2^36 ns (68.7 s)"),
    ("66562", "update_rtt", "2.4 at 1: latest_rtt is longer than 2^36 ns (68.7 s)"),
    ("132098", "update_rtt", "2.4 at 2: ack_delay is longer than 2^36 ns (68.7 s)"),
    ("0x20402", "rtt_1", "2.4 at 2: ack_delay is longer than 2^36 ns (68.7 s)"),
    ("198658", "RTT_0x1", "2.8 at 3: handshake_confirmed is neither 0 nor 1"),
    ("198658", "GUOVSSALU_RTT_CALL_UPDATE_RTT", "2.8 at 3: handshake_confirmed is neither 0 nor 1"),
    ("66562", "update_max_ack_delay", "2.4 at 1: max_ack_delay is longer than 2^36 ns (68.7 s)"),
    ("2050", "rtt_3", "2.8 at 0: the number is no call's: rtt_3"),
    ("0", "new", "0: the call was done"),
    ("66562", "rtt_new", "2.4 at 1: initial_rtt is longer than 2^36 ns (68.7 s)"),
    ("198658", "rtt_update_rtt", "2.8 at 3: handshake_confirmed is neither 0 nor 1"),
    ("66562", "RTT_UPDATE_MAX_ACK_DELAY", "2.4 at 1: max_ack_delay is longer than 2^36 ns (68.7 s)"),
    ("1", "update_rtt", RTT_STORED),
    ("1", "rtt_2", RTT_STORED),
    ("1", "rtt_3", RTT_STORED),
    ("1", "0", STORED),
    ("1", "39", STORED),
    ("1", "2", STORED + HINT.format("rtt_2") + RTT_STORED),
    ("2050", "2", "2.8 at 0: the number is no call's: 2"),
    ("67586", "guovssalu_rtt_run", "2.8 at 1: state is not 48 bytes long"),
    ("133122", "guovssalu_rtt_run", "2.8 at 2: calls is no whole number of 32 bytes"),
    ("1", "guovssalu_rtt_run", "1: the last word of state, has_first_rtt_sample, is neither 0 nor 1"),
    ("1", "guovssalu_run", "1: state encodes no state"),
    ("7", "guovssalu_rtt_run", "7: answers has under 40 bytes a call"),
    ("4", "3", "4: the total acked or the total lost is lower than the stored one"),
    ("7", "guovssalu_run", "7: answers has under 144 bytes a call"),
]

# What is no reply to the call, and a part of what is said of it: the hint, where there is one.
NONE = [
    ("2", "0", "before 0.6.0"),
    ("6", "0", "6 is no reply of a call in a run"),
    ("7", "3", "name the run, as guovssalu_run"),
    ("8", "0", "there is no row 8"),
    ("9", "3", "there is no row 9"),
    ("255", "3", "there is no row 255"),
    ("10", "4", "only of on_congestion_event_start"),
    ("3", "0", "3 is no reply of start"),
    ("5", "1", "5 is no reply of on_packet_sent"),
    ("65537", "0", "row 1 has no kind and no place, and here they are 0 and 1"),
    ("1024", "0", "row 0 has no kind and no place"),
    ("65538", "0", "there is no 2.0"),
    ("68098", "0", "there is no 2.10"),
    ("67842", "0", "initial_rtt, at 1, can only be refused with 2.4"),
    ("132098", "0", "now, at 2, can only be refused with 2.9" + HINT.format("rtt_0") + "2.4 at 2: max_ack_delay is longer than 2^36 ns (68.7 s)\n"),
    ("197634", "0", "its arguments are at 1 to 2"),
    ("1026", "0", "its arguments are at 1 to 2"),
    ("2050", "0", "its arguments are at 1 to 2"),
    ("131586", "41", "its arguments are at 1"),
    ("197122", "1", "packet_number, at 3, is never refused with 2"),
    ("67586", "8", "it has no arguments"),
    ("66562", "39", "39 is no call's number"),
    ("0", "2", "2 is no call's number: it is refused with 2.8 at 0, or with 1" + HINT.format("rtt_2") + "0: the call was done\n"),
    ("0x10402", "0x2", "or with 1" + HINT.format("rtt_2") + "2.4 at 1: max_ack_delay is longer than 2^36 ns (68.7 s)\n"),
    ("1", "new", "1 is no reply of new: it reads no stored number"),
    ("3", "update_rtt", "3 is no reply of update_rtt"),
    ("7", "update_rtt", "name the run, as guovssalu_rtt_run"),
    ("2", "update_rtt", "2 alone is no reply of the round-trip estimator's"),
    ("2", "rtt_3", "2 alone is no reply of the round-trip estimator's"),
    ("2", "guovssalu_rtt_run", "2 alone is no reply of the round-trip estimator's"),
    ("198658", "1", "packet_number, at 3, is never refused with 2" + HINT.format("rtt_1") + "2.8 at 3: handshake_confirmed is neither 0 nor 1\n"),
    ("198658", "on_packet_sent", "packet_number, at 3, is never refused with 2"),
    ("263170", "update_rtt", "its arguments are at 1 to 3"),
    ("67586", "rtt_1", "latest_rtt, at 1, can only be refused with 2.4"),
    ("66562", "rtt_3", "rtt_3 is no call's number"),
    ("0", "rtt_39", "rtt_39 is no call's number"),
    ("66562", "rtt_", "'rtt_' is no call's number or name"),
    ("66562", "rtt_start", "'rtt_start' is no call's number or name"),
    ("66562", "rtt_rtt_new", "'rtt_rtt_new' is no call's number or name"),
    ("66562", "guovssalu_call_new", "'guovssalu_call_new' is no call's number or name"),
    ("66562", "guovssalu_rtt_call_start", "'guovssalu_rtt_call_start' is no call's number or name"),
    ("198658", "guovssalu_rtt_run", "answers, at 3, is never refused with 2"),
    ("198658", "guovssalu_run", "answers, at 3, is never refused with 2"),
    ("3", "guovssalu_run", "3 is no reply of guovssalu_run"),
    ("16777216", "0", "more than three bytes"),
    ("0x1000402", "0", "more than three bytes"),
    ("4294967298", "0", "more than three bytes"),
    ("18446744073709551615", "0", "more than three bytes"),
    ("18446744073709551616", "0", "more than 64 bits"),
    ("66562", "18446744073709551616", "more than 64 bits"),
    ("-1", "0", "'-1' is no number"),
    ("2.4", "0", "'2.4' is no number"),
    ("0x", "0", "'0x' is no number"),
    ("10402h", "0", "is no number"),
    ("66_562", "0", "is no number"),
    ("", "0", "is no number"),
    ("66562", "", "is no call's number or name"),
    ("66562", "begin", "'begin' is no call's number or name, nor rtt_ and a number, as rtt_1, for a call of the round-trip estimator's"),
    ("66562", "guovssalu_scale", "no function that refuses"),
    ("66562", "-3", "is no call's number or name"),
]

# The arguments in the order of their places, each with its kinds.
PLACES = {
    "start": [("initial_rtt", [4]), ("now", [9])],
    "on_packet_sent": [("sent_time", [9]), ("bytes_in_flight", [2]), ("packet_number", []), ("bytes", [2])],
    "on_congestion_event_start": [("acked", [8]), ("event", [1, 2, 3, 4, 5, 8, 9]), ("sample", [2, 3, 4, 5, 8])],
    "on_congestion_event_finish": [("event", [1, 2, 3, 4, 5, 8, 9])],
    "maybe_expire_min_rtt": [("event", [1, 2, 3, 4, 5, 8, 9])],
    "is_inflight_too_high": [("event", [1, 2, 3, 4, 5, 8, 9]), ("max_loss_events", [])],
    "has_bandwidth_growth": [("event", [1, 2, 3, 4, 5, 8, 9])],
    "check_persistent_queue": [("target_gain", [7, 8])],
    "bdp": [("bandwidth", [3]), ("gain", [7, 8])],
    "bdp1": [("bandwidth", [3])],
    "set_pacing_gain": [("pacing_gain", [7, 8])],
    "set_cwnd_gain": [("cwnd_gain", [7, 8])],
    "set_inflight_hi": [("new_inflight_hi", [2])],
    "cap_inflight_lo": [("cap", [2])],
    "postpone_min_rtt_timestamp": [("duration", [4, 9])],
    "enter_probe_down": [("probed_too_high", [8]), ("stopped_risky_probe", [8]), ("now", [9])],
    "enter_probe_cruise": [("now", [9])],
    "enter_probe_refill": [("probe_up_rounds", [6]), ("now", [9])],
    "enter_probe_up": [("now", [9]), ("cwnd", [1])],
    "raise_inflight_high_slope": [("cwnd", [1])],
    "new": [("initial_rtt", [4]), ("max_ack_delay", [4])],
    "update_rtt": [("latest_rtt", [4]), ("ack_delay", [4]), ("handshake_confirmed", [8])],
    "update_max_ack_delay": [("max_ack_delay", [4])],
    "guovssalu_run": [("state", [8]), ("calls", [8]), ("answers", [])],
    "guovssalu_run_lists": [("state", [8]), ("calls", [8]), ("lists", []), ("answers", [])],
    "guovssalu_filter_run": [("window", []), ("src", [8]), ("out", [])],
    "guovssalu_raise_inflight_high_slope": [("rounds", []), ("window", [1]), ("out", [])],
    "guovssalu_rtt_run": [("state", [8]), ("calls", [8]), ("answers", [])],
}
# The fields of a record that can have a kind.
SEND = "last_packet_send_state."
FIELDS = {
    "event": {
        1: ["prior_cwnd"],
        2: ["prior_bytes_in_flight", "bytes_in_flight", SEND + "bytes_in_flight"],
        3: ["sample_max_bandwidth"],
        4: ["sample_min_rtt"],
        5: ["bytes_acked", "bytes_lost", SEND + "total_bytes_acked"],
        8: ["end_of_round_trip", "is_probing_for_bandwidth", "sample_max_bandwidth", "sample_min_rtt", SEND + "is_valid", SEND + "is_app_limited"],
        9: ["event_time"],
    },
    "sample": {
        2: ["sample_max_inflight", "extra_acked", SEND + "bytes_in_flight"],
        3: ["sample_max_bandwidth", "sample_max_send_rate", "sample_max_ack_rate"],
        4: ["sample_rtt"],
        5: [SEND + "total_bytes_acked", "total_bytes_acked", "total_bytes_lost"],
        8: ["sample_max_bandwidth", "sample_max_send_rate", "sample_max_ack_rate", "sample_is_app_limited", "sample_rtt", SEND + "is_valid", SEND + "is_app_limited"],
    },
}
# The limit with which a sentence of a kind ends.
LIMITS = {1: "(1.1 TB)", 2: "(1.1 TB)", 3: "(1.1 Tbit/s)", 4: "(68.7 s)", 5: "(4.6 million TB)", 9: "(146 years)"}
# The numbers of the calls, and which of them can be refused with a row.
CALLS = [0, 1, *range(3, 39), *range(40, 46)]
ROWS = {0: CALLS, 1: CALLS, 3: [1, 3, 40, 41, 42, 43], 4: [3], 5: [3, 7, 9], 10: [3]}
# The round-trip estimator's calls in the order of their numbers, from 0 on; and the rows of each, and of a number of none.
RTT_CALLS = ["new", "update_rtt", "update_max_ack_delay"]
RTT_ROWS = {"new": [0], "update_rtt": [0, 1], "update_max_ack_delay": [0, 1], "rtt_3": [1]}
# Numbers of no call, by what stands on the page for them.
UNKNOWN = {"any other number": "39", "any other number after rtt_": "rtt_3"}
# The rows of the functions.
FUNCTIONS = {
    "guovssalu_run": [0, 1, 7],
    "guovssalu_run_lists": [0, 1, 7],
    "guovssalu_filter_run": [0, 3, 7],
    "guovssalu_raise_inflight_high_slope": [0, 1, 7],
    "guovssalu_rtt_run": [0, 1, 7],
}

faults = []


def command(*arguments):
    done = subprocess.run([sys.executable, SCRIPT, *arguments], stdout=subprocess.PIPE, stderr=subprocess.PIPE, text=True)
    return done.returncode, done.stdout, done.stderr


def check_command():
    """What the command prints, and how it ends."""
    for reply, call, due in SAID:
        stands = command(reply, call)
        if stands != (0, due + "\n", ""):
            faults.append(f"{reply} {call}: {stands} is what it ends with and says, and should be 0 and {due!r}")
    for reply, call, due in NONE:
        status, said, fault = command(reply, call)
        apart = due not in fault or ("it says" in due) != ("it says" in fault)
        if (status, said) != (1, "") or apart or "Traceback" in fault or fault.count("\n") != 1:
            faults.append(f"{reply} {call}: {(status, said, fault)} is what it ends with and says, and should be 1 and {due!r}")
    for arguments, due in [([], 1), (["66562"], 1), (["66562", "0", "1"], 1), (["--help"], 0)]:
        status, said, fault = command(*arguments)
        if status != due or "tests/refusal.py REPLY CALL" not in said + fault:
            faults.append(f"{arguments}: it ends with {status}, and should show its usage and end with {due}")


def said_to(reply, call):
    """What is said, or nothing where it is no reply."""
    try:
        return refusal.explained(str(reply), str(call))
    except Fault:
        return None


def due_words(argument, kind):
    """The names that a sentence has to begin with, in order."""
    return [f"{argument}.{field}" for field in FIELDS[argument][kind]] if argument in FIELDS else [argument]


def check_sentence(where, said, argument, kind, place):
    names = due_words(argument, kind)
    begins = f"2.{kind} at {place}: " + " or ".join(", ".join(names).rsplit(", ", 1)) + " "
    rest = said[len(begins) :]
    if not said.startswith(begins) or not re.match(r"(is|has|names|postpones) ", rest) or not rest.endswith(LIMITS.get(kind, "")):
        faults.append(f"{where}: {said!r} is said, and should be of {names} at {place}, with {LIMITS.get(kind, 'no limit')}")


def check_all():
    """Every call and function, place and kind: a sentence exactly where the lists have one."""
    names = {**{number: refusal.NUMBERS.get(number) for number in range(50)}, **{name: name for name in [*RTT_CALLS, *FUNCTIONS]}}
    names.update({f"rtt_{number}": name for number, name in enumerate([*RTT_CALLS, None, None])})
    gone = 0
    for call, name in names.items():
        arguments = PLACES.get(name, [])
        for place in [*range(7), 255]:
            for kind in [*range(11), 255]:
                gone += 1
                said = said_to(2 + 256 * kind + 65536 * place, call)
                argument, kinds = arguments[place - 1] if 1 <= place <= len(arguments) else (None, [])
                if name is None and (kind, place) == (8, 0):
                    due = said == f"2.8 at 0: the number is no call's: {call}"
                else:
                    due = (said is not None) == (kind in kinds)
                if not due:
                    faults.append(f"2.{kind} at {place} of {name or call}: {said!r} is said")
                elif said is not None and kind in kinds:
                    check_sentence(f"2.{kind} at {place} of {name}", said, argument, kind, place)
    return gone


def check_rows():
    """The other rows, of every number and function."""
    for row in [row for row in range(256) if row != 2]:
        for call in range(50):
            due = call in ROWS.get(row, []) if call in CALLS else row == 1
            if (said_to(row, call) is not None) != due:
                faults.append(f"row {row} of call {call}: {said_to(row, call)!r} is said")
        for name, rows in [*RTT_ROWS.items(), *FUNCTIONS.items()]:
            if (said_to(row, name) is not None) != (row in rows):
                faults.append(f"row {row} of {name}: {said_to(row, name)!r} is said")


def fits(name, rows, row, kind, place):
    """Whether a call can get a reply, by the lists above: the arguments of its name, and its rows."""
    arguments = PLACES.get(name, [])
    return 1 <= place <= len(arguments) and kind in arguments[place - 1][1] if row == 2 else row in rows


def check_hints():
    """Every number alone, row, kind and place: a hint exactly where it is due."""
    replies = [(row, 0, 0) for row in range(12) if row != 2] + [(2, kind, place) for kind in range(11) for place in range(6)]
    for call in range(50):
        rtt_name = RTT_CALLS[call] if call < len(RTT_CALLS) else None
        for row, kind, place in replies:
            reply = row + 256 * kind + 65536 * place
            try:
                said = refusal.explained(str(reply), str(call))
            except Fault as fault:
                said = str(fault)
            by_model = fits(refusal.NUMBERS.get(call), [one for one in ROWS if call in ROWS[one]], row, kind, place)
            due = rtt_name is not None and not by_model and fits(rtt_name, RTT_ROWS[rtt_name], row, kind, place)
            if due != (HINT.format(f"rtt_{call}") in said) or due != ("it says" in said):
                faults.append(f"{reply} {call}: {said!r} is said, and should be with{'' if due else 'out'} a hint at rtt_{call}")


def check_shown(where, text):
    """What a text shows of the command: each line of it, and what it prints."""
    last, lines = None, re.findall(r"^ +(?:python3 )?tests/refusal\.py (\w+) (\w+) +(?:# )?(.+)$", text, re.M)
    for reply, call, shown in lines:
        last = last if shown == "the same" else shown
        if said_to(reply, call) != last:
            faults.append(f"{where}: {last!r} stands there for {reply} {call}, and {said_to(reply, call)!r} is said")
    if not lines:
        faults.append(f"{where}: it shows nothing of the command")


def check_page():
    """Each line of the page that has a number has what the command says, and together they have every reply of 2."""
    text = open(os.path.join(ROOT, PAGE), encoding="utf-8").read()
    check_shown(PAGE, text)
    check_shown("tests/refusal.py", refusal.__doc__)
    lines = re.findall(r"^\| (.*?) \| (2\.\d at \d) \| (\d+) \| (0x[0-9a-f]+) \| (.*) \| (.*) \|$", text, re.M)
    seen = set()
    for calls, reply, number, hexadecimal, sentence, limit in lines:
        kind, place = map(int, re.fullmatch(r"2\.(\d) at (\d)", reply).groups())
        due = f"{reply}: {sentence.replace('`', '')}" + ("" if limit == "-" else f" ({limit})")
        if int(number) != 2 + 256 * kind + 65536 * place or int(hexadecimal, 16) != int(number):
            faults.append(f"{PAGE}: {number} and {hexadecimal} stand there for {reply}")
        for call in calls.split("; "):
            asked = UNKNOWN.get(call) or call.split(" ")[0]
            said = said_to(number, asked)
            if said != due + (f": {asked}" if call in UNKNOWN else ""):
                faults.append(f"{PAGE}: {due!r} stands there for {call}, and {said!r} is said")
            seen.add((call if call in UNKNOWN else call.split(" ")[-1], kind, place))
    due = {(name, kind, place) for name, found in PLACES.items() for place, (_, kinds) in enumerate(found, 1) for kind in kinds}
    due |= {(call, 8, 0) for call in UNKNOWN}
    for name, kind, place in sorted(due ^ seen):
        faults.append(f"{PAGE}: 2.{kind} at {place} of {name} stands on the page or in {os.path.basename(__file__)}, and not in both")
    return len(lines)


def main():
    if sorted(refusal.NUMBERS) != CALLS:
        faults.append(f"the numbers of calls are {sorted(refusal.NUMBERS)}, and should be {CALLS}")
    if refusal.RTT_NUMBERS != dict(enumerate(RTT_CALLS)):
        faults.append(f"the estimator's calls are {refusal.RTT_NUMBERS}, and should be {RTT_CALLS}")
    check_command()
    gone = check_all()
    check_rows()
    check_hints()
    lines = check_page()
    print("".join(line + "\n" for line in faults), end="")
    if faults:
        print(f"refusal: faults: {len(faults)}")
        return 1
    print(f"refusal: {len(SAID)} replies in words, {len(NONE)} that are none, {gone} by call, place and kind, {lines} lines of {PAGE}")
    return 0


if __name__ == "__main__":
    sys.exit(main())
