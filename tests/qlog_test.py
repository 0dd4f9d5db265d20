#!/usr/bin/env python3
"""Holds tests/qlog.py to traces/by_hand.csv, which was worked out by hand from traces/by_hand.sqlog, and to what
docs/QLOG.md says.

    tests/qlog_test.py

Each case is a qlog, the lines that must come of it, the status and what must be said. Then what is no qlog, files that
can't be read or written, and by_hand.sqlog with bytes changed, from a seed: words, never a traceback. Last, what the
page shows. A line for each fault, and then 1.

traces/by_hand.csv, line by line; the first event of the file is at 10.0 ms, so that all times are less by that:

    1   initial_rtt 100 ms of parameters_set; the initial packet at 10.25 gives no line
    2   0-RTT is of the space of 1-RTT: number 0 is the first of it
    5   110.7500006 - 10 ms are 100750000.6 ns. 0 and 1 are acked of 0, 1 and 2: 2600 of 3900 bytes. The window is that of
        parameters_set: the metrics with 15600 and the round trip stand behind the ack
    6   number 3 is an ack alone: it has no line and no bytes in flight, so 1300 of number 2 are before number 4
    10  0 and 1 are acked again, 2 is new: 1300 more. 2, 4, 5, 6 and 7 were in flight. No metrics, so no round trip
    11  7 is acked; 4 is lost 0.25 ms later, in the same event. 4, 5, 6 and 7 were in flight
    12  5 and 6 are left in flight
    14  the timer expired: 5 is lost in an event of its own, which acks nothing. 5, 6, 8 and 9 were in flight
    15  6, 8 and 9 are acked: 3900 more. 5 was counted lost and stays so. packets_acked says the same once more
    16  nothing is left in flight; ping and padding are
    18  acked by packets_acked alone. latest_rtt is 42.0 as before, so it is no new one. bbr_probe_bw_up stands before it"""

import contextlib
import io
import json
import os
import random
import re
import signal
import subprocess
import sys
import tempfile

import qlog
from words import ROOT

SCRIPT = os.path.join(ROOT, "tests", "qlog.py")
PAGE = "docs/QLOG.md"
SEED, DAMAGED = 7, 400
HEAD = {"qlog_version": "0.3", "qlog_format": "JSON-SEQ", "trace": {"common_fields": {"time_format": "relative"}}}
MOST = 2**64 - 1

faults = []
noted = set()


# ---- records in short


def event(time, name, **data):
    return {"time": time, "name": name, "data": data}


def sent(time, number, size=1300, kind="1RTT", frames=("stream",)):
    listed = [{"frame_type": frame} for frame in frames]
    header = {"packet_type": kind, "packet_number": number}
    return event(time, "transport:packet_sent", header=header, raw={"length": size}, frames=listed)


def acked(time, *ranges, kind="1RTT"):
    frames = [{"frame_type": "ack", "acked_ranges": list(ranges)}]
    return event(time, "transport:packet_received", header={"packet_type": kind, "packet_number": 0}, frames=frames)


def numbers(time, *found, **more):
    return event(time, "recovery:packets_acked", packet_numbers=list(found), **more)


def lost(time, number, **more):
    return event(time, "recovery:packet_lost", header={"packet_type": "1RTT", "packet_number": number}, **more)


def metrics(time, **found):
    return event(time, "recovery:metrics_updated", **found)


def parameters(time, **found):
    return event(time, "recovery:parameters_set", **found)


def state(time, new):
    return event(time, "recovery:congestion_state_updated", new=new)


def timer(time, kind):
    return event(time, "recovery:loss_timer_updated", event_type=kind)


def other(time):
    return event(time, "transport:stream_state_updated")


def head(**common):
    return {**HEAD, "trace": {"common_fields": common}}


def sequence(*records):
    """As JSON text sequences; bytes stand for themselves."""
    return b"".join(b"\x1e" + (one if isinstance(one, bytes) else json.dumps(one).encode() + b"\n") for one in records)


def by_line(*records):
    return b"".join(json.dumps(one).encode() + b"\n" for one in records)


def document(*traces, **laid):
    listed = [{"common_fields": {"time_format": "relative"}, "events": list(one)} for one in traces]
    return json.dumps({"qlog_version": "0.3", "qlog_format": "JSON", "traces": listed}, **laid).encode()


# What most cases begin with: three packets in a window of 13000.
WINDOW = parameters(0, initial_congestion_window=13000)
BEGUN = [HEAD, WINDOW, sent(0, 0), sent(0, 1), sent(0, 2)]
START = "start,0,,,,,,,,333000000,"
LINES = [START, "sent,0,,0,0,1300,,,,,", "sent,0,,1300,1,1300,,,,,", "sent,0,,2600,2,1300,,,,,"]
# A range that can't be gone through number by number.
ALL = [0, 2**62]

# Name, records, lines, words of which each is said. The status is 0.
SOUND = [
    # times
    ("nearest nanosecond", [HEAD, sent(1.0, 0), sent(1.0000004, 1), sent(1.0000006, 2), sent(2.25, 3)],
     [START, "sent,0,,0,0,1300,,,,,", "sent,0,,1300,1,1300,,,,,", "sent,1,,2600,2,1300,,,,,", "sent,1250000,,3900,3,1300,,,,,"], []),
    ("since the first event, a skipped one too", [HEAD, other(7.0), sent(7.5, 0)], [START, "sent,500000,,0,0,1300,,,,,"],
     ["skipped: transport:stream_state_updated 1"]),
    ("absolute, beyond a float's digits", [head(time_format="absolute"), b'{"time":1553986553574.000001,"name":"a:b"}\n',
     b'{"time":1553986553574.000004,"name":"quic:packet_sent","data":{"header":{"packet_type":"1RTT","packet_number":0},'
     b'"raw":{"length":9}}}\n'], [START, "sent,3,,0,0,9,,,,,"], []),
    ("relative_to_epoch", [head(time_format="relative_to_epoch"), sent(5, 0)], [START, "sent,0,,0,0,1300,,,,,"], []),
    ("no time_format", [head(), other(5), sent(5.5, 0)], [START, "sent,500000,,0,0,1300,,,,,"], []),
    ("deltas, of skipped events too", [head(time_format="delta"), sent(5, 0), other(0.1), other(0.2), sent(0.3, 1)],
     [START, "sent,0,,0,0,1300,,,,,", "sent,600000,,1300,1,1300,,,,,"], []),
    ("relative_to_previous_event", [head(time_format="relative_to_previous_event"), sent(5, 0), sent(2, 1)],
     [START, "sent,0,,0,0,1300,,,,,", "sent,2000000,,1300,1,1300,,,,,"], []),
    ("back", [HEAD, other(1), sent(3, 0), sent(2, 1), sent(0.5, 2)],
     [START, "sent,2000000,,0,0,1300,,,,,", "sent,1000000,,1300,1,1300,,,,,", "sent,-500000,,2600,2,1300,,,,,"],
     ["times that go back: 2"]),
    ("past the model's bound", [HEAD, other(0), sent(18446744073709, 0)], [START, "sent,18446744073709000000,,0,0,1300,,,,,"], []),
    # packets
    ("number spaces", [HEAD, sent(0, 0, kind="initial"), sent(0, 0, kind="handshake"), sent(0, 0, kind="0RTT"), sent(0, 1)],
     [START, "sent,0,,0,0,1300,,,,,", "sent,0,,1300,1,1300,,,,,"], ["packets of another number space: 2"]),
    ("in flight", [HEAD, sent(0, 0, frames=["ack"]), sent(0, 1, frames=["ack", "connection_close"]), sent(0, 2, frames=["padding"]),
     sent(0, 3, frames=[]), sent(0, 4, frames=["ack", "ping"])],
     [START, "sent,0,,0,2,1300,,,,,", "sent,0,,1300,3,1300,,,,,", "sent,0,,2600,4,1300,,,,,"], ["packets that are not in flight: 2"]),
    ("older places", [HEAD, event(0, "transport:packet_sent", packet_type="1RTT", header={"packet_number": "4", "packet_size": 77}),
     event(0, "transport:packet_sent", packet_type="1RTT", packet_number=5, raw={"length": "78"})],
     [START, "sent,0,,0,4,77,,,,,", "sent,0,,77,5,78,,,,,"], []),
    ("no size", [HEAD, sent(0, 0, size=None), sent(0, 1)], [START, "sent,0,,0,0,,,,,,", "sent,0,,0,1,1300,,,,,"],
     ["packets without a size, which the replay refuses with 6: 1"]),
    ("largest number", [HEAD, sent(0, str(MOST), size=2**41)], [START, f"sent,0,,0,{MOST},{2**41},,,,,"], []),
    # acks
    ("once, the greatest that is new", [*BEGUN, acked(1, [0, 1]), acked(2, [0], [1, 1], [2]), acked(3, [0, 2])],
     [*LINES, "event,1000000,13000,3900,1,,2600,0,,,0", "event,2000000,13000,1300,2,,3900,0,,,0"], ["acks with nothing new: 1"]),
    ("not the greatest of the ranges", [*BEGUN, acked(1, [2]), acked(2, [0, 2])],
     [*LINES, "event,1000000,13000,3900,2,,1300,0,,,0", "event,2000000,13000,2600,1,,3900,0,,,0"], []),
    ("never sent, once", [*BEGUN, acked(1, ALL), acked(2, ALL), acked(3, [0, 2**62 + 1])],
     [*LINES, f"event,1000000,13000,3900,{2**62},,3900,0,,,0", f"event,3000000,13000,0,{2**62 + 1},,3900,0,,,0"],
     ["acks of packets never sent, which the replay refuses with 10: 2"]),
    ("before the first send", [HEAD, WINDOW, acked(1, [5])], [START, "event,1000000,13000,0,5,,0,0,,,0"], []),
    ("an ack alone is no packet never sent", [*BEGUN, sent(0, 3, frames=["ack"]), acked(1, [0, 3]), acked(2, [3])],
     [*LINES, "event,1000000,13000,3900,2,,3900,0,,,0"], ["acks with nothing new: 1"]),
    ("packets_acked of one time are one event", [*BEGUN, numbers(1, 1), numbers(1, 0), numbers(1.000001, 2)],
     [*LINES, "event,1000000,13000,3900,1,,2600,0,,,0", "event,1000001,13000,1300,2,,3900,0,,,0"], []),
    ("packets_received of one time are not", [*BEGUN, acked(1, [0]), acked(1, [1])],
     [*LINES, "event,1000000,13000,3900,0,,1300,0,,,0", "event,1000000,13000,2600,1,,2600,0,,,0"], []),
    ("two frames are one ack", [*BEGUN, event(1, "transport:packet_received", header={"packet_type": "1RTT"}, frames=[
     {"frame_type": "ack", "acked_ranges": [[0]]}, {"frame_type": "ping"}, {"frame_type": "ack", "acked_ranges": [[1]]}])],
     [*LINES, "event,1000000,13000,3900,1,,2600,0,,,0"], []),
    ("acks of other spaces", [*BEGUN, acked(1, [0], kind="initial"), numbers(1, 1, packet_number_space="handshake"),
     numbers(2, 2, packet_number_space="application_data")], [*LINES, "event,2000000,13000,3900,2,,1300,0,,,0"],
     ["acks of another number space: 2"]),
    ("no frames", [*BEGUN, event(1, "transport:packet_received", header={"packet_type": "1RTT"})], LINES, []),
    # losses
    ("with the ack before", [*BEGUN, acked(1, [2]), lost(1.5, 0), lost(2, 1)], [*LINES, "event,1000000,13000,3900,2,,1300,2600,,,0"], []),
    ("more than 1 ms after it", [*BEGUN, acked(1, [2]), lost(2, 0), lost(2.000001, 1)],
     [*LINES, "event,1000000,13000,3900,2,,1300,1300,,,0", "event,2000001,13000,1300,,,1300,2600,,,0"], []),
    ("after a send", [*BEGUN, acked(1, [2]), sent(1, 3), lost(1, 0)],
     [*LINES, "event,1000000,13000,3900,2,,1300,0,,,0", "sent,1000000,,2600,3,1300,,,,,", "event,1000000,13000,3900,,,1300,1300,,,0"], []),
    ("after the next packet", [*BEGUN, acked(1, [2]), acked(1, [2]), lost(1, 0)],
     [*LINES, "event,1000000,13000,3900,2,,1300,0,,,0", "event,1000000,13000,2600,,,1300,1300,,,0"], []),
    ("after a timer", [*BEGUN, acked(1, [2]), timer(1, "set"), lost(1, 0), timer(1, "expired"), lost(1, 1)],
     [*LINES, "event,1000000,13000,3900,2,,1300,1300,,,0", "event,1000000,13000,1300,,,1300,2600,,,0"], []),
    ("before its ack", [*BEGUN, lost(1, 0), acked(1, [2])],
     [*LINES, "event,1000000,13000,3900,,,0,1300,,,0", "event,1000000,13000,2600,2,,1300,1300,,,0"], []),
    ("before its packets_acked", [*BEGUN, lost(1, 0), numbers(1, 2), numbers(2, 1)],
     [*LINES, "event,1000000,13000,3900,2,,1300,1300,,,0", "event,2000000,13000,1300,1,,2600,1300,,,0"], []),
    ("acked later", [*BEGUN, acked(1, [2]), lost(1, 0), acked(2, [0]), acked(3, [0, 1])],
     [*LINES, "event,1000000,13000,3900,2,,1300,1300,,,0", "event,3000000,13000,1300,1,,2600,1300,,,0"],
     ["packets acked after they were counted lost: 1", "acks with nothing new: 1"]),
    ("not in flight", [*BEGUN, lost(1, 9), acked(2, [2]), lost(2, 2)], [*LINES, "event,2000000,13000,3900,2,,1300,0,,,0"],
     ["losses of packets that are not in flight: 2"]),
    ("of another space", [*BEGUN, event(1, "recovery:packet_lost", header={"packet_type": "initial", "packet_number": 0}),
     event(1, "recovery:packet_lost", packet_number=1)], [*LINES, "event,1000000,13000,3900,,,0,1300,,,0"],
     ["losses of another number space: 1"]),
    ("probe of the packet size", [*BEGUN, lost(1, 0, is_mtu_probe_packet=True), lost(1, 1, is_mtu_probe_packet=False)],
     [*LINES, "event,1000000,13000,2600,,,0,1300,,,0"], ["lost probes of the packet size: 1"]),
    # window, round trip, bandwidth, probing
    ("no window yet", [HEAD, sent(0, 0), sent(0, 1), acked(1, [0]), metrics(1, congestion_window=5000), acked(2, [1])],
     [*LINES[:3], "event,1000000,,2600,0,,1300,0,,,0", "event,2000000,5000,1300,1,,2600,0,,,0"],
     ["events before the first known window, which the replay refuses with 6: 1"]),
    ("window before the event", [*BEGUN, metrics(0, congestion_window=9000), parameters(0, initial_congestion_window=1), acked(1, [0]),
     metrics(1, congestion_window=7), acked(2, [1])],
     [*LINES, "event,1000000,9000,3900,0,,1300,0,,,0", "event,2000000,7,2600,1,,2600,0,,,0"], []),
    ("round trip, where it is new", [*BEGUN, metrics(0, latest_rtt=40), acked(1, [0]), metrics(1, latest_rtt=40), acked(2, [1]),
     metrics(2, latest_rtt=0.0000016), acked(3, [2]), metrics(3, smoothed_rtt=3)],
     [*LINES, "event,1000000,13000,3900,0,,1300,0,,,0", "event,2000000,13000,2600,1,,2600,0,,2,0",
      "event,3000000,13000,1300,2,,3900,0,,,0"],
     ["round trips outside of an event: 1"]),
    ("initial round trip", [HEAD, parameters(0, initial_rtt=0.25), sent(0, 0), parameters(0, initial_rtt=9)],
     ["start,0,,,,,,,,250000,", "sent,0,,0,0,1300,,,,,"], ["initial round trips after the start: 1"]),
    ("transport parameters are others", [HEAD, event(0, "transport:parameters_set", initial_rtt=1), sent(0, 0)], [START, LINES[1]], []),
    ("bandwidth, where it is given", [*BEGUN, metrics(0, delivery_rate=1), acked(1, [0]), metrics(1, pacing_rate=2, cf_delivery_rate=3),
     acked(2, [1]), metrics(2, delivery_rate=2**41)],
     [*LINES, "event,1000000,13000,3900,0,,1300,0,,,0", f"event,2000000,13000,2600,1,,2600,0,{2**41},,0"], []),
    ("bytes_in_flight", [*BEGUN, metrics(0, bytes_in_flight=3900), metrics(0, bytes_in_flight=5)], LINES,
     ["metrics whose bytes_in_flight is not the sum: 1"]),
    ("nothing but a start", [HEAD, other(4)], [START], []),
    ("an event and no send", [HEAD, WINDOW, metrics(1, congestion_window=1)], [START], []),
    # whose events
    ("group_id", [head(group_id="a"), sent(0, 0), {**sent(0, 1), "group_id": "b"}, {**sent(0, 2), "group_id": "a"}],
     [START, "sent,0,,0,0,1300,,,,,", "sent,0,,1300,2,1300,,,,,"], ["events of another group_id: 1"]),
    ("group_id of the first event", [HEAD, {**sent(0, 0), "group_id": "a"}, {**sent(0, 1), "group_id": "b"}], LINES[:2],
     ["events of another group_id: 1"]),
    ("a second head", [*BEGUN, acked(1, [0]), HEAD, other(50), sent(51, 0)],
     [*LINES, "event,1000000,13000,3900,0,,1300,0,,,0", START, "sent,1000000,,0,0,1300,,,,,"], []),
    ("unknown namespaces", [HEAD, event(0, "http:packet_sent"), event(0, "packet_sent"), event(0, "recovery:packet_sent"), sent(0, 0)],
     LINES[:2], ["skipped: http:packet_sent 1, packet_sent 1, recovery:packet_sent 1"]),
]
# States, and whether BBRv2 probes in them.
STATES = {"bbr_startup": 1, "Startup": 1, "bbr_probe_bw_up": 1, "ProbeBwUp": 1, "probe_up": 1, "bbr_probe_bw_refill": 1}
STATES.update({"bbr_drain": 0, "bbr_probe_bw_down": 0, "bbr_probe_bw_cruise": 0, "bbr_probe_rtt": 0, "probe_bw": 0, "slow_start": 0})

# The same few records in each form of a file.
FEW = [HEAD, WINDOW, sent(0, 0), acked(1, [0])]
FEW_LINES = [START, LINES[1], "event,1000000,13000,1300,0,,1300,0,,,0"]
FORMS = {
    "sequence": sequence(*FEW),
    "sequence without the last LF": sequence(*FEW)[:-1],
    "sequence with empty records": sequence(*FEW).replace(b"\x1e", b"\x1e\x1e\n\x1e"),
    "sequence of records in lines": sequence(*(json.dumps(one, indent=1).encode() + b"\n" for one in FEW)),
    "lines": by_line(*FEW),
    "lines with CR LF and empty ones": by_line(*FEW).replace(b"\n", b"\r\n\r\n"),
    "lines, then a sequence": by_line(*FEW[:2]) + sequence(*FEW[2:]),
    "one document": document(FEW[1:]),
    "one document in lines": document(FEW[1:], indent=2),
    "other head": sequence({"file_schema": "urn:ietf:params:qlog:file:sequential", "serialization_format": "application/qlog+json-seq",
                            "trace": {}}, *FEW[1:]),
    "names of quic": sequence(*FEW).replace(b"transport:", b"quic:").replace(b"recovery:parameters_set", b"quic:recovery_parameters_set"),
}

NESTED = b'{"time":0,"name":"a:b","data":' + b"[" * 100000 + b"]" * 100000 + b"}\n"
DEEP = b"[" * 500 + b"]" * 500
# What a bad record is, and what is said of it. It stands after BEGUN, and before an ack that must still be taken.
BAD = [
    ("no JSON", b"{]\n", "is no JSON ("),
    ("cut", b'{"time":1,"name":"tra', "is no JSON, and is cut: no LF ends it"),
    ("two in one", b"{}{}\n", "is no JSON"),
    ("not UTF-8", b'{"a":"\xff"}\n', "is not UTF-8"),
    ("NUL", b'{"a":"\x00"}\n', "is no JSON"),
    ("nested", NESTED, "is nested too deep"),
    ("NaN", b'{"time":NaN,"name":"a:b"}\n', "is no JSON (NaN is no number of JSON)"),
    ("Infinity", b'{"time":-Infinity,"name":"a:b"}\n', "is no JSON"),
    ("an exponent past all", b'{"time":1e99999999999999999999999,"name":"a:b"}\n', "is no JSON"),
    ("a list", [1], "is no object: a list"),
    ("a number", 7, "is no object: 7"),
    ("null", None, "is no object: None"),
    ("no name", {"time": 1}, "is neither a header nor an event"),
    ("name is a number", {"time": 1, "name": 5}, "name is no text: 5"),
    ("name is null", {"time": 1, "name": None}, "is no event: it has no name"),
    ("no time", {"name": "a:b"}, "time is missing"),
    ("time is text", {"time": "1", "name": "a:b"}, "time is no number of milliseconds of 64 bits: 1"),
    ("time is true", {"time": True, "name": "a:b"}, "time is no number of milliseconds"),
    ("time 1e400", b'{"time":1e400,"name":"a:b"}\n', "time is no number of milliseconds of 64 bits: 1E+400"),
    ("time -1e400", b'{"time":-1e400,"name":"a:b"}\n', "time is no number of milliseconds"),
    ("time 1e999999999999999999", b'{"time":1e999999999999999999,"name":"a:b"}\n', "time is no number of milliseconds"),
    ("time past 64 bits", {"time": 18446744073710, "name": "a:b"}, "time since the first event is longer than 2^64 - 1 ns"),
    ("another time_format", {"time": 1, "name": "a:b", "time_format": "delta"}, "has a time_format of its own: delta"),
    ("time_format is a list", b'{"time":1,"name":"a:b","time_format":' + DEEP + b"}\n", "has a time_format of its own: a list"),
    ("group_id is a list", {**sent(1, 3), "group_id": [1]}, "group_id is no text: a list"),
    ("data is a list", {"time": 1, "name": "quic:packet_sent", "data": [1]}, "data is no object: a list"),
    ("header is text", event(1, "quic:packet_sent", header="x"), "header is no object: x"),
    ("no type", event(1, "quic:packet_sent", header={"packet_number": 3}), "packet_type is missing"),
    ("type is a number", sent(1, 3, kind=5), "packet_type is no text: 5"),
    ("no number", event(1, "quic:packet_sent", header={"packet_type": "1RTT"}), "packet_number is missing"),
    ("negative number", sent(1, -1), "packet_number is no whole number from 0 to 2^64 - 1: -1"),
    ("half a number", sent(1, 3.5), "packet_number is no whole number"),
    ("number past 64 bits", sent(1, MOST + 1), "packet_number is no whole number"),
    ("text past 64 bits", sent(1, str(MOST + 1)), "packet_number is no whole number"),
    ("number in hexadecimal", sent(1, "0x3"), "packet_number is no whole number"),
    ("number in other digits", sent(1, "\u0663"), "packet_number is no whole number"),
    ("number is true", sent(1, True), "packet_number is no whole number"),
    ("number is a deep list", b'{"time":1,"name":"quic:packet_sent","data":{"header":{"packet_type":"1RTT","packet_number":' + DEEP
     + b"}}}\n", "packet_number is no whole number from 0 to 2^64 - 1: a list"),
    ("number of many digits", b'{"time":1,"name":"quic:packet_lost","data":{"packet_number":' + b"9" * 100000 + b"}}\n",
     "packet_number is no whole number"),
    ("sent twice", sent(1, 2), "packet 2 is in flight already"),
    ("negative size", sent(1, 3, size=-5), "raw.length is no whole number"),
    ("size is text", sent(1, 3, size="many"), "raw.length is no whole number from 0 to 2^64 - 1: many"),
    ("frames is an object", event(1, "quic:packet_received", frames={"a": 1}), "frames is no list: an object"),
    ("frame is a number", event(1, "quic:packet_received", frames=[{"frame_type": "ping"}, 5]), "frame 2 has no frame_type"),
    ("range upside down", acked(1, [0], [2, 1]), "range 2 of acked_ranges is none"),
    ("range of three", acked(1, [0, 1, 2]), "range 1 of acked_ranges is none"),
    ("range is a number", acked(1, 0), "range 1 of acked_ranges is none"),
    ("range with null", acked(1, [None]), "range 1 of acked_ranges is none"),
    ("range below 0", acked(1, [-1, 2]), "an end of acked_ranges is no whole number"),
    ("acked is null", numbers(1, 0, None), "packet_numbers has null"),
    ("acked is text", numbers(1, 0, "x"), "one of packet_numbers is no whole number"),
    ("space is a number", numbers(1, 0, packet_number_space=1), "packet_number_space is no text"),
    ("window below 0", metrics(1, congestion_window=-1), "congestion_window is no whole number"),
    ("round trip below 0", metrics(1, latest_rtt=-1, congestion_window=1), "latest_rtt is below 0: -1"),
    ("round trip is text", metrics(1, latest_rtt="40", congestion_window=1), "latest_rtt is no number of milliseconds"),
    ("no state", event(1, "recovery:congestion_state_updated", old="a"), "new is missing"),
    ("a name with a line break", {"time": "\n", "name": "a:b"}, "time is no number of milliseconds of 64 bits: \\n"),
    ("too long", b'{"name":"' + b"x" * qlog.MOST_BYTES + b'"}\n', f"is longer than {qlog.MOST_BYTES} bytes"),
]

# What is wrong with a whole file, and what is said.
NONE = [
    ("empty", b"", "the file has no event"),
    ("blank", b"\n\n", "the file has no event"),
    ("a mark alone", b"\x1e", "the file has no event"),
    ("a head alone", sequence(HEAD), "the file has no event"),
    ("no head", sequence(*FEW[1:]), "record 1: no header stands before the first event: times are taken as relative"),
    ("no qlog", b"kind,time\r\nstart,0\r\n", "record 2: is no JSON"),
    ("zeros", b"\x00" * 100000, "record 1: is no JSON, and is cut"),
    ("UTF-16", by_line(*FEW).decode().encode("utf-16"), "record 1: is not UTF-8"),
    ("BOM", b"\xef\xbb\xbf" + by_line(*FEW), "record 1: begins with a byte order mark"),
    ("BOM before a mark", b"\xef\xbb\xbf" + sequence(*FEW), "record 1: begins with a byte order mark"),
    ("CBOR", sequence({**HEAD, "qlog_format": "CBOR"}), "the format is CBOR, and only JSON is taken"),
    ("time_format", sequence(head(time_format="ticks")), "time_format is ticks: known are relative, absolute, delta"),
    ("time_units", sequence({**HEAD, "trace": {"configuration": {"time_units": "us"}}}), "time_units are us, and only ms are taken"),
    ("event_fields", b'{"traces":[{"event_fields":["time"],"events":[[1]]}]}', "the events are lists by event_fields"),
    ("network", sequence({**HEAD, "trace": {"vantage_point": {"type": "network"}}}), "the vantage point is the network"),
    ("a trace that is none", b'{"traces":[5]}', "record 1: has a trace that is no object: 5"),
    ("documents in a document", b'{"traces":[{"events":[' * 200 + b"]}]}" * 200, "record 2: is no event: it has no name"),
    ("a list in a document", document([[1, "a", "b"]]), "record 2: is no object: a list"),
    ("a document that is cut", document(FEW[1:], indent=1)[:-9], "record 1: is no JSON, and is cut"),
]


# ---- running


def run(data):
    """The lines, the status and what was said, of bytes."""
    output, said = io.BytesIO(), io.StringIO()
    with contextlib.redirect_stderr(said):
        try:
            status = qlog.converted(io.BytesIO(data), output)
        except qlog.Refused as wrong:
            status, _ = 1, print(wrong, file=sys.stderr)
    noted.update(re.findall(r"^(.*): \d+$", said.getvalue(), re.M))
    lines = output.getvalue().decode("ascii").split("\r\n")
    if lines[0] != ",".join(qlog.COLUMNS) or lines[-1] != "":
        faults.append(f"the header or the last line is wrong: {lines[0]!r} .. {lines[-1]!r}")
    return lines[1:-1], status, said.getvalue()


def hold(name, data, lines, status, words):
    """One case; lines of None are free."""
    try:
        found, ended, said = run(data)
    except Exception as wrong:  # a traceback at the command
        faults.append(f"{name}: {wrong!r}")
        return
    if lines is not None and found != lines:
        differing = next((pair for pair in zip(found + [None] * len(lines), lines + [None] * len(found)) if pair[0] != pair[1]))
        faults.append(f"{name}: {differing[0]} is written, and should be {differing[1]}")
    if ended != status:
        faults.append(f"{name}: the status is {ended}, and should be {status}: {said!r}")
    for one in words:
        if one not in said:
            faults.append(f"{name}: {said!r} is said, and should have {one!r}")


def check_by_hand():
    lines = open(os.path.join(ROOT, "traces", "by_hand.csv"), "rb").read().decode("ascii").split("\r\n")
    data = open(os.path.join(ROOT, "traces", "by_hand.sqlog"), "rb").read()
    hold("by_hand", data, lines[1:-1], 0, ["records: 37", "wrong: 0"])
    if lines[0] != ",".join(qlog.COLUMNS):
        faults.append("traces/by_hand.csv: the header is wrong")


def check_sound():
    for name, records, lines, words in SOUND:
        hold(name, sequence(*records), lines, 0, [*words, "wrong: 0"])
    for name, probing in STATES.items():
        # The state before an ack holds for it, and one behind it only for the next.
        records = [*BEGUN, state(0, name), acked(1, [0]), state(1, "drain"), acked(2, [1])]
        lines = [*LINES, f"event,1000000,13000,3900,0,,1300,0,,,{probing}", "event,2000000,13000,2600,1,,2600,0,,,0"]
        hold(f"state {name}", sequence(*records), lines, 0, [])
    for name, data in FORMS.items():
        hold(name, data, FEW_LINES, 0, [f"written: event 1, sent 1, start 1"])
    two = document(FEW[1:], FEW[1:])
    hold("one document with two traces", two, FEW_LINES * 2, 0, ["written: event 2, sent 2, start 2"])


def check_bad():
    for name, record, words in BAD:
        data = sequence(*BEGUN, record, acked(5, [0, 1]))
        hold(name, data, [*LINES, "event,5000000,13000,3900,1,,2600,0,,,0"], 1, [f"record 6: {words}", "records: 7", "wrong: 1\n"])
    cut = sequence(*BEGUN, acked(1, [0]))[:-30]
    hold("the last record is cut", cut, LINES, 1, ["record 6: is no JSON, and is cut", "wrong: 1\n"])
    run_on = sequence(*BEGUN)[:-30] + sequence(acked(1, [0]))
    lines = [*LINES[:3], "event,1000000,13000,2600,0,,1300,0,,,0"]
    hold("a record is cut by the next", run_on, lines, 1, ["record 5: is no JSON, and is cut"])
    for name, data, words in NONE:
        hold(name, data, None, 1, [words])
    many = [HEAD] + [7] * 25 + [event(0, f"a:{number}") for number in range(90)]
    hold("much to say", sequence(*many), [START], 1, ["wrong: 25, of which 15 are not shown", "others 50"])
    if run(sequence(*many))[2].count("is no object") != 10:
        faults.append("much to say: not ten complaints are shown")
    long_first = b'{"traces":[],"a":"' + b"x" * qlog.MOST_BYTES + b'"}\n' + by_line(*FEW)
    hold("a long first record", long_first, FEW_LINES, 0, [])


def check_memory():
    """What is held of a record that is too long, and of lost packets, has an end."""
    most, qlog.MOST_FIRST_BYTES = qlog.MOST_FIRST_BYTES, 2**17
    held = max(len(text) for text, _ in qlog.records(io.BytesIO(b"x" * 2**20)))
    qlog.MOST_FIRST_BYTES = most
    if not 2**17 < held <= 2**17 + qlog.PIECE:
        faults.append(f"of a record of 2^20 bytes {held} are held, and should be little more than 2^17")
    flight = qlog.Flight()
    for number in range(5000):
        flight.send(number, 1)
        flight.lose(number)
    if flight.late != list(range(5000 - qlog.MOST_LATE, 5000)) or flight.sizes or flight.numbers:
        faults.append(f"of 5000 lost packets {len(flight.late)} are kept, and should be the last {qlog.MOST_LATE}")


def check_damaged():
    """by_hand.sqlog with bytes changed, cut out and put in: whatever comes, no traceback, and lines of eleven fields."""
    chance, whole = random.Random(SEED), open(os.path.join(ROOT, "traces", "by_hand.sqlog"), "rb").read()
    for number in range(DAMAGED):
        data = bytearray(whole)
        for _ in range(chance.choice((1, 3, 30))):
            at = chance.randrange(len(data))
            put = bytes(chance.choice(b'\x1e\n{}[]",:-0129.e\x00\xfftn') for _ in range(chance.randint(0, 2)))
            data[at : at + chance.choice((0, 1, 1, 5))] = put
        try:
            lines, status, said = run(bytes(data[: chance.randint(1, len(data))] if number % 4 == 0 else data))
        except Exception as wrong:  # a traceback at the command
            faults.append(f"damaged {number}: {wrong!r}")
            continue
        wrong_lines = [line for line in lines if not re.fullmatch(r"(start|sent|event),-?\d+(,\d*){9}", line)]
        if wrong_lines or status != int(not said.endswith("wrong: 0\n")):
            faults.append(f"damaged {number}: {wrong_lines}, status {status}: {said!r}")


def command(arguments, status, words, **more):
    """The command itself: its status, and words of which one is said."""
    more = {"stdin": subprocess.DEVNULL, "stdout": subprocess.PIPE, **more}
    shell = more.pop("shell", None)
    line = (["sh", "-c", shell] if shell else []) + [sys.executable, SCRIPT, *arguments]
    done = subprocess.run(line, stderr=subprocess.PIPE, check=False, **more)
    said = done.stderr.decode()
    if done.returncode != status or "Traceback" in said or words not in said:
        found = f"the status is {done.returncode}, and {said!r} is said"
        faults.append(f"tests/qlog.py {' '.join(arguments)}: {found}; should be {status} and {words!r}")
    return done.stdout


def check_command():
    sample = os.path.join(ROOT, "traces", "by_hand.sqlog")
    due = open(os.path.join(ROOT, "traces", "by_hand.csv"), "rb").read()
    with open(sample, "rb") as stream:
        for found in (command([sample], 0, "wrong: 0"), command(["-"], 0, "wrong: 0", stdin=stream)):
            if found != due:
                faults.append("tests/qlog.py: it does not write traces/by_hand.csv")
    command([], 1, "tests/qlog.py FILE.sqlog")
    command([""], 1, "tests/qlog.py FILE.sqlog")
    if b"tests/qlog.py FILE.sqlog" not in command(["--help"], 0, ""):
        faults.append("tests/qlog.py --help: it does not say how it is called")
    check_interrupt()
    command([os.path.join(ROOT, "none.sqlog")], 1, "No such file or directory")
    command([ROOT], 1, "Is a directory")
    with tempfile.TemporaryDirectory() as folder:
        closed, long = os.path.join(folder, "closed.sqlog"), os.path.join(folder, "long.sqlog")
        with open(closed, "wb"):
            os.chmod(closed, 0)
        if not os.access(closed, os.R_OK):
            command([closed], 1, "Permission denied")
        with open(long, "wb") as stream:
            stream.write(sequence(HEAD, *(sent(number, number) for number in range(2000))))
        reader, writer = os.pipe()
        os.close(reader)
        for name in (sample, long, "--help"):
            command([name], 1, "the output was closed before its end\n", stdout=writer)
        os.close(writer)
        refused = os.path.join(folder, "refused.sqlog")
        with open(refused, "wb") as stream:
            stream.write(sequence(*FEW, head(time_format="ticks")))
        if command([refused], 1, "time_format is ticks").count(b"\r\n") != 3:
            faults.append("refused.sqlog: what stands before the refusal is not written")
    for number in (0, 1):
        closing = f'exec "$0" "$1" "$2" {number}>&-'
        command([sample], 1, "standard input and standard output have to be open", shell=closing)
        if os.path.exists("/dev/full"):
            with open("/dev/full", "wb") as full:
                command([sample], 1, "cannot write: No space", stdout=full)


def check_interrupt():
    """Ctrl-C, once the header is read."""
    streams = {"stdin": subprocess.PIPE, "stdout": subprocess.PIPE, "stderr": subprocess.PIPE}
    # A process in the background is handed an interrupt that is ignored: the command has to begin with the usual one.
    usual = {"preexec_fn": lambda: signal.signal(signal.SIGINT, signal.SIG_DFL)}
    with subprocess.Popen([sys.executable, SCRIPT, "-"], **streams, **usual) as work:
        # The complaint about the first record shows that it is at work.
        work.stdin.write(b"7\n")
        work.stdin.flush()
        work.stderr.readline()
        work.send_signal(signal.SIGINT)
        try:
            work.wait(20)
        except subprocess.TimeoutExpired:
            work.kill()
        said = work.stderr.read()
        if (work.returncode, said) != (130, b"interrupted\n"):
            faults.append(f"tests/qlog.py, interrupted: the status is {work.returncode}, and {said!r} is said")


def check_page():
    """What the page shows of the sample stands in it, and the page has every name that is used and every note."""
    text = open(os.path.join(ROOT, PAGE), encoding="utf-8").read()
    for path, pattern in (("traces/by_hand.sqlog", r"^    (\{.*\})$"), ("traces/by_hand.csv", r"^    ((?:start|sent|event),.*)$")):
        whole = open(os.path.join(ROOT, path), encoding="utf-8").read()
        found = re.findall(pattern, text, re.M)
        if not found:
            faults.append(f"{PAGE}: it shows nothing of {path}")
        faults.extend(f"{PAGE}: {line} is not in {path}" for line in found if line not in whole)
    faults.extend(f"{PAGE}: it does not name {name}" for name in qlog.HANDLERS if f"`{name}`" not in text)
    notes = set(re.findall(r'notes\[\s*"(.*?)"', open(SCRIPT, encoding="utf-8").read()))
    faults.extend(f"{PAGE}: it does not have the line {note!r}" for note in sorted(notes) if note not in text)
    faults.extend(f"tests/qlog_test.py: no case makes tests/qlog.py say {note!r}" for note in sorted(notes - noted))
    return len(notes)


def main():
    check_by_hand()
    check_sound()
    check_bad()
    notes = check_page()
    check_memory()
    check_damaged()
    check_command()
    print("".join(line + "\n" for line in faults), end="")
    if faults:
        print(f"qlog: faults: {len(faults)}")
        return 1
    sound = len(SOUND) + len(STATES) + len(FORMS) + 2
    print(f"qlog: {sound} sound files, {len(BAD) + len(NONE) + 4} bad ones, {DAMAGED} damaged, {notes} notes on {PAGE}")
    return 0


if __name__ == "__main__":
    sys.exit(main())
