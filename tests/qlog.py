#!/usr/bin/env python3
"""Makes a trace, which `make replay` takes, out of a qlog.

    tests/qlog.py FILE.sqlog >trace.csv
    tests/qlog.py - <FILE.sqlog >trace.csv

A qlog is read as JSON text sequences (RFC 7464), as JSON with a record a line, or as one JSON document with `traces`.
docs/QLOG.md says which of its fields become which column, what qlog lacks and what is assumed. Two things are filled in,
the first round trip and whether the sender probed. What the model does not take is written as it is, and the replay
refuses it in words.

The trace goes to standard output. Standard error has a line for each record that can't be read or used, and at the end
what was read, written and left out. The status is 0 where every record could be read, else 1."""

import bisect
import collections
import contextlib
import decimal
import errno
import json
import os
import re
import signal
import sys
from decimal import Decimal

COLUMNS = "kind,time,cwnd,inflight,number,bytes,acked,lost,bw,rtt,probing".split(",")
RECORD_MARK, BYTE_ORDER_MARK = b"\x1e", b"\xef\xbb\xbf"
# Bytes of a record, and of the first one, which can be a whole document; what is read at once.
MOST_BYTES, MOST_FIRST_BYTES, PIECE = 2**22, 2**26, 2**16
MOST = 2**64 - 1
NANOSECONDS = 10**6  # in a millisecond, the unit of every time in a qlog
# RFC 9002: the round trip that is assumed before the first sample, and the granularity of timers.
INITIAL_RTT, GRANULARITY = 333 * NANOSECONDS, NANOSECONDS
# What is kept of packets that were counted lost, and shown of complaints and of names.
MOST_LATE, MOST_SHOWN, MOST_NAMES, MOST_TEXT = 4096, 10, 40, 60

FORMATS = (None, "JSON-SEQ", "NDJSON", "JSON", "application/qlog+json-seq", "application/qlog+json")
# Whether a time counts from the event before.
TIME_FORMATS = {
    "relative": False,
    "absolute": False,
    "delta": True,
    "relative_to_epoch": False,
    "relative_to_previous_event": True,
}
HEADS = ("qlog_version", "qlog_format", "file_schema", "serialization_format", "trace", "traces")
APPLICATION, APPLICATION_TYPES = "application_data", ("0rtt", "1rtt")
# Frames that alone put no packet in flight (RFC 9002, section 2: neither ack-eliciting nor padding).
NOT_IN_FLIGHT = ("ack", "connection_close")
# States in which BBRv2 probes for bandwidth: startup, refill and up.
PROBING = re.compile(r"startup|probe_?(bw)?_?(up|refill)")

decimal.getcontext().prec = 60


class Unfit(Exception):
    """Why a record is not used."""


class Refused(Exception):
    """Why no more of the file is."""


# ---- records


def records(stream):
    """The bytes of each record, and how many it may have; of one that is too long, a few more than that.

    A file that begins with a record mark has it before each record, and a record may have several lines. So may the only
    one of a file whose first line is { alone. In others each line is a record."""
    held, limit, by_line = bytearray(), MOST_FIRST_BYTES, None
    for piece in iter(lambda: stream.readline(PIECE), b""):
        if by_line is None:
            by_line = piece[:1] != RECORD_MARK and piece.strip() != b"{"
        parts = piece.split(RECORD_MARK)
        for place, text in enumerate(parts):
            if len(held) <= limit:
                held += text
            if place < len(parts) - 1 or (by_line and text.endswith(b"\n")):
                if held.strip():
                    yield bytes(held), limit
                    limit = MOST_BYTES
                held = bytearray()
    if held.strip():
        yield bytes(held), limit


def no_number(text):
    raise ValueError(f"{text} is no number of JSON")


DECODER = json.JSONDecoder(parse_float=Decimal, parse_int=Decimal, parse_constant=no_number)


def parsed(text, limit):
    """A record's JSON, its numbers as decimals."""
    if len(text) > limit:
        raise Unfit(f"is longer than {limit} bytes")
    if text.startswith(BYTE_ORDER_MARK):
        raise Unfit("begins with a byte order mark (BOM), which is no JSON: `tail -c +4` takes it off")
    try:
        return DECODER.decode(text.decode("utf-8"))
    except UnicodeDecodeError:
        raise Unfit("is not UTF-8") from None
    except (ValueError, ArithmeticError) as wrong:
        cut = "" if text.endswith(b"\n") else ", and is cut: no LF ends it"
        raise Unfit(f"is no JSON{cut} ({shown(wrong)})") from None
    except RecursionError:
        raise Unfit("is nested too deep") from None


def shown(value):
    """A value for standard error: in ASCII, on one line, and short."""
    if isinstance(value, (dict, list)):
        return "an object" if isinstance(value, dict) else "a list"
    text = ascii(str(value))[1:-1]
    return text if len(text) <= MOST_TEXT else text[:MOST_TEXT] + ".."


# ---- what stands in a record


def part(data, field):
    """An object in an object; an empty one where it is missing."""
    value = data.get(field)
    if value is not None and not isinstance(value, dict):
        raise Unfit(f"{field} is no object: {shown(value)}")
    return value or {}


def listed(data, field):
    value = data.get(field)
    if value is not None and not isinstance(value, list):
        raise Unfit(f"{field} is no list: {shown(value)}")
    return value or []


def text_of(data, field):
    value = data.get(field)
    if value is not None and not isinstance(value, str):
        raise Unfit(f"{field} is no text: {shown(value)}")
    return value


def whole(value, name):
    """A whole number of 64 bits, also as text; nothing where it is missing."""
    number = Decimal(value) if isinstance(value, str) and re.fullmatch("[0-9]{1,20}", value) else value
    if number is None:
        return None
    if not isinstance(number, Decimal) or not 0 <= number <= MOST or number != number.to_integral_value():
        raise Unfit(f"{name} is no whole number from 0 to 2^64 - 1: {shown(value)}")
    return int(number)


def milliseconds(data, field):
    value = data.get(field)
    if value is not None and (not isinstance(value, Decimal) or not -MOST <= value <= MOST):
        raise Unfit(f"{field} is no number of milliseconds of 64 bits: {shown(value)}")
    return value


def rounded(value, field):
    """Milliseconds to the nearest nanosecond."""
    found = int((value * NANOSECONDS).to_integral_value())
    if abs(found) > MOST:
        raise Unfit(f"{field} is longer than 2^64 - 1 ns: {shown(value)}")
    return found


def length(data, field):
    """A length of time in nanoseconds; nothing where it is missing."""
    value = milliseconds(data, field)
    if value is not None and value < 0:
        raise Unfit(f"{field} is below 0: {shown(value)}")
    return None if value is None else rounded(value, field)


def in_application(data, default=None):
    """Whether a packet is of the number space of 0-RTT and 1-RTT."""
    kind = text_of(part(data, "header"), "packet_type") or text_of(data, "packet_type") or default
    if kind is None:
        raise Unfit("packet_type is missing")
    return kind.lower() in APPLICATION_TYPES


def number_of(data):
    """A packet's number; older drafts have it outside of the header."""
    number = whole(part(data, "header").get("packet_number", data.get("packet_number")), "packet_number")
    if number is None:
        raise Unfit("packet_number is missing")
    return number


def size_of(data):
    """A packet's bytes, by raw or by the header of older drafts; nothing where neither has them."""
    size = whole(part(data, "raw").get("length"), "raw.length")
    return size if size is not None else whole(part(data, "header").get("packet_size"), "packet_size")


def frames_of(data):
    """The frames, each with its type."""
    found = []
    for frame in listed(data, "frames"):
        if not isinstance(frame, dict) or not isinstance(frame.get("frame_type"), str):
            raise Unfit(f"frame {len(found) + 1} has no frame_type")
        found.append((frame["frame_type"].lower(), frame))
    return found


def ranges_of(frame):
    """The first and the last number of each range of an ack."""
    found = []
    for one in listed(frame, "acked_ranges"):
        ends = [whole(end, "an end of acked_ranges") for end in one] if isinstance(one, list) else []
        if len(ends) not in (1, 2) or None in ends or ends[0] > ends[-1]:
            raise Unfit(f"range {len(found) + 1} of acked_ranges is none")
        found.append((ends[0], ends[-1]))
    return found


# ---- packets that were sent


class Flight:
    """The packets in flight by number, and their bytes."""

    def __init__(self):
        self.sizes, self.numbers, self.bytes = {}, [], 0
        self.late = []  # numbers counted lost, the last of them

    def send(self, number, size):
        bisect.insort(self.numbers, number)
        self.sizes[number] = size
        self.bytes += size

    def ack(self, first, last):
        """Takes those of a range out: their numbers and bytes."""
        found = cut_out(self.numbers, first, last)
        size = sum(self.sizes.pop(number) for number in found)
        self.bytes -= size
        return found, size

    def lose(self, number):
        """Takes a lost one out: its bytes."""
        _, size = self.ack(number, number)
        bisect.insort(self.late, number)
        del self.late[:-MOST_LATE]
        return size


def cut_out(numbers, first, last):
    """Takes a range out of numbers that rise."""
    begin, end = bisect.bisect_left(numbers, first), bisect.bisect_right(numbers, last)
    found = numbers[begin:end]
    del numbers[begin:end]
    return found


# ---- one connection


class Event:
    """An event that is not written yet: it takes what belongs to it until it is closed."""

    def __init__(self, time, window, inflight, probing):
        self.time, self.window, self.inflight, self.probing = time, window, inflight, probing
        self.number = self.rate = self.rtt = ""


class Connection:
    """Makes lines of the events of one connection, in their order."""

    def __init__(self, output, notes, common):
        self.output, self.notes = output, notes
        self.time_format = text_of(common, "time_format") or "relative"
        if self.time_format not in TIME_FORMATS:
            raise Refused(f"time_format is {shown(self.time_format)}: known are {', '.join(TIME_FORMATS)}")
        self.group = text_of(common, "group_id")
        self.first = self.latest_time = None
        self.sum = Decimal(0)
        self.started = False
        self.initial_rtt, self.window, self.latest_rtt, self.probing = INITIAL_RTT, None, None, 0
        self.flight, self.last_sent, self.last_claimed = Flight(), -1, -1
        self.acked = self.lost = 0
        self.open = None

    def line(self, kind, time, **columns):
        self.output.line([kind, time] + [columns.get(name, "") for name in COLUMNS[2:]])

    def start(self):
        """Writes the start, once, before anything else."""
        if not self.started and self.first is not None:
            self.started = True
            self.line("start", 0, rtt=self.initial_rtt)

    def open_event(self, time, inflight):
        self.close()
        self.open = Event(time, self.window, inflight, self.probing)

    def close(self):
        """Writes the open event, with the totals as they are by now."""
        event, self.open = self.open, None
        if event is None:
            return
        if event.window is None:
            self.notes["events before the first known window, which the replay refuses with 6"] += 1
        self.start()
        self.line(
            "event",
            event.time,
            cwnd="" if event.window is None else event.window,
            inflight=event.inflight,
            number=event.number,
            acked=self.acked,
            lost=self.lost,
            bw=event.rate,
            rtt=event.rtt,
            probing=event.probing,
        )

    def end(self):
        self.close()
        self.start()

    def moment(self, record):
        """A record's time, in nanoseconds since the first one."""
        own = record.get("time_format", self.time_format)
        if own != self.time_format:
            raise Unfit(f"has a time_format of its own: {shown(own)}")
        time = milliseconds(record, "time")
        if time is None:
            raise Unfit("time is missing")
        time += self.sum if TIME_FORMATS[self.time_format] else 0
        first = time if self.first is None else self.first
        found = rounded(time - first, "time since the first event")
        self.first, self.sum = first, time
        if self.latest_time is not None and found < self.latest_time:
            self.notes["times that go back"] += 1
        self.latest_time = found
        return found

    def handle(self, record, time, name):
        """An event of the file, if it is of this connection."""
        group = text_of(record, "group_id") or self.group
        self.group = group if self.group is None else self.group
        if group != self.group:
            self.notes["events of another group_id"] += 1
            return
        HANDLERS[name](self, time, part(record, "data"))

    # ---- by name

    def packet_sent(self, time, data):
        self.close()
        if not in_application(data):
            self.notes["packets of another number space"] += 1
            return
        number, size = number_of(data), size_of(data)
        kinds = {kind for kind, _ in frames_of(data)}
        if number in self.flight.sizes:
            raise Unfit(f"packet {number} is in flight already")
        self.last_sent = max(self.last_sent, number)
        if kinds and kinds.issubset(NOT_IN_FLIGHT):
            self.notes["packets that are not in flight"] += 1
            return
        if size is None:
            self.notes["packets without a size, which the replay refuses with 6"] += 1
        self.start()
        self.line("sent", time, inflight=self.flight.bytes, number=number, bytes="" if size is None else size)
        self.flight.send(number, size or 0)

    def packet_received(self, time, data):
        self.close()
        acks = [ranges_of(frame) for kind, frame in frames_of(data) if kind == "ack"]
        if acks and in_application(data):
            self.ack(time, [one for ranges in acks for one in ranges])
        elif acks:
            self.notes["acks of another number space"] += 1

    def packets_acked(self, time, data):
        numbers = [whole(number, "one of packet_numbers") for number in listed(data, "packet_numbers")]
        if None in numbers:
            raise Unfit("packet_numbers has null")
        if (text_of(data, "packet_number_space") or APPLICATION) == APPLICATION:
            self.ack(time, [(number, number) for number in numbers])
        else:
            self.notes["acks of another number space"] += 1

    def ack(self, time, ranges):
        """What an ack is the first to ack is an event, or goes to the open one if that has the very same time."""
        inflight, found, size = self.flight.bytes, [], 0
        for first, last in ranges:
            numbers, freed = self.flight.ack(first, last)
            found += numbers
            size += freed
            self.notes["packets acked after they were counted lost"] += len(cut_out(self.flight.late, first, last))
        claimed = max((last for _, last in ranges), default=-1)
        if claimed > max(self.last_sent, self.last_claimed):
            self.notes["acks of packets never sent, which the replay refuses with 10"] += 1
            self.last_claimed = claimed
            found.append(claimed)
        if not found:
            self.notes["acks with nothing new"] += 1
            return
        if self.open is None or self.open.time != time:
            self.open_event(time, inflight)
        self.acked += size
        self.open.number = max(found + ([] if self.open.number == "" else [self.open.number]))

    def packet_lost(self, time, data):
        if not in_application(data, "1RTT"):
            self.notes["losses of another number space"] += 1
            return
        number = number_of(data)
        if number not in self.flight.sizes:
            self.notes["losses of packets that are not in flight"] += 1
            return
        if data.get("is_mtu_probe_packet") is True:
            self.flight.ack(number, number)
            self.notes["lost probes of the packet size"] += 1
            return
        if self.open is None or time - self.open.time > GRANULARITY:
            self.open_event(time, self.flight.bytes)
        self.lost += self.flight.lose(number)

    def metrics_updated(self, time, data):
        window = whole(data.get("congestion_window"), "congestion_window")
        inflight = whole(data.get("bytes_in_flight"), "bytes_in_flight")
        rate = whole(data.get("delivery_rate"), "delivery_rate")
        rtt = length(data, "latest_rtt")
        self.window = self.window if window is None else window
        if inflight not in (None, self.flight.bytes):
            self.notes["metrics whose bytes_in_flight is not the sum"] += 1
        if rate is not None and self.open:
            self.open.rate = rate
        if rtt is not None and rtt != self.latest_rtt:
            self.latest_rtt = rtt
            if self.open:
                self.open.rtt = rtt
            else:
                self.notes["round trips outside of an event"] += 1

    def parameters_set(self, time, data):
        rtt = length(data, "initial_rtt")
        window = whole(data.get("initial_congestion_window"), "initial_congestion_window")
        self.window = window if self.window is None else self.window
        if rtt is not None and self.started:
            self.notes["initial round trips after the start"] += 1
        elif rtt is not None:
            self.initial_rtt = rtt

    def congestion_state_updated(self, time, data):
        state = text_of(data, "new")
        if state is None:
            raise Unfit("new is missing")
        self.probing = int(bool(PROBING.search(state.lower())))

    def timer_updated(self, time, data):
        if data.get("event_type") == "expired":
            self.close()


HANDLERS = {
    "transport:packet_sent": Connection.packet_sent,
    "quic:packet_sent": Connection.packet_sent,
    "transport:packet_received": Connection.packet_received,
    "quic:packet_received": Connection.packet_received,
    "transport:packets_acked": Connection.packets_acked,
    "recovery:packets_acked": Connection.packets_acked,
    "quic:packets_acked": Connection.packets_acked,
    "recovery:packet_lost": Connection.packet_lost,
    "quic:packet_lost": Connection.packet_lost,
    "recovery:metrics_updated": Connection.metrics_updated,
    "quic:recovery_metrics_updated": Connection.metrics_updated,
    "recovery:parameters_set": Connection.parameters_set,
    "quic:recovery_parameters_set": Connection.parameters_set,
    "recovery:congestion_state_updated": Connection.congestion_state_updated,
    "quic:congestion_state_updated": Connection.congestion_state_updated,
    "recovery:loss_timer_updated": Connection.timer_updated,
    "quic:loss_timer_updated": Connection.timer_updated,
    "quic:timer_updated": Connection.timer_updated,
}


# ---- a whole file


class Output:
    """Standard output, with the lines of a trace."""

    def __init__(self, stream):
        self.stream, self.kinds = stream, collections.Counter()
        self.write(COLUMNS)

    def line(self, fields):
        self.kinds[fields[0]] += 1
        self.write(fields)

    def write(self, fields):
        self.guarded(self.stream.write, ",".join(map(str, fields)).encode("ascii") + b"\r\n")

    def flush(self):
        self.guarded(self.stream.flush)

    @staticmethod
    def guarded(function, *arguments):
        try:
            function(*arguments)
        except OSError as wrong:
            closed = "the output was closed before its end"
            raise Refused(closed if wrong.errno == errno.EPIPE else f"cannot write: {wrong.strerror}") from None


class Conversion:
    """A file on its way into a trace, and what there is to say of it."""

    def __init__(self, output):
        self.output = output
        self.read = self.wrong = self.events = 0
        self.used, self.skipped, self.notes = (collections.Counter() for _ in range(3))
        self.connection = None

    def whole_file(self, stream):
        for text, limit in records(stream):
            self.guarded(lambda: self.record(parsed(text, limit)))
        if self.connection:
            self.connection.end()
        if not self.events:
            self.complain("the file has no event")

    def guarded(self, work):
        """One record more, which is said and left out where it is unfit."""
        self.read += 1
        number = self.read
        try:
            work()
        except Unfit as unfit:
            self.complain(f"record {number}: {unfit}")

    def complain(self, sentence):
        self.wrong += 1
        if self.wrong <= MOST_SHOWN:
            print(sentence, file=sys.stderr)

    def record(self, value):
        if not isinstance(value, dict) or "name" in value:
            self.event(value)
        elif "traces" in value:
            self.document(value)
        elif any(name in value for name in HEADS):
            self.header(value, part(value, "trace"))
        else:
            raise Unfit("is neither a header nor an event: it has no name")

    def document(self, value):
        """One JSON document, which is a record; each of its traces is a connection, each event a record more."""
        for trace in listed(value, "traces"):
            if not isinstance(trace, dict):
                raise Unfit(f"has a trace that is no object: {shown(trace)}")
            self.header(value, trace)
            for one in listed(trace, "events"):
                self.guarded(lambda: self.event(one))

    def header(self, value, trace):
        """A connection begins."""
        written = value.get("qlog_format", value.get("serialization_format"))
        if written not in FORMATS:
            raise Refused(f"the format is {shown(written)}, and only JSON is taken")
        units = part(trace, "configuration").get("time_units", "ms")
        if units != "ms":
            raise Refused(f"time_units are {shown(units)}, and only ms are taken")
        if "event_fields" in trace:
            raise Refused("the events are lists by event_fields, as older drafts have them, and only objects are taken")
        if part(trace, "vantage_point").get("type") == "network":
            raise Refused("the vantage point is the network, and a trace is what the sender saw")
        self.begin(part(trace, "common_fields"))

    def begin(self, common):
        following = Connection(self.output, self.notes, common)
        if self.connection:
            self.connection.end()
        self.connection = following

    def event(self, value):
        if not isinstance(value, dict):
            raise Unfit(f"is no object: {shown(value)}")
        name = text_of(value, "name")
        if name is None:
            raise Unfit("is no event: it has no name")
        if self.connection is None:
            self.complain(f"record {self.read}: no header stands before the first event: times are taken as relative")
            self.begin({})
        self.events += 1
        time = self.connection.moment(value)
        if name in HANDLERS:
            self.connection.handle(value, time, name)
            self.used[name] += 1
        else:
            known = shown(name) in self.skipped or len(self.skipped) < MOST_NAMES
            self.skipped[shown(name) if known else "others"] += 1

    def summary(self):
        """What is said at the end."""
        counted = lambda counts: ", ".join(f"{name} {number}" for name, number in sorted(counts.items())) or "nothing"
        lines = [f"records: {self.read}", f"written: {counted(self.output.kinds)}"]
        lines += [f"used: {counted(self.used)}", f"skipped: {counted(self.skipped)}"]
        lines += [f"{name}: {number}" for name, number in sorted(self.notes.items()) if number]
        more = f", of which {self.wrong - MOST_SHOWN} are not shown" if self.wrong > MOST_SHOWN else ""
        lines += [f"wrong: {self.wrong}{more}"]
        return "\n".join(lines)


def converted(stream, output):
    """Writes the trace of a file: the exit status."""
    conversion = Conversion(Output(output))
    conversion.whole_file(stream)
    conversion.output.flush()
    print(conversion.summary(), file=sys.stderr)
    return 1 if conversion.wrong else 0


def opened(name):
    """The file of that name, or standard input."""
    return sys.stdin.buffer if name == "-" else open(name, "rb")


def main():
    if len(sys.argv) != 2 or not sys.argv[1]:
        sys.exit(__doc__)
    if sys.stdout is None or sys.stdin is None:
        sys.exit("standard input and standard output have to be open")
    output, status = open(sys.stdout.fileno(), "wb", closefd=False), 1
    try:
        if sys.argv[1] in ("-h", "--help"):
            Output.guarded(os.write, sys.stdout.fileno(), __doc__.encode() + b"\n")
            return 0
        return converted(opened(sys.argv[1]), output)
    except OSError as wrong:
        sentence = f"cannot read {shown(sys.argv[1])}: {wrong.strerror}"
    except Refused as wrong:
        sentence = str(wrong)
    except KeyboardInterrupt:
        sentence, status = "interrupted", 128 + signal.SIGINT
    with contextlib.suppress(OSError):
        output.flush()
    print(sentence, file=sys.stderr)
    return status


if __name__ == "__main__":
    sys.exit(main())
