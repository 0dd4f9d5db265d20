"""The table of docs/calls.txt: its rows, and what follows from them as constants.

    from words import call, state, STATE_WORDS

`call.BDP0` is a call's number; `state.INFLIGHT_LO`, `event.PRIOR_CWND` and the like are the places of words, those of
`event` and `params` from the first word of the record and of the parameters; `argument.bdp.GAIN` is the place of an
argument in its call. Of what may be unset, `.._SET` is the first of two words, and the name itself the second. Those of
the round-trip estimator have a prefix: `rtt_call.UPDATE_RTT`, `rtt_state.RTTVAR`, `rtt_argument.update_rtt.ACK_DELAY`,
`rtt_answer.REPLY`, RTT_STATE_WORDS, RTT_NUMBER_IN_CALL."""

import os
import re
import sys

ROOT = os.path.dirname(os.path.dirname(os.path.abspath(__file__)))
PATH = "docs/calls.txt"
WORD_BYTES = 8


class Fault(Exception):
    """What is wrong in the table."""


class Names:
    """Numbers by name, in the order of the table."""

    def __init__(self):
        self.__dict__["kinds"] = {}

    def add(self, name, number, kind=None):
        if name in self.kinds:
            raise Fault(f"{PATH}: two things are called {name}")
        self.__dict__[name] = number
        self.kinds[name] = kind

    def items(self):
        return [(name, self.__dict__[name], kind) for name, kind in self.kinds.items()]


def sections(text):
    """The rows of each section, as dictionaries from column to cell; - is None."""
    found, rows, columns = {}, None, None
    for number, line in enumerate(text.splitlines(), 1):
        if not line.strip() or line.startswith("#"):
            continue
        heading = re.fullmatch(r"\[(\w+)\]", line)
        cells = re.split(r"  +", line.strip())
        if heading:
            rows, columns = found.setdefault(heading.group(1), []), None
        elif columns is None:
            columns = cells
        elif len(cells) != len(columns):
            raise Fault(f"{PATH}:{number}: {len(cells)} cells, and there are {len(columns)} columns")
        else:
            rows.append({column: None if cell == "-" else cell for column, cell in zip(columns, cells)})
    return found


def constant(name):
    """A name of the table as a constant's: `max_bandwidth[0]` is MAX_BANDWIDTH_0, `NotStarted` is NOT_STARTED."""
    apart = re.sub(r"(?<=[a-z])(?=[A-Z])", "_", name)
    return re.sub(r"\W+", "_", apart).strip("_").upper()


class Table:
    """The sections, the names of each, and the sizes."""

    def __init__(self, text):
        self.sections = sections(text)
        self.kinds = {row["kind"]: int(row["words"]) for row in self.sections["kinds"]}
        self.call, self.reply, self.phase, self.reason = (self.numbered(name) for name in ("calls", "replies", "phases", "reasons"))
        self.value = Names()
        for row in self.sections["values"]:
            self.value.add(row["name"], int(row["value"]))
        self.state, self.event, self.params = (self.placed(name, 0) for name in ("state", "event", "params"))
        self.pair, self.samples, self.slope = (self.placed(name, 0) for name in ("pair", "samples", "slope"))
        self.sample = self.placed("sample", 1)
        self.argument = self.arguments("calls", "arguments")
        self.rtt_call, self.rtt_argument = self.numbered("rtt_calls"), self.arguments("rtt_calls", "rtt_arguments")
        self.rtt_state, self.rtt_answer = (self.placed(name, 0) for name in ("rtt_state", "rtt_answer"))
        self.size, self.place = Names(), Names()
        self.reckon()

    def rows(self, section):
        return self.sections[section]

    def numbered(self, section):
        names = Names()
        for row in self.rows(section):
            names.add(constant(row["name"]), int(row["number"]))
        numbers = [number for _, number, _ in names.items()]
        if numbers != sorted(set(numbers)):
            raise Fault(f"{PATH}: the numbers of [{section}] do not rise")
        return names

    def width(self, rows):
        return sum(self.words(row) for row in rows)

    def words(self, row):
        if row["kind"] not in self.kinds:
            raise Fault(f"{PATH}: {row['kind']} is no kind")
        return self.kinds[row["kind"]]

    def fill(self, names, rows, first, where):
        """The names of fields that stand one after the other, from the first word on."""
        at = first
        for row in rows:
            field = row.get("field") or row["argument"]
            if int(row["word"]) != at:
                raise Fault(f"{PATH}: {where}: {field} is at word {row['word']}, and the one before it ends at {at}")
            name, kind = constant(field), row["kind"]
            if kind.startswith("set, and "):
                names.add(name + "_SET", at, "flag")
                names.add(name, at + 1, kind.replace("set, and a ", "").replace("set, and ", ""))
            else:
                names.add(name, at, kind)
            at += self.words(row)
        return names

    def placed(self, section, first):
        return self.fill(Names(), self.rows(section), first, f"[{section}]")

    def arguments(self, calls, section):
        """The places of arguments, by the call's name."""
        known = [row["name"] for row in self.rows(calls)]
        given = {}
        for row in self.rows(section):
            if row["call"] not in known:
                raise Fault(f"{PATH}: [{section}]: {row['call']} is no call")
            given.setdefault(row["call"], []).append(row)
        names = Names()
        for call, rows in given.items():
            names.add(call, self.fill(Names(), rows, 1, call))
        return names

    def given(self, call, section="arguments"):
        """The rows of a call's arguments."""
        return [row for row in self.rows(section) if row["call"] == call]

    def room(self, calls, section):
        """The words of the arguments of the call with the most."""
        return max(self.width(self.given(row["name"], section)) for row in self.rows(calls))

    def begin(self, whole, words, prefix=""):
        """Where the parts of a call or an answer begin, each of so many words; and the words of the whole."""
        at = 0
        for row in self.rows(prefix.lower() + whole):
            self.place.add(f"{prefix}{row['part'].upper()}_IN_{whole.upper()}", at)
            at += words[row["part"]]
        return at

    def reckon(self):
        """The sizes and where parts begin, all from the rows."""
        single = {"number": 1, "reply": 1, "value": 1}
        parts = {part: self.width(r for r in self.rows("state") if r["part"] == part) for part in ("model", "cycle")}
        for section in ("event", "params", "pair", "samples", "slope", "rtt_state", "rtt_answer"):
            parts[section] = self.width(self.rows(section))
        parts["arguments"] = max(self.width(self.rows("sample")), self.room("calls", "arguments"))
        for whole in ("call", "answer"):
            parts[whole] = self.begin(whole, {**single, **parts})
        self.place.add("CYCLE_IN_STATE", parts["model"])
        parts["state"] = parts["model"] + parts["cycle"]
        parts["rtt_call"] = self.begin("call", {**single, "arguments": self.room("rtt_calls", "rtt_arguments")}, "RTT_")
        order = ("state", "model", "cycle", "call", "arguments", "event", "params", "answer", "pair", "samples", "slope")
        for part in order + ("rtt_state", "rtt_call", "rtt_answer"):
            self.size.add(f"{part.upper()}_WORDS", parts[part])
            self.size.add(f"{part.upper()}_BYTES", WORD_BYTES * parts[part])
        self.size.add("MOST_ACKED", next(self.words(row) for row in self.rows("sample") if row["field"] == "acked_packets"))


def read():
    with open(os.path.join(ROOT, PATH), encoding="utf-8") as file:
        try:
            return Table(file.read())
        except Fault as fault:
            sys.exit(str(fault))


TABLE = read()
call, reply, phase, state, event, params, sample, argument = (
    getattr(TABLE, name) for name in ("call", "reply", "phase", "state", "event", "params", "sample", "argument")
)
rtt_call, rtt_argument, rtt_state, rtt_answer = (getattr(TABLE, "rtt_" + name) for name in ("call", "argument", "state", "answer"))
globals().update({name: number for names in (TABLE.value, TABLE.size, TABLE.place) for name, number, _ in names.items()})
