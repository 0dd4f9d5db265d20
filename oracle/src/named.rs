//! Counts what refusals with 2 name, by document 02, request b.

use guovssalu_sys::table::call;
use guovssalu_sys::table::event;
use guovssalu_sys::table::reply;
use guovssalu_sys::table::sample;
use guovssalu_sys::table::EVENT_IN_CALL;
use guovssalu_sys::table::NUMBER_IN_CALL;

use crate::bounds;
use crate::bounds::BYTES;
use crate::model::State;
use crate::places;
use crate::places::Fault;
use crate::places::Held;
use crate::places::Kind;
use crate::places::NO_CALL;
use crate::places::PAIRS_LENGTH;
use crate::places::SLOPE_WINDOW;
use crate::wanted::Wanted;

/// What has to occur, each at least `LEAST` times in `MANY` calls, beside each
/// field by each kind that it can be named for, and each two places of a call
/// that are both at fault: without it an error in the order could stay unseen.
const WANTED: [&str; 25] = [
    "1, and an argument is at fault",
    "1, and the number is no call's",
    "a number that is no call's",
    "start: both out, and the moment's word is the first",
    "on_packet_sent: the moment, and a later argument has a lower kind",
    "on_congestion_event_start: the event, and the sample has a lower kind",
    "on_congestion_event_start: the event's window, and a bandwidth of the sample",
    "enter_probe_up: the moment, and the window is out, too",
    "an event: a field, and a later one has a lower kind",
    "a sample: a field, and a later one has a lower kind",
    "an event: a number out of bounds, and a malformed word after it",
    "an event: a malformed word, and a number out of bounds after it",
    "a sample: a number out of bounds, and a malformed word after it",
    "a sample: a malformed word, and a number out of bounds after it",
    "an event: a number of a send state that isn't valid",
    "a sample: a number of a send state that isn't valid",
    "an event: a malformed pair, and its number is out of bounds",
    "a sample: a malformed pair, and its number is out of bounds",
    "an event: a malformed pair, and its number is within bounds",
    "a sample: a malformed pair, and its number is within bounds",
    "a malformed f32, and its 32 bits are a gain",
    "a malformed f32, and its 32 bits are no gain",
    "a length, and the postponed moment is within bounds",
    "a length, and the postponed moment is out, too",
    "the postponed moment",
];
const LEAST: u64 = 3;
const MANY: u64 = 140_000;
const FEW: u64 = 100;

/// The same of the exported filter run and slope.
const EXPORTED: [&str; 3] = [
    "the filter run: the length of the pairs",
    "the slope: the window",
    "the slope: 1, and the window is out, too",
];
const MANY_EXPORTED: u64 = 2_000;

pub struct Named {
    wanted: Wanted,
    /// Each field by each kind, and each two places that are both at fault.
    fields: Wanted,
    pairs: Wanted,
    exported: Wanted,
    /// How many calls there were, and how many of the exported ones.
    calls: u64,
    exports: u64,
}

impl Named {
    pub fn new() -> Self {
        let (mut fields, mut pairs) = (Vec::new(), Vec::new());
        for number in call::ALL {
            for (place, (word, held)) in places::fields(number) {
                let faults = held.kinds().into_iter().map(|kind| Fault { kind, place });
                fields.extend(faults.map(|fault| field(number, word, fault)));
                let others = places::fields(number).map(|(other, _)| other);
                let later = others.filter(|other| *other > place);
                pairs.extend(later.map(|later| pair(number, place, later)));
            }
        }
        Named {
            wanted: Wanted::new(&WANTED),
            fields: Wanted::new(&fields),
            pairs: Wanted::new(&pairs),
            exported: Wanted::new(&EXPORTED),
            calls: 0,
            exports: 0,
        }
    }

    /// Looks at a call of these words that was given this reply in this state, in a
    /// run that is lent lists of so many words.
    pub fn look(&mut self, words: &[u64], lists: usize, state: &State, reply: u64) {
        self.calls += 1;
        let faults: Vec<(usize, Fault)> = places::all(words, lists).collect();
        let is_call = call::ALL.contains(&words[NUMBER_IN_CALL]);
        if reply == reply::OUT_OF_BOUNDS {
            self.mark("1, and an argument is at fault", !faults.is_empty());
            self.mark("1, and the number is no call's", !is_call);
        }
        if reply == NO_CALL.reply() {
            self.mark("a number that is no call's", true);
        }
        self.postponed(words, &faults, state, reply);
        let Some(&(word, fault)) = faults.first() else {
            return;
        };
        if reply != fault.reply() {
            return;
        }
        let number = words[NUMBER_IN_CALL];
        self.fields.count(field(number, word, fault));
        let mut later: Vec<u64> = faults.iter().map(|(_, later)| later.place).collect();
        later.dedup();
        for later in &later[1..] {
            self.pairs.count(pair(number, fault.place, *later));
        }
        self.arguments(number, fault, &faults);
        self.forms(words, word, fault);
        match number {
            call::ON_CONGESTION_EVENT_START if fault.place == 3 => {
                self.fields_of("a sample", words, &faults)
            }
            call::ON_CONGESTION_EVENT_START if fault.place == 1 => {}
            _ if call::READ_EVENT.contains(&number) => self.fields_of("an event", words, &faults),
            _ => {}
        }
    }

    /// A postponed moment, and a length beside it.
    fn postponed(&mut self, words: &[u64], faults: &[(usize, Fault)], state: &State, reply: u64) {
        if words[NUMBER_IN_CALL] != call::POSTPONE_MIN_RTT_TIMESTAMP {
            return;
        }
        let passes = places::passes_moment(words, state);
        let length = faults
            .first()
            .is_some_and(|(_, fault)| reply == fault.reply());
        let moment = reply == Fault::new(Kind::Moment, 1).reply();
        self.mark("the postponed moment", moment);
        self.mark(
            "a length, and the postponed moment is out, too",
            length && passes,
        );
        self.mark(
            "a length, and the postponed moment is within bounds",
            length && !passes,
        );
    }

    /// The order of arguments.
    fn arguments(&mut self, number: u64, first: Fault, faults: &[(usize, Fault)]) {
        let later = |is: &dyn Fn(&Fault) -> bool| {
            let mut faults = faults.iter();
            faults.any(|(_, fault)| fault.place > first.place && is(fault))
        };
        let lower = |fault: &Fault| fault.kind < first.kind;
        match number {
            call::START => self.mark(
                "start: both out, and the moment's word is the first",
                later(&|_| true),
            ),
            call::ON_PACKET_SENT => self.mark(
                "on_packet_sent: the moment, and a later argument has a lower kind",
                first.kind == Kind::Moment && later(&lower),
            ),
            call::ENTER_PROBE_UP => self.mark(
                "enter_probe_up: the moment, and the window is out, too",
                later(&lower),
            ),
            call::ON_CONGESTION_EVENT_START if first.place == 2 => {
                let window = first.kind == Kind::Window;
                let bandwidth = |fault: &Fault| fault.kind == Kind::Bandwidth;
                match window {
                    true => self.mark(
                        "on_congestion_event_start: the event's window, and a bandwidth of the sample",
                        later(&bandwidth),
                    ),
                    false => self.mark(
                        "on_congestion_event_start: the event, and the sample has a lower kind",
                        later(&lower),
                    ),
                }
            }
            _ => {}
        }
    }

    /// The order of a record's fields, of which the first is named, and its send
    /// state.
    fn fields_of(&mut self, of: &str, words: &[u64], faults: &[(usize, Fault)]) {
        let (word, first) = faults[0];
        let later = faults[1..].iter().map(|(_, fault)| fault);
        let later: Vec<&Fault> = later.filter(|fault| fault.place == first.place).collect();
        let any = |is: &dyn Fn(Kind) -> bool| later.iter().any(|fault| is(fault.kind));
        let malformed = first.kind == Kind::Form;
        let marks = [
            (
                "a field, and a later one has a lower kind",
                any(&|kind| kind < first.kind),
            ),
            (
                "a number out of bounds, and a malformed word after it",
                !malformed && any(&|kind| kind == Kind::Form),
            ),
            (
                "a malformed word, and a number out of bounds after it",
                malformed && any(&|kind| kind != Kind::Form),
            ),
            (
                "a number of a send state that isn't valid",
                is_of_invalid(words, word),
            ),
        ];
        for (what, holds) in marks {
            self.mark(&format!("{of}: {what}"), holds);
        }
    }

    /// Malformed pairs and floats, by the number that is in them.
    fn forms(&mut self, words: &[u64], word: usize, fault: Fault) {
        if fault.kind != Kind::Form {
            return;
        }
        let mut fields = places::fields(words[NUMBER_IN_CALL]).map(|(_, field)| field);
        match fields.find(|(at, _)| *at == word) {
            Some((_, Held::Gain)) => {
                let is_gain = bounds::gain(f32::from_bits(words[word] as u32));
                self.mark("a malformed f32, and its 32 bits are a gain", is_gain);
                self.mark("a malformed f32, and its 32 bits are no gain", !is_gain);
            }
            Some((_, Held::Pair(most, _))) => {
                let of = match word < EVENT_IN_CALL {
                    true => "a sample",
                    false => "an event",
                };
                let number = match words[word + 1] > most {
                    true => "is out of bounds",
                    false => "is within bounds",
                };
                let what = format!("{of}: a malformed pair, and its number {number}");
                self.mark(&what, true);
            }
            _ => {}
        }
    }

    pub fn look_at_filter_run(&mut self, reply: u64) {
        self.exports += 1;
        self.exported.mark(
            "the filter run: the length of the pairs",
            reply == PAIRS_LENGTH.reply(),
        );
    }

    pub fn look_at_slope(&mut self, window: u64, reply: u64) {
        self.exports += 1;
        self.exported
            .mark("the slope: the window", reply == SLOPE_WINDOW.reply());
        self.exported.mark(
            "the slope: 1, and the window is out, too",
            reply == reply::OUT_OF_BOUNDS && window > BYTES,
        );
    }

    fn mark(&mut self, what: &str, holds: bool) {
        self.wanted.mark(what, holds);
    }

    /// Prints the counts, after such a word, if there were more than a few calls:
    /// of fields and pairs only how often the rarest occurs.
    pub fn tell(&self, of: &str) {
        if self.calls > FEW {
            self.wanted.tell(of);
            for (what, wanted) in [("fields", &self.fields), ("two places", &self.pairs)] {
                let (all, rarest, count) = wanted.rarest();
                eprintln!("{of}{count:4} x the rarest of {all} {what}: {rarest}");
            }
        }
        if self.exports > FEW {
            self.exported.tell(of);
        }
    }

    /// Stops if something is missing though there were many calls.
    pub fn hold(&self) {
        if self.calls >= MANY {
            for wanted in [&self.wanted, &self.fields, &self.pairs] {
                wanted.demand(LEAST);
            }
        }
        if self.exports >= MANY_EXPORTED {
            self.exported.demand(LEAST);
        }
    }

    /// Stops if something occurs less often than this.
    pub fn demand(&self, least: u64) {
        for wanted in [&self.wanted, &self.fields, &self.pairs, &self.exported] {
            wanted.demand(least);
        }
    }
}

/// A field that is named, or a whole argument.
fn field(number: u64, word: usize, fault: Fault) -> String {
    format!("call {number}, word {word}: {fault}")
}

/// Two places that are both at fault, of which the first is named.
fn pair(number: u64, first: u64, later: u64) -> String {
    format!("call {number}: {first}, and {later} is at fault, too")
}

/// Whether the word is a number of a send state that isn't valid.
fn is_of_invalid(words: &[u64], word: usize) -> bool {
    let of_event = |at: usize| EVENT_IN_CALL + at;
    let states = [
        (
            of_event(event::LAST_PACKET_SEND_STATE_IS_VALID),
            of_event(event::LAST_PACKET_SEND_STATE_TOTAL_BYTES_ACKED),
            of_event(event::LAST_PACKET_SEND_STATE_BYTES_IN_FLIGHT),
        ),
        (
            sample::LAST_PACKET_SEND_STATE_IS_VALID,
            sample::LAST_PACKET_SEND_STATE_TOTAL_BYTES_ACKED,
            sample::LAST_PACKET_SEND_STATE_BYTES_IN_FLIGHT,
        ),
    ];
    let mut states = states.iter();
    states.any(|&(valid, total, bytes)| words[valid] == 0 && [total, bytes].contains(&word))
}
