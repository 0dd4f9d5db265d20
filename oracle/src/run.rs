//! Runs of calls on a model and its cycle, with the replies that are expected,
//! for the kept frames.

use guovssalu_sys::table::MOST_ACKED;
use guovssalu_sys::table::REPLY_IN_ANSWER;
use guovssalu_sys::table::VALUE_IN_ANSWER;

use crate::files::Files;
use crate::marks::Marks;
use crate::model::field::*;
use crate::model::Call;
use crate::model::Getter;
use crate::model::Record;
use crate::model::Sample;
use crate::model::SendState;
use crate::model::Start;
use crate::model::State;
use crate::places;
use crate::recovery::gcongestion::Host;
use crate::world::Step;

/// The reply that names a bound of this kind, and an argument by its place.
pub const fn bad(kind: u64, place: u64) -> u64 {
    2 + 256 * kind + 65_536 * place
}

pub struct Run<'a> {
    files: &'a mut Files,
    pub state: State,
    /// A number of the state in whose place another one stands: its field and
    /// itself. It is put back before the next call.
    held: Option<(usize, u64)>,
    pub marks: Marks,
}

impl<'a> Run<'a> {
    pub fn new(files: &'a mut Files) -> Self {
        Run {
            state: files.world.state,
            files,
            held: None,
            marks: Marks::new(Host::usual_start()),
        }
    }

    /// Makes a call that the port accepts; its answer.
    pub fn call(&mut self, call: Call) -> u64 {
        self.expect(0, call)
    }

    /// Makes a call to which the port replies this; its answer. The reply is read
    /// a second time from the documents' tables.
    pub fn expect(&mut self, reply: u64, call: Call) -> u64 {
        self.put_back();
        self.make(reply, call)
    }

    /// Takes a step to which the port replies this.
    pub fn expect_step(&mut self, reply: u64, step: Step) {
        self.put_back();
        let answer = self.files.step(&step).expect("the port is asked");
        assert_eq!(
            answer[REPLY_IN_ANSWER], reply,
            "the port's reply to {step:?}"
        );
        self.state = self.files.world.state;
    }

    /// Makes the call with other words at some places, for which it is refused with
    /// this.
    pub fn expect_words(&mut self, reply: u64, call: Call, others: &[(usize, u64)]) {
        self.put_back();
        let mut words = places::words_of(&call, &self.state, &self.files.world.start);
        for &(at, other) in others {
            words[at] = other;
        }
        self.expect_step(reply, Step::Words(words.to_vec()));
    }

    /// Puts the number back in whose place another one stands.
    fn put_back(&mut self) {
        if let Some(held) = self.held.take() {
            self.put(vec![held]);
        }
    }

    /// The same, with `value` in place of the number at `field`, which the call
    /// doesn't change.
    pub fn expect_with(&mut self, reply: u64, field: usize, value: u64, call: Call) {
        let mut numbers: Vec<(usize, u64)> = self.held.take().into_iter().collect();
        let held = match numbers[..] {
            [(same, number)] if same == field => number,
            _ => self.state[field],
        };
        numbers.push((field, value));
        self.put(numbers);
        self.make(reply, call);
        assert_eq!(self.state[field], value, "{call:?} changes field {field}");
        self.held = Some((field, held));
    }

    fn make(&mut self, reply: u64, call: Call) -> u64 {
        let before = self.state;
        let answer = self.files.step(&Step::Call(call));
        let [by_table, answer] = answer.map_or([0, 0], |words| {
            [words[REPLY_IN_ANSWER], words[VALUE_IN_ANSWER]]
        });
        assert_eq!(by_table, reply, "the port's reply to {call:?}");
        self.state = self.files.world.state;
        if reply == 0 {
            self.marks.look(&call, answer, &before, &self.state);
        }
        answer
    }

    /// Puts numbers into the state.
    pub fn put(&mut self, numbers: Vec<(usize, u64)>) {
        self.files.step(&Step::Put(numbers));
        self.state = self.files.world.state;
    }

    pub fn start(&mut self, start: Start) {
        self.call(Call::Start(start));
    }

    pub fn get(&mut self, getter: Getter) -> u64 {
        self.call(Call::Get(getter))
    }

    pub fn sent(&mut self, in_flight: u64, number: u64, bytes: u64) {
        self.call(Call::Sent {
            moment: self.state[LAST_MOMENT],
            in_flight,
            number,
            bytes,
        });
    }

    /// Sets a record of the last moment with this window.
    pub fn record(&mut self, record: Record) {
        self.call(Call::Record(Record {
            event_time: record.event_time.max(self.state[LAST_MOMENT]),
            ..record
        }));
    }

    /// An event that adds to the totals those of `more`, and acks `number`,
    /// if one is given.
    pub fn event(&mut self, number: Option<u64>, more: Sample) {
        self.call(Call::Event(Sample {
            total_acked: self.state[TOTAL_ACKED] + more.total_acked,
            total_lost: self.state[TOTAL_LOST] + more.total_lost,
            acked_length: number.is_some() as usize,
            acked: [number.unwrap_or(0), 0, 0],
            ..more
        }));
    }

    /// The sample of an event that acks these numbers, and nothing else.
    pub fn acking(&self, numbers: &[u64]) -> Sample {
        let mut acked = [0; MOST_ACKED];
        acked[..numbers.len()].copy_from_slice(numbers);
        Sample {
            total_acked: self.state[TOTAL_ACKED],
            total_lost: self.state[TOTAL_LOST],
            acked_length: numbers.len(),
            acked,
            ..NONE
        }
    }

    /// Such an event; whether it ended a round.
    pub fn acked(&mut self, numbers: &[u64]) -> bool {
        self.call(Call::Event(self.acking(numbers)));
        self.state[ROUND_ENDED] == 1
    }

    /// Such an event, which acks a number that was never sent.
    pub fn unsent(&mut self, numbers: &[u64]) {
        self.expect(10, Call::Event(self.acking(numbers)));
    }

    /// An event with a sample of this bandwidth that ends no round.
    pub fn sampled(&mut self, bandwidth: u64) {
        self.event(
            None,
            Sample {
                bandwidth: Some(bandwidth),
                ..ACKED
            },
        );
    }

    /// A record of this moment and an event on it that ends no round.
    pub fn event_at(&mut self, event_time: u64, more: Sample) {
        self.record(Record {
            event_time,
            prior_cwnd: 13_000,
            prior_in_flight: 13_000,
            ..Record::default()
        });
        self.event(None, more);
    }

    /// An event that ends the round, by a packet that is sent before it where none
    /// past the end was.
    pub fn round(&mut self, more: Sample) {
        let past = match self.state[END_SET] {
            0 => 0,
            _ => self.state[END] + 1,
        };
        if self.state[ANYTHING_SENT] == 0 || self.state[LAST_SENT] < past {
            self.sent(1300, past, 1300);
        }
        self.event(Some(past), more);
    }
}

pub const NONE: Sample = Sample {
    bandwidth: None,
    send_rate: None,
    ack_rate: None,
    app_limited: false,
    rtt: None,
    max_inflight: 0,
    extra_acked: 0,
    send_state: SendState {
        valid: false,
        app_limited: false,
        total_acked: 0,
        bytes_in_flight: 0,
    },
    total_acked: 0,
    total_lost: 0,
    acked_length: 0,
    acked: [0; MOST_ACKED],
};

pub const LOST: Sample = Sample {
    total_lost: 1,
    ..NONE
};

pub const ACKED: Sample = Sample {
    total_acked: 1300,
    ..NONE
};
