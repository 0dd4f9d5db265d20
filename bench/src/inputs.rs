//! The inputs, the same for both sides and in every run.

use std::time::Duration;
use std::time::Instant;

use guovssalu_sys::table::rtt_call;
use guovssalu_sys::table::CALL_BYTES;
use guovssalu_sys::table::EVENT_IN_CALL;
use guovssalu_sys::table::PAIR_BYTES;
use guovssalu_sys::table::STATE_WORDS;

use crate::model::Call;
use crate::model::Record;
use crate::model::Sample;
use crate::model::SendState;
use crate::model::Start;
use crate::recovery::gcongestion::Host;
use crate::recovery::rtt::RttStats;
use crate::values::Random;

/// Numbers of up to so many bits, gains from 1/1024 to 8, and round trips up to 200 ms.
pub struct Numbers {
    pub whole: Vec<u64>,
    pub gains: Vec<f32>,
    pub nanos: Vec<u64>,
}

impl Numbers {
    pub const COUNT: usize = 4096;

    pub fn new(bits: u32) -> Self {
        let mut random = Random::new(bits as u64);
        let all = 0..Numbers::COUNT;
        Numbers {
            whole: all.clone().map(|_| random.next() >> (64 - bits)).collect(),
            gains: all.clone().map(|_| f32::from_bits(random.gain())).collect(),
            nanos: all.map(|_| random.below(200_000_000)).collect(),
        }
    }
}

/// Pairs of a time and a sample: times that don't fall, samples that move by a tenth.
pub fn pairs(count: usize) -> Vec<u8> {
    let mut random = Random::new(7);
    let mut time = 0;
    let mut bytes = Vec::with_capacity(PAIR_BYTES * count);
    for _ in 0..count {
        time += random.below(4);
        let sample = 50_000_000 + random.below(5_000_000);
        bytes.extend(time.to_le_bytes());
        bytes.extend(sample.to_le_bytes());
    }
    bytes
}

/// Updates of a round-trip estimator: a sample, a delay and whether the handshake is confirmed, at a
/// moment that the original's side hands in. And the same as bytes: the state before them, and their
/// calls.
pub struct Updates {
    pub now: Instant,
    numbers: Vec<[u64; 3]>,
    pub state: Vec<u8>,
    pub calls: Vec<u8>,
}

impl Updates {
    /// initial_rtt and max_ack_delay.
    pub const FRESH: [u64; 2] = [333_000_000, 25_000_000];

    /// Samples of 50 to 55 ms and a delay, which in one of six is above the largest.
    pub fn new(count: usize) -> Self {
        let mut random = Random::new(13);
        let mut update = || {
            let delay = random.below(30_000_000);
            [50_000_000 + random.below(5_000_000) + delay, delay, 1]
        };
        let numbers: Vec<[u64; 3]> = (0..count).map(|_| update()).collect();
        let call = |&[latest, delay, confirmed]: &[u64; 3]| {
            bytes(&[rtt_call::UPDATE_RTT, latest, delay, confirmed])
        };
        let [initial, limit] = Updates::FRESH.map(Duration::from_nanos);
        Updates {
            now: Instant::now(),
            state: bytes(&RttStats::new(initial, limit).held()),
            calls: numbers.iter().flat_map(call).collect(),
            numbers,
        }
    }

    /// The updates with lengths of a type.
    pub fn typed<L>(&self, length: impl Fn(u64) -> L) -> Vec<(L, L, bool)> {
        let typed = |&[latest, delay, confirmed]: &[u64; 3]| {
            (length(latest), length(delay), confirmed == 1)
        };
        self.numbers.iter().map(typed).collect()
    }
}

/// A step of a connection.
pub enum Step {
    Send([u64; 4]),
    /// An event and its finish.
    Event(Record, Sample),
}

/// The steps of a connection, and the same as bytes: the state before them, and their calls.
pub struct Trace {
    pub start: Start,
    pub steps: Vec<Step>,
    pub state: Vec<u8>,
    pub calls: Vec<u8>,
}

impl Trace {
    /// Sends alone.
    pub fn sends(count: usize) -> Self {
        Maker::new().trace(Maker::send, count)
    }

    /// Events, each with its finish, after one send: what they ack was sent.
    pub fn events(count: usize) -> Self {
        let mut maker = Maker::new();
        maker.sent = 2 * count as u64;
        maker.send();
        maker.trace(Maker::event, count)
    }

    /// Two sends, then an event and its finish, over and over.
    pub fn connection(count: usize) -> Self {
        let turn = |maker: &mut Maker| {
            maker.send();
            maker.send();
            maker.event();
        };
        Maker::new().trace(turn, count)
    }
}

/// Makes a trace. The original goes along, for the records that its events leave.
struct Maker {
    random: Random,
    host: Host,
    trace: Trace,
    now: u64,
    sent: u64,
    acked: u64,
    in_flight: u64,
    /// Bytes acked and lost.
    totals: [u64; 2],
}

impl Maker {
    const BYTES: u64 = 1200;
    const WINDOW: u64 = 60_000;

    fn new() -> Self {
        let start = Host::usual_start();
        let host = Host::new(&start);
        Maker {
            random: Random::new(11),
            trace: Trace {
                start,
                steps: Vec::new(),
                state: bytes(&host.state()[..STATE_WORDS]),
                calls: Vec::new(),
            },
            host,
            now: 0,
            sent: 0,
            acked: 0,
            in_flight: 0,
            totals: [0; 2],
        }
    }

    /// So many calls, or a few more.
    fn trace(mut self, turn: impl Fn(&mut Maker), count: usize) -> Trace {
        while self.trace.calls.len() < CALL_BYTES * count {
            turn(&mut self);
        }
        self.trace
    }

    /// A packet of 1200 bytes.
    fn send(&mut self) {
        self.now += 1000;
        self.sent += 1;
        let [moment, in_flight, number, bytes] =
            [self.now, self.in_flight, self.sent, Maker::BYTES];
        self.add(Call::Sent {
            moment,
            in_flight,
            number,
            bytes,
        });
        let step = Step::Send([moment, in_flight, number, bytes]);
        self.trace.steps.push(step);
        self.in_flight = (self.in_flight + Maker::BYTES).min(Maker::WINDOW);
    }

    /// Two packets are acked, and in one event of 50 a third is lost.
    fn event(&mut self) {
        self.now += 1000;
        self.acked += 2;
        self.sent = self.sent.max(self.acked + 40);
        self.totals[0] += 2 * Maker::BYTES;
        if self.random.one_in(50) {
            self.totals[1] += Maker::BYTES;
        }
        let record = Record {
            event_time: self.now,
            prior_cwnd: Maker::WINDOW,
            prior_in_flight: Maker::WINDOW,
            ..Record::default()
        };
        let bandwidth = 50_000_000 + self.random.below(5_000_000);
        let sample = Sample {
            bandwidth: Some(bandwidth),
            send_rate: Some(bandwidth + 1000),
            ack_rate: Some(bandwidth),
            app_limited: false,
            rtt: Some(20_000_000 + self.random.below(20_000_000)),
            max_inflight: Maker::WINDOW / 2 + self.random.below(1000),
            extra_acked: self.random.below(2) * 100,
            send_state: SendState {
                valid: true,
                app_limited: false,
                total_acked: self.totals[0].saturating_sub(Maker::WINDOW),
                bytes_in_flight: Maker::WINDOW,
            },
            total_acked: self.totals[0],
            total_lost: self.totals[1],
            acked_length: 2,
            acked: [self.acked - 1, self.acked, 0],
        };
        self.host.record(&record);
        self.add(Call::Event(sample));
        self.add(Call::Finish);
        self.trace.steps.push(Step::Event(record, sample));
        self.in_flight = self.in_flight.saturating_sub(2 * Maker::BYTES);
    }

    fn add(&mut self, call: Call) {
        let mut words = call.numbers();
        words.resize(EVENT_IN_CALL, 0);
        words.extend(self.host.recorded());
        words.extend(self.trace.start.parameters());
        self.trace.calls.extend(bytes(&words));
        self.host.call(&call);
    }
}

pub fn bytes(words: &[u64]) -> Vec<u8> {
    words.iter().flat_map(|word| word.to_le_bytes()).collect()
}
