//! Chooses steps: calls that the port accepts (`Calls`), and between them
//! calls that it refuses, and states that no run reaches.

use std::collections::VecDeque;

use guovssalu_sys::table::call;
use guovssalu_sys::table::event;
use guovssalu_sys::table::params;
use guovssalu_sys::table::sample;
use guovssalu_sys::table::ARGUMENTS_IN_CALL;
use guovssalu_sys::table::MOST_ACKED;
use guovssalu_sys::table::UNSET;

use crate::bounds::BANDWIDTH;
use crate::bounds::BYTES;
use crate::bounds::LEAST_GAIN;
use crate::bounds::LENGTH;
use crate::bounds::MOMENT;
use crate::bounds::MOST_BETA;
use crate::bounds::MOST_GAIN;
use crate::bounds::TOTAL;
use crate::bounds::UP_ROUNDS;
use crate::calls;
use crate::calls::Calls;
use crate::frame::CARRIED;
use crate::model::field::*;
use crate::model::Call;
use crate::model::Record;
use crate::model::Sample;
use crate::model::Start;
use crate::model::State;
use crate::recovery::gcongestion::Host;
use crate::replies;
use crate::values::bits;
use crate::values::Random;
use crate::world::Step;
use crate::world::World;

/// The kinds of numbers in a state.
#[derive(Clone, Copy, PartialEq)]
enum Kind {
    /// Any number.
    Free,
    /// 0 or 1, or another small number, below this.
    Below(u64),
    /// A number up to this.
    UpTo(u64),
    /// Bytes, or unset.
    Bound,
    Gain,
}

use Kind::*;

/// What may be put into a state: the field, its kind, and the field before it
/// that says whether it is set, if there is one.
const FIELDS: [(usize, Kind, Option<usize>); 45] = [
    (ROUND_TRIP_COUNT, Free, None),
    (LAST_SENT, Free, None),
    (END, Free, Some(END_SET)),
    (SLOT_0, UpTo(BANDWIDTH), None),
    (SLOT_1, UpTo(BANDWIDTH), None),
    (MIN_RTT, UpTo(LENGTH), None),
    (MIN_RTT_TIMESTAMP, UpTo(MOMENT), None),
    (BYTES_LOST_IN_ROUND, UpTo(TOTAL), None),
    (LOSS_EVENTS_IN_ROUND, Free, None),
    (MAX_DELIVERED, UpTo(TOTAL), None),
    (MIN_IN_FLIGHT, Bound, None),
    (LIMITED_IN_ROUND, Below(2), None),
    (BANDWIDTH_LATEST, UpTo(BANDWIDTH), None),
    (INFLIGHT_LATEST, UpTo(BYTES), None),
    (BANDWIDTH_LO, UpTo(BANDWIDTH), Some(BANDWIDTH_LO_SET)),
    (INFLIGHT_LO, Bound, None),
    (INFLIGHT_HI, Bound, None),
    (CWND_GAIN, Gain, None),
    (PACING_GAIN, Gain, None),
    (CWND_LIMITED, Below(2), None),
    (FULL_REACHED, Below(2), None),
    (BASELINE, UpTo(BANDWIDTH), None),
    (ROUNDS_WITHOUT_GROWTH, Free, None),
    (ROUNDS_WITH_QUEUEING, Free, None),
    (IGNORE_APP_LIMITED, Below(2), None),
    (SEND_RATE, UpTo(BANDWIDTH), Some(SEND_RATE_SET)),
    (ACK_RATE, UpTo(BANDWIDTH), Some(ACK_RATE_SET)),
    (TOTAL_ACKED, UpTo(TOTAL), None),
    (TOTAL_LOST, UpTo(TOTAL), None),
    (LAST_MOMENT, UpTo(MOMENT), None),
    (ANYTHING_SENT, Below(2), None),
    (PHASE, Below(5), None),
    (CYCLE_START, UpTo(MOMENT), None),
    (PHASE_START, UpTo(MOMENT), None),
    (ROUNDS_IN_PHASE, Free, None),
    (ROUNDS_SINCE_PROBE, Free, None),
    (PROBE_WAIT, UpTo(LENGTH + 500_000), Some(PROBE_WAIT_SET)),
    (PROBE_UP_ROUNDS, UpTo(UP_ROUNDS), None),
    (PROBE_UP_BYTES, UpTo(BYTES), Some(PROBE_UP_BYTES_SET)),
    (PROBE_UP_ACKED, UpTo(BYTES), None),
    (UP_APP_LIMITED, Below(2), None),
    (HAS_ADVANCED, Below(2), None),
    (FROM_PROBING, Below(2), None),
    (PROBED_TOO_HIGH, Below(2), None),
    (STOPPED_RISKY, Below(2), None),
];

/// Calls that have arguments to be refused.
const SPOILED: [u64; 17] = [
    call::ON_PACKET_SENT,
    call::ON_CONGESTION_EVENT_START,
    call::ON_CONGESTION_EVENT_START,
    call::ON_CONGESTION_EVENT_START,
    call::CHECK_PERSISTENT_QUEUE,
    call::BDP,
    call::BDP1,
    call::SET_PACING_GAIN,
    call::SET_CWND_GAIN,
    call::SET_INFLIGHT_HI,
    call::CAP_INFLIGHT_LO,
    call::POSTPONE_MIN_RTT_TIMESTAMP,
    call::ENTER_PROBE_DOWN,
    call::ENTER_PROBE_CRUISE,
    call::ENTER_PROBE_REFILL,
    call::ENTER_PROBE_UP,
    call::RAISE_INFLIGHT_HIGH_SLOPE,
];

/// The parameters that are floats.
const FLOATS: [usize; 6] = [
    params::BETA,
    params::LOSS_THRESHOLD,
    params::INFLIGHT_HI_HEADROOM,
    params::FULL_BW_THRESHOLD,
    params::STARTUP_CWND_GAIN,
    params::STARTUP_PACING_GAIN,
];

/// An endless run of steps on a model and its cycle.
pub struct Steps {
    random: Random,
    calls: Calls,
    /// What comes next.
    planned: VecDeque<Step>,
    /// Whether the last step was a start.
    started: bool,
}

impl Steps {
    pub fn new(seed: u64) -> Self {
        // Streams apart from those of the lists.
        let mut seeds = Random::new(seed ^ (1 << 63));
        Steps {
            random: Random::new(seeds.next()),
            calls: Calls::new(seeds.next()),
            planned: VecDeque::new(),
            started: false,
        }
    }

    /// Whether what comes before the step has no bearing on it.
    pub fn begins(step: &Step) -> bool {
        matches!(step, Step::Call(Call::Start(_)))
    }

    /// Whether a start comes next, whatever the state.
    pub fn at_end(&self) -> bool {
        self.planned.is_empty() && self.calls.at_end()
    }

    /// The step to be taken in this world.
    pub fn next(&mut self, world: &World) -> Step {
        if self.planned.is_empty() {
            self.plan(world);
        }
        let step = self.planned.pop_front().unwrap();
        self.started = Steps::begins(&step);
        step
    }

    fn plan(&mut self, world: &World) {
        // After a start, sometimes a state that no run reaches.
        if self.started && self.random.one_in(5) {
            let step = self.put(&world.state);
            self.planned.push_back(step);
            return;
        }
        if self.calls.at_end() && self.random.one_in(6) {
            let start = self.refused_start();
            self.planned.push_back(Step::Call(start));
            return;
        }
        let state = within(&world.state);
        let call = self.calls.next(&state);
        let unsent = if state[ANYTHING_SENT] == 0 { 2 } else { 12 };
        match call {
            Call::Event(sample) if self.random.one_in(unsent) => self.refuse_unsent(sample, &state),
            _ if self.random.one_in(6) => self.refuse(&call, world),
            _ => {}
        }
        self.planned.push_back(Step::Call(call));
    }

    /// Plans an event with a number that was never sent, in place of this one;
    /// sometimes a total falls, too.
    fn refuse_unsent(&mut self, mut sample: Sample, state: &State) {
        if !self.ack_unsent(&mut sample, state) {
            return;
        }
        if self.random.one_in(8) {
            sample.total_acked = state[TOTAL_ACKED].saturating_sub(1);
        }
        self.planned.push_back(Step::Call(Call::Event(sample)));
    }

    /// Puts a number that was never sent among the acked ones; whether there is
    /// one.
    fn ack_unsent(&mut self, sample: &mut Sample, state: &State) -> bool {
        let Some(number) = calls::unsent_number(&mut self.random, state) else {
            return false;
        };
        if sample.acked_length == 0 {
            sample.acked_length = 1 + self.random.below(MOST_ACKED as u64) as usize;
        }
        let place = self.random.below(sample.acked_length as u64) as usize;
        sample.acked[place] = number;
        true
    }

    /// Plans a call that is refused, in place of this one.
    fn refuse(&mut self, call: &Call, world: &World) {
        let state = within(&world.state);
        if let Call::Record(record) = call {
            let later = self.random.pick(&call::READ_EVENT);
            let spoiled = Call::Record(self.spoiled_record(record));
            let later = self.calls.make(later, &state);
            self.planned
                .extend([Step::Call(spoiled), Step::Call(later)]);
            return;
        }
        for _ in 0..20 {
            let number = self.random.pick(&SPOILED);
            let call = self.calls.make(number, &state);
            let mut numbers = call.numbers();
            for _ in 0..1 + self.random.below(4) / 3 {
                let given = numbers.len() - ARGUMENTS_IN_CALL;
                let at = ARGUMENTS_IN_CALL + self.random.below(given as u64) as usize;
                numbers[at] = match (number, at, self.random.one_in(2)) {
                    (call::ON_CONGESTION_EVENT_START, sample::TOTAL_BYTES_ACKED, true) => {
                        state[TOTAL_ACKED].saturating_sub(1)
                    }
                    (call::ON_CONGESTION_EVENT_START, sample::TOTAL_BYTES_LOST, true) => {
                        state[TOTAL_LOST].saturating_sub(1)
                    }
                    _ => self.outside(&world.state),
                };
            }
            let mut call = Call::of(number, &numbers[ARGUMENTS_IN_CALL..], &world.start).unwrap();
            if let Call::Event(sample) = &mut call {
                if self.random.one_in(4) {
                    self.ack_unsent(sample, &state);
                }
            }
            if replies::reply(&call, &world.state, &world.start) > 0 {
                self.planned.push_back(Step::Call(call));
                return;
            }
        }
    }

    /// A record with a number outside its bounds, mostly.
    fn spoiled_record(&mut self, record: &Record) -> Record {
        let mut numbers = record.numbers();
        let limits = [
            (event::EVENT_TIME, MOMENT),
            (event::PRIOR_CWND, BYTES),
            (event::PRIOR_BYTES_IN_FLIGHT, BYTES),
            (event::BYTES_IN_FLIGHT, BYTES),
            (event::BYTES_ACKED, TOTAL),
            (event::BYTES_LOST, TOTAL),
            (event::SAMPLE_MAX_BANDWIDTH, BANDWIDTH),
            (event::SAMPLE_MIN_RTT, LENGTH),
            (event::LAST_PACKET_SEND_STATE_TOTAL_BYTES_ACKED, TOTAL),
            (event::LAST_PACKET_SEND_STATE_BYTES_IN_FLIGHT, BYTES),
        ];
        let (at, limit) = self.random.pick(&limits);
        numbers[at] = past(&mut self.random, limit);
        if [event::SAMPLE_MAX_BANDWIDTH, event::SAMPLE_MIN_RTT].contains(&at) {
            numbers[at - 1] = 1;
        }
        Record::of(&numbers)
    }

    /// A start that is refused, most likely, and a few calls after it, to which
    /// its parameters are handed in.
    fn refused_start(&mut self) -> Call {
        let usual = Host::usual_start();
        let left = 1 + self.random.below(6);
        self.calls.go_on(usual, left);
        let mut start = Start {
            moment: self.random.below(1000),
            initial_rtt: self.random.of_length(36),
            ..usual
        };
        let mut parameters = start.parameters();
        match self.random.below(10) {
            0 => start.moment = past(&mut self.random, MOMENT),
            1 => start.initial_rtt = past(&mut self.random, LENGTH),
            2 => parameters[params::PROBE_RTT_PERIOD] = past(&mut self.random, LENGTH),
            3 => {
                let duration = past(&mut self.random, LENGTH);
                parameters[params::PROBE_BW_PROBE_BASE_DURATION] = duration;
            }
            at => parameters[FLOATS[at as usize - 4]] = no_float(&mut self.random) as u64,
        }
        if self.random.one_in(8) {
            start.moment = past(&mut self.random, MOMENT);
        }
        Call::Start(start.with_parameters(&parameters))
    }

    /// A number that is outside the bounds of many arguments.
    fn outside(&mut self, state: &State) -> u64 {
        let random = &mut self.random;
        match random.below(10) {
            0 => state[LAST_MOMENT].saturating_sub(1 + random.below(2)),
            1 => UP_ROUNDS + 1 + random.below(2),
            2..=4 => no_float(random) as u64,
            5 | 6 => past(random, LENGTH),
            7 => past(random, MOMENT),
            _ => past(random, BYTES),
        }
    }

    /// Puts numbers into a state: some or all, within their bounds, and
    /// sometimes one that isn't.
    fn put(&mut self, state: &State) -> Step {
        let mut put = *state;
        let share = self.random.pick(&[1, 4, 12]);
        for (field, kind, set) in FIELDS {
            if self.random.one_in(share) {
                put[field] = self.value(kind);
                self.set(&mut put, field, set);
            }
        }
        put[BYTES_LOST_IN_ROUND] = put[BYTES_LOST_IN_ROUND].min(put[TOTAL_LOST]);
        put[MAX_DELIVERED] = put[MAX_DELIVERED].min(put[TOTAL_ACKED]);
        if self.random.one_in(4) {
            self.spoil(&mut put);
            let left = 1 + self.random.below(8);
            self.calls.at_most(left);
        }
        let changed = (0..CARRIED).filter(|&field| put[field] != state[field]);
        Step::Put(changed.map(|field| (field, put[field])).collect())
    }

    /// Sets or unsets the field, if it can be unset.
    fn set(&mut self, state: &mut State, field: usize, set: Option<usize>) {
        if let Some(set) = set {
            state[set] = !self.random.one_in(4) as u64;
            state[field] *= state[set];
        }
    }

    fn value(&mut self, kind: Kind) -> u64 {
        let random = &mut self.random;
        match kind {
            Free => match random.below(6) {
                0 => 0,
                1 => 1,
                2 => u64::MAX - 1,
                3 => random.of_length(64),
                _ => u64::MAX,
            },
            Below(end) => random.below(end),
            UpTo(limit) => match random.below(8) {
                0 => 0,
                1 => limit,
                2 => limit - 1,
                3 => random.below(limit + 1),
                4 => random.of_length(12),
                _ => random.of_length(24),
            }
            .min(limit),
            Bound => match random.below(4) {
                0 => UNSET,
                _ => self.value(UpTo(BYTES)),
            },
            Gain => match random.below(4) {
                0 => bits(LEAST_GAIN) as u64,
                1 => bits(MOST_GAIN) as u64,
                _ => random.gain() as u64,
            },
        }
    }

    /// Puts one number outside its bounds.
    fn spoil(&mut self, state: &mut State) {
        let (field, kind, set) = self.random.pick(&FIELDS);
        match kind {
            Free | Below(_) => match self.random.one_in(2) {
                true => state[BYTES_LOST_IN_ROUND] = state[TOTAL_LOST] + 1,
                false => state[MAX_DELIVERED] = state[TOTAL_ACKED] + 1,
            },
            UpTo(limit) => state[field] = past(&mut self.random, limit),
            Bound => state[field] = past(&mut self.random, BYTES).min(UNSET - 1),
            Gain => state[field] = no_float(&mut self.random) as u64,
        }
        if let Some(set) = set {
            state[set] = 1;
        }
    }
}

/// A number past this limit, or the largest.
pub fn past(random: &mut Random, limit: u64) -> u64 {
    match random.below(6) {
        0 => u64::MAX,
        1 => u64::MAX - 1,
        2 => limit + random.of_length(20),
        _ => limit + 1,
    }
}

/// Bits of a float that is outside the bounds of gains and of most parameters,
/// mostly.
pub fn no_float(random: &mut Random) -> u32 {
    let outside = [
        0,
        1,
        0x8000_0000,
        0x8000_0001,
        bits(LEAST_GAIN) - 1,
        bits(MOST_GAIN) + 1,
        bits(MOST_BETA) + 1,
        bits(1.0) + 1,
        bits(1.0) - 1,
        bits(-1.0),
        bits(f32::MAX),
        bits(f32::INFINITY),
        bits(f32::NEG_INFINITY),
        0x7fc0_0000,
        0xffc0_0000,
        0x7f80_0001,
        0xffbf_ffff,
    ];
    match random.one_in(4) {
        true => random.next() as u32,
        false => random.pick(&outside),
    }
}

/// The state with every number within its bounds, for choosing calls.
pub fn within(state: &State) -> State {
    let mut state = *state;
    for (field, kind, _) in FIELDS {
        state[field] = match kind {
            Free | Below(_) => state[field],
            UpTo(limit) => state[field].min(limit),
            Bound if state[field] == UNSET => UNSET,
            Bound => state[field].min(BYTES),
            Gain => state[field],
        };
    }
    state
}
