//! Chooses calls on a model and its cycle, from a seed and the state before
//! each. Every call is one that the port accepts: the original is never asked
//! what the port refuses.

use std::collections::VecDeque;

use guovssalu_sys::table::call;
use guovssalu_sys::table::phase;
use guovssalu_sys::table::MOST_ACKED;
use guovssalu_sys::table::UNSET;

use crate::bounds::BANDWIDTH;
use crate::bounds::BYTES;
use crate::bounds::LEAST_GAIN;
use crate::bounds::LENGTH;
use crate::bounds::MOMENT;
use crate::bounds::MOST_BETA;
use crate::bounds::MOST_GAIN;
use crate::bounds::TOTAL;
use crate::bounds::UP_ROUNDS;
use crate::model::field::*;
use crate::model::Call;
use crate::model::Getter;
use crate::model::Record;
use crate::model::Sample;
use crate::model::SendState;
use crate::model::Start;
use crate::model::State;
use crate::model::SET_RECORD;
use crate::recovery::gcongestion::Host;
use crate::values::bits;
use crate::values::Random;

/// Numbers of bytes at which something turns.
const TURNS: [u64; 17] = [
    0,
    1,
    10,
    1299,
    1300,
    1301,
    2599,
    2600,
    2601,
    26_000,
    (1 << 24) - 1,
    1 << 24,
    (1 << 24) + 1,
    16_777_219,
    16_777_223,
    BYTES - 1,
    BYTES,
];

/// An event's start and its finish.
const EVENT: u64 = call::ON_CONGESTION_EVENT_START;
const FINISH: u64 = call::ON_CONGESTION_EVENT_FINISH;

/// The questions about an event.
const QUESTIONS: [u64; 3] = [
    call::MAYBE_EXPIRE_MIN_RTT,
    call::IS_INFLIGHT_TOO_HIGH,
    call::HAS_BANDWIDTH_GROWTH,
];

/// The calls that change the model or reckon with it, but for sends and events.
const CHANGES: [u64; 15] = [
    call::RESTART_ROUND_EARLY,
    call::CHECK_PERSISTENT_QUEUE,
    call::BDP,
    call::BDP1,
    call::BDP0,
    call::INFLIGHT_HI_WITH_HEADROOM,
    call::SET_FULL_BANDWIDTH_REACHED,
    call::SET_PACING_GAIN,
    call::SET_CWND_GAIN,
    call::SET_INFLIGHT_HI,
    call::CAP_INFLIGHT_LO,
    call::CLEAR_INFLIGHT_LO,
    call::CLEAR_BANDWIDTH_LO,
    call::ADVANCE_MAX_BANDWIDTH_FILTER,
    call::POSTPONE_MIN_RTT_TIMESTAMP,
];

/// The phase entries, the exit from Down and the slope.
const ENTRIES: [u64; 6] = [
    call::ENTER_PROBE_DOWN,
    call::ENTER_PROBE_CRUISE,
    call::ENTER_PROBE_REFILL,
    call::ENTER_PROBE_UP,
    call::EXIT_PROBE_DOWN,
    call::RAISE_INFLIGHT_HIGH_SLOPE,
];

/// How a sequence goes.
#[derive(Clone, Copy, PartialEq)]
enum Manner {
    /// Any call, with arguments at limits.
    Anything,
    /// As a connection would: rounds of sends and events, the phases in turn.
    Rounds,
    /// Event after event that ends a round with losses.
    Reductions,
}

use Manner::*;

/// An endless run of calls.
pub struct Calls {
    random: Random,
    start: Start,
    manner: Manner,
    /// Calls left in this sequence.
    left: u64,
    /// The numbers of the calls that come next.
    planned: VecDeque<u64>,
    /// The window of a connection.
    window: u64,
}

impl Calls {
    pub fn new(stream: u64) -> Self {
        Calls {
            random: Random::new(stream),
            start: Host::usual_start(),
            manner: Anything,
            left: 0,
            planned: VecDeque::new(),
            window: 0,
        }
    }

    /// Whether the next call begins a new sequence.
    pub fn at_end(&self) -> bool {
        self.left == 0
    }

    /// Leaves at most this many calls in the sequence.
    pub fn at_most(&mut self, left: u64) {
        self.left = self.left.min(left);
    }

    /// Goes on with this many calls of any kind, after such a start.
    pub fn go_on(&mut self, start: Start, left: u64) {
        self.start = start;
        self.manner = Anything;
        self.planned.clear();
        self.left = left;
    }

    /// The call to be made in this state; the first is a start.
    pub fn next(&mut self, state: &State) -> Call {
        if self.left == 0 {
            return self.start();
        }
        self.left -= 1;
        if self.planned.is_empty() {
            self.plan(state);
        }
        let number = self.planned.pop_front().unwrap();
        // An event needs a record that isn't earlier than the last moment.
        if number == EVENT && state[EVENT_TIME] < state[LAST_MOMENT] {
            self.planned.push_front(EVENT);
            return self.make(SET_RECORD, state);
        }
        self.make(number, state)
    }

    fn start(&mut self) -> Call {
        let random = &mut self.random;
        self.planned.clear();
        self.manner = random.pick(&[
            Anything, Anything, Anything, Rounds, Rounds, Rounds, Reductions, Reductions,
        ]);
        self.left = match self.manner {
            Anything => 20 + random.below(25),
            Rounds => 30 + random.below(40),
            Reductions => 12 + random.below(28),
        };
        self.window = match self.manner {
            Rounds => 1300 * (2 + random.below(60)),
            _ => random.pick(&[
                1300,
                1301,
                10,
                26_000,
                14_744_309,
                (1 << 24) - 1,
                1 << 24,
                16_777_219,
                16_777_223,
                BYTES,
            ]),
        };
        if self.manner == Reductions && random.one_in(2) {
            self.window = random.of_length(24);
        }

        let usual = Host::usual_start();
        self.start = Start {
            moment: match random.below(8) {
                0 => random.pick(&[1, MOMENT - LENGTH, MOMENT - 1_000_000, MOMENT]),
                1 => random.of_length(60),
                2..=4 => 0,
                _ => random.of_length(20),
            },
            initial_rtt: match random.below(6) {
                0 => random.pick(&[0, 1, LENGTH - 1, LENGTH]),
                1 => random.of_length(36),
                2 => 333_000_000,
                _ => usual.initial_rtt,
            },
            beta: match random.below(10) {
                0..=2 => 0.3,
                3 => LEAST_GAIN,
                4 => MOST_BETA,
                5 => 0.5,
                6 => f32::from_bits(0x3f2a_aaab), // 2/3
                _ => between(random, LEAST_GAIN, MOST_BETA),
            },
            loss_threshold: unit(random, usual.loss_threshold),
            headroom: unit(random, usual.headroom),
            full_bw_threshold: match random.below(6) {
                0 => 1.0,
                1 => 8.0,
                2 => between(random, 1.0, 8.0),
                3 => f32::from_bits(bits(1.0) + 1),
                _ => usual.full_bw_threshold,
            },
            cwnd_gain: gain(random),
            pacing_gain: gain(random),
            full_bw_rounds: random.pick(&[0, 1, 2, 3, 3, u64::MAX]),
            queue_rounds: random.pick(&[0, 0, 1, 2, 3, u64::MAX]),
            probe_rtt_period: match random.below(8) {
                0 | 1 => 0,
                2 => 1,
                3 => LENGTH,
                4 | 5 => random.of_length(24),
                _ => usual.probe_rtt_period,
            },
            probe_base_duration: match random.below(6) {
                0 => 0,
                1 => LENGTH,
                2 => random.of_length(36),
                _ => usual.probe_base_duration,
            },
            ignore_app_limited: random.one_in(2),
        };
        Call::Start(self.start)
    }

    fn plan(&mut self, state: &State) {
        let random = &mut self.random;
        let mut plan = Vec::new();
        match self.manner {
            Anything => {
                let turn = random.below(20);
                // Only what was sent since a round began ends it.
                if turn < 5 && random.one_in(2) {
                    plan.push(call::ON_PACKET_SENT);
                }
                match turn {
                    0 | 1 => plan.extend([SET_RECORD, EVENT, FINISH]),
                    2 => plan.extend([SET_RECORD, EVENT]),
                    3 => plan.extend([EVENT, FINISH]),
                    4 => plan.extend([EVENT]),
                    5 => plan.extend([SET_RECORD, call::MAYBE_EXPIRE_MIN_RTT]),
                    6 => plan.extend([SET_RECORD, call::IS_INFLIGHT_TOO_HIGH]),
                    7 => plan.extend([SET_RECORD, call::HAS_BANDWIDTH_GROWTH]),
                    8 | 9 => plan.push(call::ON_PACKET_SENT),
                    10 | 11 => plan.push(random.pick(&ENTRIES)),
                    12 => plan.push(random.pick(&Getter::ALL) as u64),
                    13 => plan.push(random.pick(&QUESTIONS)),
                    _ => plan.push(random.pick(&CHANGES)),
                }
            }
            Rounds => {
                plan.resize(random.below(3) as usize, call::ON_PACKET_SENT);
                plan.extend([SET_RECORD, EVENT]);
                if random.one_in(3) {
                    plan.push(random.pick(&[
                        call::MAYBE_EXPIRE_MIN_RTT,
                        call::IS_INFLIGHT_TOO_HIGH,
                        call::IS_INFLIGHT_TOO_HIGH,
                        call::HAS_BANDWIDTH_GROWTH,
                        call::HAS_BANDWIDTH_GROWTH,
                        call::CHECK_PERSISTENT_QUEUE,
                    ]));
                }
                if random.one_in(5) {
                    plan.push(random.pick(&[
                        call::BDP,
                        call::BDP1,
                        call::BDP0,
                        call::INFLIGHT_HI_WITH_HEADROOM,
                        call::SET_PACING_GAIN,
                        call::SET_CWND_GAIN,
                        call::SET_INFLIGHT_HI,
                        call::CAP_INFLIGHT_LO,
                        call::POSTPONE_MIN_RTT_TIMESTAMP,
                    ]));
                }
                if !random.one_in(8) {
                    plan.push(FINISH);
                }
                if random.one_in(4) {
                    // The next phase, mostly.
                    plan.push(match state[PHASE] {
                        _ if random.one_in(6) => random.pick(&ENTRIES),
                        phase::UP => call::ENTER_PROBE_DOWN,
                        phase::DOWN => {
                            random.pick(&[call::ENTER_PROBE_CRUISE, call::ENTER_PROBE_REFILL])
                        }
                        phase::CRUISE => call::ENTER_PROBE_REFILL,
                        phase::REFILL => call::ENTER_PROBE_UP,
                        _ => call::ENTER_PROBE_DOWN,
                    });
                }
                if random.one_in(4) {
                    plan.push(random.pick(&Getter::ALL) as u64);
                }
            }
            Reductions => {
                if !random.one_in(8) {
                    plan.push(call::ON_PACKET_SENT);
                }
                plan.extend([SET_RECORD, EVENT]);
                if random.one_in(2) {
                    plan.push(FINISH);
                }
                if random.one_in(6) {
                    plan.push(random.pick(&[
                        call::SET_INFLIGHT_HI,
                        call::CAP_INFLIGHT_LO,
                        call::CAP_INFLIGHT_LO,
                        call::CLEAR_INFLIGHT_LO,
                        call::CLEAR_BANDWIDTH_LO,
                        call::ENTER_PROBE_CRUISE,
                        call::ENTER_PROBE_REFILL,
                    ]));
                }
                if random.one_in(5) {
                    plan.push(random.pick(&[call::BANDWIDTH_ESTIMATE, call::INFLIGHT_LO]));
                }
            }
        }
        self.planned.extend(plan);
    }

    /// The call of this number, with arguments.
    pub fn make(&mut self, number: u64, state: &State) -> Call {
        match number {
            call::ON_PACKET_SENT => self.sent(state),
            SET_RECORD => Call::Record(self.record(state)),
            EVENT => Call::Event(self.sample(state)),
            FINISH => Call::Finish,
            call::MAYBE_EXPIRE_MIN_RTT => Call::ExpireMinRtt,
            call::IS_INFLIGHT_TOO_HIGH => {
                let events = state[LOSS_EVENTS_IN_ROUND];
                let random = &mut self.random;
                Call::InflightTooHigh {
                    max_loss_events: match random.below(8) {
                        0 => 0,
                        1 => events.saturating_add(1),
                        2 => events.saturating_sub(1),
                        3 => random.pick(&[1, 2, 8, u64::MAX]),
                        _ => events,
                    },
                }
            }
            call::HAS_BANDWIDTH_GROWTH => Call::BandwidthGrowth,
            call::RESTART_ROUND_EARLY => Call::RestartRound,
            call::CHECK_PERSISTENT_QUEUE => Call::PersistentQueue { gain: self.gain() },
            call::BDP => Call::Bdp {
                bandwidth: self.bandwidth(state),
                gain: self.gain(),
            },
            call::BDP1 => Call::Bdp1 {
                bandwidth: self.bandwidth(state),
            },
            call::BDP0 => Call::Bdp0,
            call::INFLIGHT_HI_WITH_HEADROOM => Call::WithHeadroom,
            call::SET_FULL_BANDWIDTH_REACHED => Call::SetFullReached,
            call::SET_PACING_GAIN => Call::SetPacingGain(self.gain()),
            call::SET_CWND_GAIN => Call::SetCwndGain(self.gain()),
            call::SET_INFLIGHT_HI => Call::SetInflightHi(self.bound(state)),
            call::CAP_INFLIGHT_LO => Call::CapInflightLo(self.bound(state)),
            call::CLEAR_INFLIGHT_LO => Call::ClearInflightLo,
            call::CLEAR_BANDWIDTH_LO => Call::ClearBandwidthLo,
            call::ADVANCE_MAX_BANDWIDTH_FILTER => Call::AdvanceMaxBandwidth,
            call::POSTPONE_MIN_RTT_TIMESTAMP => {
                let most = LENGTH.min(MOMENT - state[MIN_RTT_TIMESTAMP]);
                let random = &mut self.random;
                let length = match random.below(6) {
                    0 => random.pick(&[0, 1]),
                    1 => most,
                    2 => random.of_length(36),
                    _ => random.of_length(24),
                };
                Call::PostponeMinRtt(length.min(most))
            }
            call::ENTER_PROBE_DOWN => Call::ProbeDown {
                too_high: self.random.one_in(2),
                risky: self.random.one_in(2),
                moment: self.moment(state),
            },
            call::ENTER_PROBE_CRUISE => Call::ProbeCruise {
                moment: self.moment(state),
            },
            call::ENTER_PROBE_REFILL => Call::ProbeRefill {
                rounds: match self.random.below(4) {
                    0 => self.random.below(UP_ROUNDS + 1),
                    1 => self.random.pick(&[1, 2, UP_ROUNDS - 1, UP_ROUNDS]),
                    2 => state[PROBE_UP_ROUNDS],
                    _ => 0,
                },
                moment: self.moment(state),
            },
            call::ENTER_PROBE_UP => Call::ProbeUp {
                moment: self.moment(state),
                cwnd: self.slope_window(state),
            },
            call::EXIT_PROBE_DOWN => Call::ExitProbeDown,
            call::RAISE_INFLIGHT_HIGH_SLOPE => Call::RaiseSlope {
                cwnd: self.slope_window(state),
            },
            number => Call::Get(Getter::of(number).expect("no call has the number")),
        }
    }

    fn sent(&mut self, state: &State) -> Call {
        let moment = self.moment(state);
        let random = &mut self.random;
        let any = self.manner == Anything;
        let bytes = match random.below(8) {
            0 if any => random.pick(&TURNS),
            1 if any => random.of_length(40),
            2 => random.below(1301),
            _ => 1300,
        };

        // At inflight_hi, at the least of this round, or at the bytes at
        // which a queue begins.
        let hi = state[INFLIGHT_HI];
        let queue = bdp(state) + 2600;
        let in_flight = match random.below(10) {
            0 | 1 if hi != UNSET => near(random, hi.saturating_sub(bytes)),
            2..=4 => near(random, queue),
            5 if state[MIN_IN_FLIGHT] != UNSET => near(random, state[MIN_IN_FLIGHT]),
            6 if any => random.pick(&TURNS),
            7 if any => random.of_length(40),
            _ => random.below(self.window + 1),
        };

        let last = state[LAST_SENT];
        let first = state[ANYTHING_SENT] == 0;
        let number = match random.below(32) {
            0 if any => random.pick(&[0, u64::MAX, last]),
            1 if any => random.of_length(64),
            // Numbers may go down.
            2 | 3 if any || random.one_in(4) => last.saturating_sub(1 + random.below(4)),
            4..=7 => last.saturating_add(1 + random.below(4)),
            _ if first && random.one_in(2) => 0,
            _ => last.saturating_add(1),
        };
        Call::Sent {
            moment,
            in_flight: in_flight.min(BYTES),
            number,
            bytes,
        }
    }

    fn record(&mut self, state: &State) -> Record {
        // Only an event needs a moment that doesn't fall.
        let expiry = self.planned.front() == Some(&call::MAYBE_EXPIRE_MIN_RTT);
        let event_time = if expiry || (self.manner == Anything && self.random.one_in(8)) {
            let random = &mut self.random;
            let due = state[MIN_RTT_TIMESTAMP] + self.start.probe_rtt_period;
            match random.below(6) {
                0 => random.of_length(62),
                1 => near(random, state[MIN_RTT_TIMESTAMP]),
                2 => due,
                _ => near(random, due),
            }
            .min(MOMENT)
        } else {
            self.moment(state)
        };

        let window = match self.manner {
            Anything => self.bytes(&[state[INFLIGHT_LO], state[PRIOR_IN_FLIGHT]]),
            Rounds => {
                let step = 1300 * self.random.below(4);
                self.window = match self.random.below(3) {
                    0 => self.window.saturating_sub(step).max(2600),
                    _ => self.window + step,
                };
                self.window
            }
            Reductions => self.window,
        };
        let random = &mut self.random;
        let prior_in_flight = match random.below(6) {
            0 => near(random, window),
            1 => window,
            2 if self.manner == Anything => random.pick(&TURNS),
            _ => random.below(window + 1),
        };
        let mut record = Record {
            event_time,
            prior_cwnd: window,
            prior_in_flight: prior_in_flight.min(BYTES),
            probing: match self.manner {
                Anything => random.one_in(3),
                Rounds => matches!(state[PHASE], phase::UP | phase::REFILL),
                Reductions => random.one_in(12),
            },
            ..Record::default()
        };

        // What only a later call reads, or an event that gives none.
        let later = !matches!(self.planned.front(), Some(&3));
        if self.manner == Anything && (later || random.one_in(3)) {
            let bandwidth = random.one_in(2).then(|| self.bandwidth(state));
            let rtt = match self.random.below(4) {
                0 if !expiry => None,
                _ => Some(self.rtt(state)),
            };
            record.send_state = self.send_state(state, state[TOTAL_ACKED], 5);
            let random = &mut self.random;
            if random.one_in(4) {
                record.bytes_in_flight = random.pick(&TURNS);
                record.bytes_acked = random.pick(&[1, 1300, TOTAL]);
                record.bytes_lost = random.pick(&[0, 1, 1300, TOTAL]);
            }
            record.round_ended = random.one_in(2);
            record.bandwidth = bandwidth;
            record.rtt = rtt;
        }
        record
    }

    fn sample(&mut self, state: &State) -> Sample {
        let reductions = self.manner == Reductions;

        let total = |random: &mut Random, total: u64, none: bool| {
            let more = match random.below(10) {
                _ if none => 0,
                0 => 1,
                1 => random.of_length(40),
                2 if random.one_in(8) => TOTAL,
                3 => random.below(1301),
                _ => 1300 * (1 + random.below(8)),
            };
            (total + more).min(TOTAL)
        };
        let acked_none = self.random.one_in(4);
        let total_acked = total(&mut self.random, state[TOTAL_ACKED], acked_none);
        let lost_none = if reductions {
            self.random.one_in(4)
        } else {
            !self.random.one_in(3)
        };
        let total_lost = total(&mut self.random, state[TOTAL_LOST], lost_none);

        // What reductions are made of: a maximum, then lower samples.
        let latest = state[BANDWIDTH_LATEST];
        let bandwidth = match self.random.below(4) {
            0 => None,
            _ if reductions && latest > 0 => match self.random.below(4) {
                0 => Some(self.random.below(latest)),
                1 => Some(0),
                _ => None,
            },
            _ => Some(self.bandwidth(state)),
        };
        let send_rate = self.random.one_in(3).then(|| self.bandwidth(state));
        let ack_rate = self.random.one_in(3).then(|| self.bandwidth(state));
        let rtt = match self.random.below(3) {
            _ if reductions => None,
            0 => None,
            _ => Some(self.rtt(state)),
        };
        let max_inflight = match self.random.below(4) {
            _ if reductions && !self.random.one_in(6) => 0,
            0 => 0,
            _ => self.bytes(&[state[INFLIGHT_LATEST], state[INFLIGHT_LO]]),
        };
        let send_state = self.send_state(state, total_acked, if reductions { 2 } else { 3 });

        let acked_length = match self.random.below(6) {
            _ if state[ANYTHING_SENT] == 0 => 0,
            0 if !reductions => 0,
            1 | 2 => 2,
            3 | 4 => MOST_ACKED,
            _ => 1,
        };
        let mut acked = [0; MOST_ACKED];
        self.acked(&mut acked[..acked_length], state);

        let random = &mut self.random;
        Sample {
            bandwidth,
            send_rate,
            ack_rate,
            app_limited: random.one_in(3),
            rtt,
            max_inflight,
            extra_acked: match random.below(6) {
                0 => 1,
                1 => random.pick(&TURNS),
                _ => 0,
            },
            send_state,
            total_acked,
            total_lost,
            acked_length,
            acked,
        }
    }

    /// Makes acked numbers that were sent, in any order: the greatest may stand
    /// anywhere.
    fn acked(&mut self, acked: &mut [u64], state: &State) {
        let random = &mut self.random;
        let sent = state[LAST_SENT];
        let (end, past) = around_end(state);
        for number in &mut *acked {
            *number = match random.below(6) {
                0 => end,
                1 | 2 => past,
                3 => end.saturating_sub(1),
                4 if self.manner == Anything => random.of_length(64).min(sent),
                _ => sent,
            };
        }
        if acked.is_empty() {
            return;
        }
        let place = random.below(acked.len() as u64) as usize;
        match random.below(8) {
            // None past the end, or only one.
            0 | 1 => acked.iter_mut().for_each(|it| *it = end.min(*it)),
            2 | 3 => {
                acked.iter_mut().for_each(|it| *it = end.min(*it));
                acked[place] = past;
            }
            4 => acked.sort_by(|a, b| b.cmp(a)),
            // The same number again.
            5 => acked[place] = acked[0],
            6 => acked.fill(acked[place]),
            _ => {}
        }
        if self.manner == Reductions && !random.one_in(12) {
            acked[place] = past;
        }
    }

    /// Valid in all but one of `valid` cases; one that isn't valid may hold
    /// numbers too.
    fn send_state(&mut self, state: &State, total: u64, valid: u64) -> SendState {
        let random = &mut self.random;
        let valid = !random.one_in(valid);
        if !valid && random.one_in(2) {
            return SendState::default();
        }
        // An inflight of which the bytes lost in the round, or one byte fewer,
        // are the bearable part.
        let lost = state[BYTES_LOST_IN_ROUND];
        let lost = lost.saturating_sub(random.below(2));
        let tie = (lost as f64 / self.start.loss_threshold as f64).ceil() as u64;
        SendState {
            valid,
            app_limited: random.one_in(3),
            total_acked: match random.below(6) {
                0 => 0,
                1 => near(random, total),
                2 => state[TOTAL_ACKED],
                _ => total.saturating_sub(1300 * random.below(20)),
            }
            .min(TOTAL),
            bytes_in_flight: match random.below(6) {
                0 => random.pick(&TURNS),
                1..=3 => near(random, tie),
                _ => random.below(self.window + 1),
            }
            .min(BYTES),
        }
    }

    fn moment(&mut self, state: &State) -> u64 {
        let random = &mut self.random;
        let last = state[LAST_MOMENT];
        let due = state[MIN_RTT_TIMESTAMP] + self.start.probe_rtt_period;
        let moment = match random.below(12) {
            0 | 1 => last,
            2 => last + 1,
            3 => near(random, due),
            4 => last + random.of_length(36),
            5 if random.one_in(12) => MOMENT,
            _ => last + random.of_length(24),
        };
        moment.clamp(last, MOMENT)
    }

    fn bandwidth(&mut self, state: &State) -> u64 {
        let random = &mut self.random;
        let most = state[SLOT_0].max(state[SLOT_1]);
        let threshold = self.start.full_bw_threshold as f64;
        let growth = (state[BASELINE] as f64 * threshold).round() as u64;
        match random.below(12) {
            0 => state[SLOT_0],
            1 => near(random, most),
            2 => near(random, state[BANDWIDTH_LATEST]),
            3 => near(random, state[BANDWIDTH_LO]),
            4 => near(random, growth),
            5 => random.pick(&[0, 1, BANDWIDTH - 1, BANDWIDTH]),
            6 => random.of_length(40),
            _ => 1_000_000 + 1_000 * random.below(20_000),
        }
        .min(BANDWIDTH)
    }

    fn rtt(&mut self, state: &State) -> u64 {
        let random = &mut self.random;
        match random.below(8) {
            0 | 1 => near(random, state[MIN_RTT]),
            2 => random.pick(&[0, 1, LENGTH]),
            3 => random.of_length(36),
            _ => 10_000_000 + 1_000 * random.below(100_000),
        }
        .min(LENGTH)
    }

    fn bytes(&mut self, stored: &[u64]) -> u64 {
        let random = &mut self.random;
        let at = random.pick(stored);
        match random.below(8) {
            0..=2 if at != UNSET => near(random, at),
            3 | 4 => random.pick(&TURNS),
            5 => random.of_length(24),
            6 if self.manner == Anything => random.of_length(40),
            _ => random.below(self.window + 1),
        }
        .min(BYTES)
    }

    /// An inflight_hi or a cap, which may be unset.
    fn bound(&mut self, state: &State) -> u64 {
        if self.random.one_in(6) {
            return UNSET;
        }
        self.bytes(&[state[INFLIGHT_LO], state[INFLIGHT_HI]])
    }

    fn slope_window(&mut self, state: &State) -> u64 {
        let random = &mut self.random;
        // Where the quotient reaches 1300.
        let turn = 1300u64 << state[PROBE_UP_ROUNDS];
        match random.below(5) {
            0 => random.pick(&TURNS),
            1 | 2 => near(random, turn),
            3 => random.of_length(40),
            _ => self.window,
        }
        .min(BYTES)
    }

    fn gain(&mut self) -> f32 {
        gain(&mut self.random)
    }
}

/// The end of the state's round and the number past it, as far as such were sent.
pub fn around_end(state: &State) -> (u64, u64) {
    let (end, sent) = (state[END], state[LAST_SENT]);
    (end.min(sent), end.saturating_add(1).min(sent))
}

/// A number that was never sent, if there is one: above the last sent one, or any
/// before the first send.
pub fn unsent_number(random: &mut Random, state: &State) -> Option<u64> {
    let sent = state[LAST_SENT];
    if state[ANYTHING_SENT] == 0 {
        let any = random.of_length(64);
        return Some(random.pick(&[0, 0, 1, sent, state[END], any, any.min(sent), u64::MAX]));
    }
    let above = sent.checked_add(1)?;
    let number = match random.below(8) {
        0..=2 => above,
        3 => above.saturating_add(random.below(4)),
        4 => state[END].saturating_add(1),
        5 => u64::MAX,
        _ => random.of_length(64),
    };
    Some(number.max(above))
}

/// The number, one more or one less.
fn near(random: &mut Random, number: u64) -> u64 {
    match random.below(4) {
        0 => number.saturating_add(1),
        1 => number.saturating_sub(1),
        _ => number,
    }
}

fn between(random: &mut Random, least: f32, most: f32) -> f32 {
    let least = bits(least) as u64;
    f32::from_bits((least + random.below(bits(most) as u64 - least + 1)) as u32)
}

fn gain(random: &mut Random) -> f32 {
    match random.below(8) {
        0 => LEAST_GAIN,
        1 => MOST_GAIN,
        2 => f32::from_bits(random.gain()),
        3 => 2.773,
        4 => 1.25,
        5 => 0.9,
        6 => 1.0,
        _ => 2.0,
    }
}

/// A fraction from 0 to 1, negative zero too.
fn unit(random: &mut Random, usual: f32) -> f32 {
    match random.below(8) {
        0 => 0.0,
        1 => -0.0,
        2 => 1.0,
        3 => 0.5,
        4 => between(random, 1.0 / 1024.0, 1.0),
        5 => between(random, 0.0, 1.0),
        _ => usual,
    }
}

/// The bytes of the maximum bandwidth in the least round trip.
pub fn bdp(state: &State) -> u64 {
    let bits = state[SLOT_0].max(state[SLOT_1]) as u128 * state[MIN_RTT] as u128;
    (bits / 8_000_000_000) as u64
}
