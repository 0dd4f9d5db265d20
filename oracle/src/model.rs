//! Calls on a model and its cycle, and the state they leave, as plain numbers.
//! What answers them is `Host`, which is appended to probe_bw.rs of the
//! original, where it reaches what is private.

use guovssalu_sys::table::argument;
use guovssalu_sys::table::call;
use guovssalu_sys::table::event;
use guovssalu_sys::table::params;
use guovssalu_sys::table::sample;
use guovssalu_sys::table::ARGUMENTS_IN_CALL;
use guovssalu_sys::table::EVENT_WORDS;
use guovssalu_sys::table::MOST_ACKED;
use guovssalu_sys::table::PARAMS_WORDS;
use guovssalu_sys::table::STATE_WORDS;

/// The fields in the order of README.md: the model, the last accepted moment and
/// whether anything was sent, the cycle, the record of the current event.
pub type State = [u64; FIELDS];

/// How many there are.
pub const FIELDS: usize = STATE_WORDS + EVENT_WORDS;

/// The number, no call's, of the step that sets the current record.
pub const SET_RECORD: u64 = 2;

/// Places in a `State`.
pub mod field {
    use guovssalu_sys::table::event;
    use guovssalu_sys::table::state;
    use guovssalu_sys::table::STATE_WORDS;

    pub const ROUND_TRIP_COUNT: usize = state::ROUND_TRIP_COUNT;
    pub const LAST_SENT: usize = state::LAST_SENT_PACKET;
    pub const END_SET: usize = state::END_OF_ROUND_TRIP_SET;
    pub const END: usize = state::END_OF_ROUND_TRIP;
    pub const SLOT_0: usize = state::MAX_BANDWIDTH_0;
    pub const SLOT_1: usize = state::MAX_BANDWIDTH_1;
    pub const MIN_RTT: usize = state::MIN_RTT;
    pub const MIN_RTT_TIMESTAMP: usize = state::MIN_RTT_TIMESTAMP;
    pub const BYTES_LOST_IN_ROUND: usize = state::BYTES_LOST_IN_ROUND;
    pub const LOSS_EVENTS_IN_ROUND: usize = state::LOSS_EVENTS_IN_ROUND;
    pub const MAX_DELIVERED: usize = state::MAX_BYTES_DELIVERED_IN_ROUND;
    pub const MIN_IN_FLIGHT: usize = state::MIN_BYTES_IN_FLIGHT_IN_ROUND;
    pub const LIMITED_IN_ROUND: usize = state::INFLIGHT_HI_LIMITED_IN_ROUND;
    pub const BANDWIDTH_LATEST: usize = state::BANDWIDTH_LATEST;
    pub const INFLIGHT_LATEST: usize = state::INFLIGHT_LATEST;
    pub const BANDWIDTH_LO_SET: usize = state::BANDWIDTH_LO_SET;
    pub const BANDWIDTH_LO: usize = state::BANDWIDTH_LO;
    pub const INFLIGHT_LO: usize = state::INFLIGHT_LO;
    pub const INFLIGHT_HI: usize = state::INFLIGHT_HI;
    pub const CWND_GAIN: usize = state::CWND_GAIN;
    pub const PACING_GAIN: usize = state::PACING_GAIN;
    pub const CWND_LIMITED: usize = state::CWND_LIMITED_BEFORE_AGGREGATION_EPOCH;
    pub const FULL_REACHED: usize = state::FULL_BANDWIDTH_REACHED;
    pub const BASELINE: usize = state::FULL_BANDWIDTH_BASELINE;
    pub const ROUNDS_WITHOUT_GROWTH: usize = state::ROUNDS_WITHOUT_BANDWIDTH_GROWTH;
    pub const ROUNDS_WITH_QUEUEING: usize = state::ROUNDS_WITH_QUEUEING;
    pub const IGNORE_APP_LIMITED: usize = state::IGNORE_APP_LIMITED_FOR_NO_BANDWIDTH_GROWTH;
    pub const SEND_RATE_SET: usize = state::LATEST_SEND_RATE_SET;
    pub const SEND_RATE: usize = state::LATEST_SEND_RATE;
    pub const ACK_RATE_SET: usize = state::LATEST_ACK_RATE_SET;
    pub const ACK_RATE: usize = state::LATEST_ACK_RATE;
    pub const TOTAL_ACKED: usize = state::TOTAL_BYTES_ACKED;
    pub const TOTAL_LOST: usize = state::TOTAL_BYTES_LOST;
    pub const LAST_MOMENT: usize = state::LAST_ACCEPTED_MOMENT;
    pub const ANYTHING_SENT: usize = state::ANYTHING_SENT;
    pub const PHASE: usize = state::PHASE;
    pub const CYCLE_START: usize = state::START_TIME;
    pub const PHASE_START: usize = state::PHASE_START_TIME;
    pub const ROUNDS_IN_PHASE: usize = state::ROUNDS_IN_PHASE;
    pub const ROUNDS_SINCE_PROBE: usize = state::ROUNDS_SINCE_PROBE;
    pub const PROBE_WAIT_SET: usize = state::PROBE_WAIT_TIME_SET;
    pub const PROBE_WAIT: usize = state::PROBE_WAIT_TIME;
    pub const PROBE_UP_ROUNDS: usize = state::PROBE_UP_ROUNDS;
    pub const PROBE_UP_BYTES_SET: usize = state::PROBE_UP_BYTES_SET;
    pub const PROBE_UP_BYTES: usize = state::PROBE_UP_BYTES;
    pub const PROBE_UP_ACKED: usize = state::PROBE_UP_ACKED;
    pub const UP_APP_LIMITED: usize = state::PROBE_UP_APP_LIMITED_SINCE_INFLIGHT_HI_LIMITED;
    pub const HAS_ADVANCED: usize = state::HAS_ADVANCED_MAX_BW;
    pub const FROM_PROBING: usize = state::IS_SAMPLE_FROM_PROBING;
    pub const PROBED_TOO_HIGH: usize = state::LAST_CYCLE_PROBED_TOO_HIGH;
    pub const STOPPED_RISKY: usize = state::LAST_CYCLE_STOPPED_RISKY_PROBE;
    pub const EVENT_TIME: usize = STATE_WORDS + event::EVENT_TIME;
    pub const PRIOR_CWND: usize = STATE_WORDS + event::PRIOR_CWND;
    pub const PRIOR_IN_FLIGHT: usize = STATE_WORDS + event::PRIOR_BYTES_IN_FLIGHT;
    pub const BYTES_LOST: usize = STATE_WORDS + event::BYTES_LOST;
    pub const ROUND_ENDED: usize = STATE_WORDS + event::END_OF_ROUND_TRIP;
    pub const PROBING: usize = STATE_WORDS + event::IS_PROBING_FOR_BANDWIDTH;
    pub const SAMPLE_SET: usize = STATE_WORDS + event::SAMPLE_MAX_BANDWIDTH_SET;
    pub const SAMPLE: usize = STATE_WORDS + event::SAMPLE_MAX_BANDWIDTH;
    pub const RTT_SET: usize = STATE_WORDS + event::SAMPLE_MIN_RTT_SET;
    pub const RTT: usize = STATE_WORDS + event::SAMPLE_MIN_RTT;
    pub const STATE_VALID: usize = STATE_WORDS + event::LAST_PACKET_SEND_STATE_IS_VALID;
    pub const STATE_APP_LIMITED: usize = STATE_WORDS + event::LAST_PACKET_SEND_STATE_IS_APP_LIMITED;
    pub const STATE_ACKED: usize = STATE_WORDS + event::LAST_PACKET_SEND_STATE_TOTAL_BYTES_ACKED;
    pub const STATE_IN_FLIGHT: usize = STATE_WORDS + event::LAST_PACKET_SEND_STATE_BYTES_IN_FLIGHT;
}

/// The start of a sequence, with its parameters. Times are nanoseconds.
#[derive(Clone, Copy, Debug)]
pub struct Start {
    pub moment: u64,
    pub initial_rtt: u64,
    pub beta: f32,
    pub loss_threshold: f32,
    pub headroom: f32,
    pub full_bw_threshold: f32,
    pub cwnd_gain: f32,
    pub pacing_gain: f32,
    pub full_bw_rounds: u64,
    pub queue_rounds: u64,
    pub probe_rtt_period: u64,
    pub probe_base_duration: u64,
    pub ignore_app_limited: bool,
}

/// The send state of an event's last packet.
#[derive(Clone, Copy, Debug, Default)]
pub struct SendState {
    pub valid: bool,
    pub app_limited: bool,
    pub total_acked: u64,
    pub bytes_in_flight: u64,
}

/// The record of an event, as it is handed to a call.
#[derive(Clone, Copy, Debug, Default)]
pub struct Record {
    pub event_time: u64,
    pub prior_cwnd: u64,
    pub prior_in_flight: u64,
    pub bytes_in_flight: u64,
    pub bytes_acked: u64,
    pub bytes_lost: u64,
    pub round_ended: bool,
    pub probing: bool,
    pub bandwidth: Option<u64>,
    pub rtt: Option<u64>,
    pub send_state: SendState,
}

/// What the sampler answers to an event, the totals after the event, and the
/// slice of acked numbers, as they came: the first `acked_length` of `acked`.
#[derive(Clone, Copy, Debug, Default)]
pub struct Sample {
    pub bandwidth: Option<u64>,
    pub send_rate: Option<u64>,
    pub ack_rate: Option<u64>,
    pub app_limited: bool,
    pub rtt: Option<u64>,
    pub max_inflight: u64,
    pub extra_acked: u64,
    pub send_state: SendState,
    pub total_acked: u64,
    pub total_lost: u64,
    pub acked_length: usize,
    pub acked: [u64; MOST_ACKED],
}

/// Calls that only answer, with their numbers.
#[derive(Clone, Copy, Debug, PartialEq)]
pub enum Getter {
    BandwidthEstimate = call::BANDWIDTH_ESTIMATE as isize,
    MinRtt = call::MIN_RTT as isize,
    MinRttTimestamp = call::MIN_RTT_TIMESTAMP as isize,
    MaxBandwidth = call::MAX_BANDWIDTH as isize,
    MaxBytesDelivered = call::MAX_BYTES_DELIVERED_IN_ROUND as isize,
    TotalAcked = call::TOTAL_BYTES_ACKED as isize,
    TotalLost = call::TOTAL_BYTES_LOST as isize,
    FullBandwidthReached = call::FULL_BANDWIDTH_REACHED as isize,
    PacingGain = call::PACING_GAIN as isize,
    CwndGain = call::CWND_GAIN as isize,
    InflightHi = call::INFLIGHT_HI as isize,
    InflightHiDefault = call::INFLIGHT_HI_DEFAULT as isize,
    InflightLo = call::INFLIGHT_LO as isize,
    LossEvents = call::LOSS_EVENTS_IN_ROUND as isize,
    RoundsWithQueueing = call::ROUNDS_WITH_QUEUEING as isize,
    QueueingThreshold = call::QUEUEING_THRESHOLD_EXTRA_BYTES as isize,
}

impl Getter {
    pub const ALL: [Getter; 16] = [
        Getter::BandwidthEstimate,
        Getter::MinRtt,
        Getter::MinRttTimestamp,
        Getter::MaxBandwidth,
        Getter::MaxBytesDelivered,
        Getter::TotalAcked,
        Getter::TotalLost,
        Getter::FullBandwidthReached,
        Getter::PacingGain,
        Getter::CwndGain,
        Getter::InflightHi,
        Getter::InflightHiDefault,
        Getter::InflightLo,
        Getter::LossEvents,
        Getter::RoundsWithQueueing,
        Getter::QueueingThreshold,
    ];

    /// The one of this number.
    pub fn of(number: u64) -> Option<Getter> {
        let mut all = Getter::ALL.into_iter();
        all.find(|&getter| getter as u64 == number)
    }
}

#[derive(Clone, Copy, Debug)]
pub enum Call {
    Start(Start),
    Sent {
        moment: u64,
        in_flight: u64,
        number: u64,
        bytes: u64,
    },
    /// Sets the current record; the original isn't called.
    Record(Record),
    Event(Sample),
    Finish,
    ExpireMinRtt,
    InflightTooHigh {
        max_loss_events: u64,
    },
    BandwidthGrowth,
    RestartRound,
    PersistentQueue {
        gain: f32,
    },
    Bdp {
        bandwidth: u64,
        gain: f32,
    },
    Bdp1 {
        bandwidth: u64,
    },
    Bdp0,
    WithHeadroom,
    SetFullReached,
    SetPacingGain(f32),
    SetCwndGain(f32),
    SetInflightHi(u64),
    CapInflightLo(u64),
    ClearInflightLo,
    ClearBandwidthLo,
    AdvanceMaxBandwidth,
    PostponeMinRtt(u64),
    Get(Getter),
    ProbeDown {
        too_high: bool,
        risky: bool,
        moment: u64,
    },
    ProbeCruise {
        moment: u64,
    },
    ProbeRefill {
        rounds: u64,
        moment: u64,
    },
    ProbeUp {
        moment: u64,
        cwnd: u64,
    },
    ExitProbeDown,
    RaiseSlope {
        cwnd: u64,
    },
}

impl Start {
    /// The start with these parameters instead of its own.
    pub fn with_parameters(self, numbers: &[u64]) -> Start {
        Start {
            beta: to_float(numbers[params::BETA]),
            loss_threshold: to_float(numbers[params::LOSS_THRESHOLD]),
            headroom: to_float(numbers[params::INFLIGHT_HI_HEADROOM]),
            full_bw_threshold: to_float(numbers[params::FULL_BW_THRESHOLD]),
            cwnd_gain: to_float(numbers[params::STARTUP_CWND_GAIN]),
            pacing_gain: to_float(numbers[params::STARTUP_PACING_GAIN]),
            full_bw_rounds: numbers[params::STARTUP_FULL_BW_ROUNDS],
            queue_rounds: numbers[params::MAX_STARTUP_QUEUE_ROUNDS],
            probe_rtt_period: numbers[params::PROBE_RTT_PERIOD],
            probe_base_duration: numbers[params::PROBE_BW_PROBE_BASE_DURATION],
            ignore_app_limited: numbers[params::IGNORE_APP_LIMITED_FOR_NO_BANDWIDTH_GROWTH] == 1,
            ..self
        }
    }

    /// The parameters, as numbers.
    pub fn parameters(&self) -> [u64; PARAMS_WORDS] {
        let mut numbers = [0; PARAMS_WORDS];
        let option = params::IGNORE_APP_LIMITED_FOR_NO_BANDWIDTH_GROWTH;
        for (at, number) in [
            (params::BETA, float(self.beta)),
            (params::LOSS_THRESHOLD, float(self.loss_threshold)),
            (params::INFLIGHT_HI_HEADROOM, float(self.headroom)),
            (params::FULL_BW_THRESHOLD, float(self.full_bw_threshold)),
            (params::STARTUP_CWND_GAIN, float(self.cwnd_gain)),
            (params::STARTUP_PACING_GAIN, float(self.pacing_gain)),
            (params::STARTUP_FULL_BW_ROUNDS, self.full_bw_rounds),
            (params::MAX_STARTUP_QUEUE_ROUNDS, self.queue_rounds),
            (params::PROBE_RTT_PERIOD, self.probe_rtt_period),
            (
                params::PROBE_BW_PROBE_BASE_DURATION,
                self.probe_base_duration,
            ),
            (option, self.ignore_app_limited as u64),
        ] {
            numbers[at] = number;
        }
        numbers
    }
}

impl Record {
    /// The record of these numbers of a state.
    pub fn of(numbers: &[u64]) -> Record {
        Record {
            event_time: numbers[event::EVENT_TIME],
            prior_cwnd: numbers[event::PRIOR_CWND],
            prior_in_flight: numbers[event::PRIOR_BYTES_IN_FLIGHT],
            bytes_in_flight: numbers[event::BYTES_IN_FLIGHT],
            bytes_acked: numbers[event::BYTES_ACKED],
            bytes_lost: numbers[event::BYTES_LOST],
            round_ended: numbers[event::END_OF_ROUND_TRIP] == 1,
            probing: numbers[event::IS_PROBING_FOR_BANDWIDTH] == 1,
            bandwidth: to_option(&numbers[event::SAMPLE_MAX_BANDWIDTH_SET..]),
            rtt: to_option(&numbers[event::SAMPLE_MIN_RTT_SET..]),
            send_state: SendState::of(&numbers[event::LAST_PACKET_SEND_STATE_IS_VALID..]),
        }
    }

    /// The record's numbers in a state.
    pub fn numbers(&self) -> Vec<u64> {
        let mut numbers = vec![
            self.event_time,
            self.prior_cwnd,
            self.prior_in_flight,
            self.bytes_in_flight,
            self.bytes_acked,
            self.bytes_lost,
            self.round_ended as u64,
            self.probing as u64,
        ];
        numbers.extend(option(self.bandwidth));
        numbers.extend(option(self.rtt));
        numbers.extend(self.send_state.numbers());
        numbers
    }
}

impl Sample {
    /// The sampler's answer of an event's arguments, from the first on.
    pub fn of(arguments: &[u64]) -> Sample {
        let from = |at: usize| &arguments[at - ARGUMENTS_IN_CALL..];
        let number = |at: usize| from(at)[0];
        let mut acked = [0; MOST_ACKED];
        acked.copy_from_slice(&from(sample::ACKED_PACKETS)[..MOST_ACKED]);
        Sample {
            bandwidth: to_option(from(sample::SAMPLE_MAX_BANDWIDTH_SET)),
            send_rate: to_option(from(sample::SAMPLE_MAX_SEND_RATE_SET)),
            ack_rate: to_option(from(sample::SAMPLE_MAX_ACK_RATE_SET)),
            app_limited: number(sample::SAMPLE_IS_APP_LIMITED) == 1,
            rtt: to_option(from(sample::SAMPLE_RTT_SET)),
            max_inflight: number(sample::SAMPLE_MAX_INFLIGHT),
            extra_acked: number(sample::EXTRA_ACKED),
            send_state: SendState::of(from(sample::LAST_PACKET_SEND_STATE_IS_VALID)),
            total_acked: number(sample::TOTAL_BYTES_ACKED),
            total_lost: number(sample::TOTAL_BYTES_LOST),
            acked_length: number(sample::ACKED_COUNT).min(MOST_ACKED as u64) as usize,
            acked,
        }
    }

    /// The slice of acked numbers.
    pub fn acked(&self) -> &[u64] {
        &self.acked[..self.acked_length]
    }
}

impl Call {
    /// The call of this number with these arguments, of which there are
    /// enough; a start has the parameters of `start`. It is none for other
    /// numbers, and for the one that sets the record.
    pub fn of(number: u64, numbers: &[u64], start: &Start) -> Option<Call> {
        let given = |at: usize| numbers[at - ARGUMENTS_IN_CALL];
        Some(match number {
            call::START => Call::Start(Start {
                moment: given(argument::start::NOW),
                initial_rtt: given(argument::start::INITIAL_RTT),
                ..*start
            }),
            call::ON_PACKET_SENT => Call::Sent {
                moment: given(argument::on_packet_sent::SENT_TIME),
                in_flight: given(argument::on_packet_sent::BYTES_IN_FLIGHT),
                number: given(argument::on_packet_sent::PACKET_NUMBER),
                bytes: given(argument::on_packet_sent::BYTES),
            },
            call::ON_CONGESTION_EVENT_START => Call::Event(Sample::of(numbers)),
            call::ON_CONGESTION_EVENT_FINISH => Call::Finish,
            call::MAYBE_EXPIRE_MIN_RTT => Call::ExpireMinRtt,
            call::IS_INFLIGHT_TOO_HIGH => Call::InflightTooHigh {
                max_loss_events: given(argument::is_inflight_too_high::MAX_LOSS_EVENTS),
            },
            call::HAS_BANDWIDTH_GROWTH => Call::BandwidthGrowth,
            call::RESTART_ROUND_EARLY => Call::RestartRound,
            call::CHECK_PERSISTENT_QUEUE => Call::PersistentQueue {
                gain: to_float(given(argument::check_persistent_queue::TARGET_GAIN)),
            },
            call::BDP => Call::Bdp {
                bandwidth: given(argument::bdp::BANDWIDTH),
                gain: to_float(given(argument::bdp::GAIN)),
            },
            call::BDP1 => Call::Bdp1 {
                bandwidth: given(argument::bdp1::BANDWIDTH),
            },
            call::BDP0 => Call::Bdp0,
            call::INFLIGHT_HI_WITH_HEADROOM => Call::WithHeadroom,
            call::SET_FULL_BANDWIDTH_REACHED => Call::SetFullReached,
            call::SET_PACING_GAIN => {
                Call::SetPacingGain(to_float(given(argument::set_pacing_gain::PACING_GAIN)))
            }
            call::SET_CWND_GAIN => {
                Call::SetCwndGain(to_float(given(argument::set_cwnd_gain::CWND_GAIN)))
            }
            call::SET_INFLIGHT_HI => {
                Call::SetInflightHi(given(argument::set_inflight_hi::NEW_INFLIGHT_HI))
            }
            call::CAP_INFLIGHT_LO => Call::CapInflightLo(given(argument::cap_inflight_lo::CAP)),
            call::CLEAR_INFLIGHT_LO => Call::ClearInflightLo,
            call::CLEAR_BANDWIDTH_LO => Call::ClearBandwidthLo,
            call::ADVANCE_MAX_BANDWIDTH_FILTER => Call::AdvanceMaxBandwidth,
            call::POSTPONE_MIN_RTT_TIMESTAMP => {
                Call::PostponeMinRtt(given(argument::postpone_min_rtt_timestamp::DURATION))
            }
            call::ENTER_PROBE_DOWN => Call::ProbeDown {
                too_high: given(argument::enter_probe_down::PROBED_TOO_HIGH) == 1,
                risky: given(argument::enter_probe_down::STOPPED_RISKY_PROBE) == 1,
                moment: given(argument::enter_probe_down::NOW),
            },
            call::ENTER_PROBE_CRUISE => Call::ProbeCruise {
                moment: given(argument::enter_probe_cruise::NOW),
            },
            call::ENTER_PROBE_REFILL => Call::ProbeRefill {
                rounds: given(argument::enter_probe_refill::PROBE_UP_ROUNDS),
                moment: given(argument::enter_probe_refill::NOW),
            },
            call::ENTER_PROBE_UP => Call::ProbeUp {
                moment: given(argument::enter_probe_up::NOW),
                cwnd: given(argument::enter_probe_up::CWND),
            },
            call::EXIT_PROBE_DOWN => Call::ExitProbeDown,
            call::RAISE_INFLIGHT_HIGH_SLOPE => Call::RaiseSlope {
                cwnd: given(argument::raise_inflight_high_slope::CWND),
            },
            number => return Getter::of(number).map(Call::Get),
        })
    }
    /// The number of the call, then its arguments. The parameters of a start
    /// and the record stand with the state.
    pub fn numbers(&self) -> Vec<u64> {
        match *self {
            Call::Start(start) => vec![call::START, start.moment, start.initial_rtt],
            Call::Sent {
                moment,
                in_flight,
                number,
                bytes,
            } => vec![call::ON_PACKET_SENT, moment, in_flight, number, bytes],
            Call::Record(_) => vec![SET_RECORD],
            Call::Event(sample) => {
                let mut numbers = vec![call::ON_CONGESTION_EVENT_START];
                numbers.extend(option(sample.bandwidth));
                numbers.extend(option(sample.send_rate));
                numbers.extend(option(sample.ack_rate));
                numbers.push(sample.app_limited as u64);
                numbers.extend(option(sample.rtt));
                numbers.extend([sample.max_inflight, sample.extra_acked]);
                numbers.extend(sample.send_state.numbers());
                numbers.extend([sample.total_acked, sample.total_lost]);
                numbers.push(sample.acked_length as u64);
                numbers.extend(sample.acked);
                numbers
            }
            Call::Finish => vec![call::ON_CONGESTION_EVENT_FINISH],
            Call::ExpireMinRtt => vec![call::MAYBE_EXPIRE_MIN_RTT],
            Call::InflightTooHigh { max_loss_events } => {
                vec![call::IS_INFLIGHT_TOO_HIGH, max_loss_events]
            }
            Call::BandwidthGrowth => vec![call::HAS_BANDWIDTH_GROWTH],
            Call::RestartRound => vec![call::RESTART_ROUND_EARLY],
            Call::PersistentQueue { gain } => vec![call::CHECK_PERSISTENT_QUEUE, float(gain)],
            Call::Bdp { bandwidth, gain } => vec![call::BDP, bandwidth, float(gain)],
            Call::Bdp1 { bandwidth } => vec![call::BDP1, bandwidth],
            Call::Bdp0 => vec![call::BDP0],
            Call::WithHeadroom => vec![call::INFLIGHT_HI_WITH_HEADROOM],
            Call::SetFullReached => vec![call::SET_FULL_BANDWIDTH_REACHED],
            Call::SetPacingGain(gain) => vec![call::SET_PACING_GAIN, float(gain)],
            Call::SetCwndGain(gain) => vec![call::SET_CWND_GAIN, float(gain)],
            Call::SetInflightHi(bytes) => vec![call::SET_INFLIGHT_HI, bytes],
            Call::CapInflightLo(cap) => vec![call::CAP_INFLIGHT_LO, cap],
            Call::ClearInflightLo => vec![call::CLEAR_INFLIGHT_LO],
            Call::ClearBandwidthLo => vec![call::CLEAR_BANDWIDTH_LO],
            Call::AdvanceMaxBandwidth => vec![call::ADVANCE_MAX_BANDWIDTH_FILTER],
            Call::PostponeMinRtt(length) => vec![call::POSTPONE_MIN_RTT_TIMESTAMP, length],
            Call::Get(getter) => vec![getter as u64],
            Call::ProbeDown {
                too_high,
                risky,
                moment,
            } => vec![
                call::ENTER_PROBE_DOWN,
                too_high as u64,
                risky as u64,
                moment,
            ],
            Call::ProbeCruise { moment } => vec![call::ENTER_PROBE_CRUISE, moment],
            Call::ProbeRefill { rounds, moment } => vec![call::ENTER_PROBE_REFILL, rounds, moment],
            Call::ProbeUp { moment, cwnd } => vec![call::ENTER_PROBE_UP, moment, cwnd],
            Call::ExitProbeDown => vec![call::EXIT_PROBE_DOWN],
            Call::RaiseSlope { cwnd } => vec![call::RAISE_INFLIGHT_HIGH_SLOPE, cwnd],
        }
    }
}

impl SendState {
    fn of(numbers: &[u64]) -> SendState {
        let &[valid, app_limited, total_acked, bytes_in_flight, ..] = numbers else {
            panic!("a send state has four numbers");
        };
        SendState {
            valid: valid == 1,
            app_limited: app_limited == 1,
            total_acked,
            bytes_in_flight,
        }
    }

    fn numbers(&self) -> [u64; 4] {
        [
            self.valid as u64,
            self.app_limited as u64,
            self.total_acked,
            self.bytes_in_flight,
        ]
    }
}

/// Whether it is set, and the number, 0 where it isn't.
pub fn option(number: Option<u64>) -> [u64; 2] {
    [number.is_some() as u64, number.unwrap_or(0)]
}

fn float(number: f32) -> u64 {
    number.to_bits() as u64
}

/// The number, if the one before it says that it is set.
fn to_option(numbers: &[u64]) -> Option<u64> {
    (numbers[0] == 1).then_some(numbers[1])
}

fn to_float(bits: u64) -> f32 {
    f32::from_bits(bits as u32)
}
