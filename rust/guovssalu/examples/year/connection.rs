//! The connection: what is sent, acked and lost, and what the modes do with the model.

use guovssalu::table::call;
use guovssalu::Bandwidth;
use guovssalu::Call;
use guovssalu::CongestionEvent;
use guovssalu::Duration;
use guovssalu::Fault;
use guovssalu::FaultKind;
use guovssalu::Moment;
use guovssalu::NetworkModel;
use guovssalu::Params;
use guovssalu::Phase;
use guovssalu::Refusal;
use guovssalu::Sample;
use guovssalu::SendTimeState;

use crate::batch::Batch;
use crate::batch::Expected;
use crate::random::Random;
use crate::rules::Rules;
use crate::rules::Turn;
use crate::rules::MOST_BYTES;
use crate::tally::Tally;
use crate::trips::Trips;
use crate::weeks::week;

/// The smallest window, one packet.
const PACKET: u64 = 1300;

/// The window whose 19 cuts are known to lose the most (crates/drift/specs/Examples.antt).
const FARTHEST: u64 = 14_744_309;

/// From so many waiting calls on a round's end is the batch's. A round has room beyond it.
const FULL: usize = 128;

pub struct Connection {
    pub tally: Tally,
    pub batch: Batch,
    pub trips: Trips,
    pub now: u64,
    random: Random,
    rules: Rules,
    params: Params,
    phase: Phase,
    /// What the path bears in this burst.
    path: u64,
    /// What the application has in flight at most in this burst.
    most: u64,
    /// Of 1000 rounds of this burst so many lose packets.
    loss: u64,
    window: u64,
    in_flight: u64,
    /// The last packet acked.
    acked: u64,
    /// The last event's record.
    event: CongestionEvent,
}

/// Time passes.
impl Connection {
    /// A fresh connection at moment 0.
    pub fn new(seed: u64) -> Self {
        let mut connection = Connection {
            tally: Tally::new(),
            batch: Batch::new(),
            trips: Trips::new(seed).expect("the lengths are within their bounds"),
            now: 0,
            random: Random::new(seed),
            rules: Rules::new(),
            params: Params::default(),
            phase: Phase::NotStarted,
            path: 0,
            most: 0,
            loss: 0,
            window: PACKET,
            in_flight: 0,
            acked: 0,
            event: CongestionEvent::default(),
        };
        let initial_rtt = Duration::from_millis(100).as_nanos();
        connection.call_with_params(call::START, &[0, initial_rtt]);
        connection
    }

    /// A burst of uploads, not before a moment, on a path that may have changed.
    pub fn burst(&mut self, from: u64) -> Result<(), String> {
        self.now = self.now.max(from);
        let week = week(self.now);
        self.path = self.path_window();
        self.window = self.path.min(self.rules.inflight_hi).max(PACKET);
        self.most = if self.random.below(1000) < week.limited {
            self.random.sized(12)
        } else {
            self.path
        };
        self.loss = match self.random.below(8) {
            0 => 1000,
            1 => week.loss / 4,
            _ => week.loss,
        };
        let rounds = 8 + self.random.below(56);
        for _ in 0..rounds {
            self.round()?;
        }
        Ok(())
    }

    /// What a path bears: any size, now and then next to the largest, a single packet or the one that
    /// loses the most.
    fn path_window(&mut self) -> u64 {
        match self.random.below(16) {
            0 => MOST_BYTES - self.random.below(64),
            1 => PACKET,
            2 => FARTHEST,
            _ => self.random.sized(24).max(PACKET),
        }
    }

    /// A round: sends and events, of which the last ends it, and before one of them the modes' calls.
    fn round(&mut self) -> Result<(), String> {
        let loses = self.random.below(1000) < self.loss;
        let events = 1 + self.random.below(8);
        let modes_at = self.random.below(events);
        for at in 0..events {
            if at == modes_at {
                self.modes();
            }
            self.send();
            self.event(loses, at + 1 == events);
        }
        if self.batch.len() >= FULL {
            self.make()?;
        }
        Ok(())
    }

    /// Makes the calls that wait; then the window is held by what the model says.
    pub fn make(&mut self) -> Result<(), String> {
        self.batch.make(&self.rules, &mut self.tally)?;
        self.trips.make()?;
        let limit = self.batch.inflight_lo().min(self.rules.inflight_hi);
        self.window = self.path.min(limit).max(PACKET);
        Ok(())
    }

    /// Adds a call that has to be done.
    fn call(&mut self, number: u64, arguments: &[u64]) {
        self.batch
            .add(&Call::new(number, arguments), Expected::Done);
    }

    /// The same for a call that reads the last event's record and the parameters.
    fn call_with_params(&mut self, number: u64, arguments: &[u64]) {
        let call = Call::new(number, arguments).with_event(&self.event);
        self.batch
            .add(&call.with_params(&self.params), Expected::Done);
    }

    /// Asks for inflight_lo, which has to be near the exact value.
    fn look(&mut self) {
        let expected = Expected::InflightLo(self.rules.exact, self.now);
        self.batch.add(&Call::new(call::INFLIGHT_LO, &[]), expected);
    }
}

/// Sends and events.
impl Connection {
    /// Sends a train of packets that fits the window, or a small one.
    fn send(&mut self) {
        self.now += 1 + self.random.below(200_000);
        let room = self.window.min(self.most).saturating_sub(self.in_flight);
        let bytes = 1 + self.random.below(room.max(64));
        self.rules.last_sent_packet += 1;
        let packet = self.rules.last_sent_packet;
        self.call(
            call::ON_PACKET_SENT,
            &[self.now, self.in_flight, packet, bytes],
        );
        self.in_flight += bytes;
        self.tally.sends += 1;
    }

    /// An event and its finish; the last of a round that loses packets loses some at the latest.
    fn event(&mut self, loses: bool, ends: bool) {
        self.now += 1 + self.random.below(4_000_000);
        let due = ends && self.rules.bytes_lost_in_round == 0;
        let lost = loses && (due || self.random.one_in(4));
        let packet = self.packet_acked(ends);
        let sample = self.sample(packet.is_some(), lost);
        let mut event = self.record();
        let inflight = sample.sample_max_inflight;
        assert!(self.window <= MOST_BYTES && inflight <= MOST_BYTES);
        self.tally.event(self.window, inflight);
        self.trips.event(self.now);

        // In descending order: the packet, and the one before it.
        let acked = packet.map_or([0; 2], |packet| [packet, packet - 1]);
        let acked = &acked[..2 * packet.is_some() as usize];
        let call = Call::on_congestion_event_start(acked, &event, &sample, &self.params);
        self.batch.add(&call, Expected::Event);
        let turn = self.rules.start(acked, &mut event, &sample);
        let finish = Call::new(call::ON_CONGESTION_EVENT_FINISH, &[]).with_event(&event);
        self.batch.add(&finish, Expected::Done);
        self.rules.finish(&event);
        self.in_flight = event.bytes_in_flight;
        self.tally.rounds += event.end_of_round_trip as u64;
        self.event = event;
        if turn != Turn::Stays {
            self.tally.reduction(turn == Turn::Held);
            self.look();
        }
    }

    /// The packet that an event acks: of this round's the first, if it ends the round, otherwise the
    /// next one of the round before, if there is one left.
    fn packet_acked(&mut self, ends: bool) -> Option<u64> {
        let end = self.rules.end_of_round_trip.unwrap_or(0);
        let packet = if ends { end + 1 } else { self.acked + 1 };
        if !ends && packet > end {
            return None;
        }
        self.acked = packet;
        Some(packet)
    }

    /// The record of an event that is yet to be handed to the model.
    fn record(&self) -> CongestionEvent {
        let probes = matches!(self.phase, Phase::Refill | Phase::Up);
        let now = Moment::from_nanos(self.now);
        CongestionEvent::new(now, self.window, self.in_flight, probes)
    }

    /// What the sampler says to an event that acks packets or not, and loses some or not.
    fn sample(&mut self, acks: bool, loses: bool) -> Sample {
        let mut sample = Sample {
            total_bytes_acked: self.rules.total_bytes_acked,
            total_bytes_lost: self.rules.total_bytes_lost,
            ..Sample::default()
        };
        if loses {
            sample.total_bytes_lost += 1 + self.random.below(3 * PACKET);
        }
        if !acks {
            return sample;
        }
        let rate = Bandwidth::from_bits_per_second(self.random.sized(32));
        let missing = self.random.one_in(8);
        sample.sample_max_bandwidth = Some(rate).filter(|_| !missing);
        sample.sample_max_send_rate = Some(rate);
        sample.sample_max_ack_rate = sample.sample_max_bandwidth;
        sample.sample_is_app_limited = self.most < self.path;
        let round_trip = 20_000_000 + self.random.below(200_000_000);
        sample.sample_rtt = Some(Duration::from_nanos(round_trip));
        sample.sample_max_inflight = self.inflight_sample();
        sample.extra_acked = self.random.below(PACKET) * self.random.one_in(2) as u64;
        sample.last_packet_send_state = SendTimeState {
            is_valid: true,
            is_app_limited: sample.sample_is_app_limited,
            total_bytes_acked: sample.total_bytes_acked,
            bytes_in_flight: self.in_flight,
        };
        sample.total_bytes_acked += 1 + self.random.below(self.in_flight + 1);
        sample
    }

    /// What was in flight when the packet was sent: a part of what is now, or for a late ack more.
    fn inflight_sample(&mut self) -> u64 {
        if self.random.one_in(4 * week(self.now).late) {
            self.path_window()
        } else {
            self.random.below(self.in_flight + 1).min(MOST_BYTES)
        }
    }
}

/// What the modes do, once in a round.
impl Connection {
    /// Phase entries, caps, clears, limits and questions, each by its odds.
    fn modes(&mut self) {
        let week = week(self.now);
        let holds = week.phase == 0 && self.phase != Phase::Cruise;
        if holds || self.random.one_in(week.phase) {
            self.enter_next_phase();
        }
        if self.random.one_in(week.cap) {
            self.cap();
        }
        if self.random.one_in(week.clear) {
            self.call(call::CLEAR_INFLIGHT_LO, &[]);
            self.rules.exact.clear();
            self.tally.clears += 1;
            self.look();
        }
        if self.random.one_in(week.high) {
            self.set_inflight_hi();
        }
        if self.random.one_in(4) {
            self.other();
        }
        if self.tally.events > 0 && self.random.one_in(5_000) {
            self.refused();
        }
    }

    /// Enters the phase that follows: Down, Cruise, Refill, Up. Cruise caps, Refill clears.
    fn enter_next_phase(&mut self) {
        self.tally.entries += 1;
        match self.phase {
            Phase::NotStarted | Phase::Up => {
                let (high, risky) = (self.random.below(2), self.random.below(2));
                self.call_with_params(call::ENTER_PROBE_DOWN, &[high, risky, self.now]);
                self.rules.restart_round_early();
                self.phase = Phase::Down;
            }
            Phase::Down => {
                self.call(call::ENTER_PROBE_CRUISE, &[self.now]);
                self.rules.exact.cap(self.rules.inflight_hi);
                self.tally.caps += 1;
                self.phase = Phase::Cruise;
            }
            Phase::Cruise => {
                let rounds = self.random.below(31);
                self.call(call::ENTER_PROBE_REFILL, &[rounds, self.now]);
                self.rules.exact.clear();
                self.rules.restart_round_early();
                self.tally.clears += 1;
                self.phase = Phase::Refill;
            }
            Phase::Refill => {
                self.call(call::ENTER_PROBE_UP, &[self.now, self.window]);
                self.rules.restart_round_early();
                self.phase = Phase::Up;
            }
        }
        self.look();
    }

    /// Caps inflight_lo, now and then by more than it can be or by nothing.
    fn cap(&mut self) {
        let bytes = match self.random.below(20) {
            0 => NetworkModel::UNSET,
            1 => self.random.sized(40),
            _ => self.random.sized(24),
        };
        self.call(call::CAP_INFLIGHT_LO, &[bytes]);
        self.rules.exact.cap(bytes);
        self.tally.caps += 1;
        self.look();
    }

    /// Sets inflight_hi, or unsets it.
    fn set_inflight_hi(&mut self) {
        let bytes = match self.random.below(3) {
            0 => NetworkModel::UNSET,
            _ => self.random.sized(24),
        };
        self.call(call::SET_INFLIGHT_HI, &[bytes]);
        self.rules.inflight_hi = bytes;
    }

    /// One of the calls that leave inflight_lo alone.
    fn other(&mut self) {
        let number = self.random.below(8);
        let gain = u64::from((0.5 + number as f32 / 4.0).to_bits());
        match self.random.below(14) {
            0 | 1 => self.expire_min_rtt(),
            2 => self.call_with_params(call::IS_INFLIGHT_TOO_HIGH, &[number]),
            3 => self.call_with_params(call::HAS_BANDWIDTH_GROWTH, &[]),
            4 => self.call_with_params(call::CHECK_PERSISTENT_QUEUE, &[gain]),
            5 => self.call(call::SET_PACING_GAIN, &[gain]),
            6 => self.call(call::SET_CWND_GAIN, &[gain]),
            7 => self.call(call::CLEAR_BANDWIDTH_LO, &[]),
            8 => self.call(call::ADVANCE_MAX_BANDWIDTH_FILTER, &[]),
            9 => self.call(call::POSTPONE_MIN_RTT_TIMESTAMP, &[number * 100_000_001]),
            10 => self.call(call::EXIT_PROBE_DOWN, &[]),
            11 => self.call(call::RAISE_INFLIGHT_HIGH_SLOPE, &[self.window]),
            12 => self.call_with_params(call::INFLIGHT_HI_WITH_HEADROOM, &[]),
            _ => {
                self.call(call::RESTART_ROUND_EARLY, &[]);
                self.rules.restart_round_early();
            }
        }
    }

    /// Has the smallest round trip expire, if it is old.
    fn expire_min_rtt(&mut self) {
        let call = Call::new(call::MAYBE_EXPIRE_MIN_RTT, &[]).with_event(&self.event);
        self.batch
            .add(&call.with_params(&self.params), Expected::Expiry);
    }

    /// A call that is refused: a lossy event too early, with a lower total or with too large a window.
    /// Neither the model nor the exact value may move.
    fn refused(&mut self) {
        let mut event = self.record();
        let mut sample = self.sample(true, true);
        let refusal = match self.random.below(3) {
            0 => {
                event.event_time = Moment::from_nanos(0);
                Refusal::EarlierMoment
            }
            1 if self.rules.total_bytes_lost > 0 => {
                sample.total_bytes_lost = self.rules.total_bytes_lost - 1;
                Refusal::LowerTotal
            }
            _ => {
                event.prior_cwnd = (1 << 40) + 1;
                Refusal::BadArgument(Fault::new(FaultKind::Window, 2))
            }
        };
        let acked = [self.rules.last_sent_packet + 1];
        let call = Call::on_congestion_event_start(&acked, &event, &sample, &self.params);
        self.batch.add(&call, Expected::Refused(refusal));
        self.tally.refused += 1;
        self.look();
    }
}
