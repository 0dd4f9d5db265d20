//! The round trips of the connection: with each event a sample, and after each the averages beside their
//! exact values.

use guovssalu::table;
use guovssalu::table::rtt_answer;
use guovssalu::table::rtt_state;
use guovssalu::Duration;
use guovssalu::Fault;
use guovssalu::FaultKind;
use guovssalu::Refusal;
use guovssalu::RttAnswer;
use guovssalu::RttCall;
use guovssalu::RttStats;

use crate::averages::Averages;
use crate::averages::Trip;
use crate::averages::MOST_LENGTH;
use crate::batch::word;
use crate::batch::ROOM;
use crate::random::Random;
use crate::tally::TripTally;

/// The largest delay that the peer announces, 25 ms.
const LIMIT: u64 = 25_000_000;

/// No round trip is shorter.
const SHORTEST: u64 = 20_000_000;

/// A path's round trips are alike for so many samples at most.
const ALIKE: u64 = 80;

/// What the answer of a call has to be.
#[derive(Clone, Copy)]
enum Expected {
    /// Refused for this reason.
    Refused(Refusal),
    /// Done, at this moment: the averages as near to the exact ones as the theorem says.
    Averages(Averages, u64),
}

/// The estimator, and room for the calls and the answers of a run, made once.
pub struct Trips {
    pub tally: TripTally,
    stats: RttStats,
    calls: Vec<u8>,
    answers: Vec<u8>,
    expected: Vec<Expected>,
    random: Random,
    /// The exact averages, once there was a sample.
    averages: Option<Averages>,
    /// The path's shortest round trip, and by how much others are longer: 0 where all are alike.
    least: u64,
    spread: u64,
    /// For how many samples yet.
    left: u64,
}

impl Trips {
    /// A fresh estimator, with the peer's largest delay.
    pub fn new(seed: u64) -> Result<Self, Refusal> {
        let mut stats = RttStats::new(Duration::from_millis(100), Duration::ZERO)?;
        stats.update_max_ack_delay(Duration::from_nanos(LIMIT))?;
        Ok(Trips {
            tally: TripTally::default(),
            stats,
            calls: Vec::with_capacity(ROOM * RttCall::BYTES),
            answers: vec![0; ROOM * RttAnswer::BYTES],
            expected: Vec::with_capacity(ROOM),
            // Not the connection's numbers: those stay as they are without round trips.
            random: Random::new(!seed),
            averages: None,
            least: SHORTEST,
            spread: 0,
            left: 0,
        })
    }

    /// An event at a moment: its sample is handed in, and now and then one that is refused.
    pub fn event(&mut self, moment: u64) {
        let trip = self.trip();
        let averages = match self.averages {
            None => Averages::first(trip.latest_rtt),
            Some(mut averages) => {
                self.tally.adjusted += averages.next(&trip, LIMIT) as u64;
                averages
            }
        };
        self.averages = Some(averages);
        self.tally.samples += 1;
        self.add(&trip, Expected::Averages(averages, moment));
        if self.random.one_in(20_000) {
            self.refused();
        }
    }

    /// Adds an update, with what its answer has to be.
    fn add(&mut self, trip: &Trip, expected: Expected) {
        assert!(self.expected.len() < ROOM, "no room for a call");
        let latest_rtt = Duration::from_nanos(trip.latest_rtt);
        let ack_delay = Duration::from_nanos(trip.ack_delay);
        let call = RttCall::update_rtt(latest_rtt, ack_delay, trip.handshake_confirmed);
        self.calls.extend_from_slice(call.as_bytes());
        self.expected.push(expected);
    }

    /// Makes the calls that wait and looks at every answer, and at the state they leave.
    pub fn make(&mut self) -> Result<(), String> {
        self.stats
            .run(&self.calls, &mut self.answers)
            .map_err(|why| format!("a run of round trips is refused: {}", why))?;
        let answers = self.answers.chunks_exact(RttAnswer::BYTES);
        for (answer, expected) in answers.zip(&self.expected) {
            check(answer, expected, &mut self.tally)?;
        }
        if let Some(averages) = self.averages {
            let [smoothed, variation] = self.stored();
            averages.gaps(smoothed, variation)?;
        }
        self.calls.clear();
        self.expected.clear();
        Ok(())
    }

    /// The stored average and variation.
    fn stored(&self) -> [u64; 2] {
        let places = [rtt_state::SMOOTHED_RTT, rtt_state::RTTVAR];
        places.map(|at| word(self.stats.as_bytes(), at))
    }

    /// They, each beside the exact one, if there was a sample.
    pub fn beside(&self) -> Option<[String; 2]> {
        let exact = self.averages?.decimals();
        let stored = self.stored();
        Some([0, 1].map(|at| format!("{} ns, exactly {} ns", stored[at], exact[at])))
    }

    /// Bytes of the state, and of the room for calls and answers.
    pub fn bytes(&self) -> (usize, usize) {
        let room = self.calls.capacity() + self.answers.len();
        (self.stats.as_bytes().len(), room)
    }
}

/// Looks at the answer of one call.
fn check(answer: &[u8], expected: &Expected, tally: &mut TripTally) -> Result<(), String> {
    let at = |place| word(answer, place);
    let reply = at(rtt_answer::REPLY);
    let due = match expected {
        Expected::Refused(why) => why.reply(),
        Expected::Averages(..) => 0,
    };
    if reply != due {
        return Err(format!("a round trip is answered {}, not {}", reply, due));
    }
    let (averages, moment) = match expected {
        Expected::Averages(averages, moment) => (averages, *moment),
        Expected::Refused(_) if (1..table::RTT_ANSWER_WORDS).all(|place| at(place) == 0) => {
            return Ok(());
        }
        Expected::Refused(_) => return Err("a refused round trip has numbers".to_string()),
    };
    for (place, name, due) in [
        (rtt_answer::LATEST_RTT, "latest_rtt", averages.latest),
        (rtt_answer::MIN_RTT, "min_rtt", averages.minimum),
    ] {
        if at(place) != due {
            return Err(format!("{} is {}, by the rules {}", name, at(place), due));
        }
    }
    let (smoothed, variation) = (at(rtt_answer::SMOOTHED_RTT), at(rtt_answer::RTTVAR));
    let gaps = averages.gaps(smoothed, variation)?;
    tally.look(&gaps, averages.later, moment);
    Ok(())
}

/// What the samples are like.
impl Trips {
    /// A sample with its delay: none where all are alike.
    fn trip(&mut self) -> Trip {
        if self.left == 0 {
            self.turn();
        }
        self.left -= 1;
        let latest_rtt = self.least + self.random.below(self.spread + 1);
        let latest_rtt = latest_rtt.min(MOST_LENGTH);
        let ack_delay = match self.spread {
            0 => 0,
            _ => self.delay(latest_rtt),
        };
        Trip {
            latest_rtt,
            ack_delay,
            handshake_confirmed: !self.random.one_in(16),
        }
    }

    /// The path becomes another one, or its round trips come to be spread otherwise. Steady ones are 7 past a
    /// multiple of 8: an average that comes from below gets as far from the exact one as it goes. From far below
    /// that takes too many samples, so half of them are just above it.
    fn turn(&mut self) {
        let was_steady = self.spread == 0;
        if was_steady || self.random.one_in(2) {
            let longer = match self.random.below(8) {
                0 => self.random.sized(36),
                _ => self.random.below(200_000_000),
            };
            self.least = (SHORTEST + longer).min(MOST_LENGTH);
        }
        if !was_steady && self.random.one_in(4) {
            let from = match self.averages {
                Some(averages) if self.random.one_in(2) => averages.whole() + 8,
                _ => self.least,
            };
            (self.least, self.spread) = ((from | 7).min(MOST_LENGTH), 0);
        } else {
            self.spread = self.random.sized(28);
        }
        self.left = 1 + self.random.below(ALIKE);
    }

    /// A delay: now and then none, next to what would bring the sample to the smallest, next to the limit, or
    /// any.
    fn delay(&mut self, latest_rtt: u64) -> u64 {
        let least = self.averages.map_or(0, |averages| averages.minimum);
        let more = latest_rtt.saturating_sub(least);
        let delay = match self.random.below(8) {
            0 => 0,
            1 => (more + self.random.below(3)).saturating_sub(1),
            2 => LIMIT - 1 + self.random.below(3),
            3 => self.random.sized(36),
            _ => self.random.below(LIMIT),
        };
        delay.min(MOST_LENGTH)
    }

    /// A sample or a delay that is too long: neither the estimator nor the exact averages may move.
    fn refused(&mut self) {
        let mut trip = self.trip();
        let place = match self.random.below(2) {
            0 => {
                trip.latest_rtt = MOST_LENGTH + 1;
                1
            }
            _ => {
                trip.ack_delay = MOST_LENGTH + self.random.sized(63);
                2
            }
        };
        let why = Refusal::BadArgument(Fault::new(FaultKind::Length, place));
        self.add(&trip, Expected::Refused(why));
        self.tally.refused += 1;
    }
}

#[cfg(test)]
mod tests {
    use super::*;

    use guovssalu::table::WORD_BYTES;

    /// So many events, and what their run says.
    fn made(trips: &mut Trips, events: u64) -> Result<(), String> {
        for _ in 0..events {
            trips.event(0);
        }
        trips.make()
    }

    /// The estimator after 100 events.
    fn begun() -> Trips {
        let mut trips = Trips::new(1).unwrap();
        made(&mut trips, 100).unwrap();
        assert_eq!(trips.tally.samples, 100);
        trips
    }

    impl Trips {
        /// Makes a word of the estimator's state so much larger.
        pub fn spoil(&mut self, at: usize, more: u64) {
            let mut state = *self.stats.as_bytes();
            let changed = word(&state, at).wrapping_add(more);
            state[WORD_BYTES * at..][..WORD_BYTES].copy_from_slice(&changed.to_le_bytes());
            self.stats = RttStats::from_bytes(&state).unwrap();
        }
    }

    /// A state that is another in one word is noticed: an average outside its bounds at once, the others in the
    /// next answers.
    #[test]
    fn a_wrong_state_is_noticed() {
        assert_eq!(made(&mut begun(), 100), Ok(()));
        for (at, more, what) in [
            (rtt_state::MIN_RTT, u64::MAX, "min_rtt is"),
            (rtt_state::SMOOTHED_RTT, 32, "rtt is"),
            (rtt_state::SMOOTHED_RTT, 32_u64.wrapping_neg(), "rtt is"),
            (rtt_state::RTTVAR, 64, "rtt is"),
            (rtt_state::RTTVAR, 64_u64.wrapping_neg(), "rtt is"),
            (rtt_state::MAX_ACK_DELAY, 1_000_000, "rtt is"),
            (rtt_state::HAS_FIRST_RTT_SAMPLE, u64::MAX, "min_rtt is"),
        ] {
            let mut trips = begun();
            trips.spoil(at, more);
            let is_average = [rtt_state::SMOOTHED_RTT, rtt_state::RTTVAR].contains(&at);
            assert_eq!(trips.make().is_err(), is_average, "{}", at);
            let why = made(&mut trips, 100).unwrap_err();
            assert!(why.starts_with(what), "{}", why);
        }
    }

    /// A sample that only the estimator is given, one that only the exact averages are given, and a reply.
    #[test]
    fn a_missed_sample_or_reply_is_noticed() {
        let mut trips = begun();
        // The longest: no new minimum.
        let length = Duration::from_nanos(MOST_LENGTH);
        let alone = trips.stats.update_rtt(length, Duration::ZERO, true);
        assert_eq!(alone, Ok(()));
        assert!(made(&mut trips, 1).unwrap_err().starts_with("rtt is"));

        let mut trips = begun();
        trips.event(0);
        trips.calls.clear();
        trips.expected.clear();
        assert!(made(&mut trips, 1).unwrap_err().starts_with("rtt is"));

        let mut trips = begun();
        trips.refused();
        assert_eq!(trips.make(), Ok(()));
        trips.refused();
        trips.expected[0] = Expected::Refused(Refusal::OutOfBounds);
        assert!(trips.make().unwrap_err().contains("not 1"));

        let mut answer = [0; RttAnswer::BYTES];
        answer[0] = 1;
        let refused = Expected::Refused(Refusal::OutOfBounds);
        assert_eq!(check(&answer, &refused, &mut trips.tally), Ok(()));
        answer[RttAnswer::BYTES - 1] = 1;
        assert!(check(&answer, &refused, &mut trips.tally).is_err());
    }
}
