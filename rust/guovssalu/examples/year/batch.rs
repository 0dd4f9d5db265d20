//! Calls that wait for one run, and what their answers have to be.

use guovssalu::run;
use guovssalu::table;
use guovssalu::table::state;
use guovssalu::table::REPLY_IN_ANSWER;
use guovssalu::table::VALUE_IN_ANSWER;
use guovssalu::table::WORD_BYTES;
use guovssalu::Answer;
use guovssalu::Call;
use guovssalu::Refusal;
use guovssalu::STATE_BYTES;

use crate::exact::Exact;
use crate::rules::Rules;
use crate::tally::Tally;

/// Room for so many calls.
pub const ROOM: usize = 256;

/// What the answer of a call has to be.
#[derive(Clone, Copy)]
pub enum Expected {
    /// Done, whatever it answers.
    Done,
    /// Refused for this reason.
    Refused(Refusal),
    /// An event: done, and its record is the one that the next call, its finish, is given.
    Event,
    /// Whether the smallest round trip has expired.
    Expiry,
    /// inflight_lo, at this moment: as near to the exact value as the theorem says.
    InflightLo(Exact, u64),
}

/// The state, and room for the calls and the answers of a run. It is made once and never grows.
pub struct Batch {
    state: [u8; STATE_BYTES],
    calls: Vec<u8>,
    answers: Vec<u8>,
    expected: Vec<Expected>,
}

impl Batch {
    /// No state yet: the first call has to be a start.
    pub fn new() -> Self {
        Batch {
            state: [0; STATE_BYTES],
            calls: Vec::with_capacity(ROOM * Call::BYTES),
            answers: vec![0; ROOM * Answer::BYTES],
            expected: Vec::with_capacity(ROOM),
        }
    }

    /// How many calls wait.
    pub fn len(&self) -> usize {
        self.expected.len()
    }

    /// Adds a call, with what its answer has to be.
    pub fn add(&mut self, call: &Call, expected: Expected) {
        assert!(self.len() < ROOM, "no room for a call");
        self.calls.extend_from_slice(call.as_bytes());
        self.expected.push(expected);
    }

    /// Makes the calls that wait and looks at every answer, and at the state they leave.
    pub fn make(&mut self, rules: &Rules, tally: &mut Tally) -> Result<(), String> {
        run(&mut self.state, &self.calls, &mut self.answers)
            .map_err(|why| format!("a run is refused: {}", why))?;
        for at in 0..self.len() {
            self.check(at, tally)?;
        }
        self.compare(rules)?;
        tally.look(&rules.exact, self.inflight_lo(), self.moment())?;
        tally.calls += self.len() as u64;
        self.calls.clear();
        self.expected.clear();
        Ok(())
    }

    /// Looks at the answer of one call.
    fn check(&self, at: usize, tally: &mut Tally) -> Result<(), String> {
        let answer = &self.answers[at * Answer::BYTES..(at + 1) * Answer::BYTES];
        let reply = word(answer, REPLY_IN_ANSWER);
        let expected = self.expected[at];
        let due = match expected {
            Expected::Refused(why) => why.reply(),
            _ => 0,
        };
        if reply != due {
            let number = word(&self.calls[at * Call::BYTES..], table::NUMBER_IN_CALL);
            return Err(format!(
                "call {} is answered {}, not {}",
                number, reply, due
            ));
        }
        match expected {
            Expected::Event if record(answer, table::EVENT_IN_ANSWER) != self.record(at + 1) => {
                Err("the record of an event is another than by the rules".to_string())
            }
            Expected::InflightLo(exact, moment) => {
                tally.look(&exact, word(answer, VALUE_IN_ANSWER), moment)
            }
            Expected::Expiry => {
                tally.expiries += word(answer, VALUE_IN_ANSWER);
                Ok(())
            }
            _ => Ok(()),
        }
    }

    /// The bytes of the record that a call is given.
    fn record(&self, at: usize) -> &[u8] {
        record(&self.calls[at * Call::BYTES..], table::EVENT_IN_CALL)
    }

    /// Compares the state with the rules.
    fn compare(&self, rules: &Rules) -> Result<(), String> {
        let end = rules.end_of_round_trip;
        for (at, name, due) in [
            (
                state::ROUND_TRIP_COUNT,
                "round_trip_count",
                rules.round_trip_count,
            ),
            (
                state::LAST_SENT_PACKET,
                "last_sent_packet",
                rules.last_sent_packet,
            ),
            (
                state::END_OF_ROUND_TRIP_SET,
                "end_of_round_trip is set",
                end.is_some() as u64,
            ),
            (
                state::END_OF_ROUND_TRIP,
                "end_of_round_trip",
                end.unwrap_or(0),
            ),
            (
                state::BYTES_LOST_IN_ROUND,
                "bytes_lost_in_round",
                rules.bytes_lost_in_round,
            ),
            (
                state::INFLIGHT_LATEST,
                "inflight_latest",
                rules.inflight_latest,
            ),
            (state::INFLIGHT_HI, "inflight_hi", rules.inflight_hi),
            (
                state::TOTAL_BYTES_ACKED,
                "total bytes acked",
                rules.total_bytes_acked,
            ),
            (
                state::TOTAL_BYTES_LOST,
                "total bytes lost",
                rules.total_bytes_lost,
            ),
        ] {
            let stored = word(&self.state, at);
            if stored != due {
                return Err(format!("{} is {}, by the rules {}", name, stored, due));
            }
        }
        Ok(())
    }

    /// The stored inflight_lo, or unset.
    pub fn inflight_lo(&self) -> u64 {
        word(&self.state, state::INFLIGHT_LO)
    }

    /// The last accepted moment.
    pub fn moment(&self) -> u64 {
        word(&self.state, state::LAST_ACCEPTED_MOMENT)
    }

    /// Bytes of the state, and of the room for calls and answers.
    pub fn bytes(&self) -> (usize, usize) {
        (self.state.len(), self.calls.capacity() + self.answers.len())
    }
}

/// The word at a place (docs/LAYOUT.md).
pub fn word(bytes: &[u8], at: usize) -> u64 {
    let mut word = [0; WORD_BYTES];
    word.copy_from_slice(&bytes[WORD_BYTES * at..][..WORD_BYTES]);
    u64::from_le_bytes(word)
}

/// The bytes of the record that begins with this word.
fn record(bytes: &[u8], first: usize) -> &[u8] {
    &bytes[WORD_BYTES * first..][..table::EVENT_BYTES]
}

#[cfg(test)]
mod tests {
    use super::*;

    use guovssalu::table::call;
    use guovssalu::CongestionEvent;
    use guovssalu::Moment;
    use guovssalu::Params;
    use guovssalu::Sample;

    /// Lossy rounds in a window, each with a look at inflight_lo; the rules go along.
    struct Losses {
        batch: Batch,
        rules: Rules,
        window: u64,
    }

    impl Losses {
        /// A start.
        fn new(window: u64) -> Self {
            let mut batch = Batch::new();
            let start = Call::new(call::START, &[0, 100_000_000]).with_params(&Params::default());
            batch.add(&start, Expected::Done);
            Losses {
                batch,
                rules: Rules::new(),
                window,
            }
        }

        /// A round that loses 100 bytes.
        fn round(&mut self) {
            let packet = self.rules.last_sent_packet + 1;
            self.send();
            self.event(&[packet]);
        }

        /// A send.
        fn send(&mut self) {
            let packet = self.rules.last_sent_packet + 1;
            self.rules.last_sent_packet = packet;
            self.batch.add(
                &Call::new(call::ON_PACKET_SENT, &[packet, 0, packet, 100]),
                Expected::Done,
            );
        }

        /// An event that acks these packets and loses 100 bytes, its end, and a look.
        fn event(&mut self, acked: &[u64]) {
            let packet = self.rules.last_sent_packet;
            let mut event =
                CongestionEvent::new(Moment::from_nanos(packet), self.window, 100, false);
            let sample = Sample {
                total_bytes_lost: self.rules.total_bytes_lost + 100,
                ..Sample::default()
            };
            let params = Params::default();
            let call = Call::on_congestion_event_start(acked, &event, &sample, &params);
            self.batch.add(&call, Expected::Event);
            self.rules.start(acked, &mut event, &sample);
            self.batch.add(
                &Call::new(call::ON_CONGESTION_EVENT_FINISH, &[]).with_event(&event),
                Expected::Done,
            );
            self.rules.finish(&event);
            self.look();
        }

        /// Asks for inflight_lo.
        fn look(&mut self) {
            let expected = Expected::InflightLo(self.rules.exact, 0);
            self.batch.add(&Call::new(call::INFLIGHT_LO, &[]), expected);
        }

        /// Makes the calls; inflight_lo after them.
        fn make(&mut self) -> Result<u64, String> {
            self.batch.make(&self.rules, &mut Tally::new())?;
            Ok(self.batch.inflight_lo())
        }
    }

    #[test]
    fn a_window_of_1300_is_followed() {
        let mut losses = Losses::new(1300);
        for expected in [910, 637, 445] {
            losses.round();
            assert_eq!(losses.make(), Ok(expected));
        }
    }

    /// Rules and port end a round by the greatest number acked, wherever it stands, and none where no
    /// number was acked.
    #[test]
    fn acked_numbers_in_any_order_are_followed() {
        let mut losses = Losses::new(1300);
        losses.round();
        // The end is 1, then 3, then 5.
        let events: [(&[u64], u64); 4] = [
            (&[3, 2, 1], 2),
            (&[2, 5, 1, 3, 0], 3),
            (&[5, 4], 3),
            (&[], 3),
        ];
        for (acked, rounds) in events {
            losses.send();
            losses.send();
            losses.event(acked);
            assert!(losses.make().is_ok());
            assert_eq!(losses.rules.round_trip_count, rounds);
        }
    }

    /// The port itself leaves the bound above the premise, and this is noticed (docs/DRIFT.md).
    #[test]
    fn a_window_above_the_premise_is_noticed() {
        let mut losses = Losses::new(16_777_223);
        losses.round();
        let why = losses.make().unwrap_err();
        assert!(why.contains("1.100001 bytes"), "{}", why);
        let mut losses = Losses::new(16_777_216);
        losses.round();
        assert_eq!(losses.make(), Ok(11_744_051));
    }

    /// A clear that only one of both makes, or a reduction.
    #[test]
    fn a_missed_turn_is_noticed() {
        let mut losses = Losses::new(1300);
        losses.round();
        losses.rules.exact.clear();
        losses.look();
        assert!(losses.make().unwrap_err().contains("unset"));

        let mut losses = Losses::new(1300);
        losses.round();
        losses
            .batch
            .add(&Call::new(call::CLEAR_INFLIGHT_LO, &[]), Expected::Done);
        assert!(losses.make().unwrap_err().contains("unset"));

        let mut losses = Losses::new(1300);
        losses.round();
        losses.rules.exact.reduce(0, 0);
        losses.look();
        assert!(losses.make().unwrap_err().contains("k = 2"));
    }

    /// Another number in the rules, another record, another reply.
    #[test]
    fn a_wrong_state_record_or_reply_is_noticed() {
        let mut losses = Losses::new(1300);
        losses.round();
        losses.rules.inflight_latest += 1;
        assert!(losses.make().unwrap_err().contains("inflight_latest"));

        let mut losses = Losses::new(1300);
        losses.round();
        let lost = table::EVENT_IN_CALL + table::event::BYTES_LOST;
        let finish = 3 * Call::BYTES + WORD_BYTES * lost;
        losses.batch.calls[finish] ^= 1;
        assert!(losses.make().unwrap_err().contains("record"));

        let mut losses = Losses::new(1300);
        losses.round();
        let twice = Call::new(call::ON_PACKET_SENT, &[0, 0, 2, 100]);
        losses.batch.add(&twice, Expected::Done);
        assert!(losses.make().unwrap_err().contains("answered 3"));
    }
}
