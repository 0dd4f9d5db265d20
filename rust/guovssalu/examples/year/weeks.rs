//! What the weeks of the year are like. They follow one another and begin again after eight.

use crate::tally::DAY;

/// Odds of a week. "One in so many rounds" is never where the number is 0.
pub struct Week {
    /// Of 1000 rounds so many lose packets.
    pub loss: u64,
    /// Of 1000 bursts so many have little to send: the application limits them.
    pub limited: u64,
    /// One in so many rounds has the ack of a packet from when far more was in flight.
    pub late: u64,
    /// One in so many rounds enters the next phase; where it is never, the cycle stays in Cruise.
    pub phase: u64,
    /// One in so many rounds caps inflight_lo.
    pub cap: u64,
    /// One in so many rounds clears inflight_lo.
    pub clear: u64,
    /// One in so many rounds sets inflight_hi.
    pub high: u64,
}

/// The module reports now and then, and the cycle goes round.
const ORDINARY: Week = Week {
    loss: 50,
    limited: 500,
    late: 500,
    phase: 8,
    cap: 200,
    clear: 1000,
    high: 20,
};

/// Losses in nearly every round, and no clear for the whole week.
const LOSS: Week = Week {
    loss: 930,
    limited: 800,
    late: 35,
    phase: 0,
    cap: 150,
    clear: 0,
    high: 100,
};

/// Losses, and a clear after a few of them.
const CLEARS: Week = Week {
    loss: 700,
    limited: 700,
    late: 300,
    phase: 9,
    cap: 0,
    clear: 15,
    high: 30,
};

/// Losses and caps by turns.
const CAPS: Week = Week {
    loss: 600,
    limited: 600,
    late: 12,
    phase: 60,
    cap: 6,
    clear: 0,
    high: 10,
};

/// Nothing but small reports over a good line.
const QUIET: Week = Week {
    loss: 5,
    limited: 1000,
    late: 0,
    phase: 15,
    cap: 0,
    clear: 0,
    high: 0,
};

const WEEKS: [&Week; 8] = [
    &ORDINARY, &LOSS, &LOSS, &LOSS, &CLEARS, &CAPS, &QUIET, &CLEARS,
];

/// The week of a moment.
pub fn week(moment: u64) -> &'static Week {
    WEEKS[(moment / (7 * DAY)) as usize % WEEKS.len()]
}
