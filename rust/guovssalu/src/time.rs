use std::convert::TryFrom;
use std::num::TryFromIntError;
use std::ops::Add;
use std::ops::Sub;
use std::time;

use crate::table;

/// A moment, in whole nanoseconds after a base moment of the caller's choice.
///
/// The calls take moments up to 2^62, which is 146 years, and refuse those that are earlier than the
/// last accepted one.
#[derive(Clone, Copy, Debug, Default, PartialEq, Eq, PartialOrd, Ord, Hash)]
pub struct Moment(u64);

impl Moment {
    /// So many nanoseconds after the base moment.
    pub const fn from_nanos(nanos: u64) -> Self {
        Moment(nanos)
    }

    /// The nanoseconds after the base moment.
    pub const fn as_nanos(self) -> u64 {
        self.0
    }

    /// The moment `now` of the system's clock, counted from `base`; the base moment itself where
    /// `now` is earlier.
    pub fn since(base: time::Instant, now: time::Instant) -> Self {
        let nanos = now.saturating_duration_since(base).as_nanos();
        Moment(u64::try_from(nanos).unwrap_or(u64::MAX))
    }
}

impl Add<Duration> for Moment {
    type Output = Moment;

    /// The moment so much later, at most 2^64 - 1 nanoseconds after the base moment.
    fn add(self, length: Duration) -> Moment {
        Moment(self.0.saturating_add(length.0))
    }
}

impl Sub for Moment {
    type Output = Duration;

    /// The time from `earlier` to this moment, 0 where `earlier` is later.
    fn sub(self, earlier: Moment) -> Duration {
        Duration(self.0.saturating_sub(earlier.0))
    }
}

/// A length of time, in whole nanoseconds.
///
/// The calls take lengths up to 2^36 nanoseconds, which is 68.7 seconds: [`Duration::LONGEST`].
#[derive(Clone, Copy, Debug, Default, PartialEq, Eq, PartialOrd, Ord, Hash)]
pub struct Duration(u64);

impl Duration {
    /// No time.
    pub const ZERO: Duration = Duration(0);

    /// The longest that the calls take, 2^36 nanoseconds. What someone else says, as a peer's ack delay, is
    /// cut to it before it is handed in:
    ///
    /// ```
    /// use guovssalu::Duration;
    ///
    /// assert_eq!(Duration::LONGEST.as_nanos(), 1 << 36);
    /// assert_eq!(Duration::from_secs(70).min(Duration::LONGEST), Duration::LONGEST);
    /// ```
    pub const LONGEST: Duration = Duration(table::LONGEST);

    /// A length of so many nanoseconds.
    pub const fn from_nanos(nanos: u64) -> Self {
        Duration(nanos)
    }

    /// A length of so many microseconds, at most 2^64 - 1 nanoseconds.
    pub const fn from_micros(micros: u64) -> Self {
        Duration(micros.saturating_mul(1_000))
    }

    /// A length of so many milliseconds, at most 2^64 - 1 nanoseconds.
    pub const fn from_millis(millis: u64) -> Self {
        Duration(millis.saturating_mul(1_000_000))
    }

    /// A length of so many seconds, at most 2^64 - 1 nanoseconds.
    pub const fn from_secs(secs: u64) -> Self {
        Duration(secs.saturating_mul(1_000_000_000))
    }

    /// Its nanoseconds.
    pub const fn as_nanos(self) -> u64 {
        self.0
    }
}

impl From<Duration> for time::Duration {
    fn from(length: Duration) -> Self {
        time::Duration::from_nanos(length.0)
    }
}

impl TryFrom<time::Duration> for Duration {
    type Error = TryFromIntError;

    /// Fails where the length has more than 2^64 - 1 nanoseconds.
    fn try_from(length: time::Duration) -> Result<Self, TryFromIntError> {
        u64::try_from(length.as_nanos()).map(Duration)
    }
}
