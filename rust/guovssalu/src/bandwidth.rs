use std::ops::Mul;

use crate::foreign;
use crate::Duration;

/// A bandwidth, in whole bits per second.
///
/// The products are the proved ones. The calls of the model take bandwidths up to 2^40.
///
/// ```
/// use guovssalu::{Bandwidth, Duration};
///
/// let bandwidth = Bandwidth::from_mbits_per_second(8);
/// assert_eq!((bandwidth * 0.75).to_bits_per_second(), 6_000_000);
/// assert_eq!(bandwidth * Duration::from_millis(50), 50_000);
/// ```
#[derive(Clone, Copy, Debug, Default, PartialEq, Eq, PartialOrd, Ord, Hash)]
pub struct Bandwidth(u64);

impl Bandwidth {
    /// No bandwidth.
    pub const fn zero() -> Self {
        Bandwidth(0)
    }

    /// The number that stands for an infinite bandwidth, 2^64 - 1.
    pub const fn infinite() -> Self {
        Bandwidth(u64::MAX)
    }

    /// So many bits per second.
    pub const fn from_bits_per_second(bits_per_second: u64) -> Self {
        Bandwidth(bits_per_second)
    }

    /// So many bytes per second, at most 2^64 - 1 bits.
    pub const fn from_bytes_per_second(bytes_per_second: u64) -> Self {
        Bandwidth(bytes_per_second.saturating_mul(8))
    }

    /// So many thousand bits per second, at most 2^64 - 1 bits.
    pub const fn from_kbits_per_second(k_bits_per_second: u64) -> Self {
        Bandwidth(k_bits_per_second.saturating_mul(1_000))
    }

    /// So many million bits per second, at most 2^64 - 1 bits.
    pub const fn from_mbits_per_second(m_bits_per_second: u64) -> Self {
        Bandwidth(m_bits_per_second.saturating_mul(1_000_000))
    }

    /// Its bits per second.
    pub const fn to_bits_per_second(self) -> u64 {
        self.0
    }

    /// Its whole bytes per second.
    pub const fn to_bytes_per_second(self) -> u64 {
        self.0 / 8
    }

    /// The whole bytes that it carries in a period, at most 2^64 - 1.
    pub fn to_bytes_per_period(self, time_period: Duration) -> u64 {
        foreign::to_bytes_per_period(self.0, time_period.as_nanos())
    }
}

impl Mul<f32> for Bandwidth {
    type Output = Bandwidth;

    /// The bandwidth times a factor, by way of an `f64`, to the nearest whole number; zero for a
    /// NaN or a negative factor.
    fn mul(self, factor: f32) -> Bandwidth {
        Bandwidth(foreign::bandwidth_mul_f32(self.0, factor.to_bits()))
    }
}

impl Mul<Duration> for Bandwidth {
    type Output = u64;

    /// The same as `to_bytes_per_period`.
    fn mul(self, time_period: Duration) -> u64 {
        self.to_bytes_per_period(time_period)
    }
}
