// Stands for src/minmax.rs, which is missing. The original's forgets a minimum
// after RTT_WINDOW, 300 s. This one is the least of all samples since the first
// and looks at no time: since the file is missing, RFC 9002 decides, 5.2, and the
// port does the same (docs/DIFFERENCES.md). Written from the calls of rtt.rs.

use std::ops::Deref;
use std::time::Duration;
use std::time::Instant;

pub struct Minmax<T>(T);

impl<T: PartialOrd> Minmax<T> {
    pub fn new(value: T) -> Self {
        Minmax(value)
    }

    pub fn reset(&mut self, _: Instant, value: T) {
        self.0 = value;
    }

    pub fn running_min(&mut self, _: Duration, _: Instant, value: T) {
        if value < self.0 {
            self.0 = value;
        }
    }
}

impl<T> Deref for Minmax<T> {
    type Target = T;

    fn deref(&self) -> &T {
        &self.0
    }
}
