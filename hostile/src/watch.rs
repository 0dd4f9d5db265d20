//! Watches the run: tells how far it is, and ends it where a call doesn't return.

use std::process;
use std::sync::atomic::Ordering;
use std::thread;
use std::time::Duration;

use crate::tally::MADE;

/// So many seconds without another call mean that one doesn't return.
const PATIENCE: u32 = 60;

/// Begins to watch a run of so many calls.
pub fn begin(calls: u64) {
    thread::spawn(move || {
        let (mut seen, mut waited) = (0, 0);
        loop {
            thread::sleep(Duration::from_secs(1));
            let made = MADE.load(Ordering::Relaxed);
            eprintln!("{} of {} calls", made, calls);
            waited = if made == seen { waited + 1 } else { 0 };
            seen = made;
            if waited == PATIENCE {
                println!("the call after the first {} has not returned", made);
                process::exit(1);
            }
        }
    });
}
