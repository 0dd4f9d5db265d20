//! Counts what events show of acked numbers that were sent and that were never
//! sent, by document 02, request i.

use crate::model::field::*;
use crate::model::Call;
use crate::model::Start;
use crate::model::State;
use crate::replies;
use crate::wanted::Wanted;

/// What has to occur, each at least `LEAST` times in `MANY` events: without it an
/// error in row 10, in its place or in the note could stay unseen.
const WANTED: [&str; 20] = [
    "refused with 10 before the first send",
    "refused with 10 before the first send, and every number is 0",
    "refused with 10 before the first send, though a last sent number as great is stored",
    "refused with 10, one above the last sent number",
    "refused with 10, the largest number of 64 bits",
    "refused with 10, and not for the first number",
    "refused with 10, and not for the last number",
    "refused with 10, only since the sent numbers went down",
    "refused with 10, where 5 would come after it",
    "refused with 1, and a number was never sent",
    "refused with 2, and a number was never sent",
    "refused with 3, and a number was never sent",
    "refused with 4, and a number was never sent",
    "refused with 5, and every number was sent",
    "taken: no number, before the first send",
    "taken: 0, which is the last sent number",
    "taken: the greatest is the last sent number",
    "taken: the greatest is below the last sent number",
    "a start forgets what was sent",
    "a refused start forgets what was sent",
];
const LEAST: u64 = 3;
const MANY: u64 = 20_000;
const FEW: u64 = 100;

pub struct Unsent {
    wanted: Wanted,
    /// How many events there were.
    events: u64,
    /// The greatest number sent since the start, as far as it is known.
    greatest: u64,
}

impl Unsent {
    pub fn new() -> Self {
        Unsent {
            wanted: Wanted::new(&WANTED),
            events: 0,
            greatest: 0,
        }
    }

    /// Looks at a call that was given this reply in this state; an event has these
    /// acked numbers in place of its own.
    pub fn look(&mut self, call: &Call, acked: &[u64], before: &State, start: &Start, reply: u64) {
        match call {
            Call::Start(_) => {
                let forgets = before[ANYTHING_SENT] == 1;
                let accepted = reply == 0;
                self.mark("a start forgets what was sent", forgets && accepted);
                self.mark(
                    "a refused start forgets what was sent",
                    forgets && !accepted,
                );
                self.forget();
            }
            Call::Sent { number, .. } if reply == 0 => self.greatest = self.greatest.max(*number),
            Call::Event(_) => {
                self.events += 1;
                match reply {
                    0 => self.taken(acked, before),
                    10 => self.refused(call, acked, before, start),
                    _ => self.other(acked, before, reply),
                }
            }
            _ => {}
        }
    }

    /// Knows of no send any more.
    pub fn forget(&mut self) {
        self.greatest = 0;
    }

    fn taken(&mut self, acked: &[u64], before: &State) {
        let last = before[LAST_SENT];
        let Some(&greatest) = acked.iter().max() else {
            self.mark(
                "taken: no number, before the first send",
                before[ANYTHING_SENT] == 0,
            );
            return;
        };
        self.mark(
            "taken: 0, which is the last sent number",
            greatest == 0 && last == 0,
        );
        self.mark(
            "taken: the greatest is the last sent number",
            greatest == last,
        );
        self.mark(
            "taken: the greatest is below the last sent number",
            greatest < last,
        );
    }

    fn refused(&mut self, call: &Call, acked: &[u64], before: &State, start: &Start) {
        let last = before[LAST_SENT];
        let greatest = acked.iter().copied().max().unwrap_or(0);
        if before[ANYTHING_SENT] == 0 {
            self.mark("refused with 10 before the first send", true);
            self.mark(
                "refused with 10 before the first send, and every number is 0",
                greatest == 0,
            );
            self.mark(
                "refused with 10 before the first send, though a last sent number as great is stored",
                0 < greatest && greatest <= last,
            );
        } else {
            self.mark(
                "refused with 10, one above the last sent number",
                last.checked_add(1) == Some(greatest),
            );
            self.mark(
                "refused with 10, the largest number of 64 bits",
                greatest == u64::MAX,
            );
            let sent = |number: Option<&u64>| number.is_some_and(|number| *number <= last);
            self.mark(
                "refused with 10, and not for the first number",
                sent(acked.first()),
            );
            self.mark(
                "refused with 10, and not for the last number",
                sent(acked.last()),
            );
            self.mark(
                "refused with 10, only since the sent numbers went down",
                greatest <= self.greatest,
            );
        }
        self.mark(
            "refused with 10, where 5 would come after it",
            replies::overflows(call, acked, before, start),
        );
    }

    fn other(&mut self, acked: &[u64], before: &State, reply: u64) {
        let never_sent = replies::never_sent(acked, before);
        self.mark(
            "refused with 1, and a number was never sent",
            reply == 1 && never_sent,
        );
        self.mark(
            "refused with 2, and a number was never sent",
            replies::row(reply) == 2 && never_sent,
        );
        self.mark(
            "refused with 3, and a number was never sent",
            reply == 3 && never_sent,
        );
        self.mark(
            "refused with 4, and a number was never sent",
            reply == 4 && never_sent,
        );
        self.mark(
            "refused with 5, and every number was sent",
            reply == 5 && !acked.is_empty(),
        );
    }

    fn mark(&mut self, what: &'static str, holds: bool) {
        self.wanted.mark(what, holds);
    }

    /// Prints the counts, after such a word, if there were more than a few events.
    pub fn tell(&self, of: &str) {
        if self.events > FEW {
            self.wanted.tell(of);
        }
    }

    /// Stops if something is missing though there were many events.
    pub fn hold(&self) {
        if self.events >= MANY {
            self.demand(LEAST);
        }
    }

    /// Stops if something occurs less often than this.
    pub fn demand(&self, least: u64) {
        self.wanted.demand(least);
    }
}
