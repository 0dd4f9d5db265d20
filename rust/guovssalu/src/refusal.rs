use std::error::Error;
use std::fmt;

use crate::fault::Asked;
use crate::table::reply;
use crate::Fault;
use crate::FaultKind;

/// Why a call was refused: rows 1 to 7 and 10 of the table of refusals. Where several rows apply, the
/// first of 1, 2, 3, 4, 10, 5, 7 is given. A refused call has changed nothing, but for a start (call 0)
/// in a [`run`](crate::run), which has then replaced the state by a fresh one at moment 0, and a `new`
/// (call 0) in an [`rtt_run`](crate::rtt_run), which has then left a fresh estimator of 0 and 0.
///
/// Malformed words (docs/LAYOUT.md) can only be in calls that were not written by this package, or by
/// [`Call::new`](crate::Call::new) with other arguments than the call has, and in an event with a list
/// ([`Call::with_list`](crate::Call::with_list)) in a run that is not lent it.
#[derive(Clone, Copy, Debug, PartialEq, Eq, Hash)]
pub enum Refusal {
    /// 1: a stored number or a parameter is outside its bounds, a parameter's word is malformed, or
    /// bytes encode no state. Of the round-trip estimator, which takes no parameters: a stored length is
    /// above 2^36 ns, or, of bytes, the last word is neither 0 nor 1.
    OutOfBounds,
    /// 2: an argument is outside its bounds or its word is malformed, a number is no call's, bytes
    /// have a wrong length, or a postponed moment would pass 2^62. The [`Fault`] says which argument it
    /// is and what kind of bound it passed. See [Which argument](crate#which-argument).
    BadArgument(Fault),
    /// 3: the moment is earlier than the last accepted one; in a windowed filter, earlier than one
    /// of its three stored times.
    EarlierMoment,
    /// 4: the total acked or the total lost is lower than the stored one.
    LowerTotal,
    /// 5: the call would add 1 to a counter that is 2^64 - 1.
    FullCounter,
    /// 6: text that doesn't follow its layout. No call of this crate reads text.
    BadText,
    /// 7: the output is shorter than the answer.
    ShortOutput,
    /// 10: an acked number is above the last sent one, or any number is acked before the first send.
    /// Asked after 4 and before 5. See [Packet numbers](crate#packet-numbers).
    NeverSent,
}

impl Refusal {
    /// What `from_bytes` gives for bytes of another length.
    pub(crate) const WRONG_LENGTH: Refusal =
        Refusal::BadArgument(Fault::new(FaultKind::ListLength, 1).of(Asked::FromBytes));

    /// The refusal's row in the table, 1 to 7 or 10.
    pub const fn number(self) -> u64 {
        match self {
            Refusal::OutOfBounds => reply::OUT_OF_BOUNDS,
            Refusal::BadArgument(_) => reply::BAD_ARGUMENT,
            Refusal::EarlierMoment => reply::EARLIER_MOMENT,
            Refusal::LowerTotal => reply::LOWER_TOTAL,
            Refusal::FullCounter => reply::FULL_COUNTER,
            Refusal::BadText => reply::BAD_TEXT,
            Refusal::ShortOutput => reply::SHORT_OUTPUT,
            Refusal::NeverSent => reply::NEVER_SENT,
        }
    }

    /// The refusal's code: its row, and for a bad argument the kind of bound after a dot, as "2.4".
    pub const fn code(self) -> &'static str {
        match self {
            Refusal::OutOfBounds => "1",
            Refusal::BadArgument(fault) => fault.kind().code(),
            Refusal::EarlierMoment => "3",
            Refusal::LowerTotal => "4",
            Refusal::FullCounter => "5",
            Refusal::BadText => "6",
            Refusal::ShortOutput => "7",
            Refusal::NeverSent => "10",
        }
    }

    /// The reply that says it, as an exported call replies and an answer has it in its first word: the
    /// row, and for a bad argument also 256 times the kind and 65536 times the place.
    pub const fn reply(self) -> u64 {
        match self {
            Refusal::BadArgument(fault) => fault.reply(),
            other => other.number(),
        }
    }

    /// What a reply says: 0 is done.
    ///
    /// # Panics
    ///
    /// If the number is no reply.
    pub fn of_reply(reply: u64) -> Result<(), Refusal> {
        Err(match reply {
            reply::DONE => return Ok(()),
            reply::OUT_OF_BOUNDS => Refusal::OutOfBounds,
            reply::EARLIER_MOMENT => Refusal::EarlierMoment,
            reply::LOWER_TOTAL => Refusal::LowerTotal,
            reply::FULL_COUNTER => Refusal::FullCounter,
            reply::BAD_TEXT => Refusal::BadText,
            reply::SHORT_OUTPUT => Refusal::ShortOutput,
            reply::NEVER_SENT => Refusal::NeverSent,
            _ => match Fault::of_reply(reply) {
                Some(fault) => Refusal::BadArgument(fault),
                None => panic!("{} is no reply", reply),
            },
        })
    }

    /// The same refusal of the call of a number: [`Fault::of_call`].
    pub fn of_call(self, number: u64) -> Self {
        match self {
            Refusal::BadArgument(fault) => Refusal::BadArgument(fault.of_call(number)),
            other => other,
        }
    }

    /// The same refusal of the round-trip estimator's call of a number: [`Fault::of_rtt_call`].
    pub fn of_rtt_call(self, number: u64) -> Self {
        match self {
            Refusal::BadArgument(fault) => Refusal::BadArgument(fault.of_rtt_call(number)),
            other => other,
        }
    }

    /// What a reply says of an exported call.
    pub(crate) fn of(reply: u64, asked: Asked) -> Result<(), Refusal> {
        Refusal::of_reply(reply).map_err(|refusal| match refusal {
            Refusal::BadArgument(fault) => Refusal::BadArgument(fault.of(asked)),
            other => other,
        })
    }
}

impl fmt::Display for Refusal {
    fn fmt(&self, f: &mut fmt::Formatter) -> fmt::Result {
        f.write_str(match self {
            Refusal::OutOfBounds => {
                "a stored number, a stored length or a parameter is out of bounds or malformed"
            }
            Refusal::BadArgument(fault) => return fmt::Display::fmt(fault, f),
            Refusal::EarlierMoment => "the moment is earlier than the last accepted one",
            Refusal::LowerTotal => "a total is lower than the stored one",
            Refusal::FullCounter => "a counter is full",
            Refusal::BadText => "the text doesn't follow its layout",
            Refusal::ShortOutput => "the output is shorter than the answer",
            Refusal::NeverSent => "a packet that was never sent is acked",
        })
    }
}

impl Error for Refusal {}
