use std::fmt;

use crate::fault::Asked;
use crate::foreign;
use crate::table;
use crate::table::reason;
use crate::table::samples;
use crate::words;
use crate::Refusal;

/// Why the estimates of a windowed filter moved: the step of its update that acted last.
///
/// It is the step that is named, and not what the estimates are then: all three can be the new sample
/// after another step than the first. Where the sample raised the second or the third and a later step
/// acted too, the later one is named. The best moves with `AllReplaced`, `PromotedOnce` and
/// `PromotedTwice` alone.
#[derive(Clone, Copy, Debug, PartialEq, Eq, Hash)]
pub enum Reason {
    /// 0, by step 1: the filter was empty, the sample is above the best, or the third was older than
    /// the window. All three are the sample.
    AllReplaced = reason::ALL_REPLACED as isize,
    /// 1, by step 2: the sample is above the second, and no later step acted. Second and third are the
    /// sample.
    SecondRaised = reason::SECOND_RAISED as isize,
    /// 2, by step 2: the sample is above the third, and no later step acted. The third is the sample.
    ThirdRaised = reason::THIRD_RAISED as isize,
    /// 3, by step 3: the best was older than the window. Second and third move up, and the third is the
    /// sample.
    PromotedOnce = reason::PROMOTED_ONCE as isize,
    /// 4, by step 3: the best and the second were older than the window. The third is the best, and the
    /// others are the sample.
    PromotedTwice = reason::PROMOTED_TWICE as isize,
    /// 5, by step 4: the second equalled the best, and was older than a quarter of the window. Second and
    /// third are the sample.
    QuarterRefresh = reason::QUARTER_REFRESH as isize,
    /// 6, by step 5: the third equalled the second, and was older than half of the window. The third is
    /// the sample.
    HalfRefresh = reason::HALF_REFRESH as isize,
    /// 7: no step acted. The filter is as it was.
    Unchanged = reason::UNCHANGED as isize,
}

impl Reason {
    /// The reason's number, 0 to 7, as a run writes it.
    pub const fn number(self) -> u64 {
        self as u64
    }
}

impl TryFrom<u64> for Reason {
    type Error = Refusal;

    /// The reason of a number. Fails with `OutOfBounds` where the number is no reason's.
    fn try_from(number: u64) -> Result<Self, Refusal> {
        Ok(match number {
            reason::ALL_REPLACED => Reason::AllReplaced,
            reason::SECOND_RAISED => Reason::SecondRaised,
            reason::THIRD_RAISED => Reason::ThirdRaised,
            reason::PROMOTED_ONCE => Reason::PromotedOnce,
            reason::PROMOTED_TWICE => Reason::PromotedTwice,
            reason::QUARTER_REFRESH => Reason::QuarterRefresh,
            reason::HALF_REFRESH => Reason::HalfRefresh,
            reason::UNCHANGED => Reason::Unchanged,
            _ => return Err(Refusal::OutOfBounds),
        })
    }
}

impl fmt::Display for Reason {
    fn fmt(&self, f: &mut fmt::Formatter) -> fmt::Result {
        f.write_str(reason::NAMES[*self as usize])
    }
}

/// What a [`filter_run`] writes for a pair: the samples that the filter holds after it, and why they
/// moved.
#[derive(Clone, Copy, Debug, PartialEq, Eq, Hash)]
pub struct Samples {
    /// The best sample: at most the largest of the window, and it may be below it (docs/ESTIMATE.md).
    pub best: u64,
    /// The second best.
    pub second: u64,
    /// The third best.
    pub third: u64,
    /// The step that acted last.
    pub reason: Reason,
}

impl Samples {
    /// Bytes of what is written for a pair.
    pub const BYTES: usize = table::SAMPLES_BYTES;

    /// The samples of these bytes.
    ///
    /// # Errors
    ///
    /// `BadArgument` for another length, 2.8 at 1; `OutOfBounds` where the last word is no reason's
    /// number: such bytes are none of a run's.
    pub fn from_bytes(bytes: &[u8]) -> Result<Self, Refusal> {
        if bytes.len() != Samples::BYTES {
            return Err(Refusal::WRONG_LENGTH);
        }
        let word = |at: usize| words::get(bytes, at);
        Ok(Samples {
            best: word(samples::BEST),
            second: word(samples::SECOND),
            third: word(samples::THIRD),
            reason: Reason::try_from(word(samples::REASON))?,
        })
    }
}

/// Runs an empty windowed filter over pairs of a time and a sample: words of 64 bits, the lowest byte
/// first, [`table::PAIR_BYTES`] to a pair. For each pair it writes the best, the second and the third
/// sample after it and the number of a [`Reason`], [`Samples::BYTES`]. What the output has beyond
/// them keeps its bytes.
///
/// # Errors
///
/// `BadArgument` for a part of a pair, 2.8 at 2; `EarlierMoment` where a pair's time is earlier than one
/// that the filter holds then; `ShortOutput` for an output of under [`Samples::BYTES`] a pair. Then no
/// byte is written.
///
/// ```
/// use guovssalu::{filter_run, Samples};
///
/// let mut pairs = Vec::new();
/// for (time, sample) in [(0, 5), (2, 5), (3, 5), (5, 3), (8, 4), (9, 2), (12, 6)] {
///     pairs.extend(u64::to_le_bytes(time));
///     pairs.extend(u64::to_le_bytes(sample));
/// }
///
/// let mut out = [0; 7 * Samples::BYTES];
/// filter_run(8, &pairs, &mut out)?;
/// let (mut best, mut why) = (Vec::new(), Vec::new());
/// for bytes in out.chunks_exact(Samples::BYTES) {
///     let after = Samples::from_bytes(bytes)?;
///     best.push(after.best);
///     why.push(after.reason.to_string());
/// }
/// assert_eq!(best, [5, 5, 5, 5, 5, 4, 6]);
/// assert_eq!(
///     why,
///     [
///         "all replaced",
///         "unchanged",
///         "quarter refresh",
///         "unchanged",
///         "quarter refresh",
///         "promoted once",
///         "all replaced",
///     ]
/// );
/// # Ok::<(), guovssalu::Refusal>(())
/// ```
pub fn filter_run(window: u64, src: &[u8], out: &mut [u8]) -> Result<(), Refusal> {
    Refusal::of(foreign::filter_run(window, src, out), Asked::FilterRun)
}
