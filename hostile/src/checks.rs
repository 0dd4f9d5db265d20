//! What is compared, after a call, in a range that it was lent. What is wrong is told with the case.

use crate::lent::Ground;
use crate::tally::Fault;
use crate::tally::Tally;

/// Compares the guards of a ground and counts them.
pub fn guards(tally: &mut Tally, ground: &mut Ground, name: &str, tell: impl Fn() -> String) {
    tally.guarded(ground.guards());
    if let Some(place) = ground.touched() {
        ground.mend();
        tally.wrong(Fault::Touched, || {
            format!("byte {} of guards of the {}\n{}", place, name, tell())
        });
    }
}

/// Compares an input with what was lent.
pub fn input(
    tally: &mut Tally,
    ground: &Ground,
    lent: &[u8],
    name: &str,
    tell: impl Fn() -> String,
) {
    if ground.bytes() != lent {
        tally.wrong(Fault::Touched, || {
            format!("the {}' own bytes\n{}", name, tell())
        });
    }
}

/// Compares an output with what was lent, the first bytes of which an accepted call has to write.
pub fn output(
    tally: &mut Tally,
    ground: &Ground,
    lent: &[u8],
    written: Option<Vec<u8>>,
    tell: impl Fn() -> String,
) {
    let fault = match written {
        Some(_) => Fault::Content,
        None => Fault::Touched,
    };
    let mut left = written.unwrap_or_default();
    left.extend_from_slice(&lent[left.len()..]);
    if ground.bytes() != left {
        tally.wrong(fault, || format!("the output\n{}", tell()));
    }
}
