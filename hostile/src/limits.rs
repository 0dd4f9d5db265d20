//! Where the greatest of an event's acked numbers stands: beside a limit, which is the end of the round
//! or the last sent number, and in its list.

/// Each way in which it can stand.
#[derive(Clone, Copy, PartialEq, Debug)]
pub enum Greatest {
    /// There is no number, and no limit yet.
    NothingYet,
    /// There is no number.
    Nothing,
    /// There is no limit yet.
    NoLimit,
    Below,
    AtLimit,
    /// Above the limit: the first of the list, one between, or the last. Of equal ones the first counts.
    First,
    Between,
    Last,
}

/// How many ways there are.
pub const WAYS: usize = 8;

/// The names of the ways beside the end of the round, in their order.
pub const BY_END: [&str; WAYS] = [
    "of no number before any end",
    "of no number",
    "before any end",
    "below the end",
    "at it",
    "above it by the first",
    "by one between",
    "by the last",
];

/// The names of the ways beside the last sent number, in their order.
pub const BY_SENT: [&str; WAYS] = [
    "of no number before any send",
    "of no number",
    "before any send",
    "below the last sent",
    "at it",
    "above it by the first",
    "by one between",
    "by the last",
];

/// How the greatest number of a list stands to a limit.
pub fn greatest(limit: Option<u64>, acked: &[u64]) -> Greatest {
    match (limit, acked.iter().max()) {
        (None, None) => Greatest::NothingYet,
        (Some(_), None) => Greatest::Nothing,
        (None, Some(_)) => Greatest::NoLimit,
        (Some(limit), Some(&most)) if most < limit => Greatest::Below,
        (Some(limit), Some(&most)) if most == limit => Greatest::AtLimit,
        (_, Some(&most)) if acked[0] == most => Greatest::First,
        (_, Some(most)) if acked[..acked.len() - 1].contains(most) => Greatest::Between,
        _ => Greatest::Last,
    }
}

#[cfg(test)]
mod tests {
    use super::*;

    #[test]
    fn each_way_is_told() {
        for (limit, acked, due) in [
            (None, &[][..], Greatest::NothingYet),
            (Some(5), &[], Greatest::Nothing),
            (None, &[0], Greatest::NoLimit),
            (Some(5), &[4, 0], Greatest::Below),
            (Some(5), &[4, 5], Greatest::AtLimit),
            (Some(5), &[6], Greatest::First),
            (Some(5), &[6, 6, 5], Greatest::First),
            (Some(5), &[5, 7, 6, 7], Greatest::Between),
            (Some(5), &[6, 7], Greatest::Last),
        ] {
            assert_eq!(greatest(limit, acked), due, "{:?} {:?}", limit, acked);
        }
    }
}
