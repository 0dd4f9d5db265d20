//! The functions on single numbers, which are asked in runs of neighbours.

use std::time::Duration;

use crate::recovery::bandwidth::Bandwidth;

/// The names of the functions; a function's number is its place.
pub const NAMES: [&str; 7] = [
    "to_f32",
    "to_f64",
    "to_u64",
    "round_to_u64",
    "scale",
    "bandwidth_mul",
    "bandwidth_period",
];

/// How many neighbours are asked at once.
pub const RUN: u64 = 64;

/// What the function answers to a number, or to the bits of a float, with
/// another number where it takes two.
pub fn answer(function: u64, number: u64, other: u64) -> u64 {
    let float = f32::from_bits(number as u32);
    let bandwidth = Bandwidth::from_bits_per_second(other);
    match function {
        0 => (number as f32).to_bits() as u64,
        1 => (number as f64).to_bits(),
        2 => float as u64,
        3 => f64::from_bits(number).round() as u64,
        4 => (other as f32 * float) as u64,
        5 => (bandwidth * float).to_bits_per_second(),
        _ => bandwidth.to_bytes_per_period(Duration::from_nanos(number)),
    }
}

/// The number of the function of this name, if it takes the bits of an f32.
pub fn on_patterns(name: &str) -> Option<u64> {
    let function = NAMES.iter().position(|it| *it == name)? as u64;
    [2, 4, 5].contains(&function).then_some(function)
}
