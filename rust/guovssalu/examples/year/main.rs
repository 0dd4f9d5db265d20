//! A year of one connection: its calls are made on the port in runs of many, and after each that
//! touches inflight_lo the stored number is compared with the exact value. With each event the round-trip
//! estimator is given a sample, and its two averages are compared with the exact ones.
//!
//!     cargo run --release --example year -- [SEED [EVENTS]]
//!
//! The exact value is worked out from what the port is handed (rules.rs), never from its inflight_lo;
//! after each run both must agree on rounds, losses and the latest inflight. As in a real connection
//! the window follows the model: after each run it is held by inflight_lo and inflight_hi. The exact
//! averages are worked out from the samples (averages.rs). These have random numbers of their own.
//!
//! The year has 365 days whatever the number of events; with fewer the bursts are farther apart.

#![deny(unsafe_code)]

mod averages;
mod batch;
mod connection;
mod exact;
mod interval;
mod random;
mod rules;
mod tally;
mod trips;
mod weeks;

use std::env;
use std::fmt;
use std::fmt::Write;
use std::process;
use std::time::Instant;

use guovssalu::NetworkModel;

use connection::Connection;
use tally::line;
use tally::peak_resident;
use tally::DAY;

const YEAR: u64 = 365 * DAY;

/// How many events a whole year has, and the most that fit into one.
const EVENTS: u64 = 300_000_000;
const MOST_EVENTS: u64 = 4_000_000_000;

/// Runs the year and prints the report; exits with 1 where it is stopped.
fn main() {
    let arguments: Vec<String> = env::args().skip(1).collect();
    let (seed, events) = match numbers(&arguments) {
        Some(numbers) => numbers,
        None => {
            eprintln!("year [SEED [EVENTS]]: at most {} events", MOST_EVENTS);
            process::exit(2);
        }
    };
    let begun = Instant::now();
    let mut connection = Connection::new(seed);
    match carry(&mut connection, events) {
        Ok(resident) => {
            print!("{}", report(&connection, seed, resident));
            println!("{:31}{} s", "time", begun.elapsed().as_secs());
        }
        Err(why) => {
            println!("{}", progress(&connection));
            println!("stopped, seed {}: {}", seed, why);
            process::exit(1);
        }
    }
}

/// The seed and the number of events, if the arguments are such.
fn numbers(arguments: &[String]) -> Option<(u64, u64)> {
    let number = |at: usize, usual| match arguments.get(at) {
        Some(text) => text.parse().ok(),
        None => Some(usual),
    };
    let (seed, events) = (number(0, 7)?, number(1, EVENTS)?);
    let fits = arguments.len() <= 2 && (1..=MOST_EVENTS).contains(&events);
    Some((seed, events)).filter(|_| fits)
}

/// Carries the connection through the year, and shows each week where it is. Answers what was
/// resident at most after the first one.
fn carry(connection: &mut Connection, events: u64) -> Result<Option<u64>, String> {
    let mut weeks = 0;
    let mut resident = None;
    while connection.tally.events < events {
        let part = u128::from(YEAR) * u128::from(connection.tally.events) / u128::from(events);
        connection.burst(part as u64)?;
        if connection.now / (7 * DAY) > weeks {
            weeks = connection.now / (7 * DAY);
            eprintln!("{}", progress(connection));
            resident = resident.or_else(peak_resident);
        }
    }
    connection.make()?;
    Ok(resident)
}

/// One line on the way.
fn progress(connection: &Connection) -> String {
    let (tally, trips) = (&connection.tally, &connection.trips.tally);
    format!("{}, {}", tally.progress(connection.now), trips.progress())
}

/// The report.
fn report(connection: &Connection, seed: u64, resident: Option<u64>) -> String {
    let mut text = String::new();
    lines(&mut text, connection, seed, resident).expect("a string takes any text");
    text
}

/// Writes the report's lines.
fn lines(
    text: &mut String,
    connection: &Connection,
    seed: u64,
    resident: Option<u64>,
) -> fmt::Result {
    let batch = &connection.batch;
    let simulated = format!("{} days, seed {}, beta 0.3", YEAR / DAY, seed);
    line(text, "simulated", simulated)?;
    write!(text, "{}", connection.tally)?;
    match batch.inflight_lo() {
        NetworkModel::UNSET => line(text, "last inflight_lo", "unset")?,
        bytes => line(text, "last inflight_lo", format!("{} bytes", bytes))?,
    }
    line(text, "last moment", format!("{} ns", batch.moment()))?;
    write!(text, "{}", connection.trips.tally)?;
    if let Some([smoothed, variation]) = connection.trips.beside() {
        line(text, "last rtt", smoothed)?;
        line(text, "last rttvar", variation)?;
    }
    for (name, (state, room)) in [
        ("memory", batch.bytes()),
        ("memory for round trips", connection.trips.bytes()),
    ] {
        let memory = format!("state {} bytes, calls and answers {} bytes", state, room);
        line(text, name, memory)?;
    }
    if let (Some(first), Some(last)) = (resident, peak_resident()) {
        let peak = format!("{} KiB after a week, {} KiB at the end", first, last);
        line(text, "largest resident", peak)?;
    }
    Ok(())
}

#[cfg(test)]
mod tests {
    use super::*;

    use guovssalu::table::rtt_state;

    /// A year of few events is inside the bound, and none of what it is for is missing.
    #[test]
    fn a_thin_year() {
        let mut connection = Connection::new(1);
        carry(&mut connection, 200_000).unwrap();
        let tally = &connection.tally;
        assert!(tally.reductions > 10_000 && tally.held > 1_000);
        assert!(tally.held < tally.reductions / 2 + tally.reductions / 4);
        assert!(tally.caps > 500 && tally.clears > 500);
        assert!(tally.expiries > 100 && tally.refused > 0);
        assert!(tally.longest_chain > 1_000);
        assert!(tally.smallest_window == 1_300 && tally.largest_window > 16_777_000);
        assert!(tally.set == tally.inside && tally.looks > tally.reductions);
        assert!(connection.batch.moment() > 364 * DAY);
        let trips = &connection.trips.tally;
        assert!(trips.samples == tally.events && trips.inside == tally.events);
        assert!(trips.adjusted > 50_000 && trips.adjusted < 150_000);
        assert!(trips.refused > 0 && trips.progress().starts_with("rtt 13.9"));
    }

    /// An estimator that is another than it was stops the year.
    #[test]
    fn a_wrong_round_trip_stops_the_year() {
        let mut connection = Connection::new(1);
        carry(&mut connection, 1_000).unwrap();
        connection.trips.spoil(rtt_state::SMOOTHED_RTT, 1_000);
        let why = carry(&mut connection, 2_000).unwrap_err();
        assert!(why.starts_with("rtt is"), "{}", why);
    }

    /// The same seed gives the same year, another one another.
    #[test]
    fn a_seed_is_a_year() {
        let year = |seed| {
            let mut connection = Connection::new(seed);
            carry(&mut connection, 20_000).unwrap();
            format!("{}{}", connection.tally, connection.trips.tally)
        };
        assert_eq!(year(5), year(5));
        assert_ne!(year(5), year(6));
    }

    #[test]
    fn arguments() {
        let given = |words: &[&str]| {
            let words: Vec<String> = words.iter().map(|word| word.to_string()).collect();
            numbers(&words)
        };
        assert_eq!(given(&[]), Some((7, EVENTS)));
        assert_eq!(given(&["9", "1000"]), Some((9, 1000)));
        assert_eq!(given(&["9", "0"]), None);
        assert_eq!(given(&["9", "4000000001"]), None);
        assert_eq!(given(&["x"]), None);
        assert_eq!(given(&["1", "2", "3"]), None);
    }
}
