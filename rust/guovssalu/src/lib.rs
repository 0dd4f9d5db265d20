//! The BBRv2 network model and the round-trip estimator of quiche 0.30.0, proved in Rattle, for Rust: a
//! safe wrapper over the archive that `make archive` writes for x86-64.
//!
//! A [`NetworkModel`], a [`Cycle`] and the round-trip estimator, an [`RttStats`], hold their state as bytes,
//! and their methods have the original's names. Each call is done, or it is refused with a [`Refusal`] and
//! changes nothing. (One exception, over bytes: a refused start in a [`run`] replaces the state by a fresh
//! one at moment 0, and a refused `new` in an [`rtt_run`] the estimator by a fresh one of 0 and 0.) The clock
//! is the caller's: a [`Moment`] is a number of nanoseconds after a base moment of its choice. Nothing
//! allocates and nothing is kept between calls.
//!
//! Beside them stand the functions on numbers, and the windowed filter: a [`filter_run`] says after each
//! pair which [`Samples`] it holds and why they moved, a [`Reason`].
//!
//! What is proved is what the archive does with the bytes it is lent. This crate, which writes and
//! reads those bytes, is tested. The numbers of calls, the places of words and the sizes are in
//! [`table`], for those who write the bytes of a [`run`] or an [`rtt_run`] themselves.
//!
//! # A loss
//!
//! A packet is lost in a window of 1300 bytes. With beta 0.3 the lower bound of the inflight becomes
//! 910 bytes.
//!
//! ```
//! use guovssalu::{CongestionEvent, Duration, Moment, NetworkModel, Params, Refusal, Sample};
//!
//! let params = Params::default();
//! let mut model = NetworkModel::new(&params, Duration::from_millis(100), Moment::from_nanos(0))?;
//! assert_eq!(model.inflight_lo(), Ok(NetworkModel::UNSET));
//!
//! let sent = Moment::from_nanos(1_000);
//! model.on_packet_sent(sent, 0, 1, 1300)?;
//!
//! let mut event = CongestionEvent::new(sent + Duration::from_millis(50), 1300, 1300, false);
//! let sample = Sample {
//!     total_bytes_lost: 1300,
//!     ..Sample::default()
//! };
//! model.on_congestion_event_start(&[1], &mut event, &sample, &params)?;
//! assert!(event.end_of_round_trip);
//! assert_eq!(event.bytes_lost, 1300);
//! model.on_congestion_event_finish(&event)?;
//! assert_eq!(model.inflight_lo(), Ok(910));
//!
//! // An earlier moment is refused, and nothing changes.
//! let refused = model.on_packet_sent(sent, 0, 2, 1300);
//! assert_eq!(refused, Err(Refusal::EarlierMoment));
//! assert_eq!(model.last_sent_packet(), 1);
//! # Ok::<(), Refusal>(())
//! ```
//!
//! # A round trip
//!
//! The first sample, 80,000,001 ns, is taken whole. Off the second, 90 ms, the 5 ms are taken by which the
//! peer says that it waited: 85 ms are left, which are not below the smallest sample.
//!
//! ```
//! use guovssalu::{Duration, Refusal, RttStats};
//!
//! let mut stats = RttStats::new(Duration::from_millis(333), Duration::from_millis(25))?;
//! assert_eq!(stats.min_rtt(), Ok(None));
//!
//! let first = Duration::from_nanos(80_000_001);
//! stats.update_rtt(first, Duration::ZERO, true)?;
//! stats.update_rtt(Duration::from_millis(90), Duration::from_millis(5), true)?;
//! assert_eq!(stats.rttvar(), Ok(Duration::from_nanos(31_249_999)));
//! assert_eq!(stats.rtt(), Ok(Duration::from_nanos(80_625_000)));
//! assert_eq!(stats.min_rtt(), Ok(Some(first)));
//! # Ok::<(), Refusal>(())
//! ```
//!
//! Both averages are whole nanoseconds, rounded down with each sample, and this does not add up. Proved, for
//! any updates of a fresh estimator, of which those that are refused don't count: [`rtt`](RttStats::rtt) is
//! never above the exact average of the same samples, less their delays, and less than 14 ns below it
//! (above, 0.875 ns); [`rttvar`](RttStats::rttvar) is less than 20 ns below the exact one, and less than
//! 14 ns above it (docs/DRIFT.md).
//!
//! # Which argument
//!
//! Where an argument is outside its bounds, the refusal says which one it is, by its place, and what kind
//! of bound it passed: a [`Fault`].
//!
//! ```
//! use guovssalu::{Duration, FaultKind, Moment, NetworkModel, Params, Refusal};
//!
//! let (params, now) = (Params::default(), Moment::from_nanos(0));
//! let refusal = NetworkModel::new(&params, Duration::from_secs(69), now).unwrap_err();
//! assert_eq!(refusal.to_string(), "2.4 at 1: initial_rtt is longer than 2^36 ns");
//! assert_eq!((refusal.number(), refusal.code()), (2, "2.4"));
//! match refusal {
//!     Refusal::BadArgument(fault) => {
//!         assert_eq!((fault.kind(), fault.place()), (FaultKind::Length, 1));
//!         assert_eq!(fault.argument(), Some("initial_rtt"));
//!     }
//!     _ => unreachable!(),
//! }
//! ```
//!
//! Before version 0.6.0 `BadArgument` had no fault: where a program matches on it, write
//! `Refusal::BadArgument(_)`, and where it compares with it,
//! `matches!(reply, Err(Refusal::BadArgument(_)))`.
//!
//! # Packet numbers
//!
//! An event that acks a packet which was never sent is refused with [`Refusal::NeverSent`], and nothing
//! of it counts: where one of its numbers is above that of the last send, and where it has a number and
//! nothing was sent since the model was made. The last send's number counts, and not the greatest; a
//! number up to it is taken, whether it was sent or not.
//!
//! So a model's packets are numbered in one rising row, in the order in which they are sent. QUIC has
//! three packet number spaces, each from 0: whoever feeds several of them into one model numbers the
//! packets of all of them in that one row. Otherwise honest acks are refused:
//!
//! ```
//! # use guovssalu::{CongestionEvent, Duration, Moment, NetworkModel, Params, Refusal, Sample};
//! # let (params, now) = (Params::default(), Moment::from_nanos(0));
//! let ack_of_3 = |sent: [u64; 2]| {
//!     let mut model = NetworkModel::new(&params, Duration::from_millis(100), now)?;
//!     for packet in sent {
//!         model.on_packet_sent(now, 0, packet, 1300)?;
//!     }
//!     let mut event = CongestionEvent::new(now, 2600, 2600, false);
//!     model.on_congestion_event_start(&[3], &mut event, &Sample::default(), &params)
//! };
//! // Packet 3 (Initial) is sent, then packet 0 (Handshake): by their own numbers, and in one row.
//! assert_eq!(ack_of_3([3, 0]), Err(Refusal::NeverSent));
//! assert_eq!(ack_of_3([3, 4]), Ok(()));
//! ```

#![deny(unsafe_code)]
#![deny(missing_docs)]

mod bandwidth;
mod call;
mod cycle;
mod event;
mod fault;
mod filter;
mod foreign;
mod model;
mod numbers;
mod params;
mod refusal;
mod rtt;
mod time;
mod words;

pub use bandwidth::Bandwidth;
pub use call::run;
pub use call::run_lists;
pub use call::Answer;
pub use call::Call;
pub use cycle::Cycle;
pub use cycle::Phase;
pub use event::CongestionEvent;
pub use event::Sample;
pub use event::SendTimeState;
pub use fault::Fault;
pub use fault::FaultKind;
pub use filter::filter_run;
pub use filter::Reason;
pub use filter::Samples;
pub use guovssalu_sys::table;
pub use model::NetworkModel;
pub use numbers::f32_to_u64;
pub use numbers::f64_round_to_u64;
pub use numbers::raise_inflight_high_slope;
pub use numbers::scale;
pub use numbers::u64_to_f32;
pub use numbers::u64_to_f64;
pub use params::Params;
pub use refusal::Refusal;
pub use rtt::rtt_run;
pub use rtt::RttAnswer;
pub use rtt::RttCall;
pub use rtt::RttStats;
pub use table::STATE_BYTES;
pub use time::Duration;
pub use time::Moment;
