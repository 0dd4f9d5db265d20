//! The exported calls of Guovssalu for Rust, raw, as include/guovssalu.h declares them. The package
//! `guovssalu` has them safe, behind types.
//!
//! Every call takes any numbers and any bytes, keeps nothing between calls and allocates nothing.
//! A lent range of bytes is a pointer and a length; with the length 0 the pointer is not used. A
//! range that is written must not overlap another one of the call. A word is a `u64` in 8 bytes, the
//! lowest byte first, at any alignment. A lent range of numbers, the lists of
//! [`guovssalu_run_lists`], is a pointer to `u64`, aligned as such, and how many there are.
//!
//! An f32 or an f64 crosses as its bits. Every pattern of a NaN counts as a NaN.
//!
//! Where a call replies with a number: 0 is done, and any other number is a refusal, which leaves
//! every lent byte as it was. Its row is [`table::reply::row`]; where several apply, the lowest is given.
//! The calls inside a run have answers of their own: [`guovssalu_run`], [`guovssalu_run_lists`] and
//! [`guovssalu_rtt_run`].
//!
//! # Replies
//!
//! A reply has three parts, a byte each: the row of the table of replies, and for a bad argument, row 2,
//! its kind, one of [`table::fault`], and the place of the argument. For the other rows these are 0. 2.4
//! at 1 is written for row 2, kind 4, place 1: the number 2 + 256 * 4 + 65536 * 1 = 66562. In a start that
//! is initial_rtt, which is longer than 2^36 ns.
//!
//! ```
//! use guovssalu_sys::table::{fault, reply};
//!
//! assert_eq!(reply::row(66562), reply::BAD_ARGUMENT);
//! assert_eq!((reply::kind(66562), reply::place(66562)), (fault::LENGTH, 1));
//! ```
//!
//! Places are counted from 1, without the model, the cycle and the parameters, in the order of the
//! original's methods: [`table::place`] has them with what is said of each. Where several arguments are
//! bad the first is named, and of a record its first field. docs/REFUSALS.md has every reply of row 2.
//!
//! Before version 0.6.0 a bad argument's reply was 2 alone: instead of comparing a reply with
//! [`table::reply::BAD_ARGUMENT`], compare its row.
//!
//! # Packet numbers
//!
//! An event, [`table::call::ON_CONGESTION_EVENT_START`], that acks a packet which was never sent is
//! refused with [`table::reply::NEVER_SENT`]. So a model's packets are numbered in one rising row, in the
//! order in which they are sent, those of QUIC's three packet number spaces too, each of which begins at
//! 0. The header, include/guovssalu.h, has an example.
//!
//! # Safety
//!
//! A call on numbers is always safe. A call on lent ranges needs ranges that may be read, and written
//! where the pointer is `*mut`; one that is written overlaps no other, and one of numbers is aligned.
//! No call keeps a pointer.
//!
//! # Linking
//!
//! The feature `link`, which is on by default, has the archive linked that `make archive`
//! writes for x86-64. Without it nothing is linked and no archive is looked for: the numbers, places
//! and sizes of [`table`] are there all the same.

#![no_std]
#![deny(missing_docs)]

pub mod table;

extern "C" {
    /// The bits of the f32 nearest to n, a tie to the one whose last digit is even.
    pub fn guovssalu_u64_to_f32(n: u64) -> u32;

    /// The bits of the f64 nearest to n, a tie to the one whose last digit is even.
    pub fn guovssalu_u64_to_f64(n: u64) -> u64;

    /// The f32 without its fraction; 0 for a NaN or a negative, 2^64 - 1 for what is too large.
    pub fn guovssalu_f32_to_u64(bits: u32) -> u64;

    /// The f64 to the nearest whole number, a half away from zero; 0 for a NaN or a negative, 2^64 - 1
    /// for what is too large.
    pub fn guovssalu_f64_round_to_u64(bits: u64) -> u64;

    /// n as an f32, times the gain, without its fraction.
    pub fn guovssalu_scale(n: u64, gain: u32) -> u64;

    /// A bandwidth in bits per second times the gain, by way of an f64, to the nearest whole number.
    pub fn guovssalu_bandwidth_mul_f32(bandwidth: u64, gain: u32) -> u64;

    /// The whole bytes that a bandwidth in bits per second carries in so many nanoseconds, at most
    /// 2^64 - 1. The bandwidth 2^64 - 1 stands for an infinite one.
    pub fn guovssalu_to_bytes_per_period(bandwidth: u64, nanos: u64) -> u64;

    /// Writes two words, [`table::SLOPE_BYTES`]: the next probe_up_rounds, which is rounds + 1 or at most
    /// 30, and probe_up_bytes, which is window / 2^rounds or at least 1300. Bytes past them keep what
    /// they held. Replies 1 for rounds over 30, 2.1 at 2 for a window above 2^40, 7 for a shorter output.
    pub fn guovssalu_raise_inflight_high_slope(
        rounds: u64,
        window: u64,
        out: *mut u8,
        out_len: usize,
    ) -> u64;

    /// Runs an empty filter of the given window over pairs of words, a time and a sample,
    /// [`table::PAIR_BYTES`] to a pair. For each pair it writes four words, [`table::SAMPLES_BYTES`]: the
    /// best, the second best and the third best sample after that pair, and in the word
    /// [`table::samples::REASON`] why they moved. That is the step of the update that acted last, by its
    /// number: [`table::reason::ALL_REPLACED`] to [`table::reason::UNCHANGED`]. The best is at most the
    /// largest sample of the window, and may be below it: docs/ESTIMATE.md has what is promised of the
    /// three. Bytes past the answer keep what they held. Replies 2.8 at 2 for a part of a pair, 3 if a pair's
    /// time is earlier than one of the three times that the filter holds then, 7 for an output of under
    /// [`table::SAMPLES_BYTES`] a pair.
    pub fn guovssalu_filter_run(
        window: u64,
        src: *const u8,
        src_len: usize,
        out: *mut u8,
        out_len: usize,
    ) -> u64;

    /// Carries out calls in order on the state in lent bytes, and leaves the new state there: the model
    /// and its cycle, [`table::STATE_BYTES`]. A call has [`table::CALL_BYTES`], its answer
    /// [`table::ANSWER_BYTES`]; docs/LAYOUT.md says how each word is written. Begin with a start,
    /// [`table::call::START`], on a state of zeros. Bytes of answers past the last keep what they held.
    ///
    /// The first word of a call's answer, [`table::REPLY_IN_ANSWER`], is 0 where the call was done, and the
    /// refusal, whose row is 1 to 5 or 10, where it was refused; the run goes on. Where several rows apply,
    /// the first of 1, 2, 3, 4, 10 and 5 is given. The run's own reply of 0 says nothing of its calls: look
    /// at each answer. A refused call changes nothing, but for a start, which then replaces the state by a
    /// fresh one at moment 0: look at its answer before going on.
    ///
    /// A call's words are tested. A flag that is neither 0 nor 1, an f32 with bits above the 32nd, two
    /// words of a number that may be unset that are neither 1 and the number nor 0 and 0, and a count of
    /// acked numbers above 3 refuse the call that uses them: with 2.8 at the argument's place, or with 1 in
    /// the parameters. So a flag is written as (flag ? 1 : 0). A number that is no call's is refused with
    /// 2.8 at 0, or with 1 where the stored model is out of bounds.
    ///
    /// An event's acked numbers may stand in any order: the greatest counts. An event with a number above
    /// the last sent one, or with any before the first send, is refused with 10. More than 3 of them go by
    /// [`guovssalu_run_lists`].
    ///
    /// The run itself replies 1 for bytes that encode no state, 2.8 at 1 for a state of another length, 2.8
    /// at 2 for a part of a call, 7 for answers too short for the calls.
    pub fn guovssalu_run(
        state: *mut u8,
        state_len: usize,
        calls: *const u8,
        calls_len: usize,
        answers: *mut u8,
        answers_len: usize,
    ) -> u64;

    /// The same as [`guovssalu_run`], with lists beside the calls, from which an event can take as many
    /// acked numbers as there are. The lists are lists_len numbers, only read; with the length 0 the
    /// pointer is not used, and the run is [`guovssalu_run`].
    ///
    /// An event, [`table::call::ON_CONGESTION_EVENT_START`], has n acked numbers, its word
    /// [`table::sample::ACKED_COUNT`]. Up to [`table::MOST_ACKED`] stand in the event itself, from the
    /// word [`table::sample::ACKED_PACKETS`] on, and the lists are not looked at. More stand in the
    /// lists: they are the n numbers from place s on, counted from 0, where s is the event's word
    /// [`table::sample::ACKED_PACKETS`]; the two words after that are not looked at. Where the lists
    /// don't hold them all, s + n being above lists_len, that event is refused with 2.8 at 1, or with 1
    /// where that applies too, and the run goes on. Events may take the same numbers.
    ///
    /// The run's own replies are those of [`guovssalu_run`], whatever the lists are.
    pub fn guovssalu_run_lists(
        state: *mut u8,
        state_len: usize,
        calls: *const u8,
        calls_len: usize,
        lists: *const u64,
        lists_len: usize,
        answers: *mut u8,
        answers_len: usize,
    ) -> u64;

    /// Carries out calls in order on the round-trip estimator in lent bytes, and leaves it there as it then
    /// is: [`table::RTT_STATE_BYTES`]. A call has [`table::RTT_CALL_BYTES`], its answer
    /// [`table::RTT_ANSWER_BYTES`]; docs/LAYOUT.md says how each word is written. Begin with
    /// [`table::rtt_call::NEW`], on a state of zeros. Bytes of answers past the last keep what they held.
    ///
    /// Zeros are taken for what they say. A call of zeros is a new of 0 and 0, and it is done: a record of
    /// a run that was left unfilled begins anew, with reply 0. An update on a state of zeros, where the new
    /// was forgotten, is done too, with a max_ack_delay of 0.
    ///
    /// An answer has the call's reply, [`table::rtt_answer::REPLY`], and after it four numbers of the
    /// estimator as the call left it. A refused call has its refusal there, whose row is 1 or 2, and four
    /// times 0; the run goes on. The run's own reply of 0 says nothing of its calls: look at each answer. A
    /// refused call changes nothing, but for a new, which then leaves an estimator of zeros.
    ///
    /// Until the first sample the least one, [`table::rtt_answer::MIN_RTT`], is [`table::UNSET`] in an
    /// answer, while the state's word, [`table::rtt_state::MIN_RTT`], is initial_rtt. To ask without a
    /// sample, read the state's words, or call [`table::rtt_call::UPDATE_MAX_ACK_DELAY`] with what
    /// max_ack_delay already is.
    ///
    /// An update, [`table::rtt_call::UPDATE_RTT`], takes a sample, the delay with which the peer says that
    /// it acked, and whether the handshake is confirmed: if it is, the delay counts as max_ack_delay at
    /// most. The delay is taken off where that leaves no less than the least sample. The first sample since
    /// the new is taken as it is. [`table::rtt_call::UPDATE_MAX_ACK_DELAY`] sets max_ack_delay alone.
    ///
    /// The delay is what the peer wrote, and can be any number: above 2^36 ns the call is refused and the
    /// sample not taken, the first one neither. Cut it first, to [`table::LONGEST`].
    ///
    /// Proved of all updates since a new, those that were refused left out: the smoothed round trip is
    /// never above the average that exact fractions have of the same samples, less the same delays, and
    /// less than 14 ns below it. The variation is less than 20 ns below the exact one, and less than 14 ns
    /// above it.
    ///
    /// A call is refused with 1 where a stored length is above 2^36 ns, but for a new, which reads none;
    /// with 2.4 at the argument's place for a length above 2^36 ns, with 2.8 at 3 for a flag that is
    /// neither 0 nor 1, with 2.8 at 0 for a number that is no call's.
    ///
    /// The run itself replies 1 where the last word of the state,
    /// [`table::rtt_state::HAS_FIRST_RTT_SAMPLE`], is neither 0 nor 1, also where the first call is a new;
    /// 2.8 at 1 for a state of another length, 2.8 at 2 for a part of a call, 7 for answers too short for
    /// the calls.
    pub fn guovssalu_rtt_run(
        state: *mut u8,
        state_len: usize,
        calls: *const u8,
        calls_len: usize,
        answers: *mut u8,
        answers_len: usize,
    ) -> u64;
}
