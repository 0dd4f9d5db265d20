#!/usr/bin/env python3
"""Small changes to the original, each of which the comparison with the port must notice; and to what the oracle reads or
does apart from it: the reason of a windowed filter's update, the refusals of a round's end where the count is full and of
a number that was never sent, the note of whether anything was sent, the order in which the original is asked acked
numbers, what a refusal with 2 names, the kind of bound and the place of the argument, and the words and the refusals of
the round-trip estimator. What the original does with a number that was never sent is no change here: it isn't asked such
an event, so whether it lets one through is told by no accepted call. Nor is the order in which an update of the estimator
lowers the minimum and tests the sample by it: a sample below the minimum is taken whole either way.

    tests/changes.py [SEED [CALLS]]

Copies the files of the original that were ported, and the oracle, to a temporary folder, makes one change at a time,
builds the oracle with the changed file, and compares with the port by `diff` (a change to the windowed filter or to the
reading by `filter`, one to what the exported calls write or name by `exports`, one to the estimator by `rtt`, one that
only long lists of acked numbers, wrong lengths of a run or long runs of the estimator show by `lists` or `rtt-runs`). A
change is noticed where something differs, or where the original overflows in a call that had to be refused. One that
isn't noticed is listed, and the script ends with 1. PORT is the command of the port; without it the unchanged oracle
answers in its place, which tries the comparison alone. `lists` and `rtt-runs` ask the archive in target/staticlib, or the
one that GUOVSSALU_ARCHIVE names by its full path; where there is none it says so, and leaves their changes out. ORIGINAL
says where the original is, as for the oracle. COMMANDS, where it is set, names the comparisons whose changes are made."""

import os
import shutil
import subprocess
import sys
import tempfile

ROOT = os.path.dirname(os.path.dirname(os.path.abspath(__file__)))
PACKAGE = os.path.join(ROOT, "oracle")
BANDWIDTH = "bandwidth.rs"
FILTER = "gcongestion/bbr/windowed_filter.rs"
MODEL = "gcongestion/bbr2/network_model.rs"
PROBE = "gcongestion/bbr2/probe_bw.rs"
MODE = "gcongestion/bbr2/mode.rs"
STATS = "rtt.rs"
# Of the oracle: the reading, where in it is what the exported filter run writes, the answers, where in them is what a
# refused start leaves, the refusals, what those with 2 name, where in that are the exported calls, the lengths of a run,
# the estimator's words and refusals, and the host of the original.
READING = "windowed.rs"
EXPORTED = "pub fn run("
ANSWERS = "world.rs"
LEFT = "fn start_refused"
REPLIES = "replies.rs"
PLACES = "places.rs"
PAIRS = "const PAIRS_LENGTH"
SLOPE = "const SLOPE_WINDOW"
LENGTHS = "lengths.rs"
ESTIMATOR = "estimator.rs"
HOST = "appended/probe_bw.rs"
OURS = (READING, ANSWERS, REPLIES, PLACES, LENGTHS, ESTIMATOR, HOST)
ARCHIVE = os.environ.get("GUOVSSALU_ARCHIVE") or os.path.join(ROOT, "target/staticlib/libguovssalu.a")
OF_ARCHIVE = ("lists", "rtt-runs")

# In which file; after which words, that occur once; what is found first after them; what is put in its place.
CHANGES = [
    (BANDWIDTH, "rhs: f64)", ".round()", ".trunc()"),
    (BANDWIDTH, "rhs: f64)", ".round()", ".ceil()"),
    (BANDWIDTH, "rhs: f64)", ".round()", ".round_ties_even()"),
    (BANDWIDTH, "rhs: f32)", "rhs as f64", "(rhs as f64 + 1e-9)"),
    (BANDWIDTH, "pub const fn zero()", "0", "1"),
    (BANDWIDTH, "NUM_NANOS_PER_SECOND: u64", "1000", "1001"),
    (BANDWIDTH, "fn to_bytes_per_period", "return bits / (8", "return bits / (7"),
    (BANDWIDTH, "fn to_bytes_per_period", "let bytes = bits / (8", "let bytes = bits / (9"),
    (BANDWIDTH, "fn to_bytes_per_period", "checked_mul(time_nanos)", "checked_mul(time_nanos).or(Some(u64::MAX))"),
    (FILTER, "pub fn clear", "self.estimates = [None, None, None];", ""),
    (FILTER, "pub fn update", "new_sample > best", "new_sample >= best"),
    (FILTER, "pub fn update", ".time >", ".time >="),
    (FILTER, "pub fn update", "new_sample > self.estimates[1]", "new_sample >= self.estimates[1]"),
    (FILTER, "pub fn update", "self.estimates[2] = self.estimates[1];", ""),
    (FILTER, "pub fn update", "new_sample > self.estimates[2]", "new_sample >= self.estimates[2]"),
    (FILTER, "// Expire and update", ".time >", ".time >="),
    (FILTER, "// Expire and update", "[0] = self.estimates[1]", "[0] = self.estimates[2]"),
    (FILTER, "// Expire and update", "self.estimates[1] = self.estimates[2];", ""),
    (FILTER, "check at the start", ".time >", ".time >="),
    (FILTER, "check at the start", "self.estimates[1] = self.estimates[2];", ""),
    (FILTER, "check at the start", ".sample ==", ".sample !="),
    (FILTER, "check at the start", "/ 4", "/ 3"),
    (FILTER, "// second-best estimate", "self.estimates[2] = self.estimates[1];", ""),
    (FILTER, "// second-best estimate", "/ 2", "/ 4"),
    (FILTER, "// take a third-best", "self.estimates[2] =", "self.estimates[1] ="),
    (FILTER, "check at the start", ".sample == self", ".sample <= self"),
    (FILTER, "check at the start", ".unwrap().sample &&", ".unwrap().sample && new_time - self.estimates[1].unwrap().time == new_time - self.estimates[0].unwrap().time &&"),
    (FILTER, "// second-best estimate", ".sample == self", ".sample <= self"),
    (FILTER, "// second-best estimate", ".unwrap().sample &&", ".unwrap().sample && new_time - self.estimates[2].unwrap().time == new_time - self.estimates[1].unwrap().time &&"),
    (MODEL, "DEFAULT_MSS: usize", "1300", "1301"),
    (MODEL, "fn on_packets_acked", "<= pkt", "< pkt"),
    (MODEL, "fn on_packets_acked", "self.round_trip_count += 1;", ""),
    (MODEL, "fn on_packets_acked", "Some(self.last_sent_packet)", "Some(last_acked_packet)"),
    (MODEL, "fn restart_round(", "Some(self.last_sent_packet)", "None"),
    (MODEL, "fn update(&mut self, sample_rtt", "sample_rtt <", "sample_rtt <="),
    (MODEL, "fn update(&mut self, sample_rtt", "self.min_rtt_timestamp = now;", ""),
    (MODEL, "fn force_update(", "self.min_rtt_timestamp = now;", ""),
    (MODEL, "impl MaxBandwidthFilter", ".max(", ".min("),
    (MODEL, "fn update(&mut self, sample: ", "self.max_bandwidth[1].max(sample)", "sample"),
    (MODEL, "fn advance(&mut self)", "[1] ==", "[0] =="),
    (MODEL, "fn advance(&mut self)", "self.max_bandwidth[1] = Bandwidth::zero();", ""),
    (MODEL, "fn new(params", "usize::MAX", "0"),
    (MODEL, "fn new(params", "params.startup_cwnd_gain", "params.startup_pacing_gain"),
    (MODEL, "fn bandwidth_estimate", "a.min(b)", "a"),
    (MODEL, "fn bdp1", "1.0", "1.001"),
    (MODEL, "&mut self, sent_time", ".min(bytes_in_flight)", ".min(bytes_in_flight + bytes)"),
    (MODEL, "&mut self, sent_time", "bytes >=", "bytes >"),
    (MODEL, "fn on_congestion_event_start", ".last()", ".first()"),
    (MODEL, "fn on_congestion_event_start", "extra_acked == 0", "extra_acked <= 1"),
    (MODEL, "fn on_congestion_event_start", ".prior_bytes_in_flight >=", ".prior_bytes_in_flight >"),
    (MODEL, "fn on_congestion_event_start", "if sample.last_packet_send_state.is_valid", "if true"),
    (MODEL, "fn on_congestion_event_start", "prior_bytes_acked != self.total_bytes_acked()", "true"),
    (MODEL, "fn on_congestion_event_start", "!sample.sample_is_app_limited ||", ""),
    (MODEL, "fn on_congestion_event_start", "sample_max > self", "sample_max >= self"),
    (MODEL, "fn on_congestion_event_start", "= sample.sample_max_send_rate", "= sample.sample_max_ack_rate"),
    (MODEL, "fn on_congestion_event_start", ".saturating_sub(congestion_event.bytes_lost)", ""),
    (MODEL, "fn on_congestion_event_start", "bytes_lost > 0", "bytes_lost > 1"),
    (MODEL, "fn on_congestion_event_start", "self.loss_events_in_round += 1;", ""),
    (MODEL, "fn on_congestion_event_start", "congestion_event.bytes_acked > 0 &&", ""),
    (MODEL, "fn on_congestion_event_start", "self.max_bytes_delivered_in_round.max(bytes_delivered)", "bytes_delivered"),
    (MODEL, "fn on_congestion_event_start", ".min(congestion_event.bytes_in_flight)", ""),
    (MODEL, "fn on_congestion_event_start", "sample_max_bandwidth > Some(self.bandwidth_latest)", "sample_max_bandwidth.is_some()"),
    (MODEL, "fn on_congestion_event_start", "> self.inflight_latest", "!= self.inflight_latest"),
    (MODEL, "fn on_congestion_event_start", "if !congestion_event.end_of_round_trip", "if false"),
    (MODEL, "fn on_congestion_event_start", "sample_max_inflight > 0", "sample_max_inflight > 1"),
    (MODEL, "fn adapt_lower_bounds", "!congestion_event.end_of_round_trip", "false"),
    (MODEL, "fn adapt_lower_bounds", "congestion_event.is_probing_for_bandwidth", "false"),
    (MODEL, "fn adapt_lower_bounds", "self.bytes_lost_in_round > 0", "congestion_event.bytes_lost > 0"),
    (MODEL, "fn adapt_lower_bounds", "Some(self.max_bandwidth())", "Some(self.bandwidth_latest)"),
    (MODEL, "fn adapt_lower_bounds", "1.0 - params.beta", "params.beta"),
    (MODEL, "fn adapt_lower_bounds", "= congestion_event.prior_cwnd", "= congestion_event.prior_bytes_in_flight"),
    (MODEL, "let inflight_lo_new", "self.inflight_lo as f32 * (1.0 - params.beta)", "self.inflight_lo as f64 * (1.0 - params.beta) as f64"),
    (MODEL, "let inflight_lo_new", "self.inflight_latest.max(inflight_lo_new)", "inflight_lo_new"),
    (MODEL, "fn on_congestion_event_finish", "if congestion_event.end_of_round_trip", "if true"),
    (MODEL, "fn maybe_expire_min_rtt", "event_time <", "event_time <="),
    (MODEL, "fn is_inflight_too_high", "!send_state.is_valid", "false"),
    (MODEL, "fn is_inflight_too_high", "in_round < max", "in_round <= max"),
    (MODEL, "fn is_inflight_too_high", "inflight_at_send > 0 &&", ""),
    (MODEL, "fn is_inflight_too_high", "inflight_at_send as f32", "inflight_at_send as f64 as f32 * 1.0000001"),
    (MODEL, "fn is_inflight_too_high", "in_round > lost", "in_round >= lost"),
    (MODEL, "fn restart_round_early", "self.rounds_with_queueing = 0;", ""),
    (MODEL, "fn on_new_round", "self.loss_events_in_round = 0;", ""),
    (MODEL, "fn on_new_round", "self.max_bytes_delivered_in_round = 0;", ""),
    (MODEL, "fn on_new_round", "usize::MAX", "0"),
    (MODEL, "fn on_new_round", "self.inflight_hi_limited_in_round = false;", ""),
    (MODEL, "fn has_bandwidth_growth", "self.max_bandwidth() >=", "self.max_bandwidth() >"),
    (MODEL, "fn has_bandwidth_growth", "self.rounds_without_bandwidth_growth = 0;", ""),
    (MODEL, "fn has_bandwidth_growth", "self.ignore_app_limited_for_no_bandwidth_growth &&", ""),
    (MODEL, "fn has_bandwidth_growth", "growth >= params", "growth > params"),
    (MODEL, "fn has_bandwidth_growth", "&&\n            !congestion_event.last_packet_send_state.is_app_limited", ""),
    (MODEL, "fn queueing_threshold_extra_bytes", "2 * DEFAULT_MSS", "3 * DEFAULT_MSS"),
    (MODEL, "fn check_persistent_queue", ".max(", ".min("),
    (MODEL, "fn check_persistent_queue", "< target", "<= target"),
    (MODEL, "fn check_persistent_queue", "self.rounds_with_queueing = 0;", ""),
    (MODEL, "fn check_persistent_queue", "queueing >= params", "queueing > params"),
    (MODEL, "fn set_pacing_gain", "self.pacing_gain", "self.cwnd_gain"),
    (MODEL, "fn inflight_hi_with_headroom", "params.inflight_hi_headroom", "params.loss_threshold"),
    (MODEL, "fn inflight_hi_with_headroom", "self.inflight_hi.saturating_sub(headroom)", "headroom"),
    (MODEL, "fn cap_inflight_lo", "self.inflight_lo != usize::MAX", "true"),
    (MODEL, "fn cap_inflight_lo", "cap.min(self.inflight_lo)", "cap"),
    (MODEL, "fn clear_bandwidth_lo", "self.bandwidth_lo = None", ""),
    (MODEL, "fn postpone_min_rtt_timestamp", "self.min_rtt_timestamp().add(duration)", "self.min_rtt_timestamp()"),
    (PROBE, "fn enter_probe_down", "= probed_too_high", "= stopped_risky_probe"),
    (PROBE, "fn enter_probe_down", "cycle.start_time = now;", ""),
    (PROBE, "fn enter_probe_down", "cycle.phase_start_time = now;", ""),
    (PROBE, "fn enter_probe_down", "cycle.rounds_in_phase = 0;", ""),
    (PROBE, "fn enter_probe_down", "cycle.rounds_since_probe = 0;", ""),
    (PROBE, "fn enter_probe_down", "from_micros(500)", "from_nanos(500)"),
    (PROBE, "fn enter_probe_down", "cycle.probe_up_bytes = None;", ""),
    (PROBE, "fn enter_probe_down", "cycle.probe_up_app_limited_since_inflight_hi_limited = false;", ""),
    (PROBE, "fn enter_probe_down", "cycle.has_advanced_max_bw = false;", ""),
    (PROBE, "fn enter_probe_down", "self.model.restart_round_early();", ""),
    (PROBE, "fn enter_probe_cruise", "== CyclePhase::Down", "!= CyclePhase::Down"),
    (PROBE, "fn enter_probe_cruise", "self.model.inflight_hi()", "self.model.inflight_lo()"),
    (PROBE, "fn enter_probe_cruise", "cycle.is_sample_from_probing = false;", ""),
    (PROBE, "fn enter_probe_refill", "self.exit_probe_down();", ""),
    (PROBE, "fn enter_probe_refill", "cycle.last_cycle_stopped_risky_probe = false;", ""),
    (PROBE, "fn enter_probe_refill", "self.model.clear_inflight_lo();", ""),
    (PROBE, "fn enter_probe_refill", "cycle.probe_up_rounds = probe_up_rounds;", ""),
    (PROBE, "fn enter_probe_refill", "cycle.probe_up_acked = 0;", ""),
    (PROBE, "fn enter_probe_up", "is_sample_from_probing = true", "is_sample_from_probing = false"),
    (PROBE, "fn enter_probe_up", "self.raise_inflight_high_slope(cwnd);", ""),
    (PROBE, "fn enter_probe_up", "self.model.restart_round_early();", ""),
    (PROBE, "fn exit_probe_down", "if !self", "if self"),
    (PROBE, "fn exit_probe_down", "self.cycle.has_advanced_max_bw = true;", ""),
    (PROBE, "fn raise_inflight_high_slope", "1usize <<", "2usize <<"),
    (PROBE, "fn raise_inflight_high_slope", ".min(30)", ".min(29)"),
    (PROBE, "fn raise_inflight_high_slope", "cwnd /", "1 + cwnd /"),
    (PROBE, "fn raise_inflight_high_slope", ".max(DEFAULT_MSS)", ".max(DEFAULT_MSS - 1)"),
    (MODE, "impl Default for Cycle", "CyclePhase::NotStarted", "CyclePhase::Cruise"),
    (MODE, "impl Default for Cycle", "probe_wait_time: None", "probe_wait_time: Some(Duration::ZERO)"),
    (MODE, "impl Default for Cycle", "probe_up_rounds: 0", "probe_up_rounds: 1"),
    (MODE, "impl Default for Cycle", "has_advanced_max_bw: false", "has_advanced_max_bw: true"),
    (READING, '"3: shifted once"', "reason::PROMOTED_ONCE", "update.raised.min(reason::PROMOTED_ONCE)"),
    (READING, '"3: shifted twice"', "reason::PROMOTED_TWICE", "update.raised.min(reason::PROMOTED_TWICE)"),
    (READING, '"4: second and third"', "reason::QUARTER_REFRESH", "update.raised.min(reason::QUARTER_REFRESH)"),
    (READING, '"3: shifted twice"', "reason::PROMOTED_TWICE", "reason::PROMOTED_ONCE"),
    (READING, '"3: shifted once"', "reason::PROMOTED_ONCE", "reason::PROMOTED_TWICE"),
    (READING, '"4: second and third"', "reason::QUARTER_REFRESH", "reason::HALF_REFRESH"),
    (READING, '"5: third"', "reason::HALF_REFRESH", "reason::QUARTER_REFRESH"),
    (READING, '"3: shifted once"', "return update;", "if update.held == [new; 3] {\n            update.reason = reason::ALL_REPLACED;\n        }\n        return update;"),
    (READING, '"2: above the second"', "reason::SECOND_RAISED", "reason::THIRD_RAISED"),
    (READING, '"2: above the third"', "reason::THIRD_RAISED", "reason::SECOND_RAISED"),
    (READING, '"none of 3 to 5"', "update.raised", "reason::UNCHANGED"),
    (READING, '"1: third too old"', ");", "); update.reason = reason::PROMOTED_TWICE;"),
    (READING, "let mut update = Foreseen", "reason::ALL_REPLACED", "reason::UNCHANGED"),
    (READING, EXPORTED, "filter[2], filter[4], filter[6], updated.reason", "updated.reason, filter[2], filter[4], filter[6]"),
    (READING, EXPORTED, "lent < WORD_BYTES * words.len()", "lent < 24 * updates.len()"),
    (ANSWERS, "Step::Filter { op: 2, x, y }", "reason::UNCHANGED", "reason::ALL_REPLACED"),
    (ANSWERS, "windowed::operate(&mut self.filter", "self.answer(0, 0", "self.answer(0, reason::UNCHANGED"),
    (REPLIES, "fn overflows", "acked.iter().max()", "acked.first()"),
    (REPLIES, "fn overflows", "acked.iter().max()", "acked.last()"),
    (REPLIES, "fn overflows", "it > state[END]", "it >= state[END]"),
    (HOST, "pub fn event_of", "numbers.sort();", ""),
    (HOST, "pub fn event_of", "numbers.sort();", "numbers.reverse();"),
    (HOST, "pub fn event_of", "numbers.sort();", "numbers.sort(); numbers.truncate(2);"),
    (REPLIES, "pub fn reply_with", "never_sent(acked, state)", "false"),
    (REPLIES, "pub fn reply_with", "total_falls(call, state)", "total_falls(call, state) && !never_sent(acked, state)"),
    (REPLIES, "pub fn reply_with", "never_sent(acked, state)", "never_sent(acked, state) && !overflows(call, acked, state, start)"),
    (REPLIES, "pub fn reply_with", "never_sent(acked, state)", "(never_sent(acked, state) || matches!(call, Call::Event(_)) && state[ANYTHING_SENT] == 0)"),
    (REPLIES, "pub fn never_sent", "state[ANYTHING_SENT] == 0 ||", ""),
    (REPLIES, "pub fn never_sent", "number >", "number >="),
    (REPLIES, "pub fn never_sent", "acked.iter().any(unsent)", "acked.first().is_some_and(unsent)"),
    (REPLIES, "pub fn never_sent", "acked.iter().any(unsent)", "acked.last().is_some_and(unsent)"),
    (HOST, "pub fn sent(", "self.anything_sent = true;", ""),
    (HOST, "fn at(", "anything_sent: false", "anything_sent: true"),
    (HOST, "fn begin(", "self.last = moment.max(self.last);", "self.last = moment.max(self.last); self.anything_sent = true;"),
    (ANSWERS, LEFT, "self.state = self.host.state();", "let sent = self.state[crate::model::field::ANYTHING_SENT]; self.state = self.host.state(); self.state[crate::model::field::ANYTHING_SENT] = sent;"),
    # The word that says it.
    (PLACES, "pub const fn reply", "+ (1 << 16) * self.place", ""),
    (PLACES, "pub const fn reply", "(1 << 8) * self.kind as u64 +", ""),
    (PLACES, "pub const fn reply", "(1 << 16) * self.place", "(1 << 16) * (self.place + 1)"),
    (PLACES, "pub const fn reply", "(1 << 8) * self.kind as u64 + (1 << 16) * self.place", "(1 << 16) * self.kind as u64 + (1 << 8) * self.place"),
    # Which fault is named.
    (PLACES, "pub fn of_words", ".next()", ".min_by_key(|fault| fault.kind)"),
    (PLACES, "pub fn of_words", ".next()", ".last()"),
    (PLACES, "pub fn of_words", ".next()", ".find(|fault| fault.kind == Kind::Form).or_else(|| all(words, lists).map(|(_, fault)| fault).next())"),
    (PLACES, "pub fn of_words", ".next()", ".find(|fault| fault.kind != Kind::Form).or_else(|| all(words, lists).map(|(_, fault)| fault).next())"),
    (PLACES, "pub fn all", "lists)?", "lists).filter(|_| words[EVENT_IN_CALL + event::LAST_PACKET_SEND_STATE_IS_VALID] == 1 || word < EVENT_IN_CALL + event::LAST_PACKET_SEND_STATE_TOTAL_BYTES_ACKED)?"),
    (PLACES, "pub fn all", "lists)?", "lists).filter(|_| words[sample::LAST_PACKET_SEND_STATE_IS_VALID] == 1 || ![sample::LAST_PACKET_SEND_STATE_TOTAL_BYTES_ACKED, sample::LAST_PACKET_SEND_STATE_BYTES_IN_FLIGHT].contains(&word))?"),
    (PLACES, "pub fn of_call", "of_words(words, 0)", "of_words(words, 0).filter(|_| !passes_moment(words, state))"),
    (PLACES, "pub fn of_call", "Kind::Moment, 1", "Kind::Length, 1"),
    (PLACES, "pub fn of_call", "Kind::Moment, 1", "Kind::Moment, 2"),
    # The places of arguments, and the order of fields.
    (PLACES, "pub fn fields", "(1..)", "(0..)"),
    (PLACES, "call::START =>", "&[(start::INITIAL_RTT, A_LENGTH)], &[(start::NOW, A_MOMENT)]", "&[(start::NOW, A_MOMENT)], &[(start::INITIAL_RTT, A_LENGTH)]"),
    (PLACES, "call::ON_PACKET_SENT =>", "FREE,", ""),
    (PLACES, "call::ON_CONGESTION_EVENT_START =>", "ACKED, EVENT, SAMPLE", "ACKED, SAMPLE, EVENT"),
    (PLACES, "call::ON_CONGESTION_EVENT_START =>", "ACKED, EVENT, SAMPLE", "EVENT, ACKED, SAMPLE"),
    (PLACES, "call::IS_INFLIGHT_TOO_HIGH =>", "EVENT, FREE", "FREE, EVENT"),
    (PLACES, "call::BDP =>", "&[(bdp::BANDWIDTH, A_BANDWIDTH)], &[(bdp::GAIN, Gain)]", "&[(bdp::GAIN, Gain)], &[(bdp::BANDWIDTH, A_BANDWIDTH)]"),
    (PLACES, "call::ENTER_PROBE_DOWN =>", "&[(enter_probe_down::PROBED_TOO_HIGH, Flag)],", "&[(enter_probe_down::NOW, A_MOMENT)], &[(enter_probe_down::PROBED_TOO_HIGH, Flag)],"),
    (PLACES, "call::ENTER_PROBE_UP =>", "&[(enter_probe_up::NOW, A_MOMENT)],", "&[(enter_probe_up::CWND, A_WINDOW)], &[(enter_probe_up::NOW, A_MOMENT)],"),
    (PLACES, "const EVENT", "(EVENT_IN_CALL + event::EVENT_TIME, A_MOMENT),", "(EVENT_IN_CALL + event::PRIOR_CWND, A_WINDOW), (EVENT_IN_CALL + event::EVENT_TIME, A_MOMENT),"),
    (PLACES, "const SAMPLE", "(sample::SAMPLE_MAX_BANDWIDTH_SET, BANDWIDTH_OR_NONE),", "(sample::TOTAL_BYTES_ACKED, A_TOTAL), (sample::SAMPLE_MAX_BANDWIDTH_SET, BANDWIDTH_OR_NONE),"),
    (PLACES, "const NO_CALL", "Form, 0", "Form, 1"),
    # The kinds of bounds.
    (PLACES, "const A_WINDOW", "Kind::Window", "Kind::Bytes"),
    (PLACES, "const A_COUNT", "Kind::Bytes", "Kind::Window"),
    (PLACES, "const A_LENGTH", "Kind::Length", "Kind::Moment"),
    (PLACES, "const A_TOTAL", "Kind::Total", "Kind::Bytes"),
    (PLACES, "event::BYTES_LOST", "A_TOTAL", "UpTo(TOTAL, Kind::Bytes)"),
    (PLACES, "event::LAST_PACKET_SEND_STATE_TOTAL_BYTES_ACKED", "A_TOTAL", "UpTo(TOTAL, Kind::Bytes)"),
    (PLACES, "const A_MOMENT", "Kind::Moment", "Kind::Length"),
    (PLACES, "const BANDWIDTH_OR_NONE", "Kind::Bandwidth", "Kind::Bytes"),
    (PLACES, "enter_probe_refill::PROBE_UP_ROUNDS", "Kind::UpRounds", "Kind::Bytes"),
    (PLACES, "Bound => (words", "Kind::Bytes", "Kind::Window"),
    (PLACES, "Flag => (words", "Kind::Form", "Kind::Gain"),
    (PLACES, "Gain if words[0]", "Kind::Form", "Kind::Gain"),
    (PLACES, "Gain if words[0]", ">> 32 != 0", ">> 32 != 0 && bounds::gain(f32::from_bits(words[0] as u32))"),
    (PLACES, "Gain => (!bounds", "Kind::Gain", "Kind::Form"),
    (PLACES, "match words[..2]", "_ => Some(Kind::Form)", "_ => Some(kind)"),
    (PLACES, "match words[..2]", "[0, 0] => None,", "[0, 0] => None, [_, number] if number > most => Some(kind),"),
    (PLACES, "let outside", "Kind::Form", "Kind::Bytes"),
    # Row 1 comes first, and names nothing.
    (REPLIES, "pub fn to_words", "if model(state) { reply } else { OUT_OF_BOUNDS }", "reply"),
    (REPLIES, "pub fn to_words", "fault.is_some() && !stored(&call, state)", "false"),
    (REPLIES, "pub fn to_words", "parameter ||", "parameter && fault.is_none() ||"),
    # The exported calls.
    (PLACES, PAIRS, "Form, 2", "Form, 1"),
    (PLACES, SLOPE, "Kind::Window", "Kind::Bytes"),
    (PLACES, SLOPE, "Window, 2", "Window, 1"),
]

# Those that only long lists and wrong lengths of a run show, by `lists`.
LONG = [
    (HOST, "pub fn event_of", "numbers.to_vec()", "numbers[..numbers.len().min(3)].to_vec()"),
    (HOST, "pub fn event_of", "numbers.to_vec()", "numbers[numbers.len().saturating_sub(3)..].to_vec()"),
    (HOST, "pub fn event_of", "numbers.to_vec()", "numbers[..numbers.len().min(9_999)].to_vec()"),
    (HOST, "pub fn event_of", "numbers.sort();", "if numbers.len() < 4 { numbers.sort(); }"),
    (REPLIES, "fn overflows", "acked.iter()", "acked.iter().take(3)"),
    (REPLIES, "pub fn never_sent", "acked.iter()", "acked.iter().take(3)"),
    (REPLIES, "pub fn never_sent", "acked.iter()", "acked.iter().rev().take(3)"),
    (PLACES, "let outside", "after > lists as u128", "lists < usize::MAX"),
    (LENGTHS, "fn reply(", "if self.state.len() != STATE_BYTES", "if self.state.len() != STATE_BYTES && self.has_part() { CALLS_LENGTH.reply() } else if self.state.len() != STATE_BYTES"),
    (PLACES, "const STATE_LENGTH", "Form, 1", "Form, 0"),
    (PLACES, "const CALLS_LENGTH", "Form, 2", "Form, 1"),
]

# Those to the round-trip estimator, by `rtt`: a length up to one less than its bound, and up to one more.
LESS, MORE = ("crate::places::Held::UpTo(LENGTH %s 1, crate::places::Kind::Length)" % sign for sign in "-+")
FLAG = "estimator[rtt_state::HAS_FIRST_RTT_SAMPLE]"
TRIPS = [
    # The variation: from the smoothed round trip that has the sample in it, as if that came first; from the sample with
    # its delay; rounded otherwise, the last time once in place of twice.
    (STATS, "self.rttvar = self.rttvar", "self.smoothed_rtt", "(self.smoothed_rtt * 7 / 8 + adjusted_rtt / 8)"),
    (STATS, "self.rttvar = self.rttvar", "adjusted_rtt", "latest_rtt"),
    (STATS, "self.rttvar = self.rttvar", ".as_nanos())", ".as_nanos()).next_multiple_of(4)"),
    (STATS, "// Adjust for", "self.rttvar * 3 / 4", "(self.rttvar - self.rttvar / 4)"),
    (STATS, "// Adjust for", "self.rttvar * 3 / 4", "self.rttvar / 4 * 3"),
    (STATS, "// Adjust for", "self.rttvar * 3 / 4", "self.rttvar * 3 / 4 + Duration::from_nanos((self.rttvar.as_nanos() as u64 * 3 % 4 + self.smoothed_rtt.abs_diff(adjusted_rtt).as_nanos() as u64 % 4) / 4)"),
    # The smoothed round trip: one rounding, another, or of the sample with its delay.
    (STATS, "// Adjust for", "self.smoothed_rtt * 7 / 8 + adjusted_rtt / 8", "(self.smoothed_rtt * 7 + adjusted_rtt) / 8"),
    (STATS, "// Adjust for", "self.smoothed_rtt * 7 / 8", "self.smoothed_rtt - self.smoothed_rtt / 8"),
    (STATS, "// Adjust for", "self.smoothed_rtt * 7 / 8", "self.smoothed_rtt / 8 * 7"),
    (STATS, "// Adjust for", "adjusted_rtt / 8", "latest_rtt / 8"),
    # The first sample.
    (STATS, "if !self.has_first_rtt_sample", "self.smoothed_rtt = latest_rtt", "self.smoothed_rtt = latest_rtt.saturating_sub(ack_delay)"),
    (STATS, "if !self.has_first_rtt_sample", "latest_rtt / 2", "latest_rtt"),
    (STATS, "if !self.has_first_rtt_sample", "self.min_rtt.reset(", "self.min_rtt.running_min(RTT_WINDOW, "),
    (STATS, "if !self.has_first_rtt_sample", "self.has_first_rtt_sample = true;", ""),
    (STATS, "if !self.has_first_rtt_sample", "return;", ""),
    # The limit of the delay, and where the delay is taken off.
    (STATS, "// Limit ack_delay", "if handshake_confirmed", "if true"),
    (STATS, "// Limit ack_delay", "if handshake_confirmed", "if false"),
    (STATS, "// Limit ack_delay", "if handshake_confirmed", "if !handshake_confirmed"),
    (STATS, "// Limit ack_delay", "ack_delay.min(self.max_ack_delay)", "self.max_ack_delay"),
    (STATS, "// Adjust for", "latest_rtt >= ", "latest_rtt > "),
    (STATS, "// Adjust for", "*self.min_rtt + ack_delay", "*self.min_rtt"),
    (STATS, "// Adjust for", "*self.min_rtt + ack_delay", "ack_delay"),
    (STATS, "// Adjust for", "*self.min_rtt + ack_delay", "self.smoothed_rtt + ack_delay"),
    # The minimum, the latest sample, and a new estimator.
    (STATS, "// min_rtt ignores", "self.min_rtt.running_min(RTT_WINDOW, now, latest_rtt);", ""),
    (STATS, "// min_rtt ignores", "now, latest_rtt", "now, latest_rtt.saturating_sub(ack_delay)"),
    (STATS, "// min_rtt ignores", "self.min_rtt.running_min(RTT_WINDOW, ", "self.min_rtt.reset("),
    (STATS, "pub(crate) fn update_rtt", "self.latest_rtt = latest_rtt;", ""),
    (STATS, "pub(crate) fn new", "initial_rtt / 2", "initial_rtt"),
    (STATS, "pub(crate) fn new", "latest_rtt: Duration::ZERO", "latest_rtt: initial_rtt"),
    (STATS, "pub(crate) fn new", "Minmax::new(initial_rtt)", "Minmax::new(Duration::ZERO)"),
    (STATS, "pub(crate) fn new", "has_first_rtt_sample: false", "has_first_rtt_sample: true"),
    # The reading: where a length is out, and what is a flag; what is tested at the first sample.
    (ESTIMATOR, "rtt_call::NEW => &[", "A_LENGTH", LESS),
    (ESTIMATOR, "rtt_call::NEW => &[", "A_LENGTH", MORE),
    (ESTIMATOR, "(new::INITIAL_RTT, A_LENGTH)", "A_LENGTH", LESS),
    (ESTIMATOR, "(new::INITIAL_RTT, A_LENGTH)", "A_LENGTH", MORE),
    (ESTIMATOR, "rtt_call::UPDATE_RTT => &[", "A_LENGTH", LESS),
    (ESTIMATOR, "rtt_call::UPDATE_RTT => &[", "A_LENGTH", MORE),
    (ESTIMATOR, "(update_rtt::LATEST_RTT, A_LENGTH)", "A_LENGTH", LESS),
    (ESTIMATOR, "(update_rtt::LATEST_RTT, A_LENGTH)", "A_LENGTH", MORE),
    (ESTIMATOR, "rtt_call::UPDATE_MAX_ACK_DELAY => &[", "A_LENGTH", LESS),
    (ESTIMATOR, "rtt_call::UPDATE_MAX_ACK_DELAY => &[", "A_LENGTH", MORE),
    (ESTIMATOR, "(update_rtt::ACK_DELAY, A_LENGTH)", "Flag", "crate::places::Held::UpTo(2, crate::places::Kind::Form)"),
    (ESTIMATOR, "fn original(", "HANDSHAKE_CONFIRMED] == 1", "HANDSHAKE_CONFIRMED] == 0"),
    (ESTIMATOR, "fn reply(estimator", "faults(call)", "faults(call).filter(|fault| fault.place < 2 || number == rtt_call::NEW || %s == 1)" % FLAG),
    (ESTIMATOR, "fn reply(estimator", "faults(call)", "faults(call).filter(|fault| fault.place < 3 || %s == 1)" % FLAG),
    # Which fault is named, and how.
    (ESTIMATOR, "fn reply(estimator", ".next()", ".last()"),
    (ESTIMATOR, "fn faults(", "(1..)", "(0..)"),
    (ESTIMATOR, "fn faults(", "(1..)", "[2, 1, 3].into_iter()"),
    (ESTIMATOR, "fn reply(estimator", "NO_CALL.reply()", "STATE_LENGTH.reply()"),
    # Row 1: of which calls and of which lengths, and before 2.
    (ESTIMATOR, "fn is_within", "<= LENGTH", "< LENGTH"),
    (ESTIMATOR, "fn is_within", "<= LENGTH", "<= LENGTH + 1"),
    (ESTIMATOR, "const LENGTHS", "rtt_state::LATEST_RTT", "rtt_state::MIN_RTT"),
    (ESTIMATOR, "const LENGTHS", "rtt_state::MIN_RTT", "rtt_state::LATEST_RTT"),
    (ESTIMATOR, "const LENGTHS", "rtt_state::SMOOTHED_RTT", "rtt_state::LATEST_RTT"),
    (ESTIMATOR, "const LENGTHS", "rtt_state::RTTVAR", "rtt_state::LATEST_RTT"),
    (ESTIMATOR, "const LENGTHS", "rtt_state::MAX_ACK_DELAY", "rtt_state::LATEST_RTT"),
    (ESTIMATOR, "fn reply(estimator", "number != rtt_call::NEW &&", ""),
    (ESTIMATOR, "fn reply(estimator", "!is_within(estimator)", "!is_within(estimator) && faults(call).next().is_none()"),
    (ESTIMATOR, "fn reply(estimator", "!is_within(estimator)", "!is_within(estimator) && arguments(number).is_some()"),
    # What a refused call leaves and shows, and what an answer does.
    (ESTIMATOR, "pub fn make(", "*estimator = RttStats::new(Duration::ZERO, Duration::ZERO).held();", ""),
    (ESTIMATOR, "pub fn make(", "} else if call", "} else if call[0] == rtt_call::UPDATE_RTT && reply != OUT_OF_BOUNDS {\n        estimator[rtt_state::LATEST_RTT] = call[1];\n    } else if call"),
    (ESTIMATOR, "pub fn make(", "} else if call", "} else if call[0] != rtt_call::NEW {\n        answer[rtt_answer::LATEST_RTT] = estimator[rtt_state::LATEST_RTT];\n    } else if call"),
    (ESTIMATOR, "pub fn make(", "original.min_rtt().map_or(UNSET, nanos)", "estimator[rtt_state::MIN_RTT]"),
    (ESTIMATOR, "pub fn make(", "map_or(UNSET, nanos)", "map_or(0, nanos)"),
    (ESTIMATOR, "pub fn make(", "nanos(original.rtt())", "nanos(original.rttvar())"),
    # What is made after a refused call: on the estimator that the run began with, or nothing.
    (ESTIMATOR, "pub fn run(", "let answer = make(&mut estimator, &call);", "let answer = make(&mut estimator, &call);\n            if answer[rtt_answer::REPLY] != 0 {\n                estimator = self.estimator();\n            }"),
    (ESTIMATOR, "pub fn run(", "answer,\n            });", "answer,\n            });\n            if answer[rtt_answer::REPLY] != 0 {\n                break;\n            }"),
    # The run itself.
    (ESTIMATOR, "pub fn reply(&self)", "> 1", "> 2"),
    (ESTIMATOR, "pub fn reply(&self)", "state != RTT_STATE_BYTES", "state < RTT_STATE_BYTES"),
    (ESTIMATOR, "pub fn reply(&self)", "if state != RTT_STATE_BYTES", "if state > RTT_STATE_BYTES && self.%s > 1 {\n            OUT_OF_BOUNDS\n        } else if state != RTT_STATE_BYTES" % FLAG.replace("estimator", "estimator()")),
    (ESTIMATOR, "pub fn reply(&self)", "} else if self.estimator()", "} else if self.part() != 0 {\n            CALLS_LENGTH.reply()\n        } else if self.estimator()"),
    (ESTIMATOR, "pub fn reply(&self)", "} else if self.part() != 0", "} else if answers < self.whole() * RTT_ANSWER_BYTES {\n            SHORT_OUTPUT\n        } else if self.part() != 0"),
    (ESTIMATOR, "pub fn reply(&self)", "answers < self", "answers + 1 < self"),
    (PLACES, "const STATE_LENGTH", "Form, 1", "Form, 0"),
    (PLACES, "const CALLS_LENGTH", "Form, 2", "Form, 1"),
]

# That which only a long run of the estimator shows, by `rtt-runs`.
LONG_TRIPS = [
    (ESTIMATOR, "pub fn run(", ".take(self.whole())", ".take(self.whole().min(1000))"),
]


def sources():
    """The folder `recovery` of the original."""
    given = os.environ.get("ORIGINAL", os.path.join(ROOT, "../shared/docs/src"))
    for folder in (os.path.join(PACKAGE, given, "src"), os.path.join(PACKAGE, given, "quiche/src")):
        if os.path.isdir(os.path.join(folder, "recovery")):
            return os.path.join(folder, "recovery")
    sys.exit("The original is not in %s: set ORIGINAL." % given)


def changed(text, after, find, put):
    if text.count(after) != 1:
        sys.exit("%r occurs %d times" % (after, text.count(after)))
    at = text.find(find, text.index(after) + len(after))
    if at < 0:
        sys.exit("%r isn't found after %r" % (find, after))
    return text[:at] + put + text[at + len(find):]


def copies(folder):
    """The original's files and the oracle, copied: the folders of the changed files, and what is built from them."""
    original, package = os.path.join(folder, "original"), os.path.join(folder, "oracle")
    recovery = shutil.copytree(sources(), os.path.join(original, "src", "recovery"))
    shutil.copytree(PACKAGE, package, ignore=shutil.ignore_patterns("target"))
    os.symlink(os.path.join(ROOT, "rust"), os.path.join(folder, "rust"))
    return recovery, os.path.join(package, "src"), (original, package, os.path.join(folder, "target"))


def command_for(change):
    """The comparison that has to notice a change to the model or to its filter."""
    file, after = change[:2]
    if after in (EXPORTED, PAIRS, SLOPE):
        return "exports"
    return "filter" if file in (FILTER, READING, ANSWERS) and after != LEFT else "diff"


def all_changes():
    """Each change after the comparison that has to notice it: of those that ask the archive only where it is there, and
    of those that are named where some are."""
    every = [(command_for(change), change) for change in CHANGES]
    for command, changes in (("lists", LONG), ("rtt", TRIPS), ("rtt-runs", LONG_TRIPS)):
        every += [(command, change) for change in changes]
    if not os.path.isfile(ARCHIVE):
        print("The changes that only %s show are left out, since there is no %s" % (" and ".join(OF_ARCHIVE), ARCHIVE))
        every = [(command, change) for command, change in every if command not in OF_ARCHIVE]
    named = os.environ.get("COMMANDS", "").split()
    return [(command, change) for command, change in every if not named or command in named]


def build(original, package, target, command):
    """The oracle with this original; the fast build, since it is built so often. With the archive, where it is asked."""
    environment = dict(os.environ, ORIGINAL=original, CARGO_TARGET_DIR=target, GUOVSSALU_ARCHIVE=ARCHIVE)
    features = ["--features", "archive"] if command in OF_ARCHIVE else []
    command = ["cargo", "build", "--quiet", "--manifest-path", os.path.join(package, "Cargo.toml")] + features
    built = subprocess.run(command, env=environment, capture_output=True, text=True)
    if built.returncode != 0:
        sys.exit("It can't be built:\n" + built.stderr)
    return os.path.join(target, "debug", "oracle")


def compare(oracle, port, command, seed, calls):
    """The end of the comparison, and what it said: after how many calls something differed, and what."""
    ran = subprocess.run([oracle, command, seed, calls], env=dict(os.environ, PORT=port), capture_output=True, text=True)
    lines = ran.stdout.splitlines()
    if ran.returncode == 1 and lines:
        return 1, "%s: %s" % (lines[-1], lines[0])
    if ran.returncode == 101 and ("with overflow" in ran.stderr or "overflow when" in ran.stderr):
        return 1, "the original overflows"
    return ran.returncode, ran.stderr.strip()


def main():
    seed, calls = (sys.argv[1:] + ["1", "200000"][len(sys.argv) - 1:])[:2]
    missed = []
    changes = all_changes()
    with tempfile.TemporaryDirectory() as folder:
        recovery, source, parts = copies(folder)
        oracle = build(*parts, "diff")
        port = os.environ.get("PORT")
        if not port:
            unchanged = shutil.copy(oracle, os.path.join(folder, "unchanged"))
            port = unchanged + " serve"
        for command in sorted({command for command, _ in changes}):
            code, said = compare(build(*parts, command), port, command, seed, calls)
            if code != 0:
                sys.exit("The unchanged original and the port differ in %s: %s" % (command, said))

        for number, (command, (file, after, find, put)) in enumerate(changes, 1):
            path = os.path.join(source if file in OURS else recovery, file)
            with open(path) as opened:
                text = opened.read()
            with open(path, "w") as opened:
                opened.write(changed(text, after, find, put))
            code, said = compare(build(*parts, command), port, command, seed, calls)
            with open(path, "w") as opened:
                opened.write(text)
            what = "%d. %s, %s: %r to %r" % (number, os.path.basename(file), after, find, put)
            print("%s\n   %s" % (what, "NOT NOTICED" if code == 0 else said), flush=True)
            if code != 1:
                missed.append(what)

    print("%d changes, %d noticed" % (len(changes), len(changes) - len(missed)))
    for what in missed:
        print("not noticed: " + what)
    sys.exit(1 if missed else 0)


if __name__ == "__main__":
    main()
