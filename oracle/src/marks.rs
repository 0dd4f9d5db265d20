//! Counts what occurs in the sequences: calls, rounds, reductions, and the
//! facts about the original that document 01 leaves silent.

use std::collections::BTreeMap;

use guovssalu_sys::table::phase;
use guovssalu_sys::table::UNSET;

use crate::bounds::MOMENT;
use crate::calls::bdp;
use crate::model::field::*;
use crate::model::Call;
use crate::model::Getter;
use crate::model::Sample;
use crate::model::Start;
use crate::model::State;
use crate::wanted::Wanted;

/// What has to occur, each at least `LEAST` times. Cases with the same number
/// are of one point at which document 01 is silent or easily misread.
const WANTED: [&str; 87] = [
    "fact 02: queue rounds 0, the first queueing round sets reached",
    "fact 02: the same on a fresh model",
    "fact 02: minimum inflight = 2600 = target, queueing",
    "fact 02: minimum inflight = target, queueing",
    "fact 02: minimum inflight = target - 1, not queueing",
    "fact 04: send rate overwritten with none",
    "fact 04: ack rate overwritten with none",
    "fact 05: total acked unchanged, latest bandwidth rises by the sample",
    "fact 05: the sample doesn't reach record or filter",
    "fact 05: reduction leaves bandwidth_lo above the maximum",
    "fact 05: estimate asked while bandwidth_lo is above the maximum",
    "fact 06: record keeps its sample bandwidth",
    "fact 06: record keeps its RTT",
    "fact 06: record keeps its send state",
    "fact 06: delivered from the record's old send state",
    "fact 06: expiry of an RTT that no event gave",
    "fact 07: no delivered, nothing acked",
    "fact 07: no delivered, no valid state",
    "fact 07: no delivered, state's total = total acked",
    "fact 07: no delivered, state's total above total acked",
    "fact 07: delivered raises the maximum",
    "fact 08: bandwidth_lo becomes 0, set",
    "fact 08: a bandwidth_lo of 0 is kept or raised, not taken for unset",
    "fact 09: record takes an app-limited sample that the filter doesn't",
    "fact 09: app-limited sample = maximum, filter unchanged",
    "fact 09: app-limited sample above the maximum, filter raised",
    "fact 10: loss while probing, reduction later without new loss",
    "fact 10: finish not called, next round's end reduces again",
    "fact 11: reduction with a b that was rounded",
    "fact 11: bandwidth_lo would differ by the exact 1 - beta",
    "fact 11: inflight_lo would differ by the exact 1 - beta",
    "fact 12: unset inflight_hi with the usual headroom",
    "fact 12: unset inflight_hi, headroom 0",
    "fact 12: unset inflight_hi, headroom 1",
    "fact 12: headroom product above inflight_hi",
    "fact 13: growth clears the count",
    "fact 13: growth without a valid state",
    "fact 13: no growth, no valid state, nothing",
    "fact 13: app-limited round ignored",
    "fact 13: app-limited round counted, reached not set though enough",
    "fact 13: full_bw_rounds 0 sets reached at once",
    "fact 13: enough rounds set reached",
    "fact 13: ignored app-limited round, enough before it, reached not set",
    "fact 14: finish at a round's end drops minimum and flag",
    "fact 14: finish leaves latest bandwidth and inflight",
    "fact 14: finish without a round's end leaves all",
    "fact 14: restart before any send, end 0",
    "fact 14: restart moves the end",
    "fact 14: restart clears rounds_with_queueing",
    "fact 15: expiry at exactly stored + period",
    "fact 15: no expiry 1 ns before",
    "fact 15: period 0 expires at the stored moment",
    "fact 15: period 0, moment before the stored one",
    "fact 15: stored + period past 2^62",
    "fact 16: no valid state",
    "fact 16: loss events one below the limit",
    "fact 16: loss events at the limit, too high",
    "fact 16: inflight at send 0",
    "fact 16: bytes lost 0",
    "fact 16: bytes lost = scaled inflight, not too high",
    "fact 16: bytes lost = scaled inflight + 1, too high",
    "fact 17: inflight + bytes = inflight_hi, limited",
    "fact 17: inflight + bytes = inflight_hi - 1, not limited",
    "fact 17: minimum takes the inflight before the packet",
    "fact 18: down keeps is_sample_from_probing",
    "fact 18: down keeps probe_up_rounds",
    "fact 18: refill keeps last_cycle_probed_too_high",
    "fact 18: refill drops last_cycle_stopped_risky_probe",
    "fact 18: down sets the cycle's start moment",
    "fact 18: another phase leaves the cycle's start moment",
    "fact 18: cruise leaves the round",
    "fact 18: cruise caps a set inflight_lo",
    "fact 18: exit_probe_down outside of down",
    "fact 18: exit_probe_down advances only once",
    "event: first reduction after unset",
    "event: inflight_lo held up by the latest inflight",
    "event: bandwidth_lo held up by the latest bandwidth",
    "event: a round's end lowers the latest bandwidth",
    "event: a round's end lowers the latest inflight",
    "event: a round ends, and not by the last acked number",
    "event: a round ends, and not by the first acked number",
    "event: a round ends, and only by the acked number in the middle",
    "event: no round ends, and an acked number is the end",
    "cap of a set inflight_lo lowers it",
    "cap of an unset inflight_lo",
    "slope at 30 rounds",
    "advance of an empty slot leaves the maximum",
];

const LEAST: u64 = 2;

pub struct Marks {
    wanted: Wanted,
    calls: BTreeMap<u64, u32>,
    reductions: u32,
    rounds: u32,
    start: Start,
    /// Whether the bytes lost in this round contain some of a probing event,
    /// or of a round whose end has already reduced.
    lost_probing: bool,
    lost_before: bool,
    /// Whether the record's RTT was given by an event.
    rtt_of_event: bool,
}

impl Marks {
    pub fn new(start: Start) -> Self {
        Marks {
            wanted: Wanted::new(&WANTED),
            calls: BTreeMap::new(),
            reductions: 0,
            rounds: 0,
            start,
            lost_probing: false,
            lost_before: false,
            rtt_of_event: false,
        }
    }

    /// Marks `mark` if it holds.
    fn mark(&mut self, mark: &'static str, holds: bool) {
        self.wanted.mark(mark, holds);
    }

    pub fn look(&mut self, call: &Call, answer: u64, before: &State, after: &State) {
        *self.calls.entry(call.numbers()[0]).or_default() += 1;
        match *call {
            Call::Start(start) => {
                self.start = start;
                self.rtt_of_event = false;
            }
            Call::Sent {
                in_flight, bytes, ..
            } => self.sent(in_flight, bytes, before, after),
            Call::Record(_) => self.rtt_of_event = false,
            Call::Event(sample) => self.event(&sample, before, after),
            Call::Finish => self.finish(before, after),
            Call::ExpireMinRtt => self.expiry(answer, before),
            Call::InflightTooHigh { max_loss_events } => {
                self.too_high(max_loss_events, answer, before)
            }
            Call::BandwidthGrowth => self.growth(answer, before, after),
            Call::RestartRound => self.restart(before, after),
            Call::PersistentQueue { gain } => self.queue(gain, before, after),
            Call::WithHeadroom => self.headroom(answer, before),
            Call::Get(Getter::BandwidthEstimate) => {
                let above = before[BANDWIDTH_LO_SET] == 1
                    && before[BANDWIDTH_LO] > before[SLOT_0].max(before[SLOT_1]);
                self.mark(
                    "fact 05: estimate asked while bandwidth_lo is above the maximum",
                    above,
                );
            }
            Call::CapInflightLo(cap) => {
                let lo = before[INFLIGHT_LO];
                self.mark(
                    "cap of a set inflight_lo lowers it",
                    after[INFLIGHT_LO] < lo,
                );
                self.mark(
                    "cap of an unset inflight_lo",
                    lo == UNSET && cap != UNSET && after[INFLIGHT_LO] == UNSET,
                );
            }
            Call::AdvanceMaxBandwidth => {
                let empty = before[SLOT_0] > 0 && before[SLOT_1] == 0 && before == after;
                self.mark("advance of an empty slot leaves the maximum", empty);
            }
            Call::RaiseSlope { .. } => {
                let at_30 = before[PROBE_UP_ROUNDS] == 30 && after[PROBE_UP_ROUNDS] == 30;
                self.mark("slope at 30 rounds", at_30);
            }
            Call::ProbeDown { .. }
            | Call::ProbeCruise { .. }
            | Call::ProbeRefill { .. }
            | Call::ProbeUp { .. }
            | Call::ExitProbeDown => self.phase(call, before, after),
            _ => {}
        }
        if after[BYTES_LOST_IN_ROUND] == 0 {
            self.lost_probing = false;
            self.lost_before = false;
        }
    }

    fn sent(&mut self, in_flight: u64, bytes: u64, before: &State, after: &State) {
        let sum = in_flight + bytes;
        let dropped = before[LIMITED_IN_ROUND] == 0;
        self.mark(
            "fact 17: inflight + bytes = inflight_hi, limited",
            dropped && sum == before[INFLIGHT_HI] && after[LIMITED_IN_ROUND] == 1,
        );
        self.mark(
            "fact 17: inflight + bytes = inflight_hi - 1, not limited",
            dropped && sum + 1 == before[INFLIGHT_HI] && after[LIMITED_IN_ROUND] == 0,
        );
        self.mark(
            "fact 17: minimum takes the inflight before the packet",
            bytes > 0 && before[MIN_IN_FLIGHT] > sum && after[MIN_IN_FLIGHT] == in_flight,
        );
    }

    fn event(&mut self, sample: &Sample, before: &State, after: &State) {
        let same = |places: &[usize]| places.iter().all(|&at| before[at] == after[at]);
        let most = |state: &State| state[SLOT_0].max(state[SLOT_1]);

        self.mark(
            "fact 04: send rate overwritten with none",
            before[SEND_RATE_SET] == 1 && after[SEND_RATE_SET] == 0 && after[SEND_RATE] == 0,
        );
        self.mark(
            "fact 04: ack rate overwritten with none",
            before[ACK_RATE_SET] == 1 && after[ACK_RATE_SET] == 0 && after[ACK_RATE] == 0,
        );

        let acked = sample.total_acked > before[TOTAL_ACKED];
        let filter = [SLOT_0, SLOT_1];
        if let Some(bandwidth) = sample.bandwidth {
            self.mark(
                "fact 05: total acked unchanged, latest bandwidth rises by the sample",
                !acked
                    && bandwidth > before[BANDWIDTH_LATEST]
                    && after[BANDWIDTH_LATEST] == bandwidth,
            );
            let hidden = !acked
                && same(&[SAMPLE_SET, SAMPLE, SLOT_0, SLOT_1])
                && bandwidth != before[SAMPLE]
                && bandwidth > most(before);
            self.mark("fact 05: the sample doesn't reach record or filter", hidden);

            let app_limited = acked && sample.app_limited && after[SAMPLE] == bandwidth;
            self.mark(
                "fact 09: record takes an app-limited sample that the filter doesn't",
                app_limited && bandwidth > before[SLOT_1] && same(&filter),
            );
            self.mark(
                "fact 09: app-limited sample = maximum, filter unchanged",
                app_limited
                    && bandwidth == most(before)
                    && bandwidth > before[SLOT_1]
                    && same(&filter),
            );
            self.mark(
                "fact 09: app-limited sample above the maximum, filter raised",
                app_limited && bandwidth > most(before) && after[SLOT_1] == bandwidth,
            );
        }

        self.mark(
            "fact 06: record keeps its sample bandwidth",
            sample.bandwidth.is_none() && before[SAMPLE_SET] == 1 && same(&[SAMPLE_SET, SAMPLE]),
        );
        self.mark(
            "fact 06: record keeps its RTT",
            sample.rtt.is_none() && before[RTT_SET] == 1 && same(&[RTT_SET, RTT]),
        );
        let kept = !sample.send_state.valid && before[STATE_VALID] == 1;
        self.mark(
            "fact 06: record keeps its send state",
            kept && same(&[STATE_VALID, STATE_APP_LIMITED, STATE_ACKED, STATE_IN_FLIGHT]),
        );
        if sample.rtt.is_some() {
            self.rtt_of_event = true;
        }

        let delivered = after[MAX_DELIVERED] > before[MAX_DELIVERED];
        let could = |from: u64| {
            let more = sample.total_acked.checked_sub(from);
            more.is_some_and(|more| more > before[MAX_DELIVERED])
        };
        self.mark(
            "fact 06: delivered from the record's old send state",
            kept && delivered,
        );
        self.mark("fact 07: delivered raises the maximum", delivered);
        let valid = acked && after[STATE_VALID] == 1;
        self.mark(
            "fact 07: no delivered, nothing acked",
            !delivered && !acked && after[STATE_VALID] == 1 && could(after[STATE_ACKED]),
        );
        self.mark(
            "fact 07: no delivered, no valid state",
            !delivered && acked && after[STATE_VALID] == 0 && could(0),
        );
        self.mark(
            "fact 07: no delivered, state's total = total acked",
            !delivered && valid && after[STATE_ACKED] == sample.total_acked,
        );
        self.mark(
            "fact 07: no delivered, state's total above total acked",
            !delivered && valid && after[STATE_ACKED] > sample.total_acked,
        );

        let ended = after[ROUND_ENDED] == 1;
        self.rounds += ended as u32;
        self.out_of_order(sample.acked(), ended, before);
        self.mark(
            "event: a round's end lowers the latest bandwidth",
            ended && after[BANDWIDTH_LATEST] < before[BANDWIDTH_LATEST],
        );
        self.mark(
            "event: a round's end lowers the latest inflight",
            ended && after[INFLIGHT_LATEST] < before[INFLIGHT_LATEST],
        );

        let lost = after[BYTES_LOST] > 0;
        if ended && after[PROBING] == 0 && after[BYTES_LOST_IN_ROUND] > 0 {
            self.reductions += 1;
            self.mark(
                "fact 10: loss while probing, reduction later without new loss",
                self.lost_probing && !lost,
            );
            self.mark(
                "fact 10: finish not called, next round's end reduces again",
                self.lost_before && !lost,
            );
            self.reduction(sample, before, after);
            self.lost_before = true;
        }
        self.lost_probing |= lost && after[PROBING] == 1;
    }

    fn reduction(&mut self, sample: &Sample, before: &State, after: &State) {
        let most = after[SLOT_0].max(after[SLOT_1]);
        let was = match before[BANDWIDTH_LO_SET] {
            0 => most,
            _ => before[BANDWIDTH_LO],
        };
        let window = match before[INFLIGHT_LO] {
            UNSET => before[PRIOR_CWND],
            lo => lo,
        };
        let latest = before[BANDWIDTH_LATEST].max(sample.bandwidth.unwrap_or(0));
        let inflight = before[INFLIGHT_LATEST].max(sample.max_inflight);

        self.mark(
            "event: first reduction after unset",
            before[INFLIGHT_LO] == UNSET || before[BANDWIDTH_LO_SET] == 0,
        );
        self.mark(
            "event: inflight_lo held up by the latest inflight",
            inflight > 0 && after[INFLIGHT_LO] == inflight && inflight < window,
        );
        self.mark(
            "event: bandwidth_lo held up by the latest bandwidth",
            latest > 0 && after[BANDWIDTH_LO] == latest && latest < was,
        );
        self.mark(
            "fact 05: reduction leaves bandwidth_lo above the maximum",
            after[BANDWIDTH_LO] > most,
        );
        self.mark(
            "fact 08: bandwidth_lo becomes 0, set",
            after[BANDWIDTH_LO_SET] == 1 && after[BANDWIDTH_LO] == 0,
        );
        self.mark(
            "fact 08: a bandwidth_lo of 0 is kept or raised, not taken for unset",
            before[BANDWIDTH_LO_SET] == 1
                && before[BANDWIDTH_LO] == 0
                && most > after[BANDWIDTH_LO],
        );

        // In f64 the difference is exact.
        let beta = self.start.beta;
        let exact = 1.0 - beta as f64;
        self.mark(
            "fact 11: reduction with a b that was rounded",
            (1.0 - beta) as f64 != exact,
        );
        let bandwidth = (was as f64 * exact).round() as u64;
        self.mark(
            "fact 11: bandwidth_lo would differ by the exact 1 - beta",
            latest.max(bandwidth) != after[BANDWIDTH_LO],
        );
        let bytes = (window as f32 as f64 * exact) as f32 as u64;
        self.mark(
            "fact 11: inflight_lo would differ by the exact 1 - beta",
            inflight.max(bytes) != after[INFLIGHT_LO],
        );
    }

    /// The acked numbers, in any order, of an event that ended a round or not.
    fn out_of_order(&mut self, acked: &[u64], ended: bool, before: &State) {
        let upto = |number: &u64| before[END_SET] == 1 && *number <= before[END];
        self.mark(
            "event: a round ends, and not by the last acked number",
            ended && acked.last().is_some_and(upto),
        );
        self.mark(
            "event: a round ends, and not by the first acked number",
            ended && acked.first().is_some_and(upto),
        );
        self.mark(
            "event: a round ends, and only by the acked number in the middle",
            ended && matches!(acked, [first, _, last] if upto(first) && upto(last)),
        );
        self.mark(
            "event: no round ends, and an acked number is the end",
            !ended && before[END_SET] == 1 && acked.contains(&before[END]),
        );
    }

    fn finish(&mut self, before: &State, after: &State) {
        let ended = before[ROUND_ENDED] == 1;
        self.mark(
            "fact 14: finish at a round's end drops minimum and flag",
            ended
                && before[LIMITED_IN_ROUND] == 1
                && after[LIMITED_IN_ROUND] == 0
                && before[MIN_IN_FLIGHT] != UNSET
                && after[MIN_IN_FLIGHT] == UNSET,
        );
        self.mark(
            "fact 14: finish leaves latest bandwidth and inflight",
            ended
                && before[BANDWIDTH_LATEST] > 0
                && before[INFLIGHT_LATEST] > 0
                && after[BANDWIDTH_LATEST] == before[BANDWIDTH_LATEST]
                && after[INFLIGHT_LATEST] == before[INFLIGHT_LATEST],
        );
        self.mark(
            "fact 14: finish without a round's end leaves all",
            !ended && before[MIN_IN_FLIGHT] != UNSET && before == after,
        );
    }

    fn expiry(&mut self, answer: u64, before: &State) {
        if before[RTT_SET] == 0 {
            return;
        }
        let stored = before[MIN_RTT_TIMESTAMP];
        let due = stored + self.start.probe_rtt_period;
        let moment = before[EVENT_TIME];
        let zero = self.start.probe_rtt_period == 0;
        self.mark(
            "fact 06: expiry of an RTT that no event gave",
            answer == 1 && !self.rtt_of_event,
        );
        self.mark(
            "fact 15: expiry at exactly stored + period",
            answer == 1 && moment == due && !zero,
        );
        self.mark(
            "fact 15: no expiry 1 ns before",
            answer == 0 && moment + 1 == due && !zero,
        );
        self.mark(
            "fact 15: period 0 expires at the stored moment",
            answer == 1 && moment == stored && zero,
        );
        self.mark(
            "fact 15: period 0, moment before the stored one",
            answer == 0 && moment < stored && zero,
        );
        self.mark(
            "fact 15: stored + period past 2^62",
            answer == 0 && due > MOMENT,
        );
    }

    fn too_high(&mut self, limit: u64, answer: u64, before: &State) {
        let events = before[LOSS_EVENTS_IN_ROUND];
        let lost = before[BYTES_LOST_IN_ROUND];
        let inflight = before[STATE_IN_FLIGHT];
        let scaled = (inflight as f32 * self.start.loss_threshold) as u64;
        let valid = before[STATE_VALID] == 1;
        // Whether all the other conditions hold.
        let above = lost > scaled;
        let sent = inflight > 0;

        self.mark(
            "fact 16: no valid state",
            !valid && above && sent && events >= limit,
        );
        self.mark(
            "fact 16: loss events one below the limit",
            valid && above && sent && limit.checked_sub(1) == Some(events),
        );
        self.mark(
            "fact 16: loss events at the limit, too high",
            answer == 1 && events == limit,
        );
        self.mark(
            "fact 16: inflight at send 0",
            valid && !sent && lost > 0 && events >= limit,
        );
        self.mark(
            "fact 16: bytes lost 0",
            valid && sent && lost == 0 && events >= limit,
        );
        let ready = valid && sent && lost > 0 && events >= limit;
        self.mark(
            "fact 16: bytes lost = scaled inflight, not too high",
            ready && lost == scaled && answer == 0,
        );
        self.mark(
            "fact 16: bytes lost = scaled inflight + 1, too high",
            ready && lost == scaled + 1 && answer == 1,
        );
    }

    fn growth(&mut self, answer: u64, before: &State, after: &State) {
        let valid = before[STATE_VALID] == 1;
        let app_limited = before[STATE_APP_LIMITED] == 1;
        let ignore = before[IGNORE_APP_LIMITED] == 1;
        let was = before[ROUNDS_WITHOUT_GROWTH];
        let count = after[ROUNDS_WITHOUT_GROWTH];
        let enough = count >= self.start.full_bw_rounds;
        let set = before[FULL_REACHED] == 0 && after[FULL_REACHED] == 1;
        let not_set = after[FULL_REACHED] == 0;
        if answer == 1 {
            self.mark("fact 13: growth clears the count", was > 0 && count == 0);
            self.mark("fact 13: growth without a valid state", !valid);
            return;
        }
        if !valid {
            self.mark(
                "fact 13: no growth, no valid state, nothing",
                before == after,
            );
            return;
        }
        self.mark(
            "fact 13: app-limited round ignored",
            app_limited && ignore && was == count,
        );
        self.mark(
            "fact 13: ignored app-limited round, enough before it, reached not set",
            app_limited && ignore && enough && not_set,
        );
        self.mark(
            "fact 13: app-limited round counted, reached not set though enough",
            app_limited && !ignore && was < count && enough && not_set,
        );
        self.mark(
            "fact 13: full_bw_rounds 0 sets reached at once",
            set && self.start.full_bw_rounds == 0 && was == 0,
        );
        self.mark(
            "fact 13: enough rounds set reached",
            set && count == self.start.full_bw_rounds,
        );
    }

    fn restart(&mut self, before: &State, after: &State) {
        self.mark(
            "fact 14: restart before any send, end 0",
            before[ANYTHING_SENT] == 0
                && before[END_SET] == 0
                && after[END_SET] == 1
                && after[END] == 0,
        );
        self.mark(
            "fact 14: restart moves the end",
            before[END] != after[END] && before[ROUND_TRIP_COUNT] == after[ROUND_TRIP_COUNT],
        );
        self.mark(
            "fact 14: restart clears rounds_with_queueing",
            before[ROUNDS_WITH_QUEUEING] > 0 && after[ROUNDS_WITH_QUEUEING] == 0,
        );
    }

    fn queue(&mut self, gain: f32, before: &State, after: &State) {
        let queueing = after[ROUNDS_WITH_QUEUEING] > 0;
        let set = before[FULL_REACHED] == 0 && after[FULL_REACHED] == 1;
        let first = set
            && self.start.queue_rounds == 0
            && before[ROUNDS_WITH_QUEUEING] == 0
            && after[ROUNDS_WITH_QUEUEING] == 1;
        let unset = before[MIN_IN_FLIGHT] == UNSET;
        let most = before[SLOT_0].max(before[SLOT_1]);
        let gained = (most as f64 * gain as f64).round() as u128;
        let target = (gained * before[MIN_RTT] as u128 / 8_000_000_000) as u64;
        let target = target.max(bdp(before) + 2600);

        self.mark(
            "fact 02: queue rounds 0, the first queueing round sets reached",
            first,
        );
        self.mark(
            "fact 02: the same on a fresh model",
            first && unset && before[ROUND_TRIP_COUNT] == 0,
        );
        self.mark(
            "fact 02: minimum inflight = 2600 = target, queueing",
            queueing && before[MIN_IN_FLIGHT] == 2600 && target == 2600,
        );
        self.mark(
            "fact 02: minimum inflight = target, queueing",
            queueing && before[MIN_IN_FLIGHT] == target,
        );
        self.mark(
            "fact 02: minimum inflight = target - 1, not queueing",
            !queueing && before[MIN_IN_FLIGHT] + 1 == target,
        );
    }

    fn headroom(&mut self, answer: u64, before: &State) {
        let hi = before[INFLIGHT_HI];
        let headroom = self.start.headroom;
        let unset = hi == UNSET;
        self.mark(
            "fact 12: unset inflight_hi with the usual headroom",
            unset && headroom == 0.15 && answer == 15_679_732_352_701_956_095,
        );
        self.mark(
            "fact 12: unset inflight_hi, headroom 0",
            unset && headroom == 0.0 && answer == UNSET,
        );
        self.mark(
            "fact 12: unset inflight_hi, headroom 1",
            unset && headroom == 1.0 && answer == 0,
        );
        self.mark(
            "fact 12: headroom product above inflight_hi",
            !unset && (hi as f32 * headroom) as u64 > hi && answer == 0,
        );
    }

    fn phase(&mut self, call: &Call, before: &State, after: &State) {
        let kept = |at: usize| before[at] == after[at] && before[at] > 0;
        let later = after[LAST_MOMENT] > before[CYCLE_START];
        match call {
            Call::ProbeDown { .. } => {
                self.mark(
                    "fact 18: down keeps is_sample_from_probing",
                    kept(FROM_PROBING),
                );
                self.mark(
                    "fact 18: down keeps probe_up_rounds",
                    kept(PROBE_UP_ROUNDS) && before[PROBE_UP_BYTES_SET] > after[PROBE_UP_BYTES_SET],
                );
                self.mark(
                    "fact 18: down sets the cycle's start moment",
                    before[CYCLE_START] != after[CYCLE_START],
                );
            }
            Call::ExitProbeDown => {
                let advanced = before[HAS_ADVANCED] == 0 && before[SLOT_1] != after[SLOT_1];
                self.mark(
                    "fact 18: exit_probe_down outside of down",
                    advanced && before[PHASE] != phase::DOWN,
                );
                self.mark(
                    "fact 18: exit_probe_down advances only once",
                    before[HAS_ADVANCED] == 1 && before[SLOT_1] > 0 && before == after,
                );
            }
            _ => {
                self.mark(
                    "fact 18: another phase leaves the cycle's start moment",
                    later && before[CYCLE_START] == after[CYCLE_START],
                );
                if let Call::ProbeRefill { .. } = call {
                    self.mark(
                        "fact 18: refill keeps last_cycle_probed_too_high",
                        kept(PROBED_TOO_HIGH),
                    );
                    self.mark(
                        "fact 18: refill drops last_cycle_stopped_risky_probe",
                        before[STOPPED_RISKY] == 1 && after[STOPPED_RISKY] == 0,
                    );
                }
                if let Call::ProbeCruise { .. } = call {
                    let left = before[MIN_IN_FLIGHT] != UNSET
                        && before[..=LIMITED_IN_ROUND][BYTES_LOST_IN_ROUND..]
                            == after[..=LIMITED_IN_ROUND][BYTES_LOST_IN_ROUND..]
                        && before[LAST_SENT] != after[END];
                    self.mark("fact 18: cruise leaves the round", left);
                    self.mark(
                        "fact 18: cruise caps a set inflight_lo",
                        after[INFLIGHT_LO] < before[INFLIGHT_LO],
                    );
                }
            }
        }
    }

    /// Prints the counts, and stops if something that has to occur is too rare.
    pub fn demand(&self) {
        for (call, count) in &self.calls {
            eprintln!("sequences: {count:4} x call {call}");
        }
        eprintln!("sequences: {:4} x a round ended", self.rounds);
        eprintln!("sequences: {:4} x a reduction", self.reductions);
        self.wanted.tell("sequences: ");
        self.wanted.demand(LEAST);
    }
}
