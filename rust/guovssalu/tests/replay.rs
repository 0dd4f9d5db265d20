//! The calls of the kept frames, each made by the wrapper in the state in which the original was:
//! reply, answer, event and state are held to the original's, once by the methods, once by a run over
//! bytes and once by a run with lists. A call with malformed words, which no method writes, goes into both
//! runs as it is. The runs of the round-trip estimator are made as they are, and their calls by the methods.
//!
//! The numbers of calls, places of words and sizes in this file are written by hand, and not taken from
//! the table that the package is written with: a wrong table is noticed here.

use std::collections::BTreeSet;
use std::fs;
use std::path::Path;

use guovssalu::run;
use guovssalu::run_lists;
use guovssalu::Answer;
use guovssalu::Bandwidth;
use guovssalu::Call;
use guovssalu::CongestionEvent;
use guovssalu::Cycle;
use guovssalu::Duration;
use guovssalu::Moment;
use guovssalu::NetworkModel;
use guovssalu::Params;
use guovssalu::Refusal;
use guovssalu::RttStats;
use guovssalu::Sample;
use guovssalu::SendTimeState;

/// Words of a state, of its model, of a call and of an answer with the state after it, and the calls
/// of a frame (oracle/README.md, "The frames").
const STATE: usize = 51;
const MODEL: usize = 35;
const CALL: usize = 49;
const ANSWER: usize = 69;
const CALLS: usize = 100;

/// Calls that are not the model's.
const FILTER: u64 = 46;
const NUMBERS: u64 = 47;
const FILTER_RUN: u64 = 48;
const SLOPE: u64 = 49;
const RTT_RUN: u64 = 50;
const PUT: u64 = 99;

/// One call of a frame: the state before it, its words and those of the original's answer.
#[derive(Clone)]
struct Case {
    before: Vec<u64>,
    call: Vec<u64>,
    answer: Vec<u64>,
}

/// Every call is made, and then held to expectations that are wrong in one number.
#[test]
fn kept_frames() {
    let (mut seen, mut replies) = (BTreeSet::new(), BTreeSet::new());
    for (at, case) in cases().iter().enumerate() {
        let number = case.call[0];
        let (ways, is_whole): (&[Way], bool) = match number {
            FILTER | NUMBERS | PUT => continue,
            FILTER_RUN => (&[by_filter_run], true),
            SLOPE => (&[by_slope], true),
            RTT_RUN => (&[by_rtt_run], true),
            _ if case.is_malformed() => (&[by_words], false),
            _ => (&[by_methods, by_bytes, by_lists], true),
        };
        if is_whole {
            seen.insert(number);
        }
        replies.insert(case.answer[0]);
        for way in ways {
            assert_eq!(way(case), Ok(()), "case {}, call {}", at, number);
            for wrong in case.changed() {
                assert!(way(&wrong).is_err(), "case {}, call {}", at, number);
            }
        }
    }
    // The model's and the cycle's 44, and the three exported ones with an output.
    assert_eq!(seen.len(), 47);
    // Of the replies every row, and of row 2 every kind and every place.
    let rows: BTreeSet<u64> = replies.iter().map(|reply| reply % 256).collect();
    assert!(rows.into_iter().eq([0, 1, 2, 3, 4, 5, 7, 10]));
    let faults = replies.iter().filter(|&reply| reply % 256 == 2);
    let kinds: BTreeSet<u64> = faults.clone().map(|reply| reply / 256 % 256).collect();
    let places: BTreeSet<u64> = faults.map(|reply| reply / 65_536).collect();
    assert!(kinds.into_iter().eq(1..=9) && places.into_iter().eq(0..=4));
}

/// The package's own parameters are those of the first start, which has the original's.
#[test]
fn parameters_of_the_original() {
    let cases = cases();
    let start = cases.iter().find(|case| case.call[0] == 0);
    let own = Call::new(0, &[]).with_params(&Params::default());
    let own: Vec<u64> = (38..CALL).map(|at| word(own.as_bytes(), at)).collect();
    assert_eq!(start.map(|case| &case.call[38..]), Some(&own[..]));
}

/// A way to make a call.
type Way = fn(&Case) -> Result<(), String>;

/// The calls of the kept frames. A state goes on from call to call, and those that don't show it
/// leave it.
fn cases() -> Vec<Case> {
    let (requests, answers) = (kept("stdin"), kept("stdout"));
    let requests = requests.chunks(STATE + CALLS * CALL);
    let mut cases = Vec::new();
    for (request, answers) in requests.zip(answers.chunks(CALLS * ANSWER)) {
        let (state, calls) = request.split_at(STATE);
        let mut state = state.to_vec();
        for (call, answer) in calls.chunks(CALL).zip(answers.chunks(ANSWER)) {
            let case = Case {
                before: state.clone(),
                call: call.to_vec(),
                answer: answer.to_vec(),
            };
            if !(NUMBERS..=RTT_RUN).contains(&call[0]) {
                state = case.after().to_vec();
            }
            cases.push(case);
        }
    }
    cases
}

/// The words of a file of the program `serve`.
fn kept(name: &str) -> Vec<u64> {
    let file = Path::new(env!("CARGO_MANIFEST_DIR"))
        .join("../../crates/serve")
        .join(name);
    let bytes = fs::read(&file).unwrap_or_else(|why| panic!("{:?}: {}", file, why));
    (0..bytes.len() / 8).map(|at| word(&bytes, at)).collect()
}

impl Case {
    /// The same call with expectations that are wrong in one number: the reply (of a bad argument also
    /// its kind and its place), the answer (of an exported call, words of its output; the filter's first
    /// sample and first reason are among them, and the estimator's state and first answer), and unless it is
    /// a refused start, which leaves no state to the caller of a method, a word of the state.
    fn changed(&self) -> Vec<Case> {
        let (number, reply) = (self.call[0], self.answer[0]);
        let mut places = match (number, reply) {
            (FILTER_RUN, _) => vec![0, 2, 5, ANSWER - 1],
            (RTT_RUN, _) => vec![0, 2, 7, 9, 10, ANSWER - 1],
            (SLOPE, 0) => vec![0, 2, 3],
            (SLOPE, 7) => vec![],
            (SLOPE, _) => vec![0],
            _ => vec![0, 1],
        };
        if number < FILTER && !(number == 0 && reply > 0) {
            places.push(18 + if number < 39 { 1 } else { 38 });
        }
        let change = |place: usize, bit: u64| {
            let mut case = self.clone();
            case.answer[place] ^= bit;
            case
        };
        let mut changed: Vec<Case> = places.into_iter().map(|place| change(place, 1)).collect();
        if reply % 256 == 2 {
            changed.extend([1 << 8, 1 << 16].map(|bit| change(0, bit)));
        }
        changed
    }

    /// Whether the number is no call's, or a word of the arguments, of the record or of the parameters is
    /// malformed.
    fn is_malformed(&self) -> bool {
        let call = &self.call;
        let flag = |at: usize| call[at] > 1;
        let pair = |at: usize| call[at] != 1 && call[at..at + 2] != [0, 0];
        let float = |at: usize| call[at] >> 32 != 0;
        let arguments = match call[0] {
            3 => {
                let pairs = [1, 3, 5, 8].into_iter().any(pair);
                pairs || [7, 12, 13].into_iter().any(flag) || call[18] > 3
            }
            9 | 15 | 16 => float(1),
            10 => float(2),
            40 => flag(1) || flag(2),
            2 | 39 | 46.. => true,
            _ => false,
        };
        let record = [30, 32].into_iter().any(pair) || [28, 29, 34, 35].into_iter().any(flag);
        arguments || record || (38..44).any(float) || flag(48)
    }

    fn argument(&self, at: usize) -> u64 {
        self.call[1 + at]
    }

    fn after(&self) -> &[u64] {
        &self.answer[ANSWER - STATE..]
    }

    fn event(&self) -> CongestionEvent {
        event(&self.call[22..])
    }

    fn params(&self) -> Params {
        let fields = &self.call[38..];
        Params {
            beta: gain(fields[0]),
            loss_threshold: gain(fields[1]),
            inflight_hi_headroom: gain(fields[2]),
            full_bw_threshold: gain(fields[3]),
            startup_cwnd_gain: gain(fields[4]),
            startup_pacing_gain: gain(fields[5]),
            startup_full_bw_rounds: fields[6],
            max_startup_queue_rounds: fields[7],
            probe_rtt_period: Duration::from_nanos(fields[8]),
            probe_bw_probe_base_duration: Duration::from_nanos(fields[9]),
            ignore_app_limited_for_no_bandwidth_growth: fields[10] == 1,
        }
    }

    fn sample(&self) -> Sample {
        let numbers = &self.call[1..];
        let bandwidth = |at: usize| option(&numbers[at..]).map(Bandwidth::from_bits_per_second);
        Sample {
            sample_max_bandwidth: bandwidth(0),
            sample_max_send_rate: bandwidth(2),
            sample_max_ack_rate: bandwidth(4),
            sample_is_app_limited: numbers[6] == 1,
            sample_rtt: option(&numbers[7..]).map(Duration::from_nanos),
            sample_max_inflight: numbers[9],
            extra_acked: numbers[10],
            last_packet_send_state: send_state(&numbers[11..]),
            total_bytes_acked: numbers[15],
            total_bytes_lost: numbers[16],
        }
    }

    fn acked(&self) -> &[u64] {
        let count = self.argument(17) as usize;
        &self.call[19..19 + count]
    }

    /// Holds what a call replied and left to what is expected.
    fn held(
        &self,
        reply: Result<u64, Refusal>,
        state: &[u8],
        left: CongestionEvent,
    ) -> Result<(), String> {
        let (expected, seen) = (&self.answer[..2], numbers(reply));
        if seen != expected {
            return Err(format!("reply and answer {:?}, not {:?}", seen, expected));
        }
        let differs = |&at: &usize| word(state, at) != self.after()[at];
        if let Some(at) = (0..STATE).find(differs) {
            return Err(format!("field {} is {}", at, word(state, at)));
        }
        let expected = match self.call[0] {
            3 => event(&self.answer[2..]),
            _ => self.event(),
        };
        if left != expected {
            return Err(format!("the event is {:?}, not {:?}", left, expected));
        }
        Ok(())
    }
}

/// The words of a reply and an answer.
fn numbers(reply: Result<u64, Refusal>) -> [u64; 2] {
    match reply {
        Ok(answer) => [0, answer],
        Err(refusal) => [refusal.reply(), 0],
    }
}

/// Makes the call by the method of its name. A refused start leaves nothing to compare.
fn by_methods(case: &Case) -> Result<(), String> {
    let state = bytes(&case.before);
    let mut model = NetworkModel::from_bytes(&state[..8 * MODEL]).unwrap();
    let mut cycle = Cycle::from_bytes(&state[8 * MODEL..]).unwrap();
    let mut event = case.event();
    let reply = method(case, &mut model, &mut cycle, &mut event);
    let mut state = model.as_bytes().to_vec();
    state.extend(cycle.as_bytes());
    for (at, number) in looked_up(&model, &cycle) {
        assert_eq!(number, word(&state, at), "field {}", at);
    }
    if case.call[0] == 0 && reply.is_err() {
        state = bytes(case.after());
    }
    case.held(reply, &state, event)
}

/// What the methods that only look up a stored number give, each with its field.
fn looked_up(model: &NetworkModel, cycle: &Cycle) -> Vec<(usize, u64)> {
    let bits = Bandwidth::to_bits_per_second;
    let mut all = vec![
        (0, model.round_trip_count()),
        (1, model.last_sent_packet()),
        (8, model.bytes_lost_in_round()),
        (11, model.min_bytes_in_flight_in_round()),
        (12, model.inflight_hi_limited_in_round() as u64),
        (13, bits(model.bandwidth_latest())),
        (14, model.inflight_latest()),
        (21, model.cwnd_limited_before_aggregation_epoch() as u64),
        (23, bits(model.full_bandwidth_baseline())),
        (24, model.rounds_without_bandwidth_growth()),
        (
            26,
            model.ignore_app_limited_for_no_bandwidth_growth() as u64,
        ),
        (33, model.last_accepted_moment().as_nanos()),
        (34, model.anything_sent() as u64),
        (35, cycle.phase() as u64),
        (36, cycle.start_time().as_nanos()),
        (37, cycle.phase_start_time().as_nanos()),
        (38, cycle.rounds_in_phase()),
        (39, cycle.rounds_since_probe()),
        (42, cycle.probe_up_rounds()),
        (45, cycle.probe_up_acked()),
        (
            46,
            cycle.probe_up_app_limited_since_inflight_hi_limited() as u64,
        ),
        (47, cycle.has_advanced_max_bw() as u64),
        (48, cycle.is_sample_from_probing() as u64),
        (49, cycle.last_cycle_probed_too_high() as u64),
        (50, cycle.last_cycle_stopped_risky_probe() as u64),
    ];
    for (at, number) in [
        (2, model.end_of_round_trip()),
        (15, model.bandwidth_lo().map(bits)),
        (27, model.latest_send_rate().map(bits)),
        (29, model.latest_ack_rate().map(bits)),
        (40, cycle.probe_wait_time().map(Duration::as_nanos)),
        (43, cycle.probe_up_bytes()),
    ] {
        all.push((at, number.is_some() as u64));
        all.push((at + 1, number.unwrap_or(0)));
    }
    all
}

fn method(
    case: &Case,
    model: &mut NetworkModel,
    cycle: &mut Cycle,
    event: &mut CongestionEvent,
) -> Result<u64, Refusal> {
    let params = &case.params();
    let argument = |at: usize| case.argument(at);
    let moment = |at: usize| Moment::from_nanos(argument(at));
    let bandwidth = |at: usize| Bandwidth::from_bits_per_second(argument(at));
    let nothing = |()| 0;
    let flag = |yes: bool| yes as u64;
    match case.call[0] {
        0 => {
            let initial_rtt = Duration::from_nanos(argument(1));
            *model = NetworkModel::new(params, initial_rtt, moment(0))?;
            *cycle = Cycle::new(moment(0))?;
            Ok(0)
        }
        1 => model
            .on_packet_sent(moment(0), argument(1), argument(2), argument(3))
            .map(nothing),
        3 => model
            .on_congestion_event_start(case.acked(), event, &case.sample(), params)
            .map(nothing),
        4 => model.on_congestion_event_finish(event).map(nothing),
        5 => model.maybe_expire_min_rtt(event, params).map(flag),
        6 => model
            .is_inflight_too_high(event, argument(0), params)
            .map(flag),
        7 => model.has_bandwidth_growth(event, params).map(flag),
        8 => model.restart_round_early().map(nothing),
        9 => model
            .check_persistent_queue(gain(argument(0)), params)
            .map(nothing),
        10 => model.bdp(bandwidth(0), gain(argument(1))),
        11 => model.bdp1(bandwidth(0)),
        12 => model.bdp0(),
        13 => model.inflight_hi_with_headroom(params),
        14 => model.set_full_bandwidth_reached().map(nothing),
        15 => model.set_pacing_gain(gain(argument(0))).map(nothing),
        16 => model.set_cwnd_gain(gain(argument(0))).map(nothing),
        17 => model.set_inflight_hi(argument(0)).map(nothing),
        18 => model.cap_inflight_lo(argument(0)).map(nothing),
        19 => model.clear_inflight_lo().map(nothing),
        20 => model.clear_bandwidth_lo().map(nothing),
        21 => model.advance_max_bandwidth_filter().map(nothing),
        22 => model
            .postpone_min_rtt_timestamp(Duration::from_nanos(argument(0)))
            .map(nothing),
        23 => model
            .bandwidth_estimate()
            .map(Bandwidth::to_bits_per_second),
        24 => model.min_rtt().map(Duration::as_nanos),
        25 => model.min_rtt_timestamp().map(Moment::as_nanos),
        26 => model.max_bandwidth().map(Bandwidth::to_bits_per_second),
        27 => model.max_bytes_delivered_in_round(),
        28 => model.total_bytes_acked(),
        29 => model.total_bytes_lost(),
        30 => model.full_bandwidth_reached().map(flag),
        31 => model.pacing_gain().map(|gain| gain.to_bits() as u64),
        32 => model.cwnd_gain().map(|gain| gain.to_bits() as u64),
        33 => model.inflight_hi(),
        34 => model.inflight_hi_default(),
        35 => model.inflight_lo(),
        36 => model.loss_events_in_round(),
        37 => model.rounds_with_queueing(),
        38 => model.queueing_threshold_extra_bytes(),
        40 => {
            let (too_high, risky) = (argument(0) == 1, argument(1) == 1);
            cycle
                .enter_probe_down(model, too_high, risky, moment(2), params)
                .map(nothing)
        }
        41 => cycle.enter_probe_cruise(model, moment(0)).map(nothing),
        42 => cycle
            .enter_probe_refill(model, argument(0), moment(1))
            .map(nothing),
        43 => cycle
            .enter_probe_up(model, moment(0), argument(1))
            .map(nothing),
        44 => cycle.exit_probe_down(model).map(nothing),
        45 => cycle.raise_inflight_high_slope(argument(0)).map(nothing),
        number => panic!("no call has the number {}", number),
    }
}

/// The call of a case.
fn call(case: &Case) -> Call {
    let call = Call::new(case.call[0], &case.call[1..22])
        .with_event(&case.event())
        .with_params(&case.params());
    assert_eq!(call.as_bytes()[..], bytes(&case.call));
    call
}

/// Makes the call by a run over bytes.
fn by_bytes(case: &Case) -> Result<(), String> {
    let mut state = bytes(&case.before);
    let mut out = [0; Answer::BYTES];
    run(&mut state, call(case).as_bytes(), &mut out).unwrap();
    run_held(case, &state, &out)
}

/// Makes the call by a run with lists. An event's acked numbers are there, in reverse and so often that
/// they can't stand in the event itself, between numbers that are past every end.
fn by_lists(case: &Case) -> Result<(), String> {
    let mut call = call(case);
    let mut lists = vec![u64::MAX; 3];
    if case.call[0] == 3 && !case.acked().is_empty() {
        lists.extend(case.acked().repeat(4).iter().rev());
        call = call.with_list(&lists, 3..lists.len());
    }
    lists.push(u64::MAX);
    let mut state = bytes(&case.before);
    let mut out = [0; Answer::BYTES];
    run_lists(&mut state, call.as_bytes(), &lists, &mut out).unwrap();
    run_held(case, &state, &out)
}

/// Makes the call of these words as they are, by a run over bytes and by a run with lists.
fn by_words(case: &Case) -> Result<(), String> {
    let call = bytes(&case.call);
    for lists in [None, Some(&[u64::MAX; 3])] {
        let mut state = bytes(&case.before);
        let mut out = [0; Answer::BYTES];
        match lists {
            None => run(&mut state, &call, &mut out).unwrap(),
            Some(lists) => run_lists(&mut state, &call, lists, &mut out).unwrap(),
        }
        let mut seen = out.to_vec();
        seen.extend(state);
        if seen != bytes(&case.answer) {
            return Err(format!("{:?}, not {:?}", seen, case.answer));
        }
    }
    Ok(())
}

/// Holds what a run left to what is expected.
fn run_held(case: &Case, state: &[u8], out: &[u8; Answer::BYTES]) -> Result<(), String> {
    let answer = Answer::from_bytes(out);
    // A refused event's record is in its bytes alone.
    let record: Vec<u64> = (2..18).map(|at| word(out, at)).collect();
    let left = event(&record);
    assert_eq!(answer.event(), answer.number().map(|_| left));
    if case.call[0] == 3 {
        return case.held(answer.number(), state, left);
    }
    assert_eq!(left, CongestionEvent::default());
    case.held(answer.number(), state, case.event())
}

/// Runs the filter with the output that the call lends; all of the memory is compared.
fn by_filter_run(case: &Case) -> Result<(), String> {
    let [length, lent] = [case.argument(1) as usize, case.argument(2) as usize];
    let pairs = &bytes(&case.call[4..])[..length];
    let mut memory = [165; 8 * (ANSWER - 2)];
    let reply = guovssalu::filter_run(case.argument(0), pairs, &mut memory[..lent]);
    let mut seen = bytes(&numbers(reply.map(|()| 0)));
    seen.extend(memory);
    if seen != bytes(&case.answer) {
        return Err(format!("{:?}", seen));
    }
    Ok(())
}

/// The slope. The package's function lends an output that is long enough.
fn by_slope(case: &Case) -> Result<(), String> {
    let expected = &case.answer[..4];
    let slope = guovssalu::raise_inflight_high_slope(case.argument(0), case.argument(1));
    let seen = match slope {
        Ok((rounds, bytes)) => [0, 0, rounds, bytes],
        Err(refusal) => [refusal.reply(), 0, expected[2], expected[3]],
    };
    if expected[0] != 7 && seen != expected {
        return Err(format!("{:?}, not {:?}", seen, expected));
    }
    Ok(())
}

/// Runs the round-trip estimator on the bytes that the call lends; all of the memory is compared. Where the
/// run is done its calls are made by the methods, too.
fn by_rtt_run(case: &Case) -> Result<(), String> {
    let lent = [56, 304, 480];
    let lent = [0, 1, 2].map(|at| case.argument(at).min(lent[at]) as usize);
    let before = bytes(&case.call[4..11]);
    let calls = &bytes(&case.call[11..])[..lent[1]];
    let (mut memory, mut answers) = (before.clone(), [165; 480]);
    let reply = guovssalu::rtt_run(&mut memory[..lent[0]], calls, &mut answers[..lent[2]]);
    let mut seen = bytes(&numbers(reply.map(|()| 0)));
    seen.extend(&memory);
    seen.extend(answers);
    if seen != bytes(&case.answer) {
        return Err(format!("{:?}", seen));
    }
    if reply.is_ok() {
        let mut stats = RttStats::from_bytes(&before[..48]).unwrap();
        for (call, answer) in calls.chunks(32).zip(answers.chunks(40)) {
            rtt_method(&mut stats, call, answer);
        }
        assert_eq!(stats.as_bytes()[..], memory[..48]);
    }
    Ok(())
}

/// Makes a call of the estimator by the method of its name, unless it is malformed: reply and answer are held
/// to those of the run. A refused new leaves an estimator of 0 and 0 in a run, and none to the caller of a
/// method.
fn rtt_method(stats: &mut RttStats, call: &[u8], answer: &[u8]) {
    let length = |at: usize| Duration::from_nanos(word(call, at));
    let reply = match (word(call, 0), word(call, 3)) {
        (0, _) => {
            let made = RttStats::new(length(1), length(2));
            let zeros = RttStats::from_bytes(&[0; 48]).unwrap();
            *stats = made.clone().unwrap_or(zeros);
            made.map(drop)
        }
        (1, flag @ 0..=1) => stats.update_rtt(length(1), length(2), flag == 1),
        (2, _) => stats.update_max_ack_delay(length(1)),
        _ => return,
    };
    let nanos = |length: Result<Duration, Refusal>| length.map_or(0, Duration::as_nanos);
    let smallest = |smallest: Option<Duration>| smallest.map_or(u64::MAX, Duration::as_nanos);
    let mut seen = vec![numbers(reply.map(|()| 0))[0]];
    seen.extend(match reply {
        Err(_) => [0; 4],
        Ok(()) => [
            nanos(stats.latest_rtt()),
            stats.min_rtt().map_or(0, smallest),
            nanos(stats.rtt()),
            nanos(stats.rttvar()),
        ],
    });
    assert_eq!(bytes(&seen), answer);
}

fn bytes(words: &[u64]) -> Vec<u8> {
    words.iter().flat_map(|word| word.to_le_bytes()).collect()
}

fn word(bytes: &[u8], at: usize) -> u64 {
    let mut word = [0; 8];
    word.copy_from_slice(&bytes[8 * at..8 * at + 8]);
    u64::from_le_bytes(word)
}

fn gain(bits: u64) -> f32 {
    f32::from_bits(bits as u32)
}

fn option(numbers: &[u64]) -> Option<u64> {
    if numbers[0] == 1 {
        Some(numbers[1])
    } else {
        None
    }
}

fn send_state(numbers: &[u64]) -> SendTimeState {
    SendTimeState {
        is_valid: numbers[0] == 1,
        is_app_limited: numbers[1] == 1,
        total_bytes_acked: numbers[2],
        bytes_in_flight: numbers[3],
    }
}

/// The event of these 16 words, which stand in an answer after the first two.
fn event(numbers: &[u64]) -> CongestionEvent {
    let mut answer = [0; Answer::BYTES];
    answer[16..].copy_from_slice(&bytes(&numbers[..16]));
    Answer::from_bytes(&answer).event().unwrap()
}
