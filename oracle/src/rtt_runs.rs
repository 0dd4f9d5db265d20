//! Asks the original and the archive, which is linked, the same runs of an
//! estimator, some of thousands of calls, and compares the reply and every byte of
//! the memory.

use std::time::Duration;
use std::time::Instant;

use guovssalu_sys::table::RTT_ANSWER_BYTES;
use guovssalu_sys::table::RTT_CALL_BYTES;
use guovssalu_sys::table::RTT_STATE_BYTES;

use crate::archive;
use crate::archive::UNTOUCHED;
use crate::estimator::Lent;
use crate::estimator::Ran;
use crate::frame;
use crate::frame::RTT_STATE;
use crate::replies;
use crate::rtt_counts::RttCounts;
use crate::rtt_steps::RttSteps;
use crate::text;
use crate::values::Random;
use crate::world::Step;

/// How often the progress is told.
const PROGRESS: Duration = Duration::from_secs(10);

/// Bytes after those of the answers that are lent.
const BEYOND: usize = 64;

/// Makes this many calls and tells how it went; whether nothing differed.
pub fn run(seed: u64, calls: u64) -> bool {
    let mut steps = RttSteps::new(seed);
    let mut random = Random::new(seed ^ (7 << 60));
    let mut counts = RttCounts::new();
    let (mut made, mut told) = (0, Instant::now());
    let mut differs = None;
    while made < calls && differs.is_none() {
        let count = match random.one_in(16) {
            true => random.of_length(12),
            false => random.below(10),
        };
        let lent = steps.run(count.min(calls - made));
        let ran = lent.run();
        counts.look(&lent, &ran);
        differs = difference(&lent, &ran);
        made += lent.whole() as u64;
        if told.elapsed() > PROGRESS {
            told = Instant::now();
            eprintln!("{made} calls");
        }
    }
    counts.tell("");
    if let Some(difference) = differs {
        println!("{difference}\n{made} calls, a difference");
        return false;
    }
    counts.hold();
    println!("{made} calls, 0 differences");
    true
}

/// What the archive does otherwise, told.
fn difference(lent: &Lent, ran: &Ran) -> Option<String> {
    let [state_bytes, calls_bytes, answers_bytes] = lent.bytes;
    let mut state = frame::bytes(&lent.state);
    let calls = frame::bytes(&lent.calls);
    let mut answers = vec![UNTOUCHED as u8; answers_bytes + BEYOND];
    let reply = archive::rtt_run(
        &mut state[..state_bytes],
        &calls[..calls_bytes],
        &mut answers[..answers_bytes],
    );
    let mut expected = frame::bytes(&ran.answers());
    expected.resize(answers.len(), UNTOUCHED as u8);
    let state = frame::words(&state);
    if reply == ran.reply && state == ran.state && answers == expected {
        return None;
    }
    let [due, got] = [ran.reply, reply].map(replies::shown);
    Some(format!(
        "a run with {state_bytes} bytes of state, {calls_bytes} of calls and {answers_bytes} of \
         answers: expected {due}, got {got}\n{}The state before: {:?}\nafter, expected: {:?}\ngot: \
         {state:?}",
        at_call(ran, &expected, &answers),
        lent.state,
        ran.state,
    ))
}

/// The first call whose answer differs, as a run of its own, and both answers. Or the
/// bytes past the answers.
fn at_call(ran: &Ran, expected: &[u8], got: &[u8]) -> String {
    let Some(at) = (0..got.len()).find(|&at| expected[at] != got[at]) else {
        return String::new();
    };
    let at = at / RTT_ANSWER_BYTES;
    let Some(made) = ran.made.get(at) else {
        return format!("{} answers, and bytes after them are written\n", at);
    };
    let mut state = made.before.to_vec();
    state.resize(RTT_STATE, 0);
    let alone = Step::RttRun(Lent {
        state,
        calls: made.call.to_vec(),
        bytes: [RTT_STATE_BYTES, RTT_CALL_BYTES, RTT_ANSWER_BYTES],
    });
    let got = frame::words(&got[at * RTT_ANSWER_BYTES..][..RTT_ANSWER_BYTES]);
    format!(
        "Its call {}: {}\nanswered, expected: {:?}\ngot: {got:?}\n",
        at + 1,
        text::line(&alone),
        made.answer
    )
}
