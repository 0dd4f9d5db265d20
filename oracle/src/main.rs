//! Writes lists or frames with the original's answers into a folder, or
//! compares it with a port; see README.md.

#[cfg(feature = "archive")]
mod archive;
mod bounds;
mod calls;
mod diff;
mod estimator;
mod export_steps;
mod faults;
mod files;
mod filter_steps;
mod filters;
mod frame;
#[cfg(feature = "archive")]
mod lengths;
mod limits;
mod list;
#[cfg(feature = "archive")]
mod list_steps;
#[cfg(feature = "archive")]
mod long_lists;
mod malformed;
mod marks;
mod mend_counts;
mod mend_diff;
mod mend_promises;
mod model;
mod named;
mod number_steps;
mod numbers;
mod places;
mod port;
mod reasons;
mod replies;
mod rtt_cases;
mod rtt_counts;
#[cfg(feature = "archive")]
mod rtt_runs;
mod rtt_steps;
mod run;
mod scalars;
mod sequences;
mod serve;
mod steps;
mod text;
mod trace;
mod trace_cases;
mod trace_counts;
mod trace_damage;
mod trace_diff;
mod trace_mend;
mod trace_port;
mod trace_replay;
mod trace_steps;
mod trace_world;
mod unsent;
mod values;
mod wanted;
mod windowed;
mod world;

include!(concat!(env!("OUT_DIR"), "/original.rs"));

use std::env;
use std::fs;
use std::io;
use std::path::Path;
use std::process;

use export_steps::ExportSteps;
use files::Files;
use filter_steps::FilterSteps;
use list::List;
use malformed::Mixed;
use number_steps::NumberSteps;
use port::Port;
use rtt_steps::RttSteps;
use steps::Steps;

/// Named by gcongestion/mod.rs of the original.
#[derive(Debug)]
pub enum Error {
    CongestionControl,
}

const USAGE: &str = "\
Name one folder, into which the lists are written, or one of these:
  frames DIR               writes the frames that are kept
  frames-of SEED CALLS DIR writes frames of so many chosen calls, and for the
                           answers of each two sums
  diff SEED CALLS          compares the original with the port in PORT
  filter SEED CALLS        the same, for windowed filters
  numbers SEED CALLS       the same, for conversions, scaling and bandwidth
  exports SEED CALLS       the same, for the exported filter run and slope
  rtt SEED CALLS           the same, for the exported run of an estimator
  patterns FUNCTION NUMBER the same, for all patterns of an f32, as the bits that
                           to_u64 takes, or as the gain that scale and
                           bandwidth_mul take with NUMBER
  calls FILE               the same, on the calls of a file
  lists SEED CALLS         compares the original with the archive, which is linked
                           by the feature `archive`: events with long lists of
                           acked numbers, among other calls
  rtt-runs SEED CALLS      the same, for runs of an estimator of any length
  serve                    is the original as a port
  replay                   answers the trace on the standard input with its rows
  traces SEED LINES DIR    writes traces, of so many chosen lines and of cases, with
                           their rows
  compare-traces SEED LINES
                           compares these rows with those of the port in PORT, which
                           replays a trace
  mend LIST                copies the trace on the standard input without the lines
                           that its replay answers with 6, and lists those in LIST
  parse                    says how many lines of it are sound by themselves
  compare-mends SEED TRACES
                           compares this, on so many chosen traces and on cases, with
                           the port in PORT_MEND and PORT_REPLAY, which mends a trace
                           and replays one";

const NO_PORT: &str = "Set PORT to the command of the port.";
const NO_PROGRAMS: &str = "Set PORT_MEND and PORT_REPLAY to the commands of the port.";

/// The seed of the kept frames' chosen calls, how many there are of each kind,
/// and how often at least each reason, each pair of steps that both act, each
/// case of numbers that were sent or never sent, each argument that can be
/// named, and each case of the estimator occurs.
const KEPT_SEED: u64 = 1;
const KEPT_CALLS: u64 = 100;
const KEPT_REASONS: u64 = 20;
const KEPT_PAIRS: u64 = 1;
const KEPT_UNSENT: u64 = 1;
const KEPT_NAMED: u64 = 1;
const KEPT_RTT: u64 = 1;

fn main() {
    let arguments: Vec<String> = env::args().skip(1).collect();
    let arguments: Vec<&str> = arguments.iter().map(String::as_str).collect();
    match arguments[..] {
        ["serve"] => check(serve::serve()),
        ["replay"] => check(trace_replay::run()),
        ["mend", list] => check(trace_mend::run(Path::new(list))),
        ["parse"] => check(trace_mend::parse()),
        ["traces", seed, lines, folder] => check(trace_diff::write(
            number(seed),
            number(lines),
            Path::new(folder),
        )),
        ["frames", folder] => check(kept().write(Path::new(folder))),
        ["frames-of", seed, calls, folder] => {
            let files = fresh(number(seed), number(calls));
            check(files.write(Path::new(folder)))
        }
        [folder] => check(lists(Path::new(folder))),
        _ => process::exit(!compare(&arguments) as i32),
    }
}

/// Compares the original with the port; whether nothing differed.
fn compare(arguments: &[&str]) -> bool {
    match *arguments {
        ["diff", seed, calls] => {
            let mut steps = Mixed::new(number(seed));
            let choose = |world: &_| steps.next(world);
            diff::run(&mut port(), number(calls), Steps::begins, choose)
        }
        ["filter", seed, calls] => {
            let mut steps = FilterSteps::new(number(seed));
            let choose = |world: &_| steps.next(world);
            diff::run(&mut port(), number(calls), FilterSteps::begins, choose)
        }
        ["numbers", seed, calls] => {
            let mut steps = NumberSteps::new(number(seed));
            diff::run(&mut port(), number(calls), |_| true, |_| steps.next())
        }
        ["exports", seed, calls] => {
            let mut steps = ExportSteps::new(number(seed));
            diff::run(&mut port(), number(calls), |_| true, |_| steps.next())
        }
        ["rtt", seed, calls] => {
            let mut steps = RttSteps::new(number(seed));
            diff::run(&mut port(), number(calls), |_| true, |_| steps.next())
        }
        ["patterns", name, other] => {
            let function = scalars::on_patterns(name).unwrap_or_else(|| fail(USAGE));
            let mut patterns = number_steps::patterns(function, number(other));
            let calls = (1 << 32) / scalars::RUN;
            diff::run(&mut port(), calls, |_| true, |_| patterns())
        }
        ["calls", file] => {
            let text = fs::read_to_string(file).unwrap_or_else(|error| fail(&error.to_string()));
            let steps = text::steps(&text).unwrap_or_else(|why| fail(&why));
            diff::follow(&mut port(), steps)
        }
        ["compare-traces", seed, lines] => {
            trace_diff::run(number(seed), number(lines)).unwrap_or_else(|| fail(NO_PORT))
        }
        ["compare-mends", seed, traces] => {
            mend_diff::run(number(seed), number(traces)).unwrap_or_else(|| fail(NO_PROGRAMS))
        }
        ["lists", seed, calls] => of_archive("lists", number(seed), number(calls)),
        ["rtt-runs", seed, calls] => of_archive("rtt-runs", number(seed), number(calls)),
        _ => fail(USAGE),
    }
}

/// A comparison with the archive.
#[cfg(feature = "archive")]
fn of_archive(command: &str, seed: u64, calls: u64) -> bool {
    match command {
        "lists" => long_lists::run(seed, calls),
        _ => rtt_runs::run(seed, calls),
    }
}

#[cfg(not(feature = "archive"))]
fn of_archive(command: &str, _: u64, _: u64) -> bool {
    fail(&format!(
        "The command `{command}` needs the archive: build with `--features archive`."
    ))
}

fn port() -> Port {
    Port::from_environment().unwrap_or_else(|| fail(NO_PORT))
}

fn number(word: &str) -> u64 {
    word.parse().unwrap_or_else(|_| fail(USAGE))
}

fn check(outcome: io::Result<()>) {
    if let Err(error) = outcome {
        eprintln!("It can't be done: {error}.");
        process::exit(1);
    }
}

fn fail(sentence: &str) -> ! {
    eprintln!("{sentence}");
    process::exit(2);
}

/// The frames that are kept: every call, every reply and every reason.
fn kept() -> Files {
    let mut files = Files::new(false);
    sequences::add(&mut files);
    limits::add(&mut files);
    faults::add(&mut files);
    rtt_cases::add(&mut files);
    let mut steps = Steps::new(KEPT_SEED);
    files.take(KEPT_CALLS, |world| steps.next(world));
    files.choose_others(KEPT_SEED, NumberSteps::at_random(KEPT_SEED), KEPT_CALLS);
    for row in [0, 1, 2, 3, 4, 5, 7, 10] {
        let mut replies = files.replies.keys();
        assert!(replies.any(|&reply| replies::row(reply) == row), "no {row}");
    }
    for call in text::asked() {
        assert!(files.calls.contains_key(&call), "no call {call}");
    }
    files.world.tally.demand(KEPT_REASONS, KEPT_PAIRS);
    files.world.unsent.demand(KEPT_UNSENT);
    files.world.named.demand(KEPT_NAMED);
    files.world.rtt.demand(KEPT_RTT);
    files
}

/// Frames of so many calls, of which a tenth each is on filters, on numbers, of
/// the exported filter and slope, and of the estimator, with sums for the answers.
fn fresh(seed: u64, calls: u64) -> Files {
    let mut files = Files::new(true);
    let tenth = calls / 10;
    let mut steps = Mixed::new(seed);
    files.take(calls - 4 * tenth, |world| steps.next(world));
    files.choose_others(seed, NumberSteps::new(seed), tenth);
    files
}

/// Makes all lists and writes them into a folder.
fn lists(folder: &Path) -> io::Result<()> {
    let lists = [
        numbers::to_f32(),
        numbers::to_f64(),
        numbers::to_u64(),
        numbers::round_to_u64(),
        numbers::scale(),
        numbers::bandwidth_mul(),
        numbers::bandwidth_period(),
        numbers::bandwidth_order(),
        filters::windowed_filter(),
        filters::max_bandwidth_filter(),
        filters::min_rtt_filter(),
        filters::round_trip_counter(),
    ];
    fs::create_dir_all(folder)?;
    let mut bytes = 0;
    for List { name, text } in &lists {
        eprintln!(
            "{name}: {} lines, {} bytes",
            text.lines().count(),
            text.len()
        );
        fs::write(folder.join(name), text)?;
        bytes += text.len();
    }
    eprintln!("{bytes} bytes");
    Ok(())
}
