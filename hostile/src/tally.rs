//! What was made and what was wrong, counted; and what had to be made and was not.

use std::sync::atomic::AtomicU64;
use std::sync::atomic::Ordering;

use guovssalu_sys::table::reason;

use crate::aims::Aims;
use crate::estimator::Step;
use crate::limits;
use crate::limits::Greatest;
use crate::limits::WAYS;
use crate::meets::Meets;
use crate::places::Callee;
use crate::places::Given;
use crate::table::Rows;
use crate::table::ORDER;

/// The calls made so far, for the one who watches.
pub static MADE: AtomicU64 = AtomicU64::new(0);

/// So many wrong cases are told.
const TOLD: usize = 10;

/// So many counts at most are shown one by one.
const SHOWN: usize = 15;

/// What is counted apart: each exported call, and the calls within runs that were made alone.
#[derive(Clone, Copy, PartialEq, Debug)]
pub enum Export {
    Run,
    OneCall,
    RunLists,
    OneCallOfLists,
    RttRun,
    OneRttCall,
    FilterRun,
    Slope,
    ToF32,
    ToF64,
    FromF32,
    RoundF64,
    Scale,
    BandwidthMul,
    BytesPerPeriod,
}

/// How many there are.
const EXPORTS: usize = 15;

const NAMES: [&str; EXPORTS] = [
    "guovssalu_run",
    "  of which one call, its own reply",
    "guovssalu_run_lists",
    "  of which one call, its own reply",
    "guovssalu_rtt_run",
    "  calls in those done, their replies",
    "guovssalu_filter_run",
    "guovssalu_raise_inflight_high_slope",
    "guovssalu_u64_to_f32",
    "guovssalu_u64_to_f64",
    "guovssalu_f32_to_u64",
    "guovssalu_f64_round_to_u64",
    "guovssalu_scale",
    "guovssalu_bandwidth_mul_f32",
    "guovssalu_to_bytes_per_period",
];

impl Export {
    /// Those that have a reply.
    pub const REPLYING: [Export; 8] = [
        Export::Run,
        Export::OneCall,
        Export::RunLists,
        Export::OneCallOfLists,
        Export::RttRun,
        Export::OneRttCall,
        Export::FilterRun,
        Export::Slope,
    ];

    /// Those that are calls within a run, which are counted with the run.
    const WITHIN: [Export; 3] = [Export::OneCall, Export::OneCallOfLists, Export::OneRttCall];

    /// The replies that have to be met.
    pub fn replies(self) -> &'static [u64] {
        match self {
            Export::Run | Export::RunLists | Export::RttRun | Export::Slope => &[0, 1, 2, 7],
            Export::OneCall | Export::OneCallOfLists => &[0, 1, 2, 3, 4, 10, 5],
            Export::OneRttCall => &[0, 1, 2],
            Export::FilterRun => &[0, 2, 3, 7],
            _ => &[],
        }
    }
}

/// Where an event's numbers are: in the call, or in a list. Their names.
const PLACES: [&str; 2] = ["in the call", "in a list"];

/// The rows of a call that can hold beside row 10, and those of a run that is refused with such a call.
const BESIDE: [u64; 5] = [1, 2, 3, 4, 5];
const OF_RUN: [u64; 3] = [1, 2, 7];

/// How many replies are counted apart: done, each row, and any other.
const REPLIES: usize = ORDER.len() + 2;

/// The place of a reply among them, by its row.
fn place(reply: u64) -> usize {
    let [row, kind, place] = parts(reply);
    match ORDER.iter().position(|&asked| asked == row) {
        _ if reply >> 24 > 0 || (row != 2 && kind + place > 0) => REPLIES - 1,
        Some(row) => row + 1,
        None if row == 0 => 0,
        None => REPLIES - 1,
    }
}

/// The row of a reply, the kind and the place.
fn parts(reply: u64) -> [u64; 3] {
    [0, 8, 16].map(|shift| reply >> shift & 255)
}

/// A reply in readable form.
fn tell(reply: u64) -> String {
    let [row, kind, place] = parts(reply);
    if reply < 256 {
        reply.to_string()
    } else {
        format!("{} ({}.{} at {})", reply, row, kind, place)
    }
}

/// What can be wrong.
#[derive(Clone, Copy, PartialEq, Debug)]
pub enum Fault {
    /// Another reply than the one due.
    Reply,
    /// Another answer or state than the one due.
    Content,
    /// A byte changed that had to stay: of an input, of what was lent to a refused call, past the
    /// answer, or outside of what was lent.
    Touched,
}

#[derive(Default)]
pub struct Tally {
    calls: [u64; EXPORTS],
    replies: [[u64; REPLIES]; EXPORTS],
    reasons: [u64; 8],
    rounds: [[u64; WAYS]; 2],
    sends: [[u64; WAYS]; 2],
    beside: [[u64; BESIDE.len()]; 2],
    of_run: [u64; OF_RUN.len()],
    outside: u64,
    aims: Aims,
    meets: Meets,
    overlaps: u64,
    malformed: u64,
    no_calls: u64,
    ranges: u64,
    guards: u64,
    faults: [u64; 3],
    told: Vec<String>,
}

impl Tally {
    /// Counts a call without a reply.
    pub fn answered(&mut self, export: Export) {
        self.calls[export as usize] += 1;
        if !Export::WITHIN.contains(&export) {
            MADE.fetch_add(1, Ordering::Relaxed);
        }
    }

    /// Counts a call and its reply, and compares that with the one due.
    pub fn replied(&mut self, export: Export, rows: &Rows, given: u64, about: impl Fn() -> String) {
        self.answered(export);
        self.replies[export as usize][place(given)] += 1;
        self.overlaps += rows.overlap() as u64;
        let due = rows.reply();
        if given != due {
            let rows: Vec<u64> = rows.numbers().collect();
            self.wrong(Fault::Reply, || {
                let (due, given) = (tell(due), tell(given));
                format!("rows {:?}, due {}, given {}\n{}", rows, due, given, about())
            });
        }
    }

    /// Counts what a callee was given, with lists or without, by the rows that hold.
    pub fn asked(&mut self, callee: Callee, with_lists: bool, given: &Given, rows: &Rows) {
        self.meets.count(callee, with_lists, given, rows);
    }

    /// Counts a run of the estimator by its rows, and its calls, if it is done.
    pub fn estimated(&mut self, rows: &Rows, steps: &[Step]) {
        self.aims.count(rows, steps);
    }

    /// Counts a reason that was due in a filter run.
    pub fn reasoned(&mut self, reason: u64) {
        self.reasons[reason as usize] += 1;
    }

    /// Counts an event that was done, by where its numbers are and how the greatest stands to the end.
    pub fn rounded(&mut self, in_a_list: bool, greatest: Greatest) {
        self.rounds[in_a_list as usize][greatest as usize] += 1;
    }

    /// Counts an event that was done or refused with 10, by how the greatest stands to the last sent.
    pub fn sent(&mut self, in_a_list: bool, greatest: Greatest) {
        self.sends[in_a_list as usize][greatest as usize] += 1;
    }

    /// Counts an event with a number that was never sent, by the other rows that hold.
    pub fn never_sent(&mut self, in_a_list: bool, rows: &Rows) {
        for (count, row) in self.beside[in_a_list as usize].iter_mut().zip(BESIDE) {
            *count += rows.holds(row) as u64;
        }
    }

    /// Counts a refused run that has such an event, by the rows of the run that hold.
    pub fn never_asked(&mut self, rows: &Rows) {
        for (count, row) in self.of_run.iter_mut().zip(OF_RUN) {
            *count += rows.holds(row) as u64;
        }
    }

    /// Counts an event whose place is outside the lists.
    pub fn misplaced(&mut self) {
        self.outside += 1;
    }

    /// Counts a call by what its words are.
    pub fn worded(&mut self, malformed: bool, no_call: bool) {
        self.malformed += malformed as u64;
        self.no_calls += no_call as u64;
    }

    /// Counts a range whose guards were compared.
    pub fn guarded(&mut self, guards: u64) {
        self.ranges += 1;
        self.guards += guards;
    }

    /// Counts something wrong, and keeps the first to be told.
    pub fn wrong(&mut self, fault: Fault, about: impl FnOnce() -> String) {
        self.faults[fault as usize] += 1;
        if self.told.len() < TOLD {
            self.told.push(format!("{:?}: {}", fault, about()));
        }
    }

    /// How many exported calls were made.
    pub fn made(&self) -> u64 {
        let within = Export::WITHIN.iter();
        let within: u64 = within.map(|&one| self.calls[one as usize]).sum();
        self.calls.iter().sum::<u64>() - within
    }

    /// How many times something was wrong.
    pub fn wrongs(&self) -> u64 {
        self.faults.iter().sum()
    }

    /// How many times this was wrong.
    #[cfg(test)]
    pub fn count(&self, fault: Fault) -> u64 {
        self.faults[fault as usize]
    }

    /// How often this reply was given.
    pub fn given(&self, export: Export, reply: u64) -> u64 {
        self.replies[export as usize][place(reply)]
    }

    /// How often this reason was due.
    #[cfg(test)]
    pub fn due(&self, reason: u64) -> u64 {
        self.reasons[reason as usize]
    }

    /// How many events had a place outside the lists.
    #[cfg(test)]
    pub fn outside(&self) -> u64 {
        self.outside
    }

    /// The report; its last line has the verdict.
    pub fn report(&self) -> String {
        let [reply, content, touched] = self.faults;
        let reasons = Counted::new("filter reasons due", reason::NAMES, &self.reasons);
        let named = Counted {
            title: "refused with 2".to_string(),
            counts: self.meets.named().collect(),
        };
        let lines = [reasons, named].into_iter().chain(self.counted());
        let lines = lines.map(|counted| counted.line());
        let (ends, pairs) = self.meets.sizes();
        let told = self.told.iter().map(|told| format!("\n{}\n", told));
        let missing = self.missing();
        let not_reached = missing
            .iter()
            .map(|name| format!("not reached: {}\n", name));
        let verdict = match missing.len() {
            0 => String::new(),
            count => format!(", {} not reached", count),
        };
        format!(
            "{}\n{}{} ends of bounds and {} pairs of refusals had to be met\n{} events with a place \
             outside the lists\n{} calls with two or more refusals at once\n{} calls with a malformed \
             word, {} with a number of no call\n{} lent ranges, {} guard bytes compared\n{} wrong \
             replies, {} wrong answers or states, {} bytes touched\n{}{}{} calls, {} wrong{}\n",
            self.table(),
            lines.collect::<String>(),
            ends,
            pairs,
            self.outside,
            self.overlaps,
            self.malformed,
            self.no_calls,
            self.ranges,
            self.guards,
            reply,
            content,
            touched,
            told.collect::<String>(),
            not_reached.collect::<String>(),
            self.made(),
            self.wrongs(),
            verdict
        )
    }

    /// What has to be met in a run, and was not.
    pub fn missing(&self) -> Vec<String> {
        let mut missing = self.fewer_than(1);
        missing.extend(self.meets.missing());
        let excluded = self.aims.excluded().into_iter();
        missing.extend(excluded.map(|name| format!("{}: it was, and can't be", name)));
        missing
    }

    /// What has to be met, by chance alone too, and was met fewer times than this.
    pub fn fewer_than(&self, times: u64) -> Vec<String> {
        let named = self.counted().into_iter().flat_map(Counted::named);
        let replies = Export::REPLYING.into_iter().flat_map(|export| {
            let name = NAMES[export as usize].trim();
            let given = move |&reply: &u64| (reply, self.given(export, reply));
            let given = export.replies().iter().map(given);
            given.map(move |(reply, count)| (format!("{}, {}", name, reply), count))
        });
        let fewer = named.chain(replies).filter(|&(_, count)| count < times);
        fewer.map(|(name, _)| name).collect()
    }

    /// What is counted of events by their numbers, and of the estimator's calls.
    fn counted(&self) -> Vec<Counted> {
        let rounds = by_place("events done", limits::BY_END, &self.rounds);
        let sends = by_place(
            "events done or refused with 10",
            limits::BY_SENT,
            &self.sends,
        );
        let beside = PLACES.iter().zip(&self.beside).map(|(place, counts)| {
            let title = format!("events with a number never sent, numbers {}", place);
            Counted::new(
                &title,
                BESIDE.map(|row| format!("beside row {}", row)),
                counts,
            )
        });
        let title = "runs refused that have such an event";
        let of_run = Counted::new(
            title,
            OF_RUN.map(|row| format!("with {}", row)),
            &self.of_run,
        );
        let aims = self.aims.all().into_iter();
        let aims = aims.map(|(title, counts)| Counted { title, counts });
        let events = rounds.chain(sends).chain(beside).chain([of_run]);
        events.chain(aims).collect()
    }

    /// The calls and replies, a line for each exported call.
    fn table(&self) -> String {
        let row = |name: &str, columns: Vec<String>| {
            let columns: String = columns
                .iter()
                .map(|column| format!("{:>10}", column))
                .collect();
            format!("{:36}{}\n", name, columns)
        };
        let mut head = vec!["calls".to_string(), "0".to_string()];
        head.extend(ORDER.iter().map(u64::to_string));
        head.push("other".to_string());
        let mut table = row("replies", head);
        for (index, name) in NAMES.iter().enumerate() {
            let mut columns = vec![self.calls[index].to_string()];
            if index < Export::REPLYING.len() {
                columns.extend(self.replies[index].iter().map(u64::to_string));
            }
            table += &row(name, columns);
        }
        table
    }
}

/// Counts, each with its name, none of which may be 0.
struct Counted {
    title: String,
    counts: Vec<(String, u64)>,
}

impl Counted {
    /// Counts with as many names.
    fn new<'a>(
        title: &str,
        names: impl IntoIterator<Item = impl ToString>,
        counts: impl IntoIterator<Item = &'a u64>,
    ) -> Self {
        let names = names.into_iter().map(|name| name.to_string());
        Counted {
            title: title.to_string(),
            counts: names.zip(counts.into_iter().copied()).collect(),
        }
    }

    /// All of them in a line, or, if they are many, how many and the least.
    fn line(&self) -> String {
        let counts = self.counts.iter();
        let told = |(name, count): &(String, u64)| format!("{} {}", count, name);
        let line = match counts.clone().min_by_key(|(_, count)| count) {
            Some(least) if counts.len() > SHOWN => {
                format!("{}, the rarest {}", counts.len(), told(least))
            }
            _ => counts.map(told).collect::<Vec<_>>().join(", "),
        };
        format!("{}: {}\n", self.title, line)
    }

    /// Each with all of its name.
    fn named(self) -> impl Iterator<Item = (String, u64)> {
        let title = self.title;
        let counts = self.counts.into_iter();
        counts.map(move |(name, count)| (format!("{}, {}", title, name), count))
    }
}

/// How often the greatest number of an event stood in each way, apart for each place. A list is not
/// empty.
fn by_place(
    title: &str,
    names: [&'static str; WAYS],
    counts: &[[u64; WAYS]; 2],
) -> impl Iterator<Item = Counted> {
    let [in_the_call, in_a_list] = PLACES.map(|place| format!("{}, numbers {}", title, place));
    let some = Greatest::NoLimit as usize;
    [
        Counted::new(&in_the_call, names, &counts[0]),
        Counted::new(&in_a_list, &names[some..], &counts[1][some..]),
    ]
    .into_iter()
}
