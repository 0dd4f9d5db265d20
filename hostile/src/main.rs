//! Gives the exported calls hostile input: random bytes, numbers at, past and far past their
//! bounds, lengths that are off, several refusals at once. What is due is known beforehand, from a
//! reading of documents 01 and 02 and the original that is independent of the port (`table`, `places`,
//! `after`, `next`, `estimator`, `filter`, `slope`), and every lent range is guarded (`lent`).

mod after;
mod aims;
#[cfg(not(test))]
mod archive;
mod bounds;
mod cases;
mod checks;
mod choose;
mod dice;
mod edges;
mod estimator;
mod events;
#[cfg(test)]
mod fakes;
mod filter;
mod flaws;
mod foreign;
mod kinds;
mod lent;
mod limits;
mod lists;
mod meets;
#[cfg(test)]
mod misexports;
#[cfg(test)]
mod misfilters;
#[cfg(test)]
mod misjudges;
#[cfg(test)]
mod misleaves;
#[cfg(test)]
mod misnames;
#[cfg(test)]
mod misnotes;
#[cfg(test)]
mod misplaces;
#[cfg(test)]
mod misreads;
#[cfg(test)]
mod misruns;
#[cfg(test)]
mod missends;
#[cfg(test)]
mod mistakes;
#[cfg(test)]
mod mistimes;
#[cfg(test)]
mod mistouches;
mod model;
#[cfg(test)]
mod named_by_hand;
mod next;
mod numbers;
mod pages;
mod places;
mod reckon;
#[cfg(test)]
mod rows_by_hand;
mod rtt;
mod sends;
mod slope;
mod table;
mod tally;
mod trial;
mod trips;
mod turns;
mod values;
#[cfg(not(test))]
mod watch;
mod words;

#[cfg(not(test))]
fn main() {
    let numbers: Vec<u64> = std::env::args()
        .skip(1)
        .flat_map(|word| word.parse())
        .collect();
    let (seed, calls) = match numbers[..] {
        [seed, calls] => (seed, calls),
        _ => {
            eprintln!("hostile SEED CALLS");
            std::process::exit(2);
        }
    };
    watch::begin(calls);
    let mut trial = trial::Trial::new(&archive::PORT, seed);
    cases::sweep(&mut trial);
    cases::random(&mut trial, calls);
    print!("{}", trial.tally.report());
    let failed = trial.tally.wrongs() > 0 || !trial.tally.missing().is_empty();
    std::process::exit(failed as i32);
}
