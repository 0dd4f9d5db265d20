//! The functions on numbers and the filter, against the original's answers.

use std::collections::BTreeSet;
use std::fs;
use std::path::Path;

use guovssalu::Bandwidth;
use guovssalu::Duration;
use guovssalu::Samples;

/// The lines of a kept list (oracle/README.md), each as its numbers.
fn list(name: &str) -> Vec<Vec<u64>> {
    let file = Path::new(env!("CARGO_MANIFEST_DIR"))
        .join("../../crates/answers/data")
        .join(name);
    let text = fs::read_to_string(&file).unwrap_or_else(|why| panic!("{:?}: {}", file, why));
    let number = |word: &str| word.parse().unwrap();
    text.lines()
        .map(|line| line.split(' ').map(number).collect())
        .collect()
}

/// Holds each line's last number to what is made of the others; then with another last number, which
/// has to be noticed in every line.
fn check(name: &str, answer: impl Fn(&[u64]) -> u64) {
    let list = list(name);
    assert!(!list.is_empty(), "{}", name);
    let differences = |change: u64| {
        let differs = |line: &&Vec<u64>| {
            let (expected, given) = line.split_last().unwrap();
            answer(given) != expected ^ change
        };
        list.iter().filter(differs).count()
    };
    assert_eq!(differences(0), 0, "{}", name);
    assert_eq!(differences(1), list.len(), "{}", name);
}

fn single(bits: u64) -> f32 {
    f32::from_bits(bits as u32)
}

#[test]
fn whole_numbers_as_floats() {
    check("to_f32.txt", |line| {
        guovssalu::u64_to_f32(line[0]).to_bits() as u64
    });
    check("to_f64.txt", |line| {
        guovssalu::u64_to_f64(line[0]).to_bits()
    });
}

#[test]
fn floats_as_whole_numbers() {
    check("to_u64.txt", |line| guovssalu::f32_to_u64(single(line[0])));
    check("round_to_u64.txt", |line| {
        guovssalu::f64_round_to_u64(f64::from_bits(line[0]))
    });
}

#[test]
fn scaling() {
    check("scale.txt", |line| {
        guovssalu::scale(line[0], single(line[1]))
    });
}

#[test]
fn bandwidths() {
    let bandwidth = Bandwidth::from_bits_per_second;
    check("bandwidth_mul.txt", |line| {
        (bandwidth(line[0]) * single(line[1])).to_bits_per_second()
    });
    check("bandwidth_period.txt", |line| {
        bandwidth(line[0]).to_bytes_per_period(Duration::from_nanos(line[1]))
    });
    // a, b, a < b, the larger, the smaller.
    check("bandwidth_order.txt", |line| {
        let (a, b) = (bandwidth(line[0]), bandwidth(line[1]));
        assert_eq!(line[2..], [(a < b) as u64, a.max(b).to_bits_per_second()]);
        a.min(b).to_bits_per_second()
    });
}

/// The updates since the filter was last empty, and after each the three samples and the reason.
#[derive(Default)]
struct Run {
    window: u64,
    pairs: Vec<u8>,
    rows: Vec<[u64; 4]>,
}

impl Run {
    fn new(window: u64) -> Self {
        Run {
            window,
            ..Run::default()
        }
    }

    fn check(&self) -> usize {
        let mut out = vec![0; Samples::BYTES * self.rows.len()];
        guovssalu::filter_run(self.window, &self.pairs, &mut out).unwrap();
        let row = |bytes: &[u8]| {
            let after = Samples::from_bytes(bytes).unwrap();
            [after.best, after.second, after.third, after.reason.number()]
        };
        let rows: Vec<_> = out.chunks_exact(Samples::BYTES).map(row).collect();
        assert_eq!(rows, self.rows, "window {}", self.window);
        rows.len()
    }
}

/// A line of the list is a new filter, a reset (which is an update of an empty filter, and has its
/// reason, 0), an update or a clear. An update's reason, which the original doesn't say, is its line's
/// last number.
#[test]
fn windowed_filter() {
    let list = list("windowed_filter.txt");
    let mut run = Run::default();
    let mut updates = 0;
    let mut reasons = BTreeSet::new();
    for line in &list {
        let (op, x, y) = (line[0], line[1], line[2]);
        if op != 2 {
            updates += run.check();
            run = Run::new(if op == 0 { x } else { run.window });
        }
        if op == 1 || op == 2 {
            run.pairs.extend(y.to_le_bytes());
            run.pairs.extend(x.to_le_bytes());
            run.rows.push([4, 6, 8, 10].map(|at| line[at]));
            reasons.insert(line[10]);
        }
    }
    updates += run.check();
    let fed = |line: &&Vec<u64>| line[0] == 1 || line[0] == 2;
    assert_eq!(updates, list.iter().filter(fed).count());
    assert!(reasons.into_iter().eq(0..8));
}
