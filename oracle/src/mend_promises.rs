//! What request k promises of a mended trace, its list and its replay, by their texts
//! alone: an error that the port and the mending here had in common would show in it.

use crate::trace;
use crate::trace::FIELDS;
use crate::trace_mend::LIST_HEADER;
use crate::trace_port::first_difference;
use crate::trace_port::line_before;
use crate::trace_port::line_of;
use crate::trace_port::lines;
use crate::trace_port::side_by_side;

/// How many lines there are after the header.
pub fn count(trace: &[u8]) -> u64 {
    lines(trace).skip(1).count() as u64
}

/// The line numbers of a list, or what is wrong with it.
pub fn listed(list: &[u8]) -> Result<Vec<u64>, String> {
    let wrong = |why: &str, entry| Err(format!("{why}:\n{}", side_by_side(&[("given", entry)])));
    let Some(entries) = list.strip_prefix(LIST_HEADER) else {
        return wrong("The list has no header", line_of(list, 0));
    };
    let mut numbers = Vec::new();
    for bytes in lines(entries) {
        let Some(number) = number(bytes) else {
            return wrong("No entry of a list", Some(bytes));
        };
        if numbers.last().is_some_and(|&last| last >= number) {
            return wrong("The numbers of the list do not rise", Some(bytes));
        }
        numbers.push(number);
    }
    Ok(numbers)
}

/// The line number of an entry, from 1 on, with a field from 0 to 11 after it.
pub fn number(entry: &[u8]) -> Option<u64> {
    let entry = entry.strip_suffix(b"\r\n")?;
    let comma = entry.iter().position(|&byte| byte == b',')?;
    let number = trace::whole(&entry[..comma])?;
    let field = trace::whole(&entry[comma + 1..])?;
    (number >= 1 && field <= FIELDS as u64).then_some(number)
}

/// Whether the lines that were kept are those that are not listed, unchanged and in
/// order, and as many as were read together with those.
pub fn complete(trace: &[u8], mended: &[u8], numbers: &[u64]) -> Result<(), String> {
    let (read, kept, listed) = (count(trace), count(mended), numbers.len());
    if kept + listed as u64 != read {
        return Err(format!("{kept} kept and {listed} listed of {read} lines."));
    }
    let is_listed = |number: &u64| numbers.binary_search(number).is_ok();
    let unlisted: Vec<&[u8]> = (0..)
        .zip(lines(trace))
        .filter(|(number, _)| !is_listed(number))
        .map(|(_, line)| line)
        .collect();
    differ("the lines that are not listed", &unlisted.concat(), mended)
}

/// The rows after the header, each as its line's number and the rest.
fn rows_of(rows: &[u8]) -> impl Iterator<Item = (u64, &[u8])> {
    lines(rows).skip(1).filter_map(|row| {
        let comma = row.iter().position(|&byte| byte == b',')?;
        Some((trace::whole(&row[..comma])?, &row[comma + 1..]))
    })
}

fn is_refused(rest: &[u8]) -> bool {
    rest.starts_with(b"6,")
}

/// The numbers of the lines that are refused with 6.
pub fn refused(rows: &[u8]) -> Vec<u64> {
    let refused = rows_of(rows).filter(|(_, rest)| is_refused(rest));
    refused.map(|(number, _)| number).collect()
}

/// Whether the lines with 6 are those that are listed, and the mended trace has the
/// rows of the others, line numbers aside.
pub fn same_rows(rows: &[u8], rows_of_mended: &[u8], numbers: &[u64]) -> Result<(), String> {
    if let Some(number) = refused(rows_of_mended).first() {
        return Err(format!("The mended trace has 6 in line {number}."));
    }
    let others = rows_of(rows).filter(|(_, rest)| !is_refused(rest));
    let others: Vec<&[u8]> = others.map(|(_, rest)| rest).collect();
    let mended: Vec<&[u8]> = rows_of(rows_of_mended).map(|(_, rest)| rest).collect();
    differ("the rows without 6", &others.concat(), &mended.concat())?;
    match refused(rows) == numbers {
        true => Ok(()),
        false => Err("The lines with 6 are not those that are listed.".into()),
    }
}

/// The line at which two texts differ, and both lines.
pub fn differ(what: &str, expected: &[u8], given: &[u8]) -> Result<(), String> {
    let Some(line) = first_difference(expected, given) else {
        return Ok(());
    };
    let lines = side_by_side(&[
        ("before", line_before(expected, line)),
        ("expected", line_of(expected, line)),
        ("given", line_of(given, line)),
    ]);
    Err(format!(
        "Line {line} of {what} differs (0 is the first):\n{lines}"
    ))
}
