//! Captures by size: check, survey, reading record by record, writing. The time alone of many records.

use super::{row, Row};
use crate::agree;
use crate::library;
use crate::made;
use crate::plain::btsnoop::{self, Entry, Met};
use crate::timing::{best, reading, writing};
use random::prng::Prng;
use std::cell::RefCell;
use std::hint::black_box;

/// Sizes of the captures.
const SIZES: [usize; 6] = [1 << 10, 1 << 14, 1 << 18, 1 << 22, 1 << 26, 1 << 28];

/// Records, with empty packets, of the capture of which only the times are read.
pub const TIMES: usize = 1_000_000;

/// Records that a survey passes at most.
pub const INSTALMENT: usize = 1000;

/// Surveys a capture by instalments and counts its records.
fn ours_survey(input: &[u8]) -> u64 {
    let (mut place, mut count) = (16, 0);
    loop {
        let survey = library::survey(input, place, INSTALMENT);
        count += survey.count;
        place = survey.reached as usize;
        if survey.kind != library::MORE {
            return count;
        }
    }
}

/// The same by plain Rust.
fn plain_survey(input: &[u8]) -> u64 {
    let (mut place, mut count) = (16, 0);
    loop {
        let survey = btsnoop::survey(input, place, INSTALMENT);
        count += survey.count as u64;
        place = survey.reached;
        if !matches!(survey.met, Met::More) {
            return count;
        }
    }
}

/// Reads a capture record by record and folds all values into one number.
fn ours_records(input: &[u8]) -> u64 {
    let (mut place, mut fold) = (16, 0u64);
    loop {
        let record = library::record(input, place);
        if record.kind != library::VALUES {
            return fold;
        }
        let numbers = record.original ^ record.flags ^ record.drops ^ record.time as u64;
        fold = fold.wrapping_add(numbers ^ record.packet ^ record.included);
        place = record.next as usize;
    }
}

/// The same by plain Rust.
fn plain_records(input: &[u8]) -> u64 {
    let (mut place, mut fold) = (16, 0u64);
    while let Ok(Some(record)) = btsnoop::record(input, place) {
        let entry = record.entry;
        let lengths = entry.original_length ^ entry.flags ^ entry.cumulative_drops;
        let length = entry.packet.len();
        let packet = (record.next - length) ^ length;
        fold = fold.wrapping_add(u64::from(lengths) ^ entry.time as u64 ^ packet as u64);
        place = record.next;
    }
    fold
}

/// Reads the time of each record, and folds the times into one number.
fn ours_times(input: &[u8]) -> u64 {
    let (mut place, mut fold) = (16, 0u64);
    loop {
        let record = library::record(input, place);
        if record.kind != library::VALUES {
            return fold;
        }
        fold = fold.wrapping_add(record.time as u64);
        place = record.next as usize;
    }
}

/// The same by plain Rust.
fn plain_times(input: &[u8]) -> u64 {
    let (mut place, mut fold) = (16, 0u64);
    while let Ok(Some(record)) = btsnoop::record(input, place) {
        fold = fold.wrapping_add(record.entry.time as u64);
        place = record.next;
    }
    fold
}

/// Writes a file of these records and answers its length.
fn ours_write(output: &mut [u8], entries: &[Entry]) -> usize {
    let mut place = library::write_header(output, 0, 1002).next as usize;
    for entry in entries {
        place = library::write_record(output, place, entry).next as usize;
    }
    place
}

/// The same by plain Rust.
fn plain_write(output: &mut [u8], entries: &[Entry]) -> usize {
    let mut place = btsnoop::write_header(output, 0, 1002).unwrap_or(0);
    for entry in entries {
        place = btsnoop::write_record(output, place, entry).unwrap_or(0);
    }
    place
}

/// One capture: check, survey, reading, writing.
fn capture(size: usize) -> [Row; 4] {
    let input = &made::capture(&mut Prng::new(size as u64), size);
    let entries = &made::entries(input);
    let output = RefCell::new(vec![0; input.len()]);
    agree::btsnoop::capture(input, entries, &mut output.borrow_mut());
    let records = entries.len();
    assert_eq!(
        [ours_survey(input), plain_survey(input)],
        [records as u64; 2]
    );
    assert_eq!(ours_records(input), plain_records(input));
    output.borrow_mut().fill(2);
    assert_eq!(plain_write(&mut output.borrow_mut(), entries), input.len());
    assert!(output.borrow().as_slice() == input);
    let line = |work, costs| row(work, Some(size), records, costs);
    let check = [
        reading(|| library::check(black_box(input))),
        reading(|| btsnoop::check(black_box(input))),
    ];
    let survey = [
        reading(|| ours_survey(black_box(input))),
        reading(|| plain_survey(black_box(input))),
    ];
    let read = [
        reading(|| ours_records(black_box(input))),
        reading(|| plain_records(black_box(input))),
    ];
    let write = [
        writing(&output, |output| ours_write(output, entries)),
        writing(&output, |output| plain_write(output, entries)),
    ];
    [
        line("check", best(records, check)),
        line("survey", best(records, survey)),
        line("read", best(records, read)),
        line("write", best(records, write)),
    ]
}

/// The times of many records.
fn times() -> Row {
    let input = &made::even_capture(&mut Prng::new(1), TIMES, 0);
    assert_eq!(library::check(input).records, TIMES as u64);
    assert_eq!(ours_times(input), plain_times(input));
    let works = [
        reading(|| ours_times(black_box(input))),
        reading(|| plain_times(black_box(input))),
    ];
    row("time", Some(input.len()), TIMES, best(TIMES, works))
}

/// Captures of every size, and the times.
pub fn all() -> Vec<Row> {
    let captures = SIZES.into_iter().flat_map(capture);
    captures.chain([times()]).collect()
}
