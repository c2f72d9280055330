//! Answers as the numbers of the C structs, in the structs' order.
//! A signed number is given as its two's complement.

use crate::refusal::Refusal;

pub mod btsnoop;
pub mod le;
pub mod radiotap;
pub mod stream;

/// The kinds of an answer.
pub const REFUSED: u64 = 0;
pub const VALUES: u64 = 1;
pub const END: u64 = 2;
pub const MORE: u64 = 3;
pub const STOPPED: u64 = 4;
pub const FILE_HEADER: u64 = 5;

/// The kind of a field that is asked for a value in dBm and has none; no C struct has it.
pub const NO_DBM: u64 = 5;

/// A row of a kind that is no refusal, with its values behind.
fn row<const N: usize>(kind: u64, values: &[u64]) -> [u64; N] {
    let mut row = [0; N];
    row[0] = kind;
    row[3..3 + values.len()].copy_from_slice(values);
    row
}

/// A refusal's row, with the values that the refusal adds.
fn refused<const N: usize>(refusal: Refusal, added: &[u64]) -> [u64; N] {
    let mut row = row(REFUSED, added);
    row[1] = refusal.number();
    row[2] = refusal.place as u64;
    row
}

/// A writer's row: next
pub fn written(answer: Result<usize, Refusal>) -> [u64; 4] {
    match answer {
        Ok(next) => row(VALUES, &[next as u64]),
        Err(refusal) => refused(refusal, &[]),
    }
}

/// The row of an answer that has no values.
pub fn done(answer: Result<(), Refusal>) -> [u64; 3] {
    match answer {
        Ok(()) => row(VALUES, &[]),
        Err(refusal) => refused(refusal, &[]),
    }
}
