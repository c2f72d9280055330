//! Questions for the radiotap writer.

use super::{KNOWN, ROWS, WRITE};
use crate::question::{filled, Question};
use model::radiotap::row;

/// A question with an output of a length.
fn write(length: usize, place: u64, edition: u32, presence: u32, values: &[u8]) -> Question {
    let numbers = [place, edition.into(), presence.into()];
    Question::new(WRITE, &numbers, &filled(length), values)
}

/// Values of a length, all distinct.
fn values(length: usize) -> Vec<u8> {
    (1..=length as u8).collect()
}

/// The octets that the known fields of a word take.
fn sizes(presence: u32) -> usize {
    let set = (0..32).filter(|bit| presence >> bit & 1 == 1);
    set.filter_map(row).map(|row| row.size).sum()
}

/// All questions for the writer.
pub fn questions(list: &mut Vec<Question>) {
    rows_alone(list);
    alignments(list);
    editions(list);
    unknown_bits(list);
    value_lengths(list);
    rooms(list);
    orders(list);
}

/// Each row alone, and no field.
fn rows_alone(list: &mut Vec<Question>) {
    for bit in ROWS {
        let presence = 1 << bit;
        list.push(write(22, 1, 3, presence, &values(sizes(presence))));
    }
    list.push(write(10, 1, 3, 0, &[]));
}

/// Fields with a gap before them.
fn alignments(list: &mut Vec<Question>) {
    for (one, two) in [(1, 3), (2, 4), (13, 14), (17, 20), (17, 21)] {
        let presence = 1 << one | 1 << two;
        list.push(write(26, 3, 3, presence, &values(sizes(presence))));
    }
}

/// All fields of an edition, in that edition and around it; editions past those served.
fn editions(list: &mut Vec<Question>) {
    let [first, second, third] = KNOWN;
    let asked = [(first, 0), (first, 1), (first, 2), (second, 0), (second, 1)];
    let later = [(second, 2), (second, 3), (third, 2), (third, 3)];
    for (presence, edition) in asked.into_iter().chain(later) {
        list.push(write(70, 1, edition, presence, &values(sizes(presence))));
    }
    for edition in [4, u32::MAX] {
        list.push(write(12, 1, edition, 2, &[1]));
    }
}

/// Bits that no edition knows, and those that an older one doesn't.
fn unknown_bits(list: &mut Vec<Question>) {
    for bit in [18, 22, 23, 24, 25, 26, 27, 28, 29, 30, 31] {
        list.push(write(12, 1, 3, 1 << bit, &[]));
    }
    list.push(write(12, 1, 3, 1 << 29 | 2, &[1]));
    list.push(write(12, 1, 1, 1 << 14, &[1, 2]));
    list.push(write(12, 1, 0, 1 << 17, &[1]));
    list.push(write(12, 1, 2, 1 << 19, &[1, 2, 3]));
    list.push(write(12, 1, 3, u32::MAX, &[]));
}

/// Values one octet too short and too long, and of other lengths.
fn value_lengths(list: &mut Vec<Question>) {
    list.push(write(9, 0, 3, 0, &[1]));
    for (presence, length) in [(1 << 1, 1), (1 << 0 | 1 << 3, 12), (KNOWN[2], 57)] {
        list.push(write(70, 2, 3, presence, &values(length + 1)));
        list.push(write(70, 2, 3, presence, &values(length - 1)));
    }
    list.push(write(20, 2, 1, 1 << 1 | 1 << 3, &values(6)));
}

/// Outputs with and without room, and places at and past their end.
fn rooms(list: &mut Vec<Question>) {
    for (length, place) in [(9, 0), (8, 0), (10, 1), (9, 1), (0, 0)] {
        list.push(write(length, place, 1, 2, &[0x5A]));
    }
    for place in [12, 13, 1 << 32, u64::MAX - 8, u64::MAX] {
        list.push(write(12, place, 1, 2, &[0x5A]));
    }
    for (length, place) in [(8, 0), (7, 0), (8, 8)] {
        list.push(write(length, place, 1, 0, &[]));
    }
}

/// Questions that several refusals fit.
fn orders(list: &mut Vec<Question>) {
    list.push(write(4, 9, 4, 1 << 30, &[1]));
    list.push(write(4, 9, 1, 1 << 30 | 2, &[]));
    list.push(write(4, 9, 1, 2, &[]));
    list.push(write(4, 9, 1, 2, &[1]));
}
