//! Questions about radiotap, and the model's answers.

mod reading;
mod writing;

use crate::question::{decimal, hex, Question};
use model::radiotap::{self, Numbered};
use model::rows::{radiotap as rows, written};

const READ: u8 = 11;
const WORD: u8 = 12;
const FIELDS: u8 = 13;
const FIELD: u8 = 14;
const WRITE: u8 = 15;

/// The most numbers in a buffer of fields.
const BUFFER: usize = 64;

/// The bits of the table's rows.
const ROWS: [u32; 21] = [
    0, 1, 2, 3, 4, 5, 6, 7, 8, 9, 10, 11, 12, 13, 14, 15, 16, 17, 19, 20, 21,
];

/// The bits that editions 1, 2 and 3 know.
const KNOWN: [u32; 3] = [0x0000_3FFF, 0x0003_FFFF, 0x003B_FFFF];

/// The model's answer, without the op.
pub fn answer(question: &Question) -> String {
    let [a, b, ..] = question.numbers;
    let (input, edition) = (&question.first[..], a as u32);
    match question.op {
        READ => answer_read(input, edition),
        WORD => decimal(&rows::word(radiotap::word(input, a as usize))),
        FIELDS => answer_fields(question),
        FIELD => answer_field(input, edition, b as usize),
        WRITE => answer_write(question),
        op => panic!("no such op: {op}"),
    }
}

fn answer_read(input: &[u8], edition: u32) -> String {
    let answer = radiotap::read(input, edition);
    let frame = match &answer {
        Ok(reading) => reading.header.frame,
        Err(_) => &[],
    };
    format!("{} {}", decimal(&rows::reading(&answer)), hex(frame))
}

/// A reader that has moved on as often as a number says stands at the field with that number.
fn answer_field(input: &[u8], edition: u32, number: usize) -> String {
    let answer = radiotap::field(input, edition, number);
    let octets = match &answer {
        Ok(Numbered::Field(field)) => field.octets,
        _ => &[],
    };
    let dbm = rows::dbm(radiotap::dbm(input, edition, number));
    let row = decimal(&rows::field(&answer));
    let moved_once = rows::field(&radiotap::field(input, edition, 1));
    let (octets, dbm, moved_once) = (hex(octets), decimal(&dbm), decimal(&moved_once));
    format!("{row} {octets} {dbm} {row} {moved_once}")
}

fn answer_fields(question: &Question) -> String {
    let [edition, count, number, ..] = question.numbers;
    let mut buffer = vec![number; count as usize];
    let reading = radiotap::read(&question.first, edition as u32);
    let row = rows::fields(&reading, &mut buffer);
    decimal(&[&row[..], &buffer].concat())
}

fn answer_write(question: &Question) -> String {
    let [place, edition, presence, ..] = question.numbers;
    let mut output = question.first.clone();
    let answer = radiotap::write(
        &mut output,
        place as usize,
        edition as u32,
        presence as u32,
        &question.second,
    );
    format!("{} {}", decimal(&written(answer)), hex(&output))
}

/// All questions.
pub fn questions() -> Vec<Question> {
    let mut list = Vec::new();
    reading::questions(&mut list);
    writing::questions(&mut list);
    list
}
