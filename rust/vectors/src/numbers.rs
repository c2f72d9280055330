//! Questions about numbers in octets, and the model's answers.

use crate::question::{filled, hex, Question};
use model::numbers::{self, Form, FORMS};

const NUMBERS: u8 = 19;

/// The model's answer, without the op.
pub fn answer(question: &Question) -> String {
    let [number, place, ..] = question.numbers;
    let forms = FORMS.map(|form| answer_form(&question.first, place as usize, form, number));
    forms.join(" ")
}

/// The number read back, and the whole output.
fn answer_form(before: &[u8], place: usize, form: Form, number: u64) -> String {
    let mut output = before.to_vec();
    numbers::write(&mut output, place, form, number);
    format!("{} {}", numbers::read(&output, place, form), hex(&output))
}

/// A question about a number at a place of an output of a length.
fn number(length: usize, place: u64, number: u64) -> Question {
    Question::new(NUMBERS, &[number, place], &filled(length), &[])
}

/// All questions.
pub fn questions() -> Vec<Question> {
    let mut list = Vec::new();
    values(&mut list);
    rooms(&mut list);
    list
}

/// Numbers whose octets all differ, and those at the ends of each width.
fn values(list: &mut Vec<Question>) {
    for value in [0x0102_0304_0506_0708, 0xF8E7_D6C5_B4A3_9281, 0, u64::MAX] {
        list.push(number(10, 1, value));
    }
    for bits in [8, 16, 32, 63] {
        list.push(number(10, 1, 1 << bits));
        list.push(number(10, 1, (1 << bits) - 1));
    }
}

/// Outputs with and without room for each width, and places at and past their end.
fn rooms(list: &mut Vec<Question>) {
    let value = 0x0102_0304_0506_0708;
    for (length, place) in [
        (8, 0),
        (7, 0),
        (9, 2),
        (4, 0),
        (5, 2),
        (3, 0),
        (2, 0),
        (3, 2),
        (0, 0),
    ] {
        list.push(number(length, place, value));
    }
    for place in [8, 9, 1 << 32, u64::MAX - 7, u64::MAX] {
        list.push(number(8, place, value));
    }
}
