//! Asks library and model the same question and compares the answers.

use super::ffi;
use super::made::{Values, RESET};
use crate::lent::Lent;
use crate::report::Hex;
use crate::Session;
use model::radiotap::{self, Ending, Reading};
use model::refusal::Refusal;
use model::rows::{radiotap as rows, written};

/// Whole header; tells how many fields the library shows.
pub fn read(session: &mut Session, input: &[u8], edition: u32) -> usize {
    let mut lent = Lent::new(&mut session.prng, input);
    let library = ffi::read(lent.lend(), edition);
    let model = radiotap::read(input, edition);
    session.report.compare(
        read_of(&model),
        || format!("input {} edition {edition}", Hex(input)),
        (library, lent.seen()),
        (rows::reading(&model), lent.wanted()),
    );
    library[3] as usize
}

/// The function that reads a header whole, and how the words that it read number their bits.
fn read_of(answer: &Result<Reading, Refusal>) -> &'static str {
    let Ok(reading) = answer else {
        return "zalghimo_radiotap_read, refused";
    };
    let words = &reading.header.words;
    let continued = |index: usize| index > 0 && words[index - 1] & RESET == 0;
    if words.len() == 1 {
        return "zalghimo_radiotap_read, 1 word";
    }
    if !(0..words.len()).any(continued) {
        return "zalghimo_radiotap_read, 2 to 8 words, all start again";
    }
    match reading.ending {
        Ending::Stop { word, .. } if continued(word) => {
            "zalghimo_radiotap_read, 2 to 8 words, stopped in a continued one"
        }
        _ if reading
            .fields
            .iter()
            .any(|field| (0..field.word).any(continued)) =>
        {
            "zalghimo_radiotap_read, 2 to 8 words, fields behind a continued one"
        }
        _ => "zalghimo_radiotap_read, 2 to 8 words, others with a continued one",
    }
}

/// Presence word with a number.
pub fn word(session: &mut Session, input: &[u8], number: usize) {
    let mut lent = Lent::new(&mut session.prng, input);
    let library = ffi::word(lent.lend(), number);
    let model = rows::word(radiotap::word(input, number));
    session.report.compare(
        "zalghimo_radiotap_word",
        || format!("input {} number {number}", Hex(input)),
        (library, lent.seen()),
        (model, lent.wanted()),
    );
}

/// Field with a number.
pub fn field(session: &mut Session, input: &[u8], edition: u32, number: usize) {
    let mut lent = Lent::new(&mut session.prng, input);
    let library = ffi::field(lent.lend(), edition, number);
    let model = rows::field(&radiotap::field(input, edition, number));
    session.report.compare(
        "zalghimo_radiotap_field",
        || format!("input {} edition {edition} number {number}", Hex(input)),
        (library, lent.seen()),
        (model, lent.wanted()),
    );
}

/// All fields, into a buffer of as many numbers as given.
pub fn fields(session: &mut Session, input: &[u8], edition: u32, count: usize) {
    let mut lent = Lent::new(&mut session.prng, input);
    let mut buffer = Lent::numbers(&mut session.prng, count);
    let library = ffi::fields(lent.lend(), edition, buffer.lend());
    let model = rows::fields(&radiotap::read(input, edition), buffer.keep());
    session.report.compare(
        "zalghimo_radiotap_fields",
        || format!("input {} edition {edition} numbers {count}", Hex(input)),
        (library, lent.seen(), buffer.seen()),
        (model, lent.wanted(), buffer.wanted()),
    );
}

/// Header written at a place.
pub fn write(session: &mut Session, output: &[u8], place: usize, values: &Values) {
    let (edition, presence) = (values.edition, values.presence);
    let mut lent = Lent::new(&mut session.prng, output);
    let mut part = Lent::new(&mut session.prng, &values.packed);
    let library = ffi::write(lent.lend(), place, edition, presence, part.lend());
    let answer = radiotap::write(lent.keep(), place, edition, presence, &values.packed);
    session.report.compare(
        "zalghimo_radiotap_write",
        || {
            format!(
                "output {} place {place} edition {edition} presence {presence:#010x} values {}",
                Hex(output),
                Hex(&values.packed)
            )
        },
        (library, lent.seen(), part.seen()),
        (written(answer), lent.wanted(), part.wanted()),
    );
}
