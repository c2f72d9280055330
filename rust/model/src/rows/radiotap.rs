//! The rows of the radiotap functions.

use super::{refused, row, END, NO_DBM, STOPPED, VALUES};
use crate::radiotap::{Dbm, Ending, Field, Numbered, Reading};
use crate::refusal::Refusal;

/// fields, frame, word, bit, pad, words
pub fn reading(answer: &Result<Reading, Refusal>) -> [u64; 9] {
    let reading = match answer {
        Ok(reading) => reading,
        Err(refusal) => return refused(*refusal, &[]),
    };
    let (kind, word, bit) = match reading.ending {
        Ending::End => (VALUES, 0, 0),
        Ending::Stop { word, bit } => (STOPPED, word, bit),
    };
    let header = &reading.header;
    row(
        kind,
        &[
            reading.fields.len() as u64,
            header.octets.len() as u64,
            word as u64,
            bit.into(),
            header.pad.into(),
            header.words.len() as u64,
        ],
    )
}

/// value
pub fn word(answer: Result<Option<u32>, Refusal>) -> [u64; 4] {
    match answer {
        Ok(Some(value)) => row(VALUES, &[value.into()]),
        Ok(None) => row(END, &[]),
        Err(refusal) => refused(refusal, &[]),
    }
}

/// word, bit, start, size
pub fn field(answer: &Result<Numbered, Refusal>) -> [u64; 7] {
    match answer {
        Ok(Numbered::Field(field)) => row(VALUES, &field_values(field)),
        Ok(Numbered::Past(Ending::End)) => row(END, &[]),
        Ok(Numbered::Past(Ending::Stop { word, bit })) => {
            row(STOPPED, &[*word as u64, (*bit).into()])
        }
        Err(refusal) => refused(*refusal, &[]),
    }
}

fn field_values(field: &Field) -> [u64; 4] {
    [
        field.word as u64,
        field.bit.into(),
        field.start as u64,
        field.octets.len() as u64,
    ]
}

/// word, bit, value
pub fn dbm(answer: Result<Dbm, Refusal>) -> [u64; 6] {
    match answer {
        Ok(Dbm::Value(value)) => row(VALUES, &[0, 0, value as u64]),
        Ok(Dbm::OtherField) => row(NO_DBM, &[]),
        Ok(Dbm::Past(Ending::End)) => row(END, &[]),
        Ok(Dbm::Past(Ending::Stop { word, bit })) => row(STOPPED, &[word as u64, bit.into()]),
        Err(refusal) => refused(refusal, &[]),
    }
}

/// As `reading`; as many whole fields as fit go to the buffer, four numbers each.
pub fn fields(answer: &Result<Reading, Refusal>, buffer: &mut [u64]) -> [u64; 9] {
    if let Ok(reading) = answer {
        let rooms = buffer.chunks_exact_mut(4);
        for (room, field) in rooms.zip(&reading.fields) {
            room.copy_from_slice(&field_values(field));
        }
    }
    self::reading(answer)
}
