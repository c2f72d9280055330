//! The rows of the stream's functions.

use super::{refused, row, END, FILE_HEADER, MORE, VALUES};
use crate::btsnoop::Record;
use crate::stream::{Answer, Part};

/// taken, part, size, position, datalink, start, original, included, flags, drops, time
pub fn taken(answer: &Answer) -> [u64; 14] {
    match answer {
        Answer::Datalink { taken, datalink } => {
            row(FILE_HEADER, &[*taken as u64, 0, 0, 0, (*datalink).into()])
        }
        Answer::Record {
            taken,
            part,
            start,
            record,
        } => {
            let [taken, place, size, position] = taken_values(*taken, part);
            let [original, included, flags, drops, time] = record_values(record);
            row(
                VALUES,
                &[
                    taken, place, size, position, 0, *start, original, included, flags, drops, time,
                ],
            )
        }
        Answer::More { taken, part } => row(MORE, &taken_values(*taken, part)),
        Answer::End => row(END, &[]),
        Answer::Refused(refusal) => refused(*refusal, &[]),
    }
}

fn taken_values(taken: usize, part: &Part) -> [u64; 4] {
    [taken, part.place, part.size, part.position].map(|number| number as u64)
}

fn record_values(record: &Record) -> [u64; 5] {
    [
        record.fields.original_length.into(),
        record.packet.len() as u64,
        record.fields.flags.into(),
        record.fields.cumulative_drops.into(),
        record.fields.time as u64,
    ]
}
