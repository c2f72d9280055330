//! The rows of the BTSnoop and time functions.

use super::{refused, row, END, MORE, VALUES};
use crate::btsnoop::{Earlier, File, Record, Survey};
use crate::refusal::Refusal;
use crate::time::UnixTime;

/// datalink
pub fn header(answer: Result<u32, Refusal>) -> [u64; 4] {
    match answer {
        Ok(datalink) => row(VALUES, &[datalink.into()]),
        Err(refusal) => refused(refusal, &[]),
    }
}

/// datalink, records
pub fn file(answer: Result<File, Refusal>) -> [u64; 5] {
    match answer {
        Ok(file) => row(VALUES, &[file.datalink.into(), file.records as u64]),
        Err(refusal) => refused(refusal, &[]),
    }
}

/// original, included, flags, drops, time, packet, next
pub fn record(answer: &Result<Option<Record>, Refusal>) -> [u64; 10] {
    match answer {
        Ok(Some(record)) => row(VALUES, &record_values(record)),
        Ok(None) => row(END, &[]),
        Err(refusal) => refused(*refusal, &[]),
    }
}

fn record_values(record: &Record) -> [u64; 7] {
    [
        record.fields.original_length.into(),
        record.packet.len() as u64,
        record.fields.flags.into(),
        record.fields.cumulative_drops.into(),
        record.fields.time as u64,
        record.packet_place as u64,
        record.next() as u64,
    ]
}

/// count, reached
pub fn survey(answer: Survey) -> [u64; 5] {
    match answer {
        Survey::End { count, reached } => row(END, &[count as u64, reached as u64]),
        Survey::More { count, reached } => row(MORE, &[count as u64, reached as u64]),
        Survey::Refused { count, refusal } => refused(refusal, &[count as u64]),
    }
}

/// capture, packet, length
pub fn earlier(answer: &Earlier) -> [u64; 6] {
    match answer {
        Earlier::Packet { capture, record } => {
            let place = record.packet_place as u64;
            row(
                VALUES,
                &[*capture as u64, place, record.packet.len() as u64],
            )
        }
        Earlier::End => row(END, &[]),
        Earlier::Refused { capture, refusal } => refused(*refusal, &[*capture as u64]),
    }
}

/// seconds, microseconds
pub fn time(answer: Result<UnixTime, Refusal>) -> [u64; 5] {
    match answer {
        Ok(time) => row(VALUES, &[time.seconds as u64, time.microseconds.into()]),
        Err(refusal) => refused(refusal, &[]),
    }
}

/// field
pub fn time_field(answer: Result<i64, Refusal>) -> [u64; 4] {
    match answer {
        Ok(field) => row(VALUES, &[field as u64]),
        Err(refusal) => refused(refusal, &[]),
    }
}
