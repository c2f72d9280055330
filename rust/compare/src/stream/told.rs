//! What the library's calls tell of a stream, put together, and what they must tell.

use crate::report::Hex;
use model::refusal::{Reason, Refusal};
use model::rows::{END, FILE_HEADER, MORE, REFUSED, VALUES};
use model::stream::{read_whole, Reading};
use std::fmt;
use zalghimo_sys::Taken;

/// The code, the records, their octets and the final answer.
#[derive(Default, PartialEq)]
pub struct Told {
    codes: Vec<u64>,
    records: Vec<Record>,
    /// The octets of all packets, one behind another, and behind them what came of a packet that is not finished.
    octets: Vec<u8>,
    /// Parts that lie outside their chunk or do not go on where the last one ended.
    misplaced: usize,
    /// Kind, number and place.
    last: Option<[u64; 3]>,
}

/// Start, original, included, flags, drops and time of a record, and where its octets end.
#[derive(Debug, PartialEq)]
struct Record {
    numbers: [u64; 6],
    end: usize,
}

impl Told {
    /// Adds what a call answered to a chunk.
    pub fn add(&mut self, taken: &Taken, chunk: &[u8]) {
        if taken.size > 0 {
            self.join(taken, chunk);
        }
        match taken.kind {
            FILE_HEADER => self.codes.push(taken.datalink),
            VALUES => self.records.push(Record {
                numbers: [
                    taken.start,
                    taken.original,
                    taken.included,
                    taken.flags,
                    taken.drops,
                    taken.time as u64,
                ],
                end: self.octets.len(),
            }),
            MORE => {}
            _ => self.last = Some([taken.kind, taken.number, taken.place]),
        }
    }

    /// Adds the part of a call's answer.
    fn join(&mut self, taken: &Taken, chunk: &[u8]) {
        let joined = self.octets.len() - self.records.last().map_or(0, |record| record.end);
        let from = chunk.get(taken.part as usize..);
        match from.and_then(|from| from.get(..taken.size as usize)) {
            Some(part) if taken.position == joined as u64 => self.octets.extend(part),
            _ => self.misplaced += 1,
        }
    }

    /// What must be told of a stream, ended or not.
    pub fn wanted(stream: &[u8], ended: bool) -> Told {
        let reading = read_whole(stream);
        let mut told = Told {
            codes: reading.datalink.into_iter().map(u64::from).collect(),
            last: last(&reading, ended),
            ..Told::default()
        };
        for record in reading.records {
            told.octets.extend(record.packet);
            told.records.push(Record {
                numbers: [
                    record.start() as u64,
                    record.fields.original_length.into(),
                    record.packet.len() as u64,
                    record.fields.flags.into(),
                    record.fields.cumulative_drops.into(),
                    record.fields.time as u64,
                ],
                end: told.octets.len(),
            });
        }
        told.octets.extend(reading.cut);
        told
    }
}

/// The final answer; without the sender's word neither the end nor 1, 5 or 7 is given.
fn last(reading: &Reading, ended: bool) -> Option<[u64; 3]> {
    let waits = |refusal: &Refusal| {
        use Reason::{ShortHeader, ShortPacket, ShortRecord};
        matches!(refusal.reason, ShortHeader | ShortRecord | ShortPacket)
    };
    match &reading.last {
        Ok(()) => ended.then_some([END, 0, 0]),
        Err(refusal) if waits(refusal) && !ended => None,
        Err(refusal) => Some([REFUSED, refusal.number(), refusal.place as u64]),
    }
}

impl fmt::Debug for Told {
    fn fmt(&self, formatter: &mut fmt::Formatter) -> fmt::Result {
        write!(
            formatter,
            "codes {:?} records {:?} octets {} misplaced {} last {:?}",
            self.codes,
            self.records,
            Hex(&self.octets),
            self.misplaced,
            self.last
        )
    }
}
