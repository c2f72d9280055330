//! Chains of library calls, held against what they must come to.

use super::ffi;
use super::made::{self, Entry, Made};
use crate::lent::Lent;
use crate::report::Hex;
use crate::Session;
use model::btsnoop::Fields;
use model::rows::{REFUSED, VALUES};

/// A file as the library reads it, record by record.
#[derive(Debug, PartialEq)]
struct Whole {
    datalink: u64,
    entries: Vec<Entry>,
    last: [u64; 10],
}

/// The answer "end" of the record reader.
const END_ROW: [u64; 10] = [model::rows::END, 0, 0, 0, 0, 0, 0, 0, 0, 0];

/// Reads all records with the library up to "end" or a refusal.
fn read_all(input: &[u8]) -> Whole {
    let mut input = input.to_vec();
    let datalink = ffi::header(&mut input)[3];
    let mut entries = Vec::new();
    let mut place = 16;
    loop {
        let row = ffi::record(&mut input, place);
        let next = row[9] as usize;
        match read_entry(&input, &row) {
            Some(entry) if next > place => entries.push(entry),
            _ => {
                return Whole {
                    datalink,
                    entries,
                    last: row,
                }
            }
        }
        place = next;
    }
}

/// The records of a file as the library reads them.
pub fn read_entries(input: &[u8]) -> Vec<Entry> {
    read_all(input).entries
}

/// The record that a row of the library tells of.
fn read_entry(input: &[u8], row: &[u64; 10]) -> Option<Entry> {
    let [VALUES, _, _, original, included, flags, drops, time, packet, _] = *row else {
        return None;
    };
    let packet = input.get(packet as usize..)?.get(..included as usize)?;
    Some(Entry {
        fields: Fields {
            original_length: original as u32,
            flags: flags as u32,
            cumulative_drops: drops as u32,
            time: time as i64,
        },
        packet: packet.to_vec(),
    })
}

/// Writes a file with the library, each record where the last answer says.
fn write_all(output: &mut [u8], start: usize, datalink: u32, entries: &[Entry]) -> usize {
    let mut place = ffi::write_header(output, start, datalink)[3] as usize;
    for entry in entries {
        let mut packet = entry.packet.clone();
        place = ffi::write_record(output, place, &entry.fields, &mut packet)[3] as usize;
    }
    place
}

/// Writes records and holds the whole buffer against their octets.
fn write(session: &mut Session, name: &'static str, datalink: u32, entries: &[Entry], file: &[u8]) {
    let start = session.prng.below(20);
    let spare = session.prng.below(4);
    let output = session.prng.octets(start + file.len() + spare);
    let mut lent = Lent::new(&mut session.prng, &output);
    let end = start + file.len();
    lent.keep()[start..end].copy_from_slice(file);
    let reached = write_all(lent.lend(), start, datalink, entries);
    session.report.compare(
        name,
        || format!("start {start} file {}", Hex(file)),
        (reached, lent.seen()),
        (end, lent.wanted()),
    );
}

/// Writes a file and reads it back.
pub fn write_and_read(session: &mut Session) {
    let datalink = 1001 + session.prng.below(4) as u32;
    let entries = made::entries(&mut session.prng);
    let file = made::file(datalink, &entries).octets;
    write(session, "chain: write", datalink, &entries, &file);
    let records = entries.len() as u64;
    let wanted = Whole {
        datalink: datalink.into(),
        entries,
        last: END_ROW,
    };
    let checked = ffi::check(&mut file.clone());
    session.report.compare(
        "chain: read back",
        || format!("file {}", Hex(&file)),
        (read_all(&file), checked),
        (wanted, [VALUES, 0, 0, datalink.into(), records]),
    );
}

/// Rewrites a file that the library accepts to its own octets.
pub fn rewrite(session: &mut Session, input: &[u8]) {
    let whole = read_all(input);
    let datalink = whole.datalink as u32;
    write(session, "chain: rewrite", datalink, &whole.entries, input);
}

/// Where a survey ended: kind, refusal, count so far and place reached.
type Outcome = [u64; 5];

/// Surveys in instalments, against one survey with the summed number.
pub fn surveys(session: &mut Session, made: &Made) {
    let place = made::place(&mut session.prng, made);
    let mut numbers = Vec::new();
    for _ in 0..1 + session.prng.below(4) {
        numbers.push(made::number(&mut session.prng, made, place));
    }
    let mut input = made.octets.clone();
    let (sum, last) = instalments(&mut input, place, &numbers);
    let Some(sum) = sum else { return };
    let one = ffi::survey(&mut input, place, sum);
    session.report.compare(
        "chain: surveys",
        || format!("input {} place {place} numbers {numbers:?}", Hex(&input)),
        last,
        one,
    );
}

/// The summed number, if it can be expressed, and where the surveys ended.
fn instalments(input: &mut [u8], start: usize, numbers: &[usize]) -> (Option<usize>, Outcome) {
    let (mut sum, mut count) = (Some(0_usize), 0_u64);
    let (mut place, mut last) = (start, Outcome::default());
    for number in numbers {
        sum = sum.and_then(|sum| sum.checked_add(*number));
        last = ffi::survey(input, place, *number);
        count = count.wrapping_add(last[3]);
        place = last[4] as usize;
        if last[0] == REFUSED {
            break;
        }
    }
    last[3] = count;
    (sum, last)
}

/// Reads a time and writes it back to its own field.
pub fn times(session: &mut Session, field: i64) {
    let [VALUES, _, _, seconds, microseconds] = ffi::read_time(field) else {
        return;
    };
    session.report.compare(
        "chain: times",
        || format!("field {field}"),
        ffi::write_time(seconds as i64, microseconds as u32),
        [VALUES, 0, 0, field as u64],
    );
}
