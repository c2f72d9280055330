//! The listing program: from a BTSnoop file to its lines.

use crate::btsnoop::{read_header, Record, Walk, FILE_HEADER, VERSION};
use crate::refusal::{Reason, Refusal};
use crate::time::read_time;

/// The most octets that are listed.
pub const MOST: usize = 65_536;

/// The whole output for an input.
pub fn list(input: &[u8]) -> Vec<u8> {
    let mut lines = Vec::new();
    let last = match lines_before(input, &mut lines) {
        Ok(count) => format!("end\t{count}"),
        Err(refusal) => format!("stop\t{}\t{}", refusal.number(), refusal.place),
    };
    lines.push(last + "\n");
    lines.join("\n").into_bytes()
}

/// The lines before the last one; the answer is the count of records or why the listing stops.
fn lines_before(input: &[u8], lines: &mut Vec<String>) -> Result<usize, Refusal> {
    if input.len() > MOST {
        return Err(Reason::ListingInput.at(MOST));
    }
    let datalink = read_header(input)?;
    lines.push(format!("file\t{VERSION}\t{datalink}"));
    let mut count = 0;
    let place = FILE_HEADER;
    for record in (Walk { input, place }) {
        lines.push(record_line(&record?));
        count += 1;
    }
    Ok(count)
}

/// The line of a record: place, original, included, flags, drops, seconds, microseconds.
fn record_line(record: &Record) -> String {
    let fields = &record.fields;
    let numbers = [
        record.start().to_string(),
        fields.original_length.to_string(),
        record.packet.len().to_string(),
        fields.flags.to_string(),
        fields.cumulative_drops.to_string(),
    ];
    let time = match read_time(fields.time) {
        Ok(time) => format!("{}\t{}", time.seconds, time.microseconds),
        Err(_) => "-\t-".to_string(),
    };
    format!("rec\t{}\t{time}", numbers.join("\t"))
}

#[cfg(test)]
mod tests;
