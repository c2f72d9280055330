//! A chain of library calls, held against what it must come to.

use super::ffi;
use crate::btsnoop::chains::read_entries;
use crate::btsnoop::made::{self, Entry};
use crate::report::Hex;
use crate::Session;
use model::rows::VALUES;
use model::tally::{Counted, Tally, LAST_DROP_NUMBER};

/// Reads a made capture with the library and tallies its records from an empty tally.
pub fn capture(session: &mut Session) {
    let entries = made::entries(&mut session.prng);
    let file = made::file(1002, &entries).octets;
    let last_drop_number = session.prng.pick(&[0, 5, u64::MAX]);
    let mut tally = [0; 9];
    tally[LAST_DROP_NUMBER] = last_drop_number;
    let read = read_entries(&file);
    let rows: Vec<[u64; 3]> = read
        .iter()
        .map(|entry| ffi::add(&mut tally, &counted(entry)))
        .collect();
    let wanted = whole(&entries, last_drop_number);
    session.report.compare(
        "chain: tally",
        || format!("file {} last {last_drop_number}", Hex(&file)),
        (rows, tally),
        (vec![[VALUES, 0, 0]; entries.len()], wanted),
    );
}

/// What the tally is given of a record.
fn counted(entry: &Entry) -> Counted {
    Counted {
        original_length: entry.fields.original_length,
        included_length: entry.packet.len() as u32,
        flags: entry.fields.flags,
        cumulative_drops: entry.fields.cumulative_drops,
    }
}

/// Counts and sums over a whole list; an empty one leaves the last drop number.
fn whole(entries: &[Entry], found: u64) -> Tally {
    let count = |test: &dyn Fn(&Entry) -> bool| {
        let with = entries.iter().filter(|entry| test(entry));
        with.count() as u64
    };
    let flagged = |bit: u32| count(&|entry| entry.fields.flags & bit != 0);
    let unflagged = |bit: u32| count(&|entry| entry.fields.flags & bit == 0);
    let octets = entries.iter().map(|entry| entry.packet.len() as u64).sum();
    let drops = |entry: &Entry| entry.fields.cumulative_drops;
    let pairs = entries.windows(2);
    let lost = pairs.map(|pair| u64::from(drops(&pair[1]).wrapping_sub(drops(&pair[0]))));
    let last = entries.last().map_or(found, |entry| drops(entry).into());
    [
        entries.len() as u64,
        flagged(1),
        flagged(2),
        octets,
        lost.sum(),
        last,
        count(&|entry| entry.packet.len() < entry.fields.original_length as usize),
        unflagged(1),
        unflagged(2),
    ]
}
