//! Captures: made and written, read, and rewritten.

pub mod lines;
pub mod made;

use crate::library::{self, Values};
use random::prng::Prng;
use std::fs;
use std::path::Path;

/// Packets of each capture.
const PACKETS: usize = 1000;

/// Writes a capture and what tshark must print of it.
fn write_one(
    folder: &Path,
    name: &str,
    packets: &[made::Packet],
    datalink: u32,
) -> std::io::Result<()> {
    let capture = made::capture(packets, datalink);
    fs::write(folder.join(name).with_extension("btsnoop"), capture)?;
    let lines = lines::made(packets, datalink);
    fs::write(folder.join(name).with_extension("lines"), lines)
}

/// Writes captures into a folder, and beside each what other programs must print of it.
pub fn write(folder: &Path) -> std::io::Result<()> {
    let prng = &mut Prng::new(1);
    let truncated = made::packets(prng, PACKETS, true);
    write_one(folder, "h4", &truncated, made::H4)?;
    write_one(folder, "h1", &truncated, made::H1)?;
    let whole = made::packets(prng, PACKETS, false);
    write_one(folder, "whole", &whole, made::H4)?;
    fs::write(folder.join("whole.btmon"), lines::btmon(&whole))
}

/// A capture rewritten by the library's writer, record by record.
pub fn rewritten(input: &[u8]) -> Vec<u8> {
    let mut output = vec![0; input.len()];
    let datalink = library::check(input).datalink as u32;
    let mut written = library::write_header(&mut output, 0, datalink);
    let mut place = 16;
    loop {
        let record = library::record(input, place);
        if record.kind != library::VALUES {
            output.truncate(written.next as usize);
            return output;
        }
        let values = Values {
            original: record.original as u32,
            flags: record.flags as u32,
            drops: record.drops as u32,
            time: record.time,
        };
        let packet = &input[record.packet as usize..][..record.included as usize];
        written = library::write_record(&mut output, written.next as usize, &values, packet);
        place = record.next as usize;
    }
}
