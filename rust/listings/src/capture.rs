//! Captures made with the model's writers.

use model::btsnoop::{write_header, write_record, Fields, FILE_HEADER, RECORD_HEADER};
use model::time::YEAR_2000;

/// The record of P3.
pub const RESET: Fields = Fields {
    original_length: 4,
    flags: 2,
    cumulative_drops: 0,
    time: YEAR_2000,
};
pub const RESET_PACKET: [u8; 4] = [0x01, 0x03, 0x0C, 0x00];

/// A file header with a datalink code.
pub fn header(datalink: u32) -> Vec<u8> {
    let mut octets = vec![0; FILE_HEADER];
    write_header(&mut octets, 0, datalink).expect("a datalink code that is served");
    octets
}

/// Adds a record at the end.
pub fn push(octets: &mut Vec<u8>, fields: &Fields, packet: &[u8]) {
    let start = octets.len();
    octets.resize(start + RECORD_HEADER + packet.len(), 0);
    write_record(octets, start, fields, packet).expect("a packet of at most the original length");
}

/// P3: one reset command.
pub fn p3() -> Vec<u8> {
    let mut octets = header(1002);
    push(&mut octets, &RESET, &RESET_PACKET);
    octets
}

/// P3 with its record a second time, at place 44.
pub fn two_resets() -> Vec<u8> {
    let mut octets = p3();
    push(&mut octets, &RESET, &RESET_PACKET);
    octets
}
