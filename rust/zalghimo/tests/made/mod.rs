//! Inputs that the tests share.

#![allow(dead_code)]

use zalghimo::{push_header, push_record, RecordFields, Refusal};

/// The documents' time field for 1 January 2000.
pub const YEAR_2000: i64 = 0x00E0_3AB4_4A67_6000;

/// The packet of P3: a reset command.
pub const RESET: [u8; 4] = [0x01, 0x03, 0x0C, 0x00];

/// The numbers of P3's record.
pub const RESET_FIELDS: RecordFields = RecordFields {
    original_length: 4,
    flags: 2,
    cumulative_drops: 0,
    time_field: YEAR_2000,
};

/// P2: a file header.
pub fn p2() -> Vec<u8> {
    let mut octets = b"btsnoop\0".to_vec();
    octets.extend(1_u32.to_be_bytes());
    octets.extend(1002_u32.to_be_bytes());
    octets
}

/// P3: P2, then a record.
pub fn p3() -> Vec<u8> {
    let mut octets = p2();
    for number in [4_u32, 4, 2, 0] {
        octets.extend(number.to_be_bytes());
    }
    octets.extend(YEAR_2000.to_be_bytes());
    octets.extend(RESET);
    octets
}

/// A file with these records.
pub fn file(records: &[(RecordFields, Vec<u8>)]) -> Vec<u8> {
    let mut octets = Vec::new();
    push_header(&mut octets, 1001).expect("a datalink code that is served");
    for (fields, packet) in records {
        push_record(&mut octets, fields, packet).expect("a packet of at most the original length");
    }
    octets
}

/// A radiotap header of exactly this length, all octets after its words 0.
pub fn radiotap(words: &[u32], length: u16) -> Vec<u8> {
    let mut octets = vec![0; 2];
    octets.extend(length.to_le_bytes());
    for word in words {
        octets.extend(word.to_le_bytes());
    }
    octets.resize(length.into(), 0);
    octets
}

/// A row of the radiotap table.
pub struct Row {
    pub bit: u32,
    pub name: &'static str,
    pub alignment: usize,
    pub size: usize,
    pub first_edition: u32,
}

/// The radiotap table, from the documentation.
pub fn table() -> Vec<Row> {
    let source = include_str!("../../src/radiotap.rs");
    let lines = source.lines().filter_map(|line| line.strip_prefix("//! |"));
    lines.skip(2).map(row).collect()
}

fn row(line: &'static str) -> Row {
    let cells: Vec<&str> = line.split('|').map(str::trim).collect();
    let number = |cell: usize| cells[cell].parse::<u32>().expect("a number");
    Row {
        bit: number(0),
        name: cells[1],
        alignment: number(2) as usize,
        size: number(3) as usize,
        first_edition: number(4),
    }
}

/// An LE pseudo-header and packet of 14 octets, all others 0.
pub fn le(rf_channel: u8, flags: u16) -> Vec<u8> {
    let mut octets = vec![0; 14];
    octets[0] = rf_channel;
    octets[8..10].copy_from_slice(&flags.to_le_bytes());
    octets
}

/// Number and place of a refusal that is due.
pub fn refused<T, E: Into<Refusal>>(answer: Result<T, E>) -> (u32, usize) {
    let refusal = answer.err().expect("a refusal").into();
    (refusal.number(), refusal.place())
}
