//! Inputs: valid files, damaged ones, noise, and places in them.

use crate::places::HUGE;
use model::btsnoop::Fields;
use model::time::{UNIX_EPOCH, YEAR_2000};
use random::damage::{add_octets, change_octet, cut, put};
use random::prng::Prng;

/// Times at the ends that the rules speak of.
pub const TIMES: [i64; 16] = [
    0,
    1,
    -1,
    UNIX_EPOCH,
    UNIX_EPOCH - 1,
    UNIX_EPOCH + 1,
    -UNIX_EPOCH,
    YEAR_2000,
    YEAR_2000 - 1,
    i64::MIN,
    i64::MIN + 1,
    i64::MIN + UNIX_EPOCH - 1,
    i64::MIN + UNIX_EPOCH,
    i64::MIN + UNIX_EPOCH + 1,
    i64::MAX - 1,
    i64::MAX,
];

/// 32-bit numbers at the ends.
pub const WORDS: [u32; 12] = [
    0,
    1,
    2,
    3,
    5,
    0x7FFF_FFFF,
    0x8000_0000,
    0xFFFF_FF00,
    4_294_967_290,
    u32::MAX - 1,
    u32::MAX,
    0x0001_0000,
];

/// Datalink codes at the ends and between them.
pub const DATALINKS: [u32; 12] = [
    1001,
    1002,
    1003,
    1004,
    1000,
    1005,
    0,
    1,
    0x0100_03EA,
    0x8000_03E9,
    256 + 1001,
    u32::MAX,
];

/// A record to be written.
#[derive(Clone, Debug, PartialEq)]
pub struct Entry {
    pub fields: Fields,
    pub packet: Vec<u8>,
}

impl Entry {
    /// The record's octets.
    pub fn octets(&self) -> Vec<u8> {
        let mut octets = Vec::with_capacity(24 + self.packet.len());
        octets.extend(self.fields.original_length.to_be_bytes());
        octets.extend((self.packet.len() as u32).to_be_bytes());
        octets.extend(self.fields.flags.to_be_bytes());
        octets.extend(self.fields.cumulative_drops.to_be_bytes());
        octets.extend(self.fields.time.to_be_bytes());
        octets.extend(&self.packet);
        octets
    }
}

/// An input and the places where its maker put record starts.
#[derive(Clone)]
pub struct Made {
    pub octets: Vec<u8>,
    pub starts: Vec<usize>,
}

/// A time: an end, near C, or any.
pub fn time(prng: &mut Prng) -> i64 {
    match prng.below(4) {
        0 | 1 => prng.pick(&TIMES),
        2 => UNIX_EPOCH + (prng.bits() % 4_000_000) as i64 - 2_000_000,
        _ => prng.bits() as i64,
    }
}

/// A 32-bit number: an end or any.
pub fn word(prng: &mut Prng) -> u32 {
    if prng.one_in(2) {
        prng.pick(&WORDS)
    } else {
        prng.bits() as u32
    }
}

/// A datalink code: valid mostly.
pub fn datalink(prng: &mut Prng) -> u32 {
    match prng.below(16) {
        0 => prng.pick(&DATALINKS),
        1 => word(prng),
        _ => prng.pick(&DATALINKS[..4]),
    }
}

/// A packet length: short mostly.
fn packet_length(prng: &mut Prng) -> usize {
    match prng.below(512) {
        0 => 65_530 + prng.below(12),
        1..=9 => 250 + prng.below(12),
        10..=99 => prng.below(80),
        _ => prng.below(8),
    }
}

/// An original length that the packet does not pass.
fn original_length(prng: &mut Prng, included: u32) -> u32 {
    match prng.below(4) {
        0 | 1 => included,
        2 => included + 1 + prng.below(40) as u32,
        _ => word(prng).max(included),
    }
}

/// A representable record.
pub fn entry(prng: &mut Prng) -> Entry {
    let length = packet_length(prng);
    Entry {
        fields: Fields {
            original_length: original_length(prng, length as u32),
            flags: word(prng),
            cumulative_drops: word(prng),
            time: time(prng),
        },
        packet: prng.octets(length),
    }
}

/// The records of a file: few mostly.
pub fn entries(prng: &mut Prng) -> Vec<Entry> {
    let bound = if prng.one_in(16) { 40 } else { 6 };
    (0..prng.below(bound)).map(|_| entry(prng)).collect()
}

/// A file header's octets.
pub fn file_header(datalink: u32) -> Vec<u8> {
    let mut octets = b"btsnoop\0".to_vec();
    octets.extend(1_u32.to_be_bytes());
    octets.extend(datalink.to_be_bytes());
    octets
}

/// A file of these records.
pub fn file(datalink: u32, entries: &[Entry]) -> Made {
    let mut made = Made {
        octets: file_header(datalink),
        starts: Vec::new(),
    };
    for entry in entries {
        made.starts.push(made.octets.len());
        made.octets.extend(entry.octets());
    }
    made
}

/// A valid file.
pub fn valid(prng: &mut Prng) -> Made {
    let datalink = 1001 + prng.below(4) as u32;
    let entries = entries(prng);
    file(datalink, &entries)
}

/// Octets without order, behind a valid file header half of the time.
fn noise(prng: &mut Prng) -> Made {
    let length = prng.below(120);
    let mut octets = prng.octets(length);
    if prng.one_in(2) {
        octets.splice(0..0, file_header(1001));
    }
    if prng.one_in(2) {
        octets.iter_mut().for_each(|octet| *octet &= 3);
    }
    let starts = Vec::new();
    Made { octets, starts }
}

/// Any input: valid, damaged once or twice, noise or empty.
pub fn capture(prng: &mut Prng) -> Made {
    match prng.below(16) {
        0 => Made {
            octets: Vec::new(),
            starts: Vec::new(),
        },
        1 | 2 => noise(prng),
        3..=7 => valid(prng),
        _ => damaged(prng),
    }
}

/// A valid file with damage.
fn damaged(prng: &mut Prng) -> Made {
    let mut made = valid(prng);
    damage(prng, &mut made);
    if prng.one_in(4) {
        damage(prng, &mut made);
    }
    made
}

/// Damages a file in one place.
fn damage(prng: &mut Prng, made: &mut Made) {
    match prng.below(6) {
        0 => cut(prng, &mut made.octets),
        1 => change_octet(prng, &mut made.octets),
        2 => add_octets(prng, &mut made.octets),
        3 => change_header(prng, made),
        _ => change_lengths(prng, made),
    }
}

/// Changes identification, version or datalink code.
fn change_header(prng: &mut Prng, made: &mut Made) {
    match prng.below(3) {
        0 => {
            let octet = prng.bits() as u8;
            put(&mut made.octets, prng.below(8), &[octet]);
        }
        1 => put(&mut made.octets, 8, &word(prng).to_be_bytes()),
        _ => put(&mut made.octets, 12, &prng.pick(&DATALINKS).to_be_bytes()),
    }
}

/// Changes the lengths of one record around their bounds.
fn change_lengths(prng: &mut Prng, made: &mut Made) {
    if made.starts.is_empty() {
        return;
    }
    let start = prng.pick(&made.starts);
    let remaining = made.octets.len().saturating_sub(start + 24) as u32;
    let near = [
        remaining,
        remaining.wrapping_add(1),
        remaining.wrapping_sub(1),
        word(prng),
    ];
    let included = prng.pick(&near);
    let original = prng.pick(&[
        included,
        included.wrapping_sub(1),
        included.wrapping_add(1),
        u32::MAX,
    ]);
    if prng.one_in(2) {
        put(&mut made.octets, start, &original.to_be_bytes());
    }
    put(&mut made.octets, start + 4, &included.to_be_bytes());
}

/// A place: a record start mostly, or any other kind of spot.
pub fn place(prng: &mut Prng, made: &Made) -> usize {
    let length = made.octets.len();
    match prng.below(12) {
        0 => prng.pick(&[0, 1, 15, 16, 17]),
        1 => length,
        2 => prng.pick(&[length.saturating_sub(1), length + 1]),
        3 => prng.pick(&HUGE),
        4 => prng.below(length + 3),
        5 => length.saturating_sub(prng.below(27)),
        6 => start(prng, made) + 1 + prng.below(26),
        7 => start(prng, made) - 1,
        _ => start(prng, made),
    }
}

/// A record start, 16 where there is none.
fn start(prng: &mut Prng, made: &Made) -> usize {
    if made.starts.is_empty() {
        16
    } else {
        prng.pick(&made.starts)
    }
}

/// A number of records for a survey from a place.
pub fn number(prng: &mut Prng, made: &Made, place: usize) -> usize {
    let exact = made.starts.iter().filter(|start| **start >= place).count();
    match prng.below(8) {
        0 => 0,
        1 => 1,
        2 | 3 => exact,
        4 => prng.pick(&[exact + 1, exact.saturating_sub(1)]),
        5 => prng.below(exact + 2),
        6 => prng.pick(&HUGE),
        _ => prng.pick(&[usize::MAX, 1 << 32]),
    }
}
