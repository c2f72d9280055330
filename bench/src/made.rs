//! Inputs made from a seed: captures, radiotap headers and LE packets.

use crate::plain::btsnoop::{record, write_header, write_record, Entry};
use crate::plain::radiotap::{RESET, ROWS};
use random::prng::Prng;

/// The longest packet of a capture.
const LONGEST_PACKET: usize = 255;

/// Another word follows, which starts again.
const ANOTHER: u32 = 1 << 31 | RESET;

/// 1 January 2000 in the time field.
const YEAR_2000: i64 = 0x00E0_3AB4_4A67_6000;

/// A capture of so many octets, less 23 at most, with packets of mixed lengths.
pub fn capture(prng: &mut Prng, size: usize) -> Vec<u8> {
    let packets = prng.octets(2 * LONGEST_PACKET);
    let mut output = vec![0; size];
    let mut place = write_header(&mut output, 0, 1002).expect("room for the header");
    let (mut time, mut drops) = (YEAR_2000, 0);
    while let Some(room) = (size - place).checked_sub(24) {
        let length = prng.below(LONGEST_PACKET + 1).min(room);
        let cut = if prng.one_in(8) { prng.below(100) } else { 0 };
        time += prng.below(20_000) as i64;
        drops += prng.one_in(1000) as u32;
        let entry = Entry {
            original_length: (length + cut) as u32,
            flags: prng.below(4) as u32,
            cumulative_drops: drops,
            time,
            packet: &packets[prng.below(LONGEST_PACKET)..][..length],
        };
        place = write_record(&mut output, place, &entry).expect("room for the record");
    }
    output.truncate(place);
    output
}

/// A capture of so many records, each with a packet of this length.
pub fn even_capture(prng: &mut Prng, records: usize, length: usize) -> Vec<u8> {
    let mut output = vec![0; 16 + records * (24 + length)];
    let mut place = write_header(&mut output, 0, 1002).expect("room for the header");
    for number in 0..records as u32 {
        let entry = Entry {
            original_length: length as u32 + number % 3,
            flags: number % 4,
            cumulative_drops: number / 1000,
            time: YEAR_2000 + i64::from(number) * 1250,
            packet: &prng.octets(length),
        };
        place = write_record(&mut output, place, &entry).expect("room for the record");
    }
    output
}

/// The records of a capture.
pub fn entries(capture: &[u8]) -> Vec<Entry<'_>> {
    let mut entries = Vec::new();
    let mut place = 16;
    while let Ok(Some(record)) = record(capture, place) {
        place = record.next;
        entries.push(record.entry);
    }
    entries
}

/// A radiotap header of these words, each but the last calling for another, which starts again, of the length that its
/// fields need.
pub fn header(words: &[u32]) -> Vec<u8> {
    let mut octets = vec![0; 4];
    for (index, word) in words.iter().enumerate() {
        let another = if index + 1 < words.len() { ANOTHER } else { 0 };
        octets.extend((word | another).to_le_bytes());
    }
    let mut at = octets.len();
    for word in words {
        for bit in (0..22).filter(|bit| word >> bit & 1 == 1) {
            let row = ROWS[bit];
            at = at.next_multiple_of(row.mask as usize + 1) + row.size as usize;
        }
    }
    octets.resize(at, 7);
    octets[2..4].copy_from_slice(&(at as u16).to_le_bytes());
    octets
}

/// A header of one to eight words with any of the known bits.
pub fn mixed_header(prng: &mut Prng, known: u32) -> Vec<u8> {
    let count = 1 + prng.below(8);
    let words: Vec<u32> = (0..count).map(|_| prng.bits() as u32 & known).collect();
    header(&words)
}

/// An LE pseudo-header and packet that are accepted.
pub fn le_packet(prng: &mut Prng) -> Vec<u8> {
    let length = 15 + prng.below(LONGEST_PACKET);
    let mut octets = prng.octets(length);
    let (pdu_type, phy) = (prng.below(7) as u16, prng.below(3) as u16);
    let flags = prng.bits() as u16 & 0x3C7F | pdu_type << 7 | phy << 14;
    octets[0] %= 40;
    octets[8..10].copy_from_slice(&flags.to_le_bytes());
    octets
}
