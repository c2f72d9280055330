//! Radiotap: all three give the same answers.

use super::{damage, DAMAGED};
use crate::library;
use crate::made;
use crate::plain::radiotap::{self as plain, Reading};
use crate::plain::{bit_by_bit, Refusal};
use random::prng::Prng;

/// The most numbers that a list of fields has: 21 fields of each of 8 words.
pub const NUMBERS: usize = 4 * 21 * 8;

/// The answer as the library gives it.
fn reading(answer: Result<Reading, Refusal>) -> library::Radiotap {
    let reading = match answer {
        Ok(reading) => reading,
        Err(refusal) => {
            return library::Radiotap {
                number: refusal.number.into(),
                place: refusal.place as u64,
                ..Default::default()
            }
        }
    };
    library::Radiotap {
        kind: match reading.stop {
            Some(_) => library::STOPPED,
            None => library::VALUES,
        },
        fields: reading.fields as u64,
        frame: reading.head.octets.len() as u64,
        word: reading.stop.map_or(0, |stop| stop.word as u64),
        bit: reading.stop.map_or(0, |stop| stop.bit.into()),
        pad: reading.head.pad.into(),
        words: reading.head.words.len() as u64,
        ..Default::default()
    }
}

/// All answer an input alike, with room for so many numbers; the answer is the library's.
pub fn input(input: &[u8], edition: u32, room: usize) -> library::Radiotap {
    let answer = library::radiotap_read(input, edition);
    assert_eq!(answer, reading(plain::read(input, edition)));
    assert_eq!(answer, reading(bit_by_bit::read(input, edition)));
    let (mut ours, mut theirs) = ([9; NUMBERS], [9; NUMBERS]);
    let listed = library::radiotap_fields(input, edition, &mut ours[..room]);
    assert_eq!(listed, answer);
    let listed = plain::fields(input, edition, &mut theirs[..room]);
    assert_eq!(reading(listed), answer);
    assert_eq!(ours, theirs);
    answer
}

/// Sets or clears bit 29 of a presence word, or a bit of what stands in its place.
fn change_reset(prng: &mut Prng, octets: &mut [u8]) {
    let highest = 7 + 4 * prng.below(8);
    if let Some(octet) = octets.get_mut(highest) {
        *octet ^= 1 << 5;
    }
}

/// All answer headers alike, damaged ones mostly.
pub fn damaged(prng: &mut Prng) {
    for _ in 0..DAMAGED {
        let known = prng.pick(&plain::KNOWN) | (prng.bits() & prng.bits() & prng.bits()) as u32;
        let mut octets = made::mixed_header(prng, known);
        if prng.one_in(4) {
            octets[1] = prng.bits() as u8;
        }
        if prng.one_in(2) {
            change_reset(prng, &mut octets);
        }
        if prng.one_in(4) {
            let length = octets.len() - prng.below(9).min(octets.len());
            octets[2..4].copy_from_slice(&(length as u16).to_le_bytes());
        }
        if prng.one_in(2) {
            damage(prng, &mut octets);
        }
        let edition = prng.below(5) as u32;
        input(&octets, edition, prng.below(NUMBERS + 1));
    }
}
