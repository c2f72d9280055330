//! Inputs: headers as an edition lays them out, damaged ones and noise; what a writer is given.

use crate::places::HUGE;
use model::radiotap::row;
use random::damage::{add_octets, change_octet, cut, put};
use random::prng::Prng;
use std::ops::Range;

/// The bits that editions 1, 2 and 3 know.
pub const KNOWN: [u32; 3] = [0x0000_3FFF, 0x0003_FFFF, 0x003B_FFFF];

/// The bits below 29 that no edition knows.
pub const UNKNOWN: [u32; 8] = [18, 22, 23, 24, 25, 26, 27, 28];

/// The bits that let the next word start again, and that call for another.
pub const RESET: u32 = 1 << 29;
pub const ANOTHER: u32 = 1 << 31;

/// Editions asked for: the default, those served, and past them.
pub const EDITIONS: [u32; 6] = [0, 1, 2, 3, 4, u32::MAX];

/// What a writer is given beside output and place.
pub struct Values {
    pub edition: u32,
    pub presence: u32,
    pub packed: Vec<u8>,
}

/// An edition: served mostly.
pub fn edition(prng: &mut Prng) -> u32 {
    match prng.below(16) {
        0 => prng.pick(&[4, 5, 255, 256, 257, 1 << 31, u32::MAX]),
        1 => prng.bits() as u32,
        _ => prng.below(4) as u32,
    }
}

/// The bits that an edition knows, 0 asking for edition 1.
fn known(edition: u32) -> u32 {
    KNOWN[edition.clamp(1, 3) as usize - 1]
}

/// Some of the bits of a mask: few, half or most.
fn some_bits(prng: &mut Prng, mask: u32) -> u32 {
    let bits = prng.bits();
    let (one, two) = (bits as u32, (bits >> 32) as u32);
    mask & match prng.below(4) {
        0 => 1 << prng.below(22),
        1 => one & two,
        2 => one,
        _ => one | two,
    }
}

/// A presence word with bit 31 clear: known bits mostly.
fn presence(prng: &mut Prng) -> u32 {
    let mask = prng.pick(&KNOWN);
    let mut word = some_bits(prng, mask);
    if prng.one_in(8) {
        word |= 1 << prng.pick(&UNKNOWN);
    }
    if prng.one_in(16) {
        word |= 1 << 30;
    }
    if prng.one_in(4) {
        word |= RESET;
    }
    word
}

/// One to nine presence words, few mostly; all but the last have bit 31 set.
fn words(prng: &mut Prng) -> Vec<u32> {
    let count = match prng.below(16) {
        0..=6 => 1,
        7..=10 => 2,
        11 | 12 => 3,
        13 => 8 + prng.below(2),
        _ => 1 + prng.below(9),
    };
    let mut words: Vec<u32> = (0..count).map(|_| presence(prng)).collect();
    for word in &mut words[..count - 1] {
        *word |= ANOTHER;
    }
    if prng.one_in(2) {
        for word in &mut words[..count - 1] {
            *word |= RESET;
        }
    } else {
        number_on(prng, &mut words);
    }
    words
}

/// Most words that don't start again carry nothing, so that those behind them are read too; half of the time no other bit
/// stops a reading.
fn number_on(prng: &mut Prng, words: &mut [u32]) {
    if prng.one_in(2) {
        for word in &mut *words {
            *word &= KNOWN[0] | RESET | ANOTHER;
        }
    }
    for index in 1..words.len() {
        if words[index - 1] & RESET == 0 && !prng.one_in(4) {
            words[index] &= ANOTHER;
            words[index] |= prng.pick(&[0, RESET]);
        }
    }
}

/// The parts of a header that the fields take, up to a bit that stops a reading in the edition.
fn layout(words: &[u32], edition: u32) -> Vec<Range<usize>> {
    let mut parts = Vec::new();
    let mut place = 4 + 4 * words.len();
    let mut again = true;
    for word in words {
        for bit in (0..31).filter(|bit| *bit != 29 && word >> bit & 1 == 1) {
            let Some(row) = row(bit).filter(|row| again && row.edition <= edition) else {
                return parts;
            };
            let gap = (row.alignment - place % row.alignment) % row.alignment;
            place += gap + row.size;
            parts.push(place - row.size..place);
        }
        again = word & RESET != 0;
    }
    parts
}

/// Where the fields of these words end.
pub fn end(words: &[u32], edition: u32) -> usize {
    let parts = layout(words, edition);
    parts.last().map_or(4 + 4 * words.len(), |part| part.end)
}

/// A header's octets up to a length or the end of its words, all others 0.
pub fn header(words: &[u32], length: usize) -> Vec<u8> {
    let mut octets = vec![0; length.max(4 + 4 * words.len())];
    put(&mut octets, 2, &(length as u16).to_le_bytes());
    for (index, word) in words.iter().enumerate() {
        put(&mut octets, 4 + 4 * index, &word.to_le_bytes());
    }
    octets
}

/// A length for a header whose fields end at a place: exact mostly.
fn length(prng: &mut Prng, exact: usize) -> usize {
    match prng.below(12) {
        0 => exact.saturating_sub(1 + prng.below(14)),
        1 => exact - 1,
        2 | 3 => exact + 1 + prng.below(9),
        4 => prng.pick(&[0, 7, 8, 9, 11, 12, 13, 255, 256, 300]),
        _ => exact,
    }
}

/// A header with random fields and a frame behind; pad octets are 0 mostly.
fn valid(prng: &mut Prng) -> Vec<u8> {
    let words = words(prng);
    let edition = 1 + prng.below(3) as u32;
    let exact = end(&words, edition);
    let mut octets = header(&words, length(prng, exact));
    for part in layout(&words, edition) {
        let field = prng.octets(part.len());
        put(&mut octets, part.start, &field);
    }
    if prng.one_in(8) {
        octets[1] = prng.bits() as u8;
    }
    if prng.one_in(6) {
        let behind = 4 + 4 * words.len();
        let random = prng.octets(octets.len() - behind);
        put(&mut octets, behind, &random);
    }
    let frame = prng.pick(&[0, 0, 1, 4, 24, 60]);
    octets.extend(prng.octets(frame));
    octets
}

/// Octets without order, with a valid version and length half of the time.
fn noise(prng: &mut Prng) -> Vec<u8> {
    let length = prng.below(60);
    let mut octets = prng.octets(length);
    if prng.one_in(2) {
        let length = prng.below(octets.len() + 2) as u16;
        put(&mut octets, 0, &[0]);
        put(&mut octets, 2, &length.to_le_bytes());
    }
    if prng.one_in(2) {
        octets.iter_mut().skip(4).for_each(|octet| *octet &= 0x13);
    }
    octets
}

/// Damages a header in one place.
fn damage(prng: &mut Prng, octets: &mut Vec<u8>) {
    match prng.below(8) {
        0 => cut(prng, octets),
        1 => change_octet(prng, octets),
        2 => add_octets(prng, octets),
        3 => {
            let octet = prng.bits() as u8;
            put(octets, prng.below(4), &[octet]);
        }
        4 => {
            let step = prng.pick(&[0, 1, 2, u16::MAX]);
            let length = (octets.len() as u16).wrapping_add(step);
            put(octets, 2, &length.to_le_bytes());
        }
        _ => flip_bit(prng, octets),
    }
}

/// Changes one bit of the first or second presence word.
fn flip_bit(prng: &mut Prng, octets: &mut [u8]) {
    let place = prng.pick(&[4, 4, 8]);
    if let Some(word) = octets.get_mut(place..place + 4) {
        word[prng.below(4)] ^= 1 << prng.below(8);
    }
}

/// Any input: valid, damaged once or twice, noise or empty.
pub fn input(prng: &mut Prng) -> Vec<u8> {
    match prng.below(16) {
        0 if prng.one_in(4) => Vec::new(),
        0 | 1 => noise(prng),
        2..=10 => valid(prng),
        _ => {
            let mut octets = valid(prng);
            damage(prng, &mut octets);
            if prng.one_in(4) {
                damage(prng, &mut octets);
            }
            octets
        }
    }
}

/// A field's or word's number, where so many are shown.
pub fn number(prng: &mut Prng, shown: usize) -> usize {
    match prng.below(8) {
        0 => 0,
        1 => shown.saturating_sub(1),
        2 => shown,
        3 => shown + 1,
        4 => prng.pick(&HUGE),
        _ => prng.below(shown + 2),
    }
}

/// A header that can be written.
pub fn representable(prng: &mut Prng) -> Values {
    let edition = prng.below(4) as u32;
    let presence = some_bits(prng, known(edition));
    let sizes = layout(&[presence], 3).iter().map(Range::len).sum();
    Values {
        edition,
        presence,
        packed: prng.octets(sizes),
    }
}

/// Anything that a writer can be given: representable mostly.
pub fn values(prng: &mut Prng) -> Values {
    let mut values = representable(prng);
    match prng.below(12) {
        0 => values.edition = edition(prng),
        1 => values.presence |= 1 << (14 + prng.below(18)),
        2 => values.presence ^= 1 << prng.below(32),
        3 => values.packed.push(0),
        4 => drop(values.packed.pop()),
        5 => values.packed.truncate(prng.below(9)),
        6 => values.presence = prng.bits() as u32,
        _ => {}
    }
    values
}
