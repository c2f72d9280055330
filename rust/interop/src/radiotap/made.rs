//! Radiotap packets made from a seed.

use random::prng::Prng;

/// The bits that editions 1, 2 and 3 know.
const KNOWN: [u32; 3] = [0x0000_3FFF, 0x0003_FFFF, 0x003B_FFFF];

/// The bits that no edition knows and that stop a reading.
const UNKNOWN: [u32; 9] = [18, 22, 23, 24, 25, 26, 27, 28, 30];

/// Those of them that tshark treats apart.
const TYPE_LENGTH_VALUE: u32 = 28;
const VENDOR: u32 = 30;

/// Another word follows, and one whose bits are numbered from 0 again.
const ANOTHER_WORD: u32 = 1 << 31;
const FROM_0: u32 = 1 << 29;

/// Alignment and size of the known bits.
fn row(bit: u32) -> (usize, usize) {
    match bit {
        0 => (8, 8),
        3 => (2, 4),
        4 | 7..=9 | 14 | 15 => (2, 2),
        19 => (1, 3),
        20 => (4, 8),
        21 => (2, 12),
        _ => (1, 1),
    }
}

/// One to eight presence words, few mostly.
fn words(prng: &mut Prng) -> Vec<u32> {
    let count = if prng.one_in(4) {
        1 + prng.below(8)
    } else {
        1 + prng.below(2)
    };
    let known = prng.pick(&KNOWN);
    let mut words: Vec<u32> = (0..count)
        .map(|_| prng.bits() as u32 & prng.bits() as u32 & known)
        .collect();
    for index in 1..count {
        words[index - 1] |= ANOTHER_WORD;
        if !prng.one_in(6) {
            words[index - 1] |= FROM_0;
        } else if prng.one_in(2) {
            words[index] = 0;
        }
    }
    if prng.one_in(6) {
        add_unknown(prng, &mut words);
    }
    words
}

/// Sets a bit that no edition knows in one of the words.
fn add_unknown(prng: &mut Prng, words: &mut [u32]) {
    let bit = prng.pick(&UNKNOWN);
    let mut index = prng.below(words.len());
    // tshark refuses this bit from the third word on, but for the last word.
    if bit == TYPE_LENGTH_VALUE && index > 1 {
        index = words.len() - 1;
    }
    words[index] |= 1 << bit;
    // tshark refuses a word with both namespaces.
    if bit == VENDOR {
        words[index] &= !FROM_0;
    }
}

/// A length that the known fields of the words don't pass.
fn length(words: &[u32]) -> usize {
    let mut at = 4 + 4 * words.len();
    for word in words {
        for bit in (0..22).filter(|bit| word >> bit & 1 == 1) {
            let (alignment, size) = row(bit);
            at = at.next_multiple_of(alignment) + size;
        }
    }
    at
}

/// A header with random fields, pad octets and octets left before its length, and a frame without data.
pub fn packet(prng: &mut Prng) -> Vec<u8> {
    let words = words(prng);
    let left = if prng.one_in(3) { prng.below(40) } else { 0 };
    let length = length(&words) + left;
    let mut octets = prng.octets(length);
    octets[0] = 0;
    octets[2..4].copy_from_slice(&(length as u16).to_le_bytes());
    for (place, word) in octets[4..].chunks_exact_mut(4).zip(words) {
        place.copy_from_slice(&word.to_le_bytes());
    }
    octets.extend([0x48, 0x01]);
    octets.extend(prng.octets(22));
    octets
}
