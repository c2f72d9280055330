//! Damage to an input in one place.

use crate::prng::Prng;

/// Cuts the input anywhere, or a little before its end.
pub fn cut(prng: &mut Prng, octets: &mut Vec<u8>) {
    let length = octets.len();
    let kept = if prng.one_in(2) {
        prng.below(length + 1)
    } else {
        length.saturating_sub(prng.below(30))
    };
    octets.truncate(kept);
}

/// Changes one octet.
pub fn change_octet(prng: &mut Prng, octets: &mut [u8]) {
    if !octets.is_empty() {
        let place = prng.below(octets.len());
        octets[place] ^= 1 + prng.below(255) as u8;
    }
}

/// Adds octets at the end or anywhere.
pub fn add_octets(prng: &mut Prng, octets: &mut Vec<u8>) {
    let number = 1 + prng.below(30);
    let added = prng.octets(number);
    let place = if prng.one_in(2) {
        octets.len()
    } else {
        prng.below(octets.len() + 1)
    };
    octets.splice(place..place, added);
}

/// Overwrites octets where they lie inside the input.
pub fn put(octets: &mut [u8], place: usize, part: &[u8]) {
    if let Some(behind) = octets.get_mut(place..) {
        if let Some(there) = behind.get_mut(..part.len()) {
            there.copy_from_slice(part);
        }
    }
}
