//! Holds plain Rust to the library's answers: on the inputs that are timed, and on damaged ones.

pub mod btsnoop;
pub mod le;
pub mod radiotap;
pub mod stream;

use crate::library;
use crate::plain::Refusal;
use random::damage::{add_octets, change_octet, cut};
use random::prng::Prng;

/// How many damaged inputs of each format, and how many streams, are compared.
pub const DAMAGED: usize = 50_000;

/// How many that are in all.
pub const ALL_DAMAGED: usize = 4 * DAMAGED;

/// Damages an input once or twice.
pub fn damage(prng: &mut Prng, octets: &mut Vec<u8>) {
    for _ in 0..1 + prng.below(2) {
        match prng.below(4) {
            0 => cut(prng, octets),
            1 => add_octets(prng, octets),
            _ => change_octet(prng, octets),
        }
    }
}

/// What a writer answers, as the library gives it.
pub fn written(answer: Result<usize, Refusal>) -> library::Written {
    match answer {
        Ok(next) => library::Written {
            kind: library::VALUES,
            next: next as u64,
            ..Default::default()
        },
        Err(refusal) => library::Written {
            number: refusal.number.into(),
            place: refusal.place as u64,
            ..Default::default()
        },
    }
}
