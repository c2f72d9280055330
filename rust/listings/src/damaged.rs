//! The damaged captures: small made ones, each damaged in one place.

use crate::capture::{header, push};
use model::btsnoop::Fields;
use model::time::{UNIX_EPOCH, YEAR_2000};
use random::damage::{add_octets, change_octet, cut};
use random::prng::Prng;

/// How many there are.
const COUNT: usize = 300;

/// The seed of their numbers.
const SEED: u64 = 18;

/// All damaged captures: cut, with an octet changed and with octets added, in turn.
pub fn captures() -> Vec<Vec<u8>> {
    let mut prng = Prng::new(SEED);
    (0..COUNT).map(|index| damaged(&mut prng, index)).collect()
}

fn damaged(prng: &mut Prng, index: usize) -> Vec<u8> {
    let mut octets = made(prng);
    match index % 3 {
        0 => cut(prng, &mut octets),
        1 => change_octet(prng, &mut octets),
        _ => add_octets(prng, &mut octets),
    }
    octets
}

/// A capture of 1 to 4 records with packets of at most 12 octets.
fn made(prng: &mut Prng) -> Vec<u8> {
    let mut octets = header(1001 + prng.below(4) as u32);
    for _ in 0..1 + prng.below(4) {
        let length = prng.below(13);
        let packet = prng.octets(length);
        push(&mut octets, &fields(prng, length as u32), &packet);
    }
    octets
}

/// Fields for a packet of a length.
fn fields(prng: &mut Prng, length: u32) -> Fields {
    Fields {
        original_length: length + prng.pick(&[0, 0, 1, 200]),
        flags: word(prng),
        cumulative_drops: word(prng),
        time: time(prng),
    }
}

/// A 32-bit number: small, the largest or any.
fn word(prng: &mut Prng) -> u32 {
    let any = prng.bits() as u32;
    prng.pick(&[any % 4, any % 4, any, u32::MAX])
}

/// A time: this century's, near C, near the first not refused, or any.
fn time(prng: &mut Prng) -> i64 {
    let any = prng.bits() as i64;
    let near = any % 2_000_000;
    prng.pick(&[
        YEAR_2000 + any.rem_euclid(1 << 50),
        UNIX_EPOCH + near,
        i64::MIN + UNIX_EPOCH + near,
        any,
    ])
}
