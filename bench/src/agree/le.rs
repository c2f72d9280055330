//! LE: both give the same answers.

use super::{damage, DAMAGED};
use crate::library;
use crate::made;
use crate::plain::le::{self as plain, Reading};
use crate::plain::Refusal;
use random::prng::Prng;

/// The answer as the library gives it.
fn reading(input: &[u8], answer: Result<Reading, Refusal>) -> library::Le {
    match answer {
        Ok(reading) => library::Le {
            kind: library::VALUES,
            rf_channel: reading.rf_channel.into(),
            signal: reading.signal.into(),
            noise: reading.noise.into(),
            offences: reading.offences.into(),
            reference: reading.reference.into(),
            flags: reading.flags.into(),
            known: reading.known.into(),
            pdu_type: reading.pdu_type.into(),
            phy: reading.phy.into(),
            dependent: reading.dependent.into(),
            packet: (input.len() - reading.packet.len()) as u64,
            ..Default::default()
        },
        Err(refusal) => library::Le {
            number: refusal.number.into(),
            place: refusal.place as u64,
            ..Default::default()
        },
    }
}

/// Both answer an input alike.
pub fn input(input: &[u8]) {
    assert_eq!(library::le_read(input), reading(input, plain::read(input)));
}

/// Both answer damaged packets alike.
pub fn damaged(prng: &mut Prng) {
    for _ in 0..DAMAGED {
        let mut octets = made::le_packet(prng);
        if prng.one_in(2) {
            octets.truncate(10 + prng.below(8));
        }
        if prng.one_in(2) {
            octets[8..10].copy_from_slice(&(prng.bits() as u16).to_le_bytes());
        }
        damage(prng, &mut octets);
        input(&octets);
    }
}
