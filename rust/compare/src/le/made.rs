//! Inputs: valid pseudo-headers, damaged ones and noise; and what a writer is given.

use model::le::Values;
use random::damage::{add_octets, change_octet, cut};
use random::prng::Prng;

/// Octets of the pseudo-header.
pub const HEADER: usize = 10;

/// Flags: any that are valid.
fn valid_flags(prng: &mut Prng) -> u16 {
    let others = prng.bits() as u16 & 0x3C7F;
    let pdu_type = prng.below(7) as u16;
    let phy = prng.below(3) as u16;
    others | pdu_type << 7 | phy << 14
}

/// The values of a valid pseudo-header.
pub fn valid_values(prng: &mut Prng) -> Values {
    Values {
        rf_channel: prng.below(40) as u8,
        signal: prng.bits() as i8,
        noise: prng.bits() as i8,
        offences: prng.bits() as u8,
        reference: prng.bits() as u32,
        flags: valid_flags(prng),
    }
}

/// Any values: valid mostly.
pub fn values(prng: &mut Prng) -> Values {
    let mut values = valid_values(prng);
    match prng.below(8) {
        0 => values.rf_channel = prng.pick(&[39, 40, 41, 127, 128, 255]),
        1 => values.rf_channel = prng.bits() as u8,
        2 => values.flags = prng.bits() as u16,
        3 => values.flags |= prng.pick(&[0x0380, 0xC000, 0xC380]),
        _ => {}
    }
    values
}

/// A packet that is long enough for valid values.
pub fn valid_packet(prng: &mut Prng, values: &Values) -> Vec<u8> {
    let shortest = if values.flags >> 14 == 2 { 5 } else { 4 };
    let more = prng.pick(&[0, 0, 1, 2, 30, 260]);
    prng.octets(shortest + more)
}

/// A packet: around the shortest mostly.
pub fn packet(prng: &mut Prng) -> Vec<u8> {
    let length = match prng.below(8) {
        0 => 0,
        1 => prng.below(40),
        _ => 3 + prng.below(4),
    };
    prng.octets(length)
}

/// The octets of a pseudo-header and its packet.
pub fn octets(values: &Values, packet: &[u8]) -> Vec<u8> {
    let first = [values.rf_channel, values.signal as u8, values.noise as u8];
    let mut octets = first.to_vec();
    octets.push(values.offences);
    octets.extend(values.reference.to_le_bytes());
    octets.extend(values.flags.to_le_bytes());
    octets.extend(packet);
    octets
}

/// A valid input.
fn valid(prng: &mut Prng) -> Vec<u8> {
    let values = valid_values(prng);
    let packet = valid_packet(prng, &values);
    octets(&values, &packet)
}

/// Any input: valid, with any values, damaged or noise.
pub fn input(prng: &mut Prng) -> Vec<u8> {
    match prng.below(8) {
        0 => {
            let length = prng.below(24);
            prng.octets(length)
        }
        1 | 2 => valid(prng),
        3 | 4 => {
            let values = values(prng);
            let packet = packet(prng);
            octets(&values, &packet)
        }
        _ => {
            let mut octets = valid(prng);
            damage(prng, &mut octets);
            octets
        }
    }
}

/// Damages an input in one place.
fn damage(prng: &mut Prng, octets: &mut Vec<u8>) {
    match prng.below(4) {
        0 => cut(prng, octets),
        1 => add_octets(prng, octets),
        2 => change_octet(prng, octets),
        _ => {
            let length = octets.len().min(HEADER);
            change_octet(prng, &mut octets[..length]);
        }
    }
}
