//! Questions at the exact ends of every range, asked once.

use super::ask;
use super::made::{self, HEADER};
use crate::places::HUGE;
use crate::Session;
use model::le::Values;

/// Values that are valid and all different.
const SAMPLE: Values = Values {
    rf_channel: 17,
    signal: -70,
    noise: -101,
    offences: 3,
    reference: 0x8E89_BED6,
    flags: 0x0C37,
};

/// All the ends.
pub fn all(session: &mut Session) {
    lengths(session);
    octets(session);
    flags(session);
    write_values(session);
    write_rooms(session);
}

/// Inputs of every length up to 24, for every PHY, and of one octet throughout.
fn lengths(session: &mut Session) {
    for phy in 0..4 {
        let flags = SAMPLE.flags | phy << 14;
        let packet = session.prng.octets(14);
        let input = made::octets(&Values { flags, ..SAMPLE }, &packet);
        for length in 0..=input.len() {
            ask::read(session, &input[..length]);
        }
    }
    for octet in 0..=u8::MAX {
        for length in 0..=16 {
            ask::read(session, &vec![octet; length]);
        }
    }
}

/// Every value of each of the ten octets.
fn octets(session: &mut Session) {
    for place in 0..HEADER {
        for octet in 0..=u8::MAX {
            let mut input = made::octets(&SAMPLE, &[1, 2, 3, 4]);
            input[place] = octet;
            ask::read(session, &input);
        }
    }
}

/// All flags, with packets of 3, 4 and 5 octets.
fn flags(session: &mut Session) {
    for flags in 0..=u16::MAX {
        let values = Values { flags, ..SAMPLE };
        for packet in 3..=5 {
            ask::read(session, &made::octets(&values, &[0xA5; 5][..packet]));
        }
    }
}

/// Every channel, signal, noise and flag bit, with packets around the shortest.
fn write_values(session: &mut Session) {
    let output = session.prng.octets(20);
    for octet in 0..=u8::MAX {
        let values = Values {
            rf_channel: octet,
            signal: octet as i8,
            noise: !octet as i8,
            offences: octet,
            ..SAMPLE
        };
        ask::write(session, &output, 2, &values, &[1, 2, 3, 4]);
        let rf_channel = 0;
        let values = Values {
            rf_channel,
            ..values
        };
        ask::write(session, &output, 2, &values, &[1, 2, 3, 4]);
    }
    for flags in (0..=u16::MAX).step_by(64).chain(0..64) {
        for packet in 3..=5 {
            let values = Values { flags, ..SAMPLE };
            ask::write(session, &output, 1, &values, &[0x5A; 5][..packet]);
        }
    }
}

/// Every room around that of a header and packet, at every place.
fn write_rooms(session: &mut Session) {
    for length in 0..24 {
        let output = session.prng.octets(length);
        for place in (0..26).chain(HUGE) {
            for packet in 3..=6 {
                let packet = session.prng.octets(packet);
                ask::write(session, &output, place, &SAMPLE, &packet);
            }
        }
    }
}
