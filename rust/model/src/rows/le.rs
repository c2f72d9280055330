//! The row of the LE reader.

use super::{refused, row, VALUES};
use crate::le::{Reading, HEADER};
use crate::refusal::Refusal;

/// rf_channel, signal, noise, offences, reference, flags, known, pdu_type, phy, dependent, packet
pub fn reading(answer: &Result<Reading, Refusal>) -> [u64; 14] {
    let values = match answer {
        Ok(reading) => reading.values,
        Err(refusal) => return refused(*refusal, &[]),
    };
    let bits = [1, 2, 4, 8].into_iter().zip(values.known());
    let known = bits.filter(|(_, known)| *known).map(|(bit, _)| bit).sum();
    row(
        VALUES,
        &[
            values.rf_channel.into(),
            values.signal as u64,
            values.noise as u64,
            values.offences.into(),
            values.reference.into(),
            values.flags.into(),
            known,
            values.pdu_type().into(),
            values.phy().into(),
            values.dependent().into(),
            HEADER as u64,
        ],
    )
}
