//! The LE pseudo-header: reading.

use super::{refused, Refusal};

/// Octets of the pseudo-header.
const HEADER: usize = 10;

/// The PHY whose packets are longer by one octet.
const CODED_PHY: u8 = 2;

/// The values of a pseudo-header and its packet.
#[derive(Clone, Copy, Debug)]
pub struct Reading<'a> {
    pub rf_channel: u8,
    pub signal: i8,
    pub noise: i8,
    pub offences: u8,
    pub reference: u32,
    pub flags: u16,
    pub known: u8,
    pub pdu_type: u8,
    pub phy: u8,
    pub dependent: u8,
    pub packet: &'a [u8],
}

/// Reads a pseudo-header; the packet is the rest.
pub fn read(input: &[u8]) -> Result<Reading<'_>, Refusal> {
    let Some((header, packet)) = input.split_first_chunk::<HEADER>() else {
        return refused(1, input.len());
    };
    let [rf_channel, signal, noise, offences, r0, r1, r2, r3, low, high] = *header;
    let flags = u16::from_le_bytes([low, high]);
    let (pdu_type, phy) = ((flags >> 7 & 7) as u8, (flags >> 14) as u8);
    if rf_channel > 39 {
        return refused(8, 0);
    }
    if pdu_type == 7 {
        return refused(21, 8);
    }
    if phy == 3 {
        return refused(22, 8);
    }
    if packet.len() < 4 + usize::from(phy == CODED_PHY) {
        return refused(7, HEADER);
    }
    Ok(Reading {
        rf_channel,
        signal: signal as i8,
        noise: noise as i8,
        offences,
        reference: u32::from_le_bytes([r0, r1, r2, r3]),
        flags,
        // Signal and noise are flags bits 1 and 2, reference and offences bits 4 and 5.
        known: (flags >> 1 & 3 | flags >> 2 & 12) as u8,
        pdu_type,
        phy,
        dependent: (flags >> 12 & 3) as u8,
        packet,
    })
}
