//! The LE link-layer pseudo-header (link type 256): reading and writing.

use crate::output::room;
use crate::refusal::{Reason, Refusal};

#[cfg(test)]
mod tests;

/// Octets of the pseudo-header.
pub const HEADER: usize = 10;

/// The highest RF channel.
pub const LAST_RF_CHANNEL: u8 = 39;

/// The flags that tell a value as known.
const SIGNAL_KNOWN: u16 = 0x0002;
const NOISE_KNOWN: u16 = 0x0004;
const REFERENCE_KNOWN: u16 = 0x0010;
const OFFENCES_KNOWN: u16 = 0x0020;

/// The PDU type and the PHY that are reserved.
const RESERVED_PDU_TYPE: u8 = 7;
const RESERVED_PHY: u8 = 3;

/// The coded PHY, whose packets carry a coding indicator behind the access address.
const CODED_PHY: u8 = 2;

/// Octets of an access address and of a coding indicator.
const ACCESS_ADDRESS: usize = 4;
const CODING_INDICATOR: usize = 1;

/// The places of the RF channel and of the flags in the pseudo-header.
const RF_CHANNEL_PLACE: usize = 0;
const FLAGS_PLACE: usize = 8;

/// The values of a pseudo-header, all that its ten octets hold.
#[derive(Clone, Copy, Debug, PartialEq, Eq)]
pub struct Values {
    pub rf_channel: u8,
    pub signal: i8,
    pub noise: i8,
    pub offences: u8,
    pub reference: u32,
    pub flags: u16,
}

/// A pseudo-header and its packet, which is a part of the input.
#[derive(Clone, Copy, Debug, PartialEq, Eq)]
pub struct Reading<'a> {
    pub values: Values,
    pub packet: &'a [u8],
}

impl Values {
    /// The values in ten octets.
    fn from_octets(octets: [u8; HEADER]) -> Self {
        let [rf_channel, signal, noise, offences, r0, r1, r2, r3, low, high] = octets;
        Values {
            rf_channel,
            signal: i8::from_le_bytes([signal]),
            noise: i8::from_le_bytes([noise]),
            offences,
            reference: u32::from_le_bytes([r0, r1, r2, r3]),
            flags: u16::from_le_bytes([low, high]),
        }
    }

    /// The ten octets of the values.
    fn octets(&self) -> [u8; HEADER] {
        let [r0, r1, r2, r3] = self.reference.to_le_bytes();
        let [low, high] = self.flags.to_le_bytes();
        let [signal] = self.signal.to_le_bytes();
        let [noise] = self.noise.to_le_bytes();
        let (rf_channel, offences) = (self.rf_channel, self.offences);
        [
            rf_channel, signal, noise, offences, r0, r1, r2, r3, low, high,
        ]
    }

    /// A part of the flags: so many bits from one on.
    fn part(&self, bit: u32, bits: u32) -> u8 {
        (self.flags >> bit & ((1 << bits) - 1)) as u8
    }

    /// The PDU type, counted from 0.
    pub fn pdu_type(&self) -> u8 {
        self.part(7, 3)
    }

    /// The PHY, counted from 0.
    pub fn phy(&self) -> u8 {
        self.part(14, 2)
    }

    /// The bits that depend on the PDU type: the auxiliary kind for type 1,
    /// otherwise MIC checked (bit 0) and MIC passed (bit 1).
    pub fn dependent(&self) -> u8 {
        self.part(12, 2)
    }

    /// Signal, noise, reference address and offences, each as known or not.
    pub fn known(&self) -> [bool; 4] {
        [SIGNAL_KNOWN, NOISE_KNOWN, REFERENCE_KNOWN, OFFENCES_KNOWN]
            .map(|flag| self.flags & flag != 0)
    }

    /// The fewest octets of a packet.
    fn shortest_packet(&self) -> usize {
        match self.phy() {
            CODED_PHY => ACCESS_ADDRESS + CODING_INDICATOR,
            _ => ACCESS_ADDRESS,
        }
    }

    /// Judges values and packet, in the order of the rules.
    fn judge(&self, packet: &[u8]) -> Result<(), Refusal> {
        if self.rf_channel > LAST_RF_CHANNEL {
            Err(Reason::RfChannel.at(RF_CHANNEL_PLACE))
        } else if self.pdu_type() == RESERVED_PDU_TYPE {
            Err(Reason::ReservedPduType.at(FLAGS_PLACE))
        } else if self.phy() == RESERVED_PHY {
            Err(Reason::ReservedPhy.at(FLAGS_PLACE))
        } else if packet.len() < self.shortest_packet() {
            Err(Reason::ShortPacket.at(HEADER))
        } else {
            Ok(())
        }
    }
}

/// Reads a pseudo-header; the packet is the rest of the input.
pub fn read(input: &[u8]) -> Result<Reading<'_>, Refusal> {
    let Some((header, packet)) = input.split_first_chunk::<HEADER>() else {
        return Err(Reason::ShortHeader.at(input.len()));
    };
    let values = Values::from_octets(*header);
    values.judge(packet)?;
    Ok(Reading { values, packet })
}

/// Writes a pseudo-header and its packet at a place; the answer is the place behind them.
pub fn write(
    output: &mut [u8],
    place: usize,
    values: &Values,
    packet: &[u8],
) -> Result<usize, Refusal> {
    // A writer's refusal has place 0.
    let judged = values.judge(packet);
    judged.map_err(|refusal| refusal.reason.at(0))?;
    let length = HEADER + packet.len();
    let (header, rest) = room(output, place, length)?.split_at_mut(HEADER);
    header.copy_from_slice(&values.octets());
    rest.copy_from_slice(packet);
    Ok(place + length)
}
