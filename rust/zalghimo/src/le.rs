//! The LE pseudo-header (link type 256): ten octets before an LE packet.
//!
//! ```
//! use zalghimo::le::{self, Packet, Values};
//!
//! let values = Values { rf_channel: 12, ..Default::default() }.with_signal(Some(-60));
//! let mut octets = Vec::new();
//! le::push(&mut octets, &values, &[0xD6, 0xBE, 0x89, 0x8E, 0x00, 0x00])?;
//!
//! let read = Packet::read(&octets)?;
//! assert_eq!((read.rf_channel(), read.signal(), read.noise()), (12, Some(-60), None));
//! # Ok::<(), zalghimo::Refusal>(())
//! ```

mod kinds;

pub use kinds::{AuxiliaryKind, Dependent, PduType, Phy};

use crate::answer::{accepted, place_after};
#[cfg(doc)]
use crate::Reason;
use crate::{write, Refusal};

/// Octets of the pseudo-header.
const HEADER: usize = 10;

/// The flags that say that a value is known.
const SIGNAL: u16 = 0x0002;
const NOISE: u16 = 0x0004;
const REFERENCE_ADDRESS: u16 = 0x0010;
const OFFENCES: u16 = 0x0020;

/// The pseudo-header's values as its ten octets hold them. The flags alone say which are known.
#[derive(Clone, Copy, Debug, Default, PartialEq, Eq, Hash)]
pub struct Values {
    /// RF channel, 0 to 39.
    pub rf_channel: u8,
    /// Signal in dBm.
    pub signal: i8,
    /// Noise in dBm.
    pub noise: i8,
    /// Offences against the access address.
    pub offences: u8,
    /// Reference access address.
    pub reference_address: u32,
    /// Flags, all 16 bits.
    pub flags: u16,
}

impl Values {
    /// With this signal in dBm and its flag set, or 0 and the flag clear.
    pub fn with_signal(mut self, signal: Option<i8>) -> Values {
        self.signal = signal.unwrap_or_default();
        self.with_flag(SIGNAL, signal.is_some())
    }

    /// With this noise in dBm and its flag set, or 0 and the flag clear.
    pub fn with_noise(mut self, noise: Option<i8>) -> Values {
        self.noise = noise.unwrap_or_default();
        self.with_flag(NOISE, noise.is_some())
    }

    /// With these offences and their flag set, or 0 and the flag clear.
    pub fn with_offences(mut self, offences: Option<u8>) -> Values {
        self.offences = offences.unwrap_or_default();
        self.with_flag(OFFENCES, offences.is_some())
    }

    /// With this reference access address and its flag set, or 0 and the flag clear.
    pub fn with_reference_address(mut self, address: Option<u32>) -> Values {
        self.reference_address = address.unwrap_or_default();
        self.with_flag(REFERENCE_ADDRESS, address.is_some())
    }

    /// With this PDU type in the flags.
    pub fn with_pdu_type(mut self, pdu_type: PduType) -> Values {
        self.flags = self.flags & !(0b111 << 7) | (pdu_type as u16) << 7;
        self
    }

    /// With flags bits 12 and 13 that say this. The PDU type, which decides how they are read, stays as it is.
    pub fn with_dependent(mut self, dependent: Dependent) -> Values {
        self.flags = self.flags & !(0b11 << 12) | u16::from(dependent.bits()) << 12;
        self
    }

    /// With this PHY in the flags.
    pub fn with_phy(mut self, phy: Phy) -> Values {
        self.flags = self.flags & !(0b11 << 14) | (phy as u16) << 14;
        self
    }

    fn with_flag(mut self, flag: u16, set: bool) -> Values {
        self.flags = self.flags & !flag | if set { flag } else { 0 };
        self
    }
}

/// An LE packet and what its pseudo-header tells.
#[derive(Clone, Copy, Debug, PartialEq, Eq, Hash)]
pub struct Packet<'a> {
    values: Values,
    known: u8,
    pdu_type: PduType,
    phy: Phy,
    dependent: Dependent,
    packet: &'a [u8],
}

impl<'a> Packet<'a> {
    /// Reads a pseudo-header and the packet behind it.
    ///
    /// # Errors
    ///
    /// In this order: [`Reason::ShortHeader`], [`Reason::RfChannel`], [`Reason::ReservedPduType`],
    /// [`Reason::ReservedPhy`]; [`Reason::ShortPacket`] for a packet of less than 4 octets, 5 for [`Phy::Coded`].
    pub fn read(octets: &'a [u8]) -> Result<Packet<'a>, Refusal> {
        let answer = zalghimo_sys::le::read(octets);
        accepted(answer.head())?;
        let pdu_type = PduType::ALL[answer.pdu_type as usize];
        Ok(Packet {
            values: Values {
                rf_channel: answer.rf_channel as u8,
                signal: answer.signal as i8,
                noise: answer.noise as i8,
                offences: answer.offences as u8,
                reference_address: answer.reference as u32,
                flags: answer.flags as u16,
            },
            known: answer.known as u8,
            pdu_type,
            phy: Phy::ALL[answer.phy as usize],
            dependent: Dependent::of(pdu_type, answer.dependent as u8),
            packet: &octets[answer.packet as usize..],
        })
    }

    /// The values as the ten octets hold them, with which [`write`](write()) writes them again.
    pub fn values(&self) -> &Values {
        &self.values
    }

    /// RF channel, 0 to 39.
    pub fn rf_channel(&self) -> u8 {
        self.values.rf_channel
    }

    /// Signal in dBm, where known.
    pub fn signal(&self) -> Option<i8> {
        self.is_known(0).then_some(self.values.signal)
    }

    /// Noise in dBm, where known.
    pub fn noise(&self) -> Option<i8> {
        self.is_known(1).then_some(self.values.noise)
    }

    /// Reference access address, where known.
    pub fn reference_address(&self) -> Option<u32> {
        self.is_known(2).then_some(self.values.reference_address)
    }

    /// Offences against the access address, where known.
    pub fn offences(&self) -> Option<u8> {
        self.is_known(3).then_some(self.values.offences)
    }

    /// Flags, all 16 bits.
    pub fn flags(&self) -> u16 {
        self.values.flags
    }

    /// PDU type.
    pub fn pdu_type(&self) -> PduType {
        self.pdu_type
    }

    /// PHY.
    pub fn phy(&self) -> Phy {
        self.phy
    }

    /// What flags bits 12 and 13 say for this PDU type: for type 1 the auxiliary kind, otherwise MIC checked (bit 12)
    /// and MIC passed (bit 13).
    pub fn dependent(&self) -> Dependent {
        self.dependent
    }

    /// The packet, the rest of the input.
    pub fn packet(&self) -> &'a [u8] {
        self.packet
    }

    fn is_known(&self, bit: u32) -> bool {
        self.known >> bit & 1 == 1
    }
}

/// Writes a pseudo-header and its packet into an output at a place and answers the place after them.
///
/// An accepted write changes only the octets written: 10 and the packet.
///
/// # Errors
///
/// In this order: [`Reason::RfChannel`], [`Reason::ReservedPduType`], [`Reason::ReservedPhy`],
/// [`Reason::ShortPacket`], [`Reason::NoRoom`]. Nothing is changed then.
pub fn write(
    output: &mut [u8],
    place: usize,
    values: &Values,
    packet: &[u8],
) -> Result<usize, Refusal> {
    place_after(zalghimo_sys::le::write(
        output,
        place,
        values.rf_channel,
        values.signal,
        values.noise,
        values.offences,
        values.reference_address,
        values.flags,
        packet,
    ))
}

/// As [`write`](write()), at the end of the octets.
///
/// # Errors
///
/// In this order: [`Reason::RfChannel`], [`Reason::ReservedPduType`], [`Reason::ReservedPhy`],
/// [`Reason::ShortPacket`]. The octets are then as before.
pub fn push(octets: &mut Vec<u8>, values: &Values, packet: &[u8]) -> Result<(), Refusal> {
    write::push(octets, HEADER + packet.len(), |output, place| {
        write(output, place, values, packet)
    })
}
