//! LE packets: made into a file, and as the library reads them.

use crate::library;
use crate::pcap;
use random::prng::Prng;
use std::fmt::Display;
use std::fs;
use std::path::Path;

/// How many packets.
const PACKETS: usize = 1000;

/// The bits of `known`.
const SIGNAL: u64 = 1;
const NOISE: u64 = 2;
const REFERENCE: u64 = 4;
const OFFENCES: u64 = 8;

/// A packet that is accepted: any values, an access address and ten octets or more.
fn packet(prng: &mut Prng) -> Vec<u8> {
    let length = 24 + prng.below(30);
    let mut octets = prng.octets(length);
    octets[0] %= 40;
    let (pdu_type, phy) = (prng.below(7) as u16, prng.below(3) as u16);
    let flags = prng.bits() as u16 & 0x3C7F | pdu_type << 7 | phy << 14;
    octets[8..10].copy_from_slice(&flags.to_le_bytes());
    octets
}

/// The library's reading in tshark's words: a value not known is left out.
fn line(number: usize, packet: &[u8]) -> String {
    let le = library::le_read(packet);
    let known = |bit, value: &dyn Display| match le.known & bit {
        0 => String::new(),
        _ => value.to_string(),
    };
    let words = [
        number.to_string(),
        le.rf_channel.to_string(),
        known(SIGNAL, &le.signal),
        known(NOISE, &le.noise),
        known(OFFENCES, &le.offences),
        known(REFERENCE, &format!("0x{:08x}", le.reference)),
        format!("0x{:04x}", le.flags),
        le.pdu_type.to_string(),
        le.phy.to_string(),
    ];
    words.join("\t") + "\n"
}

/// Writes packets into a pcap file, and the library's readings of them beside it.
pub fn write(file: &Path) -> std::io::Result<()> {
    let prng = &mut Prng::new(1);
    let packets: Vec<_> = (0..PACKETS).map(|_| packet(prng)).collect();
    fs::write(file, pcap::write(pcap::LE, &packets))?;
    let numbered = packets.iter().enumerate();
    let lines: String = numbered
        .map(|(index, packet)| line(index + 1, packet))
        .collect();
    fs::write(file.with_extension("lines"), lines)
}
