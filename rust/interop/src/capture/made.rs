//! Packets of HCI, made from a seed, and the captures that the library writes of them.

use crate::library::{self, Values};
use random::prng::Prng;
use std::time::{SystemTime, UNIX_EPOCH};

/// The datalink codes: HCI without and with a packet type octet.
pub const H1: u32 = 1001;
pub const H4: u32 = 1002;

/// Bits of the flags.
const RECEIVED: u32 = 1;
const COMMAND_OR_EVENT: u32 = 2;

/// The first second of 2000, in Unix time.
const YEAR_2000: i64 = 946_684_800;

/// The packet types of HCI.
pub const COMMAND: u8 = 1;
pub const ACL_DATA: u8 = 2;
pub const EVENT: u8 = 4;

/// A packet to be written.
pub struct Packet {
    pub kind: u8,
    pub received: bool,
    pub seconds: i64,
    pub microseconds: u32,
    pub drops: u32,
    pub original: usize,
    /// The octets included, without the packet type.
    pub octets: Vec<u8>,
}

/// A packet's octets: a reset, its end, or data of one L2CAP frame on a free channel.
fn octets(prng: &mut Prng, kind: u8) -> Vec<u8> {
    if kind == COMMAND {
        return vec![0x03, 0x0C, 0x00];
    }
    if kind == EVENT {
        return vec![0x0E, 0x04, 0x01, 0x03, 0x0C, 0x00];
    }
    let count = prng.below(200);
    let data = prng.octets(count);
    let mut octets = vec![0x01, 0x20];
    octets.extend((count as u16 + 4).to_le_bytes());
    octets.extend((count as u16).to_le_bytes());
    octets.extend([0x40, 0x00]);
    octets.extend(data);
    octets
}

/// So many packets, the first half in 2000 and the rest up to now; truncated ones only where asked for.
pub fn packets(prng: &mut Prng, count: usize, truncated: bool) -> Vec<Packet> {
    let now = SystemTime::now().duration_since(UNIX_EPOCH);
    let now = now.map_or(YEAR_2000, |now| now.as_secs() as i64);
    let mut drops = 0;
    let packet = |index| {
        let (kind, received) = prng.pick(&[
            (COMMAND, false),
            (EVENT, true),
            (ACL_DATA, false),
            (ACL_DATA, true),
        ]);
        let mut octets = octets(prng, kind);
        let original = octets.len();
        if truncated && prng.one_in(3) {
            octets.truncate(prng.below(original));
        }
        drops += prng.below(3) as u32;
        let microseconds = prng.below(1_000_000) as u32;
        let seconds = if index < count / 2 {
            YEAR_2000 + index as i64
        } else {
            now - (count - index) as i64
        };
        Packet {
            kind,
            received,
            seconds,
            microseconds: prng.pick(&[0, 1, 999_999, microseconds]),
            drops,
            original,
            octets,
        }
    };
    (0..count).map(packet).collect()
}

/// The octets that a capture holds of a packet.
fn included(packet: &Packet, datalink: u32) -> Vec<u8> {
    let mut octets = packet.octets.clone();
    if datalink == H4 {
        octets.insert(0, packet.kind);
    }
    octets
}

/// A capture of these packets, written by the library.
pub fn capture(packets: &[Packet], datalink: u32) -> Vec<u8> {
    let room = packets.iter().map(|packet| 25 + packet.octets.len());
    let mut output = vec![0; 16 + room.sum::<usize>()];
    let mut place = library::write_header(&mut output, 0, datalink).next as usize;
    for packet in packets {
        let time = library::write_time(packet.seconds, packet.microseconds);
        let command = u32::from(packet.kind != ACL_DATA) * COMMAND_OR_EVENT;
        let received = u32::from(packet.received) * RECEIVED;
        let octets = included(packet, datalink);
        let values = Values {
            original: (octets.len() - packet.octets.len() + packet.original) as u32,
            flags: command | received,
            drops: packet.drops,
            time: time.field,
        };
        place = library::write_record(&mut output, place, &values, &octets).next as usize;
    }
    output.truncate(place);
    output
}
