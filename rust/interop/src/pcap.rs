//! A pcap file of packets.

/// The link types of radiotap and of the LE pseudo-header.
pub const RADIOTAP: u32 = 127;
pub const LE: u32 = 256;

const FILE_HEADER: usize = 24;
const PACKET_HEADER: usize = 16;

/// A file of these packets.
pub fn write(link_type: u32, packets: &[Vec<u8>]) -> Vec<u8> {
    let mut octets = Vec::new();
    octets.extend(0xA1B2_C3D4_u32.to_le_bytes());
    octets.extend([2, 0, 4, 0]);
    octets.extend([0; 8]);
    octets.extend(0x0004_0000_u32.to_le_bytes());
    octets.extend(link_type.to_le_bytes());
    for packet in packets {
        let length = (packet.len() as u32).to_le_bytes();
        octets.extend([[0; 4], [0; 4], length, length].concat());
        octets.extend(packet);
    }
    octets
}

/// The packets of a file that `write` made.
pub fn read(octets: &[u8]) -> Vec<&[u8]> {
    let mut rest = &octets[FILE_HEADER..];
    let mut packets = Vec::new();
    while let Some((header, behind)) = rest.split_first_chunk::<PACKET_HEADER>() {
        let length = u32::from_le_bytes([header[8], header[9], header[10], header[11]]);
        let (packet, behind) = behind.split_at(length as usize);
        packets.push(packet);
        rest = behind;
    }
    packets
}
