//! The paper's examples, the flags, and the order of refusals.

use super::*;

/// Fourteen octets, all 0.
const ZEROS: [u8; 14] = [0; 14];

const SAMPLE: Values = Values {
    rf_channel: 39,
    signal: -128,
    noise: -1,
    offences: 200,
    reference: 0x8E89_BED6,
    flags: 0x2C37,
};

/// An input with these flags and a packet of zeros.
fn with_flags(flags: u16, packet: usize) -> Vec<u8> {
    let mut octets = vec![0; HEADER + packet];
    octets[8..10].copy_from_slice(&flags.to_le_bytes());
    octets
}

#[test]
fn p12_channel_40() {
    let mut octets = ZEROS;
    octets[0] = 40;
    assert_eq!(read(&octets), Err(Reason::RfChannel.at(0)));
    octets[0] = 39;
    assert!(read(&octets).is_ok());
}

#[test]
fn p13_phy_3() {
    let octets = with_flags(0xC000, 4);
    assert_eq!(octets.len(), 14);
    assert_eq!(read(&octets), Err(Reason::ReservedPhy.at(8)));
}

#[test]
fn ten_octets() {
    let octets = [39, 0x80, 0xFF, 200, 0xD6, 0xBE, 0x89, 0x8E, 0x37, 0x2C];
    let input = [&octets[..], &[1, 2, 3, 4]].concat();
    let reading = read(&input).unwrap();
    assert_eq!(reading.values, SAMPLE);
    assert_eq!(reading.packet, [1, 2, 3, 4]);
    assert_eq!(SAMPLE.octets(), octets);
}

#[test]
fn flag_parts() {
    for pdu_type in 0..7 {
        let values = read(&with_flags(pdu_type << 7, 4)).unwrap().values;
        assert_eq!(u16::from(values.pdu_type()), pdu_type);
        assert_eq!((values.phy(), values.dependent()), (0, 0));
    }
    for phy in 0..3 {
        let values = read(&with_flags(phy << 14, 5)).unwrap().values;
        assert_eq!(u16::from(values.phy()), phy);
    }
    for dependent in 0..4 {
        let values = read(&with_flags(dependent << 12, 4)).unwrap().values;
        assert_eq!(u16::from(values.dependent()), dependent);
    }
    let reserved = Err(Reason::ReservedPduType.at(8));
    assert_eq!(read(&with_flags(7 << 7, 4)), reserved);
}

#[test]
fn known_values() {
    let known = |flags| Values { flags, ..SAMPLE }.known();
    assert_eq!(known(0x0002), [true, false, false, false]);
    assert_eq!(known(0x0004), [false, true, false, false]);
    assert_eq!(known(0x0010), [false, false, true, false]);
    assert_eq!(known(0x0020), [false, false, false, true]);
    assert_eq!(known(!0x0036), [false; 4]);
}

#[test]
fn shortest_packets() {
    for (phy, shortest) in [(0, 4), (1, 4), (2, 5)] {
        let short = with_flags(phy << 14, shortest - 1);
        assert_eq!(read(&short), Err(Reason::ShortPacket.at(10)));
        assert!(read(&with_flags(phy << 14, shortest)).is_ok());
    }
}

#[test]
fn refusals_in_order() {
    let mut octets = with_flags(0xC380, 3);
    octets[0] = 255;
    assert_eq!(read(&octets[..9]), Err(Reason::ShortHeader.at(9)));
    assert_eq!(read(&octets), Err(Reason::RfChannel.at(0)));
    octets[0] = 0;
    assert_eq!(read(&octets), Err(Reason::ReservedPduType.at(8)));
    octets[8] = 0;
    assert_eq!(read(&octets), Err(Reason::ReservedPhy.at(8)));
    octets[8..10].fill(0);
    assert_eq!(read(&octets), Err(Reason::ShortPacket.at(10)));
    assert_eq!(read(&[]), Err(Reason::ShortHeader.at(0)));
}

#[test]
fn written_is_read_back() {
    let mut output = [0xAA; 20];
    assert_eq!(write(&mut output, 2, &SAMPLE, &[1, 2, 3, 4]), Ok(16));
    let reading = read(&output[2..16]).unwrap();
    assert_eq!(
        (reading.values, reading.packet),
        (SAMPLE, &[1, 2, 3, 4][..])
    );
    assert_eq!([&output[..2], &output[16..]].concat(), [0xAA; 6]);
}

#[test]
fn writer_refuses() {
    let mut output = [7; 13];
    let mut refused = |values, packet: &[u8]| write(&mut output, 99, &values, packet);
    let all = Values {
        rf_channel: 40,
        flags: 0xC380,
        ..SAMPLE
    };
    assert_eq!(refused(all, &[]), Err(Reason::RfChannel.at(0)));
    for (flags, reason) in [
        (0xC380, Reason::ReservedPduType),
        (0x0380, Reason::ReservedPduType),
        (0xC000, Reason::ReservedPhy),
    ] {
        let values = Values { flags, ..SAMPLE };
        assert_eq!(refused(values, &[]), Err(reason.at(0)));
    }
    let short = Err(Reason::ShortPacket.at(0));
    assert_eq!(refused(SAMPLE, &[0; 3]), short);
    assert_eq!(refused(SAMPLE, &[0; 4]), Err(Reason::NoRoom.at(0)));
    let coded = Values {
        flags: 0x8000,
        ..SAMPLE
    };
    assert_eq!(refused(coded, &[0; 4]), short);
    let no_room = write(&mut output, 0, &SAMPLE, &[0; 4]);
    assert_eq!(no_room, Err(Reason::NoRoom.at(0)));
    assert_eq!(output, [7; 13]);
}
