//! What is written is read again, and what is read is written again.

mod made;

use made::{file, p3, table};
use zalghimo::le::{self, AuxiliaryKind, Dependent, Packet, PduType, Phy, Values};
use zalghimo::radiotap::{self, Ending, Field, Fields, Header, Words};
use zalghimo::{push_header, push_record, write_header, write_record, Capture};

#[test]
fn a_capture_is_written_to_its_own_octets() {
    for octets in [p3(), file(&[])] {
        let capture = Capture::new(&octets).expect("accepted");
        let mut copy = Vec::new();
        push_header(&mut copy, capture.datalink()).expect("written");
        let mut output = vec![0xEE; octets.len() + 1];
        let mut place = write_header(&mut output, 0, capture.datalink()).expect("written");
        for record in capture.records() {
            let record = record.expect("whole");
            push_record(&mut copy, record.fields(), record.packet()).expect("written");
            place = write_record(&mut output, place, record.fields(), record.packet())
                .expect("written");
        }
        assert_eq!(copy, octets);
        assert_eq!(
            (&output[..place], &output[place..]),
            (&octets[..], &[0xEE][..])
        );
    }
}

#[test]
fn radiotap_fields_come_out_as_written() {
    let table = table();
    let all: u32 = table.iter().map(|row| 1 << row.bit).sum();
    for presence in [0, 1, 0x2F, 0x0010_0002, 0x0028_4421, all] {
        let chosen = table.iter().filter(|row| presence >> row.bit & 1 == 1);
        let count: usize = chosen.clone().map(|row| row.size).sum();
        let values: Vec<u8> = (0..count).map(|index| 200 + index as u8 % 50).collect();
        let mut octets = vec![0xEE; 3];
        radiotap::push(&mut octets, 3, presence, &values).expect("written");
        octets.extend([0xD4, 0x00]);

        let header = Header::read(&octets[3..], 3).expect("accepted");
        assert!(header
            .fields()
            .map(|field| field.bit())
            .eq(chosen.map(|row| row.bit)));
        let read: Vec<u8> = header
            .fields()
            .flat_map(|field| field.octets().to_vec())
            .collect();
        assert_eq!(read, values);
        assert_eq!((header.ending(), header.pad()), (Ending::End, 0));
        assert!(header.words().eq([presence]));
        assert_eq!(header.frame(), [0xD4, 0x00]);

        let mut again = vec![0; header.length()];
        let end = radiotap::write(&mut again, 0, 3, presence, &read).expect("written");
        assert_eq!((end, &again[..]), (header.length(), &octets[3..3 + end]));
    }
}

/// The fields and the words of a header that is read here and left behind.
fn parts(octets: &[u8]) -> (Fields<'_>, Words<'_>) {
    let header = Header::read(octets, 1).expect("accepted");
    (header.fields(), header.words())
}

#[test]
fn fields_and_words_are_walked_from_both_ends() {
    let octets = made::radiotap(&[0xA000_0001, 0x0000_0020], 25);
    let (fields, words) = parts(&octets);
    assert_eq!((fields.len(), words.len()), (2, 2));
    let starts = |field: Field| field.start();
    assert!(fields.clone().map(starts).eq([16, 24]));
    assert!(fields.rev().map(starts).eq([24, 16]));
    assert!(words.clone().eq([0xA000_0001, 0x0000_0020]));
    assert!(words.rev().eq([0x0000_0020, 0xA000_0001]));

    let (mut fields, mut words) = parts(&octets);
    assert_eq!(
        (fields.nth(1).map(starts), words.nth(1)),
        (Some(24), Some(0x20))
    );
    assert!(fields.next().is_none() && fields.next_back().is_none() && fields.next().is_none());
    assert!(words.next().is_none() && words.next_back().is_none() && words.next().is_none());
}

#[test]
fn headers_are_walked_by_reference_and_by_value() {
    let octets = made::radiotap(&[0x0000_002F], 23);
    let header = Header::read(&octets, 1).expect("accepted");
    let mut bits = Vec::new();
    for field in &header {
        bits.push(field.bit());
    }
    assert_eq!(bits, [0, 1, 2, 3, 5]);
    assert!(header.into_iter().map(|field| field.bit()).eq(bits));
}

#[test]
fn dbm_fields_are_signed() {
    let mut octets = Vec::new();
    radiotap::push(&mut octets, 1, 0x0462, &[0x80, 0x80, 0xFF, 0x14]).expect("written");
    let header = Header::read(&octets, 0).expect("accepted");
    let values: Vec<_> = header.fields().map(|field| field.dbm()).collect();
    assert_eq!(values, [None, Some(-128), Some(-1), Some(20)]);
    let names: Vec<_> = header.fields().map(|field| field.name()).collect();
    assert_eq!(
        names,
        ["Flags", "Antenna signal", "Antenna noise", "dBm TX power"]
    );
    assert!(header.fields().all(|field| field.word() == 0));
}

#[test]
fn le_octets_are_kept() {
    let octets: Vec<u8> = vec![39, 0x80, 0xFF, 9, 1, 2, 3, 4, 0x7E, 0x28, 5, 6, 7, 8, 9];
    let read = Packet::read(&octets).expect("accepted");
    assert_eq!((read.signal(), read.noise()), (Some(-128), Some(-1)));
    assert_eq!(read.reference_address(), Some(0x0403_0201));
    assert_eq!((read.offences(), read.flags()), (Some(9), 0x287E));
    assert_eq!(
        (read.pdu_type(), read.phy()),
        (PduType::AdvertisingOrData, Phy::OneM)
    );
    let mut copy = Vec::new();
    le::push(&mut copy, read.values(), read.packet()).expect("written");
    assert_eq!(copy, octets);
}

#[test]
fn le_values_are_known_or_not() {
    for pdu_type in PduType::ALL {
        for phy in Phy::ALL {
            let values = Values {
                rf_channel: 7,
                flags: 0x3000,
                ..Default::default()
            };
            let values = values.with_pdu_type(pdu_type).with_phy(phy);
            let values = values.with_noise(Some(-90)).with_offences(Some(3));
            let values = values.with_signal(Some(1)).with_signal(None);
            let values = values.with_reference_address(Some(0x8E89_BED6));
            let mut octets = Vec::new();
            le::push(&mut octets, &values, &[1, 2, 3, 4, 5]).expect("written");
            let read = Packet::read(&octets).expect("accepted");
            assert_eq!((read.pdu_type(), read.phy()), (pdu_type, phy));
            assert_eq!((read.signal(), read.noise()), (None, Some(-90)));
            assert_eq!(read.offences(), Some(3));
            assert_eq!(read.reference_address(), Some(0x8E89_BED6));
            assert_eq!(read.packet(), [1, 2, 3, 4, 5]);
            let dependent = match pdu_type {
                PduType::AuxiliaryAdvertising => {
                    Dependent::AuxiliaryKind(AuxiliaryKind::ScanResponse)
                }
                _ => Dependent::Mic {
                    checked: true,
                    passed: true,
                },
            };
            assert_eq!(read.dependent(), dependent);
        }
    }
}

/// Flags that say this for a PDU type, every other bit set that may be, and what is read of them.
fn dependent(pdu_type: PduType, dependent: Dependent) -> (u16, Dependent) {
    let values = Values {
        flags: 0xBFFF,
        ..Default::default()
    };
    let values = values.with_pdu_type(pdu_type).with_dependent(dependent);
    let mut octets = Vec::new();
    le::push(&mut octets, &values, &[0; 5]).expect("written");
    let read = Packet::read(&octets).expect("accepted");
    assert_eq!((read.flags(), read.pdu_type()), (values.flags, pdu_type));
    (values.flags, read.dependent())
}

#[test]
fn le_bits_12_and_13_are_the_auxiliary_kind_for_type_1() {
    for (number, kind) in (0..).zip(AuxiliaryKind::ALL) {
        let kind = Dependent::AuxiliaryKind(kind);
        let flags = 0x8CFF | number << 12;
        let read = dependent(PduType::AuxiliaryAdvertising, kind);
        assert_eq!(read, (flags, kind));
    }
}

#[test]
fn le_bits_12_and_13_are_the_mic_for_other_types() {
    let others = PduType::ALL
        .into_iter()
        .filter(|pdu_type| *pdu_type as u16 != 1);
    for pdu_type in others {
        for (checked, passed) in [(false, false), (true, false), (false, true), (true, true)] {
            let mic = Dependent::Mic { checked, passed };
            let bits = if checked { 0x1000 } else { 0 } | if passed { 0x2000 } else { 0 };
            let flags = 0x8C7F | (pdu_type as u16) << 7 | bits;
            assert_eq!(dependent(pdu_type, mic), (flags, mic));
        }
    }
}
