//! The examples P1 to P13.

mod made;

use made::{le, p2, p3, radiotap, refused, RESET, YEAR_2000};
use zalghimo::le::Packet;
use zalghimo::radiotap::{Ending, Header};
use zalghimo::{check, drops_between, Capture, Time};

/// Where the fields start that are shown in an edition, and how the reading ends.
fn starts(octets: &[u8], edition: u32) -> (Vec<usize>, Ending) {
    let header = Header::read(octets, edition).expect("accepted");
    let starts = header.fields().map(|field| field.start()).collect();
    (starts, header.ending())
}

#[test]
fn p1_empty() {
    assert_eq!(refused(check(&[])), (1, 0));
    assert_eq!(refused(Capture::new(&[])), (1, 0));
}

#[test]
fn p2_header_alone() {
    let octets = p2();
    let file = check(&octets).expect("accepted");
    assert_eq!((file.datalink, file.records), (1002, 0));
    let capture = Capture::new(&octets).expect("accepted");
    assert_eq!(capture.datalink(), 1002);
    assert_eq!(capture.records().count(), 0);
}

#[test]
fn p3_one_record() {
    let octets = p3();
    assert_eq!(octets.len(), 44);
    assert_eq!(check(&octets).expect("accepted").records, 1);
    let capture = Capture::new(&octets).expect("accepted");
    let records: Vec<_> = capture.records().map(|read| read.expect("whole")).collect();
    assert_eq!(records.len(), 1);
    let record = records[0];
    assert_eq!((record.place(), record.next_place()), (16, 44));
    assert_eq!((record.original_length(), record.included_length()), (4, 4));
    assert_eq!((record.flags(), record.cumulative_drops()), (2, 0));
    assert!(record.is_command() && !record.is_received());
    assert_eq!(record.time_field(), YEAR_2000);
    let time = record.time().expect("expressed");
    assert_eq!((time.seconds, time.microseconds), (946_684_800, 0));
    assert_eq!(record.packet(), RESET);
}

#[test]
fn p4_cut_by_an_octet() {
    let octets = &p3()[..43];
    assert_eq!(refused(check(octets)), (7, 16));
    let mut records = Capture::new(octets).expect("accepted").records();
    assert_eq!(refused(records.next().expect("an answer")), (7, 16));
    assert!(records.next().is_none());
}

#[test]
fn p5_included_above_original() {
    let mut octets = p3();
    octets[23] = 5;
    assert_eq!(refused(check(&octets)), (6, 20));
}

#[test]
fn p6_microsecond_before_the_epoch() {
    let time = Time::from_field(0x00DC_DDB3_0F2F_8000 - 1).expect("expressed");
    assert_eq!((time.seconds, time.microseconds), (-1, 999_999));
}

#[test]
fn p7_drops_past_the_turn() {
    assert_eq!(drops_between(4_294_967_290, 5), 11);
}

#[test]
fn p8_one_word() {
    let octets = radiotap(&[0x0000_002F], 23);
    for edition in 0..=3 {
        let (starts, ending) = starts(&octets, edition);
        assert_eq!((starts, ending), (vec![8, 16, 17, 18, 22], Ending::End));
    }
}

#[test]
fn p9_two_words() {
    let octets = radiotap(&[0xA000_0001, 0x0000_0020], 25);
    for edition in 0..=3 {
        assert_eq!(starts(&octets, edition), (vec![16, 24], Ending::End));
    }
    let header = Header::read(&octets, 1).expect("accepted");
    assert!(header.words().eq([0xA000_0001, 0x0000_0020]));
}

#[test]
fn p10_known_to_the_newer_edition() {
    let octets = radiotap(&[0x0000_4002], 12);
    let stop = Ending::Stop { word: 0, bit: 14 };
    assert_eq!(starts(&octets, 1), (vec![8], stop));
    assert_eq!(starts(&octets, 2), (vec![8, 10], Ending::End));
}

#[test]
fn p11_field_past_the_length() {
    let octets = radiotap(&[0x0000_4002], 11);
    let stop = Ending::Stop { word: 0, bit: 14 };
    assert_eq!(starts(&octets, 1), (vec![8], stop));
    assert_eq!(refused(Header::read(&octets, 2)), (12, 10));
}

#[test]
fn p12_rf_channel_40() {
    assert_eq!(refused(Packet::read(&le(40, 0))), (8, 0));
}

#[test]
fn p13_phy_3() {
    assert_eq!(refused(Packet::read(&le(0, 0xC000))), (22, 8));
}
