//! Each refusal once, and the words for it.

mod made;

use made::{file, le, p2, p3, radiotap, refused, RESET, RESET_FIELDS};
use std::error::Error;
use zalghimo::le::{Packet, Values};
use zalghimo::radiotap::{name, Header};
use zalghimo::{check, push_header, push_record, record_at, survey, write_header, write_record};
use zalghimo::{Capture, Reason, RecordFields, Refusal, Tally, Time};

/// P3 with one octet changed.
fn p3_with(place: usize, octet: u8) -> Vec<u8> {
    let mut octets = p3();
    octets[place] = octet;
    octets
}

#[test]
fn file_headers() {
    assert_eq!(refused(Capture::new(&p2()[..15])), (1, 15));
    assert_eq!(refused(Capture::new(&p3_with(7, 1))), (2, 0));
    assert_eq!(refused(Capture::new(&p3_with(11, 2))), (3, 8));
    assert_eq!(refused(Capture::new(&p3_with(15, 0xED))), (4, 12));
}

#[test]
fn records() {
    assert_eq!(refused(check(&p3()[..39])), (5, 16));
    assert_eq!(refused(check(&p3_with(23, 5))), (6, 20));
    assert_eq!(refused(check(&p3()[..40])), (7, 16));
    assert_eq!(refused(record_at(&p3(), 15)), (17, 15));
    assert_eq!(refused(record_at(&p3(), 45)), (17, 45));
    assert_eq!(refused(survey(&p3(), 45, 0)), (17, 45));
}

#[test]
fn le_packets() {
    assert_eq!(refused(Packet::read(&[0; 9])), (1, 9));
    assert_eq!(refused(Packet::read(&le(40, 0xC380))), (8, 0));
    assert_eq!(refused(Packet::read(&le(0, 0xC380))), (21, 8));
    assert_eq!(refused(Packet::read(&le(0, 0xC000))), (22, 8));
    assert_eq!(refused(Packet::read(&le(0, 0)[..13])), (7, 10));
    assert_eq!(refused(Packet::read(&le(0, 0x8000))), (7, 10));
}

#[test]
fn radiotap_headers() {
    assert_eq!(refused(Header::read(&[0; 7], 1)), (1, 7));
    assert_eq!(refused(Header::read(&[1; 8], 1)), (3, 0));
    assert_eq!(refused(Header::read(&[0; 8], 1)), (9, 2));
    assert_eq!(refused(Header::read(&radiotap(&[1 << 31], 8), 1)), (10, 4));
    let nine = radiotap(&[1 << 31; 8], 40);
    assert_eq!(refused(Header::read(&nine, 1)), (11, 4));
    assert_eq!(refused(Header::read(&[], 4)), (15, 0));
}

#[test]
fn writers_leave_the_output() {
    let mut output = [7; 64];
    let long = [0; 5];
    let no_room = write_record(&mut output, 37, &RESET_FIELDS, &RESET);
    assert_eq!(refused(no_room), (13, 0));
    let above = write_record(&mut output, 0, &RESET_FIELDS, &long);
    assert_eq!(refused(above), (6, 0));
    assert_eq!(refused(write_header(&mut output, 0, 1005)), (4, 0));
    assert_eq!(
        refused(write_header(&mut output, usize::MAX, 1001)),
        (13, 0)
    );
    for (rf_channel, flags, number) in [(40, 0xC380, 8), (0, 0xC380, 21), (0, 0xC000, 22)] {
        let values = Values {
            rf_channel,
            flags,
            ..Default::default()
        };
        let written = zalghimo::le::write(&mut output, 0, &values, &RESET);
        assert_eq!(refused(written), (number, 0));
    }
    let write = zalghimo::radiotap::write;
    assert_eq!(refused(write(&mut output, 0, 4, 0, &[])), (15, 0));
    assert_eq!(refused(write(&mut output, 0, 1, 1 << 14, &[])), (18, 0));
    assert_eq!(refused(write(&mut output, 0, 1, 2, &[])), (19, 0));
    assert_eq!(refused(write(&mut output, 57, 1, 0, &[])), (13, 0));
    assert_eq!(output, [7; 64]);
}

#[test]
fn pushes_leave_the_octets() {
    let mut octets = vec![1, 2, 3];
    assert_eq!(refused(push_header(&mut octets, 1000)), (4, 0));
    let above = push_record(&mut octets, &RecordFields::default(), &RESET);
    assert_eq!(refused(above), (6, 0));
    let short = zalghimo::le::push(&mut octets, &Values::default(), &[0; 3]);
    assert_eq!(refused(short), (7, 0));
    let unknown = zalghimo::radiotap::push(&mut octets, 3, 1 << 29, &[]);
    assert_eq!(refused(unknown), (18, 0));
    assert_eq!(octets, [1, 2, 3]);
}

#[test]
fn times() {
    assert_eq!(refused(Time::from_field(i64::MIN)), (14, 0));
    let microseconds = Time {
        seconds: 0,
        microseconds: 1_000_000,
    };
    assert_eq!(refused(microseconds.to_field()), (14, 0));
}

#[test]
fn refused_tally_stays() {
    let octets = file(&[(RESET_FIELDS, RESET.to_vec())]);
    let record = record_at(&octets, 16).expect("whole").expect("a record");
    let most = u64::MAX;
    let tallies = [
        ([1, 0, 1, most, 0, 0, 0, 1, 0], 16),
        ([1, 0, 1, most, 0, 0, 0, 1, 1], 23),
        ([1, 2, 1, 0, 0, 0, 0, most, 0], 23),
    ];
    for (numbers, number) in tallies {
        let mut tally = Tally::from_numbers(numbers);
        assert_eq!(refused(tally.add(&record)), (number, 0));
        assert_eq!(tally.numbers(), numbers);
    }
}

#[test]
fn reasons_are_in_the_order_of_their_numbers() {
    let numbers: Vec<u32> = Reason::ALL.iter().map(|reason| reason.number()).collect();
    let wanted: Vec<u32> = (1..=23).chain([32]).collect();
    assert_eq!(numbers, wanted);
}

const C_WORDS: &str = include_str!("../../../include/zalghimo_words.h");

/// The constant of a reason in C.
fn c_constant(reason: Reason) -> String {
    let mut constant = "ZALGHIMO".to_string();
    for letter in format!("{reason:?}").chars() {
        if letter.is_uppercase() {
            constant.push('_');
        }
        constant.push(letter.to_ascii_uppercase());
    }
    constant
}

#[test]
fn words_are_those_of_the_c_header() {
    for reason in Reason::ALL {
        let case = format!("case {}: return \"{reason}\";", c_constant(*reason));
        assert!(C_WORDS.contains(&case), "{case}");
    }
    assert_eq!(C_WORDS.matches("case ZALGHIMO_").count(), Reason::ALL.len());
}

#[test]
fn names_are_those_of_the_c_header() {
    let (_, names) = C_WORDS.split_once("names[] = {").expect("the array");
    let (names, _) = names.split_once("};").expect("its end");
    let names: Vec<&str> = names.split('"').skip(1).step_by(2).collect();
    assert_eq!(names.len(), 32);
    for (bit, text) in (0..).zip(names) {
        assert_eq!(name(bit), (bit < 29).then_some(text), "bit {bit}");
    }
}

#[test]
fn display_says_reason_number_and_place() {
    let refusal: Refusal = check(&p3()[..43]).expect_err("cut");
    let boxed: Box<dyn Error> = refusal.into();
    let words =
        "the packet runs past the input, or an LE packet is too short (refusal 7, place 16)";
    assert_eq!(boxed.to_string(), words);
    assert_eq!(refusal.reason(), Reason::ShortPacket);
}
