//! The named captures.

use crate::capture::{header, p3, push, two_resets, RESET};
use model::btsnoop::{Fields, RECORD_HEADER};
use model::listing::MOST;
use model::time::{UNIX_EPOCH, YEAR_2000};

/// The first time field that is not refused.
const FIRST_TIME: i64 = i64::MIN + UNIX_EPOCH;

/// All named captures.
pub fn captures() -> Vec<(&'static str, Vec<u8>)> {
    vec![
        ("p3", p3()),
        ("header-alone", header(1004)),
        ("empty", Vec::new()),
        ("wrong-identification", changed(p3(), 7, 1)),
        ("wrong-version", changed(p3(), 11, 2)),
        ("wrong-datalink", changed(header(1004), 15, 0xED)),
        ("short-header", p3()[..15].to_vec()),
        ("cut-record", two_resets()[..71].to_vec()),
        ("short-record", two_resets()[..67].to_vec()),
        ("included-above-original", changed(two_resets(), 51, 5)),
        ("negative-time", timed(&[UNIX_EPOCH - 1, 0, -1])),
        (
            "refused-time",
            timed(&[i64::MIN, FIRST_TIME - 1, FIRST_TIME]),
        ),
        ("several-records", several_records()),
        ("most-octets", small_records(MOST)),
        ("most-records", empty_records(MOST)),
        ("past-most", small_records(MOST + 1)),
        ("past-most-zeros", vec![0; MOST + 1]),
    ]
}

/// A capture with one octet changed.
fn changed(mut octets: Vec<u8>, place: usize, octet: u8) -> Vec<u8> {
    octets[place] = octet;
    octets
}

/// A record with an empty packet for each time.
fn timed(times: &[i64]) -> Vec<u8> {
    let mut octets = header(1002);
    for time in times {
        let time = *time;
        push(&mut octets, &Fields { time, ..RESET }, &[]);
    }
    octets
}

/// Records whose fields are all different, at both ends of their ranges and between.
fn several_records() -> Vec<u8> {
    let most = u32::MAX;
    let records = [
        ([9, 0, 7], YEAR_2000 + 1_234_567, 3),
        ([most, most, most], i64::MAX, 0),
        ([8, 0x8000_0000, 1], UNIX_EPOCH, 8),
        ([300, 1, 0], FIRST_TIME + 1, 256),
        ([70_000, 0x0001_0002, 65_536], YEAR_2000 - 1, 1),
    ];
    let mut octets = header(1001);
    for ([original_length, flags, cumulative_drops], time, length) in records {
        let fields = Fields {
            original_length,
            flags,
            cumulative_drops,
            time,
        };
        push(&mut octets, &fields, &vec![0xA5; length]);
    }
    octets
}

/// Records with packets of 0 to 8 octets, the last one's as long as the capture's length asks.
fn small_records(length: usize) -> Vec<u8> {
    let mut octets = header(1003);
    for number in 0_usize.. {
        let rest = length - octets.len() - RECORD_HEADER;
        let last = rest < 2 * RECORD_HEADER;
        let packet = vec![number as u8; if last { rest } else { number % 9 }];
        let fields = Fields {
            original_length: packet.len() as u32,
            flags: number as u32 % 4,
            cumulative_drops: number as u32 / 3,
            time: YEAR_2000 + 1_000_999 * number as i64,
        };
        push(&mut octets, &fields, &packet);
        if last {
            break;
        }
    }
    octets
}

/// As many records with empty packets as there is room for, with lines as long as can be.
fn empty_records(length: usize) -> Vec<u8> {
    let largest = Fields {
        original_length: u32::MAX,
        flags: u32::MAX,
        cumulative_drops: u32::MAX,
        time: FIRST_TIME,
    };
    let mut octets = header(1002);
    while octets.len() + RECORD_HEADER <= length {
        push(&mut octets, &largest, &[]);
    }
    octets
}
