//! Listings of captures made by hand.

use super::*;
use crate::time::{UNIX_EPOCH, YEAR_2000};

/// A file header's octets with this code.
fn header(datalink: u32) -> Vec<u8> {
    let version = [0, 0, 0, 1];
    [&b"btsnoop\0"[..], &version, &datalink.to_be_bytes()].concat()
}

/// A record's octets: original length, included length, flags, drops; then time and packet.
fn record(numbers: [u32; 4], time: i64, packet: &[u8]) -> Vec<u8> {
    let mut octets: Vec<u8> = numbers.into_iter().flat_map(u32::to_be_bytes).collect();
    octets.extend(time.to_be_bytes());
    octets.extend(packet);
    octets
}

/// A record with an empty packet and this time.
fn timed(time: i64) -> Vec<u8> {
    record([0, 0, 0, 0], time, &[])
}

fn p3() -> Vec<u8> {
    let reset = record([4, 4, 2, 0], YEAR_2000, &[0x01, 0x03, 0x0C, 0x00]);
    [header(1002), reset].concat()
}

/// A file of exactly 65,536 octets.
fn most() -> Vec<u8> {
    let largest = record([u32::MAX, 0, u32::MAX, u32::MAX], i64::MAX, &[]);
    [header(1001), largest.repeat(2730)].concat()
}

fn lists(input: &[u8], listing: &str) {
    let seen = String::from_utf8(list(input)).expect("plain text");
    assert_eq!(seen, listing);
}

const P3_LINES: &str = "file\t1\t1002\nrec\t16\t4\t4\t2\t0\t946684800\t0\n";

#[test]
fn p3_lines() {
    lists(&p3(), &format!("{P3_LINES}end\t1\n"));
}

#[test]
fn no_records() {
    lists(&header(1002), "file\t1\t1002\nend\t0\n");
    lists(&header(1004), "file\t1\t1004\nend\t0\n");
}

#[test]
fn header_refusals_stand_alone() {
    lists(&[], "stop\t1\t0\n");
    lists(&p3()[..15], "stop\t1\t15\n");
    lists(&[b"c", &p3()[1..]].concat(), "stop\t2\t0\n");
    let mut version = p3();
    version[11] = 2;
    lists(&version, "stop\t3\t8\n");
    lists(&[&header(1005), &p3()[16..]].concat(), "stop\t4\t12\n");
}

#[test]
fn record_refusals_follow_the_lines() {
    let two = [p3(), p3()[16..].to_vec()].concat();
    lists(&two[..71], &format!("{P3_LINES}stop\t7\t44\n"));
    lists(&two[..67], &format!("{P3_LINES}stop\t5\t44\n"));
    lists(&two[..45], &format!("{P3_LINES}stop\t5\t44\n"));
    let mut above = two.clone();
    above[51] = 5;
    lists(&above, &format!("{P3_LINES}stop\t6\t48\n"));
    lists(&p3()[..43], "file\t1\t1002\nstop\t7\t16\n");
}

#[test]
fn steps_by_included_length() {
    let first = record([9, 1, 0x8000_0000, 7], YEAR_2000 + 1_500_000, &[0xAB]);
    let second = record([u32::MAX, 0, u32::MAX, u32::MAX], UNIX_EPOCH, &[]);
    let input = [header(1003), first, second].concat();
    let lines = [
        "file\t1\t1003",
        "rec\t16\t9\t1\t2147483648\t7\t946684801\t500000",
        "rec\t41\t4294967295\t0\t4294967295\t4294967295\t0\t0",
        "end\t2",
        "",
    ];
    lists(&input, &lines.join("\n"));
}

#[test]
fn times() {
    let limit = i64::MIN + UNIX_EPOCH;
    let shown = [
        (UNIX_EPOCH - 1, "-1\t999999"),
        (UNIX_EPOCH - 1_000_000, "-1\t0"),
        (UNIX_EPOCH - 1_000_001, "-2\t999999"),
        (UNIX_EPOCH + 1, "0\t1"),
        (0, "-62168256000\t0"),
        (-1, "-62168256001\t999999"),
        (limit, "-9223372036855\t224192"),
        (limit - 1, "-\t-"),
        (i64::MIN, "-\t-"),
        (i64::MAX, "9161203780854\t775807"),
    ];
    for (time, text) in shown {
        let input = [header(1001), timed(time)].concat();
        let line = format!("rec\t16\t0\t0\t0\t0\t{text}");
        lists(&input, &format!("file\t1\t1001\n{line}\nend\t1\n"));
    }
}

#[test]
fn refused_time_does_not_stop() {
    let input = [header(1001), timed(i64::MIN), timed(UNIX_EPOCH)].concat();
    let lines = "rec\t16\t0\t0\t0\t0\t-\t-\nrec\t40\t0\t0\t0\t0\t0\t0\n";
    lists(&input, &format!("file\t1\t1001\n{lines}end\t2\n"));
}

#[test]
fn most_octets() {
    let input = most();
    assert_eq!(input.len(), 65_536);
    let listing = String::from_utf8(list(&input)).expect("plain text");
    assert_eq!(listing.lines().count(), 2732);
    let last = "4294967295\t0\t4294967295\t4294967295\t9161203780854\t775807";
    assert!(listing.ends_with(&format!("\nrec\t65512\t{last}\nend\t2730\n")));
}

#[test]
fn past_most_comes_first_of_all() {
    lists(&[most(), vec![0]].concat(), "stop\t20\t65536\n");
    lists(&[0; 65_537], "stop\t20\t65536\n");
    lists(&[0; 65_536], "stop\t2\t0\n");
}
