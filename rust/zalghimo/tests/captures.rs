//! Reading captures: records, survey, earlier of two, tally, times.

mod made;

use made::{file, refused, RESET, RESET_FIELDS};
use std::collections::HashSet;
use std::time::{Duration, SystemTime, UNIX_EPOCH};
use zalghimo::{check, earlier, record_at, survey, Capture, RecordFields, Tally, Time, Which};

/// Three records whose numbers all differ; the second is cut and the third empty.
fn three() -> Vec<(RecordFields, Vec<u8>)> {
    let fields = |original_length, flags, cumulative_drops, time_field| RecordFields {
        original_length,
        flags,
        cumulative_drops,
        time_field,
    };
    vec![
        (fields(3, 0, 4_294_967_290, 10), vec![1, 2, 3]),
        (fields(9, 0xFFFF_FFFD, 5, -7), vec![4, 5]),
        (fields(0, 3, 6, i64::MIN), vec![]),
    ]
}

#[test]
fn records_come_out_as_written() {
    let written = three();
    let octets = file(&written);
    let capture = Capture::new(&octets).expect("accepted");
    let read: Vec<_> = capture
        .records()
        .map(|record| record.expect("whole"))
        .map(|record| (*record.fields(), record.packet().to_vec()))
        .collect();
    assert_eq!(read, written);
    assert_eq!(
        (check(&octets).expect("accepted").records, read.len()),
        (3, 3)
    );
}

#[test]
fn captures_are_walked_again_and_again() {
    let octets = file(&three());
    let capture = Capture::new(&octets).expect("accepted");
    for _ in 0..2 {
        let mut records = 0;
        for record in &capture {
            records += record.map(|_| 1).expect("whole");
        }
        assert_eq!(records, 3);
    }
    let distinct = HashSet::from([capture, capture]);
    assert_eq!(distinct.len(), 1);
}

#[test]
fn records_from_a_place_end_after_a_refusal() {
    let octets = file(&three());
    let capture = Capture::new(&octets).expect("accepted");
    let first = record_at(&octets, 16).expect("whole").expect("a record");
    assert_eq!(capture.records_from(first.next_place()).count(), 2);
    let mut below = capture.records_from(15);
    assert_eq!(refused(below.next().expect("an answer")), (17, 15));
    assert!(below.next().is_none() && below.next().is_none());
    assert!(record_at(&octets, octets.len()).expect("the end").is_none());
}

#[test]
fn surveys_go_on_where_the_last_came_to() {
    let octets = file(&three());
    let two = survey(&octets, 16, 2).expect("whole records");
    assert_eq!((two.count, two.reached, two.at_end), (2, 69, false));
    let rest = survey(&octets, two.reached, usize::MAX).expect("whole records");
    assert_eq!((rest.count, rest.reached, rest.at_end), (1, 93, true));
    let cut = survey(&octets[..92], 16, 9).expect_err("cut");
    assert_eq!(
        (cut.count, cut.refusal.number(), cut.refusal.place()),
        (2, 5, 69)
    );
}

#[test]
fn earlier_of_two() {
    let later = file(&three()[..1]);
    let sooner = file(&three()[1..2]);
    let found = earlier(&later, 16, &sooner, 16)
        .expect("whole")
        .expect("one");
    assert_eq!((found.capture, found.packet), (Which::Second, &[4, 5][..]));
    assert_eq!((found.packet_place, found.next_place), (40, 42));
    let equal = earlier(&later, 16, &later, 16)
        .expect("whole")
        .expect("one");
    assert_eq!(
        (equal.capture, equal.packet),
        (Which::First, &[1, 2, 3][..])
    );
    let left = earlier(&later, later.len(), &sooner, 16)
        .expect("whole")
        .expect("one");
    assert_eq!(left.capture, Which::Second);
    let ends = earlier(&later, later.len(), &sooner, sooner.len());
    assert_eq!(ends, Ok(None));
    let refusal = earlier(&later, 16, &sooner, 0).expect_err("no such place");
    assert_eq!(
        (refusal.capture, refusal.refusal.number()),
        (Which::Second, 17)
    );
}

#[test]
fn tally_of_three() {
    let octets = file(&three());
    let mut tally = Tally::new();
    assert_eq!(tally.last_drop_number(), None);
    for record in Capture::new(&octets).expect("accepted") {
        tally.add(&record.expect("whole")).expect("room");
    }
    assert_eq!(tally.numbers(), [3, 2, 1, 5, 12, 6, 1, 1, 2]);
    assert_eq!(
        (tally.records(), tally.received(), tally.commands()),
        (3, 2, 1)
    );
    assert_eq!((tally.octets_included(), tally.lost()), (5, 12));
    assert_eq!(tally.last_drop_number(), Some(6));
    assert_eq!((tally.truncated(), tally.sent(), tally.data()), (1, 1, 2));
}

#[test]
fn times_convert_both_ways() {
    let first = i64::MIN + 0x00DC_DDB3_0F2F_8000;
    assert!(Time::from_field(first - 1).is_err());
    for field in [first, -1, 0, 1, RESET_FIELDS.time_field, i64::MAX] {
        let time = Time::from_field(field).expect("expressed");
        assert_eq!(time.to_field(), Ok(field));
    }
}

#[test]
fn times_on_the_system_clock() {
    let time = |seconds, microseconds| Time {
        seconds,
        microseconds,
    };
    let micro = Duration::from_micros(1);
    assert_eq!(
        time(-1, 999_999).system_time(),
        UNIX_EPOCH.checked_sub(micro)
    );
    assert_eq!(time(0, 1).system_time(), UNIX_EPOCH.checked_add(micro));
    assert!(time(0, 999_999).system_time().is_some());
    assert_eq!(time(0, 1_000_000).system_time(), None);
    assert_eq!(time(-1, u32::MAX).system_time(), None);
}

#[test]
fn times_from_the_system_clock_are_rounded_down() {
    let parts = |time| {
        let time = Time::from_system_time(time).expect("expressed");
        (time.seconds, time.microseconds)
    };
    let nanos = Duration::from_nanos;
    assert_eq!(parts(UNIX_EPOCH), (0, 0));
    assert_eq!(parts(UNIX_EPOCH + nanos(999)), (0, 0));
    assert_eq!(parts(UNIX_EPOCH + nanos(1000)), (0, 1));
    assert_eq!(parts(UNIX_EPOCH + nanos(1_999_999_999)), (1, 999_999));
    assert_eq!(parts(UNIX_EPOCH - nanos(1)), (-1, 999_999));
    assert_eq!(parts(UNIX_EPOCH - nanos(1000)), (-1, 999_999));
    assert_eq!(parts(UNIX_EPOCH - nanos(1001)), (-1, 999_998));
    assert_eq!(parts(UNIX_EPOCH - nanos(1_000_000_000)), (-1, 0));
    assert_eq!(parts(UNIX_EPOCH - nanos(1_000_000_001)), (-2, 999_999));
}

#[test]
fn times_go_to_the_system_clock_and_back() {
    for seconds in [i64::MIN, -946_684_800, -1, 0, 1, 946_684_800, i64::MAX] {
        for microseconds in [0, 1, 999_999] {
            let time = Time {
                seconds,
                microseconds,
            };
            let clock = time.system_time().expect("expressed");
            assert_eq!(Time::from_system_time(clock), Some(time));
        }
    }
    let now = Time::from_system_time(SystemTime::now()).expect("expressed");
    assert_eq!(now.to_field().and_then(Time::from_field), Ok(now));
}

#[test]
fn packets_are_parts_of_the_input() {
    let octets = file(&[(RESET_FIELDS, RESET.to_vec())]);
    let record = record_at(&octets, 16).expect("whole").expect("a record");
    assert_eq!(record.packet().as_ptr(), octets[40..].as_ptr());
}
