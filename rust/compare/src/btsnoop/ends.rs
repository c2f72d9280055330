//! Questions at the exact ends of every range, asked once.

use super::ask;
use super::made::{self, Entry, DATALINKS, TIMES, WORDS};
use crate::places::HUGE;
use crate::Session;
use model::btsnoop::Fields;
use model::time::{UNIX_EPOCH, YEAR_2000};
use random::damage::put;

/// The file of one HCI reset command, as in P3.
fn one_record() -> Vec<u8> {
    let entry = Entry {
        fields: Fields {
            original_length: 4,
            flags: 2,
            cumulative_drops: 0,
            time: YEAR_2000,
        },
        packet: vec![0x01, 0x03, 0x0C, 0x00],
    };
    made::file(1002, &[entry]).octets
}

/// All the ends.
pub fn all(session: &mut Session) {
    headers(session);
    cuts(session);
    lengths(session);
    read_times(session);
    write_times(session);
    drops(session);
    write_headers(session);
    write_records(session);
}

/// Every octet of a header changed, and codes and versions at their ends.
fn headers(session: &mut Session) {
    for place in 0..16 {
        for bit in 0..8 {
            let mut octets = one_record();
            octets[place] ^= 1 << bit;
            ask::header(session, &octets);
            ask::check(session, &octets);
        }
    }
    for code in DATALINKS.into_iter().chain(WORDS) {
        let mut octets = one_record();
        put(&mut octets, 12, &code.to_be_bytes());
        ask::header(session, &octets);
        put(&mut octets, 8, &code.to_be_bytes());
        ask::check(session, &octets);
    }
}

/// A file of two records cut at every length, read at every place.
fn cuts(session: &mut Session) {
    let whole = [one_record(), one_record()[16..].to_vec()].concat();
    for length in 0..=whole.len() {
        let input = &whole[..length];
        ask::header(session, input);
        ask::check(session, input);
        for place in (0..=whole.len() + 2).chain(HUGE) {
            ask::record(session, input, place);
            for number in [0, 1, 2, 3, usize::MAX] {
                ask::survey(session, input, place, number);
            }
            ask::earlier(session, input, place, &whole, 16);
            ask::earlier(session, &whole, 16, input, place);
            ask::earlier(session, &whole, whole.len(), input, place);
        }
    }
}

/// Lengths of a record at and around every bound.
fn lengths(session: &mut Session) {
    let bounds = [0, 1, 3, 4, 5, 6, 27, 28, 29, 255, 256, 65_536];
    for original in bounds.into_iter().chain(WORDS) {
        for included in bounds.into_iter().chain(WORDS) {
            let mut octets = one_record();
            put(&mut octets, 16, &original.to_be_bytes());
            put(&mut octets, 20, &included.to_be_bytes());
            ask::check(session, &octets);
            ask::record(session, &octets, 16);
            ask::survey(session, &octets, 16, 1);
        }
    }
}

/// Fields around every end and around whole seconds.
fn read_times(session: &mut Session) {
    for base in TIMES {
        for step in -3..=3 {
            ask::read_time(session, base.wrapping_add(step));
            ask::read_time(session, base.wrapping_add(step * 1_000_000));
            ask::read_time(session, base.wrapping_add(step * 1_000_000 - 1));
        }
    }
}

/// Seconds and microseconds around every end.
fn write_times(session: &mut Session) {
    let last = (i64::MAX - UNIX_EPOCH) / 1_000_000;
    let first = ((i128::from(i64::MIN) - i128::from(UNIX_EPOCH)) / 1_000_000) as i64;
    let seconds = [0, 946_684_800, first, last, i64::MIN, i64::MAX];
    let over = (i64::MAX - UNIX_EPOCH) % 1_000_000;
    let under = (i128::from(i64::MIN) - i128::from(UNIX_EPOCH)).rem_euclid(1_000_000);
    let ends = [over as u32, under as u32, 0, 999_999, u32::MAX, 1 << 31];
    for base in seconds {
        for step in -3..=3 {
            for end in ends {
                for near in [end, end.wrapping_add(1), end.wrapping_sub(1)] {
                    ask::write_time(session, base.wrapping_add(step), near);
                }
            }
        }
    }
}

/// Every pair of 32-bit ends.
fn drops(session: &mut Session) {
    for earlier in WORDS {
        for later in WORDS {
            ask::drops(session, earlier, later);
        }
    }
}

/// Every room around that of a header, at every place.
fn write_headers(session: &mut Session) {
    for length in 0..40 {
        let output = session.prng.octets(length);
        for place in (0..42).chain(HUGE) {
            for code in [1000, 1001, 1004, 1005] {
                ask::write_header(session, &output, place, code);
            }
        }
    }
}

/// Every room around that of a record, at every place.
fn write_records(session: &mut Session) {
    for length in 20..36 {
        let output = session.prng.octets(length);
        for place in (0..38).chain(HUGE) {
            for packet in 0..6 {
                let entry = made::entry(&mut session.prng);
                let original_length = 4;
                let fields = Fields {
                    original_length,
                    ..entry.fields
                };
                let packet = session.prng.octets(packet);
                ask::write_record(session, &output, place, &fields, &packet);
            }
        }
    }
}
