//! Streams cut at every place, and states at the exact ends of every range, asked once.

use super::by_hand;
use super::calls::{follow, Way};
use super::ffi;
use super::made::Cut;
use crate::btsnoop::made::{self, Entry, WORDS};
use crate::Session;
use model::btsnoop::Fields;
use model::stream::MOST_OCTETS;
use random::damage::put;
use zalghimo_sys::Stream;

/// A file of three records with packets of 4, 0 and 2 octets.
fn three_records() -> Vec<u8> {
    let entry = |packet: &[u8], flags| Entry {
        fields: Fields {
            original_length: 4,
            flags,
            cumulative_drops: 5,
            time: -2,
        },
        packet: packet.to_vec(),
    };
    let entries = [
        entry(&[1, 3, 12, 0], 2),
        entry(&[], u32::MAX),
        entry(&[0xAB, 0xCD], 1),
    ];
    made::file(1002, &entries).octets
}

/// All the ends.
pub fn all(session: &mut Session) {
    fresh(session);
    cuts(session);
    headers(session);
    lengths(session);
    long_packet(session);
    most_octets(session);
    states(session);
}

/// The fresh state is at the first octet, and the same each time.
fn fresh(session: &mut Session) {
    let octets = ffi::fresh().octets;
    let inputs = String::new;
    session
        .report
        .compare("zalghimo_stream_fresh", inputs, octets, 0);
    session
        .report
        .compare("zalghimo_stream_fresh", inputs, ffi::fresh(), ffi::fresh());
}

/// A stream in chunks of one length, ended and not.
fn both(session: &mut Session, stream: &[u8], length: usize) {
    for ended in [false, true] {
        let cut = Cut::Each(length);
        let before = 0;
        follow(session, stream, Way { cut, ended, before });
    }
}

/// A file of three records, and of two and one with lengths out of order, of every length in chunks of every length.
fn cuts(session: &mut Session) {
    let whole = three_records();
    let mut above = whole.clone();
    put(&mut above, 44 + 4, &5_u32.to_be_bytes());
    let mut longer = whole.clone();
    put(&mut longer, 68, &[0, 0, 0, 9, 0, 0, 0, 9]);
    for stream in [whole, above, longer] {
        for length in 0..=stream.len() {
            for chunk in 1..=length.max(1) {
                both(session, &stream[..length], chunk);
            }
        }
    }
}

/// Every octet of a file header changed.
fn headers(session: &mut Session) {
    for place in 0..16 {
        for bit in 0..8 {
            let mut octets = three_records();
            octets[place] ^= 1 << bit;
            for chunk in [1, 7, 15, 16, 17, 100] {
                both(session, &octets, chunk);
            }
        }
    }
}

/// Lengths of a record at and around every bound.
fn lengths(session: &mut Session) {
    let bounds = [0, 1, 3, 4, 5, 27, 28, 29, 30, 54, 55, 255, 65_536];
    for original in bounds.into_iter().chain(WORDS) {
        for included in bounds.into_iter().chain(WORDS) {
            let mut octets = three_records();
            put(&mut octets, 16, &original.to_be_bytes());
            put(&mut octets, 20, &included.to_be_bytes());
            for chunk in [1, 23, 24, 25, 100] {
                both(session, &octets, chunk);
            }
        }
    }
}

/// A packet of more than 65,536 octets, octet by octet and in long chunks.
fn long_packet(session: &mut Session) {
    let mut entry = made::entry(&mut session.prng);
    entry.packet = session.prng.octets(70_000);
    entry.fields.original_length = 70_000;
    let octets = made::file(1001, &[entry]).octets;
    for chunk in [1, 24, 4096, 65_536, 100_000] {
        both(session, &octets, chunk);
    }
}

/// Streams that end at, before and past the most octets.
fn most_octets(session: &mut Session) {
    let octets = three_records();
    let last = MOST_OCTETS - octets.len() as u64;
    let behind_header = octets.len() as u64 - 16;
    for before in last - 30..=last + behind_header {
        for length in [1, 23, 24, 25, 26, 27, 28, 30, 100] {
            for ended in [false, true] {
                let cut = Cut::Each(length);
                follow(session, &octets, Way { cut, ended, before });
            }
        }
    }
}

/// Every phase with every count, and octets at and around the most.
fn states(session: &mut Session) {
    let chunk = three_records();
    let ends = [0, 15, 16, 24, 40, 1 << 32, MOST_OCTETS, u64::MAX];
    for phase in [0, 1, 2, 3, 4, 5, 1 << 32, u64::MAX] {
        for count in (0..=26).chain([1 << 32, u64::MAX]) {
            for end in ends {
                for step in [0, 1, 23, 24, 25, 93, 94, 95] {
                    for octets in [end.wrapping_sub(step), end.wrapping_add(step)] {
                        let state = Stream {
                            phase,
                            octets,
                            count,
                            done: count,
                            ..ffi::fresh()
                        };
                        for length in [0, 1, 24, 94] {
                            by_hand::ask(session, state, &chunk[..length]);
                        }
                    }
                }
            }
        }
    }
}
