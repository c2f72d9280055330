//! Questions at the exact ends of every range, asked once.

use super::ask;
use super::made::{put_parts, stand, PARTS, SUMMED, UNBOUND};
use crate::btsnoop::made::WORDS;
use crate::Session;
use model::tally::{Counted, Tally, LAST_DROP_NUMBER, RECORDS, TRUNCATED};

const MOST: u64 = u64::MAX;

/// A truncated received command.
const SAMPLE: Counted = Counted {
    original_length: 9,
    included_length: 4,
    flags: 3,
    cumulative_drops: 5,
};

/// Numbers that are all different, and add up.
const TALLY: Tally = [40, 29, 18, 1000, 7, 4_294_967_290, 5, 11, 22];

/// Last drop numbers on both sides of 2^32 and at the ends.
const LAST: [u64; 12] = [
    0,
    1,
    5,
    4_294_967_290,
    (1 << 32) - 1,
    1 << 32,
    (1 << 32) + 5,
    (2 << 32) - 6,
    1 << 63,
    (1 << 63) + 5,
    MOST - 1,
    MOST,
];

/// All the ends.
pub fn all(session: &mut Session) {
    flags(session);
    lengths(session);
    drops(session);
    sums(session);
    for record in records() {
        several_sums(session, &record);
        broken(session, &record);
        broken_modulo(session, &record);
    }
}

/// Records with every number at its ends.
fn records() -> Vec<Counted> {
    let mut records = Vec::new();
    for included_length in [0, 1, 9, u32::MAX] {
        for flags in [0, 1, 2, 3, u32::MAX - 3, u32::MAX] {
            for cumulative_drops in [0, 5, u32::MAX] {
                records.push(Counted {
                    included_length,
                    flags,
                    cumulative_drops,
                    ..SAMPLE
                });
            }
        }
    }
    records
}

/// A tally with records all or none of which are sent, and all or none commands.
fn whole_parts(tally: &Tally) -> [Tally; 4] {
    let records = tally[RECORDS];
    [(0, 0), (0, records), (records, 0), (records, records)].map(|(sent, commands)| {
        let mut tally = *tally;
        put_parts(&mut tally, PARTS[0], sent);
        put_parts(&mut tally, PARTS[1], commands);
        tally
    })
}

/// Every flag bit alone and with others, in tallies with and without room.
fn flags(session: &mut Session) {
    let bits = (0..32).flat_map(|bit| [1 << bit, !(1 << bit)]);
    for flags in bits.chain(WORDS) {
        let record = Counted { flags, ..SAMPLE };
        for records in [0, 1, 40, MOST - 1, MOST] {
            let mut tally = [0; 9];
            tally[RECORDS] = records;
            for tally in whole_parts(&tally) {
                ask::add(session, &tally, &record);
            }
        }
    }
}

/// Original and included lengths in every order.
fn lengths(session: &mut Session) {
    for original_length in WORDS {
        for included_length in WORDS {
            let record = Counted {
                original_length,
                included_length,
                ..SAMPLE
            };
            ask::add(session, &[0; 9], &record);
            for truncated in [5, MOST - 1, MOST] {
                let mut tally = TALLY;
                tally[TRUNCATED] = truncated;
                ask::add(session, &tally, &record);
            }
        }
    }
}

/// Drop numbers after every last one, for a first record and later ones.
fn drops(session: &mut Session) {
    for records in [0, 1, 2, 1 << 32, MOST - 1, MOST] {
        for last in LAST {
            for cumulative_drops in WORDS {
                let record = Counted {
                    cumulative_drops,
                    ..SAMPLE
                };
                let tally = [records, records, 0, 0, 0, last, 0, 0, records];
                ask::add(session, &tally, &record);
            }
        }
    }
}

/// Each sum alone at and around the place where the record just fits.
fn sums(session: &mut Session) {
    for record in records() {
        for records in [0, 1, 40] {
            for sum in UNBOUND {
                for step in -2..=2 {
                    let mut tally = TALLY;
                    tally[RECORDS] = records;
                    stand(&mut tally, &record, sum, step);
                    for tally in whole_parts(&tally) {
                        ask::add(session, &tally, &record);
                    }
                }
            }
        }
    }
}

/// Every choice of sums that pass while the others just fit.
fn several_sums(session: &mut Session, record: &Counted) {
    for passing in 0..16 {
        for last in [0, 4_294_967_290, MOST] {
            let mut tally = TALLY;
            tally[LAST_DROP_NUMBER] = last;
            for (index, sum) in UNBOUND.into_iter().enumerate() {
                stand(&mut tally, record, sum, passing >> index & 1);
            }
            for tally in whole_parts(&tally) {
                ask::add(session, &tally, record);
            }
            tally[RECORDS] = 0;
            for tally in whole_parts(&tally) {
                ask::add(session, &tally, record);
            }
        }
    }
}

/// Tallies with room and without, each sum just past the most among them.
fn roomy_and_full(record: &Counted) -> Vec<Tally> {
    let mut tallies = vec![[0; 9], TALLY];
    for sum in UNBOUND {
        let mut tally = TALLY;
        stand(&mut tally, record, sum, 1);
        tallies.push(tally);
    }
    tallies
}

/// One number of the two sums off by a little or much, and then two.
fn broken(session: &mut Session, record: &Counted) {
    for found in roomy_and_full(record) {
        for tally in whole_parts(&found) {
            for place in SUMMED {
                for step in [1, 2, 1 << 63, MOST - 1, MOST] {
                    let mut tally = tally;
                    tally[place] = tally[place].wrapping_add(step);
                    ask::add(session, &tally, record);
                    for other in SUMMED {
                        let mut tally = tally;
                        tally[other] = tally[other].wrapping_sub(step);
                        ask::add(session, &tally, record);
                    }
                }
            }
        }
    }
}

/// Numbers that add up to records modulo 2^64 alone, in one sum or in both.
fn broken_modulo(session: &mut Session, record: &Counted) {
    for found in roomy_and_full(record) {
        let records = found[RECORDS];
        let Some(above) = records.checked_add(1) else {
            continue;
        };
        for tally in whole_parts(&found) {
            for part in [above, above.max(1 << 63), MOST] {
                for pairs in [&PARTS[..1], &PARTS[1..], &PARTS] {
                    let mut tally = tally;
                    for parts in pairs {
                        put_parts(&mut tally, *parts, part);
                    }
                    ask::add(session, &tally, record);
                }
            }
        }
    }
}
