//! Records, and tallies that they fit into or pass, or whose sums are broken.

use crate::btsnoop::made::word;
use model::tally::{added, Counted, Tally};
use model::tally::{
    COMMANDS, DATA, LAST_DROP_NUMBER, LOST, OCTETS, RECEIVED, RECORDS, SENT, TRUNCATED,
};
use random::prng::Prng;

/// The sums that nothing else bounds.
pub const UNBOUND: [usize; 4] = [RECORDS, OCTETS, LOST, TRUNCATED];

/// The numbers that add up to records, two and two.
pub const PARTS: [[usize; 2]; 2] = [[SENT, RECEIVED], [COMMANDS, DATA]];

/// All numbers of the two sums.
pub const SUMMED: [usize; 5] = [RECORDS, RECEIVED, COMMANDS, SENT, DATA];

/// Any record: an included length above the original length is not judged.
pub fn record(prng: &mut Prng) -> Counted {
    let original_length = word(prng);
    let included_length = match prng.below(4) {
        0 => original_length,
        1 => original_length.wrapping_sub(1),
        _ => word(prng),
    };
    Counted {
        original_length,
        included_length,
        flags: word(prng),
        cumulative_drops: word(prng),
    }
}

/// A tally for a record: most add up, with room or with sums near the most; of the others one sum or both are broken.
pub fn tally(prng: &mut Prng, record: &Counted) -> Tally {
    let mut tally = with_room(prng);
    tally[LAST_DROP_NUMBER] = last_drop_number(prng, record);
    match prng.below(8) {
        0..=2 => {}
        3..=5 => {
            let sum = prng.pick(&UNBOUND);
            put_near(prng, &mut tally, record, sum);
        }
        _ => {
            for sum in UNBOUND {
                put_near(prng, &mut tally, record, sum);
            }
        }
    }
    split(prng, &mut tally);
    match prng.below(16) {
        0 => tally = std::array::from_fn(|_| prng.bits()),
        1 => tally = std::array::from_fn(|_| prng.bits() % 4),
        2 | 3 => change(prng, &mut tally),
        4 => wrap(prng, &mut tally),
        _ => {}
    }
    tally
}

/// Numbers of every size to which any record can be added, records 0 among them.
fn with_room(prng: &mut Prng) -> Tally {
    let mut tally = std::array::from_fn(|_| prng.bits() >> (1 + prng.below(63)));
    if prng.one_in(3) {
        tally[RECORDS] = 0;
    }
    tally
}

/// A last drop number: the record's or one near it, 64 bits wide or 32.
fn last_drop_number(prng: &mut Prng, record: &Counted) -> u64 {
    let before = match prng.below(4) {
        0 => word(prng),
        1 => record.cumulative_drops.wrapping_add(1),
        _ => record.cumulative_drops.wrapping_sub(prng.below(9) as u32),
    };
    let any = prng.bits() >> 32;
    let above = prng.pick(&[0, 0, 1, 1 << 31, u32::MAX.into(), any]);
    above << 32 | u64::from(before)
}

/// Puts a sum where the record just fits, just passes, or nearly so.
fn put_near(prng: &mut Prng, tally: &mut Tally, record: &Counted, sum: usize) {
    let step = prng.pick(&[0, 0, 0, 1, -1, 2, -2]);
    stand(tally, record, sum, step);
}

/// Makes a sum stand this far past where the record just fits, at the most at the latest.
pub fn stand(tally: &mut Tally, record: &Counted, sum: usize, step: i64) {
    let fits = u64::MAX - added(tally, record)[sum];
    tally[sum] = fits.saturating_add_signed(step);
}

/// Splits records into sent and received, and into commands and data.
fn split(prng: &mut Prng, tally: &mut Tally) {
    for parts in PARTS {
        let records = tally[RECORDS];
        let any = match records.checked_add(1) {
            Some(bound) => prng.bits() % bound,
            None => prng.bits(),
        };
        let part = prng.pick(&[0, records, any, any]);
        put_parts(tally, parts, part);
    }
}

/// Makes two parts add up to records, modulo 2^64 where the first is above them.
pub fn put_parts(tally: &mut Tally, [first, second]: [usize; 2], part: u64) {
    tally[first] = part;
    tally[second] = tally[RECORDS].wrapping_sub(part);
}

/// Changes one or two of the numbers of the two sums.
fn change(prng: &mut Prng, tally: &mut Tally) {
    for _ in 0..=prng.below(2) {
        let place = prng.pick(&SUMMED);
        let any = prng.bits();
        let step = prng.pick(&[1, u64::MAX, 1 << 63, any]);
        tally[place] = tally[place].wrapping_add(step);
    }
}

/// Makes the numbers of one sum or both add up to records modulo 2^64 alone, where records leaves room above it.
fn wrap(prng: &mut Prng, tally: &mut Tally) {
    let room = u64::MAX - tally[RECORDS];
    let pairs = prng.pick(&[&PARTS[..1], &PARTS[1..], &PARTS]);
    for parts in pairs {
        if room > 0 {
            let any = 1 + prng.bits() % room;
            let above = prng.pick(&[1, room, any, any]);
            put_parts(tally, *parts, tally[RECORDS] + above);
        }
    }
}
