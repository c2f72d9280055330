//! The tally: nine numbers that its owner lends and every record updates.

use crate::btsnoop::drops;
use crate::refusal::{Reason, Refusal};

/// Records, received, commands, octets included, lost, last drop number (taken modulo 2^32), truncated, sent, data.
pub type Tally = [u64; 9];

/// The places of these numbers. All but the last drop number are sums.
pub const RECORDS: usize = 0;
pub const RECEIVED: usize = 1;
pub const COMMANDS: usize = 2;
pub const OCTETS: usize = 3;
pub const LOST: usize = 4;
pub const LAST_DROP_NUMBER: usize = 5;
pub const TRUNCATED: usize = 6;
pub const SENT: usize = 7;
pub const DATA: usize = 8;

/// What the tally is given of a record.
#[derive(Clone, Copy, Debug, PartialEq, Eq)]
pub struct Counted {
    pub original_length: u32,
    pub included_length: u32,
    pub flags: u32,
    pub cumulative_drops: u32,
}

/// What a record adds to each of the eight sums; to the last drop number, 0.
pub fn added(tally: &Tally, record: &Counted) -> Tally {
    let bit = |place: u32| u64::from(record.flags) >> place & 1;
    let lost = match tally[RECORDS] {
        0 => 0,
        _ => drops(tally[LAST_DROP_NUMBER] as u32, record.cumulative_drops),
    };
    [
        1,
        bit(0),
        bit(1),
        record.included_length.into(),
        lost.into(),
        0,
        (record.included_length < record.original_length).into(),
        1 - bit(0),
        1 - bit(1),
    ]
}

/// Whether sent and received, and commands and data, add up to records.
fn adds_up(tally: &Tally) -> bool {
    let [records, received, commands, _, _, _, _, sent, data] = tally.map(u128::from);
    sent + received == records && commands + data == records
}

/// Adds a record; on a refusal the tally is as found.
pub fn add(tally: &mut Tally, record: &Counted) -> Result<(), Refusal> {
    if !adds_up(tally) {
        return Err(Reason::TallyBroken.at(0));
    }
    let pairs = tally.iter().zip(added(tally, record));
    let sums = pairs.map(|(sum, more)| u128::from(*sum) + u128::from(more));
    let fitting: Vec<u64> = sums.filter_map(|sum| sum.try_into().ok()).collect();
    let Ok(mut after) = Tally::try_from(fitting) else {
        return Err(Reason::TallySum.at(0));
    };
    after[LAST_DROP_NUMBER] = record.cumulative_drops.into();
    *tally = after;
    Ok(())
}

#[cfg(test)]
mod tests {
    use super::*;

    const MOST: u64 = u64::MAX;

    const EMPTY: Tally = [0; 9];

    /// Three records, one of them received, two of them commands.
    const THREE: Tally = [3, 1, 2, 40, 50, 4_294_967_290, 1, 2, 1];

    /// A truncated received command of 4 octets with this drop number.
    fn record(cumulative_drops: u32) -> Counted {
        Counted {
            original_length: 9,
            included_length: 4,
            flags: 3,
            cumulative_drops,
        }
    }

    fn after(tally: Tally, record: Counted) -> Tally {
        let mut after = tally;
        assert_eq!(add(&mut after, &record), Ok(()), "{tally:?}");
        after
    }

    fn refuses(reason: Reason, tally: Tally, record: Counted) {
        let mut after = tally;
        assert_eq!(add(&mut after, &record), Err(reason.at(0)), "{tally:?}");
        assert_eq!(after, tally);
    }

    #[test]
    fn first_record_loses_nothing() {
        assert_eq!(after(EMPTY, record(7)), [1, 1, 1, 4, 0, 7, 1, 0, 0]);
        let found = [0, 0, 0, 0, 0, MOST, 0, 0, 0];
        assert_eq!(after(found, record(7)), [1, 1, 1, 4, 0, 7, 1, 0, 0]);
        let found = [0, 0, 0, 7, MOST, 3, 8, 0, 0];
        assert_eq!(after(found, record(9)), [1, 1, 1, 11, MOST, 9, 9, 0, 0]);
    }

    #[test]
    fn p7_later_records_add_their_difference() {
        let first = after(EMPTY, record(4_294_967_290));
        let second = after(first, record(5));
        assert_eq!(second, [2, 2, 2, 8, 11, 5, 2, 0, 0]);
        assert_eq!(after(second, record(5)), [3, 3, 3, 12, 11, 5, 3, 0, 0]);
        let back = after(second, record(4));
        assert_eq!(back[LOST], 11 + u64::from(u32::MAX));
    }

    #[test]
    fn last_drop_number_modulo_2_to_32() {
        let mut found = THREE;
        found[LAST_DROP_NUMBER] = (6 << 32) + 4_294_967_290;
        assert_eq!(after(found, record(5)), [4, 2, 3, 44, 61, 5, 2, 2, 1]);
        found[LAST_DROP_NUMBER] = MOST;
        assert_eq!(after(found, record(0)), [4, 2, 3, 44, 51, 0, 2, 2, 1]);
    }

    #[test]
    fn flags() {
        for (flags, received, commands) in [(0, 0, 0), (1, 1, 0), (2, 0, 1), (3, 1, 1)] {
            for others in [0, 4, 0x8000_0000, 0xFFFF_FFFC] {
                let flags = flags | others;
                let record = Counted { flags, ..record(0) };
                let (sent, data) = (1 - received, 1 - commands);
                let counted = [1, received, commands, 4, 0, 0, 1, sent, data];
                assert_eq!(after(EMPTY, record), counted);
            }
        }
    }

    #[test]
    fn truncated_below_the_original_length() {
        let lengths = [
            (0, 0, 0),
            (1, 0, 1),
            (9, 8, 1),
            (9, 9, 0),
            (9, 10, 0),
            (0, u32::MAX, 0),
        ];
        for (original_length, included_length, truncated) in lengths {
            let record = Counted {
                original_length,
                included_length,
                ..record(0)
            };
            assert_eq!(after(EMPTY, record)[TRUNCATED], truncated);
        }
    }

    #[test]
    fn each_sum_just_fits_or_passes() {
        // Of the parts of the records, each is the whole in turn.
        for parts in [[1, 1, 0, 0], [0, 0, 1, 1]] {
            let flags = parts[0] + 2 * parts[1];
            let [received, commands, sent, data] = parts.map(|part| part as u64 * (MOST - 1));
            let found = [
                MOST - 1,
                received,
                commands,
                MOST - 4,
                MOST - 11,
                4_294_967_290,
                MOST - 1,
                sent,
                data,
            ];
            let record = Counted { flags, ..record(5) };
            let [received, commands, sent, data] = parts.map(|part| part as u64 * MOST);
            let full = [MOST, received, commands, MOST, MOST, 5, MOST, sent, data];
            assert_eq!(after(found, record), full);
            for sum in [OCTETS, LOST, TRUNCATED] {
                let mut found = found;
                found[sum] += 1;
                refuses(Reason::TallySum, found, record);
            }
            let mut found = full;
            found[OCTETS] = 0;
            found[LOST] = 0;
            found[TRUNCATED] = 0;
            refuses(Reason::TallySum, found, record);
        }
    }

    #[test]
    fn most_that_is_not_added_to_fits() {
        let idle = Counted {
            original_length: 0,
            included_length: 0,
            flags: 0xFFFF_FFFC,
            ..record(8)
        };
        let found = [1, 1, 1, MOST, MOST, 8, MOST, 0, 0];
        assert_eq!(after(found, idle), [2, 1, 1, MOST, MOST, 8, MOST, 1, 1]);
    }

    #[test]
    fn either_sum_broken() {
        for (place, by) in [
            (RECORDS, 1),
            (RECORDS, MOST),
            (RECEIVED, 1),
            (COMMANDS, 1),
            (SENT, MOST),
            (DATA, MOST),
        ] {
            let mut found = THREE;
            found[place] = found[place].wrapping_add(by);
            refuses(Reason::TallyBroken, found, record(5));
        }
        refuses(Reason::TallyBroken, [0, 1, 0, 0, 0, 0, 0, 0, 0], record(5));
        refuses(Reason::TallyBroken, [1, 1, 1, 0, 0, 0, 0, 1, 0], record(5));
    }

    #[test]
    fn sums_equal_modulo_2_to_64() {
        let first = [3, MOST, 2, 40, 50, 5, 1, 4, 1];
        refuses(Reason::TallyBroken, first, record(5));
        let second = [3, 1, 1 << 63, 40, 50, 5, 1, 2, (1 << 63) + 3];
        refuses(Reason::TallyBroken, second, record(5));
        let both = [0, 1, MOST, 0, 0, 5, 0, MOST, 1];
        refuses(Reason::TallyBroken, both, record(5));
    }

    #[test]
    fn broken_before_a_sum_passes() {
        refuses(Reason::TallyBroken, [MOST; 9], record(5));
        refuses(
            Reason::TallyBroken,
            [MOST, MOST, MOST, 0, 0, 5, 0, 0, 1],
            record(5),
        );
        refuses(
            Reason::TallySum,
            [MOST, MOST, MOST, 0, 0, 5, 0, 0, 0],
            record(5),
        );
    }
}
