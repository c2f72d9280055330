//! Questions about the tally, and the model's answers.

use crate::question::{decimal, Question};
use model::rows::done;
use model::tally::{self, Counted, Tally};
use model::tally::{
    COMMANDS, DATA, LAST_DROP_NUMBER, LOST, OCTETS, RECEIVED, RECORDS, SENT, TRUNCATED,
};

const TALLY: u8 = 18;

const MOST: u64 = u64::MAX;

/// Numbers that are all different, and add up.
const ALL_DIFFERENT: Tally = [30, 20, 17, 40, 50, 4, 6, 10, 13];

/// The drop number of P7's first record.
const EARLIER: u64 = 4_294_967_290;

/// A received command of 4 octets, truncated, with the drop number of P7's second record.
const SAMPLE: Counted = Counted {
    original_length: 9,
    included_length: 4,
    flags: 3,
    cumulative_drops: 5,
};

/// The model's answer, without the op: of a tally lent as nine numbers, and of one lent as such,
/// whose last drop number has 32 bits.
pub fn answer(question: &Question) -> String {
    let [original, included, flags, drops, _] = question.numbers;
    let record = Counted {
        original_length: original as u32,
        included_length: included as u32,
        flags: flags as u32,
        cumulative_drops: drops as u32,
    };
    let found = numbers(&question.first);
    let mut lent = found;
    lent[LAST_DROP_NUMBER] %= 1 << 32;
    format!("{} {}", updated(found, &record), updated(lent, &record))
}

/// The answer to an update, and the tally afterwards.
fn updated(mut tally: Tally, record: &Counted) -> String {
    let row = done(tally::add(&mut tally, record));
    decimal(&[&row[..], &tally].concat())
}

/// The nine numbers of a tally's octets.
fn numbers(octets: &[u8]) -> Tally {
    let (parts, rest) = octets.as_chunks();
    assert!(rest.is_empty());
    let numbers: Vec<u64> = parts.iter().map(|part| u64::from_be_bytes(*part)).collect();
    numbers.try_into().expect("nine numbers")
}

/// A question about adding a record to a tally.
fn add(tally: Tally, record: Counted) -> Question {
    let octets: Vec<u8> = tally.into_iter().flat_map(u64::to_be_bytes).collect();
    let numbers = [
        record.original_length.into(),
        record.included_length.into(),
        record.flags.into(),
        record.cumulative_drops.into(),
    ];
    Question::new(TALLY, &numbers, &octets, &[])
}

/// All questions.
pub fn questions() -> Vec<Question> {
    let mut list = Vec::new();
    first_records(&mut list);
    drop_differences(&mut list);
    flags(&mut list);
    lengths(&mut list);
    sums(&mut list);
    sums_not_added_to(&mut list);
    sums_broken(&mut list);
    sums_broken_modulo(&mut list);
    sums_broken_and_past(&mut list);
    list
}

/// Records met while records is 0.
fn first_records(list: &mut Vec<Question>) {
    list.push(add([0; 9], SAMPLE));
    list.push(add([0, 0, 0, 0, 0, EARLIER, 0, 0, 0], SAMPLE));
    list.push(add([0, 0, 0, 9, MOST, MOST, 7, 0, 0], SAMPLE));
}

/// Later records after drop numbers below and above 2^32, P7 first.
fn drop_differences(list: &mut Vec<Question>) {
    for last in [EARLIER, 5, 6, 0, (1 << 32) + EARLIER, (1 << 63) + 6, MOST] {
        list.push(add([1, 1, 0, 4, 100, last, 0, 0, 1], SAMPLE));
    }
}

/// Each of the two bits that are counted, and others.
fn flags(list: &mut Vec<Question>) {
    for flags in [0, 1, 2, 0xFFFF_FFFC, u32::MAX] {
        let record = Counted { flags, ..SAMPLE };
        list.push(add(ALL_DIFFERENT, record));
    }
}

/// Included lengths below, at and above the original, and the longest packet.
fn lengths(list: &mut Vec<Question>) {
    let most = u32::MAX;
    for (original_length, included_length) in [
        (9, 8),
        (9, 9),
        (0, 1),
        (0, 0),
        (most, most),
        (most, most - 1),
        (1, 0),
    ] {
        let record = Counted {
            original_length,
            included_length,
            ..SAMPLE
        };
        list.push(add(ALL_DIFFERENT, record));
    }
}

/// The tally whose sums a record with these flags brings to the most.
fn just_fitting(flags: u32) -> Tally {
    let all = MOST - 1;
    let [received, commands] = [flags & 1, flags >> 1 & 1].map(|bit| all * u64::from(bit));
    let last = (3 << 32) + EARLIER;
    [
        all,
        received,
        commands,
        MOST - 4,
        MOST - 11,
        last,
        all,
        all - received,
        all - commands,
    ]
}

/// All sums just fitting, then each alone just passing.
fn sums(list: &mut Vec<Question>) {
    for flags in 0..4 {
        let record = Counted { flags, ..SAMPLE };
        let fitting = just_fitting(flags);
        list.push(add(fitting, record));
        for sum in [OCTETS, LOST, TRUNCATED] {
            let mut tally = fitting;
            tally[sum] += 1;
            list.push(add(tally, record));
        }
        let mut tally = fitting.map(|number| if number == MOST - 1 { MOST } else { number });
        tally[TRUNCATED] = 0;
        list.push(add(tally, record));
    }
}

/// Sums at the most that a record leaves as they are.
fn sums_not_added_to(list: &mut Vec<Question>) {
    let idle = Counted {
        original_length: 0,
        included_length: 0,
        flags: 0xFFFF_FFFC,
        ..SAMPLE
    };
    list.push(add([1, 1, 1, MOST, MOST, 5, MOST, 0, 0], idle));
    list.push(add([MOST, 0, 0, 0, 0, 5, 0, MOST, MOST], idle));
}

/// Either sum broken by one more and one less in each of its numbers, and both; an empty tally too.
fn sums_broken(list: &mut Vec<Question>) {
    for place in [RECORDS, RECEIVED, COMMANDS, SENT, DATA] {
        for step in [1, MOST] {
            let mut tally = ALL_DIFFERENT;
            tally[place] = tally[place].wrapping_add(step);
            list.push(add(tally, SAMPLE));
        }
        let mut tally = [0; 9];
        tally[place] = 1;
        list.push(add(tally, SAMPLE));
    }
    let mut swapped = ALL_DIFFERENT;
    swapped.swap(RECEIVED, COMMANDS);
    list.push(add(swapped, SAMPLE));
}

/// The first sum, the second and both broken, but not modulo 2^64.
fn sums_broken_modulo(list: &mut Vec<Question>) {
    let [records, ..] = ALL_DIFFERENT;
    for above in [records + 1, 1 << 63, MOST] {
        let rest = records.wrapping_sub(above);
        let mut first = ALL_DIFFERENT;
        first[RECEIVED] = above;
        first[SENT] = rest;
        list.push(add(first, SAMPLE));
        let mut both = first;
        both[COMMANDS] = rest;
        both[DATA] = above;
        list.push(add(both, SAMPLE));
        let mut second = ALL_DIFFERENT;
        second[COMMANDS] = above;
        second[DATA] = rest;
        list.push(add(second, SAMPLE));
    }
}

/// A broken sum beside one that would pass 2^64 - 1: 23 before 16.
fn sums_broken_and_past(list: &mut Vec<Question>) {
    list.push(add([MOST; 9], SAMPLE));
    list.push(add([MOST, MOST, MOST, 0, 0, 5, 0, 0, 1], SAMPLE));
    for sum in [OCTETS, LOST, TRUNCATED] {
        let mut tally = ALL_DIFFERENT;
        tally[sum] = MOST;
        list.push(add(tally, SAMPLE));
        tally[SENT] += 1;
        list.push(add(tally, SAMPLE));
    }
}
