//! Radiotap headers by words: read and fields.

use super::{row, Row};
use crate::agree::radiotap::{input, NUMBERS};
use crate::library;
use crate::made;
use crate::plain::{bit_by_bit, radiotap};
use crate::timing::{best, reading, writing, Work};
use random::prng::Prng;
use std::cell::RefCell;
use std::hint::black_box;

/// TSFT, flags, rate, channel, antenna signal, antenna.
const SIX_FIELDS: u32 = 0b1000_0010_1111;

/// Flags, rate.
const TWO_FIELDS: u32 = 0b110;

/// The edition that headers are read in.
const EDITION: u32 = 3;

/// Copies of a header that are read one after another.
const COPIES: usize = 64;

/// Headers of differing words and fields.
const MIXED: usize = 1000;

/// Reads each header.
fn read_each<'a, T>(headers: &'a [Vec<u8>], read: impl Fn(&[u8], u32) -> T + 'a) -> Work<'a> {
    reading(move || {
        for header in headers {
            black_box(&read(black_box(header), EDITION));
        }
    })
}

/// Lists the fields of each header.
fn list_each<'a, T>(
    headers: &'a [Vec<u8>],
    list: &'a RefCell<Vec<u64>>,
    read: impl Fn(&'a [u8], u32, &mut [u64]) -> T + 'a,
) -> Work<'a> {
    writing(list, move |list| {
        for header in headers {
            black_box(&read(black_box(header), EDITION, black_box(list)));
        }
    })
}

/// Headers of so many words, or mixed ones: read and fields.
fn headers(words: Option<usize>, headers: &[Vec<u8>]) -> [Row; 2] {
    let count = headers.len();
    let shown = |header: &Vec<u8>| input(header, EDITION, NUMBERS).fields as usize;
    let fields = headers.iter().map(shown).sum::<usize>() / count;
    let read = [
        read_each(headers, library::radiotap_read),
        read_each(headers, |header, edition| {
            black_box(&radiotap::read(header, edition)).is_ok()
        }),
        read_each(headers, |header, edition| {
            black_box(&bit_by_bit::read(header, edition)).is_ok()
        }),
    ];
    let list = RefCell::new(vec![0; NUMBERS]);
    let listing = [
        list_each(headers, &list, library::radiotap_fields),
        list_each(headers, &list, |header, edition, list| {
            black_box(&radiotap::fields(header, edition, list)).is_ok()
        }),
    ];
    let [ours, plain, bits] = best(count, read);
    [
        Row {
            bit_by_bit: Some(bits),
            ..row("read", words, fields, [ours, plain])
        },
        row("fields", words, fields, best(count, listing)),
    ]
}

/// One word with two fields, one to eight words with six each, and mixed headers.
pub fn all() -> Vec<Row> {
    let two = vec![made::header(&[TWO_FIELDS]); COPIES];
    let mut rows = Vec::from(headers(Some(1), &two));
    for words in 1..=8 {
        let six = vec![made::header(&vec![SIX_FIELDS; words]); COPIES];
        rows.extend(headers(Some(words), &six));
    }
    let mut prng = Prng::new(1);
    let known = radiotap::KNOWN[EDITION as usize];
    let mixed: Vec<_> = (0..MIXED)
        .map(|_| made::mixed_header(&mut prng, known))
        .collect();
    rows.extend(headers(None, &mixed));
    rows
}
