//! Questions for the radiotap readers.

use super::{BUFFER, FIELD, FIELDS, KNOWN, READ, ROWS, WORD};
use crate::question::Question;
use model::radiotap::row;

/// What each number of a buffer is at first: no field has it.
const UNTOUCHED: u64 = 99_999;

/// The bit that calls for another word, and the one that lets it start again.
const ANOTHER: u32 = 1 << 31;
const RESET: u32 = 1 << 29;

/// A header of these words and this length, at least up to the words' end, all other octets 0.
fn header(words: &[u32], length: usize) -> Vec<u8> {
    let mut octets = vec![0, 0];
    octets.extend((length as u16).to_le_bytes());
    octets.extend(words.iter().flat_map(|word| word.to_le_bytes()));
    octets.resize(octets.len().max(length), 0);
    octets
}

/// The inputs of P8 to P11.
fn examples() -> [Vec<u8>; 4] {
    [
        header(&[0x0000_002F], 23),
        header(&[0xA000_0001, 0x0000_0020], 25),
        header(&[0x0000_4002], 12),
        header(&[0x0000_4002], 11),
    ]
}

fn read(input: &[u8], edition: u32) -> Question {
    Question::new(READ, &[edition.into()], input, &[])
}

fn word(input: &[u8], number: u64) -> Question {
    Question::new(WORD, &[number], input, &[])
}

fn field(input: &[u8], edition: u32, number: u64) -> Question {
    Question::new(FIELD, &[edition.into(), number], input, &[])
}

fn fields(input: &[u8], edition: u32, count: usize) -> Question {
    assert!(count <= BUFFER);
    let numbers = [edition.into(), count as u64, UNTOUCHED];
    Question::new(FIELDS, &numbers, input, &[])
}

/// All questions for the readers.
pub fn questions(list: &mut Vec<Question>) {
    proved_set(list);
    editions(list);
    fixed_headers(list);
    orders(list);
    word_counts(list);
    word_numbers(list);
    rows_alone(list);
    rows_after_one_octet(list);
    rows_one_octet_short(list);
    unknown_bits(list);
    continued_words(list);
    fields_past_length(list);
    octets_left(list);
    field_numbers(list);
    field_values(list);
    buffers(list);
}

/// P8 to P11, whole in every edition and with all fields.
fn proved_set(list: &mut Vec<Question>) {
    for input in examples() {
        for edition in 0..=3 {
            list.push(read(&input, edition));
        }
        list.push(fields(&input, 2, 24));
    }
}

/// Editions past those served, and fields that an older edition doesn't know.
fn editions(list: &mut Vec<Question>) {
    let [_, _, p10, _] = examples();
    for edition in [4, u32::MAX] {
        list.push(read(&p10, edition));
        list.push(field(&p10, edition, 0));
        list.push(fields(&p10, edition, 8));
        list.push(read(&[], edition));
    }
    let all = header(&[KNOWN[2]], 68);
    for edition in 0..=3 {
        list.push(fields(&all, edition, if edition == 3 { 64 } else { 8 }));
    }
    for bit in [14, 15, 16, 17] {
        list.push(read(&header(&[1 << bit], 10), 1));
    }
    for bit in [19, 20, 21] {
        list.push(read(&header(&[1 << bit], 20), 2));
    }
}

/// Input lengths, versions, pads and header lengths.
fn fixed_headers(list: &mut Vec<Question>) {
    let [p8, ..] = examples();
    for length in [0, 1, 7] {
        list.push(read(&p8[..length], 1));
        list.push(word(&p8[..length], 0));
    }
    for version in [1, 0xFF] {
        let mut input = p8.clone();
        input[0] = version;
        list.push(read(&input, 1));
        list.push(word(&input, 0));
    }
    let mut pad = p8.clone();
    pad[1] = 0xA5;
    list.push(read(&pad, 1));
    for length in [0, 7, 8, 22, 24, 0x1700, 0xFFFF] {
        let mut input = p8.clone();
        input[2..4].copy_from_slice(&u16::to_le_bytes(length));
        list.push(read(&input, 1));
    }
    for length in [7, 8, 9] {
        list.push(read(&header(&[0], length), 1));
    }
    list.push(read(&header(&[0], 9)[..8], 1));
    list.push(word(&header(&[0], 7), 0));
}

/// Inputs that several refusals fit.
fn orders(list: &mut Vec<Question>) {
    let mut input = header(&[u32::MAX], 9);
    list.push(read(&input, 1));
    input[2] = 7;
    list.push(read(&input, 1));
    input[0] = 1;
    list.push(read(&input, 1));
    list.push(read(&input[..7], 1));
    list.push(read(&input[..7], 4));
    list.push(read(&input, u32::MAX));
    list.push(field(&input, 1, 0));
    list.push(fields(&input, 1, 4));
}

/// Words of which all but the last call for another, which starts again.
fn chain(count: usize, last: u32) -> Vec<u32> {
    let mut words = vec![ANOTHER | RESET; count];
    words[count - 1] = last;
    words
}

/// One to nine words, with the length at their end and before it.
fn word_counts(list: &mut Vec<Question>) {
    for count in 1..=9 {
        let end = 4 + 4 * count;
        list.push(fields(&header(&chain(count, 0x22), end + 2), 1, 8));
    }
    for count in [2, 8] {
        let end = 4 + 4 * count;
        list.push(read(&header(&chain(count, 0), end - 1), 1));
        list.push(read(&header(&chain(count, 0), end), 1));
    }
    list.push(read(&header(&chain(8, ANOTHER), 36), 1));
    list.push(read(&header(&chain(8, ANOTHER), 35), 1));
    list.push(read(&header(&chain(9, 0), 36), 1));
    list.push(read(&header(&[ANOTHER], 8), 1));
}

/// Word numbers below, at and past the number of words.
fn word_numbers(list: &mut Vec<Question>) {
    let [p8, p9, _, p11] = examples();
    for number in [0, 1, u64::MAX] {
        list.push(word(&p8, number));
    }
    for number in [0, 1, 2, 1 << 32] {
        list.push(word(&p9, number));
    }
    let eight = header(&chain(8, 0x7FFF_FFFF), 36);
    for number in [6, 7, 8] {
        list.push(word(&eight, number));
    }
    list.push(word(&p11, 0));
    list.push(word(&header(&chain(9, 0), 40), 0));
    list.push(word(&header(&[ANOTHER], 11), 0));
}

/// Each row on its own, with the exact length.
fn rows_alone(list: &mut Vec<Question>) {
    for bit in ROWS {
        let size = row(bit).expect("a known bit").size;
        list.push(fields(&header(&[1 << bit], 8 + size), 3, 4));
    }
}

/// Each row in a second word, after a field of one octet in the first.
fn rows_after_one_octet(list: &mut Vec<Question>) {
    for bit in ROWS {
        let words = [ANOTHER | RESET | 1 << 1, 1 << bit];
        list.push(fields(&header(&words, 28), 3, 8));
    }
}

/// A row of each kind on its own, with a length of one octet less.
fn rows_one_octet_short(list: &mut Vec<Question>) {
    for bit in [0, 1, 3, 4, 14, 16, 19, 20, 21] {
        let size = row(bit).expect("a known bit").size;
        list.push(read(&header(&[1 << bit], 7 + size), 3));
    }
}

/// Bits that no edition knows, bits without a field, and bit 30.
fn unknown_bits(list: &mut Vec<Question>) {
    for bit in [18, 22, 23, 24, 25, 26, 27, 28, 29, 30] {
        list.push(read(&header(&[1 << bit], 8), 3));
    }
    list.push(read(&header(&[ANOTHER, 0], 12), 3));
    list.push(read(&header(&[1 << 30 | 1 << 1], 9), 1));
    list.push(read(&header(&[ANOTHER | 1 << 29, 1 << 30], 12), 2));
    list.push(fields(&header(&[1 << 18 | 1 << 2 | 1 << 19], 16), 3, 8));
    let words = [ANOTHER | RESET | 1 << 1, ANOTHER | 1 << 28, 1 << 2];
    list.push(fields(&header(&words, 20), 3, 8));
    list.push(fields(&header(&[7 << 29 | 1 << 1, 1 << 2], 14), 3, 8));
    list.push(fields(&header(&[5 << 29 | 1 << 1, 1 << 2], 14), 3, 8));
}

/// Words behind one without bit 29, in every edition: empty, with bit 29, and with bits that stop a reading; and bit 30
/// beside bit 29.
fn continued_words(list: &mut Vec<Question>) {
    let flags = ANOTHER | 1 << 1;
    let headers: [&[u32]; 12] = [
        &[flags, 0],
        &[flags, RESET],
        &[flags, ANOTHER | RESET, 1 << 2 | 1 << 5],
        &[flags, ANOTHER, 1 << 2],
        &[flags | RESET, ANOTHER, 1 << 2],
        &[flags | RESET, ANOTHER | 1 << 2, ANOTHER | RESET, 1 << 5],
        &[flags, 1 << 30],
        &[flags, RESET | 1 << 30],
        &[flags | RESET | 1 << 30, 1 << 2],
        &[flags, 1 << 28],
        &[flags, 1 << 28 | 1 << 30],
        &[flags, 1 << 0],
    ];
    for words in headers {
        let input = header(words, 24);
        for edition in 0..=3 {
            list.push(read(&input, edition));
            list.push(field(&input, edition, 1));
        }
        list.push(fields(&input, 3, 16));
    }
    // A known field of a word that starts again runs past the length; of a continued word it stops the reading.
    for again in [0, RESET] {
        list.push(read(&header(&[flags | again, 1 << 2], 13), 1));
    }
    let eight = [ANOTHER; 7].into_iter().chain([1 << 1]);
    list.push(fields(&header(&eight.collect::<Vec<_>>(), 40), 3, 8));
}

/// Fields that run past the length, after alignment and after other fields.
fn fields_past_length(list: &mut Vec<Question>) {
    for length in [8, 9, 10, 13, 14] {
        list.push(read(&header(&[1 << 1 | 1 << 3], length), 1));
    }
    let words = [ANOTHER | RESET | 1 << 1, 1 << 0];
    for length in [12, 13, 16, 23] {
        list.push(read(&header(&words, length), 1));
    }
    let stop = header(&[1 << 1 | 1 << 14 | 1 << 15], 11);
    list.push(read(&stop, 1));
    list.push(read(&stop, 2));
    list.push(fields(&stop, 2, 8));
    list.push(field(&stop, 2, 0));
    let behind = [header(&[1 << 3], 11), vec![0xC0; 4]].concat();
    list.push(read(&behind, 1));
}

/// Octets between the last field and the length, and a frame behind.
fn octets_left(list: &mut Vec<Question>) {
    for length in [9, 10, 16] {
        let input = [header(&[1 << 1], length), vec![0xC0; 3]].concat();
        list.push(read(&input, 1));
    }
    let frame = [header(&[0], 8), vec![0xFF; 6]].concat();
    list.push(read(&frame, 1));
    let stopped = [header(&[1 << 1 | 1 << 14], 12), (1..=5).collect()].concat();
    list.push(read(&stopped, 1));
    list.push(read(&stopped, 2));
    list.push(read(&stopped, 4));
}

/// Field numbers below, at and past those shown.
fn field_numbers(list: &mut Vec<Question>) {
    let [p8, p9, p10, p11] = examples();
    for number in [0, 1, 2, 3, 4, 5, 6, u64::MAX] {
        list.push(field(&p8, 1, number));
    }
    for number in [0, 1, 2] {
        list.push(field(&p9, 3, number));
    }
    for number in [1, 2] {
        list.push(field(&p10, 2, number));
    }
    for number in [0, 1, 2, u64::MAX] {
        list.push(field(&p10, 0, number));
    }
    list.push(field(&p11, 1, 1));
    list.push(field(&p11, 2, 0));
    list.push(field(&p11, 2, 9));
    list.push(field(&header(&[0], 8), 1, 0));
}

/// A header of one word, with these octets behind the word.
fn header_with(word: u32, octets: &[u8]) -> Vec<u8> {
    let mut input = header(&[word], 8 + octets.len());
    input[8..].copy_from_slice(octets);
    input
}

/// Fields of signed dBm at the ends of the range and beside others, and long fields.
fn field_values(list: &mut Vec<Question>) {
    let signed = 1 << 5 | 1 << 6 | 1 << 10;
    for octets in [[0x80, 0xFF, 0x7F], [0x00, 0x01, 0x81]] {
        for number in 0..3 {
            list.push(field(&header_with(signed, &octets), 1, number));
        }
    }
    let others = header_with(1 << 2 | 1 << 10 | 1 << 11 | 1 << 18, &[0xF1, 0xF2, 0xF3]);
    for number in 0..4 {
        list.push(field(&others, 3, number));
    }
    let octets: Vec<u8> = (1..=22).collect();
    for number in 0..2 {
        list.push(field(&header_with(1 << 20 | 1 << 21, &octets), 3, number));
    }
}

/// Buffers from none to more than the fields take.
fn buffers(list: &mut Vec<Question>) {
    let [p8, _, p10, p11] = examples();
    for count in [0, 1, 3, 4, 5, 19, 20, 21] {
        list.push(fields(&p8, 1, count));
    }
    list.push(fields(&p10, 1, 0));
    list.push(fields(&p10, 1, 3));
    list.push(fields(&p11, 2, 0));
    list.push(fields(&p11, 1, 8));
}
