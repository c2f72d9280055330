//! Questions at the exact ends of every range, asked once.

use super::ask;
use super::editions;
use super::made::{self, Values, ANOTHER, EDITIONS, KNOWN, RESET};
use crate::places::HUGE;
use crate::Session;
use model::radiotap::row;
use random::damage::put;

/// All the ends.
pub fn all(session: &mut Session) {
    cuts(session);
    lengths(session);
    octets(session);
    bits(session);
    after_one_octet(session);
    words(session);
    chained_words(session);
    numbers(session);
    buffers(session);
    write_bits(session);
    write_rooms(session);
}

/// The headers of P8 to P11, one with a field of every row, and one with a continued word, each with a frame behind.
fn headers() -> Vec<Vec<u8>> {
    let words: [(&[u32], usize); 6] = [
        (&[0x0000_002F], 23),
        (&[0xA000_0001, 0x0000_0020], 25),
        (&[0x0000_4002], 12),
        (&[0x0000_4002], 11),
        (&[KNOWN[2]], 74),
        (&[0x8000_0002, 0xA000_0000, 0x0000_0024], 20),
    ];
    let header = |(words, length)| [made::header(words, length), vec![0xC0; 5]].concat();
    words.map(header).to_vec()
}

/// Asks all readers about an input in every edition, and holds the served ones side by side.
fn read(session: &mut Session, input: &[u8]) {
    for number in [0, 1, 2, usize::MAX] {
        ask::word(session, input, number);
    }
    for edition in EDITIONS {
        let shown = ask::read(session, input, edition);
        ask::fields(session, input, edition, 4 * shown + 1);
        for number in [0, shown, shown + 1] {
            ask::field(session, input, edition, number);
        }
    }
    for (first, second) in [(0, 1), (1, 2), (2, 3), (1, 3), (0, 3)] {
        editions::agree(session, input, first, second);
    }
}

/// Every header cut at every length, and short inputs of one octet throughout.
fn cuts(session: &mut Session) {
    for header in headers() {
        for length in 0..=header.len() {
            read(session, &header[..length]);
        }
    }
    for octet in [0, 1, 8, 0x80, 0xFF] {
        for length in 0..=12 {
            read(session, &vec![octet; length]);
        }
    }
}

/// Every header with each length up to above the input, and at the ends.
fn lengths(session: &mut Session) {
    for header in headers() {
        let near = 0..header.len() as u16 + 3;
        for length in near.chain([255, 256, 0x0800, 0x7FFF, 0x8000, 0xFFFF]) {
            let mut input = header.clone();
            put(&mut input, 2, &length.to_le_bytes());
            read(session, &input);
        }
    }
    for length in [65_534, 65_535] {
        let input = [made::header(&[0x0000_0001], length), vec![1]].concat();
        read(session, &input);
        read(session, &input[..length]);
        read(session, &input[..length - 1]);
    }
}

/// Every version and pad, and every bit of the first octets changed.
fn octets(session: &mut Session) {
    for octet in 0..=u8::MAX {
        let mut input = headers()[0].clone();
        input[1] = octet;
        read(session, &input);
        input[0] = octet;
        read(session, &input);
    }
    for header in headers() {
        for bit in 0..12 * 8 {
            let mut input = header.clone();
            input[bit / 8] ^= 1 << (bit % 8);
            read(session, &input);
        }
    }
}

/// Every bit alone and every pair of bits, with the exact length and around it.
fn bits(session: &mut Session) {
    for one in 0..32 {
        for two in 0..32 {
            let word = 1 << one | 1 << two;
            let exact = made::end(&[word], 3);
            for length in [exact - 1, exact, exact + 1] {
                read(session, &made::header(&[word], length));
            }
        }
    }
}

/// Every bit of a second word after a field of one octet in the first.
fn after_one_octet(session: &mut Session) {
    for bit in 0..32 {
        for first in [
            1 << 1,
            RESET | 1 << 1,
            RESET | 1 << 1 | 1 << 2,
            RESET | 1 << 19,
        ] {
            let words = [ANOTHER | first, 1 << bit];
            let exact = made::end(&words, 3);
            for length in exact - 12..=exact + 1 {
                read(session, &made::header(&words, length));
            }
        }
    }
}

/// One to nine words with lengths around their end; the last calls for another or not.
fn words(session: &mut Session) {
    for count in 1..=9 {
        for (before, last) in [
            (ANOTHER, 0),
            (ANOTHER, 1 << 5),
            (ANOTHER | RESET, 1 << 5),
            (ANOTHER, ANOTHER),
            (ANOTHER, u32::MAX),
        ] {
            let mut words = vec![before; count];
            words[count - 1] = last;
            let end = 4 + 4 * count;
            for length in end - 4..=end + 5 {
                let input = made::header(&words, length);
                read(session, &input);
                for number in 3..=10 {
                    ask::word(session, &input, number);
                }
            }
        }
    }
}

/// Eight words, each but the last with bit 29 or without, in every way; the last has a bit that shows or stops, or none.
fn chained_words(session: &mut Session) {
    for resets in 0..128 {
        for last in [0, 1 << 1, 1 << 28, 1 << 30, RESET | 1 << 1] {
            let reset = |index: u32| if resets >> index & 1 == 1 { RESET } else { 0 };
            let mut words: Vec<u32> = (0..7).map(|index| ANOTHER | reset(index)).collect();
            words.push(last);
            let exact = made::end(&words, 3);
            for length in [exact, exact + 1] {
                read(session, &made::header(&words, length));
            }
        }
    }
}

/// Every field number up to past the last, and the largest.
fn numbers(session: &mut Session) {
    for input in headers() {
        for edition in EDITIONS {
            for number in (0..25).chain(HUGE) {
                ask::field(session, &input, edition, number);
                ask::word(session, &input, number);
            }
        }
    }
}

/// Buffers from none to more than the fields take.
fn buffers(session: &mut Session) {
    for input in headers() {
        for edition in EDITIONS {
            let shown = ask::read(session, &input, edition);
            for count in 0..=4 * shown + 5 {
                ask::fields(session, &input, edition, count);
            }
        }
    }
}

/// The octets that the known fields of a presence word take.
fn sizes(presence: u32) -> usize {
    let set = (0..32).filter(|bit| presence >> bit & 1 == 1);
    set.filter_map(row).map(|row| row.size).sum()
}

/// Every bit alone, every pair and all of an edition's, with values of the length and around it.
fn write_bits(session: &mut Session) {
    let pairs = (0..32).flat_map(|one| (0..32).map(move |two| 1 << one | 1 << two));
    for presence in pairs.chain(KNOWN).chain([0, u32::MAX]) {
        for edition in EDITIONS {
            for more in 0..3 {
                let length = (sizes(presence) + more).saturating_sub(1);
                let packed = session.prng.octets(length);
                let output = session.prng.octets(80);
                let values = Values {
                    edition,
                    presence,
                    packed,
                };
                ask::write(session, &output, 3, &values);
            }
        }
    }
}

/// Every room around that of a header, at every place.
fn write_rooms(session: &mut Session) {
    for presence in [0, 1 << 1, 1 << 1 | 1 << 3] {
        for length in 0..20 {
            let output = session.prng.octets(length);
            for place in (0..22).chain(HUGE) {
                let values = Values {
                    edition: session.prng.below(4) as u32,
                    presence,
                    packed: session.prng.octets(sizes(presence)),
                };
                ask::write(session, &output, place, &values);
            }
        }
    }
}
