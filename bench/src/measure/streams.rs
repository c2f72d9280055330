//! Streams by the size of their chunks, for packets of several lengths.

use super::{row, Row};
use crate::agree;
use crate::library;
use crate::made;
use crate::plain::stream::{Event, Stream};
use crate::timing::{best, reading};
use random::prng::Prng;
use std::hint::black_box;

/// Lengths of the packets, and what the works with them are called.
const PACKETS: [(usize, &str); 3] = [
    (64, "64 octets"),
    (256, "256 octets"),
    (1500, "1500 octets"),
];

/// Sizes of the chunks.
const CHUNKS: [usize; 3] = [64, 4 << 10, 64 << 10];

/// About how many octets a stream has.
const OCTETS: usize = 1 << 20;

/// Takes a stream in chunks of a size and folds all that is told into one number.
fn ours(input: &[u8], size: usize) -> u64 {
    let (mut state, mut fold) = (library::stream_fresh(), 0u64);
    for mut chunk in input.chunks(size) {
        while !chunk.is_empty() {
            let taken = library::stream_take(state, chunk);
            if taken.kind == library::REFUSED {
                return fold;
            }
            let numbers = taken.original ^ taken.flags ^ taken.drops ^ taken.time as u64;
            let part = taken.part ^ taken.size ^ taken.position;
            fold = fold.wrapping_add(numbers ^ part ^ taken.start ^ taken.datalink);
            state = taken.state;
            chunk = &chunk[taken.taken as usize..];
        }
    }
    fold ^ library::stream_end(state).number
}

/// The same by plain Rust.
fn plain(input: &[u8], size: usize) -> u64 {
    let (mut stream, mut fold) = (Stream::new(), 0u64);
    for mut chunk in input.chunks(size) {
        while !chunk.is_empty() {
            let Ok(taken) = stream.take(chunk) else {
                return fold;
            };
            let finished = match taken.event {
                Event::Record { start, numbers } => {
                    let lengths = numbers.original_length ^ numbers.flags;
                    let numbers =
                        u64::from(lengths ^ numbers.cumulative_drops) ^ numbers.time as u64;
                    numbers ^ start
                }
                Event::Datalink(datalink) => datalink.into(),
                _ => 0,
            };
            let length = taken.part.len();
            let part = match length {
                0 => 0,
                _ => (taken.taken - length) as u64 ^ length as u64 ^ u64::from(taken.position),
            };
            fold = fold.wrapping_add(finished ^ part);
            chunk = &chunk[taken.taken..];
        }
    }
    fold ^ stream
        .end()
        .map_or_else(|refusal| refusal.number.into(), |()| 0)
}

/// Packets of a length in chunks of every size.
fn packets((length, work): (usize, &'static str)) -> Vec<Row> {
    let records = OCTETS / (24 + length);
    let input = &made::even_capture(&mut Prng::new(length as u64), records, length);
    let chunks = |size| {
        agree::stream::stream(input, || size);
        assert_eq!(ours(input, size), plain(input, size));
        let works = [
            reading(move || ours(black_box(input), size)),
            reading(move || plain(black_box(input), size)),
        ];
        Row {
            octets: Some(24 + length),
            ..row(work, Some(size), records, best(records, works))
        }
    };
    CHUNKS.into_iter().map(chunks).collect()
}

/// Packets of every length.
pub fn all() -> Vec<Row> {
    PACKETS.into_iter().flat_map(packets).collect()
}
