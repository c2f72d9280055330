//! How streams are cut, and states that no call left.

use crate::btsnoop::made::word;
use model::stream::MOST_OCTETS;
use random::prng::Prng;
use zalghimo_sys::Stream;

/// Chunk lengths around those of the headers.
const LENGTHS: [usize; 12] = [0, 1, 2, 8, 15, 16, 17, 23, 24, 25, 26, 40];

/// A stream longer than this is mostly cut into long chunks.
const LONG: usize = 4096;

/// How long chunks are.
#[derive(Clone, Copy)]
pub enum Cut {
    Each(usize),
    Below(usize),
    Mixed,
}

impl Cut {
    /// A way to cut a stream of a length.
    pub fn any(prng: &mut Prng, length: usize) -> Cut {
        if length > LONG && !prng.one_in(16) {
            return prng.pick(&[Cut::Below(5000), Cut::Each(1500), Cut::Each(usize::MAX)]);
        }
        match prng.below(10) {
            0 => Cut::Each(1),
            1 => Cut::Each(prng.pick(&LENGTHS[1..])),
            2 | 3 => Cut::Below(6),
            4 => Cut::Below(60),
            5 => Cut::Each(usize::MAX),
            _ => Cut::Mixed,
        }
    }

    /// The length of the next chunk, where there are so many octets.
    pub fn length(self, prng: &mut Prng) -> usize {
        match self {
            Cut::Each(length) => length,
            Cut::Below(bound) => prng.below(bound),
            Cut::Mixed if prng.one_in(8) => prng.below(5000),
            Cut::Mixed => prng.pick(&LENGTHS),
        }
    }
}

/// Octets of whole records that came before: none, so many that the stream comes near its most octets, or any.
pub fn before(prng: &mut Prng, length: usize) -> u64 {
    let last = MOST_OCTETS - length as u64;
    match prng.below(8) {
        0 => last - prng.below(3) as u64,
        1 => MOST_OCTETS - 16 - prng.below(length + 1) as u64,
        2 => last.min(1 << 32) + prng.below(48) as u64 - 24,
        3 => 24 + prng.bits() % (last - 24),
        _ => 0,
    }
}

/// A number of octets taken: near the ends of every range.
pub fn octets(prng: &mut Prng) -> u64 {
    let near = prng.below(80) as u64;
    match prng.below(6) {
        0 => MOST_OCTETS - near,
        1 => MOST_OCTETS + near,
        2 => u64::MAX - near,
        3 => prng.bits(),
        _ => near,
    }
}

/// A state that no call left, or that one may have left.
pub fn state(prng: &mut Prng, stream: &[u8]) -> Stream {
    let counts = [0, 1, 15, 16, 17, 23, 24, 25, 1 << 32, u64::MAX];
    let mut held = [0; 24];
    held.copy_from_slice(&prng.octets(24));
    if prng.one_in(2) {
        let from = prng.pick(&[0, 16, stream.len() / 2]);
        let there = stream.get(from..).unwrap_or_default();
        held.iter_mut()
            .zip(there)
            .for_each(|(to, from)| *to = *from);
    }
    Stream {
        phase: prng.pick(&[0, 1, 1, 2, 2, 2, 3, 4, 5, 1 << 32, (1 << 32) + 1, u64::MAX]),
        number: prng.pick(&[0, 1, 7, 32, u64::from(u32::MAX), u64::MAX]),
        place: octets(prng),
        octets: octets(prng),
        count: prng.pick(&counts),
        done: match prng.below(4) {
            0 => word(prng).into(),
            1 => prng.pick(&counts),
            2 => prng.bits(),
            _ => prng.below(9) as u64,
        },
        held,
    }
}

/// A state that a call left with one thing changed.
pub fn changed(prng: &mut Prng, stream: &[u8], left: Stream) -> Stream {
    let made = state(prng, stream);
    let mut state = left;
    match prng.below(6) {
        0 => state.phase = made.phase,
        1 => state.octets = made.octets,
        2 => state.count = made.count,
        3 => state.done = made.done,
        4 => state.held = made.held,
        _ => (state.number, state.place) = (made.number, made.place),
    }
    state
}
