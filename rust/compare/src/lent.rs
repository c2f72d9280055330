//! Octets and numbers lent to the library, with random ones on both sides.

use crate::report::Hex;
use random::prng::Prng;

/// A lent buffer and a copy that the library does not see.
pub struct Lent<T> {
    lent: Vec<T>,
    kept: Vec<T>,
    start: usize,
    end: usize,
}

impl<T: Copy> Lent<T> {
    /// Lends a copy of the content, with 8 to 15 made items on each side.
    fn between(prng: &mut Prng, content: &[T], made: fn(&mut Prng, usize) -> Vec<T>) -> Self {
        let start = 8 + prng.below(8);
        let end = start + content.len();
        let after = 8 + prng.below(8);
        let mut lent = made(prng, start);
        lent.extend_from_slice(content);
        lent.extend(made(prng, after));
        Lent {
            kept: lent.clone(),
            lent,
            start,
            end,
        }
    }

    /// The part that the library is given.
    pub fn lend(&mut self) -> &mut [T] {
        &mut self.lent[self.start..self.end]
    }

    /// The same part of the copy, for the model to write.
    pub fn keep(&mut self) -> &mut [T] {
        &mut self.kept[self.start..self.end]
    }
}

impl Lent<u8> {
    /// Lends octets.
    pub fn new(prng: &mut Prng, content: &[u8]) -> Self {
        Lent::between(prng, content, Prng::octets)
    }

    /// All octets that the library could have changed.
    pub fn seen(&self) -> Hex<'_> {
        Hex(&self.lent)
    }

    /// All octets as they must be.
    pub fn wanted(&self) -> Hex<'_> {
        Hex(&self.kept)
    }
}

impl Lent<u64> {
    /// Lends random numbers.
    pub fn numbers(prng: &mut Prng, count: usize) -> Self {
        let content = prng.numbers(count);
        Lent::of_numbers(prng, &content)
    }

    /// Lends these numbers.
    pub fn of_numbers(prng: &mut Prng, content: &[u64]) -> Self {
        Lent::between(prng, content, Prng::numbers)
    }

    /// All numbers that the library could have changed.
    pub fn seen(&self) -> &[u64] {
        &self.lent
    }

    /// All numbers as they must be.
    pub fn wanted(&self) -> &[u64] {
        &self.kept
    }
}
