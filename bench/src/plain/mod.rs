//! The same work as plain Rust written for speed, with the language's own checks.

pub mod bit_by_bit;
pub mod btsnoop;
pub mod le;
pub mod radiotap;
pub mod stream;

/// Why an input is refused, and where.
#[derive(Clone, Copy, Debug)]
pub struct Refusal {
    pub number: u8,
    pub place: usize,
}

/// A refusal with its number and place.
#[inline]
pub fn refused<T>(number: u8, place: usize) -> Result<T, Refusal> {
    Err(Refusal { number, place })
}
