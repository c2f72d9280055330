//! The C boundary of `libzalghimo.a`, as `include/zalghimo.h` has it: the structs that are answered, their kinds, and
//! the functions, in [`raw`] as they are and in [`btsnoop`], [`stream`], [`le`] and [`radiotap`] each behind a safe
//! one.
//!
//! A safe function has its C function's parameters in their order, with a slice for a pointer and its length. What it
//! answers and refuses stands in the header.
//!
//! # Safety
//!
//! Every call of a C function here is sound for the same reason. The library asks that pointer and length are those of
//! a live buffer, that no pointer is null, and that a buffer that is written shares nothing with another; it keeps no
//! pointer. Each pointer and length here are those of one slice or array, which is borrowed for the call and whose
//! pointer is never null, and each one that is written is borrowed alone.

mod answers;
pub mod btsnoop;
pub mod le;
pub mod radiotap;
pub mod raw;
pub mod stream;

pub use answers::{Done, Earlier, Field, File, Header, Le, Radiotap};
pub use answers::{Record, Stream, Survey, Taken, Time, TimeField, Word, Written};

/// What an answer's kind says: refused, with number and place.
pub const REFUSED: u64 = 0;

/// Values.
pub const VALUES: u64 = 1;

/// The end.
pub const END: u64 = 2;

/// More, from the place reached.
pub const MORE: u64 = 3;

/// A radiotap header read up to a bit that the edition does not know.
pub const STOPPED: u64 = 4;

/// A stream's file header is whole.
pub const FILE_HEADER: u64 = 5;

/// The most fields that a radiotap header can have.
pub const RADIOTAP_MOST_FIELDS: usize = 232;
