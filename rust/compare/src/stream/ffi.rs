//! The library's stream functions.
//! Chunks are lent by mutable pointers so that a change made to one can be seen: what is lent by a shared slice the
//! compiler may take to be unchanged.

use zalghimo_sys::{raw, Stream, Taken};

pub use zalghimo_sys::stream::{end, fresh};

/// `zalghimo_stream_take`
pub fn take(state: Stream, chunk: &mut [u8]) -> Taken {
    // SAFETY: the pointer and length are those of a live slice.
    unsafe { raw::zalghimo_stream_take(state, chunk.as_mut_ptr(), chunk.len()) }
}
