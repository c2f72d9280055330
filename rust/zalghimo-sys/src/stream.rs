//! BTSnoop as it arrives.

use crate::{raw, Stream, Taken};

/// `zalghimo_stream_fresh`
#[inline]
pub fn fresh() -> Stream {
    unsafe { raw::zalghimo_stream_fresh() }
}

/// `zalghimo_stream_take`
#[inline]
pub fn take(state: Stream, chunk: &[u8]) -> Taken {
    unsafe { raw::zalghimo_stream_take(state, chunk.as_ptr(), chunk.len()) }
}

/// `zalghimo_stream_end`
#[inline]
pub fn end(state: Stream) -> Taken {
    unsafe { raw::zalghimo_stream_end(state) }
}
