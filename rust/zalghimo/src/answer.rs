//! What the library's answers say first: accepted or refused.

use crate::Refusal;
use zalghimo_sys::{Done, Written, REFUSED};

/// The refusal, where the answer that begins so is one.
pub fn refusal(head: Done) -> Option<Refusal> {
    (head.kind == REFUSED).then(|| Refusal::new(head.number, head.place as usize))
}

/// An error where the answer that begins so is a refusal.
pub fn accepted(head: Done) -> Result<(), Refusal> {
    refusal(head).map_or(Ok(()), Err)
}

/// The place after what was written.
pub fn place_after(written: Written) -> Result<usize, Refusal> {
    accepted(written.head()).map(|()| written.next as usize)
}
