//! The part of an output that a writer fills.

use crate::refusal::{Reason, Refusal};

/// The `length` octets of the output from a place on.
pub fn room(output: &mut [u8], place: usize, length: usize) -> Result<&mut [u8], Refusal> {
    let behind = output.get_mut(place..);
    let part = behind.and_then(|behind| behind.get_mut(..length));
    part.ok_or(Reason::NoRoom.at(0))
}
