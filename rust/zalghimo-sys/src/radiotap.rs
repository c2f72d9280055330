//! The radiotap header.

use crate::{raw, Field, Radiotap, Word, Written};

/// `zalghimo_radiotap_read`
#[inline]
pub fn read(input: &[u8], edition: u32) -> Radiotap {
    unsafe { raw::zalghimo_radiotap_read(input.as_ptr(), input.len(), edition) }
}

/// `zalghimo_radiotap_word`
#[inline]
pub fn word(input: &[u8], number: usize) -> Word {
    unsafe { raw::zalghimo_radiotap_word(input.as_ptr(), input.len(), number) }
}

/// `zalghimo_radiotap_field`
#[inline]
pub fn field(input: &[u8], edition: u32, number: usize) -> Field {
    unsafe { raw::zalghimo_radiotap_field(input.as_ptr(), input.len(), edition, number) }
}

/// `zalghimo_radiotap_fields`
#[inline]
pub fn fields(input: &[u8], edition: u32, fields: &mut [u64]) -> Radiotap {
    let (start, length) = (fields.as_mut_ptr(), fields.len());
    unsafe { raw::zalghimo_radiotap_fields(input.as_ptr(), input.len(), edition, start, length) }
}

/// `zalghimo_radiotap_write`
#[inline]
pub fn write(
    output: &mut [u8],
    place: usize,
    edition: u32,
    presence: u32,
    values: &[u8],
) -> Written {
    unsafe {
        raw::zalghimo_radiotap_write(
            output.as_mut_ptr(),
            output.len(),
            place,
            edition,
            presence,
            values.as_ptr(),
            values.len(),
        )
    }
}
