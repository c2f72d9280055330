//! The library's LE functions, each behind a safe function.
//! Inputs are lent by mutable pointers so that a change made to one can be seen: what is lent by a shared slice the
//! compiler may take to be unchanged.

use model::le::Values;
use zalghimo_sys::raw;

/// `zalghimo_le_read`
pub fn read(input: &mut [u8]) -> [u64; 14] {
    // SAFETY: the pointer and length are those of a live slice.
    unsafe { raw::zalghimo_le_read(input.as_mut_ptr(), input.len()) }.row()
}

/// `zalghimo_le_write`
pub fn write(output: &mut [u8], place: usize, values: &Values, packet: &mut [u8]) -> [u64; 4] {
    // SAFETY: the pointers and lengths are those of live slices.
    unsafe {
        raw::zalghimo_le_write(
            output.as_mut_ptr(),
            output.len(),
            place,
            values.rf_channel,
            values.signal,
            values.noise,
            values.offences,
            values.reference,
            values.flags,
            packet.as_mut_ptr(),
            packet.len(),
        )
    }
    .row()
}
