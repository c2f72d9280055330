//! The library's radiotap functions, each behind a safe function.
//! Inputs are lent by mutable pointers so that a change made to one can be seen: what is lent by a shared slice the
//! compiler may take to be unchanged.

use zalghimo_sys::raw;

/// `zalghimo_radiotap_read`
pub fn read(input: &mut [u8], edition: u32) -> [u64; 9] {
    // SAFETY: the pointer and length are those of a live slice.
    unsafe { raw::zalghimo_radiotap_read(input.as_mut_ptr(), input.len(), edition) }.row()
}

/// `zalghimo_radiotap_word`
pub fn word(input: &mut [u8], number: usize) -> [u64; 4] {
    // SAFETY: the pointer and length are those of a live slice.
    unsafe { raw::zalghimo_radiotap_word(input.as_mut_ptr(), input.len(), number) }.row()
}

/// `zalghimo_radiotap_field`
pub fn field(input: &mut [u8], edition: u32, number: usize) -> [u64; 7] {
    // SAFETY: the pointer and length are those of a live slice.
    unsafe { raw::zalghimo_radiotap_field(input.as_mut_ptr(), input.len(), edition, number) }.row()
}

/// `zalghimo_radiotap_fields`
pub fn fields(input: &mut [u8], edition: u32, fields: &mut [u64]) -> [u64; 9] {
    // SAFETY: the pointers and lengths are those of live slices.
    unsafe {
        raw::zalghimo_radiotap_fields(
            input.as_mut_ptr(),
            input.len(),
            edition,
            fields.as_mut_ptr(),
            fields.len(),
        )
    }
    .row()
}

/// `zalghimo_radiotap_write`
pub fn write(
    output: &mut [u8],
    place: usize,
    edition: u32,
    presence: u32,
    values: &mut [u8],
) -> [u64; 4] {
    // SAFETY: the pointers and lengths are those of live slices.
    unsafe {
        raw::zalghimo_radiotap_write(
            output.as_mut_ptr(),
            output.len(),
            place,
            edition,
            presence,
            values.as_mut_ptr(),
            values.len(),
        )
    }
    .row()
}
