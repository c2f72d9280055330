//! The library's BTSnoop and time functions, each behind a safe function.
//! Inputs are lent by mutable pointers so that a change made to one can be seen: what is lent by a shared slice the
//! compiler may take to be unchanged.

use model::btsnoop::Fields;
use zalghimo_sys::{btsnoop, raw};

/// `zalghimo_btsnoop_header`
pub fn header(input: &mut [u8]) -> [u64; 4] {
    // SAFETY: the pointer and length are those of a live slice.
    unsafe { raw::zalghimo_btsnoop_header(input.as_mut_ptr(), input.len()) }.row()
}

/// `zalghimo_btsnoop_check`
pub fn check(input: &mut [u8]) -> [u64; 5] {
    // SAFETY: the pointer and length are those of a live slice.
    unsafe { raw::zalghimo_btsnoop_check(input.as_mut_ptr(), input.len()) }.row()
}

/// `zalghimo_btsnoop_record`
pub fn record(input: &mut [u8], place: usize) -> [u64; 10] {
    // SAFETY: the pointer and length are those of a live slice.
    unsafe { raw::zalghimo_btsnoop_record(input.as_mut_ptr(), input.len(), place) }.row()
}

/// `zalghimo_btsnoop_survey`
pub fn survey(input: &mut [u8], place: usize, number: usize) -> [u64; 5] {
    // SAFETY: the pointer and length are those of a live slice.
    unsafe { raw::zalghimo_btsnoop_survey(input.as_mut_ptr(), input.len(), place, number) }.row()
}

/// `zalghimo_btsnoop_earlier`
pub fn earlier(first: &mut [u8], place: usize, second: &mut [u8], other: usize) -> [u64; 6] {
    // SAFETY: the pointers and lengths are those of live slices.
    unsafe {
        raw::zalghimo_btsnoop_earlier(
            first.as_mut_ptr(),
            first.len(),
            place,
            second.as_mut_ptr(),
            second.len(),
            other,
        )
    }
    .row()
}

/// `zalghimo_btsnoop_read_time`
pub fn read_time(field: i64) -> [u64; 5] {
    btsnoop::read_time(field).row()
}

/// `zalghimo_btsnoop_write_time`
pub fn write_time(seconds: i64, microseconds: u32) -> [u64; 4] {
    btsnoop::write_time(seconds, microseconds).row()
}

/// `zalghimo_btsnoop_drops`
pub fn drops(earlier: u32, later: u32) -> u32 {
    btsnoop::drops(earlier, later)
}

/// `zalghimo_btsnoop_write_header`
pub fn write_header(output: &mut [u8], place: usize, datalink: u32) -> [u64; 4] {
    btsnoop::write_header(output, place, datalink).row()
}

/// `zalghimo_btsnoop_write_record`
pub fn write_record(
    output: &mut [u8],
    place: usize,
    fields: &Fields,
    packet: &mut [u8],
) -> [u64; 4] {
    // SAFETY: the pointers and lengths are those of live slices.
    unsafe {
        raw::zalghimo_btsnoop_write_record(
            output.as_mut_ptr(),
            output.len(),
            place,
            fields.original_length,
            fields.flags,
            fields.cumulative_drops,
            fields.time,
            packet.as_mut_ptr(),
            packet.len(),
        )
    }
    .row()
}
