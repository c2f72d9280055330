//! BTSnoop, its times and its tally.

use crate::{raw, Done, Earlier, File, Header, Record, Survey, Time, TimeField, Written};

/// `zalghimo_btsnoop_header`
#[inline]
pub fn header(input: &[u8]) -> Header {
    unsafe { raw::zalghimo_btsnoop_header(input.as_ptr(), input.len()) }
}

/// `zalghimo_btsnoop_check`
#[inline]
pub fn check(input: &[u8]) -> File {
    unsafe { raw::zalghimo_btsnoop_check(input.as_ptr(), input.len()) }
}

/// `zalghimo_btsnoop_record`
#[inline]
pub fn record(input: &[u8], place: usize) -> Record {
    unsafe { raw::zalghimo_btsnoop_record(input.as_ptr(), input.len(), place) }
}

/// `zalghimo_btsnoop_survey`
#[inline]
pub fn survey(input: &[u8], place: usize, number: usize) -> Survey {
    unsafe { raw::zalghimo_btsnoop_survey(input.as_ptr(), input.len(), place, number) }
}

/// `zalghimo_btsnoop_earlier`
#[inline]
pub fn earlier(first: &[u8], first_place: usize, second: &[u8], second_place: usize) -> Earlier {
    unsafe {
        raw::zalghimo_btsnoop_earlier(
            first.as_ptr(),
            first.len(),
            first_place,
            second.as_ptr(),
            second.len(),
            second_place,
        )
    }
}

/// `zalghimo_btsnoop_read_time`
#[inline]
pub fn read_time(field: i64) -> Time {
    unsafe { raw::zalghimo_btsnoop_read_time(field) }
}

/// `zalghimo_btsnoop_drops`
#[inline]
pub fn drops(earlier: u32, later: u32) -> u32 {
    unsafe { raw::zalghimo_btsnoop_drops(earlier, later) }
}

/// `zalghimo_btsnoop_tally`
#[inline]
pub fn tally(tally: &mut [u64; 9], original: u32, included: u32, flags: u32, drops: u32) -> Done {
    unsafe { raw::zalghimo_btsnoop_tally(tally.as_mut_ptr(), original, included, flags, drops) }
}

/// `zalghimo_btsnoop_write_time`
#[inline]
pub fn write_time(seconds: i64, microseconds: u32) -> TimeField {
    unsafe { raw::zalghimo_btsnoop_write_time(seconds, microseconds) }
}

/// `zalghimo_btsnoop_write_header`
#[inline]
pub fn write_header(output: &mut [u8], place: usize, datalink: u32) -> Written {
    let (start, length) = (output.as_mut_ptr(), output.len());
    unsafe { raw::zalghimo_btsnoop_write_header(start, length, place, datalink) }
}

/// `zalghimo_btsnoop_write_record`
#[inline]
pub fn write_record(
    output: &mut [u8],
    place: usize,
    original: u32,
    flags: u32,
    drops: u32,
    time: i64,
    packet: &[u8],
) -> Written {
    unsafe {
        raw::zalghimo_btsnoop_write_record(
            output.as_mut_ptr(),
            output.len(),
            place,
            original,
            flags,
            drops,
            time,
            packet.as_ptr(),
            packet.len(),
        )
    }
}
