//! The library's answers and the functions that are timed.

use crate::plain::btsnoop::Entry;
use zalghimo_sys::btsnoop;

pub use zalghimo_sys::btsnoop::{check, record, survey, write_header};
pub use zalghimo_sys::le::read as le_read;
pub use zalghimo_sys::radiotap::{fields as radiotap_fields, read as radiotap_read};
pub use zalghimo_sys::stream::{end as stream_end, fresh as stream_fresh, take as stream_take};
pub use zalghimo_sys::{File, Le, Radiotap, Record, Survey, Taken, Written};
pub use zalghimo_sys::{END, FILE_HEADER, MORE, REFUSED, STOPPED, VALUES};

/// Writes a record at a place.
#[inline(always)]
pub fn write_record(output: &mut [u8], place: usize, entry: &Entry) -> Written {
    btsnoop::write_record(
        output,
        place,
        entry.original_length,
        entry.flags,
        entry.cumulative_drops,
        entry.time,
        entry.packet,
    )
}
