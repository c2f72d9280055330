//! The library's answers and functions that common programs are compared with.

use zalghimo_sys::{btsnoop, radiotap, RADIOTAP_MOST_FIELDS};

pub use zalghimo_sys::btsnoop::{check, read_time, record, write_header, write_time};
pub use zalghimo_sys::le::read as le_read;
pub use zalghimo_sys::{Radiotap, Record, Written, STOPPED, VALUES};

/// A record's values beside its packet.
pub struct Values {
    pub original: u32,
    pub flags: u32,
    pub drops: u32,
    pub time: i64,
}

/// Writes a record at a place.
pub fn write_record(output: &mut [u8], place: usize, values: &Values, packet: &[u8]) -> Written {
    let Values {
        original,
        flags,
        drops,
        time,
    } = *values;
    btsnoop::write_record(output, place, original, flags, drops, time, packet)
}

/// Reads a radiotap header and lists word, bit, start and size of its fields.
pub fn radiotap_fields(input: &[u8], edition: u32) -> (Radiotap, Vec<[u64; 4]>) {
    let mut list = vec![0; 4 * RADIOTAP_MOST_FIELDS];
    let answer = radiotap::fields(input, edition, &mut list);
    let (fields, _) = list.as_chunks::<4>();
    (answer, fields[..answer.fields as usize].to_vec())
}
