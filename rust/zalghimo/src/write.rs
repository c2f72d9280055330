//! Writing a BTSnoop file.

use crate::answer::place_after;
#[cfg(doc)]
use crate::Reason;
use crate::{RecordFields, Refusal};
use zalghimo_sys::btsnoop;

/// Octets of a file header.
const HEADER: usize = 16;

/// Octets of a record before its packet.
pub(crate) const RECORD: usize = 24;

/// Writes a file header into an output at a place and answers the place after it.
///
/// An accepted write changes only the octets written.
///
/// # Errors
///
/// In this order: [`Reason::Datalink`], [`Reason::NoRoom`]. Nothing is changed then.
pub fn write_header(output: &mut [u8], place: usize, datalink: u32) -> Result<usize, Refusal> {
    place_after(btsnoop::write_header(output, place, datalink))
}

/// Writes a record into an output at a place and answers the place after it.
///
/// The included length is that of the packet. An accepted write changes only the octets written: 24 and the packet.
///
/// # Errors
///
/// In this order: [`Reason::IncludedAboveOriginal`], [`Reason::NoRoom`]. Nothing is changed then.
///
/// # Examples
///
/// ```
/// use zalghimo::{write_header, write_record, RecordFields};
///
/// let mut output = [0; 64];
/// let fields = RecordFields { original_length: 3, ..Default::default() };
/// let first = write_header(&mut output, 0, 1002)?;
/// let end = write_record(&mut output, first, &fields, &[1, 2, 3])?;
/// assert_eq!(zalghimo::check(&output[..end])?.records, 1);
/// # Ok::<(), zalghimo::Refusal>(())
/// ```
pub fn write_record(
    output: &mut [u8],
    place: usize,
    fields: &RecordFields,
    packet: &[u8],
) -> Result<usize, Refusal> {
    place_after(btsnoop::write_record(
        output,
        place,
        fields.original_length,
        fields.flags,
        fields.cumulative_drops,
        fields.time_field,
        packet,
    ))
}

/// Writes a file header at the end of the octets.
///
/// # Errors
///
/// [`Reason::Datalink`]. The octets are then as before.
pub fn push_header(octets: &mut Vec<u8>, datalink: u32) -> Result<(), Refusal> {
    push(octets, HEADER, |output, place| {
        write_header(output, place, datalink)
    })
}

/// Writes a record at the end of the octets.
///
/// # Errors
///
/// [`Reason::IncludedAboveOriginal`]. The octets are then as before.
pub fn push_record(
    octets: &mut Vec<u8>,
    fields: &RecordFields,
    packet: &[u8],
) -> Result<(), Refusal> {
    push(octets, RECORD + packet.len(), |output, place| {
        write_record(output, place, fields, packet)
    })
}

/// Makes room at the end, writes there, and keeps what was written.
pub(crate) fn push(
    octets: &mut Vec<u8>,
    room: usize,
    write: impl FnOnce(&mut [u8], usize) -> Result<usize, Refusal>,
) -> Result<(), Refusal> {
    let start = octets.len();
    octets.resize(start + room, 0);
    let written = write(octets, start);
    octets.truncate(*written.as_ref().unwrap_or(&start));
    written.map(|_| ())
}
