//! One BTSnoop record.

use crate::answer::accepted;
use crate::write::RECORD;
#[cfg(doc)]
use crate::Reason;
use crate::{Refusal, Time};
use zalghimo_sys::{btsnoop, END};

/// The numbers of a record that its packet does not tell.
#[derive(Clone, Copy, Debug, Default, PartialEq, Eq, Hash)]
pub struct RecordFields {
    /// Length of the packet before it was cut, at least that of the packet.
    pub original_length: u32,
    /// Flags, all 32 bits: bit 0 received, bit 1 command or event.
    pub flags: u32,
    /// Packets lost since the capture began, modulo 2^32.
    pub cumulative_drops: u32,
    /// Time as it stands in the file; [`Time`] converts it.
    pub time_field: i64,
}

impl RecordFields {
    /// Whether the packet was received (flag bit 0), not sent.
    pub fn is_received(&self) -> bool {
        self.flags & 1 != 0
    }

    /// Whether the packet is a command or event (flag bit 1), not data.
    pub fn is_command(&self) -> bool {
        self.flags & 2 != 0
    }

    /// Time in Unix seconds and microseconds.
    ///
    /// # Errors
    ///
    /// [`Reason::Time`], as [`Time::from_field`] gives it. The record is whole all the same.
    pub fn time(&self) -> Result<Time, Refusal> {
        Time::from_field(self.time_field)
    }
}

/// A record of a capture.
#[derive(Clone, Copy, Debug, PartialEq, Eq, Hash)]
pub struct Record<'a> {
    place: usize,
    next_place: usize,
    fields: RecordFields,
    packet: &'a [u8],
}

impl<'a> Record<'a> {
    /// The record at a place, with its packet.
    pub(crate) fn new(place: usize, fields: RecordFields, packet: &'a [u8]) -> Record<'a> {
        Record {
            place,
            next_place: place + RECORD + packet.len(),
            fields,
            packet,
        }
    }

    /// Where the record starts.
    pub fn place(&self) -> usize {
        self.place
    }

    /// Where the next record starts, or the input's end.
    pub fn next_place(&self) -> usize {
        self.next_place
    }

    /// The numbers with which [`write_record`](crate::write_record) writes it again.
    pub fn fields(&self) -> &RecordFields {
        &self.fields
    }

    /// Length of the packet before it was cut.
    pub fn original_length(&self) -> u32 {
        self.fields.original_length
    }

    /// Length of the packet in the file.
    pub fn included_length(&self) -> u32 {
        self.packet.len() as u32
    }

    /// Flags, all 32 bits.
    pub fn flags(&self) -> u32 {
        self.fields.flags
    }

    /// Whether the packet was received (flag bit 0), not sent.
    pub fn is_received(&self) -> bool {
        self.fields.is_received()
    }

    /// Whether the packet is a command or event (flag bit 1), not data.
    pub fn is_command(&self) -> bool {
        self.fields.is_command()
    }

    /// Packets lost since the capture began, modulo 2^32.
    pub fn cumulative_drops(&self) -> u32 {
        self.fields.cumulative_drops
    }

    /// Time as it stands in the file.
    pub fn time_field(&self) -> i64 {
        self.fields.time_field
    }

    /// Time in Unix seconds and microseconds.
    ///
    /// # Errors
    ///
    /// [`Reason::Time`], as [`Time::from_field`] gives it. The record is whole all the same.
    pub fn time(&self) -> Result<Time, Refusal> {
        self.fields.time()
    }

    /// The packet, a part of the input.
    pub fn packet(&self) -> &'a [u8] {
        self.packet
    }
}

/// Reads the record at a place, or `None` where the place is the input's end. The file header is not judged.
///
/// # Errors
///
/// In this order: [`Reason::RecordPlace`], [`Reason::ShortRecord`], [`Reason::IncludedAboveOriginal`],
/// [`Reason::ShortPacket`].
pub fn record_at(octets: &[u8], place: usize) -> Result<Option<Record<'_>>, Refusal> {
    let answer = btsnoop::record(octets, place);
    accepted(answer.head())?;
    if answer.kind == END {
        return Ok(None);
    }
    let fields = RecordFields {
        original_length: answer.original as u32,
        flags: answer.flags as u32,
        cumulative_drops: answer.drops as u32,
        time_field: answer.time,
    };
    let packet = &octets[answer.packet as usize..answer.next as usize];
    Ok(Some(Record::new(place, fields, packet)))
}

/// The drops between two records, from their cumulative drops: later less earlier, modulo 2^32.
///
/// # Examples
///
/// ```
/// assert_eq!(zalghimo::drops_between(4_294_967_290, 5), 11);
/// ```
pub fn drops_between(earlier: u32, later: u32) -> u32 {
    btsnoop::drops(earlier, later)
}
