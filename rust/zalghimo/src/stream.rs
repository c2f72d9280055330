//! A BTSnoop file as it arrives, in chunks of whatever length.
//!
//! [`Stream`] is fed chunks and tells what they finish; between chunks it keeps at most the 24 octets of one header.
//! [`Reader`] reads records, with their packets, from any [`std::io::Read`]. However the octets are cut, the datalink
//! code, the records and how it all ends are those that [`Capture`](crate::Capture) gives of the whole file. Places
//! count from the stream's start.
//!
//! ```
//! use zalghimo::stream::{Event, Stream};
//! # use zalghimo::{push_header, push_record, RecordFields, Refusal};
//!
//! # fn main() -> Result<(), Refusal> {
//! # let mut octets = Vec::new();
//! # push_header(&mut octets, 1002)?;
//! # push_record(&mut octets, &RecordFields { original_length: 4, ..Default::default() }, &[1, 3, 12, 0])?;
//! // A file with one record, whose packet is 01 03 0c 00, in chunks of 7 octets.
//! let mut stream = Stream::new();
//! let mut packet: Vec<u8> = Vec::new();
//! for chunk in octets.chunks(7) {
//!     for event in stream.feed(chunk) {
//!         match event? {
//!             Event::Datalink(code) => assert_eq!(code, 1002),
//!             Event::Part { octets, .. } => packet.extend(octets),
//!             Event::Record(record) => {
//!                 assert_eq!((record.place, record.included_length), (16, 4));
//!                 assert_eq!(packet, [1, 3, 12, 0]);
//!                 packet.clear();
//!             }
//!             Event::End => break,
//!         }
//!     }
//! }
//! stream.end()?;
//! assert_eq!(stream.octets(), 44);
//! # Ok(())
//! # }
//! ```

mod reader;

pub use reader::{ReadError, Reader};

use crate::answer::{accepted, refusal};
use crate::write::RECORD;
#[cfg(doc)]
use crate::Reason;
use crate::{Record, RecordFields, Refusal};
use std::iter::FusedIterator;
use zalghimo_sys::stream::{end, fresh, take};
use zalghimo_sys::{Taken, END, FILE_HEADER, VALUES};

/// A stream that is fed chunks.
#[derive(Clone, Debug)]
pub struct Stream {
    state: zalghimo_sys::Stream,
}

/// What a chunk tells.
#[derive(Clone, Copy, Debug, PartialEq, Eq, Hash)]
pub enum Event<'a> {
    /// The file header's last octet came: the datalink code, 1001 to 1004.
    Datalink(u32),
    /// Octets of the packet that is coming, a part of the chunk.
    Part {
        /// Where they stand in their packet.
        position: u32,
        /// The octets. They may be the start of a packet that never becomes whole.
        octets: &'a [u8],
    },
    /// A record's last octet came. The parts since the last record are its packet.
    Record(Finished),
    /// The stream's end was told before. The chunk is not taken.
    End,
}

/// A record whose last octet came: what is told of it beside its packet.
#[derive(Clone, Copy, Debug, PartialEq, Eq, Hash)]
pub struct Finished {
    /// Where the record starts in the stream.
    pub place: usize,
    /// Length of the packet in the stream.
    pub included_length: u32,
    /// The record's other numbers.
    pub fields: RecordFields,
}

impl Finished {
    /// The record that a call of the library tells, where it tells one.
    fn of(taken: &Taken) -> Option<Finished> {
        (taken.kind == VALUES).then_some(Finished {
            place: taken.start as usize,
            included_length: taken.included as u32,
            fields: RecordFields {
                original_length: taken.original as u32,
                flags: taken.flags as u32,
                cumulative_drops: taken.drops as u32,
                time_field: taken.time,
            },
        })
    }

    /// Where the next record starts, or the stream's end.
    pub fn next_place(&self) -> usize {
        self.place + RECORD + self.included_length as usize
    }

    /// The record with its packet; `None` where the octets are more or fewer than the packet has.
    pub fn with_packet<'a>(&self, packet: &'a [u8]) -> Option<Record<'a>> {
        let whole = packet.len() == self.included_length as usize;
        whole.then(|| Record::new(self.place, self.fields, packet))
    }
}

impl Stream {
    /// A stream before its first octet.
    pub fn new() -> Stream {
        Stream { state: fresh() }
    }

    /// Feeds a chunk, and gives what it tells, one event after another.
    ///
    /// All octets of the chunk are taken, whether or not all events are asked for, until the end or a refusal.
    ///
    /// # Errors
    ///
    /// A refusal is the last item, and the only one of every further chunk: [`Reason::LongStream`]; of the file header
    /// [`Reason::Identification`], [`Reason::Version`], [`Reason::Datalink`]; of a record
    /// [`Reason::IncludedAboveOriginal`]. What is missing at a chunk's end may come with the next: only
    /// [`Stream::end`] makes a refusal of it.
    pub fn feed<'a>(&mut self, chunk: &'a [u8]) -> Events<'_, 'a> {
        Events {
            stream: self,
            chunk,
            record: None,
            over: false,
        }
    }

    /// Says that the stream has ended, behind its file header or a whole record.
    ///
    /// # Errors
    ///
    /// [`Reason::ShortHeader`], [`Reason::ShortRecord`] or [`Reason::ShortPacket`], where it ended within one of them;
    /// or the refusal that a chunk met. The answer is the same each time.
    ///
    /// # Examples
    ///
    /// ```
    /// let mut stream = zalghimo::stream::Stream::new();
    /// assert_eq!(stream.feed(b"btsnoop\0").count(), 0);
    /// let refusal = stream.end().unwrap_err();
    /// assert_eq!((refusal.number(), refusal.place()), (1, 8));
    /// ```
    pub fn end(&mut self) -> Result<(), Refusal> {
        let taken = end(self.state);
        self.state = taken.state;
        accepted(taken.head())
    }

    /// How many octets of the stream were taken.
    pub fn octets(&self) -> usize {
        self.state.octets as usize
    }
}

/// As [`Stream::new`].
impl Default for Stream {
    fn default() -> Stream {
        Stream::new()
    }
}

/// What a chunk tells, one event after another. A refusal is the last item.
#[derive(Debug)]
pub struct Events<'s, 'a> {
    stream: &'s mut Stream,
    chunk: &'a [u8],
    /// A record whose last part was told just now.
    record: Option<Finished>,
    /// The whole chunk was taken, or nothing more is.
    over: bool,
}

impl<'a> Iterator for Events<'_, 'a> {
    type Item = Result<Event<'a>, Refusal>;

    fn next(&mut self) -> Option<Self::Item> {
        if let Some(record) = self.record.take() {
            return Some(Ok(Event::Record(record)));
        }
        if self.over {
            return None;
        }
        let taken = take(self.stream.state, self.chunk);
        self.stream.state = taken.state;
        let part = &self.chunk[taken.part as usize..][..taken.size as usize];
        self.chunk = &self.chunk[taken.taken as usize..];
        self.over = self.chunk.is_empty() || taken.taken == 0;
        self.record = Finished::of(&taken);
        if !part.is_empty() {
            return Some(Ok(Event::Part {
                position: taken.position as u32,
                octets: part,
            }));
        }
        if let Some(refusal) = refusal(taken.head()) {
            return Some(Err(refusal));
        }
        match taken.kind {
            FILE_HEADER => Some(Ok(Event::Datalink(taken.datalink as u32))),
            END => Some(Ok(Event::End)),
            _ => self.record.take().map(|record| Ok(Event::Record(record))),
        }
    }
}

impl FusedIterator for Events<'_, '_> {}

/// Takes the rest of the chunk.
impl Drop for Events<'_, '_> {
    fn drop(&mut self) {
        self.for_each(drop);
    }
}

#[cfg(test)]
mod tests {
    use super::*;

    #[test]
    fn no_stream_passes_the_most_octets() {
        let mut stream = Stream::new();
        stream.state.octets = i64::MAX as u64 - 3;
        assert!(stream.feed(&[0; 3]).next().is_none());
        for _ in 0..2 {
            let refusal = stream.feed(&[0; 1]).next().expect("an event").unwrap_err();
            assert_eq!((refusal.number(), refusal.place()), (32, 0));
            assert_eq!(stream.end(), Err(refusal));
        }
        assert_eq!(stream.octets(), i64::MAX as usize);
    }
}
