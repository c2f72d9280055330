//! Reading records from a source of octets.

use super::Finished;
use crate::answer::accepted;
#[cfg(doc)]
use crate::Reason;
use crate::{Record, Refusal};
use std::error::Error;
use std::fmt;
use std::io::{self, Read};
use std::mem;
use std::ops::Range;
use zalghimo_sys::stream::{end, fresh, take};
use zalghimo_sys::{Stream, END, FILE_HEADER};

/// Octets that are read at once where nothing else is asked for.
const CHUNK: usize = 64 * 1024;

/// Reads a BTSnoop file from a source, record by record as they arrive.
///
/// What it keeps does not grow with the stream: one chunk, and of the packet that is coming the octets that came. A
/// source that gives no octets has ended.
///
/// # Examples
///
/// ```
/// use zalghimo::stream::{ReadError, Reader};
/// # use zalghimo::{push_header, push_record, RecordFields};
///
/// # fn main() -> Result<(), ReadError> {
/// # let mut octets = Vec::new();
/// # push_header(&mut octets, 1002)?;
/// # push_record(&mut octets, &RecordFields { original_length: 4, ..Default::default() }, &[1, 3, 12, 0])?;
/// # let source = &octets[..];
/// let mut reader = Reader::new(source);
/// println!("datalink {}", reader.datalink()?);
/// while let Some(record) = reader.next_record()? {
///     println!("{} {:02x?}", record.place(), record.packet());
/// }
/// # assert_eq!(reader.octets(), 44);
/// # Ok(())
/// # }
/// ```
#[derive(Debug)]
pub struct Reader<R> {
    source: R,
    state: Stream,
    datalink: Option<u32>,
    chunk: Box<[u8]>,
    /// The octets of the chunk that were not taken yet.
    left: Range<usize>,
    packet: Vec<u8>,
    /// How many octets are joined of the packet that is coming.
    joined: usize,
}

/// Why a reader gives no record.
#[derive(Debug)]
pub enum ReadError {
    /// The source could not be read. No octet is lost: a further call goes on.
    Source(io::Error),
    /// The stream is refused. Every further call gives the same refusal.
    Refused(Refusal),
}

/// What one call of the library tells.
enum Step {
    Record(Finished, Packet),
    End,
    /// Nothing that is waited for.
    More,
}

/// Where a record's packet lies.
enum Packet {
    /// Joined of its parts.
    Joined,
    /// In one part of the chunk.
    Chunk(Range<usize>),
}

impl<R: Read> Reader<R> {
    /// A reader of a source, from which nothing is read yet.
    pub fn new(source: R) -> Reader<R> {
        Reader::with_capacity(CHUNK, source)
    }

    /// A reader that reads at most so many octets at once, but at least one.
    pub fn with_capacity(capacity: usize, source: R) -> Reader<R> {
        Reader {
            source,
            state: fresh(),
            datalink: None,
            chunk: vec![0; capacity.max(1)].into(),
            left: 0..0,
            packet: Vec::new(),
            joined: 0,
        }
    }

    /// The datalink code, 1001 to 1004. The file header is read, where it was not yet.
    ///
    /// # Errors
    ///
    /// [`ReadError::Source`]; [`ReadError::Refused`] with [`Reason::ShortHeader`], [`Reason::Identification`],
    /// [`Reason::Version`] or [`Reason::Datalink`].
    pub fn datalink(&mut self) -> Result<u32, ReadError> {
        loop {
            if let Some(datalink) = self.datalink {
                return Ok(datalink);
            }
            self.step(&mut Vec::new())?;
        }
    }

    /// The next record, or `None` at the stream's end. Its packet lies in the reader's memory until the next call.
    ///
    /// # Errors
    ///
    /// Those of [`Reader::datalink`]; [`ReadError::Refused`] with [`Reason::ShortRecord`],
    /// [`Reason::IncludedAboveOriginal`], [`Reason::ShortPacket`] or [`Reason::LongStream`].
    pub fn next_record(&mut self) -> Result<Option<Record<'_>>, ReadError> {
        let mut packet = mem::take(&mut self.packet);
        packet.truncate(self.joined);
        let found = self.next_finished(&mut packet);
        self.packet = packet;
        Ok(found?.map(|(record, place)| {
            let packet = match place {
                Packet::Joined => &self.packet,
                Packet::Chunk(place) => &self.chunk[place],
            };
            Record::new(record.place, record.fields, packet)
        }))
    }

    /// As [`Reader::next_record`], with the packet in a buffer that is lent for it, in place of what the buffer held.
    ///
    /// # Errors
    ///
    /// Those of [`Reader::next_record`]. The buffer is then empty.
    ///
    /// # Examples
    ///
    /// ```
    /// # use zalghimo::stream::{ReadError, Reader};
    /// # fn list(source: impl std::io::Read) -> Result<(), ReadError> {
    /// let mut packet = Vec::with_capacity(1500);
    /// let mut reader = Reader::new(source);
    /// while let Some(record) = reader.next_record_in(&mut packet)? {
    ///     println!("{:02x?}, {} octets so far", record.packet(), reader.octets());
    /// }
    /// # Ok(())
    /// # }
    /// # list(std::io::empty()).unwrap_err();
    /// ```
    pub fn next_record_in<'b>(
        &mut self,
        packet: &'b mut Vec<u8>,
    ) -> Result<Option<Record<'b>>, ReadError> {
        packet.clear();
        packet.extend(&self.packet[..self.joined]);
        let (record, place) = match self.next_finished(packet) {
            Ok(Some(found)) => found,
            none => {
                // Another buffer may be lent to the next call: what came of a packet is kept here.
                self.packet.clear();
                self.packet.append(packet);
                return none.map(|_| None);
            }
        };
        if let Packet::Chunk(place) = place {
            packet.extend(&self.chunk[place]);
        }
        Ok(Some(Record::new(record.place, record.fields, packet)))
    }

    /// How many octets of the stream were taken.
    pub fn octets(&self) -> usize {
        self.state.octets as usize
    }

    /// The source. Octets that are read from it are lost to the reader.
    pub fn source(&mut self) -> &mut R {
        &mut self.source
    }

    /// The next record, or `None` at the end. What came before of its packet is in the buffer.
    fn next_finished(
        &mut self,
        packet: &mut Vec<u8>,
    ) -> Result<Option<(Finished, Packet)>, ReadError> {
        loop {
            match self.step(packet)? {
                Step::Record(record, place) => return Ok(Some((record, place))),
                Step::End => return Ok(None),
                Step::More => {}
            }
        }
    }

    /// One call of the library, and another chunk where this one is used up.
    fn step(&mut self, packet: &mut Vec<u8>) -> Result<Step, ReadError> {
        let taken = take(self.state, &self.chunk[self.left.clone()]);
        let from = self.left.start + taken.part as usize;
        let part = from..from + taken.size as usize;
        self.state = taken.state;
        self.left.start += taken.taken as usize;
        accepted(taken.head())?;
        if let Some(record) = Finished::of(&taken) {
            self.joined = 0;
            if part.len() == record.included_length as usize {
                return Ok(Step::Record(record, Packet::Chunk(part)));
            }
            packet.extend(&self.chunk[part]);
            return Ok(Step::Record(record, Packet::Joined));
        }
        match taken.kind {
            FILE_HEADER => self.datalink = Some(taken.datalink as u32),
            END => return Ok(Step::End),
            _ => {
                packet.extend(&self.chunk[part]);
                self.joined = packet.len();
                self.read_chunk()?;
            }
        }
        Ok(Step::More)
    }

    /// Reads the next chunk from the source, or its end.
    fn read_chunk(&mut self) -> Result<(), ReadError> {
        let read = loop {
            match self.source.read(&mut self.chunk) {
                Err(error) if error.kind() == io::ErrorKind::Interrupted => {}
                read => break read?,
            }
        };
        self.left = 0..read;
        if read == 0 {
            // Every further call of the library gives the final answer.
            self.state = end(self.state).state;
        }
        Ok(())
    }
}

impl fmt::Display for ReadError {
    fn fmt(&self, formatter: &mut fmt::Formatter<'_>) -> fmt::Result {
        match self {
            ReadError::Source(error) => error.fmt(formatter),
            ReadError::Refused(refusal) => refusal.fmt(formatter),
        }
    }
}

impl Error for ReadError {
    fn source(&self) -> Option<&(dyn Error + 'static)> {
        match self {
            ReadError::Source(error) => error.source(),
            ReadError::Refused(refusal) => refusal.source(),
        }
    }
}

impl From<io::Error> for ReadError {
    fn from(error: io::Error) -> ReadError {
        ReadError::Source(error)
    }
}

impl From<Refusal> for ReadError {
    fn from(refusal: Refusal) -> ReadError {
        ReadError::Refused(refusal)
    }
}
