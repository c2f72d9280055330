//! BTSnoop as it arrives: a state that takes chunks.

use super::btsnoop::{header, u32_at, FILE_HEADER, RECORD_HEADER};
use super::{refused, Refusal};

/// The most octets of a stream.
const MOST: u64 = i64::MAX as u64;

/// The numbers of a record.
#[derive(Clone, Copy, Debug)]
pub struct Numbers {
    pub original_length: u32,
    pub included_length: u32,
    pub flags: u32,
    pub cumulative_drops: u32,
    pub time: i64,
}

/// What is finished.
#[derive(Clone, Copy, Debug)]
pub enum Event {
    Nothing,
    Datalink(u32),
    Record { start: u64, numbers: Numbers },
    End,
}

/// What a call took and tells; the packet octets are the last of those that it took.
#[derive(Clone, Copy, Debug)]
pub struct Taken<'a> {
    pub taken: usize,
    pub part: &'a [u8],
    pub position: u32,
    pub event: Event,
}

/// What comes next.
#[derive(Clone, Copy, Debug)]
enum Phase {
    Header,
    Record,
    Packet { numbers: Numbers, done: u32 },
    Over(Result<(), Refusal>),
}

/// A stream between chunks.
#[derive(Clone, Copy, Debug)]
pub struct Stream {
    phase: Phase,
    octets: u64,
    held: [u8; RECORD_HEADER],
    count: usize,
}

/// Nothing is finished, and there are no packet octets.
fn more<'a>(taken: usize) -> Taken<'a> {
    Taken {
        taken,
        part: &[],
        position: 0,
        event: Event::Nothing,
    }
}

/// The end.
fn end<'a>() -> Taken<'a> {
    Taken {
        event: Event::End,
        ..more(0)
    }
}

/// The numbers of a record's header.
#[inline]
fn numbers(header: &[u8; RECORD_HEADER]) -> Numbers {
    Numbers {
        original_length: u32_at(header, 0),
        included_length: u32_at(header, 4),
        flags: u32_at(header, 8),
        cumulative_drops: u32_at(header, 12),
        time: i64::from_be_bytes(header[16..].try_into().expect("eight octets")),
    }
}

impl Stream {
    /// Before the first octet.
    pub fn new() -> Self {
        Stream {
            phase: Phase::Header,
            octets: 0,
            held: [0; RECORD_HEADER],
            count: 0,
        }
    }

    /// How many octets were taken.
    pub fn octets(&self) -> u64 {
        self.octets
    }

    /// Takes octets of a chunk.
    #[inline]
    pub fn take<'a>(&mut self, chunk: &'a [u8]) -> Result<Taken<'a>, Refusal> {
        if let Phase::Over(last) = self.phase {
            return last.map(|()| end());
        }
        if chunk.len() as u64 > MOST - self.octets {
            return self.refuse(32, 0);
        }
        match self.phase {
            Phase::Header => self.take_header(chunk),
            Phase::Packet { numbers, done } => Ok(self.take_packet(numbers, done, chunk)),
            _ => self.take_record(chunk),
        }
    }

    /// Says that the stream has ended.
    pub fn end(&mut self) -> Result<(), Refusal> {
        let start = self.octets - self.count as u64;
        let last = match self.phase {
            Phase::Over(last) => last,
            Phase::Header => refused(1, self.octets as usize),
            Phase::Record if self.count == 0 => Ok(()),
            Phase::Record => refused(5, start as usize),
            Phase::Packet { done, .. } => {
                let header = RECORD_HEADER as u64;
                refused(7, (start - header - u64::from(done)) as usize)
            }
        };
        self.phase = Phase::Over(last);
        last
    }

    /// Keeps a refusal for every further call.
    #[cold]
    fn refuse<T>(&mut self, number: u8, place: usize) -> Result<T, Refusal> {
        let refusal = Refusal { number, place };
        self.phase = Phase::Over(Err(refusal));
        Err(refusal)
    }

    /// Holds octets of a header that is not whole yet.
    #[inline]
    fn hold<'a>(&mut self, chunk: &[u8]) -> Taken<'a> {
        self.held[self.count..self.count + chunk.len()].copy_from_slice(chunk);
        self.count += chunk.len();
        self.octets += chunk.len() as u64;
        more(chunk.len())
    }

    fn take_header<'a>(&mut self, chunk: &'a [u8]) -> Result<Taken<'a>, Refusal> {
        let missing = FILE_HEADER - self.count;
        let Some(last) = chunk.get(..missing) else {
            return Ok(self.hold(chunk));
        };
        self.held[self.count..FILE_HEADER].copy_from_slice(last);
        let datalink = match header(&self.held[..FILE_HEADER]) {
            Ok(datalink) => datalink,
            Err(refusal) => return self.refuse(refusal.number, refusal.place),
        };
        self.octets += missing as u64;
        self.count = 0;
        self.phase = Phase::Record;
        Ok(Taken {
            event: Event::Datalink(datalink),
            ..more(missing)
        })
    }

    #[inline]
    fn take_record<'a>(&mut self, chunk: &'a [u8]) -> Result<Taken<'a>, Refusal> {
        if self.count == 0 {
            if let Some((header, rest)) = chunk.split_first_chunk() {
                return self.take_whole(numbers(header), RECORD_HEADER, rest);
            }
        }
        let missing = RECORD_HEADER - self.count;
        let Some((last, rest)) = chunk.split_at_checked(missing) else {
            return Ok(self.hold(chunk));
        };
        self.held[self.count..].copy_from_slice(last);
        self.take_whole(numbers(&self.held), missing, rest)
    }

    /// Takes the last octets of a record's header, so many, and then packet octets from the rest of the chunk.
    #[inline]
    fn take_whole<'a>(
        &mut self,
        numbers: Numbers,
        last: usize,
        rest: &'a [u8],
    ) -> Result<Taken<'a>, Refusal> {
        if numbers.included_length > numbers.original_length {
            let start = self.octets - self.count as u64;
            return self.refuse(6, start as usize + 4);
        }
        self.octets += last as u64;
        self.count = 0;
        let mut taken = self.take_packet(numbers, 0, rest);
        taken.taken += last;
        Ok(taken)
    }

    #[inline]
    fn take_packet<'a>(&mut self, numbers: Numbers, done: u32, chunk: &'a [u8]) -> Taken<'a> {
        let left = (numbers.included_length - done) as usize;
        let start = self.octets - RECORD_HEADER as u64 - u64::from(done);
        let (part, event) = match chunk.get(..left) {
            Some(part) => {
                self.phase = Phase::Record;
                (part, Event::Record { start, numbers })
            }
            None => {
                let done = done + chunk.len() as u32;
                self.phase = Phase::Packet { numbers, done };
                (chunk, Event::Nothing)
            }
        };
        self.octets += part.len() as u64;
        Taken {
            taken: part.len(),
            part,
            position: done,
            event,
        }
    }
}
