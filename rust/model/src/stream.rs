//! A BTSnoop stream as it arrives (request W-201). Here all of the stream up to the end of the present chunk is at
//! hand, and each call is answered by reading that as a file.

use crate::btsnoop::{read_header, read_record, Record, Walk, FILE_HEADER, RECORD_HEADER};
use crate::refusal::{Reason, Refusal};

/// The most octets of a stream.
pub const MOST_OCTETS: u64 = (1 << 63) - 1;

/// Packet octets that a call hands out: where they lie in its chunk, how many, and where they lie in their packet.
#[derive(Clone, Copy, Debug, Default, PartialEq, Eq)]
pub struct Part {
    pub place: usize,
    pub size: usize,
    pub position: usize,
}

/// The answer of a call; where a number of octets taken stands, it is of the chunk.
#[derive(Clone, Copy, Debug, PartialEq, Eq)]
pub enum Answer<'a> {
    /// The file header's last octet was taken.
    Datalink {
        taken: usize,
        datalink: u32,
    },
    /// A record's last octet was taken; `start` is its place in the stream.
    Record {
        taken: usize,
        part: Part,
        start: u64,
        record: Record<'a>,
    },
    /// Nothing is finished yet.
    More {
        taken: usize,
        part: Part,
    },
    /// The end, or that it was told before.
    End,
    Refused(Refusal),
}

/// Where the calls have come to.
#[derive(Clone, Copy, Debug, PartialEq, Eq)]
pub struct Stream {
    octets: usize,
    /// Where the record starts that is under way or comes next.
    start: usize,
    /// Octets of the stream behind its file header that are not at hand.
    before: u64,
    last: Option<Result<(), Refusal>>,
}

/// Whether a chunk takes a stream, of which so many octets were taken, past the most.
pub fn too_long(octets: u64, chunk: usize) -> bool {
    u128::from(octets) + chunk as u128 > MOST_OCTETS.into()
}

impl Stream {
    /// Before the first octet.
    pub fn fresh() -> Self {
        Stream {
            octets: 0,
            start: FILE_HEADER,
            before: 0,
            last: None,
        }
    }

    /// Goes on as though so many octets had come that are not at hand: whole records behind the file header.
    pub fn pass(&mut self, before: u64) {
        self.before += before;
    }

    /// How many of the octets at hand were taken.
    pub fn octets(&self) -> usize {
        self.octets
    }

    /// How many octets of the stream were taken.
    pub fn all_octets(&self) -> u64 {
        self.before + self.octets as u64
    }

    /// Whether the end or a refusal was told.
    pub fn is_over(&self) -> bool {
        self.last.is_some()
    }

    /// A call with a chunk: the octets that were not taken yet of the stream so far.
    pub fn take<'a>(&mut self, so_far: &'a [u8]) -> Answer<'a> {
        if let Some(last) = self.last {
            return told(last);
        }
        let answer = match self.judge(so_far) {
            Ok(answer) => answer,
            Err(refusal) => return self.over(Err(refusal)),
        };
        match &answer {
            Answer::Datalink { taken, .. } | Answer::More { taken, .. } => self.octets += taken,
            Answer::Record { taken, record, .. } => {
                self.octets += taken;
                self.start = record.next();
            }
            Answer::End | Answer::Refused(_) => {}
        }
        answer
    }

    /// The call that says that the stream has ended: what was taken of it so far is all of it.
    pub fn end<'a>(&mut self, so_far: &'a [u8]) -> Answer<'a> {
        if let Some(last) = self.last {
            return told(last);
        }
        let whole = &so_far[..self.octets];
        let last = match read_header(whole) {
            Ok(_) => self.read_record(whole).map(|_| ()),
            Err(refusal) => Err(refusal),
        };
        self.over(last)
    }

    /// Keeps the final answer and gives it.
    fn over<'a>(&mut self, last: Result<(), Refusal>) -> Answer<'a> {
        self.last = Some(last);
        told(last)
    }

    /// What the stream so far allows to tell, where nothing final was told.
    fn judge<'a>(&self, so_far: &'a [u8]) -> Result<Answer<'a>, Refusal> {
        let chunk = so_far.len() - self.octets;
        if too_long(self.all_octets(), chunk) {
            return Err(Reason::LongStream.at(0));
        }
        if self.octets < FILE_HEADER {
            return self.judge_header(so_far);
        }
        match self.read_record(so_far) {
            Ok(Some(record)) => Ok(Answer::Record {
                taken: record.next() - self.octets,
                part: self.part(record.next()),
                start: self.before + record.start() as u64,
                record,
            }),
            // What has not come yet may come: only the sender's word makes a refusal of it.
            Ok(None)
            | Err(Refusal {
                reason: Reason::ShortRecord | Reason::ShortPacket,
                ..
            }) => Ok(Answer::More {
                taken: chunk,
                part: self.part(so_far.len()),
            }),
            Err(refusal) => Err(refusal),
        }
    }

    /// The same before the file header has come whole.
    fn judge_header<'a>(&self, so_far: &'a [u8]) -> Result<Answer<'a>, Refusal> {
        match read_header(so_far) {
            Ok(datalink) => Ok(Answer::Datalink {
                taken: FILE_HEADER - self.octets,
                datalink,
            }),
            Err(refusal) if refusal.reason == Reason::ShortHeader => Ok(Answer::More {
                taken: so_far.len() - self.octets,
                part: Part::default(),
            }),
            Err(refusal) => Err(refusal),
        }
    }

    /// The present record; a refusal's place counts from the start of the stream.
    fn read_record<'a>(&self, so_far: &'a [u8]) -> Result<Option<Record<'a>>, Refusal> {
        read_record(so_far, self.start).map_err(|refusal| Refusal {
            place: refusal.place + self.before as usize,
            ..refusal
        })
    }

    /// The octets of the present packet between those taken before and a place, if any.
    fn part(&self, end: usize) -> Part {
        let packet = self.start + RECORD_HEADER;
        let from = packet.max(self.octets);
        if end <= from {
            return Part::default();
        }
        Part {
            place: from - self.octets,
            size: end - from,
            position: from - packet,
        }
    }
}

/// The final answer, as every further call gets it.
fn told<'a>(last: Result<(), Refusal>) -> Answer<'a> {
    match last {
        Ok(()) => Answer::End,
        Err(refusal) => Answer::Refused(refusal),
    }
}

/// What the header reader and then the record reader tell of a whole stream.
#[derive(Clone, Debug, PartialEq, Eq)]
pub struct Reading<'a> {
    pub datalink: Option<u32>,
    pub records: Vec<Record<'a>>,
    /// The start of a packet that refusal 7 ends.
    pub cut: &'a [u8],
    pub last: Result<(), Refusal>,
}

/// Reads a whole stream.
pub fn read_whole(stream: &[u8]) -> Reading<'_> {
    let datalink = read_header(stream);
    let mut reading = Reading {
        datalink: datalink.ok(),
        records: Vec::new(),
        cut: &[],
        last: datalink.map(|_| ()),
    };
    if datalink.is_err() {
        return reading;
    }
    let walk = Walk {
        input: stream,
        place: FILE_HEADER,
    };
    for answer in walk {
        match answer {
            Ok(record) => reading.records.push(record),
            Err(refusal) => {
                reading.last = Err(refusal);
                reading.cut = cut(stream, refusal);
                break;
            }
        }
    }
    reading
}

/// The octets behind the header of a record that refusal 7 ends.
fn cut(stream: &[u8], refusal: Refusal) -> &[u8] {
    match refusal.reason {
        Reason::ShortPacket => &stream[refusal.place + RECORD_HEADER..],
        _ => &[],
    }
}

#[cfg(test)]
mod tests;
