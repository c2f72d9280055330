//! BTSnoop: check, survey, record and writers.

use super::{refused, Refusal};

const IDENTIFICATION: &[u8; 8] = b"btsnoop\0";
pub const FILE_HEADER: usize = 16;
pub const RECORD_HEADER: usize = 24;

/// What the check of a file tells.
#[derive(Clone, Copy, Debug)]
pub struct File {
    pub datalink: u32,
    pub records: usize,
}

/// A record's values and its packet.
#[derive(Clone, Copy, Debug)]
pub struct Entry<'a> {
    pub original_length: u32,
    pub flags: u32,
    pub cumulative_drops: u32,
    pub time: i64,
    pub packet: &'a [u8],
}

/// A record read, and the place behind it.
#[derive(Clone, Copy, Debug)]
pub struct Record<'a> {
    pub entry: Entry<'a>,
    pub next: usize,
}

/// What a survey met behind the records it passed.
#[derive(Clone, Copy, Debug)]
pub enum Met {
    End,
    More,
    Refused(Refusal),
}

/// The answer of a survey.
#[derive(Clone, Copy, Debug)]
pub struct Survey {
    pub count: usize,
    pub reached: usize,
    pub met: Met,
}

/// The big-endian 32-bit number at a place of a header.
#[inline]
pub fn u32_at<const N: usize>(header: &[u8; N], place: usize) -> u32 {
    u32::from_be_bytes(header[place..place + 4].try_into().expect("four octets"))
}

/// The datalink code of a file header.
pub fn header(input: &[u8]) -> Result<u32, Refusal> {
    let Some(header) = input.first_chunk::<FILE_HEADER>() else {
        return refused(1, input.len());
    };
    if &header[..8] != IDENTIFICATION {
        return refused(2, 0);
    }
    if u32_at(header, 8) != 1 {
        return refused(3, 8);
    }
    match u32_at(header, 12) {
        datalink @ 1001..=1004 => Ok(datalink),
        _ => refused(4, 12),
    }
}

/// A record taken apart: its header, its packet and what is behind them.
struct Parts<'a> {
    header: &'a [u8; RECORD_HEADER],
    packet: &'a [u8],
    behind: &'a [u8],
}

/// Takes apart the record at the start of the rest, which lies at a place.
#[inline]
fn split(rest: &[u8], place: usize) -> Result<Parts<'_>, Refusal> {
    let Some((header, behind)) = rest.split_first_chunk::<RECORD_HEADER>() else {
        return refused(5, place);
    };
    let included_length = u32_at(header, 4);
    if included_length > u32_at(header, 0) {
        return refused(6, place + 4);
    }
    let Some((packet, behind)) = behind.split_at_checked(included_length as usize) else {
        return refused(7, place);
    };
    Ok(Parts {
        header,
        packet,
        behind,
    })
}

/// The rest of the input where a record may start.
#[inline]
fn from_place(input: &[u8], place: usize) -> Result<&[u8], Refusal> {
    match input.get(place..) {
        Some(rest) if place >= FILE_HEADER => Ok(rest),
        _ => refused(17, place),
    }
}

/// The record at a place; `None` is the end.
#[inline]
pub fn record(input: &[u8], place: usize) -> Result<Option<Record<'_>>, Refusal> {
    let rest = from_place(input, place)?;
    if rest.is_empty() {
        return Ok(None);
    }
    let Parts { header, packet, .. } = split(rest, place)?;
    let entry = Entry {
        original_length: u32_at(header, 0),
        flags: u32_at(header, 8),
        cumulative_drops: u32_at(header, 12),
        time: i64::from_be_bytes(header[16..].try_into().expect("eight octets")),
        packet,
    };
    let next = place + RECORD_HEADER + packet.len();
    Ok(Some(Record { entry, next }))
}

/// Passes at most so many whole records of the rest of an input.
#[inline]
fn walk(input: &[u8], mut rest: &[u8], number: usize) -> Survey {
    let mut count = 0;
    while count < number && !rest.is_empty() {
        let place = input.len() - rest.len();
        match split(rest, place) {
            Ok(parts) => rest = parts.behind,
            Err(refusal) => {
                return Survey {
                    count,
                    reached: place,
                    met: Met::Refused(refusal),
                }
            }
        }
        count += 1;
    }
    Survey {
        count,
        reached: input.len() - rest.len(),
        met: if rest.is_empty() { Met::End } else { Met::More },
    }
}

/// Passes at most so many whole records from a place on.
pub fn survey(input: &[u8], place: usize, number: usize) -> Survey {
    match from_place(input, place) {
        Ok(rest) => walk(input, rest, number),
        Err(refusal) => Survey {
            count: 0,
            reached: place,
            met: Met::Refused(refusal),
        },
    }
}

/// Judges a whole file.
pub fn check(input: &[u8]) -> Result<File, Refusal> {
    let datalink = header(input)?;
    let survey = walk(input, &input[FILE_HEADER..], usize::MAX);
    match survey.met {
        Met::Refused(refusal) => Err(refusal),
        _ => Ok(File {
            datalink,
            records: survey.count,
        }),
    }
}

/// So many octets of the output from a place on.
#[inline]
fn room(output: &mut [u8], place: usize, length: usize) -> Result<&mut [u8], Refusal> {
    let behind = output.get_mut(place..);
    match behind.and_then(|behind| behind.get_mut(..length)) {
        Some(part) => Ok(part),
        None => refused(13, 0),
    }
}

/// Writes a file header at a place; the answer is the place behind it.
pub fn write_header(output: &mut [u8], place: usize, datalink: u32) -> Result<usize, Refusal> {
    if !(1001..=1004).contains(&datalink) {
        return refused(4, 0);
    }
    let part = room(output, place, FILE_HEADER)?;
    part[..8].copy_from_slice(IDENTIFICATION);
    part[8..12].copy_from_slice(&1u32.to_be_bytes());
    part[12..].copy_from_slice(&datalink.to_be_bytes());
    Ok(place + FILE_HEADER)
}

/// Writes a record at a place; the answer is the place behind it.
#[inline]
pub fn write_record(output: &mut [u8], place: usize, entry: &Entry) -> Result<usize, Refusal> {
    let included_length = match u32::try_from(entry.packet.len()) {
        Ok(length) if length <= entry.original_length => length,
        _ => return refused(6, 0),
    };
    let length = RECORD_HEADER + entry.packet.len();
    let (header, packet) = room(output, place, length)?.split_at_mut(RECORD_HEADER);
    header[..4].copy_from_slice(&entry.original_length.to_be_bytes());
    header[4..8].copy_from_slice(&included_length.to_be_bytes());
    header[8..12].copy_from_slice(&entry.flags.to_be_bytes());
    header[12..16].copy_from_slice(&entry.cumulative_drops.to_be_bytes());
    header[16..].copy_from_slice(&entry.time.to_be_bytes());
    packet.copy_from_slice(entry.packet);
    Ok(place + length)
}
