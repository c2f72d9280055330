//! BTSnoop version 1: file header, records, survey, check and writers.

use crate::output::room;
use crate::refusal::{Reason, Refusal};
use std::ops::RangeInclusive;

/// The identification octets.
pub const IDENTIFICATION: [u8; 8] = *b"btsnoop\0";

/// The one version served.
pub const VERSION: u32 = 1;

/// The datalink codes served.
pub const DATALINKS: RangeInclusive<u32> = 1001..=1004;

/// Octets of the file header.
pub const FILE_HEADER: usize = 16;

/// Octets of a record before its packet.
pub const RECORD_HEADER: usize = 24;

/// The values of a record that its writer is given beside the packet.
#[derive(Clone, Copy, Debug, PartialEq, Eq)]
pub struct Fields {
    pub original_length: u32,
    pub flags: u32,
    pub cumulative_drops: u32,
    pub time: i64,
}

/// A whole record; the packet is a part of the input.
#[derive(Clone, Copy, Debug, PartialEq, Eq)]
pub struct Record<'a> {
    pub fields: Fields,
    pub packet: &'a [u8],
    pub packet_place: usize,
}

impl Record<'_> {
    /// The place where the record starts.
    pub fn start(&self) -> usize {
        self.packet_place - RECORD_HEADER
    }

    /// The place behind the record.
    pub fn next(&self) -> usize {
        self.packet_place + self.packet.len()
    }
}

/// What the check of a whole file tells.
#[derive(Clone, Copy, Debug, PartialEq, Eq)]
pub struct File {
    pub datalink: u32,
    pub records: usize,
}

/// The answer of a survey.
#[derive(Clone, Copy, Debug, PartialEq, Eq)]
pub enum Survey {
    End { count: usize, reached: usize },
    More { count: usize, reached: usize },
    Refused { count: usize, refusal: Refusal },
}

/// One of the two captures of `earlier`.
#[derive(Clone, Copy, Debug, PartialEq, Eq)]
pub enum Capture {
    First = 1,
    Second = 2,
}

/// The answer of `earlier`.
#[derive(Clone, Copy, Debug, PartialEq, Eq)]
pub enum Earlier<'a> {
    Packet {
        capture: Capture,
        record: Record<'a>,
    },
    End,
    Refused {
        capture: Capture,
        refusal: Refusal,
    },
}

/// The big-endian 32-bit number at a place inside the octets.
fn u32_at(octets: &[u8], place: usize) -> u32 {
    let part = octets[place..].first_chunk().expect("inside the octets");
    u32::from_be_bytes(*part)
}

/// The big-endian signed 64-bit number at a place inside the octets.
fn i64_at(octets: &[u8], place: usize) -> i64 {
    let part = octets[place..].first_chunk().expect("inside the octets");
    i64::from_be_bytes(*part)
}

/// The datalink code of a file header.
pub fn read_header(input: &[u8]) -> Result<u32, Refusal> {
    let Some(header) = input.first_chunk::<FILE_HEADER>() else {
        return Err(Reason::ShortHeader.at(input.len()));
    };
    let datalink = u32_at(header, 12);
    if !header.starts_with(&IDENTIFICATION) {
        Err(Reason::Identification.at(0))
    } else if u32_at(header, 8) != VERSION {
        Err(Reason::Version.at(8))
    } else if !DATALINKS.contains(&datalink) {
        Err(Reason::Datalink.at(12))
    } else {
        Ok(datalink)
    }
}

/// The octets from a place on, where a record may start.
fn from_place(input: &[u8], place: usize) -> Result<&[u8], Refusal> {
    let rest = input.get(place..).filter(|_| place >= FILE_HEADER);
    rest.ok_or(Reason::RecordPlace.at(place))
}

/// The record at a place; `None` is "end".
pub fn read_record(input: &[u8], place: usize) -> Result<Option<Record<'_>>, Refusal> {
    let rest = from_place(input, place)?;
    if rest.is_empty() {
        return Ok(None);
    }
    let Some((header, behind)) = rest.split_first_chunk::<RECORD_HEADER>() else {
        return Err(Reason::ShortRecord.at(place));
    };
    let original_length = u32_at(header, 0);
    let included_length = u32_at(header, 4);
    if included_length > original_length {
        return Err(Reason::IncludedAboveOriginal.at(place + 4));
    }
    let Some(packet) = behind.get(..included_length as usize) else {
        return Err(Reason::ShortPacket.at(place));
    };
    Ok(Some(Record {
        fields: Fields {
            original_length,
            flags: u32_at(header, 8),
            cumulative_drops: u32_at(header, 12),
            time: i64_at(header, 16),
        },
        packet,
        packet_place: place + RECORD_HEADER,
    }))
}

/// The records from a place on, up to the end or the first refusal.
pub(crate) struct Walk<'a> {
    pub(crate) input: &'a [u8],
    pub(crate) place: usize,
}

impl<'a> Iterator for Walk<'a> {
    type Item = Result<Record<'a>, Refusal>;

    fn next(&mut self) -> Option<Self::Item> {
        let answer = read_record(self.input, self.place).transpose()?;
        if let Ok(record) = &answer {
            self.place = record.next();
        }
        Some(answer)
    }
}

/// Passes at most `number` whole records from a place on.
pub fn survey(input: &[u8], place: usize, number: usize) -> Survey {
    if let Err(refusal) = from_place(input, place) {
        return Survey::Refused { count: 0, refusal };
    }
    let (mut count, mut reached) = (0, place);
    for answer in (Walk { input, place }).take(number) {
        match answer {
            Ok(record) => (count, reached) = (count + 1, record.next()),
            Err(refusal) => return Survey::Refused { count, refusal },
        }
    }
    if reached == input.len() {
        Survey::End { count, reached }
    } else {
        Survey::More { count, reached }
    }
}

/// Judges a whole file: a valid header, then whole records to the end.
pub fn check(input: &[u8]) -> Result<File, Refusal> {
    let datalink = read_header(input)?;
    let place = FILE_HEADER;
    let whole = (Walk { input, place }).collect::<Result<Vec<_>, _>>()?;
    Ok(File {
        datalink,
        records: whole.len(),
    })
}

/// Writes a file header at a place; the answer is the place behind it.
pub fn write_header(output: &mut [u8], place: usize, datalink: u32) -> Result<usize, Refusal> {
    if !DATALINKS.contains(&datalink) {
        return Err(Reason::Datalink.at(0));
    }
    let part = room(output, place, FILE_HEADER)?;
    part[..8].copy_from_slice(&IDENTIFICATION);
    part[8..12].copy_from_slice(&VERSION.to_be_bytes());
    part[12..].copy_from_slice(&datalink.to_be_bytes());
    Ok(place + FILE_HEADER)
}

/// Writes a record at a place; the answer is the place behind it.
pub fn write_record(
    output: &mut [u8],
    place: usize,
    fields: &Fields,
    packet: &[u8],
) -> Result<usize, Refusal> {
    let included_length = match u32::try_from(packet.len()) {
        Ok(length) if length <= fields.original_length => length,
        _ => return Err(Reason::IncludedAboveOriginal.at(0)),
    };
    let length = RECORD_HEADER + packet.len();
    let part = room(output, place, length)?;
    part[..4].copy_from_slice(&fields.original_length.to_be_bytes());
    part[4..8].copy_from_slice(&included_length.to_be_bytes());
    part[8..12].copy_from_slice(&fields.flags.to_be_bytes());
    part[12..16].copy_from_slice(&fields.cumulative_drops.to_be_bytes());
    part[16..24].copy_from_slice(&fields.time.to_be_bytes());
    part[24..].copy_from_slice(packet);
    Ok(place + length)
}

/// Drops between two records: later less earlier, modulo 2^32.
pub fn drops(earlier: u32, later: u32) -> u32 {
    let modulus = 1_i64 << 32;
    (i64::from(later) - i64::from(earlier)).rem_euclid(modulus) as u32
}

/// The packet of the capture whose record has the smaller time.
pub fn earlier<'a>(first: &'a [u8], place: usize, second: &'a [u8], other: usize) -> Earlier<'a> {
    let one = match read_record(first, place) {
        Ok(answer) => answer,
        Err(refusal) => return refused(Capture::First, refusal),
    };
    let two = match read_record(second, other) {
        Ok(answer) => answer,
        Err(refusal) => return refused(Capture::Second, refusal),
    };
    match (one, two) {
        (None, None) => Earlier::End,
        (Some(one), Some(two)) if two.fields.time < one.fields.time => packet(Capture::Second, two),
        (Some(one), _) => packet(Capture::First, one),
        (None, Some(two)) => packet(Capture::Second, two),
    }
}

fn refused<'a>(capture: Capture, refusal: Refusal) -> Earlier<'a> {
    Earlier::Refused { capture, refusal }
}

fn packet(capture: Capture, record: Record<'_>) -> Earlier<'_> {
    Earlier::Packet { capture, record }
}

#[cfg(test)]
mod tests {
    use super::*;
    use crate::time::YEAR_2000;

    const P3_FIELDS: Fields = Fields {
        original_length: 4,
        flags: 2,
        cumulative_drops: 0,
        time: YEAR_2000,
    };
    const P3_PACKET: [u8; 4] = [0x01, 0x03, 0x0C, 0x00];

    fn p2() -> Vec<u8> {
        [b"btsnoop\0", &[0, 0, 0, 1, 0, 0, 0x03, 0xEA][..]].concat()
    }

    fn p3() -> Vec<u8> {
        let mut octets = p2();
        octets.extend([0, 0, 0, 4, 0, 0, 0, 4, 0, 0, 0, 2, 0, 0, 0, 0]);
        octets.extend([0x00, 0xE0, 0x3A, 0xB4, 0x4A, 0x67, 0x60, 0x00]);
        octets.extend(P3_PACKET);
        octets
    }

    fn with_time(time: i64) -> Vec<u8> {
        let mut octets = p3();
        octets[32..40].copy_from_slice(&time.to_be_bytes());
        octets
    }

    fn file(records: usize) -> Result<File, Refusal> {
        Ok(File {
            datalink: 1002,
            records,
        })
    }

    #[test]
    fn p1_empty() {
        assert_eq!(check(&[]), Err(Reason::ShortHeader.at(0)));
        assert_eq!(read_header(&[]), Err(Reason::ShortHeader.at(0)));
    }

    #[test]
    fn p2_header_alone() {
        assert_eq!(check(&p2()), file(0));
    }

    #[test]
    fn p3_one_record() {
        let octets = p3();
        assert_eq!(octets.len(), 44);
        assert_eq!(check(&octets), file(1));
        let record = read_record(&octets, 16).unwrap().unwrap();
        assert_eq!(record.fields, P3_FIELDS);
        assert_eq!(record.packet, P3_PACKET);
        assert_eq!((record.packet_place, record.next()), (40, 44));
        assert_eq!(read_record(&octets, 44), Ok(None));
    }

    #[test]
    fn p4_last_octet_missing() {
        assert_eq!(check(&p3()[..43]), Err(Reason::ShortPacket.at(16)));
    }

    #[test]
    fn p5_included_above_original() {
        let mut octets = p3();
        octets[23] = 5;
        assert_eq!(check(&octets), Err(Reason::IncludedAboveOriginal.at(20)));
    }

    #[test]
    fn p7_drops_wrap() {
        assert_eq!(drops(4_294_967_290, 5), 11);
        assert_eq!(drops(0, u32::MAX), u32::MAX);
        assert_eq!(drops(u32::MAX, 0), 1);
        assert_eq!(drops(7, 7), 0);
    }

    #[test]
    fn header_refusals_in_order() {
        let mut octets = p2();
        octets[15] = 0;
        assert_eq!(read_header(&octets), Err(Reason::Datalink.at(12)));
        octets[11] = 2;
        assert_eq!(read_header(&octets), Err(Reason::Version.at(8)));
        octets[7] = 1;
        assert_eq!(read_header(&octets), Err(Reason::Identification.at(0)));
        assert_eq!(read_header(&octets[..15]), Err(Reason::ShortHeader.at(15)));
    }

    #[test]
    fn record_places() {
        let octets = p3();
        for place in [0, 15, 45, usize::MAX] {
            let refusal = Reason::RecordPlace.at(place);
            assert_eq!(read_record(&octets, place), Err(refusal));
            let refused = Survey::Refused { count: 0, refusal };
            assert_eq!(survey(&octets, place, 0), refused);
        }
        assert_eq!(read_record(&[], 0), Err(Reason::RecordPlace.at(0)));
        assert_eq!(
            read_record(&octets, 21),
            Err(Reason::ShortRecord.at(21)),
            "23 octets remain"
        );
    }

    #[test]
    fn survey_by_number() {
        let two = [p3(), p3()[16..].to_vec()].concat();
        let more = |count, reached| Survey::More { count, reached };
        let end = |count, reached| Survey::End { count, reached };
        assert_eq!(survey(&two, 16, 0), more(0, 16));
        assert_eq!(survey(&two, 16, 1), more(1, 44));
        assert_eq!(survey(&two, 16, 2), end(2, 72));
        assert_eq!(survey(&two, 16, usize::MAX), end(2, 72));
        assert_eq!(survey(&two, 72, 0), end(0, 72));
        let cut = &two[..71];
        let refusal = Reason::ShortPacket.at(44);
        assert_eq!(survey(cut, 44, 0), more(0, 44));
        assert_eq!(survey(cut, 16, 2), Survey::Refused { count: 1, refusal });
    }

    #[test]
    fn earlier_orders() {
        let (old, new) = (with_time(-1), with_time(0));
        let of = |answer| match answer {
            Earlier::Packet { capture, .. } => Some(capture),
            _ => None,
        };
        assert_eq!(of(earlier(&old, 16, &new, 16)), Some(Capture::First));
        assert_eq!(of(earlier(&new, 16, &old, 16)), Some(Capture::Second));
        assert_eq!(of(earlier(&new, 16, &new, 16)), Some(Capture::First));
        assert_eq!(of(earlier(&new, 44, &new, 16)), Some(Capture::Second));
        assert_eq!(of(earlier(&new, 16, &old, 44)), Some(Capture::First));
        assert_eq!(earlier(&new, 44, &old, 44), Earlier::End);
        let second = refused(Capture::Second, Reason::RecordPlace.at(9));
        assert_eq!(earlier(&new, 44, &old, 9), second);
        let first = refused(Capture::First, Reason::RecordPlace.at(8));
        assert_eq!(earlier(&new, 8, &old, 9), first);
    }

    #[test]
    fn written_file_is_p3() {
        let mut output = vec![0xAA; 50];
        assert_eq!(write_header(&mut output, 3, 1002), Ok(19));
        let next = write_record(&mut output, 19, &P3_FIELDS, &P3_PACKET);
        assert_eq!(next, Ok(47));
        assert_eq!(output[3..47], p3());
        assert_eq!([&output[..3], &output[47..]].concat(), [0xAA; 6]);
    }

    #[test]
    fn writers_refuse() {
        let mut output = [7; 27];
        let no_room = Err(Reason::NoRoom.at(0));
        assert_eq!(write_header(&mut output, 12, 1004), no_room);
        assert_eq!(write_header(&mut output, usize::MAX, 1004), no_room);
        let code = Err(Reason::Datalink.at(0));
        assert_eq!(write_header(&mut output, 12, 1005), code);
        let record = write_record(&mut output, 0, &P3_FIELDS, &P3_PACKET);
        assert_eq!(record, no_room);
        let long = write_record(&mut output, 99, &P3_FIELDS, &[0; 5]);
        assert_eq!(long, Err(Reason::IncludedAboveOriginal.at(0)));
        assert_eq!(output, [7; 27]);
    }
}
