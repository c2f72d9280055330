use super::*;
use crate::btsnoop::{write_header, write_record, Fields};

const FIELDS: Fields = Fields {
    original_length: 9,
    flags: 3,
    cumulative_drops: 7,
    time: -2,
};

const NO_PART: Part = Part {
    place: 0,
    size: 0,
    position: 0,
};

/// A file header, then records with these packets, at 16 and on.
fn file(packets: &[&[u8]]) -> Vec<u8> {
    let mut octets = vec![0; 16];
    write_header(&mut octets, 0, 1002).unwrap();
    for packet in packets {
        let place = octets.len();
        octets.resize(place + 24 + packet.len(), 0);
        write_record(&mut octets, place, &FIELDS, packet).unwrap();
    }
    octets
}

/// A fresh stream after chunks up to these places, each used up in one call.
fn after(octets: &[u8], places: &[usize]) -> Stream {
    let mut stream = Stream::fresh();
    for place in places {
        stream.take(&octets[..*place]);
        assert_eq!(stream.octets(), *place);
    }
    stream
}

/// Octets at a place of the chunk, so many, at a position of the packet.
fn part(place: usize, size: usize, position: usize) -> Part {
    Part {
        place,
        size,
        position,
    }
}

fn more(taken: usize, part: Part) -> Answer<'static> {
    Answer::More { taken, part }
}

/// The record that starts at a place is finished.
fn finished(octets: &[u8], start: usize, taken: usize, part: Part) -> Answer<'_> {
    let record = read_record(octets, start).unwrap().unwrap();
    Answer::Record {
        taken,
        part,
        start: start as u64,
        record,
    }
}

fn refused(reason: Reason, place: usize) -> Answer<'static> {
    Answer::Refused(reason.at(place))
}

#[test]
fn code_comes_with_the_last_octet_of_the_header() {
    let octets = file(&[&[1]]);
    let mut stream = Stream::fresh();
    assert_eq!(stream.take(&octets[..0]), more(0, NO_PART));
    assert_eq!(stream.take(&octets[..15]), more(15, NO_PART));
    let datalink = 1002;
    assert_eq!(
        stream.take(&octets),
        Answer::Datalink { taken: 1, datalink }
    );
    assert_eq!(stream.octets(), 16);
    let whole = Stream::fresh().take(&octets);
    let taken = 16;
    assert_eq!(whole, Answer::Datalink { taken, datalink });
}

#[test]
fn record_comes_with_its_last_octet() {
    let octets = file(&[&[1, 2, 3, 4], &[5]]);
    let mut stream = after(&octets, &[16, 20]);
    assert_eq!(stream.take(&octets[..39]), more(19, NO_PART));
    assert_eq!(stream.take(&octets[..41]), more(2, part(1, 1, 0)));
    assert_eq!(stream.take(&octets[..41]), more(0, NO_PART));
    assert_eq!(stream.take(&octets[..43]), more(2, part(0, 2, 1)));
    let first = finished(&octets, 16, 1, part(0, 1, 3));
    assert_eq!(stream.take(&octets), first);
    assert_eq!(stream.octets(), 44);
    let second = finished(&octets, 44, 25, part(24, 1, 0));
    assert_eq!(stream.take(&octets), second);
    assert_eq!(stream.end(&octets), Answer::End);
}

#[test]
fn record_without_octets_comes_with_the_last_of_its_header() {
    let octets = file(&[&[], &[1]]);
    let mut stream = after(&octets, &[16, 39]);
    let empty = finished(&octets, 16, 1, NO_PART);
    assert_eq!(stream.take(&octets), empty);
    assert_eq!(stream.octets(), 40);
}

#[test]
fn header_refusals_come_with_its_last_octet() {
    for (place, reason, told) in [
        (7, Reason::Identification, 0),
        (11, Reason::Version, 8),
        (15, Reason::Datalink, 12),
    ] {
        let mut octets = file(&[]);
        octets[place] = 9;
        let mut stream = after(&octets, &[8, 15]);
        assert_eq!(stream.take(&octets), refused(reason, told));
        assert_eq!(stream.octets(), 15);
        assert_eq!(stream.end(&octets), refused(reason, told));
    }
}

#[test]
fn six_comes_with_the_last_octet_of_the_record_header() {
    let mut octets = file(&[&[1], &[2, 3]]);
    octets[41 + 7] = 10;
    let mut stream = after(&octets, &[16, 41, 64]);
    assert_eq!(
        stream.take(&octets[..65]),
        refused(Reason::IncludedAboveOriginal, 45)
    );
    assert_eq!(stream.octets(), 64);
}

#[test]
fn one_five_and_seven_wait_for_the_end() {
    let octets = file(&[&[1], &[2, 3]]);
    for length in 0..16 {
        let mut stream = after(&octets, &[length]);
        let short = refused(Reason::ShortHeader, length);
        assert_eq!(stream.end(&octets), short);
    }
    for length in 17..40 {
        let mut stream = after(&octets, &[16, length]);
        assert_eq!(stream.end(&octets), refused(Reason::ShortRecord, 16));
    }
    assert_eq!(
        after(&octets, &[16, 40]).end(&octets),
        refused(Reason::ShortPacket, 16)
    );
    assert_eq!(after(&octets, &[16]).end(&octets), Answer::End);
    assert_eq!(after(&octets, &[16, 41]).end(&octets), Answer::End);
    assert_eq!(
        after(&octets, &[16, 41, 66]).end(&octets),
        refused(Reason::ShortPacket, 41)
    );
}

#[test]
fn final_answer_stays() {
    let octets = file(&[&[1]]);
    let mut ended = after(&octets, &[16]);
    assert!(!ended.is_over());
    for _ in 0..2 {
        assert_eq!(ended.end(&octets), Answer::End);
        assert_eq!(ended.take(&octets), Answer::End);
        assert_eq!(ended.take(&octets[..16]), Answer::End);
        assert_eq!(ended.octets(), 16);
    }
    let mut cut = after(&octets, &[16, 20]);
    for _ in 0..2 {
        assert_eq!(cut.end(&octets), refused(Reason::ShortRecord, 16));
        assert_eq!(cut.take(&octets), refused(Reason::ShortRecord, 16));
        assert!(cut.is_over() && cut.octets() == 20);
    }
}

#[test]
fn places_count_from_the_start_of_a_long_stream() {
    let octets = file(&[&[1], &[2, 3]]);
    let before = MOST_OCTETS - 66;
    let mut stream = after(&octets, &[16]);
    stream.pass(before);
    let Answer::Record { start, taken, .. } = stream.take(&octets[..66]) else {
        panic!("a record");
    };
    assert_eq!((start, taken), (before + 16, 25));
    assert_eq!(stream.take(&octets[..66]), more(25, part(24, 1, 0)));
    assert_eq!(stream.all_octets(), MOST_OCTETS);
    let mut cut = stream;
    let place = before as usize + 41;
    assert_eq!(cut.end(&octets), refused(Reason::ShortPacket, place));
    assert_eq!(stream.take(&octets[..66]), more(0, NO_PART));
    for _ in 0..2 {
        assert_eq!(stream.take(&octets), refused(Reason::LongStream, 0));
        assert_eq!(stream.end(&octets), refused(Reason::LongStream, 0));
    }
    assert_eq!(stream.all_octets(), MOST_OCTETS);
}

#[test]
fn most_octets() {
    assert!(!too_long(MOST_OCTETS, 0));
    assert!(!too_long(MOST_OCTETS - 3, 3));
    assert!(too_long(MOST_OCTETS - 3, 4));
    assert!(too_long(MOST_OCTETS + 1, 0));
    assert!(too_long(u64::MAX, usize::MAX));
    assert!(!too_long(0, MOST_OCTETS as usize));
}

/// What the calls tell of a stream in chunks of a size: code, records with their joined octets, what is joined of a cut
/// packet, and the final answer.
type Told = (
    Option<u32>,
    Vec<(usize, Fields, Vec<u8>)>,
    Vec<u8>,
    Result<(), Refusal>,
);

fn told_by_calls(octets: &[u8], size: usize) -> Told {
    let (mut stream, mut code, mut records, mut joined) =
        (Stream::fresh(), None, Vec::new(), Vec::new());
    loop {
        let before = stream.octets();
        let so_far = &octets[..octets.len().min(before + size)];
        let answer = match before == octets.len() {
            true => stream.end(so_far),
            false => stream.take(so_far),
        };
        let mut join = |part: Part| {
            assert!(part.size == 0 || part.position == joined.len());
            joined.extend(&so_far[before + part.place..][..part.size]);
        };
        match answer {
            Answer::Datalink { datalink, .. } => code = Some(datalink),
            Answer::More { part, .. } => join(part),
            Answer::Record { part, record, .. } => {
                join(part);
                records.push((record.start(), record.fields, std::mem::take(&mut joined)));
            }
            Answer::End => return (code, records, joined, Ok(())),
            Answer::Refused(refusal) => return (code, records, joined, Err(refusal)),
        }
    }
}

#[test]
fn calls_tell_what_the_whole_reading_tells() {
    let whole = file(&[&[1, 2, 3], &[], &[4]]);
    let mut above = whole.clone();
    above[43 + 7] = 10;
    let lengths = 0..=whole.len();
    let cuts = lengths.flat_map(|length| [&whole[..length], &above[..length]]);
    for octets in cuts {
        let reading = read_whole(octets);
        let records = reading.records.iter();
        let wanted = (
            reading.datalink,
            records
                .map(|record| (record.start(), record.fields, record.packet.to_vec()))
                .collect(),
            reading.cut.to_vec(),
            reading.last,
        );
        for size in [1, 2, 3, 23, 24, 25, 26, 1000] {
            assert_eq!(told_by_calls(octets, size), wanted);
        }
    }
}
