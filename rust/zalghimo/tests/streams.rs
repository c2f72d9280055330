//! Captures as they arrive: fed in chunks, and read from a source.

mod made;

use made::{file, p3, refused, RESET, RESET_FIELDS, YEAR_2000};
use std::error::Error;
use std::io::{self, ErrorKind, Read};
use zalghimo::stream::{Event, Finished, ReadError, Reader, Stream};
use zalghimo::{Capture, Record, RecordFields, Refusal, Tally};

/// A record's place, its numbers and its packet.
type Owned = (usize, RecordFields, Vec<u8>);

/// What is told of a whole file: code, records and how it ends.
#[derive(Debug, Default, PartialEq)]
struct Told {
    code: Option<u32>,
    records: Vec<Owned>,
    refusal: Option<Refusal>,
}

impl Told {
    fn add(&mut self, record: &Record) {
        let packet = record.packet().to_vec();
        self.records
            .push((record.place(), *record.fields(), packet));
    }

    /// By the reader of files in memory.
    fn of_capture(octets: &[u8]) -> Told {
        let mut told = Told::default();
        let capture = match Capture::new(octets) {
            Ok(capture) => capture,
            Err(refusal) => {
                told.refusal = Some(refusal);
                return told;
            }
        };
        told.code = Some(capture.datalink());
        for record in &capture {
            match record {
                Ok(record) => told.add(&record),
                Err(refusal) => told.refusal = Some(refusal),
            }
        }
        told
    }

    /// By chunks of a length, with an empty one behind each.
    fn of_chunks(octets: &[u8], length: usize) -> Told {
        let mut told = Told::default();
        let (mut stream, mut packet) = (Stream::new(), Vec::new());
        for chunk in octets.chunks(length).flat_map(|chunk| [chunk, &[]]) {
            for event in stream.feed(chunk) {
                match event {
                    Ok(Event::Datalink(code)) => told.code = Some(code),
                    Ok(Event::Part { position, octets }) => {
                        assert_eq!(position as usize, packet.len());
                        packet.extend(octets);
                    }
                    Ok(Event::Record(record)) => {
                        told.add(&record.with_packet(&packet).expect("a whole packet"));
                        packet.clear();
                    }
                    Ok(Event::End) => panic!("nobody said that it ended"),
                    Err(refusal) => told.refusal = Some(refusal),
                }
            }
        }
        let ended = stream.end().err();
        if told.refusal.is_some() {
            assert_eq!(ended, told.refusal);
        }
        told.refusal = ended;
        told
    }

    /// By a reader, with its own buffer or a lent one.
    fn of_reader(source: impl Read, capacity: usize, lent: bool) -> Told {
        let mut told = Told::default();
        let mut reader = Reader::with_capacity(capacity, source);
        told.refusal = loop {
            match told.read(&mut reader, lent) {
                Ok(true) => {}
                Ok(false) => break None,
                Err(ReadError::Refused(refusal)) => break Some(refusal),
                Err(ReadError::Source(error)) => assert_eq!(error.kind(), ErrorKind::WouldBlock),
            }
        };
        told
    }

    /// Reads on by a record; false at the end.
    fn read(&mut self, reader: &mut Reader<impl Read>, lent: bool) -> Result<bool, ReadError> {
        self.code = Some(reader.datalink()?);
        let mut packet = vec![9; 9];
        let record = match lent {
            true => reader.next_record_in(&mut packet)?,
            false => reader.next_record()?,
        };
        if let Some(record) = &record {
            self.add(record);
        }
        Ok(record.is_some())
    }
}

/// A source that gives few octets at once, and is interrupted or has none now and then.
struct Slow<'a> {
    octets: &'a [u8],
    reads: usize,
}

impl Read for Slow<'_> {
    fn read(&mut self, buffer: &mut [u8]) -> io::Result<usize> {
        self.reads += 1;
        match self.reads % 5 {
            1 => return Err(ErrorKind::Interrupted.into()),
            3 => return Err(ErrorKind::WouldBlock.into()),
            _ => {}
        }
        let length = buffer.len().min(self.reads % 4 + 1);
        self.octets.read(&mut buffer[..length])
    }
}

/// Packets of 4, 0, 300 and 2 octets.
fn four_records() -> Vec<u8> {
    let record = |length: u8, flags| {
        let fields = RecordFields {
            original_length: 300,
            flags,
            cumulative_drops: 3,
            time_field: YEAR_2000,
        };
        (fields, (0..length).collect())
    };
    let mut records = vec![record(4, 0), record(0, 1), record(100, 2), record(2, 3)];
    records[2].1 = vec![0xA5; 300];
    file(&records)
}

#[test]
fn however_it_is_cut_it_tells_what_the_whole_file_tells() {
    let whole = four_records();
    let mut above = whole.clone();
    above[44 + 4..44 + 8].fill(0xFF);
    for octets in [&whole, &above] {
        for length in 0..=octets.len() {
            let octets = &octets[..length];
            let wanted = Told::of_capture(octets);
            for chunk in [1, 2, 23, 24, 25, 64, 1000] {
                assert_eq!(Told::of_chunks(octets, chunk), wanted);
                assert_eq!(Told::of_reader(octets, chunk, false), wanted);
                assert_eq!(Told::of_reader(octets, chunk, true), wanted);
            }
        }
    }
}

#[test]
fn slow_sources_lose_nothing() {
    let octets = four_records();
    let wanted = Told::of_capture(&octets);
    for lent in [false, true] {
        for capacity in [0, 1, 3, 4096] {
            let source = Slow {
                octets: &octets,
                reads: 0,
            };
            assert_eq!(Told::of_reader(source, capacity, lent), wanted);
        }
    }
}

#[test]
fn events_of_one_record() {
    let octets = p3();
    let mut stream = Stream::new();
    let record = Finished {
        place: 16,
        included_length: 4,
        fields: RESET_FIELDS,
    };
    let events: Result<Vec<_>, _> = stream.feed(&octets[..42]).collect();
    let position = 0;
    let first = Event::Part {
        position,
        octets: &RESET[..2],
    };
    assert_eq!(events, Ok(vec![Event::Datalink(1002), first]));
    assert_eq!(stream.octets(), 42);
    let events: Result<Vec<_>, _> = stream.feed(&octets[42..]).collect();
    let position = 2;
    let second = Event::Part {
        position,
        octets: &RESET[2..],
    };
    assert_eq!(events, Ok(vec![second, Event::Record(record)]));
    assert_eq!((record.next_place(), stream.octets()), (44, 44));
    assert!(record.fields.is_command() && !record.fields.is_received());
    assert_eq!(
        record.fields.time().map(|time| time.seconds),
        Ok(946_684_800)
    );
    assert_eq!(record.with_packet(&RESET[1..]), None);
    assert_eq!(
        record.with_packet(&RESET).map(|record| record.next_place()),
        Some(44)
    );
}

#[test]
fn parts_are_parts_of_the_chunk() {
    let octets = p3();
    let mut stream = Stream::new();
    let parts = stream.feed(&octets).filter_map(|event| match event {
        Ok(Event::Part { octets, .. }) => Some(octets.as_ptr()),
        _ => None,
    });
    assert!(parts.eq([octets[40..].as_ptr()]));
}

#[test]
fn octets_are_taken_though_no_event_is_asked_for() {
    let octets = four_records();
    let mut stream = Stream::new();
    stream.feed(&octets[..200]);
    assert_eq!(stream.octets(), 200);
    let mut events = stream.feed(&octets[200..]);
    assert!(matches!(events.next(), Some(Ok(Event::Part { .. }))));
    drop(events);
    assert_eq!(stream.octets(), octets.len());
    assert_eq!(stream.end(), Ok(()));
}

#[test]
fn the_final_answer_stays() {
    let octets = p3();
    let mut ended = Stream::default();
    ended.feed(&octets);
    for _ in 0..2 {
        assert_eq!(ended.end(), Ok(()));
        assert!(ended.feed(&octets).eq([Ok(Event::End)]));
        assert!(ended.feed(&[]).eq([Ok(Event::End)]));
    }
    assert_eq!(ended.octets(), 44);
    let mut cut = Stream::new();
    cut.feed(&octets[..43]);
    for _ in 0..2 {
        assert_eq!(refused(cut.end()), (7, 16));
        let refusal = cut.end().unwrap_err();
        assert!(cut.feed(&octets[43..]).eq([Err(refusal)]));
        assert!(cut.feed(&[]).eq([Err(refusal)]));
    }
    let mut reader = Reader::new(&octets[..]);
    assert!(reader.next_record().expect("whole").is_some());
    for _ in 0..2 {
        assert!(reader.next_record().expect("the end").is_none());
    }
}

#[test]
fn memory_does_not_grow_with_what_a_header_claims() {
    let mut octets = p3();
    octets[16..24].fill(0xFF);
    let mut packet = Vec::new();
    let mut reader = Reader::new(&octets[..]);
    let error = reader.next_record_in(&mut packet).unwrap_err();
    let ReadError::Refused(refusal) = error else {
        panic!("{error}");
    };
    assert_eq!((refusal.number(), refusal.place()), (7, 16));
    assert!(packet.is_empty() && packet.capacity() < 1000);
}

#[test]
fn a_tally_of_a_stream() {
    let octets = four_records();
    let mut by_records = Tally::new();
    for record in &Capture::new(&octets).expect("accepted") {
        by_records.add(&record.expect("whole")).expect("room");
    }
    let mut by_events = Tally::new();
    for event in Stream::new().feed(&octets) {
        if let Event::Record(record) = event.expect("accepted") {
            by_events.add_finished(&record).expect("room");
        }
    }
    assert_eq!(by_events, by_records);
    assert_eq!(by_events.records(), 4);
}

#[test]
fn errors_say_what_happened() {
    let refusal = Stream::new().end().unwrap_err();
    let error: Box<dyn Error> = ReadError::from(refusal).into();
    assert_eq!(error.to_string(), refusal.to_string());
    let error = ReadError::from(io::Error::other("unplugged"));
    assert_eq!(error.to_string(), "unplugged");
}
