//! BTSnoop: both give the same answers.

use super::{damage, written, DAMAGED};
use crate::library;
use crate::made;
use crate::plain::btsnoop::{self as plain, Entry, File, Met, Record, Survey};
use crate::plain::Refusal;
use random::prng::Prng;

/// The check's answer as the library gives it.
fn file(answer: Result<File, Refusal>) -> library::File {
    match answer {
        Ok(file) => library::File {
            kind: library::VALUES,
            datalink: file.datalink.into(),
            records: file.records as u64,
            ..Default::default()
        },
        Err(refusal) => library::File {
            number: refusal.number.into(),
            place: refusal.place as u64,
            ..Default::default()
        },
    }
}

/// The record's answer as the library gives it.
fn record(answer: Result<Option<Record>, Refusal>) -> library::Record {
    match answer {
        Ok(Some(Record { entry, next })) => library::Record {
            kind: library::VALUES,
            original: entry.original_length.into(),
            included: entry.packet.len() as u64,
            flags: entry.flags.into(),
            drops: entry.cumulative_drops.into(),
            time: entry.time,
            packet: (next - entry.packet.len()) as u64,
            next: next as u64,
            ..Default::default()
        },
        Ok(None) => library::Record {
            kind: library::END,
            ..Default::default()
        },
        Err(refusal) => library::Record {
            number: refusal.number.into(),
            place: refusal.place as u64,
            ..Default::default()
        },
    }
}

/// The survey's answer as the library gives it.
fn survey(answer: Survey) -> library::Survey {
    let (kind, reached) = match answer.met {
        Met::End => (library::END, answer.reached),
        Met::More => (library::MORE, answer.reached),
        Met::Refused(_) => (library::REFUSED, 0),
    };
    let (number, place) = match answer.met {
        Met::Refused(refusal) => (refusal.number, refusal.place),
        _ => (0, 0),
    };
    library::Survey {
        kind,
        number: number.into(),
        place: place as u64,
        count: answer.count as u64,
        reached: reached as u64,
    }
}

/// Both answer a place alike; the answer is the place behind its record.
fn place(input: &[u8], place: usize, number: usize) -> Option<usize> {
    let ours = library::record(input, place);
    assert_eq!(ours, record(plain::record(input, place)));
    let surveyed = library::survey(input, place, number);
    assert_eq!(surveyed, survey(plain::survey(input, place, number)));
    (ours.kind == library::VALUES).then_some(ours.next as usize)
}

/// Both write the same octets or refuse alike.
fn write(prng: &mut Prng, entry: &Entry) {
    let exact = 24 + entry.packet.len();
    let at = prng.below(20);
    let length = (at + exact + prng.below(3)).saturating_sub(prng.below(3));
    let mut ours = prng.octets(length);
    let mut theirs = ours.clone();
    assert_eq!(
        library::write_record(&mut ours, at, entry),
        written(plain::write_record(&mut theirs, at, entry))
    );
    assert_eq!(ours, theirs);
    let datalink = 1000 + prng.below(6) as u32;
    assert_eq!(
        library::write_header(&mut ours, at, datalink),
        written(plain::write_header(&mut theirs, at, datalink))
    );
    assert_eq!(ours, theirs);
}

/// Both answer small captures alike, damaged ones mostly.
pub fn damaged(prng: &mut Prng) {
    for _ in 0..DAMAGED {
        let size = 16 + prng.below(800);
        let mut input = made::capture(prng, size);
        let mut entry = made::entries(&input).first().copied();
        if let Some(entry) = &mut entry {
            entry.original_length = entry.original_length.saturating_sub(prng.below(8) as u32);
            write(prng, entry);
        }
        damage(prng, &mut input);
        assert_eq!(library::check(&input), file(plain::check(&input)));
        let mut next = Some(16);
        while let Some(at) = next {
            next = place(&input, at, prng.below(6));
        }
        let anywhere = prng.below(input.len() + 20);
        place(&input, anywhere, prng.below(6));
    }
}

/// Both answer a capture alike in every record, and write it alike.
pub fn capture(input: &[u8], entries: &[Entry], output: &mut [u8]) {
    let ours = library::check(input);
    assert_eq!(ours, file(plain::check(input)));
    assert_eq!(ours.records, entries.len() as u64);
    let mut next = Some(16);
    while let Some(at) = next {
        next = place(input, at, 3);
    }
    output.fill(1);
    let mut at = library::write_header(output, 0, 1002).next as usize;
    for entry in entries {
        at = library::write_record(output, at, entry).next as usize;
    }
    assert!(at == input.len() && output == input);
}
