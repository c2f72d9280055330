//! BTSnoop and time: the questions of one round.

mod ask;
pub mod chains;
pub mod ends;
mod ffi;
pub mod made;

use crate::places::room;
use crate::Session;
use made::Made;
use model::time::UNIX_EPOCH;
use random::damage::put;
use random::prng::Prng;

/// One round over one input.
pub fn round(session: &mut Session) {
    let input = made::capture(&mut session.prng);
    read(session, &input);
    earlier(session, &input);
    numbers(session);
    write(session);
    chain(session, &input);
}

/// The readers, at several places.
fn read(session: &mut Session, input: &Made) {
    ask::header(session, &input.octets);
    if ask::check(session, &input.octets) {
        chains::rewrite(session, &input.octets);
    }
    for _ in 0..3 {
        let place = made::place(&mut session.prng, input);
        ask::record(session, &input.octets, place);
        let number = made::number(&mut session.prng, input, place);
        ask::survey(session, &input.octets, place, number);
    }
}

/// The earlier of the input and another capture.
fn earlier(session: &mut Session, first: &Made) {
    let mut second = if session.prng.one_in(4) {
        first.clone()
    } else {
        made::capture(&mut session.prng)
    };
    let place = made::place(&mut session.prng, first);
    let other = made::place(&mut session.prng, &second);
    if session.prng.one_in(3) {
        near_time(&mut session.prng, first, place, &mut second, other);
    }
    ask::earlier(session, &first.octets, place, &second.octets, other);
    ask::earlier(session, &second.octets, other, &first.octets, place);
}

/// Gives the second record the first one's time, or one beside it.
fn near_time(prng: &mut Prng, first: &Made, place: usize, second: &mut Made, other: usize) {
    let behind = first.octets.get(place..).unwrap_or_default();
    let Some(octets) = behind.get(16..).and_then(|part| part.first_chunk()) else {
        return;
    };
    let time = i64::from_be_bytes(*octets).wrapping_add(prng.pick(&[0, 0, 1, -1]));
    put(
        &mut second.octets,
        other.saturating_add(16),
        &time.to_be_bytes(),
    );
}

/// Times and drops.
fn numbers(session: &mut Session) {
    let field = made::time(&mut session.prng);
    ask::read_time(session, field);
    chains::times(session, field);
    let seconds = seconds(&mut session.prng);
    let microseconds = microseconds(&mut session.prng);
    ask::write_time(session, seconds, microseconds);
    let earlier = made::word(&mut session.prng);
    let later = if session.prng.one_in(2) {
        earlier.wrapping_add(session.prng.below(30) as u32)
    } else {
        made::word(&mut session.prng)
    };
    ask::drops(session, earlier, later);
}

/// Seconds: small, near the ends of what the field can hold, or any.
fn seconds(prng: &mut Prng) -> i64 {
    let near = prng.below(7) as i64 - 3;
    match prng.below(4) {
        0 => near,
        1 => (i64::MAX - UNIX_EPOCH) / 1_000_000 + near,
        2 => i64::MIN / 1_000_000 - UNIX_EPOCH / 1_000_000 + near,
        _ => (prng.bits() as i64) >> prng.below(64),
    }
}

/// Microseconds: mostly valid.
fn microseconds(prng: &mut Prng) -> u32 {
    match prng.below(8) {
        0 => prng.pick(&[999_999, 1_000_000, 1_000_001, u32::MAX]),
        1 => prng.bits() as u32,
        _ => prng.below(1_000_000) as u32,
    }
}

/// The writers.
fn write(session: &mut Session) {
    let (place, length) = room(&mut session.prng, 16);
    let output = session.prng.octets(length);
    let datalink = made::datalink(&mut session.prng);
    ask::write_header(session, &output, place, datalink);
    let mut entry = made::entry(&mut session.prng);
    let included = entry.packet.len() as u32;
    if session.prng.one_in(8) {
        entry.fields.original_length = included.saturating_sub(1);
    }
    let (place, length) = room(&mut session.prng, 24 + entry.packet.len());
    let output = session.prng.octets(length);
    ask::write_record(session, &output, place, &entry.fields, &entry.packet);
}

/// The chains of calls.
fn chain(session: &mut Session, input: &Made) {
    chains::surveys(session, input);
    if session.prng.one_in(4) {
        chains::write_and_read(session);
    }
}
