//! Radiotap: the questions of one round.

mod ask;
mod chains;
mod editions;
pub mod ends;
mod ffi;
mod made;

use crate::places::room;
use crate::Session;

/// One round over one input.
pub fn round(session: &mut Session) {
    let input = made::input(&mut session.prng);
    for _ in 0..2 {
        read(session, &input);
    }
    for _ in 0..2 {
        let number = made::number(&mut session.prng, 3);
        ask::word(session, &input, number);
    }
    write(session);
    chain(session, &input);
}

/// The readers, in one edition.
fn read(session: &mut Session, input: &[u8]) {
    let edition = made::edition(&mut session.prng);
    let shown = ask::read(session, input, edition);
    for _ in 0..2 {
        let number = made::number(&mut session.prng, shown);
        ask::field(session, input, edition, number);
    }
    let count = session.prng.below(4 * shown + 6);
    ask::fields(session, input, edition, count);
}

/// The writer.
fn write(session: &mut Session) {
    let values = made::values(&mut session.prng);
    let exact = made::end(&[values.presence], 3);
    let (place, length) = room(&mut session.prng, exact);
    let output = session.prng.octets(length);
    ask::write(session, &output, place, &values);
}

/// The chains of calls.
fn chain(session: &mut Session, input: &[u8]) {
    let first = session.prng.below(4) as u32;
    let second = session.prng.below(4) as u32;
    editions::agree(session, input, first, second);
    chains::rewrite(session, input, first);
    if session.prng.one_in(2) {
        chains::write_and_read(session);
    }
}
