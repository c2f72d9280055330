//! The LE pseudo-header: the questions of one round.

mod ask;
mod chains;
pub mod ends;
mod ffi;
mod made;

use crate::places::room;
use crate::Session;

/// One round over one input.
pub fn round(session: &mut Session) {
    let input = made::input(&mut session.prng);
    ask::read(session, &input);
    write(session);
    chains::rewrite(session, &input);
    chains::write_and_read(session);
}

/// The writer.
fn write(session: &mut Session) {
    let values = made::values(&mut session.prng);
    let packet = made::packet(&mut session.prng);
    let (place, length) = room(&mut session.prng, made::HEADER + packet.len());
    let output = session.prng.octets(length);
    ask::write(session, &output, place, &values, &packet);
}
