//! Asks library and model the same question and compares the answers.

use super::ffi;
use crate::lent::Lent;
use crate::report::Hex;
use crate::Session;
use model::le::{self, Values};
use model::rows::{le as rows, written};

/// Pseudo-header and packet.
pub fn read(session: &mut Session, input: &[u8]) {
    let mut lent = Lent::new(&mut session.prng, input);
    let library = ffi::read(lent.lend());
    let model = rows::reading(&le::read(input));
    session.report.compare(
        "zalghimo_le_read",
        || format!("input {}", Hex(input)),
        (library, lent.seen()),
        (model, lent.wanted()),
    );
}

/// Pseudo-header and packet written at a place.
pub fn write(session: &mut Session, output: &[u8], place: usize, values: &Values, packet: &[u8]) {
    let mut lent = Lent::new(&mut session.prng, output);
    let mut part = Lent::new(&mut session.prng, packet);
    let library = ffi::write(lent.lend(), place, values, part.lend());
    let model = written(le::write(lent.keep(), place, values, packet));
    session.report.compare(
        "zalghimo_le_write",
        || {
            format!(
                "output {} place {place} {values:?} packet {}",
                Hex(output),
                Hex(packet)
            )
        },
        (library, lent.seen(), part.seen()),
        (model, lent.wanted(), part.wanted()),
    );
}
