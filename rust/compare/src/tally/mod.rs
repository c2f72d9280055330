//! The tally: the questions of one round.

mod ask;
mod chains;
pub mod ends;
mod ffi;
mod made;

use crate::Session;

/// One round over two records and one capture.
pub fn round(session: &mut Session) {
    for _ in 0..2 {
        let record = made::record(&mut session.prng);
        let tally = made::tally(&mut session.prng, &record);
        ask::add(session, &tally, &record);
    }
    chains::capture(session);
}
