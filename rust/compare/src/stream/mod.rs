//! BTSnoop as it arrives: the questions of one round.

mod by_hand;
mod calls;
pub mod ends;
mod ffi;
mod made;
mod told;

use crate::btsnoop::made::capture;
use crate::Session;
use calls::Way;
use made::Cut;

/// One round over one stream, and over states that no call left.
pub fn round(session: &mut Session) {
    let stream = capture(&mut session.prng).octets;
    let prng = &mut session.prng;
    let way = Way {
        cut: Cut::any(prng, stream.len()),
        ended: !prng.one_in(4),
        before: made::before(prng, stream.len()),
    };
    let left = calls::follow(session, &stream, way);
    let made = made::state(&mut session.prng, &stream);
    let changed = made::changed(&mut session.prng, &stream, left);
    for state in [made, changed] {
        let from = session.prng.below(stream.len() + 1);
        let chunk = &stream[from..];
        let length = Cut::Mixed.length(&mut session.prng).min(chunk.len());
        by_hand::ask(session, state, &chunk[..length]);
    }
}
