//! States made by hand: some answer to each, 32 exactly by the state's own octets, and a final answer that stays.

use super::ffi;
use crate::lent::Lent;
use crate::report::Hex;
use crate::Session;
use model::refusal::Reason;
use model::rows::{END, FILE_HEADER, MORE, REFUSED, VALUES};
use model::stream::too_long;
use zalghimo_sys::{Stream, Taken};

/// The phases without a final answer are those below.
const REFUSED_PHASE: u64 = 3;

/// Both calls from a state, with a chunk.
pub fn ask(session: &mut Session, state: Stream, chunk: &[u8]) {
    let mut lent = Lent::new(&mut session.prng, chunk);
    let taken = ffi::take(state, lent.lend());
    let ended = ffi::end(state);
    let mut faults = faults(&taken, chunk.len());
    if state.phase < REFUSED_PHASE {
        faults.extend(length_faults(&state, &taken, chunk.len()));
    } else {
        faults.extend(final_faults(&state, &taken));
    }
    faults.extend(repeat_faults(&taken, lent.lend()));
    let inputs = || format!("{state:?} chunk {}", Hex(chunk));
    session
        .report
        .compare("stream: take from a made state", inputs, faults, vec![]);
    let mut faults = end_faults(&state, &ended);
    faults.extend(repeat_faults(&ended, lent.lend()));
    session
        .report
        .compare("stream: end from a made state", inputs, faults, vec![]);
    session
        .report
        .compare("stream: octets lent", inputs, lent.seen(), lent.wanted());
}

/// Whether an answer is a refusal or the end.
fn is_final(answer: &Taken) -> bool {
    matches!(answer.kind, REFUSED | END)
}

/// What holds of every answer to a chunk of a length.
fn faults(answer: &Taken, length: usize) -> Vec<&'static str> {
    let mut faults = Vec::new();
    let part_end = answer.part.checked_add(answer.size);
    let values = &answer.row()[3..];
    if !matches!(answer.kind, REFUSED | VALUES | END | MORE | FILE_HEADER) {
        faults.push("no such kind");
    }
    if answer.taken > length as u64 {
        faults.push("more taken than the chunk has");
    }
    if part_end.is_none_or(|end| end > length as u64) {
        faults.push("a part outside the chunk");
    }
    if answer.size == 0 && (answer.part, answer.position) != (0, 0) {
        faults.push("a place of no octets");
    }
    if is_final(answer) && values.iter().any(|value| *value != 0) {
        faults.push("values with a final answer");
    }
    if answer.kind != REFUSED && (answer.number, answer.place) != (0, 0) {
        faults.push("a refusal's number or place without one");
    }
    faults
}

/// 32 exactly for a chunk that takes the stream past the most octets.
fn length_faults(state: &Stream, answer: &Taken, length: usize) -> Option<&'static str> {
    let given = (answer.kind, answer.number) == (REFUSED, Reason::LongStream as u64);
    if !too_long(state.octets, length) {
        return given.then_some("32 within the most octets");
    }
    let whole = given && answer.place == 0 && answer.state.octets == state.octets;
    (!whole).then_some("not 32 past the most octets")
}

/// A state with a final answer gives it.
fn final_faults(state: &Stream, answer: &Taken) -> Option<&'static str> {
    let kind = match state.phase {
        REFUSED_PHASE => REFUSED,
        _ => END,
    };
    let given = answer.kind == kind && answer.state.octets == state.octets;
    (!given).then_some("not the final answer of the state")
}

/// A final answer is given again, whatever the chunk.
fn repeat_faults(answer: &Taken, chunk: &mut [u8]) -> Option<&'static str> {
    let same =
        |other: Taken| (other.row(), other.state.octets) == (answer.row(), answer.state.octets);
    let again = is_final(answer).then(|| {
        same(ffi::take(answer.state, chunk))
            && same(ffi::take(answer.state, &mut []))
            && same(ffi::end(answer.state))
    });
    (again == Some(false)).then_some("another answer after a final one")
}

/// The stream's end is the end or a refusal, but never 32 where no chunk was refused.
fn end_faults(state: &Stream, answer: &Taken) -> Vec<&'static str> {
    let mut faults = faults(answer, 0);
    if !is_final(answer) || answer.state.octets != state.octets {
        faults.push("no final answer at the stream's end");
    }
    if state.phase < REFUSED_PHASE && answer.number == Reason::LongStream as u64 {
        faults.push("32 at the stream's end");
    }
    if state.phase >= REFUSED_PHASE {
        faults.extend(final_faults(state, answer));
    }
    faults
}
