//! Asks library and model the same question and compares the answers.

use super::ffi;
use super::made::PARTS;
use crate::lent::Lent;
use crate::Session;
use model::rows::done;
use model::tally::{self, Counted, Tally, RECORDS};

/// Record added to a tally.
pub fn add(session: &mut Session, tally: &Tally, record: &Counted) {
    let mut lent = Lent::of_numbers(&mut session.prng, tally);
    let library = ffi::add(as_tally(lent.lend()), record);
    let model = done(tally::add(as_tally(lent.keep()), record));
    session.report.compare(
        told(tally),
        || format!("tally {tally:?} {record:?}"),
        (library, lent.seen()),
        (model, lent.wanted()),
    );
}

fn as_tally(numbers: &mut [u64]) -> &mut Tally {
    numbers.try_into().expect("nine numbers")
}

/// The function, and which of the tally's two sums are met.
fn told(tally: &Tally) -> &'static str {
    let records = tally[RECORDS];
    let met = |[a, b]: [usize; 2]| tally[a].checked_add(tally[b]) == Some(records);
    let met_modulo = |[a, b]: [usize; 2]| tally[a].wrapping_add(tally[b]) == records;
    match PARTS.map(met) {
        [true, true] => "zalghimo_btsnoop_tally, both sums met",
        _ if PARTS.into_iter().all(met_modulo) => {
            "zalghimo_btsnoop_tally, sums met only modulo 2^64"
        }
        [false, true] => "zalghimo_btsnoop_tally, sent and received broken",
        [true, false] => "zalghimo_btsnoop_tally, commands and data broken",
        [false, false] => "zalghimo_btsnoop_tally, both sums broken",
    }
}
