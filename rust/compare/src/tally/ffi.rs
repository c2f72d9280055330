//! The library's tally function.

use model::tally::{Counted, Tally};
use zalghimo_sys::btsnoop;

/// `zalghimo_btsnoop_tally`
pub fn add(tally: &mut Tally, record: &Counted) -> [u64; 3] {
    btsnoop::tally(
        tally,
        record.original_length,
        record.included_length,
        record.flags,
        record.cumulative_drops,
    )
    .row()
}
