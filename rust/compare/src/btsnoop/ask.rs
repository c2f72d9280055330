//! Asks library and model the same question and compares the answers.

use super::ffi;
use crate::lent::Lent;
use crate::report::Hex;
use crate::Session;
use model::btsnoop::{self, Fields};
use model::rows::{btsnoop as rows, written};
use model::time;

/// File header.
pub fn header(session: &mut Session, input: &[u8]) {
    let mut lent = Lent::new(&mut session.prng, input);
    let library = ffi::header(lent.lend());
    let model = rows::header(btsnoop::read_header(input));
    session.report.compare(
        "zalghimo_btsnoop_header",
        || format!("input {}", Hex(input)),
        (library, lent.seen()),
        (model, lent.wanted()),
    );
}

/// Whole file; true when the library accepts it.
pub fn check(session: &mut Session, input: &[u8]) -> bool {
    let mut lent = Lent::new(&mut session.prng, input);
    let library = ffi::check(lent.lend());
    let model = rows::file(btsnoop::check(input));
    session.report.compare(
        "zalghimo_btsnoop_check",
        || format!("input {}", Hex(input)),
        (library, lent.seen()),
        (model, lent.wanted()),
    );
    library[0] == model::rows::VALUES
}

/// Record at a place.
pub fn record(session: &mut Session, input: &[u8], place: usize) {
    let mut lent = Lent::new(&mut session.prng, input);
    let library = ffi::record(lent.lend(), place);
    let model = rows::record(&btsnoop::read_record(input, place));
    session.report.compare(
        "zalghimo_btsnoop_record",
        || format!("input {} place {place}", Hex(input)),
        (library, lent.seen()),
        (model, lent.wanted()),
    );
}

/// Survey from a place.
pub fn survey(session: &mut Session, input: &[u8], place: usize, number: usize) {
    let mut lent = Lent::new(&mut session.prng, input);
    let library = ffi::survey(lent.lend(), place, number);
    let model = rows::survey(btsnoop::survey(input, place, number));
    session.report.compare(
        "zalghimo_btsnoop_survey",
        || format!("input {} place {place} number {number}", Hex(input)),
        (library, lent.seen()),
        (model, lent.wanted()),
    );
}

/// Earlier of two captures.
pub fn earlier(session: &mut Session, first: &[u8], place: usize, second: &[u8], other: usize) {
    let mut one = Lent::new(&mut session.prng, first);
    let mut two = Lent::new(&mut session.prng, second);
    let library = ffi::earlier(one.lend(), place, two.lend(), other);
    let model = rows::earlier(&btsnoop::earlier(first, place, second, other));
    session.report.compare(
        "zalghimo_btsnoop_earlier",
        || {
            format!(
                "first {} place {place} second {} place {other}",
                Hex(first),
                Hex(second)
            )
        },
        (library, one.seen(), two.seen()),
        (model, one.wanted(), two.wanted()),
    );
}

/// Unix time of a field.
pub fn read_time(session: &mut Session, field: i64) {
    session.report.compare(
        "zalghimo_btsnoop_read_time",
        || format!("field {field} ({field:#018x})"),
        ffi::read_time(field),
        rows::time(time::read_time(field)),
    );
}

/// Field of a Unix time.
pub fn write_time(session: &mut Session, seconds: i64, microseconds: u32) {
    session.report.compare(
        "zalghimo_btsnoop_write_time",
        || format!("seconds {seconds} microseconds {microseconds}"),
        ffi::write_time(seconds, microseconds),
        rows::time_field(time::write_time(seconds, microseconds)),
    );
}

/// Drop difference.
pub fn drops(session: &mut Session, earlier: u32, later: u32) {
    session.report.compare(
        "zalghimo_btsnoop_drops",
        || format!("earlier {earlier} later {later}"),
        ffi::drops(earlier, later),
        btsnoop::drops(earlier, later),
    );
}

/// File header written at a place.
pub fn write_header(session: &mut Session, output: &[u8], place: usize, datalink: u32) {
    let mut lent = Lent::new(&mut session.prng, output);
    let library = ffi::write_header(lent.lend(), place, datalink);
    let model = written(btsnoop::write_header(lent.keep(), place, datalink));
    session.report.compare(
        "zalghimo_btsnoop_write_header",
        || format!("output {} place {place} datalink {datalink}", Hex(output)),
        (library, lent.seen()),
        (model, lent.wanted()),
    );
}

/// Record written at a place.
pub fn write_record(
    session: &mut Session,
    output: &[u8],
    place: usize,
    fields: &Fields,
    packet: &[u8],
) {
    let mut lent = Lent::new(&mut session.prng, output);
    let mut part = Lent::new(&mut session.prng, packet);
    let library = ffi::write_record(lent.lend(), place, fields, part.lend());
    let model = written(btsnoop::write_record(lent.keep(), place, fields, packet));
    session.report.compare(
        "zalghimo_btsnoop_write_record",
        || {
            format!(
                "output {} place {place} {fields:?} packet {}",
                Hex(output),
                Hex(packet)
            )
        },
        (library, lent.seen(), part.seen()),
        (model, lent.wanted(), part.wanted()),
    );
}
