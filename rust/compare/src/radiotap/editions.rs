//! Two editions' readings of one input, side by side, as demand 3 says.

use super::chains::{asked, read_all, Whole};
use crate::report::Hex;
use crate::Session;
use model::rows::{REFUSED, STOPPED};

/// The numbers of the refusals before the first field.
const BEFORE_FIELDS: [u64; 5] = [1, 3, 9, 10, 11];

/// Holds the older of two served editions against the newer; of two equal ones, either.
pub fn agree(session: &mut Session, input: &[u8], first: u32, second: u32) {
    for (older, newer) in [(first, second), (second, first)] {
        if asked(older) <= asked(newer) {
            session.report.compare(
                "chain: radiotap editions",
                || format!("input {} editions {older} and {newer}", Hex(input)),
                broken(input, older, newer),
                None,
            );
        }
    }
}

/// The part of demand 3 that two editions break, if any.
fn broken(input: &[u8], older: u32, newer: u32) -> Option<&'static str> {
    let (one, two) = (read_all(input, older), read_all(input, newer));
    if before_fields(&one.row) || before_fields(&two.row) {
        return (one.row != two.row).then_some("the same refusal before the first field");
    }
    match (one.row[0], two.row[0]) {
        (_, REFUSED) if one.row == two.row => None,
        (STOPPED, REFUSED) => {
            let stop = (one.row[5], one.row[6]);
            let refused = position(input, newer, two.row[2]);
            (Some(stop) > refused).then_some("a stop at the field refused or an earlier one")
        }
        (_, REFUSED) => Some("the same refusal at a field, or a stop"),
        (REFUSED, _) => Some("a header that the newer reads"),
        _ => broken_fields(&one, &two),
    }
}

/// Whether a row is a refusal before the first field.
fn before_fields(row: &[u64; 9]) -> bool {
    row[0] == REFUSED && BEFORE_FIELDS.contains(&row[1])
}

/// The part of demand 3 that two readings without a refusal break, if any.
fn broken_fields(older: &Whole, newer: &Whole) -> Option<&'static str> {
    let ending = |whole: &Whole| (whole.row[0], whole.row[5], whole.row[6]);
    if older.row[4] != newer.row[4] {
        return Some("the same frame");
    }
    if !newer.fields.starts_with(&older.fields) {
        return Some("the older's fields as the newer's first");
    }
    match newer.fields.get(older.fields.len()) {
        Some([word, bit, ..]) => {
            let stop = (STOPPED, *word, *bit);
            (ending(older) != stop).then_some("a stop at the newer's next field")
        }
        None => (ending(older) != ending(newer)).then_some("the same ending"),
    }
}

/// Word and bit of the field that a refusal's place names: the one that starts there
/// once the header is long enough for all of its fields.
fn position(input: &[u8], edition: u32, place: u64) -> Option<(u64, u64)> {
    let mut long = input.to_vec();
    let [_, _, low, high] = *long.first_chunk()?;
    let length = u16::from_le_bytes([low, high]).checked_add(1024)?;
    long.resize(usize::from(length), 0);
    long[2..4].copy_from_slice(&length.to_le_bytes());
    let fields = read_all(&long, edition).fields;
    let [word, bit, ..] = fields.into_iter().find(|field| field[2] == place)?;
    Some((word, bit))
}
