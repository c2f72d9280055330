//! Chains of library calls, held against what they must come to.

use super::ffi;
use super::made::{self, Values};
use crate::lent::Lent;
use crate::report::Hex;
use crate::Session;
use model::rows::VALUES;
use random::damage::put;

/// The editions served.
const SERVED: [u32; 4] = [0, 1, 2, 3];

/// More than the fields that eight words can call for.
const FIELDS: usize = 256;

/// A header as the library reads it in an edition, field by field.
pub struct Whole {
    /// The answer for the whole header.
    pub row: [u64; 9],
    /// Word, bit, start and size of each field.
    pub fields: Vec<[u64; 4]>,
}

/// The edition that a number asks for.
pub fn asked(edition: u32) -> u32 {
    edition.max(1)
}

/// Reads all fields with the library, up to the first number that shows none.
pub fn read_all(input: &[u8], edition: u32) -> Whole {
    let mut input = input.to_vec();
    let row = ffi::read(&mut input, edition);
    let mut fields = Vec::new();
    for number in 0..FIELDS {
        let [VALUES, _, _, word, bit, start, size] = ffi::field(&mut input, edition, number) else {
            break;
        };
        fields.push([word, bit, start, size]);
    }
    Whole { row, fields }
}

/// The octets of a field, none where they leave the input.
fn octets<'a>(input: &'a [u8], field: &[u64; 4]) -> &'a [u8] {
    let [_, _, start, size] = field.map(|number| number as usize);
    let end = start.saturating_add(size);
    input.get(start..end).unwrap_or_default()
}

/// The octets of all fields, one behind the other.
fn packed(input: &[u8], fields: &[[u64; 4]]) -> Vec<u8> {
    let parts: Vec<&[u8]> = fields.iter().map(|field| octets(input, field)).collect();
    parts.concat()
}

/// Writes a header and reads it back in its edition and the later ones.
pub fn write_and_read(session: &mut Session) {
    let mut values = made::representable(&mut session.prng);
    let (edition, presence) = (values.edition, values.presence);
    let exact = made::end(&[presence], 3);
    let start = session.prng.below(20);
    let spare = session.prng.below(9);
    let mut output = session.prng.octets(start + exact + spare);
    let written = ffi::write(&mut output, start, edition, presence, &mut values.packed);
    session.report.compare(
        "chain: radiotap write",
        || format!("start {start} edition {edition} presence {presence:#010x}"),
        written,
        [VALUES, 0, 0, (start + exact) as u64],
    );
    for later in SERVED {
        if asked(later) >= asked(edition) {
            read_back(session, &output[start..], &values, exact, later);
        }
    }
}

/// Holds what is read at the start of an input against the values written there.
fn read_back(session: &mut Session, input: &[u8], values: &Values, length: usize, edition: u32) {
    let presence = values.presence;
    let Whole { row, fields } = read_all(input, edition);
    let word = ffi::word(&mut input.to_vec(), 0);
    let read: Vec<[u64; 2]> = fields.iter().map(|field| [field[0], field[1]]).collect();
    let set = (0..32).filter(|bit| presence >> bit & 1 == 1);
    let written: Vec<[u64; 2]> = set.map(|bit| [0, bit]).collect();
    let shown = written.len() as u64;
    session.report.compare(
        "chain: radiotap read back",
        || format!("input {} edition {edition}", Hex(input)),
        (row, word, read, Hex(&packed(input, &fields))),
        (
            [VALUES, 0, 0, shown, length as u64, 0, 0, 0, 1],
            [VALUES, 0, 0, presence.into()],
            written,
            Hex(&values.packed),
        ),
    );
}

/// Rewrites a header of one word, bit 29 clear, that is read without a stop: to its own octets
/// exactly when its pad octets are 0 and its length ends at the last field.
pub fn rewrite(session: &mut Session, input: &[u8], edition: u32) {
    let Whole { row, fields } = read_all(input, edition);
    let [VALUES, _, _, _, frame, _, _, _, 1] = row else {
        return;
    };
    let presence = ffi::word(&mut input.to_vec(), 0)[3] as u32;
    let header = input.get(..frame as usize).unwrap_or_default();
    if presence >> 29 & 1 == 1 {
        return;
    }
    let mut values = packed(input, &fields);
    let room = session.prng.octets(header.len());
    let mut lent = Lent::new(&mut session.prng, &room);
    let next = ffi::write(lent.lend(), 0, edition, presence, &mut values)[3] as usize;
    session.report.compare(
        "chain: radiotap rewrite",
        || format!("header {} edition {edition}", Hex(header)),
        lent.lend().get(..next) == Some(header),
        tidy(header, &fields),
    );
}

/// Whether the pad octets of a header are 0 and its length ends at the last field.
fn tidy(header: &[u8], fields: &[[u64; 4]]) -> bool {
    let mut pads = header.to_vec();
    put(&mut pads, 2, &[0; 6]);
    for field in fields {
        let zeros = vec![0; octets(header, field).len()];
        put(&mut pads, field[2] as usize, &zeros);
    }
    let end = fields.last().map_or(8, |[_, _, start, size]| start + size);
    end == header.len() as u64 && pads.iter().all(|octet| *octet == 0)
}
