//! Chains of library calls, held against what they must come to.

use super::ffi;
use super::made::{self, HEADER};
use crate::lent::Lent;
use crate::report::Hex;
use crate::Session;
use model::le::Values;
use model::rows::VALUES;

/// The values and the packet that a row of the library tells of.
fn read(input: &[u8]) -> Option<(Values, Vec<u8>)> {
    let row = ffi::read(&mut input.to_vec());
    let [VALUES, _, _, rf_channel, signal, noise, offences, reference, flags, .., packet] = row
    else {
        return None;
    };
    let values = Values {
        rf_channel: rf_channel as u8,
        signal: signal as i8,
        noise: noise as i8,
        offences: offences as u8,
        reference: reference as u32,
        flags: flags as u16,
    };
    Some((values, input.get(packet as usize..)?.to_vec()))
}

/// Writes a valid pseudo-header with its packet and reads both back.
pub fn write_and_read(session: &mut Session) {
    let values = made::valid_values(&mut session.prng);
    let mut packet = made::valid_packet(&mut session.prng, &values);
    let start = session.prng.below(20);
    let end = start + HEADER + packet.len();
    let mut output = session.prng.octets(end);
    let written = ffi::write(&mut output, start, &values, &mut packet);
    let read = read(&output[start..]);
    session.report.compare(
        "chain: LE read back",
        || format!("start {start} {values:?} packet {}", Hex(&packet)),
        (written, read),
        ([VALUES, 0, 0, end as u64], Some((values, packet.clone()))),
    );
}

/// Rewrites an input that the library reads to its own octets.
pub fn rewrite(session: &mut Session, input: &[u8]) {
    let Some((values, mut packet)) = read(input) else {
        return;
    };
    let room = session.prng.octets(input.len());
    let mut lent = Lent::new(&mut session.prng, &room);
    let written = ffi::write(lent.lend(), 0, &values, &mut packet);
    lent.keep().copy_from_slice(input);
    session.report.compare(
        "chain: LE rewrite",
        || format!("input {}", Hex(input)),
        (written, lent.seen()),
        ([VALUES, 0, 0, input.len() as u64], lent.wanted()),
    );
}
