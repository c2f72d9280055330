//! A capture as lines: as tshark and btmon print it, from the packets made or as the library reads it.

use super::made::{Packet, ACL_DATA, COMMAND, EVENT, H4};
use crate::library;
use std::fmt::Write;

/// What a line tells of a packet.
struct Line {
    original: u64,
    included: u64,
    seconds: i64,
    microseconds: u64,
    received: bool,
    /// The packet type.
    kind: Option<u8>,
}

impl Line {
    /// tshark's fields: number, lengths, time, direction, protocols up to that of the packet type.
    fn tshark(&self, number: usize, datalink: u32) -> String {
        let (original, included) = (self.original, self.included);
        let (seconds, microseconds) = (self.seconds, self.microseconds);
        let received = u8::from(self.received);
        let transport = if datalink == H4 { "hci_h4" } else { "hci_h1" };
        let kind = match self.kind {
            Some(COMMAND) => ":bthci_cmd",
            Some(ACL_DATA) => ":bthci_acl",
            Some(EVENT) => ":bthci_evt",
            _ => "",
        };
        let numbers = format!("{number}\t{original}\t{included}\t{seconds}.{microseconds:06}000");
        format!("{numbers}\t{received}\tbluetooth:{transport}{kind}\n")
    }
}

/// The packets made, as tshark prints them.
pub fn made(packets: &[Packet], datalink: u32) -> String {
    let more = u64::from(datalink == H4);
    let line = |(index, packet): (usize, &Packet)| {
        let line = Line {
            original: packet.original as u64 + more,
            included: packet.octets.len() as u64 + more,
            seconds: packet.seconds,
            microseconds: packet.microseconds.into(),
            received: packet.received,
            kind: Some(packet.kind),
        };
        line.tshark(index + 1, datalink)
    };
    packets.iter().enumerate().map(line).collect()
}

/// The packets made, as btmon heads them: direction, number, seconds since the first one's and microseconds.
pub fn btmon(packets: &[Packet]) -> String {
    let mut text = String::new();
    for (index, packet) in packets.iter().enumerate() {
        let direction = if packet.received { '>' } else { '<' };
        let seconds = packet.seconds - packets[0].seconds;
        let (number, microseconds) = (index + 1, packet.microseconds);
        writeln!(text, "{direction} #{number} {seconds}.{microseconds:06}")
            .expect("a string grows");
    }
    text
}

/// The packet type: the first octet of H4, what the flags say of H1.
fn kind(input: &[u8], record: &library::Record, datalink: u32) -> Option<u8> {
    match (datalink, record.flags & 3) {
        (H4, _) if record.included == 0 => None,
        (H4, _) => Some(input[record.packet as usize]),
        (_, 2) => Some(COMMAND),
        (_, 3) => Some(EVENT),
        _ => Some(ACL_DATA),
    }
}

/// A capture as the library reads it, in tshark's words; none where it is refused.
pub fn read(input: &[u8]) -> Option<String> {
    let file = library::check(input);
    let datalink = file.datalink as u32;
    let (mut place, mut text) = (16, String::new());
    for number in 1..=file.records as usize {
        let record = library::record(input, place);
        let time = library::read_time(record.time);
        let line = Line {
            original: record.original,
            included: record.included,
            seconds: time.seconds,
            microseconds: time.microseconds,
            received: record.flags & 1 != 0,
            kind: kind(input, &record, datalink),
        };
        text.push_str(&line.tshark(number, datalink));
        place = record.next as usize;
    }
    (file.kind == library::VALUES).then_some(text)
}
