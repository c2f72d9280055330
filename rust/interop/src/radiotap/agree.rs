//! Holds the library's reading of each packet to tshark's decode.

use super::names::{named, parts, Form};
use super::pdml::Shown;
use crate::library;
use std::collections::BTreeMap;

/// Where the bits of the next word are numbered from 0 again.
const FROM_0: u32 = 1 << 29;

/// The bit of a vendor's fields, which tshark passes over.
const VENDOR: u64 = 30;

/// What agreed: parts of fields by name, headers, those that stop, and those that stop in a continued word.
#[derive(Default)]
pub struct Agreed {
    pub parts: BTreeMap<&'static str, u64>,
    pub readings: u64,
    pub stopped: u64,
    pub continued: u64,
}

/// A little-endian number.
fn number(octets: &[u8]) -> u64 {
    octets
        .iter()
        .rev()
        .fold(0, |number, octet| number << 8 | u64::from(*octet))
}

/// A number as tshark writes it.
fn parsed(text: &str) -> Option<u64> {
    match text.strip_prefix("0x") {
        Some(digits) => u64::from_str_radix(digits, 16).ok(),
        None => text.parse().ok(),
    }
}

/// Whether tshark shows these octets at this place.
fn same(shown: &Shown, start: usize, octets: &[u8], form: Form) -> bool {
    let hexadecimal: String = octets.iter().map(|octet| format!("{octet:02x}")).collect();
    let value = match form {
        Form::Unsigned => parsed(&shown.show) == Some(number(octets)),
        Form::Signed => shown.show.parse() == Ok(octets[0] as i8),
        Form::Halves => shown.show.parse() == Ok(f64::from(octets[0]) / 2.0),
        Form::Octets | Form::Whole => true,
    };
    let octets_agree = matches!(form, Form::Whole) || shown.octets == hexadecimal;
    shown.start == start && shown.size == octets.len() && value && octets_agree
}

/// Whether tshark calculated a field: a data rate from the three octets of an MCS field.
fn calculated(shown: &Shown) -> bool {
    shown.name == "datarate" && shown.size == 3
}

/// Whether a word goes on numbering behind the one before it.
fn continued(packet: &[u8], word: u64) -> bool {
    let before = || number(&packet[4 * word as usize..][..4]) as u32;
    word > 0 && before() & FROM_0 == 0
}

/// What stands before the first field, by tshark: pad, length and how many words.
fn before(shown: &[Shown]) -> [Option<u64>; 3] {
    let value = |name: &str| {
        let field = shown.iter().find(|field| field.name == name);
        field.and_then(|field| parsed(&field.show))
    };
    let words = shown
        .iter()
        .filter(|field| field.name == "present.word")
        .count();
    [value("pad"), value("length"), Some(words as u64)]
}

impl Agreed {
    /// Compares one packet in one edition; on a difference the answer says what differs.
    pub fn packet(&mut self, packet: &[u8], edition: u32, shown: &[Shown]) -> Result<(), String> {
        let (answer, fields) = library::radiotap_fields(packet, edition);
        if before(shown) != [answer.pad, answer.frame, answer.words].map(Some) {
            return Err(format!(
                "before the fields: {answer:?}, tshark {:?}",
                before(shown)
            ));
        }
        let mut named = shown
            .iter()
            .filter(|field| named(&field.name) && !calculated(field));
        for field in &fields {
            self.field(packet, *field, &mut named)?;
        }
        self.ending(packet, &answer, named.next())
    }

    /// Compares the parts of one field with the next ones that tshark shows.
    fn field<'a>(
        &mut self,
        packet: &[u8],
        [word, bit, start, _]: [u64; 4],
        named: &mut impl Iterator<Item = &'a Shown>,
    ) -> Result<(), String> {
        for (name, place, size, form) in parts(bit) {
            let start = start as usize + place;
            let (octets, shown) = (&packet[start..][..*size], named.next());
            let agrees = |shown: &Shown| shown.name == *name && same(shown, start, octets, *form);
            if !shown.is_some_and(agrees) {
                let ours = format!("word {word} bit {bit} {name} at {start}: {octets:02x?}");
                return Err(format!("{ours}, tshark {shown:?}"));
            }
            *self.parts.entry(name).or_default() += 1;
        }
        Ok(())
    }

    /// After the last field tshark shows no other, unless the reading stopped at a bit that tshark knows; it knows none of a
    /// continued word.
    fn ending(
        &mut self,
        packet: &[u8],
        answer: &library::Radiotap,
        more: Option<&Shown>,
    ) -> Result<(), String> {
        self.readings += 1;
        let stopped = answer.kind == library::STOPPED;
        let continued = stopped && answer.bit < VENDOR && continued(packet, answer.word);
        self.stopped += u64::from(stopped);
        self.continued += u64::from(continued);
        match more {
            Some(field) if !stopped || continued => {
                Err(format!("tshark shows one more: {field:?}"))
            }
            _ => Ok(()),
        }
    }
}
