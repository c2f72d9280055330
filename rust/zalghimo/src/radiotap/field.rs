//! A field of a radiotap header, and its published name.

/// A field that is shown.
#[derive(Clone, Copy, Debug, PartialEq, Eq, Hash)]
pub struct Field<'a> {
    word: u32,
    bit: u32,
    start: usize,
    octets: &'a [u8],
}

impl<'a> Field<'a> {
    /// The field of which the library gives these numbers.
    pub(super) fn of(octets: &'a [u8], numbers: &[u64]) -> Field<'a> {
        let (start, size) = (numbers[2] as usize, numbers[3] as usize);
        Field {
            word: numbers[0] as u32,
            bit: numbers[1] as u32,
            start,
            octets: &octets[start..][..size],
        }
    }

    /// The presence word, from 0.
    pub fn word(&self) -> u32 {
        self.word
    }

    /// The bit in it, from 0.
    pub fn bit(&self) -> u32 {
        self.bit
    }

    /// The published name.
    pub fn name(&self) -> &'static str {
        name(self.bit).unwrap_or_default()
    }

    /// The place where the field starts, from the header's start.
    pub fn start(&self) -> usize {
        self.start
    }

    /// The field's octets, a part of the input; its numbers are little-endian.
    pub fn octets(&self) -> &'a [u8] {
        self.octets
    }

    /// The value in dBm, for the three fields that are one (bits 5, 6 and 10).
    pub fn dbm(&self) -> Option<i8> {
        match (self.bit, self.octets) {
            (5 | 6 | 10, &[octet]) => Some(octet as i8),
            _ => None,
        }
    }
}

/// The published names of bits 0 to 28.
const NAMES: [&str; 29] = [
    "TSFT",
    "Flags",
    "Rate",
    "Channel",
    "FHSS",
    "Antenna signal",
    "Antenna noise",
    "Lock quality",
    "TX attenuation",
    "dB TX attenuation",
    "dBm TX power",
    "Antenna",
    "dB antenna signal",
    "dB antenna noise",
    "RX flags",
    "TX flags",
    "RTS retries",
    "data retries",
    "XChannel",
    "MCS",
    "A-MPDU status",
    "VHT",
    "timestamp",
    "HE",
    "HE-MU",
    "HE-MU-other-user",
    "0-length-PSDU",
    "L-SIG",
    "TLV",
];

/// The published name of the field that a bit calls for, in a word that numbers its bits from 0; bits 29 to 31 call for
/// none.
pub fn name(bit: u32) -> Option<&'static str> {
    NAMES.get(bit as usize).copied()
}
