//! The radiotap header, in editions 1 to 3.
//!
//! An edition says which fields are known; edition 0 asks for the default, 1. A bit that the edition does not know
//! stops the reading: the fields before it are shown and [`Ending::Stop`] names it.
//!
//! ```
//! use zalghimo::radiotap::{self, Ending, Header};
//!
//! // Flags (bit 1) and RX flags (bit 14), which edition 1 does not know; then a frame.
//! let mut octets = Vec::new();
//! radiotap::push(&mut octets, 2, 0x4002, &[0x10, 0x01, 0x00])?;
//! octets.extend([0xD4, 0x00]);
//!
//! let header = Header::read(&octets, 2)?;
//! let names: Vec<&str> = header.fields().map(|field| field.name()).collect();
//! assert_eq!(names, ["Flags", "RX flags"]);
//! assert_eq!(header.frame(), [0xD4, 0x00]);
//!
//! let older = Header::read(&octets, 1)?;
//! assert_eq!(older.ending(), Ending::Stop { word: 0, bit: 14 });
//! # Ok::<(), zalghimo::Refusal>(())
//! ```
//!
//! # The fields
//!
//! Alignment and size in octets, and the first edition that knows the field:
//!
//! | Bit | Field | Alignment | Size | First edition |
//! |---|---|---|---|---|
//! | 0 | TSFT | 8 | 8 | 1 |
//! | 1 | Flags | 1 | 1 | 1 |
//! | 2 | Rate | 1 | 1 | 1 |
//! | 3 | Channel | 2 | 4 | 1 |
//! | 4 | FHSS | 2 | 2 | 1 |
//! | 5 | Antenna signal | 1 | 1 | 1 |
//! | 6 | Antenna noise | 1 | 1 | 1 |
//! | 7 | Lock quality | 2 | 2 | 1 |
//! | 8 | TX attenuation | 2 | 2 | 1 |
//! | 9 | dB TX attenuation | 2 | 2 | 1 |
//! | 10 | dBm TX power | 1 | 1 | 1 |
//! | 11 | Antenna | 1 | 1 | 1 |
//! | 12 | dB antenna signal | 1 | 1 | 1 |
//! | 13 | dB antenna noise | 1 | 1 | 1 |
//! | 14 | RX flags | 2 | 2 | 2 |
//! | 15 | TX flags | 2 | 2 | 2 |
//! | 16 | RTS retries | 1 | 1 | 2 |
//! | 17 | data retries | 1 | 1 | 2 |
//! | 19 | MCS | 1 | 3 | 3 |
//! | 20 | A-MPDU status | 4 | 8 | 3 |
//! | 21 | VHT | 2 | 12 | 3 |
//!
//! Bits 18, 22 to 28 and 30 stop the reading in every edition; bits 29 and 31 carry no field. Bits 5, 6 and 10 are
//! signed dBm.
//!
//! A presence word numbers its bits from 0 where it is the first, or where the word before it has bit 29 set. Another
//! word is continued: its bits go on past the table, so that each of its bits 0 to 28 stops the reading in every edition,
//! and [`name`] does not name them. Before request W-205 every word numbered its bits from 0.
//!
//! A field starts at the next multiple of its alignment, counted from the header's start. A writer takes the values
//! packed: one after another in bit order, each of its size, without the octets between them. What it writes has 8
//! octets and then the fields, each at its place, and ends with the last one. All fields of edition 3 take 68 octets,
//! and fewer fields never take more.

mod field;
mod parts;

pub use field::{name, Field};
pub use parts::{Fields, Words};

use crate::answer::{accepted, place_after};
#[cfg(doc)]
use crate::Reason;
use crate::{write, Refusal};
use std::sync::Arc;
use zalghimo_sys::{RADIOTAP_MOST_FIELDS, STOPPED};

/// Numbers that the library gives for a field: word, bit, start, size.
const NUMBERS: usize = 4;

/// Octets of a header without fields.
const FIXED: usize = 8;

/// The most pad octets before the fields of one word: up to 7 for each bit.
const MOST_PAD: usize = 29 * 7;

/// A radiotap header read in an edition, and the frame behind it.
#[derive(Clone, Debug, PartialEq, Eq, Hash)]
pub struct Header<'a> {
    octets: &'a [u8],
    fields: Arc<[Field<'a>]>,
    ending: Ending,
    frame: usize,
    pad: u8,
    words: usize,
}

/// How a reading ends.
#[derive(Clone, Copy, Debug, PartialEq, Eq, Hash)]
pub enum Ending {
    /// All fields are shown.
    End,
    /// The edition does not know the field of this bit, so that no more fields are shown.
    Stop {
        /// The presence word, from 0.
        word: u32,
        /// The bit in it, from 0.
        bit: u32,
    },
}

impl<'a> Header<'a> {
    /// Reads a header in an edition. One that is refused shows no field.
    ///
    /// # Errors
    ///
    /// In this order: [`Reason::Edition`], [`Reason::ShortHeader`], [`Reason::Version`], [`Reason::RadiotapLength`];
    /// word by word [`Reason::NinthWord`], [`Reason::WordPastLength`]; field by field [`Reason::FieldPastLength`].
    pub fn read(octets: &'a [u8], edition: u32) -> Result<Header<'a>, Refusal> {
        let mut numbers = [0; NUMBERS * RADIOTAP_MOST_FIELDS];
        let answer = zalghimo_sys::radiotap::fields(octets, edition, &mut numbers);
        accepted(answer.head())?;
        let shown = numbers.chunks_exact(NUMBERS).take(answer.fields as usize);
        Ok(Header {
            octets,
            fields: shown.map(|field| Field::of(octets, field)).collect(),
            ending: match answer.kind {
                STOPPED => Ending::Stop {
                    word: answer.word as u32,
                    bit: answer.bit as u32,
                },
                _ => Ending::End,
            },
            frame: answer.frame as usize,
            pad: answer.pad as u8,
            words: answer.words as usize,
        })
    }

    /// The fields in order of word and bit.
    pub fn fields(&self) -> Fields<'a> {
        Fields::of(&self.fields)
    }

    /// Whether the fields end there or the reading stopped.
    pub fn ending(&self) -> Ending {
        self.ending
    }

    /// The frame: the input from the header's length on.
    pub fn frame(&self) -> &'a [u8] {
        &self.octets[self.frame..]
    }

    /// The header's length, which is the frame's place.
    pub fn length(&self) -> usize {
        self.frame
    }

    /// The pad octet as found.
    pub fn pad(&self) -> u8 {
        self.pad
    }

    /// The presence words.
    pub fn words(&self) -> Words<'a> {
        Words::of(self.octets, self.words)
    }
}

impl<'a> IntoIterator for Header<'a> {
    type Item = Field<'a>;
    type IntoIter = Fields<'a>;

    fn into_iter(self) -> Fields<'a> {
        self.fields()
    }
}

impl<'a> IntoIterator for &Header<'a> {
    type Item = Field<'a>;
    type IntoIter = Fields<'a>;

    fn into_iter(self) -> Fields<'a> {
        self.fields()
    }
}

/// Writes a header with one presence word into an output at a place and answers the place after it.
///
/// The values are packed without gaps in bit order, each of the size that [the table](self#the-fields) gives. Pad
/// octets are 0. An accepted write changes only the octets written, at most 68.
///
/// # Errors
///
/// In this order: [`Reason::Edition`], [`Reason::UnknownBit`], [`Reason::ValuesLength`], [`Reason::NoRoom`]. Nothing
/// is changed then.
pub fn write(
    output: &mut [u8],
    place: usize,
    edition: u32,
    presence: u32,
    values: &[u8],
) -> Result<usize, Refusal> {
    let written = zalghimo_sys::radiotap::write(output, place, edition, presence, values);
    place_after(written)
}

/// As [`write`](write()), at the end of the octets.
///
/// # Errors
///
/// In this order: [`Reason::Edition`], [`Reason::UnknownBit`], [`Reason::ValuesLength`]. The octets are then as before.
pub fn push(
    octets: &mut Vec<u8>,
    edition: u32,
    presence: u32,
    values: &[u8],
) -> Result<(), Refusal> {
    let room = FIXED + MOST_PAD + values.len();
    write::push(octets, room, |output, place| {
        write(output, place, edition, presence, values)
    })
}
