//! Radiotap in editions 1 to 3: the table, reading, and writing with one presence word.

use crate::output::room;
use crate::refusal::{Reason, Refusal};

#[cfg(test)]
mod tests;

/// The one version served.
pub const VERSION: u8 = 0;

/// The newest edition served.
pub const NEWEST: u32 = 3;

/// The edition that 0 asks for, when reading and when writing.
pub const READING_DEFAULT: u32 = 1;
pub const WRITING_DEFAULT: u32 = 1;

/// Octets of version, pad and length, and of a presence word.
pub const BEFORE_WORDS: usize = 4;
pub const WORD: usize = 4;

/// Octets of the fixed header, with the first presence word.
pub const FIXED_HEADER: usize = BEFORE_WORDS + WORD;

/// The most presence words.
pub const WORDS: usize = 8;

/// The bits of a word that carry no field: one resets the namespace for the next word, one calls for another word.
const NO_FIELD: [u32; 2] = [RESET, ANOTHER_WORD];
const RESET: u32 = 29;
const ANOTHER_WORD: u32 = 31;

/// The bits whose fields are signed dBm.
const DBM: [u32; 3] = [5, 6, 10];

/// How a field lies in a header, and the first edition that knows it.
#[derive(Clone, Copy, Debug, PartialEq, Eq)]
pub struct Row {
    pub alignment: usize,
    pub size: usize,
    pub edition: u32,
}

/// The table's row for a field's number; none for one that no edition knows.
pub fn row(number: u32) -> Option<Row> {
    let (alignment, size, edition) = match number {
        0 => (8, 8, 1),                       // TSFT
        1 | 2 | 5 | 6 | 10..=13 => (1, 1, 1), // flags, rate, signal, noise, power, antenna
        3 => (2, 4, 1),                       // channel
        4 | 7..=9 => (2, 2, 1),               // FHSS, lock quality, TX attenuation
        14 | 15 => (2, 2, 2),                 // RX flags, TX flags
        16 | 17 => (1, 1, 2),                 // RTS retries, data retries
        19 => (1, 3, 3),                      // MCS
        20 => (4, 8, 3),                      // A-MPDU status
        21 => (2, 12, 3),                     // VHT
        _ => return None,
    };
    Some(Row {
        alignment,
        size,
        edition,
    })
}

/// The row for a field's number where the edition knows it.
fn known(number: u32, edition: u32) -> Option<Row> {
    row(number).filter(|row| row.edition <= edition)
}

/// The edition that a number asks for.
fn served(edition: u32, default: u32) -> Result<u32, Refusal> {
    match edition {
        0 => Ok(default),
        1..=NEWEST => Ok(edition),
        _ => Err(Reason::Edition.at(0)),
    }
}

/// The bits set in a presence word, from 0 on.
fn set_bits(presence: u32) -> impl Iterator<Item = u32> {
    (0..u32::BITS).filter(move |bit| presence & (1 << bit) != 0)
}

/// What stands before the first field, and the two parts of the input.
#[derive(Clone, Debug, PartialEq, Eq)]
pub struct Header<'a> {
    pub pad: u8,
    pub words: Vec<u32>,
    /// The octets up to the header's length.
    pub octets: &'a [u8],
    /// The octets from the header's length on.
    pub frame: &'a [u8],
}

/// A field that a reading shows; the octets are a part of the input.
#[derive(Clone, Copy, Debug, PartialEq, Eq)]
pub struct Field<'a> {
    pub word: usize,
    pub bit: u32,
    pub start: usize,
    pub octets: &'a [u8],
}

/// How a reading ends: after all fields, or at a bit that the edition doesn't know.
#[derive(Clone, Copy, Debug, PartialEq, Eq)]
pub enum Ending {
    End,
    Stop { word: usize, bit: u32 },
}

/// A header as an edition reads it.
#[derive(Clone, Debug, PartialEq, Eq)]
pub struct Reading<'a> {
    pub header: Header<'a>,
    pub fields: Vec<Field<'a>>,
    pub ending: Ending,
}

/// The answer to a field number.
#[derive(Clone, Copy, Debug, PartialEq, Eq)]
pub enum Numbered<'a> {
    Field(Field<'a>),
    Past(Ending),
}

/// Reads what stands before the first field; this takes no edition.
pub fn read_header(input: &[u8]) -> Result<Header<'_>, Refusal> {
    let Some(fixed) = input.first_chunk::<FIXED_HEADER>() else {
        return Err(Reason::ShortHeader.at(input.len()));
    };
    let [version, pad, low, high, ..] = *fixed;
    if version != VERSION {
        return Err(Reason::Version.at(0));
    }
    let length = usize::from(u16::from_le_bytes([low, high]));
    if length < FIXED_HEADER || length > input.len() {
        return Err(Reason::RadiotapLength.at(2));
    }
    let (octets, frame) = input.split_at(length);
    Ok(Header {
        pad,
        words: read_words(&octets[BEFORE_WORDS..])?,
        octets,
        frame,
    })
}

/// The presence words at the start of the octets, up to the first with bit 31 clear.
fn read_words(octets: &[u8]) -> Result<Vec<u32>, Refusal> {
    let mut words = Vec::new();
    let mut rest = octets;
    loop {
        if words.len() == WORDS {
            return Err(Reason::NinthWord.at(BEFORE_WORDS));
        }
        let Some((word, behind)) = rest.split_first_chunk::<WORD>() else {
            return Err(Reason::WordPastLength.at(BEFORE_WORDS));
        };
        let word = u32::from_le_bytes(*word);
        words.push(word);
        if word & (1 << ANOTHER_WORD) == 0 {
            return Ok(words);
        }
        rest = behind;
    }
}

/// Reads a header in an edition, from one field to the next.
pub fn read(input: &[u8], edition: u32) -> Result<Reading<'_>, Refusal> {
    let edition = served(edition, READING_DEFAULT)?;
    let header = read_header(input)?;
    let (mut fields, mut ending) = (Vec::new(), Ending::End);
    let mut place = BEFORE_WORDS + WORD * header.words.len();
    for Position { word, bit, number } in positions(&header.words) {
        let Some(row) = known(number, edition) else {
            ending = Ending::Stop { word, bit };
            break;
        };
        // Alignment counts from the header's start, whatever stands before the field.
        let start = place.next_multiple_of(row.alignment);
        place = start + row.size;
        let Some(octets) = header.octets.get(start..place) else {
            return Err(Reason::FieldPastLength.at(start));
        };
        fields.push(Field {
            word,
            bit,
            start,
            octets,
        });
    }
    Ok(Reading {
        header,
        fields,
        ending,
    })
}

/// A set bit that can carry a field: its word, the bit, and the field's number in the table.
struct Position {
    word: usize,
    bit: u32,
    number: u32,
}

/// The set bits that can carry a field, in their order.
fn positions(words: &[u32]) -> Vec<Position> {
    let mut positions = Vec::new();
    let mut first = 0;
    for (word, presence) in words.iter().enumerate() {
        let carrying = set_bits(*presence).filter(|bit| !NO_FIELD.contains(bit));
        positions.extend(carrying.map(|bit| Position {
            word,
            bit,
            number: first + bit,
        }));
        first = match presence & (1 << RESET) {
            0 => first + u32::BITS,
            _ => 0,
        };
    }
    positions
}

/// The presence word with a number; `None` is "end".
pub fn word(input: &[u8], number: usize) -> Result<Option<u32>, Refusal> {
    Ok(read_header(input)?.words.get(number).copied())
}

/// The field with a number, or how the reading ends.
pub fn field(input: &[u8], edition: u32, number: usize) -> Result<Numbered<'_>, Refusal> {
    let reading = read(input, edition)?;
    Ok(match reading.fields.get(number) {
        Some(field) => Numbered::Field(*field),
        None => Numbered::Past(reading.ending),
    })
}

/// The answer to a field number where a value in dBm is asked for.
#[derive(Clone, Copy, Debug, PartialEq, Eq)]
pub enum Dbm {
    Value(i8),
    OtherField,
    Past(Ending),
}

/// The value of the field with a number, where its bit is one of signed dBm.
pub fn dbm(input: &[u8], edition: u32, number: usize) -> Result<Dbm, Refusal> {
    Ok(match field(input, edition, number)? {
        Numbered::Past(ending) => Dbm::Past(ending),
        Numbered::Field(field) => match field.octets {
            [octet] if DBM.contains(&field.bit) => Dbm::Value(i8::from_le_bytes([*octet])),
            _ => Dbm::OtherField,
        },
    })
}

/// Writes a header with one presence word at a place; the answer is the place behind it.
pub fn write(
    output: &mut [u8],
    place: usize,
    edition: u32,
    presence: u32,
    values: &[u8],
) -> Result<usize, Refusal> {
    let edition = served(edition, WRITING_DEFAULT)?;
    let rows: Option<Vec<Row>> = set_bits(presence).map(|bit| known(bit, edition)).collect();
    let rows = rows.ok_or(Reason::UnknownBit.at(0))?;
    let length: usize = rows.iter().map(|row| row.size).sum();
    if values.len() != length {
        return Err(Reason::ValuesLength.at(0));
    }
    let header = pack(presence, &rows, values);
    room(output, place, header.len())?.copy_from_slice(&header);
    Ok(place + header.len())
}

/// A header's octets: the values at their starts, 0 between them.
fn pack(presence: u32, rows: &[Row], values: &[u8]) -> Vec<u8> {
    let mut header = vec![VERSION, 0, 0, 0];
    header.extend(presence.to_le_bytes());
    let mut rest = values;
    for row in rows {
        let (value, behind) = rest.split_at(row.size);
        header.resize(header.len().next_multiple_of(row.alignment), 0);
        header.extend(value);
        rest = behind;
    }
    let length = header.len() as u16;
    header[2..BEFORE_WORDS].copy_from_slice(&length.to_le_bytes());
    header
}
