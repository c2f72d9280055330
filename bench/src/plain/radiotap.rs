//! Radiotap: reading a header whole, and the list of its fields.

use super::{refused, Refusal};

/// Alignment less one, and size.
#[derive(Clone, Copy)]
pub struct Row {
    pub mask: u8,
    pub size: u8,
}

/// The rows of the bits, from bit 0 on; no edition knows those of size 0.
#[rustfmt::skip]
const SIZES: [(u8, u8); 22] = [
    (8, 8), (1, 1), (1, 1), (2, 4), (2, 2), (1, 1), (1, 1), (2, 2), (2, 2), (2, 2), (1, 1),
    (1, 1), (1, 1), (1, 1), (2, 2), (2, 2), (1, 1), (1, 1), (1, 0), (1, 3), (4, 8), (2, 12),
];

/// The rows of all 32 bits.
pub const ROWS: [Row; 32] = {
    let mut rows = [Row { mask: 0, size: 0 }; 32];
    let mut bit = 0;
    while bit < SIZES.len() {
        let (alignment, size) = SIZES[bit];
        rows[bit] = Row {
            mask: alignment - 1,
            size,
        };
        bit += 1;
    }
    rows
};

/// The bits that each edition knows, edition 0 asking for edition 1.
pub const KNOWN: [u32; 4] = [0x3FFF, 0x3FFF, 0x0003_FFFF, 0x003B_FFFF];

/// The bit that lets the next word number its bits from 0 again.
pub const RESET: u32 = 1 << 29;

/// The bits that carry no field.
const NO_FIELD: u32 = RESET | 1 << 31;

/// Word and bit where a reading stopped.
#[derive(Clone, Copy, Debug)]
pub struct Stop {
    pub word: usize,
    pub bit: u32,
}

/// What stands before the first field.
#[derive(Clone, Copy, Debug)]
pub struct Head<'a> {
    pub pad: u8,
    /// The octets up to the header's length.
    pub octets: &'a [u8],
    /// The octets of the presence words.
    pub words: &'a [[u8; 4]],
    /// The bits that the edition knows.
    pub known: u32,
}

/// What a header tells as a whole.
#[derive(Clone, Copy, Debug)]
pub struct Reading<'a> {
    pub head: Head<'a>,
    pub fields: usize,
    pub stop: Option<Stop>,
}

/// Reads what stands before the first field.
#[inline]
pub fn head(input: &[u8], edition: u32) -> Result<Head<'_>, Refusal> {
    let Some(known) = KNOWN.get(edition as usize) else {
        return refused(15, 0);
    };
    let Some([version, pad, low, high, ..]) = input.first_chunk::<8>() else {
        return refused(1, input.len());
    };
    if *version != 0 {
        return refused(3, 0);
    }
    let length = u16::from_le_bytes([*low, *high]) as usize;
    if length < 8 || length > input.len() {
        return refused(9, 2);
    }
    let octets = &input[..length];
    let (words, _) = octets[4..].as_chunks::<4>();
    let mut count = 0;
    loop {
        if count == 8 {
            return refused(11, 4);
        }
        let Some(word) = words.get(count) else {
            return refused(10, 4);
        };
        count += 1;
        if word[3] < 0x80 {
            break;
        }
    }
    Ok(Head {
        pad: *pad,
        octets,
        words: &words[..count],
        known: *known,
    })
}

/// Walks over the fields and shows word, bit, start and size of each; the answer is how many, and the stop.
#[inline]
fn walk(
    head: &Head,
    mut show: impl FnMut(usize, u32, usize, usize),
) -> Result<(usize, Option<Stop>), Refusal> {
    let length = head.octets.len();
    let (mut at, mut fields) = (4 + 4 * head.words.len(), 0);
    let mut before = RESET;
    for (word, octets) in head.words.iter().enumerate() {
        let presence = u32::from_le_bytes(*octets);
        let set = presence & !NO_FIELD;
        // A continued word has no known field.
        if before & RESET == 0 && set != 0 {
            let bit = set.trailing_zeros();
            return Ok((fields, Some(Stop { word, bit })));
        }
        before = presence;
        let unknown = set & !head.known;
        // The bits below the lowest unknown one, all where there is none.
        let mut shown = set & (unknown & unknown.wrapping_neg()).wrapping_sub(1);
        while shown != 0 {
            let bit = shown.trailing_zeros();
            shown &= shown - 1;
            let row = ROWS[bit as usize];
            let (mask, size) = (row.mask as usize, row.size as usize);
            let start = (at + mask) & !mask;
            at = start + size;
            if at > length {
                return refused(12, start);
            }
            show(word, bit, start, size);
            fields += 1;
        }
        if unknown != 0 {
            let bit = unknown.trailing_zeros();
            return Ok((fields, Some(Stop { word, bit })));
        }
    }
    Ok((fields, None))
}

/// Reads a header and judges it whole.
pub fn read(input: &[u8], edition: u32) -> Result<Reading<'_>, Refusal> {
    let head = head(input, edition)?;
    let (fields, stop) = walk(&head, |_, _, _, _| {})?;
    Ok(Reading { head, fields, stop })
}

/// Reads a header, judged whole first, and lists word, bit, start and size of its fields, as many as fit.
pub fn fields<'a>(
    input: &'a [u8],
    edition: u32,
    fields: &mut [u64],
) -> Result<Reading<'a>, Refusal> {
    let reading = read(input, edition)?;
    let (rooms, _) = fields.as_chunks_mut::<4>();
    let mut rooms = rooms.iter_mut();
    walk(&reading.head, |word, bit, start, size| {
        if let Some(room) = rooms.next() {
            *room = [word as u64, bit.into(), start as u64, size as u64];
        }
    })?;
    Ok(reading)
}
