//! Radiotap by an iterator that tests every bit of every word, in the manner of the common C iterator.

use super::radiotap::{head, Head, Reading, Stop, RESET, ROWS};
use super::{refused, Refusal};

/// What the next call meets.
enum Met {
    Field,
    Stop(Stop),
    End,
}

/// An iterator over the fields of a header.
struct Fields<'a> {
    head: Head<'a>,
    /// The word looked at, its bits not yet tested, and the number of the next one.
    word: usize,
    shifter: u32,
    bit: u32,
    /// The bits that are known in the word.
    known: u32,
    /// Where the last field ended.
    at: usize,
}

impl<'a> Fields<'a> {
    fn new(head: Head<'a>) -> Self {
        Fields {
            word: 0,
            shifter: u32::from_le_bytes(head.words[0]),
            bit: 0,
            known: head.known,
            at: 4 + 4 * head.words.len(),
            head,
        }
    }

    /// Steps to the next word, if there is one.
    fn next_word(&mut self) -> bool {
        let Some(octets) = self.head.words.get(self.word + 1) else {
            return false;
        };
        let before = u32::from_le_bytes(self.head.words[self.word]);
        self.known = if before & RESET == 0 {
            0
        } else {
            self.head.known
        };
        self.word += 1;
        self.shifter = u32::from_le_bytes(*octets);
        self.bit = 0;
        true
    }

    /// Steps over one field; its row is that of the bit.
    fn pass(&mut self, bit: u32) -> Result<Met, Refusal> {
        let row = ROWS[bit as usize];
        let mask = row.mask as usize;
        let start = (self.at + mask) & !mask;
        self.at = start + row.size as usize;
        if self.at > self.head.octets.len() {
            return refused(12, start);
        }
        Ok(Met::Field)
    }

    /// The next field, the stop or the end.
    fn next(&mut self) -> Result<Met, Refusal> {
        loop {
            let (set, bit) = (self.shifter & 1 != 0, self.bit);
            self.shifter >>= 1;
            self.bit += 1;
            match bit {
                31 if !self.next_word() => return Ok(Met::End),
                29 | 31 => {}
                _ if !set => {}
                _ if self.known >> bit & 1 == 0 => {
                    let word = self.word;
                    return Ok(Met::Stop(Stop { word, bit }));
                }
                _ => return self.pass(bit),
            }
        }
    }
}

/// Reads a header and judges it whole.
pub fn read(input: &[u8], edition: u32) -> Result<Reading<'_>, Refusal> {
    let head = head(input, edition)?;
    let mut iterator = Fields::new(head);
    let mut fields = 0;
    let stop = loop {
        match iterator.next()? {
            Met::Field => fields += 1,
            Met::Stop(stop) => break Some(stop),
            Met::End => break None,
        }
    };
    Ok(Reading { head, fields, stop })
}
