//! Walks over the fields and over the presence words of a header. They outlive the [`Header`](super::Header).

use super::Field;
use std::iter::FusedIterator;
use std::ops::Range;
use std::sync::Arc;

/// The fields that are shown, in order of word and bit.
#[derive(Clone, Debug)]
pub struct Fields<'a> {
    shown: Arc<[Field<'a>]>,
    /// The indices of those to come.
    left: Range<usize>,
}

impl<'a> Fields<'a> {
    /// From the first field to the last.
    pub(super) fn of(shown: &Arc<[Field<'a>]>) -> Fields<'a> {
        Fields {
            shown: Arc::clone(shown),
            left: 0..shown.len(),
        }
    }
}

impl<'a> Iterator for Fields<'a> {
    type Item = Field<'a>;

    fn next(&mut self) -> Option<Field<'a>> {
        self.left.next().map(|index| self.shown[index])
    }

    fn size_hint(&self) -> (usize, Option<usize>) {
        self.left.size_hint()
    }
}

impl DoubleEndedIterator for Fields<'_> {
    fn next_back(&mut self) -> Option<Self::Item> {
        self.left.next_back().map(|index| self.shown[index])
    }
}

impl ExactSizeIterator for Fields<'_> {}

impl FusedIterator for Fields<'_> {}

/// The presence words, from the first to the last.
#[derive(Clone, Debug)]
pub struct Words<'a> {
    octets: &'a [u8],
    /// The numbers of those to come.
    left: Range<usize>,
}

impl<'a> Words<'a> {
    /// So many words of a header that is accepted.
    pub(super) fn of(octets: &'a [u8], words: usize) -> Words<'a> {
        Words {
            octets,
            left: 0..words,
        }
    }

    fn word(&self, number: usize) -> u32 {
        zalghimo_sys::radiotap::word(self.octets, number).value as u32
    }
}

impl Iterator for Words<'_> {
    type Item = u32;

    fn next(&mut self) -> Option<u32> {
        self.left.next().map(|number| self.word(number))
    }

    fn size_hint(&self) -> (usize, Option<usize>) {
        self.left.size_hint()
    }
}

impl DoubleEndedIterator for Words<'_> {
    fn next_back(&mut self) -> Option<u32> {
        self.left.next_back().map(|number| self.word(number))
    }
}

impl ExactSizeIterator for Words<'_> {}

impl FusedIterator for Words<'_> {}
