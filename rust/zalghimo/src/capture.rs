//! A BTSnoop file, record by record.

use crate::answer::accepted;
use crate::{record_at, Record, Refusal, FIRST_RECORD};
#[cfg(doc)]
use crate::{Reason, Survey};
use std::iter::FusedIterator;
use zalghimo_sys::btsnoop;

/// A BTSnoop file whose header is accepted. The records are judged as they are read.
#[derive(Clone, Copy, Debug, PartialEq, Eq, Hash)]
pub struct Capture<'a> {
    octets: &'a [u8],
    datalink: u32,
}

impl<'a> Capture<'a> {
    /// Judges the file header.
    ///
    /// # Errors
    ///
    /// In this order: [`Reason::ShortHeader`], [`Reason::Identification`], [`Reason::Version`],
    /// [`Reason::Datalink`].
    ///
    /// # Examples
    ///
    /// ```
    /// let refusal = zalghimo::Capture::new(b"btsnoop\0").unwrap_err();
    /// assert_eq!((refusal.number(), refusal.place()), (1, 8));
    /// ```
    pub fn new(octets: &'a [u8]) -> Result<Capture<'a>, Refusal> {
        let answer = btsnoop::header(octets);
        accepted(answer.head())?;
        Ok(Capture {
            octets,
            datalink: answer.datalink as u32,
        })
    }

    /// The datalink code, 1001 to 1004.
    pub fn datalink(&self) -> u32 {
        self.datalink
    }

    /// The whole file.
    pub fn octets(&self) -> &'a [u8] {
        self.octets
    }

    /// The records from the first one on. A refusal is the last item, as [`Records`] says.
    pub fn records(&self) -> Records<'a> {
        self.records_from(FIRST_RECORD)
    }

    /// The records from a place on, as [`Record::next_place`] or [`Survey::reached`] tell it.
    ///
    /// A place below [`FIRST_RECORD`] or above the file's length gives [`Reason::RecordPlace`] as the only item. At
    /// any other place octets are read as a record, whether or not one starts there.
    pub fn records_from(&self, place: usize) -> Records<'a> {
        Records {
            octets: self.octets,
            place: Some(place),
        }
    }
}

impl<'a> IntoIterator for Capture<'a> {
    type Item = Result<Record<'a>, Refusal>;
    type IntoIter = Records<'a>;

    fn into_iter(self) -> Records<'a> {
        self.records()
    }
}

impl<'a> IntoIterator for &Capture<'a> {
    type Item = Result<Record<'a>, Refusal>;
    type IntoIter = Records<'a>;

    fn into_iter(self) -> Records<'a> {
        self.records()
    }
}

/// The records of a capture, one after another: what [`record_at`] gives at each place.
///
/// A refusal is the last item; the items before it are whole records. It is one of [`Reason::ShortRecord`],
/// [`Reason::IncludedAboveOriginal`] and [`Reason::ShortPacket`], and after [`Capture::records_from`] also
/// [`Reason::RecordPlace`].
#[derive(Clone, Debug)]
pub struct Records<'a> {
    octets: &'a [u8],
    /// The next record's; `None` after the end or a refusal.
    place: Option<usize>,
}

impl<'a> Iterator for Records<'a> {
    type Item = Result<Record<'a>, Refusal>;

    fn next(&mut self) -> Option<Self::Item> {
        let answer = record_at(self.octets, self.place.take()?).transpose()?;
        self.place = answer.as_ref().ok().map(Record::next_place);
        Some(answer)
    }
}

impl FusedIterator for Records<'_> {}
