//! The running tally of a capture's records.

use crate::answer::accepted;
use crate::stream::Finished;
#[cfg(doc)]
use crate::{stream::Stream, Reason};
use crate::{Record, RecordFields, Refusal};
use zalghimo_sys::btsnoop;

/// A running tally, updated record by record. A new one is empty.
///
/// # Examples
///
/// ```
/// # use zalghimo::{push_header, push_record, Capture, RecordFields, Tally};
/// # let mut octets = Vec::new();
/// # push_header(&mut octets, 1002)?;
/// # push_record(&mut octets, &RecordFields { original_length: 9, flags: 3, ..Default::default() }, &[4, 0])?;
/// # push_record(&mut octets, &RecordFields { original_length: 2, flags: 0, ..Default::default() }, &[2, 0])?;
/// let mut tally = Tally::new();
/// for record in Capture::new(&octets)?.records() {
///     tally.add(&record?)?;
/// }
/// assert_eq!((tally.records(), tally.truncated()), (2, 1));
/// assert_eq!(tally.sent() + tally.received(), tally.records());
/// assert_eq!(tally.commands() + tally.data(), tally.records());
/// # Ok::<(), zalghimo::Refusal>(())
/// ```
#[derive(Clone, Copy, Debug, Default, PartialEq, Eq, Hash)]
pub struct Tally {
    numbers: [u64; 9],
}

impl Tally {
    /// An empty tally.
    pub fn new() -> Tally {
        Tally::default()
    }

    /// A tally to go on from, as [`Tally::numbers`] gave it. One of six numbers is of an older release, which did not
    /// count the last three.
    pub fn from_numbers(numbers: [u64; 9]) -> Tally {
        Tally { numbers }
    }

    /// Adds a record.
    ///
    /// # Errors
    ///
    /// [`Reason::TallyBroken`], where sent and received, or commands and data, do not add up to records: never of a
    /// tally that was empty once and has only been added to. Then [`Reason::TallySum`], where a sum would pass
    /// 2^64 − 1. The tally is as before.
    pub fn add(&mut self, record: &Record) -> Result<(), Refusal> {
        self.add_numbers(record.fields(), record.included_length())
    }

    /// Adds a record of which a [`Stream`] tells the numbers.
    ///
    /// # Errors
    ///
    /// As [`Tally::add`].
    pub fn add_finished(&mut self, record: &Finished) -> Result<(), Refusal> {
        self.add_numbers(&record.fields, record.included_length)
    }

    fn add_numbers(&mut self, fields: &RecordFields, included_length: u32) -> Result<(), Refusal> {
        let answer = btsnoop::tally(
            &mut self.numbers,
            fields.original_length,
            included_length,
            fields.flags,
            fields.cumulative_drops,
        );
        accepted(answer.head())
    }

    /// Records, received, commands, octets included, lost, last drop number, truncated, sent, data.
    pub fn numbers(&self) -> [u64; 9] {
        self.numbers
    }

    /// How many records.
    pub fn records(&self) -> u64 {
        self.numbers[0]
    }

    /// How many of them were received.
    pub fn received(&self) -> u64 {
        self.numbers[1]
    }

    /// How many of them are commands or events.
    pub fn commands(&self) -> u64 {
        self.numbers[2]
    }

    /// The included lengths summed.
    pub fn octets_included(&self) -> u64 {
        self.numbers[3]
    }

    /// The drops between one record and the next, summed.
    pub fn lost(&self) -> u64 {
        self.numbers[4]
    }

    /// The last record's cumulative drops; `None` while there are no records.
    pub fn last_drop_number(&self) -> Option<u32> {
        (self.records() > 0).then_some(self.numbers[5] as u32)
    }

    /// How many records hold fewer octets than their packet had.
    pub fn truncated(&self) -> u64 {
        self.numbers[6]
    }

    /// How many records were sent: those not received.
    pub fn sent(&self) -> u64 {
        self.numbers[7]
    }

    /// How many records are data: those that are no commands or events.
    pub fn data(&self) -> u64 {
        self.numbers[8]
    }
}
