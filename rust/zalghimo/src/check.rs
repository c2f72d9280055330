//! Whole captures: the check of a file, the survey by instalments, the earlier of two.

use crate::answer::{accepted, refusal};
use crate::Refusal;
#[cfg(doc)]
use crate::{record_at, Reason};
use std::error::Error;
use std::fmt;
use zalghimo_sys::{btsnoop, END};

/// What an accepted file has.
#[derive(Clone, Copy, Debug, PartialEq, Eq, Hash)]
pub struct Checked {
    /// The datalink code, 1001 to 1004.
    pub datalink: u32,
    /// How many records.
    pub records: usize,
}

/// Checks a whole file: header and every record.
///
/// # Errors
///
/// In this order: [`Reason::ShortHeader`], [`Reason::Identification`], [`Reason::Version`], [`Reason::Datalink`]; then
/// those of the first record refused: [`Reason::ShortRecord`], [`Reason::IncludedAboveOriginal`],
/// [`Reason::ShortPacket`].
///
/// # Examples
///
/// ```
/// let file = b"btsnoop\0\x00\x00\x00\x01\x00\x00\x03\xEA";
/// assert_eq!(zalghimo::check(file)?.records, 0);
/// # Ok::<(), zalghimo::Refusal>(())
/// ```
pub fn check(octets: &[u8]) -> Result<Checked, Refusal> {
    let answer = btsnoop::check(octets);
    accepted(answer.head())?;
    Ok(Checked {
        datalink: answer.datalink as u32,
        records: answer.records as usize,
    })
}

/// How far a survey came.
#[derive(Clone, Copy, Debug, PartialEq, Eq, Hash)]
pub struct Survey {
    /// How many records were passed.
    pub count: usize,
    /// The place reached, from which the next survey goes on.
    pub reached: usize,
    /// Whether that is the input's end; otherwise the number of records was used up.
    pub at_end: bool,
}

/// The refusal of the record that a survey met.
#[derive(Clone, Copy, Debug, PartialEq, Eq, Hash)]
pub struct SurveyRefusal {
    /// Why, and at which place.
    pub refusal: Refusal,
    /// How many whole records were passed before.
    pub count: usize,
}

/// Passes the records from a place on, at most a number of them. The file header is not judged.
///
/// # Errors
///
/// [`Reason::RecordPlace`] for the place given; then, where a record that may still be passed is refused, its
/// [`Reason::ShortRecord`], [`Reason::IncludedAboveOriginal`] or [`Reason::ShortPacket`], in this order.
///
/// # Examples
///
/// ```
/// let file = b"btsnoop\0\x00\x00\x00\x01\x00\x00\x03\xEA";
/// let survey = zalghimo::survey(file, zalghimo::FIRST_RECORD, 1000)?;
/// assert!(survey.at_end && survey.count == 0);
/// # Ok::<(), zalghimo::SurveyRefusal>(())
/// ```
pub fn survey(octets: &[u8], place: usize, number: usize) -> Result<Survey, SurveyRefusal> {
    let answer = btsnoop::survey(octets, place, number);
    let count = answer.count as usize;
    match refusal(answer.head()) {
        Some(refusal) => Err(SurveyRefusal { refusal, count }),
        None => Ok(Survey {
            count,
            reached: answer.reached as usize,
            at_end: answer.kind == END,
        }),
    }
}

/// One of two captures.
#[derive(Clone, Copy, Debug, PartialEq, Eq, Hash)]
pub enum Which {
    /// The first one given.
    First,
    /// The second one given.
    Second,
}

/// The earlier of two captures' records.
#[derive(Clone, Copy, Debug, PartialEq, Eq, Hash)]
pub struct Earlier<'a> {
    /// The capture whose record it is.
    pub capture: Which,
    /// The record's packet, a part of that capture.
    pub packet: &'a [u8],
    /// The packet's place in that capture.
    pub packet_place: usize,
    /// Where that capture's next record starts, or its end.
    pub next_place: usize,
}

/// The refusal of one of two captures.
#[derive(Clone, Copy, Debug, PartialEq, Eq, Hash)]
pub struct EarlierRefusal {
    /// Why, and at which place.
    pub refusal: Refusal,
    /// The capture refused.
    pub capture: Which,
}

/// Finds the earlier of two captures' records, each at its place, or `None` where both are at their end.
///
/// On equal times it is the first capture's; where one is at its end, the other's. The file headers are not judged.
///
/// # Errors
///
/// Those of [`record_at`], the first capture's before the second's.
///
/// # Examples
///
/// Two captures merged by time:
///
/// ```
/// # use zalghimo::{push_header, push_record, RecordFields, Refusal};
/// use zalghimo::{earlier, Which, FIRST_RECORD};
///
/// # fn capture(records: &[(i64, &[u8])]) -> Result<Vec<u8>, Refusal> {
/// #     let mut octets = Vec::new();
/// #     push_header(&mut octets, 1001)?;
/// #     for &(time_field, packet) in records {
/// #         let original_length = packet.len() as u32;
/// #         push_record(&mut octets, &RecordFields { original_length, time_field, ..Default::default() }, packet)?;
/// #     }
/// #     Ok(octets)
/// # }
/// // Captures whose records have times 1, 4, 4 and 2, 4.
/// let first = capture(&[(1, b"a"), (4, b"c"), (4, b"d")])?;
/// let second = capture(&[(2, b"b"), (4, b"e")])?;
///
/// let mut merged: Vec<u8> = Vec::new();
/// let mut places = [FIRST_RECORD; 2];
/// while let Some(found) = earlier(&first, places[0], &second, places[1])? {
///     merged.extend(found.packet);
///     match found.capture {
///         Which::First => places[0] = found.next_place,
///         Which::Second => places[1] = found.next_place,
///     }
/// }
/// assert_eq!(merged, b"abcde");
/// # Ok::<(), Box<dyn std::error::Error>>(())
/// ```
pub fn earlier<'a>(
    first: &'a [u8],
    first_place: usize,
    second: &'a [u8],
    second_place: usize,
) -> Result<Option<Earlier<'a>>, EarlierRefusal> {
    let answer = btsnoop::earlier(first, first_place, second, second_place);
    let (capture, octets) = match answer.capture {
        1 => (Which::First, first),
        _ => (Which::Second, second),
    };
    if let Some(refusal) = refusal(answer.head()) {
        return Err(EarlierRefusal { refusal, capture });
    }
    if answer.kind == END {
        return Ok(None);
    }
    let packet_place = answer.packet as usize;
    let next_place = packet_place + answer.length as usize;
    Ok(Some(Earlier {
        capture,
        packet: &octets[packet_place..next_place],
        packet_place,
        next_place,
    }))
}

impl fmt::Display for SurveyRefusal {
    fn fmt(&self, formatter: &mut fmt::Formatter<'_>) -> fmt::Result {
        write!(formatter, "after {} records: {}", self.count, self.refusal)
    }
}

impl Error for SurveyRefusal {}

impl From<SurveyRefusal> for Refusal {
    fn from(survey: SurveyRefusal) -> Refusal {
        survey.refusal
    }
}

impl fmt::Display for EarlierRefusal {
    fn fmt(&self, formatter: &mut fmt::Formatter<'_>) -> fmt::Result {
        let capture = match self.capture {
            Which::First => "first",
            Which::Second => "second",
        };
        write!(formatter, "{capture} capture: {}", self.refusal)
    }
}

impl Error for EarlierRefusal {}

impl From<EarlierRefusal> for Refusal {
    fn from(earlier: EarlierRefusal) -> Refusal {
        earlier.refusal
    }
}
