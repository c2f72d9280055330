//! Reads and writes wireless captures: BTSnoop files, LE packets behind their pseudo-header, frames behind radiotap.
//!
//! A safe layer over `libzalghimo.a`, whose every answer is proved. Any octets get an answer: a value, or a [`Refusal`]
//! with a number, a place and a reason in words. Readers lend parts of the input and copy nothing. There is no unsafe
//! code here: the library is called by `zalghimo-sys`.
//!
//! - [`Capture`] reads a BTSnoop file record by record; [`check()`] judges a whole file, [`survey`] passes records by
//!   instalments, [`earlier`] compares two captures; [`Tally`] keeps count, [`drops_between`] tells losses.
//! - [`stream`] reads a BTSnoop file as it arrives, chunk by chunk or from any [`std::io::Read`].
//! - [`write_header`] and [`write_record`] write into a buffer, [`push_header`] and [`push_record`] at a `Vec`'s end.
//! - [`Time`] converts a record's time field to Unix time and back, and to and from the system's clock.
//! - [`radiotap`] and [`le`] read and write what stands before a frame or packet.
//!
//! Writing a capture and reading it back:
//!
//! ```
//! use zalghimo::{push_header, push_record, Capture, RecordFields, Refusal, Time};
//!
//! fn main() -> Result<(), Refusal> {
//!     let reset = [0x01, 0x03, 0x0C, 0x00];
//!     let fields = RecordFields {
//!         original_length: 4,
//!         flags: 2,
//!         cumulative_drops: 0,
//!         time_field: Time { seconds: 946_684_800, microseconds: 0 }.to_field()?,
//!     };
//!     let mut octets = Vec::new();
//!     push_header(&mut octets, 1002)?;
//!     push_record(&mut octets, &fields, &reset)?;
//!
//!     let capture = Capture::new(&octets)?;
//!     for record in capture.records() {
//!         let record = record?;
//!         assert!(record.is_command() && !record.is_received());
//!         assert_eq!(record.packet(), reset);
//!     }
//!     Ok(())
//! }
//! ```

#![deny(missing_docs)]
#![forbid(unsafe_code)]

mod answer;
mod capture;
mod check;
pub mod le;
pub mod radiotap;
mod record;
mod refusal;
pub mod stream;
mod tally;
mod time;
mod write;

pub use capture::{Capture, Records};
pub use check::{check, earlier, survey};
pub use check::{Checked, Earlier, EarlierRefusal, Survey, SurveyRefusal, Which};
pub use record::{drops_between, record_at, Record, RecordFields};
pub use refusal::{Reason, Refusal};
pub use tally::Tally;
pub use time::Time;
pub use write::{push_header, push_record, write_header, write_record};

/// Where the first record of a BTSnoop file starts, after the file header.
pub const FIRST_RECORD: usize = 16;
