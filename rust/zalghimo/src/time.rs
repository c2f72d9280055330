//! The time of a record.

use crate::answer::accepted;
#[cfg(doc)]
use crate::Reason;
use crate::Refusal;
use std::time::{Duration, SystemTime, UNIX_EPOCH};
use zalghimo_sys::btsnoop;

/// Microseconds of a second.
const MICROSECONDS: u32 = 1_000_000;

/// Unix time: seconds, rounded down, and microseconds.
#[derive(Clone, Copy, Debug, Default, PartialEq, Eq, PartialOrd, Ord, Hash)]
pub struct Time {
    /// Seconds since 1 January 1970, below 0 before it.
    pub seconds: i64,
    /// Microseconds after the second, 0 to 999,999.
    pub microseconds: u32,
}

impl Time {
    /// Converts a record's time field.
    ///
    /// # Errors
    ///
    /// [`Reason::Time`], where the time is before −2^63 microseconds.
    pub fn from_field(field: i64) -> Result<Time, Refusal> {
        let answer = btsnoop::read_time(field);
        accepted(answer.head())?;
        Ok(Time {
            seconds: answer.seconds,
            microseconds: answer.microseconds as u32,
        })
    }

    /// Converts to a record's time field.
    ///
    /// # Errors
    ///
    /// [`Reason::Time`], for microseconds above 999,999 or a field out of range.
    ///
    /// # Examples
    ///
    /// ```
    /// let year_2000 = zalghimo::Time { seconds: 946_684_800, microseconds: 0 };
    /// assert_eq!(year_2000.to_field()?, 0x00E0_3AB4_4A67_6000);
    /// # Ok::<(), zalghimo::Refusal>(())
    /// ```
    pub fn to_field(self) -> Result<i64, Refusal> {
        let answer = btsnoop::write_time(self.seconds, self.microseconds);
        accepted(answer.head())?;
        Ok(answer.field)
    }

    /// Converts a time on the system's clock, rounded down to the microsecond, before 1970 too. `None` where its
    /// seconds are no `i64`. [`Time::to_field`] makes it a record's, and refuses what a record cannot hold.
    ///
    /// # Examples
    ///
    /// ```
    /// use std::time::{Duration, UNIX_EPOCH};
    /// use zalghimo::Time;
    ///
    /// let time = Time::from_system_time(UNIX_EPOCH - Duration::from_nanos(1));
    /// assert_eq!(time, Some(Time { seconds: -1, microseconds: 999_999 }));
    /// ```
    pub fn from_system_time(time: SystemTime) -> Option<Time> {
        let nanoseconds = match time.duration_since(UNIX_EPOCH) {
            Ok(after) => after.as_nanos() as i128,
            Err(before) => -(before.duration().as_nanos() as i128),
        };
        let microseconds = nanoseconds.div_euclid(1000);
        let second = i128::from(MICROSECONDS);
        Some(Time {
            seconds: microseconds.div_euclid(second).try_into().ok()?,
            microseconds: microseconds.rem_euclid(second) as u32,
        })
    }

    /// The time on the system's clock, or `None` for microseconds above 999,999 or where the clock cannot express it.
    pub fn system_time(self) -> Option<SystemTime> {
        if self.microseconds >= MICROSECONDS {
            return None;
        }
        let seconds = Duration::from_secs(self.seconds.unsigned_abs());
        let second = match self.seconds {
            0.. => UNIX_EPOCH.checked_add(seconds),
            _ => UNIX_EPOCH.checked_sub(seconds),
        };
        second?.checked_add(Duration::from_micros(self.microseconds.into()))
    }
}
