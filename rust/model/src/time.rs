//! Conversion between the time field of a record and Unix time.

use crate::refusal::{Reason, Refusal};

/// The time field at the start of 1970.
pub const UNIX_EPOCH: i64 = 0x00DC_DDB3_0F2F_8000;

/// The time field at the start of 2000.
pub const YEAR_2000: i64 = 0x00E0_3AB4_4A67_6000;

const MICROSECONDS_PER_SECOND: i128 = 1_000_000;

/// Unix time: seconds rounded down and microseconds in 0 to 999,999.
#[derive(Clone, Copy, Debug, PartialEq, Eq)]
pub struct UnixTime {
    pub seconds: i64,
    pub microseconds: u32,
}

/// Unix time of a time field.
pub fn read_time(field: i64) -> Result<UnixTime, Refusal> {
    let unix = i128::from(field) - i128::from(UNIX_EPOCH);
    if unix < i128::from(i64::MIN) {
        return Err(Reason::Time.at(0));
    }
    Ok(UnixTime {
        seconds: unix.div_euclid(MICROSECONDS_PER_SECOND) as i64,
        microseconds: unix.rem_euclid(MICROSECONDS_PER_SECOND) as u32,
    })
}

/// Time field of a Unix time.
pub fn write_time(seconds: i64, microseconds: u32) -> Result<i64, Refusal> {
    if microseconds > 999_999 {
        return Err(Reason::Time.at(0));
    }
    let unix = i128::from(seconds) * MICROSECONDS_PER_SECOND + i128::from(microseconds);
    i64::try_from(unix + i128::from(UNIX_EPOCH)).map_err(|_| Reason::Time.at(0))
}

#[cfg(test)]
mod tests {
    use super::*;

    fn unix(seconds: i64, microseconds: u32) -> Result<UnixTime, Refusal> {
        Ok(UnixTime {
            seconds,
            microseconds,
        })
    }

    #[test]
    fn constants() {
        assert_eq!(UNIX_EPOCH, 62_168_256_000_000_000);
        assert_eq!(UNIX_EPOCH, 719_540 * 86_400 * 1_000_000);
        assert_eq!(read_time(YEAR_2000), unix(946_684_800, 0));
    }

    #[test]
    fn p6_before_the_epoch() {
        assert_eq!(read_time(UNIX_EPOCH - 1), unix(-1, 999_999));
        assert_eq!(read_time(UNIX_EPOCH), unix(0, 0));
    }

    #[test]
    fn reading_ends() {
        let first = i64::MIN + UNIX_EPOCH;
        assert_eq!(read_time(first), unix(-9_223_372_036_855, 224_192));
        assert_eq!(read_time(first - 1), Err(Reason::Time.at(0)));
        assert_eq!(read_time(i64::MIN), Err(Reason::Time.at(0)));
        assert!(read_time(i64::MAX).is_ok());
    }

    #[test]
    fn writing_ends() {
        assert_eq!(write_time(-1, 999_999), Ok(UNIX_EPOCH - 1));
        assert_eq!(write_time(0, 1_000_000), Err(Reason::Time.at(0)));
        assert_eq!(write_time(i64::MAX, 0), Err(Reason::Time.at(0)));
        assert_eq!(write_time(i64::MIN, 0), Err(Reason::Time.at(0)));
        let last = read_time(i64::MAX).unwrap();
        assert_eq!(write_time(last.seconds, last.microseconds), Ok(i64::MAX));
        assert!(write_time(last.seconds, last.microseconds + 1).is_err());
    }
}
