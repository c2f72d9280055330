//! The LE pseudo-header.

use crate::{raw, Le, Written};

/// `zalghimo_le_read`
#[inline]
pub fn read(input: &[u8]) -> Le {
    unsafe { raw::zalghimo_le_read(input.as_ptr(), input.len()) }
}

/// `zalghimo_le_write`
#[inline]
#[allow(clippy::too_many_arguments)]
pub fn write(
    output: &mut [u8],
    place: usize,
    rf_channel: u8,
    signal: i8,
    noise: i8,
    offences: u8,
    reference: u32,
    flags: u16,
    packet: &[u8],
) -> Written {
    unsafe {
        raw::zalghimo_le_write(
            output.as_mut_ptr(),
            output.len(),
            place,
            rf_channel,
            signal,
            noise,
            offences,
            reference,
            flags,
            packet.as_ptr(),
            packet.len(),
        )
    }
}
