//! Spans and stamps in hours and minutes (document 02, 2.7).

use crate::calls::{minute, offset, refusal};
use crate::raw;
use crate::words::Refusal;

/// A buffer of this many bytes is long enough for every text of hours and minutes; a shorter one is refused.
pub const TEXT_SIZE: usize = 10;

/// Reads a text of hours and minutes: the span or stamp, `None` for blank.
///
/// # Errors
///
/// Refusal 18, for every string of bytes that [`write_hours`] does not write.
pub fn read_hours(text: &[u8]) -> Result<Option<i32>, Refusal> {
    let result = raw::hours_read(text);
    refusal(result)?;
    Ok(minute(result >> 32))
}

/// Writes a span or stamp, `None` for blank, in hours and minutes at the start of `buffer`, and returns the text's size. Bytes
/// after the text stay.
///
/// # Errors
///
/// Refusal 18, where the minute is beyond ±6,000,000 or the buffer is shorter than [`TEXT_SIZE`]. It leaves `buffer` untouched.
pub fn write_hours(value: Option<i32>, buffer: &mut [u8]) -> Result<usize, Refusal> {
    let result = raw::hours_write(offset(value), buffer);
    refusal(result)?;
    Ok((result >> 8) as usize)
}
