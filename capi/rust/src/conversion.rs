//! Stored problems without the rules that say nothing (document 02, 2.6).

use crate::calls::refusal;
use crate::raw;
use crate::words::Refusal;

/// Writes a stored problem of kind 1 or 3 at the start of `buffer` without the rules whose left list is all blank, which [`crate::solve`]
/// and [`crate::check`] refuse by 17, and returns the record's size. Kind, n, the other rows and their order stay, and so do bytes after
/// the record; class and least span of each question are the same before and after.
///
/// # Errors
///
/// Refusals 1 to 6 and 15, then 7 where the buffer is shorter than the record to be written; as many bytes as the stored record has are
/// enough. They leave `buffer` untouched.
///
/// ```
/// // n = 0, one rule with a blank left lead, and the question 5 - 2.
/// let stored = [22, 0, 0, 0, 1, 0, 0, 0, 1, 0, 0, 0, 0, 128, 7, 0, 0, 0, 5, 0, 0, 0, 2, 0, 0, 0];
/// let mut answer = [0; span::ANSWER_SIZE];
/// assert_eq!(span::solve(&stored, &mut answer).unwrap_err().cause(), span::Cause::SilentRule);
/// let mut record = [0; 26];
/// let size = span::convert(&stored, &mut record).unwrap();
/// assert_eq!(record[..size], [14, 0, 0, 0, 1, 0, 0, 0, 0, 0, 5, 0, 0, 0, 2, 0, 0, 0]);
/// assert_eq!(span::solve(&record[..size], &mut answer).unwrap().to_string(), "least 3");
/// ```
pub fn convert(stored: &[u8], buffer: &mut [u8]) -> Result<usize, Refusal> {
    let result = raw::convert(stored, buffer);
    refusal(result)?;
    Ok((result >> 8) as usize)
}
