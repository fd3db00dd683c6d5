//! Opening hours of a ward (document 02, 2.8).

use crate::raw;
use crate::words::Refusal;

/// The offset number of the minute 0.
const MONDAY: i64 = 1 << 31;

/// A window of a week list, in minutes from Monday 0:00. It runs from its opening minute to the one before its closing
/// minute.
#[derive(Clone, Copy, Debug, PartialEq, Eq)]
pub struct Window {
    /// 0 to 10,079.
    pub opening: u32,
    /// 1 to 10,080.
    pub closing: u32,
}

/// The first open minute at or after `minute`, counted from a Monday 0:00, by a week list that holds for every week before
/// or after; `None` is never, for an empty list. With any window the minute is less than 10,080 away.
///
/// # Errors
///
/// Refusal 19: more than 14 windows, a closing not after its opening, an opening or closing outside its range, a window
/// that starts before the last one closes, or a minute beyond ±6,000,000.
///
/// ```
/// // Monday to Friday, 7:00 to 18:00.
/// let week: Vec<span::Window> =
///     (0..5).map(|day| span::Window { opening: 1440 * day + 420, closing: 1440 * day + 1080 }).collect();
/// // From Friday 18:00 the ward is shut until Monday 7:00 of the next week.
/// assert_eq!(span::first_open(&week, 4 * 1440 + 1080), Ok(Some(7 * 1440 + 420)));
/// // A minute before that Monday 0:00 is a Sunday.
/// assert_eq!(span::first_open(&week, -1), Ok(Some(420)));
/// assert_eq!(span::first_open(&[], 0), Ok(None));
/// assert_eq!(span::first_open(&week, 6_000_001).unwrap_err().cause(), span::Cause::WeekList);
/// assert_eq!(span::first_open(&week, i32::MIN).unwrap_err().cause(), span::Cause::WeekList);
/// ```
pub fn first_open(week: &[Window], minute: i32) -> Result<Option<i32>, Refusal> {
    let list: Vec<u64> = week.iter().flat_map(|window| [window.opening as u64, window.closing as u64]).collect();
    let result = raw::first_open(&list, (minute as i64 + MONDAY) as u64);
    match (result & 255) as u8 {
        0 if result == 0 => Ok(None),
        0 => Ok(Some(((result >> 32) as i64 - MONDAY) as i32)),
        number => Err(Refusal { number }),
    }
}
