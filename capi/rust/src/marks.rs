//! Mark bytes compared (document 02, 2.3).

use crate::raw;

/// Whether two lists of mark bytes differ in some byte of their first `count`, whatever stands behind these; `None` where a list
/// has fewer bytes. By this test a round of reach, in [`crate::solve`] and [`crate::check`], tells whether it has found a new moment.
///
/// ```
/// assert_eq!(span::marks_differ(&[1, 0, 1], &[1, 0, 0], 3), Some(true));
/// assert_eq!(span::marks_differ(&[1, 0, 1], &[1, 0, 0], 2), Some(false));
/// assert_eq!(span::marks_differ(&[1, 0, 1], &[1, 0, 0], 4), None);
/// ```
pub fn marks_differ(before: &[u8], after: &[u8], count: usize) -> Option<bool> {
    match raw::marks_differ(before, after, count as u64) {
        0 => Some(false),
        256 => Some(true),
        _ => None,
    }
}
