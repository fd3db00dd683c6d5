//! A census of small problems (document 02, 2.14).

use crate::calls::refusal;
use crate::raw;
use crate::words::Refusal;

/// How often each class occurs among the problems of a census.
#[derive(Clone, Copy, Debug, PartialEq, Eq)]
pub struct Census {
    /// Problems with a least span.
    pub least: u64,
    /// Bottomless ones.
    pub bottomless: u64,
    /// Those with none.
    pub none: u64,
    /// Those under refusal 17: a rule has an all-blank left list.
    pub refused: u64,
}

/// Counts by class all problems of kind 1 with this n and m whose leads are blank or −w to w. The four counts add up to (2w + 2) to the
/// power 2 × (n + 1) × (m + 1).
///
/// # Errors
///
/// Refusal 27: w is 0 or above 20,160, n is above 31 or m above 63, or there are more than 65,536 problems.
///
/// ```
/// let census = span::census(0, 0, 1).unwrap();
/// assert_eq!(census, span::Census { least: 9, bottomless: 3, none: 4, refused: 0 });
/// assert_eq!(span::census(0, 0, 128).unwrap_err().cause(), span::Cause::CensusLimits);
/// ```
pub fn census(n: u64, m: u64, w: u64) -> Result<Census, Refusal> {
    let mut counts = [0; raw::COUNTS];
    refusal(raw::census(n, m, w, &mut counts))?;
    let [least, bottomless, none, refused] = counts;
    Ok(Census { least, bottomless, none, refused })
}
