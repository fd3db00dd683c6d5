//! Two plans into one (document 02, 2.13).

use crate::calls::refusal;
use crate::raw;
use crate::words::Refusal;

/// Bytes that are enough for the stamps of every plan.
pub const PLAN_SIZE: usize = 128;

/// The bytes of a plan's stamps, `None` for blank. The minute −2³¹ has blank's bytes; the one above it is handed over, and refused.
fn bytes(plan: &[Option<i32>]) -> Vec<u8> {
    let field = |stamp: &Option<i32>| stamp.map_or(i32::MIN, |minute| minute.max(i32::MIN + 1)).to_le_bytes();
    plan.iter().flat_map(field).collect()
}

/// Two plans of a problem of kind 1 or 5 (or of an idle day) merged: each moment is the later of the first plan's and the second plan's plus
/// `shift`, which is 0 or less. A plan has n + 1 stamps, the anchor's, 0, first; `None` is blank. The merged plan keeps the rules, and
/// where both plans have a second list that is not blank, so has the merged one, and its span is at most the greater of the two.
///
/// # Errors
///
/// Refusals: those of the problem as [`crate::check`] gives them; 12, a plan is not n + 1 stamps of the form of class 1 (`Some(i32::MIN)` is no blank); 24, the shift
/// is above 0; 25, a plan breaks a rule; 26, a merged stamp would be below the limit of stamps.
///
/// ```
/// // n = 1, the rule anchor + 30 <= moment 1, and the span moment 1 - anchor.
/// const BLANK: i32 = i32::MIN;
/// let mut problem = vec![38, 0, 0, 0, 1, 0, 1, 0, 1, 0];
/// for lead in [30, BLANK, BLANK, 0, BLANK, 0, 0, BLANK] {
///     problem.extend(lead.to_le_bytes());
/// }
/// let (short, long) = ([Some(0), Some(30)], [Some(0), Some(50)]);
/// assert_eq!(span::merge(&problem, &short, &long, -15), Ok(vec![Some(0), Some(35)]));
/// assert_eq!(span::merge(&problem, &short, &long, 1).unwrap_err().cause(), span::Cause::ForwardShift);
/// assert_eq!(span::merge(&problem, &short, &[Some(0), Some(29)], 0).unwrap_err().cause(), span::Cause::BrokenRule);
/// assert_eq!(span::merge(&problem, &short, &[Some(0), Some(i32::MIN)], 0).unwrap_err().cause(), span::Cause::Minutes);
/// ```
pub fn merge(
    problem: &[u8],
    first: &[Option<i32>],
    second: &[Option<i32>],
    shift: i64,
) -> Result<Vec<Option<i32>>, Refusal> {
    let mut merged = [0; PLAN_SIZE];
    let result = raw::merge(problem, &bytes(first), &bytes(second), shift, &mut merged);
    refusal(result)?;
    let stamps = merged[..(result >> 8) as usize].chunks_exact(4);
    Ok(stamps.map(|field| i32::from_le_bytes([field[0], field[1], field[2], field[3]])).map(planned).collect())
}

/// The minute of a stamp's field; the lowest is blank.
fn planned(stamp: i32) -> Option<i32> {
    (stamp != i32::MIN).then_some(stamp)
}
