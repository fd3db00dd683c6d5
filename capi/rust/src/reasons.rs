//! The rules behind an answer (document 02, 2.5).

use crate::calls::refusal;
use crate::raw;
use crate::words::Refusal;

/// What holds an answer up.
#[derive(Clone, Debug, PartialEq, Eq)]
pub struct Reasons {
    /// The rules that reached moments pick, ascending, from 1 on: the problem with only these and the question has the same class and
    /// span.
    pub rules: Vec<usize>,
    /// The binding round of a least span, moments in turn: a reached cycle that uses the question once and weighs 0 at that span. None
    /// where the answer is none.
    pub round: Option<Vec<usize>>,
}

/// Names the rules behind an answer that [`crate::check`] accepts, and for a least span the binding round.
///
/// # Errors
///
/// Refusals: those of [`crate::check`], 14 among them; then 16, where the answer is bottomless.
///
/// ```
/// // n = m = 1: the anchor + 30 is at most moment 1, and the span is moment 1 - anchor.
/// let problem = [
///     38, 0, 0, 0, 1, 0, 1, 0, 1, 0, 30, 0, 0, 0, 0, 0, 0, 128, 0, 0, 0, 128, 0, 0, 0, 0, //
///     0, 0, 0, 128, 0, 0, 0, 0, 0, 0, 0, 0, 0, 0, 0, 128,
/// ];
/// let mut answer = [0; span::ANSWER_SIZE];
/// let solved = span::solve(&problem, &mut answer).unwrap();
/// let reasons = span::reasons(&problem, &answer[..solved.size]).unwrap();
/// assert_eq!(reasons.rules, [1]);
/// assert_eq!(reasons.round, Some(vec![0, 1]));
/// assert_eq!(reasons.to_string(), "rules 1\nround 0 1\n");
/// ```
pub fn reasons(problem: &[u8], answer: &[u8]) -> Result<Reasons, Refusal> {
    let (mut rules, mut round) = ([0; raw::PICKS], [0; raw::STAMPS]);
    let result = raw::reasons(problem, answer, &mut rules, &mut round);
    refusal(result)?;
    let first = |numbers: &[u64], count: u64| numbers[..count as usize].iter().map(|&number| number as usize).collect();
    let turns = result >> 16;
    Ok(Reasons { rules: first(&rules, result >> 8 & 255), round: (turns > 0).then(|| first(&round, turns)) })
}

/// The lines that the reasons program prints.
impl std::fmt::Display for Reasons {
    fn fmt(&self, to: &mut std::fmt::Formatter<'_>) -> std::fmt::Result {
        let line = |to: &mut std::fmt::Formatter<'_>, word: &str, numbers: &[usize]| {
            to.write_str(word)?;
            numbers.iter().try_for_each(|number| write!(to, " {number}"))?;
            to.write_str("\n")
        };
        line(to, "rules", &self.rules)?;
        self.round.iter().try_for_each(|round| line(to, "round", round))
    }
}
