//! A problem answered in one call, with typed answers.

use std::fmt;

use crate::builder::{Fault, Problem};
use crate::calls::{check, read, solve, ANSWER_SIZE};
use crate::reasons::{reasons, Reasons};
use crate::words::{Answer, Certified, Outcome, Refusal};

/// The answer to one question of a [`Problem`], with the records that it stands in: they are the grounds to be kept.
#[derive(Clone, Debug, PartialEq, Eq)]
#[non_exhaustive]
pub struct Solution {
    /// The class, and the span for least.
    pub outcome: Outcome,
    /// The fields: stamps, start and picks.
    pub answer: Answer,
    /// The trials of this question.
    pub trials: u32,
    /// The record of the problem with this question alone.
    pub problem: Vec<u8>,
    /// The record of the answer.
    pub record: Vec<u8>,
}

impl Solution {
    /// When a moment is planned, in minutes from the anchor; `None` where it is left out, there is no plan, or no such moment.
    pub fn minute(&self, moment: usize) -> Option<i32> {
        self.answer.stamps().get(moment).copied().flatten()
    }

    /// What the checker says of the answer. It accepts each answer of the engine: that is proved.
    ///
    /// # Errors
    ///
    /// The checker's refusals, where a record was changed.
    pub fn judge(&self) -> Result<Certified, Refusal> {
        check(&self.problem, &self.record)
    }

    /// The rules behind the answer, and for a least span the binding round.
    ///
    /// # Errors
    ///
    /// Refusal 16, the answer is bottomless; the checker's refusals, where a record was changed.
    pub fn reasons(&self) -> Result<Reasons, Refusal> {
        reasons(&self.problem, &self.record)
    }
}

impl fmt::Display for Solution {
    fn fmt(&self, out: &mut fmt::Formatter) -> fmt::Result {
        self.outcome.fmt(out)
    }
}

impl Problem {
    /// Answers every question, in their order. A suspended rule and several questions may stand together: each question is asked alone, and gets
    /// the bytes that it would get among others.
    ///
    /// ```
    /// # fn main() -> Result<(), span::Error> {
    /// let mut day = span::Problem::new(2)?; // moment 1 the bed is cleaned, 2 the patient is ready
    /// let cleaning = day.rule(&[(0, 60)], &[(1, 0)])?;
    /// day.rule(&[(1, 5)], &[(2, 0)])?;
    /// day.question(&[(2, 0)], &[(0, 0)])?;
    /// day.question(&[(0, 0)], &[(2, 0)])?;
    /// let solutions = day.solve()?;
    /// assert_eq!(solutions[0].outcome, span::Outcome::Least(65));
    /// assert_eq!((solutions[0].minute(1), solutions[0].minute(2)), (Some(60), Some(65)));
    /// assert_eq!(solutions[0].judge()?.to_string(), "accepted least 65");
    /// assert_eq!(solutions[0].reasons()?.rules, [1, 2]);
    /// assert_eq!(solutions[1].outcome, span::Outcome::Bottomless);
    ///
    /// day.in_force(cleaning, false)?; // on a day without cleaning
    /// assert_eq!(day.solve()?[0].to_string(), "bottomless");
    /// # Ok(())
    /// # }
    /// ```
    ///
    /// # Errors
    ///
    /// [`Error::Fault`] where there is no question. What a [`Problem`] holds is within the layout, so that the engine refuses nothing.
    pub fn solve(&self) -> Result<Vec<Solution>, Error> {
        (0..self.questions().max(1)).map(|question| self.solve_one(question)).collect()
    }

    /// Answers one question, by its place from 0 on.
    ///
    /// # Errors
    ///
    /// [`Error::Fault`] where there is no such question.
    pub fn solve_one(&self, question: usize) -> Result<Solution, Error> {
        let problem = self.alone(question)?;
        let mut buffer = [0; ANSWER_SIZE];
        let solved = solve(&problem, &mut buffer)?;
        let record = buffer[..solved.size].to_vec();
        let answer = read(&record, self.n(), self.m())?;
        Ok(Solution { outcome: solved.outcome, answer, trials: solved.trials, problem, record })
    }

    /// Judges an answer from any engine to one of the questions.
    ///
    /// # Errors
    ///
    /// [`Error::Fault`] where there is no such question; else the checker's refusal.
    pub fn judge(&self, question: usize, record: &[u8]) -> Result<Certified, Error> {
        Ok(check(&self.alone(question)?, record)?)
    }
}

/// Why a problem has no answer.
#[derive(Clone, Copy, Debug, PartialEq, Eq)]
#[non_exhaustive]
pub enum Error {
    /// The problem cannot be built.
    Fault(Fault),
    /// A call refused what it was handed.
    Refused(Refusal),
}

impl fmt::Display for Error {
    fn fmt(&self, out: &mut fmt::Formatter) -> fmt::Result {
        match self {
            Error::Fault(fault) => fault.fmt(out),
            Error::Refused(refusal) => refusal.fmt(out),
        }
    }
}

impl std::error::Error for Error {
    fn source(&self) -> Option<&(dyn std::error::Error + 'static)> {
        match self {
            Error::Fault(fault) => Some(fault),
            Error::Refused(refusal) => Some(refusal),
        }
    }
}

impl From<Fault> for Error {
    fn from(fault: Fault) -> Error {
        Error::Fault(fault)
    }
}

impl From<Refusal> for Error {
    fn from(refusal: Refusal) -> Error {
        Error::Refused(refusal)
    }
}
