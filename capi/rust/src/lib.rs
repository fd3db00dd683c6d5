//! The span engine and its checker, release 4.2, for Rust programs.
//!
//! A [`Problem`] is built row by row, and [`Problem::solve`] answers its questions in one call:
//!
//! ```
//! # fn main() -> Result<(), span::Error> {
//! let mut day = span::Problem::new(1)?; // one moment beside the anchor
//! day.rule(&[(0, 30)], &[(1, 0)])?; // anchor + 30 <= moment 1
//! day.question(&[(1, 0)], &[(0, 0)])?; // the span from the anchor to it
//! let solution = day.solve_one(0)?;
//! assert_eq!(solution.outcome, span::Outcome::Least(30));
//! assert_eq!(solution.minute(1), Some(30));
//! assert_eq!(solution.judge()?.to_string(), "accepted least 30");
//! # Ok(())
//! # }
//! ```
//!
//! Below it are the calls over bytes, which `docs/RECORDS.md` tells. [`solve`] answers a problem, and [`solve_all`] answers up to eight
//! questions over the same rules; [`check`] judges an answer from any engine and trusts none. [`read`] and [`write()`] turn an
//! answer record into its fields and back; [`read_hours`] and [`write_hours`] turn spans and stamps into hours and minutes and
//! back. [`convert`] drops the rules that say nothing from a stored problem. [`reasons`] names the rules behind an accepted answer
//! and its binding round. [`merge`] makes one plan of two. [`first_open`] looks up a ward's opening hours. [`marks_differ`] is the test
//! of mark bytes by which reach ends. [`census`] counts small problems by class. [`Desk`] answers sixteen problems in turn, a trial at a
//! time.
//!
//! What these functions return is proved of the code behind them, which the archive `libcapi.a` holds; this thin layer
//! and the compiler that builds it are not part of the proofs.
//!
//! ```
//! let problem = [0x0E, 0, 0, 0, 1, 0, 0, 0, 0, 0, 5, 0, 0, 0, 2, 0, 0, 0];
//! let mut answer = [0; span::ANSWER_SIZE];
//! let solved = span::solve(&problem, &mut answer).unwrap();
//! assert_eq!(solved.to_string(), "least 3");
//! let judged = span::check(&problem, &answer[..solved.size]).unwrap();
//! assert_eq!(judged.to_string(), "accepted least 3");
//!
//! // No bytes are an idle day: n = m = 0, and both leads of the anchor 0.
//! let solved = span::solve(&[], &mut answer).unwrap();
//! assert_eq!(solved.to_string(), "least 0");
//! assert_eq!(span::check(&[], &answer[..solved.size]).unwrap().to_string(), "accepted least 0");
//! assert_eq!(span::solve(&problem[..9], &mut answer).unwrap_err().cause(), span::Cause::ShortProblem);
//!
//! let mut text = [0; span::TEXT_SIZE];
//! let size = span::write_hours(Some(425), &mut text).unwrap();
//! assert_eq!(&text[..size], b"7:05");
//! assert_eq!(span::read_hours(b"-0:05"), Ok(Some(-5)));
//! assert_eq!(span::read_hours(b"--"), Ok(None));
//! assert_eq!(span::read_hours(b"7:60").unwrap_err().cause(), span::Cause::HoursText);
//! ```

#![warn(missing_docs, clippy::missing_errors_doc, clippy::missing_panics_doc)]

mod builder;
mod calls;
mod census;
mod conversion;
mod desk;
mod hours;
mod marks;
mod merging;
mod opening;
pub mod raw;
mod reasons;
mod release;
mod solution;
mod words;

pub use calls::{
    check, read, solve, solve_all, write, ANSWER_SIZE, PROBLEM_SIZE, QUESTIONS, QUESTIONS_SIZE, STATES_SIZE,
};
pub use census::{census, Census};
pub use conversion::convert;
pub use desk::{Collected, Desk, Step, DESK_MEMORY};
pub use hours::{read_hours, write_hours, TEXT_SIZE};
pub use marks::marks_differ;
pub use merging::{merge, PLAN_SIZE};
pub use opening::{first_open, Window};
pub use reasons::{reasons, Reasons};
pub use release::{version, ARCHIVE_SHA256, VERSION};
pub use solution::{Error, Solution};
pub use words::{Answer, AnswerAt, Cause, Certified, Class, Outcome, Refusal, Solved, SolvedAll};

pub use builder::{Fault, Problem, Row, Side, What, BLANK, MOST_LEAD, MOST_M, MOST_N};

#[cfg(all(no_archive, not(doc)))]
compile_error!(concat!(
    "there is no ",
    env!("SPAN_ARCHIVE"),
    ": run `tools/build archive` first, which proves and writes it, or install the library and name its folder in SPAN_ARCHIVE_FOLDER"
));

#[cfg(all(other_archive, not(doc)))]
compile_error!(concat!(env!("SPAN_ARCHIVE"), " is of another release than this package, which is 4.2"));
