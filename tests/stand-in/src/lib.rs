//! The interface of the package `span` (capi/rust) over the unproved engine of reference/, for work on the tests and the
//! benchmark where the archive is not built. The calls and words are that package's own source; what is behind them is not.
//! Nothing leads here from that package.

#[path = "../../../capi/rust/src/builder.rs"]
mod builder;
#[path = "../../../capi/rust/src/calls.rs"]
mod calls;
#[path = "../../../capi/rust/src/census.rs"]
mod census;
#[path = "../../../capi/rust/src/conversion.rs"]
mod conversion;
#[path = "../../../capi/rust/src/desk.rs"]
mod desk;
#[path = "../../../capi/rust/src/hours.rs"]
mod hours;
#[path = "../../../capi/rust/src/marks.rs"]
mod marks;
#[path = "../../../capi/rust/src/merging.rs"]
mod merging;
#[path = "../../../capi/rust/src/opening.rs"]
mod opening;
pub mod raw;
#[path = "../../../capi/rust/src/reasons.rs"]
mod reasons;
#[path = "../../../capi/rust/src/solution.rs"]
mod solution;
#[path = "../../../capi/rust/src/words.rs"]
mod words;

pub use calls::{
    check, read, solve, solve_all, write, ANSWER_SIZE, PROBLEM_SIZE, QUESTIONS, QUESTIONS_SIZE, STATES_SIZE,
};
pub use census::{census, Census};
pub use conversion::convert;
pub use desk::{Collected, Desk, Step, DESK_MEMORY};
pub use hours::{read_hours, write_hours, TEXT_SIZE};
pub use marks::marks_differ;
pub use merging::{merge, PLAN_SIZE};
pub use opening::{first_open, Window};
pub use reasons::{reasons, Reasons};
pub use solution::{Error, Solution};
pub use words::{Answer, AnswerAt, Cause, Certified, Class, Outcome, Refusal, Solved, SolvedAll};

pub use builder::{Fault, Problem, Row, Side, What, BLANK, MOST_LEAD, MOST_M, MOST_N};
