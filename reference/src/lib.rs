//! An engine and a checker without proofs, written for speed, from documents 01 and 02 and nothing else.
//!
//! The benchmark measures the proved ones against these, and the outside tests try both. The package `stand-in` of tests/
//! puts these behind the product's interface, for work on the tests where the archive is not there. Nothing leads here
//! from the product's own package (capi/rust).
//!
//! Words: a moment is a variable and the anchor variable 0, a lead is a coefficient, blank is minus infinity (`BOT`), a
//! rule is an inequality and the question the objective, a plan is a point, a pick table is a strategy.

// Loops over numbers stay as they were measured.
#![allow(clippy::needless_range_loop)]

pub mod boundary;
pub mod census;
pub mod checker;
pub mod converter;
mod dense;
pub mod desk;
mod engine;
mod falling;
mod hours;
mod lists;
mod look;
mod merger;
mod number;
mod policy;
pub mod programs;
pub mod reasons;
pub mod record;
mod saver;
mod sums;
pub mod week;

pub use engine::{
    solve_all, solve_all_by, solve_all_by_look, solve_by, solve_by_look, Answered, InFull, InLists, Kind, Search,
};

/// The largest number of variables, the anchor among them.
pub const VARIABLES: usize = 32;
/// The largest number of rows, the objective among them.
pub const ROWS: usize = 64;
/// The largest number of questions over the same rules.
pub const QUESTIONS: usize = 8;
/// The largest size of a coefficient.
pub const LARGEST: i32 = 20_160;
/// The top trial.
pub const TOP: i32 = 2 * VARIABLES as i32 * LARGEST;
/// In an array of picks: no pick.
pub const NO_PICK: u8 = u8::MAX;
