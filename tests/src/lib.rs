//! Tests from outside the proofs.
//!
//! The definitions that the proofs rest on could be wrong, and no proof shows that. Everything here that says what is
//! right (`paper`, `exhaustive`, `second`) was written from documents 01 and 02 alone, in their words, plainly and slowly.
//!
//! `tests/suites.rs` has each suite as a test, for `cargo test`; the program, `main.rs`, runs them in turn, or some for long.

mod exhaustive;
mod generate;
mod paper;
pub mod programs;
mod second;
mod suites;
mod tally;

// What is tried goes by the name `span`: the product's package, or the unproved engine in its place.
#[cfg(all(feature = "archive", feature = "stand-in"))]
compile_error!("the archive or the stand-in is tried, not both: --no-default-features --features stand-in");
#[cfg(feature = "stand-in")]
extern crate stand_in as span;

pub use suites::census::print_table;
use tally::Tally;

/// What is tried, in words.
pub const TRIED: &str = if cfg!(feature = "stand-in") { "the unproved stand-in" } else { "the archive" };

/// A part of what the papers promise, tried.
pub struct Suite {
    pub name: &'static str,
    run: fn(&mut Tally),
}

impl Suite {
    const fn new(name: &'static str, run: fn(&mut Tally)) -> Suite {
        Suite { name, run }
    }

    /// Runs it, for long where that is asked for; the number of disagreements, which are printed. After a few of them `stop` is called.
    pub fn run(&self, long: bool, stop: fn() -> !) -> u64 {
        let mut tally = Tally::new(self.name, long, stop);
        (self.run)(&mut tally);
        tally.close()
    }
}

pub static SUITES: [Suite; 22] = [
    Suite::new("examples", suites::examples::run),
    Suite::new("all-small", suites::small::every_small_problem),
    Suite::new("random-small", suites::small::random_problems),
    Suite::new("all-tables", suites::tables::run),
    Suite::new("starts", suites::starts::run),
    Suite::new("checker", suites::checker::run),
    Suite::new("bytes", suites::bytes::run),
    Suite::new("fields", suites::fields::run),
    Suite::new("hours", suites::hours::run),
    Suite::new("programs", suites::pipes::run),
    Suite::new("unproved", suites::unproved::run),
    Suite::new("opening", suites::opening::run),
    Suite::new("parts", suites::parts::run),
    Suite::new("marks", suites::marks::run),
    Suite::new("questions", suites::questions::run),
    Suite::new("idle", suites::idle::run),
    Suite::new("silent", suites::silent::run),
    Suite::new("merging", suites::merging::run),
    Suite::new("census", suites::census::run),
    Suite::new("reasons", suites::reasons::run),
    Suite::new("suspended", suites::suspended::run),
    Suite::new("desk", suites::desk::run),
];
