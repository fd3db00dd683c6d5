//! What is measured, under one form: bytes in, class, span and trials out.

use reference::{solve_by, solve_by_look, Answered, InFull, InLists, Search};

pub type Solve = fn(&[u8], &mut [u8]) -> Answered;

/// The unproved engines, by name.
pub const UNPROVED: [(&str, Solve); 5] = [
    ("dense, halving", |problem, answer| good(solve_by::<InFull>(Search::Halving, problem, answer))),
    ("lists, halving", |problem, answer| good(solve_by::<InLists>(Search::Halving, problem, answer))),
    ("dense, Newton", |problem, answer| good(solve_by::<InFull>(Search::Newton, problem, answer))),
    ("lists, Newton", |problem, answer| good(solve_by::<InLists>(Search::Newton, problem, answer))),
    ("one look", |problem, answer| good(solve_by_look(problem, answer))),
];

fn good(result: Result<Answered, u8>) -> Answered {
    result.unwrap_or_else(|number| panic!("a good problem was refused by {number}"))
}

/// The library behind the package `span`.
pub fn library(problem: &[u8], answer: &mut [u8]) -> Answered {
    match span::solve(problem, answer) {
        Err(refusal) => panic!("a good problem: {refusal}"),
        Ok(solved) => {
            let span = match solved.outcome {
                span::Outcome::Least(span) => span,
                _ => i32::MIN,
            };
            let class = solved.outcome.class().number() as u16;
            Answered { class, span, trials: solved.trials, size: solved.size }
        }
    }
}

/// The library's checker: whether it accepts.
pub fn library_accepts(problem: &[u8], answer: &[u8]) -> bool {
    span::check(problem, answer).is_ok()
}

/// The unproved checker: whether it accepts.
pub fn unproved_accepts(problem: &[u8], answer: &[u8]) -> bool {
    reference::checker::check(problem, answer).is_ok()
}
