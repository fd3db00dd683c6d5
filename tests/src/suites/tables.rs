//! Demand 3 on small problems, word for word, with the starts of document 02, 2.4: every plan of a box with every start and every pick
//! table, and every start with every table of the other two classes. What is accepted must agree with the second checker, and some start
//! with some table must be accepted exactly when the plan is best among those that count, when there is none, and when spans are
//! bottomless.

use super::small::every_problem;
use super::{checked, expected_check};
use crate::exhaustive::{every_plan, reach, solve};
use crate::generate::{self, Shape};
use crate::paper::{counts, highest_pick, starts, Answer, Minute, Outcome, Problem, Row, Span};
use crate::tally::Tally;
use random::Random;

/// Hands over every pick table of a class.
pub fn every_table(n: usize, m: usize, class: u64, mut visit: impl FnMut(&[u64])) {
    let mut picks = vec![0; counts(class, n, m).1];
    let highest = highest_pick(class, n, m);
    loop {
        visit(&picks);
        let Some(place) = picks.iter().position(|&pick| pick < highest) else { return };
        picks[..place].fill(0);
        picks[place] += 1;
    }
}

/// Whether the checker accepts an answer of this class, with this plan, with some start and some table. Starts go from 0 to n + 3:
/// those that the class does not have are refused.
fn accepted_with_some(
    tally: &mut Tally,
    problem: &Problem,
    bytes: &[u8],
    class: u64,
    span: Minute,
    plan: &[Minute],
) -> bool {
    let n = problem.n();
    let mut some = false;
    let mut answer = Answer { class, span, start: 0, stamps: plan.to_vec(), picks: Vec::new() };
    every_table(n, problem.m(), class, |picks| {
        answer.picks = picks.to_vec();
        let last = if picks.iter().all(|&pick| pick == 0) { n as u64 + 3 } else { *starts(class, n).end() };
        for start in 0..=last {
            answer.start = start;
            let record = answer.bytes(n);
            let found = checked(bytes, &record);
            tally.same("the checker", found, expected_check(bytes, &record), bytes, &record);
            tally.count(match found {
                Ok(_) => "accepted",
                Err(10) => "no such start",
                Err(_) => "not accepted",
            });
            some |= found.is_ok();
        }
    });
    some
}

/// Demand 3 on one problem whose leads are within ±w.
fn demand_3(tally: &mut Tally, problem: &Problem, w: i64) {
    tally.count("problems");
    let n = problem.n();
    let bytes = problem.bytes();
    let outcome = solve(problem, w);
    // Demand 3 speaks of problems without a rule that says nothing; no table is accepted for the others.
    let speaks = !problem.rules.iter().any(Row::says_nothing);
    let none = accepted_with_some(tally, problem, &bytes, 3, None, &[]);
    tally.same("some table for none", none, speaks && outcome == Outcome::None, &bytes, &[]);
    let bottomless = accepted_with_some(tally, problem, &bytes, 2, None, &[]);
    tally.same("some table for bottomless", bottomless, speaks && outcome == Outcome::Bottomless, &bytes, &[]);
    every_plan(n, reach(n, w), |plan| {
        let Span::Whole(span) = problem.span(plan) else { return };
        let accepted = accepted_with_some(tally, problem, &bytes, 1, Some(span), plan);
        let best = speaks && problem.keeps_the_rules(plan) && outcome == Outcome::Least(span);
        tally.same("some table for a plan", accepted, best, &bytes, &[]);
        tally.count("plans");
    });
}

pub fn run(tally: &mut Tally) {
    // n, m, the width of leads; of the largest ones every so many in the gate.
    for (n, m, w, every) in [(0, 0, 3, 1), (0, 1, 1, 1), (1, 0, 1, 1), (1, 1, 1, 3), (0, 2, 1, 3)] {
        let mut number = 0;
        every_problem(n, m, w, |problem| {
            number += 1;
            if tally.long || number % every == 0 {
                demand_3(tally, problem, w);
            }
        });
    }
    const SEED: u64 = 40;
    tally.seed(SEED);
    let mut random = Random::new(SEED);
    for round in 0..if tally.long { 1_000 } else { 12 } {
        let shape = Shape { n: 2, m: 1 + round % 2, w: 1, filled: [3, 5, 7][random.below(3)] };
        demand_3(tally, &generate::sparse(&mut random, shape), 1);
    }
}
