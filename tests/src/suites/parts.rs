//! Parts of a minute gain nothing (document 02, 2.12): every lead times d leaves the class and makes the least span d times.

use super::answered;
use crate::exhaustive;
use crate::generate::{self, Shape};
use crate::paper::{Minute, Outcome, Problem, Row, LONGEST_LEAD};
use crate::tally::Tally;
use random::Random;

/// How many parts a minute has.
const PARTS: [i64; 3] = [2, 3, 7];

fn scaled_list(leads: &[Minute], d: i64) -> Vec<Minute> {
    leads.iter().map(|lead| lead.map(|minutes| d * minutes)).collect()
}

fn scaled_row(row: &Row, d: i64) -> Row {
    Row { left: scaled_list(&row.left, d), right: scaled_list(&row.right, d) }
}

/// The problem with every lead multiplied by d.
fn scaled(problem: &Problem, d: i64) -> Problem {
    let rules = problem.rules.iter().map(|rule| scaled_row(rule, d)).collect();
    Problem { rules, question: scaled_row(&problem.question, d) }
}

/// The same class, and d times the least span.
fn times(outcome: Outcome, d: i64) -> Outcome {
    match outcome {
        Outcome::Least(span) => Outcome::Least(d * span),
        other => other,
    }
}

/// The engine on the scaled problem says what is expected of the problem itself, times d.
fn compare(tally: &mut Tally, random: &mut Random, problem: &Problem, d: i64, expected: Outcome) {
    let parts = scaled(problem, d);
    let (found, record) = answered(tally, random, &parts);
    tally.same("class and span in parts of a minute", found, times(expected, d), &parts.bytes(), &record);
    tally.count("scaled problems");
}

/// Small ones: the problem by every plan in whole minutes, the scaled one by the engine; where the box in parts of a
/// minute is small enough, the scaled one by every plan there too.
fn small(tally: &mut Tally, random: &mut Random) {
    const W: i64 = 2;
    for round in 0..24_000 {
        let shape = Shape { n: round % 3, m: random.below(3), w: W, filled: [3, 5, 7, 10][random.below(4)] };
        let problem = match random.below(3) {
            0 => generate::free(random, shape),
            1 => generate::kept(random, shape),
            _ => generate::sparse(random, shape),
        };
        let expected = exhaustive::solve(&problem, W);
        for d in PARTS {
            compare(tally, random, &problem, d, expected);
            if shape.n < 2 || (d == 2 && round % 10 == 2) {
                let parts = scaled(&problem, d);
                let by_every_plan = exhaustive::solve(&parts, d * W);
                tally.same("every plan in parts of a minute", by_every_plan, times(expected, d), &parts.bytes(), &[]);
                tally.count("by every plan in parts");
            }
        }
    }
}

/// Any size, leads up to the limit once they are multiplied: the engine on both.
fn large(tally: &mut Tally, random: &mut Random) {
    for round in 0..2_000 {
        let d = PARTS[round % PARTS.len()];
        let shape = Shape {
            n: random.below(32),
            m: random.below(64),
            w: [1, 60, LONGEST_LEAD / d][random.below(3)],
            filled: [1, 2, 4, 7, 10][random.below(5)],
        };
        let problem = match random.below(3) {
            0 => generate::free(random, shape),
            1 => generate::kept(random, shape),
            _ => generate::sparse(random, shape),
        };
        let (expected, _) = answered(tally, random, &problem);
        compare(tally, random, &problem, d, expected);
    }
}

pub fn run(tally: &mut Tally) {
    let seed = 212;
    tally.seed(seed);
    let mut random = Random::new(seed);
    small(tally, &mut random);
    large(tally, &mut random);
}
