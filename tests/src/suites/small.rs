//! Small problems: the engine against every plan in a box that counts.

use super::{answered, bytes};
use crate::exhaustive;
use crate::generate::{self, Shape};
use crate::paper::{Minute, Problem, Row, BUFFER};
use crate::tally::Tally;
use random::Random;

/// Hands over every problem of a size whose leads are blank or within ±w.
pub fn every_problem(n: usize, m: usize, w: i64, mut visit: impl FnMut(&Problem)) {
    let values: Vec<Minute> = std::iter::once(None).chain((-w..=w).map(Some)).collect();
    let leads = 2 * (n + 1) * (m + 1);
    let mut digits = vec![0; leads];
    loop {
        let all: Vec<Minute> = digits.iter().map(|&digit: &usize| values[digit]).collect();
        let mut rows: Vec<Row> = all
            .chunks(2 * (n + 1))
            .map(|row| Row { left: row[..n + 1].to_vec(), right: row[n + 1..].to_vec() })
            .collect();
        let question = rows.pop().expect("the question's row");
        visit(&Problem { rules: rows, question });
        let Some(place) = digits.iter().position(|&digit| digit + 1 < values.len()) else { return };
        digits[..place].fill(0);
        digits[place] += 1;
    }
}

/// All problems with n ≤ 1, m ≤ 1 and leads blank or −1 to 1, and the smallest ones with wider leads; those with a rule that says
/// nothing are refused.
pub fn every_small_problem(tally: &mut Tally) {
    let mut random = Random::new(0);
    for (n, m, w) in [(0, 0, 9), (0, 1, 3), (1, 0, 3), (1, 1, 1), (0, 2, 1)] {
        every_problem(n, m, w, |problem| {
            tally.count("problems");
            if problem.rules.iter().any(Row::says_nothing) {
                bytes::engine(tally, &mut random, &problem.bytes(), BUFFER);
                return;
            }
            let expected = exhaustive::solve(problem, w);
            let (found, record) = answered(tally, &mut random, problem);
            tally.same("class and span", found, expected, &problem.bytes(), &record);
        });
    }
}

/// Random problems with n ≤ 2, m ≤ 3 and leads within ±2; some with n = 3 and leads within ±1.
pub fn random_problems(tally: &mut Tally) {
    const SEED: u64 = 11_013_431;
    tally.seed(SEED);
    let mut random = Random::new(SEED);
    for round in 0..200_000 {
        let (n, m, w) = match round % 50 {
            0 => (3, random.below(4), 1),
            _ => (random.below(3), random.below(4), 1 + random.below(2) as i64),
        };
        let shape = Shape { n, m, w, filled: [3, 5, 7, 10][random.below(4)] };
        let problem = match random.below(3) {
            0 => generate::free(&mut random, shape),
            1 => generate::kept(&mut random, shape),
            _ => generate::sparse(&mut random, shape),
        };
        tally.count("problems");
        let expected = exhaustive::solve(&problem, w);
        let (found, record) = answered(tally, &mut random, &problem);
        tally.same("class and span", found, expected, &problem.bytes(), &record);
    }
}
