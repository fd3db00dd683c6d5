//! Good problems: every small one, and random ones of all sizes.

use super::{alone, compare, good, largest, Alone};
use crate::exhaustive;
use crate::generate::any_questions;
use crate::paper::{Minute, Problem, Questions, Row};
use crate::tally::Tally;
use random::Random;

/// Hands over every choice of so many numbers below a limit.
fn every_choice(limit: usize, count: usize, mut visit: impl FnMut(&[usize])) {
    let mut choice = vec![0; count];
    loop {
        visit(&choice);
        let Some(place) = choice.iter().position(|&number| number + 1 < limit) else { return };
        choice[..place].fill(0);
        choice[place] += 1;
    }
}

/// Every row whose leads are blank or within ±w.
fn every_row(n: usize, w: i64) -> Vec<Row> {
    let values: Vec<Minute> = std::iter::once(None).chain((-w..=w).map(Some)).collect();
    let mut rows = Vec::new();
    every_choice(values.len(), 2 * (n + 1), |digits| {
        let leads: Vec<Minute> = digits.iter().map(|&digit| values[digit]).collect();
        rows.push(Row { left: leads[..n + 1].to_vec(), right: leads[n + 1..].to_vec() });
    });
    rows
}

/// Every problem of n, m and so many questions whose leads are blank or within ±w. Each question alone is compared with
/// every plan first.
fn every_problem(tally: &mut Tally, random: &mut Random, (n, m, w, count): (usize, usize, i64, usize)) {
    let rows = every_row(n, w);
    every_choice(rows.len(), m, |choice| {
        let rules: Vec<Row> = choice.iter().map(|&number| rows[number].clone()).collect();
        if rules.iter().any(Row::says_nothing) {
            return; // refused by 17, see the suite `silent`
        }
        let mut answers = Vec::new();
        for question in &rows {
            let problem = Problem { rules: rules.clone(), question: question.clone() };
            let answer = alone(tally, &problem);
            let expected = exhaustive::solve(&problem, w);
            tally.same("one question by every plan", answer.outcome, expected, &problem.bytes(), &answer.record);
            answers.push(answer);
        }
        every_choice(rows.len(), count, |choice| {
            let questions = choice.iter().map(|&number| rows[number].clone()).collect();
            let answers: Vec<&Alone> = choice.iter().map(|&number| &answers[number]).collect();
            compare(tally, random, &Questions { rules: rules.clone(), questions }.bytes(), &answers);
        });
    });
}

/// Random problems of all sizes and counts, and those at the limits of both.
fn random_problems(tally: &mut Tally, random: &mut Random) {
    let rounds = if tally.long { 200_000 } else { 15_000 };
    for round in 0..rounds {
        let (n, m) = if round % 4 == 0 { (31, 63) } else { (6, 8) };
        let count = 1 + random.below(8);
        let all = any_questions(random, n, m, count);
        good(tally, random, &all);
    }
    for _ in 0..rounds / 100 {
        let all = largest(random);
        tally.same("the longest problem", all.bytes().len(), 18_188, &[], &[]);
        good(tally, random, &all);
    }
}

pub fn run(tally: &mut Tally, random: &mut Random) {
    // n, m, the width of leads, the count of questions.
    let mut small = vec![
        (0, 0, 3, 1),
        (0, 0, 3, 2),
        (0, 0, 1, 3),
        (0, 1, 1, 3),
        (0, 1, 3, 2),
        (0, 2, 1, 2),
        (1, 0, 1, 2),
        (1, 1, 0, 3),
        (1, 1, 1, 1),
    ];
    if tally.long {
        small.extend([(0, 0, 1, 5), (1, 2, 0, 3), (1, 1, 1, 2)]);
    }
    for sizes in small {
        every_problem(tally, random, sizes);
    }
    random_problems(tally, random);
}
