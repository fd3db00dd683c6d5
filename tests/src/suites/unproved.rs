//! The unproved engines and the unproved checker of reference/: what the proved ones are measured against must be right too.

use reference::{solve_all_by, solve_all_by_look, solve_by, solve_by_look, Answered, InFull, InLists, Search};

use super::{checked, expected_check};
use crate::exhaustive;
use crate::generate::{self, any, any_questions, changed, Shape};
use crate::paper::{self, Outcome, Problem, Questions, BUFFER};
use crate::tally::Tally;
use random::Random;

type Engine = fn(&[u8], &mut [u8]) -> Result<Answered, u8>;

/// The same on every question of a problem.
type EngineOfAll = fn(&[u8], &mut [u8]) -> Result<Vec<Answered>, u8>;

const ENGINES: [(&str, Engine); 5] = [
    ("dense, halving", |problem, answer| solve_by::<InFull>(Search::Halving, problem, answer)),
    ("lists, halving", |problem, answer| solve_by::<InLists>(Search::Halving, problem, answer)),
    ("dense, Newton", |problem, answer| solve_by::<InFull>(Search::Newton, problem, answer)),
    ("lists, Newton", |problem, answer| solve_by::<InLists>(Search::Newton, problem, answer)),
    ("one look", solve_by_look),
];

const ENGINES_OF_ALL: [(&str, EngineOfAll); 5] = [
    ("dense, halving", |problem, answers| solve_all_by::<InFull>(Search::Halving, problem, answers)),
    ("lists, halving", |problem, answers| solve_all_by::<InLists>(Search::Halving, problem, answers)),
    ("dense, Newton", |problem, answers| solve_all_by::<InFull>(Search::Newton, problem, answers)),
    ("lists, Newton", |problem, answers| solve_all_by::<InLists>(Search::Newton, problem, answers)),
    ("one look", solve_all_by_look),
];

fn outcome(answered: Answered) -> Outcome {
    match answered.class {
        1 => Outcome::Least(answered.span as i64),
        2 => Outcome::Bottomless,
        _ => Outcome::None,
    }
}

/// Each engine's answer: the expected outcome where it is known, the trials, and the verdicts of all checkers.
fn judge(tally: &mut Tally, random: &mut Random, problem: &Problem, expected: Option<Outcome>) {
    let bytes = problem.bytes();
    for (name, engine) in ENGINES {
        let mut buffer = [0xA5; BUFFER];
        let Ok(answered) = engine(&bytes, &mut buffer) else {
            tally.fail(format!("{name} refuses a good problem"), &bytes, &[]);
            continue;
        };
        let record = &buffer[..answered.size];
        let found = outcome(answered);
        tally.same(name, found, expected.unwrap_or(found), &bytes, record);
        tally.same(name, answered.trials as u64, paper::trials_for(found), &bytes, record);
        tally.same(name, expected_check(&bytes, record), Ok(found), &bytes, record);
        tally.same(name, checked(&bytes, record), Ok(found), &bytes, record);
        checker(tally, &bytes, record);
        tally.count("answers");
        if let Ok(answer) = paper::read_answer(record, problem.n(), problem.m()) {
            checker(tally, &bytes, &changed(random, problem, &answer).bytes(problem.n()));
        }
    }
}

/// Each engine on several questions: its answers to each alone, one after another.
fn several(tally: &mut Tally, all: &Questions) {
    let bytes = all.bytes();
    for ((name, engine), (_, engine_of_all)) in ENGINES.into_iter().zip(ENGINES_OF_ALL) {
        let mut expected = [0xA5; 8 * BUFFER];
        let (mut answers, mut at) = (Vec::new(), 0);
        for number in 0..all.questions.len() {
            if let Ok(answered) = engine(&all.alone(number).bytes(), &mut expected[at..]) {
                at += answered.size;
                answers.push(answered);
            }
        }
        let mut buffer = [0xA5; 8 * BUFFER];
        tally.same(name, engine_of_all(&bytes, &mut buffer), Ok(answers), &bytes, &expected[..at]);
        tally.same(name, buffer, expected, &bytes, &expected[..at]);
    }
    tally.count("problems of several questions");
}

fn checker(tally: &mut Tally, problem: &[u8], answer: &[u8]) {
    let found = reference::checker::check(problem, answer);
    let expected = expected_check(problem, answer);
    let same = match (found, expected) {
        (Ok(accepted), Ok(Outcome::Least(span))) => accepted.class == 1 && accepted.span as i64 == span,
        (Ok(accepted), Ok(Outcome::Bottomless)) => accepted.class == 2,
        (Ok(accepted), Ok(Outcome::None)) => accepted.class == 3,
        (Err(found), Err(expected)) => found as u64 == expected,
        _ => false,
    };
    if !same {
        tally.fail(format!("the unproved checker: found {found:?}, expected {expected:?}"), problem, answer);
    }
    tally.count("verdicts");
}

pub fn run(tally: &mut Tally) {
    const SEED: u64 = 63_031;
    tally.seed(SEED);
    let mut random = Random::new(SEED);
    for _ in 0..20_000 {
        let w = 1 + random.below(2) as i64;
        let shape = Shape { n: random.below(3), m: random.below(4), w, filled: [3, 5, 7, 10][random.below(4)] };
        let problem =
            if random.chance(1, 2) { generate::kept(&mut random, shape) } else { generate::sparse(&mut random, shape) };
        let expected = exhaustive::solve(&problem, w);
        judge(tally, &mut random, &problem, Some(expected));
        tally.count("small problems");
    }
    for _ in 0..3_000 {
        let problem = any(&mut random, 31, 63);
        let mut buffer = [0; BUFFER];
        let first = solve_by::<InFull>(Search::Halving, &problem.bytes(), &mut buffer);
        judge(tally, &mut random, &problem, first.ok().map(outcome));
        tally.count("problems of all sizes");
    }
    for _ in 0..1_000 {
        let count = 1 + random.below(8);
        several(tally, &any_questions(&mut random, 31, 63, count));
    }
}
