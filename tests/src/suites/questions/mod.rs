//! Several questions over the same rules (document 02, 2.1): a problem of kind 3 against one call a question with its kind 1
//! problem, byte for byte; every refusal in its order; the programs.

mod answered;
mod piped;
mod refused;

use super::bytes::{checker, seen};
use super::outcome_of;
use crate::generate::{self, Shape};
use crate::paper::{self, Outcome, Problem, Questions, BUFFER, LONGEST_LEAD};
use crate::tally::Tally;
use random::Random;

/// The engine's answer to one question with its kind 1 problem.
#[derive(Clone)]
struct Alone {
    record: Vec<u8>,
    trials: u64,
    outcome: Outcome,
}

fn alone(tally: &mut Tally, problem: &Problem) -> Alone {
    let bytes = problem.bytes();
    let mut buffer = [0xA5; BUFFER];
    let result = span::raw::solve(&bytes, &mut buffer);
    let size = (paper::number(&buffer[..4]) as usize + 4).min(BUFFER);
    match (result & 255, paper::read_answer(&buffer[..size], problem.n(), problem.m())) {
        (0, Ok(answer)) => Alone { record: buffer[..size].to_vec(), trials: result >> 8, outcome: answer.outcome() },
        (refusal, _) => {
            tally.fail(format!("one question alone gets {refusal}, or no record"), &bytes, &buffer);
            Alone { record: Vec::new(), trials: 0, outcome: Outcome::None }
        }
    }
}

/// Each question of a problem alone.
fn each_alone(tally: &mut Tally, all: &Questions) -> Vec<Alone> {
    (0..all.questions.len()).map(|number| alone(tally, &all.alone(number))).collect()
}

/// The records one after another.
fn records(answers: &[&Alone]) -> Vec<u8> {
    answers.iter().flat_map(|answer| answer.record.iter().copied()).collect()
}

/// The engine on a problem of kind 3 gives the answers of one call a question: every byte of the buffer, which has 208
/// bytes a question or more and held noise, and the sum of the trials.
fn compare(tally: &mut Tally, random: &mut Random, bytes: &[u8], answers: &[&Alone]) {
    let mut buffer = vec![0; BUFFER * answers.len() + [0, 0, 1, 30, BUFFER][random.below(5)]];
    random.fill(&mut buffer);
    let mut expected = buffer.clone();
    let records = records(answers);
    expected[..records.len()].copy_from_slice(&records);
    let result = span::raw::solve(bytes, &mut buffer);
    let trials: u64 = answers.iter().map(|answer| answer.trials).sum();
    tally.same("trials of all questions, no refusal", result, 256 * trials, bytes, &[]);
    tally.same("every byte of the buffer", &buffer, &expected, bytes, &buffer);
    tally.count("problems");
    if answers.iter().any(|answer| answer.record[8] != answers[0].record[8]) {
        tally.count("with answers of several classes");
    }
}

/// The Rust package: where each answer stands and what it says; `solve` and the checker take one question alone.
fn package(tally: &mut Tally, all: &Questions, answers: &[&Alone]) {
    let bytes = all.bytes();
    let records = records(answers);
    let mut buffer = vec![0xA5; BUFFER * answers.len()];
    tally.same("solve", span::solve(&bytes, &mut buffer).map_err(|refusal| refusal.number), Err(3), &bytes, &[]);
    tally.same("the buffer of solve", buffer.iter().all(|byte| *byte == 0xA5), true, &bytes, &buffer);
    let solved = match span::solve_all(&bytes, &mut buffer) {
        Ok(solved) => solved,
        Err(refusal) => return tally.fail(format!("a good problem got {refusal}"), &bytes, &[]),
    };
    let trials: u64 = answers.iter().map(|answer| answer.trials).sum();
    tally.same("trials", solved.trials as u64, trials, &bytes, &records);
    tally.same("answers", solved.answers.len(), answers.len(), &bytes, &records);
    let mut at = 0;
    for (number, (found, expected)) in solved.answers.iter().zip(answers).enumerate() {
        let end = at + expected.record.len();
        tally.same("an answer's outcome", outcome_of(found.outcome), expected.outcome, &bytes, &expected.record);
        tally.same("where an answer stands", found.bytes.clone(), at..end, &bytes, &records);
        tally.same("an answer's trials", expected.trials, paper::trials_for(expected.outcome), &bytes, &records);
        checker(tally, &all.alone(number).bytes(), &buffer[at..end]);
        checker(tally, &bytes, &buffer[at..end]);
        at = end;
    }
    tally.count("through the package");
}

/// Both, on a problem whose questions are answered one by one first.
fn good(tally: &mut Tally, random: &mut Random, all: &Questions) {
    let answers = each_alone(tally, all);
    let answers: Vec<&Alone> = answers.iter().collect();
    compare(tally, random, &all.bytes(), &answers);
    package(tally, all, &answers);
    tally.count(&format!("of {} questions", answers.len()));
}

/// Eight questions at n = 31, m = 63.
fn largest(random: &mut Random) -> Questions {
    let shape = Shape { n: 31, m: 63, w: [60, LONGEST_LEAD][random.below(2)], filled: [1, 4, 10][random.below(3)] };
    let problem = match random.below(3) {
        0 => generate::free(random, shape),
        1 => generate::kept(random, shape),
        _ => generate::sparse(random, shape),
    };
    generate::questions(random, problem, 8)
}

pub fn run(tally: &mut Tally) {
    const SEED: u64 = 18_188;
    tally.seed(SEED);
    let mut random = Random::new(SEED);
    answered::run(tally, &mut random);
    refused::run(tally, &mut random);
    piped::run(tally, &mut random);
    for what in ["with answers of several classes", "of 18,188 bytes through the span program"] {
        seen(tally, what);
    }
    for refusal in [0, 1, 2, 3, 4, 5, 6, 7, 15] {
        seen(tally, &format!("engine {refusal}"));
    }
}
