//! The suites, each against one part of what the papers promise.

pub mod bytes;
pub mod census;
pub mod checker;
pub mod desk;
pub mod examples;
pub mod fields;
pub mod hours;
pub mod idle;
pub mod marks;
pub mod merging;
pub mod opening;
pub mod parts;
pub mod pipes;
pub mod questions;
pub mod reasons;
pub mod silent;
pub mod small;
pub mod starts;
pub mod suspended;
pub mod tables;
pub mod unproved;

use crate::paper::{self, Outcome, Problem, BUFFER};
use crate::second;
use crate::tally::Tally;
use random::Random;

pub fn outcome_of(outcome: span::Outcome) -> Outcome {
    match outcome {
        span::Outcome::Least(span) => Outcome::Least(span as i64),
        span::Outcome::Bottomless => Outcome::Bottomless,
        span::Outcome::NoPlan => Outcome::None,
    }
}

/// What the checker says in the paper's terms: the outcome, or the refusal.
pub fn checked(problem: &[u8], answer: &[u8]) -> Result<Outcome, u64> {
    match span::check(problem, answer) {
        Ok(certified) => Ok(outcome_of(certified.outcome)),
        Err(refusal) => Err(refusal.number as u64),
    }
}

/// What documents 01 and 02 say that the checker must say.
pub fn expected_check(problem: &[u8], answer: &[u8]) -> Result<Outcome, u64> {
    let problem = paper::read_problem(problem)?;
    let answer = paper::read_answer(answer, problem.n(), problem.m())?;
    if second::accepted(&problem, &answer) {
        Ok(answer.outcome())
    } else {
        Err(14)
    }
}

/// Has the engine answer a good problem, in a buffer with noise, and tries all that holds of its answer: the trials, the
/// bytes after the record, the checkers' verdicts, picks that play no part, reading and writing again. Returns the
/// outcome and the record.
pub fn answered(tally: &mut Tally, random: &mut Random, problem: &Problem) -> (Outcome, Vec<u8>) {
    answered_as(tally, random, problem, problem.bytes())
}

/// The same where the problem is sent as these bytes.
pub fn answered_as(tally: &mut Tally, random: &mut Random, problem: &Problem, bytes: Vec<u8>) -> (Outcome, Vec<u8>) {
    let (n, m) = (problem.n(), problem.m());
    let mut buffer = vec![0; BUFFER + random.below(20)];
    random.fill(&mut buffer);
    let noise = buffer.clone();
    // The plain boundary first: the wrapper relies on a record being there.
    let mut plain = noise.clone();
    if span::raw::solve(&bytes, &mut plain) & 255 == 0 {
        let size = paper::number(&plain[..4]) as usize + 4;
        if plain.get(..size).is_none_or(|record| paper::read_answer(record, n, m).is_err()) {
            tally.fail("the engine answered, and no record of the right form is there".into(), &bytes, &plain);
            return (Outcome::None, Vec::new());
        }
    }
    let solved = match span::solve(&bytes, &mut buffer) {
        Ok(solved) => solved,
        Err(refusal) => {
            tally.fail(format!("a good problem got {refusal}"), &bytes, &[]);
            return (Outcome::None, Vec::new());
        }
    };
    let outcome = outcome_of(solved.outcome);
    if solved.size > BUFFER {
        tally.fail(format!("a record of {} bytes", solved.size), &bytes, &buffer);
        return (outcome, Vec::new());
    }
    let record = buffer[..solved.size].to_vec();
    tally.same("the same call again", &buffer, &plain, &bytes, &record);
    tally.same("bytes after the record", &buffer[solved.size..], &noise[solved.size..], &bytes, &record);
    tally.same("trials", solved.trials as u64, paper::trials_for(outcome), &bytes, &record);
    match paper::read_answer(&record, n, m) {
        Err(refusal) => tally.fail(format!("the engine's answer is refused by {refusal}"), &bytes, &record),
        Ok(answer) => {
            tally.same("the record's outcome", answer.outcome(), outcome, &bytes, &record);
            if !second::accepted(problem, &answer) {
                tally.fail("the second checker turns the engine's answer down".into(), &bytes, &record);
            }
            tally.count(match (answer.class, answer.start) {
                (1, 0) => "least from the anchor",
                (1, _) => "least from the second list",
                (3, 0) => "none from the anchor",
                (3, _) => "none from the second list",
                _ => "bottomless from a moment",
            });
            let idle = second::plays_no_part(problem, &answer);
            if idle.iter().zip(&answer.picks).any(|(idle, pick)| *idle && *pick != 0) {
                tally.fail("a pick that plays no part is not 0".into(), &bytes, &record);
            }
        }
    }
    tally.same("the checker on the engine's answer", checked(&bytes, &record), Ok(outcome), &bytes, &record);
    match span::read(&record, n, m) {
        Err(refusal) => tally.fail(format!("the reader on the engine's answer: {refusal}"), &bytes, &record),
        Ok(fields) => {
            let mut again = noise.clone();
            let size = span::write(&fields, n, m, &mut again);
            tally.same("the size written again", size, Ok(solved.size), &bytes, &record);
            tally.same("the answer written again", &again, &buffer, &bytes, &record);
        }
    }
    tally.count(match outcome {
        Outcome::Least(_) => "least",
        Outcome::Bottomless => "bottomless",
        Outcome::None => "none",
    });
    (outcome, record)
}
