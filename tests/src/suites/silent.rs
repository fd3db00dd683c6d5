//! Rules that say nothing (document 02, 2.6): refusal 17 in the engine and the checker, and the converter, byte for byte.

use super::bytes::{self, harmed, seen};
use super::small::every_problem;
use super::{answered, expected_check};
use crate::exhaustive;
use crate::generate::{any, any_questions};
use crate::paper::{self, mend_length, Problem, Questions, Row, BUFFER};
use crate::programs;
use crate::tally::Tally;
use random::Random;

/// The converter on any bytes and a buffer of any length, which held noise: the refusal and nothing written, or the record and nothing
/// written after it.
fn converter(tally: &mut Tally, random: &mut Random, stored: &[u8], length: usize) {
    let mut buffer = vec![0; length];
    random.fill(&mut buffer);
    let mut expected = buffer.clone();
    let record = paper::converted(stored, length);
    let number = match &record {
        Ok(record) => {
            expected[..record.len()].copy_from_slice(record);
            256 * record.len() as u64
        }
        Err(refusal) => *refusal,
    };
    tally.same("the converter's result", span::raw::convert(stored, &mut buffer), number, stored, &[]);
    tally.same("every byte of the buffer", &buffer, &expected, stored, &buffer);
    tally.count(&format!("converted {}", record.err().unwrap_or(0)));
}

/// A record that is not refused: buffers around its size, converting again, and 17 exactly where rules were dropped.
fn good(tally: &mut Tally, random: &mut Random, stored: &[u8]) {
    let record = paper::converted(stored, usize::MAX).expect("a record that is not refused");
    for length in [0, record.len() - 1, record.len(), record.len() + 1, stored.len()] {
        converter(tally, random, stored, length);
    }
    converter(tally, random, &record, record.len());
    tally.same("converting again", paper::converted(&record, record.len()), Ok(record.clone()), stored, &record);
    let (dropped, several) = (record.len() < stored.len(), paper::number(&stored[4..6]) == 3);
    let mut buffer = [0; 8 * BUFFER];
    let refusal = span::raw::solve(stored, &mut buffer) & 255;
    tally.same("17 where rules are dropped", refusal, if dropped { 17 } else { 0 }, stored, &record);
    tally.same("no 17 afterwards", span::raw::solve(&record, &mut buffer) & 255, 0, stored, &record);
    if !several {
        bytes::checker(tally, stored, &buffer[..22]);
        tally.same("the checker's 17", expected_check(stored, &[]) == Err(17), dropped, stored, &[]);
    }
    tally.count(if dropped { "with a rule that says nothing" } else { "with none" });
}

/// The rules with some left lists blank: none, one, some or all.
fn silenced(random: &mut Random, rules: &mut [Row]) {
    let how = random.below(4);
    let one = random.below(rules.len().max(1));
    for (number, rule) in rules.iter_mut().enumerate() {
        let silent = match how {
            0 => false,
            1 => number == one,
            2 => random.chance(1, 2),
            _ => true,
        };
        if silent {
            rule.left.fill(None);
        }
    }
}

/// Every small problem, of kind 1 and of kind 3: class and span by every plan before, by the engine afterwards.
fn small(tally: &mut Tally, random: &mut Random) {
    for (n, m, w) in [(0, 0, 3), (0, 1, 1), (0, 2, 1), (1, 1, 0), (1, 2, 0)] {
        every_problem(n, m, w, |problem| {
            let stored = problem.bytes();
            good(tally, random, &stored);
            let record = paper::converted(&stored, usize::MAX).expect("not refused");
            let all = paper::read_questions(&record).expect("a record that the engine takes");
            let (found, answer) = answered(tally, random, &all.alone(0));
            tally.same("class and span before and after", found, exhaustive::solve(problem, w), &stored, &answer);
            let questions = vec![problem.question.clone(); 1 + random.below(8)];
            good(tally, random, &Questions { rules: problem.rules.clone(), questions }.bytes());
        });
    }
}

/// All sizes and counts, with blank left lists in every place; damaged ones too.
fn large(tally: &mut Tally, random: &mut Random) {
    for round in 0..4_000 {
        let (n, m) = if round % 8 == 0 { (31, 63) } else { (5, 7) };
        let stored = if round % 2 == 0 {
            let mut problem: Problem = any(random, n, m);
            silenced(random, &mut problem.rules);
            problem.bytes()
        } else {
            let count = 1 + random.below(8);
            let mut all = any_questions(random, n, m, count);
            silenced(random, &mut all.rules);
            all.bytes()
        };
        good(tally, random, &stored);
        let bad = harmed(random, &stored);
        let length = [0, bad.len() / 2, bad.len(), bad.len() + 20][random.below(4)];
        converter(tally, random, &bad, length);
        bytes::engine(tally, random, &bad, 8 * BUFFER);
        if round % 40 == 0 {
            program(tally, &stored);
            program(tally, &bad);
        }
    }
}

/// 6 is given before 17, also by a lead of the last question; 17 before 7; and every row in turn says nothing.
fn orders(tally: &mut Tally, random: &mut Random) {
    for m in [1, 2, 5, 63] {
        let question = Row { left: vec![None; 3], right: vec![Some(0); 3] };
        let line = Row { left: vec![None, Some(1), None], right: vec![None; 3] };
        for silent in 0..m {
            let mut rules = vec![line.clone(); m];
            rules[silent].left.fill(None);
            let stored = Problem { rules, question: question.clone() }.bytes();
            good(tally, random, &stored);
            bytes::engine(tally, random, &stored, BUFFER - 1);
            let mut outside = stored.clone();
            let last = outside.len() - 4;
            outside[last..].copy_from_slice(&10_000_000i32.to_le_bytes());
            bytes::engine(tally, random, &outside, BUFFER);
            converter(tally, random, &outside, stored.len());
            tally.same("6 before 17", paper::read_questions(&outside), Err(6), &outside, &[]);
        }
    }
    for length in 0..12 {
        let mut short = vec![0; length];
        if length >= 6 {
            mend_length(&mut short);
            short[4] = 3;
        }
        converter(tally, random, &short, 40);
    }
}

/// The convert program on an input.
fn program(tally: &mut Tally, input: &[u8]) {
    let expected = match paper::converted(input, usize::MAX) {
        Ok(record) => record,
        Err(refusal) => format!("refused {refusal}\n").into_bytes(),
    };
    tally.same("the convert program", programs::convert(input), Ok(expected), input, &[]);
    tally.count("through the convert program");
}

/// Short and long inputs, the largest record among them.
fn piped(tally: &mut Tally, random: &mut Random) {
    let all = any_questions(random, 0, 0, 2).bytes();
    for end in 0..=all.len() {
        program(tally, &all[..end]);
    }
    let line = Row { left: vec![Some(1); 32], right: vec![None; 32] };
    for silent in [None, Some(0), Some(62)] {
        let mut rules = vec![line.clone(); 63];
        if let Some(number) = silent {
            rules[number].left.fill(None);
        }
        let questions = vec![line.clone(); 8];
        let stored = Questions { rules, questions }.bytes();
        tally.same("the largest record", stored.len(), 18_188, &[], &[]);
        program(tally, &stored);
        for size in [18_189, 19_999, 20_000, 20_001, 100_000] {
            let mut long = stored.clone();
            long.resize(size, 0);
            program(tally, &long);
            mend_length(&mut long);
            program(tally, &long);
        }
    }
}

pub fn run(tally: &mut Tally) {
    const SEED: u64 = 17;
    tally.seed(SEED);
    let mut random = Random::new(SEED);
    small(tally, &mut random);
    large(tally, &mut random);
    orders(tally, &mut random);
    piped(tally, &mut random);
    for what in ["converted 0", "converted 6", "converted 7", "with a rule that says nothing", "with none", "engine 17"]
    {
        seen(tally, what);
    }
}
