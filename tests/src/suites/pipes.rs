//! The span program and the verdict program on standard input, short and long.

use super::examples::{a, all, e};
use super::{expected_check, outcome_of};
use crate::generate::{self, any, changed, Shape};
use crate::paper::{self, mend_length, Outcome, Problem, BUFFER};
use crate::programs;
use crate::tally::Tally;
use random::Random;
use std::time::Duration;

/// The verdict program's cut: by the first length field, where it is whole and does not reach past the input.
pub fn cut(input: &[u8]) -> (&[u8], &[u8]) {
    if input.len() >= 4 {
        let size = paper::number(&input[..4]) + 4;
        if size <= input.len() as u64 {
            return input.split_at(size as usize);
        }
    }
    (input, &[])
}

fn verdict_line(input: &[u8]) -> String {
    let (problem, answer) = cut(input);
    match expected_check(problem, answer) {
        Ok(Outcome::Least(span)) => format!("accepted least {span}\n"),
        Ok(Outcome::Bottomless) => "accepted bottomless\n".into(),
        Ok(Outcome::None) => "accepted none\n".into(),
        Err(14) => "not certified\n".into(),
        Err(refusal) => format!("refused {refusal}\n"),
    }
}

/// The verdict program on an input.
pub fn verdict(tally: &mut Tally, input: &[u8]) {
    let expected = verdict_line(input);
    let found = programs::verdict(input).map(|output| String::from_utf8_lossy(&output).into_owned());
    tally.same("the verdict program", found, Ok(expected.clone()), input, &[]);
    let word = expected.trim_end().split(" least").next().unwrap_or("").to_string();
    tally.count(&format!("verdict {word}"));
    if input.len() > 20_000 {
        tally.count("verdicts on long inputs");
    }
}

/// Records one after another, cut by their length fields.
fn records(mut all: &[u8]) -> Vec<&[u8]> {
    let mut records = Vec::new();
    while !all.is_empty() {
        let (record, rest) = cut(all);
        records.push(record);
        all = rest;
    }
    records
}

/// The span program on an input: a line, or a record a question that the library's checker and the second one accept.
pub fn span_program(tally: &mut Tally, input: &[u8]) {
    let found = match programs::span(input) {
        Ok(found) => found,
        Err(message) => return tally.fail(message, input, &[]),
    };
    match paper::read_questions(input) {
        Err(refusal) => {
            let expected = format!("refused {refusal}\n");
            tally.same("the span program", String::from_utf8_lossy(&found).as_ref(), &expected, input, &found);
            tally.count(&format!("span refused {refusal}"));
        }
        Ok(all) => {
            let mut buffer = [0; 8 * BUFFER];
            let expected: Vec<_> = match span::solve_all(input, &mut buffer) {
                Ok(solved) => solved.answers.iter().map(|answer| Ok(outcome_of(answer.outcome))).collect(),
                Err(refusal) => vec![Err(refusal.number as u64)],
            };
            let records = records(&found);
            let inputs: Vec<Vec<u8>> = (0..all.questions.len()).map(|number| all.alone(number).bytes()).collect();
            let accepted = inputs.iter().zip(&records).map(|(alone, record)| expected_check(alone, record)).collect();
            tally.same("the span program's records", records.len(), inputs.len(), input, &found);
            tally.same("the span program's answers", accepted, expected, input, &found);
            tally.count("span answered");
            for (alone, record) in inputs.iter().zip(records) {
                verdict(tally, &[alone, record].concat());
            }
        }
    }
    if input.len() > 20_000 {
        tally.count("spans on long inputs");
    }
}

/// A problem of exactly this n and m.
fn sized(random: &mut Random, n: usize, m: usize) -> Problem {
    generate::kept(random, Shape { n, m, w: 50, filled: 2 })
}

pub fn run(tally: &mut Tally) {
    const SEED: u64 = 20_000;
    tally.seed(SEED);
    let mut random = Random::new(SEED);
    for (_, problem, _) in all() {
        span_program(tally, &problem.bytes());
    }
    let mut both = a().bytes();
    both.extend([0x12, 0, 0, 0, 4, 0, 0, 0, 1, 0, 3, 0, 0, 0, 0, 0, 0, 0, 0, 0, 1, 0]);
    tally.same("A's 40 bytes", (both.len(), verdict_line(&both).as_str()), (40, "accepted least 3\n"), &both, &[]);
    verdict(tally, &both);
    in_pieces(tally, &both);
    short_inputs(tally, &mut random, &both);
    long_inputs(tally, &mut random);
    longest_inputs(tally, &mut random);
}

/// Every program on A's bytes in two pieces with a pause, at every cut, and byte by byte: what it writes on the whole. A read that gives
/// fewer bytes than it might is no end of the input.
fn in_pieces(tally: &mut Tally, both: &[u8]) {
    let problem = &both[..a().bytes().len()];
    for program in programs::READERS {
        let input = if matches!(program.0, "span" | "convert") { problem } else { both };
        let whole = programs::in_pieces(program, &[input], Duration::ZERO);
        for cut in 1..input.len() {
            let (first, second) = input.split_at(cut);
            let found = programs::in_pieces(program, &[first, second], Duration::from_millis(10));
            tally.same("input in two pieces", found, whole.clone(), input, &[]);
        }
        let bytes: Vec<&[u8]> = input.chunks(1).collect();
        let found = programs::in_pieces(program, &bytes, Duration::from_millis(2));
        tally.same("input byte by byte", found, whole.clone(), input, &[]);
        tally.count("programs on an input in pieces");
    }
}

/// Every cut of A's bytes, problems of all sizes, answers changed in one place, damage.
fn short_inputs(tally: &mut Tally, random: &mut Random, both: &[u8]) {
    for end in 0..both.len() {
        verdict(tally, &both[..end]);
        span_program(tally, &both[..end]);
    }
    for round in 0..150 {
        let problem = if round % 10 == 0 { any(random, 31, 63) } else { any(random, 5, 6) };
        let bytes = problem.bytes();
        span_program(tally, &bytes);
        let mut buffer = [0; BUFFER];
        let size = span::solve(&bytes, &mut buffer).map_or(0, |solved| solved.size);
        if let Ok(answer) = paper::read_answer(&buffer[..size], problem.n(), problem.m()) {
            let mut input = bytes.clone();
            input.extend(changed(random, &problem, &answer).bytes(problem.n()));
            verdict(tally, &input);
        }
        let mut input = bytes.clone();
        input.extend(&buffer[..size]);
        let bad = super::bytes::harmed(random, &input);
        verdict(tally, &bad);
        span_program(tally, &bad);
    }
}

/// Inputs of 16,394 bytes and more, with a first length field of every telling value.
fn long_inputs(tally: &mut Tally, random: &mut Random) {
    let sizes = [16_394, 16_395, 16_600, 19_996, 19_999, 20_000, 20_001, 20_004, 20_500, 70_000, 150_000];
    for size in sizes {
        let mut noise = vec![0; size];
        random.fill(&mut noise);
        let fields: Vec<u64> = (0..=16)
            .chain([16_390, 16_391, 16_392, 19_995, 19_996, 19_997, 20_000])
            .chain([size as u64 - 5, size as u64 - 4, size as u64 - 3, size as u64, u32::MAX as u64])
            .collect();
        for field in fields {
            // Noise, a kind that is right, and a header that is right, behind the field.
            for header in [&[][..], &[1, 0], &[1, 0, 31, 0, 63, 0], &[1, 0, 0, 0, 0, 0]] {
                let mut input = noise.clone();
                input[..4].copy_from_slice(&(field as u32).to_le_bytes());
                input[4..4 + header.len()].copy_from_slice(header);
                verdict(tally, &input);
                span_program(tally, &input);
            }
        }
        let problems = [a(), e(), sized(random, 5, 7), sized(random, 31, 63)];
        for problem in problems {
            let good = problem.bytes();
            if good.len() <= size {
                after_a_problem(tally, random, &good, &problem, size);
            }
        }
    }
}

/// A few inputs of millions of bytes.
fn longest_inputs(tally: &mut Tally, random: &mut Random) {
    let size = 3_000_001;
    let mut input = vec![0; size];
    random.fill(&mut input);
    let good = sized(random, 31, 63).bytes();
    for (field, start) in
        [(0, &[][..]), (16, &[]), (19_996, &[1, 0, 31, 0, 63, 0]), (size - 4, &[1, 0, 31, 0, 63, 0]), (size - 3, &[])]
    {
        input[..4].copy_from_slice(&(field as u32).to_le_bytes());
        input[4..4 + start.len()].copy_from_slice(start);
        verdict(tally, &input);
        span_program(tally, &input);
    }
    input[..good.len()].copy_from_slice(&good);
    verdict(tally, &input);
    span_program(tally, &input);
}

/// A good problem, or one with a lead out of range, followed by bytes up to a size: noise, an answer header that is right
/// in all but size, and the engine's own answer with noise behind it.
fn after_a_problem(tally: &mut Tally, random: &mut Random, good: &[u8], problem: &Problem, size: usize) {
    let mut outside = good.to_vec();
    let place = 10 + 4 * random.below((good.len() - 10) / 4);
    outside[place..place + 4].copy_from_slice(&20_161i32.to_le_bytes());
    let mut buffer = [0; BUFFER];
    let written = span::solve(good, &mut buffer).map_or(0, |solved| solved.size);
    for first in [good, &outside] {
        let mut rest = vec![0; size - first.len()];
        random.fill(&mut rest);
        let mut input = first.to_vec();
        input.extend(&rest);
        verdict(tally, &input);
        span_program(tally, &input);
        if rest.len() >= 16 {
            for class in 0..=4u8 {
                for kind in [1u8, 2, 4] {
                    for off in [0i64, 1, -1] {
                        let mut tail = rest.clone();
                        mend_length(&mut tail);
                        let length = (tail.len() as i64 - 4 + off) as u32;
                        tail[..4].copy_from_slice(&length.to_le_bytes());
                        tail[4..10].copy_from_slice(&[kind, 0, problem.n() as u8, 0, class, 0]);
                        tail[14..16].copy_from_slice(&[1, 0]);
                        let mut input = first.to_vec();
                        input.extend(tail);
                        verdict(tally, &input);
                    }
                }
            }
        }
        if rest.len() >= written {
            let mut input = first.to_vec();
            input.extend(&buffer[..written]);
            verdict(tally, &input);
            input.extend(&rest[written..]);
            verdict(tally, &input);
        }
    }
}
