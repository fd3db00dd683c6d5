//! An idle day (document 02, 2.9): no bytes mean the problem with n = m = 0 and both anchor leads 0, for engine, checker and
//! programs; a read that fails is no empty input.

use super::bytes::{checker, engine, harmed};
use super::pipes::{span_program, verdict};
use super::{checked, outcome_of};
use crate::paper::{self, Outcome, Problem, Row, BUFFER};
use crate::programs::{self, Written};
use crate::tally::Tally;
use random::Random;
use std::fs::File;
use std::io::Write;
use std::os::fd::OwnedFd;
use std::os::unix::net::UnixStream;
use std::process::Stdio;

/// The problem that no bytes mean.
fn idle() -> Problem {
    Problem { rules: Vec::new(), question: Row { left: vec![Some(0)], right: vec![Some(0)] } }
}

pub fn run(tally: &mut Tally) {
    const SEED: u64 = 29;
    tally.seed(SEED);
    let mut random = Random::new(SEED);
    let record = idle().bytes();
    tally.same("the record of an idle day", record.len(), 18, &record, &[]);
    let answer = answered(tally, &mut random, &record);
    judged(tally, &mut random, &record, &answer);
    short(tally, &mut random, &record, &answer);
    piped(tally, &record, &answer);
    failed(tally);
}

/// The engine on no bytes, in buffers of every length, and on the record: the same number and the same bytes.
fn answered(tally: &mut Tally, random: &mut Random, record: &[u8]) -> Vec<u8> {
    for length in 0..=450 {
        engine(tally, random, &[], length);
        let mut buffer = vec![0; length];
        random.fill(&mut buffer);
        let mut other = buffer.clone();
        let result = span::raw::solve(&[], &mut buffer);
        tally.same("the engine on no bytes", result, span::raw::solve(record, &mut other), &[], &buffer);
        tally.same("what it writes", &buffer, &other, &[], &buffer);
        let expected = if length < BUFFER { 7 } else { 256 * paper::trials_for(Outcome::Least(0)) };
        tally.same("refusal 7, or the trials", result, expected, &[], &buffer);
    }
    let mut buffer = [0; BUFFER];
    match span::solve(&[], &mut buffer) {
        Err(refusal) => tally.fail(format!("no bytes got {refusal}"), &[], &[]),
        Ok(solved) => {
            tally.same("least 0", outcome_of(solved.outcome), Outcome::Least(0), &[], &buffer);
            tally.same("the size of the answer", solved.size, 22, &[], &buffer);
        }
    }
    let all = span::solve_all(&[], &mut buffer).map(|solved| solved.to_string()).map_err(|refusal| refusal.number);
    tally.same("all answers", all, Ok("least 0".to_string()), &[], &buffer);
    buffer[..22].to_vec()
}

/// The checker with no bytes for the problem: it accepts the engine's answer, and judges every other as with the record.
fn judged(tally: &mut Tally, random: &mut Random, record: &[u8], answer: &[u8]) {
    tally.same("the engine's answer", checked(&[], answer), Ok(Outcome::Least(0)), &[], answer);
    tally.same("an empty answer", checked(&[], &[]), Err(8), &[], &[]);
    for place in 0..answer.len() {
        for value in 0..=255 {
            let mut other = answer.to_vec();
            other[place] = value;
            checker(tally, &[], &other);
            tally.same(
                "as with the record",
                span::raw::check(&[], &other),
                span::raw::check(record, &other),
                &[],
                &other,
            );
        }
    }
    for _ in 0..5_000 {
        checker(tally, &[], &harmed(random, answer));
    }
}

/// 1 to 9 bytes, of any content, get 1.
fn short(tally: &mut Tally, random: &mut Random, record: &[u8], answer: &[u8]) {
    for size in 1..10 {
        let mut strings = vec![vec![0; size], vec![255; size], record[..size].to_vec()];
        for _ in 0..500 {
            let mut noise = vec![0; size];
            random.fill(&mut noise);
            strings.push(noise);
        }
        for (number, bytes) in strings.iter().enumerate() {
            let mut buffer = [0; BUFFER];
            tally.same("the engine on 1 to 9 bytes", span::raw::solve(bytes, &mut buffer), 1, bytes, &[]);
            tally.same("its buffer", buffer, [0; BUFFER], bytes, &buffer);
            tally.same("the checker on 1 to 9 bytes", checked(bytes, answer), Err(1), bytes, answer);
            if number < 20 {
                let line = programs::span(bytes);
                tally.same("the span program on 1 to 9 bytes", line, Ok(b"refused 1\n".to_vec()), bytes, &[]);
                verdict(tally, bytes);
            }
            tally.count("strings of 1 to 9 bytes");
        }
    }
}

/// Both programs on no input, and the verdict program on what belongs to it.
fn piped(tally: &mut Tally, record: &[u8], answer: &[u8]) {
    tally.same("the span program on no input", programs::span(&[]), Ok(answer.to_vec()), &[], answer);
    tally.same("the verdict program on no input", programs::verdict(&[]), Ok(b"refused 8\n".to_vec()), &[], &[]);
    span_program(tally, &[]);
    for input in [&[][..], record, answer, &[record, answer].concat()] {
        verdict(tally, input);
    }
    let both = [record, answer].concat();
    tally.same("the record and its answer", programs::verdict(&both), Ok(b"accepted least 0\n".to_vec()), &both, &[]);
}

/// An input that gives these bytes, and then neither more nor its end.
fn unready(bytes: &[u8]) -> (UnixStream, Stdio) {
    let (mut near, far) = UnixStream::pair().expect("a pair of sockets");
    near.write_all(bytes).expect("bytes into a socket");
    far.set_nonblocking(true).expect("a socket that does not wait");
    (near, OwnedFd::from(far).into())
}

/// A read that fails is no end of the input: nothing on standard output, a line on standard error. Nor is a write that fails
/// silent.
fn failed(tally: &mut Tally) {
    let a = super::examples::a().bytes();
    let mut ends = Vec::new();
    let directory = || File::open(programs::repository()).expect("the repository").into();
    quiet(tally, "a directory", programs::both_with(directory, ""));
    for bytes in [&[][..], &a, &a[..9], &[0; 30_000]] {
        let kept = std::cell::RefCell::new(&mut ends);
        let input = || {
            let (near, far) = unready(bytes);
            kept.borrow_mut().push(near);
            far
        };
        quiet(tally, "an input that is not ready", programs::both_with(input, ""));
    }
    // The unproved stand-in cannot be tried so: Rust opens what is closed when a program starts.
    if !cfg!(feature = "stand-in") {
        quiet(tally, "a closed input", programs::both_with(Stdio::null, "<&-"));
    }
    quiet(tally, "a full device", programs::both_with(Stdio::null, "> /dev/full"));
}

fn quiet(tally: &mut Tally, what: &str, both: Result<[Written; 2], String>) {
    match both {
        Err(message) => tally.fail(message, &[], &[]),
        Ok(both) => {
            for (output, error) in both {
                tally.same(&format!("standard output, {what}"), output, Vec::new(), &[], &error);
                let line = error.ends_with(b"\n") && error.len() > 1;
                tally.same(&format!("a line on standard error, {what}"), line, true, &[], &error);
                tally.count(&format!("failures, {what}"));
            }
        }
    }
}
