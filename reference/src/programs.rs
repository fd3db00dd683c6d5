//! What the span, the verdict, the convert and the reasons program write for an input, and the census program for words, without proofs.

use crate::census;
use crate::checker;
use crate::converter;
use crate::engine::solve_all;
use crate::reasons;
use crate::record::BUFFER;
use crate::QUESTIONS;

/// The answer record of each question, or a line with the refusal.
pub fn span(input: &[u8]) -> Vec<u8> {
    let mut buffer = [0; BUFFER * QUESTIONS];
    match solve_all(input, &mut buffer) {
        Ok(all) => buffer[..all.iter().map(|answered| answered.size).sum()].to_vec(),
        Err(number) => format!("refused {number}\n").into_bytes(),
    }
}

/// The converted record, or a line with the refusal.
pub fn convert(input: &[u8]) -> Vec<u8> {
    let mut buffer = vec![0; input.len()];
    match converter::convert(input, &mut buffer) {
        Ok(size) => buffer[..size].to_vec(),
        Err(number) => format!("refused {number}\n").into_bytes(),
    }
}

/// A problem and the answer that follows it, cut by the first length field.
fn cut(input: &[u8]) -> (&[u8], &[u8]) {
    let size = match input.first_chunk::<4>() {
        Some(field) => u32::from_le_bytes(*field) as usize + 4,
        None => usize::MAX,
    };
    if size <= input.len() {
        input.split_at(size)
    } else {
        (input, &[])
    }
}

/// One line: the checker's verdict on a problem followed by an answer.
pub fn verdict(input: &[u8]) -> Vec<u8> {
    let (problem, answer) = cut(input);
    let line = match checker::check(problem, answer) {
        Ok(accepted) if accepted.class == 1 => format!("accepted least {}", accepted.span),
        Ok(accepted) if accepted.class == 2 => "accepted bottomless".into(),
        Ok(_) => "accepted none".into(),
        Err(14) => "not certified".into(),
        Err(number) => format!("refused {number}"),
    };
    (line + "\n").into_bytes()
}

/// The line of a census, or the handbook's table without words; then what goes to standard error.
pub fn census(words: &[String]) -> (String, &'static str) {
    let numbers: Vec<u64> = words.iter().filter_map(|word| number(word)).collect();
    match (words.len(), &numbers[..]) {
        (0, _) => (census::table(), ""),
        (3, [n, m, w]) => (census::line(*n, *m, *w), ""),
        _ => (String::new(), "census: give n, m and w, or no words\n"),
    }
}

/// A word of digits; a number beyond 64 bits is as large as any.
fn number(word: &str) -> Option<u64> {
    let digits = !word.is_empty() && word.bytes().all(|byte| byte.is_ascii_digit());
    digits.then(|| word.parse().unwrap_or(u64::MAX))
}

/// The rules behind an answer and the binding round, a line each.
pub fn reasons(input: &[u8]) -> Vec<u8> {
    let (problem, answer) = cut(input);
    let line = |word: &str, numbers: &[u64]| {
        numbers.iter().fold(word.to_string(), |line, number| format!("{line} {number}")) + "\n"
    };
    let lines = match reasons::reasons(problem, answer) {
        Ok(found) if found.round.is_empty() => line("rules", &found.rules),
        Ok(found) => line("rules", &found.rules) + &line("round", &found.round),
        Err(14) => "not certified\n".into(),
        Err(number) => format!("refused {number}\n"),
    };
    lines.into_bytes()
}
