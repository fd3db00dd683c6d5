//! The functions of `capi/span.h` over slices, answered by the unproved engine and checker. The package `stand-in` of
//! tests/ is over them.

use crate::census;
use crate::checker;
use crate::converter;
use crate::engine::solve_all;
use crate::hours;
use crate::merger;
use crate::reasons;
use crate::record::{self, Answer, BLANK, BUFFER};
use crate::{ROWS, VARIABLES};

const OFFSET: i64 = 1 << 31;

/// The result for a class and a span of a record.
fn class_and_span(class: u16, span: i32) -> u64 {
    256 * class as u64 + ((span as i64 + OFFSET) as u64) * (1 << 32)
}

/// 256 × the trials of all questions + refusal.
pub fn solve(problem: &[u8], answers: &mut [u8]) -> u64 {
    match solve_all(problem, answers) {
        Ok(all) => all.iter().map(|answered| 256 * answered.trials as u64).sum(),
        Err(number) => number as u64,
    }
}

/// The refusal, or 256 × the size of the converted record.
pub fn convert(stored: &[u8], buffer: &mut [u8]) -> u64 {
    match converter::convert(stored, buffer) {
        Ok(size) => 256 * size as u64,
        Err(number) => number as u64,
    }
}

/// The refusal, or 256 × the bytes of the merged stamps.
pub fn merge(problem: &[u8], first: &[u8], second: &[u8], shift: i64, buffer: &mut [u8]) -> u64 {
    match merger::merge(problem, first, second, shift, buffer) {
        Ok(size) => 256 * size as u64,
        Err(number) => number as u64,
    }
}

/// The refusal, 255 where fewer than four places are lent, or 0 with the counts in the first four.
pub fn census(n: u64, m: u64, w: u64, counts: &mut [u64]) -> u64 {
    match census::census(n, m, w) {
        Err(number) => number as u64,
        Ok(_) if counts.len() < 4 => 255,
        Ok(found) => {
            counts[..4].copy_from_slice(&found);
            0
        }
    }
}

/// The refusal, or 256 × class + 2³² × the span's offset number.
pub fn check(problem: &[u8], answer: &[u8]) -> u64 {
    match checker::check(problem, answer) {
        Ok(accepted) => class_and_span(accepted.class, accepted.span),
        Err(number) => number as u64,
    }
}

/// The refusal, 255 where fewer than 64 places for rules and 32 for the round are lent, or 256 × the count of rules + 2¹⁶ × that of
/// the round's moments, with both in the first places.
pub fn reasons(problem: &[u8], answer: &[u8], rules: &mut [u64], round: &mut [u64]) -> u64 {
    match reasons::reasons(problem, answer) {
        Err(number) => number as u64,
        Ok(_) if rules.len() < ROWS || round.len() < VARIABLES => 255,
        Ok(found) => {
            rules[..found.rules.len()].copy_from_slice(&found.rules);
            round[..found.round.len()].copy_from_slice(&found.round);
            256 * found.rules.len() as u64 + ((found.round.len() as u64) << 16)
        }
    }
}

/// The refusal, or 256 × class + 2¹⁶ × start + 2³² × the span's offset number, with stamps and picks in the first places.
pub fn read(bytes: &[u8], n: u64, m: u64, stamps: &mut [u64], picks: &mut [u64]) -> u64 {
    if n >= VARIABLES as u64 || m >= ROWS as u64 {
        return 4;
    }
    let (variables, rows) = (n as usize + 1, m as usize + 1);
    match record::answer(bytes, variables, rows) {
        Err(number) => number as u64,
        Ok(_) if stamps.len() < VARIABLES || picks.len() < ROWS => 255,
        Ok(answer) => {
            let (first, second) = record::counts(answer.class, variables, rows);
            stamps[..VARIABLES].fill(0);
            picks[..ROWS].fill(0);
            for place in 0..first {
                stamps[place] = (answer.stamps[place] as i64 + OFFSET) as u64;
            }
            for place in 0..second {
                picks[place] = answer.picks[place] as u64;
            }
            class_and_span(answer.class, answer.span) + ((answer.start as u64) << 16)
        }
    }
}

/// The refusal, or 256 × the record's size.
#[allow(clippy::too_many_arguments)]
pub fn write(
    class: u64,
    span: u64,
    start: u64,
    stamps: &[u64],
    picks: &[u64],
    n: u64,
    m: u64,
    buffer: &mut [u8],
) -> u64 {
    if n >= VARIABLES as u64 || m >= ROWS as u64 {
        return 4;
    }
    if buffer.len() < BUFFER {
        return 7;
    }
    let (variables, rows) = (n as usize + 1, m as usize + 1);
    if !(1..=3).contains(&class) || !record::start_in_form(class as u16, start, variables) {
        return 10;
    }
    let class = class as u16;
    if (stamps.len(), picks.len()) != record::counts(class, variables, rows) {
        return 11;
    }
    let minute = |offset: u64| i64::try_from(offset).map_or(i64::MAX, |number| number - OFFSET);
    let mut answer = Answer { class, span: BLANK, start: start as u16, stamps: [BLANK; VARIABLES], picks: [0; ROWS] };
    if !record::span_in_form(class, minute(span)) {
        return 12;
    }
    answer.span = minute(span) as i32;
    for (place, &stamp) in stamps.iter().enumerate() {
        if !record::stamp_in_form(place, minute(stamp)) {
            return 12;
        }
        answer.stamps[place] = minute(stamp) as i32;
    }
    for (place, &pick) in picks.iter().enumerate() {
        if pick > record::highest(class, variables, rows) as u64 {
            return 13;
        }
        answer.picks[place] = pick as u16;
    }
    256 * record::put(&answer, variables, rows, buffer) as u64
}

/// 18, or 2³² × the value's offset number.
pub fn hours_read(text: &[u8]) -> u64 {
    match hours::value(text) {
        None => 18,
        Some(None) => 0,
        Some(Some(minutes)) => ((minutes + OFFSET) as u64) << 32,
    }
}

/// 18, or 256 × the text's size.
pub fn hours_write(value: u64, buffer: &mut [u8]) -> u64 {
    let minutes = (value != 0).then(|| i64::try_from(value).map_or(i64::MAX, |number| number - OFFSET));
    match hours::text(minutes) {
        Some(text) if buffer.len() >= 10 => {
            buffer[..text.len()].copy_from_slice(text.as_bytes());
            256 * text.len() as u64
        }
        _ => 18,
    }
}

/// 255 where a list has fewer than `count` bytes, 256 where the first `count` differ in some byte, 0 where they do not.
pub fn marks_differ(before: &[u8], after: &[u8], count: u64) -> u64 {
    let count = count as usize;
    match (before.get(..count), after.get(..count)) {
        (Some(before), Some(after)) => 256 * (before != after) as u64,
        _ => 255,
    }
}
