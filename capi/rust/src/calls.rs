//! The calls over bytes and fields, by the functions of `raw`.

use crate::raw;
use crate::words::{Answer, AnswerAt, Certified, Class, Outcome, Refusal, Solved, SolvedAll};

/// An answer buffer of this many bytes is long enough for every answer; for several questions, of this many for each.
pub const ANSWER_SIZE: usize = 208;
/// The size of the longest problem of one question.
pub const PROBLEM_SIZE: usize = 16_394;
/// The size of the longest problem of one question whose rules have states, kind 5.
pub const STATES_SIZE: usize = 16_520;
/// The most questions that a problem of kind 3 puts to its rules.
pub const QUESTIONS: usize = 8;
/// The size of the longest problem of several questions.
pub const QUESTIONS_SIZE: usize = 18_188;

/// The offset of the numbers that cross the boundary: 0 is blank, `v + OFFSET` is the minute v.
const OFFSET: i64 = 1 << 31;

/// Answers a problem of one question, and writes the answer record at the start of `answer`. Bytes after the record stay. No
/// bytes are an idle day (document 02, 2.9), here and in [`solve_all`] and [`check`].
///
/// A problem of kind 5 has a state of two bytes a rule after m, 1 in force and 0 suspended (document 02, 2.10). A suspended rule keeps its
/// number, and every plan keeps it.
///
/// # Errors
///
/// Refusals 1 to 7, 17 and 20. A problem of kind 3 gets 3 here: its answers are several, and [`solve_all`] gives them. A refusal leaves
/// `answer` untouched.
///
/// ```
/// # fn leads(leads: [i32; 4]) -> impl Iterator<Item = u8> { leads.into_iter().flat_map(i32::to_le_bytes) }
/// // The moment is 30 minutes after the anchor at the earliest, and 20 at the latest. At the weekend the second rule is lifted.
/// const BLANK: i32 = i32::MIN;
/// let rows = [[30, BLANK, BLANK, 0], [BLANK, 0, 20, BLANK], [BLANK, 0, 0, BLANK]];
/// for (second, outcome) in [(1, span::Outcome::NoPlan), (0, span::Outcome::Least(30))] {
///     // Length, kind, n, m, a state a rule; the rules; the question.
///     let mut problem = vec![58, 0, 0, 0, 5, 0, 1, 0, 2, 0, 1, 0, second, 0];
///     rows.into_iter().for_each(|row| problem.extend(leads(row)));
///     let mut answer = [0; span::ANSWER_SIZE];
///     let solved = span::solve(&problem, &mut answer).unwrap();
///     assert_eq!(solved.outcome, outcome);
///     assert_eq!(span::check(&problem, &answer[..solved.size]).unwrap().outcome, outcome);
/// }
/// ```
pub fn solve(problem: &[u8], answer: &mut [u8]) -> Result<Solved, Refusal> {
    if asks_several(problem) {
        return Err(Refusal { number: 3 });
    }
    let result = raw::solve(problem, answer);
    refusal(result)?;
    let (outcome, size) = written(answer);
    Ok(Solved { outcome, trials: trials(result), size })
}

/// Answers every question of a problem (document 02, 2.1): of kind 3, with up to [`QUESTIONS`] questions over the same rules,
/// or of kind 1 or 5, with one. The answer records are written one after another, each starting where the one before ended, from
/// the start of `answers`. Bytes after the last stay. Each is the answer to the problem of kind 1 that has this question alone,
/// and [`check`] takes it with that problem.
///
/// # Errors
///
/// Refusals 1 to 7, 15, 17 and 20. For 7 count [`ANSWER_SIZE`] bytes a question. A refusal leaves `answers` untouched.
///
/// ```
/// # fn leads(leads: [i32; 4]) -> impl Iterator<Item = u8> { leads.into_iter().flat_map(i32::to_le_bytes) }
/// // One moment, and the rule that it is 30 minutes after the anchor at the earliest: anchor + 30 <= moment.
/// const BLANK: i32 = i32::MIN;
/// let rule = [30, BLANK, BLANK, 0];
/// // From the anchor to the moment; from the moment to the anchor; from nothing to the anchor.
/// let questions = [[BLANK, 0, 0, BLANK], [0, BLANK, BLANK, 0], [0, BLANK, BLANK, BLANK]];
///
/// // Length, kind, n, m, count; the rule; the questions.
/// let mut problem = vec![72, 0, 0, 0, 3, 0, 1, 0, 1, 0, 3, 0];
/// problem.extend(leads(rule));
/// for question in questions {
///     problem.extend(leads(question));
/// }
///
/// let mut answers = [0; 3 * span::ANSWER_SIZE];
/// let solved = span::solve_all(&problem, &mut answers).unwrap();
/// let outcomes = solved.answers.iter().map(|answer| answer.outcome);
/// assert!(outcomes.eq([span::Outcome::Least(30), span::Outcome::Bottomless, span::Outcome::NoPlan]));
/// assert_eq!(solved.to_string(), "least 30, bottomless, none");
///
/// // The checker takes one question: the first one alone, as a problem of kind 1, with the first answer's bytes.
/// let mut first = vec![38, 0, 0, 0, 1, 0, 1, 0, 1, 0];
/// first.extend(leads(rule));
/// first.extend(leads(questions[0]));
/// let judged = span::check(&first, &answers[solved.answers[0].bytes.clone()]).unwrap();
/// assert_eq!(judged.to_string(), "accepted least 30");
///
/// assert_eq!(span::solve_all(&problem, &mut answers[..3 * span::ANSWER_SIZE - 1]).unwrap_err().cause(), span::Cause::ShortBuffer);
/// assert_eq!(span::solve(&problem, &mut answers).unwrap_err().cause(), span::Cause::ProblemKind);
/// ```
pub fn solve_all(problem: &[u8], answers: &mut [u8]) -> Result<SolvedAll, Refusal> {
    let result = raw::solve(problem, answers);
    refusal(result)?;
    // The problem is within the layout, so a count is there where its kind is 3, and so many records were just written.
    let count = if asks_several(problem) { u16::from_le_bytes([problem[10], problem[11]]) } else { 1 };
    let mut at = 0;
    let answers = (0..count).map(|_| {
        let (outcome, size) = written(&answers[at..]);
        at += size;
        AnswerAt { outcome, bytes: at - size..at }
    });
    Ok(SolvedAll { answers: answers.collect(), trials: trials(result) })
}

/// Judges an answer to a problem. It is accepted exactly when it is of the right form and all that document 01 lists
/// for its class holds.
///
/// # Errors
///
/// Refusals 1 to 6, 17 and 20, 8 to 13, and 14 for 'not certified'.
pub fn check(problem: &[u8], answer: &[u8]) -> Result<Certified, Refusal> {
    let result = raw::check(problem, answer);
    refusal(result)?;
    Ok(Certified { outcome: outcome((result >> 8) & 255, minute(result >> 32).unwrap_or(0)) })
}

/// Reads an answer record for a problem of `n` and `m`.
///
/// # Errors
///
/// Refusals 4, and 8 to 13.
///
/// ```
/// // Example J of document 01: moment 2 - 10 <= moment 1, and the span from moment 2 to moment 1. Its least span is -10, since only
/// // plans that have moment 2 count (document 02, 2.4).
/// const BLANK: i32 = i32::MIN;
/// let mut problem = vec![54, 0, 0, 0, 1, 0, 2, 0, 1, 0];
/// for lead in [BLANK, BLANK, -10, BLANK, 0, BLANK, BLANK, 0, BLANK, BLANK, BLANK, 0] {
///     problem.extend(lead.to_le_bytes());
/// }
/// let mut buffer = [0; span::ANSWER_SIZE];
/// let solved = span::solve(&problem, &mut buffer).unwrap();
/// assert_eq!(solved.to_string(), "least -10");
///
/// // The anchor is in no row, so the table blocks from the second list: start 1.
/// let answer = span::read(&buffer[..solved.size], 2, 1).unwrap();
/// assert_eq!(answer.start(), 1);
/// assert_eq!(answer.picks(), [0, 2, 1]);
/// let mut again = [0; span::ANSWER_SIZE];
/// assert_eq!(span::write(&answer, 2, 1, &mut again), Ok(solved.size));
/// assert_eq!(again, buffer);
/// ```
pub fn read(record: &[u8], n: usize, m: usize) -> Result<Answer, Refusal> {
    let mut stamps = [0; raw::STAMPS];
    let mut picks = [0; raw::PICKS];
    let result = raw::read(record, n as u64, m as u64, &mut stamps, &mut picks);
    refusal(result)?;
    let class = Class::of((result >> 8) & 255);
    let start = (result >> 16) as u16;
    let rows = if class == Class::Bottomless { m + 1 } else { n + 1 };
    let picks = picks[..rows].iter().map(|&pick| pick as u16).collect();
    Ok(match class {
        Class::Least => Answer::Least {
            span: minute(result >> 32).unwrap_or(0),
            start,
            stamps: stamps[..n + 1].iter().map(|&stamp| minute(stamp)).collect(),
            picks,
        },
        Class::Bottomless => Answer::Bottomless { start, picks },
        Class::NoPlan => Answer::NoPlan { start, picks },
    })
}

/// Writes an answer record for a problem of `n` and `m` at the start of `buffer`, and returns its size. Bytes after
/// the record stay.
///
/// # Errors
///
/// Refusals 4, 7, and 10 to 13; `Some(i32::MIN)` is no blank, and gets 12. A refusal leaves `buffer` untouched.
///
/// ```
/// let answer = span::Answer::Least { span: 0, start: 0, stamps: vec![Some(0), Some(i32::MIN)], picks: vec![0, 0] };
/// let mut buffer = [0; span::ANSWER_SIZE];
/// assert_eq!(span::write(&answer, 1, 0, &mut buffer), Err(span::Refusal { number: 12 }));
/// ```
pub fn write(answer: &Answer, n: usize, m: usize, buffer: &mut [u8]) -> Result<usize, Refusal> {
    let span = match answer {
        Answer::Least { span, .. } => offset(Some(*span)),
        _ => offset(None),
    };
    let stamps: Vec<u64> = answer.stamps().iter().map(|&stamp| offset(stamp)).collect();
    let picks: Vec<u64> = answer.picks().iter().map(|&pick| pick as u64).collect();
    let (class, start) = (answer.class().number(), answer.start() as u64);
    let result = raw::write(class, span, start, &stamps, &picks, n as u64, m as u64, buffer);
    refusal(result)?;
    Ok((result >> 8) as usize)
}

/// Whether a problem is one of several questions: neither 1 nor 2 refuses it, and its kind is 3.
fn asks_several(problem: &[u8]) -> bool {
    let header = problem.first_chunk::<10>();
    header.is_some_and(|&[a, b, c, d, kind, high, ..]| {
        u32::from_le_bytes([a, b, c, d]) as usize == problem.len() - 4 && (kind, high) == (3, 0)
    })
}

/// The outcome and the size of a record that was just written here, so that its header is there: length, kind, n, class,
/// span, start.
fn written(record: &[u8]) -> (Outcome, usize) {
    let size = u32::from_le_bytes([record[0], record[1], record[2], record[3]]) as usize + 4;
    let span = i32::from_le_bytes([record[10], record[11], record[12], record[13]]);
    (outcome(record[8] as u64, span), size)
}

/// The trials that a result of the engine holds.
fn trials(result: u64) -> u32 {
    (result >> 8) as u32
}

/// The refusal that a result's low byte holds, if any.
pub(crate) fn refusal(result: u64) -> Result<(), Refusal> {
    match (result & 255) as u8 {
        0 => Ok(()),
        number => Err(Refusal { number }),
    }
}

fn outcome(class: u64, span: i32) -> Outcome {
    match Class::of(class) {
        Class::Least => Outcome::Least(span),
        Class::Bottomless => Outcome::Bottomless,
        Class::NoPlan => Outcome::NoPlan,
    }
}

/// The minute that an offset number stands for; blank is `None`.
pub(crate) fn minute(offset: u64) -> Option<i32> {
    match offset {
        0 => None,
        number => Some((number as i64 - OFFSET) as i32),
    }
}

/// The offset number of a minute. The minute −2³¹ has none of its own, since 0 is blank: it is handed over as the one above it, which every
/// call refuses like any other that is far beyond its limits.
pub(crate) fn offset(minute: Option<i32>) -> u64 {
    match minute {
        None => 0,
        Some(value) => (i64::from(value.max(i32::MIN + 1)) + OFFSET) as u64,
    }
}
