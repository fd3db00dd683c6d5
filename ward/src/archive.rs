//! The calls into the proved archive. Records are answered and judged there, and hours and opening hours are read there.

use span::{Outcome, Refusal};
use ward_reader::clock::Window;
use ward_reader::record;
use ward_reader::sheet::Row;
use ward_reader::Clock;

use crate::error::Error;
use crate::times;

/// What the reader asks of others, by the archive.
pub fn clock() -> Clock {
    Clock { read: |text| span::read_hours(text.as_bytes()).ok().flatten(), write: hours, earliest: Some(earliest) }
}

/// How early each moment beside the anchor can be under some rules, where something holds it. Rules that the archive refuses hold
/// nothing: they are told elsewhere.
fn earliest(rules: &[&Row], count: usize) -> Vec<Option<i32>> {
    let questions: Vec<Row> = (1..count).map(|moment| times::earliest(moment, count)).collect();
    let bound = |outcome: Outcome| match outcome {
        Outcome::Least(minute) => Some(minute),
        Outcome::Bottomless => None,
        // No plan keeps the rules, whatever is added.
        Outcome::NoPlan => Some(0),
    };
    match ask(rules, &questions) {
        Ok(outcomes) => outcomes.into_iter().map(bound).collect(),
        Err(_) => vec![None; count.saturating_sub(1)],
    }
}

/// Minutes as hours and minutes; far beyond every stamp, as a number.
pub fn hours(minutes: i32) -> String {
    let mut text = [0; span::TEXT_SIZE];
    match span::write_hours(Some(minutes), &mut text) {
        Ok(size) => String::from_utf8_lossy(&text[..size]).into_owned(),
        Err(_) => format!("{minutes} minutes"),
    }
}

/// Why the archive does not take a problem. Nothing is solved: without a buffer the last refusal, 7, is all that is left to
/// give to a problem within the layout.
pub fn refusal(problem: &[u8]) -> Option<Refusal> {
    span::solve_all(problem, &mut []).err().filter(|refusal| refusal.number != 7)
}

/// The engine's answer records, one a question.
pub fn answers(problem: &[u8]) -> Result<Vec<Vec<u8>>, Refusal> {
    let mut buffer = [0; span::QUESTIONS * span::ANSWER_SIZE];
    let solved = span::solve_all(problem, &mut buffer)?;
    Ok(solved.answers.into_iter().map(|answer| buffer[answer.bytes].to_vec()).collect())
}

/// The outcomes of more questions over some rules, eight to a record. The checker judges every answer, and one that it does
/// not accept is a fault.
pub fn ask(rules: &[&Row], questions: &[Row]) -> Result<Vec<Outcome>, Error> {
    let mut outcomes = Vec::new();
    for part in questions.chunks(span::QUESTIONS) {
        let part: Vec<&Row> = part.iter().collect();
        let answers = answers(&record::several(rules, &part)).map_err(Error::Refused)?;
        for (question, answer) in part.into_iter().zip(answers) {
            let judged = span::check(&record::one(rules, question), &answer);
            outcomes.push(judged.map_err(Error::NotAccepted)?.outcome);
        }
    }
    Ok(outcomes)
}

/// The windows as the archive takes them.
pub fn week(windows: &[Window]) -> Vec<span::Window> {
    windows.iter().map(|window| span::Window { opening: window.opening, closing: window.closing }).collect()
}

/// The first window that the archive does not take after those before it.
pub fn wrong_window(windows: &[Window]) -> Option<&Window> {
    let week = week(windows);
    (1..=windows.len()).find(|&count| span::first_open(&week[..count], 0).is_err()).map(|count| &windows[count - 1])
}
