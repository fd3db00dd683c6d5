//! Problem records of a sheet (documents 01 and 02), and a sheet of a record.

use crate::remark::Place;
use crate::sheet::{Form, Lead, Moment, Origin, Question, Row, Sheet};

/// How a record writes blank.
const BLANK: i32 = i32::MIN;

/// The records that are sent for a sheet: one of kind 1 for one span, one of kind 3 for several; with suspended rules one of
/// kind 5 a span. A text can ask for kind 3 or 5 where it need not be. An idle day has no bytes.
pub fn sent(sheet: &Sheet) -> Vec<Vec<u8>> {
    let all = 0..sheet.questions.len();
    let counted = sheet.form == Form::Counted || sheet.questions.len() > 1 && sheet.form == Form::Short;
    if sheet.idle || sheet.has_suspended() || !counted {
        return all.map(|question| alone(sheet, question)).collect();
    }
    let questions: Vec<&Row> = sheet.questions.iter().map(|question| &question.row).collect();
    let rules: Vec<&Row> = sheet.rules.iter().collect();
    vec![several(&rules, &questions)]
}

/// The record that has one of the spans alone, which the checker takes.
pub fn alone(sheet: &Sheet, question: usize) -> Vec<u8> {
    let question = &sheet.questions[question].row;
    let rules: Vec<&Row> = sheet.rules.iter().collect();
    match (sheet.idle, sheet.has_suspended() || sheet.form == Form::States) {
        (true, _) => Vec::new(),
        (_, true) => with_states(&rules, question),
        _ => one(&rules, question),
    }
}

/// Kind 1: rules that are all in force, and a question.
pub fn one(rules: &[&Row], question: &Row) -> Vec<u8> {
    let n = question.left.len() - 1;
    record(1, &[n, rules.len()], rules.iter().copied().chain([question]))
}

/// Kind 3: rules that are all in force, and several questions over them.
pub fn several(rules: &[&Row], questions: &[&Row]) -> Vec<u8> {
    let n = questions[0].left.len() - 1;
    record(3, &[n, rules.len(), questions.len()], rules.iter().chain(questions).copied())
}

/// Kind 5: rules with their states, 1 in force and 0 suspended (document 02, 2.10), and a question.
fn with_states(rules: &[&Row], question: &Row) -> Vec<u8> {
    let mut numbers = vec![question.left.len() - 1, rules.len()];
    numbers.extend(rules.iter().map(|rule| rule.in_force as usize));
    record(5, &numbers, rules.iter().copied().chain([question]))
}

/// Its length, its kind, numbers of two bytes, and rows.
fn record<'a>(kind: u16, numbers: &[usize], rows: impl Iterator<Item = &'a Row>) -> Vec<u8> {
    let mut bytes = vec![0; 4];
    bytes.extend(kind.to_le_bytes());
    bytes.extend(numbers.iter().flat_map(|&number| (number as u16).to_le_bytes()));
    for lead in rows.flat_map(|row| row.left.iter().chain(&row.right)) {
        bytes.extend(lead.unwrap_or(BLANK).to_le_bytes());
    }
    let length = bytes.len() as u32 - 4;
    bytes[..4].copy_from_slice(&length.to_le_bytes());
    bytes
}

/// The sheet of a record that the archive takes, with made-up names m1, m2 and on. It judges nothing: `None` is for bytes
/// that the archive refuses.
pub fn sheet(bytes: &[u8]) -> Option<Sheet> {
    if bytes.is_empty() {
        return Some(Sheet::idle());
    }
    let two = |place: usize| Some(u16::from_le_bytes(*bytes.get(place..)?.first_chunk()?) as usize);
    let (kind, n, m) = (two(4)?, two(6)?, two(8)?);
    let (rows_at, questions) = match kind {
        1 => (10, 1),
        3 => (12, two(10)?),
        5 => (10 + 2 * m, 1),
        _ => return None,
    };
    let place = Place { line: 1, column: 1, width: 1 };
    let lead = |place: usize| -> Option<Lead> {
        let value = i32::from_le_bytes(*bytes.get(place..)?.first_chunk()?);
        Some(Some(value).filter(|&value| value != BLANK))
    };
    let side = |row: usize, half: usize| -> Option<Vec<Lead>> {
        (0..=n).map(|j| lead(rows_at + 4 * ((2 * row + half) * (n + 1) + j))).collect()
    };
    let row = |number: usize, in_force: bool| {
        let (left, right) = (side(number, 0)?, side(number, 1)?);
        Some(Row { place, text: String::new(), left, right, in_force, origin: Origin::Line })
    };
    let mut sheet = Sheet::new();
    sheet.moments.extend((1..=n).map(|number| Moment { name: format!("m{number}"), place }));
    for number in 0..m {
        sheet.rules.push(row(number, kind != 5 || two(10 + 2 * number)? == 1)?);
    }
    for number in m..m + questions {
        sheet.questions.push(Question { row: row(number, true)?, expected: None });
    }
    sheet.form = match kind {
        3 if questions == 1 => Form::Counted,
        5 if !sheet.has_suspended() => Form::States,
        _ => Form::Short,
    };
    Some(sheet)
}

/// The sheet of one record, or of several that are sent for one text: those of its spans, over the same rules. `None` where no text
/// gives them.
pub fn joined(records: &[&[u8]]) -> Option<Sheet> {
    let mut sheets: Vec<Sheet> = records.iter().map(|bytes| sheet(bytes)).collect::<Option<_>>()?;
    let questions: Vec<Question> = sheets.iter().flat_map(|sheet| sheet.questions.clone()).collect();
    let sheet = Sheet { questions, ..sheets.swap_remove(0) };
    let same = sheets.iter().all(|other| other.rules == sheet.rules && other.moments.len() == sheet.moments.len());
    (same && (records.len() == 1 || sent(&sheet) == records)).then_some(sheet)
}

/// Bytes as document 01 shows them.
pub fn hex(bytes: &[u8]) -> String {
    bytes.iter().map(|byte| format!("{byte:02X}")).collect()
}
