//! Records as bytes: reading a problem, reading and writing an answer, and the refusals of each.

use crate::{LARGEST, QUESTIONS, ROWS, TOP, VARIABLES};

/// Blank as it stands in a record.
pub const BLANK: i32 = i32::MIN;
/// The size that an answer buffer must have, for each question.
pub const BUFFER: usize = 208;
/// The largest size of a stamp.
pub const STAMP: i32 = 6_000_000;
/// The kind of an answer, and the size of its header.
const KIND: u16 = 4;
const HEADER: usize = 16;

/// A problem's coefficients: row i's left ones from `i * VARIABLES` on, so that every row starts at a fixed place.
/// Places beyond the problem's own hold blank. Rows start at a cache line.
#[repr(C, align(64))]
pub struct Problem {
    pub left: [i32; ROWS * VARIABLES],
    pub right: [i32; ROWS * VARIABLES],
    pub variables: usize,
    pub rows: usize,
}

pub(crate) fn two(bytes: &[u8], at: usize) -> usize {
    u16::from_le_bytes([bytes[at], bytes[at + 1]]) as usize
}

pub(crate) fn four(bytes: &[u8], at: usize) -> i32 {
    i32::from_le_bytes([bytes[at], bytes[at + 1], bytes[at + 2], bytes[at + 3]])
}

/// Where the parts of a problem stand: rules, then questions, from a place on.
#[derive(Clone, Copy)]
pub struct Layout {
    pub(crate) variables: usize,
    pub(crate) rules: usize,
    pub questions: usize,
    pub(crate) coefficients: usize,
    /// Whether the rules have states, which stand behind m.
    stated: bool,
}

/// Refusals 1 to 5 and 15, which the header decides; else the layout. The kinds are those that are known.
pub(crate) fn header(bytes: &[u8], kinds: &[usize]) -> Result<Layout, u8> {
    if bytes.len() < 10 {
        return Err(1);
    }
    if four(bytes, 0) as u32 as usize != bytes.len() - 4 {
        return Err(2);
    }
    let kind = two(bytes, 4);
    if !kinds.contains(&kind) {
        return Err(3);
    }
    let (n, m) = (two(bytes, 6), two(bytes, 8));
    if n >= VARIABLES || m >= ROWS {
        return Err(4);
    }
    let (questions, coefficients) = match kind {
        1 => (1, 10),
        5 => (1, 10 + 2 * m),
        _ if bytes.len() < 12 => return Err(5),
        _ => (two(bytes, 10), 12),
    };
    if questions == 0 || questions > QUESTIONS {
        return Err(15);
    }
    if bytes.len() != coefficients + 8 * (n + 1) * (m + questions) {
        return Err(5);
    }
    Ok(Layout { variables: n + 1, rules: m, questions, coefficients, stated: kind == 5 })
}

/// Whether all coefficients are within the limits.
fn within(bytes: &[u8]) -> bool {
    let mut outside = 0u32;
    for four in bytes.chunks_exact(4) {
        let value = i32::from_le_bytes([four[0], four[1], four[2], four[3]]);
        let far = (value > LARGEST) as u32 | (value < -LARGEST) as u32;
        outside |= far & (value != BLANK) as u32;
    }
    outside == 0
}

/// Copies coefficients from bytes.
#[inline(always)]
fn copy(bytes: &[u8], coefficients: &mut [i32]) {
    for (coefficient, four) in coefficients.iter_mut().zip(bytes.chunks_exact(4)) {
        *coefficient = i32::from_le_bytes([four[0], four[1], four[2], four[3]]);
    }
}

impl Problem {
    /// The variables with a finite coefficient in the objective's second list, as bits.
    pub fn second(&self) -> u32 {
        let list = &self.right[(self.rows - 1) * VARIABLES..][..VARIABLES];
        let finite = list.iter().enumerate().map(|(place, &coefficient)| ((coefficient != BLANK) as u32) << place);
        finite.fold(0, |bits, bit| bits | bit)
    }

    /// Room for a problem, all of it blank.
    pub fn new() -> Problem {
        Problem { variables: 0, rows: 0, left: [BLANK; ROWS * VARIABLES], right: [BLANK; ROWS * VARIABLES] }
    }
}

impl Default for Problem {
    fn default() -> Problem {
        Problem::new()
    }
}

impl Layout {
    /// Copies a row's bytes to a row of a problem.
    fn copy(self, part: &[u8], row: usize, problem: &mut Problem) {
        let (size, at) = (4 * self.variables, row * VARIABLES);
        let (left, right) = part.split_at(size);
        copy(left, &mut problem.left[at..at + self.variables]);
        copy(right, &mut problem.right[at..at + self.variables]);
    }

    /// Puts a question of the record in the objective's place.
    pub fn ask(self, bytes: &[u8], question: usize, problem: &mut Problem) {
        let size = 8 * self.variables;
        let at = self.coefficients + size * (self.rules + question);
        self.copy(&bytes[at..at + size], self.rules, problem);
    }
}

/// The idle day: n = m = 0, and both leads of the anchor 0.
const IDLE: [u8; 18] = [14, 0, 0, 0, 1, 0, 0, 0, 0, 0, 0, 0, 0, 0, 0, 0, 0, 0];

/// The record that bytes mean: no bytes mean the idle day.
pub fn meant(bytes: &[u8]) -> &[u8] {
    if bytes.is_empty() {
        &IDLE
    } else {
        bytes
    }
}

/// Reads a problem of kind 1 or 5 into room that is blank; refusals 1 to 6, 17 and 20.
pub fn read(bytes: &[u8], problem: &mut Problem) -> Result<(), u8> {
    fill(bytes, header(bytes, &[1, 5])?, problem).map(|_| ())
}

/// Reads the rules of a problem of kind 1, 3 or 5 into room that is blank, and judges the questions; refusals 1 to 6, 15,
/// 17 and 20.
pub fn read_rules(bytes: &[u8], problem: &mut Problem) -> Result<Layout, u8> {
    fill(bytes, header(bytes, &[1, 3, 5])?, problem)
}

/// Whether a left list is blank. All of it is looked at, which takes no branches.
fn silent(left: &[i32]) -> bool {
    left.iter().fold(true, |blank, &coefficient| blank & (coefficient == BLANK))
}

/// The rules go to their rows, and each question in turn to the objective's; refusals 20, 6 and 17. Suspended rules are blank.
fn fill(bytes: &[u8], layout: Layout, problem: &mut Problem) -> Result<Layout, u8> {
    let state = |rule: usize| if layout.stated { two(bytes, 10 + 2 * rule) } else { 1 };
    if (0..layout.rules).any(|rule| state(rule) > 1) {
        return Err(20);
    }
    problem.variables = layout.variables;
    problem.rows = layout.rules + 1;
    let coefficients = &bytes[layout.coefficients..];
    if !within(coefficients) {
        return Err(6);
    }
    for (row, part) in coefficients.chunks_exact(8 * layout.variables).enumerate() {
        layout.copy(part, row.min(layout.rules), problem);
    }
    if (0..layout.rules).any(|rule| silent(&problem.left[rule * VARIABLES..][..VARIABLES])) {
        return Err(17);
    }
    for rule in (0..layout.rules).filter(|&rule| state(rule) == 0) {
        problem.left[rule * VARIABLES..][..VARIABLES].fill(BLANK);
        problem.right[rule * VARIABLES..][..VARIABLES].fill(BLANK);
    }
    Ok(layout)
}

/// The fields of an answer of class 1 to 3. Only the first places are used: as many as the class has.
pub struct Answer {
    pub class: u16,
    pub span: i32,
    pub start: u16,
    pub stamps: [i32; VARIABLES],
    pub picks: [u16; ROWS],
}

/// How many stamps and picks an answer of a class has.
pub fn counts(class: u16, variables: usize, rows: usize) -> (usize, usize) {
    match class {
        1 => (variables, variables),
        2 => (0, rows),
        _ => (0, variables),
    }
}

/// The highest pick of a class.
pub fn highest(class: u16, variables: usize, rows: usize) -> usize {
    if class == 2 {
        variables
    } else {
        rows
    }
}

/// Whether a start is one of its class.
pub fn start_in_form(class: u16, start: u64, variables: usize) -> bool {
    if class == 2 {
        (1..=variables as u64).contains(&start)
    } else {
        start <= 1
    }
}

/// Whether a span has the form of its class.
pub fn span_in_form(class: u16, span: i64) -> bool {
    if class == 1 {
        -(TOP as i64) <= span && span <= TOP as i64
    } else {
        span == BLANK as i64
    }
}

/// Whether stamp number `place` has its form.
pub fn stamp_in_form(place: usize, stamp: i64) -> bool {
    if place == 0 {
        stamp == 0
    } else {
        stamp == BLANK as i64 || (-(STAMP as i64) <= stamp && stamp <= STAMP as i64)
    }
}

/// Reads an answer; refusals 8 to 13.
pub fn answer(bytes: &[u8], variables: usize, rows: usize) -> Result<Answer, u8> {
    if bytes.len() < HEADER {
        return Err(8);
    }
    if four(bytes, 0) as u32 as usize != bytes.len() - 4 {
        return Err(9);
    }
    let class = two(bytes, 8) as u16;
    let start = two(bytes, 14) as u16;
    let known = two(bytes, 4) == KIND as usize && (1..=3).contains(&class);
    if !known || !start_in_form(class, start as u64, variables) {
        return Err(10);
    }
    let (stamps, picks) = counts(class, variables, rows);
    if two(bytes, 6) + 1 != variables || bytes.len() != HEADER + 4 * stamps + 2 * picks {
        return Err(11);
    }
    let mut answer = Answer { class, span: four(bytes, 10), start, stamps: [BLANK; VARIABLES], picks: [0; ROWS] };
    if !span_in_form(class, answer.span as i64) {
        return Err(12);
    }
    for place in 0..stamps {
        let stamp = four(bytes, HEADER + 4 * place);
        if !stamp_in_form(place, stamp as i64) {
            return Err(12);
        }
        answer.stamps[place] = stamp;
    }
    let limit = highest(class, variables, rows);
    for place in 0..picks {
        let pick = two(bytes, HEADER + 4 * stamps + 2 * place);
        if pick > limit {
            return Err(13);
        }
        answer.picks[place] = pick as u16;
    }
    Ok(answer)
}

/// Writes an answer whose form is right at the start of a buffer that is long enough; its size.
pub fn put(answer: &Answer, variables: usize, rows: usize, buffer: &mut [u8]) -> usize {
    let (stamps, picks) = counts(answer.class, variables, rows);
    let size = HEADER + 4 * stamps + 2 * picks;
    let record = &mut buffer[..size];
    record[..4].copy_from_slice(&(size as u32 - 4).to_le_bytes());
    record[4..6].copy_from_slice(&KIND.to_le_bytes());
    record[6..8].copy_from_slice(&(variables as u16 - 1).to_le_bytes());
    record[8..10].copy_from_slice(&answer.class.to_le_bytes());
    record[10..14].copy_from_slice(&answer.span.to_le_bytes());
    record[14..16].copy_from_slice(&answer.start.to_le_bytes());
    let (first, second) = record[HEADER..].split_at_mut(4 * stamps);
    for (bytes, stamp) in first.chunks_exact_mut(4).zip(&answer.stamps) {
        bytes.copy_from_slice(&stamp.to_le_bytes());
    }
    for (bytes, pick) in second.chunks_exact_mut(2).zip(&answer.picks) {
        bytes.copy_from_slice(&pick.to_le_bytes());
    }
    size
}
