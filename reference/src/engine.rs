//! The engine: class, least span, and the answer record, by halving, by Newton's method, or by one look.
//!
//! Newton's method goes from a point to the least trial that its row strategy makes possible, and tries one below that,
//! until this is not possible. The trials of document 01 then need no work, as each one's outcome is known, and they
//! are counted as document 01 counts them.

use crate::dense::Dense;
use crate::lists::Lists;
use crate::look;
use crate::number::Number;
use crate::policy::{trial, Blocked, Picks, Rows, State};
use crate::record::{self, Answer, Problem, BLANK, BUFFER};
use crate::saver::{self, Targets};
use crate::sums::{finite, list};
use crate::{NO_PICK, ROWS, TOP, VARIABLES};

/// How the least span is looked for.
#[derive(Clone, Copy, Debug, PartialEq, Eq)]
pub enum Search {
    Halving,
    Newton,
}

/// What was written.
#[derive(Clone, Copy, Debug, PartialEq, Eq)]
pub struct Answered {
    pub class: u16,
    pub span: i32,
    pub trials: u32,
    pub size: usize,
}

/// What a search ends with.
pub(crate) enum Found {
    Least { span: i32, stamps: [i32; VARIABLES], from: Blocked, picks: Picks, trials: u32 },
    Bottomless { targets: Targets },
    None { from: Blocked, picks: Picks },
}

/// Answers a problem of one question with rows kept in one way and one search; refusals 1 to 7.
pub fn solve_by<K: Kind>(search: Search, problem: &[u8], buffer: &mut [u8]) -> Result<Answered, u8> {
    one(problem, buffer, |table, buffer| K::solve(search, table, buffer))
}

/// The same by one look.
pub fn solve_by_look(problem: &[u8], buffer: &mut [u8]) -> Result<Answered, u8> {
    one(problem, buffer, look_and_write)
}

/// Answers every question of a problem of kind 1 or 3, each answer starting where the one before ended; refusals 1 to 7 and 15.
pub fn solve_all_by<K: Kind>(search: Search, problem: &[u8], buffer: &mut [u8]) -> Result<Vec<Answered>, u8> {
    every(problem, buffer, |table, buffer| K::solve(search, table, buffer))
}

/// The same by one look at each.
pub fn solve_all_by_look(problem: &[u8], buffer: &mut [u8]) -> Result<Vec<Answered>, u8> {
    every(problem, buffer, look_and_write)
}

/// The same by Newton's method, with rows kept as each question with its rules has them.
pub fn solve_all(problem: &[u8], buffer: &mut [u8]) -> Result<Vec<Answered>, u8> {
    solve_all_by::<AsFilled>(Search::Newton, problem, buffer)
}

/// Reads a problem of one question and has it answered.
fn one(problem: &[u8], buffer: &mut [u8], solve: impl Fn(&Problem, &mut [u8]) -> Answered) -> Result<Answered, u8> {
    let mut table = Problem::new();
    record::read(record::meant(problem), &mut table)?;
    if buffer.len() < BUFFER {
        return Err(7);
    }
    Ok(solve(&table, buffer))
}

/// Reads a problem and has its questions answered in turn.
fn every(
    problem: &[u8],
    buffer: &mut [u8],
    solve: impl Fn(&Problem, &mut [u8]) -> Answered,
) -> Result<Vec<Answered>, u8> {
    let problem = record::meant(problem);
    let mut table = Problem::new();
    let layout = record::read_rules(problem, &mut table)?;
    if buffer.len() < BUFFER * layout.questions {
        return Err(7);
    }
    let mut all = Vec::with_capacity(layout.questions);
    let mut at = 0;
    for question in 0..layout.questions {
        layout.ask(problem, question, &mut table);
        let answered = solve(&table, &mut buffer[at..]);
        at += answered.size;
        all.push(answered);
    }
    Ok(all)
}

/// A way to keep rows, by name.
pub trait Kind {
    fn solve(search: Search, problem: &Problem, buffer: &mut [u8]) -> Answered;
}

/// Rows as lists of their finite coefficients.
pub struct InLists;
/// Dense rows.
pub struct InFull;
/// Lists where few coefficients are finite, dense rows else.
struct AsFilled;

impl Kind for InLists {
    fn solve(search: Search, problem: &Problem, buffer: &mut [u8]) -> Answered {
        solve_table::<Lists>(search, problem, buffer)
    }
}

impl Kind for InFull {
    fn solve(search: Search, problem: &Problem, buffer: &mut [u8]) -> Answered {
        solve_table::<Dense>(search, problem, buffer)
    }
}

impl Kind for AsFilled {
    fn solve(search: Search, problem: &Problem, buffer: &mut [u8]) -> Answered {
        let finite = |table: &[i32]| table.iter().filter(|&&coefficient| coefficient != BLANK).count();
        if 4 * (finite(&problem.left) + finite(&problem.right)) < problem.rows * problem.variables {
            InLists::solve(search, problem, buffer)
        } else {
            InFull::solve(search, problem, buffer)
        }
    }
}

fn solve_table<'a, R: Rows<'a>>(search: Search, problem: &'a Problem, buffer: &mut [u8]) -> Answered {
    let mut table = R::of(problem);
    let found = match search {
        Search::Halving => by_halving(&mut table),
        Search::Newton => by_newton(&mut table),
    };
    write(problem, found, buffer)
}

fn look_and_write(problem: &Problem, buffer: &mut [u8]) -> Answered {
    write(problem, look::find(problem), buffer)
}

/// A point from the values of a possible trial: moved so that variable 0 is at 0.
fn moved<V: Number>(values: &[V; VARIABLES]) -> [i32; VARIABLES] {
    let mut stamps = [BLANK; VARIABLES];
    for (stamp, value) in stamps.iter_mut().zip(values) {
        if !value.is_bot() {
            *stamp = value.whole() - values[0].whole();
        }
    }
    stamps
}

fn by_halving<'a, R: Rows<'a>>(table: &mut R) -> Found {
    let mut state = State::new();
    table.raise(TOP);
    if let Some(from) = trial(table, &mut state) {
        return Found::None { from, picks: state.picks };
    }
    let objective = table.rows() - 1;
    let mut point = state.clone();
    table.raise(-TOP - 1);
    let Some(mut from) = trial(table, &mut state) else {
        let mut targets = [NO_PICK; ROWS];
        table.attain(&state.values, &mut targets);
        return Found::Bottomless { targets };
    };
    let mut picks = state.picks;
    let (mut low, mut high, mut trials) = (-TOP - 1, TOP, 2);
    let mut known = own_span(table, objective, &point.values, -TOP - 1);
    while high - low > 1 {
        let middle = (high + low + 1) >> 1;
        trials += 1;
        if middle >= known {
            high = middle;
            continue;
        }
        table.raise(middle);
        state = point.clone();
        match trial(table, &mut state) {
            None => {
                high = middle;
                point = state.clone();
                known = own_span(table, objective, &point.values, middle);
            }
            Some(blocked) => {
                low = middle;
                (from, picks) = (blocked, state.picks);
            }
        }
    }
    Found::Least { span: high, stamps: moved(&point.values), from, picks, trials }
}

/// The objective value of a point, the objective being raised by t; far below where it is minus infinity.
fn own_span<'a, R: Rows<'a>>(table: &R, objective: usize, values: &[R::Value; VARIABLES], t: i32) -> i32 {
    let mut negated = [R::Value::TOP; VARIABLES];
    for (distance, value) in negated.iter_mut().zip(values) {
        if !value.is_bot() {
            *distance = R::Value::ZERO.minus(*value);
        }
    }
    let first = table.farthest(objective, &negated);
    let second = table.right_side(objective, values);
    if first.is_bot() {
        return -TOP - 1;
    }
    first.minus(second).whole() + t
}

fn by_newton<'a, R: Rows<'a>>(table: &mut R) -> Found {
    let mut state = State::new();
    table.raise(TOP);
    if let Some(from) = trial(table, &mut state) {
        return Found::None { from, picks: state.picks };
    }
    let mut targets = [NO_PICK; ROWS];
    loop {
        table.attain(&state.values, &mut targets);
        table.raise(0);
        let Some(span) = saver::least(table, &targets) else {
            return Found::Bottomless { targets };
        };
        table.raise(span - 1);
        if let Some(from) = trial(table, &mut state) {
            table.raise(span);
            let stamps = saver::point(table, &targets);
            return Found::Least { span, stamps, from, picks: state.picks, trials: trials(span) };
        }
    }
}

/// The trials that document 01's halving makes where the least span is `span`.
pub(crate) fn trials(span: i32) -> u32 {
    let (mut low, mut high, mut trials) = (-TOP - 1, TOP, 2);
    while high - low > 1 {
        let middle = (high + low + 1) >> 1;
        trials += 1;
        if middle >= span {
            high = middle;
        } else {
            low = middle;
        }
    }
    trials
}

/// The picks of variables reached from where the strategy blocks, as a record has them, and 0 for the others.
fn played(problem: &Problem, from: Blocked, picks: &Picks) -> [u16; ROWS] {
    let mut out = [0; ROWS];
    let mut reached = if from == Blocked::Anchor { 1 } else { problem.second() };
    let mut waiting = reached;
    while waiting != 0 {
        let variable = waiting.trailing_zeros() as usize;
        waiting &= waiting - 1;
        let row = picks[variable] as usize;
        out[variable] = row as u16 + 1;
        let new = finite(list(&problem.right, row)) & !reached;
        reached |= new;
        waiting |= new;
    }
    out
}

fn write(problem: &Problem, found: Found, buffer: &mut [u8]) -> Answered {
    let (variables, rows) = (problem.variables, problem.rows);
    let mut answer = Answer { class: 3, span: BLANK, start: 0, stamps: [BLANK; VARIABLES], picks: [0; ROWS] };
    let mut made = 1;
    match found {
        Found::None { from, picks } => {
            answer.start = from as u16;
            answer.picks = played(problem, from, &picks);
        }
        Found::Bottomless { targets } => {
            made = 2;
            answer.class = 2;
            answer.start = targets[rows - 1] as u16 + 1;
            let used = saver::in_use(&Lists::of(problem), &targets);
            for row in 0..rows {
                answer.picks[row] = if used[row] == NO_PICK { 0 } else { used[row] as u16 + 1 };
            }
        }
        Found::Least { span, stamps, from, picks, trials } => {
            made = trials;
            answer.class = 1;
            answer.span = span;
            answer.start = from as u16;
            answer.stamps = stamps;
            answer.picks = played(problem, from, &picks);
        }
    }
    let size = record::put(&answer, variables, rows, buffer);
    Answered { class: answer.class, span: answer.span, trials: made, size }
}
