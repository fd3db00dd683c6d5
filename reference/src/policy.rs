//! Deciding whether a trial is possible, by policy iteration over the strategies of variables.
//!
//! Kept throughout: every closed walk of the strategy is negative. A variable's value is the longest walk from it to a
//! variable without a pick. Where no row gives a variable a lower value, the values are a point; where variable 0, or all
//! variables of the objective's second list, have none left, the strategy blocks from there (document 02, 2.4). Strategies stay
//! good at lower trials, so a trial starts from the last possible one's.

use crate::number::Number;
use crate::record::Problem;
use crate::{NO_PICK, ROWS, VARIABLES};

pub type Values<V> = [V; VARIABLES];
pub type Picks = [u8; VARIABLES];

/// A table of rows, and what the search asks of it.
pub trait Rows<'a> {
    type Value: Number;

    fn of(problem: &'a Problem) -> Self;
    fn variables(&self) -> usize;
    fn rows(&self) -> usize;
    /// Makes the objective's right coefficients those of the record plus t.
    fn raise(&mut self, t: i32);
    /// The largest of right coefficient + value.
    fn right_side(&self, row: usize, values: &Values<Self::Value>) -> Self::Value;
    /// The left coefficient of a variable that picks this row: it is finite.
    fn left(&self, row: usize, variable: usize) -> Self::Value;
    /// Picks, for each variable that some row gives a lower value, the row that gives the lowest; true where any did.
    fn improve(&self, values: &Values<Self::Value>, picks: &mut Picks) -> bool;
    /// Whether a row has a finite left coefficient of one of these variables, given as bits.
    fn meets(&self, row: usize, variables: u32) -> bool;
    /// For each row a variable that attains its right side, or `NO_PICK` where that is minus infinity.
    fn attain(&self, values: &Values<Self::Value>, targets: &mut [u8; ROWS]);
    /// The largest of left coefficient − distance over a row, for distances where TOP is 'not reached'.
    fn farthest(&self, row: usize, distances: &Values<Self::Value>) -> Self::Value;
    fn right(&self, row: usize, variable: usize) -> Self::Value;
    /// The variables of the objective's second list, as bits.
    fn second(&self) -> u32;
}

/// Where a strategy blocks from, as an answer's start has it.
#[derive(Clone, Copy, Debug, PartialEq, Eq)]
pub enum Blocked {
    /// From variable 0.
    Anchor = 0,
    /// From all variables of the second list.
    Second = 1,
}

/// A strategy and its values.
#[derive(Clone)]
pub struct State<V> {
    pub picks: Picks,
    pub values: Values<V>,
}

impl<V: Number> State<V> {
    /// No picks: every value is 0.
    pub fn new() -> Self {
        State { picks: [NO_PICK; VARIABLES], values: [V::ZERO; VARIABLES] }
    }
}

/// Where the strategy blocks from by now, if it does.
#[inline(always)]
fn blocked<V: Number>(values: &Values<V>, second: u32) -> Option<Blocked> {
    if values[0].is_bot() {
        return Some(Blocked::Anchor);
    }
    let mut bits = second;
    while bits != 0 {
        if !values[bits.trailing_zeros() as usize % VARIABLES].is_bot() {
            return None;
        }
        bits &= bits - 1;
    }
    Some(Blocked::Second)
}

/// Decides the trial to which the objective was raised, from a state that is good there: possible, or blocked.
pub fn trial<'a, R: Rows<'a>>(table: &R, state: &mut State<R::Value>) -> Option<Blocked> {
    let objective = (table.rows() - 1) as u8;
    if state.picks[..table.variables()].contains(&objective) {
        evaluate(table, state);
    }
    let second = table.second();
    loop {
        if let Some(from) = blocked(&state.values, second) {
            return Some(from);
        }
        if !table.improve(&state.values, &mut state.picks) {
            return None;
        }
        evaluate(table, state);
    }
}

/// The values of a strategy: longest walks, in rounds from below, forwards and backwards in turn. Variables that pick one
/// row share its right side.
fn evaluate<'a, R: Rows<'a>>(table: &R, state: &mut State<R::Value>) {
    let mut first = [NO_PICK; ROWS];
    let mut next = [NO_PICK; VARIABLES];
    let mut used = [0u8; VARIABLES];
    let mut count = 0;
    for variable in 0..table.variables() {
        let row = state.picks[variable];
        if row == NO_PICK {
            continue;
        }
        let row = row as usize % ROWS;
        if first[row] == NO_PICK {
            used[count] = row as u8;
            count += 1;
        }
        next[variable] = first[row];
        first[row] = variable as u8;
        state.values[variable] = R::Value::BOT;
    }
    let mut changed = true;
    while changed {
        changed = false;
        for &row in &used[..count] {
            changed |= raise_picked(table, &mut state.values, row as usize, &first, &next);
        }
        if !changed {
            return;
        }
        changed = false;
        for &row in used[..count].iter().rev() {
            changed |= raise_picked(table, &mut state.values, row as usize, &first, &next);
        }
    }
}

/// Raises the values of the variables that pick a row to what its right side gives them; true where one rose.
#[inline(always)]
fn raise_picked<'a, R: Rows<'a>>(
    table: &R,
    values: &mut Values<R::Value>,
    row: usize,
    first: &[u8; ROWS],
    next: &[u8; VARIABLES],
) -> bool {
    let side = table.right_side(row, values);
    let mut changed = false;
    let mut variable = first[row % ROWS];
    while variable != NO_PICK {
        let place = variable as usize % VARIABLES;
        let value = side.minus(table.left(row, place));
        if value > values[place] {
            values[place] = value;
            changed = true;
        }
        variable = next[place];
    }
    changed
}
