//! Policy iteration whose values fall in place.
//!
//! Kept throughout: every closed walk of the strategy is negative, and what a picked row gives its variable is at most the
//! variable's value. A pass over the rows lowers the variables of each row that fails, at once, and they pick it. A pass
//! that lowers nothing is the end: the values are then those of the strategy. In between they are made exact, so that
//! nothing creeps. A variable without a pick has its cap.

use crate::sums::{given, Point, Table, BLANK_SIDE};
use crate::VARIABLES;

/// A row for each variable; from the count of rows on it is none.
pub type Picks = [i32; VARIABLES];

/// Values and a strategy, each at the start of a cache line: times then do not hang on where the stack happens to be.
#[derive(Clone, Copy)]
#[repr(C, align(64))]
pub struct State {
    pub point: Point,
    pub picks: Picks,
}

impl State {
    /// No picks, by a number that stands for none: every value is its cap.
    pub fn new(caps: &Point, none: i32) -> State {
        State { point: *caps, picks: [none; VARIABLES] }
    }
}

/// How many passes are made before the values are made exact, the first time and later; fewer where as many rows failed as
/// in the pass before.
pub type Passes = [usize; 2];

/// Policy iteration from a state that is good, until no row fails or variable 0 has no value left.
pub fn iterate(table: Table, caps: &Point, mut state: State, [first, later]: Passes) -> State {
    let mut passes = first;
    loop {
        let mut before = u32::MAX;
        for _ in 0..passes {
            let failed = pass(table, &mut state);
            if failed == 0 {
                return state;
            }
            if before <= failed {
                break;
            }
            before = failed;
        }
        evaluate(table, caps, &mut state);
        if state.point[0] == 0 {
            return state;
        }
        passes = later;
    }
}

/// A pass over the rows; how many failed.
#[inline(never)]
fn pass(table: Table, state: &mut State) -> u32 {
    let mut failed = 0;
    for row in 0..table.rows {
        let side = table.right_side(row, &state.point);
        if table.left_above(row, &state.point, side) {
            failed += 1;
            lower(table, row, side, state);
        }
    }
    failed
}

/// Lowers the variables at which a row with this right side fails, and has them pick it.
#[inline(always)]
fn lower(table: Table, row: usize, side: i32, state: &mut State) {
    let left = table.left(row);
    if let Some([first, last]) = table.left_ends(row) {
        lower_place(left, row, side, first, state);
        lower_place(left, row, side, last, state);
        return;
    }
    // All bits, or none where the right side is blank: then no value is left.
    let mask = -((side != BLANK_SIDE) as i32);
    for place in 0..VARIABLES {
        let value = state.point[place];
        let fails = left[place] + value > side;
        state.picks[place] = if fails { row as i32 } else { state.picks[place] };
        state.point[place] = if fails { side.wrapping_sub(left[place]) & mask } else { value };
    }
}

/// The same at one variable.
#[inline(always)]
fn lower_place(left: &Point, row: usize, side: i32, place: usize, state: &mut State) {
    if left[place] + state.point[place] > side {
        state.point[place] = given(side, left[place]);
        state.picks[place] = row as i32;
    }
}

/// Makes the values those of the strategy: longest walks to a variable without a pick.
#[inline(never)]
fn evaluate(table: Table, caps: &Point, state: &mut State) {
    for place in 0..table.variables {
        state.point[place] = if table.has(state.picks[place]) { 0 } else { caps[place] };
    }
    match Short::of(table, &state.picks) {
        Some(short) => while short.round(&mut state.point) {},
        None => while round(table, state) {},
    }
}

/// A round over the variables with a pick, all by the values before it; true where one rose.
fn round(table: Table, state: &mut State) -> bool {
    let mut next = state.point;
    for place in 0..table.variables {
        if table.has(state.picks[place]) {
            let row = state.picks[place] as usize;
            next[place] = given(table.right_side(row, &state.point), table.left(row)[place]);
        }
    }
    let mut changed = 0;
    for place in 0..VARIABLES {
        changed |= next[place] ^ state.point[place];
    }
    state.point = next;
    changed != 0
}

/// What a round is made of where every picked row has two ends: for each variable with a pick the ends, and their right
/// coefficients less its left one.
struct Short {
    count: usize,
    variable: [u8; VARIABLES],
    ends: [[u8; 2]; VARIABLES],
    arcs: [[i32; 2]; VARIABLES],
}

impl Short {
    fn of(table: Table, picks: &Picks) -> Option<Short> {
        let (none, no_ends, no_arcs) = ([0; VARIABLES], [[0; 2]; VARIABLES], [[0; 2]; VARIABLES]);
        let mut short = Short { count: 0, variable: none, ends: no_ends, arcs: no_arcs };
        for variable in 0..table.variables {
            if !table.has(picks[variable]) {
                continue;
            }
            let row = picks[variable] as usize;
            let ends = table.right_ends(row)?;
            let left = table.left(row)[variable];
            let count = short.count % VARIABLES;
            short.variable[count] = variable as u8;
            short.ends[count] = ends.map(|end| end as u8);
            short.arcs[count] = ends.map(|end| table.right(row)[end].saturating_sub(left));
            short.count += 1;
        }
        Some(short)
    }

    /// A round in place; true where a value rose.
    #[inline(always)]
    fn round(&self, point: &mut Point) -> bool {
        let mut changed = 0;
        for count in 0..self.count.min(VARIABLES) {
            let [first, last] = self.ends[count].map(|end| point[end as usize % VARIABLES]);
            let [one, two] = self.arcs[count];
            let value = given((one + first).max(two + last).max(BLANK_SIDE), 0);
            let variable = self.variable[count] as usize % VARIABLES;
            changed |= value ^ point[variable];
            point[variable] = value;
        }
        changed != 0
    }
}
