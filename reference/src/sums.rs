//! Rows as policy iteration in place reads them: the tables as a record has them, and the ends of short lists.
//!
//! A value v is kept as 2³⁰ + v and blank as 0, a coefficient as the record has it. Their sum never leaves 32 bits; it is
//! above 2²⁹ where both are whole, and below where one is blank.

use crate::record::{Problem, BLANK};
use crate::{ROWS, VARIABLES};

pub type Point = [i32; VARIABLES];
/// Row i from `i * VARIABLES` on.
pub type Coefficients = [i32; ROWS * VARIABLES];

/// The value 0.
pub const ZERO: i32 = 1 << 30;
/// Stands for a blank side: above every sum that is blank, and below every other.
pub const BLANK_SIDE: i32 = 1 << 29;

/// What a right side gives a variable with a left coefficient, which is finite.
#[inline(always)]
pub fn given(side: i32, left: i32) -> i32 {
    if side == BLANK_SIDE {
        0
    } else {
        side - left
    }
}

/// Two variables such that a list is blank elsewhere; `WIDE` twice where there are no such two, or nobody looked.
type Ends = [u8; 2];
const WIDE: u8 = u8::MAX;
/// After so many lists without ends nobody looks for ends any more.
const MANY: usize = 8;

/// The variables whose coefficient is finite, as bits.
#[inline(always)]
pub fn finite(list: &Point) -> u32 {
    let mut bits = 0;
    for (variable, &coefficient) in list.iter().enumerate() {
        bits |= if coefficient == BLANK { 0 } else { 1 << variable };
    }
    bits
}

/// The ends of a list.
fn ends_of(list: &Point) -> Ends {
    let bits = finite(list);
    let others = bits & bits.wrapping_sub(1);
    if bits == 0 {
        [0; 2]
    } else if others & others.wrapping_sub(1) != 0 {
        [WIDE; 2]
    } else {
        [bits.trailing_zeros() as u8, 31 - bits.leading_zeros() as u8]
    }
}

/// The ends of the first lists of a table.
fn ends(table: &Coefficients, rows: usize) -> [Ends; ROWS] {
    let mut ends = [[WIDE; 2]; ROWS];
    let mut wide = 0;
    for row in 0..rows {
        ends[row] = ends_of(list(table, row));
        wide += (ends[row][0] == WIDE) as usize;
        if wide > MANY {
            break;
        }
    }
    ends
}

/// A row's list in a table.
#[inline(always)]
pub fn list(table: &Coefficients, row: usize) -> &Point {
    table[row % ROWS * VARIABLES..].first_chunk().expect("a whole row")
}

/// The ends of both tables of a problem.
pub struct AllEnds {
    left: [Ends; ROWS],
    right: [Ends; ROWS],
}

impl AllEnds {
    pub fn of(problem: &Problem) -> AllEnds {
        AllEnds { left: ends(&problem.left, problem.rows), right: ends(&problem.right, problem.rows) }
    }
}

/// The first rows of two tables with their ends.
#[derive(Clone, Copy)]
pub struct Table<'a> {
    pub left: &'a Coefficients,
    pub right: &'a Coefficients,
    pub ends: &'a AllEnds,
    pub variables: usize,
    pub rows: usize,
}

impl<'a> Table<'a> {
    /// Whether a pick is one of these rows.
    #[inline(always)]
    pub fn has(self, pick: i32) -> bool {
        (pick as usize) < self.rows
    }

    #[inline(always)]
    pub fn left(self, row: usize) -> &'a Point {
        list(self.left, row)
    }

    #[inline(always)]
    pub fn right(self, row: usize) -> &'a Point {
        list(self.right, row)
    }

    #[inline(always)]
    pub fn left_ends(self, row: usize) -> Option<[usize; 2]> {
        places(self.ends.left[row % ROWS])
    }

    #[inline(always)]
    pub fn right_ends(self, row: usize) -> Option<[usize; 2]> {
        places(self.ends.right[row % ROWS])
    }

    /// The largest of right coefficient + value.
    #[inline(always)]
    pub fn right_side(self, row: usize, point: &Point) -> i32 {
        let right = self.right(row);
        if let Some([first, last]) = self.right_ends(row) {
            return (right[first] + point[first]).max(right[last] + point[last]).max(BLANK_SIDE);
        }
        let mut side = BLANK_SIDE;
        for place in 0..VARIABLES {
            side = side.max(right[place] + point[place]);
        }
        side
    }

    /// Whether some left coefficient + value is above a side.
    #[inline(always)]
    pub fn left_above(self, row: usize, point: &Point, side: i32) -> bool {
        let left = self.left(row);
        if let Some([first, last]) = self.left_ends(row) {
            return (left[first] + point[first]).max(left[last] + point[last]) > side;
        }
        let mut above = 0;
        for place in 0..VARIABLES {
            above |= (left[place] + point[place] > side) as i32;
        }
        above != 0
    }
}

/// The places of two ends, if there are such.
#[inline(always)]
fn places([first, last]: Ends) -> Option<[usize; 2]> {
    (first != WIDE).then_some([first as usize % VARIABLES, last as usize % VARIABLES])
}
