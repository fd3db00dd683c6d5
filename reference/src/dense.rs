//! Dense rows of `f32`, laid out so that the compiler uses vector instructions.

use crate::number::Number;
use crate::policy::{Picks, Rows, Values};
use crate::record::Problem;
use crate::{NO_PICK, ROWS, VARIABLES};

/// Lanes that are carried side by side through a row.
const LANES: usize = 8;

type Row = [f32; VARIABLES];

pub struct Dense {
    variables: usize,
    rows: usize,
    left: [Row; ROWS],
    right: [Row; ROWS],
    /// The objective's right coefficients as the record has them.
    objective: Row,
    second: u32,
}

#[inline(always)]
fn larger(a: f32, b: f32) -> f32 {
    if a > b {
        a
    } else {
        b
    }
}

/// The largest of a sum over a row, lane by lane.
#[inline(always)]
fn largest_sum(row: &Row, values: &Row) -> f32 {
    let mut lanes = [f32::NEG_INFINITY; LANES];
    for block in (0..VARIABLES).step_by(LANES) {
        for lane in 0..LANES {
            lanes[lane] = larger(row[block + lane] + values[block + lane], lanes[lane]);
        }
    }
    join(lanes)
}

/// The largest of a difference over a row, lane by lane.
#[inline(always)]
fn largest_difference(row: &Row, values: &Row) -> f32 {
    let mut lanes = [f32::NEG_INFINITY; LANES];
    for block in (0..VARIABLES).step_by(LANES) {
        for lane in 0..LANES {
            lanes[lane] = larger(row[block + lane] - values[block + lane], lanes[lane]);
        }
    }
    join(lanes)
}

#[inline(always)]
fn join(lanes: [f32; LANES]) -> f32 {
    let mut four = [0.0; 4];
    for lane in 0..4 {
        four[lane] = larger(lanes[lane], lanes[lane + 4]);
    }
    larger(larger(four[0], four[1]), larger(four[2], four[3]))
}

impl<'a> Rows<'a> for Dense {
    type Value = f32;

    fn of(problem: &'a Problem) -> Dense {
        let mut left = [[f32::NEG_INFINITY; VARIABLES]; ROWS];
        let mut right = [[f32::NEG_INFINITY; VARIABLES]; ROWS];
        for row in 0..problem.rows {
            let at = row * VARIABLES;
            for place in 0..VARIABLES {
                left[row][place] = f32::of(problem.left[at + place]);
                right[row][place] = f32::of(problem.right[at + place]);
            }
        }
        let objective = right[problem.rows - 1];
        Dense { variables: problem.variables, rows: problem.rows, left, right, objective, second: problem.second() }
    }

    fn variables(&self) -> usize {
        self.variables
    }

    fn rows(&self) -> usize {
        self.rows
    }

    fn raise(&mut self, t: i32) {
        let row = &mut self.right[self.rows - 1];
        for place in 0..VARIABLES {
            row[place] = self.objective[place] + t as f32;
        }
    }

    #[inline(always)]
    fn right_side(&self, row: usize, values: &Values<f32>) -> f32 {
        largest_sum(&self.right[row % ROWS], values)
    }

    #[inline(always)]
    fn left(&self, row: usize, variable: usize) -> f32 {
        self.left[row % ROWS][variable]
    }

    fn improve(&self, values: &Values<f32>, picks: &mut Picks) -> bool {
        let mut sides = [f32::NEG_INFINITY; ROWS];
        let mut lowest = *values;
        for row in 0..self.rows {
            let side = largest_sum(&self.right[row], values);
            sides[row] = side;
            let left = &self.left[row];
            for place in 0..VARIABLES {
                // A blank left coefficient gives plus infinity or no number: neither is below.
                let value = side - left[place];
                lowest[place] = if value < lowest[place] { value } else { lowest[place] };
            }
        }
        let mut changed = false;
        for place in 0..self.variables {
            if lowest[place] < values[place] {
                changed = true;
                let row = (0..self.rows).find(|&row| sides[row] - self.left[row][place] == lowest[place]);
                picks[place] = row.unwrap_or(0) as u8;
            }
        }
        changed
    }

    fn meets(&self, row: usize, variables: u32) -> bool {
        let left = &self.left[row];
        (0..VARIABLES).any(|place| variables >> place & 1 == 1 && left[place] > f32::NEG_INFINITY)
    }

    fn attain(&self, values: &Values<f32>, targets: &mut [u8; ROWS]) {
        for row in 0..self.rows {
            let side = largest_sum(&self.right[row], values);
            targets[row] = NO_PICK;
            if side > f32::NEG_INFINITY {
                let found = (0..self.variables).find(|&place| self.right[row][place] + values[place] == side);
                targets[row] = found.unwrap_or(0) as u8;
            }
        }
    }

    #[inline(always)]
    fn farthest(&self, row: usize, distances: &Values<f32>) -> f32 {
        largest_difference(&self.left[row], distances)
    }

    fn right(&self, row: usize, variable: usize) -> f32 {
        self.right[row][variable % VARIABLES]
    }

    fn second(&self) -> u32 {
        self.second
    }
}
