//! Rows kept as lists of their finite coefficients, two at a time: a list of odd length holds its last entry twice, which
//! changes no largest and no least, and most lists of a ward are then one pair long.

use crate::number::Number;
use crate::policy::{Picks, Rows, Values};
use crate::record::Problem;
use crate::sums::finite;
use crate::{NO_PICK, ROWS, VARIABLES};

#[derive(Clone, Copy)]
struct Entry {
    variable: u32,
    coefficient: i32,
}

pub struct Lists<'a> {
    variables: usize,
    rows: usize,
    /// Row i's left entries stand from `starts[2i]`, its right ones from `starts[2i + 1]`, up to the next start.
    entries: Vec<[Entry; 2]>,
    starts: [u32; 2 * ROWS + 1],
    /// The objective's right coefficients as the record has them.
    objective: Vec<[i32; 2]>,
    problem: &'a Problem,
    second: u32,
    /// What the objective is raised by.
    raised: i32,
}

impl Lists<'_> {
    #[inline(always)]
    fn list(&self, number: usize) -> &[[Entry; 2]] {
        &self.entries[self.starts[number] as usize..self.starts[number + 1] as usize]
    }
}

/// The place of a variable in an array of values; a variable is always below the limit.
#[inline(always)]
fn place(entry: &Entry) -> usize {
    entry.variable as usize % VARIABLES
}

impl<'a> Rows<'a> for Lists<'a> {
    type Value = i32;

    fn of(problem: &'a Problem) -> Lists<'a> {
        let mut entries = Vec::with_capacity(ROWS * VARIABLES);
        let mut starts = [0; 2 * ROWS + 1];
        for row in 0..problem.rows {
            for (side, table) in [&problem.left, &problem.right].into_iter().enumerate() {
                let part: &[i32; VARIABLES] = table[row * VARIABLES..].first_chunk().expect("a whole row");
                let mut finite = finite(part);
                while finite != 0 {
                    let first = finite.trailing_zeros();
                    finite &= finite - 1;
                    let second = if finite == 0 { first } else { finite.trailing_zeros() };
                    finite &= finite.saturating_sub(1);
                    entries.push(
                        [first, second]
                            .map(|variable| Entry { variable, coefficient: part[variable as usize % VARIABLES] }),
                    );
                }
                starts[2 * row + side + 1] = entries.len() as u32;
            }
        }
        let last = 2 * problem.rows - 1;
        let pairs = &entries[starts[last] as usize..];
        let objective = pairs.iter().map(|pair: &[Entry; 2]| [pair[0].coefficient, pair[1].coefficient]).collect();
        let second = problem.second();
        Lists {
            variables: problem.variables,
            rows: problem.rows,
            entries,
            starts,
            objective,
            problem,
            second,
            raised: 0,
        }
    }

    fn variables(&self) -> usize {
        self.variables
    }

    fn rows(&self) -> usize {
        self.rows
    }

    fn raise(&mut self, t: i32) {
        self.raised = t;
        let start = self.starts[2 * self.rows - 1] as usize;
        for (pair, coefficients) in self.entries[start..].iter_mut().zip(&self.objective) {
            pair[0].coefficient = coefficients[0] + t;
            pair[1].coefficient = coefficients[1] + t;
        }
    }

    #[inline(always)]
    fn right_side(&self, row: usize, values: &Values<i32>) -> i32 {
        let mut side = i32::BOT;
        for [first, second] in self.list(2 * row + 1) {
            let one = first.coefficient + values[place(first)];
            let two = second.coefficient + values[place(second)];
            side = side.max(one.max(two));
        }
        if side.is_bot() {
            i32::BOT
        } else {
            side
        }
    }

    #[inline(always)]
    fn left(&self, row: usize, variable: usize) -> i32 {
        self.problem.left[row * VARIABLES + variable]
    }

    fn improve(&self, values: &Values<i32>, picks: &mut Picks) -> bool {
        let mut lowest = *values;
        let mut changed = false;
        for row in 0..self.rows {
            let side = self.right_side(row, values);
            for entry in self.list(2 * row).as_flattened() {
                let value = side.minus(entry.coefficient);
                if value < lowest[place(entry)] {
                    lowest[place(entry)] = value;
                    picks[place(entry)] = row as u8;
                    changed = true;
                }
            }
        }
        changed
    }

    fn meets(&self, row: usize, variables: u32) -> bool {
        self.list(2 * row).as_flattened().iter().any(|entry| variables >> place(entry) & 1 == 1)
    }

    fn attain(&self, values: &Values<i32>, targets: &mut [u8; ROWS]) {
        for row in 0..self.rows {
            let mut side = i32::BOT / 2;
            targets[row] = NO_PICK;
            for entry in self.list(2 * row + 1).as_flattened() {
                let value = entry.coefficient + values[place(entry)];
                if value > side {
                    side = value;
                    targets[row] = entry.variable as u8;
                }
            }
        }
    }

    #[inline(always)]
    fn farthest(&self, row: usize, distances: &Values<i32>) -> i32 {
        let mut farthest = i32::BOT;
        for [first, second] in self.list(2 * row) {
            let one = first.coefficient - distances[place(first)];
            let two = second.coefficient - distances[place(second)];
            farthest = farthest.max(one.max(two));
        }
        farthest
    }

    fn right(&self, row: usize, variable: usize) -> i32 {
        let raised = if row + 1 == self.rows { self.raised } else { 0 };
        self.problem.right[row * VARIABLES + variable % VARIABLES] + raised
    }

    fn second(&self) -> u32 {
        self.second
    }
}
