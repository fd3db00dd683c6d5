//! The checker, without proofs: the form first, then what document 01 lists for the class, leaving at the first fault.

use crate::record::{self, Answer, Problem, BLANK};
use crate::{LARGEST, ROWS, TOP, VARIABLES};

/// What the checker accepted.
#[derive(Clone, Copy, Debug, PartialEq, Eq)]
pub struct Accepted {
    pub class: u16,
    pub span: i32,
}

/// Minus infinity in sums: two of it still fit.
const BOT: i32 = -1_000_000_000;
/// Sums with minus infinity are below, others above.
const HALF: i32 = -500_000_000;

/// An arc's weight is multiplied by this, and 1 is added where closed walks must be below zero: a closed walk of up to
/// 32 arcs is then at most zero exactly when it was below zero.
const SCALE: i32 = 32;
/// A walk that visits no variable twice has at most 31 arcs of at most 32 × (two coefficients and the top trial) + 1: one that
/// weighs more contains a closed walk above zero.
const HEAVIEST: i32 = (VARIABLES as i32 - 1) * (SCALE * (2 * LARGEST + TOP) + 1);
/// The weight of an arc that is not there: below zero also with the longest walk added.
const NO_ARC: i32 = -2_000_000_000;

/// Judges an answer; refusals 1 to 6, 8 to 14 and 17.
pub fn check(problem: &[u8], answer: &[u8]) -> Result<Accepted, u8> {
    let mut table = Problem::new();
    record::read(record::meant(problem), &mut table)?;
    let problem = &table;
    let answer = record::answer(answer, problem.variables, problem.rows)?;
    let accepted = match answer.class {
        1 => keeps(problem, &answer) && blocks(problem, &answer, answer.span as i64 - 1),
        2 => saves(problem, &answer),
        _ => blocks(problem, &answer, TOP as i64),
    };
    if accepted {
        Ok(Accepted { class: answer.class, span: answer.span })
    } else {
        Err(14)
    }
}

/// The largest of coefficient + value over a row; blank coefficients drown.
#[inline(always)]
fn largest(row: &[i32], values: &[i32; VARIABLES]) -> i32 {
    let row: &[i32; VARIABLES] = row.try_into().unwrap();
    let mut lanes = [BOT; 8];
    for block in (0..VARIABLES).step_by(8) {
        for lane in 0..8 {
            let coefficient = row[block + lane];
            let coefficient = if coefficient < BOT { BOT } else { coefficient };
            let sum = coefficient + values[block + lane];
            lanes[lane] = if sum > lanes[lane] { sum } else { lanes[lane] };
        }
    }
    let largest = lanes.into_iter().max().unwrap();
    if largest < HALF {
        BOT
    } else {
        largest
    }
}

/// The point keeps the rules, and its objective value is the span field.
fn keeps(problem: &Problem, answer: &Answer) -> bool {
    let mut values = [BOT; VARIABLES];
    for place in 0..problem.variables {
        if answer.stamps[place] != BLANK {
            values[place] = answer.stamps[place];
        }
    }
    for row in 0..problem.rows {
        let at = row * VARIABLES;
        let left = largest(&problem.left[at..at + VARIABLES], &values);
        let right = largest(&problem.right[at..at + VARIABLES], &values);
        if row + 1 < problem.rows {
            if left > right {
                return false;
            }
        } else if left == BOT || right == BOT || left - right != answer.span {
            return false;
        }
    }
    true
}

/// Every reached variable has a pick that counts, and every reached closed walk weighs below zero at t. Reach begins at the anchor
/// (start 0) or at all variables of the second list (start 1).
fn blocks(problem: &Problem, answer: &Answer, t: i64) -> bool {
    let picks = &answer.picks;
    let mut order = [0usize; VARIABLES];
    let mut count = 0;
    let mut reached = if answer.start == 0 { 1 } else { problem.second() };
    let mut begin = reached;
    while begin != 0 {
        order[count] = begin.trailing_zeros() as usize;
        count += 1;
        begin &= begin - 1;
    }
    let mut at = 0;
    while at < count {
        let variable = order[at];
        at += 1;
        let pick = picks[variable] as usize;
        if pick == 0 || problem.left[(pick - 1) * VARIABLES + variable] == BLANK {
            return false;
        }
        let row = &problem.right[(pick - 1) * VARIABLES..pick * VARIABLES];
        for (place, &coefficient) in row.iter().enumerate() {
            let bit = 1u32 << place;
            if coefficient != BLANK && reached & bit == 0 {
                reached |= bit;
                order[count] = place;
                count += 1;
            }
        }
    }
    let weights = weights(problem, picks, &order[..count], t);
    let mut longest = [0i32; VARIABLES];
    for _ in 0..=count {
        let mut changed = false;
        for (&variable, row) in order[..count].iter().zip(&weights).rev() {
            let best = largest_walk(row, &longest);
            if best > HEAVIEST {
                return false;
            }
            if best > longest[variable] {
                longest[variable] = best;
                changed = true;
            }
        }
        if !changed {
            return true;
        }
    }
    false
}

/// The weights of the arcs from each of these variables, scaled; `NO_ARC` where there is none.
fn weights(problem: &Problem, picks: &[u16; ROWS], order: &[usize], t: i64) -> [[i32; VARIABLES]; VARIABLES] {
    let mut weights = [[NO_ARC; VARIABLES]; VARIABLES];
    for (row, &variable) in weights.iter_mut().zip(order) {
        let number = picks[variable] as usize - 1;
        let extra = if number + 1 == problem.rows { t as i32 } else { 0 };
        let base = SCALE * (extra - problem.left[number * VARIABLES + variable]) + 1;
        let right: &[i32; VARIABLES] = problem.right[number * VARIABLES..].first_chunk().expect("a whole row");
        for (weight, &coefficient) in row.iter_mut().zip(right) {
            *weight = if coefficient == BLANK { NO_ARC } else { SCALE * coefficient + base };
        }
    }
    weights
}

/// The largest of weight + longest walk; `longest` is never below 0, so arcs that are not there lose.
#[inline(always)]
fn largest_walk(weights: &[i32; VARIABLES], longest: &[i32; VARIABLES]) -> i32 {
    let mut lanes = [0; 8];
    for block in (0..VARIABLES).step_by(8) {
        for lane in 0..8 {
            let walk = weights[block + lane] + longest[block + lane];
            lanes[lane] = if walk > lanes[lane] { walk } else { lanes[lane] };
        }
    }
    lanes.into_iter().max().unwrap_or(0)
}

/// The start names a variable of the second list; every row in use from there and from the anchor picks a variable that counts,
/// no reached closed walk uses the objective, and each weighs zero or more: at −TOP − 1 this is one test.
fn saves(problem: &Problem, answer: &Answer) -> bool {
    let (picks, start) = (&answer.picks, answer.start as usize - 1);
    if problem.second() >> start & 1 == 0 {
        return false;
    }
    let mut reached = [false; VARIABLES];
    reached[0] = true;
    reached[start] = true;
    let mut used = [false; ROWS];
    let mut order = [0usize; ROWS];
    let mut count = 0;
    let mut changed = true;
    while changed {
        changed = false;
        for row in 0..problem.rows {
            if used[row] {
                continue;
            }
            let part = row * VARIABLES;
            if (0..problem.variables).any(|place| reached[place] && problem.left[part + place] != BLANK) {
                let pick = picks[row] as usize;
                if pick == 0 || problem.right[part + pick - 1] == BLANK {
                    return false;
                }
                used[row] = true;
                order[count] = row;
                count += 1;
                reached[pick - 1] = true;
                changed = true;
            }
        }
    }
    let mut shortest = [0i64; VARIABLES];
    for _ in 0..=problem.variables {
        let mut changed = false;
        for &row in &order[..count] {
            let part = row * VARIABLES;
            let target = picks[row] as usize - 1;
            let extra = if row + 1 == problem.rows { -(TOP as i64) - 1 } else { 0 };
            let right = problem.right[part + target] as i64 + extra;
            for place in 0..problem.variables {
                let left = problem.left[part + place];
                if reached[place] && left != BLANK {
                    let walk = shortest[place] + right - left as i64;
                    if walk < shortest[target] {
                        shortest[target] = walk;
                        changed = true;
                    }
                }
            }
        }
        if !changed {
            return true;
        }
    }
    false
}
