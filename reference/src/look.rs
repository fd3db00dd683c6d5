//! One look: the least span by one policy iteration over the rules alone.
//!
//! Let variable 0 be free: rules and span do not change when all variables are shifted alike. Among the points that keep
//! the rules and whose first side is at most 0 the greatest has the largest second side S, and the least span is −S. It is
//! the greatest point under caps: minus the lead for a variable of the first list, far above for another. Its strategy, in
//! which no pick is read as the objective's row, blocks every trial below −S. A look with every cap at 0 comes first, as it
//! tells at once that nothing is possible. Plan and row strategy are those of the greatest point at the least span, or the
//! lowest trial, with every cap at 0: near to variable 0, where the look's own may lie far off.

use crate::engine::{trials, Found};
use crate::falling::{iterate, Passes, State};
use crate::policy::Blocked;
use crate::record::{Problem, BLANK};
use crate::saver::Targets;
use crate::sums::{list, AllEnds, Coefficients, Point, Table, BLANK_SIDE, ZERO};
use crate::{LARGEST, NO_PICK, ROWS, TOP, VARIABLES};

/// The cap outside the first list: a value that hangs on it gives a second side above the top trial.
const FAR: i32 = TOP + 1 + LARGEST + (VARIABLES as i32 - 1) * 2 * LARGEST;

/// Where every cap is 0.
const LEVEL: Point = [ZERO; VARIABLES];

/// Most problems without a plan are through after one pass and the values that it leaves.
const FIRST_LOOK: Passes = [1, 1];
const OTHERS: Passes = [4, 4];

/// Class, least span, and what shows it.
pub fn find(problem: &Problem) -> Found {
    let (left, right, ends) = (&problem.left, &problem.right, &AllEnds::of(problem));
    let objective = problem.rows - 1;
    let rules = Table { left, right, ends, variables: problem.variables, rows: objective };
    let level = iterate(rules, &LEVEL, State::new(&LEVEL, NO_PICK as i32), FIRST_LOOK);
    if let Some(from) = blocked(list(right, objective), &level.point) {
        return Found::None { from, picks: level.picks.map(|row| row as u8) };
    }
    let caps = caps(list(left, objective));
    let look = iterate(rules, &caps, State::new(&caps, objective as i32), OTHERS);
    let span = ZERO - largest(list(right, objective), &look.point);
    let t = span.max(-TOP - 1);
    let there = &raised(right, objective, t);
    let point = iterate(Table { right: there, rows: problem.rows, ..rules }, &LEVEL, level, OTHERS).point;
    if span < -TOP {
        return Found::Bottomless { targets: attaining(problem, there, &point) };
    }
    let picks = look.picks.map(|row| row as u8);
    Found::Least { span, stamps: stamps(&point), from: Blocked::Second, picks, trials: trials(span) }
}

/// Minus the first list's leads, and far above elsewhere.
fn caps(first: &Point) -> Point {
    first.map(|lead| ZERO + if lead == BLANK { FAR } else { -lead })
}

/// The largest of coefficient + value in a list.
fn largest(list: &Point, point: &Point) -> i32 {
    list.iter().zip(point).fold(BLANK_SIDE, |side, (coefficient, value)| side.max(coefficient + value))
}

/// Where the strategy of a point blocks from at every trial, if it does.
fn blocked(second: &Point, point: &Point) -> Option<Blocked> {
    if point[0] == 0 {
        return Some(Blocked::Anchor);
    }
    (largest(second, point) == BLANK_SIDE).then_some(Blocked::Second)
}

/// The right coefficients with the objective's raised by t.
fn raised(right: &Coefficients, objective: usize, t: i32) -> Coefficients {
    let mut there = *right;
    for coefficient in &mut there[objective * VARIABLES..][..VARIABLES] {
        *coefficient = if *coefficient == BLANK { BLANK } else { *coefficient + t };
    }
    there
}

/// A point moved so that variable 0 is at 0.
fn stamps(point: &Point) -> [i32; VARIABLES] {
    point.map(|value| if value == 0 { BLANK } else { value - point[0] })
}

/// For each row the first variable that attains its right side, or `NO_PICK` where that is blank.
fn attaining(problem: &Problem, right: &Coefficients, point: &Point) -> Targets {
    let mut targets = [NO_PICK; ROWS];
    for row in 0..problem.rows {
        let side = largest(list(right, row), point);
        let found = (0..problem.variables).find(|&place| list(right, row)[place] + point[place] == side);
        targets[row] = found.map_or(NO_PICK, |place| place as u8);
    }
    targets
}
