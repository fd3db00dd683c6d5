//! Row strategies: a point that counts gives each row a variable that attains its right side, the objective one of its second
//! list, and what is possible with this choice alone is a question of shortest walks from there and from variable 0.

use crate::number::Number;
use crate::policy::{Rows, Values};
use crate::record::BLANK;
use crate::{NO_PICK, ROWS, VARIABLES};

pub type Targets = [u8; ROWS];

/// The rows that walks from variable 0 and another use, as bits; in use are rows that have a target.
fn rows_in_use<'a, R: Rows<'a>>(table: &R, targets: &Targets, from: usize) -> u64 {
    let mut reached = 1u32 | 1 << (from % VARIABLES);
    let mut used = 0u64;
    loop {
        let before = used;
        for row in 0..table.rows() {
            if used >> row & 1 == 0 && targets[row] != NO_PICK && table.meets(row, reached) {
                used |= 1 << row;
                reached |= 1 << (targets[row] as usize % VARIABLES);
            }
        }
        if used == before {
            return used;
        }
    }
}

/// The distances that only one variable has, 0.
fn only<V: Number>(from: usize) -> Values<V> {
    let mut distances = [V::TOP; VARIABLES];
    distances[from % VARIABLES] = V::ZERO;
    distances
}

/// Shortest walks from the variables that have a distance at first; TOP where there is none. Closed walks must not be negative.
fn distances<'a, R: Rows<'a>>(
    table: &R,
    targets: &Targets,
    mut distances: Values<R::Value>,
    objective: bool,
) -> Values<R::Value> {
    let rows = if objective { table.rows() } else { table.rows() - 1 };
    loop {
        let mut changed = false;
        for row in 0..rows {
            changed |= shorten(table, targets, row, &mut distances);
        }
        if !changed {
            return distances;
        }
        changed = false;
        for row in (0..rows).rev() {
            changed |= shorten(table, targets, row, &mut distances);
        }
        if !changed {
            return distances;
        }
    }
}

/// Lowers the distance of a row's target to what the row gives it; true where it fell.
#[inline(always)]
fn shorten<'a, R: Rows<'a>>(table: &R, targets: &Targets, row: usize, distances: &mut Values<R::Value>) -> bool {
    if targets[row] == NO_PICK {
        return false;
    }
    let target = targets[row] as usize % VARIABLES;
    let farthest = table.farthest(row, distances);
    if farthest.is_bot() {
        return false;
    }
    let distance = table.right(row, target).minus(farthest);
    let shorter = distance < distances[target];
    if shorter {
        distances[target] = distance;
    }
    shorter
}

/// The least trial that is possible with these targets, the objective being raised by nothing; `None` where every
/// trial is. The objective's target is a variable of its second list, which a point that counts has.
pub fn least<'a, R: Rows<'a>>(table: &R, targets: &Targets) -> Option<i32> {
    let objective = table.rows() - 1;
    let target = targets[objective] as usize;
    let distances = distances(table, targets, only(target), false);
    let farthest = table.farthest(objective, &distances);
    if farthest.is_bot() {
        return None;
    }
    Some(farthest.minus(table.right(objective, target)).whole())
}

/// The point that these targets give at the trial to which the objective was raised. Where no walk leads from variable 0 to the
/// objective's target, that one is put as early as it must be for variable 0 to stay at 0.
pub fn point<'a, R: Rows<'a>>(table: &R, targets: &Targets) -> [i32; VARIABLES] {
    let target = targets[table.rows() - 1] as usize;
    let mut found = distances(table, targets, only(0), true);
    if found[target] >= R::Value::TOP {
        let back = distances(table, targets, only(target), true)[0];
        found[target] = R::Value::ZERO;
        if back < R::Value::ZERO {
            found[target] = R::Value::ZERO.minus(back);
        }
        found = distances(table, targets, found, true);
    }
    let mut stamps = [BLANK; VARIABLES];
    for (stamp, distance) in stamps.iter_mut().zip(found) {
        if distance < R::Value::TOP {
            *stamp = -distance.whole();
        }
    }
    stamps
}

/// The targets of rows in use from variable 0 and the objective's target, and none for the others.
pub fn in_use<'a, R: Rows<'a>>(table: &R, targets: &Targets) -> Targets {
    let used = rows_in_use(table, targets, targets[table.rows() - 1] as usize);
    let mut played = [NO_PICK; ROWS];
    for row in 0..table.rows() {
        if used >> row & 1 == 1 {
            played[row] = targets[row];
        }
    }
    played
}
