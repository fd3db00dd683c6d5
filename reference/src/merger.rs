//! Two plans merged, without proofs (document 02, 2.13).

use crate::record::{self, Problem, BLANK, STAMP};
use crate::VARIABLES;

/// Bytes that the lent buffer must have.
const ROOM: usize = 4 * VARIABLES;

type Stamps = [i32; VARIABLES];

/// The stamps of a plan; refusal 12.
fn plan(bytes: &[u8], variables: usize) -> Result<Stamps, u8> {
    let mut stamps = [BLANK; VARIABLES];
    if bytes.len() != 4 * variables {
        return Err(12);
    }
    for (place, field) in bytes.chunks_exact(4).enumerate() {
        stamps[place] = i32::from_le_bytes(field.try_into().unwrap());
        if !record::stamp_in_form(place, stamps[place] as i64) {
            return Err(12);
        }
    }
    Ok(stamps)
}

/// One side of a row, `None` where it is blank.
fn side(row: &[i32], stamps: &Stamps) -> Option<i32> {
    let whole = |pair: (&i32, &i32)| (*pair.0 != BLANK && *pair.1 != BLANK).then(|| pair.0 + pair.1);
    row.iter().zip(stamps).filter_map(whole).max()
}

fn keeps(problem: &Problem, stamps: &Stamps) -> bool {
    (0..problem.rows - 1).all(|row| {
        let at = row * VARIABLES..(row + 1) * VARIABLES;
        side(&problem.left[at.clone()], stamps) <= side(&problem.right[at], stamps)
    })
}

/// The bytes written, 4 a moment; refusals 1 to 6 and 17, then 7, 12, 24, 25 and 26.
pub fn merge(problem: &[u8], first: &[u8], second: &[u8], shift: i64, buffer: &mut [u8]) -> Result<usize, u8> {
    let mut table = Problem::new();
    record::read(record::meant(problem), &mut table)?;
    if buffer.len() < ROOM {
        return Err(7);
    }
    let variables = table.variables;
    let (first, second) = (plan(first, variables)?, plan(second, variables)?);
    if shift > 0 {
        return Err(24);
    }
    if !keeps(&table, &first) || !keeps(&table, &second) {
        return Err(25);
    }
    let mut merged = first;
    for place in 0..variables {
        if second[place] != BLANK {
            let moved = (second[place] as i64).saturating_add(shift);
            if first[place] == BLANK && moved < -(STAMP as i64) {
                return Err(26);
            }
            merged[place] = (first[place] as i64).max(moved) as i32;
        }
    }
    for (field, stamp) in buffer.chunks_exact_mut(4).zip(&merged[..variables]) {
        field.copy_from_slice(&stamp.to_le_bytes());
    }
    Ok(4 * variables)
}
