//! The rules behind an accepted answer and its binding round, without proofs.

use crate::checker;
use crate::record::{self, Answer, Problem, BLANK};
use crate::VARIABLES;

/// The rules, ascending, and the moments of the round; without a round for none.
pub struct Reasons {
    pub rules: Vec<u64>,
    pub round: Vec<u64>,
}

/// Refusals 1 to 6, 8 to 14 and 17 as the checker gives them, then 16 for bottomless.
pub fn reasons(problem: &[u8], answer: &[u8]) -> Result<Reasons, u8> {
    let class = checker::check(problem, answer)?.class;
    if class == 2 {
        return Err(16);
    }
    let mut table = Problem::new();
    record::read(record::meant(problem), &mut table)?;
    let answer = record::answer(answer, table.variables, table.rows)?;
    let round = if class == 1 { round(&table, &answer) } else { Vec::new() };
    Ok(Reasons { rules: rules(&table, &answer), round })
}

/// The rules that reached moments pick.
fn rules(problem: &Problem, answer: &Answer) -> Vec<u64> {
    let mut reached = if answer.start == 0 { 1 } else { problem.second() };
    let mut done = 0u32;
    let mut picked = 0u64;
    while reached & !done != 0 {
        let moment = (reached & !done).trailing_zeros() as usize;
        done |= 1 << moment;
        let row = answer.picks[moment] as usize - 1;
        picked |= 1 << row;
        for (place, &lead) in problem.right[row * VARIABLES..(row + 1) * VARIABLES].iter().enumerate() {
            if lead != BLANK {
                reached |= 1 << place;
            }
        }
    }
    (0..problem.rows - 1).filter(|row| picked >> row & 1 == 1).map(|row| row as u64 + 1).collect()
}

/// The turns from the start until a moment comes again, from that moment on.
fn round(problem: &Problem, answer: &Answer) -> Vec<u64> {
    let planned = |moment: &usize| answer.stamps[*moment] != BLANK;
    let second = problem.second();
    let mut moment = match answer.start {
        0 => 0,
        _ => (0..problem.variables).filter(|moment| second >> moment & 1 == 1).find(planned).unwrap_or(0),
    };
    let mut came: Vec<u64> = Vec::new();
    loop {
        if let Some(back) = came.iter().position(|&before| before == moment as u64) {
            return came.split_off(back);
        }
        came.push(moment as u64);
        let right = &problem.right[(answer.picks[moment] as usize - 1) * VARIABLES..];
        let sum = |place: usize| right[place] as i64 + answer.stamps[place] as i64;
        let mut latest = None;
        for place in (0..problem.variables).filter(planned).filter(|&place| right[place] != BLANK) {
            if latest.is_none_or(|before| sum(place) > sum(before)) {
                latest = Some(place);
            }
        }
        moment = latest.unwrap_or(0);
    }
}
