//! A desk for sixteen problems, the functions of `capi/span.h` over slices. A step only counts: a problem is answered whole, by the unproved
//! engine, whenever its trials or its record are asked for.

use crate::engine::{solve_by, Answered, InLists, Search};
use crate::record::{self, Problem, BUFFER};

const PLACES: usize = 16;
const PROBLEM: usize = 16_394;

/// Bytes of memory that a desk is lent.
pub const DESK_MEMORY: usize = PLACES * PROBLEM;
/// Words that a desk is lent for its state; this one needs fewer than the proved one.
pub const DESK_WORDS: usize = 692;
/// The word with the ticket that a call tells.
pub const DESK_TICKET: usize = 3;

// Words: the last ticket, the count of the line, free, the told ticket; the line; then ticket, size, own trials and whether it is answered of each place.
const COUNT: usize = 1;
const LINE: usize = 4;
const PLACE: usize = LINE + PLACES;
const WORDS: usize = 4;

fn place(at: usize) -> usize {
    PLACE + WORDS * at
}

fn refused(memory: &[u8], state: &[u64]) -> Option<u64> {
    if memory.len() < DESK_MEMORY {
        Some(23)
    } else if state.len() < DESK_WORDS {
        Some(255)
    } else {
        None
    }
}

fn answered(memory: &[u8], state: &[u64], at: usize, buffer: &mut [u8]) -> Answered {
    let problem = &memory[at * PROBLEM..][..state[place(at) + 1] as usize];
    solve_by::<InLists>(Search::Halving, problem, buffer).expect("a problem on the desk is within the layout")
}

/// Opens a desk.
pub fn desk_open(memory: &[u8], state: &mut [u64]) -> u64 {
    if let Some(number) = refused(memory, state) {
        return number;
    }
    state[..DESK_WORDS].fill(0);
    0
}

/// Takes a problem in.
///
/// # Safety
/// None is needed here; the proved one asks for the state as it was left.
pub unsafe fn desk_take(memory: &mut [u8], state: &mut [u64], problem: &[u8]) -> u64 {
    if let Some(number) = refused(memory, state) {
        return number;
    }
    let meant = record::meant(problem);
    // A desk knows no kind but 1.
    let read = record::header(meant, &[1]).and_then(|_| record::read(meant, &mut Problem::new()));
    if let Err(number) = read {
        return number as u64;
    }
    let Some(at) = (0..PLACES).find(|&at| state[place(at)] == 0) else {
        return 21;
    };
    if state[0] == u64::MAX {
        return 21;
    }
    state[0] += 1;
    memory[at * PROBLEM..][..problem.len()].copy_from_slice(problem);
    let new = [state[0], problem.len() as u64, 0, 0];
    state[place(at)..place(at) + WORDS].copy_from_slice(&new);
    state[LINE + state[COUNT] as usize] = at as u64;
    state[COUNT] += 1;
    state[DESK_TICKET] = state[0];
    0
}

/// Makes a step.
///
/// # Safety
/// As [`desk_take`].
pub unsafe fn desk_step(memory: &[u8], state: &mut [u64]) -> u64 {
    if let Some(number) = refused(memory, state) {
        return number;
    }
    let count = state[COUNT] as usize;
    if count == 0 {
        return 0;
    }
    let at = state[LINE] as usize;
    state[place(at) + 2] += 1;
    state[DESK_TICKET] = state[place(at)];
    let trials = answered(memory, state, at, &mut [0; BUFFER]).trials as u64;
    state.copy_within(LINE + 1..LINE + count, LINE);
    if state[place(at) + 2] < trials {
        state[LINE + count - 1] = at as u64;
        return 256;
    }
    state[LINE + count - 1] = 0;
    state[COUNT] -= 1;
    state[place(at) + 3] = 1;
    512
}

/// Collects a ticket.
///
/// # Safety
/// As [`desk_take`].
pub unsafe fn desk_collect(memory: &[u8], state: &mut [u64], ticket: u64, buffer: &mut [u8]) -> u64 {
    if let Some(number) = refused(memory, state) {
        return number;
    }
    let held = |at: &usize| ticket != 0 && state[place(*at)] == ticket;
    let Some(at) = (0..PLACES).find(held) else {
        return 22;
    };
    if state[place(at) + 3] == 0 {
        return 0;
    }
    if buffer.len() < BUFFER {
        return 7;
    }
    let answered = answered(memory, state, at, buffer);
    state[place(at)..place(at) + WORDS].fill(0);
    256 * answered.class as u64 + 65_536 * answered.trials as u64
}
