//! A desk for sixteen problems (document 02, 2.11): sixteen on the desk against sixteen calls of `solve`.

use std::hint::black_box;
use std::time::Instant;

use crate::families::{Family, FAMILIES};
use crate::table::SEED;
use crate::timing::{microseconds, Call, Effort};
use random::Random;
use span::raw::{self, DESK_MEMORY, DESK_WORDS};

const PLACES: usize = 16;

/// Sixteen problems of a family.
fn set(family: Family) -> Vec<Vec<u8>> {
    let mut random = Random::new(SEED);
    (0..PLACES).map(|_| family.draft(&mut random, 31, 63).bytes()).collect()
}

/// Takes all in, steps until all are answered, and collects them. Counts the steps, and keeps the shortest time of each, in microseconds.
fn on_the_desk(problems: &[Vec<u8>], memory: &mut [u8], state: &mut [u64], times: &mut Vec<f64>) {
    let mut steps = 0;
    raw::desk_open(memory, state);
    // SAFETY: memory and state are those of this desk, as each call left them.
    unsafe {
        for problem in problems {
            raw::desk_take(memory, state, problem);
        }
        loop {
            let start = Instant::now();
            let told = raw::desk_step(memory, state);
            let time = start.elapsed().as_secs_f64() * 1e6;
            match told {
                0 => break,
                256 | 512 => keep(times, steps, time),
                refusal => panic!("a step of the desk was refused: {refusal}"),
            }
            steps += 1;
        }
        let mut buffer = [0; span::ANSWER_SIZE];
        for ticket in 1..=problems.len() as u64 {
            black_box(raw::desk_collect(memory, state, ticket, &mut buffer));
        }
    }
}

/// The shortest time of step `k` so far.
fn keep(times: &mut Vec<f64>, k: usize, time: f64) {
    if times.len() <= k {
        times.resize(k + 1, f64::INFINITY);
    }
    times[k] = times[k].min(time);
}

/// A line a family.
pub fn print(effort: Effort) {
    println!("sixteen problems             on the desk  sixteen calls  ratio  steps  longest");
    for family in FAMILIES {
        let problems = set(family);
        let (mut memory, mut state) = (vec![0; DESK_MEMORY], vec![0; DESK_WORDS]);
        let mut times = Vec::new();
        let desk: Call = Box::new(|_| on_the_desk(&problems, &mut memory, &mut state, &mut times));
        let mut buffer = [0; span::ANSWER_SIZE];
        let calls: Call = Box::new(|_| {
            for problem in &problems {
                black_box(raw::solve(problem, &mut buffer));
            }
        });
        let [one, sixteen] = microseconds(effort, 1, [desk, calls]);
        let (name, ratio, steps) = (family.name(), one / sixteen, times.len());
        let longest = times.iter().copied().fold(0.0, f64::max);
        println!("{name:<28} {one:>11.1} {sixteen:>14.1} {ratio:>6.2} {steps:>6} {longest:>8.1}");
    }
    println!("ratio: sixteen problems taken in, stepped to their answers and collected, by sixteen calls of solve; longest: the longest step");
    println!();
}
