//! The tables: times by family, and how they grow.

use std::hint::black_box;

use crate::agree;
use crate::census;
use crate::desk;
use crate::engines::{library, library_accepts, unproved_accepts, Solve, UNPROVED};
use crate::families::{Family, FAMILIES};
use crate::questions;
use crate::timing::{microseconds, Call, Effort};
use random::Random;

pub const SEED: u64 = 4_202;

/// Problems of a family and a size, all of the family's class, with the library's answers.
struct Set {
    problems: Vec<Vec<u8>>,
    answers: Vec<Vec<u8>>,
    trials: f64,
}

fn set(effort: Effort, family: Family, n: usize, m: usize) -> Set {
    let mut random = Random::new(SEED + n as u64);
    let mut set = Set { problems: Vec::new(), answers: Vec::new(), trials: 0.0 };
    while set.problems.len() < effort.problems {
        let problem = family.draft(&mut random, n, m).bytes();
        let outcome = agree::on(&problem);
        if outcome.class == family.class() {
            let mut buffer = [0; span::ANSWER_SIZE];
            let size = library(&problem, &mut buffer).size;
            set.answers.push(buffer[..size].to_vec());
            set.problems.push(problem);
            set.trials += outcome.trials as f64 / effort.problems as f64;
        }
    }
    set
}

/// The library's `solve` through its plain boundary.
fn library_solves(set: &Set) -> Call<'_> {
    let mut buffer = [0; span::ANSWER_SIZE];
    Box::new(move |number| {
        black_box(span::raw::solve(&set.problems[number], &mut buffer));
    })
}

fn solves(set: &Set, solve: Solve) -> Call<'_> {
    let mut buffer = [0; span::ANSWER_SIZE];
    Box::new(move |number| {
        black_box(solve(&set.problems[number], &mut buffer));
    })
}

fn checks(set: &Set, accepts: fn(&[u8], &[u8]) -> bool) -> Call<'_> {
    Box::new(move |number| {
        assert!(black_box(accepts(&set.problems[number], &set.answers[number])));
    })
}

pub fn print(effort: Effort) {
    println!("measured: {}; n = 31, m = 63; seed {SEED}; {} problems a family", crate::MEASURED, effort.problems);
    println!(
        "Microseconds: the shortest of many calls, turn about, as a mean over the problems. Buffers were not cleared"
    );
    println!("before a call: each engine has one answer buffer of 208 bytes for all its calls.");
    println!("All engines agreed on class, span and trials, and both checkers accepted every answer.");
    println!();
    let sets: Vec<(Family, Set)> = FAMILIES.into_iter().map(|family| (family, set(effort, family, 31, 63))).collect();
    let solve_times = solving(effort, &sets);
    checking(effort, &sets, &solve_times);
    questions::print(effort);
    census::print(effort);
    desk::print(effort);
    growth(effort);
}

/// A line a family; the library's times.
fn solving(effort: Effort, sets: &[(Family, Set)]) -> Vec<f64> {
    let names = UNPROVED.map(|(name, _)| name).join("  ");
    println!("solve                        trials  library  {names}  ratio  to halving  to the look");
    let mut times = Vec::new();
    for (family, set) in sets {
        let [a, b, c, d, e] = UNPROVED.map(|(_, solve)| solves(set, solve));
        let calls = [library_solves(set), a, b, c, d, e];
        let [time, others @ ..] = microseconds(effort, set.problems.len(), calls);
        let fastest = |wanted: &str| {
            let times = others.iter().zip(UNPROVED).filter(|(_, (name, _))| name.contains(wanted));
            times.map(|(time, _)| *time).fold(f64::INFINITY, f64::min)
        };
        let [ratio, to_halving, to_look] = ["", "halving", "look"].map(|wanted| time / fastest(wanted));
        let columns: Vec<String> = others
            .iter()
            .zip(UNPROVED)
            .map(|(time, (name, _))| format!("{time:>width$.1}", width = name.len()))
            .collect();
        let (name, trials, columns) = (family.name(), set.trials, columns.join("  "));
        println!("{name:<28} {trials:>6.1} {time:>8.1}  {columns}  {ratio:>5.2} {to_halving:>11.2} {to_look:>12.2}");
        times.push(time);
    }
    println!(
        "ratio: the library's time by that of the fastest unproved engine in the line, whatever its method; then by"
    );
    println!("that of the faster by halving, and by that of the engine that looks once");
    println!();
    times
}

/// A line a family. `check` is measured a second time, turn about with `solve`: what the processor has learnt of the branches
/// of a check is then lost between two rounds of checks, as it is where a check is one call among others.
fn checking(effort: Effort, sets: &[(Family, Set)], solve_times: &[f64]) {
    println!("check                        library  unproved  ratio  part of solve  turn about with solve  part");
    for ((family, set), solve_time) in sets.iter().zip(solve_times) {
        let count = set.problems.len();
        let calls = [checks(set, library_accepts), checks(set, unproved_accepts)];
        let [time, other] = microseconds(effort, count, calls);
        let [among, solve] = microseconds(effort, count, [checks(set, library_accepts), library_solves(set)]);
        let (ratio, part, part_among) = (time / other, time / solve_time, among / solve);
        let name = family.name();
        println!("{name:<28} {time:>7.1} {other:>9.1} {ratio:>6.2} {part:>14.3} {among:>22.1} {part_among:>5.3}");
    }
    println!("part of solve: the library's check by the library's solve of the same problems");
    println!();
}

fn growth(effort: Effort) {
    println!("growth                           n   m   bytes   solve   check  solve, nanoseconds a byte");
    for family in FAMILIES {
        for (n, m) in [(31, 63), (15, 31), (7, 15), (31, 31), (31, 15), (15, 63), (7, 63)] {
            let set = set(effort, family, n, m);
            let bytes = set.problems[0].len();
            let calls = [library_solves(&set), checks(&set, library_accepts)];
            let [time, check] = microseconds(effort, set.problems.len(), calls);
            let each = 1e3 * time / bytes as f64;
            println!("{:<30} {n:>4} {m:>3} {bytes:>7} {time:>7.1} {check:>7.1} {each:>8.2}", family.name());
        }
    }
}
