//! A census of small problems (document 02, 2.14): problems a second.

use std::hint::black_box;

use crate::timing::{microseconds, Call, Effort};

/// n, m and w of the longest censuses, 65,536 problems each.
const LONGEST: [(u64, u64, u64); 6] = [(0, 0, 127), (0, 1, 7), (0, 3, 1), (1, 0, 7), (1, 1, 1), (3, 0, 1)];

fn take((n, m, w): (u64, u64, u64)) -> span::Census {
    match span::census(n, m, w) {
        Ok(census) => census,
        Err(refusal) => {
            eprintln!("census {n} {m} {w}: {refusal}");
            std::process::exit(1);
        }
    }
}

/// A line a census.
pub fn print(effort: Effort) {
    println!("census                   n   m    w  problems  seconds  at most  problems a second");
    for longest in LONGEST.into_iter().take(effort.problems) {
        let ((n, m, w), census) = (longest, take(longest));
        let problems = census.least + census.bottomless + census.none + census.refused;
        let call: Call = Box::new(move |_| {
            black_box(take(black_box(longest)));
        });
        let [time] = microseconds(effort, 1, [call]);
        let (seconds, each) = (time / 1e6, problems as f64 / time * 1e6);
        println!("                      {n:>4} {m:>3} {w:>4} {problems:>9} {seconds:>8.3}      1.0 {each:>18.0}");
    }
    println!();
}
