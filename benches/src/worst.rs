//! The problem that takes the library's `solve` longest, as far as hill climbing finds it.

use std::time::Instant;

use crate::agree;
use crate::families::{Draft, BLANK, FAMILIES};
use random::Random;
use reference::LARGEST;

const SEED: u64 = 3_000;

/// The shortest of a few calls, in microseconds: what else the machine does only makes a call longer.
fn time(problem: &[u8]) -> f64 {
    let mut buffer = [0; span::ANSWER_SIZE];
    let mut best = f64::INFINITY;
    for _ in 0..3 {
        let start = Instant::now();
        std::hint::black_box(span::raw::solve(problem, &mut buffer));
        best = best.min(start.elapsed().as_secs_f64() * 1e6);
    }
    best
}

fn coefficient(random: &mut Random) -> i32 {
    match random.below(6) {
        0 | 1 => BLANK,
        2 => random.lead(-3, 3),
        3 => random.lead(-60, 60),
        4 => [-LARGEST, LARGEST][random.below(2)],
        _ => random.lead(-LARGEST, LARGEST),
    }
}

/// A few places changed: coefficients, a blanked list, a copied row, two swapped columns.
fn changed(random: &mut Random, draft: &Draft) -> Draft {
    let mut draft = draft.clone();
    let rows = draft.rows.len();
    for _ in 0..1 + random.below(6) {
        let row = random.below(rows);
        let place = random.below(draft.variables);
        match random.below(10) {
            0 => draft.rows[row].0.fill(BLANK),
            1 => draft.rows[row].1.fill(BLANK),
            2 => draft.rows[row] = draft.rows[random.below(rows)].clone(),
            3 => {
                let other = random.below(draft.variables);
                draft.rows[row].0.swap(place, other);
                draft.rows[row].1.swap(place, other);
            }
            4 | 5 => {
                let side = if random.below(2) == 0 { &mut draft.rows[row].0 } else { &mut draft.rows[row].1 };
                if side[place] != BLANK {
                    side[place] = (side[place] + random.lead(-2, 2)).clamp(-LARGEST, LARGEST);
                }
            }
            6 | 7 => draft.rows[row].0[place] = coefficient(random),
            _ => draft.rows[row].1[place] = coefficient(random),
        }
    }
    draft
}

/// Climbs from a problem of each family in turn, and prints the worst.
pub fn search(seconds: f64) {
    println!("worst case of {} at n = 31, m = 63; seed {SEED}; {seconds} s of hill climbing", crate::MEASURED);
    let mut random = Random::new(SEED);
    let climbs = 2 * FAMILIES.len() + 4;
    let mut worst = (0.0, Vec::new());
    let mut tried = 0u64;
    for climb in 0..climbs {
        let start = Instant::now();
        let mut draft = match FAMILIES.get(climb % (FAMILIES.len() + 2)) {
            Some(family) => family.draft(&mut random, 31, 63),
            None => scattered(&mut random),
        };
        let mut top = time(&draft.bytes());
        while start.elapsed().as_secs_f64() < seconds / climbs as f64 {
            let other = changed(&mut random, &draft);
            let bytes = other.bytes();
            let found = time(&bytes);
            tried += 1;
            // A change that looks slower is measured again before it is believed.
            if found >= top && time(&bytes) >= 0.97 * top {
                top = found;
                draft = other;
            }
        }
        let bytes = draft.bytes();
        let top = time(&bytes).min(time(&bytes)).min(time(&bytes));
        let outcome = agree::on(&bytes);
        println!("climb {climb}: {top:.0} µs, class {}, {} trials", outcome.class, outcome.trials);
        if top > worst.0 {
            worst = (top, bytes);
        }
    }
    println!("{tried} problems tried; the worst takes {:.0} µs:", worst.0);
    println!("{}", agree::hex(&worst.1));
}

/// Coefficients of every kind, scattered.
fn scattered(random: &mut Random) -> Draft {
    let mut draft = FAMILIES[0].draft(random, 31, 63);
    for (left, right) in &mut draft.rows {
        for place in left.iter_mut().chain(right) {
            if random.below(3) == 0 {
                *place = coefficient(random);
            }
        }
    }
    draft
}
