//! Measuring: the mean over a set of problems of the shortest of many calls.

use std::hint::black_box;
use std::time::Instant;

/// How much is measured.
#[derive(Clone, Copy)]
pub struct Effort {
    /// Problems a family.
    pub problems: usize,
    /// Seconds for each number.
    pub seconds: f64,
}

impl Effort {
    pub fn full() -> Effort {
        Effort { problems: 24, seconds: 0.3 }
    }

    pub fn short() -> Effort {
        Effort { problems: 3, seconds: 0.002 }
    }
}

/// Something to measure: it is given a problem's number.
pub type Call<'a> = Box<dyn FnMut(usize) + 'a>;

/// Microseconds a call, for each of several: a round over all problems, turn about, so that what else the machine does
/// falls on all of them, and none finds a problem fresh in the cache that another has just answered. For each problem the
/// shortest call counts, and the mean over the problems is returned.
pub fn microseconds<const N: usize>(effort: Effort, count: usize, mut calls: [Call; N]) -> [f64; N] {
    let mut best = vec![[f64::INFINITY; N]; count];
    let begin = Instant::now();
    loop {
        for (place, call) in calls.iter_mut().enumerate() {
            for (number, best) in best.iter_mut().enumerate() {
                let start = Instant::now();
                call(black_box(number));
                best[place] = best[place].min(start.elapsed().as_secs_f64() * 1e6);
            }
        }
        if begin.elapsed().as_secs_f64() > effort.seconds * N as f64 {
            break;
        }
    }
    let mut mean = [0.0; N];
    for times in best {
        for (sum, time) in mean.iter_mut().zip(times) {
            *sum += time / count as f64;
        }
    }
    mean
}
