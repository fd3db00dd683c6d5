//! Every plan in a box that is large enough to tell.
//!
//! With N moments and leads within ±w, stamps go over blank and everything within ±(2(N − 1)w + 2Nw + 1). A best span
//! below −2Nw can only be had by a plan that can be made smaller without end: bottomless. Only plans that count are looked
//! at (document 02, 2.4).

use crate::paper::{Minute, Outcome, Problem, Span};

/// Half the width of the box.
pub fn reach(n: usize, w: i64) -> i64 {
    let moments = n as i64 + 1;
    2 * (moments - 1) * w + 2 * moments * w + 1
}

/// Hands over every plan whose stamps are blank or within ±reach.
pub fn every_plan(n: usize, reach: i64, mut visit: impl FnMut(&[Minute])) {
    let mut plan: Vec<Minute> = vec![None; n + 1];
    plan[0] = Some(0);
    loop {
        visit(&plan);
        // The next plan: count up like the digits of a number, blank first.
        let mut moment = 1;
        loop {
            if moment > n {
                return;
            }
            plan[moment] = match plan[moment] {
                None => Some(-reach),
                Some(stamp) if stamp < reach => Some(stamp + 1),
                Some(_) => None,
            };
            if plan[moment].is_some() {
                break;
            }
            moment += 1;
        }
    }
}

/// Class and least span by definition, over the plans that keep the rules and count.
pub fn solve(problem: &Problem, w: i64) -> Outcome {
    let n = problem.n();
    let mut best = Span::PlusInfinity;
    every_plan(n, reach(n, w), |plan| {
        if best != Span::MinusInfinity {
            let span = problem.span(plan);
            if span < best && problem.counts(plan) && problem.keeps_the_rules(plan) {
                best = span;
            }
        }
    });
    match best {
        Span::PlusInfinity => Outcome::None,
        Span::MinusInfinity => Outcome::Bottomless,
        Span::Whole(span) if span < -2 * (n as i64 + 1) * w => Outcome::Bottomless,
        Span::Whole(span) => Outcome::Least(span),
    }
}
