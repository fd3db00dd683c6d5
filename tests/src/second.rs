//! A second checker, from document 01's section "The checker" and document 02, 2.4.
//!
//! Cycles are judged in two ways, neither of them by potentials: on small problems every simple cycle is walked, on all
//! of them the heaviest (or lightest) way between any two moments is built up moment by moment (Floyd and Warshall).

// Loops over numbers, as document 01 speaks of moments and rows.
#![allow(clippy::needless_range_loop)]

use crate::paper::{Answer, Problem, Span};

/// An arc from a moment to a moment.
#[derive(Clone, Copy, Debug)]
struct Arc {
    from: usize,
    to: usize,
    weight: i64,
    by_question: bool,
}

/// Which cycles are asked for.
#[derive(Clone, Copy)]
enum Wanted {
    /// Every reached cycle weighs below zero.
    BelowZero,
    /// Every reached cycle weighs zero or more.
    ZeroOrMore,
}

/// Where reach begins: in classes 1 and 3 at the anchor, or at all moments with a non-blank lead in the second list; in class 2
/// at one of these, and at the anchor.
fn beginning(problem: &Problem, answer: &Answer) -> Vec<usize> {
    match (answer.class, answer.start) {
        (2, start) => vec![0, start as usize - 1],
        (_, 0) => vec![0],
        _ => problem.second_list(),
    }
}

/// The moments that reach begins at, and those that arcs lead to from there.
fn reached(moments: usize, beginning: Vec<usize>, leads_to: impl Fn(usize) -> Vec<usize>) -> Vec<bool> {
    let mut marks = vec![false; moments];
    let mut waiting = beginning;
    while let Some(moment) = waiting.pop() {
        if !marks[moment] {
            marks[moment] = true;
            waiting.extend(leads_to(moment));
        }
    }
    marks
}

/// Classes 1 and 3: where moment j leads.
fn led_by_pick(problem: &Problem, picks: &[u64], moment: usize) -> Vec<usize> {
    match picks[moment] {
        0 => Vec::new(),
        pick => {
            let right = &problem.row(pick as usize - 1).right;
            (0..right.len()).filter(|&l| right[l].is_some()).collect()
        }
    }
}

/// Class 2: where moment j leads.
fn led_by_rows(problem: &Problem, picks: &[u64], moment: usize) -> Vec<usize> {
    let rows = (0..=problem.m()).filter(|&i| problem.row(i).left[moment].is_some() && picks[i] != 0);
    rows.map(|i| picks[i] as usize - 1).collect()
}

/// Classes 1 and 3: the reached moments.
pub fn reached_by_picks(problem: &Problem, answer: &Answer) -> Vec<bool> {
    reached(problem.n() + 1, beginning(problem, answer), |j| led_by_pick(problem, &answer.picks, j))
}

/// Picks that play no part, for an accepted answer: those of moments or rows that are not reached.
pub fn plays_no_part(problem: &Problem, answer: &Answer) -> Vec<bool> {
    let moments = problem.n() + 1;
    if answer.class == 2 {
        let marks = reached(moments, beginning(problem, answer), |j| led_by_rows(problem, &answer.picks, j));
        let in_use = |i: usize| (0..moments).any(|j| marks[j] && problem.row(i).left[j].is_some());
        (0..=problem.m()).map(|i| !in_use(i)).collect()
    } else {
        reached_by_picks(problem, answer).iter().map(|mark| !mark).collect()
    }
}

/// The arcs of classes 1 and 3 from reached moments; `None` where a reached moment has no pick that counts.
fn arcs_by_picks(problem: &Problem, answer: &Answer) -> Option<Vec<Arc>> {
    let picks = &answer.picks;
    let marks = reached_by_picks(problem, answer);
    let mut arcs = Vec::new();
    for from in (0..=problem.n()).filter(|&j| marks[j]) {
        if picks[from] == 0 {
            return None;
        }
        let number = picks[from] as usize - 1;
        let row = problem.row(number);
        let left = row.left[from]?;
        for (to, right) in row.right.iter().enumerate() {
            if let Some(right) = right {
                arcs.push(Arc { from, to, weight: right - left, by_question: number == problem.m() });
            }
        }
    }
    Some(arcs)
}

/// The arcs of class 2 from reached moments; `None` where a row in use picks no moment that counts.
fn arcs_by_rows(problem: &Problem, answer: &Answer) -> Option<Vec<Arc>> {
    let picks = &answer.picks;
    let marks = reached(problem.n() + 1, beginning(problem, answer), |j| led_by_rows(problem, picks, j));
    let mut arcs = Vec::new();
    for number in 0..=problem.m() {
        let row = problem.row(number);
        for from in (0..=problem.n()).filter(|&j| marks[j]) {
            if let Some(left) = row.left[from] {
                if picks[number] == 0 {
                    return None;
                }
                let to = picks[number] as usize - 1;
                let right = row.right[to]?;
                arcs.push(Arc { from, to, weight: right - left, by_question: number == problem.m() });
            }
        }
    }
    Some(arcs)
}

/// Whether some cycle uses an arc by the question: whether a way leads back from its end to its start.
fn question_in_a_cycle(arcs: &[Arc], moments: usize) -> bool {
    arcs.iter().filter(|arc| arc.by_question).any(|arc| {
        let mut marks = vec![false; moments];
        let mut waiting = vec![arc.to];
        while let Some(moment) = waiting.pop() {
            if !marks[moment] {
                marks[moment] = true;
                waiting.extend(arcs.iter().filter(|next| next.from == moment).map(|next| next.to));
            }
        }
        marks[arc.from]
    })
}

/// Every cycle of these arcs is as wanted, by the heaviest way between any two moments through the first k.
fn cycles_by_ways(arcs: &[Arc], moments: usize, wanted: Wanted) -> bool {
    let sign = match wanted {
        Wanted::BelowZero => 1,
        Wanted::ZeroOrMore => -1,
    };
    let bad = |weight: i64| match wanted {
        Wanted::BelowZero => weight >= 0,
        Wanted::ZeroOrMore => weight > 0,
    };
    let mut ways: Vec<Vec<Option<i64>>> = vec![vec![None; moments]; moments];
    for arc in arcs {
        let way = &mut ways[arc.from][arc.to];
        *way = (*way).max(Some(sign * arc.weight));
    }
    for middle in 0..moments {
        if ways[middle][middle].is_some_and(bad) {
            return false;
        }
        for from in 0..moments {
            let Some(first) = ways[from][middle] else { continue };
            for to in 0..moments {
                if let Some(second) = ways[middle][to] {
                    ways[from][to] = ways[from][to].max(Some(first + second));
                }
            }
        }
    }
    (0..moments).all(|moment| !ways[moment][moment].is_some_and(bad))
}

/// The same by walking every simple cycle: from its smallest moment, through larger ones, back.
fn cycles_by_walking(arcs: &[Arc], moments: usize, wanted: Wanted) -> bool {
    fn walk(arcs: &[Arc], start: usize, at: usize, weight: i64, on_way: &mut [bool], wanted: Wanted) -> bool {
        arcs.iter().filter(|arc| arc.from == at && arc.to >= start).all(|arc| {
            let weight = weight + arc.weight;
            if arc.to == start {
                return match wanted {
                    Wanted::BelowZero => weight < 0,
                    Wanted::ZeroOrMore => weight >= 0,
                };
            }
            if on_way[arc.to] {
                return true;
            }
            on_way[arc.to] = true;
            let good = walk(arcs, start, arc.to, weight, on_way, wanted);
            on_way[arc.to] = false;
            good
        })
    }
    (0..moments).all(|start| walk(arcs, start, start, 0, &mut vec![false; moments], wanted))
}

/// Moments up to which every simple cycle is walked.
const FEW: usize = 5;

fn cycles(arcs: &[Arc], moments: usize, wanted: Wanted) -> bool {
    let good = cycles_by_ways(arcs, moments, wanted);
    if moments <= FEW {
        assert_eq!(good, cycles_by_walking(arcs, moments, wanted), "the second checker's two methods differ: {arcs:?}");
    }
    good
}

/// Whether an answer of the right form is accepted.
pub fn accepted(problem: &Problem, answer: &Answer) -> bool {
    let moments = problem.n() + 1;
    match answer.class {
        1 => {
            let Some(s) = answer.span else { return false };
            if !problem.keeps_the_rules(&answer.stamps) || problem.span(&answer.stamps) != Span::Whole(s) {
                return false;
            }
            let Some(mut arcs) = arcs_by_picks(problem, answer) else { return false };
            for arc in arcs.iter_mut().filter(|arc| arc.by_question) {
                arc.weight += s - 1;
            }
            cycles(&arcs, moments, Wanted::BelowZero)
        }
        2 => {
            // The start names a moment with a non-blank lead in the second list.
            if problem.question.right[answer.start as usize - 1].is_none() {
                return false;
            }
            let Some(arcs) = arcs_by_rows(problem, answer) else { return false };
            !question_in_a_cycle(&arcs, moments) && cycles(&arcs, moments, Wanted::ZeroOrMore)
        }
        _ => {
            let Some(arcs) = arcs_by_picks(problem, answer) else { return false };
            !question_in_a_cycle(&arcs, moments) && cycles(&arcs, moments, Wanted::BelowZero)
        }
    }
}
