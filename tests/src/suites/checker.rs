//! The checker against the second checker: on the engine's answers, on answers changed in one place, on problems
//! changed in one place, on random tables. Problems of every size, and the longest spans there are.

use super::{answered, checked, expected_check};
use crate::generate::{self, any, changed, table, Shape};
use crate::paper::{self, Answer, Minute, Outcome, Problem, Row};
use crate::tally::Tally;
use random::Random;

fn judge(tally: &mut Tally, what: &str, problem: &[u8], answer: &[u8]) {
    let found = checked(problem, answer);
    tally.same(what, found, expected_check(problem, answer), problem, answer);
    tally.count(what);
    tally.count(match found {
        Ok(_) => "accepted",
        Err(14) => "not certified",
        Err(_) => "refused by form",
    });
}

pub fn run(tally: &mut Tally) {
    const SEED: u64 = 20_260_101;
    tally.seed(SEED);
    let mut random = Random::new(SEED);
    for round in 0..16_000 {
        let (n, m) = match round % 8 {
            0 => (31, 63),
            1 | 2 => (12, 20),
            _ => (4, 5),
        };
        let problem = any(&mut random, n, m);
        let bytes = problem.bytes();
        let (_, record) = answered(tally, &mut random, &problem);
        let Ok(answer) = paper::read_answer(&record, problem.n(), problem.m()) else { continue };
        for _ in 0..6 {
            let other = changed(&mut random, &problem, &answer).bytes(problem.n());
            judge(tally, "changed answers", &bytes, &other);
        }
        for _ in 0..4 {
            let class = 1 + random.below(3) as u64;
            let other = table(&mut random, &problem, class).bytes(problem.n());
            judge(tally, "random tables", &bytes, &other);
        }
        let mut other = bytes.clone();
        let place = 10 + 4 * random.below((bytes.len() - 10) / 4);
        let lead: Minute = random.chance(2, 3).then(|| random.within(-3, 3));
        other[place..place + 4].copy_from_slice(&(lead.unwrap_or(paper::BLANK) as i32).to_le_bytes());
        judge(tally, "changed problems", &other, &record);
    }
    chains(tally, &mut random);
    full_leads(tally, &mut random);
    heaviest(tally);
}

fn lists(n: usize, left: (usize, i64), right: (usize, i64)) -> Row {
    let mut row = Row { left: vec![None; n + 1], right: vec![None; n + 1] };
    row.left[left.0] = Some(left.1);
    row.right[right.0] = Some(right.1);
    row
}

/// Chains of moments, each as long after the one before as leads allow, or as long before: the longest spans, and the
/// problem that the span is one minute off.
fn chains(tally: &mut Tally, random: &mut Random) {
    let far = paper::LONGEST_LEAD;
    for n in [1, 2, 7, 30, 31] {
        for short in [0, 1, 5] {
            let last = n as i64;
            // Each moment at least 2 × far after the one before: the span from the anchor to the last is least.
            let up: Vec<Row> = (0..n).map(|j| lists(n, (j, far), (j + 1, -far))).collect();
            let question = lists(n, (n, far - short), (0, -far));
            let problem = Problem { rules: up.clone(), question };
            let expected = Outcome::Least(2 * far * last + 2 * far - short);
            let (found, record) = answered(tally, random, &problem);
            tally.same("the longest span", found, expected, &problem.bytes(), &record);
            // Each at most 2 × far after the one before: the span from the last to the anchor is least.
            let down: Vec<Row> = (0..n).map(|j| lists(n, (j + 1, -far), (j, far))).collect();
            let question = lists(n, (0, short - far), (n, far));
            let problem = Problem { rules: down.clone(), question };
            let expected = Outcome::Least(-2 * far * last - 2 * far + short);
            let (found, record) = answered(tally, random, &problem);
            tally.same("the shortest span", found, expected, &problem.bytes(), &record);
            // Both, and the way back too short by some minutes: a contradiction, or exactly one plan.
            let mut both = up;
            both.extend(down);
            both[n].right[0] = Some(far - short);
            let question = lists(n, (n, 0), (0, 0));
            let problem = Problem { rules: both, question };
            let expected = if short == 0 { Outcome::Least(2 * far * last) } else { Outcome::None };
            let (found, record) = answered(tally, random, &problem);
            tally.same("a contradiction by minutes", found, expected, &problem.bytes(), &record);
            tally.count("chains");
        }
    }
    // A chain's plan may also be pulled the other way, and its stamps stay within the record's limits.
    for _ in 0..2_000 {
        let n = 20 + random.below(12);
        let shape = Shape { n, m: 40 + random.below(24), w: far, filled: 1 };
        let mut problem = generate::sparse(random, shape);
        for rule in &mut problem.rules {
            for lead in rule.left.iter_mut().chain(&mut rule.right).flatten() {
                *lead = if *lead < 0 { -far } else { far };
            }
        }
        answered(tally, random, &problem);
        tally.count("problems with leads at their limits");
    }
}

/// Random problems of every density with leads up to the limit, their answers, changed ones and random tables.
fn full_leads(tally: &mut Tally, random: &mut Random) {
    for round in 0..4_000 {
        let (n, m) = if round % 4 == 0 { (31, 63) } else { (random.below(32), random.below(64)) };
        let shape = Shape { n, m, w: paper::LONGEST_LEAD, filled: [1, 2, 4, 7, 10][random.below(5)] };
        let problem = match random.below(3) {
            0 => generate::free(random, shape),
            1 => generate::kept(random, shape),
            _ => generate::sparse(random, shape),
        };
        let bytes = problem.bytes();
        let (_, record) = answered(tally, random, &problem);
        tally.count("problems with full leads");
        let Ok(answer) = paper::read_answer(&record, n, m) else { continue };
        for class in 1..=3 {
            judge(tally, "changed answers", &bytes, &changed(random, &problem, &answer).bytes(n));
            judge(tally, "random tables", &bytes, &table(random, &problem, class).bytes(n));
        }
    }
}

/// Arcs as heavy and as light as leads allow, between all moments and from each to the next alone, by the question and by rules:
/// nowhere do walks grow faster.
fn heaviest(tally: &mut Tally) {
    let far = paper::LONGEST_LEAD;
    for n in [0, 1, 2, 15, 30, 31] {
        for lead in [far, -far] {
            let all = Row { left: vec![Some(-lead); n + 1], right: vec![Some(lead); n + 1] };
            let next: Vec<Row> = (0..=n).map(|j| lists(n, (j, -lead), ((j + 1) % (n + 1), lead))).collect();
            let mut rules = vec![all.clone()];
            rules.extend(next);
            let problem = Problem { rules, question: all };
            let question = problem.m() as u64 + 1;
            let bytes = problem.bytes();
            let chain: Vec<u64> = (0..=n as u64).map(|j| j + 2).collect();
            let mut once = chain.clone();
            once[n] = question;
            let tables = [vec![question; n + 1], vec![1; n + 1], chain, once];
            for (picks, start) in tables.into_iter().flat_map(|picks| [(picks.clone(), 0), (picks, 1)]) {
                let none = Answer { class: 3, span: None, start, stamps: vec![], picks: picks.clone() };
                judge(tally, "heaviest arcs", &bytes, &none.bytes(n));
                let mut least = Answer { class: 1, span: Some(-2 * lead), start, stamps: vec![Some(0); n + 1], picks };
                judge(tally, "heaviest arcs", &bytes, &least.bytes(n));
                least.span = Some(paper::LONGEST_SPAN);
                judge(tally, "heaviest arcs", &bytes, &least.bytes(n));
            }
            for moment in 0..=n as u64 {
                let picks = vec![moment + 1; problem.m() + 1];
                for start in [1, moment + 1, n as u64 + 1] {
                    let bottomless = Answer { class: 2, span: None, start, stamps: vec![], picks: picks.clone() };
                    judge(tally, "heaviest arcs", &bytes, &bottomless.bytes(n));
                }
            }
        }
    }
}
