//! Random problems and tables.

use crate::paper::{counts, highest_pick, largest, starts, Answer, Minute, Problem, Questions, Row, LONGEST_LEAD};
use random::Random;

/// What a random problem is made of.
#[derive(Clone, Copy)]
pub struct Shape {
    pub n: usize,
    pub m: usize,
    /// Leads are within ±w.
    pub w: i64,
    /// Of ten leads so many are not blank.
    pub filled: usize,
}

fn lead(random: &mut Random, shape: Shape) -> Minute {
    random.chance(shape.filled, 10).then(|| random.within(-shape.w, shape.w))
}

fn list(random: &mut Random, shape: Shape) -> Vec<Minute> {
    (0..=shape.n).map(|_| lead(random, shape)).collect()
}

fn row(random: &mut Random, shape: Shape) -> Row {
    Row { left: list(random, shape), right: list(random, shape) }
}

/// A row that says something: where all its left leads were drawn blank, one is set.
fn rule(random: &mut Random, shape: Shape) -> Row {
    let mut rule = row(random, shape);
    if rule.says_nothing() {
        rule.left[random.below(shape.n + 1)] = Some(random.within(-shape.w, shape.w));
    }
    rule
}

/// Leads drawn one by one; every rule says something.
pub fn free(random: &mut Random, shape: Shape) -> Problem {
    let rules = (0..shape.m).map(|_| rule(random, shape)).collect();
    Problem { rules, question: row(random, shape) }
}

/// Leads drawn one by one, then right leads raised (within ±w) until a hidden plan keeps each rule: often feasible.
pub fn kept(random: &mut Random, shape: Shape) -> Problem {
    let mut problem = free(random, shape);
    let mut plan: Vec<Minute> = (0..=shape.n).map(|_| Some(random.within(-shape.w, shape.w))).collect();
    plan[0] = Some(0);
    for rule in &mut problem.rules {
        let moment = random.below(shape.n + 1);
        if let (Some(left), Some(stamp)) = (largest(&rule.left, &plan), plan[moment]) {
            if largest(&rule.right, &plan) < Some(left) {
                rule.right[moment] = Some((left - stamp).clamp(-shape.w, shape.w));
            }
        }
    }
    problem
}

/// Few leads a row, as wards send them: one or two on each side.
pub fn sparse(random: &mut Random, shape: Shape) -> Problem {
    let few = |random: &mut Random| {
        let mut list = vec![None; shape.n + 1];
        for _ in 0..1 + random.below(2) {
            list[random.below(shape.n + 1)] = Some(random.within(-shape.w, shape.w));
        }
        list
    };
    let mut rules = Vec::new();
    for _ in 0..shape.m {
        rules.push(Row { left: few(random), right: few(random) });
    }
    Problem { rules, question: Row { left: few(random), right: few(random) } }
}

/// A problem of any size and kind.
pub fn any(random: &mut Random, largest_n: usize, largest_m: usize) -> Problem {
    let shape = Shape {
        n: random.below(largest_n + 1),
        m: random.below(largest_m + 1),
        w: [0, 1, 3, 60, 1440, 10_080, LONGEST_LEAD][random.below(7)],
        filled: [1, 2, 4, 7, 10][random.below(5)],
    };
    match random.below(3) {
        0 => free(random, shape),
        1 => kept(random, shape),
        _ => sparse(random, shape),
    }
}

/// So many questions over the rules of a problem: its own, and others with few leads or many, some with a blank list.
pub fn questions(random: &mut Random, problem: Problem, count: usize) -> Questions {
    let n = problem.n();
    let mut questions = vec![problem.question];
    while questions.len() < count {
        let (w, filled) = ([0, 1, 60, LONGEST_LEAD][random.below(4)], [1, 3, 10][random.below(3)]);
        let mut question = row(random, Shape { n, m: 0, w, filled });
        match random.below(6) {
            0 => question.left.fill(None),
            1 => question.right.fill(None),
            _ => {}
        }
        questions.insert(random.below(questions.len() + 1), question);
    }
    Questions { rules: problem.rules, questions }
}

/// So many questions over the rules of a problem of any size and kind.
pub fn any_questions(random: &mut Random, largest_n: usize, largest_m: usize, count: usize) -> Questions {
    let problem = any(random, largest_n, largest_m);
    questions(random, problem, count)
}

/// A start of a class: one that means something, as a rule.
pub fn start(random: &mut Random, problem: &Problem, class: u64) -> u64 {
    let second = problem.second_list();
    if class == 2 && !second.is_empty() && random.chance(9, 10) {
        return second[random.below(second.len())] as u64 + 1;
    }
    let starts = starts(class, problem.n());
    random.within(*starts.start() as i64, *starts.end() as i64) as u64
}

/// A table of a class with a start and picks drawn one by one; for class 1 with a random plan and its own span, if whole.
pub fn table(random: &mut Random, problem: &Problem, class: u64) -> Answer {
    let (n, m) = (problem.n(), problem.m());
    let (stamps, picks) = counts(class, n, m);
    let highest = highest_pick(class, n, m) as usize;
    let picks = (0..picks).map(|_| random.below(highest + 1) as u64).collect();
    let mut plan: Vec<Minute> = (0..stamps).map(|_| random.chance(3, 4).then(|| random.within(-4, 4))).collect();
    let mut span = None;
    if class == 1 {
        plan[0] = Some(0);
        span = match problem.span(&plan) {
            crate::paper::Span::Whole(span) => Some(span),
            _ => Some(random.within(-4, 4)),
        };
    }
    Answer { class, span, start: start(random, problem, class), stamps: plan, picks }
}

/// An answer with one field changed, still of the right form as a rule.
pub fn changed(random: &mut Random, problem: &Problem, answer: &Answer) -> Answer {
    let mut answer = answer.clone();
    let highest = highest_pick(answer.class, problem.n(), problem.m()) as usize;
    let places = answer.stamps.len();
    match (answer.class, random.below(9)) {
        (1, 0) => answer.span = answer.span.map(|span| span + [-1, 1, 2][random.below(3)]),
        (1, 1..=3) if places > 1 => {
            let place = 1 + random.below(places - 1);
            answer.stamps[place] = match (answer.stamps[place], random.below(4)) {
                (Some(_), 0) => None,
                (Some(stamp), 1) => Some(stamp - 1),
                (Some(stamp), 2) => Some(stamp + 1),
                _ => Some(random.within(-100, 100)),
            };
        }
        (_, 4) => {
            let other = 1 + (answer.class + random.below(2) as u64) % 3;
            let picks = answer.picks.clone();
            answer = table(random, problem, other);
            if answer.picks.len() == picks.len() {
                answer.picks = picks;
            }
        }
        (class, 5) => answer.start = start(random, problem, class),
        _ => {
            let place = random.below(answer.picks.len());
            answer.picks[place] = random.below(highest + 1) as u64;
        }
    }
    answer
}
