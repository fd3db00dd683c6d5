//! Two plans into one (document 02, 2.13): every byte of the buffer against a plain loop, each refusal in its order, and what the
//! paper promises of the merged plan.

use super::answered;
use super::bytes::harmed;
use super::small::every_problem;
use crate::exhaustive::every_plan;
use crate::generate::{any, any_questions, free, kept, Shape};
use crate::paper::{self, largest, Minute, Problem, Row, BLANK, LONGEST_STAMP};
use crate::tally::Tally;
use random::Random;

/// Where a lead or stamp is far from every limit.
const LOWEST: i64 = i64::MIN;

pub fn stamps(plan: &[Minute]) -> Vec<u8> {
    plan.iter().flat_map(|stamp| (stamp.unwrap_or(BLANK) as i32).to_le_bytes()).collect()
}

/// The n + 1 stamps of the form of class 1 in these bytes.
fn plan(bytes: &[u8], n: usize) -> Result<Vec<Minute>, u64> {
    if bytes.len() != 4 * (n + 1) {
        return Err(12);
    }
    let field = |field: &[u8]| i32::from_le_bytes([field[0], field[1], field[2], field[3]]) as i64;
    let stamps: Vec<Minute> = bytes.chunks(4).map(field).map(|stamp| (stamp != BLANK).then_some(stamp)).collect();
    let outside = |stamp: &Minute| stamp.is_some_and(|minute| minute.abs() > LONGEST_STAMP);
    if stamps[0] != Some(0) || stamps.iter().any(outside) {
        return Err(12);
    }
    Ok(stamps)
}

/// What the paper says: the merged stamps, or the refusal.
pub fn plain(problem: &[u8], first: &[u8], second: &[u8], shift: i64, buffer: usize) -> Result<Vec<Minute>, u64> {
    let problem = paper::read_problem(problem)?;
    if buffer < 128 {
        return Err(7);
    }
    let first = plan(first, problem.n())?;
    let second = plan(second, problem.n())?;
    if shift > 0 {
        return Err(24);
    }
    if !problem.keeps_the_rules(&first) || !problem.keeps_the_rules(&second) {
        return Err(25);
    }
    let mut merged = Vec::new();
    for moment in 0..=problem.n() {
        // In 128 bits no sum of two numbers of 64 wraps.
        let moved = second[moment].map(|stamp| stamp as i128 + shift as i128);
        let later = first[moment].map(|stamp| stamp as i128).max(moved);
        if later.is_some_and(|minute| minute < -(LONGEST_STAMP as i128)) {
            return Err(26);
        }
        merged.push(later.map(|minute| minute as i64));
    }
    Ok(merged)
}

/// The archive on any bytes and a buffer of any length, which held noise: the number, and every byte of the buffer.
pub fn merge(tally: &mut Tally, random: &mut Random, problem: &[u8], plans: [&[u8]; 2], shift: i64, length: usize) {
    let mut buffer = vec![0; length];
    random.fill(&mut buffer);
    let mut expected = buffer.clone();
    let merged = plain(problem, plans[0], plans[1], shift, length);
    let number = match &merged {
        Ok(plan) => {
            let bytes = stamps(plan);
            expected[..bytes.len()].copy_from_slice(&bytes);
            256 * bytes.len() as u64
        }
        Err(refusal) => *refusal,
    };
    let shown: Vec<u8> = [plans[0], plans[1], &shift.to_le_bytes()].concat();
    tally.same(
        "the result of merging",
        span::raw::merge(problem, plans[0], plans[1], shift, &mut buffer),
        number,
        problem,
        &shown,
    );
    tally.same("every byte of the buffer", &buffer, &expected, problem, &shown);
    tally.count(&match merged {
        Ok(_) => "merged".into(),
        Err(refusal) => format!("refused by {refusal}"),
    });
}

/// What is promised of a merged plan, told from its bytes: it keeps the rules, its anchor is 0, its stamps have the form of class 1, and
/// where both count, it counts and its span is at most the greater of the two.
fn promised(tally: &mut Tally, problem: &Problem, first: &[Minute], second: &[Minute], shift: i64) {
    let bytes = problem.bytes();
    let mut buffer = [0; 128];
    let result = span::raw::merge(&bytes, &stamps(first), &stamps(second), shift, &mut buffer);
    if result & 255 != 0 {
        return;
    }
    let shown = &buffer[..(result >> 8) as usize];
    let Ok(merged) = plan(shown, problem.n()) else {
        return tally.fail("the merged stamps have another form".into(), &bytes, shown);
    };
    tally.same("the merged plan keeps the rules", problem.keeps_the_rules(&merged), true, &bytes, shown);
    let counts = |plan: &[Minute]| largest(&problem.question.right, plan).is_some();
    if counts(first) && counts(second) {
        tally.same("the merged plan counts", counts(&merged), true, &bytes, shown);
        let greater = problem.span(first).max(problem.span(second));
        tally.same("its span is at most the greater", problem.span(&merged) <= greater, true, &bytes, shown);
        tally.count("both count");
    }
}

/// A shift: 0, near it, at the ends of 64 bits and around those of 32 bits.
fn shift(random: &mut Random) -> i64 {
    match random.below(12) {
        0..=3 => 0,
        4..=8 => random.within(-6, 0),
        9 => [LOWEST, LOWEST + 1, i32::MIN as i64, i32::MIN as i64 - 1, -1 << 32, -(1 << 31) + 1][random.below(6)],
        10 => -random.within(0, 3 * LONGEST_STAMP),
        _ => [1, i64::MAX, 1 << 31, 1 << 32][random.below(4)],
    }
}

/// Tiny problems: every pair of plans of a box, kept rules or not, at some shifts.
fn every_pair(tally: &mut Tally, random: &mut Random) {
    for (n, m, w) in [(0, 0, 1), (0, 1, 1), (1, 1, 1)] {
        let mut plans = Vec::new();
        every_plan(n, 2, |plan| plans.push(plan.to_vec()));
        every_problem(n, m, w, |problem| {
            if problem.rules.iter().any(Row::says_nothing) || (m > 0 && n > 0 && !random.chance(1, 32)) {
                return;
            }
            let bytes = problem.bytes();
            for first in &plans {
                for second in &plans {
                    for shift in [0, -1, -3, LOWEST] {
                        merge(tally, random, &bytes, [&stamps(first), &stamps(second)], shift, 128);
                        promised(tally, problem, first, second, shift);
                    }
                }
            }
        });
    }
}

/// Random small problems: pairs of plans that keep the rules, and others.
fn small(tally: &mut Tally, random: &mut Random) {
    for _ in 0..3_000 {
        let shape = Shape {
            n: random.below(4),
            m: random.below(4),
            w: random.within(0, 3),
            filled: [3, 6, 9][random.below(3)],
        };
        let problem = if random.chance(1, 2) { kept(random, shape) } else { free(random, shape) };
        let bytes = problem.bytes();
        let mut keeping = Vec::new();
        every_plan(shape.n, 3, |plan| {
            if problem.keeps_the_rules(plan) {
                keeping.push(plan.to_vec());
            }
        });
        for _ in 0..30 {
            let mut pair = [(); 2].map(|_| match keeping.len() {
                0 => vec![Some(0); shape.n + 1],
                count => keeping[random.below(count)].clone(),
            });
            if random.chance(1, 6) {
                let (which, moment) = (random.below(2), random.below(shape.n + 1));
                pair[which][moment] = random.chance(2, 3).then(|| random.within(-4, 4));
            }
            let shift = shift(random);
            let length = 128 + random.below(9);
            merge(tally, random, &bytes, [&stamps(&pair[0]), &stamps(&pair[1])], shift, length);
            promised(tally, &problem, &pair[0], &pair[1], shift);
        }
    }
}

/// Problems of every size: the plans of the engine's own answers, and these with moments left blank.
fn large(tally: &mut Tally, random: &mut Random) {
    let mut last: Option<(usize, Vec<Minute>)> = None;
    for round in 0..1_500 {
        let (n, m) = if round % 4 == 0 { (31, 63) } else { (9, 9) };
        let problem = any(random, n, m);
        let bytes = problem.bytes();
        let (_, record) = answered(tally, random, &problem);
        let Ok(answer) = paper::read_answer(&record, problem.n(), problem.m()) else { continue };
        let own = if answer.class == 1 { answer.stamps } else { vec![Some(0); problem.n() + 1] };
        let mut other = own.clone();
        for stamp in &mut other[1..] {
            if random.chance(1, 3) {
                *stamp = None;
            }
        }
        let before = last.take().filter(|(width, _)| *width == own.len()).map_or(other.clone(), |(_, plan)| plan);
        for second in [&own, &other, &before] {
            let shift = shift(random);
            merge(tally, random, &bytes, [&stamps(&own), &stamps(second)], shift, 140);
            merge(tally, random, &bytes, [&stamps(second), &stamps(&own)], shift, 128);
            promised(tally, &problem, second, &own, shift);
        }
        last = Some((own.len(), own));
    }
}

/// A problem of n moments with one rule, anchor + 1 ≤ moment 1, and plans for it.
fn line(n: usize) -> Problem {
    let only =
        |moment: usize, lead: i64| (0..=n).map(|place| (place == moment).then_some(lead)).collect::<Vec<Minute>>();
    Problem {
        rules: vec![Row { left: only(0, 1), right: only(1, 0) }],
        question: Row { left: only(1, 0), right: only(0, 0) },
    }
}

/// Every set of faults: the first that applies is given. Sizes of buffers and plans, the anchor, the limits of stamps.
fn refusals(tally: &mut Tally, random: &mut Random) {
    let problem = line(2).bytes();
    let good = stamps(&[Some(0), Some(5), None]);
    let other = stamps(&[Some(0), Some(9), Some(3)]);
    for faults in 0..32 {
        let on = |fault: usize| faults >> fault & 1 == 1;
        let bytes = if on(0) { problem[..problem.len() - 1].to_vec() } else { problem.clone() };
        let length = if on(1) { 127 } else { 128 };
        let broken = if on(4) { stamps(&[Some(0), Some(0), None]) } else { good.clone() };
        let second = if on(2) { other[..8].to_vec() } else { other.clone() };
        let shift = if on(3) { 1 } else { -LONGEST_STAMP - 10 };
        merge(tally, random, &bytes, [&broken, &second], shift, length);
        merge(tally, random, &bytes, [&second, &broken], shift, length);
    }
    for length in 0..140 {
        merge(tally, random, &problem, [&good, &other], 0, length);
        merge(tally, random, &line(31).bytes(), [&stamps(&long(31)), &stamps(&long(31))], 0, length);
    }
    for n in [1, 2, 7, 30, 31] {
        let problem = line(n).bytes();
        let right = stamps(&long(n));
        for wrong in [
            stamps(&long(n)[..n]),
            stamps(&[long(n), vec![None]].concat()),
            right[..right.len() - 1].to_vec(),
            [&right[..], &[0]].concat(),
            vec![],
        ] {
            merge(tally, random, &problem, [&wrong, &right], 0, 128);
            merge(tally, random, &problem, [&right, &wrong], 0, 200);
        }
        for anchor in [None, Some(1), Some(-1), Some(LONGEST_STAMP)] {
            let mut wrong = long(n);
            wrong[0] = anchor;
            merge(tally, random, &problem, [&stamps(&wrong), &right], -1, 128);
            merge(tally, random, &problem, [&right, &stamps(&wrong)], -1, 128);
        }
        for edge in [LONGEST_STAMP, LONGEST_STAMP + 1, -LONGEST_STAMP, -LONGEST_STAMP - 1, BLANK + 1, -BLANK - 1] {
            let mut plan = long(n);
            plan[n] = Some(edge);
            merge(tally, random, &problem, [&stamps(&plan), &right], 0, 128);
            merge(tally, random, &problem, [&right, &stamps(&plan)], 0, 128);
        }
    }
}

/// A plan of the line of n moments: each a minute after the one before.
fn long(n: usize) -> Vec<Minute> {
    (0..=n as i64).map(Some).collect()
}

/// A merged stamp at the limit, and one below it; the first plan's own stamp there; blank in both.
fn limits(tally: &mut Tally, random: &mut Random) {
    let problem = line(2);
    let bytes = problem.bytes();
    for stamp in [-LONGEST_STAMP, -7, 0, 12, LONGEST_STAMP] {
        for beyond in [-2, -1, 0, 1, 2] {
            let shift = -LONGEST_STAMP - stamp + beyond;
            let second = [Some(0), Some(4), Some(stamp)];
            for first in [None, Some(-LONGEST_STAMP), Some(3)] {
                let first = [Some(0), Some(2), first];
                merge(tally, random, &bytes, [&stamps(&first), &stamps(&second)], shift, 128);
                promised(tally, &problem, &first, &second, shift);
            }
        }
    }
    for shift in [LOWEST, LOWEST + 1, -(1 << 32), -(1 << 31), -(1 << 31) - 1, -2 * LONGEST_STAMP - 1, -1, 0] {
        let blank = [Some(0), Some(2), None];
        merge(tally, random, &bytes, [&stamps(&blank), &stamps(&blank)], shift, 128);
        merge(
            tally,
            random,
            &bytes,
            [&stamps(&[Some(0), Some(1), Some(-LONGEST_STAMP)]), &stamps(&long(2))],
            shift,
            128,
        );
        merge(tally, random, &bytes, [&stamps(&blank), &stamps(&long(2))], shift, 128);
    }
}

/// An idle day, kind 3, and problems with any damage.
fn kinds(tally: &mut Tally, random: &mut Random) {
    for plans in [[Some(0)], [None], [Some(1)]] {
        for length in [0, 127, 128, 129] {
            for shift in [0, -1, 1, LOWEST] {
                merge(tally, random, &[], [&stamps(&plans), &stamps(&[Some(0)])], shift, length);
                merge(tally, random, &[], [&stamps(&[Some(0)]), &stamps(&plans)], shift, length);
            }
        }
    }
    for _ in 0..2_000 {
        let problem = any(random, 4, 4);
        let own = stamps(&vec![Some(0); problem.n() + 1]);
        let bad = harmed(random, &problem.bytes());
        let (shift, length) = (shift(random), [127, 128][random.below(2)]);
        merge(tally, random, &bad, [&own, &own], shift, length);
        let count = 1 + random.below(3);
        let several = any_questions(random, 2, 3, count).bytes();
        merge(tally, random, &several, [&own, &own], 0, 128);
    }
}

pub fn run(tally: &mut Tally) {
    let seed = 213;
    tally.seed(seed);
    let mut random = Random::new(seed);
    every_pair(tally, &mut random);
    small(tally, &mut random);
    large(tally, &mut random);
    refusals(tally, &mut random);
    limits(tally, &mut random);
    kinds(tally, &mut random);
    for what in [
        "merged",
        "both count",
        "refused by 3",
        "refused by 7",
        "refused by 12",
        "refused by 17",
        "refused by 24",
        "refused by 25",
        "refused by 26",
    ] {
        tally.same(&format!("some were {what}"), tally.counted(what) > 0, true, &[], &[]);
    }
}
