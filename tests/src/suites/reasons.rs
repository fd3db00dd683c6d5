//! The rules behind an answer (document 02, 2.5): which rules the tool lists, the binding round, what holds of both, its refusals, and the
//! lines of its program.

use super::bytes::{harmed, seen};
use super::examples::{a, all, e, j};
use super::pipes::cut;
use super::small::every_problem;
use super::tables::every_table;
use super::{answered, expected_check, outcome_of};
use crate::exhaustive::{every_plan, reach, solve};
use crate::generate::{any, changed, kept, sparse, table, Shape};
use crate::paper::{self, mend_length, Answer, Outcome, Problem, Reasons, Row, Span, BUFFER};
use crate::tally::Tally;
use crate::{programs, second};
use random::Random;

/// What document 02 says that the tool must say: the checker's refusals, then 16, then the rules and the round.
fn expected(problem: &[u8], answer: &[u8]) -> Result<Reasons, u64> {
    if expected_check(problem, answer)? == Outcome::Bottomless {
        return Err(16);
    }
    let problem = paper::read_problem(problem)?;
    let answer = paper::read_answer(answer, problem.n(), problem.m())?;
    Ok(paper::reasons(&problem, &answer, &second::reached_by_picks(&problem, &answer)))
}

/// The tool on any bytes: through the package, and in lent places that held noise, of which only the first are written.
pub fn told(tally: &mut Tally, random: &mut Random, problem: &[u8], answer: &[u8]) -> Result<Reasons, u64> {
    let expected = expected(problem, answer);
    let found = match span::reasons(problem, answer) {
        Ok(found) => Ok(Reasons { rules: found.rules, round: found.round }),
        Err(refusal) => Err(refusal.number as u64),
    };
    tally.same("rules and round", &found, &expected, problem, answer);
    let noise =
        |random: &mut Random, count: usize| -> Vec<u64> { (0..count).map(|_| random.below(1 << 30) as u64).collect() };
    let (places, turns) = ([0, 63, 64, 70][random.below(4)], [0, 31, 32, 40][random.below(4)]);
    let (mut rules, mut round) = (noise(random, places), noise(random, turns));
    let (mut rules_due, mut round_due) = (rules.clone(), round.clone());
    let number = match &expected {
        Err(refusal) => *refusal,
        Ok(_) if places < 64 || turns < 32 => 255,
        Ok(due) => {
            for (place, &rule) in due.rules.iter().enumerate() {
                rules_due[place] = rule as u64;
            }
            let moments = due.round.clone().unwrap_or_default();
            for (place, &moment) in moments.iter().enumerate() {
                round_due[place] = moment as u64;
            }
            256 * due.rules.len() as u64 + 65_536 * moments.len() as u64
        }
    };
    tally.same(
        "the result as a number",
        span::raw::reasons(problem, answer, &mut rules, &mut round),
        number,
        problem,
        answer,
    );
    tally.same("the places lent", (&rules, &round), (&rules_due, &round_due), problem, answer);
    expected
}

/// The problem with only these rules and the question.
fn with_only(problem: &Problem, rules: &[usize]) -> Problem {
    Problem {
        rules: rules.iter().map(|rule| problem.rules[rule - 1].clone()).collect(),
        question: problem.question.clone(),
    }
}

/// The round is a reached cycle of the table that goes through distinct moments, uses the question once, and weighs 0 at the span.
fn binds(tally: &mut Tally, problem: &Problem, answer: &Answer, round: &[usize]) {
    let (bytes, record) = (problem.bytes(), answer.bytes(problem.n()));
    let reached = second::reached_by_picks(problem, answer);
    let mut weight = 0;
    let mut questions = 0;
    for (place, &moment) in round.iter().enumerate() {
        let next = round[(place + 1) % round.len()];
        let number = (answer.picks[moment] as usize).wrapping_sub(1);
        let ends =
            (number <= problem.m()).then(|| problem.row(number)).and_then(|row| row.left[moment].zip(row.right[next]));
        let Some((left, right)) = ends else {
            return tally.fail(format!("no arc from {moment} to {next} in {round:?}"), &bytes, &record);
        };
        weight += right - left;
        questions += (number == problem.m()) as i64;
        let fresh = reached[moment] && !round[..place].contains(&moment);
        tally.same("a reached moment that is new", fresh, true, &bytes, &record);
    }
    tally.same("the question once", questions, 1, &bytes, &record);
    tally.same("weight at the least span", weight + answer.span.unwrap_or(0), 0, &bytes, &record);
}

/// An accepted answer of class 1 or 3: what the tool says, and that it holds. The class and span with only these rules are found by
/// `solved`.
fn accepted(
    tally: &mut Tally,
    random: &mut Random,
    problem: &Problem,
    answer: &Answer,
    solved: impl Fn(&Problem) -> Outcome,
) {
    let (bytes, record) = (problem.bytes(), answer.bytes(problem.n()));
    let Ok(found) = told(tally, random, &bytes, &record) else {
        return tally.fail("no reasons for an accepted answer".into(), &bytes, &record);
    };
    let alone = solved(&with_only(problem, &found.rules));
    tally.same("class and span with only these rules", alone, answer.outcome(), &bytes, &record);
    tally.same("a round for class 1 alone", found.round.is_some(), answer.class == 1, &bytes, &record);
    if let Some(round) = &found.round {
        binds(tally, problem, answer, round);
        tally.count(if round.len() == 1 { "rounds of one moment" } else { "longer rounds" });
    }
    tally.count(match (answer.class, answer.start) {
        (1, 0) => "least from the anchor",
        (1, _) => "least from the second list",
        (_, 0) => "none from the anchor",
        _ => "none from the second list",
    });
    if found.rules.len() < problem.m() {
        tally.count("fewer rules than there are");
    }
}

/// Every accepted answer to a small problem, from any engine: every plan of the box with every start and table, and those of none.
fn every_accepted(tally: &mut Tally, random: &mut Random, problem: &Problem, w: i64) {
    let n = problem.n();
    let mut answers: Vec<Answer> = Vec::new();
    let mut plans = vec![(3, None, Vec::new())];
    every_plan(n, reach(n, w), |plan| {
        if let Span::Whole(span) = problem.span(plan) {
            if problem.keeps_the_rules(plan) {
                plans.push((1, Some(span), plan.to_vec()));
            }
        }
    });
    for (class, span, stamps) in plans {
        every_table(n, problem.m(), class, |picks| {
            for start in 0..=1 {
                let answer = Answer { class, span, start, stamps: stamps.clone(), picks: picks.to_vec() };
                if second::accepted(problem, &answer) {
                    answers.push(answer);
                }
            }
        });
    }
    for answer in answers {
        accepted(tally, random, problem, &answer, |alone| solve(alone, w));
    }
}

/// Class and span by the engine.
fn by_engine(problem: &Problem) -> Outcome {
    let mut buffer = [0; BUFFER];
    span::solve(&problem.bytes(), &mut buffer).map_or(Outcome::Bottomless, |solved| outcome_of(solved.outcome))
}

/// The engine's answer, answers changed in one place, and tables drawn at random: told, and where one is accepted, what holds of it. 16
/// for bottomless, after 14.
fn any_answers(tally: &mut Tally, random: &mut Random, problem: &Problem) {
    let (n, m) = (problem.n(), problem.m());
    let bytes = problem.bytes();
    let (_, record) = answered(tally, random, problem);
    let Ok(own) = paper::read_answer(&record, n, m) else { return };
    let mut answers = vec![own.clone()];
    answers.extend((0..4).map(|_| changed(random, problem, &own)));
    answers.extend((1..=3).map(|class| table(random, problem, class)));
    // Other stamps and picks that play no part.
    if own.class != 2 {
        let mut other = own.clone();
        for (pick, reached) in other.picks.iter_mut().zip(second::reached_by_picks(problem, &own)) {
            if !reached {
                *pick = random.below(m + 2) as u64;
            }
        }
        answers.push(other);
    }
    for answer in answers {
        let record = answer.bytes(n);
        match told(tally, random, &bytes, &record) {
            Ok(_) => accepted(tally, random, problem, &answer, by_engine),
            Err(refusal) => tally.count(&format!("refused {refusal}")),
        }
        if answer.class == 2 {
            let due = if second::accepted(problem, &answer) { 16 } else { 14 };
            tally.same("16 after 14", expected(&bytes, &record), Err(due), &bytes, &record);
        }
        let bad = if random.chance(1, 2) {
            (harmed(random, &bytes), record)
        } else {
            (bytes.clone(), harmed(random, &record))
        };
        match told(tally, random, &bad.0, &bad.1) {
            Ok(_) => tally.count("told of harmed bytes"),
            Err(refusal) => tally.count(&format!("refused {refusal}")),
        }
    }
}

/// The program on an input.
pub fn program(tally: &mut Tally, input: &[u8]) {
    let (problem, answer) = cut(input);
    let due = paper::reasons_lines(&expected(problem, answer));
    let found = programs::reasons(input).map(|output| String::from_utf8_lossy(&output).into_owned());
    tally.same("the reasons program", found, Ok(due), input, &[]);
    tally.count("through the reasons program");
    if input.len() > 20_000 {
        tally.count("long inputs");
    }
}

/// The examples with the answers of documents 01 and 02: E prints `rules 1` and `round 0 1`, A `rules` and `round 0`.
fn examples(tally: &mut Tally, random: &mut Random) {
    let of_e = Answer { class: 1, span: Some(30), start: 0, stamps: vec![Some(0), Some(30)], picks: vec![1, 2] };
    let of_a = Answer { class: 1, span: Some(3), start: 0, stamps: vec![Some(0)], picks: vec![1] };
    let of_j =
        Answer { class: 1, span: Some(-10), start: 1, stamps: vec![Some(0), Some(-10), Some(0)], picks: vec![0, 2, 1] };
    let from_second = Answer { start: 1, ..of_e.clone() };
    for (problem, answer, lines) in [
        (e(), of_e, "rules 1\nround 0 1\n"),
        (e(), from_second, "rules 1\nround 0 1\n"),
        (a(), of_a, "rules\nround 0\n"),
        (j(), of_j, "rules 1\nround 2 1\n"),
    ] {
        let (bytes, record) = (problem.bytes(), answer.bytes(problem.n()));
        let words = span::reasons(&bytes, &record).map(|found| found.to_string());
        tally.same("an example's lines", words, Ok(lines.into()), &bytes, &record);
        let input = [bytes.clone(), record.clone()].concat();
        tally.same("an example through the program", programs::reasons(&input), Ok(lines.into()), &bytes, &record);
        for end in 0..=input.len() {
            program(tally, &input[..end]);
        }
    }
    for (name, problem, _) in all() {
        let (outcome, record) = answered(tally, random, &problem);
        let input = [problem.bytes(), record.clone()].concat();
        program(tally, &input);
        let found = programs::reasons(&input).map(|output| String::from_utf8_lossy(&output).into_owned());
        match outcome {
            Outcome::Bottomless => {
                tally.same(&format!("example {name}"), found, Ok("refused 16\n".into()), &input, &record)
            }
            _ => any_answers(tally, random, &problem),
        }
    }
    // The idle day: no bytes, and its record of 18 before an answer.
    let idle = Answer { class: 1, span: Some(0), start: 0, stamps: vec![Some(0)], picks: vec![1] };
    let words = span::reasons(&[], &idle.bytes(0)).map(|found| found.to_string());
    tally.same("the idle day", words, Ok("rules\nround 0\n".into()), &[], &idle.bytes(0));
    program(tally, &[]);
}

/// Rows whose latest right moments are several: the first yields; and a start at the second list's first planned moment, with blank ones
/// before it.
fn ties(tally: &mut Tally, random: &mut Random) {
    for round in 0..3_000 {
        let shape = Shape {
            n: 2 + round % 4,
            m: 1 + round % 5,
            w: 1 + (round % 2) as i64,
            filled: [6, 8, 10][random.below(3)],
        };
        let problem = if round % 2 == 0 { sparse(random, shape) } else { kept(random, shape) };
        if !problem.rules.iter().any(Row::says_nothing) {
            any_answers(tally, random, &problem);
        }
    }
}

/// Long inputs: as the verdict program refuses them.
fn long(tally: &mut Tally, random: &mut Random) {
    let problem = any(random, 31, 63);
    let (_, record) = answered(tally, random, &problem);
    let both = [problem.bytes(), record].concat();
    for size in [19_999, 20_000, 20_001, 20_500, 300_000] {
        let mut input = both.clone();
        input.resize(size.max(both.len()), 7);
        program(tally, &input);
        mend_length(&mut input);
        program(tally, &input);
    }
}

pub fn run(tally: &mut Tally) {
    const SEED: u64 = 25;
    tally.seed(SEED);
    let mut random = Random::new(SEED);
    examples(tally, &mut random);
    // n, m, the width of leads; of the largest ones every so many in the gate.
    for (n, m, w, every) in [(0, 0, 3, 1), (0, 1, 1, 1), (1, 0, 1, 1), (0, 2, 1, 3), (1, 1, 1, 7)] {
        let mut number = 0;
        every_problem(n, m, w, |problem| {
            number += 1;
            let speaks = !problem.rules.iter().any(Row::says_nothing);
            if speaks && (tally.long || number % every == 0) {
                every_accepted(tally, &mut random, problem, w);
                tally.count("problems with every accepted answer");
            }
        });
    }
    for round in 0..if tally.long { 400 } else { 20 } {
        let shape = Shape { n: 2, m: 1 + round % 2, w: 1, filled: [5, 7, 9][random.below(3)] };
        let problem = sparse(&mut random, shape);
        if !problem.rules.iter().any(Row::says_nothing) {
            every_accepted(tally, &mut random, &problem, 1);
        }
    }
    ties(tally, &mut random);
    for round in 0..if tally.long { 20_000 } else { 1_500 } {
        let (n, m) = if round % 8 == 0 { (31, 63) } else { (6, 9) };
        let problem = any(&mut random, n, m);
        any_answers(tally, &mut random, &problem);
        if round % 25 == 0 {
            let (_, record) = answered(tally, &mut random, &problem);
            let input = [problem.bytes(), record].concat();
            program(tally, &input);
            program(tally, &harmed(&mut random, &input));
        }
    }
    long(tally, &mut random);
    for what in [
        "least from the anchor",
        "least from the second list",
        "none from the anchor",
        "none from the second list",
        "rounds of one moment",
        "longer rounds",
        "fewer rules than there are",
        "refused 14",
        "refused 16",
        "long inputs",
    ] {
        seen(tally, what);
    }
}
