//! Document 01's examples, A to K and M, and the unstarred ones, as document 02 has them: by 2.4 J gives least −10 and D gives none.

use super::{answered, checked, expected_check};
use crate::exhaustive;
use crate::paper::{read_questions, Answer, Outcome, Problem, Row, BUFFER};
use crate::programs::repository;
use crate::tally::{hex, Tally};
use random::Random;

/// A list of n + 1 leads with some that are not blank.
fn list(n: usize, leads: &[(usize, i64)]) -> Vec<Option<i64>> {
    let mut list = vec![None; n + 1];
    for (moment, lead) in leads {
        list[*moment] = Some(*lead);
    }
    list
}

fn row(n: usize, left: &[(usize, i64)], right: &[(usize, i64)]) -> Row {
    Row { left: list(n, left), right: list(n, right) }
}

/// The anchor.
const A: usize = 0;

pub fn a() -> Problem {
    Problem { rules: vec![], question: row(0, &[(A, 5)], &[(A, 2)]) }
}

pub fn e() -> Problem {
    Problem { rules: vec![row(1, &[(A, 30)], &[(1, 0)])], question: row(1, &[(1, 0)], &[(A, 0)]) }
}

pub fn j() -> Problem {
    Problem { rules: vec![row(2, &[(2, -10)], &[(1, 0)])], question: row(2, &[(1, 0)], &[(2, 0)]) }
}

/// Each example with its outcome.
pub fn all() -> Vec<(&'static str, Problem, Outcome)> {
    let with = |rule: Row| {
        let mut problem = e();
        problem.rules.push(rule);
        problem
    };
    let question =
        |left: &[(usize, i64)], right: &[(usize, i64)]| Problem { rules: vec![], question: row(0, left, right) };
    let f = Problem { question: row(1, &[(A, 0)], &[(1, 0)]), ..e() };
    let i =
        Problem { rules: vec![row(2, &[(A, 60)], &[(1, 0), (2, 15)])], question: row(2, &[(1, 0), (2, 0)], &[(A, 0)]) };
    vec![
        ("A", a(), Outcome::Least(3)),
        ("B", question(&[], &[(A, 2)]), Outcome::Bottomless),
        ("C", question(&[(A, 5)], &[]), Outcome::None),
        ("D", question(&[], &[]), Outcome::None),
        ("E", e(), Outcome::Least(30)),
        ("F", f, Outcome::Bottomless),
        ("G", with(row(1, &[(1, 0)], &[(A, 20)])), Outcome::None),
        ("H", with(row(1, &[(1, 0)], &[(A, 30)])), Outcome::Least(30)),
        ("I", i, Outcome::Least(45)),
        ("J", j(), Outcome::Least(-10)),
        ("K", with(row(1, &[(1, 0)], &[])), Outcome::None),
    ]
}

pub fn run(tally: &mut Tally) {
    let mut random = Random::new(1);
    for (name, problem, expected) in all() {
        let (found, record) = answered(tally, &mut random, &problem);
        tally.same(&format!("example {name}"), found, expected, &problem.bytes(), &record);
        if ["A", "B", "C", "D"].contains(&name) {
            let tried = exhaustive::solve(&problem, 5);
            tally.same(&format!("example {name} by every plan"), tried, expected, &problem.bytes(), &record);
        }
        tally.count("examples");
    }
    bytes_of_a(tally);
    stored(tally, &mut random);
    m(tally);
    limits(tally, &mut random);
}

/// A's bytes are printed in document 01; document 02, 2.4, gives its answer kind 4 and start 0, so that they are 40.
fn bytes_of_a(tally: &mut Tally) {
    let problem = a().bytes();
    tally.same("A's problem", hex(&problem).as_str(), "0E0000000100000000000500000002000000", &problem, &[]);
    let mut buffer = [0; BUFFER];
    let size = span::solve(&problem, &mut buffer).map_or(0, |solved| solved.size);
    let record = &buffer[..size];
    tally.same("A's answer", hex(record).as_str(), "12000000040000000100030000000000000000000100", &problem, record);
    tally.same("A's bytes together", problem.len() + record.len(), 40, &problem, record);
    let words = span::check(&problem, record).map(|certified| certified.to_string());
    tally.same("A's verdict", words, Ok("accepted least 3".into()), &problem, record);
    tally.count("examples by bytes");
}

/// The problems of examples/, stored as bytes, with the outcome that their text expects of each question.
fn stored(tally: &mut Tally, random: &mut Random) {
    let Ok(files) = std::fs::read_dir(repository().join("examples/problems")) else {
        return tally.fail("the folder examples/problems is not there".into(), &[], &[]);
    };
    for path in files.flatten().map(|file| file.path()).filter(|path| path.extension().is_some_and(|end| end == "hex"))
    {
        let digits = std::fs::read_to_string(&path).unwrap_or_default();
        let pairs = digits.trim_end().as_bytes().chunks(2);
        let bytes: Option<Vec<u8>> =
            pairs.map(|pair| u8::from_str_radix(std::str::from_utf8(pair).ok()?, 16).ok()).collect();
        let text = std::fs::read_to_string(path.with_extension("txt")).unwrap_or_default();
        let expected: Vec<&str> = text.lines().filter_map(|line| line.strip_prefix("expect: ")).collect();
        let bytes = bytes.unwrap_or_default();
        let Some(all) = read_questions(&bytes).ok().filter(|all| all.questions.len() == expected.len()) else {
            tally.fail(format!("{} cannot be read", path.display()), &bytes, &[]);
            continue;
        };
        if bytes[4] == 5 {
            // Suspended rules are in no record of kind 1: the record itself is answered and judged.
            let mut record = [0; BUFFER];
            let size = span::solve(&bytes, &mut record).map_or(0, |solved| solved.size);
            let found = span::check(&bytes, &record[..size]).map(|certified| certified.to_string());
            tally.same("a stored question", found, Ok(format!("accepted {}", expected[0])), &bytes, &record[..size]);
        }
        for (number, expected) in expected.iter().enumerate().filter(|_| bytes[4] != 5) {
            let problem = all.alone(number);
            let (_, record) = answered(tally, random, &problem);
            let found = span::check(&problem.bytes(), &record).map(|certified| certified.to_string());
            tally.same("a stored question", found, Ok(format!("accepted {expected}")), &problem.bytes(), &record);
        }
        let found = span::solve_all(&bytes, &mut [0; 8 * BUFFER]).map(|solved| solved.to_string());
        tally.same("a stored example", found, Ok(expected.join(", ")), &bytes, &[]);
        tally.count("stored examples");
    }
    if tally.counted("stored examples") == 0 {
        tally.fail("no stored example was found".into(), &[], &[]);
    }
}

/// M, and its neighbours: E's own table is accepted.
fn m(tally: &mut Tally) {
    let problem = e().bytes();
    for (minute, picks, expected) in [
        (31, [1, 2], Err(14)),
        (30, [1, 2], Ok(Outcome::Least(30))),
        (29, [1, 2], Err(14)),
        (30, [1, 1], Err(14)),
        (30, [1, 0], Err(14)),
        (30, [2, 2], Err(14)),
    ] {
        let answer = Answer {
            class: 1,
            span: Some(minute),
            start: 0,
            stamps: vec![Some(0), Some(minute)],
            picks: picks.to_vec(),
        }
        .bytes(1);
        tally.same("M and its neighbours", checked(&problem, &answer), expected, &problem, &answer);
        tally.same("M by the second checker", expected_check(&problem, &answer), expected, &problem, &answer);
        tally.count("tables of E");
    }
    let words = span::check(
        &problem,
        &Answer { class: 1, span: Some(31), start: 0, stamps: vec![Some(0), Some(31)], picks: vec![1, 2] }.bytes(1),
    );
    tally.same("M's verdict", words.map_err(|refusal| refusal.line()), Err("not certified".into()), &problem, &[]);
}

/// Lead 20,160 accepted, 20,161 refused by 6 (document 02, 2.2); n 31 accepted, 32 refused by 4; m 63 and 64 likewise.
fn limits(tally: &mut Tally, random: &mut Random) {
    let mut buffer = [0; BUFFER];
    let far = [(20_160, 0), (20_161, 6), (-20_160, 0), (-20_161, 6), (i32::MIN as i64 + 1, 6), (i32::MAX as i64, 6)];
    for (lead, refusal) in far.into_iter().chain([(10_081, 0), (-10_081, 0)]) {
        for place in 0..2 {
            let mut question = row(0, &[(A, 1)], &[(A, 1)]);
            if place == 0 {
                question.left[0] = Some(lead);
            } else {
                question.right[0] = Some(lead);
            }
            let problem = Problem { rules: vec![], question }.bytes();
            let found = span::solve(&problem, &mut buffer).map_or_else(|refusal| refusal.number, |_| 0);
            tally.same("a lead at its limit", found, refusal, &problem, &[]);
            tally.count("leads at their limits");
        }
    }
    for (n, m, refusal) in [(31, 0, 0), (32, 0, 4), (0, 63, 0), (0, 64, 4), (31, 63, 0), (32, 63, 4), (31, 64, 4)] {
        let line = row(n, &[(A, 1)], &[(n, 0)]);
        let problem = Problem { rules: vec![line; m], question: row(n, &[(n, 0)], &[(A, 0)]) };
        let bytes = problem.bytes();
        let found = span::solve(&bytes, &mut buffer).map_or_else(|refusal| refusal.number, |_| 0);
        tally.same("n or m at its limit", found, refusal, &bytes, &[]);
        if refusal == 0 {
            answered(tally, random, &problem);
        }
        tally.count("sizes at their limits");
    }
    stamps_at_their_limits(tally);
}

/// A plan with a stamp of ±6,000,000 is accepted, one minute further the answer is refused by 12 (document 02, 2.4). Moment 1 is
/// in no row, so that its stamp is free.
fn stamps_at_their_limits(tally: &mut Tally) {
    let problem = Problem { rules: vec![], question: row(1, &[(A, 0)], &[(A, 0)]) }.bytes();
    for (stamp, expected) in [
        (6_000_000, Ok(Outcome::Least(0))),
        (-6_000_000, Ok(Outcome::Least(0))),
        (3_000_001, Ok(Outcome::Least(0))),
        (6_000_001, Err(12)),
        (-6_000_001, Err(12)),
    ] {
        let answer =
            Answer { class: 1, span: Some(0), start: 0, stamps: vec![Some(0), Some(stamp)], picks: vec![1, 0] }
                .bytes(1);
        tally.same("a stamp at its limit", checked(&problem, &answer), expected, &problem, &answer);
        tally.same("by the second checker", expected_check(&problem, &answer), expected, &problem, &answer);
        tally.count("stamps at their limits");
    }
}
