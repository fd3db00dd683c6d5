//! A span is about somebody (document 02, 2.4): plans that count, answers of kind 4, and where reach begins.

use super::bytes::seen;
use super::examples::{all, e, j};
use super::small::every_problem;
use super::{answered, checked, expected_check};
use crate::exhaustive;
use crate::generate::{any, table};
use crate::paper::{self, mend_length, Answer, Minute, Outcome, Problem, Row, BUFFER};
use crate::tally::Tally;
use random::Random;

/// The checker and the second checker on a record, which both have to say this.
fn says(tally: &mut Tally, what: &str, problem: &Problem, record: &[u8], expected: Result<Outcome, u64>) {
    let bytes = problem.bytes();
    tally.same(what, checked(&bytes, record), expected, &bytes, record);
    tally.same(&format!("{what}, by the second checker"), expected_check(&bytes, record), expected, &bytes, record);
    tally.count(what);
}

/// The checker on a record; the second checker says what is right.
fn judge(tally: &mut Tally, what: &str, problem: &Problem, record: &[u8]) -> Result<Outcome, u64> {
    let bytes = problem.bytes();
    let expected = expected_check(&bytes, record);
    tally.same(what, checked(&bytes, record), expected, &bytes, record);
    tally.count(what);
    expected
}

/// The reader's refusal, 0 where it reads.
fn read(record: &[u8], n: u64, m: u64) -> u64 {
    span::raw::read(record, n, m, &mut [0; 32], &mut [0; 64]) & 255
}

/// Every start from 0 to n + 3, and some far off, in each class: with the engine's own answer, and with a table drawn at random. A
/// start that the class does not have gets 10, whatever else is wrong; one of class 2 that names a moment with a blank lead in the second
/// list is not certified.
fn every_start(tally: &mut Tally, random: &mut Random, problem: &Problem) {
    let (n, m) = (problem.n(), problem.m());
    let (_, record) = answered(tally, random, problem);
    let Ok(own) = paper::read_answer(&record, n, m) else { return };
    let far = [255, 256, 257, 65_535];
    for class in 1..=3 {
        let mut answer = if own.class == class { own.clone() } else { table(random, problem, class) };
        for start in (0..=n as u64 + 3).chain(far) {
            answer.start = start;
            let record = answer.bytes(n);
            let found = judge(tally, "answers with every start", problem, &record);
            let known = if class == 2 { start >= 1 && start <= n as u64 + 1 } else { start <= 1 };
            tally.same("10 for no start of the class", found == Err(10), !known, &problem.bytes(), &record);
            tally.same("the reader's 10", read(&record, n as u64, m as u64) == 10, !known, &[], &record);
            if class == 2 && known && problem.question.right[start as usize - 1].is_none() {
                tally.same("a blank lead in the second list", found, Err(14), &problem.bytes(), &record);
                tally.count("starts at a blank lead in the second list");
            }
            tally.count(&format!(
                "class {class} {}",
                found.map_or_else(|number| number.to_string(), |_| "accepted".into())
            ));
        }
    }
}

/// Other kinds than 4, kind 2 among them, get 10; so do the records of before, with their header of 14 bytes.
fn kinds(tally: &mut Tally, random: &mut Random, problem: &Problem) {
    let (n, m) = (problem.n(), problem.m());
    let (_, record) = answered(tally, random, problem);
    for kind in [0u16, 1, 2, 3, 5, 6, 0x0104, 0x0204, 0x0400, 0xFFFF] {
        let mut other = record.clone();
        other[4..6].copy_from_slice(&kind.to_le_bytes());
        says(tally, "another kind", problem, &other, Err(10));
        tally.same("the reader on another kind", read(&other, n as u64, m as u64), 10, &[], &other);
    }
    let mut before = record.clone();
    before.drain(14..16);
    before[4] = 2;
    mend_length(&mut before);
    says(tally, "a record of kind 2 as it was", problem, &before, Err(10));
}

/// A wrong start comes before 11: with another n in the record, and with a size that does not fit. It is judged by the n that is handed
/// in, also where the record's own differs.
fn before_11(tally: &mut Tally, random: &mut Random, problem: &Problem) {
    let (n, m) = (problem.n(), problem.m());
    for class in 1..=3 {
        let mut answer = table(random, problem, class);
        for start in 0..=n as u64 + 3 {
            answer.start = start;
            let known = paper::starts(class, n).contains(&start);
            let expected = if known { 11 } else { 10 };
            let mut longer = answer.bytes(n);
            longer.extend([0; 2]);
            mend_length(&mut longer);
            says(tally, "a start, and a size that does not fit", problem, &longer, Err(expected));
            for own in [0, n + 1, n + 2, 40, 255].into_iter().filter(|&own| own != n) {
                let mut other = answer.bytes(n);
                other[6] = own as u8;
                says(tally, "a start, and another n in the record", problem, &other, Err(expected));
                tally.same("the reader's n decides", read(&other, n as u64, m as u64), expected, &[], &other);
            }
        }
    }
    // The record of a larger problem: its start is judged by the n of the one that is handed in.
    for own in n + 1..=(n + 4).min(31) {
        let answer = Answer { class: 2, span: None, start: own as u64 + 1, stamps: vec![], picks: vec![0; m + 1] };
        let record = answer.bytes(own);
        tally.same("the start of a larger problem", read(&record, n as u64, m as u64), 10, &[], &record);
        tally.same("the start of its own problem", read(&record, own as u64, m as u64), 0, &[], &record);
        let answer = Answer { start: n as u64 + 1, ..answer };
        let record = answer.bytes(own);
        tally.same("a start that both have", read(&record, n as u64, m as u64), 11, &[], &record);
        tally.count("starts and two n");
    }
}

/// An empty second list: no plan counts, so there is none; start 1 reaches nothing, so that every table shows it. No answer of another
/// class is accepted.
fn empty_second_lists(tally: &mut Tally, random: &mut Random, problem: &Problem) {
    let (n, m) = (problem.n(), problem.m());
    let mut problem = problem.clone();
    problem.question.right.fill(None);
    let bytes = problem.bytes();
    let (found, record) = answered(tally, random, &problem);
    tally.same("an empty second list", found, Outcome::None, &bytes, &record);
    if let Ok(answer) = paper::read_answer(&record, n, m) {
        let idle = answer.start == 0 || answer.picks.iter().all(|&pick| pick == 0);
        tally.same("start 1 reaches nothing, so all picks are 0", idle, true, &bytes, &record);
    }
    for _ in 0..4 {
        let mut answer = table(random, &problem, 3);
        answer.start = 1;
        says(tally, "any table from an empty second list", &problem, &answer.bytes(n), Ok(Outcome::None));
        says(tally, "bottomless with no second list", &problem, &table(random, &problem, 2).bytes(n), Err(14));
        says(tally, "least with no second list", &problem, &table(random, &problem, 1).bytes(n), Err(14));
    }
}

/// J: only plans with moment 2 count, and its table starts at the second list, whatever the anchor picks. A plan without it is not
/// certified, nor is the table from the anchor.
fn of_j(tally: &mut Tally) {
    let stamps = |one: Minute, two: Minute| vec![Some(0), one, two];
    let good = Answer { class: 1, span: Some(-10), start: 1, stamps: stamps(Some(-10), Some(0)), picks: vec![0, 2, 1] };
    let least = Ok(Outcome::Least(-10));
    for (answer, expected) in [
        (good.clone(), least),
        (Answer { picks: vec![1, 2, 1], ..good.clone() }, least),
        (Answer { stamps: stamps(Some(5_999_990), Some(6_000_000)), ..good.clone() }, least),
        (Answer { start: 0, ..good.clone() }, Err(14)),
        (Answer { start: 0, picks: vec![1, 2, 1], ..good.clone() }, Err(14)),
        (Answer { stamps: stamps(None, None), ..good.clone() }, Err(14)),
        (Answer { stamps: stamps(Some(-10), None), ..good.clone() }, Err(14)),
        (Answer { stamps: stamps(None, Some(0)), ..good.clone() }, Err(14)),
        (Answer { span: Some(-9), stamps: stamps(Some(-9), Some(0)), ..good.clone() }, Err(14)),
        (Answer { picks: vec![0, 2, 0], ..good.clone() }, Err(14)),
        (Answer { picks: vec![0, 0, 1], ..good.clone() }, Err(14)),
    ] {
        says(tally, "tables of J", &j(), &answer.bytes(2), expected);
    }
    for start in 1..=3 {
        for picks in [[0, 0], [2, 0], [2, 3]] {
            let answer = Answer { class: 2, span: None, start, stamps: vec![], picks: picks.to_vec() };
            says(tally, "J is not bottomless", &j(), &answer.bytes(2), Err(14));
        }
    }
}

/// D has none, from its second list alone; M and E's own table with each start.
fn of_d_and_e(tally: &mut Tally) {
    let (_, d, _) = all().into_iter().find(|(name, _, _)| *name == "D").expect("example D");
    for (start, pick, expected) in
        [(1, 0, Ok(Outcome::None)), (1, 1, Ok(Outcome::None)), (0, 0, Err(14)), (0, 1, Err(14)), (2, 0, Err(10))]
    {
        let answer = Answer { class: 3, span: None, start, stamps: vec![], picks: vec![pick] };
        says(tally, "tables of D", &d, &answer.bytes(0), expected);
    }
    let bottomless = Answer { class: 2, span: None, start: 1, stamps: vec![], picks: vec![0] };
    says(tally, "D is not bottomless", &d, &bottomless.bytes(0), Err(14));
    for (minute, start, expected) in [
        (30, 0, Ok(Outcome::Least(30))),
        (30, 1, Ok(Outcome::Least(30))),
        (30, 2, Err(10)),
        (31, 0, Err(14)),
        (31, 1, Err(14)),
    ] {
        let stamps = vec![Some(0), Some(minute)];
        let answer = Answer { class: 1, span: Some(minute), start, stamps, picks: vec![1, 2] };
        says(tally, "M and E with each start", &e(), &answer.bytes(1), expected);
    }
}

/// Where the anchor and the second list have nothing to do with each other: the second list's part alone is held up (start 1), the
/// anchor's part alone contradicts itself (start 0), and both are needed for bottomless.
fn apart(tally: &mut Tally, random: &mut Random) {
    let lead = |moment: usize, minutes: i64| {
        let mut list = vec![None; 3];
        list[moment] = Some(minutes);
        list
    };
    let rule = |from: (usize, i64), to: (usize, i64)| Row { left: lead(from.0, from.1), right: lead(to.0, to.1) };
    let question = Row { left: lead(1, 0), right: lead(2, 0) };
    let held = rule((2, 7), (1, 0));
    let broken = rule((0, 1), (0, 0));
    let no_second = Row { left: lead(2, 0), right: vec![None; 3] };
    for (rules, expected, starts) in [
        (vec![held.clone()], Outcome::Least(7), &[1][..]),
        (vec![], Outcome::Bottomless, &[3]),
        (vec![broken.clone()], Outcome::None, &[0]),
        (vec![held.clone(), broken.clone()], Outcome::None, &[0]),
        (vec![no_second.clone()], Outcome::None, &[1]),
        (vec![no_second.clone(), broken.clone()], Outcome::None, &[0, 1]),
        (vec![rule((0, 5), (0, 5))], Outcome::Bottomless, &[3]),
    ] {
        let problem = Problem { rules, question: question.clone() };
        let (found, record) = answered(tally, random, &problem);
        tally.same("the anchor and the second list apart", found, expected, &problem.bytes(), &record);
        tally.same("by every plan", exhaustive::solve(&problem, 7), expected, &problem.bytes(), &record);
        let start = paper::read_answer(&record, 2, problem.m()).map(|answer| answer.start);
        let possible = start.is_ok_and(|start| starts.contains(&start));
        tally.same("a start from which a table shows it", possible, true, &problem.bytes(), &record);
        every_start(tally, random, &problem);
    }
    // In class 2 reach begins at the anchor too: a table that saves the start alone is not certified.
    let problem = Problem { rules: vec![broken], question };
    for picks in [[0, 0], [0, 3], [1, 3]] {
        let answer = Answer { class: 2, span: None, start: 3, stamps: vec![], picks: picks.to_vec() };
        says(tally, "bottomless from the start alone", &problem, &answer.bytes(2), Err(14));
    }
}

pub fn run(tally: &mut Tally) {
    const SEED: u64 = 208;
    tally.seed(SEED);
    let mut random = Random::new(SEED);
    of_j(tally);
    of_d_and_e(tally);
    apart(tally, &mut random);
    for (n, m, w, every) in [(0, 0, 2, 1), (0, 1, 1, 1), (1, 0, 1, 1), (1, 1, 1, 5)] {
        let mut number = 0;
        every_problem(n, m, w, |problem| {
            number += 1;
            let speaks = !problem.rules.iter().any(Row::says_nothing);
            if speaks && (tally.long || number % every == 0) {
                every_start(tally, &mut random, problem);
                before_11(tally, &mut random, problem);
                kinds(tally, &mut random, problem);
                empty_second_lists(tally, &mut random, problem);
            }
        });
    }
    for round in 0..if tally.long { 40_000 } else { 2_000 } {
        let (n, m) = if round % 8 == 0 { (31, 63) } else { (5, 6) };
        let problem = any(&mut random, n, m);
        every_start(tally, &mut random, &problem);
        before_11(tally, &mut random, &problem);
        kinds(tally, &mut random, &problem);
        empty_second_lists(tally, &mut random, &problem);
    }
    // 207 bytes are too short by one, whichever class is due.
    for (name, problem, _) in all() {
        let bytes = problem.bytes();
        for (length, expected) in [(206, 7), (BUFFER - 1, 7), (BUFFER, 0)] {
            let found = span::raw::solve(&bytes, &mut vec![0; length]) & 255;
            tally.same(&format!("a buffer of {length} bytes for {name}"), found, expected, &bytes, &[]);
        }
    }
    for what in
        ["least from the anchor", "least from the second list", "none from the anchor", "none from the second list"]
    {
        seen(tally, what);
    }
    for what in [
        "class 1 accepted",
        "class 2 accepted",
        "class 3 accepted",
        "class 1 10",
        "class 2 10",
        "class 3 10",
        "class 2 14",
    ] {
        seen(tally, what);
    }
}
