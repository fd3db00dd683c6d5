//! Suspended rules (document 02, 2.10): problems of kind 5 against the kind 1 record of the rules in force.

use super::bytes::{self, harmed, seen};
use super::small::every_problem;
use super::tables::every_table;
use super::{answered, answered_as, checked, expected_check, merging, reasons};
use crate::exhaustive::{self, every_plan};
use crate::generate::any;
use crate::paper::{self, mend_length, read_answer, starts, Answer, Minute, Outcome, Problem, Row, Stated, BUFFER};
use crate::programs;
use crate::tally::Tally;
use random::Random;

/// Every set of states of m rules.
fn every_states(m: usize) -> impl Iterator<Item = Vec<u64>> {
    (0..1u64 << m).map(move |set| (0..m).map(|rule| set >> rule & 1).collect())
}

/// The answer with the numbers of the rules in force: picks of suspended rules become 0; class 2 drops the picks of their rows.
fn renumbered(stated: &Stated, answer: &Answer) -> Answer {
    let before = |rule: usize| stated.states[..rule].iter().sum::<u64>();
    let m = stated.states.len();
    let mut renumbered = answer.clone();
    if answer.class == 2 {
        let mut rows = stated.states.iter().chain([&1]);
        renumbered.picks.retain(|_| rows.next() == Some(&1));
    } else {
        for pick in renumbered.picks.iter_mut().filter(|pick| **pick > 0) {
            let row = *pick as usize - 1;
            *pick = if row < m && stated.states[row] == 0 { 0 } else { before(row) + 1 };
        }
    }
    renumbered
}

/// An answer is accepted for the record of kind 5 exactly when its renumbering is for the kind 1 record of the rules in force; and as the
/// second checker says.
fn judged(tally: &mut Tally, stated: &Stated, answer: &Answer) -> bool {
    let n = stated.problem.n();
    let (problem, record) = (stated.bytes(), answer.bytes(n));
    let found = checked(&problem, &record);
    let other = checked(&stated.only_in_force().bytes(), &renumbered(stated, answer).bytes(n));
    tally.same("accepted as the renumbered answer", found.is_ok(), other.is_ok(), &problem, &record);
    tally.same("the checker", found, expected_check(&problem, &record), &problem, &record);
    tally.count(if found.is_ok() { "accepted" } else { "not accepted" });
    found.is_ok()
}

/// The engine on a record of kind 5: class and span are those of the rules in force, picks of suspended rules are 0, and no moment that
/// plays a part picks one.
fn solved(tally: &mut Tally, random: &mut Random, stated: &Stated) -> (Outcome, Answer) {
    let bytes = stated.bytes();
    let (found, record) = answered_as(tally, random, &stated.lifted(), bytes.clone());
    let only = stated.only_in_force();
    let (outcome, _) = answered(tally, random, &only);
    tally.same("class and span of the rules in force", found, outcome, &bytes, &record);
    let answer = read_answer(&record, stated.problem.n(), stated.problem.m()).expect("the engine's own answer");
    for (rule, _) in stated.states.iter().enumerate().filter(|(_, state)| **state == 0) {
        let none = match answer.class {
            2 => answer.picks[rule] == 0,
            _ => answer.picks.iter().all(|pick| *pick != rule as u64 + 1),
        };
        tally.same("no pick of or by a suspended rule", none, true, &bytes, &record);
    }
    judged(tally, stated, &answer);
    reasoned(tally, random, stated, &answer);
    (found, answer)
}

/// The rules behind an answer (document 02, 2.5): never a suspended one, and those behind the renumbered answer, with the same round.
fn reasoned(tally: &mut Tally, random: &mut Random, stated: &Stated, answer: &Answer) {
    let n = stated.problem.n();
    let (problem, record) = (stated.bytes(), answer.bytes(n));
    let found = reasons::told(tally, random, &problem, &record);
    let mut other = reasons::told(tally, random, &stated.only_in_force().bytes(), &renumbered(stated, answer).bytes(n));
    if let Ok(found) = &found {
        let none = found.rules.iter().all(|rule| stated.states[rule - 1] == 1);
        tally.same("no suspended rule behind an answer", none, true, &problem, &record);
        tally.count("rules behind an answer");
    }
    if let Ok(other) = &mut other {
        let in_force: Vec<usize> = (1..=stated.states.len()).filter(|rule| stated.states[rule - 1] == 1).collect();
        other.rules = other.rules.iter().map(|rule| in_force[rule - 1]).collect();
    }
    tally.same("rules and round of the rules in force", found, other, &problem, &record);
}

/// Every small problem with every set of states, against every plan; every table against the renumbered one.
fn small(tally: &mut Tally, random: &mut Random) {
    for (n, m, w, every) in [(0, 0, 3, 1), (0, 1, 1, 1), (0, 2, 1, 7), (1, 1, 1, 11), (1, 2, 0, 5)] {
        let mut number = 0;
        every_problem(n, m, w, |problem| {
            number += 1;
            if number % every != 0 || problem.rules.iter().any(Row::says_nothing) {
                return;
            }
            for states in every_states(m) {
                let stated = Stated { problem: problem.clone(), states };
                let expected = exhaustive::solve(&stated.only_in_force(), w);
                let (found, answer) = solved(tally, random, &stated);
                tally.same("class and span by every plan", found, expected, &stated.bytes(), &[]);
                tally.count("problems with their states");
                for class in 1..=3 {
                    let (span, stamps) = match (class, found) {
                        (1, Outcome::Least(span)) => (Some(span), answer.stamps.clone()),
                        (1, _) => continue,
                        _ => (None, Vec::new()),
                    };
                    every_table(n, m, class, |picks| {
                        for start in starts(class, n) {
                            let table = Answer { class, span, start, stamps: stamps.clone(), picks: picks.to_vec() };
                            if judged(tally, &stated, &table) {
                                reasoned(tally, random, &stated, &table);
                            }
                        }
                    });
                }
            }
        });
    }
}

/// Refusals in their order, on a record of kind 5 and m rules.
fn orders(tally: &mut Tally, random: &mut Random) {
    let line = Row { left: vec![None, Some(1)], right: vec![Some(2), None] };
    for m in [1usize, 2, 5, 63] {
        let problem = Problem { rules: vec![line.clone(); m], question: line.clone() };
        for rule in 0..m {
            for suspended in [0, 1] {
                let mut states = vec![suspended; m];
                let good = Stated { problem: problem.clone(), states: states.clone() };
                // A wrong lead in a rule, in force or suspended: 6.
                let mut lead = good.clone();
                lead.problem.rules[rule].right[1] = Some(20_161);
                refused(tally, random, &lead.bytes(), 6);
                // A left list all blank: 17.
                let mut silent = good.clone();
                silent.problem.rules[rule].left.fill(None);
                refused(tally, random, &silent.bytes(), 17);
                for state in [2, 256, 257, 65_535] {
                    states[rule] = state;
                    let wrong = Stated { problem: problem.clone(), states: states.clone() };
                    refused(tally, random, &wrong.bytes(), 20);
                    // 20 before 6 and 17, after 5.
                    refused(
                        tally,
                        random,
                        &Stated { problem: lead.problem.clone(), states: states.clone() }.bytes(),
                        20,
                    );
                    refused(
                        tally,
                        random,
                        &Stated { problem: silent.problem.clone(), states: states.clone() }.bytes(),
                        20,
                    );
                    let mut long = wrong.bytes();
                    long.push(0);
                    mend_length(&mut long);
                    refused(tally, random, &long, 5);
                }
            }
        }
        // A record of kind 1 with its kind changed, and one of kind 5 as kind 1: 5.
        let mut other = problem.bytes();
        other[4] = 5;
        refused(tally, random, &other, 5);
        let mut other = Stated { problem: problem.clone(), states: vec![1; m] }.bytes();
        other[4] = 1;
        refused(tally, random, &other, 5);
    }
}

/// The engine and the checker give this refusal; the converter gives kind 5 a 3.
fn refused(tally: &mut Tally, random: &mut Random, record: &[u8], refusal: u64) {
    tally.same("the refusal", paper::read_problem(record), Err(refusal), record, &[]);
    bytes::engine(tally, random, record, BUFFER);
    bytes::engine(tally, random, record, BUFFER - 1);
    bytes::checker(tally, record, &[]);
    if record[4] == 5 {
        let mut buffer = vec![7; record.len()];
        tally.same("the converter", span::raw::convert(record, &mut buffer), 3, record, &[]);
        tally.same("its buffer", buffer, vec![7; record.len()], record, &[]);
    }
    tally.count(&format!("refused {refusal}"));
}

/// All sizes: no rule, all suspended, all in force, some; damaged ones; through the programs.
fn large(tally: &mut Tally, random: &mut Random) {
    for round in 0..3_000 {
        let (n, m) = if round % 8 == 0 { (31, 63) } else { (5, 7) };
        let mut problem: Problem = any(random, n, m);
        problem.rules.retain(|rule| !rule.says_nothing());
        let m = problem.m();
        let states: Vec<u64> = match round % 4 {
            0 => vec![0; m],
            1 => vec![1; m],
            _ => (0..m).map(|_| random.below(2) as u64).collect(),
        };
        let stated = Stated { problem, states };
        let record = stated.bytes();
        let (found, answer) = solved(tally, random, &stated);
        if round % 4 == 1 {
            let (plain, _) = answered(tally, random, &stated.problem);
            tally.same("all in force", plain, found, &record, &[]);
        }
        let mut changed = answer.clone();
        let place = random.below(changed.picks.len());
        changed.picks[place] =
            random.below(m + 2).min(paper::highest_pick(answer.class, stated.problem.n(), m) as usize) as u64;
        judged(tally, &stated, &changed);
        let bad = harmed(random, &record);
        bytes::engine(tally, random, &bad, 8 * BUFFER);
        bytes::checker(tally, &bad, &answer.bytes(stated.problem.n()));
        if round % 40 < 4 {
            programs_on(tally, &stated, &answer);
        }
    }
    let line = Row { left: vec![Some(1); 32], right: vec![None; 32] };
    let states = (0..63).map(|rule| rule % 2).collect();
    let largest = Stated { problem: Problem { rules: vec![line.clone(); 63], question: line }, states };
    tally.same("the largest record of kind 5", largest.bytes().len(), 16_520, &[], &[]);
    let (_, answer) = solved(tally, random, &largest);
    programs_on(tally, &largest, &answer);
}

/// The programs on a record of kind 5.
fn programs_on(tally: &mut Tally, stated: &Stated, answer: &Answer) {
    let (problem, record) = (stated.bytes(), answer.bytes(stated.problem.n()));
    let mut buffer = [0; BUFFER];
    span::raw::solve(&problem, &mut buffer);
    let size = bytes::next_record(&buffer, 0);
    tally.same("the span program", programs::span(&problem), Ok(buffer[..size].to_vec()), &problem, &record);
    let line = match answer.outcome() {
        Outcome::Least(span) => format!("accepted least {span}\n"),
        Outcome::Bottomless => "accepted bottomless\n".into(),
        Outcome::None => "accepted none\n".into(),
    };
    let both = [&problem[..], &record[..]].concat();
    tally.same("the verdict program", programs::verdict(&both), Ok(line.into_bytes()), &problem, &record);
    tally.same("the convert program", programs::convert(&problem), Ok(b"refused 3\n".to_vec()), &problem, &[]);
    reasons::program(tally, &both);
    tally.count("through the programs");
}

/// Merging (document 02, 2.13): a suspended rule is kept by every plan, so that plans which break it are merged, as for the rules in
/// force; with the rule in force they get 25.
fn merged(tally: &mut Tally, random: &mut Random) {
    let mut plans: Vec<Vec<Minute>> = Vec::new();
    every_plan(1, 2, |plan| plans.push(plan.to_vec()));
    let line = |lead: i64| Row { left: vec![Some(lead), None], right: vec![None, Some(0)] };
    let question = Row { left: vec![None, Some(0)], right: vec![Some(0), None] };
    let problem = Problem { rules: vec![line(1), line(-1), line(2)], question };
    for states in every_states(3) {
        let stated = Stated { problem: problem.clone(), states };
        let (bytes, only) = (stated.bytes(), stated.only_in_force().bytes());
        for first in plans.iter().map(|plan| merging::stamps(plan)) {
            for second in plans.iter().map(|plan| merging::stamps(plan)) {
                merging::merge(tally, random, &bytes, [&first, &second], -1, 128);
                merging::merge(tally, random, &only, [&first, &second], -1, 128);
                let said = |bytes: &[u8]| merging::plain(bytes, &first, &second, -1, 128);
                tally.same("merged as for the rules in force", said(&bytes), said(&only), &bytes, &[]);
                if said(&bytes).is_ok() && said(&problem.bytes()) == Err(25) {
                    tally.count("merged where a suspended rule is broken");
                }
            }
        }
        // 20, before all that concerns the plans.
        let mut wrong = bytes.clone();
        wrong[14] = 2;
        let plan = merging::stamps(&plans[0]);
        tally.same("a wrong state", merging::plain(&wrong, &plan, &plan, 1, 127), Err(20), &wrong, &[]);
        merging::merge(tally, random, &wrong, [&plan, &plan], 1, 127);
    }
}

pub fn run(tally: &mut Tally) {
    const SEED: u64 = 5;
    tally.seed(SEED);
    let mut random = Random::new(SEED);
    small(tally, &mut random);
    orders(tally, &mut random);
    large(tally, &mut random);
    merged(tally, &mut random);
    for what in [
        "accepted",
        "not accepted",
        "least",
        "bottomless",
        "none",
        "refused 5",
        "refused 6",
        "refused 17",
        "refused 20",
        "rules behind an answer",
        "through the reasons program",
        "merged where a suspended rule is broken",
    ] {
        seen(tally, what);
    }
}
